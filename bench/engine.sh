#!/usr/bin/env bash
# The loop of the machine, in runs of the program itself:
# - how many instructions a second one unit does, alone and with up to 64 units beside the master;
# - the time of a loop beside the same loop in each interpreter that the machine has, as a ratio in one run;
# - the memory of runs of several lengths, and of loading a long image beside its size.
# usage: bench/engine.sh [ROUNDS]: the best of so many rounds.
# It runs the script ./xmt, which needs the toolchain's command rt where the program isn't built yet.
set -eu
cd "$(dirname "$0")/.."
rounds=${1:-3}
made=$(mktemp -d)
trap 'rm -rf "$made"' EXIT
turns=2000000

# the least time of a command, in nanoseconds
time_of() {
  local best=0 begin took
  for _ in $(seq "$rounds"); do
    begin=$(date +%s%N)
    "$@" > "$made/out" 2> "$made/err" || true
    took=$(($(date +%s%N) - begin))
    if [ "$best" -eq 0 ] || [ "$took" -lt "$best" ]; then best=$took; fi
  done
  echo "$best"
}

# the most memory that a run of an image without an end has held after so many seconds, in KiB
memory_of() {
  ./xmt sim "$2" --units "$3" --seed 0 --budget 1000000000000 &
  local run=$!
  sleep "$1"
  sed -n 's/^VmHWM:[^0-9]*\([0-9]*\) kB/\1/p' "/proc/$run/status"
  kill "$run"
  wait "$run" 2> "$made/err" || true
}

# ---- instructions a second

printf 'int x; main() { while (1) x = x * 3 + 1; }\n' > "$made/serial.xmtc"
printf 'int A[64]; main() { spawn(1, 64) { while (1) A[$ - 1] = A[$ - 1] * 3 + 1; } }\n' > "$made/spawn.xmtc"
./xmt cc "$made/serial.xmtc" --out "$made/serial.img"
./xmt cc "$made/spawn.xmtc" --out "$made/spawn.img"
printf '%-28s %12s %8s %16s\n' run instructions seconds 'a second'
rate() {
  awk -v name="$1" -v steps="$2" -v took="$3" \
    'BEGIN { printf "%-28s %12d %8.2f %16.0f\n", name, steps, took / 1e9, steps / took * 1e9 }'
}
rate 'the master, 1 idle unit' 40000000 "$(time_of ./xmt sim "$made/serial.img" --units 1 --seed 0 --budget 40000000)"
rate 'the master, 64 idle units' 40000000 "$(time_of ./xmt sim "$made/serial.img" --units 64 --seed 0 --budget 40000000)"
for units in 1 4 16 64; do
  steps=$((16000000 / units))
  rate "$units units" "$((steps * units))" "$(time_of ./xmt sim "$made/spawn.img" --units "$units" --seed 0 --budget "$steps")"
done

# ---- beside interpreters

printf 'int s; main() { int i; for (i = 0; i < %d; i++) s = s * 3 + i; printf("%%d\\n", s); }\n' "$turns" > "$made/loop.xmtc"
./xmt cc "$made/loop.xmtc" --out "$made/loop.img"
cat > "$made/loop.py" <<P
s = 0
for i in range($turns):
    s = (s * 3 + i) & 0xffffffff
print(s - (1 << 32) if s >> 31 else s)
P
cat > "$made/loop.pl" <<P
my \$s = 0;
for (my \$i = 0; \$i < $turns; \$i++) { \$s = (\$s * 3 + \$i) & 0xffffffff; }
print \$s >> 31 ? \$s - 4294967296 : \$s, "\n";
P
cat > "$made/loop.lua" <<P
local s = 0
for i = 0, $turns - 1 do s = (s * 3 + i) & 0xffffffff end
print(s >> 31 == 1 and s - 4294967296 or s)
P
ours=$(time_of ./xmt sim "$made/loop.img" --seed 0 --budget 1000000000)
answer=$(cat "$made/out")
printf '\n%-28s %8s %8s\n' 'a loop of 2,000,000 turns' seconds ratio
beside() {
  command -v "$1" > "$made/which" || return 0
  local took
  took=$(time_of "$1" "$2")
  [ "$(cat "$made/out")" = "$answer" ] || { echo "$1 gives another sum" >&2; exit 1; }
  awk -v name="$1" -v took="$took" -v ours="$ours" 'BEGIN { printf "%-28s %8.2f %8.2f\n", name, took / 1e9, ours / took }'
}
awk -v took="$ours" 'BEGIN { printf "%-28s %8.2f %8.2f\n", "xmt sim", took / 1e9, 1 }'
beside lua5.4 "$made/loop.lua"
beside python3 "$made/loop.py"
beside perl "$made/loop.pl"

# ---- memory

{
  printf 'int x; main() { '
  for _ in $(seq 20000); do printf 'x = 1; '; done
  printf 'while (1) x = 1; }\n'
} > "$made/long.xmtc"
./xmt cc "$made/long.xmtc" --out "$made/long.img"
printf '\n%-28s %12s %10s\n' run 'image KiB' 'most KiB'
memory_row() {
  printf '%-28s %12d %10d\n' "$1" "$(($(stat -c %s "$2") / 1024))" "$(memory_of "$3" "$2" "$4")"
}
memory_row 'the master, 1 second' "$made/serial.img" 1 1
memory_row 'the master, 5 seconds' "$made/serial.img" 5 1
memory_row '64 units, 1 second' "$made/spawn.img" 1 64
memory_row '64 units, 5 seconds' "$made/spawn.img" 5 64
memory_row 'a long image, 1 second' "$made/long.img" 1 1
