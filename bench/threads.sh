#!/usr/bin/env bash
# Times sections whose control units are on host threads, in seconds of the clock.
# usage: bench/threads.sh [ROUNDS]: the best of so many rounds, usually 3.
# The first table has a section of 64 threads that go round a loop, with its thread's steps as bench/machine.c counts them: on threads with 1, 2 and 4
# units, under a seed with one unit, and the same loop in C on threads of OpenMP, where it goes round often enough to be timed. The second
# one has sections that do nothing, one behind another, beside OpenMP's team of threads, which stays, and beside threads in C that are
# made for each section, as xmt makes them.
# The third one has sections of 8 threads with a few turns of that loop, one behind another: from how many steps a section several units pay.
# XMT names the program; usually it is the script ./xmt, which needs the toolchain's command rt where the program isn't built yet.
set -u
cd "$(dirname "$0")/.." || exit 1
rounds=${1:-3}
xmt=${XMT:-./xmt}
budget=1000000000
turns=30000
turns_in_c=30000000
room=$(mktemp -d) && trap 'rm -rf "$room"' EXIT
gcc -O2 -fopenmp -o "$room/threads" bench/threads.c || exit 1
gcc -O2 -o "$room/machine" bench/machine.c || exit 1

# The section, whose threads go round the loop so many times.
section_of() {
  echo "int A[64]; main() { spawn(0, 63) { int i; int s = \$; for (i = 0; i < $1; i++) s = s * 31 + (i ^ 7); A[\$] = s; } printf(\"%d %d\\n\", A[0], A[63]); }"
}

# So many sections of 8 threads, whose threads go round the loop so many times.
short_of() {
  echo "int A[8]; main() { int k; for (k = 0; k < $1; k++) spawn(0, 7) { int i; int s = \$; for (i = 0; i < $2; i++) s = s * 31 + (i ^ 7); A[\$] = s; } }"
}

# So many sections that do nothing.
empty_of() {
  echo "main() { int i; for (i = 0; i < $1; i++) spawn(1, 0) { } }"
}

image() { # of the source in the standard input
  cat >"$room/$1.xmtc" && "$xmt" cc "$room/$1.xmtc" --out "$room/$1.img"
}

# The least number that a command prints on its error stream.
least() {
  local best= now k
  for ((k = 0; k < rounds; k++)); do
    now=$("$@" 2>&1 >/dev/null) || exit 1
    if [ -z "$best" ] || [ "$(echo "$now < $best" | bc)" = 1 ]; then best=$now; fi
  done
  echo "$best"
}

clocked() {
  local TIMEFORMAT=%R
  time "$@" 2>&1
}

run() { # seconds of a run of an image
  least clocked "$xmt" sim "$room/$1.img" --budget "$budget" "${@:2}"
}

ratio() {
  echo "scale=2; $1 / $2" | bc
}

row() { # a run of the first table, and the seconds with one unit beside it
  printf '| %s | %s | %s | %s |\n' "$1" "$2" "$3" "$(ratio "$4" "$3")"
}

section_of "$turns" | image section || exit 1
"$room/threads" section 4 "$turns" >"$room/wanted" 2>/dev/null
for units in 1 2 4; do
  "$xmt" sim "$room/section.img" --units "$units" --budget "$budget" | cmp -s - "$room/wanted" || { echo "with $units units the section differs from C" >&2; exit 1; }
done
steps=$(TURNS=1 "$room/machine" "$room/section.img" 1 "$budget" 2>&1 >/dev/null)
echo "64 threads of $((steps / 64)) steps; in C $((turns_in_c / turns)) times as many turns of the loop"
echo
echo '| Run | Threads | Seconds | One thread beside it |'
echo '|---|---|---|---|'
one=$(run section --units 1)
row 'on threads' 1 "$one" "$one"
for units in 2 4; do row 'on threads' "$units" "$(run section --units "$units")" "$one"; done
row 'with a seed' 1 "$(run section --units 1 --seed 1)" "$one"
one=$(least "$room/threads" section 1 "$turns_in_c")
row 'C, OpenMP' 1 "$one" "$one"
for threads in 2 4; do row 'C, OpenMP' "$threads" "$(least "$room/threads" section "$threads" "$turns_in_c")" "$one"; done

echo
echo '| Units | Sections | Microseconds a section | With a seed | C, a team that stays | C, new threads |'
echo '|---|---|---|---|---|---|'
empty_of 0 | image none || exit 1
for units in 1 4 64; do
  sections=$((units == 64 ? 1000 : 10000))
  empty_of "$sections" | image empty || exit 1
  took=()
  for seed in '' '--seed 1'; do
    none=$(run none --units "$units" $seed)
    some=$(run empty --units "$units" $seed)
    took+=("$(echo "scale=2; ($some - $none) * 1000000 / $sections" | bc)")
  done
  printf '| %s | %s | %s | %s | %s | %s |\n' "$units" "$sections" "${took[@]}" "$("$room/threads" team "$units" "$sections")" "$("$room/threads" new "$units" "$sections")"
done

echo
echo '| Steps a section | 1 unit, microseconds a section | 2 units | 4 units |'
echo '|---|---|---|---|'
sections=2000
for turns in 1 10 20 30 40 80; do
  short_of 1 "$turns" | image one || exit 1
  short_of "$sections" "$turns" | image short || exit 1
  printf '| %s' "$(TURNS=1 "$room/machine" "$room/one.img" 1 "$budget" 2>&1 >/dev/null)"
  for units in 1 2 4; do printf ' | %s' "$(echo "scale=2; $(run short --units "$units") * 1000000 / $sections" | bc)"; done
  echo ' |'
done
