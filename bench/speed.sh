#!/usr/bin/env bash
# Times xmt sim beside the plain C machine of bench/machine.c, on the same images, and compares what they print.
# usage: bench/speed.sh [ROUNDS]
# Prints a row for each run: the turns, the user seconds of both (the best of ROUNDS, usually 3), and the ratio of C to xmt sim.
set -u
cd "$(dirname "$0")/.." || exit 1
rounds=${1:-3}
room=$(mktemp -d) && trap 'rm -rf "$room"' EXIT
gcc -O2 -o "$room/machine" bench/machine.c || exit 1

cat >"$room/loop.xmtc" <<'SOURCE'
int A[1];
main() {
  int i; int s = 1;
  for (i = 0; i < 1500000; i++) { s = s * 31 + (i ^ 7); if (s % 3 == 0) s += 5; }
  A[0] = s;
  printf("%d\n", s);
}
SOURCE
cat >"$room/array.xmtc" <<'SOURCE'
int A[64];
main() {
  int i;
  for (i = 0; i < 1000000; i++) A[i & 63] = A[(i + 7) & 63] + i;
  printf("%d\n", A[5]);
}
SOURCE
cat >"$room/threads.xmtc" <<'SOURCE'
int A[64];
main() {
  spawn(0, 63) { int i; int s = $; for (i = 0; i < 10000; i++) { s = s * 31 + (i ^ 7); } A[$] = s; }
  printf("%d %d\n", A[0], A[63]);
}
SOURCE

best() { # the least user time of a command, in seconds
  local least= now k
  for ((k = 0; k < rounds; k++)); do
    now=$( { TIMEFORMAT=%U; time "$@" >/dev/null 2>&1; } 2>&1)
    if [ -z "$least" ] || [ "$(echo "$now < $least" | bc)" = 1 ]; then least=$now; fi
  done
  echo "$least"
}

echo "| Run | Units | Turns | C, seconds | \`xmt sim\`, seconds | Ratio |"
echo "|---|---|---|---|---|---|"
for run in "loop 1" "array 1" "threads 1" "threads 4" "threads 64"; do
  read -r name units <<<"$run"
  image=$room/$name.img
  ./xmt cc "$room/$name.xmtc" --out "$image" || exit 1
  cmp -s <(./xmt sim "$image" --units "$units" --seed 0 --budget 1000000000) <("$room/machine" "$image" "$units" 1000000000) || { echo "$name with $units units: the two machines differ" >&2; exit 1; }
  turns=$(TURNS=1 "$room/machine" "$image" "$units" 1000000000 2>&1 >/dev/null)
  plain=$(best "$room/machine" "$image" "$units" 1000000000)
  ours=$(best ./xmt sim "$image" --units "$units" --seed 0 --budget 1000000000)
  echo "| $name | $units | $turns | $plain | $ours | $(echo "scale=2; $plain / $ours" | bc) |"
done
