#!/usr/bin/env bash
# Prints what a step of the machine costs, in nanoseconds: in runs of several lengths, with much memory, with much
# code, and with more units. The time of a run that starts no thread is taken off.
# usage: bench/machine.sh [ROUNDS]: the best of so many rounds.
# It runs the script ./xmt, which needs the toolchain's command rt where the program isn't built yet.
set -eu
cd "$(dirname "$0")/.."
rounds=${1:-3}
made=$(mktemp -d)
trap 'rm -rf "$made"' EXIT
steps_per_thread=4

# a source with some words of memory and some statements in front of a spawn of so many threads
source_of() {
  printf 'int A[%d]; int x; main() { ' "$1"
  for _ in $(seq "$2"); do printf 'x = 1; '; done
  printf 'spawn(1, %d) { x = $; } }\n' "$3"
}

# the least time of a run, in nanoseconds
time_of() {
  local best=0 begin took
  for _ in $(seq "$rounds"); do
    begin=$(date +%s%N)
    ./xmt run "$1" --units "$2" --seed 0 --budget 1000000000
    took=$(($(date +%s%N) - begin))
    if [ "$best" -eq 0 ] || [ "$took" -lt "$best" ]; then best=$took; fi
  done
  echo "$best"
}

row() {
  source_of "$2" "$3" 0 > "$made/none.xmtc"
  source_of "$2" "$3" "$4" > "$made/some.xmtc"
  local none some
  none=$(time_of "$made/none.xmtc" "$5")
  some=$(time_of "$made/some.xmtc" "$5")
  awk -v name="$1" -v units="$5" -v steps=$(($4 * steps_per_thread)) -v took=$((some - none)) \
    'BEGIN { printf "%-24s %6d %12d %8.2f %10.1f\n", name, units, steps, took / 1e9, took / steps }'
}

printf '%-24s %6s %12s %8s %10s\n' run units steps seconds 'ns a step'
row 'short' 1 0 1000000 1
row 'longer' 1 0 5000000 1
row 'long' 1 0 25000000 1
row '1,048,575 words' 1048575 0 1000000 1
row '10,000 statements' 1 10000 1000000 1
for units in 2 4 16 64; do
  row "$units units" 1 0 250000 "$units"
done
