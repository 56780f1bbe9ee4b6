#!/usr/bin/env bash
# Prints how long a compilation takes for each line of its source, in microseconds, for sources of plain C and of spawn
# blocks, each twice as long as the one before it, and for one of 1 MiB that is comments for the most part. Beside it
# stand the times of tcc and of gcc without optimization on C of the same shape, in which a loop stands for each spawn.
# usage: bench/compile.sh [ROUNDS]: the best of so many rounds.
# It needs the toolchain's command rt, with which it builds the program compile_bench, and the compilers tcc and gcc.
# The times of tcc and gcc hold their start and the writing of an object file, of which the row `start` has the time.
set -eu
cd "$(dirname "$0")/.."
rounds=${1:-5}
made=$(mktemp -d)
trap 'rm -rf "$made"' EXIT
for compiler in tcc gcc; do
  command -v "$compiler" > "$made/found" || { echo "no $compiler"; exit 1; }
done
(cd crates/compile_bench && rt run -- loops 1 > "$made/log" 2>&1) || { cat "$made/log"; exit 1; }
bench=crates/compile_bench/out/compile_bench
[ -x "$bench" ] || { echo "no program at $bench"; exit 1; }

# The least number of nanoseconds that a command takes in all rounds.
best_of() {
  local best=0 before after
  for _ in $(seq "$rounds"); do
    before=$(date +%s%N)
    "$@"
    after=$(date +%s%N)
    if [ "$best" -eq 0 ] || [ $((after - before)) -lt "$best" ]; then
      best=$((after - before))
    fi
  done
  echo "$best"
}

# The same program in C: a spawn becomes a loop, and a prefix-sum its three steps.
in_c() {
  "$bench" "$1" "$2" source |
    sed -e 's/spawn(low, high) {/for (int t = low; t <= high; t++) {/' \
      -e 's/psm(e, \(.*\));/{ int o = \1; \1 = o + e; e = o; }/' -e 's/\$/t/g'
}

row() {
  printf '%9s %6s %9s %7s %9s %9s %9s\n' "$@"
}

# Microseconds for a line.
per_line() {
  awk -v nanoseconds="$1" -v lines="$2" 'BEGIN { printf "%.2f", nanoseconds / lines / 1000 }'
}

echo 'int main() { return 0; }' > "$made/start.c"
tcc=$(best_of tcc -c -o "$made/start.o" "$made/start.c")
gcc=$(best_of gcc -w -O0 -c -o "$made/start.o" "$made/start.c")
echo "start, ms: tcc $((tcc / 1000000)), gcc $((gcc / 1000000))"
row kind count bytes lines xmt tcc gcc
for sized in 'loops 200' 'loops 400' 'loops 800' 'spawns 200' 'spawns 400' 'spawns 800' 'comments 800'; do
  read -r kind count <<< "$sized"
  least=0
  bytes=0
  lines=1
  for _ in $(seq "$rounds"); do
    read -r bytes lines taken < <("$bench" "$kind" "$count" time)
    if [ "$least" -eq 0 ] || [ "$taken" -lt "$least" ]; then
      least=$taken
    fi
  done
  in_c "$kind" "$count" > "$made/same.c"
  tcc=$(best_of tcc -c -o "$made/same.o" "$made/same.c")
  gcc=$(best_of gcc -w -O0 -c -o "$made/same.o" "$made/same.c")
  row "$kind" "$count" "$bytes" "$lines" "$(per_line "$least" "$lines")" "$(per_line "$tcc" "$lines")" "$(per_line "$gcc" "$lines")"
done
