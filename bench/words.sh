#!/usr/bin/env bash
# Prints what each call of the shared words costs beside the bare atomic operations of the same kind in C, in
# nanoseconds a call on each thread and as a ratio, for 1, 2 and 4 threads that work on one word.
# usage: bench/words.sh [COUNT [ROUNDS]]: so many calls on each thread, and the best of so many rounds.
# It needs a C compiler (CC, or cc) and the toolchain's command rt, with which it builds the program words_bench.
set -eu
cd "$(dirname "$0")/.."
count=${1:-1000000}
rounds=${2:-15}
made=$(mktemp -d)
trap 'rm -rf "$made"' EXIT
"${CC:-cc}" -O2 -pthread -o "$made/bare" bench/bare.c
(cd crates/words_bench && rt run -- add 1 1 > "$made/log" 2>&1) || { cat "$made/log"; exit 1; }
words=crates/words_bench/out/words_bench
[ -x "$words" ] || { echo "no program at $words"; exit 1; }

least() { if [ "$1" -eq 0 ] || [ "$2" -lt "$1" ]; then echo "$2"; else echo "$1"; fi; }

printf '%-12s %7s %10s %10s %7s\n' call threads 'bare, ns' 'words, ns' ratio
for call in load store add enrol split+merge draw ps psm read write raise halted; do
  for threads in 1 2 4; do
    bare=0
    proved=0
    for _ in $(seq "$rounds"); do
      bare=$(least "$bare" "$("$made/bare" "$call" "$count" "$threads")")
      proved=$(least "$proved" "$("$words" "$call" "$count" "$threads" time)")
    done
    awk -v call="$call" -v threads="$threads" -v bare="$bare" -v proved="$proved" -v count="$count" \
      'BEGIN { printf "%-12s %7d %10.2f %10.2f %7.2f\n", call, threads, bare / count, proved / count, proved / bare }'
  done
done
