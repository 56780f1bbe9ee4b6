#!/usr/bin/env bash
# Prints how long the tokens and the tree of a source take, in milliseconds, for sources of up to 1 MiB, each twice as
# long as the one before it, and how much longer than that one it takes.
# usage: bench/grammar.sh [ROUNDS]: the best of so many rounds.
# It needs the toolchain's command rt, with which it builds the program grammar_bench.
set -eu
cd "$(dirname "$0")/.."
rounds=${1:-5}
made=$(mktemp -d)
trap 'rm -rf "$made"' EXIT
(cd crates/grammar_bench && rt run -- 1 > "$made/log" 2>&1) || { cat "$made/log"; exit 1; }
grammar=crates/grammar_bench/out/grammar_bench
[ -x "$grammar" ] || { echo "no program at $grammar"; exit 1; }

printf '%9s %9s %11s %11s %7s\n' functions bytes 'tokens, ms' 'tree, ms' ratio
before=0
for functions in 200 400 800 1600 3196; do
  bytes=0
  tokens=0
  both=0
  for _ in $(seq "$rounds"); do
    read -r bytes t b < <("$grammar" "$functions" time)
    if [ "$both" -eq 0 ] || [ "$b" -lt "$both" ]; then
      tokens=$t
      both=$b
    fi
  done
  awk -v functions="$functions" -v bytes="$bytes" -v tokens="$tokens" -v both="$both" -v before="$before" \
    'BEGIN { printf "%9d %9d %11.1f %11.1f %7s\n", functions, bytes, tokens / 1e6, (both - tokens) / 1e6, before ? sprintf("%.2f", both / before) : "-" }'
  before=$both
done
