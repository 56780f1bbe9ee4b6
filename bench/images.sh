#!/usr/bin/env bash
# Prints how long it takes to admit, encode and load an image, in milliseconds, for images of 1, 15 and 60 MiB.
# usage: bench/images.sh [ROUNDS]: the best of so many rounds.
# It needs the toolchain's command rt, with which it builds the program image_bench.
set -eu
cd "$(dirname "$0")/.."
rounds=${1:-5}
made=$(mktemp -d)
trap 'rm -rf "$made"' EXIT
(cd crates/image_bench && rt run -- 1 16 > "$made/log" 2>&1) || { cat "$made/log"; exit 1; }
bench=crates/image_bench/out/image_bench
[ -x "$bench" ] || { echo "no program at $bench"; exit 1; }

printf '%8s %10s %10s %10s\n' MiB 'admit, ms' 'encode, ms' 'load, ms'
for mib in 1 15 60; do
  instructions=$((mib * 4194304 / 60))
  bytes=$((mib * 1048576 - instructions * 12 - 84))
  for _ in $(seq "$rounds"); do
    "$bench" "$instructions" "$bytes" time
  done | awk -v mib="$mib" '
    { for (k = 1; k <= 3; k++) if (NR == 1 || $k < best[k]) best[k] = $k }
    END { printf "%8d %10.1f %10.1f %10.1f\n", mib, best[1] / 1e6, best[2] / 1e6, best[3] / 1e6 }'
done
