#!/usr/bin/env bash
# Runs each example with 1, 2 and 4 control units, and compares what it prints with its .out file.
# usage: examples/check.sh
# It runs the script ./xmt, which needs the toolchain's command rt where the program isn't built yet.
set -u
cd "$(dirname "$0")/.." || exit 1
failed=0
for source in examples/*.xmtc; do
  for units in 1 2 4; do
    if ./xmt run "$source" --units "$units" | cmp -s - "${source%.xmtc}.out"; then
      echo "$source with $units: as expected"
    else
      echo "$source with $units: something else"
      failed=1
    fi
  done
done
exit "$failed"
