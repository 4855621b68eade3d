#!/usr/bin/env bash
# Prints what ten million loads and stores take through a worker's seat and on a plain slice, in one run. With valgrind
# it also counts the instructions of a round (a load and a store), the start taken off.
set -eu
cd "$(dirname "$0")/../crates/words_bench"
rt run > /dev/null < /dev/null
program=out/words_bench
printf 'slice 10000000\nseat 10000000\nslice 10000000\nseat 10000000\n' | "$program"
if command -v valgrind > /dev/null; then
  count() { printf '%s\n' "$1" | valgrind --tool=callgrind --callgrind-out-file=/dev/null "$program" 2>&1 | sed -n 's/.*Collected : //p'; }
  for kind in slice seat; do
    few=$(count "$kind 1000"); many=$(count "$kind 101000")
    echo "$kind: $(((many - few) / 1000)) hundredths of an instruction a round"
  done
fi
