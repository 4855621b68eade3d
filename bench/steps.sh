#!/usr/bin/env bash
# Prints the instructions a step (by valgrind's callgrind, user code and library alike) of four loops: one that
# stores every turn number, one that adds 1 to each word of a memory, a five-point sweep over a square, and a walk
# over a linked list. What the same file takes with no step allowed (start, reading, the first memory, output) is
# taken off. Takes half a minute.
set -eu
cd "$(dirname "$0")/.."
./nestrun plain < examples/copy.nest > /dev/null
folder=$(mktemp -d)
trap 'rm -r "$folder"' EXIT
count() {
  valgrind --tool=callgrind --callgrind-out-file=/dev/null crates/nest_main/out/nest_main plain "$@" \
    < "$folder/nest" > "$folder/answer" 2> "$folder/count" || [ $? = 11 ]
  awk '/Collected/ { print $NF }' "$folder/count"
}
measure() {
  printf '%s' "$2" > "$folder/nest"
  idle=$(count --steps 0)
  all=$(count)
  steps=$(awk '{ last = $NF } END { print last }' "$folder/answer")
  echo "$1: $(((all - idle) / steps)) instructions a step ($steps steps)"
}
measure "each turn number stored" "nest 1 memory 300 for i = 0 below 1000000 { [3] = i }"
measure "each word and 1" "nest 1 memory 200000 for i = 0 below 100000 { [100000 + i] = [i] + 1 }"
measure "a five-point sweep" "nest 1 memory 90000 for i = 1 below 299 { for j = 1 below 299 { [300 * i + j] = ([300 * i + j] + [300 * i + j - 1] + [300 * i + j + 1] + [300 * i + j - 300] + [300 * i + j + 300]) / 5 } }"
measure "a linked list" "nest 1 scalar p = 2 memory 300000 ramp 2 99000 3 5 3 while [p] { [p + 1] = [p + 1] + 1 p = [p] }"
