#!/usr/bin/env bash
# Prints what following instances costs beside running them plainly, in instructions a step (by valgrind's callgrind):
# first a block of one store, run alone by the block interpreter, by `follow_instance`, and by `follow_list` in lists of
# eight; then chunks of eight turns of some nests, run by the plain interpreter and by `follow_list`, and how many times
# the one is of the other. Callgrind counts each byte that is set to 0 as one instruction. It needs the program of the
# crate follow_bench (`rt run` in its folder builds it).
set -eu
cd "$(dirname "$0")/.."
program=crates/follow_bench/out/follow_bench
count() { printf '%s\n' "$1" | valgrind --tool=callgrind --callgrind-out-file=/dev/null "$program" 2>&1 | sed -n 's/.*Collected : //p'; }
each() { # the instructions of 10,000 further times of line $1 (behind it $2), by so many steps each ($3)
  local few many
  few=$(count "$1 1000$2")
  many=$(count "$1 11000$2")
  echo $(((many - few) / 10000 / $3))
}
echo "a block of one store: $(each plain "" 1) plainly, $(each instance "" 1) by itself, $(each list "" 8) in a list"
measure() { # of a nest ($2)
  local steps plainly followed
  steps=$(printf 'chunk 1: %s\n' "$2" | "$program")
  plainly=$(each turns ": $2" "$steps")
  followed=$(each chunk ": $2" "$steps")
  awk -v name="$1" -v plainly="$plainly" -v followed="$followed" -v steps="$steps" \
    'BEGIN { printf "%s: %d plainly, %d followed, %.2f times (%d steps a chunk)\n", name, plainly, followed, followed / plainly, steps }'
}
measure "turns of one store" "nest 1 memory 40 for i = 0 below 40 { [i] = 1 }"
measure "turns of one load and one store" "nest 1 memory 80 for i = 0 below 40 { [40 + i] = [i] + 1 }"
measure "turns with two scalars" "nest 1 scalar s = 0 scalar t = 5 memory 40 for i = 0 below 40 { [i] = 1 s = s + 2 t = t + 1 }"
measure "turns of three statements with loads" "nest 1 memory 90 for i = 0 below 20 { [i] = [20 + i] + 1 [40 + i] = [20 + i] * 2 [60 + i] = [20 + i] + [21 + i] + [22 + i] }"
measure "a linked list" "nest 1 scalar p = 2 memory 100 ramp 2 40 2 4 2 while [p] { [p + 1] = [p + 1] + 1 p = [p] }"
measure "an inner for" "nest 1 memory 200 for i = 0 below 20 { for j = 0 below 8 { [8 * i + j] = j } }"
measure "an inner for of five loads" "nest 1 memory 200 for i = 1 below 15 { for j = 1 below 9 { [10 * i + j] = ([10 * i + j] + [10 * i + j - 1] + [10 * i + j + 1] + [10 * i + j - 10] + [10 * i + j + 10]) / 5 } }"
measure "an inner while" "nest 1 scalar k = 8 memory 200 for i = 0 below 20 { k = 0 while k < 8 { [8 * i + k] = k k = k + 1 } }"
