#!/usr/bin/env bash
# Prints what an instance costs a worker over its seat, in instructions (by valgrind's callgrind), beside what
# `follow_instance` takes for the same instance over a plain memory, and what a phase of four workers with empty tiles
# takes, in microseconds of time and of processor time: by the crew as it is, which finds nothing left to start a thread
# for, and by one that starts a thread for each. It needs the programs of the crates turns_bench and follow_bench (`rt run`
# in their folders builds them).
set -eu
cd "$(dirname "$0")/.."
program=crates/turns_bench/out/turns_bench
follow=crates/follow_bench/out/follow_bench
TIMEFORMAT='%R %U %S'
spent() { { time printf '%s\n' "$1" | "$program" > /dev/null; } 2>&1; }
for kind in phase threads; do
  few=$(spent "$kind 1000")
  many=$(spent "$kind 6000")
  echo "$kind $few $many" | awk '{ printf "%s: %.1f microseconds, of processor time %.1f\n", $1, ($5 - $2) * 200, ($6 + $7 - $3 - $4) * 200 }'
done
if command -v valgrind > /dev/null; then
  count() { printf '%s\n' "$2" | valgrind --tool=callgrind --callgrind-out-file=/dev/null "$1" 2>&1 | sed -n 's/.*Collected : //p'; }
  each() { echo $((($(count "$1" "$2 11000") - $(count "$1" "$2 1000")) / 10000)); }
  worker=$(each "$program" worker)
  memory=$(each "$follow" instance)
  awk -v worker="$worker" -v memory="$memory" \
    'BEGIN { printf "worker: %d instructions an instance, %d over a plain memory, %.2f times\n", worker, memory, worker / memory }'
fi
