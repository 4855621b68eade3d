#!/usr/bin/env bash
# Fails the first allocations of the program in turn (20, or as many as the first word says), on the run that
# `nest_main` stores: either nothing is written, or the whole answer is.
set -u
cd "$(dirname "$0")/../crates/nest_main"
whole=$(cat stdout)
for number in $(seq 1 "${1:-20}"); do
  written=$(rt try --fail-alloc "$number" -- $(cat args) < stdin 2> /dev/null)
  case "$written" in
    "") echo "allocation $number: nothing written" ;;
    "$whole") echo "allocation $number: the whole answer" ;;
    *) echo "allocation $number: $written"; exit 1 ;;
  esac
done
