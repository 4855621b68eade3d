#!/usr/bin/env bash
# Prints what placing a point costs: the places, the tiles and the phase keys of 1,002,001 points over two loops, by
# `skew 2 1 1; tile 1 4; tile 2 4`. It needs the program of the crate bench (`rt run` in its folder builds it);
# with valgrind it counts instructions too.
set -eu
cd "$(dirname "$0")/.."
program=crates/bench/out/bench
python3 - "$program" <<'PY'
import resource, subprocess, sys

def seconds():
    before = resource.getrusage(resource.RUSAGE_CHILDREN)
    subprocess.run([sys.argv[1]], input=b"schedule\n", stdout=subprocess.DEVNULL, check=True)
    after = resource.getrusage(resource.RUSAGE_CHILDREN)
    return after.ru_utime - before.ru_utime + after.ru_stime - before.ru_stime

best = min(seconds() for _ in range(7))
print(f"{best / 3006003 * 1e9:.1f} ns of processor time for each of 3,006,003 calls")
PY
if command -v valgrind > /dev/null; then
  counted=$(echo schedule | valgrind --tool=callgrind --callgrind-out-file=/dev/null "$program" 2>&1 | sed -n 's/.*I *refs: *//p' | tr -d ,)
  echo "$((counted / 3006003)) instructions for each call"
fi
