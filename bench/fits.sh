#!/usr/bin/env bash
# Prints what a profile costs: a million observations of an address over two loops are kept, gathered and fitted, once
# with an early step of each counter and once without one of the outer counter. It needs the program of the crate
# bench (`rt run` in its folder builds it); with valgrind it counts instructions too.
set -eu
cd "$(dirname "$0")/.."
program=crates/bench/out/bench
python3 - "$program" <<'PY'
import resource, subprocess, sys

def seconds():
    before = resource.getrusage(resource.RUSAGE_CHILDREN)
    subprocess.run([sys.argv[1]], input=b"fit 1\nfit 2\n", stdout=subprocess.DEVNULL, check=True)
    after = resource.getrusage(resource.RUSAGE_CHILDREN)
    return after.ru_utime - before.ru_utime + after.ru_stime - before.ru_stime

best = min(seconds() for _ in range(3))
print(f"{best:.2f} s of processor time for two fits of 1,000,000 observations each")
PY
if command -v valgrind > /dev/null; then
  counted=$(printf 'fit 1\nfit 2\n' | valgrind --tool=callgrind --callgrind-out-file=/dev/null "$program" 2>&1 | sed -n 's/.*I *refs: *//p' | tr -d ,)
  echo "$((counted / 2000000)) instructions for each observation"
fi
