#!/usr/bin/env bash
# Prints what `launch` costs for each instance that it checks, with two accesses in each: in chunks of 65,536 instances,
# and in chunks of 32. It needs the program of the crate bench (`rt run` in its folder builds it); with valgrind it
# counts instructions too.
set -eu
cd "$(dirname "$0")/.."
program=crates/bench/out/bench
python3 - "$program" <<'PY'
import resource, subprocess, sys

def seconds(words):
    before = resource.getrusage(resource.RUSAGE_CHILDREN)
    subprocess.run([sys.argv[1]], input=words, stdout=subprocess.DEVNULL, check=True)
    after = resource.getrusage(resource.RUSAGE_CHILDREN)
    return after.ru_utime - before.ru_utime + after.ru_stime - before.ru_stime

for name, words, instances in (("65,536", b"launch 2047 32 100\n", 6553600), ("32", b"launch 31 1 65000\n", 2080000)):
    best = min(seconds(words) for _ in range(5))
    print(f"{best / instances * 1e9:.0f} ns of processor time for each instance of chunks of {name}")
PY
if command -v valgrind > /dev/null; then
  count() { printf '%s\n' "$1" | valgrind --tool=callgrind --callgrind-out-file=/dev/null "$program" 2>&1 | sed -n 's/.*I *refs: *//p' | tr -d ,; }
  few=$(count "launch 2047 32 1"); many=$(count "launch 2047 32 3")
  echo "$(((many - few) / 131072)) instructions for each instance of chunks of 65,536"
fi
