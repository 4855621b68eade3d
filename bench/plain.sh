#!/usr/bin/env bash
# Prints the steps per second of processor time on four runs of about a million steps: one that adds 1 to
# each word of a memory, one that adds every turn number to one word, a loop inside of a loop, and a walk
# over a linked list. A run is measured five times and the best one counts; what the same file takes with no
# step allowed (start, reading, the first memory, output) is told beside it and taken off.
set -eu
cd "$(dirname "$0")/.."
./nestrun plain < examples/copy.nest > /dev/null
measure() {
  printf '%s' "$2" > /tmp/nestrun-bench.nest
  python3 - "$1" <<'PY'
import resource, subprocess, sys

def run(words):
    before = resource.getrusage(resource.RUSAGE_CHILDREN)
    done = subprocess.run(["crates/nest_main/out/nest_main", "plain"] + words, stdin=open("/tmp/nestrun-bench.nest"), stdout=subprocess.PIPE)
    after = resource.getrusage(resource.RUSAGE_CHILDREN)
    assert done.returncode in (0, 11), done.returncode
    return after.ru_utime - before.ru_utime + after.ru_stime - before.ru_stime, int(done.stdout.split()[-1])

best, steps = min(run([]) for _ in range(5))
idle, _ = min(run(["--steps", "0"]) for _ in range(5))
print(f"{sys.argv[1]}: {steps / (best - idle) / 1e6:.1f} million steps per second ({steps} steps in {best:.3f} s, {idle:.3f} s of them for no step)")
PY
}
measure "each word" "nest 1 memory 999999 for i = 0 below 999999 { [i] = [i] + 1 }"
measure "one word" "nest 1 memory 1 for i = 0 below 999999 { [0] = [0] + i }"
measure "a loop inside of a loop" "nest 1 memory 1000 for i = 0 below 999 { for j = 0 below 999 { [j] = [j] + i } }"
measure "a linked list" "nest 1 scalar p = 2 memory 1000000 ramp 2 333332 3 5 3 while [p] { [p + 1] = [p + 1] + 1 p = [p] }"
