#!/usr/bin/env bash
# Prints what plans cost, in processor time: of a chunk of 1,024 turns of a copy and of 12 turns of a five-point sweep, each
# in tiles, and for each of 65,536 instances; and what the walks over the tiles of these cost for each instance. It needs
# the program of the crate plans_shown (`rt run` in its folder builds it); with valgrind it counts instructions too.
set -eu
cd "$(dirname "$0")/.."
python3 - crates/plans_shown/out/plans_shown <<'PY'
import resource, re, shutil, subprocess, sys

COPY = "nest 1 memory 4096 for i = 0 below 2048 { [2048 + i] = [i] + 1 }"
SWEEP = ("nest 1 memory 324 ramp 0 324 1 5 0 for i = 1 below 17 { for j = 1 below 17 { [18 * i + j] = "
         "([18 * i + j - 18] + [18 * i + j - 1] + [18 * i + j] + [18 * i + j + 1] + [18 * i + j + 18]) / 5 } } "
         "candidate { tile 1 4; tile 2 4; wave 1 2 }")
LONG = "nest 1 memory 40 for i = 0 below 36 { for j = 0 below 2047 { [i] = [i] + 1 } }"

def seconds(line):
    before = resource.getrusage(resource.RUSAGE_CHILDREN)
    subprocess.run([sys.argv[1]], input=line.encode(), stdout=subprocess.DEVNULL, check=True)
    after = resource.getrusage(resource.RUSAGE_CHILDREN)
    return after.ru_utime - before.ru_utime + after.ru_stime - before.ru_stime

def instructions(line):
    run = subprocess.run(["valgrind", "--tool=callgrind", "--callgrind-out-file=/dev/null", sys.argv[1]],
                         input=line.encode(), capture_output=True, check=True)
    return int(re.search(rb"refs:\s*([\d,]+)", run.stderr)[1].replace(b",", b""))

def each(cost, word, turns, times, text):
    def best(n, tries):
        return min(cost(f"{word} 4 {turns} {n}: {text}\n") for _ in range(tries))
    tries = 5 if cost is seconds else 1
    return (best(1 + times, tries) - best(1, tries)) / times

for name, word, turns, times, text, parts in (
        ("a plan of 1,024 turns of a copy", "plan", 1024, 500, COPY, 1),
        ("a plan of 12 turns of a sweep", "plan", 12, 500, SWEEP, 1),
        ("a plan of 65,536 instances, for each", "plan", 32, 20, LONG, 65536),
        ("a walk over 65,536 instances, for each", "walk", 32, 50, LONG, 65536),
        ("a walk over 204 instances of a sweep, for each", "walk", 12, 5000, SWEEP, 204)):
    text_of_cost = f"{each(seconds, word, turns, times, text) / parts * 1e6:.3f} microseconds of processor time"
    if shutil.which("valgrind"):
        text_of_cost += f", {each(instructions, word, turns, 3, text) / parts:.0f} instructions"
    print(f"{name}: {text_of_cost}")
PY
