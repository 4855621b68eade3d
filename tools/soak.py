#!/usr/bin/env python3
"""Runs one file with a hundred rollbacks under four workers for some minutes, and compares each run's bytes.

    tools/soak.py MINUTES [PROGRAM]       # nice -n 10 tools/soak.py 20
    tools/soak.py --text > soak.nest      # the file; run it with `run` and the words of OPTIONS

Each answer of PROGRAM (./nestrun where it isn't given) is compared with the first one, and with what an
independent implementation answers, of which the length and the SHA-256 stand below. The last line says how
many runs there were, how many rollbacks these had in all, and how many differed; the exit is 1 where some
did. A chunk has 1,024 turns, so its phase has far more than the 256 turns of workers that the caller takes
before threads are started: `strace -f -c -e trace=clone,clone3` on a run counts them.

The file has two nests. The first walks a linked list that is laid out side by side but for some detours,
each of which the chunk around it fails at; the second goes through an index array with some wrong entries.
"""
import hashlib
import random
import subprocess
import sys
import time

NODES, DETOURS = 64_000, 57
ENTRIES, WRONG = 64_000, 57
OPTIONS = ["--workers", "4", "--chunk", "1024"]
LENGTH, SHA256 = 6_253_783, "ab15572d7ed498220dba637338e3ac29e2cdfadfecc098be2c358b5b73d7e5a9"


def places(draw, most, count):
    """So many different places, each in a stripe of its own and none among the first of it."""
    width = most // count
    return [k * width + draw.randrange(100, width) for k in range(count)]


def text():
    draw = random.Random(1)
    table, counts = 4 * NODES, 4 * NODES + ENTRIES
    lines = ["nest 2", "scalar p = 2", f"memory {counts + ENTRIES + 1}", f"ramp 2 {NODES - 1} 2 4 2", f"ramp {table} {ENTRIES} 1 {counts} 1"]
    for j in places(draw, NODES, DETOURS):
        detour = 2 * NODES + 2 * j
        lines.append(f"data {2 * j}: {detour} data {detour}: {2 * j + 4}")
    for j in places(draw, ENTRIES, WRONG):
        lines.append(f"data {table + j}: {counts + ENTRIES}")
    lines.append("while [p] { [p + 1] = [p + 1] + 1 p = [p] }")
    lines.append(f"for i = 0 below {ENTRIES} {{ [[{table} + i]] = [[{table} + i]] + i }}")
    return "\n".join(lines) + "\n"


def answer(program, nest):
    done = subprocess.run(program + ["run"] + OPTIONS, input=nest.encode(), stdout=subprocess.PIPE)
    return done.returncode, done.stdout


def rollbacks(output):
    return sum(line.startswith(b"rollback ") for line in output.splitlines())


def soak(minutes, program):
    nest, end = text(), time.monotonic() + 60 * minutes
    first, runs, differ = None, 0, 0
    while runs == 0 or time.monotonic() < end:
        now = answer(program, nest)
        first = first or now
        runs += 1
        found = len(now[1]), hashlib.sha256(now[1]).hexdigest()
        if now != first or now[0] != 0 or found != (LENGTH, SHA256):
            differ += 1
            print(f"run {runs}: exit {now[0]}, {found[0]} bytes, SHA-256 {found[1]}")
    each = rollbacks(first[1])
    print(f"{runs} runs of {each} rollbacks, {runs * each} in all, {differ} differ")
    return 1 if differ else 0


def main():
    if sys.argv[1] == "--text":
        sys.stdout.write(text())
        return 0
    return soak(float(sys.argv[1]), sys.argv[2].split() if len(sys.argv) > 2 else ["./nestrun"])


if __name__ == "__main__":
    sys.exit(main())
