#!/usr/bin/env bash
# Prints how long the program reads texts of about 1,048,576 bytes, in processor time: one with the largest
# ramp and values for as many words as fit, one of statements, and one of comments. Each is read in mode
# `check`, which also writes it again, and in mode `plain` with no step allowed; the best of five counts.
set -eu
cd "$(dirname "$0")/.."
./nestrun plain < examples/copy.nest > /dev/null
python3 - <<'PY'
import resource, subprocess

MOST = 1_048_576

def fill(front, piece, back):
    return front + piece * ((MOST - len(front) - len(back)) // len(piece)) + back

TEXTS = {
    "values": fill("nest 1 memory 1048576 ramp 0 1048576 1 -5 3 data 0: 1", ", 22", " for i = 0 below 1 { [i] = 1 }"),
    "statements": fill("nest 1 scalar s = 0 memory 4 for i = 0 below 1 { ", "s = s + i * 2 ", "}"),
    "comments": fill("nest 1 memory 4 ", "# nothing\n", "for i = 0 below 1 { [i] = 1 }"),
}

def run(words, text):
    before = resource.getrusage(resource.RUSAGE_CHILDREN)
    done = subprocess.run(["crates/nest_main/out/nest_main"] + words, input=text.encode(), stdout=subprocess.PIPE)
    after = resource.getrusage(resource.RUSAGE_CHILDREN)
    assert done.returncode in (0, 11), done.stdout[:100]
    return after.ru_utime - before.ru_utime + after.ru_stime - before.ru_stime

for name, text in TEXTS.items():
    best = [min(run(words, text) for _ in range(5)) for words in (["check"], ["plain", "--steps", "0"])]
    print(f"{name}: {len(text)} bytes, check {best[0]:.3f} s, plain without a step {best[1]:.3f} s")
PY
