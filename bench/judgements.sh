#!/usr/bin/env bash
# Prints how long the judgement of the five standard candidates takes, in processor time, for nests of two and of four
# loops with ten accesses: nine loads about the word that is stored, and five stores and five loads of ten arrays, which
# never meet, so that every trial is judged. It needs the program of the crate schedule_verdicts (`rt run` in its folder
# builds it); with valgrind it counts instructions too. What the program takes for no line is taken off.
set -eu
cd "$(dirname "$0")/.."
python3 - crates/schedule_verdicts/out/schedule_verdicts <<'PY'
import resource, shutil, subprocess, sys

PROGRAM = sys.argv[1]

def form(numbers):
    return " ".join(str(number) for number in numbers)

def text(depth):
    """A file with a nest of so many loops and no candidates."""
    heads = " ".join(f"for {name} = 0 below 16 {{" for name in "ijkl"[:depth])
    return f"nest 1 memory 4 {heads} [0] = 1 {'}' * depth}"

def line(depth, accesses):
    """The judgement of a nest of so many loops of 16 turns with these accesses: whether each stores, and its constant."""
    trips = ["trip " + form([0] * depth + [16]) for _ in range(depth - 1)]
    weights = [20 ** (depth - 1 - place) for place in range(depth)]
    items = [f"{'store' if stores else 'load'} 0 0 {form(weights + [cst])}" for stores, cst in accesses]
    return f"judge 32; {'; '.join(trips + items)}: {text(depth)}\n"

def stencil(depth):
    """Nine loads about the word that is stored, in the two outermost loops."""
    steps = [20 ** (depth - 1), 20 ** (depth - 2)]
    near = [a * steps[0] + b * steps[1] for a in (-1, 0, 1) for b in (-1, 0, 1)]
    return [(False, 10_000 + cst) for cst in near] + [(True, 10_000)]

def apart(depth):
    """Five stores and five loads of ten arrays."""
    return [(number < 5, number * 20 ** (depth + 1)) for number in range(10)]

def seconds(given):
    def once():
        before = resource.getrusage(resource.RUSAGE_CHILDREN)
        done = subprocess.run([PROGRAM], input=given, stdout=subprocess.PIPE, text=True, check=True)
        after = resource.getrusage(resource.RUSAGE_CHILDREN)
        return after.ru_utime - before.ru_utime + after.ru_stime - before.ru_stime, done.stdout
    return min(once() for _ in range(3))

def instructions(given):
    done = subprocess.run(["valgrind", "--tool=callgrind", "--callgrind-out-file=/dev/null", PROGRAM], input=given, capture_output=True, text=True, check=True)
    return int(next(line for line in done.stderr.splitlines() if "refs:" in line).split(":")[1].replace(",", ""))

idle, _ = seconds("")
for depth in (2, 4):
    for name, accesses in (("a stencil", stencil(depth)), ("ten arrays", apart(depth))):
        given = line(depth, accesses)
        spent, answer = seconds(given)
        counted = f", {(instructions(given) - instructions('')) / 1e6:.0f} million instructions" if shutil.which("valgrind") else ""
        verdicts = [words.split()[0] for words in answer.splitlines()[1:]]
        print(f"{depth} loops, {name}: {(spent - idle) * 1e3:.1f} ms{counted} ({verdicts.count('legal')} of {len(verdicts)} legal)")
PY
