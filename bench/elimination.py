#!/usr/bin/env python3
"""Times elimination: rows and variables against seconds.

    bench/elimination.py PROGRAM [ARGUMENT ..]

PROGRAM is `row_verdicts`, which answers a system on each line of its input. For each case one line is written: the
variables, the rows given, the verdicts and the mean time of a system, without the time that the program takes to start.
"""

import random
import subprocess
import sys
import time


def boxes(rng, variables, rows):
    """A box round 0 in each variable, and further sparse rows that 0 meets."""
    system = []
    for place in range(variables):
        for sign in (1, -1):
            unit = [0] * variables
            unit[place] = sign
            system.append(unit + [rng.randint(1, 40)])
    while len(system) < rows:
        coef = [0] * variables
        for place in rng.sample(range(variables), min(2, variables)):
            coef[place] = rng.choice((-2, -1, 1, 2))
        system.append(coef + [rng.randint(0, 60)])
    return system[:rows]


def dense(rng, variables, rows):
    """Rows with every coefficient, that 0 meets: these grow until they are too many or too wide."""
    return [[rng.randint(-9, 9) for _ in range(variables)] + [rng.randint(0, 99)] for _ in range(rows)]


def nest(rng, depth, length):
    """Two instances of a nest of this depth that touch one address: 1 + 2 * depth variables."""
    variables = 1 + 2 * depth
    system = [[1] + [0] * (2 * depth) + [0]]
    for half in range(2):
        for place in range(depth):
            unit = [0] * variables
            unit[1 + half * depth + place] = 1
            opposite = [-c for c in unit]
            if place == 0:
                unit[0], opposite[0] = -1, 1
            system.append(unit + [0])
            system.append(opposite + [length - 1])
    weights = [20 ** (depth - 1 - place) for place in range(depth)]
    same = [0] + weights + [-w for w in weights]
    system.append(same + [1])
    system.append([-c for c in same] + [-1])
    system.append([0, -1] + [0] * (depth - 1) + [1] + [0] * (depth - 1) + [-1])
    return system


CASES = (
    [("nest", nest, (depth, 32)) for depth in range(1, 7)]
    + [("box", boxes, (variables, rows)) for variables, rows in
       ((2, 8), (4, 16), (4, 32), (6, 24), (8, 32), (8, 64), (12, 48), (16, 48), (16, 64), (16, 128), (16, 512))]
    + [("dense", dense, (variables, rows)) for variables, rows in
       ((2, 64), (2, 512), (3, 32), (4, 16), (4, 32), (8, 16), (8, 32), (16, 16), (16, 32), (16, 512))]
)


def seconds(program, lines):
    start = time.monotonic()
    run = subprocess.run(program, input=lines, stdout=subprocess.PIPE, text=True, check=True)
    return time.monotonic() - start, run.stdout.split("\n")


def main():
    if len(sys.argv) < 2:
        sys.exit(__doc__)
    program = sys.argv[1:]
    start = min(seconds(program, "0\n")[0] for _ in range(5))
    print("%-6s %9s %5s %9s  %s" % ("kind", "variables", "rows", "seconds", "verdicts"))
    for name, make, size in CASES:
        rng = random.Random(1)
        systems = [make(rng, *size) for _ in range(20)]
        variables = len(systems[0][0]) - 1
        lines = "".join(" ".join(map(str, [variables] + sum(system, []))) + "\n" for system in systems)
        taken, answers = seconds(program, lines)
        words = [answer.split(" ")[0] for answer in answers]
        counts = ", ".join("%d %s" % (words.count(w), w) for w in ("empty", "maybe", "wide") if w in words)
        print("%-6s %9d %5d %9.5f  %s" % (name, variables, len(systems[0]), max(0, taken - start) / len(systems), counts),
              flush=True)


if __name__ == "__main__":
    main()
