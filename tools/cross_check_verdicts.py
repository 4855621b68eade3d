#!/usr/bin/env python3
"""Cross-checks the program `row_verdicts` on random systems of rows.

    tools/cross_check_verdicts.py [--count N] [--seed S] [--oracle DIR] PROGRAM [ARGUMENT ..]

PROGRAM reads a system on each line of its input (the number of variables, and then the coefficients and the constant
of each row) and writes a line for each: `empty`, `wide`, or `maybe` with the range of each variable after the least
values of those before it.

Three things are checked of every answer:
- no `empty` where a point of the box from -4 to 4 in each variable meets all rows (brute force, up to 4 variables),
  and none for a system that was made round a point;
- every range holds the values that brute force finds for the first variable;
- with --oracle, a folder with a Python package `nestref` whose module `elimination` has `bounds` and `scan_range`,
  the whole line is the one that these give.

The exit is 1 where an answer fails.
"""

import argparse
import itertools
import random
import subprocess
import sys

BOX = range(-4, 5)
FAR = 2 ** 60


def meets(rows, point):
    return all(cst + sum(c * x for c, x in zip(coef, point)) >= 0 for coef, cst in rows)


# ---- random systems: (variables, rows, a point that meets them or None)

def row_through(rng, point, size):
    """A row that the point meets."""
    coef = tuple(rng.randint(-size, size) for _ in point)
    at_point = sum(c * x for c, x in zip(coef, point))
    return coef, rng.randint(0, size) - at_point


def free(rng, size, most_variables, most_rows):
    variables = rng.randint(1, most_variables)
    rows = [(tuple(rng.randint(-size, size) for _ in range(variables)), rng.randint(-2 * size, 2 * size))
            for _ in range(rng.randint(0, most_rows))]
    return variables, rows, None


def round_point(rng):
    variables = rng.randint(1, 4)
    point = tuple(rng.randint(-4, 4) for _ in range(variables))
    return variables, [row_through(rng, point, 6) for _ in range(rng.randint(1, 9))], point


def equations(rng):
    """Equations, each as two rows, inside a box."""
    variables = rng.randint(1, 4)
    rows = []
    for place in range(variables):
        unit = [0] * variables
        unit[place] = 1
        rows.append((tuple(unit), rng.randint(0, 4)))
        rows.append((tuple(-c for c in unit), rng.randint(0, 4)))
    for _ in range(rng.randint(1, 2)):
        coef = tuple(rng.choice((-6, -4, -3, -2, 0, 2, 3, 4, 6)) for _ in range(variables))
        cst = rng.randint(-6, 6)
        rows += [(coef, cst), (tuple(-c for c in coef), -cst)]
    return variables, rows, None


def accesses(rng):
    """Two instances of a loop nest that touch one address, as a dependence test has them."""
    depth = rng.randint(1, 3)
    variables = 1 + 2 * depth
    length = rng.randint(1, 40)
    rows = [((1,) + (0,) * (2 * depth), 0)]
    for half in range(2):
        for place in range(depth):
            unit = [0] * variables
            unit[1 + half * depth + place] = 1
            if place == 0:
                rows.append(((-1,) + tuple(unit[1:]), 0))
                rows.append(((1,) + tuple(-c for c in unit[1:]), length - 1))
            else:
                rows.append((tuple(unit), 0))
                rows.append((tuple(-c for c in unit), rng.randint(0, 30)))
    first, second = ([rng.choice((0, 1, 1, 2, 20)) for _ in range(depth)] for _ in range(2))
    same = (0, *first, *(-c for c in second))
    cst = rng.randint(-21, 21)
    rows += [(tuple(same), cst), (tuple(-c for c in same), -cst)]
    before = [0] * variables
    before[1], before[1 + depth] = -1, 1
    rows.append((tuple(before), -1))
    return variables, rows, None


def large(rng):
    """Numbers near the limits."""
    variables = rng.randint(1, 4)
    numbers = (2 ** 62, 2 ** 62 + 1, 2 ** 61, 2 ** 40, 2 ** 31 + 1, 2 ** 100, 3, 1, 0)
    signed = lambda: rng.choice((-1, 1)) * rng.choice(numbers)
    rows = [(tuple(signed() for _ in range(variables)), signed()) for _ in range(rng.randint(1, 6))]
    return variables, rows, None


def repeated(rng):
    """Rows with equal coefficients, and multiples of one another."""
    variables, rows, _ = free(rng, 3, 3, 4)
    copies = [(tuple(k * c for c in coef), k * cst + rng.randint(-2, 2)) for coef, cst in rows for k in (1, 2, 3)]
    rows = rows + copies
    rng.shuffle(rows)
    return variables, rows, None


KINDS = (
    lambda rng: free(rng, 5, 3, 7), lambda rng: free(rng, 12, 4, 9), lambda rng: free(rng, 2, 8, 14),
    lambda rng: free(rng, 1, 16, 16), round_point, round_point, equations, accesses, large, repeated,
)


# ---- what is checked

def expected_by(elimination, variables, rows):
    """The line that the oracle's module gives."""
    levels, verdict = elimination.bounds(rows, variables)
    if verdict != "maybe":
        return verdict
    words, point = ["maybe"], []
    for level in range(variables):
        found = elimination.scan_range(levels, level, point)
        if found is None:
            return " ".join(words + ["none"])
        words.append("%d..%d" % found)
        if abs(found[0]) > FAR:
            return " ".join(words + ["far"])
        point.append(found[0])
    return " ".join(words)


def faults(variables, rows, point, answer, elimination):
    """What is wrong with an answer."""
    if point is not None and answer == "empty":
        yield "empty, but %s meets all rows" % (point,)
    if variables <= 4:
        points = [p for p in itertools.product(BOX, repeat=variables) if meets(rows, p)]
        if points and answer == "empty":
            yield "empty, but %s meets all rows" % (points[0],)
        words = answer.split()
        if len(words) > 1 and ".." in words[1]:
            least, greatest = (int(end) for end in words[1].split(".."))
            for found in points:
                if not least <= found[0] <= greatest:
                    yield "%s meets all rows and lies outside %s" % (found, words[1])
                    break
    if elimination is not None:
        want = expected_by(elimination, variables, rows)
        if answer != want:
            yield "the oracle says %s" % want


def main():
    parser = argparse.ArgumentParser(description="Cross-checks the program row_verdicts.")
    parser.add_argument("--count", type=int, default=4000)
    parser.add_argument("--seed", type=int, default=1)
    parser.add_argument("--oracle")
    parser.add_argument("program", nargs=argparse.REMAINDER)
    given = parser.parse_args()
    elimination = None
    if given.oracle:
        sys.path.insert(0, given.oracle)
        from nestref import elimination
    rng = random.Random(given.seed)
    systems = [KINDS[number % len(KINDS)](rng) for number in range(given.count)]
    lines = "".join(
        " ".join(map(str, [variables, *(n for coef, cst in rows for n in (*coef, cst))])) + "\n"
        for variables, rows, _ in systems)
    run = subprocess.run(given.program, input=lines, stdout=subprocess.PIPE, text=True, check=True)
    answers = [line for line in run.stdout.splitlines() if line.split(" ")[0] in ("empty", "wide", "maybe", "fault")]
    if len(answers) != len(systems):
        sys.exit("%d answers to %d systems" % (len(answers), len(systems)))
    failed = 0
    counts = {}
    for line, (variables, rows, point), answer in zip(lines.splitlines(), systems, answers):
        word = answer.split()[0]
        counts[word] = counts.get(word, 0) + 1
        for fault in faults(variables, rows, point, answer, elimination):
            failed += 1
            print("%s\n  answer %s\n  %s" % (line, answer, fault))
    print("%d systems: %s; %d faults" % (len(systems), ", ".join("%d %s" % (n, w) for w, n in sorted(counts.items())), failed))
    sys.exit(1 if failed else 0)


if __name__ == "__main__":
    main()
