#!/usr/bin/env python3
"""Writes the input of the program `crews_shown` and what it must print, from cases/.

    tools/crews_rows.py      crates/crews_shown/stdin and stdout

The cases are those of modes `run` and `gen`. Each is framed as a line of its words, its text, and a line with a dot, or
with two dots behind the last of those that take long. The answers are the bytes and exits of cases/, which an independent
implementation gave, and every crew has to give them; so nothing of the output is taken from the program. The answer to a
text that is too long is that of its case, and the two tables that follow are written by the rules beside them here.
"""
import glob
import json
import os
import re
import sys

ROOT = os.path.dirname(os.path.dirname(os.path.abspath(__file__)))
MODES = {"run", "gen"}
LISTS = ["0 1 2 3", "3 2 1 0", "1 3 0 2"]
THIRD_FIRST = "0 1 1 2 2 2 2 2 2"
ROUNDS = 40
BY_LIST = [f"turns {turns}" for turns in LISTS] + [f"turns {turns}, {ROUNDS} times" for turns in LISTS]
THREADS = ["threads", "threads at once"]
OTHERS = THREADS + BY_LIST + [f"turns {THIRD_FIRST}"]

# The text that the program makes by itself: more blanks than a text may have bytes.
BLANKS = [[" ", 1_048_577]]

# The nest of the tables: of two turns of a chunk each stores where no turn before it did.
NEST = "nest 1 memory 200 for i = 0 below 68 {{ [i] = 1 if i == {} {{ [150] = 9 }} if i == {} {{ [151] = 9 }} }}"
FIRST, SECOND = 45, 50
# turns of the chunk that is rolled back, but the last
DEVIATING = range(36, 67)

# What is handed over of that nest with turns 45 and 50, at 3 steps an instance. Of the chunk of the turns from 36 on the
# tiles have the turns 36 to 39, 40 to 47, 48 to 55, 56 to 63, and 64 to 67. In line, worker 0 follows 36 to 44, which are
# 9 instances, and then sees turn 45 fail; the others stop. By the list, worker 2 follows 48 and 49 and sees turn 50 fail;
# worker 0, which holds the first tile, follows its 4 instances, worker 1, which holds the second, follows 40 to 44, and
# worker 3 stops: 11 instances.
HANDED = [("in line", 3 * 9), (f"turns {THIRD_FIRST}", 3 * 11)]

# Left out: words that are no command, since no crew is asked; greater texts than are worth their room; and great memories.
# What takes more steps is long: it is run in line and on threads alone.
USAGE = 64
LONGEST_TEXT = 3_000
MOST_STEPS = 10_000
MOST_MEMORY = 100_000


def all_cases():
    for name in sorted(glob.glob(os.path.join(ROOT, "cases", "*.jsonl"))):
        with open(name, encoding="utf-8") as lines:
            for line in lines:
                if not line.startswith("#") and line.strip():
                    yield json.loads(line)


def is_shown(case):
    words, text = case["words"], case["text"]
    return (
        any(word in MODES for word in words)
        and case["exit"] != USAGE
        and isinstance(text, str)
        and len(text) <= LONGEST_TEXT
        and is_framed(words, text)
        and not has_great_memory(text)
    )


def is_framed(words, text):
    """Whether the frame gives these words and this text again."""
    return " ".join(words).split() == words and "\n.\n" not in f"\n{text}\n" and "\n..\n" not in f"\n{text}\n"


def has_great_memory(text):
    memory = re.search(r"\bmemory (\d+)", text)
    return bool(memory and int(memory[1]) > MOST_MEMORY)


def is_long(case):
    steps = re.search(r"^steps (\d+)$", case["bytes"], re.M)
    return bool(steps and int(steps[1]) > MOST_STEPS)


def framed(case):
    return f"{' '.join(case['words'])}\n{case['text']}"


def shown(case, names):
    others = "".join(f"{name}: the same\n" for name in names)
    return f"nestrun {' '.join(case['words'])}\n{case['bytes']}exit {case['exit']}\n{others}\n"


def case_of(cases, text):
    (case,) = [case for case in cases if case["words"] == ["run"] and case["text"] == text]
    return case


def check_table(cases):
    """Sees that the row of the table is the answer of its case, with another turn in it."""
    row = case_of(cases, NEST.format(FIRST, SECOND))["bytes"]
    assert row.count(f"({FIRST})") == 1
    for case in cases:
        for one in DEVIATING:
            if case["text"] == NEST.format(one, one + 1):
                assert case["bytes"] == row.replace(f"({FIRST})", f"({one})")


def table():
    for one in DEVIATING:
        yield f"turns {one} and {one + 1}:" + "".join(f" {name}: as expected;" for name in BY_LIST) + "\n"
    yield "\n"


def handed():
    for name, steps in HANDED:
        yield f"handed, {name}:\n"
        yield "turn 4 phase 0 workers 4 tiles 5 steps 96\n"
        yield f"turn 36 phase 0 workers 4 tiles 5 steps {steps}\n"


def made():
    """What stands in the input and in the output, and how many cases these show."""
    cases = list(all_cases())
    check_table(cases)
    cases_shown = [case for case in cases if is_shown(case)]
    long = [case for case in cases_shown if is_long(case)]
    others = [case for case in cases_shown if not is_long(case)]
    source = "\n.\n".join(map(framed, long)) + "\n..\n" + "".join(f"{framed(case)}\n.\n" for case in others)
    output = [shown(case, THREADS) for case in long] + [shown(case, OTHERS) for case in others]
    output += [shown(case_of(cases, BLANKS), OTHERS), *table(), *handed()]
    return source, "".join(output), len(cases_shown)


def main():
    folder = os.path.join(ROOT, "crates", "crews_shown")
    source, output, count = made()
    for name, text in [("stdin", source), ("stdout", output)]:
        with open(os.path.join(folder, name), "w", encoding="utf-8", newline="") as file:
            file.write(text)
    print(f"crews_rows: {count} cases")


if __name__ == "__main__":
    main()
