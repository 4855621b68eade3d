#!/usr/bin/env python3
"""Compares the program with another implementation on generated files, byte by byte and exit by exit.

    tools/compare_programs.py [--workers COUNTS] [--seconds N] [--jobs N] FIRST LAST MODES GENERATOR OTHER [MINE]

GENERATOR and OTHER are command lines in one word each. GENERATOR gets a number from FIRST to LAST - 1 as
its last word and prints a file; a first line `# --OPTIONS` gives words that both programs are called with.
OTHER and MINE (./nestrun where it isn't given) get a mode of MODES (as `plain,check`), these words, and the
file on standard input. With --workers, as `--workers 1,2,4,64`, each file is run once with each of these
counts, in place of one that its words have. A difference is printed with its number; the last line is
`N agree, M differ`, and the exit is 1 where some differ. A run that takes more than N seconds (60) differs
from every other.
"""
import argparse
import os
import subprocess
import sys
from concurrent.futures import ThreadPoolExecutor


def answer(program, words, text, seconds):
    """The exit and the bytes, or None where they took too long."""
    try:
        done = subprocess.run(program + words, input=text, stdout=subprocess.PIPE, stderr=subprocess.DEVNULL, timeout=seconds)
    except subprocess.TimeoutExpired:
        return None, b""
    return done.returncode, done.stdout


def by_workers(options, counts):
    """The options with each of the counts in place of their own; as they are where there are no counts."""
    if not counts:
        return [options]
    at = options.index("--workers") if "--workers" in options else len(options)
    rest = options[:at] + options[at + 2 :]
    return [["--workers", count] + rest for count in counts]


def compare(number, asked):
    text = subprocess.run(asked.generator + [str(number)], stdout=subprocess.PIPE, check=True).stdout
    line = text.split(b"\n", 1)[0]
    options = line[2:].decode("ascii", "replace").split() if line.startswith(b"# --") else []
    found = []
    for mode in asked.modes:
        for words in by_workers(options, asked.workers):
            answers = [answer(program, [mode] + words, text, asked.seconds) for program in (asked.other, asked.mine)]
            found.append((number, mode, words, *answers))
    return found


def read_words():
    words = argparse.ArgumentParser(description=__doc__, formatter_class=argparse.RawDescriptionHelpFormatter)
    words.add_argument("--workers", type=lambda counts: counts.split(","), default=[])
    words.add_argument("--seconds", type=int, default=60)
    words.add_argument("--jobs", type=int, default=max(1, os.cpu_count() // 2))
    words.add_argument("first", type=int)
    words.add_argument("last", type=int)
    words.add_argument("modes", type=lambda modes: modes.split(","))
    words.add_argument("generator", type=str.split)
    words.add_argument("other", type=str.split)
    words.add_argument("mine", type=str.split, nargs="?", default=["./nestrun"])
    return words.parse_args()


def main():
    asked = read_words()
    agree = differ = 0
    with ThreadPoolExecutor(asked.jobs) as pool:
        for found in pool.map(lambda number: compare(number, asked), range(asked.first, asked.last)):
            for number, mode, options, theirs, ours in found:
                if theirs == ours and ours[0] is not None:
                    agree += 1
                else:
                    differ += 1
                    print(f"{number} {mode} {' '.join(options)}: exits {theirs[0]} and {ours[0]}, {len(theirs[1])} and {len(ours[1])} bytes")
    print(f"{agree} agree, {differ} differ")
    return 1 if differ else 0


if __name__ == "__main__":
    sys.exit(main())
