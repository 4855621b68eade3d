#!/usr/bin/env python3
"""Lemmas that two files state, but for the names of their variables.

  stated_twice.py [FOLDER]     looks below FOLDER, crates/ of this repository where none is given

Each statement that stands in more than one file of proofs/ is printed with these files and the lemma's names there. Not
every one is a repetition: a name can mean different things in two crates. The last line counts them.
"""
import collections
import glob
import os
import re
import sys

LEMMA = re.compile(r"^ *(?:pub )?([^\s:(){}]+)(?: \{[^}]*\})? : (.*?)(?=\n\s*[^\s→]|\Z)", re.M | re.S)
BINDER = re.compile(r"[({]([^():{}]+?) :")
WORD = re.compile(r"[^\s(){}\[\],.]+|[(){}\[\],.]")
# shorter ones, as `ℕ → Bool`, are no lemmas
LEAST_WORDS = 8


def statement(text):
    """The statement with its variables numbered in the order in which they are bound."""
    text = re.sub(r"--.*", "", text)
    variables = {}
    for bound in BINDER.findall(text):
        for name in bound.split():
            variables.setdefault(name, f"x{len(variables)}")
    return " ".join(variables.get(word, word) for word in WORD.findall(text))


def lemmas_below(folder):
    for path in sorted(glob.glob(f"{folder}/*/proofs/**/*.antt", recursive=True)):
        with open(path, encoding="utf-8") as file:
            for name, text in LEMMA.findall(file.read()):
                # (the goals of functions are stated by the kit; a `let` or a field within a proof is no lemma)
                if "goal." not in text and not text.endswith(("→", " in let", ";")):
                    yield statement(text), os.path.relpath(path, folder), name


def main():
    here = os.path.dirname(os.path.dirname(os.path.realpath(__file__)))
    places = collections.defaultdict(list)
    for said, path, name in lemmas_below(sys.argv[1] if len(sys.argv) > 1 else f"{here}/crates"):
        if len(said.split()) >= LEAST_WORDS:
            places[said].append((path, name))
    twice = {said: found for said, found in places.items() if len({path for path, _ in found}) > 1}
    for said, found in sorted(twice.items()):
        print(said if len(said) <= 160 else f"{said[:160]} ..")
        for path, name in found:
            print(f"    {path}: {name}")
    print(f"{len(twice)} statements stand in more than one file")


if __name__ == "__main__":
    main()
