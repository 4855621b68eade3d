"""Pastes each example of README.md and docs/LANGUAGE.md into the program.

An example is a block between ``` whose first word, behind comments, is `nest` (it must be read), `for` or `while` (read
with a scalar and a memory before it; where a comment says `refused`, it must be refused), or a command with its text. A
block `journey` is what mode `run` writes behind the outcome of the text before it. A block under a sentence with
`./nestrun WORDS < FILE` or `nestrun WORDS` at its beginning is the end of that answer.

The program is the one that ./nestrun builds, or what NESTRUN names. The last line is `papers: N passed, M failed`.
"""
import os
import re
import subprocess
import sys

sys.dont_write_bytecode = True
HERE = os.path.dirname(os.path.abspath(__file__))
ROOT = os.path.dirname(HERE)
sys.path.insert(0, HERE)
import explained
import front_check
import journey_lines

PROGRAM = os.environ.get("NESTRUN", os.path.join(ROOT, "crates", "nest_main", "out", "nest_main"))
BLOCK = re.compile(r"^```(.*)\n((?:.*\n)*?)```$", re.M)
COMMAND = re.compile(r"\./nestrun (.*) <<'END'\n((?:.*\n)*?)END\n")
ANSWER = re.compile(r"`(?:\./)?nestrun ([^`<]+?)(?: < ([\w./]+))?` (?:writes|walks)")


def call(words, text):
    done = subprocess.run([PROGRAM, *words], input=text, capture_output=True, text=True, cwd=ROOT)
    return done.returncode, done.stdout


def behind_outcome(answer):
    return "".join(line + "\n" for line in answer.splitlines() if not journey_lines.OUTCOME.fullmatch(line))


def first_word(text):
    return (re.sub(r"#.*", "", text).split() or [""])[0]


def check_paper(tally, name):
    with open(os.path.join(ROOT, name), encoding="utf-8") as file:
        paper = file.read()
    text, seen = None, 0
    for found in BLOCK.finditer(paper):
        label, block = found[1], found[2]
        where = f"{name}, line {paper.count(chr(10), 0, found.start()) + 1}"
        command = COMMAND.fullmatch(block)
        before = ANSWER.findall(paper[: found.start()].rsplit("\n\n", 2)[-2] + paper[: found.start()].rsplit("\n\n", 1)[-1])
        seen += 1
        if command:
            text = command[2]
            tally.holds(call(command[1].split(), text)[0] == 0, f"{where}: the command fails")
        elif label == "journey":
            answer = call(["run"], text)[1]
            tally.holds(behind_outcome(answer) == block, f"{where}: mode run writes\n{behind_outcome(answer)}")
        elif first_word(block) == "nest":
            text = block
            status, answer = call(["check"], text)
            tally.holds(status == 0, f"{where}: {answer}")
        elif label != "c" and first_word(block) in ("for", "while"):
            status, answer = call(["check"], f"nest 2\nscalar p = 2\nmemory 400\n{block}")
            tally.holds(status == (2 if "refused" in block else 0), f"{where}: {answer}")
        elif block.startswith("nestrun: line "):
            with open(os.path.join(ROOT, "examples", "unknown_name.nest"), "rb") as file:
                tally.holds(explained.refusal(file.read(), 320, "Unknown") == block, f"{where}: the message is another")
        elif before:
            words, file = before[-1]
            source = open(os.path.join(ROOT, file), encoding="utf-8").read() if file else ""
            tally.holds(call(words.split(), source)[1].endswith(block), f"{where}: `nestrun {words}` writes something else")
        else:
            seen -= 1
    tally.holds(seen > 1, f"{name} has {seen} examples")


def main():
    if "NESTRUN" not in os.environ:
        with open(os.path.join(ROOT, "examples", "copy.nest"), "rb") as source:
            subprocess.run([os.path.join(ROOT, "nestrun"), "check"], stdin=source, stdout=subprocess.DEVNULL)
    tally = front_check.Tally("papers")
    for name in ("README.md", "docs/LANGUAGE.md"):
        check_paper(tally, name)
    print(f"papers: {tally.passed} passed, {tally.failed} failed")
    return 1 if tally.failed or not tally.passed else 0


if __name__ == "__main__":
    sys.exit(main())
