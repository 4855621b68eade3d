"""What stands around the program agrees with it: the reader for people refuses each text of cases/ where the program does,
the table takes the lists of words that it takes, the papers are those that the table gives, and ./nestrun hands on what
it gets. The wrapper is tried on a repository of two small crates whose `rt` is a few lines of shell.

The last line is `front: N passed, M failed`; the exit is 1 where one failed.
"""
import importlib.machinery
import importlib.util
import json
import os
import shutil
import subprocess
import sys
import tempfile

sys.dont_write_bytecode = True
HERE = os.path.dirname(os.path.abspath(__file__))
ROOT = os.path.dirname(HERE)
sys.path.insert(0, HERE)
import command_papers
import command_table
import explained
import forecast
import nest_text

FAKE_RT = """#!/bin/sh
case $1 in
  lib) sleep 0.1 ;;
  run) mkdir -p out && cp ../../program out/nest_main && cat > /dev/null ;;
  try) shift 4; [ "$1" = deps ] && { echo "run=none proved=no" >&2; exit 6; }
       ../../program "$@"; status=$?; echo "run=ended status=$status runners=1 races=unchecked proved=no" >&2; exit $status ;;
esac
"""
FAKE_PROGRAM = """#!/bin/sh
[ "$*" = check ] || [ "$*" = run ] || { echo usage; exit 64; }
text=$(cat)
case $text in *total*) echo "refused 30 Unknown"; exit 2 ;; esac
echo "$text"; exit 10
"""
REFUSED_TEXT = "nest 1 memory 4 while 1 { [0]=total }"


class Tally:
    def __init__(self, name):
        self.name = name
        self.passed = self.failed = 0

    def holds(self, is_so, said):
        self.passed += is_so
        self.failed += not is_so
        if not is_so:
            print(f"{self.name}: {said}")


def cases():
    """Each case of cases/, with its text and its bytes written out."""
    path = os.path.join(HERE, "checks", "cases")
    loader = importlib.machinery.SourceFileLoader("cases_check", path)
    module = importlib.util.module_from_spec(importlib.util.spec_from_loader("cases_check", loader))
    loader.exec_module(module)
    for name in sorted(os.listdir(os.path.join(ROOT, "cases"))):
        with open(os.path.join(ROOT, "cases", name), encoding="utf-8") as lines:
            for number, line in enumerate(lines, 1):
                if line.strip() and not line.startswith("#"):
                    case = json.loads(line)
                    yield f"cases/{name}, line {number}", case["words"], module.text_of(case["text"]), module.text_of(case["bytes"]), case["exit"]


def check_words(tally, where, words, written):
    """The table takes these words exactly where the program does, and gives its usage line."""
    try:
        command_table.command_of(words)
        tally.holds(not written.startswith(b"usage: "), f"{where}: the table takes {words}")
    except command_table.Misuse as found:
        is_same = written.decode() == command_table.usage_line() + "\n"
        tally.holds(is_same, f"{where}: the table refuses {words}, or has another usage line (add a new mode to tools/command_table.py)")
        said = explained.misuse(words, found)
        tally.holds("nestrun: " in said and found.why in said, f"{where}: {words} has no message")


def check_text(tally, where, text, written):
    """The reader refuses this text exactly where the program does, and the message is the reader's own."""
    try:
        nest_text.read(text)
        mine, why = b"", ""
    except nest_text.Refusal as found:
        mine, why = f"refused {found.at} {found.kind}\n".encode(), found.why
    wanted = written if written.startswith(b"refused ") else b""
    tally.holds(mine == wanted, f"{where}: the reader has {mine!r} in place of {wanted!r}")
    # a long text takes seconds to read, so it is read once
    if mine and mine == wanted and (len(text) < 300_000 or b"Long" in mine):
        said = explained.refusal(text, int(mine.split()[1]), mine.split()[2].decode())
        tally.holds(why in said and ("^" in said or b"Long" in mine), f"{where}: no place or no reason in {said!r}")


def check_cases(tally):
    for where, words, text, written, status in cases():
        check_words(tally, where, words, written)
        if status != 64 and words and "gen" not in words:
            check_text(tally, where, text, written)


def check_papers(tally):
    for name, made in command_papers.PAPERS.items():
        with open(os.path.join(HERE, name), encoding="utf-8") as file:
            tally.holds(file.read() == made(), f"tools/{name} isn't what tools/command_papers.py makes; run it")
    for words, _ in command_papers.EXAMPLES:
        mine = [it for it in words.split()[1:] if not it.endswith(".nest") and it != "<"]
        tally.holds(isinstance(command_table.command_of(mine), command_table.Command), f"the help's example `{words}`")


def check_forecast(tally):
    chain = ["crate a 1000 0", "crate b 1000 0 a", "crate c 1000 0 b", "crate d 1000 0"]
    one = forecast.SECONDS + 1000 * forecast.SECONDS_A_LINE
    tally.holds(forecast.seconds_left(chain, 2, 0) == 3 * one, "the longest chain doesn't count")
    tally.holds(forecast.seconds_left(chain, 1, 0) == 4 * one, "one lane")
    slow = [*chain, "started a 0", f"done a {3 * one}"]
    tally.holds(forecast.seconds_left(slow, 2, 3 * one) > 2 * one, "what a crate took doesn't count")
    tally.holds(forecast.seconds_left([*chain, "started a 0"], 2, one - 10) == 10 + 2 * one, "a running crate")


def small_repository(folder):
    for name in ("low", "nest_main"):
        os.makedirs(os.path.join(folder, "crates", name, "src"))
        write(folder, f"crates/{name}/src/lib.rt", "\n")
    write(folder, "crates.txt", "low:\nnest_main: low\n")
    write(folder, "crates/nest_main/args", "check\n")
    write(folder, "crates/nest_main/stdin", "\n")
    write(folder, "bin/rt", FAKE_RT, 0o755)
    write(folder, "KIT-ID", "none\n")
    write(folder, "program", FAKE_PROGRAM, 0o755)
    write(folder, "x.nest", REFUSED_TEXT)
    shutil.copy(os.path.join(ROOT, "nestrun"), folder)
    shutil.copytree(HERE, os.path.join(folder, "tools"), ignore=shutil.ignore_patterns("checks"))


def write(folder, name, text, mode=0o644):
    path = os.path.join(folder, name)
    os.makedirs(os.path.dirname(path), exist_ok=True)
    with open(path, "w", encoding="utf-8") as file:
        file.write(text)
    os.chmod(path, mode)


def check_wrapper(tally):
    with tempfile.TemporaryDirectory() as folder:
        small_repository(folder)
        environment = {**os.environ, "PATH": f"{folder}/bin:{os.environ['PATH']}"}

        def call(words, text=""):
            done = subprocess.run([f"{folder}/nestrun", *words], input=text, capture_output=True, text=True, env=environment, cwd=folder)
            return done.returncode, done.stdout, done.stderr

        status, out, said = call(["--unproved", "check", "x.nest"])
        tally.holds((status, out) == (2, "refused 30 Unknown\n") and "NOT PROVED" in said and "`total`" in said, f"--unproved: {status} {out!r} {said!r}")
        status, out, said = call(["--unproved", "deps", "x.nest"])
        tally.holds((status, out) == (70, "") and "1 MiB" in said and "run=none" in said, f"a try with no answer: {status} {out!r} {said!r}")
        tally.holds(call(["--unproved", "chek"])[0] == 64, "--unproved with no such mode")
        status, out, said = call(["run"], "some")
        tally.holds((status, out) == (10, "some\n"), f"the first call: {status} {out!r} {said!r}")
        tally.holds("--unproved" in said and "1 of 2 crates proved (low); " in said and " left" in said, f"the first call says {said!r}")
        for words, text in [(["run", "x.nest"], ""), (["run"], REFUSED_TEXT)]:
            status, out, said = call(words, text)
            tally.holds((status, out) == (2, "refused 30 Unknown\n") and "line 1, column 31: no name `total`" in said, f"{words}: {status} {out!r} {said!r}")
        tally.holds(call(["--quiet", "run", "x.nest"]) == (2, "refused 30 Unknown\n", ""), "--quiet isn't quiet")
        status, out, said = call(["run", "y.nest"])
        tally.holds((status, out) == (64, "usage\n") and "argument 2, y.nest" in said, f"a file that isn't there: {status} {out!r} {said!r}")
        tally.holds("a number from 1 to 1,024 is missing behind --chunk" in call(["run", "--chunk"])[2], "an option with no number behind it")
        tally.holds(call(["--quiet", "rnu"]) == (64, "usage\n", ""), "--quiet isn't quiet at a misuse")
        tally.holds(call(["--help"]) == (0, command_papers.help_text(), ""), "--help")


def main():
    tally = Tally("front")
    check_cases(tally)
    check_papers(tally)
    check_forecast(tally)
    check_wrapper(tally)
    print(f"front: {tally.passed} passed, {tally.failed} failed")
    return 1 if tally.failed or not tally.passed else 0


if __name__ == "__main__":
    sys.exit(main())
