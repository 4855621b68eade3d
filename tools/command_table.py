"""The one table of modes, options, arguments and exits, and which words are an invocation by it.

The help, the man page, the completions and the messages for people are made from it (tools/command_papers.py,
tools/front.py). A mode or an option is added here alone; tools/checks/front sees that the usage line that it gives is the
program's, as cases/words.jsonl has it, and that both take the same lists of words.
"""
import difflib
from dataclasses import dataclass


@dataclass
class Mode:
    name: str
    writes: str
    # The most bytes that are read of standard input; none where nothing is read.
    reads: int = 1_048_576
    arguments: tuple = ()


@dataclass
class Number:
    """An option or an argument that is a number."""

    name: str
    least: int
    most: int
    says: str = ""
    default: int = 0
    modes: str = ""


@dataclass
class Choice:
    """An argument that is one of some words."""

    name: str
    words: tuple


@dataclass
class Command:
    mode: Mode
    arguments: list
    options: dict


@dataclass
class Misuse(Exception):
    """Why words are no invocation: the number of the argument from 1, or none, and the reason."""

    at: int
    why: str
    hint: str = ""


GENERATED = (Number("SEED", 0, 4_294_967_295), Choice("KIND", ("copy", "list", "grid")), Number("SIZE", 1, 256))

MODES = [
    Mode("plain", "the outcome of the run"),
    Mode("run", "the outcome of the run, and the journey: what was foretold, committed and rolled back, and why"),
    Mode("check", "the same file in its canonical form"),
    Mode("deps", "what the first turns show, what depends on what, and which candidates keep it"),
    Mode("gen", "a summary of the run of a file that is made from a seed, a kind and a size", 0, GENERATED),
]

OPTIONS = [
    Number("workers", 1, 64, "the workers among which the tiles of a phase are divided; no byte of an answer depends on it", 4, "run, gen"),
    Number("chunk", 1, 1_024, "the turns of a chunk", 32, "run, deps, gen"),
    Number("sample", 2, 64, "the turns of a profile", 4, "run, deps, gen"),
    Number("steps", 0, 4_294_967_296, "the steps that a run may take", 1_000_000, "plain, run, deps, gen"),
]

EXITS = [
    (0, "the run ended (plain, run, gen), or the text was read (check, deps)"),
    (2, "the text can't be read: `refused AT KIND`"),
    (3, "standard input failed; nothing was written"),
    (4, "standard output failed; what it took is the beginning of the answer"),
    (5, "memory wasn't found; nothing was written"),
    (10, "the run trapped"),
    (11, "a step was due after the last one allowed"),
    (64, "the words are no invocation; the usage line is written"),
    (65, "the arguments can't be had"),
    (70, "of ./nestrun alone: no program was built, or the try without proofs gave no answer"),
]

# The words of ./nestrun itself. They stand before MODE, and the program doesn't get them.
OWN = [
    ("help", "this help"),
    ("quiet", "nothing on standard error but what a build says: no words on a refusal or a misuse"),
    ("unproved", "builds and runs the code without its proofs, in two to three minutes each time; nothing is promised of that answer"),
]

EXAMPLES = [
    ("./nestrun run examples/linked_list.nest", "runs a file by chunks, and says how that went"),
    ("./nestrun run --chunk 8 --sample 3 < examples/sweep.nest", "the same with shorter chunks, the file on standard input"),
    ("./nestrun gen 7 list 32 --workers 2", "makes a list of 2,047 nodes, runs it and sums it up"),
]


def usage_line():
    options = " ".join(f"[--{it.name} N]" for it in OPTIONS)
    arguments = " ".join(it.name for it in GENERATED)
    return f"usage: nestrun {'|'.join(it.name for it in MODES)} [{arguments}] {options}"


def near(word, words):
    """What was meant by a word, as a hint."""
    found = difflib.get_close_matches(word.lower(), words, 1, 0.5)
    return f"is `{found[0]}` meant?" if found else ""


def judged_number(at, word, number, said):
    """The value of a text of 1 to 10 digits in the range of a number."""
    takes = f"{said} takes a number from {number.least:,} to {number.most:,}"
    if not (word.isascii() and word.isdigit()):
        raise Misuse(at, f"{takes}, and this is none", "a number is written in digits alone, with no sign")
    if len(word) > 10:
        raise Misuse(at, f"{takes}, in at most 10 digits")
    if not number.least <= int(word) <= number.most:
        raise Misuse(at, takes)
    return int(word)


def unknown_option(at, word):
    name = word.lstrip("-").partition("=")[0]
    if name in [it[0] for it in OWN] or name == "h":
        return Misuse(at, "this option is one of ./nestrun itself", f"it stands first: ./nestrun --{'help' if name == 'h' else name} ..")
    names = [f"--{it.name}" for it in OPTIONS]
    return Misuse(at, "there is no such option", near(f"--{name}", names) or f"the options are {', '.join(names)}")


def split(words):
    """The words that stand by themselves, and the options, each with the number of its argument."""
    alone, options, at = [], {}, 0
    while at < len(words):
        word = words[at]
        at += 1
        if word == "--":
            return alone + [(at + 1 + more, it) for more, it in enumerate(words[at:])], options
        if not word.startswith("-") or word == "-":
            alone.append((at, word))
            continue
        name, has_value, value = word[2:].partition("=")
        option = next((it for it in OPTIONS if it.name == name), None)
        if not word.startswith("--") or option is None:
            raise unknown_option(at, word)
        if name in options:
            raise Misuse(at, f"--{name} stands twice")
        if not has_value:
            if at == len(words) or words[at].startswith("-") and words[at] != "-":
                raise Misuse(min(at + 1, len(words)), f"a number from {option.least:,} to {option.most:,} is missing behind --{name}")
            value = words[at]
            at += 1
        options[name] = judged_number(at, value, option, f"--{name}")
    return alone, options


def command_of(words):
    """What these words ask for, or `Misuse`."""
    alone, options = split(words)
    modes = [it.name for it in MODES]
    if not alone:
        raise Misuse(0, "no MODE is given", f"MODE is {', '.join(modes[:-1])} or {modes[-1]}")
    at, name = alone.pop(0)
    mode = next((it for it in MODES if it.name == name), None)
    if mode is None:
        raise Misuse(at, "there is no such mode", near(name, modes) or f"MODE is {', '.join(modes[:-1])} or {modes[-1]}")
    if len(alone) > len(mode.arguments):
        at = alone[len(mode.arguments)][0]
        raise Misuse(at, f"mode {name} takes {len(mode.arguments) or 'no'} arguments, and this is one more" if mode.arguments else f"mode {name} takes no argument; a FILE may stand last")
    if len(alone) < len(mode.arguments):
        missing = " ".join(it.name for it in mode.arguments[len(alone) :])
        raise Misuse(0, f"mode {name} takes {' '.join(it.name for it in mode.arguments)}, and {missing} {'is' if len(alone) + 1 == len(mode.arguments) else 'are'} missing")
    return Command(mode, [judged_argument(at, word, it) for (at, word), it in zip(alone, mode.arguments)], options)


def judged_argument(at, word, argument):
    if isinstance(argument, Number):
        return judged_number(at, word, argument, argument.name)
    if word not in argument.words:
        words = ", ".join(argument.words[:-1])
        raise Misuse(at, f"{argument.name} is {words} or {argument.words[-1]}", near(word, argument.words))
    return word
