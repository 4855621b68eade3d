"""The lines of a journey or a dependence listing (docs/LANGUAGE.md, The journey), what they sum up to, and each as a
sentence."""
import re
from dataclasses import dataclass, field

import nest_model

MARKS = {"profiled": "p", "committed": "#", "held": "h", "rolled back": "r", "plain": "."}
INSTANCE = r"(?P<block>(?:head|pre|post)\d) \((?P<at>[\d,]*)\)"
DATUM = r"(?P<datum>scalar \w+|address \d+|lower|trip)"
SHAPES = {
    "profile": r"profile (?P<first>\d+) turns (?P<turns>\d+)",
    "unfit": rf"unfit (?P<block>\w+) {DATUM} (?:at \((?P<at>[\d,]*)\) line (?P<line>-?\d+) seen (?P<seen>-?\d+)|large (?P<large>-?\d+))",
    "illegal": r"illegal (?P<number>\d+) pair (?P<one>\w+\.\d+) (?P<other>\w+\.\d+) case (?P<case>\d+) row (?P<row>\d+) (?P<side>below|above) (?P<verdict>maybe|wide)",
    "held": rf"held (?P<first>\d+) turns (?P<turns>\d+) at {INSTANCE} (?P<why>many|scalar \w+ -?\d+|store \d+ address -?\d+|(?:lower|last|trip) -?\d+)",
    "commit": r"commit (?P<first>\d+) turns (?P<turns>\d+) candidate (?P<number>\d+) instances (?P<instances>\d+) phases (?P<phases>\d+) tiles (?P<tiles>\d+) steps (?P<steps>\d+)",
    "rollback": rf"rollback (?P<first>\d+) turns (?P<turns>\d+) at {INSTANCE} (?P<how>.+)",
    "plain": r"plain (?P<first>\d+) turns (?P<turns>\d+)",
    "nest": r"nest (?P<number>\d+)",
    "nothing": r"nothing to fit",
    "form": rf"form (?P<block>\w+) {DATUM} (?P<numbers>-?\d+(?: -?\d+)*)(?: tube (?P<low>-?\d+) (?P<high>-?\d+))?",
    "depends": r"depends (?P<one>\w+\.\d+) (?P<other>\w+\.\d+) case (?P<case>\d+) (?P<verdict>maybe|wide)",
    "legal": r"legal (?P<number>\d+)",
}
OUTCOME = re.compile(r"ended|limited|trapped .*|scalar \w+ -?\d+|words \d+ \d+ -?\d+|steps \d+")


class Unread(Exception):
    """A line that no answer of mode `run` or `deps` has."""


@dataclass
class Segment:
    """Turns of one kind, with the lines that say so."""

    kind: str
    first: int
    turns: int
    lines: list
    tried: int = 0  # the turns of a chunk that was held or rolled back
    parts: dict = field(default_factory=dict)


@dataclass
class Nest:
    number: int
    segments: list = field(default_factory=list)

    @property
    def turns(self):
        return max((it.first + it.turns for it in self.segments), default=0)


@dataclass
class Journey:
    file: object
    steps: int
    outcome: list = field(default_factory=list)
    lines: list = field(default_factory=list)
    nest_of: list = field(default_factory=list)
    nests: list = field(default_factory=list)
    turn_steps: list = field(default_factory=list)


def parts_of(line):
    for word, shape in SHAPES.items():
        found = re.fullmatch(shape, line)
        if found:
            return word, found.groupdict()
    raise Unread(f"this is no line of a journey or a listing: {line!r}")


def read(text, file=None, steps=1_000_000):
    """The journey that an answer has behind its outcome."""
    found = Journey(file, steps)
    nest, before = Nest(1), None
    for line in text.splitlines():
        if not found.lines and OUTCOME.fullmatch(line):
            found.outcome.append(line)
            continue
        word, parts = parts_of(line)
        if word == "nest":
            nest = Nest(int(parts["number"]))
        if nest not in found.nests:
            found.nests.append(nest)
        found.lines.append(line)
        found.nest_of.append(nest.number)
        before = add(nest, word, parts, line, before)
    if file:
        found.turn_steps = nest_model.turn_steps(file, steps)
    return found


def add(nest, word, parts, line, before):
    """Adds a line's turns; those that are held or rolled back are run by the plain line that follows."""
    if word in ("profile", "commit", "plain"):
        kind = {"profile": "profiled", "commit": "committed", "plain": "plain"}[word]
        segment = Segment(kind, int(parts["first"]), int(parts["turns"]), [line], parts=parts)
        if word == "plain" and before:
            segment.kind = "held" if before[0] == "held" else "rolled back"
            segment.lines = [before[2], line]
            segment.tried, segment.parts = int(before[1]["turns"]), before[1]
        nest.segments.append(segment)
    return (word, parts, line) if word in ("held", "rollback") else None


# What a journey sums up to

def bar(nest, width):
    """A character for each piece of the turns, by what most of its turns are."""
    total = max(nest.turns, 1)
    width = min(width, total)
    pieces = []
    for at in range(width):
        low, high = at * total / width, (at + 1) * total / width
        share = {}
        for it in nest.segments:
            common = min(high, it.first + it.turns) - max(low, it.first)
            if common > 0:
                share[it.kind] = share.get(it.kind, 0) + common
        pieces.append(MARKS[max(share, key=share.get)] if share else " ")
    return "".join(pieces)


def steps_of(journey, nest, segment):
    """The steps of a segment: by the commit line, or counted by the model where the file is known."""
    if segment.kind == "committed":
        return int(segment.parts["steps"])
    known = journey.turn_steps[nest.number - 1] if nest.number <= len(journey.turn_steps) else []
    last = segment.first + segment.turns
    return known[last] - known[segment.first] if last < len(known) else None


def counts(journey, nest):
    """For each kind: its mark, turns, share of all turns, and steps where they are known."""
    for kind, mark in MARKS.items():
        ours = [it for it in nest.segments if it.kind == kind]
        turns = sum(it.turns for it in ours)
        steps = [steps_of(journey, nest, it) for it in ours]
        said = f" {sum(steps):>10} steps" if ours and None not in steps else ""
        yield mark, kind, turns, f"{round(100 * turns / max(nest.turns, 1))} %", said


def longest(nest, count):
    """The longest runs of turns of one kind."""
    found = []
    for it in nest.segments:
        if found and found[-1].kind == it.kind and found[-1].first + found[-1].turns == it.first:
            found[-1] = Segment(it.kind, found[-1].first, found[-1].turns + it.turns, [])
        else:
            found.append(Segment(it.kind, it.first, it.turns, []))
    return sorted(found, key=lambda it: -it.turns)[:count]


def reasons(journey):
    """Each reason once, with how often it came and its first line."""
    found = {}
    for line in journey.lines:
        word, parts = parts_of(line)
        if word == "illegal":
            said = re.sub(r"^illegal \d+", f"illegal {parts['number']}", line)
        elif word == "unfit":
            said = f"unfit {parts['block']} {parts['datum']}" + (" large" if parts["large"] else "")
        elif word in ("held", "rollback"):
            why = parts["why"] if word == "held" else parts["how"]
            what = re.match(r"scalar \w+|(?:address|unseen|store) \d+|trap \w+|\w+", why)[0]
            said = f"{word} at {parts['block']}: {what}"
        else:
            continue
        count, example = found.get(said, (0, line))
        found[said] = (count + 1, example)
    return sorted(((said, *it) for said, it in found.items()), key=lambda it: -it[1])


# Lines as sentences

def upper(said):
    """The same with a capital at its beginning."""
    return said[0].upper() + said[1:]


def sentences(journey):
    """Each line with what it says."""
    for line, nest in zip(journey.lines, journey.nest_of):
        yield line, Speaker(journey, nest).sentence(*parts_of(line))


class Speaker:
    """Says lines of one nest, with the text of its accesses where the file is known."""

    def __init__(self, journey, number):
        self.file = journey.file
        self.nest = journey.file.nests[number - 1] if journey.file else None
        self.blocks = {it.name: it for it in self.nest.blocks()} if self.nest else {}

    def sentence(self, word, parts):
        return getattr(self, f"say_{word}")(parts)

    def access(self, block, number):
        known = self.blocks.get(block)
        if not known or int(number) > len(known.accesses):
            return f"access {number} of {block}"
        it = known.accesses[int(number) - 1]
        source = " ".join(self.file.text[it.at : it.end].split())
        line = self.file.text.count("\n", 0, it.at) + 1
        return f"the {'store to' if it.is_store else 'load of'} `{source}` ({block}.{number}, line {line})"

    def pair(self, parts):
        one, other = (self.access(*parts[it].split(".")) for it in ("one", "other"))
        return "two instances of " + one if parts["one"] == parts["other"] else f"{one} and {other}"

    def instance(self, parts):
        turns = parts["at"].split(",") if parts["at"] else []
        if not turns:
            return parts["block"]
        return f"{parts['block']} in turn {', '.join(turns)}" + (" of the loops around it" if len(turns) > 1 else "")

    def datum(self, parts):
        word, _, name = parts["datum"].partition(" ")
        if word == "scalar":
            return f"the scalar `{name}` as {parts['block']} begins"
        if word == "address":
            return "the address of " + self.access(parts["block"], name)
        return f"{'the lower bound' if word == 'lower' else 'the number of turns'} of the loop of {parts['block']}"

    def candidate(self, number):
        known = nest_model.candidates_of(self.nest) if self.nest else []
        if int(number) > len(known):
            return f"candidate {number}"
        script = nest_model.script_text(known[int(number) - 1])
        return f"{'' if self.nest.candidates else 'standard '}candidate {number} (`{script}`)"

    def case(self, parts):
        before = int(parts["case"]) - 1
        if self.nest and before == self.nest.depth:
            return "in the same turn of all loops"
        agree = {0: "", 1: "in the same turn of the outermost loop, "}.get(before, f"in the same turns of the {before} outermost loops, ")
        return f"{agree}the second in a later turn of loop {before + 1}"

    def say_profile(self, parts):
        return f"{parts['turns']} turns from turn {parts['first']} on ran in original order, and what they did was noted."

    def say_plain(self, parts):
        return f"{parts['turns']} turns from turn {parts['first']} on ran in original order."

    def say_nest(self, parts):
        return f"Here begins nest {parts['number']} of the file."

    def say_nothing(self, parts):
        return "The profile did not go through, so there is nothing to fit."

    def say_unfit(self, parts):
        if parts["large"]:
            return f"No form fits {self.datum(parts)}: it would have the number {parts['large']}, which is too large."
        return f"No form fits {self.datum(parts)}: in turn {parts['at'] or '0'} the form of the samples before gives {parts['line']}, and {parts['seen']} was seen."

    def say_illegal(self, parts):
        risk = "to run in the other order" if parts["side"] == "below" else f"to lie beside each other, since row {parts['row']} is parallel"
        doubt = "may go to one address" if parts["verdict"] == "maybe" else "could not be told apart, since the numbers of the test grew too large"
        return f"{upper(self.candidate(parts['number']))} is refused: {self.pair(parts)} {doubt}, {self.case(parts)}, and row {parts['row']} of the schedule may bring them {risk}."

    def say_held(self, parts):
        what, *numbers = parts["why"].split()
        value = numbers[-1] if numbers else ""
        reasons = {
            "many": "with it the chunk has more than 65,536 instances, or its accesses more than 2,097,152 addresses",
            "scalar": f"the scalar `{numbers[0] if numbers else ''}` would be {value} there, which is no word's value",
            "store": f"{self.access(parts['block'], numbers[0]) if what == 'store' else ''} may go to {value}, and there is no such word",
            "lower": f"the loop's lower bound would be {value}, which is no word's value",
            "last": f"the loop's last value would be {value}, which is no word's value",
            "trip": f"the loop would have {value} turns",
        }
        return f"The chunk of {parts['turns']} turns from turn {parts['first']} on was not tried, by what is foretold of {self.instance(parts)}: {reasons[what]}."

    def say_commit(self, parts):
        by = self.candidate(parts["number"])
        return f"{parts['turns']} turns from turn {parts['first']} on were as foretold: {parts['instances']} instances in the order of {by}, in {parts['tiles']} tiles and {parts['phases']} phases; {parts['steps']} steps."

    def say_rollback(self, parts):
        what, *words = parts["how"].split()
        expected, seen = (words[-3], words[-1]) if "expected" in words else ("", words[-1] if words else "")
        differs = f"{expected} was foretold, and it was {seen}"
        reasons = {
            "scalar": f"of the scalar `{words[0] if words else ''}` {differs}",
            "address": f"of {self.access(parts['block'], words[0]) if what == 'address' else ''} the address {differs}",
            "unseen": f"{self.access(parts['block'], words[0]) if what == 'unseen' else ''} went to {seen}, and no turn of the profile had made it",
            "lower": f"of the loop's lower bound {differs}",
            "trip": f"of the loop's number of turns {differs}",
            "condition": "the inner `while` " + ("ended, and one more turn was foretold" if seen == "0" else "went on, and its end was foretold"),
            "ended": "the outermost `while` ended",
            "trap": f"the run trapped: {' '.join(words)}",
            "limit": "the steps were used up",
        }
        return f"The chunk of {parts['turns']} turns from turn {parts['first']} on was rolled back. The first to differ is {self.instance(parts)}: {reasons[what]}."

    def say_form(self, parts):
        *factors, constant = parts["numbers"].split()
        sum_of = " + ".join([constant, *[f"{it}·t{k}" for k, it in enumerate(factors, 1) if it != "0"]])
        tube = f", give or take {parts['low']} to {parts['high']}" if parts["low"] else ""
        return f"{upper(self.datum(parts))} is foretold as {sum_of}{tube}, with t1 the turn of the outermost loop."

    def say_depends(self, parts):
        doubt = "may go to one address" if parts["verdict"] == "maybe" else "could not be told apart, since the numbers of the test grew too large"
        return f"{upper(self.pair(parts))} {doubt}, {self.case(parts)}."

    def say_legal(self, parts):
        return f"{upper(self.candidate(parts['number']))} keeps the order of all that may meet."
