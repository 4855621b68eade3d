"""A small model of a nest's plain run and of its schedules, for pictures: which instances a chunk has, and in which phase
and tile each lies (docs/LANGUAGE.md, Steps; docs/SCHEDULES.md). It is no part of the program, and a check sees that it
counts the same instances, phases and tiles as the program's commit lines in cases/ and examples/.
"""
from dataclasses import dataclass

import nest_text
from nest_text import Assign, Let, Load, Name, Negative, Number, Store

GREATEST = nest_text.GREATEST


class Stop(Exception):
    """The run traps or is limited, or all that was asked for was seen."""


@dataclass
class Instance:
    """A block with the turn numbers of the loops around it; `point` has a number for each loop of the nest."""

    block: object
    point: tuple


def quotient(a, b):
    if b == 0:
        raise Stop()
    size = abs(a) // abs(b)
    return size if (a < 0) == (b < 0) else -size


def remainder(a, b):
    """With the sign of the dividend; it overflows where the quotient does."""
    return a - b * checked(quotient(a, b))


def checked(value):
    if not -GREATEST - 1 <= value <= GREATEST:
        raise Stop()
    return value


OPERATIONS = {
    "+": lambda a, b: a + b,
    "-": lambda a, b: a - b,
    "*": lambda a, b: a * b,
    "/": quotient,
    "%": remainder,
    "==": lambda a, b: int(a == b),
    "!=": lambda a, b: int(a != b),
    "<": lambda a, b: int(a < b),
    "<=": lambda a, b: int(a <= b),
    ">": lambda a, b: int(a > b),
    ">=": lambda a, b: int(a >= b),
}


class Run:
    """The plain run of a file, nest by nest. `seen` is called with each instance as it begins."""

    def __init__(self, file, steps):
        self.memory = [0] * file.memory
        for word, value in [pair for item in file.items for pair in item]:
            self.memory[word] = value
        self.values = dict(file.scalars)
        self.left, self.taken = steps, 0
        self.seen = lambda instance: None
        self.turns = []  # of the nest that runs: the steps taken before each turn of the outermost loop

    def step(self):
        if not self.left:
            raise Stop()
        self.left, self.taken = self.left - 1, self.taken + 1

    def word(self, address):
        if not 0 <= address < len(self.memory):
            raise Stop()
        return address

    def value(self, it):
        if isinstance(it, Number):
            return it.value
        if isinstance(it, Name):
            return self.values[it.name]
        if isinstance(it, Load):
            return self.memory[self.word(self.value(it.address))]
        if isinstance(it, Negative):
            return checked(-self.value(it.operand))
        left = self.value(it.left)
        return checked(OPERATIONS[it.sign](left, self.value(it.right)))

    def statements(self, many):
        for it in many:
            self.step()
            if isinstance(it, (Let, Assign)):
                self.values[it.name] = self.value(it.value)
            elif isinstance(it, Store):
                address = self.value(it.address)
                value = self.value(it.value)
                self.memory[self.word(address)] = value
            else:
                self.statements(it.then if self.value(it.condition) else it.other)

    def begin(self, nest, block, counters):
        self.seen(Instance(block, tuple(counters) + (0,) * (nest.depth - len(counters))))

    def block(self, nest, block, counters):
        if block.statements:
            self.begin(nest, block, counters)
            self.statements(block.statements)

    def loop(self, nest, level, around):
        """Runs the loop at a level, with the turn numbers around it; its number of turns."""
        loop = nest.loops[level - 1]
        if loop.is_for and level > 1:
            self.begin(nest, loop.head, around)
        turn, count = 0, self.trip(loop) if loop.is_for else None
        while self.goes_on(nest, loop, [*around, turn], count):
            if level == 1:
                self.turns.append(self.taken)
            self.block(nest, loop.pre, [*around, turn])
            if level < nest.depth:
                inner = self.loop(nest, level + 1, [*around, turn])
                self.block(nest, loop.post, [*around, turn, inner])
            turn += 1
        return turn

    def trip(self, loop):
        self.step()
        lower, upper = self.value(loop.lower), self.value(loop.upper)
        loop.first = lower
        return max(0, -((lower - upper) // loop.step))

    def goes_on(self, nest, loop, counters, count):
        if loop.is_for:
            self.values[loop.name] = loop.first + loop.step * counters[-1]
            if counters[-1] == count and len(counters) == 1:
                self.turns.append(self.taken)
            return counters[-1] < count
        if len(counters) == 1:
            self.turns.append(self.taken)
        self.begin(nest, loop.head, counters)
        self.step()
        goes = self.value(loop.condition) != 0
        if len(counters) == 1 and goes:
            self.turns.pop()
        return goes


def turn_steps(file, steps):
    """For each nest that began, the steps taken before each of its turns, and at its end."""
    run, found = Run(file, steps), []
    try:
        for nest in file.nests:
            nest.blocks()
            run.turns = []
            found.append(run.turns)
            run.loop(nest, 1, [])
    except Stop:
        pass
    return found


def instances(file, nest_number, first, turns, steps):
    """The instances of a chunk that is as foretold."""
    run, found = Run(file, steps), []
    nest = file.nests[nest_number - 1]

    def seen(instance):
        if instance.point[0] >= first + turns:
            raise Stop()
        if instance.point[0] >= first:
            found.append(instance)

    try:
        for it in file.nests[: nest_number - 1]:
            it.blocks()
            run.loop(it, 1, [])
        nest.blocks()
        run.seen = seen
        run.loop(nest, 1, [])
    except Stop:
        pass
    return [it for it in found if it.point[0] < first + turns]


@dataclass
class Schedule:
    matrix: list
    leading: int
    sizes: list
    is_parallel: list

    def place(self, point):
        return [sum(a * x for a, x in zip(row, point)) for row in self.matrix]

    def tile(self, point):
        r = self.place(point)
        return tuple(r[k] // self.sizes[k] for k in range(self.leading, len(r)))

    def phase(self, point):
        """The phase key: the leading numbers of the place, and the wave."""
        r = self.place(point)
        wave = sum(r[k] // self.sizes[k] for k in range(self.leading, len(r)) if not self.is_parallel[k])
        return (*r[: self.leading], wave)


def schedule_of(script, depth):
    """The schedule that a script's commands make, one after another."""
    made = Schedule([[int(a == b) for b in range(depth)] for a in range(depth)], 0, [1] * depth, [False] * depth)
    for word, *numbers in script:
        if word == "seq":
            made.leading = numbers[0]
        elif word == "swap":
            a, b = numbers[0] - 1, numbers[1] - 1
            made.matrix[a], made.matrix[b] = made.matrix[b], made.matrix[a]
        elif word == "skew":
            a, b = numbers[0] - 1, numbers[1] - 1
            made.matrix[a] = [x + numbers[2] * y for x, y in zip(made.matrix[a], made.matrix[b])]
        elif word == "tile":
            made.sizes[numbers[0] - 1] = numbers[1]
        else:
            for row in numbers:
                made.is_parallel[row - 1] = word == "par"
    return made


def standard_candidates(depth):
    if depth == 1:
        return [[["par", 1], ["tile", 1, 8]], [["tile", 1, 8]]]
    rows = range(1, depth + 1)
    return [
        [["par", 1], *[["tile", row, 8] for row in rows]],
        [["seq", 1], ["par", 2], *[["tile", row, 8] for row in rows[1:]]],
        [["tile", row, 4] for row in rows],
        [*[["skew", row, 1, 1] for row in rows[1:]], *[["tile", row, 4] for row in rows]],
        [["seq", depth - 1], ["tile", depth, 8]],
    ]


def candidates_of(nest):
    return nest.candidates or standard_candidates(nest.depth)


def script_text(script):
    return "; ".join(" ".join(map(str, command)) for command in script)
