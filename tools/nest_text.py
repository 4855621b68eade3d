"""Reads a nest file (docs/LANGUAGE.md) for people: where it can't be read, what was expected there or why it is refused.

The program's own reader decides and is proved; this one stands beside it, for messages and pictures, and a check sees
that both refuse the same texts of cases/ at the same byte for the same kind. `read` gives a `File`, or raises `Refusal`.
A `File` keeps where each access stands in the text, numbered as the lines of a journey number them.
"""
import difflib
from dataclasses import dataclass, field

MOST_BYTES = 1_048_576
GREATEST = 2**63 - 1
KEYWORDS = "nest scalar memory data ramp candidate for below step while let if else".split()
COMMANDS = ["seq", "swap", "skew", "tile", "par", "wave"]
SIGNS = ["==", "!=", "<=", ">=", *"{}()[]=<>+-*/%:,;"]
COMPARISONS = ["==", "!=", "<", "<=", ">", ">="]
LETTERS = "abcdefghijklmnopqrstuvwxyz_"
DIGITS = "0123456789"
MOST = {"scalar": 16, "let": 16, "candidate": 16, "command": 32, "nest": 8, "skew": 6, "if": 8}
# By the version of a file: how deep loops stand, and the accesses of a block.
MOST_DEEP = {1: 4, 2: 6}
MOST_ACCESSES = {1: 32, 2: 64}
MOST_WORDS = 1_048_576


class Refusal(Exception):
    """The first token at which a text can't be read on: where it stands, its kind, and why in words."""

    def __init__(self, at, end, kind, why, hint=""):
        super().__init__(f"{at} {kind}")
        self.at, self.end, self.kind, self.why, self.hint = at, max(end, at + 1), kind, why, hint


@dataclass
class Token:
    at: int
    end: int
    kind: str  # "keyword", "name", "number", "sign" or "end"
    text: str
    value: int = 0


@dataclass
class Number:
    value: int


@dataclass
class Name:
    kind: str  # "scalar", "loop" or "local"
    name: str
    level: int = 0  # of a loop


@dataclass
class Load:
    access: int
    address: object


@dataclass
class Negative:
    operand: object


@dataclass
class Binary:
    sign: str
    left: object
    right: object


@dataclass
class Let:
    name: str
    value: object


@dataclass
class Assign:
    name: str
    value: object


@dataclass
class Store:
    access: int
    address: object
    value: object


@dataclass
class If:
    condition: object
    then: list
    other: list


@dataclass
class Access:
    """An access of a block: its number in the order of evaluation, and where it stands in the text."""

    number: int
    is_store: bool
    at: int
    end: int


@dataclass
class Block:
    """The head of a loop, or the statements before or behind its inner loop."""

    name: str
    part: str
    level: int
    rank: int = 0
    accesses: list = field(default_factory=list)
    statements: list = field(default_factory=list)
    lets: int = 0
    brackets: int = 0


@dataclass
class Loop:
    is_for: bool
    name: str
    lower: object
    upper: object
    step: int
    condition: object
    head: Block
    pre: Block
    post: Block


@dataclass
class Nest:
    loops: list
    candidates: list

    @property
    def depth(self):
        return len(self.loops)

    def blocks(self):
        """The blocks that are there, in the order of the text; the head of an outermost `for` is none."""
        found = []
        for level, loop in enumerate(self.loops, 1):
            found += [loop.head] if level > 1 or not loop.is_for else []
            found += [loop.pre] if loop.pre.statements else []
        found += [loop.post for loop in reversed(self.loops) if loop.post.statements]
        for rank, block in enumerate(found):
            block.rank = rank
        return found


@dataclass
class File:
    text: str
    version: int
    scalars: list
    memory: int
    items: list
    nests: list


def join(words, last="or"):
    """`a, b or c`."""
    words = list(words)
    return words[0] if len(words) == 1 else f"{', '.join(words[:-1])} {last} {words[-1]}"


class Reader:
    def __init__(self, text):
        self.text = text
        self.next_at = 0
        self.ahead = None
        self.tried = []  # what was looked for at the next token
        self.version = 1
        self.memory = 0
        self.scopes = []  # lists of visible names, as name -> (kind, at, level)
        self.ended = {}  # names that are visible no more -> where they were declared
        self.depth = 0

    # Tokens

    def scan(self):
        text, at = self.text, self.next_at
        while at < len(text) and text[at] in " \t\n\r#":
            if text[at] == "#":
                end = text.find("\n", at)
                at = len(text) if end < 0 else end
            else:
                at += 1
        if at == len(text):
            return Token(at, at, "end", "")
        if text[at] in LETTERS or text[at] in DIGITS:
            return self.scan_word(at)
        for sign in SIGNS:
            if text.startswith(sign, at):
                return Token(at, at + len(sign), "sign", sign)
        raise Refusal(at, at + 1, "Byte", *wrong_byte(text[at]))

    def scan_word(self, at):
        text, end = self.text, at + 1
        is_name = text[at] in LETTERS
        while end < len(text) and (text[end] in DIGITS or is_name and text[end] in LETTERS):
            end += 1
        word = text[at:end]
        if is_name:
            if len(word) > 32:
                raise Refusal(at, end, "Name", f"this name has {len(word)} bytes, and a name may have 32")
            return Token(at, end, "keyword" if word in KEYWORDS else "name", word)
        digits = word.lstrip("0") or "0"
        if len(digits) > 19 or int(digits) > GREATEST:
            raise Refusal(at, end, "Number", f"this number is past the greatest one, {GREATEST}")
        return Token(at, end, "number", word, int(digits))

    def peek(self):
        if self.ahead is None:
            self.ahead = self.scan()
            self.tried = []
        return self.ahead

    def take(self):
        token = self.peek()
        self.next_at, self.ahead = token.end, None
        return token

    def is_next(self, *words):
        """Whether the next token is one of these signs or keywords; they are noted as what could stand here."""
        token = self.peek()
        self.tried += [it for it in words if it not in self.tried]
        return token.kind in ("sign", "keyword") and token.text in words

    def is_kind(self, kind, said):
        token = self.peek()
        self.tried += [said] if said not in self.tried else []
        return token.kind == kind

    def need(self, word, hint=""):
        if not self.is_next(word):
            self.unexpected(hint)
        return self.take()

    def need_number(self, hint=""):
        if not self.is_kind("number", "a number"):
            self.unexpected(hint)
        return self.take()

    def need_signed(self, hint=""):
        first = self.peek()
        sign = -1 if self.is_next("-") else 1
        if sign < 0:
            self.take()
        last = self.need_number(hint)
        return sign * last.value, first, last

    def unexpected(self, hint=""):
        token = self.peek()
        found = "the text ends here" if token.kind == "end" else f"`{token.text}` can't stand here"
        if token.kind == "keyword" and "a name" in self.tried:
            hint = hint or f"`{token.text}` is a keyword, and no name"
        raise Refusal(token.at, token.end, "Expected", f"{found}: expected {expected(self.tried)}", hint or self.usual_slip(token))

    def usual_slip(self, token):
        """What is often meant by a token that can't stand here."""
        before = self.text[: token.at].rstrip()
        if token.text == ";" and "a name" not in self.tried:
            return "statements stand behind one another with no `;`"
        if token.text == "=" and "==" in self.tried:
            return "`==` compares; `=` gives a value, at the start of a statement alone"
        if token.text in COMPARISONS and "+" in self.tried:
            return "an expression has one comparison; put one of them into parentheses"
        if token.text in ("+", "-", "*", "/", "%") and self.tried == ["="]:
            return f"there is no `{token.text}=`: write the name, `=`, and the whole value"
        if token.text == "if" and before.endswith("else"):
            return "write `else { if .. { .. } }`"
        if token.text in ("for", "while") and "}" in self.tried:
            return "a body has one inner loop, and none in a branch of an `if`"
        if token.kind == "name" and self.tried == ["-", "a number"] or token.kind == "name" and self.tried == ["a number"]:
            return "only a number written out can stand here, no name and no expression"
        return ""

    # Names

    def visible(self, name):
        for scope in self.scopes:
            if name in scope:
                return scope[name]
        return None

    def declared(self, kind, level=0):
        """The name of a declaration, which becomes visible by `show`."""
        if not self.is_kind("name", "a name"):
            self.unexpected()
        token = self.take()
        old = self.visible(token.text)
        if old:
            where = place(self.text, old[1])[0]
            raise Refusal(token.at, token.end, "Known", f"`{token.text}` is visible already: {kind_of(old[0])}, declared in line {where}", "give this one another name")
        return token, (kind, token.at, level)

    def show(self, token, entry):
        self.scopes[-1][token.text] = entry

    def close_scope(self):
        for name, entry in self.scopes.pop().items():
            self.ended[name] = entry[1]

    def look_up(self, token):
        found = self.visible(token.text)
        if found:
            return found
        names = [name for scope in self.scopes for name in scope]
        near = difflib.get_close_matches(token.text, names, 1)
        if token.text in self.ended:
            hint = f"the one of line {place(self.text, self.ended[token.text])[0]} ended with the list of statements, or the loop, that it stands in"
        elif near:
            hint = f"is `{near[0]}` meant?"
        elif names:
            hint = f"visible here: {join([f'`{it}`' for it in names[:12]], 'and')}" + (" and more" if len(names) > 12 else "")
        else:
            hint = "no name is visible here"
        raise Refusal(token.at, token.end, "Unknown", f"no name `{token.text}` is visible here", hint)

    # The file

    def file(self):
        self.need("nest", "a file begins with `nest 1` or `nest 2`")
        number = self.need_number("a file begins with `nest 1` or `nest 2`")
        if number.value not in (1, 2):
            raise Refusal(number.at, number.end, "Version", f"there is no version {number.text}: `nest 1` holds one nest, `nest 2` one to eight")
        self.version = number.value
        self.scopes.append({})
        scalars = []
        while self.is_next("scalar"):
            self.scalar(scalars)
        self.need("memory")
        size = self.need_number("`memory N` says how many words there are")
        if size.value > MOST_WORDS:
            raise Refusal(size.at, size.end, "Range", f"a memory has at most {MOST_WORDS:,} words")
        self.memory = size.value
        items = []
        while self.is_next("data", "ramp"):
            items.append(self.data() if self.take().text == "data" else self.ramp())
        return File(self.text, self.version, scalars, self.memory, items, self.nests())

    def scalar(self, scalars):
        word = self.take()
        if len(scalars) == MOST["scalar"]:
            raise Refusal(word.at, word.end, "Many", f"a file has at most {MOST['scalar']} scalars")
        token, entry = self.declared("scalar")
        self.need("=")
        scalars.append((token.text, self.need_signed()[0]))
        self.show(token, entry)

    def data(self):
        first = self.need_number().value
        self.need(":")
        values = []
        while True:
            token = self.peek()
            if not (self.is_next("-") or self.is_kind("number", "a number")):
                self.unexpected()
            if first + len(values) >= self.memory:
                raise Refusal(token.at, token.end, "Range", f"this value would go to word {first + len(values)}, and the memory has the words 0 to {self.memory - 1}" if self.memory else "the memory has no word")
            values.append(self.need_signed()[0])
            if not self.is_next(","):
                return [(first + k, value) for k, value in enumerate(values)]
            self.take()

    def ramp(self):
        form = "`ramp F C S A B` sets C words, the first at F, each S behind the last, to A, A + B and so on"
        first, count = self.need_number(form).value, self.need_number(form).value
        stride = self.need_number(form)
        if stride.value == 0:
            raise Refusal(stride.at, stride.end, "Range", "the stride of a ramp, its third number, can't be 0")
        start = self.need_signed(form)[0]
        growth, _, last = self.need_signed(form)
        if count:
            word, value = first + stride.value * (count - 1), start + growth * (count - 1)
            if word >= self.memory:
                raise Refusal(last.at, last.end, "Range", f"this ramp reaches word {word}, and the memory has {self.memory} words", form)
            if not -GREATEST - 1 <= value <= GREATEST:
                raise Refusal(last.at, last.end, "Range", f"the last value of this ramp is {value}, which is no word's value", form)
        return [(first + stride.value * k, start + growth * k) for k in range(count)]

    def nests(self):
        found = [self.nest()]
        while self.version == 2 and self.is_next("for", "while"):
            if len(found) == MOST["nest"]:
                word = self.peek()
                raise Refusal(word.at, word.end, "Many", f"a file has at most {MOST['nest']} nests")
            found.append(self.nest())
        if not self.is_kind("end", "the end of the text"):
            one = self.version == 1 and self.peek().text in ("for", "while")
            self.unexpected("version 1 holds one nest: begin the file with `nest 2`" if one else "")
        return found

    def nest(self):
        loops, candidates = [], []
        self.loop(loops)
        while self.is_next("candidate"):
            word = self.take()
            if len(candidates) == MOST["candidate"]:
                raise Refusal(word.at, word.end, "Many", f"a nest has at most {MOST['candidate']} candidates")
            candidates.append(self.candidate(len(loops)))
        return Nest(loops, candidates)

    # Loops

    def loop(self, loops):
        if not self.is_next("for", "while"):
            self.unexpected()
        word = self.take()
        level = len(loops) + 1
        if level > MOST_DEEP[self.version]:
            hint = "version 2 has six" if self.version == 1 else ""
            raise Refusal(word.at, word.end, "Deep", f"in version {self.version} loops stand at most {MOST_DEEP[self.version]} deep, and this is one more", hint)
        head = Block(f"head{level}", "head", level)
        loop = Loop(word.text == "for", "", None, None, 1, None, head, Block(f"pre{level}", "pre", level), Block(f"post{level}", "post", level))
        self.scopes.append({})
        if loop.is_for:
            token, entry = self.declared("loop", level)
            loop.name = token.text
            self.need("=", "a loop is `for NAME = LOWER below BOUND { .. }`")
            loop.lower = self.expression(head)
            self.need("below", "a loop is `for NAME = LOWER below BOUND { .. }`")
            loop.upper = self.expression(head)
            if self.is_next("step"):
                self.take()
                loop.step, _, last = self.need_signed("the stride behind `step` is a number")
                if loop.step == 0:
                    raise Refusal(last.at, last.end, "Range", "a loop can't go in steps of 0")
            self.show(token, entry)
        else:
            loop.condition = self.expression(head)
        loops.append(loop)
        self.body(loops, loop)
        self.close_scope()

    def body(self, loops, loop):
        self.need("{")
        loop.pre.statements = self.statements(loop.pre, 0)
        has_inner = self.is_next("for", "while")
        if has_inner:
            self.loop(loops)
            loop.post.statements = self.statements(loop.post, 0)
        close = self.need("}")
        if not has_inner and not loop.pre.statements:
            raise Refusal(close.at, close.end, "Empty", "the body of this loop has nothing in it: it needs a statement or an inner loop")

    # Statements

    def statements(self, block, ifs):
        self.scopes.append({})
        found = []
        while self.is_next("let", "if", "[") or self.is_kind("name", "a scalar's name"):
            found.append(self.statement(block, ifs))
        self.close_scope()
        return found

    def statement(self, block, ifs):
        token = self.take()
        if token.text == "let":
            return self.let(block, token)
        if token.text == "if":
            return self.conditional(block, ifs, token)
        if token.text == "[":
            return self.store(block, token)
        entry = self.look_up(token)
        if entry[0] != "scalar":
            raise Refusal(token.at, token.end, "Fixed", f"`{token.text}` is {kind_of(entry[0])}, and only a scalar can be given a value", "declare a `scalar` before `memory`, or name a new value by `let`")
        self.need("=")
        return Assign(token.text, self.expression(block))

    def let(self, block, word):
        if block.lets == MOST["let"]:
            raise Refusal(word.at, word.end, "Many", f"the statements before an inner loop, or behind it, have at most {MOST['let']} `let`")
        block.lets += 1
        token, entry = self.declared("local")
        self.need("=")
        value = self.expression(block)
        self.show(token, entry)
        return Let(token.text, value)

    def conditional(self, block, ifs, word):
        if ifs == MOST["if"]:
            raise Refusal(word.at, word.end, "Deep", f"conditions stand at most {MOST['if']} within one another")
        found = If(self.expression(block), [], [])
        self.need("{")
        found.then = self.statements(block, ifs + 1)
        self.need("}")
        if self.is_next("else"):
            self.take()
            self.need("{")
            found.other = self.statements(block, ifs + 1)
            self.need("}")
        return found

    def store(self, block, bracket):
        self.begin_access(block, bracket)
        address = self.expression(block)
        end = self.need("]").end
        self.need("=", "a load by itself is no statement: `[ADDRESS] = VALUE` stores")
        value = self.expression(block)
        return Store(self.end_access(block, True, bracket.at, end), address, value)

    def begin_access(self, block, bracket):
        most = MOST_ACCESSES[self.version]
        if block.brackets == most:
            hint = f"version 2 has {MOST_ACCESSES[2]}" if self.version == 1 else ""
            raise Refusal(bracket.at, bracket.end, "Many", f"a block has at most {most} accesses `[ ]` in version {self.version}, those of its conditions counted too", hint)
        block.brackets += 1

    def end_access(self, block, is_store, at, end):
        block.accesses.append(Access(len(block.accesses) + 1, is_store, at, end))
        return len(block.accesses)

    # Expressions

    def expression(self, block):
        return self.comparison(block, {"tokens": 0, "open": 0})

    def count(self, token, counts, opens=0):
        counts["tokens"] += 1
        counts["open"] += opens
        if counts["tokens"] > 256:
            raise Refusal(token.at, token.end, "Deep", "an expression has at most 256 tokens, and this is one more", "name a part of it by `let`")
        if counts["open"] > 32:
            raise Refusal(token.at, token.end, "Deep", "at most 32 brackets, parentheses and prefix `-` may be open at once, and this is one more", "name a part of it by `let`")

    def comparison(self, block, counts):
        left = self.sum(block, counts)
        if self.is_next(*COMPARISONS):
            sign = self.take()
            self.count(sign, counts)
            left = Binary(sign.text, left, self.sum(block, counts))
        return left

    def sum(self, block, counts):
        left = self.term(block, counts)
        while self.is_next("+", "-"):
            sign = self.take()
            self.count(sign, counts)
            left = Binary(sign.text, left, self.term(block, counts))
        return left

    def term(self, block, counts):
        left = self.operand(block, counts)
        while self.is_next("*", "/", "%"):
            sign = self.take()
            self.count(sign, counts)
            left = Binary(sign.text, left, self.operand(block, counts))
        return left

    def operand(self, block, counts):
        token = self.peek()
        if self.is_kind("number", "a number"):
            self.count(self.take(), counts)
            return Number(token.value)
        if self.is_kind("name", "a name"):
            self.take()
            kind, _, level = self.look_up(token)
            self.count(token, counts)
            return Name(kind, token.text, level)
        if not self.is_next("-", "[", "("):
            self.unexpected()
        self.take()
        return self.opened(block, counts, token)

    def opened(self, block, counts, token):
        """What begins with `-`, `[` or `(`."""
        if token.text == "[":
            self.begin_access(block, token)
        self.count(token, counts, 1)
        if token.text == "-":
            inner = Negative(self.operand(block, counts))
        else:
            inner = self.comparison(block, counts)
            close = self.need("]" if token.text == "[" else ")")
            self.count(close, counts)
        counts["open"] -= 1
        return Load(self.end_access(block, False, token.at, close.end), inner) if token.text == "[" else inner

    # Candidates

    def candidate(self, depth):
        self.need("{")
        commands = []
        if self.is_next("}"):
            self.take()
            return commands
        while True:
            commands.append(self.command(commands, depth))
            if not self.is_next(";"):
                break
            self.take()
        self.need("}", "commands are divided by `;`")
        return commands

    def command(self, before, depth):
        word = self.peek()
        self.tried += COMMANDS
        if word.text not in COMMANDS:
            self.unexpected()
        self.take()
        if len(before) == MOST["command"]:
            raise Refusal(word.at, word.end, "Many", f"a candidate has at most {MOST['command']} commands")
        for name, most in [("seq", 1), ("skew", MOST["skew"])]:
            if word.text == name and sum(it[0] == name for it in before) == most:
                raise Refusal(word.at, word.end, "Script", f"a candidate has at most {most} `{name}`")
        rows = Rows(self, depth)
        if word.text == "seq":
            return ["seq", rows.number(0, depth, f"`seq S` has S from 0 to the nest's depth, {depth}")]
        if word.text in ("par", "wave"):
            return [word.text, *rows.several(word.text)]
        first = rows.row()
        if word.text == "tile":
            return ["tile", first, rows.number(1, 65_536, "the size of a tile is 1 to 65,536")]
        second = rows.row(other=first)
        return ["swap", first, second] if word.text == "swap" else ["skew", first, second, rows.factor()]


class Rows:
    """The numbers of a candidate's command."""

    def __init__(self, reader, depth):
        self.reader, self.depth = reader, depth

    def number(self, least, most, rule, other=None):
        token = self.reader.need_number()
        if not least <= token.value <= most:
            raise Refusal(token.at, token.end, "Script", f"{rule}, and this is {token.text}")
        if token.value == other:
            raise Refusal(token.at, token.end, "Script", f"this command names two different rows, and {token.text} stands twice")
        return token.value

    def row(self, other=None):
        return self.number(1, self.depth, f"rows are numbered from 1 to the nest's depth, {self.depth}", other)

    def factor(self):
        value, _, last = self.reader.need_signed()
        if not -8 <= value <= 8:
            raise Refusal(last.at, last.end, "Script", f"`skew A B M` has M from -8 to 8, and this is {value}")
        return value

    def several(self, word):
        rows = [self.row()]
        while self.reader.is_kind("number", "a number"):
            token = self.reader.peek()
            if len(rows) == 6:
                raise Refusal(token.at, token.end, "Script", f"`{word}` names one to six rows, and this is the seventh")
            rows.append(self.row())
        return rows


def wrong_byte(byte):
    if byte == "!":
        return "`!` alone is no sign", "`!=` stands for unequal; `x == 0` is true where x is 0"
    if byte.isalpha() and byte.isascii():
        return f"`{byte}` begins no token", "names have small letters, digits and `_`"
    if byte in "&|":
        return f"`{byte}` begins no token", "write an `if` within an `if`, or a product or a sum of comparisons"
    if byte in "\"'":
        return f"`{byte}` begins no token", "there are no texts in this language; a comment begins with `#`"
    if byte == ".":
        return "`.` begins no token", "all numbers are whole"
    shown = f"`{byte}`" if 32 < ord(byte) < 127 else f"the byte {ord(byte)}"
    return f"{shown} begins no token", "outside of comments a file has ASCII alone" if ord(byte) > 126 else ""


def kind_of(kind):
    return {"scalar": "a scalar", "loop": "the name of a loop", "local": "a `let`"}[kind]


def expected(tried):
    """What could stand somewhere, in words."""
    names = {"a scalar's name": "a scalar's name", "a name": "a name", "a number": "a number", "the end of the text": "the end of the text"}
    rest = list(tried)
    said = []
    operators = ["*", "/", "%", "+", "-"]
    if all(it in rest for it in operators) and rest.index("*") < rest.index("+"):
        rest = [it for it in rest if it not in operators and it not in COMPARISONS]
        said.append("an operator")
    if all(it in rest for it in ("let", "if", "[")):
        rest = [it for it in rest if it not in ("let", "if", "[", "a scalar's name")]
        said.append("a statement (`let`, `if`, a scalar's name or `[`)")
    if all(it in rest for it in ("a number", "a name", "-", "[", "(")):
        rest = [it for it in rest if it not in ("a number", "a name", "-", "[", "(")]
        said.append("a value (a number, a name, `[`, `(` or `-`)")
    if all(it in rest for it in COMMANDS):
        rest = [it for it in rest if it not in COMMANDS]
        said.append(f"a command ({join([f'`{it}`' for it in COMMANDS])})")
    return join(said + [names.get(it, f"`{it}`") for it in rest])


def place(text, at):
    """The line and the column of a byte, both from 1."""
    before = text[:at]
    return before.count("\n") + 1, at - before.rfind("\n")


def read(data):
    """The file that these bytes are, or `Refusal`. A character stands for each byte, so offsets are those of bytes."""
    if len(data) > MOST_BYTES:
        raise Refusal(MOST_BYTES, MOST_BYTES + 1, "Long", f"a text has at most {MOST_BYTES:,} bytes, and this one has more")
    return Reader(data.decode("latin-1")).file()
