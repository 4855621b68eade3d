"""Messages for people: where a text is refused and why, and which argument makes words no invocation."""
import shlex

import nest_text

# The widest piece of a line that is shown.
WIDE = 96

# Of each kind of docs/LANGUAGE.md, Refusals, and of certificates: what is wrong. The reader's own words say more.
KINDS = {
    "Long": "the text has more bytes than are read",
    "Byte": "a byte that begins no token",
    "Number": f"a number past {nest_text.GREATEST}",
    "Name": "a name of more than 32 bytes",
    "Expected": "a token that can't stand here",
    "Version": "the number behind `nest` is neither 1 nor 2",
    "Known": "a declared name that is visible already",
    "Unknown": "a name that isn't visible",
    "Fixed": "a name that is given a value and is no scalar",
    "Many": "one more than is allowed of these",
    "Deep": "one level or token more than is allowed",
    "Range": "a number out of its range",
    "Empty": "the body of a loop that has nothing in it",
    "Script": "a number or a command that breaks a rule of candidates",
    "Proof": "a certificate can't be read on from here",
}


def printable(text):
    return "".join(it if it.isprintable() and ord(it) < 127 else " " if it in "\t\r" else "?" for it in text)


def shown_line(text, at, end):
    """The line of the text with a caret under each byte from `at` to `end`, and the number of the line."""
    start = text.rfind("\n", 0, at) + 1
    stop = text.find("\n", at)
    stop = len(text) if stop < 0 else stop
    first = max(start, min(at - WIDE // 2, stop - WIDE))
    last = min(stop, first + WIDE)
    before, after = "..." if first > start else "", "..." if last < stop else ""
    carets = "^" * max(1, min(end, max(last, at + 1)) - at)
    number = str(text.count("\n", 0, start) + 1)
    return f"{number:>5} | {before}{printable(text[first:last])}{after}\n      | {' ' * (len(before) + at - first)}{carets}"


def refusal(data, at, kind):
    """Why a text is refused at a byte, as lines."""
    text = data.decode("latin-1")
    why, hint, end = KINDS.get(kind, "the text can't be read on from here"), "", at + 1
    try:
        nest_text.read(data)
    except nest_text.Refusal as found:
        if (found.at, found.kind) == (at, kind):
            why, hint, end = found.why, found.hint, found.end
    line, column = nest_text.place(text, at)
    where, shown_at = f"line {line}, column {column}", at
    if not text[at:].strip() and kind == "Expected":
        # the end of the text: behind the last thing that stands there
        where, shown_at = "at the end of the text", len(text.rstrip())
        end = shown_at + 1
    said = [f"nestrun: {where}: {why}"]
    if kind != "Long":
        said.append(shown_line(text, shown_at, end))
    if hint:
        said.append(f"      {hint}")
    return "\n".join(said) + "\n"


def misuse(words, found):
    """Which argument makes these words no invocation, as lines."""
    if not found.at:
        said = [f"nestrun: {found.why}"]
    else:
        quoted = [shlex.quote(it) for it in words]
        before = " ".join(["nestrun", *quoted[: found.at - 1]])
        said = [f"nestrun: argument {found.at}, {quoted[found.at - 1]}: {found.why}"]
        if max(map(len, quoted)) <= WIDE:
            said.append(f"      {' '.join(['nestrun', *quoted])}\n      {' ' * (len(before) + 1)}{'^' * len(quoted[found.at - 1])}")
    if found.hint:
        said.append(f"      {found.hint}")
    said.append("      ./nestrun --help has all modes, options and ranges")
    return "\n".join(said) + "\n"
