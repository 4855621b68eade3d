"""tools/journey reads and explains every journey and every listing of cases/ and examples/, its model counts the instances,
phases, tiles and steps of each commit line as the program does, and the pictures of docs/pictures are those that it makes.

The last line is `journey: N passed, M failed`; the exit is 1 where one failed or where a kind of line never came.
"""
import os
import re
import sys

sys.dont_write_bytecode = True
HERE = os.path.dirname(os.path.abspath(__file__))
ROOT = os.path.dirname(HERE)
sys.path.insert(0, HERE)
import front_check
import journey_lines
import journey_picture
import nest_model
import nest_text

# A picture of docs/pictures, and the turn from which its chunk was committed.
PICTURES = {"linked_list": 4, "sweep": 4, "triangle": 4}
# The model is slow, so runs of more steps are read but not counted, and so many chunks of a run are.
MOST_STEPS, MOST_CHUNKS = 20_000, 6
# Each WHY of a held line and each HOW of a rolled back one that cases/ have.
REASONS = ["held many", "held scalar", "held store", "held lower", "held trip"]
REASONS += ["rollback scalar", "rollback address", "rollback unseen", "rollback condition", "rollback ended", "rollback trap", "rollback limit"]


def is_for_us(words, status):
    return words and words[0] in ("run", "deps") and status not in (2, 64)


def steps_of(words):
    joined = " ".join(words)
    found = re.search(r"--steps[ =](\d+)", joined)
    return int(found[1]) if found else 1_000_000


def check_commits(tally, where, journey):
    """The model's numbers for the first chunks of a run."""
    left = MOST_CHUNKS
    for nest in journey.nests:
        known = journey.file.nests[nest.number - 1]
        for it in nest.segments:
            if it.kind != "committed" or not left:
                continue
            left -= 1
            parts = {name: int(value) for name, value in it.parts.items()}
            points = [it.point for it in nest_model.instances(journey.file, nest.number, it.first, it.turns, journey.steps)]
            schedule = nest_model.schedule_of(nest_model.candidates_of(known)[parts["number"] - 1], known.depth)
            cells = {(schedule.phase(it), schedule.tile(it)) for it in points}
            steps = journey.turn_steps[nest.number - 1]
            mine = (len(points), len({phase for phase, _ in cells}), len(cells), steps[it.first + it.turns] - steps[it.first])
            tally.holds(mine == (parts["instances"], parts["phases"], parts["tiles"], parts["steps"]), f"{where}: the model has {mine} for {it.lines[0]}")


def check_answer(tally, where, text, answer, steps, seen):
    file = nest_text.read(text)
    told = re.search(r"^steps (\d+)$", answer, re.M)
    is_short = not told or int(told[1]) <= MOST_STEPS
    journey = journey_lines.read(answer, file if is_short else None, steps)
    for line, said in journey_lines.sentences(journey):
        word, parts = journey_lines.parts_of(line)
        reason = parts.get("why") or parts.get("how")
        seen.update([word, f"{word} {reason.split()[0]}"] if reason else [word])
        tally.holds((said[:1].isupper() or said[:1].isdigit()) and said.endswith(".") and "None" not in said, f"{where}: {line!r} is said as {said!r}")
    tally.holds(len(journey_lines.reasons(journey)) <= len(journey.lines), f"{where}: reasons")
    for nest in journey.nests:
        if nest.segments:
            turns = sum(it[2] for it in journey_lines.counts(journey, nest))
            tally.holds(turns == nest.turns, f"{where}: nest {nest.number} has {nest.turns} turns, and its kinds {turns}")
    tally.holds(journey_picture.picture(journey).endswith("</svg>\n"), f"{where}: no picture")
    if is_short:
        check_commits(tally, where, journey)


def read(*names):
    with open(os.path.join(ROOT, *names), encoding="utf-8") as file:
        return file.read()


def check_pictures(tally):
    for name, first in PICTURES.items():
        file = nest_text.read(read("examples", f"{name}.nest").encode())
        made = journey_picture.picture(journey_lines.read(read("examples", f"{name}.run"), file), first)
        tally.holds(read("docs", "pictures", f"{name}.svg") == made, f"docs/pictures/{name}.svg isn't what `tools/journey picture examples/{name}.run --file examples/{name}.nest --grid {first}` makes")


def check_sentences(tally):
    """Accesses are named by their text, in the order in which they are evaluated."""
    file = nest_text.read(b"nest 1 memory 9 for i = 0 below 3 { [[i] + 4] = [[i + 1]] * 2 }")
    journey = journey_lines.read("profile 0 turns 2\nrollback 2 turns 1 at pre1 (2) address 4 expected 1 seen 2\nillegal 1 pair pre1.1 pre1.3 case 1 row 1 above maybe\n", file)
    said = [said for _, said in journey_lines.sentences(journey)]
    for word in ("lower", "trip"):
        bounds = journey_lines.read(f"rollback 4 turns 2 at head2 (5) {word} expected 3 seen 4\nplain 4 turns 2\n", file)
        tally.holds("3 was foretold, and it was 4" in next(journey_lines.sentences(bounds))[1], f"a rollback for {word}")
    tally.holds("the store to `[[i] + 4]`" in said[1] and "1 was foretold, and it was 2" in said[1], f"access 4 is said as {said[1]!r}")
    tally.holds("the load of `[i]`" in said[2] and "the load of `[[i + 1]]`" in said[2], f"accesses 1 and 3 are said as {said[2]!r}")


def main():
    tally, seen = front_check.Tally("journey"), set()
    for where, words, text, written, status in front_check.cases():
        if is_for_us(words, status):
            check_answer(tally, where, text, written.decode(), steps_of(words), seen)
    for name in sorted(os.listdir(os.path.join(ROOT, "examples"))):
        base, ending = os.path.splitext(name)
        answer = read("examples", name) if ending in (".run", ".deps") else "refused"
        if not answer.startswith("refused"):
            check_answer(tally, f"examples/{name}", read("examples", f"{base}.nest").encode(), answer, 1_000_000, seen)
    check_pictures(tally)
    check_sentences(tally)
    for it in [*journey_lines.SHAPES, *REASONS]:
        tally.holds(it in seen, f"no case has a line `{it}`")
    print(f"journey: {tally.passed} passed, {tally.failed} failed")
    return 1 if tally.failed or not tally.passed else 0


if __name__ == "__main__":
    sys.exit(main())
