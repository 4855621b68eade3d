"""How long a build still takes, in words.

usage: forecast.py RECORD LANES NOW

RECORD has a line `crate NAME LINES KEPT LIBRARY..` for each crate, in an order in which libraries come first (KEPT is 1
where an earlier proof was kept), and lines `started NAME SECOND` and `done NAME SECOND`, as they happened. LANES crates
are proved side by side. The rest is played through with what the done ones took, so that a long chain of crates counts.
"""
import sys

# What a crate takes before any was proved here: so many seconds, and so many for a line; one whose proof was kept, less.
SECONDS, SECONDS_A_LINE, KEPT_SECONDS = 35, 0.04, 10
# So many seconds of foretold work weigh as much as the first guess.
TRUST = 120


def read(lines):
    crates, started, done = {}, {}, {}
    for line in lines:
        word, name, *rest = line.split()
        if word == "crate":
            kept = rest[1] == "1"
            crates[name] = (KEPT_SECONDS if kept else SECONDS + SECONDS_A_LINE * int(rest[0]), rest[2:])
        else:
            (started if word == "started" else done)[name] = float(rest[0])
    return crates, started, done


def scale(crates, started, done):
    """How many times as long as foretold the done crates took."""
    foretold = sum(crates[name][0] for name in done)
    took = sum(done[name] - started[name] for name in done)
    return (took + TRUST) / (foretold + TRUST)


def seconds_left(lines, lanes, now):
    crates, started, done = read(lines)
    factor = scale(crates, started, done)
    takes = {name: factor * crates[name][0] for name in crates}
    # when each crate is done; one that runs may take longer than foretold
    ends = dict(done)
    running = {name: max(now + 5, started[name] + takes[name]) for name in started if name not in done}
    waiting = [name for name in crates if name not in started]
    at = now
    while running or waiting:
        for name in [it for it in waiting if all(library in ends for library in crates[it][1])]:
            if len(running) < lanes:
                running[name] = at + takes[name]
                waiting.remove(name)
        name = min(running, key=running.get)
        at = ends[name] = running.pop(name)
    return max(ends.values(), default=now) - now


def said(minutes):
    return f"about {minutes} minutes" if minutes > 1 else "about a minute" if minutes else "less than a minute"


def main():
    with open(sys.argv[1], encoding="utf-8") as record:
        left = seconds_left(record, int(sys.argv[2]), float(sys.argv[3]))
    print(said(round(left / 60)))


if __name__ == "__main__":
    main()
