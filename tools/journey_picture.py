"""A journey as an SVG: one file, read in the light and in the dark. The turns are a time line, one band a nest, each piece
with its line as a title; below it, on request, the instances of a committed chunk, coloured by phase, with lines between
tiles."""
from xml.sax.saxutils import escape

import journey_lines
import nest_model

WIDE, LEFT, BAND = 900, 20, 34
# The most cells that a grid shows.
MOST_CELLS = 20_000
STYLE = """
  .paper { fill: #ffffff } text { fill: #1f2328; font: 13px sans-serif } .small { font-size: 11px }
  .axis { stroke: #8c959f } .edge { stroke: #1f2328; stroke-width: 1.6; fill: none } .piece { stroke: #ffffff }
  .profiled { fill: #8c959f } .committed { fill: #2da44e } .held { fill: #bf8700 } .rolled { fill: #cf222e } .plain { fill: #d0d7de }
  .mark { stroke: #1f2328; stroke-width: 2 }
  @media (prefers-color-scheme: dark) {
    .paper { fill: #0d1117 } text { fill: #e6edf3 } .edge { stroke: #e6edf3 } .piece { stroke: #0d1117 }
    .plain { fill: #484f58 } .committed { fill: #3fb950 } .rolled { fill: #f85149 } .mark { stroke: #e6edf3 }
  }
"""


def rectangle(style, x, y, wide, high, title="", more=""):
    inner = f"<title>{escape(title)}</title>" if title else ""
    return f'<rect class="{style}" x="{x:.2f}" y="{y:.2f}" width="{wide:.2f}" height="{high:.2f}"{more}>{inner}</rect>'


def text(x, y, said, more=""):
    return f'<text x="{x:.2f}" y="{y:.2f}"{more}>{escape(said)}</text>'


def line(style, x1, y1, x2, y2):
    return f'<line class="{style}" x1="{x1:.2f}" y1="{y1:.2f}" x2="{x2:.2f}" y2="{y2:.2f}"/>'


def tick(turns):
    """A round distance that gives at most ten of them."""
    size = 1
    while turns / size > 10:
        size *= 5 if str(size)[0] == "2" and turns / (size * 2.5) <= 10 else 2
    return size


def band(nest, top):
    """The turns of a nest from left to right, with a mark where a chunk's first deviation was."""
    scale = WIDE / max(nest.turns, 1)
    parts = [text(LEFT, top - 8, f"nest {nest.number}: {nest.turns} turns of the outermost loop")]
    for it in nest.segments:
        x, wide = LEFT + it.first * scale, it.turns * scale
        parts.append(rectangle(f"piece {it.kind.split()[0]}", x, top, wide, BAND, "\n".join(it.lines)))
        at = (it.parts.get("at") or "").split(",")[0]
        if it.kind in ("held", "rolled back") and at.isdigit():
            x = LEFT + min(int(at), nest.turns) * scale
            parts.append(line("mark", x, top - 4, x, top + BAND + 4))
    for turn in range(0, nest.turns + 1, tick(nest.turns)):
        x = LEFT + turn * scale
        parts += [line("axis", x, top + BAND, x, top + BAND + 6), text(x, top + BAND + 19, str(turn), ' class="small" text-anchor="middle"')]
    return parts


def legend(journey, top):
    parts, x = [], LEFT
    for kind in journey_lines.MARKS:
        turns = sum(it.turns for nest in journey.nests for it in nest.segments if it.kind == kind)
        if turns:
            parts += [rectangle(kind.split()[0], x, top - 11, 13, 13), text(x + 18, top, f"{kind}: {turns} turns")]
            x += 40 + 7.2 * len(f"{kind}: {turns} turns")
    if any(it.kind in ("held", "rolled back") for nest in journey.nests for it in nest.segments):
        parts += [line("mark", x + 3, top - 13, x + 3, top + 4), text(x + 12, top, "the first deviation")]
    return parts


def cells_of(journey, first, number):
    """The points of the chunk that was committed from a turn on, with the phase and tile of each, and what is drawn."""
    if not journey.file:
        raise journey_lines.Unread("a grid needs --file, the nest file")
    nests = [it for it in journey.nests if it.number == number]
    chunk = next((it for nest in nests for it in nest.segments if it.kind == "committed" and it.first == first), None)
    if chunk is None:
        raise journey_lines.Unread(f"no chunk was committed from turn {first} of nest {number} on")
    nest = journey.file.nests[number - 1]
    if nest.depth > 2:
        raise journey_lines.Unread("a grid shows one or two loops, and this nest has more")
    script = nest_model.candidates_of(nest)[int(chunk.parts["number"]) - 1]
    schedule = nest_model.schedule_of(script, nest.depth)
    found = {}
    for it in nest_model.instances(journey.file, number, first, chunk.turns, journey.steps):
        found[it.point] = (schedule.phase(it.point), schedule.tile(it.point))
    if len(found) > MOST_CELLS:
        raise journey_lines.Unread(f"this chunk has {len(found):,} points, and a grid shows {MOST_CELLS:,}")
    return chunk, nest, script, found


def colour(at, count):
    """The colour of a phase: from blue over green to red."""
    hue = 220 - 220 * at / max(count - 1, 1) if count > 1 else 210
    return f"hsl({hue:.0f} 62% {48 if at % 2 == 0 else 62}%)"


def edges(points, x_of, y_of, size):
    """Lines between neighbours of different tiles, and around all points."""
    for point, here in points.items():
        x, y = x_of(point), y_of(point)
        for dx, dy, ends in [(1, 0, (x + size, y, x + size, y + size)), (0, 1, (x, y + size, x + size, y + size))]:
            if points.get(moved(point, dx, dy)) != here:
                yield line("edge", *ends)
        for dx, dy, ends in [(-1, 0, (x, y, x, y + size)), (0, -1, (x, y, x + size, y))]:
            if moved(point, dx, dy) not in points:
                yield line("edge", *ends)


def moved(point, dx, dy):
    """The point beside one: the inner loop goes to the right, and the outer one down; a single loop to the right."""
    return (point[0] + dx, *([] if dy == 0 else [dy])) if len(point) == 1 else (point[0] + dy, point[1] + dx)


def grid(journey, first, number, top):
    chunk, nest, script, points = cells_of(journey, first, number)
    phases = sorted({phase for phase, _ in points.values()})
    across = [point[-1] for point in points]
    down = [point[0] if nest.depth == 2 else 0 for point in points]
    size = min(26, WIDE * 0.6 / (max(across) - min(across) + 1))

    def x_of(point):
        return LEFT + 60 + (point[-1] - min(across)) * size

    def y_of(point):
        return top + 44 + ((point[0] if nest.depth == 2 else 0) - min(down)) * size

    said = f"the chunk from turn {chunk.first} on: {len(phases)} phases, {len(set(points.values()))} tiles, by candidate {chunk.parts['number']}"
    parts = [text(LEFT, top, f"{said}: {nest_model.script_text(script)}")]
    parts.append(text(LEFT + 60, top + 22, f"turn of the inner loop, {min(across)} to {max(across)}, to the right; of the outer loop, down" if nest.depth == 2 else f"turn of the loop, {min(across)} to {max(across)}", ' class="small"'))
    for point, (phase, tile) in points.items():
        title = f"turn {', '.join(map(str, point))}: phase {phases.index(phase) + 1}, tile {', '.join(map(str, tile))}"
        parts.append(rectangle("cell", x_of(point), y_of(point), size, size, title, f' fill="{colour(phases.index(phase), len(phases))}"'))
    parts += edges(points, x_of, y_of, size)
    for turn in sorted(set(down)) if nest.depth == 2 else []:
        parts.append(text(LEFT + 52, y_of((turn, 0)) + size / 2 + 4, str(turn), ' class="small" text-anchor="end"'))
    bottom = top + 44 + (max(down) - min(down) + 1) * size
    key = LEFT + 90 + (max(across) - min(across) + 1) * size
    for at in range(min(len(phases), 14)):
        y = top + 44 + 20 * at
        parts += [rectangle("cell", key, y, 13, 13, "", f' fill="{colour(at, len(phases))}"'), text(key + 19, y + 11, f"phase {at + 1}")]
    if len(phases) > 14:
        parts.append(text(key, top + 44 + 20 * 14 + 11, f"and {len(phases) - 14} more"))
    return parts, max(bottom, top + 44 + 20 * min(len(phases), 15))


def picture(journey, first=None, number=1):
    top, parts = 40, []
    for nest in journey.nests:
        if nest.segments:
            parts += band(nest, top)
            top += BAND + 60
    parts += legend(journey, top - 6)
    bottom = top + 12
    if first is not None:
        cells, bottom = grid(journey, first, number, top + 34)
        parts += cells
    high = bottom + 16
    head = f'<svg xmlns="http://www.w3.org/2000/svg" viewBox="0 0 {WIDE + 2 * LEFT} {high:.0f}" width="{WIDE + 2 * LEFT}" height="{high:.0f}">'
    return "\n".join([head, f"<style>{STYLE}</style>", rectangle("paper", 0, 0, WIDE + 2 * LEFT, high), *parts, "</svg>"]) + "\n"
