#!/usr/bin/env python3
"""A picture of what `scan` lists: points of sets, arrows of maps.

    iscc --at n=5 < script.iscc | python3 examples/draw.py > picture.svg

Each line that is a listing is drawn over the ones before it; other lines are passed over. A tuple stands at its first two numbers, to the
right and up (`--axes 1,0`: at others), and a tuple of one number on the line. A point of a set has the colour of its space. Of a set of
pairs, such as `scan wrap (tile^-1);`, the second tuple is drawn, in a colour for each first one: a tile, a wave, a processor. A pair of a
map is an arrow from its first tuple to its second one. Nothing but Python is needed.
"""
import math
import re
import sys

STEP, ROOM, DOT = 44, 40, 6
COLOURS = ["#4477aa", "#ee6677", "#228833", "#ccbb44", "#66ccee", "#aa3377",
           "#ee8866", "#777777", "#44bb99", "#99ddff", "#bbcc33", "#aaaa00"]


def split(text, sign):
    """The parts of a text between the signs that stand outside brackets."""
    parts, depth, begin, at = [], 0, 0, 0
    while at < len(text):
        depth += (text[at] == "[") - (text[at] == "]")
        if not depth and text.startswith(sign, at):
            parts.append(text[begin:at])
            at = begin = at + len(sign)
        else:
            at += 1
    return [*parts, text[begin:]]


def place(text, axes):
    """Where a tuple stands, and its space: the tuple without its numbers."""
    number = r"(?<![\w'])-?\d+"
    numbers = [int(found) for found in re.findall(number, text)]
    at = tuple(numbers[axis] if axis < len(numbers) else 0 for axis in axes)
    return at, re.sub(r"\[[, ]*\]", lambda empty: "[..]" if len(numbers) else empty[0], re.sub(number, "", text))


def read(lines, axes):
    """The points, each with the text of its colour, and the arrows."""
    points, arrows = {}, []
    for line in lines:
        line = line.strip()
        if not re.fullmatch(r"\{ .* \}", line) or ":" in line:
            continue
        for element in filter(None, split(line[2:-2], "; ")):
            tuples = [place(part, axes) for part in split(element, " -> ")]
            pair = split(element[1:-1], " -> ") if element.startswith("[") else []
            if len(tuples) == 2:
                arrows.append(tuples)
                for point in tuples:
                    points.setdefault(point, point[1])
            elif len(pair) == 2:
                points[place(pair[1], axes)] = pair[0]
            else:
                points[tuples[0]] = tuples[0][1]
    return points, arrows


def arrow(begin, end, bend):
    """A line, bent so that it does not run over other places, that ends at the rim of a point."""
    (x1, y1), (x2, y2) = begin, end
    if begin == end:
        return f'<circle cx="{x1 + 9:g}" cy="{y1 - 9:g}" r="8" class="arrow"/>'
    mx, my = (x1 + x2) / 2 + (y2 - y1) * bend, (y1 + y2) / 2 - (x2 - x1) * bend
    length = math.hypot(x2 - mx, y2 - my)
    ex, ey = x2 - (x2 - mx) / length * (DOT + 2), y2 - (y2 - my) / length * (DOT + 2)
    return f'<path d="M{x1:g} {y1:g} Q{mx:.1f} {my:.1f} {ex:.1f} {ey:.1f}" class="arrow" marker-end="url(#head)"/>'


def picture(points, arrows):
    """The lines of the file."""
    places = [at for at, _ in points] or [(0, 0)]
    left, right = min(x for x, _ in places), max(x for x, _ in places)
    low, high = min(y for _, y in places), max(y for _, y in places)
    names, spaces = list(dict.fromkeys(points.values())), sorted({space for _, space in points})
    wide = (right - left) * STEP + 2 * ROOM
    tall = max((high - low) * STEP + 2 * ROOM, 20 * len(names) + ROOM)

    def to_pixel(at):
        return (at[0] - left) * STEP + ROOM, tall - ROOM - (at[1] - low) * STEP

    def dot(point):  # those of several spaces stand side by side
        x, y = to_pixel(point[0])
        return x + (spaces.index(point[1]) - (len(spaces) - 1) / 2) * DOT * 1.5, y

    yield (f'<svg xmlns="http://www.w3.org/2000/svg" width="{wide + 12 + 8 * max(map(len, names), default=0) + 20}" height="{tall}" '
           'font-family="sans-serif" font-size="12">')
    yield '<style>.arrow { fill: none; stroke: #555555; stroke-width: 1.2 } .grid { stroke: #dddddd }</style>'
    yield ('<defs><marker id="head" viewBox="0 0 8 8" refX="7" refY="4" markerWidth="7" markerHeight="7" orient="auto">'
           '<path d="M0 0 L8 4 L0 8 z" fill="#555555"/></marker></defs>')
    yield '<rect width="100%" height="100%" fill="white"/>'
    for x in range(left, right + 1):
        px, py = to_pixel((x, low))
        yield f'<path d="M{px} {py} V{to_pixel((x, high))[1]}" class="grid"/><text x="{px}" y="{py + 26}" text-anchor="middle">{x}</text>'
    for y in range(low, high + 1):
        px, py = to_pixel((left, y))
        yield f'<path d="M{px} {py} H{to_pixel((right, y))[0]}" class="grid"/><text x="{px - 18}" y="{py + 4}" text-anchor="end">{y}</text>'
    for begin, end in arrows:
        steps = math.gcd(end[0][0] - begin[0][0], end[0][1] - begin[0][1])
        yield arrow(dot(begin), dot(end), 0.16 if steps > 1 else 0.05)
    for point, colour in points.items():
        px, py = dot(point)
        yield f'<circle cx="{px:g}" cy="{py}" r="{DOT}" fill="{COLOURS[names.index(colour) % len(COLOURS)]}"/>'
    for number, name in enumerate(names):
        yield f'<circle cx="{wide}" cy="{20 * number + 24}" r="{DOT}" fill="{COLOURS[number % len(COLOURS)]}"/>'
        yield f'<text x="{wide + 12}" y="{20 * number + 28}">{name}</text>'
    yield "</svg>"


def main(words):
    if words[:1] == ["--axes"] and len(words) == 2 and re.fullmatch(r"\d+,\d+", words[1]):
        axes = tuple(map(int, words[1].split(",")))
    elif words:
        print(__doc__, file=sys.stderr)
        return 2
    else:
        axes = (0, 1)
    print("\n".join(picture(*read(sys.stdin, axes))))
    return 0


if __name__ == "__main__":
    sys.exit(main(sys.argv[1:]))
