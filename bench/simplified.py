#!/usr/bin/env python3
"""simplified.py [PROGRAM]: asks the built program for `%` and `coalesce` of some hundred random values, always the same ones, and looks for what is
wrong by a search over all points of a window: another element in the context; a piece without an element of the context; a row, or a half of an
equation, that is idle in it; another element of what `coalesce` makes; two pieces of one space that could still be put together.
Contexts and the pieces of what `coalesce` is asked of are bounded, within the window.
"""
import os
import subprocess
import sys

sys.path.insert(0, os.path.dirname(os.path.abspath(__file__)))
from points import points  # noqa: E402
from searched import Maker  # noqa: E402

WINDOW = range(-3, 6)


def pieces(text):
    """The pieces of a printed value: what stands before the braces, the tuples, and the rows."""
    front, inner = text.strip().rstrip("}").split("{", 1)
    found = []
    for part in inner.split(";"):
        if part.strip():
            tuples, _, formula = part.partition(":")
            found.append((front, tuples.strip(), [row.strip() for row in formula.split(" and ") if row.strip()]))
    return found


def literal(piece):
    front, tuples, rows = piece
    return f"{front}{{ {tuples} : {' and '.join(rows) or 'true'} }}"


def halves(rows):
    """The rows, with each equation as two."""
    found = []
    for row in rows:
        if " = " in row and "mod" not in row:
            left, right = row.split(" = ")
            found += [f"{left} >= {right}", f"{right} >= {left}"]
        else:
            found.append(row)
    return found


def having(piece, rows, among):
    """The points of these rows among the given ones of the piece's space."""
    front, tuples, _ = piece
    return points(literal((front, tuples, rows)), WINDOW) & among


def gist_faults(value, context, answer):
    within = points(context, WINDOW)
    if points(answer, WINDOW) & within != points(value, WINDOW) & within:
        yield "other elements"
    for piece in pieces(answer):
        rows = halves(piece[2])
        if not having(piece, rows, within):
            yield "no element of the context"
        for at, row in enumerate(rows):
            others = having(piece, rows[:at] + rows[at + 1:], within)
            if others <= having(piece, [row], others):
                yield f"idle: {row}"


def joint(p, q):
    """The rows of two pieces that hold on both, equations by halves where one fails."""
    both = points(literal(p), WINDOW) | points(literal(q), WINDOW)
    rows = []
    for row in p[2] + q[2]:
        for part in ([row] if both <= having(p, [row], both) else halves([row])):
            if both <= having(p, [part], both) and part not in rows:
                rows.append(part)
    return (p[0], p[1], rows), both


def coalesce_faults(value, answer):
    if points(answer, WINDOW) != points(value, WINDOW):
        yield "other elements"
    found = pieces(answer)
    for at, p in enumerate(found):
        for q in found[at + 1:]:
            if p[1] == q[1]:
                made, both = joint(p, q)
                if points(literal(made), range(-6, 9)) == both:
                    yield f"two pieces could be one: {literal(made)}"


def main():
    program = sys.argv[1] if len(sys.argv) > 1 else "crates/iscc/out/iscc"
    maker, asked = Maker(7), []
    for _ in range(150):
        make = maker.pick(maker.subset, maker.subset, maker.relation)
        asked.append(("%", make(), make()))
    for _ in range(150):
        asked.append(("coalesce", maker.pick(maker.subset, maker.subset, maker.relation)(), ""))
    looked = wrong = 0
    for word, value, context in asked:
        window = " and ".join([f"{WINDOW[0]} <= n <= {WINDOW[-1]}"])
        if "[n]" in value + context:
            value, context = (text and "[n] -> " + text.replace("[n] -> ", "").replace(" }", f" and {window} }}", 1)
                              .replace(";", f" and {window};") for text in (value, context))
        script = f"{value} % {context};" if word == "%" else f"coalesce ({value});"
        done = subprocess.run([program], input=script, capture_output=True, text=True, timeout=60, check=False)
        faults = [f"status {done.returncode}"]
        if done.returncode == 0:
            faults = list(gist_faults(value, context, done.stdout) if word == "%" else coalesce_faults(value, done.stdout))
        looked += 1
        wrong += bool(faults)
        if faults:
            print(f"{script}\n  {done.stdout.strip()}\n  {'; '.join(faults)}")
    print(f"{looked} values, {wrong} wrong")
    return 1 if wrong else 0


if __name__ == "__main__":
    sys.exit(main())
