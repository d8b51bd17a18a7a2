#!/usr/bin/env python3
"""Unions of one statement or of two, over one parameter, whose loops the program is asked for and runs: whether they call each point that
a plain search finds, once, and none behind one that is due later. The unions are always the same ones, each drawn by the numbers that its
place among them begins. No part of the search is shared with the program.

    bench/called.py PROGRAM

tells of how many of the unions a call differs, and for which number of the parameter; the status is 1 then."""
import itertools
import subprocess
import sys

# Beyond the box of each piece.
WINDOW = range(-6, 9)
PARAMETERS = range(-2, 5)
UNIONS = 200


class Draws:
    """Numbers that look drawn at random, each made of the one before it."""

    def __init__(self, first):
        self.last = first

    def draw(self, least, count):
        """A number from `least` on, one of so many."""
        self.last = (self.last * 6364136223846793005 + 1442695040888963407) % 2 ** 64
        return least + (self.last >> 33) % count

    def form(self, parameter):
        """The coefficients of n, i and j, and the constant."""
        return self.draw(0, parameter), self.draw(-2, 5), self.draw(-2, 5), self.draw(-4, 10)

    def condition(self):
        """A form that is at least 0, or one that a number divides."""
        form = self.form(2)
        return form, self.draw(2, 3) if self.draw(0, 3) == 0 else None

    def piece(self):
        """Conditions in a box: both numbers from -5 or more up to 3 or less, or n + 3 or less."""
        conditions = []
        for i, j in (1, 0), (0, 1):
            least, n, most = self.draw(3, 3), self.draw(0, 2), self.draw(1, 3)
            conditions += [((0, i, j, least), None), ((n, -i, -j, most), None)]
        return conditions + [self.condition() for _ in range(self.draw(0, 3))]

    def statement(self, name):
        times = self.form(1), self.form(1)
        return name, times, [self.piece() for _ in range(self.draw(1, 2))]


def union_of(number):
    """Statements, with times for their points but in every third union, where points are visited at themselves."""
    draws = Draws(number)
    return number % 3 != 0, [draws.statement(name) for name in ("ST" if number % 3 else ("",))]


def form_text(form):
    terms = (f"{'-' if c < 0 else '+'} {abs(c)}*{name}" for c, name in zip(form, "nij"))
    return " ".join([str(form[3]), *terms])


def condition_text(condition):
    form, divisor = condition
    return f"{form_text(form)} >= 0" if divisor is None else f"({form_text(form)}) mod {divisor} = 0"


def literal(is_map, statements):
    pieces = []
    for name, times, conditions in statements:
        to = f" -> [{', '.join(map(form_text, times))}]" if is_map else ""
        pieces += [f"{name}[i, j]{to} : {' and '.join(map(condition_text, piece))}" for piece in conditions]
    return "[n] -> { " + "; ".join(pieces) + " }"


def at(form):
    """The form's number, as a Python term."""
    return f"({form[0]} * n + {form[1]} * i + {form[2]} * j + {form[3]})"


def compiled(term):
    return eval(f"lambda n, i, j: {term}")


def has(pieces):
    """Whether some piece has a point."""
    either = [[f"{at(form)} >= 0" if divisor is None else f"{at(form)} % {divisor} == 0" for form, divisor in piece] for piece in pieces]
    return compiled(" or ".join(" and ".join(both) for both in either))


def calls(is_map, statements, n):
    """The calls by their times, in order."""
    due = {}
    for name, times, pieces in statements:
        is_there, time = has(pieces), compiled(f"({at(times[0])}, {at(times[1])})" if is_map else "(i, j)")
        for i, j in itertools.product(WINDOW, WINDOW):
            if is_there(n, i, j):
                due.setdefault(time(n, i, j), []).append(f"{name}({i}, {j});")
    return [sorted(due[time]) for time in sorted(due)]


def called(program, n):
    """What the loops of each union call, one union after another. Behind each of them its number is shown."""
    script = "".join(f"codegen {literal(*union_of(number))};\nscan {{ [{number}] }};\n" for number in range(UNIONS))
    run = subprocess.run([program, "--run", "--at", f"n={n}"], input=script, capture_output=True, text=True, check=False)
    lines, found = iter(run.stdout.splitlines()), []
    for number in range(UNIONS):
        found.append(list(itertools.takewhile(lambda line: line != f"{{ [{number}] }}", lines)))
    return found if run.returncode == 0 and next(lines, None) is None else [None] * UNIONS


def is_in_order(found, due):
    """Whether these are the calls that are due, where those of one time come in any order."""
    at = 0
    for some in due:
        if sorted(found[at:at + len(some)]) != some:
            return False
        at += len(some)
    return at == len(found)


def main():
    differ = 0
    for n in PARAMETERS:
        for number, found in enumerate(called(sys.argv[1], n)):
            if found is None or not is_in_order(found, calls(*union_of(number), n)):
                differ += 1
                print(f"n = {n}, codegen {literal(*union_of(number))};")
    print(f"{UNIONS} unions at {len(PARAMETERS)} numbers, {differ} differ")
    return 1 if differ else 0


if __name__ == "__main__":
    sys.exit(main())
