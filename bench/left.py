#!/usr/bin/env python3
"""Systems of up to seven rows, congruences and floors among them, asked of the program and of a plain search: where some number for one
of two columns makes them hold, whether they hold anywhere, and a sample. The systems are always the same ones. No part of the search is
shared with the program.

    bench/left.py PROGRAM

tells of how many systems an answer differs; the status is 1 then."""
import subprocess
import sys

WINDOW = range(-7, 8)
SEARCHED = range(-20, 21)


def sum_of(*terms):
    """A sum of coefficients and what they stand before, the last of them a constant, as a term of Python and of the notation alike."""
    signed = [(c, f"*{name}") for c, name in terms[:-1]] + [(terms[-1], "")]
    return "0" + "".join(f" {'-' if c < 0 else '+'} {abs(c)}{rest}" for c, rest in signed)


def plain(at):
    """n + a x + c - 3 >= 0, n + 2 - b x >= 0, x + c not divisible by 2, and n + x divisible by k or not; x goes."""
    a, b, c, k = 1 + at % 3, 1 + at // 3 % 3, at // 9 % 7, 1 + at // 63 % 3
    rows = [(sum_of((1, "n"), (a, "x"), c - 3), ">="), (sum_of((1, "n"), (-b, "x"), 2), ">="), (sum_of((1, "x"), c), "!=", 2),
            (sum_of((1, "n"), (1, "x"), 0), "=" if at // 189 % 2 == 0 else "!=", k)]
    return rows, {}, "x"


def floored(at):
    """Over n and x from -6 to 6: y = floor((a n + b x + c) / k), z = floor((x + 2 y - 1) / 3) or floor((n + 1) / 2), and three more rows;
    n or x goes. In a third of them the first of the three asks of y a remainder that is none."""
    a, b, k, c = at % 3 - 1, 2 - at // 3 % 3, 2 + at // 9 % 3, at // 27 % 2
    floors = {"y": (sum_of((a, "n"), (b, "x"), c), k),
              "z": (sum_of((1, "n"), 1), 2) if at // 54 % 2 else (sum_of((1, "x"), (2, "y"), -1), 3)}
    shape = at // 216
    rows = [(sum_of((sign, name), 6), ">=") for name in "nx" for sign in (1, -1)]
    if shape == 0:
        rows += [(sum_of((1, "n"), (2, "x"), (-k, "y"), (1, "z"), c), ">="), (sum_of((1, "n"), (1, "y"), (c, "z"), 0), "=", 2),
                 (sum_of((1, "x"), (1, "y"), c), "!=", 3)]
    else:
        rows += [(sum_of((a, "n"), (b, "x"), (-k, "y"), 2 + c - k - shape), ">="), (sum_of((1, "x"), (1, "z"), -2 * c), "="),
                 (sum_of((1, "n"), (1, "y"), 0), "!=", 3)]
    return rows, floors, "x" if at // 108 % 2 else "n"


SYSTEMS = [plain(at) for at in range(378)] + [floored(at) for at in range(648)]


def formula(rows, floors):
    """The rows in the notation, where floors stand for their names."""
    text = " and ".join(f"{term} {sign} 0" if not by else f"({term}) mod {by[0]} {sign} 0" for term, sign, *by in rows)
    for name in reversed(floors):
        term, by = floors[name]
        text = text.replace(name, f"floor(({term})/{by})")
    return text


def test(rows, floors):
    """Whether the rows hold at n and x, as a function."""
    parts = [f"({name} := ({term}) // {by}) > -1000" for name, (term, by) in floors.items()]
    parts += [f"{term} {'==' if sign == '=' else sign} 0" if not by else f"({term}) % {by[0]} {'==' if sign == '=' else '!='} 0"
              for term, sign, *by in rows]
    return eval("lambda n, x: " + " and ".join(parts))


def asked(rows, floors, gone):
    stays, text = "nx".replace(gone, ""), formula(rows, floors)
    whole = f"{{ [n, x] : {text} }}"
    return (f"scan {{ [{stays}] : -7 <= {stays} <= 7 and exists ({gone} : {text}) }};\n"
            f"{{ [] : exists (n, x : {text}) }} = {{ }};\n(sample {whole}) <= {whole};\n(sample {whole}) = {{ }};\n")


def wanted(rows, floors, gone):
    holds, found = test(rows, floors), []
    for number in WINDOW:
        if any(holds(number, other) if gone == "x" else holds(other, number) for other in SEARCHED):
            found.append(number)
    empty = not any(holds(n, x) for n in SEARCHED for x in SEARCHED)
    listing = "{ " + "; ".join(f"[{number}]" for number in found) + (" }" if found else "}")
    return [listing, str(empty), "True", str(empty)]


def main():
    script = "".join(asked(*system) for system in SYSTEMS)
    run = subprocess.run([sys.argv[1]], input=script, capture_output=True, text=True, check=False)
    lines, differ = run.stdout.splitlines(), 0
    for at, system in enumerate(SYSTEMS):
        if lines[4 * at:4 * at + 4] != wanted(*system):
            differ += 1
            print(asked(*system), lines[4 * at:4 * at + 4], wanted(*system))
    print(f"{len(SYSTEMS)} systems, {differ} differ; status {run.returncode} {run.stderr}")
    return 1 if differ or run.returncode else 0


if __name__ == "__main__":
    sys.exit(main())
