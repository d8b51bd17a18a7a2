#!/usr/bin/env python3
"""Random claims that a system has no point outside others, as cases of crates/tests_proofs, with what is wanted.

    bench/claims.py SEED COUNT            prints so many cases
    bench/claims.py SEED COUNT PROGRAM    has the program of tests_proofs look at them, and prints what differs

Of claims in a box each point of it is looked at. Others have no bounds: a row and its opposite are rows of one out each, beside rows that the
system has too, so that no point is left.
"""
import itertools
import random
import subprocess
import sys

BOUND, ZERO, DIVIDES, NOT_DIVIDES = ">=", "=", "mod", "not-mod"


def holds(row, point):
    kind, coefs, constant, k = row
    value = sum(a * x for a, x in zip(coefs, point)) + constant
    return {ZERO: value == 0, BOUND: value >= 0, DIVIDES: value % k == 0, NOT_DIVIDES: value % k != 0}[kind]


def row(width, kinds=(BOUND, BOUND, BOUND, ZERO, DIVIDES, NOT_DIVIDES)):
    coefs = [random.randint(-5, 5) if random.random() < 0.7 else 0 for _ in range(width)]
    return random.choice(kinds), coefs, random.randint(-9, 9), random.choice((2, 3, 4, 5, 6))


def opposite(row):
    """The row that holds exactly where a bound or a congruence does not."""
    kind, coefs, constant, k = row
    return (BOUND, [-a for a in coefs], -constant - 1, 1) if kind == BOUND else (NOT_DIVIDES, coefs, constant, k)


def in_box():
    width, most = random.randint(1, 3), random.choice((3, 4, 6))
    units = [[int(x == y) for y in range(width)] for x in range(width)]
    rows = [(BOUND, [sign * a for a in unit], most, 1) for unit in units for sign in (1, -1)]
    rows += [row(width) for _ in range(random.randint(0, 3))]
    outs = [[row(width, (BOUND, BOUND, BOUND, DIVIDES, ZERO)) for _ in range(random.randint(0, 2))] for _ in range(random.randint(0, 2))]
    if len(outs) == 2 and outs[0] and outs[0][0][0] != ZERO and random.random() < 0.5:
        outs[1] = [opposite(outs[0][0])]
    points = itertools.product(range(-most, most + 1), repeat=width)
    left = any(all(holds(r, p) for r in rows) and not any(all(holds(r, p) for r in out) for out in outs) for p in points)
    return width, rows, outs, "none" if left else "found"


def without_bounds():
    width = random.randint(1, 3)
    rows = [row(width) for _ in range(random.randint(0, 4))]
    cut = row(width, (BOUND, DIVIDES))
    outs = [random.sample(rows, min(len(rows), random.randint(0, 2))) + [cut], [opposite(cut)]]
    random.shuffle(outs)
    return width, rows, outs, "found"


def line(key, row):
    kind, coefs, constant, k = row
    return " ".join(map(str, [key, kind, *coefs, constant] + ([k] if kind in (DIVIDES, NOT_DIVIDES) else [])))


def case(name):
    width, rows, outs, wanted = in_box() if random.random() < 0.6 else without_bounds()
    lines = [f"case {name}", f"columns {width}"] + [line("row", r) for r in rows] + ([f"outs {len(outs)}"] if outs else [])
    return "\n".join(lines + [line(f"out{q}", r) for q, out in enumerate(outs) for r in out] + [f"want {wanted}"])


seed, count = int(sys.argv[1]), int(sys.argv[2])
random.seed(seed)
cases = "\n\n".join(case(f"random {seed} {i}") for i in range(count))
if len(sys.argv) < 4:
    print(cases)
else:
    sys.exit(subprocess.run([sys.argv[3]], input=f"\n\n{cases}\n", text=True).returncode)
