#!/usr/bin/env python3
"""Random systems in a box, with coefficients up to 100, asked of the built program and of a plain search at each point of the box: whether a
system is empty, what is left of it without some columns, and what it leaves of the box. No part of the search is shared with the program.

    bench/systems.py PROGRAM [COUNT [SEED]]

tells of how many of so many systems (10,000) an answer differs, and of how many one is refused for want of units, of which each statement has
100,000, or of memory. The status is 1 where an answer differs."""
import itertools
import random
import re
import subprocess
import sys

MOST = 100
GREATEST = {2: 12, 3: 7, 4: 4}
NAMES = "abcd"


def form(row):
    terms = "".join(f" {'-' if c < 0 else '+'} {abs(c)}{name}" for c, name in zip(row["coefs"], NAMES))
    return f"({row['constant']}{terms})"


def text(row):
    """The row as it is written."""
    if row["kind"] in ("=", ">="):
        return f"{form(row)} {row['kind']} 0"
    return f"{form(row)} mod {row['modulus']} {row['kind'][4:]} 0"


def holds(row, point):
    value = row["constant"] + sum(c * x for c, x in zip(row["coefs"], point))
    if row["kind"] == "=":
        return value == 0
    if row["kind"] == ">=":
        return value >= 0
    return (value % row["modulus"] == 0) == (row["kind"] == "mod =")


def random_row(pick, columns, greatest):
    """A row that holds near a point of the box, or at it."""
    coefs = [pick.randint(-MOST, MOST) for _ in range(columns)]
    at = [pick.randint(0, greatest) for _ in range(columns)]
    kind = pick.choice([">=", ">=", ">=", "=", "mod =", "mod !="])
    off = 0 if kind == "=" and pick.random() < 0.8 else pick.randint(-MOST, MOST)
    constant = off - sum(c * x for c, x in zip(coefs, at))
    return {"kind": kind, "coefs": coefs, "constant": constant, "modulus": pick.randint(2, 12)}


def random_system(pick):
    columns = pick.choice([2, 2, 3, 3, 4])
    greatest = GREATEST[columns]
    return columns, greatest, [random_row(pick, columns, greatest) for _ in range(pick.randint(1, 5))]


def listing(found):
    found = sorted(found)
    return "{ " + "; ".join(f"[{', '.join(map(str, point))}]" for point in found) + (" }" if found else "}")


def asked(columns, greatest, rows):
    """Statements, and the answers that a search finds."""
    names = NAMES[:columns]
    tuple_text = f"[{', '.join(names)}]"
    box = f"0 <= {', '.join(names)} <= {greatest}"
    written = " and ".join(text(row) for row in rows)
    points = list(itertools.product(range(greatest + 1), repeat=columns))
    met = [point for point in points if all(holds(row, point) for row in rows)]
    left = (columns + 1) // 2
    bound = ", ".join(names[left:])
    yield f"{{ {tuple_text} : {box} and {written} }} = {{ }};", "True" if not met else "False"
    yield (f"scan {{ [{', '.join(names[:left])}] : exists ({bound} : {box} and {written}) }};",
           listing({point[:left] for point in met}))
    if columns == 2:
        yield (f"scan ({{ {tuple_text} : {box} }} - {{ {tuple_text} : {written} }});",
               listing(set(points) - set(met)))


def answers(program, statements):
    """What each statement is answered, or None where it is refused. Behind one for which memory is wanting a run begins anew."""
    words = [program, "--keep-going", "--budget", "100000"]
    ran = subprocess.run(words, input="\n".join(statements).encode(), capture_output=True, check=False)
    told = ran.stderr.decode()
    refused = {int(number) for number in re.findall(r"statement (\d+): budget spent", told)}
    ended = re.search(r"statement (\d+): out of memory", told)
    end = int(ended.group(1)) if ended else len(statements) + 1
    lines = iter(ran.stdout.decode().splitlines())
    found = [None if number in refused else next(lines, "nothing") for number in range(1, min(end, len(statements) + 1))]
    return found + [None] + answers(program, statements[end:]) if ended else found


def main(words):
    if not 1 <= len(words) <= 3:
        sys.exit(__doc__)
    count = int(words[1]) if len(words) > 1 else 10_000
    pick = random.Random(int(words[2]) if len(words) > 2 else 1)
    differ, refused = 0, 0
    for begin in range(0, count, 500):
        systems = [random_system(pick) for _ in range(min(500, count - begin))]
        wanted = [(number, *pair) for number, it in enumerate(systems) for pair in asked(*it)]
        found = answers(words[0], [statement for _, statement, _ in wanted])
        wrong, late = set(), set()
        for (number, statement, answer), given in zip(wanted, found):
            if given is None:
                late.add(number)
            elif given != answer:
                wrong.add(number)
                print(f"{statement}\n  answers {given}\n  wanted  {answer}")
        differ, refused = differ + len(wrong), refused + len(late)
    print(f"{count} systems, {differ} differ, {refused} with a statement that is refused")
    return 1 if differ else 0


sys.exit(main(sys.argv[1:]))
