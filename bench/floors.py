#!/usr/bin/env python3
"""Random literals with floors, remainders, `exists`, `and`, `or` and `not`, and what `.`, `<<`, `dom` and `deltas` make of them, asked of the
program and of a plain search at each point of a box. They are always the same ones; no part of the search is shared with the program.

    bench/floors.py PROGRAM [COUNT [SEED]]

tells of how many of so many literals (2,000) an answer differs, and of how many one is refused for want of units, of which each statement has
300,000, or of memory. The status is 1 where an answer differs."""
import itertools
import random
import re
import subprocess
import sys

BOX = {1: range(-12, 13), 2: range(-5, 6)}
BOUND = range(-12, 13)
SIZES = [2, 2, 3, 3, 4, 5, 7, 8]


def linear(pick, names, most=3):
    """A form over the names, as it is written, which Python reads alike."""
    parts = [(pick.choice([-most, -2, -1, 1, 1, 2, most]), f"*{name}") for name in names if pick.random() < 0.6]
    return "0" + "".join(f" {'-' if c < 0 else '+'} {abs(c)}{name}" for c, name in parts + [(pick.randint(-6, 6), "")])


def term(pick, names, depth=2):
    """A term, as it is written, and as Python reads it."""
    kind = pick.random()
    if depth == 0 or kind < 0.3:
        form = linear(pick, names)
        return form, form
    text, value = term(pick, names, depth - 1)
    size = pick.choice(SIZES)
    if kind < 0.65:
        text, value = f"floor(({text})/{size})", f"(({value}) // {size})"
    else:
        text, value = f"(({text}) mod {size})", f"(({value}) % {size})"
    if pick.random() < 0.4:
        rest = linear(pick, names, 1)
        text, value = f"{text} + ({rest})", f"{value} + ({rest})"
    return text, value


def formula(pick, names, depth=2):
    kind = pick.random()
    if depth == 0 or kind < 0.45:
        left, right = term(pick, names), term(pick, names, 1)
        sign = pick.choice(["<=", ">=", "=", "!=", "<"])
        return f"{left[0]} {sign} {right[0]}", f"({left[1]} {'==' if sign == '=' else sign} {right[1]})"
    if kind < 0.6:
        name = f"e{depth}"
        inner = formula(pick, names + [name], depth - 1)
        return (f"(exists ({name} : {BOUND[0]} <= {name} <= {BOUND[-1]} and {inner[0]}))", f"any({inner[1]} for {name} in BOUND)")
    if kind < 0.7:
        inner = formula(pick, names, depth - 1)
        return f"(not ({inner[0]}))", f"(not {inner[1]})"
    word = pick.choice(["and", "and", "or"])
    parts = [formula(pick, names, depth - 1) for _ in range(2)]
    return f"({parts[0][0]} {word} {parts[1][0]})", f"({parts[0][1]} {word} {parts[1][1]})"


def holds_at(names, value):
    return eval(f"lambda {', '.join(names)}: {value}", {"BOUND": BOUND})


def listing(found, arrow=None):
    """The points as a listing shows them; of a map the first `arrow` numbers stand before the arrow."""
    def shown(numbers):
        return f"[{', '.join(map(str, numbers))}]"
    parts = [shown(point) if arrow is None else f"{shown(point[:arrow])} -> {shown(point[arrow:])}" for point in sorted(found)]
    return "{ " + "; ".join(parts) + (" }" if parts else "}")


def of_set(pick):
    """A literal within a box, and its complement there."""
    names = ["i", "j"][:pick.choice([1, 1, 2])]
    text, value = formula(pick, names)
    box = f"{BOX[len(names)][0]} <= {', '.join(names)} <= {BOX[len(names)][-1]}"
    points = list(itertools.product(BOX[len(names)], repeat=len(names)))
    holds = holds_at(names, value)
    found = {point for point in points if holds(*point)}
    written = f"[{', '.join(names)}]"
    yield f"scan {{ {written} : {box} and {text} }};", listing(found)
    yield f"scan ({{ {written} : {box} }} - {{ {written} : {text} }});", listing(set(points) - found)


def of_map(pick):
    """A map of numbers to terms; its range, its join with its inverse, the order of its images, its differences."""
    terms = [term(pick, ["i"]) for _ in range(pick.choice([1, 1, 2]))]
    last = min(BOX[1][-1], 9)
    images = {i: tuple(eval(value, {"i": i}) for _, value in terms) for i in range(-last, last + 1)}
    literal = f"{{ [i] -> [{', '.join(text for text, _ in terms)}] : {-last} <= i <= {last} }}"
    pairs = list(itertools.product(images, repeat=2))
    yield f"scan ran {literal};", listing(set(images.values()))
    yield f"scan ({literal} . {literal}^-1);", listing({pair for pair in pairs if images[pair[0]] == images[pair[1]]}, 1)
    whole = {"<<": lambda a, b: a < b, "<<=": lambda a, b: a <= b, ">>": lambda a, b: a > b, ">>=": lambda a, b: a >= b}
    sign = pick.choice(list(whole))
    yield f"scan ({literal} {sign} {literal});", listing({pair for pair in pairs if whole[sign](images[pair[0]], images[pair[1]])}, 1)
    if len(terms) == 1:
        yield f"scan deltas {literal};", listing({(images[i][0] - i,) for i in images})


def answers(program, statements):
    """What each statement is answered, or None where it is refused. Behind one for which memory is wanting a run begins anew."""
    words = [program, "--keep-going", "--budget", "300000"]
    ran = subprocess.run(words, input="\n".join(statements).encode(), capture_output=True, check=False)
    told = ran.stderr.decode()
    refused = {int(number) for number in re.findall(r"statement (\d+): budget spent", told)}
    ended = re.search(r"statement (\d+): out of memory", told)
    end = int(ended.group(1)) if ended else len(statements) + 1
    lines = iter(ran.stdout.decode().splitlines())
    found = [None if number in refused else next(lines, "nothing") for number in range(1, min(end, len(statements) + 1))]
    return found + [None] + answers(program, statements[end:]) if ended else found


def main(words):
    if not 1 <= len(words) <= 3:
        sys.exit(__doc__)
    count = int(words[1]) if len(words) > 1 else 2000
    pick = random.Random(int(words[2]) if len(words) > 2 else 1)
    differ, refused, statements = 0, 0, 0
    for begin in range(0, count, 100):
        made = [list(pick.choice([of_set, of_map])(pick)) for _ in range(min(100, count - begin))]
        wanted = [(number, *pair) for number, pairs in enumerate(made) for pair in pairs]
        found = answers(words[0], [statement for _, statement, _ in wanted])
        wrong, late = set(), set()
        for (number, statement, answer), given in zip(wanted, found):
            if given is None:
                late.add(number)
            elif given != answer:
                wrong.add(number)
                print(f"{statement}\n  answers {given}\n  wanted  {answer}", flush=True)
        differ, refused, statements = differ + len(wrong), refused + len(late), statements + len(wanted)
    print(f"{count} literals, {statements} statements, {differ} differ, {refused} with a statement that is refused")
    return 1 if differ else 0


if __name__ == "__main__":
    sys.exit(main(sys.argv[1:]))
