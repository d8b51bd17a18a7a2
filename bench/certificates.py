#!/usr/bin/env python3
"""A checker of the proofs that `iscc --cert` prints, which shares no code with it.

    iscc --cert < script | bench/certificates.py      tells how many proofs were read, and each that is not one
    .. | bench/certificates.py --lines                the lines, with `proof` in the place of each proof
    .. | bench/certificates.py --answers              the lines without those behind `True`; a line that is no proof is told
    bench/certificates.py --rows                      its own cases

Each `True` is followed by directions. A direction is the line `outside V`, and for each piece U the lines `from U` and its proof: that no
whole point of U lies outside of V. A proof is a tree of nodes over rows, which are numbered from 0:

    false i             row i is constant and false
    add i a j b C       C goes on with a times row i plus b times row j
    tie i j C           two opposite bounds: C goes on with the form of row i = 0
    mod i k C           row i is an equality: C goes on with k divides its form
    weaken i k C        row i is a congruence by a multiple of k: C goes on with k divides its form
    fresh i C           row i is a congruence by k: C goes on with one column more, w, and form - k w = 0
    split F C D         C goes on with F >= 0, D with -F - 1 >= 0
    residue F k C ..    part r goes on with k divides F - r
    outside q C ..      a part for each row of the negation of each row of piece q of V, with that row
"""
import re
import sys
from math import gcd

ZERO, AT_LEAST, DIVIDES, NOT_DIVIDES = "=", ">=", "divides", "does not divide"


class Bad(Exception):
    """The text is no proof."""


# ---- rows: (kind, coefficients, constant, k)
def normal(row):
    """The normal form of a row, which stands even where it is constant."""
    kind, coefs, constant, k = row
    g = 0
    for c in coefs:
        g = gcd(g, c)
    if kind == ZERO:
        if g == 0:
            return (ZERO, coefs, 0 if constant == 0 else 1, 1)
        if constant % g:
            return (ZERO, (0,) * len(coefs), 1, 1)
        sign = 1 if next(c for c in coefs if c) > 0 else -1
        return (ZERO, tuple(sign * (c // g) for c in coefs), sign * (constant // g), 1)
    if kind == AT_LEAST:
        return row if g == 0 else (AT_LEAST, tuple(c // g for c in coefs), constant // g, 1)
    return normal_congruence(kind, coefs, constant, k)


def normal_congruence(kind, coefs, constant, k):
    coefs, constant = tuple(c % k for c in coefs), constant % k
    g = k
    for c in coefs:
        g = gcd(g, c)
    none = (0,) * len(coefs)
    if constant % g:
        return (kind, none, 1, 2)
    coefs, constant, k = tuple(c // g for c in coefs), constant // g, k // g
    if k == 1:
        return (kind, none, 0, 1)
    other = tuple(-c % k for c in coefs + (constant,))
    least = min(coefs + (constant,), other)
    return (kind, least[:-1], least[-1], k)


def is_false(row):
    kind, coefs, constant, k = row
    if any(coefs):
        return False
    return {ZERO: constant != 0, AT_LEAST: constant < 0, DIVIDES: constant % k != 0, NOT_DIVIDES: constant % k == 0}[kind]


def negation(row):
    """Rows of which one holds exactly where the row does not."""
    kind, coefs, constant, k = row
    below = (AT_LEAST, tuple(-c for c in coefs), -constant - 1, 1)
    if kind == ZERO:
        return [(AT_LEAST, coefs, constant - 1, 1), below]
    if kind == AT_LEAST:
        return [below]
    return [(NOT_DIVIDES if kind == DIVIDES else DIVIDES, coefs, constant, k)]


def added(first, a, second, b):
    """a times the first row plus b times the second one."""
    for row, factor in ((first, a), (second, b)):
        if row[0] == AT_LEAST and factor < 0 or row[0] == NOT_DIVIDES and factor != 1:
            raise Bad("factor")
    kinds = {first[0], second[0]}
    if first[0] == ZERO:
        kind, k = second[0], second[3]
    elif second[0] == ZERO or kinds == {AT_LEAST}:
        kind, k = first[0], first[3]
    elif kinds in ({DIVIDES}, {DIVIDES, NOT_DIVIDES}) and first[3] == second[3]:
        kind, k = NOT_DIVIDES if NOT_DIVIDES in kinds else DIVIDES, first[3]
    else:
        raise Bad("kinds")
    return (kind, tuple(a * x + b * y for x, y in zip(first[1], second[1])), a * first[2] + b * second[2], k)


# ---- proofs
class Tokens:
    def __init__(self, text):
        if text != " ".join(text.split()):
            raise Bad("blanks")
        self.words, self.at = re.sub(r"\[|\]", lambda m: m.group() if m.group() == "[" else " ]", text).replace("[", "[ ").split(), 0

    def next(self):
        if self.at == len(self.words):
            raise Bad("the text ends early")
        self.at += 1
        return self.words[self.at - 1]

    def number(self):
        word = self.next()
        if not re.fullmatch(r"0|-?[1-9][0-9]*", word):
            raise Bad(f"no number: {word}")
        return int(word)

    def place(self, items):
        i = self.number()
        if not 0 <= i < len(items):
            raise Bad(f"no row {i}")
        return items[i]

    def form(self, columns):
        if self.next() != "[":
            raise Bad("no form")
        numbers = []
        while self.at < len(self.words) and self.words[self.at] != "]":
            numbers.append(self.number())
        self.next()
        if len(numbers) != columns + 1:
            raise Bad("a form with too few or too many numbers")
        return tuple(numbers[:-1]), numbers[-1]


def refute(tokens, rows, outs, columns):
    """Reads one proof, and raises Bad where it does not refute the rows outside the outs."""
    sys.setrecursionlimit(100000)
    word = tokens.next()
    if word == "false":
        if not is_false(tokens.place(rows)):
            raise Bad("false")
    elif word == "split":
        coefs, constant = tokens.form(columns)
        for row in ((AT_LEAST, coefs, constant, 1), (AT_LEAST, tuple(-c for c in coefs), -constant - 1, 1)):
            refute(tokens, rows + [normal(row)], outs, columns)
    elif word == "residue":
        coefs, constant = tokens.form(columns)
        k = tokens.number()
        if k < 2:
            raise Bad("residue")
        for r in range(k):
            refute(tokens, rows + [normal((DIVIDES, coefs, constant - r, k))], outs, columns)
    elif word == "outside":
        for row in tokens.place(outs):
            kind, coefs, constant, k = row
            for more in negation((kind, coefs + (0,) * (columns - len(coefs)), constant, k)):
                refute(tokens, rows + [normal(more)], outs, columns)
    elif word == "fresh":
        kind, coefs, constant, k = tokens.place(rows)
        if kind != DIVIDES:
            raise Bad("fresh")
        wider = [(r[0], r[1] + (0,), r[2], r[3]) for r in rows]
        refute(tokens, wider + [normal((ZERO, coefs + (-k,), constant, 1))], outs, columns + 1)
    else:
        refute(tokens, rows + [normal(step(word, tokens, rows))], outs, columns)


def step(word, tokens, rows):
    if word == "add":
        first, a, second, b = tokens.place(rows), tokens.number(), tokens.place(rows), tokens.number()
        return added(first, a, second, b)
    if word == "tie":
        first, second = tokens.place(rows), tokens.place(rows)
        if first[0] != AT_LEAST or second[0] != AT_LEAST or second[1] != tuple(-c for c in first[1]) or second[2] != -first[2]:
            raise Bad("tie")
        return (ZERO, first[1], first[2], 1)
    if word in ("mod", "weaken"):
        (kind, coefs, constant, own), k = tokens.place(rows), tokens.number()
        if kind != (ZERO if word == "mod" else DIVIDES) or k < 2 or word == "weaken" and own % k:
            raise Bad(word)
        return (DIVIDES, coefs, constant, k)
    raise Bad(f"no word: {word}")


def is_proof(text, rows, outs, columns):
    """Why the text is no proof; None where it is one."""
    try:
        tokens = Tokens(text)
        refute(tokens, rows, outs, columns)
        return None if tokens.at == len(tokens.words) else "more behind the proof"
    except Bad as bad:
        return str(bad)


# ---- printed values
def names_in(text):
    return [name for inside in re.findall(r"\[([^][]*)\]", text) for name in inside.split(", ") if name and "->" not in name]


def sum_of(text, names):
    coefs, constant = [0] * len(names), 0
    for term in text.split(" + "):
        number, name = re.fullmatch(r"([0-9]*)([^0-9 ].*)?", term).groups()
        if name is None:
            constant += int(number)
        else:
            coefs[names.index(name)] += int(number or 1)
    return coefs, constant


def row_of(text, names):
    congruence = re.fullmatch(r"\((.*)\) mod ([0-9]+) (=|!=) 0", text)
    if congruence:
        coefs, constant = sum_of(congruence.group(1), names)
        return (DIVIDES if congruence.group(3) == "=" else NOT_DIVIDES, tuple(coefs), constant, int(congruence.group(2)))
    left, kind, right = re.fullmatch(r"(.*) (>=|=) (.*)", text).groups()
    (left, low), (right, high) = sum_of(left, names), sum_of(right, names)
    return (kind, tuple(x - y for x, y in zip(left, right)), low - high, 1)


def pieces_of(text):
    """Of a printed value its pieces: what stands for the space, how many columns there are, and the rows."""
    declared = re.match(r"\[([^]]*)\] -> \{", text)
    params = declared.group(1).split(", ") if declared else []
    inside = text[text.index("{") + 1:text.rindex("}")].strip()
    for piece in inside.split("; ") if inside else []:
        space, _, rows = piece.partition(" : ")
        names = params + names_in(space)
        yield space, len(names), [row_of(row, names) for row in rows.split(" and ")] if rows else []


def each_line(lines):
    """Of each line what it is, `answer`, `outside`, `from` or `proof`, and why a proof is none."""
    value, piece = None, None
    for line in lines:
        if piece is not None:
            space, columns, rows = piece
            yield "proof", is_proof(line, rows, [r for s, _, r in value if s == space], columns)
            piece = None
        elif line.startswith("outside "):
            value = list(pieces_of(line[8:]))
            yield "outside", None
        elif line.startswith("from "):
            [piece] = pieces_of(line[5:])
            yield "from", None
        else:
            yield "answer", None


def lines_told(lines):
    """How many directions and proofs there are, and what is wrong with which line."""
    told = list(each_line(lines))
    wrong = [(at, why) for at, (_, why) in enumerate(told, 1) if why]
    return sum(what == "outside" for what, _ in told), sum(what == "proof" for what, _ in told), wrong


def tell_lines(lines, answers):
    for line, (what, why) in zip(lines, each_line(lines)):
        if what == "proof" and (why or not answers):
            print(f"no proof, {why}: {line}" if why else "proof")
        elif what == "answer" or not answers:
            print(line)


# ---- its own cases
def own_rows():
    low, high = (AT_LEAST, (1,), -1, 1), (AT_LEAST, (-1,), 0, 1)          # x - 1 >= 0, -x >= 0
    pair = [low, high]
    even, odd = (DIVIDES, (1,), 0, 2), (DIVIDES, (1,), 1, 2)
    twice = (ZERO, (2,), -1, 1)                                           # 2x = 1, as it is written
    two = (ZERO, (2, -2), -1, 1)
    zero = (ZERO, (1,), 0, 1)
    far = [(AT_LEAST, (1,), -6, 1), (AT_LEAST, (-1,), 9, 1)]              # 6 <= x <= 9
    not_even = (NOT_DIVIDES, (1,), 0, 2)
    return [
        ("add 0 1 1 1 false 2", pair, [], 1, True),
        ("false 0", pair, [], 1, False),
        ("add 0 1 1 -1 false 2", pair, [], 1, False),                     # a bound is turned round
        ("add 0 1 5 1 false 2", pair, [], 1, False),                      # no such row
        ("add 0 1 1 1 false 1", pair, [], 1, False),                      # not constant
        ("add 0 1 1 1 false 2 false 2", pair, [], 1, False),              # more behind it
        ("add 0 1 1 1", pair, [], 1, False),                              # no part
        ("add 0 1 1 -1 false 2", [even, odd], [], 1, True),
        ("add 0 1 1 1 false 2", [even, low], [], 1, False),               # kinds that are not added up
        ("add 0 1 1 1 false 2", [even, not_even], [], 1, True),           # 2 does not divide 2x
        ("add 0 -1 1 1 false 2", [even, not_even], [], 1, True),
        ("add 0 1 1 3 false 2", [even, not_even], [], 1, False),          # what is not divided is taken once
        ("mod 0 2 false 1", [two], [], 2, True),
        ("mod 0 1 false 1", [two], [], 2, False),
        ("mod 0 2 false 1", [low], [], 1, False),
        ("mod 0 2 false 1", [twice], [], 1, True),
        ("tie 0 1 add 2 1 3 -1 false 4", [(AT_LEAST, (1,), 0, 1), high, low, (ZERO, (1,), -1, 1)], [], 1, False),
        ("tie 0 1 add 3 -1 2 1 false 4", [(AT_LEAST, (1,), 0, 1), high, low], [], 1, True),
        ("tie 0 1 false 2", pair, [], 1, False),                          # the constants are not opposite
        ("weaken 0 2 add 1 -1 2 1 false 3", [(DIVIDES, (1,), 1, 4), even], [], 1, True),
        ("weaken 0 3 add 1 -1 2 1 false 3", [(DIVIDES, (1,), 1, 4), even], [], 1, False),
        ("fresh 0 add 1 1 2 -1 mod 3 2 false 4", [even, (ZERO, (1,), -1, 1)], [], 1, True),
        ("fresh 1 false 2", [even, low], [], 1, False),
        ("split [1 -3] add 0 1 2 1 false 3 add 1 1 2 1 false 3", [(AT_LEAST, (-1,), 2, 1), low], [], 1, False),
        ("split [1 -3] add 0 1 2 1 false 3 add 1 1 2 1 false 3", [(AT_LEAST, (-1,), 2, 1), (AT_LEAST, (1,), -3, 1)], [], 1, True),
        ("split [1 0 -3] false 0 false 0", pair, [], 1, False),           # a form over two columns
        ("residue [1 0] 2 add 0 1 1 -1 false 2 add 0 1 1 -1 false 2", [odd], [], 1, False),
        ("residue [1 0] 2 add 0 1 2 -1 false 3 add 1 1 2 -1 false 3", [odd, even], [], 1, True),
        ("residue [1 0] 2 add 0 1 2 -1 false 3", [odd, even], [], 1, False),
        ("outside 0 add 0 1 2 1 false 3", far, [[(AT_LEAST, (1,), -5, 1)]], 1, True),
        ("outside 0 add 0 1 2 1 false 3", far, [[(AT_LEAST, (1,), -7, 1)]], 1, False),
        ("outside 0 add 0 1 2 1 false 3", far, [[(AT_LEAST, (1,), -5, 1), (AT_LEAST, (-1,), 8, 1)]], 1, False),
        ("outside 0 add 0 1 2 1 false 3 add 1 1 2 1 false 3", far, [[(AT_LEAST, (1,), -5, 1), (AT_LEAST, (-1,), 9, 1)]], 1, True),
        ("outside 0", far, [[]], 1, True),                                # an out without rows is everything
        ("outside 1", far, [[]], 1, False),
        ("outside 0 add 0 1 1 -1 false 2", [even], [[even]], 1, False),
        ("outside 0 add 0 -1 1 1 false 2", [even], [[even]], 1, True),
        ("outside 0 add 0 -1 1 1 false 2 add 0 1 1 1 false 2", [zero], [[zero]], 1, True),
    ]


def own_lines():
    return """True
outside { [i0] : i0 >= 0; A[i0] }
from { [i0] : i0 >= 1 and 9 >= i0 }
outside 0 add 0 1 2 1 false 3
outside { }
outside [n] -> { A[i0] -> [B[o0] -> C[o1]] : 2n + 1 = 3i0 and o0 >= n and (i0 + 1) mod 2 != 0 }
from [n] -> { A[i0] -> [B[o0] -> C[o1]] : 0 = 3 }
false 0
""".splitlines()


def tell_own():
    failed = 0
    for text, rows, outs, columns, wanted in own_rows():
        why = is_proof(text, rows, outs, columns)
        if (why is None) != wanted:
            failed += 1
            print(f"{text}: {why}")
    told = lines_told(own_lines())
    if told != (3, 2, []):
        failed += 1
        print(told)
    print(f"{len(own_rows()) + 1} cases, {failed} failed")
    return failed


if __name__ == "__main__":
    if sys.argv[1:] == ["--rows"]:
        sys.exit(1 if tell_own() else 0)
    if sys.argv[1:] in (["--lines"], ["--answers"]):
        tell_lines(sys.stdin.read().splitlines(), sys.argv[1] == "--answers")
        sys.exit(0)
    directions, proofs, wrong = lines_told(sys.stdin.read().splitlines())
    for at, why in wrong:
        print(f"line {at}: {why}")
    print(f"{directions} directions, {proofs} proofs, {len(wrong)} wrong")
    sys.exit(1 if wrong else 0)
