#!/usr/bin/env python3
"""Writes the table cases/searched.txt: orders, extremes and dependences of small values, with the elements that a search finds, by the
definitions and on every pair, triple, .. of elements. The values are random, always the same ones; their elements are found by the
reader of `bench/points.py`. No part of it shares a definition with the program.
"""
import itertools
import os
import random
import sys

sys.path.insert(0, os.path.dirname(os.path.abspath(__file__)))
from points import points  # noqa: E402

FORMS = {"S": ["i"], "R": ["i", "j"], "W": ["i"]}


def elements(text, n):
    """The elements of a literal where its parameter, if it has one, is n: pairs of a shape and numbers, one for each tuple."""
    found = set()
    for space, numbers in points(text, range(-2, 5), [n]):
        if text.startswith("["):
            numbers = numbers[1:]
        element, at = [], 0
        for shape in space.split(" -> "):
            width = int(shape[shape.index("[") + 1:-1])
            element.append((shape, numbers[at:at + width]))
            at += width
        found.add(tuple(element))
    return found


def listing(found):
    """The line that lists elements: by their spaces, then by their numbers."""
    def key(element):
        return " -> ".join(shape for shape, _ in element), [numbers for _, numbers in element]

    def text(element):
        return " -> ".join(f"{shape.split('[')[0]}[{', '.join(map(str, numbers))}]" for shape, numbers in element)
    return "{ " + "; ".join(text(element) for element in sorted(found, key=key)) + (" }" if found else "}")


# ---- definitions
def before(p, q):
    return p[0] == q[0] and p[1] < q[1]


def first(values, comes):
    """Of sets and maps: the elements before which nothing comes, in their space and of the same x."""
    return {e for e in values if not any(d[:-1] == e[:-1] and comes(d[-1], e[-1]) for d in values)}


def ordered(left, right, comes):
    if all(len(e) == 1 for e in left | right):
        return {(x, y) for (x,) in left for (y,) in right if comes(x, y)}
    return {(x, y) for x, p in left for y, q in right if comes(p, q)}


def precedences(m, n, t):
    return {(x, y, a, p, q) for (x, a), (y, b), (u, p), (w, q) in itertools.product(m, n, t, t)
            if a == b and u == x and w == y and before(p, q)}


def any_of(m, n, t):
    return {(x, y) for x, y, _, _, _ in precedences(m, n, t)}


def last_of(m, n, t):
    # which accesses come when
    at = {(a, r) for x, a in m for u, r in t if u == x}
    found = precedences(m, n, t)
    latest = {(x, y) for x, y, a, p, q in found if not any(b == a and before(p, r) and before(r, q) for b, r in at)}
    return latest, {(y, a) for y, a in n if not any(z == y and b == a for _, z, b, _, _ in found)}


# ---- values
class Maker:
    def __init__(self, seed):
        self.random = random.Random(seed)

    def pick(self, *choices):
        return self.random.choice(choices)

    def term(self, names):
        a, b = self.pick(*names), self.pick(*names)
        return self.pick(a, a, f"{a} + 1", f"{a} - 1", f"-{a}", f"{a} + {b}", f"2{a}", "0", "1")

    def formula(self, names, params):
        parts = [f"0 <= {', '.join(names)} <= 2"]
        a, b = self.pick(*names), self.pick(*names)
        parts.append(self.pick("", "", f"{a} <= {b}", f"{a} != 1", f"({a} + {b}) mod 2 = 0", f"{a} >= 1", f"{a} + {b} <= 2"))
        if params:
            parts.append(self.pick("", f"{a} < n", f"{a} + {b} <= n", f"{b} >= n"))
        return " and ".join(part for part in parts if part)

    def literal(self, pieces):
        params = self.pick("", "", "[n] -> ")
        return params + "{ " + "; ".join(piece(params) for piece in pieces) + " }"

    def access(self, statements, arrays):
        def piece(params):
            s = self.pick(*statements)
            names = FORMS[s]
            array = self.pick(*arrays)
            width = {"A": 1, "B": 2}[array]
            return f"{s}[{', '.join(names)}] -> {array}[{', '.join(self.term(names) for _ in range(width))}] : {self.formula(names, params)}"
        return self.literal([piece] * self.pick(1, 2, 2))

    def schedule(self):
        def times(s, wide):
            def piece(params):
                names = FORMS[s]
                order = [self.term(names), self.pick("0", "1", self.term(names))]
                return f"{s}[{', '.join(names)}] -> [{', '.join(order[:wide])}] : {self.formula(names, '')}"
            return piece
        wide = self.pick(1, 2, 2, 2)
        pieces = [times(s, self.pick(wide, wide, wide, wide, 3 - wide)) for s in FORMS]
        if self.pick(True, False, False):
            pieces.append(times(self.pick(*FORMS), wide))
        return self.literal(pieces)

    def subset(self):
        def piece(params):
            names = self.pick(["i"], ["i", "j"], ["i", "j"])
            name = self.pick("A", "A", "B")
            return f"{name}[{', '.join(names)}] : {self.formula(names, params)}"
        return self.literal([piece] * self.pick(1, 2, 3))

    def relation(self):
        def piece(params):
            x, y = self.pick(["i"], ["i", "j"]), self.pick(["k"], ["k", "l"])
            names = x + y
            return (f"{self.pick('S', 'S', 'R')}[{', '.join(x)}] -> {self.pick('A', 'A', 'B')}[{', '.join(y)}] : "
                    + self.formula(names, params) + self.pick("", f" and {y[0]} >= {x[0]}", f" and {y[-1]} + {x[0]} <= 2"))
        return self.literal([piece] * self.pick(1, 2))


def main():
    maker, cases = Maker(5), []

    def case(name, script, lines):
        number = len(cases) + 1
        cases.append("\n".join([f"case {name} {number}", "words iscc --at n=1", *[f"script {line}" for line in script],
                                *[f"out {line}" for line in lines]]))
    for _ in range(60):
        value = maker.pick(maker.subset, maker.relation)()
        found = elements(value, 1)
        case("first elements", [f"v := {value};", "scan lexmin v; scan lexmax v;"],
             [listing(first(found, before)), listing(first(found, lambda p, q: before(q, p)))])
    for _ in range(60):
        make = maker.pick(maker.subset, maker.relation)
        a, b = make(), make()
        left, right = elements(a, 1), elements(b, 1)
        case("orders", [f"a := {a};", f"b := {b};", "scan (a << b); scan (a <<= b); scan (a >> b); scan (a >>= b);"],
             [listing(ordered(left, right, comes)) for comes in (
                 before, lambda p, q: before(p, q) or p == q, lambda p, q: before(q, p), lambda p, q: before(q, p) or p == q)])
    while len(cases) < 260:
        m, n, t = maker.access("SR", "AAB"), maker.access("RW", "AAB"), maker.schedule()
        three = [elements(text, 1) for text in (m, n, t)]
        if not precedences(*three) and maker.random.random() < 0.9:
            continue
        latest, unsourced = last_of(*three)
        case("dependences", [f"m := {m};", f"n := {n};", f"t := {t};", "scan (any m before n under t); l := last m before n under t;",
                             "scan l[0]; scan l[1];"],
             [listing(any_of(*three)), listing(latest), listing(unsourced)])
    with open("cases/searched.txt", "w", encoding="utf-8") as table:
        table.write("# --- Orders, first elements and dependences of small values, where n is 1: wanted is what bench/searched.py finds ---\n")
        table.write("\n\n".join(cases) + "\n")


if __name__ == "__main__":
    main()
