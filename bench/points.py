#!/usr/bin/env python3
"""Reads the table cases/points.txt: whether both literals of each statement, `LITERAL * box = LITERAL * box;`, have the same points, where
parameters and coordinates are from -4 to 4. They are found by a search, plainly, with a reader of its own; bound names are looked for from
-30 to 30. No part of it shares a definition with the program, so that the two can disagree.
"""
import itertools
import operator
import re
import sys

TOKEN = re.compile(r"\s*(->|<=|>=|!=|==|\|\||&&|[A-Za-z_][A-Za-z0-9_']*|\d+|.)")
COMPARE = {
    "=": operator.eq, "==": operator.eq, "!=": operator.ne,
    "<": operator.lt, "<=": operator.le, ">": operator.gt, ">=": operator.ge,
}
WORDS = {"mod", "and", "or", "not", "implies", "exists", "true", "false"}


class Reader:
    """Literals by their grammar. A term is a list of (sign, (number, factor, moduli)); a formula is a function of what names stand for."""

    def __init__(self, text):
        self.tokens = TOKEN.findall(text.strip())
        self.at = 0

    def peek(self, ahead=0):
        return (self.tokens + [""] * 2)[self.at + ahead]

    def next(self):
        self.at += 1
        return self.tokens[self.at - 1]

    def take(self, *words):
        if self.peek() in words and self.at < len(self.tokens):
            self.at += 1
            return True
        return False

    def need(self, word):
        if not self.take(word):
            raise SyntaxError(f"{word} is missing before {self.tokens[self.at:self.at + 6]}")

    def inside(self, close):
        """The tokens up to the bracket that closes the one that stands here."""
        depth = 0
        for end in range(self.at, len(self.tokens)):
            depth += (self.tokens[end] in "([") - (self.tokens[end] in ")]")
            if depth == 0:
                return self.tokens[self.at + 1:end], (self.tokens + [""])[end + 1]
        raise SyntaxError(close)

    def literal(self):
        params, pieces = [], []
        if self.take("["):
            while not self.take("]"):
                params.append(self.next())
                self.take(",")
            self.need("->")
        self.need("{")
        while not self.take("}"):
            pieces.append(self.piece())
            self.take(";")
        return params, pieces

    def piece(self):
        tuples, formula = [self.tuple()], lambda known: True
        if self.take("->"):
            tuples.append(self.tuple())
        if self.take(":") and self.peek() not in ("}", ";"):
            formula = self.implies()
        return tuples, formula

    def tuple(self):
        name = "" if self.peek() == "[" else self.next()
        depth = 0
        for token in self.inside("]")[0]:
            depth += (token == "[") - (token == "]")
            if token == "->" and depth == 0:
                self.need("[")
                pair = (self.tuple(), self.need("->"), self.tuple())
                self.need("]")
                return pair[0], pair[2]
        self.need("[")
        entries = []
        while not self.take("]"):
            bound = self.next() if self.peek(1) == "=" and self.at + 1 < len(self.tokens) else None
            if bound:
                self.need("=")
            entries.append((bound, self.term()))
            self.take(",")
        return name, entries

    def term(self):
        parts, sign = [], -1 if self.take("-") else 1
        while True:
            parts.append((sign, self.product()))
            if not self.take("+", "-"):
                return parts
            sign = 1 if self.tokens[self.at - 1] == "+" else -1

    def product(self):
        number, factor, moduli = 1, None, []
        while self.peek().isdigit():
            number *= int(self.next())
            if not self.take("*"):
                break
        if re.match(r"[A-Za-z_(\[]", self.peek()) and self.peek() not in WORDS:
            factor = self.factor()
            while self.take("mod", "%", "*"):
                if self.tokens[self.at - 1] == "*":
                    number *= int(self.next())
                else:
                    moduli.append(int(self.next()))
        return number, factor, moduli

    def factor(self):
        word = self.next()
        if word == "(":
            inner = self.term()
            self.need(")")
            return lambda known: value(inner, known)
        if word in ("[", "floor", "ceil", "floord", "ceild"):
            if word != "[":
                self.need("(")
            inner = self.term()
            self.take("/", ",")
            by = int(self.next())
            self.take("]", ")")
            if word.startswith("ceil"):
                return lambda known: -(-value(inner, known) // by)
            return lambda known: value(inner, known) // by
        return lambda known: known[word]

    def row(self, part, *signs):
        parts = [part()]
        while self.take(*signs):
            parts.append(part())
        return parts

    def implies(self):
        parts = self.row(self.either, "implies")

        def holds(known):
            former = True
            for part in parts:
                former = not former or part(known)
            return former
        return holds

    def either(self):
        parts = self.row(self.both, "or", "||")
        return lambda known: any(part(known) for part in parts)

    def both(self):
        parts = self.row(self.one, "and", "&&", "&")
        return lambda known: all(part(known) for part in parts)

    def one(self):
        if self.take("not", "!"):
            inner = self.one()
            return lambda known: not inner(known)
        if self.take("true", "false"):
            so = self.tokens[self.at - 1] == "true"
            return lambda known: so
        if self.take("exists"):
            return self.exists()
        formula = set(COMPARE) | (WORDS - {"mod"}) | {"!"}
        if self.peek() == "(" and formula & set(self.inside(")")[0]):
            self.need("(")
            inner = self.implies()
            self.need(")")
            return inner
        return self.chain()

    def exists(self):
        bracket, names = self.take("("), []
        while True:
            name = self.next()
            names.append((name, self.term() if self.take("=") else None))
            if not self.take(","):
                break
        self.need(":")
        inner = self.implies()
        if bracket:
            self.need(")")

        def found(names, known):
            if not names:
                return inner(known)
            (name, term), *rest = names
            choices = range(-30, 31) if term is None else [value(term, known)]
            return any(found(rest, {**known, name: choice}) for choice in choices)
        return lambda known: found(names, known)

    def chain(self):
        sides, signs = [self.row(self.term, ",")], []
        while self.peek() in COMPARE:
            signs.append(COMPARE[self.next()])
            sides.append(self.row(self.term, ","))

        def holds(known):
            numbers = [[value(term, known) for term in side] for side in sides]
            return all(sign(a, b) for left, sign, right in zip(numbers, signs, numbers[1:]) for a in left for b in right)
        return holds


def value(term, known):
    total = 0
    for sign, (number, factor, moduli) in term:
        part = 1 if factor is None else factor(known)
        for modulus in moduli:
            part %= modulus
        total += sign * number * part
    return total


def shape(tuple):
    """The text of a tuple's space, and its width."""
    first, second = tuple
    if isinstance(second, list):
        return f"{first}[{len(second)}]", len(second)
    (left, wide), (right, more) = shape(first), shape(second)
    return f"[{left} -> {right}]", wide + more


def fits(tuple, numbers, known, lone):
    """Whether the first numbers, which are taken, can stand in the tuple; its names stand for them from there on."""
    first, second = tuple
    if not isinstance(second, list):
        return fits(first, numbers, known, lone) & fits(second, numbers, known, lone)
    right = True
    for bound, term in second:
        number = numbers.pop(0)
        name = bound or lone(term)
        if bound or name is None or name in known:
            right &= value(term, known) == number
        if name is not None and (bound or name not in known):
            known[name] = number
    return right


def lone_name(term):
    """The name that a term is, where it is one alone: it is asked what names it needs."""
    asked = []

    class Asked(dict):
        def __missing__(self, name):
            asked.append(name)
            return 7919
    is_one = len(term) == 1 and term[0][0] == 1 and term[0][1][0] == 1 and not term[0][1][2] and term[0][1][1] is not None
    return asked[0] if is_one and value(term, Asked()) == 7919 and len(asked) == 1 else None


def points(text, window=range(-4, 5), given=None):
    """The points of a literal in a window: the text of a space, the numbers of parameters, each in `given` if that is said, and of coordinates."""
    params, pieces = Reader(text).literal()
    found, names = set(), {}

    def lone(term):
        if id(term) not in names:
            names[id(term)] = lone_name(term)
        return names[id(term)]

    for tuples, formula in pieces:
        spaces, widths = zip(*[shape(tuple) for tuple in tuples])
        ranges = [given or window] * len(params) + [window] * sum(widths)
        for point in itertools.product(*ranges):
            known, left = dict(zip(params, point)), list(point[len(params):])
            if all([fits(tuple, left, known, lone) for tuple in tuples]) and formula(known):
                found.add((" -> ".join(spaces), point))
    return found


def main():
    statements, name = [], ""
    for line in open(sys.argv[1] if len(sys.argv) > 1 else "cases/points.txt", encoding="utf-8"):
        if line.startswith("case "):
            name = line[5:].strip()
        if line.startswith("script "):
            if not statements or statements[-1][1].endswith(";"):
                statements.append((name, ""))
            statements[-1] = (name, f"{statements[-1][1]} {line[7:].strip()}".strip())
    differ = looked = 0
    for name, statement in statements:
        found = re.fullmatch(r"(.*) \* box = (.*) \* box;", statement)
        if found:
            looked += 1
            if points(found[1]) != points(found[2]):
                differ += 1
                print(f"{name}: {statement}")
    print(f"{looked} statements, {differ} differ")
    return 1 if differ else 0


if __name__ == "__main__":
    sys.exit(main())
