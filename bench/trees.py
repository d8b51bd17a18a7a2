#!/usr/bin/env python3
"""trees.py [PROGRAM [COUNT [SEED]]]: asks the built program for `pip` of random values, always the same ones, and compares what each tree gives
at all numbers of a window with the least element that a search finds; where there are no trees, the program's `lexmin` must end alike. Told are
values whose trees differ.
"""
import itertools
import random
import re
import subprocess
import sys

WINDOW = range(-5, 6)
# A first coordinate that is least stands here, and a second one; most first ones are at least this number.
FIRST, SECOND, LEAST = range(-80, 120), range(-3, 4), -8


class Piece:
    """Rows over the columns: a kind, the coefficients, the constant, and the divisor of a congruence."""

    def __init__(self, rng, front, behind):
        self.rows = []
        count = front + behind
        if rng.random() < 0.93:
            self.rows.append((">=", [0] * front + [1] + [0] * (behind - 1), -LEAST, 1))
        if behind == 2:
            self.rows += [(">=", [0] * (count - 1) + [1], -SECOND[0], 1), (">=", [0] * (count - 1) + [-1], SECOND[-1], 1)]
        for _ in range(rng.randint(1, 4)):
            kind = rng.choice([">=", ">=", ">=", ">=", "=", "mod", "mod", "not mod"])
            coefs = [rng.choice([-3, -2, -1, 0, 0, 1, 1, 2, 3]) for _ in range(count)]
            self.rows.append((kind, coefs, rng.randint(-4, 4), rng.randint(2, 4)))

    def holds(self, point):
        for kind, coefs, constant, divisor in self.rows:
            number = sum(c * z for c, z in zip(coefs, point)) + constant
            if not {">=": number >= 0, "=": number == 0, "mod": number % divisor == 0, "not mod": number % divisor != 0}[kind]:
                return False
        return True

    def text(self, names):
        def form(coefs, constant):
            return " ".join(f"{'-' if c < 0 else '+'} {abs(c)}{name}" for c, name in zip([*coefs, constant], [*names, ""])).lstrip("+ ")

        def row(kind, coefs, constant, divisor):
            if kind in (">=", "="):
                return f"{form(coefs, constant)} {kind} 0"
            return f"({form(coefs, constant)}) mod {divisor} {'=' if kind == 'mod' else '!='} 0"
        return " and ".join(row(*own) for own in self.rows)


class Value:
    """Pieces in one space, over a parameter or none."""

    def __init__(self, rng):
        self.params = rng.choice([[], [], ["n"]])
        self.x = [f"i{k}" for k in range(rng.choice([0, 1, 1, 2]))]
        self.y = [f"o{k}" if self.x else f"i{k}" for k in range(rng.choice([1, 1, 2]))]
        self.front = len(self.params) + len(self.x)
        self.pieces = [Piece(rng, self.front, len(self.y)) for _ in range(rng.choice([1, 1, 2, 3]))]

    def text(self):
        names = self.params + self.x + self.y
        space = f"S[{', '.join(self.x)}] -> A[{', '.join(self.y)}]" if self.x else f"A[{', '.join(self.y)}]"
        rows = "; ".join(f"{space} : {piece.text(names)}" for piece in self.pieces)
        return ("[n] -> " if self.params else "") + "{ " + rows + " }"

    def least(self, front):
        for behind in itertools.product(*[FIRST, SECOND][:len(self.y)]):
            if any(piece.holds([*front, *behind]) for piece in self.pieces):
                return list(behind)
        return None


def tree_of(lines):
    """The tree that the lines write, taken from their list, as a function of numbers by their names."""
    line = lines.pop(0).strip()
    if line == "none":
        return lambda names: None
    if line.startswith("("):
        leaf = compiled(f"[{line[1:-1]}]")
        return lambda names: eval(leaf, {"floord": lambda a, k: a // k}, dict(names))  # noqa: S307
    test = compiled(line[len("if ("):-len(" >= 0) {")])
    up = tree_of(lines)
    if lines.pop(0).strip() != "} else {":
        raise ValueError("no else")
    down = tree_of(lines)
    if lines.pop(0).strip() != "}":
        raise ValueError("no end")
    return lambda names: (up if eval(test, {"floord": lambda a, k: a // k}, dict(names)) >= 0 else down)(names)  # noqa: S307


def compiled(text):
    return compile(re.sub(r"(\d)([a-z(])", r"\1*\2", text), "tree", "eval")


def is_right(value, shown):
    lines = shown.splitlines()
    head = lines.pop(0)
    if not lines:
        tree = tree_of(["none"])
    elif head.count("A[") != 1:
        return False
    else:
        tree = tree_of(lines)
    names = value.params + value.x
    return not lines and all(tree(dict(zip(names, front))) == value.least(front) for front in itertools.product(WINDOW, repeat=value.front))


def asked(program, text):
    return subprocess.run([program, "--budget", "1000000"], input=text, capture_output=True, text=True, timeout=120, check=False)


def main():
    program = sys.argv[1] if len(sys.argv) > 1 else "crates/iscc/out/iscc"
    count = int(sys.argv[2]) if len(sys.argv) > 2 else 300
    rng = random.Random(int(sys.argv[3]) if len(sys.argv) > 3 else 7)
    wrong, none, cut = 0, 0, 0
    for _ in range(count):
        value = Value(rng)
        text = value.text()
        done = asked(program, f"pip {text};")
        if done.returncode == 0:
            same = is_right(value, done.stdout)
        elif done.returncode == 6:
            none += 1
            same = done.stderr == asked(program, f"lexmin {text};").stderr
        else:
            cut += 1
            same = done.returncode in (17, 18)
        wrong += not same
        if not same:
            print(f"{text}\n  {done.stdout}{done.stderr}")
    print(f"{count} values, {wrong} wrong, {none} without a least element, {cut} cut")
    return 1 if wrong else 0


if __name__ == "__main__":
    sys.exit(main())
