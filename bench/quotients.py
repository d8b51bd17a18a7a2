#!/usr/bin/env python3
"""Random statements in which columns go that floors and remainders pin, asked of the program and of libisl: `.`, application, `dom`, `ran`,
`deltas`, `<<` and kin, `any`, `last`, `+`, `*`, `-`, with parameters and under assumptions. They are always the same ones.

    bench/quotients.py PROGRAM [COUNT [SEED]]

Each answer is asked twice: as it is shown, and in the statement by `=` with what libisl shows. `any` and `last` are made of libisl's joins by
their definitions. Told are answers that differ, and how many statements one of both refused; the status is 1 where an answer differs."""
import ctypes
import ctypes.util
import os
import random
import resource
import subprocess
import sys

SPACES = {"S": 2, "R": 1, "Q": 3}
SIZES = [2, 2, 3, 3, 4, 4, 5, 7, 8, 16, 32]
OPERATIONS = 200_000
SECONDS = 6


class Library:
    """libisl's unions: each call copies what it takes."""

    def __init__(self):
        self.isl = ctypes.CDLL(ctypes.util.find_library("isl"))
        self.call("ctx_alloc", ctypes.c_void_p)
        self.context = self.isl.isl_ctx_alloc()
        self.isl.isl_options_set_on_error.argtypes = [ctypes.c_void_p, ctypes.c_int]
        self.isl.isl_options_set_on_error(self.context, 1)
        self.isl.isl_ctx_set_max_operations.argtypes = [ctypes.c_void_p, ctypes.c_ulong]
        self.isl.isl_ctx_reset_operations.argtypes = [ctypes.c_void_p]
        self.isl.isl_ctx_reset_error.argtypes = [ctypes.c_void_p]

    def call(self, name, answer, *given):
        function = getattr(self.isl, f"isl_{name}")
        function.restype, function.argtypes = answer, list(given)
        return function

    def begin(self):
        self.isl.isl_ctx_reset_error(self.context)
        self.isl.isl_ctx_reset_operations(self.context)
        self.isl.isl_ctx_set_max_operations(self.context, OPERATIONS)

    def read(self, kind, text):
        call = self.call(f"{kind}_read_from_str", ctypes.c_void_p, ctypes.c_void_p, ctypes.c_char_p)
        return Value(self, kind, call(self.context, text.encode()))


class Refused(Exception):
    pass


class Value:
    """A union of libisl's, a set (`union_set`), a map (`union_map`) or what parameters keep to (`set`)."""

    def __init__(self, library, kind, pointer):
        self.library, self.kind, self.pointer = library, kind, pointer
        if not pointer:
            raise Refused

    def __del__(self):
        self.library.call(f"{self.kind}_free", ctypes.c_void_p, ctypes.c_void_p)(self.pointer)

    def copied(self):
        return self.library.call(f"{self.kind}_copy", ctypes.c_void_p, ctypes.c_void_p)(self.pointer)

    def by(self, name, *others, kind=None):
        call = self.library.call(f"{self.kind}_{name}", ctypes.c_void_p, *[ctypes.c_void_p] * (1 + len(others)))
        return Value(self.library, kind or self.kind, call(self.copied(), *[other.copied() for other in others]))

    def equals(self, other):
        call = self.library.call(f"{self.kind}_is_equal", ctypes.c_int, ctypes.c_void_p, ctypes.c_void_p)
        answer = call(self.pointer, other.pointer)
        if answer < 0:
            raise Refused
        return answer == 1

    def within(self, other):
        call = self.library.call(f"{self.kind}_is_subset", ctypes.c_int, ctypes.c_void_p, ctypes.c_void_p)
        answer = call(self.pointer, other.pointer)
        if answer < 0:
            raise Refused
        return answer == 1

    def text(self):
        shown = self.library.call(f"{self.kind}_to_str", ctypes.c_void_p, ctypes.c_void_p)(self.pointer)
        if not shown:
            raise Refused
        return ctypes.string_at(shown).decode()


def named(text, known):
    return f"[{', '.join(known)}] -> {text}" if known else text


def linear(rng, names, most=3):
    parts = [(rng.choice([-2, -1, 1, 1, 1, 2, most]), f"*{name}") for name in names if rng.random() < 0.6] + [(rng.randint(-5, 5), "")]
    return "0" + "".join(f" {'-' if number < 0 else '+'} {abs(number)}{name}" for number, name in parts)


def quotient(rng, names, depth=1):
    """A term with a floor or a remainder, sometimes of one."""
    inner = linear(rng, names, 2) if rng.random() < 0.4 else rng.choice(names)
    if depth and rng.random() < 0.15:
        inner = quotient(rng, names, 0)
    kind = rng.random()
    size = rng.choice(SIZES)
    if kind < 0.5:
        return f"floor(({inner})/{size})"
    if kind < 0.8:
        return f"({inner}) mod {size}"
    return f"floor(({inner})/{size}) mod {rng.choice(SIZES[:5])}"


def entry(rng, names):
    kind = rng.random()
    if not names or kind < 0.1:
        return str(rng.randint(0, 3))
    if kind < 0.35:
        return rng.choice(names)
    if kind < 0.5:
        return linear(rng, names)
    return quotient(rng, names)


def condition(rng, names, known):
    kind = rng.random()
    every = names + known
    if kind < 0.3 and names:
        return f"0 <= {rng.choice(names)} {'<' if known else '<='} {rng.choice(known) if known else rng.randint(4, 40)}"
    if kind < 0.6:
        return f"{linear(rng, every)} {rng.choice(['<=', '>=', '='])} {rng.choice(['0', quotient(rng, every)])}"
    if kind < 0.8:
        return f"{quotient(rng, every)} {rng.choice(['<=', '>=', '=', '!='])} {rng.randint(0, 3)}"
    bound = rng.choice([3, 4, 8, 16])
    form = linear(rng, every, 2)
    return f"exists (e, f : {form} = {bound}e + f and 0 <= f <= {rng.randint(0, bound - 1)} and e >= {linear(rng, every, 2)})"


def conditions(rng, names, known, most=2):
    rows = [condition(rng, names, known) for _ in range(rng.randint(0, most))]
    return f" : {' and '.join(rows)}" if rows else ""


def names_of(space, prefix="i"):
    return [f"{prefix}{k}" for k in range(SPACES[space])]


def a_set(rng, known, space=None):
    pieces = []
    for _ in range(rng.choice([1, 1, 1, 2])):
        at = space or rng.choice("SSR")
        names = names_of(at)
        pieces.append(f"{at}[{', '.join(names)}]{conditions(rng, names, known)}")
    return named("{ " + "; ".join(pieces) + " }", known)


def a_map(rng, known, first=None, second=None, width=None):
    """Entries of the range are terms over the domain; in a third of the maps conditions are on both."""
    pieces = []
    for _ in range(rng.choice([1, 1, 1, 2])):
        at, to = first or rng.choice("SSR"), second or rng.choice("SSR")
        names = names_of(at)
        wide = width or SPACES[to]
        entries = [entry(rng, names) for _ in range(wide)]
        if rng.random() < 0.2:
            extra = f"o{rng.randrange(wide)}"
            entries[int(extra[1:])] = extra
            rows = [condition(rng, names + [extra], known) for _ in range(2)]
            rest = " : " + " and ".join(rows)
        else:
            rest = conditions(rng, names, known)
        name = "" if to == "T" else to
        pieces.append(f"{at}[{', '.join(names)}] -> {name}[{', '.join(entries)}]{rest}")
    return named("{ " + "; ".join(pieces) + " }", known)


def tiles(rng, known, space="S", width=None):
    """A schedule: quotients of coordinates, then remainders or the coordinates."""
    names = names_of(space)
    sizes = [rng.choice(SIZES) for _ in names]
    form = [name if rng.random() < 0.7 else f"({linear(rng, names, 1)})" for name in names]
    outer = [f"floor(({one})/{size})" for one, size in zip(form, sizes)]
    inner = [rng.choice([name, f"({one}) mod {size}"]) for name, one, size in zip(names, form, sizes)]
    times = outer + inner
    if rng.random() < 0.2:
        times = [f"floor({outer[0]}/{rng.choice([2, 3, 4])})"] + times
    return named("{ " + f"{space}[{', '.join(names)}] -> [{', '.join(times)}]" + " }", known if rng.random() < 0.5 else [])


def accesses(rng, known):
    """What instances touch, with bounds on them."""
    names = names_of("S")
    high = known[0] if known else str(rng.randint(3, 20))
    entries = [entry(rng, names) if rng.random() < 0.3 else rng.choice(names) + rng.choice(["", " + 1", " - 1"]) for _ in range(rng.choice([1, 1, 2]))]
    return len(entries), named("{ " + f"S[{', '.join(names)}] -> A[{', '.join(entries)}] : 0 <= {', '.join(names)} < {high}" + " }", known)


ORDERS = {"<<": "lex_lt", "<<=": "lex_le", ">>": "lex_gt", ">>=": "lex_ge"}


def flow(rng, known):
    """`any` or `last`, by its definition: pairs of an instance and an element on both sides."""
    wide, writes = accesses(rng, known)
    other, reads = accesses(rng, known)
    while other != wide:
        other, reads = accesses(rng, known)
    order = tiles(rng, [])
    kind = rng.choice(["any", "last0", "last1"])
    text = {"any": "any ({}) before ({}) under ({})", "last0": "(last ({}) before ({}) under ({}))[0]",
            "last1": "(last ({}) before ({}) under ({}))[1]"}[kind].format(writes, reads, order)

    def answer(library):
        write, read, time = (library.read("union_map", one) for one in (writes, reads, order))
        if kind == "any":
            same = write.by("apply_range", read.by("reverse"))
            return same.by("intersect", time.by("lex_lt_union_map", time))
        first = [one.by("domain_map") for one in (write, read)]
        second = [one.by("range_map") for one in (write, read)]
        times = [one.by("apply_range", time) for one in first]
        back = times[0].by("lex_lt_union_map", times[1]).by("intersect", second[0].by("apply_range", second[1].by("reverse")))
        if kind == "last1":
            return read.by("wrap", kind="union_set").by("subtract", back.by("range", kind="union_set")).by("unwrap", kind="union_map")
        between = times[0].by("lex_lt_union_map", times[0]).by("intersect", second[0].by("apply_range", second[0].by("reverse")))
        last = back.by("subtract", between.by("apply_range", back))
        return first[0].by("reverse").by("apply_range", last).by("apply_range", first[1])
    return text, answer


def statement(rng, known):
    """The text, and libisl's answer of it."""
    kind = rng.choice([".", "back", "ahead", "()", "dom", "ran", "deltas", "<<", "sets", "flow", "*-+", "literal", "mixed"])
    if kind == "flow":
        return flow(rng, known)
    if kind == "literal":
        text = rng.choice([a_map, a_set])(rng, known)
        which = "union_map" if "} ->" in text or "] -> " in text.split("{")[1] else "union_set"
        return text, lambda library: library.read(which, text)
    if kind == "sets":
        sign = rng.choice(list(ORDERS))
        left, right = a_set(rng, known, "S"), a_set(rng, known, "S")
        name = f"{ORDERS[sign]}_union_set"
        return f"({left}) {sign} ({right})", lambda library: library.read("union_set", left).by(
            name, library.read("union_set", right), kind="union_map")
    if kind == "<<":
        sign = rng.choice(list(ORDERS))
        left = tiles(rng, known) if rng.random() < 0.6 else a_map(rng, known, width=2, second="T")
        right = left if rng.random() < 0.6 else a_map(rng, known, width=2, second="T")
        name = f"{ORDERS[sign]}_union_map"
        return f"({left}) {sign} ({right})", lambda library: library.read("union_map", left).by(name, library.read("union_map", right))
    first = a_map(rng, known)
    if kind in ("dom", "ran"):
        name = {"dom": "domain", "ran": "range"}[kind]
        return f"{kind} ({first})", lambda library: library.read("union_map", first).by(name, kind="union_set")
    if kind == "deltas":
        first = a_map(rng, known, "S", "S")
        return f"deltas ({first})", lambda library: library.read("union_map", first).by("deltas", kind="union_set")
    if kind == "()":
        argument = a_set(rng, known)
        return f"({first})({argument})", lambda library: library.read("union_set", argument).by("apply", library.read("union_map", first))
    if kind == "back":
        return f"({first}) . ({first})^-1", lambda library: library.read("union_map", first).by(
            "apply_range", library.read("union_map", first).by("reverse"))
    if kind == "ahead":
        return f"({first})^-1 . ({first})", lambda library: library.read("union_map", first).by("reverse").by(
            "apply_range", library.read("union_map", first))
    second = a_map(rng, known)
    if kind == ".":
        return f"({first}) . ({second})", lambda library: library.read("union_map", first).by(
            "apply_range", library.read("union_map", second))
    sign = rng.choice("+*-")
    name = {"+": "union", "*": "intersect", "-": "subtract"}[sign]
    if kind == "*-+":
        return f"({first}) {sign} ({second})", lambda library: library.read("union_map", first).by(name, library.read("union_map", second))
    third, fourth = a_map(rng, known), a_map(rng, known)
    return f"(({first}) . ({second})) {sign} (({third}) . ({fourth}))", lambda library: library.read("union_map", first).by(
        "apply_range", library.read("union_map", second)).by(
            name, library.read("union_map", third).by("apply_range", library.read("union_map", fourth)))


def asked(program, script):
    """The run of a script; its status is below 0 where it takes more than some seconds of a processor."""
    return subprocess.run([program, "--budget", "300000"], input=script, capture_output=True, text=True, check=False,
                          preexec_fn=lambda: resource.setrlimit(resource.RLIMIT_CPU, (SECONDS, SECONDS)))


def looked_at(program, library, rng):
    """What a statement comes to: `same`, `differs` with words, or who refused it."""
    known = rng.choice([[], ["n"], ["n"], ["n", "m"]])
    text, answer = statement(rng, known)
    held = ""
    if known and rng.random() < 0.4:
        held = named("{ : " + rng.choice(["n >= 1", "n mod 4 = 0 and n >= 0", "n <= 20", "0 <= n - 3 <= 40"]) + " }", known)
    library.begin()
    try:
        wanted = answer(library)
        shown = wanted.text()
    except Refused:
        return "isl", text
    begin = f"assume {held};\n" if held else ""
    twice = asked(program, f"{begin}({text}) = ({shown});")
    once = asked(program, f"{begin}{text};")
    differs = []
    if twice.returncode == 0 and twice.stdout.strip() != "True":
        differs.append(f"= {twice.stdout.strip()}")
    done = [run.returncode == 0 for run in (twice, once)]
    if done[1]:
        try:
            library.begin()
            found = library.read(wanted.kind, once.stdout)
            if held:
                region = library.read("set", held)
                found, wanted = (one.by("intersect_params", region) for one in (found, wanted))
            if not found.equals(wanted):
                differs.append(f"shows {once.stdout.strip()[:2000]}")
        except Refused:
            pass
    if differs:
        return "differs", f"{begin}{text}\n  isl {shown}\n  " + "\n  ".join(differs)
    told = [f"{name} {run.returncode}" for name, run, well in zip(("in", "shown"), (twice, once), done) if not well]
    return ("same" if not told else ", ".join(told)), text


def apart(program, seed):
    """The same in a process of its own, which has some seconds of a processor for libisl."""
    read, write = os.pipe()
    child = os.fork()
    if child == 0:
        resource.setrlimit(resource.RLIMIT_CPU, (SECONDS, SECONDS))
        outcome, text = looked_at(program, Library(), random.Random(seed))
        with os.fdopen(write, "w") as pipe:
            pipe.write(f"{outcome}\n{text}")
        os._exit(0)
    os.close(write)
    with os.fdopen(read) as pipe:
        outcome, _, text = pipe.read().partition("\n")
    os.waitpid(child, 0)
    return outcome or "isl late", text


def main(words):
    if not 1 <= len(words) <= 3:
        sys.exit(__doc__)
    count, seed = int(words[1]) if len(words) > 1 else 2000, int(words[2]) if len(words) > 2 else 1
    told = {}
    for number in range(count):
        outcome, text = apart(words[0], seed * 1_000_003 + number)
        told[outcome] = told.get(outcome, 0) + 1
        if outcome != "same":
            print(f"{number}: {outcome}: {text}", flush=True)
        if number % 100 == 99:
            print(f"{number + 1} statements: {told}", file=sys.stderr, flush=True)
    print(f"{count} statements: " + "; ".join(f"{outcome} {times}" for outcome, times in sorted(told.items())))
    return 1 if "differs" in told else 0


if __name__ == "__main__":
    sys.exit(main(sys.argv[1:]))
