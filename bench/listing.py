#!/usr/bin/env python3
"""Listings by the program that is named: what an element costs, how they grow, and what one literal costs.

    bench/listing.py PROGRAM [TURNS]

For a listing of n elements: nanoseconds and bytes for each, above those of the same script without elements; the bytes are of the whole
process at its peak, the text of the answer among them. Of what grows: milliseconds at 2,000, 4,000 and 8,000, without those of the literal
alone, and the exponent between the last two. Each figure is the least of so many turns (3)."""
import math, os, subprocess, sys, tempfile

ELEMENTS = {
    "two coordinates": ("scan { [i, j] : 0 <= i < {a} and 0 <= j < {b} };", 1000, 300),
    "one coordinate": ("scan { [i] : 0 <= i < {a} };", 300000, 1),
    "eight coordinates": ("scan { [a, b, c, d, e, f, g, h] : 0 <= a < {a} and 0 <= b < {b} and c = 1 and d = 2 and e = 3 and f = 4 and g = 5 and h = 6 };", 1000, 100),
    "a triangle": ("scan { S[i, j] : 0 <= j <= i and 0 <= i < {a} };", 774, 0),
    "equalities": ("scan { S[i] -> A[i + 1, 2i] : 0 <= i < {a} };", 100000, 1),
    "an equality in three": ("scan { S[i, j, k] : i + j = k and 0 <= i < {a} and 0 <= j < {b} };", 1000, 100),
    "a remainder": ("scan { [i, j] : 0 <= i < {a} and 0 <= j < {b} and (i + j) mod 3 = 1 };", 1000, 300),
    "six pieces": (
        "scan { [i, j] : 0 <= i < {a} and 0 <= j < {b}; [i, j] : {a} <= i < 2000 and 0 <= j < {b}; [i, j] : 0 <= i < {a} and -{b} <= j < 0; S[i, j] : 0 <= i < {a} and 0 <= j < {b}; T[i, j] : 0 <= i < {a} and 0 <= j < {b}; [i, j] : {a} <= i < 2000 and -{b} <= j < 0 };",
        1000, 50),
}


def pieces(count, spaces):
    """A literal of so many pieces of an element each, in a space each or all in one."""
    return "{ " + "; ".join((f"S{n}[{n}]" if spaces else f"[{n * 2654435761 % 1000003}]") for n in range(count)) + " }"


def overlapping(count):
    """Pieces of one space, of which each begins amid the one before."""
    return "{ " + "; ".join(f"[i] : {n} <= i < {n + 20}" for n in range(count)) + " }"


GROWING = {
    "pieces in a space each": lambda count: pieces(count, True),
    "pieces in one space": lambda count: pieces(count, False),
    "pieces that overlap": overlapping,
}


def run(program, script, turns):
    """The least of user and system seconds, and of bytes at the peak, and the size and the elements of the answer."""
    best, peak = math.inf, math.inf
    with tempfile.NamedTemporaryFile("w") as source, tempfile.NamedTemporaryFile() as out, tempfile.NamedTemporaryFile("r") as told:
        source.write(script)
        source.flush()
        for _ in range(turns):
            with open(source.name) as given, open(out.name, "wb") as answer:
                child = subprocess.Popen(["time", "-f", "%M", "-o", told.name, program], stdin=given, stdout=answer)
            _, status, used = os.wait4(child.pid, 0)
            child.returncode = os.waitstatus_to_exitcode(status)
            if child.returncode != 0:
                sys.exit(f"status {child.returncode}: {script[:80]}")
            best, peak = min(best, used.ru_utime + used.ru_stime), min(peak, int(open(told.name).read()) * 1024)
        answer = open(out.name, "rb").read()
    return best, peak, len(answer), answer.count(b";") + 1


def instructions(program, script):
    """Instructions of a run, where the counter is there."""
    with tempfile.NamedTemporaryFile() as source:
        source.write(script.encode())
        source.flush()
        for words in (["perf", "stat", "-x,", "-e", "instructions:u"], ["valgrind", "--tool=none"]):
            try:
                done = subprocess.run([*words, program], stdin=open(source.name), capture_output=True, text=True)
            except OSError:
                continue
            for line in done.stderr.splitlines():
                if "instructions" in line and line.split(",")[0].isdigit():
                    return int(line.split(",")[0])
    return None


def main(words):
    if len(words) not in (1, 2):
        sys.exit(__doc__)
    program, turns = words[0], int(words[1]) if len(words) == 2 else 3
    none = run(program, "scan { };", turns)
    print(f"{'a listing':28}{'elements':>10}{'ns each':>10}{'bytes each':>12}{'text each':>11}")
    for name, (script, a, b) in ELEMENTS.items():
        script = script.replace("{a}", str(a)).replace("{b}", str(b))
        seconds, peak, size, count = run(program, script, turns)
        print(f"{name:28}{count:10}{(seconds - none[0]) / count * 1e9:10.0f}{(peak - none[1]) / count:12.1f}{size / count:11.1f}", flush=True)
    print(f"{'what grows':28}{'2000':>10}{'4000':>10}{'8000':>10}{'exponent':>11}")
    for name, literal in GROWING.items():
        spent = []
        for count in (2000, 4000, 8000):
            text = literal(count)
            alone, whole = run(program, f"x := {text};", turns)[0], run(program, f"x := {text}; scan x;", turns)[0]
            spent.append((whole - alone) * 1000)
        exponent = math.log2(max(spent[2], 0.01) / max(spent[1], 0.01))
        print(f"{name:28}{spent[0]:10.1f}{spent[1]:10.1f}{spent[2]:10.1f}{exponent:11.2f}", flush=True)
    few, many = ("[n] -> { S[i, j] -> A[i + 1] : 0 <= i < n and 2j >= i + 7 };\n" * count for count in (1000, 11000))
    spent = run(program, many, turns)[0] - run(program, few, turns)[0]
    print(f"{'a literal, printed':28}{spent / 10000 * 1e9:10.0f} ns", flush=True)
    few, many = ("x := [n] -> { S[i, j] -> A[i + 1] : 0 <= i < n and 2j >= i + 7 };\n" * count for count in (1000, 11000))
    spent = run(program, many, turns)[0] - run(program, few, turns)[0]
    print(f"{'a literal, bound':28}{spent / 10000 * 1e9:10.0f} ns")
    counted = [instructions(program, text) for text in (few, many)]
    if None not in counted:
        print(f"{'':28}{(counted[1] - counted[0]) / 10000:10.0f} instructions")


main(sys.argv[1:])
