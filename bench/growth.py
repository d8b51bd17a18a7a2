#!/usr/bin/env python3
"""How the time of statements grows with what they are about, by the program that is named, beside isl where it is installed.

    bench/growth.py [--instructions] PROGRAM [ROW ..]

Each row is measured at three sizes, each twice the one before. `ms` is the user time of the script at the greatest size without that of its bindings
alone, the least of three runs; `exponent` is the greatest of the logarithms of base two of the ratios of neighbours; `each` is the time by the
size; `by isl` is the time of the calls alone, at the greatest size. With `--instructions` the exponent is that of the counts of valgrind, which
other work on the machine does not change."""
import math, os, re, resource, subprocess, sys, tempfile

SECONDS = 120


def literal(pieces):
    return "{ " + "; ".join(pieces) + " }"


def sets(k, high):
    return literal(f"S{n}[i] : 0 <= i <= {high}" for n in range(k))


def maps(k, first, second):
    return literal(f"{first}{n}[i] -> {second}{n}[i] : 0 <= i <= 9" for n in range(k))


def spaces(operator):
    return lambda k: (f"A := {sets(k, 9)}; B := {sets(k, 4)};", f"C := A {operator} B;")


def join_spaces(k):
    return f"A := {maps(k, 'S', 'T')}; B := {maps(k, 'T', 'U')};", "C := A . B;"


def begun_spaces(operator):
    return lambda k: (f"A := {maps(k, 'S', 'T')}; B := {sets(k, 4)};", f"C := A {operator} B;")


def applied_spaces(k):
    return f"A := {maps(k, 'S', 'T')}; B := {sets(k, 4)};", "C := A(B);"


def join_one_space(k):
    first = literal(f"[i] -> [{n}] : 0 <= i <= 9" for n in range(k))
    second = literal(f"[{n}] -> [i] : 0 <= i <= 9" for n in range(k))
    return f"A := {first}; B := {second};", "C := A . B;"


def scan_spaces(k):
    return f"A := {literal(f'S{n}[{n}]' for n in range(k))};", "scan A;"


def scan_pieces(k):
    return f"A := {literal(f'[{2 * n}]' for n in range(k))};", "scan A;"


def listing(k):
    return f"A := {{ [i, j] : 0 <= i < {k} and 0 <= j < 100 }};", "scan A;"


def listing_equal(k):
    return f"A := {{ [i, j, h] : 0 <= i < {k} and 0 <= j < 100 and h = i + j }};", "scan A;"


def names_and_samples(k):
    return "\n".join(f"x{n} := {{ [{n}] }};" for n in range(k)), "\n".join(f"(sample x{n}) + x{n};" for n in range(k))


def sums(k):
    return "", "C := " + " + ".join(f"{{ [{n}] }}" for n in range(k)) + ";"


def names_of_one_value(k):
    pieces = literal(f"[{2 * n}]" for n in range(5000))
    return f"v := {pieces};", "\n".join(f"x{n} := v;" for n in range(k))


def doubled(k):
    return "x := { [0] };", "x := x + x;\n" * k.bit_length()


def comparisons(k):
    side = math.isqrt(k)
    low = ", ".join(["0"] * side)
    high = ", ".join(["i"] * side)
    return "", f"A := {{ [i] : {low} <= {high} }};"


def literals(k):
    return "", "\n".join(f"A := {{ S[i, j] : 0 <= i <= {n} and i <= j }};" for n in range(k))


# The script of a row: its bindings and the statements that are measured, and the greatest size.
ROWS = {
    "k spaces, -": (spaces("-"), 4000),
    "k spaces, +": (spaces("+"), 4000),
    "k spaces, *": (spaces("*"), 4000),
    "k spaces, .": (join_spaces, 4000),
    "k spaces, <=": (lambda k: (f"A := {sets(k, 4)}; B := {sets(k, 9)};", "A <= B;"), 4000),
    "k spaces, maps * sets": (begun_spaces("*"), 4000),
    "k spaces, maps - sets": (begun_spaces("-"), 4000),
    "k spaces, maps(sets)": (applied_spaces, 4000),
    "k spaces, coalesce": (lambda k: (f"A := {sets(k, 9)};", "C := coalesce A;"), 4000),
    "k spaces, lexmin": (lambda k: (f"A := {sets(k, 9)};", "C := lexmin A;"), 4000),
    "one space, .": (join_one_space, 160),
    "scan of k spaces": (scan_spaces, 8000),
    "scan of k pieces": (scan_pieces, 8000),
    "listing, 100 k elements": (listing, 8000),
    "listing with an equality": (listing_equal, 8000),
    "k names, k samples": (names_and_samples, 8000),
    "sum of k literals": (sums, 8000),
    "k names of 5000 pieces": (names_of_one_value, 100000),
    "x + x, k pieces": (doubled, 1 << 20),
    "k comparisons": (comparisons, 1 << 20),
    "k literals": (literals, 40000),
}

# What isl is asked of the values A and B of a row.
BY_ISL = {
    "k spaces, -": "minus",
    "k spaces, +": "union",
    "k spaces, *": "meet",
    "k spaces, .": "join",
    "k spaces, <=": "subset",
    "k spaces, coalesce": "coalesce",
    "k spaces, lexmin": "lexmin",
    "one space, .": "join",
}


def run(program, script, answers):
    with tempfile.TemporaryFile() as source, open(os.devnull, "wb") as out:
        source.write(script.encode())
        source.seek(0)
        child = subprocess.Popen(
            [program], stdin=source, stdout=out, stderr=answers,
            preexec_fn=lambda: resource.setrlimit(resource.RLIMIT_CPU, (SECONDS, SECONDS)))
        _, status, used = os.wait4(child.pid, 0)
        child.returncode = os.waitstatus_to_exitcode(status)
        return used.ru_utime * 1000, used.ru_maxrss / 1024, child.returncode


def least(program, script, answers):
    runs = [run(program, script, answers)]
    while len(runs) < 3 and runs[0][0] < 5000:
        runs.append(run(program, script, answers))
    return min(runs)


def measured(program, made, size):
    bindings, statements = made(size)
    with tempfile.TemporaryFile() as answers:
        whole = least(program, bindings + "\n" + statements, answers)
        before = least(program, bindings, answers) if bindings else (0.0, 0.0, 0)
    return max(whole[0] - before[0], 0.1), whole[1], whole[2]


def by_isl(folder, name, made, size):
    """Milliseconds of isl's call on the values of the row, or nothing."""
    tool = os.path.join(folder, "isl")
    if name not in BY_ISL or not os.path.exists(tool):
        return None
    given = "\n".join([BY_ISL[name], *made_values(made(size)[0])]) + "\n"
    told = subprocess.run([tool], input=given.encode(), capture_output=True)
    return float(told.stdout) if told.returncode == 0 else None


def counted(program, script):
    """The instructions of a run."""
    with tempfile.TemporaryFile() as source, open(os.devnull, "wb") as out:
        source.write(script.encode())
        source.seek(0)
        words = ["valgrind", "--tool=callgrind", "--callgrind-out-file=/dev/null", program]
        told = subprocess.run(words, stdin=source, stdout=out, stderr=subprocess.PIPE, text=True)
        return int(re.search(r"Collected : (\d+)", told.stderr)[1])


def instructions(program, made, size):
    bindings, statements = made(size)
    return counted(program, bindings + "\n" + statements) - (counted(program, bindings) if bindings else 0)


def made_values(bindings):
    """The literals of bindings `A := .. ; B := .. ;`."""
    for part in bindings.split(":=")[1:]:
        yield part[: part.rindex("}") + 1]


def growth(sizes):
    return max(math.log2(after / before) for before, after in zip(sizes, sizes[1:]))


def main(words):
    is_counted = words[:1] == ["--instructions"]
    words = words[is_counted:]
    if not words or any(name not in ROWS for name in words[1:]):
        sys.exit(__doc__ + "\n\nRows: " + ", ".join(ROWS))
    with tempfile.TemporaryDirectory() as folder:
        source = os.path.join(os.path.dirname(os.path.abspath(__file__)), "growth.c")
        subprocess.run(["cc", "-O2", "-o", os.path.join(folder, "isl"), source, "-lisl"], stderr=subprocess.DEVNULL)
        print(f"{'row':26}{'k':>9}{'ms':>10}{'exponent':>10}{'us each':>10}{'MB':>7}{'status':>8}{'ms by isl':>11}")
        for name, (made, size) in ROWS.items():
            if words[1:] and name not in words[1:]:
                continue
            times = [measured(words[0], made, size // part) for part in (4, 2, 1)]
            grown = growth([instructions(words[0], made, size // part) for part in (4, 2, 1)] if is_counted else [it[0] for it in times])
            ms, megabytes, status = times[-1]
            other = by_isl(folder, name, made, size)
            told = "" if other is None else f"{other:.1f}"
            print(f"{name:26}{size:9}{ms:10.1f}{grown:10.2f}{ms * 1000 / size:10.2f}{megabytes:7.0f}{status:8}{told:>11}", flush=True)


main(sys.argv[1:])
