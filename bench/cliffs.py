#!/usr/bin/env python3
"""Statements that once took seconds, by the program that is named: user milliseconds, megabytes, status.

    bench/cliffs.py PROGRAM [SECONDS]

Each is a script of its own, with the default budget; what does not end within so many seconds (10) is told as such."""
import os, random, resource, subprocess, sys, tempfile


def form(pick, names, most):
    """A linear form over the names with such coefficients."""
    return " ".join(f"{'-' if n < 0 else '+'} {abs(n)}{name}" for name in names for n in [pick.randint(-most, most)])


def exists4(seed):
    """Four bound names in twelve rows with coefficients up to 3, and two free ones."""
    pick = random.Random(seed)
    names = ["i", "j", "a", "b", "c", "d"]
    rows = [f"0 {form(pick, names, 3)} + {pick.randint(0, 20)} >= 0" for _ in range(12)]
    return "{ [i, j] : exists (a, b, c, d : " + " and ".join(rows) + ") };"


def bounds6(seed):
    pick = random.Random(seed)
    names = ["a", "b", "c", "d", "e", "f"]
    rows = [f"0 {form(pick, names, 9)} >= {pick.randint(-30, 30)}" for _ in range(6)]
    return "{ [a, b, c, d, e, f] : " + " and ".join(rows) + " } = { };"


def projection(seed):
    """Five of seven variables out of twenty rows with coefficients up to 5."""
    pick = random.Random(seed)
    names = ["i", "j", "a", "b", "c", "d", "e"]
    rows = [f"0 {form(pick, names, 5)} + {pick.randint(0, 30)} >= 0" for _ in range(20)]
    return "{ [i, j] : exists (a, b, c, d, e : " + " and ".join(rows) + ") };"


def dense(seed, count, columns):
    """Many rows with coefficients up to 5, which hold at 0."""
    pick = random.Random(seed)
    names = ["a", "b", "c", "d", "e", "f", "g"][:columns]
    rows = [f"0 {form(pick, names, 5)} + {pick.randint(0, 30)} >= 0" for _ in range(count)]
    return "{ [" + ", ".join(names) + "] : " + " and ".join(rows) + " }"


def outside_boxes(columns):
    """Outside an interval at each coordinate: a piece for each choice of sides."""
    names = [f"x{n}" for n in range(columns)]
    return "{ [" + ", ".join(names) + "] : " + " and ".join(f"({name} < 0 or {name} > 5)" for name in names) + " };"


def slabs(columns, count):
    """Values of many pieces, each at a coordinate of its own, and what they have in common."""
    names = ", ".join(f"x{n}" for n in range(columns))
    values = ["{ [" + names + "] : " + " or ".join(f"x{n} = {3 * m}" for m in range(count)) + " }" for n in range(columns)]
    return " * ".join(values) + ";"


def not_divisible(name, primes):
    return " and ".join(f"{name} mod {p} != 0" for p in primes)


def layouts(block):
    """From a block-cyclic layout over 4 processors to a cyclic one, composed."""
    return (
        f"B := {{ A[i] -> P[p, l] : exists (c : 0 <= i < 4096 and p = floor(i/{block}) - 4c and 0 <= p < 4 and l = {block}c + i - {block}*floor(i/{block})) }};"
        f"C := {{ A[i] -> Q[q, m] : 0 <= i < 4096 and q = i - 4*floor(i/4) and m = floor(i/4) }};"
        f"(B^-1) . C;"
    )


def same_layouts(block):
    return (
        f"B := {{ [i] -> [p, l] : exists (c : p = floor(i/{block}) - 4c and 0 <= p < 4 and l = {block}c + i - {block}*floor(i/{block})) }};"
        f"D := {{ [i] -> [p, l] : p = floor(i/{block}) mod 4 and l = {block}*floor(i/{4 * block}) + i mod {block} }};"
        f"B = D;"
    )


def floors(seed):
    """Coordinates between floors of the ones before them."""
    pick = random.Random(seed)
    names = ["a", "b", "c", "d", "e"]
    rows = ["0 <= a < 30"]
    for at, name in enumerate(names[1:], 1):
        for _ in range(3):
            for side in ("<=", ">="):
                terms = " + ".join(f"{pick.randint(1, 5)}{other}" for other in names[:at])
                slack = f"+ {pick.randint(2, 6)}" if side == "<=" else f"- {pick.randint(2, 6)}"
                rows.append(f"{name} {side} floor(({terms})/{pick.randint(2, 9)}) {slack}")
    return "{ [" + ", ".join(names) + "] : " + " and ".join(rows) + " }"


def accesses(count):
    """A map of so many pieces that overlap."""
    return "M := { " + "; ".join(f"S[i] -> A[j] : {n} <= i <= {n + 1000} and i <= j <= i + {n}" for n in range(1, count + 1)) + " };"


# Five literals of isl's own tests.
TESTED = [
    "{ [a, b] : a <= 1024 and b >= 0 and ((-31 - a + b <= 32*floor((-1 - a)/32) <= -33 + b and 32*floor((-1 - a)/32) <= -16 + b + 16*floor((-1 - a)/16))or (2 <= a <= 15 and b < a)) };",
    "[p0, p1] -> { [] -> [] : exists (e0 = [(2p1)/3], e1, e2, e3 = [(3 - p1 + 3e0)/3], e4 = [(p1)/3], e5 = [(p1 + 3e4)/3]: 3e0 >= -2 + 2p1 and 3e0 >= p1 and 3e3 >= 1 - p1 + 3e0 and 3e0 <= 2p1 and 3e3 >= -2 + p1 and 3e3 <= -1 + p1 and p1 >= 3 and 3e5 >= -2 + 2p1 and 3e5 >= p1 and 3e5 <= -1 + p1 + 3e4 and 3e4 <= p1 and 3e4 >= -2 + p1 and e3 <= -1 + e0 and 3e4 >= 6 - p1 + 3e1 and 3e1 >= p1 and 3e5 >= -2 + p1 + 3e4 and 2e4 >= 3 - p1 + 2e1 and e4 <= e1 and 3e3 <= 2 - p1 + 3e0 and e5 >= 1 + e1 and 3e4 >= 6 - 2p1 + 3e1 and p0 >= 2 and p1 >= p0 and 3e2 >= p1 and 3e4 >= 6 - p1 + 3e2 and e2 <= e1 and e3 >= 1 and e4 <= e2) };",
    "{ [i] : exists (e0 = [(255i)/256], e1 = [(127i + 65e0)/191], e2 = [(3i + 61e1)/65], e3 = [(52i + 12e2)/61], e4 = [(2i + e3)/3], e5 = [(4i + e3)/4], e6 = [(8i + e3)/12]: 3e4 = 2i + e3 and 4e5 = 4i + e3 and 12e6 = 8i + e3 and i <= 255 and 64e3 >= -45 + 67i and i >= 0 and 256e0 <= 255i and 256e0 >= -255 + 255i and 191e1 <= 127i + 65e0 and 191e1 >= -190 + 127i + 65e0 and 65e2 <= 3i + 61e1 and 65e2 >= -64 + 3i + 61e1 and 61e3 <= 52i + 12e2 and 61e3 >= -60 + 52i + 12e2) };",
    "{ [a, b, c, d, e, f, g, h, i, j, k] : 3i >= 1073741823b - c - 1073741823e + f and c >= 0 and 3i >= -1 + 3221225466b + c + d - 3221225466e - f and 2e >= a - b and 3e <= 2a and 3k <= -a and f <= -1 + a and 3i <= 4 - a + 4b + 2c - e - 2f and 3k <= -a + c - f and 3h >= -2 + a and 3g >= -3 - a and 3k >= -2 - a and 3i >= -2 - a - 2c + 3e + 2f and 3h <= a + c - f and 3h >= a + 2147483646b + 2c - 2147483646e - 2f and 3g <= -1 - a and 3i <= 1 + c + d - f and a <= 1073741823 and f >= 1 - a + 1073741822b + c + d - 1073741822e and 3i >= 1 + 2b - 2c + e + 2f + 3g and 1073741822f <= 1073741822 - a + 1073741821b + 1073741822c +d - 1073741821e and 3j <= 3 - a + 3b and 3g <= -2 - 2b + c + d - e - f and 3j >= 1 - a + b + 2e and 3f >= -3 + a + 3221225462b + 3c + d - 3221225465e and 3i <= 4 - a + 4b - e and f <= 1073741822 + 1073741822b - 1073741822e and 3h <= a and f >= 0 and 2e <= 4 - a + 5b - d and 2e <= a - b + d and c <= -1 + a and 3i >= -2 - a + 3e and 1073741822e <= 1073741823 - a + 1073741822b + c and 3g >= -4 + 3221225464b + 3c + d - 3221225467e - 3f and 3i >= -1 + 3221225466b + 3c + d - 3221225466e - 3f and 1073741823e >= 1 + 1073741823b - d and 3i >= 1073741823b + c - 1073741823e - f and 3i >= 1 + 2b + e + 3g };",
    "[a, b, c, d, e] -> { [] : exists (e0: 2d = b and a <= 124 and b <= 2046 and b >= 0 and b <= 60 + 64a and 2e >= b + 2c and 2e >= b and 2e <= 1 + b and 2e <= 1 + b + 2c and 32768e0 >= -124 + a and 2097152e0 <= 60 + 64a - b) };",
]

TILES = "{ S[i, j, k] -> [floor(i/16), floor(j/16), floor(k/16), i, j, k] }"
NEST = "D := [n] -> { S[i, j, k] : 0 <= i, j, k < n }; W := { S[i, j, k] -> A[i, j] } * D; "


def nested_sums(count):
    """So many literals of 4,096 pieces, each in a space of its own; each sum is the right operand of the one before it."""
    names = [f"x{n}" for n in range(12)]
    outside = " and ".join(f"({name} < 0 or {name} > 5)" for name in names)
    literals = [f"{{ S{n}[{', '.join(names)}] : {outside} }}" for n in range(count)]
    return " + (".join(literals) + ")" * (count - 1) + ";"


def joined(count):
    """Maps of so many pieces, of which all meet, one behind the other."""
    first = " or ".join(f"(i >= {3 * n} and j >= i + {n} and j <= 5000 + 2i)" for n in range(count))
    second = " or ".join(f"(i <= {7 * n} and j <= 3i + {n} and j >= {n})" for n in range(count))
    return f"{{ S[i] -> A[j] : {first} }} . {{ A[i] -> T[j] : {second} }};"


PRIMES = [2, 3, 5, 7, 11, 13, 17]
ROWS = {
    "four bound names, 12 rows (1)": exists4(4),
    "four bound names, 12 rows (2)": exists4(5),
    "a bound name between multiples of 7": "{ [i, j] : exists (k : i <= 7k <= j and " + not_divisible("(k + i)", [2, 3, 5, 7]) + ") };",
    "six bounds over 6 coordinates (1)": bounds6(1),
    "six bounds over 6 coordinates (2)": bounds6(2),
    "coins": "{ [a, b, c, d] : 1223a + 1224b + 3674c + 6119d = 896434 and a >= 0 and b >= 0 and c >= 0 and d >= 0 } = { };",
    "five remainders": "ran { [i] -> [i mod 2, i mod 3, i mod 5, i mod 7, i mod 11] : 0 <= i < 1000 };",
    "a million floors": "{ [m, x] : x <= 1000000*floor(m/4) };",
    "layouts, blocks of 16": layouts(16),
    "layouts, blocks of 32": layouts(32),
    "two layouts, blocks of 64": same_layouts(64),
    "numbers of 80 bits": "{ [i] : exists (j : 1208925819614629174706177i + 604462909807314587353111j = 5) };",
    "six rows that primes must not divide": "{ [i, j] : exists (a : 0 <= a <= i and " + " and ".join(f"(a + {n + 1}j) mod {p} != 0" for n, p in enumerate([3, 5, 7, 11, 13, 17])) + ") };",
    "seven primes and odd": "{ [i] : " + not_divisible("i", PRIMES) + " } <= { [i] : i mod 2 = 1 };",
    "five variables out of twenty rows": projection(1),
    "twenty rows over seven columns, asked": dense(1, 20, 7) + " = { };",
    "fourteen rows over six columns, asked": dense(2, 14, 6) + " = { };",
    "twenty rows over seven columns, sampled": "sample " + dense(1, 20, 7) + ";",
    "fourteen rows over six columns, sampled": "sample " + dense(2, 14, 6) + ";",
    "fourteen rows over five columns, listed (1)": "scan " + dense(1, 14, 5) + ";",
    "fourteen rows over five columns, listed (2)": "scan " + dense(3, 14, 5) + ";",
    "floors of one another, listed (1)": "scan " + floors(1) + ";",
    "floors of one another, listed (2)": "scan " + floors(2) + ";",
    "outside an interval at 12 coordinates": outside_boxes(12),
    "outside an interval at 16 coordinates": outside_boxes(16),
    "three times 80 slabs": slabs(3, 80),
    "1000 times 1000 bounds": "{ [i, j] : exists (a : " + " and ".join(f"a >= i + {n}j and a <= {n}i + j + {n}" for n in range(1000)) + ") };",
    "a bound name, coefficients of a million": "[a, b, c, d, e] -> { [] : exists (k : 2d = b and a <= 124 and 0 <= b <= 2046 and b <= 60 + 64a and 2e >= b + 2c and 2e >= b and 2e <= 1 + b and 2e <= 1 + b + 2c and 1000000k >= a - 124 and 64000000k <= 60 + 64a - b) };",
    "300 times 300 accesses, each before each": accesses(300) + "any M before M under { S[i] -> [i] };",
    "1500 times 1500 pieces, joined": joined(1500),
    "tiles in three dimensions, in order": f"T := {TILES}; T << T;",
    "tiles in three dimensions, legal": "d := [n] -> { S[i, j, k] -> S[i, j, k + 1] : 0 <= i, j < n and 0 <= k < n - 1 }; "
    f"T := {TILES}; d <= (T << T);",
    "last under such tiles, bound": NEST + f"T := {TILES}; last W before W under T;",
    "last under such tiles, written in place": NEST + f"last W before W under {TILES};",
    "a layout of lines in a cache, and its inverse": "C := { M[x] -> S[floor(x/64) mod 64] }; C . C^-1;",
    "least element of a dozen rows": "lexmin " + dense(2, 12, 6) + ";",
    "sums nested to the right": nested_sums(30),
    "20 lines through a point": "{ [i, j] : " + " and ".join(f"i != {n}j" for n in range(20)) + " };",
    "remainder of 1000": "{ [i] : i mod 1000 <= 600 };",
    **{f"a literal of isl's tests ({n + 1})": literal for n, literal in enumerate(TESTED)},
    "remainder of 1000, asked": "{ [i] : 0 <= i <= 3 } <= [n] -> { [i] : exists (a = [i/10] : 0 <= i <= n and i - 10a <= 6) };",
}


def measured(program, script, seconds):
    with tempfile.TemporaryFile() as out:
        child = os.fork()
        if child == 0:
            resource.setrlimit(resource.RLIMIT_CPU, (seconds, seconds))
            resource.setrlimit(resource.RLIMIT_AS, (6 << 30, 6 << 30))
            read, write = os.pipe()
            if os.fork() == 0:
                os.close(read)
                with os.fdopen(write, "wb") as pipe:
                    try:
                        pipe.write(script.encode())
                    except BrokenPipeError:
                        pass
                os._exit(0)
            os.close(write)
            os.dup2(read, 0)
            os.dup2(out.fileno(), 1)
            os.dup2(out.fileno(), 2)
            os.execv(program, [program])
        _, status, used = os.wait4(child, 0)
        ended = os.waitstatus_to_exitcode(status)
        return used.ru_utime * 1000, used.ru_maxrss / 1024, "-" if ended < 0 else str(ended)


def main(words):
    if len(words) not in (1, 2):
        sys.exit(__doc__)
    seconds = int(words[1]) if len(words) == 2 else 10
    print(f"{'statement':44}{'ms':>10}{'MB':>8}  status")
    for name, script in ROWS.items():
        ms, megabytes, status = measured(words[0], script, seconds)
        print(f"{name:44}{ms:10.1f}{megabytes:8.0f}  {status}", flush=True)


main(sys.argv[1:])
