#!/usr/bin/env python3
"""Tries what README.md says by a built program, which needs no proofs.

    bench/readme.py [--long] PROGRAM

- Blocks with `$`, and the one of `iscc.1`: each command is run, and what it prints must be what stands below it; what is typed at a
  session is what the program does not answer. A picture that a command makes must be the one that is committed.
- Tables and sentences: each piece of code that ends with `;` is a statement. It must be answered, by the code right behind it where that
  is an answer; in the first column of the table for who knows iscc it must be refused. Before them stand the bindings of the block
  without `$`. Code without `;` in the last column of the tables of literals and for who knows iscc is part of a formula that is answered.
- Sentences that show no statement: each of `TOLD` stands on the page, and a script bears it out. So do the reserved words, and the budget
  of the examples.
- Statuses: each is brought about, with its text; `iscc.1` has the same. 22 takes a script of 2^30 bytes, half a minute, so `--long` alone
  does that. What to do: each of `ADVICE` stands in the row, a script ends with the status, and changed so it is answered.
- Limits: what just keeps to each is taken, what is just beyond it refused. Options: those of the table are those of the usage line, and
  each is taken.
- Where there is `rt`: it has the commands and words that are named, and its version is the one that is asked for. Nothing is built.

Times are not tried: `bench/beside.py` prints the table anew. Tells what differs; the status is 1 then.
"""
import os
import re
import shutil
import subprocess
import sys
import tempfile

TOP = os.path.join(os.path.dirname(os.path.abspath(__file__)), "..")
CODE = re.compile(r"`((?:[^`\\]|\\.)+)`")
ANSWER = re.compile(r"[\[{(].*[\]})]|True|False")
SEVENTEEN = ", ".join(f"p{n}" for n in range(17))
PARTS = "{ " + "; ".join(f"[i,j] : {n} <= i <= {n} and 0 <= j <= 9" for n in range(60)) + " }"
HALVES = "[n] -> { " + "; ".join(f"[i] : i >= {n} and n <= {n}" for n in range(30)) + " }"
LONG = "{ " + "; ".join(f"[i,j] : 0 <= i <= {n + 9} and 0 <= j <= i" for n in range(1500)) + " }"
NEST = "D := [n] -> { S[i,j] : 0 <= i, j < n }; W := { S[i,j] -> A[i] } * D;"
# How each status comes: the script, or a command, and words.
CAUSES = {
    2: ("{ };", "--help"), 3: ("{ [i] : i ; };",), 4: ("{ [i] : i < n };",), 5: ("dom { [i] };",), 6: ("lexmin { [i] };",),
    7: ("scan { [i] };",), 8: ("codegen { S[i] -> [t] : 0 <= i, t < 2 };",), 9: ("codegen { S[0]; T[0] };",),
    10: ("codegen { [S[0] -> T[0]] };",), 11: ("scan [n] -> { [i] : 0 <= i < n };",), 12: (f"[{SEVENTEEN}] -> {{ }};",),
    13: ("(" * 201 + "{ }" + ")" * 201 + ";",), 14: ("{ [i] : i >= 300 };", "--bits", "8"), 15: (" " * (2**20 + 1),), 16: ("{ }",),
    17: ("{ [i] : i + 200 + 200 >= 0 };", "--bits", "8"), 18: ("scan { [i] : 0 <= i < 5 };", "--budget", "1"),
    19: ("iscc < .",), 20: ("echo '{ };' | iscc > /dev/full",), 21: ("scan { [i] : 0 <= i < 7000000 };",),
    23: ("(last { } before { } under { })[2];",), 24: ("assume [n] -> { : n > 5 and n < 5 };",),
    25: ("assume [n] -> { : n > 5 }; scan [n] -> { [n] };", "--at", "n=3"),
}
# What to do at a status: the words of the page, and scripts with their words, of which the first ends so and the others are answered.
ADVICE = [
    (4, "bind it", ("a;",), ("a := { }; a;",)),
    (4, "declare the parameter", ("{ [i] : i < n };",), ("[n] -> { [i] : i < n };",)),
    (5, "`scan (a - b)`", ("scan { [1] } - { [2] };",), ("scan ({ [1] } - { [2] });",)),
    (5, "tests, listings, loops, trees can't be bound", ("a := { } = { };",), ("{ } = { };",)),
    (5, "listings", ("a := scan { };",), ("scan { };",)),
    (5, "loops", ("a := codegen { };",), ("codegen { };",)),
    (6, "limit it", ("lexmin { [i] : i <= 0 };",), ("lexmin { [i] : -9 <= i <= 0 };",)),
    (6, "`assume`", ("lexmin [n] -> { [i] : i >= 0; [i] : n <= 0 };",),
     ("assume [n] -> { : n >= 1 }; lexmin [n] -> { [i] : i >= 0; [i] : n <= 0 };",)),
    (7, "limit it", ("scan { [i] : i >= 0 };",), ("scan { [i] : 0 <= i < 3 };",)),
    (7, "`assume`", ("codegen [n] -> { [i] : i >= 0 and n <= 0 };",),
     ("assume [n] -> { : n >= 1 }; codegen [n] -> { [i] : i >= 0 and n <= 0 };",)),
    (8, "`lexmin`", ("codegen { S[i] -> [t] : 0 <= i, t < 2 };",), ("codegen lexmin { S[i] -> [t] : 0 <= i, t < 2 };",)),
    (9, "one width and name: `S[i] -> [i,0]; T[] -> [0,1]`", ("codegen { S[i] -> [i] : 0 <= i < 2; T[] -> [0, 1] };",),
     ("codegen { S[i] -> [i, 0] : 0 <= i < 2; T[] -> [0, 1] };",)),
    (9, "one width and name", ("codegen { S[] -> X[0]; T[] -> Y[0] };",), ("codegen { S[] -> X[0]; T[] -> X[0] };",)),
    (10, "`{ [A[i] -> B[j]] -> C[i,j] }`", ("codegen { [A[0] -> B[0]] };",),
     ("codegen ({ [A[i] -> B[j]] -> C[i, j] }({ [A[0] -> B[0]] }));",)),
    (11, "`--at n=4`", ("scan [n] -> { [i] : 0 <= i < n };",), ("scan [n] -> { [i] : 0 <= i < n };", "--at", "n=4")),
    (13, "bind parts to names", ("(" * 201 + "{ }" + ")" * 201 + ";",),
     ("a := " + "(" * 100 + "{ }" + ")" * 100 + "; " + "(" * 101 + "a" + ")" * 101 + ";",)),
    (14, "more `--bits`, smaller numbers", ("{ [i] : i >= 300 };", "--bits", "8"), ("{ [i] : i >= 300 };", "--bits", "9"),
     ("{ [i] : i >= 200 };", "--bits", "8")),
    (15, "bind parts to names", ("{ } +" + " " * 2**20 + "{ };",), ("a := { };" + " " * (2**20 - 9) + "a + { };",)),
    (16, "the last `;`", ("{ }",), ("{ };",)),
    (16, "a bracket is missing", ("{ [i : i > 0 };",), ("{ [i] : i > 0 };",)),
    (17, "more `--bits`, smaller numbers", ("{ [i] : i + 200 + 200 >= 0 };", "--bits", "8"),
     ("{ [i] : i + 200 + 200 >= 0 };", "--bits", "9"), 
     ("{ [i] : i + 20 + 20 >= 0 };", "--bits", "8")),
    (18, "more `--budget`", ("scan { [i] : 0 <= i < 5 };", "--budget", "1"), ("scan { [i] : 0 <= i < 5 };", "--budget", "9")),
    (18, "`coalesce` operands", (f"a := {PARTS}; a * a;", "--budget", "1000"),
     (f"a := {PARTS}; b := coalesce a; b * b;", "--budget", "1000")),
    (18, "`assume`", (f"a := {HALVES}; a * a;", "--budget", "100"),
     (f"assume [n] -> {{ : n >= 99 }}; a := {HALVES}; a * a;", "--budget", "100")),
    (18, "fewer `or`, `!=`", ("{ [i,j] : i != 0j and i != j and i != 2j and i != 3j };", "--budget", "30"),
     ("{ [i,j] : i < 0j and i < j and i < 2j and i < 3j };", "--budget", "30")),
    (21, "`coalesce` operands", (f"a := {LONG}; b := a * a;",), (f"a := {LONG}; c := coalesce a; b := c * c;",)),
    (23, "`[0]` and `[1]`", ("(last { } before { } under { })[2];",), ("(last { } before { } under { })[0];",),
     ("(last { } before { } under { })[1];",)),
    (24, "allows no numbers", ("assume [n] -> { : n > 5 and n < 5 };",), ("assume [n] -> { : n > 5 };",)),
    (25, "not those of `--at`", ("assume [n] -> { : n > 5 }; scan [n] -> { [n] };", "--at", "n=3"),
     ("assume [n] -> { : n > 5 }; scan [n] -> { [n] };", "--at", "n=6")),
    (25, "0 where none is given", ("assume [n] -> { : n > 5 }; scan { };",), ("assume [n] -> { : n >= 0 }; scan { };",)),
]
# What code that is part of a formula may stand in.
FRAMES = ["{{ [i,j] : {} }};", "{{ [i,j] : {} = 6 }};", "{{ [i,j] : i > 0 {} j < 5 }};"]
# What the page calls a limit, and a statement at a number: the number is taken, the next one refused.
LIMITS = [
    ("16 parameters", 16, lambda n: f"[{', '.join(f'p{k}' for k in range(n))}] -> {{ }};"),
    ("64 coordinates", 64, lambda n: f"{{ [{', '.join(f'x{k}' for k in range(n))}] }};"),
    ("64 coordinates, tuples in a space", 64, lambda n: "{ " + "[A[] -> " * (n - 1) + "A[]" + "]" * (n - 1) + " };"),
    ("64 bound names", 64, lambda n: f"{{ [0] : exists ({', '.join(f'k{k}' for k in range(n))} : k0 = 0) }};"),
    ("64 bound names, floors", 64, lambda n: "{ [i] : " + " and ".join(f"floor(i/{k}) >= 0" for k in range(2, n + 2)) + " };"),
    ("64 bound names, floors, remainders in a piece", 64,
     lambda n: "{ [i] : " + " and ".join(f"i mod {k} = 0" for k in range(2, n + 2)) + " };"),
    ("200 levels", 199, lambda n: "(" * n + "{ }" + ")" * n + ";"),
    ("200 levels, 2^20 bytes", 2**20, lambda n: "{ }" + " " * (n - 3) + ";"),
]
# What the page says, a script, its status, what is printed, and words.
TOLD = [
    ("brings in k, any number", "{ S[i] -> A[i,k] } = { S[i] -> A[i,k] : k >= 0 or k < 0 };", 0, "True\n"),
    ("`scan a - b` is `(scan a) - b`", "scan { [1] } - { [2] };", 5, None),
    ("`lexmin` and `codegen` are refused less", "assume [n] -> { : n >= 1 }; lexmin [n] -> { [i] : i >= 0; [i] : n <= 0 } = { [0] };", 0,
     "True\n"),
    ("more tests hold", "assume [n] -> { : n >= 1 }; [n] -> { [0] : n >= 1 } = { [0] };", 0, "True\n"),
    ("`%` and `coalesce` leave less",
     "a := [n] -> { [i] : i > 0; [0] : n <= 0 }; b := [n] -> { [i] : i >= 0 and n <= 0 }; coalesce a; b % { [i] }; "
     "assume [n] -> { : n <= 0 }; "
     "coalesce a; b % { [i] };", 0, "[n] -> { [i0] : i0 >= 1; [i0] : i0 = 0 and 0 >= n }\n[n] -> { [i0] : i0 >= 0 and 0 >= n }\n"
     "[n] -> { [i0] : i0 >= 0 and 0 >= n }\n[n] -> { [i0] : i0 >= 0 }\n"),
    ("loops are for these",
     "assume [n] -> { : n <= 10 }; codegen [n] -> { S[i] : 0 <= i < n and i <= 20 };", 0,
     "if (10 >= n) {\n  for (c0 = 0; c0 <= n - 1; c0 += 1) {\n    S(c0);\n  }\n}\n"),
    ("Bound values lose pieces without an element there, and keep their rows",
     "e := [n] -> { [0] : n >= 1; [1] : n <= 0 }; assume [n] -> { : n >= 1 }; e;", 0, "[n] -> { [i0] : i0 = 0 and n >= 1 }\n"),
    ("Names are as in C, with any number of `'` behind", "_a1_b'' := { [i'] : i' = 1 }; _a1_b'';", 0, "{ [i0] : i0 = 1 }\n"),
    ("a refused statement is told and skipped", "x; y; { };", 4, None, "--keep-going"),
    ("15, 16 and 19 to 22 end the run", "{ };" + " " * (2**20 + 1) + "; x;", 15, "{ }\niscc: statement 2: statement too long\n",
     "--keep-going"),
    ("16 and 19 to 22 end the run", "{ };{", 16, "{ }\niscc: statement 2: unfinished statement\n", "--keep-going"),
    ("19 to 22 end the run", "scan { [i] : 0 <= i < 7000000 }; { };", 21, "iscc: statement 1: out of memory\n", "--keep-going"),
    ("floors in a map joined with its inverse, shown or bound", "C := { M[x] -> S[floor(x/64) mod 64] }; c := C . C^-1;", 18, None, "--budget", "5000"),
    ("write the quotient", "C := { M[x, q] -> S[q mod 64] : 64q <= x < 64q + 64 }; c := C . C^-1;", 0, "", "--budget", "5000"),
    ("if it is answered, the wrong one comes later", "{ }; { here[] }; { [0:3] };", 3, "{ }\n{ here[] }\niscc: statement 3: syntax error\n"),
    ("many `!=` between coordinates", "{ [i,j] : " + " and ".join(f"i != {n}j" for n in range(20)) + " };", 18, None, "--budget", "3000"),
    ("`any`, `last`, `<<` leave such pairs out without a word",
     "any { S[i] -> A[] } before { T[] -> A[] } under { S[i] -> [i]; T[] -> [5, 0] } = { }; { [1] } << { [2, 3] };", 0, "True\n{ }\n"),
    ("a further `assume` adds to it", "assume [n] -> { : n >= 1 }; assume [n] -> { : n <= 5 }; [n] -> { [0] : 1 <= n <= 5 } = { [0] };", 0, "True\n"),
    ("one element, with numbers of its parameters, or none", "sample [n] -> { S[i] : n = 7 and 5 < i < n };", 0, "[n] -> { S[i0] : n = 7 and i0 = 6 }\n"),
    ("numbers of parameters, each once", "{ };", 2, None, "--at", "n=4,n=5"),
    ("no script is read", "x;", 0, "statements 10, true 2, elements 21\n", "--make", "1"),
    ("Answers call coordinates `i0, i1, ..`, of a map's range `o0, o1, ..`", "{ A[x, y] -> B[z, w] };", 0, "{ A[i0, i1] -> B[o0, o1] }\n"),
    ("There is no prompt", "", 0, ""),
    ("and so does the first wrong statement", "{ }; x; { };", 4, "{ }\niscc: statement 2: unknown name\n"),
    ("or nothing", ";; ;", 0, ""),
    ("a line each", "codegen { S[2]; S[3] };", 0, "S(2);\nS(3);\n", "--run"),
    ("`print E`", "print { A[] };", 0, "{ A[] }\n"),
]
# Commands that the page names, how they are tried, what they print, and their status.
COMMANDS = [
    ("`cat defs - \\| iscc`", "echo 'a := { A[] };' > defs; echo 'a;' | cat defs - | iscc", ["{ A[] }"], 0),
    ("iscc < script.iscc", "echo '{ A[] };{ [i] : i < 5 and 2i*3 >= 4 };' > script.iscc; iscc < script.iscc",
     ["{ A[] }", "iscc: statement 2: syntax error"], 3),
    ("`python3 examples/where.py iscc < script.iscc`", "python3 examples/where.py iscc < script.iscc",
     ["statement 2, line 1, column 29: syntax error", "{ A[] };{ [i] : i < 5 and 2i*3 >= 4 };", " " * 28 + "^"], 1),
    ("`man ./iscc.1`", f"test -r {TOP}/iscc.1", [], 0),
    ("`examples/README.md`", f"test -r {TOP}/examples/README.md", [], 0),
]
OPTIONS = {"--at": "n=4,m=-1", "--run": None, "--keep-going": None, "--cert": None, "--bits": "8", "--budget": str(10**12), "--make": "1000"}
found = []


def run(program, script, *words):
    """What the program prints on either stream, in order, and its status."""
    done = subprocess.run([program, *words], input=script.encode(), stdout=subprocess.PIPE, stderr=subprocess.STDOUT, check=False)
    return done.stdout.decode(), done.returncode


def blocks(page):
    """The indented blocks, each its lines."""
    return [re.sub(r"^    ", "", block, flags=re.M).rstrip("\n").split("\n") for block in re.findall(r"(?:^    .*\n)+", page, re.M)]


def session(program, words, lines):
    """Tells where lines that are typed and answered differ from what the program answers."""
    typed, answered, at = [], 0, 0
    while at < len(lines):
        typed.append(lines[at])
        told = run(program, "\n".join(typed) + "\n", *words)[0].splitlines()[answered:]
        answered += len(told)
        shown = lines[at + 1:at + 1 + len(told)]
        if shown != told:
            found.append(f"behind '{lines[at]}' comes {told}, and {shown} is shown")
            return
        at += 1 + len(told)


def command(program, room, line, status):
    """What a command prints, and its status; `$?` is that of the one before it."""
    done = subprocess.run(["bash", "-c", f"(exit {status}); {line}"], cwd=room, stdout=subprocess.PIPE, stderr=subprocess.STDOUT, text=True,
                          env={**os.environ, "PATH": f"{room}/bin:{os.environ['PATH']}"}, check=False)
    return done.stdout.splitlines(), done.returncode


def try_block(program, room, lines):
    """The commands of a block, one after another."""
    status = at = 0
    while at < len(lines):
        line = lines[at][2:]
        end = next((n for n in range(at + 1, len(lines)) if lines[n].startswith("$ ")), len(lines))
        shown = lines[at + 1:end]
        if shown[-1:] == ["^D"]:
            words = line.split()[1:]
            session(program, words, shown[:-1])
            status = run(program, "\n".join(shown[:-1]), *words)[1]
        else:
            told, status = command(program, room, line, status)
            if told != shown:
                found.append(f"'{line}' prints {told}, and {shown} is shown")
        at = end


def statements(program, bound, text, refused):
    """The statements of a cell or a sentence."""
    codes = [code.replace("\\|", "|") for code in CODE.findall(text)]
    for code, after in zip(codes, [*codes[1:], ""]):
        if not code.endswith(";") or re.fullmatch(r"\w*\([-\d, ]*\);", code):
            continue  # no statement, or a call of loops
        told, status = run(program, f"{bound}{code}")
        if refused != (status in (3, 5)) or (status and not refused):
            found.append(f"{code} ends with status {status}")
        wanted = after + "\n"
        if not refused and ANSWER.fullmatch(after) and not after.endswith(";") and told != wanted:
            found.append(f"{code} is answered by {told!r}, and {wanted!r} is shown")


def parts_of_formulas(program, text):
    """The code of a cell that is no statement: in some frame it is answered."""
    for code in CODE.findall(text):
        if not code.endswith(";") and not ANSWER.fullmatch(code) and all(run(program, frame.format(code))[1] for frame in FRAMES):
            found.append(f"{code} is part of no formula")


def try_advice(program, rows):
    """What to do at a status helps."""
    rows = {status: what for statuses, what in rows for status in statuses}
    if untried := set(rows) - {2, 3, 12, 19, 20, 22} - {status for status, *_ in ADVICE}:
        found.append(f"what to do at {sorted(untried)} is not tried")
    for status, said, (script, *words), *others in ADVICE:
        if said not in rows.get(status, ""):
            found.append(f"no '{said}' is told at {status}")
        if (ended := run(program, script, *words)[1]) != status:
            found.append(f"{status}, '{said}': {script[:80]!r} ends with status {ended}")
        for changed, *given in others:
            if ended := run(program, changed, *given)[1]:
                found.append(f"{status}, '{said}': {changed[:80]!r} ends with status {ended}")


def try_commands(program, room, page):
    """Commands that stand in sentences and cells."""
    for said, line, wanted, ends in COMMANDS:
        told, status = command(program, room, line, 0)
        if said not in page or (told, status) != (wanted, ends):
            found.append(f"'{said}': {line} ends with status {status}, {told}")


def try_long(program):
    """A script of more than 2^30 bytes."""
    with subprocess.Popen([program], stdin=subprocess.PIPE, stderr=subprocess.PIPE) as process:
        try:
            for _ in range(2**10 + 1):
                process.stdin.write(b" " * (2**20 - 1) + b";")
            process.stdin.close()
        except BrokenPipeError:
            pass
        line = process.stderr.read().decode()
    if process.returncode != 22 or not line.endswith(": script too long\n"):
        found.append(f"2^30 bytes and one end with status {process.returncode}, {line!r}")


def try_kit(page):
    """The commands of the kit that the page names, and its version; `rt` builds nothing here."""
    if not shutil.which("rt"):
        return
    usage = subprocess.run(["rt", "help"], stdout=subprocess.PIPE, stderr=subprocess.STDOUT, text=True, check=False).stdout
    kit = subprocess.run(["rt", "version"], stdout=subprocess.PIPE, text=True, check=False).stdout.strip()
    asked = re.search(r"`rt version` ends with `(.*?)`", re.sub(r"\s+", " ", page))
    if not asked or not kit.endswith(asked[1]):
        found.append(f"rt version tells {kit}")
    for command in re.findall(r"\brt ([a-z]+(?: --[a-z]+)?)\b", "; ".join(CODE.findall(page))):
        word, *option = command.split()
        lines = [line for line in usage.splitlines() if re.search(rf"\brt ([a-z|]*\|)?{word}\b", line)]
        if not any(all(each in line for each in option) for line in lines):
            found.append(f"rt has no {command}")
    for folder, path in re.findall(r"`\(cd ([\w/]+) && rt \w+ < ([\w./]+)\)`", page):
        if not os.path.exists(f"{TOP}/{folder}/{path}") and not os.path.exists(path):
            found.append(f"no path {path} in {folder}")


def try_statuses(program, room, rows):
    """The rows of statuses: each with its text."""
    told = {}
    for cell, _ in rows:
        told.update((int(status), text) for status, text in re.findall(r"(\d+) `([^`]*)`", cell))
    if set(told) != {*CAUSES, 22}:
        found.append(f"statuses {sorted(set(told) ^ {*CAUSES, 22})} are not told, or not there")
    with open(f"{TOP}/iscc.1") as file:
        manual = {int(status): text for status, text in re.findall(r"^(\d+)\|(.*)$", file.read(), re.M)}
    if {status: text for status, text in manual.items() if status > 2} != {status: text for status, text in told.items() if status > 2}:
        found.append("iscc.1 has other statuses")
    for status, (script, *words) in CAUSES.items():
        if status in (19, 20):
            lines, ended = command(program, room, script, 0)
            line = "".join(lines)
        else:
            line, ended = run(program, script, *words)
        text = told.get(status, "").replace(" ..", "")
        if ended != status or (text not in line if status == 2 else not line.endswith(f": {text}\n") and not line.endswith(f": {text}")):
            found.append(f"status {status} '{text}': {ended}, {line!r}")


def try_told(program, page):
    """What sentences say that show no statement."""
    page = re.sub(r"\s+", " ", page)
    for said, script, status, wanted, *words in TOLD:
        if said not in page:
            found.append(f"no '{said}' is told")
        told, ended = run(program, script, *words)
        if ended != status or wanted not in (None, told):
            found.append(f"'{said}': {script[:80]!r} ends with status {ended}, {told!r}")
    for name in sorted(os.listdir(f"{TOP}/examples")):
        if name.endswith(".iscc"):
            with open(f"{TOP}/examples/{name}") as script:
                if run(program, script.read(), "--budget", "9999")[1] == 18:
                    found.append(f"examples/{name} needs 10,000 units")


def try_reserved(program, rows, inside):
    """The words that name no value, and those that name nothing in literals."""
    values = {*re.findall(r"\b[a-z_]{3,}\b", " ".join(rows)), "assume", "print", "pip"} - {"floord", "ceild"}
    inside = {*re.findall(r"\b[a-z]{2,}\b", " ".join(inside)), "true", "false"}
    for scripts in [[f"{word} := {{ }};" for word in values], [f"{{ [{word}] }};" for word in inside]]:
        found.extend(f"{script} is taken" for script in scripts if run(program, script)[1] != 3)


def try_options(program, names):
    """The options of the table are those of the usage line, and each is taken."""
    usage = set(re.findall(r"--[a-z-]+", run(program, "", "--help")[0]))
    if not usage == set(names) == set(OPTIONS):
        found.append(f"options: {sorted(usage)} are taken, {sorted(names)} told, {sorted(OPTIONS)} tried")
    for name, value in OPTIONS.items():
        told, status = run(program, "{ };", name, *([value] if value else []))
        if status:
            found.append(f"{name} {value}: {told}")


def try_limits(program, page):
    for name, most, statement in LIMITS:
        if name not in re.sub(r"\s+", " ", page):
            found.append(f"no limit '{name}' is told")
        at, beyond = run(program, statement(most))[1], run(program, statement(most + 1))[1]
        if at or beyond not in (12, 13, 15):
            found.append(f"{name}: status {at} at it, {beyond} beyond it")


def main(program, long):
    with open(f"{TOP}/README.md") as file:
        page = file.read()
    with tempfile.TemporaryDirectory(prefix="iscc-readme-") as room:
        shutil.copytree(f"{TOP}/examples", f"{room}/examples", ignore=shutil.ignore_patterns("__pycache__"))
        os.mkdir(f"{room}/bin")
        os.symlink(program, f"{room}/bin/iscc")
        bound = ""
        for lines in blocks(page):
            if lines[0].startswith("$ "):
                try_block(program, room, lines)
            elif lines[0].endswith(";"):
                bound = "\n".join(lines) + "\n"
        with open(f"{TOP}/iscc.1") as manual:
            example = re.search(r"^\.nf\n(.*)^\.fi", manual.read(), re.M | re.S)[1]
        try_block(program, room, example.replace("\\-", "-").splitlines())
        for picture in re.findall(r"\]\((examples/[\w.]+)\)", page):
            with open(f"{TOP}/{picture}", "rb") as one, open(f"{room}/{picture}", "rb") as other:
                if one.read() != other.read():
                    found.append(f"{picture} is not what its command makes")
        prose = re.sub(r"^(    .*|.* \| .*|---.*)\n", "", page, flags=re.M)
        statements(program, bound, prose, False)
        head, rows, options, words, inside = "", [], [], [], []
        for line in page.splitlines():
            cells = [cell.strip() for cell in re.split(r"(?<!\\)\|", line)]
            if line.startswith("    ") or len(cells) == 1:
                head = ""
            elif not head:
                head = cells[0]
            elif head == "Status, line":
                rows.append(cells)
            elif cells[0] != "---":
                options += re.findall(r"^`(--[a-z-]+)", cells[0]) if head == "Option" else []
                words += CODE.findall(line) if head == "Expression" else []
                inside += CODE.findall(cells[0]) if head == "In literals" else []
                for cell in cells:
                    statements(program, bound, cell, head == "Refused" and cell is cells[0])
                if head in ("Refused", "In literals"):
                    parts_of_formulas(program, re.sub(r"`cat .*?`", "", cells[1]))
        try_statuses(program, room, rows)
        try_advice(program, [([int(status) for status in re.findall(r"(\d+) `", cell)], what) for cell, what in rows])
        try_options(program, options)
        try_limits(program, page)
        try_told(program, page)
        try_reserved(program, words, inside)
        try_kit(page)
        try_commands(program, room, page)
        if long:
            try_long(program)
    print("\n".join(found) or "README.md: all is as it says")
    return bool(found)


if __name__ == "__main__":
    *option, named = sys.argv[1:] or [""]
    if not named or option not in ([], ["--long"]):
        sys.exit(__doc__)
    sys.exit(main(os.path.abspath(named), bool(option)))
