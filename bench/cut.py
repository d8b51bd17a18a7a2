#!/usr/bin/env python3
"""Where the statements of scripts end: all scripts of at most five of six bytes, and each beginning of some longer ones, one behind
another in one script. Behind each stands what ends all that it leaves open, and a statement whose refusal tells how many there were. What
is counted is compared with a plain reading: comments are blanked out first, and then each `;` is looked at. No part of that is shared
with the program.

    bench/cut.py PROGRAM

tells how many scripts were cut otherwise; the status is 1 then."""
import itertools
import re
import subprocess
import sys

# With the places of the semicolons that end statements, and whether more than blanks and comments stands behind them.
KNOWN = [
    ("", [], False), ("a", [], True), (";", [0], False), (" ; \n", [1], False), ("a;b", [1], True), ("a;;b;", [1, 2, 4], False),
    ("{ [i] : i = 0; [i] : i = 1 };", [28], False), ("([{;}];);x", [8], True), ("(];", [2], False), ("{;", [], True),
    ("{{};};", [5], False),
    ("];", [1], False), (")(;", [], True), ("}{;}]; ", [5], False), ("# a ; b\n;", [8], False), ("# a ; b", [], False),
    ("{ # }\n;", [], True), ("# {\na;#;", [5], False), ("#;#\n;b", [4], True), ("a;# b\n{ # } ; {\n; };c", [1, 19], True),
    ("# a # ; here", [], False), ("a # b", [], True), ("{ # }\n};", [7], False), (" \t\r\n", [], False),
    ("{ };{ };{ };", [3, 7, 11], False),
]


def cut(script):
    """The places of the semicolons that end statements, and what stands behind the last of them, without comments."""
    code = re.sub(r"#[^\n]*", lambda found: " " * len(found[0]), script)
    ends, begin = [], 0
    for at, byte in enumerate(code):
        if byte == ";" and not is_open(code[begin:at]):
            ends.append(at)
            begin = at + 1
    return ends, code[begin:]


def is_open(part):
    """Whether some end of the part opens more brackets than it closes."""
    return any(sum(byte in "([{" for byte in end) > sum(byte in ")]}" for byte in end) for end in (part[at:] for at in range(len(part))))


def main():
    scripts = ["".join(bytes) for length in range(6) for bytes in itertools.product(";{}#\na", repeat=length)]
    differ = 0
    for script, ends, more in KNOWN:
        scripts += [script[:length] for length in range(len(script) + 1)]
        found, rest = cut(script)
        differ += (found, rest.strip() != "") != (ends, more)
    # A line feed ends a comment, eight brackets of each kind what is open; `x` is a statement in any case.
    run = subprocess.run([sys.argv[1], "--keep-going"], input="".join(f"{script}\n{')]}' * 8}x;dom {{ [0] }};" for script in scripts),
                         capture_output=True, text=True, check=False)
    numbers = [int(line.split()[2][:-1]) for line in run.stderr.splitlines() if line.endswith(": wrong kind of operand")]
    last = 0
    for script, number in itertools.zip_longest(scripts, numbers):
        statements = len(cut(script)[0]) + 2
        if number is None or number - last != statements:
            differ += 1
            print(f"{script!r}: {number and number - last} statements, and {statements} were wanted")
        last = number or last
    print(f"{len(scripts)} scripts, {differ} differ")
    return 1 if differ else 0


if __name__ == "__main__":
    sys.exit(main())
