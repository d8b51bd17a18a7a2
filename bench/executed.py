#!/usr/bin/env python3
"""Executes printed loops: reads them, and prints their calls where parameters have the numbers that are said, or how many turns they take
if these are more than they may be. It reads the text alone, and shares nothing with the program.

    bench/executed.py TURNS NAME=INT,..
"""
import re
import sys

FORMS = [
    (r"for \((.*) = (.*); \1 <= (.*); \1 \+= (\d+)\) \{", r"for \1 in turns(\2, \3, \4):"),
    (r"if \((.*)\) \{", lambda found: f"if {comparison(found[1])}:"),
    (r"([A-Za-z_]\w*)?\((.*)\);", r"call('\1', \2)"),
    (r"\}", r"pass"),
]


def comparison(text):
    """Rows, which are written without signs between numbers and names, and with one `=`."""
    text = re.sub(r"(\d)([A-Za-z_])", r"\1*\2", text.replace("&&", "and").replace("true", "True"))
    return re.sub(r"(?<![<>!])=", "==", text).replace(" mod ", " % ")


def program(text):
    """The loops as a Python program. A prime in a name is a letter that no name has."""
    lines = []
    for line in text.replace("'", "é").splitlines():
        words = line.lstrip(" ")
        form, put = next((form, put) for form, put in FORMS if re.fullmatch(form, words))
        blanks = len(line) - len(words) + (2 if words == "}" else 0)
        lines.append(" " * blanks + re.sub(form, put, words))
    return "\n".join(lines)


def executed(text, numbers):
    """The calls, and how many turns the loops take."""
    taken, calls = [], []

    def turns(low, high, step):
        for number in range(low, high + 1, step):
            taken.append(number)
            yield number

    def call(name, *arguments):
        calls.append(f"{name}({', '.join(map(str, arguments))});")
    known = {name.replace("'", "é"): number for name, number in numbers.items()}
    exec(program(text), {"turns": turns, "call": call, "floord": lambda a, k: a // k, "ceild": lambda a, k: -(-a // k), **known})
    return calls, len(taken)


def main():
    numbers = dict(binding.split("=") for binding in (sys.argv[2].split(",") if len(sys.argv) > 2 else []))
    calls, taken = executed(sys.stdin.read(), {name: int(number) for name, number in numbers.items()})
    print("".join(f"{call}\n" for call in calls) if taken <= int(sys.argv[1]) else f"{taken} turns\n", end="")


if __name__ == "__main__":
    main()
