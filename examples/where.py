#!/usr/bin/env python3
"""Where a refused statement is wrong: the first place at which nothing can follow.

    python3 examples/where.py iscc [OPTION..] < script.iscc

runs the script by the program that is named, with its options. Where a statement is refused for what it says (the statuses 3, 4, 5, 12, 13,
14 and 23), it is cut behind each of its tokens, and the program is asked whether some ending makes a front of it a statement that is
not refused so. The line, with a mark under the token that no ending helps, is written, and the status is 1. What the program takes is not
known here: it is asked.
"""
import itertools
import re
import subprocess
import sys

TOKEN = re.compile(r"[A-Za-z_]\w*'*|\d+|\^-1|->-|->\*|->|:=|<<=|>>=|<<|>>|==|<=|>=|!=|&&|\|\||[;:,()\[\]{}+*\-./%=<>!]", re.ASCII)
# In the order in which causes are told: of a statement that is refused for a later one, or answered, the fronts are good.
CAUSES = ["syntax error", "too deep", "too wide", "number too large", "unknown name", "wrong kind of operand", "no such element"]
ENDS = {"(": ")", "[": "]", "{": "}"}


def without_comments(script):
    """The script with a blank for each byte of a comment."""
    return re.sub(r"#[^\n]*", lambda found: " " * len(found[0]), script)


def statements(script):
    """Where the statements begin and end, each `;` outside brackets."""
    begin = depth = 0
    for at, byte in enumerate(script):
        depth = max(0, depth + (byte in "([{") - (byte in ")]}"))
        if byte == ";" and not depth:
            yield begin, at
            begin = at + 1


def tokens(text):
    """The places of the tokens, and where a byte begins none, or None."""
    places, at = [], 0
    while True:
        while at < len(text) and text[at] in " \t\r\n":
            at += 1
        if at == len(text):
            return places, None
        found = TOKEN.match(text, at)
        if not found:
            return places, at
        places.append(found.span())
        at = found.end()


def levels(words):
    """What stands at each open level: the word before its bracket, the bracket, and its words so far, without inner levels."""
    open_levels = [("", "", [])]
    for word in words:
        if word in ENDS:
            before = open_levels[-1][2]
            open_levels.append((before[-1] if before else "", word, []))
            before.append(word)
        elif word in ENDS.values() and len(open_levels) > 1:
            open_levels.pop()
            open_levels[-1][2].append(word)
        else:
            open_levels[-1][2].append(word)
    return open_levels


def missing(words):
    """The rest of `any` or `last` at a level."""
    last = [word for word in words if word in ("any", "last", "before", "under")][-1:]
    return {"any": " before { } under { }", "last": " before { } under { }", "before": " under { }"}.get("".join(last), "")


def closings(level, outer):
    """What may close a level: texts, each with its bracket."""
    before, bracket, words = level
    inside = any(opened == "{" for _, opened, _ in outer)
    if not bracket:
        return [missing(words)]
    if bracket == "(" and inside:
        if before in ("floor", "ceil"):
            return [")" if "/" in words else "/1)"]
        if before in ("floord", "ceild"):
            return [")" if "," in words else ", 1)"]
        return [" : true)", ")"] if before == "exists" and ":" not in words else [")"]
    if bracket == "(":
        return [missing(words) + ")"]
    if bracket == "{":
        return ["}", " -> []}", " : }"]
    arrow = " -> []" if outer[-1][1] == "[" and "->" not in outer[-1][2] else ""
    if not inside:
        return ["]", "] -> { }", "] -> { : }"]
    return ["]" + arrow, "/1]", "]"]


FILLERS = ["", " 1", " { }", " []", "[]", " k0", " true", " : true", " k0 : true", " 1 : true", " -> { }", " -> []", " -> { : }", " { : }",
           " : }", " := { }", "(1/1)", "(1, 1)", "{ }", "/1", " { } before { } under { }", " (k0 : true)", " ()"]


def endings(words):
    """Endings of a front: something behind it, what closes each level, and a comparison at one place or at none."""
    open_levels = levels(words)
    choices = [closings(level, open_levels[:at]) for at, level in enumerate(open_levels)][::-1]
    for filler in FILLERS:
        for closers in itertools.islice(itertools.product(*choices), 729):
            parts = [filler, *closers]
            yield "".join(parts)
            for at in range(len(parts) - 1):
                yield "".join(parts[:at + 1]) + " = 1" + "".join(parts[at + 1:])


def refusals(command, script):
    """What the program tells of each statement that is refused: its text by its number."""
    run = subprocess.run([*command, "--keep-going"], input=script, capture_output=True, text=True, check=False)
    return {int(number): text for number, text in re.findall(r"^iscc: statement (\d+): (.*)$", run.stderr, re.M)}


def can_follow(command, before, front, words, cause):
    """Whether some ending of a front is refused for a later cause, or is answered."""
    found = list(dict.fromkeys(endings(words)))
    first = sum(1 for _ in statements(before)) + 1
    told = refusals(command, before + "".join(f"{front}{ending}\n;" for ending in found))
    earlier = CAUSES[:CAUSES.index(cause) + 1]
    return any(told.get(first + at, "") not in earlier for at in range(len(found)))


def wrong_place(command, before, text, cause):
    """The place of the first token of a statement that no ending helps; its end where all of it may stand before more."""
    places, unread = tokens(text)
    words = [text[begin:end] for begin, end in places]
    if words[1:2] == [":="]:
        text = text[:places[0][0]] + re.sub(r"\w|'", "_", words[0]) + text[places[0][1]:]
    good, bad = 0, len(places) + 1
    while bad - good > 1:
        middle = (good + bad) // 2
        if middle <= len(places) and can_follow(command, before, text[:places[middle - 1][1]], words[:middle], cause):
            good = middle
        else:
            bad = middle
    if good < len(places):
        return places[good][0]
    return len(text) if unread is None else unread


def main(command):
    if not command:
        print(__doc__, file=sys.stderr)
        return 2
    script = sys.stdin.read()
    run = subprocess.run(command, input=script, stdout=subprocess.DEVNULL, stderr=subprocess.PIPE, text=True, check=False)
    told = re.match(r"iscc: statement (\d+): (.*)", run.stderr)
    if not told:
        print(run.stderr.strip() or "nothing is refused")
        return run.returncode
    number, cause = int(told[1]), told[2]
    code = without_comments(script)
    parts = list(statements(code))
    if cause not in CAUSES or number > len(parts):
        print(f"statement {number}: {cause}; no word of it is wrong")
        return 1
    begin, end = parts[number - 1]
    at = begin + wrong_place(command, code[:begin], code[begin:end], cause)
    line = script.count("\n", 0, at) + 1
    column = at - (script.rfind("\n", 0, at) + 1)
    print(f"statement {number}, line {line}, column {column + 1}: {cause}")
    print(script.splitlines()[line - 1])
    print(" " * column + "^")
    return 1


if __name__ == "__main__":
    sys.exit(main(sys.argv[1:]))
