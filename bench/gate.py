#!/usr/bin/env python3
"""Where the gate's time goes, by crate.

    bench/gate.py run LOG [WORDS..]   runs `rt ci WORDS..`, and notes in LOG each prover that ran: its crate, what it did, its processor seconds
    bench/gate.py table LOG           the table of docs/MAP.md from such a log: processor seconds by crate against its budget

The budget is 5 processor minutes a 1,000 lines of code; a crate with few lines may take half a minute, which reading the libraries costs.
"""
import glob
import os
import resource
import subprocess
import sys
import time
from collections import defaultdict

KINDS = ("proof", "tests", "edits")
TICKS = os.sysconf("SC_CLK_TCK")
BUDGET, LEAST = 300 / 1000, 30


def parents():
    """The parent of each process that runs now."""
    found = {}
    for folder in glob.glob("/proc/[0-9]*"):
        try:
            with open(f"{folder}/stat") as file:
                found[int(os.path.basename(folder))] = int(file.read().rpartition(")")[2].split()[1])
        except (OSError, IndexError, ValueError):
            continue  # it has ended meanwhile
    return found


def provers(gate):
    """The provers that run now below the process of the gate: process and start, crate, kind, processor seconds with what they started."""
    above = parents()
    for process in above:
        over = process
        while over > 1 and over != gate:
            over = above.get(over, 0)
        if over != gate:
            continue  # another gate's
        folder = f"/proc/{process}"
        try:
            with open(f"{folder}/comm") as file:
                if file.read().strip() != "rattle":
                    continue
            is_edit = os.path.basename(os.readlink(f"{folder}/cwd")).startswith("rt-edit-")
            with open(f"{folder}/cmdline", "rb") as file:
                words = file.read().decode(errors="replace").split("\0")
            with open(f"{folder}/stat") as file:
                stat = file.read().rpartition(")")[2].split()
            seconds = sum(int(ticks) for ticks in stat[11:15]) / TICKS
            kind = "edits" if is_edit else "tests" if "--test" in words else "proof"
            yield (folder, stat[19]), words[words.index("--crate-name") + 1], kind, seconds
        except (OSError, IndexError, ValueError):
            continue  # it has ended meanwhile


def run(log, words):
    seen, begin = {}, time.time()
    gate = subprocess.Popen(["rt", "ci", *words])
    while gate.poll() is None:
        for key, crate, kind, seconds in provers(gate.pid):
            seen[key] = crate, kind, seconds
        time.sleep(0.2)
    used = resource.getrusage(resource.RUSAGE_CHILDREN)
    with open(log, "w") as file:
        for crate, kind, seconds in seen.values():
            print(crate, kind, f"{seconds:.2f}", file=file)
        print("all", "elapsed", f"{time.time() - begin:.0f}", file=file)
        print("all", "processor", f"{used.ru_utime + used.ru_stime:.0f}", file=file)
    return gate.returncode


def lines_of_code(crate):
    """Lines of the crate's .rt files that are neither blank nor comment."""
    count = 0
    for path in glob.glob(f"crates/{crate}/src/**/*.rt", recursive=True):
        with open(path) as file:
            count += sum(bool(line.strip()) and not line.strip().startswith("//") for line in file)
    return count


def table(log):
    spent, whole = defaultdict(float), {}
    with open(log) as file:
        for line in file:
            crate, kind, seconds = line.split()
            if crate == "all":
                whole[kind] = float(seconds)
            else:
                spent[crate, kind] += float(seconds)
    print("| Crate | Lines of code and clauses | Proof | Tests | Edits | All | Budget |")
    print("|---|---|---|---|---|---|---|")
    with open("crates.txt") as file:
        crates = [line.split(":")[0] for line in file if ":" in line and not line.startswith("#")]
    for crate in crates:
        lines = lines_of_code(crate)
        each = [spent[crate, kind] for kind in KINDS]
        budget = max(LEAST, BUDGET * lines)
        past = " (past)" if sum(each) > budget else ""
        row = " | ".join(f"{seconds:.0f} s" for seconds in (*each, sum(each)))
        print(f"| `{crate}` | {lines:,} | {row} | {budget:.0f} s{past} |")
    row = " | ".join(f"{sum(spent[crate, kind] for crate in crates) / 60:.1f} min" for kind in KINDS)
    print(f"| all | {sum(map(lines_of_code, crates)):,} | {row} | {sum(spent.values()) / 60:.1f} min | |")
    print(f"\n{whole['elapsed'] / 60:.1f} minutes by the clock, {whole['processor'] / 60:.1f} processor minutes with all that is no prover.")


def main(words):
    os.chdir(os.path.join(os.path.dirname(os.path.abspath(__file__)), ".."))
    match words:
        case ["run", log, *rest]:
            return run(log, rest)
        case ["table", log]:
            return table(log)
    print(__doc__)
    return 2


if __name__ == "__main__":
    sys.exit(main(sys.argv[1:]))
