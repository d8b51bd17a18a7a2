#!/usr/bin/env python3
"""Tries the wrong bodies that the gate does not try: crates/CRATE/wrong/*.edit, for who changes CRATE. The first line of each says what
it does.

    bench/edits.py CRATE..

In a copy of the checkout they stand beside what is in must-fail/, and `rt must-fail` tries both. The libraries below that are built here are
taken. The first edit of a crate costs its proof, unless `rt check` has just made it here; a further one some 20 seconds.
"""
import os
import shutil
import subprocess
import sys
import tempfile


def link_or_copy(source, target):
    """What is built is large: the copy has the same files, where it is on the same device."""
    try:
        os.link(source, target)
    except OSError:
        shutil.copy2(source, target)


def copy(room):
    """The checkout without its history, as it stands, with what is built of it."""
    kept = shutil.ignore_patterns(".git", "__pycache__")
    shutil.copytree(".", room, dirs_exist_ok=True, ignore=lambda at, names: {*kept(at, names), *({"out"} & set(names))})
    for name in sorted(os.listdir("crates")):
        for part, how in (("rlib", link_or_copy), ("incremental", shutil.copy2)):
            if os.path.isdir(f"crates/{name}/out/{part}"):
                shutil.copytree(f"crates/{name}/out/{part}", f"{room}/crates/{name}/out/{part}", copy_function=how)


def place(folder):
    """Puts the crate's wrong bodies where `rt must-fail` looks, and tells what each does; how many they are."""
    wrong = [name for name in sorted(os.listdir(f"{folder}/wrong")) if name.endswith(".edit")] if os.path.isdir(f"{folder}/wrong") else []
    os.makedirs(f"{folder}/must-fail", exist_ok=True)
    for name in wrong:
        with open(f"{folder}/wrong/{name}") as file:
            print(f"{name}:", file.readline().lstrip("# ").rstrip())
        os.rename(f"{folder}/wrong/{name}", f"{folder}/must-fail/{name}")
    return len(wrong)


def main(crates):
    os.chdir(os.path.join(os.path.dirname(os.path.abspath(__file__)), ".."))
    lacking = [crate for crate in crates if not os.path.isdir(f"crates/{crate}/src")]
    if not crates or lacking:
        print(f"no crate {lacking[0]}" if lacking else __doc__, file=sys.stderr)
        return 2
    with tempfile.TemporaryDirectory(prefix="isl-wrong-") as room:
        copy(room)
        for crate in crates:
            print(f"{crate}: {place(f'{room}/crates/{crate}')} that the gate does not try", flush=True)
        return subprocess.run(["rt", "must-fail", *crates], cwd=room).returncode


if __name__ == "__main__":
    sys.exit(main(sys.argv[1:]))
