#!/usr/bin/env python3
"""Whether the documents speak of what is there, and how many words they have.

A word that begins an item of docs/DEFINITIONS.md must stand in `specs/` of a crate that the item or its head names. A crate or a path that
a page names must be there; docs/EDITS.md names each edit of must-fail/, and the first line of each one in wrong/ says what it does. Prints
each page's words, as `wc -w` counts them, their sum, which of these are above what they may be, and what is not there.
"""
import glob
import os
import re
import sys

os.chdir(os.path.join(os.path.dirname(os.path.abspath(__file__)), ".."))
CRATES = {os.path.basename(folder) for folder in glob.glob("crates/*")}
LIMITS = {"README.md": 2700, "in all": 12000}
EDITS = {(path.split("/")[1], os.path.basename(path)[: -len(".edit")]) for path in glob.glob("crates/*/must-fail/*.edit")}


def untold():
    """The edits of wrong/ that do not say what they do."""
    for path in glob.glob("crates/*/wrong/*.edit"):
        with open(path) as file:
            if not file.read().startswith("# "):
                yield f"{path}: what it does is not told"


def defined(crate):
    """The public words of a crate's definitions."""
    text = "".join(open(path).read() for path in glob.glob(f"crates/{crate}/specs/*.antt"))
    return set(re.findall(r"\bpub (?:abbrev |record |data )?([\w']+)", text))


def missing_words(text):
    """Words of the items that no crate defines which the item or its head names."""
    head = []
    for line in text.splitlines():
        begin = line.split(":")[0]
        crates = re.findall(r"`(isl_\w+)`", begin)
        if line.startswith("## "):
            head = crates
        elif line.startswith("- "):
            known = CRATES.union(*map(defined, head + crates))
            yield from (f"no word {word}" for word in re.findall(r"`([A-Za-z_]\w*)", begin) if word not in known)


def missing_things(text):
    """Crates and paths that a page names and the repository does not have; what is built is not asked."""
    yield from (f"no crate {name}" for name in re.findall(r"`((?:isl|tests|bench)_[a-z_]+)`", text) if name not in CRATES)
    for path in re.findall(r"`((?:docs|bench|examples|crates|isl_\w+)/[\w./]+)`", text):
        if not (re.search("/out/|NAME", path) or os.path.exists(path) or os.path.exists(f"crates/{path}")):
            yield f"no path {path}"


def told_edits(text):
    """The edits that the items of a page tell, each behind its crate."""
    for item in re.findall(r"^- (.*(?:\n  .*)*)", text, re.M):
        crate, _, rest = re.sub(r"\s+", " ", item).partition(": ")
        yield from ((crate.strip("`"), name) for name in re.findall(r"(?:^|; )`(\w+)`", rest))


found = list(untold())
counts = {}
for page in sorted([*glob.glob("*.md"), *glob.glob("*/*.md")]):
    with open(page) as file:
        text = file.read()
    counts[page] = len(text.split())
    found += [f"{page}: {what}" for what in missing_things(text)]
    if page == "docs/DEFINITIONS.md":
        found += [f"{page}: {what}" for what in missing_words(text)]
    if page == "docs/EDITS.md":
        found += [f"{page}: {'/'.join(edit)} is not told, or not there" for edit in set(told_edits(text)) ^ EDITS]
counts["in all"] = sum(counts.values())
for page, words in counts.items():
    print(f"{words:6} {page}")
    if words > LIMITS.get(page, words):
        found.append(f"{page}: more than {LIMITS[page]:,} words")
print("\n".join(sorted(set(found))) or "all is there")
sys.exit(bool(found))
