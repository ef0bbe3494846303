#!/usr/bin/env python3
"""Holds the sources to the rules of the house that the prover does not ask for.

Usage: python3 checks/order.py [ROOT]. Status 0 where they are kept, 1 where one is not; each fault says what to mend and where.
The last line counts what was looked at.

- A line of code (crates/*/src), of a definition (crates/*/specs) or of a document (README.md, docs, host/README.md) has at most 160
  columns. A line of a document that stands in for what a program prints, four blanks before it, may be longer, and so may a table's row.
- A file of definitions or proofs begins with a comment that says what it holds; a list of modules (Lib.antt) needs none.
- crates.txt lists for each crate what its sources name: `name::` in code, `Rattle.name.` in clauses, definitions and proofs. A crate that a
  source does not name is listed only where the remark says what it is there for, as `sentence for ..`. Each line is a crate's or a remark.
"""
import os
import re
import sys
from glob import glob

WIDTH = 160


def read(path):
    with open(path, encoding="utf-8") as file:
        return file.read()


def wide(paths, excused, faults):
    """Lines that are too wide to be read beside another page."""
    for path in paths:
        for number, line in enumerate(read(path).split("\n"), 1):
            if len(line) > WIDTH and not excused(line):
                faults.append(f"{path}:{number}: {len(line)} columns: break the line, {WIDTH} are the most")


def headless(paths, faults):
    """Files that do not say what they hold."""
    for path in paths:
        if not re.match(r"-- \S", read(path)) and os.path.basename(path) != "Lib.antt":
            faults.append(f"{path}:1: it begins with no comment: say in one line what it holds")


def named(crate):
    """The crates that the sources of a crate name."""
    names = set()
    for folder in "specs", "proofs":
        for path in glob(f"crates/{crate}/{folder}/**/*.antt", recursive=True):
            names |= set(re.findall(r"(?<![\w.])Rattle\.(\w+)\.", read(path)))
    for path in glob(f"crates/{crate}/src/**/*.rt", recursive=True):
        text = read(path)
        names |= set(re.findall(r"(?<![\w.])Rattle\.(\w+)\.", text)) | set(re.findall(r"(?<![\w:])(\w+)::", re.sub(r"//.*", "", text)))
    return names


def listed(faults):
    """What crates.txt lists against what is named."""
    rows = []
    for number, line in enumerate(read("crates.txt").split("\n"), 1):
        rows.append(re.fullmatch(r"(\w+)(?: staticlib)?:([^#]*)(?:#(.*))?", line))
        if not rows[-1] and line.strip() and not line.startswith("#"):
            faults.append(f"crates.txt:{number}: it is neither a crate's line, NAME: or NAME staticlib: and what it lists, nor a remark")
    crates = {row[1] for row in rows if row}
    for row in filter(None, rows):
        crate, leans, remark = row[1], row[2].split(), row[3] or ""
        names = named(crate)
        for name in leans:
            if name not in names and f"{name} for " not in remark:
                faults.append(f"crates.txt: {crate} lists {name}, which no source of it names: take it out, or say in the remark '{name} for ..'")
        for name in sorted((names & crates) - {crate} - set(leans)):
            faults.append(f"crates.txt: {crate} does not list {name}, which a source of it names")
    return len(crates)


def main():
    os.chdir(sys.argv[1] if len(sys.argv) > 1 else os.path.join(os.path.dirname(os.path.abspath(__file__)), ".."))
    faults = []
    code = sorted(glob("crates/*/src/**/*.rt", recursive=True))
    specs = sorted(glob("crates/*/specs/**/*.antt", recursive=True))
    proofs = sorted(glob("crates/*/proofs/**/*.antt", recursive=True))
    pages = ["README.md", "host/README.md", *sorted(glob("docs/*.md"))]
    wide(code + specs, lambda line: False, faults)
    wide(pages, lambda line: line.startswith(("    ", "|")), faults)
    headless(specs + proofs, faults)
    crates = listed(faults)
    if not (code and specs and proofs and crates):
        faults.append("nothing was looked at")
    for fault in faults:
        print(fault)
    print(f"{len(code)} files of code, {len(specs)} of definitions, {len(proofs)} of proofs, {len(pages)} documents, {crates} crates; {len(faults)} faults")
    return 1 if faults else 0


if __name__ == "__main__":
    sys.exit(main())
