#!/usr/bin/env python3
"""Holds the table of docs/CHANGING.md, what a crate costs to prove again, to the sources, and makes it anew.

Usage: python3 checks/costs.py                tells whether the table has every crate, its edits and what leans on it
       python3 checks/costs.py --write        writes these anew; the seconds stay
       python3 checks/costs.py --write LOG    writes the seconds too, out of what this printed, which proves one crate at a time:
           bash -c 'RT_JOBS=1 rt ci --anew | while IFS= read -r line; do echo "$SECONDS $line"; done' >LOG

A crate that was not timed has a dash in the place of its seconds, and a sum that lacks it a plus behind.

Status 0 where the table is right or was written, 1 where it is not, or LOG has no time of a crate, 2 where the words were not understood.
"""
import os
import re
import sys
from glob import glob

PAGE = "docs/CHANGING.md"
HEAD = "| crate | proof, s | edits | leaned on by | proved again with it | these, s |\n|---|---|---|---|---|---|\n"
MANY = 8


def read(path):
    with open(path, encoding="utf-8") as file:
        return file.read()


def listed():
    """For each crate of crates.txt, in its order, what it lists of the others."""
    rows = re.findall(r"^(\w+)(?: staticlib)?:([^#\n]*)", read("crates.txt"), re.M)
    names = {name for name, _ in rows}
    return {name: [lean for lean in leans.split() if lean in names] for name, leans in rows}


def above(name, leans):
    """Every crate that is proved again when this one changes, itself left out."""
    found, new = set(), {name}
    while new:
        new = {crate for crate, below in leans.items() if new & set(below)} - found
        found |= new
    return found


def edits(name):
    """How many wrong edits there are, for the gate and beside it."""
    gate, further = (len(glob(f"crates/{name}/{folder}/*.edit")) for folder in ("must-fail", "must-fail-further"))
    return f"{gate} and {further} further" if further else str(gate)


def table(seconds):
    """The table, by the sources and by the seconds of each crate."""
    leans, rows = listed(), []
    for name in leans:
        users = [crate for crate, below in leans.items() if name in below]
        again = above(name, leans)
        named = f"{len(users)} crates" if len(users) > MANY else ", ".join(users) or "none"
        timed = {name, *again} & seconds.keys()
        total = f"{sum(seconds[crate] for crate in timed)}{'+' * (timed != {name, *again})}" if timed else "–"
        rows.append(f"| {name} | {seconds.get(name, '–')} | {edits(name)} | {named} | {len(again)} | {total} |\n")
    return HEAD + "".join(rows)


def told(log, leans):
    """The seconds of each crate's proof, as a log tells them: it begins when the one before it has ended."""
    seconds, before = {}, 0
    for at, name, of_tests in re.findall(r"^(\d+) rt: (\w+)(: its tests are)? proved$", log, re.M):
        if not of_tests:
            seconds[name] = int(at) - before
        before = int(at)
    missing = [name for name in leans if name not in seconds]
    if missing:
        sys.exit(f"costs.py: the log has no time of {', '.join(missing)}; {PAGE} was left as it was")
    return seconds


def main(words):
    if words[:1] not in ([], ["--write"]) or len(words) > 2:
        print(__doc__, file=sys.stderr)
        return 2
    log = read(words[1]) if words[1:] else None
    os.chdir(os.path.join(os.path.dirname(os.path.abspath(__file__)), ".."))
    page = read(PAGE)
    found = re.search(re.escape(HEAD) + r"(?:\|.*\n)+", page)
    if not found:
        print(f"{PAGE}: the table is not there; it begins with\n{HEAD}")
        return 1
    seconds = {name: int(took) for name, took in re.findall(r"^\| (\w+) \| (\d+) \|", found[0], re.M)}
    if log is not None:
        seconds = told(log, listed())
    right = table(seconds)
    if words:
        with open(PAGE, "w", encoding="utf-8") as file:
            file.write(page.replace(found[0], right))
    elif found[0] != right:
        wrong = sorted(set(right.split("\n")) - set(found[0].split("\n")))
        print("\n".join(wrong))
        print(f"{PAGE}: {len(wrong)} rows are not these: 'python3 checks/costs.py --write' writes them")
        return 1
    print(f"{len(listed())} crates, of which {len(seconds)} with their seconds")
    return 0


if __name__ == "__main__":
    sys.exit(main(sys.argv[1:]))
