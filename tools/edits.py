#!/usr/bin/env python3
"""Says whether each must-fail edit still fits the file that it changes.

usage: python3 tools/edits.py          in the repository
       python3 tools/edits.py --help

An edit is a small wrong change of a crate, which its proof must refuse: it stands in crates/NAME/must-fail, or in
crates/NAME/must-fail-further where the gate has no time for it. It names a file of the crate and gives pairs of lines,
what to take out ('old: ') and what to put there ('new: '). Where the text to take out stands in the file not once but
never or twice, because the file was changed since, the edit cannot be made and shows nothing of the crate.

This looks at the texts alone and proves nothing: rt must-fail tries the edits. It prints a line for each edit that does
not fit, and how many there are of each folder. Status: 0 each edit fits; 1 one does not; 2 bad usage.
"""

import os
import sys

FOLDERS = ("must-fail", "must-fail-further")


def edits(folder):
    """The paths of the edits in a folder, if there is such a folder."""
    names = sorted(os.listdir(folder)) if os.path.isdir(folder) else []
    return [os.path.join(folder, name) for name in names if name.endswith(".edit")]


def text_of(path):
    with open(path, encoding="utf-8") as file:
        return file.read()


def misfits(edit, crate):
    """What keeps an edit from being made, a line each; further pairs are looked for in what the earlier ones made."""
    path, old, pairs, texts, found = None, None, 0, {}, []
    for line in text_of(edit).split("\n"):
        if line.startswith("file: "):
            path = line[len("file: ") :].strip()
            if not os.path.isfile(os.path.join(crate, path)):
                return [f"there is no file {path}"]
        elif line.startswith("old: "):
            old = line[len("old: ") :]
        elif line.startswith("new:"):
            new = line[len("new:") :].removeprefix(" ")
            if path is None or not old:
                return found + ["a line 'new:' has no 'file:' or no 'old:' above it"]
            text = texts.get(path) or text_of(os.path.join(crate, path))
            if text.count(old) != 1:
                found.append(f"{path} has this {text.count(old)} times, not once: {old.strip()}")
            texts[path] = text.replace(old, new)
            if texts[path] == text and text.count(old) == 1:
                found.append(f"this changes nothing: {old.strip()}")
            old, pairs = None, pairs + 1
    return found if pairs else ["it has no pair of lines 'old:' and 'new:'"]


def main(words):
    if words:
        print(__doc__)
        return 0 if words in (["--help"], ["-h"]) else 2
    os.chdir(os.path.join(os.path.dirname(os.path.abspath(__file__)), ".."))
    status = 0
    for folder in FOLDERS:
        total, fits = 0, 0
        for name in sorted(os.listdir("crates")):
            crate = os.path.join("crates", name)
            for edit in edits(os.path.join(crate, folder)):
                found = misfits(edit, crate)
                for it in found:
                    print(f"{edit}: {it}")
                total, fits = total + 1, fits + (not found)
        print(f"{folder}: {total} edits, {fits} fit")
        status = status or int(fits < total)
    return status


if __name__ == "__main__":
    raise SystemExit(main(sys.argv[1:]))
