#!/usr/bin/env python3
"""Breaks the lines of clauses in code and of definitions that are wider than 160 columns.

usage: python3 tools/break_lines.py, at the top of the repository

A clause is broken at a blank, outside as many brackets as may be; an import becomes two of the same module; any other line of a definition goes on in
the next one, by the same indent. What a remark says is left as it is.
"""
import re
from glob import glob

WIDTH = 160


def at_blank(line, indent):
    depth, best = 0, None
    for at, sign in enumerate(line[: WIDTH - 4]):
        depth += (sign in "({") - (sign in ")}")
        if sign == " " and at > len(indent) + 24 and (best is None or depth <= best[0]):
            best = depth, at
    return [line[: best[1]], indent + line[best[1] + 1 :]]


def parts(line, is_code):
    imported = re.fullmatch(r"((?:ghost )?use [^{]*\{)([^{}]*)(\};?)", line)
    if imported:
        names = imported[2].split(", ")
        half = len(names) // 2
        return [imported[1] + ", ".join(some) + imported[3] for some in (names[:half], names[half:])]
    return at_blank(line, " " * 8 if is_code else re.match(r"\s*", line)[0] or "    ")


def main():
    for path in sorted([*glob("crates/*/src/**/*.rt", recursive=True), *glob("crates/*/specs/**/*.antt", recursive=True)]):
        with open(path, encoding="utf-8") as it:
            lines = it.read().split("\n")
        made = []
        for line in lines:
            while len(line) > WIDTH and not re.match(r"\s*(//|--)", line):
                first, line = parts(line, path.endswith(".rt"))
                made.append(first)
            made.append(line)
        if made != lines:
            print(path)
            with open(path, "w", encoding="utf-8") as it:
                it.write("\n".join(made))


main()
