#!/usr/bin/env python3
"""Gives the crates' own `if b then x else y` another first word, `when`: the gate refuses a definition under the name of one of the library's operators.

usage: python3 own_if.py, at the top of the repository

In definitions and proofs each `if` is that operator; in code only those in clauses are, and those in an import; in an edit those of its lines that change a
definition or a proof.
"""
import os
import re

WORD = re.compile(r"(?<![\w'◌.\-])if(?![\w'◌\-])")
OWN, NEW = "if◌then◌else◌", "when◌then◌else◌"


def turned(text):
    return WORD.sub("when", text.replace(OWN, NEW))


def antt(text):
    """All but the remarks, which begin with two dashes."""
    lines = []
    for line in text.split("\n"):
        code, dashes, remark = re.match(r"(.*?)((?:(?<=\s)|^)--(?=\s|$)|$)(.*)", line).groups()
        lines.append(turned(code) + dashes + remark)
    return "\n".join(lines)


def code(text):
    """The imports, and the clauses: from their braces on."""
    text = re.sub(r"(?m)^.*\bghost use .*$", lambda m: m[0].replace(OWN, NEW), text)
    made, at = [], 0
    for found in re.finditer(r"\b(?:requires|ensures)\b\*?(?:\s+\w+)?\s*\{|\bghost\s+\w+\s*[:=]\s*\{", text):
        if found.start() < at:
            continue
        depth, end = 1, found.end()
        while depth and end < len(text):
            depth += {"{": 1, "}": -1}.get(text[end], 0)
            end += 1
        made += [text[at:found.end()], turned(text[found.end():end])]
        at = end
    return "".join(made) + text[at:]


def edit(text):
    lines, file = [], ""
    for line in text.split("\n"):
        file = line[6:] if line.startswith("file: ") else file
        is_text = line.startswith(("old:", "new:")) and not file.startswith("src/")
        lines.append(turned(line) if is_text else line)
    return "\n".join(lines)


def main():
    count = 0
    for at, folders, files in os.walk("crates"):
        folders[:] = sorted(it for it in folders if it != "out")
        for name in sorted(files):
            by = {".antt": antt, ".rt": code, ".edit": edit}.get(os.path.splitext(name)[1])
            if by:
                path = os.path.join(at, name)
                with open(path, encoding="utf-8") as it:
                    was = it.read()
                now = by(was)
                if now != was:
                    count += 1
                    with open(path, "w", encoding="utf-8") as it:
                        it.write(now)
    print(f"{count} files")


main()
