#!/usr/bin/env python3
"""Spells the definitions and lemmas of the crates in snake case.

usage: python3 tools/spell_names.py         in the repository, right after the toolchain's own script
       python3 tools/spell_names.py --list  says what it would rename, and changes nothing

A definition of specs/ or a lemma file of proofs/ that is spelled as charOf or byte-pos is spelled char_of or byte_pos, wherever it is named.
Types, facts and modules keep their capitals, functions of src/ and texts in quotes their letters. What stands in proofs/FUNCTION/ is
named by the toolchain, but for the names that are cited there. A name that would meet another stays, and is listed behind 'stays:'.
"""

import collections
import os
import re
import sys

# Names that would meet another: a lemma beside its function, a definition beside a field or a parameter.
TABLE = {
    "in-range": "in_range_lem",
    "is-char": "is_char_lem",
    "is-plain": "is_plain_lem",
    "key-of": "key_of_lem",
    "line-of": "line_of_lem",
    "row-line": "row_line_lem",
    "rows-of": "rows_of_lem",
    "join_cells": "join_cells_lem",
    "no_nul": "no_nul_lem",
    "text_at": "text_at_lem",
    "charToStrPos": "char_to_str_pos_of",
    "strToCharPos": "str_to_char_pos_of",
    "nextToken": "next_token_of",
    "resetTags": "reset_tags_of",
    "setBoundary": "set_boundary_of",
    "rowEnds": "row_ends_of",
    "heldIn": "held_bytes",
    "text-of": "utf8_of",
    "is-sheet": "is_sheet_lem",
    "are-cells": "are_cells_lem",
    "are-marks": "are_marks_lem",
    "read-refusals": "host_read_refusals",
    "row-bytes": "row_bytes_lem",
    "token-line": "token_line_lem",
    "update-answer": "update_answer_lem",
    "update-leaves": "update_leaves_lem",
    "write-told": "write_told_lem",
    "of-tag": "of_tag_lem",
    "act-of": "act_of_lem",
    "tagEnds": "tag_ends_of",
}

DECLARED = re.compile(r"^( *)((?:(?:pub|abbrev|unfoldable|opaque|ruleset)\s+)*)([^\s(){}.;,@\"«»]+)(?: \{[^{}\n]*\})* :(?= |$)")
SEVERAL = re.compile(r"^  ((?:[a-z][\w'-]* )+): ")
KEYWORD = {"let", "use", "mod", "module", "in", "rw", "elim", "pub"}
RULESET = re.compile(r"^( *)(?:pub )?(?:ruleset|syntax) (?:\d+ )?([^\s(){}.;,@\"«»]+)")
NAME = r"[^\s(){}.;,@\"«»\[\]]+"
PIECE = re.compile(r'(--[^\n]*|//[^\n]*)|("(?:[^"\\\n]|\\.)*")|(' + NAME + ")")


def snake(name):
    if name in TABLE:
        return TABLE[name]
    words = re.sub(r"(?<=[a-z0-9])[A-Z]", lambda m: "_" + m[0].lower(), name)
    return words.replace("-", "_")


def is_plain(name):
    return re.fullmatch(r"[a-z][A-Za-z0-9_'-]*", name) is not None and snake(name) != name


def files():
    for folder, dirs, names in os.walk("crates"):
        dirs[:] = sorted(d for d in dirs if d not in ("out", ".git"))
        for n in sorted(names):
            if n.endswith((".rt", ".antt")):
                yield os.path.join(folder, n)


def lemma_file(path):
    steps = path.split("/")
    if not path.endswith(".antt"):
        return False
    if len(steps) > 4 and steps[2] == "proofs" and steps[-1] in ("Answers.antt", "Invariants.antt"):
        return False
    return steps[2] == "specs" or (steps[2] == "proofs" and not os.path.exists(os.path.join(os.path.dirname(path), "Proof.antt")))


def imported(text):
    """The names that a file takes from a library that is not of this repository."""
    found = set()
    for m in re.finditer(r"(?m)^\s*(?:ghost )?use ([^\s{;]+?)\.?\{([^}]*)\}", text):
        steps = m[1].split(".")
        own = steps[0] == "Rattle" and len(steps) > 1 and os.path.isdir(os.path.join("crates", steps[1]))
        if not own:
            found |= {w.strip().split(" as ")[-1] for w in m[2].split(",")}
    return found


def main(argv):
    texts = {p: open(p, encoding="utf-8").read() for p in files()}
    owns = collections.Counter()
    for p, t in texts.items():
        if lemma_file(p):
            for line in t.split("\n"):
                m = DECLARED.match(line)
                if m and is_plain(m[3]):
                    owns[m[3]] += 1
                m = SEVERAL.match(line)
                if m and not KEYWORD & set(m[1].split()):
                    for name in m[1].split():
                        if is_plain(name):
                            owns[name] += 1
                m = RULESET.match(line)
                if m and is_plain(m[2]):
                    owns[m[2]] += 1
    # A step of a path and the text of a function meet no definition.
    words = {p: {m[3] for m in PIECE.finditer(t) if m[3] and t[m.end() : m.end() + 1] != "."} for p, t in texts.items() if p.endswith(".antt")}
    foreign = {p: imported(t) for p, t in texts.items()}
    stays = {}
    for name in owns:
        new = snake(name)
        for p, w in words.items():
            if name in w and name not in foreign[p] and new in w and new not in TABLE:
                stays.setdefault(name, []).append(p)
    turned = {n: snake(n) for n in owns if n not in stays}
    for name in sorted(stays):
        print("stays:", name, *stays[name][:3])
    print(f"{len(turned)} names are spelled anew")
    if argv:
        return 0
    for p, t in texts.items():
        def one(m, p=p):
            if m[3] is None or (p.endswith(".rt") and snake(m[3]) in (m[3] + "_lem", m[3])):
                return m[0]
            return turned.get(m[3], m[3]) if m[3] not in foreign[p] else m[3]

        new = PIECE.sub(one, t)
        if new != t:
            with open(p, "w", encoding="utf-8") as f:
                f.write(new)
    return 0


if __name__ == "__main__":
    raise SystemExit(main(sys.argv[1:]))
