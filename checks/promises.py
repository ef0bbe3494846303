#!/usr/bin/env python3
"""Compares docs/PROMISES.md with the sources, both ways.

Usage: python3 checks/promises.py [ROOT]. Status 0 where they agree, 1 where they do not; each fault says what to mend and
where. The last line counts what was compared.

A function is a `pub fn` of crates/NAME/src, also one in an `impl`. Its name is the path of its definition: `crate::module::function`,
`crate::module::Type::method`. It is internal where it stands in a module `unchecked` or below one, in a module that its crate keeps
private and does not hand on with `pub use`, in a program (src/main.rt), or in a crate of the programs that run cases (`test_*`). Any other
is public.

- Each function stands in one place. A public one has a block of the section 'Public functions': a heading `### ` with its name in backquotes, or
  with several, and below it the items `- promise:`, `- settled by:`, `- ruled out:` and `- compared by:`. An internal one stands in an item of the section
  'Internal', with one or more names in backquotes before its colon. A name in such a place that is no function is a fault.
- A public function has no `requires`, and an `ensures`. Its block says under 'settled by' that the equation settles it, or which law does.
- A function of a crate NAME_c, which offers the functions of the crate NAME to C, has the parameters and the clauses of the function of its name in
  NAME, word for word, and each function of NAME that is public has one.
- An edit is cited as `crate/name`, in any item or table, and stands in crates/CRATE/must-fail or crates/CRATE/must-fail-further. Each edit
  that stands there is cited at least once. Under 'ruled out', and where an item's label or a column's heading speaks of edits, what parentheses hold
  in backquotes is an edit. Its name without the crate is a fault, but where a name that is the same is cited of a module.
- Where `(crate, Module)` is cited, crates/CRATE has specs/Module.antt or proofs/Module.antt, and a name in backquotes right before it
  stands there; of an equation, the name behind its sign.

An item or a paragraph goes on over the lines below it, up to a blank line, a heading, a table or the next item.
"""
import os
import re
import sys
from glob import glob

PAGE = "docs/PROMISES.md"
PUBLIC, INTERNAL = "Public functions", "Internal"
LABELS = "promise", "settled by", "ruled out", "compared by"
CITED = r"((?:`[^`]+`(?:, (?:and )?| and )?)+) \(([a-z]\w*), ([A-Z]\w*)\)"
QUALIFIERS = r'(?:const\s+|unsafe\s+|extern\s+"C"\s+)*'


class Function:
    """A `pub fn`: where it stands, and what it says."""

    def __init__(self, place, internal, heading):
        self.place, self.internal, self.says = place, internal, re.sub(r"\s+|,(?=\s*\))", "", heading.partition("(")[2])
        self.assumes, self.promises = (re.search(rf"\b{word}\b", heading) for word in ("requires", "ensures"))


def plain(text):
    """A source without its comments and without what its strings hold."""

    def cut(found):
        piece = found.group()
        return piece if piece == '"C"' else ("" if piece[:2] == "//" else '""') + "\n" * piece.count("\n")

    return re.sub(r'//[^\n]*|"(?:\\.|[^"\\])*"|\'(?:\\.|[^\'\\\n])\'', cut, text, flags=re.S)


def heading(text, at):
    """What stands between a function's name and its body: the first brace that opens and is no contract's."""
    while True:
        found = re.compile(r"(\b(?:requires|ensures)\b\*?(?:\s+\w+)?)?\s*\{").search(text, at)
        if not found or not found.group(1):
            return found.start() if found else len(text)
        depth, at = 1, found.end()
        while depth and at < len(text):
            depth += {"{": 1, "}": -1}.get(text[at], 0)
            at += 1


def owners(text):
    """For each `impl`: where its body starts and ends, and its type."""
    for found in re.finditer(r"^[ \t]*impl\b([^{]*)\{", text, re.M):
        depth, at = 1, found.end()
        while depth and at < len(text):
            depth += {"{": 1, "}": -1}.get(text[at], 0)
            at += 1
        named = re.sub(r"<[^<>]*>", "", re.sub(r"^\s*<[^<>]*>", "", found.group(1)))
        named = re.split(r"\bfor\b", named)[-1]
        yield found.end(), at, named.strip().split("::")[-1].strip()


def named(used):
    """Each path that a `use` names, by its steps: the names in braces one by one, and the name that is used where `as` gives another."""
    head, brace, inner = used.partition("{")
    before = [step.strip() for step in head.split("::")]
    if not brace:
        return [[*before[:-1], before[-1].split(" as ")[0].strip()]]
    found, depth, at = [], 0, 0
    inner = inner.rstrip().removesuffix("}") + ","
    for i, sign in enumerate(inner):
        depth += {"{": 1, "}": -1}.get(sign, 0)
        if sign == "," and not depth:
            found += [[*before[:-1], *path] for path in named(inner[at:i])] if inner[at:i].strip() else []
            at = i + 1
    return found


def modules_of(crate, path):
    """The module that a source file is: its path below src, without lib.rt and main.rt."""
    parts = os.path.relpath(path, os.path.join("crates", crate, "src"))[: -len(".rt")].split(os.sep)
    return [crate] + ([] if parts in (["lib"], ["main"]) else parts)


def sources(faults):
    """Every `pub fn` of the sources."""
    functions = {}
    for crate in sorted(os.path.basename(os.path.dirname(p)) for p in glob("crates/*/src")):
        paths = sorted(glob(f"crates/{crate}/src/**/*.rt", recursive=True))
        texts = {tuple(modules_of(crate, p)): (p, plain(open(p, encoding="utf-8").read())) for p in paths}
        program = os.path.exists(f"crates/{crate}/src/main.rt")
        handed = set()
        for modules, (path, text) in texts.items():
            for used in re.findall(r"^[ \t]*pub\s+use\s+([^;]*);", text, re.M):
                for parts in named(used):
                    start = (crate,) if parts[0] == "crate" else modules
                    handed.add((*start, *[w for w in parts if w not in ("crate", "self")]))
            if re.search(r"^[ \t]*(?:pub\s+)?mod\s+\w+\s*\{", text, re.M):
                faults.append(f"{path}: a module in braces; checks/promises.py knows only modules in files")
            if re.search(r"^[ \t]*pub\s+use\s+[^;]*\*", text, re.M):
                faults.append(f"{path}: `pub use` of all names; checks/promises.py knows only names that stand there")
        for modules, (path, text) in texts.items():
            impls = list(owners(text))
            for found in re.finditer(r"^[ \t]*pub\s+" + QUALIFIERS + r"fn\s+(\w+)", text, re.M):
                own = [kind for a, b, kind in impls if a <= found.start() < b]
                full = (*modules, *own, found.group(1))
                name = "::".join(full)
                open_way = all(
                    re.search(rf"^[ \t]*pub\s+mod\s+{m}\s*;", texts.get(modules[:i], ("", ""))[1], re.M)
                    for i, m in enumerate(modules)
                    if i
                )
                handed_on = full in handed or (own and (*modules, *own) in handed)
                internal = (
                    "unchecked" in modules[1:]
                    or program
                    or crate.startswith("test_")
                    or not (open_way or handed_on)
                )
                line = text.count("\n", 0, found.end()) + 1
                if name in functions:
                    faults.append(f"{path}:{line}: `{name}` stands in {functions[name].place} already")
                said = text[found.start() : heading(text, found.end())]
                functions[name] = Function(f"{path}:{line}", internal, said)
    return functions


class Said:
    """A heading, an item, a cell of a table or a paragraph of the page, on one line: where it stands, and what it says."""

    def __init__(self, number, section, kind, text, label=""):
        self.at, self.section, self.kind, self.text, self.label = f"{PAGE}:{number}", section, kind, text, label


def statements(page):
    """What the page says, one after another. An item's label is what stands before its first colon, a cell's the heading of its column."""
    said, section, heads, rule, goes_on = [], "", None, False, False
    for number, line in enumerate(page.split("\n"), 1):
        item = re.match(r" *- +(.*)", line)
        if not line.startswith("|"):
            heads, rule = None, False
        if line.startswith("#"):
            level, text = re.match(r"(#+) *(.*)", line).groups()
            section = text.strip() if level == "##" else section
            said.append(Said(number, section, level, text.strip()))
        elif line.startswith("|"):
            cells = [c.strip() for c in re.split(r"(?<!\\)\|", line.strip())[1:-1]]
            if heads and rule:
                said += [Said(number, section, "cell", c, heads[i] if i < len(heads) else "") for i, c in enumerate(cells)]
            heads, rule = heads or cells, bool(heads)
        elif item:
            said.append(Said(number, section, "item", item.group(1).strip()))
        elif line.strip() and goes_on:
            said[-1].text += " " + line.strip()
        elif line.strip():
            said.append(Said(number, section, "prose", line.strip()))
        goes_on = bool(line.strip()) and line[0] not in "#|"
    for one in said:
        if one.kind == "item":
            one.label = (re.match(r"([^:`]+): ", one.text) or [one.text, ""])[1]
    return said


def quoted(text):
    """What stands in backquotes."""
    return re.findall(r"`([^`]+)`", text)


def places(said, faults):
    """Each block of 'Public functions' and each item of 'Internal': where it stands, its section, its names, and of a block its items by their labels."""
    found, block = [], None
    for one in said:
        if one.kind in ("#", "##"):
            block = None
        elif one.section not in (PUBLIC, INTERNAL):
            continue
        elif one.kind == "###":
            names = quoted(one.text)
            block = (one.at, one.section, names, {}) if names else None
            if names:
                found.append(block)
            elif one.section == PUBLIC:
                faults.append(f"{one.at}: this heading of '{PUBLIC}' names no function in backquotes")
        elif one.kind == "item" and one.section == INTERNAL and not block:
            names = re.match(r"((?:`[^`]+`(?:, +)?)+): +\S", one.text)
            if names:
                found.append((one.at, INTERNAL, quoted(names[1]), {}))
            else:
                faults.append(f"{one.at}: this item of '{INTERNAL}' does not begin with names of functions in backquotes, a colon and a word on them")
        elif one.kind == "item" and one.section == PUBLIC and not block:
            faults.append(f"{one.at}: this item of '{PUBLIC}' stands in no function's block")
        elif one.kind == "item" and one.section == PUBLIC and (one.label not in LABELS or one.label in block[3]):
            faults.append(f"{one.at}: a block has one item for each of {', '.join(LABELS)}, and this is none of them, or one too many")
        elif one.kind == "item" and block:
            block[3][one.label] = one.text[len(one.label) + 1 :].strip()
    return found


def compare_functions(said, functions, faults):
    """The blocks of the one section and the items of the other against the sources."""
    listed = {}
    for at, section, names, items in places(said, faults):
        if section == PUBLIC:
            for label in LABELS:
                if label not in items:
                    faults.append(f"{at}: the block of `{names[0]}` has no item '{label}:'")
            once = items.get("settled by", "the equation")
            if not quoted(once) and not re.fullmatch("the equations?", once):
                faults.append(f"{at}: 'settled by' says neither 'the equation' nor a law, in backquotes")
        for name in names:
            if name in listed:
                faults.append(f"{at}: `{name}` stands at {listed[name][0]} already; take one away")
                continue
            listed[name] = at, section
            if name not in functions:
                faults.append(f"{at}: there is no `pub fn` {name} in crates/*/src: take it out, or name it as the sources do")
    for name, f in sorted(functions.items()):
        kind, section, form = ("internal", INTERNAL, "an item") if f.internal else ("public", PUBLIC, "a block")
        if name not in listed:
            faults.append(f"{f.place}: `{name}` is {kind} and is not there: give it {form} of '{section}' in {PAGE}")
        elif listed[name][1] != section:
            faults.append(f"{listed[name][0]}: `{name}` is {kind} ({f.place}): move it to {form} of '{section}'")
        if f.assumes and not f.internal:
            faults.append(f"{f.place}: `{name}` is public and has a `requires`: take it away, or move the function to a module `unchecked`")
        if not f.promises and not f.internal:
            faults.append(f"{f.place}: `{name}` is public and has no `ensures`: give it one, or move the function to a module `unchecked`")


def compare_clauses(functions, faults):
    """The functions that are offered to C against those that they stand for."""
    crates = {name.split("::")[0] for name in functions}
    for name, f in sorted(functions.items()):
        crate, _, path = name.partition("::")
        if crate.endswith("_c") and crate[:-2] in crates:
            stands_for = functions.get(f"{crate[:-2]}::{path}")
            if not stands_for or stands_for.says != f.says:
                faults.append(f"{f.place}: `{name}` has not the parameters and the clauses of `{crate[:-2]}::{path}`: write them word for word")
        elif f"{crate}_c" in crates and not f.internal and f"{crate}_c::{path}" not in functions:
            faults.append(f"{f.place}: `{name}` is public, and there is no `{crate}_c::{path}`, which offers it to C")


def compare_edits(said, faults):
    """The edits that are cited against those that stand in the folders."""
    stand = {}
    for path in sorted(glob("crates/*/must-fail/*.edit") + glob("crates/*/must-fail-further/*.edit")):
        parts = path.split(os.sep)
        name = f"{parts[1]}/{parts[3][: -len('.edit')]}"
        if name in stand:
            faults.append(f"{path}: an edit of this name stands in {stand[name]} too")
        stand[name] = path
    bare = {name.split("/")[1] for name in stand}
    cited = set()
    for one in said:
        if one.kind not in ("item", "cell"):
            continue
        of_edits = one.label == "ruled out" or re.search(r"\bedits?\b", one.label)
        of_modules = {name for cited, _, _ in re.findall(CITED, one.text) for name in quoted(cited)}
        held = {q for part in re.findall(r"\(([^()]*)\)", one.text) for q in quoted(part)} if of_edits else set()
        for name in quoted(one.text):
            if re.fullmatch(r"[a-z]\w*/\w+", name) and name.split("/")[0] not in ("crates", "host"):
                cited.add(name)
                if name not in stand:
                    crate, edit = name.split("/")
                    faults.append(
                        f"{one.at}: the edit `{name}` is cited, and there is no {edit}.edit in crates/{crate}/must-fail or crates/{crate}/must-fail-further"
                    )
            elif name in bare - of_modules:
                faults.append(f"{one.at}: the edit `{name}` is cited without its crate: write `crate/{name}`")
            elif name in held:
                faults.append(f"{one.at}: `{name}` stands where an edit is cited, and is none: write `crate/name` of one that is there")
    for name in sorted(set(stand) - cited):
        faults.append(f"{stand[name]}: the edit `{name}` is cited nowhere: cite it in the block of what it tries, in {PAGE}")
    return len(stand)


def module(crate, name):
    """A module's text, of specs and of proofs, or None."""
    paths = [f"crates/{crate}/{d}/{name}.antt" for d in ("specs", "proofs")]
    found = [open(p, encoding="utf-8").read() for p in paths if os.path.exists(p)]
    return "\n".join(found) if found else None


def compare_modules(said, faults):
    """The modules that are cited as (crate, Module), and the names that stand before one."""
    names = 0
    for one in said:
        for crate, name in re.findall(r"[(;] ?([a-z]\w*), ([A-Z]\w*)", one.text):
            if module(crate, name) is None:
                faults.append(f"{one.at}: ({crate}, {name}) is cited, and crates/{crate} has neither specs/{name}.antt nor proofs/{name}.antt")
        for cited, crate, name in re.findall(CITED, one.text):
            for word in quoted(cited):
                names += 1
                word = word.split("≡")[-1].split()[0]
                if not re.search(rf"(?<![\w'-]){re.escape(word)}(?![\w'-])", module(crate, name) or ""):
                    faults.append(f"{one.at}: `{word}` is cited of ({crate}, {name}), and does not stand there: name where it is defined")
    return names


def main():
    os.chdir(sys.argv[1] if len(sys.argv) > 1 else os.path.join(os.path.dirname(os.path.abspath(__file__)), ".."))
    faults = []
    with open(PAGE, encoding="utf-8") as file:
        said = statements(file.read())
    functions = sources(faults)
    compare_functions(said, functions, faults)
    compare_clauses(functions, faults)
    edits = compare_edits(said, faults)
    names = compare_modules(said, faults)
    for fault in faults:
        print(fault)
    internal = sum(f.internal for f in functions.values())
    public = len(functions) - internal
    if not public or not edits:
        faults.append("nothing was compared")
        print(faults[-1])
    print(
        f"{len(functions)} functions compared, {public} public and {internal} internal; {edits} edits and {names} names of definitions and laws;"
        f" {len(faults)} faults"
    )
    return 1 if faults else 0


if __name__ == "__main__":
    sys.exit(main())
