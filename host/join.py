#!/usr/bin/env python3
"""Runs notes.sh join and looks at what it prints, what it says and how it ends.

Usage: join.py
Every example of docs/JOINING.md is run; host/notes.py runs those of the page of `join`. What each line of the output should be is told by a second reading,
crates/test_hiding/reading.py, which reads and writes the parts: short lines, drawn lines, lines that are refused, and lines around 4,096 joined bytes, in
all three forms, with all marks, of one to five files, as text and as a table. And each line that is printed is read by it as the sentences of its parts,
one behind the other, with the mark between them. Then files of different lengths, line ends, input that comes in pieces, words that are not understood, and
files and outputs that fail.
Prints what ended otherwise, 20 outcomes at most, and how many runs and lines there were. Status 0: all is as it should be; 1: something is not; 2: it
could not be run.
"""
import os
import random
import re
import subprocess
import sys
from collections import namedtuple
from functools import cache
from itertools import product

sys.dont_write_bytecode = True
from outcomes import (  # noqa: E402
    BROKEN, CR, EMPTY_LINES, FOLDER, FULL, GONE, LIMIT, MARK, ROWS, beside, by_shell, can_run, document, expect, file, give, heading, line_of, main, next_line,
    not_understood, outcome, path, reading, run, run_examples, said, sentence, start, table, with_lf, without_more)

# How notes are joined: their form, the mark as it is given, the boundary by its name, and the bytes that stand for it.
Way = namedtuple("Way", "form given boundary sign")
WAYS = [
    Way("raw", [], "UNKNOWN", b""),
    Way("tokenized", [], "WORD", b" "),
    Way("partial", ["none"], "NONE", b"-"),
    Way("partial", ["word"], "WORD", b"|"),
    Way("partial", ["unknown"], "UNKNOWN", b" "),
]
# The same with a mark that could be left out.
NEEDLESS = [Way("raw", ["unknown"], "UNKNOWN", b""), Way("tokenized", ["word"], "WORD", b" ")]
LETTERS = "火星猫はabc-|/\\ \t\r"
DAMAGE = [b"", b"\0", b"/", b"|", b" ", b"\\", b"\xe3", b"\xff"]
# Notes that are written as they are, that are longer when they are written, and that are shorter.
SIZES = {
    "raw": [b"a", b"a b", "火".encode() * 100],
    "tokenized": [b"a/x b/y", b"a/x" + b" b" * 100, b"\\a" * 500],
    "partial": [b"a/x|b/y", b"a/x" + b"|b" * 100, b"a/" + b"\\x" * 500],
}
# What a note is made longer by, one byte at a time from then on.
FILLERS = {"raw": b"x", "tokenized": b" a/x", "partial": b"|a/x"}
# A partial note of 4,096 bytes that is written as over two million.
LONGEST = b"a" + b"/" * 2048 + b"x" + b"|b" * 1023
HEADING = heading("join")
# Words that are not understood, and what is said.
NEEDED = "partial notes are joined by none, word or unknown"
NO_FORM = "is no form: it is raw, tokenized or partial (R, T or P)"
UNKNOWN_WORDS = [
    ([], "no form is named: it is raw, tokenized or partial"),
    (["word", "a"], f"'word' {NO_FORM}"),
    (["partial"], f"no mark is named: {NEEDED}"),
    (["P", "--tsv"], f"no mark is named: {NEEDED}"),
    (["partial", "a", "b"], f"'a' is no mark: {NEEDED}"),
    (["P", "-", "a"], f"'-' is no mark: {NEEDED}"),
    (["P", "./word", "a"], f"'./word' is no mark: {NEEDED}"),
    (["P", b"\xff\t", "a"], f"'<byte FF><U+0009>' is no mark: {NEEDED}"),
    (["P", "|", "a"], f"'|' is no mark: {NEEDED}"),
    (["tokenized", "none", "a"], "tokenized notes are joined by a word boundary: leave the mark out; a file of that name is given as ./none"),
    (["T", "unknown", "a"], "tokenized notes are joined by a word boundary: leave the mark out; a file of that name is given as ./unknown"),
    (["T", "none"], "tokenized notes are joined by a word boundary: leave the mark out; a file of that name is given as ./none"),
    (["raw", "none", "a"], "raw notes are joined by an unknown boundary: leave the mark out; a file of that name is given as ./none"),
    (["R", "word", "a"], "raw notes are joined by an unknown boundary: leave the mark out; a file of that name is given as ./word"),
    (["raw"], "no file is named behind the form raw; - is standard input"),
    (["raw", "unknown"], "no file is named behind the form raw; - is standard input"),
    (["T", "word"], "no file is named behind the form tokenized; - is standard input"),
    (["P", "none"], "no file is named behind the form partial; - is standard input"),
    (["T", "a", "P"], "no file is named behind the form partial; - is standard input"),
    (["T", "a", "P", "b"], "notes of one form are joined: convert those of the other first"),
    (["raw", "-", "-"], "standard input is named twice, and can be read once: name a file for one of them"),
    (["P", "none", "-", "a", "-"], "standard input is named twice, and can be read once: name a file for one of them"),
    (["raw", "--between", "a"], "there is no option '--between' here; it knows --tsv"),
    (["--tsv", "raw", "a", "--tsv"], "--tsv is given twice"),
]
def join(words, data=b"", **more):
    """A run of `join` on input from a pipe."""
    return run(["join", *words], data, **more)


# What a line should be


@cache
def written(form, part):
    """A part as it is joined, or what refuses it."""
    told = sentence(form, part)
    if isinstance(told, tuple):
        return told
    return part if form == "raw" else line_of(form, told)


def wanted(way, parts):
    """What is to come of a line: the joined note, or what refuses it: number and place, each behind the part's index, or behind None for the note."""
    told = [written(way.form, part) for part in parts]
    refused = [(at, *part) for at, part in enumerate(told) if isinstance(part, tuple)]
    if refused:
        return refused
    note = way.sign.join(told)
    return [(None, 1, 4096)] if len(note) > 4096 else note


def of_parts(way, parts):
    """The sentence of a joined note: those of its parts one behind the other, with the boundary between them, and the most columns of them."""
    told = [sentence(way.form, part) for part in parts]
    marks = [mark for part in told for mark in (getattr(reading(), way.boundary), *part.marks)][1:]
    return reading().Sentence([c for part in told for c in part.chars], marks, [row for part in told for row in part.rows], max(part.columns for part in told))


def compared(way, names, lines, texts=True, tables=True):
    """Lines, each of a part for each file, joined as text and as a table. One file may be standard input, and every second one does not end in LF."""
    files = {given: with_lf(parts)[:-1 if at % 2 else None] for at, (given, parts) in enumerate(zip(names, zip(*lines)))}
    for given in files.keys() - {"-"}:
        file(given, files[given])
    right = [wanted(way, parts) for parts in lines]
    if texts:
        read_back(way, lines, as_text(way, names, files.get("-", b""), lines, right), right)
    if tables:
        read_back(way, lines, as_table(way, names, files.get("-", b""), lines, right), right)


def as_text(way, names, data, lines, right):
    """The lines of the output, compared with what they should be."""
    name = f"{way.form} {way.given}, {len(names)} files"
    refused = [(line, told) for line, told in enumerate(right, 1) if isinstance(told, list)]
    out, err, status = join([way.form, *way.given, *names], data)
    got = out.split(b"\n")[:-1]
    beside(name, lines, got, [told if isinstance(told, bytes) else b"" for told in right])
    beside(f"{name}: refusals", [lines[line - 1] for line, told in refused for _ in told], told_refusals(err), places(names, refused))
    expect(f"{name}: the end", (err.endswith(said(f"{len(refused)} of {len(lines)} notes refused: {EMPTY_LINES}")), status), (True, 1))
    return got


def as_table(way, names, data, lines, right):
    """The notes of the table, compared in their rows."""
    name = f"{way.form} {way.given} --tsv, {len(names)} files"
    out, err, status = join([way.form, *way.given, "--tsv", *names], data)
    got = table("join", out)
    beside(name, lines, got, [row(line, names, told) for line, told in enumerate(right, 1)])
    refused = sum(isinstance(told, list) for told in right)
    expect(f"{name}: the end", (err, status), (said(f"{refused} of {len(lines)} notes refused: {ROWS}"), 1))
    return [line[-1] for line in got]


def read_back(way, lines, got, right):
    """The lines that were joined, read once more, beside the sentences of their parts."""
    good = [(parts, note) for parts, note, told in zip(lines, got, right) if isinstance(told, bytes)]
    beside(f"{way.form} {way.given}, read", [parts for parts, _ in good], [sentence(way.form, note) for _, note in good],
           [of_parts(way, parts) for parts, _ in good])


def told_refusals(err):
    """The refusals that are said, up to their words. Each has its line and a caret below it, and nothing else is said but how many there are."""
    found = re.findall(r"(?m)^(\S.*: \d+ at \d+: )[a-zN].*\n    .*\n    +\^$", err.decode(errors="replace"))
    expect("lines on standard error", err.count(b"\n"), 3 * len(found) + 1)
    return found


def places(names, refused):
    """The same as it should be, for lines by their number with what refuses them."""
    return [f"{f'line {line}, joined' if at is None else f'{names[at]}:{line}'}: {number} at {place}: " for line, told in refused for at, number, place in told]


def row(line, names, told):
    """The row of a line."""
    if isinstance(told, bytes):
        return [b"%d" % line, b"", b"", b"", told]
    at, number, place = told[0]
    return [b"%d" % line, b"" if at is None else names[at].encode(), b"%d" % number, b"%d" % place, b""]


# Drawn lines


def drawn_tags(rng):
    """Up to three tags, some of them absent."""
    return "".join("/" + rng.choice(["", "", "x", "名詞", "\\-y", "z\\/", "\\x\\ ", "\t"]) for _ in range(max(0, rng.randint(-3, 3))))


def drawn_note(rng, form):
    """A note of some characters as someone may spell it, now and then with a backslash at its end."""
    if form == "raw":
        return "".join(rng.choices(LETTERS, k=rng.randint(1, 12))).encode()
    parts, signs = [], ["", "", " "] if form == "tokenized" else "-| "
    for c in rng.choices(LETTERS, k=rng.randint(1, 8)):
        is_escaped = form == "tokenized" and (c in " /\\" or rng.random() < 0.2)
        parts += ["\\" * is_escaped + c + drawn_tags(rng), rng.choice(signs)]
    return "".join(parts[:-1]).encode() + rng.choice([b"", b"", b"", b"\\"])


def drawn_part(rng, form):
    """Such a note, now and then damaged, and now and then an empty line."""
    line = drawn_note(rng, form)
    at = rng.randrange(len(line))
    return rng.choices([line, line[:at] + rng.choice(DAMAGE) + line[at + 1:], b""], [20, 4, 1])[0]


def short_parts(rng):
    """Every line of up to two characters over a small alphabet, and some of three."""
    lines = ["".join(signs).encode() for n in range(4) for signs in product("aあ/|- \\", repeat=n)]
    return lines[:57] + rng.sample(lines[57:], 60)


def filled(way, parts, at, length):
    """Parts, one of which is made longer, so that the joined note has so many bytes."""
    parts[at] += FILLERS[way.form]
    parts[at] += b"x" * (length - len(way.sign.join(written(way.form, part) for part in parts)))
    return parts


def limit_lines(rng, way, n):
    """Lines of so many parts around the limits: of joined bytes, of what is kept of a line, of a part."""
    for length in (4095, 4096, 4097):
        for first in SIZES[way.form]:
            yield filled(way, [first, *rng.choices(SIZES[way.form], k=n - 1)], rng.randrange(n), length)
        yield [filled(way, [b"a"], 0, length)[0], *[b"a"] * (n - 1)]
    yield [filled(way, [b"a"], 0, 4000)[0]] * n
    yield [b"a"] * n


def lines_of(rng, way, n):
    """Lines of so many parts, short and drawn ones; the last has only notes."""
    for at, part in enumerate(short_parts(rng)):
        yield [part if at % n == i else drawn_note(rng, way.form) for i in range(n)]
    for _ in range(100):
        yield [drawn_part(rng, way.form) for _ in range(n)]
    yield [b"a"] * n


def drawn():
    """Drawn lines in all ways, of one to five files; one of the files is standard input, but for each third run."""
    rng = random.Random(7)
    for at, (way, n) in enumerate([*product(WAYS[:3], range(1, 6)), *product(WAYS[3:], (2, 5)), *product(NEEDLESS, [2])]):
        names = [f"file {i}" for i in range(n)]
        if at % 3:
            names[at % n] = "-"
        compared(way, names, list(map(tuple, lines_of(rng, way, n))), tables=at % 2 == 0)


def limits():
    """Lines around the limits in all ways, of one, two and five files."""
    rng = random.Random(8)
    for way, n in [*product(WAYS[:3], (1, 2, 5)), *product(WAYS[3:], [2])]:
        compared(way, [f"file {i}" for i in range(n)], list(map(tuple, limit_lines(rng, way, n))), texts=n == 2)


# The page, words and worked lines


def joining():
    """The examples of docs/JOINING.md."""
    run_examples("docs/JOINING.md", document("docs/JOINING.md"))


def words():
    """Words that are not understood."""
    for given, told in UNKNOWN_WORDS:
        not_understood(["join", *given], told)


def worked():
    """Lines that are given with their outcome, to the last byte."""
    a, b, back = file("a", b"a/x\n"), file("b", b"b\n"), file("back", b"a\\\n")
    expect("a word boundary", join(["T", a, b]), (b"a/x b\n", b"", 0))
    expect("a lone backslash", join(["T", back, b]), (b"a b\n", b"", 0))
    expect("a lone backslash in raw notes", join(["R", back, b]), (b"a\\b\n", b"", 0))
    expect("each mark", [join(["P", mark, a, b])[0] for mark in ("none", "word", "unknown")], [b"a/x-b\n", b"a/x|b\n", b"a/x b\n"])
    expect("one file", join(["T", file("one", b"a/x b\n\\a\n")]), (b"a/x b/\na\n", b"", 0))
    expect("a file twice", join(["T", a, b, a]), (b"a/x b a/x\n", b"", 0))
    expect("options and words in another order", join(["--tsv", "--", "T", "word", a, b])[0], HEADING + b"1\t\t\t\ta/x b\n")
    for name in ("word", "none", "raw", "-x"):
        file(name, b"c\n")
    expect("files whose names are marks, forms and options", join(["T", "./word", "./none", "./raw", "./-x"]), (b"c c c c\n", b"", 0))
    expect("files whose names are marks, behind a mark", join(["T", "word", "word", "none", "--", "-x"]), (b"c c c\n", b"", 0))
    refused = b"two:1: 5 at 0: a space before any text\n     a\n    ^\nthree:1: 8 at 2: a space at the end\n    a \n      ^\n"
    three = ["T", file("one", b"a\nb\n"), file("two", b" a\nb\n"), file("three", b"a \nb\n")]
    expect("every refused part", join(three), (b"\nb b b\n", refused + said(f"1 of 2 notes refused: {EMPTY_LINES}"), 1))
    expect("the order of what is printed and said", join(three, stderr=subprocess.STDOUT)[0],
           b"\n" + refused + b"b b b\n" + said(f"1 of 2 notes refused: {EMPTY_LINES}"))
    expect("the first refused part in a table", join(["--tsv", *three])[0], HEADING + b"1\ttwo\t5\t0\t\n2\t\t\t\tb b b\n")
    long = ["raw", file("long", b"a" * 4000 + b"\n"), file("more", b"b" * 97 + b"\n")]
    told = f"line 1, joined: 1 at 4096: a note over 4,096 bytes\n    …{'b' * 51}\n{' ' * 55}^\n".encode()
    expect("a joined line that is too long", join(long), (b"\n", told + said(f"1 of 1 note refused: {EMPTY_LINES}"), 1))
    expect("the same in a table", join(["--tsv", *long]), (HEADING + b"1\t\t1\t4096\t\n", said(f"1 of 1 note refused: {ROWS}"), 1))
    out, err, status = join(["P", "word", file("longest", LONGEST + b"\na\n"), file("two lines", b"c\nd\n"), "longest"])
    expect("the longest written notes", (out, told_refusals(err), status), (b"\na|d|a\n", ["line 1, joined: 1 at 4096: "], 1))
    marks = "\u0301".encode()
    err = join(["raw", file("odd", b"a" * 4001 + b"\n"), file("marks", marks * 2048 + b"\n"), "marks"])[1]
    expect("a long line is cut between characters", (err.count(marks) > 0, b"<byte" in err), (True, False))
    out, err, status = join(["raw", file("endless", b"a" * 5000000 + b"\nb"), "two lines"])
    expect("a line that never ends", (out, told_refusals(err), status), (b"\nbd\n", ["endless:1: 1 at 4096: "], 1))
    last = said(f"1,000 of 2,000 notes refused: {EMPTY_LINES}")
    expect("counts with a comma", join(["T", file("many", b"a\n \n" * 1000), "many"])[1][-len(last):], last)


# Files and streams


def lengths():
    """Files of different lengths, and without lines."""
    file("nothing", b"")
    file("one", b"a\n")
    file("two", b"b\nc\n")
    file("open", b"d\ne")
    file("three", b"f\ng\nh\n")
    file("empty", b"i\nj\n\n")
    for names, out, told in [
        (["nothing"], b"", []),
        (["nothing", "nothing", "-"], b"", []),
        (["two", "open"], b"bd\nce\n", []),
        (["open", "two"], b"db\nec\n", []),
        (["one", "nothing"], b"", ["nothing ends before one does: it has no line 1"]),
        (["nothing", "one"], b"", ["nothing ends before one does: it has no line 1"]),
        (["-", "one"], b"", ["- ends before one does: it has no line 1"]),
        (["two", "one"], b"ba\n", ["one ends before two does: it has no line 2"]),
        (["one", "two"], b"ab\n", ["one ends before two does: it has no line 2"]),
        (["open", "three"], b"df\neg\n", ["open ends before three does: it has no line 3"]),
        (["empty", "open"], b"id\nje\n", ["open ends before empty does: it has no line 3"]),
        (["three", "empty", "two"], b"fib\ngjc\n", ["two ends before three does: it has no line 3"]),
        (["two", "three", "open", "empty"], b"bfdi\ncgej\n", [f"{name} ends before three does: it has no line 3" for name in ("two", "open")]),
    ]:
        expect(f"the lengths of {names}", join(["raw", *names]), (out, said(*told), 2 if told else 0))
    expect("no lines in a table", join(["--tsv", "raw", "nothing", "nothing"]), (HEADING, b"", 0))
    expect("different lengths in a table", join(["--tsv", "raw", "two", "one"]),
           (HEADING + b"1\t\t\t\tba\n", said("one ends before two does: it has no line 2"), 2))
    refused = b"spaced:1: 5 at 0: a space before any text\n     a\n    ^\n"
    expect("a refused line, and different lengths", join(["T", file("spaced", b" a\nb\n"), "one"]),
           (b"\n", refused + said("one ends before spaced does: it has no line 2"), 2))
    file("many", b"a\n" * 40000)
    out, err, status = join(["raw", "many", "-"], b"b\n" * 20000)
    expect("many lines", (out == b"ab\n" * 20000, err, status), (True, said("- ends before many does: it has no line 20001"), 2))


def line_ends():
    """CR and LF, and the byte order mark."""
    crs, plain, mark = file("crs", b"a\r\nb\r\n"), file("plain", b"c\nd\n"), "\ufeff".encode()
    expect("a file with CR, and one without", join(["T", crs, plain]), (b"a\r c\nb\r d\n", said(f"crs: {CR}"), 0))
    expect("standard input with CR", join(["T", plain, "-"], b"a\r\nb\r\n"), (b"c a\r\nd b\r\n", said(f"standard input: {CR}"), 0))
    expect("CR in one line", join(["T", plain, "-"], b"a\r\nb\n"), (b"c a\r\nd b\n", b"", 0))
    expect("a byte order mark", join(["T", plain, file("mark", mark + b"a\nb\n")]), (b"c " + mark + b"a\nd b\n", said(f"mark: {MARK}"), 0))
    expect("NUL", join(["raw", plain, "-"], b"a\0\nb\n")[:2],
           (b"\ndb\n", b"-:1: 4 at 1: NUL\n    a<U+0000>\n     ^\n" + said(f"1 of 2 notes refused: {EMPTY_LINES}")))


def names():
    """Files with odd names, as they are said and in a table whose cells need escapes."""
    for name, visible in ((b"a\tb\nc", "a<U+0009>b<U+000A>c"), (b"a\\b\r", "a\\b<U+000D>"), (b"a\xff", "a<byte FF>")):
        file(name, b"a\tb\\\\c\r\n/\n")
        err = f"{visible}:2: 7 at 0: a slash where a token should begin\n    /\n    ^\n".encode() + said(f"1 of 2 notes refused: {EMPTY_LINES}")
        expect(f"the name {name}", join(["T", name, file("good", b"b\nc\n")]), (b"a\tb\\\\c\r b\n\n", err, 1))
        out, _, status = join(["--tsv", "T", "good", name])
        expect(f"the name {name} in a table", (table("join", out), status), ([[b"1", b"", b"", b"", b"b a\tb\\\\c\r"], [b"2", name, b"7", b"0", b""]], 1))
        expect(f"escapes with {name}", out.split(b"\n")[1], b"1\t\t\t\tb a\\tb\\\\\\\\c\\r")
        early = said("good ends before - does: it has no line 3", f"{visible} ends before - does: it has no line 3")
        expect(f"{name} that ends early", join(["T", "good", name, "-"], b"a\nb\nc\n")[1].endswith(b"^\n" + early), True)


def at_once():
    """Each line is printed before more input is waited for, whichever file that is."""
    file("three", b"x\ny\n \n")
    for given, answers in ((["-", "three"], [b"a x\n", b"b y\n"]), (["three", "-"], [b"x a\n", b"y b\n"])):
        process = start(["join", "T", *given], stdin=subprocess.PIPE, bufsize=0)
        for data, answer in zip((b"a\n", b"b\n"), answers):
            give(process, data)
            expect(f"{given}: an answer at once", next_line(process.stdout), answer)
        give(process, b"c\n")
        expect(f"{given}: a refusal at once", (next_line(process.stdout), next_line(process.stderr)), (b"\n", b"three:3: 5 at 0: a space before any text\n"))
        expect(f"{given}: the end behind the input", outcome(without_more(process))[2], 1)


def inputs_that_fail():
    """Input that cannot be read."""
    os.mkdir(path("inner"))
    file("a", b"x\n")
    for given in (["raw"], ["--tsv", "raw"]):
        expect(f"{given}: a file that is not there", join([*given, "a", "gone"]), (b"", said(f"gone {GONE}"), 2))
        expect(f"{given}: a folder", join([*given, "inner", "a"]), (b"", said(f"inner {FOLDER}"), 2))
    wrong = said(f"gone {GONE}", f"inner {FOLDER}", "a/b cannot be read: Not a directory (os error 20)", f"'' {GONE}")
    expect("four that cannot be read", join(["raw", "gone", "a", "inner", "a/b", ""]), (b"", wrong, 2))
    expect("a mark that is no file behind the first", join(["T", "a", "unknown"]), (b"", said(f"unknown {GONE}"), 2))
    expect("a file that breaks off", join(["raw", "a", "/proc/self/mem"]), (b"", said("/proc/self/mem cannot be read: Input/output error (os error 5)"), 2))
    expect("a closed input", by_shell("notes join raw a - <&-"), (b"", said("standard input is closed"), 2))
    expect("a closed input that is not read", by_shell("notes join raw a a <&-"), (b"xx\n", b"", 0))
    expect("pipes", by_shell("notes join raw <(printf 'a\\nb\\n') <(printf 'c\\nd')"), (b"ac\nbd\n", b"", 0))


def outputs_that_fail():
    """Output that cannot be written."""
    for data in (b"a\n", b" \n", b"a\n" * 50000):
        file("notes", data)
        with open("/dev/full", "wb") as full:
            for given in (["T", "notes", "notes"], ["--tsv", "T", "notes", "notes"]):
                expect(f"{given}, {len(data)} bytes: a full device", join(given, stdout=full), (None, FULL, 2))
    expect("a closed output", by_shell("notes join T notes notes >&-"), (b"", said("standard output is closed"), 2))
    process = start(["join", "T", "notes", "notes"])
    process.stdout.read(40)
    process.stdout.close()
    expect("a reader that stops early", (process.stderr.read(), process.wait(LIMIT)), (BROKEN, 2))
    expect("a closed output for errors", by_shell("notes join T <(printf 'a\\n \\n') 2>&-"), (b"a\n\n", b"", 1))


PARTS = [joining, words, worked, lengths, line_ends, names, at_once, inputs_that_fail, outputs_that_fail, drawn, limits]


def needs():
    """Sees to it that `join` can be run."""
    can_run("join")


main(__doc__, needs, PARTS, "notes.sh join", "lines")
