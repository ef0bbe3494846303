#!/usr/bin/env python3
"""Runs notes.sh and looks at what it prints, what it says and how it ends.

Usage: notes.py
Every example of its help pages and of docs/DUPLICATES.md is run. Its answers are compared with a second reading, crates/test_hiding/reading.py, for
every short line over a small alphabet, drawn lines, and lines around the limits, in all three forms; so are the groups of duplicates in drawn files.
The words on refusals are held to README.md. It is run on input that arrives in pieces, on files and devices that fail, on files that change while they
are read, at a terminal, and on words that it does not know; and target/host/x86/wrong/compare, which host/link.sh builds, with a port that is made
wrong.
Prints what ended otherwise, 20 outcomes at most, and how many runs and answers there were. Status 0: all is as it should be; 1: something is not; 2: it
could not be run.
"""
import os
import pty
import random
import re
import signal
import subprocess
import sys
import tempfile
import time
from collections import Counter
from functools import cache
from itertools import product
from unicodedata import category, east_asian_width

sys.dont_write_bytecode = True
from outcomes import (  # noqa: E402
    BROKEN, CR, EMPTY_LINES, FOLDER, FULL, GONE, HEADINGS, HERE, LIMIT, MARK, ROWS, SCRIPT, TOP, beside, by_shell, can_run, count_answers, document, expect,
    file, give, heading, line_of, main, next_line, not_understood, outcome, path, reading, run, run_examples, said, sentence, start, table, with_lf,
    without_more)

PAGES = "host/notes/help"
SAMPLES = os.path.join(HERE, "samples")
PROGRAMS = os.path.join(TOP, "target", "host", "x86")
FORMS = ["raw", "tokenized", "partial"]
PAIRS = [(reader, writer) for reader in FORMS for writer in FORMS[1:]]
# Each verb on the partial notes of standard input.
CALLS = {
    "check": ["check", "partial", "-"],
    "compare": ["compare", "partial", "-"],
    "convert": ["convert", "partial", "tokenized"],
    "duplicates": ["duplicates", "partial", "-"],
    "join": ["join", "partial", "word", "-"],
    "keys": ["keys", "partial", "-"],
    "withhold": ["withhold", "partial", "0", "1"],
}
# Partial notes, and the row that `keys` prints of each without its file and line, or what refuses it.
LINES = [
    (b"a/-b", b"a-b"),
    (b"a/x-b|c", b"a/x-b/|c/"),
    (b"a//x/|b", b"a//x|b//"),
    (b"", (3, 0)),
    (b"ab", (9, 1)),
    (b"a\r", (9, 1)),
    (b"\r|a/\r", rb"\r/|a/\r"),
    (b"a\0", (4, 1)),
    (b"a-\xff", (2, 2)),
    ("猫/名詞/|が/助詞".encode(), "猫/名詞|が/助詞".encode()),
    (rb"a/\\|\|b", rb"a/\\\\|\\/|b/"),
    (b"a/x\ty", rb"a/x\ty"),
]
ASKED = with_lf(line for line, _ in LINES)
MANY = 5000
# How long lines are where a reader's limit, what is kept of a line, or what is read at once comes to its end.
LENGTHS = [part + n for part in (4096, 8192, 65536, 4096 + 65536, 8192 + 65536) for n in range(-2, 3)]
# What is refused as form, line, number and place, how the line is shown, and what of it stands before the caret.
REFUSED = [
    ("raw", b"", 3, 0, "", ""),
    ("raw", b"a\0b", 4, 1, "a<U+0000>b", "a"),
    ("raw", b"\xff\xff", 2, 0, "<byte FF><byte FF>", ""),
    ("raw", "猫が".encode() + b"\xe3\x81", 2, 6, "猫が<byte E3><byte 81>", "猫が"),
    ("raw", b"\tb\xc0\xafc", 2, 2, "<U+0009>b<byte C0><byte AF>c", "<U+0009>b"),
    ("tokenized", b" a", 5, 0, " a", ""),
    ("tokenized", b"a  b", 6, 2, "a  b", "a "),
    ("tokenized", "猫/名詞\t  が".encode(), 6, 12, "猫/名詞<U+0009>  が", "猫/名詞<U+0009> "),
    ("tokenized", b"/x", 7, 0, "/x", ""),
    ("tokenized", "猫 /x".encode(), 7, 4, "猫 /x", "猫 "),
    ("tokenized", "猫/名詞 ".encode(), 8, 11, "猫/名詞 ", "猫/名詞 "),
    ("tokenized", b"\\", 3, 1, "\\", "\\"),
    ("tokenized", b"", 3, 0, "", ""),
    ("tokenized", b"a\r \0", 4, 3, "a<U+000D> <U+0000>", "a<U+000D> "),
    ("partial", b"ab", 9, 1, "ab", "a"),
    ("partial", "猫が".encode(), 9, 3, "猫が", "猫"),
    ("partial", "猫|".encode(), 10, 4, "猫|", "猫|"),
    ("partial", b"a-\xff", 2, 2, "a-<byte FF>", "a-"),
    ("partial", "猫-\0".encode(), 4, 4, "猫-<U+0000>", "猫-"),
]
# Characters that a caret stands behind: Latin, both widths of kana, a sound mark of its own, Han, Hangul, an old kana, pictures, blanks, hidden ones.
BEFORE_CARET = ["a", "あ", "ｱ", "Ａ", "か\u3099", "e\u0301", "𠮷", "한", "\U0001b002", "🐱", "🚀", "⭐", "🈁", "\u3000", "\u00a0", "\u200b", "\ufeffa", "\x1b"]
# Words that are not understood, and what is said.
UNKNOWN_WORDS = [
    (["keys"], "no form is named: it is raw, tokenized or partial"),
    (["check"], "no form is named: it is raw, tokenized or partial"),
    (["duplicates", "--between", "--tsv"], "no form is named: it is raw, tokenized or partial"),
    (["compare"], "no form is named: it is raw, tokenized or partial"),
    (["withhold"], "no form is named: it is raw, tokenized or partial"),
    (["convert"], "no form to read is named: it is raw, tokenized or partial"),
    (["convert", "raw"], "no form to write is named: it is tokenized or partial"),
    (["keys", "Raw", "-"], "'Raw' is no form: it is raw, tokenized or partial (R, T or P)"),
    (["keys", "", "-"], "'' is no form: it is raw, tokenized or partial (R, T or P)"),
    (["keys", b"\xff\t", "-"], "'<byte FF><U+0009>' is no form: it is raw, tokenized or partial (R, T or P)"),
    (["compare", "Q", "notes.txt"], "'Q' is no form: it is raw, tokenized or partial (R, T or P)"),
    (["convert", "t", "P"], "'t' is no form: it is raw, tokenized or partial (R, T or P)"),
    (["convert", "T", "X"], "'X' is no form: it is raw, tokenized or partial (R, T or P)"),
    (["convert", "T", "raw"], "no note is written raw: the form to write is tokenized or partial (T or P)"),
    (["convert", "T", "R", "x"], "no note is written raw: the form to write is tokenized or partial (T or P)"),
    (["convert", "T", "P", "a", "b"], "one file at most: 'b' is one too many"),
    (["withhold", "raw", "0", "1", "a", "b"], "one file at most: 'b' is one too many"),
    (["withhold", "--ranges", "r", "raw", "a", "b"], "one file at most: 'b' is one too many"),
    (["keys", "raw"], "no file is named behind the form raw; - is standard input"),
    (["check", "T"], "no file is named behind the form tokenized; - is standard input"),
    (["duplicates", "T", "a", "P"], "no file is named behind the form partial; - is standard input"),
    (["compare", "T"], "no file is named behind the form tokenized; - is standard input"),
    (["withhold", "raw"], "no start is given: it takes START and END, or --ranges and a file"),
    (["withhold", "raw", "1"], "no end is given: it takes START and END, or --ranges and a file"),
    (["withhold", "raw", "1x", "2"], "'1x' is no start: that is a number of characters, from 0 up"),
    (["withhold", "--", "raw", "-1", "2"], "'-1' is no start: that is a number of characters, from 0 up"),
    (["withhold", "raw", "", "2"], "'' is no start: that is a number of characters, from 0 up"),
    (["withhold", "raw", "1", "+2"], "'+2' is no end: that is a number of characters, from 0 up"),
    (["withhold", "raw", "1", "２"], "'２' is no end: that is a number of characters, from 0 up"),
    (["withhold", "raw", "1", str(2**64)], f"'{2**64}' is no end: that is a number of characters, from 0 up"),
    (["withhold", "raw", "-1", "2"], "there is no option '-1' here; it knows --ranges FILE and --tsv"),
    (["withhold", "raw", "--ranges"], "--ranges is the last word: behind it stands FILE"),
    (["withhold", "--ranges", "a", "--ranges", "b", "raw"], "--ranges is given twice"),
    (["withhold", "--ranges", "r", "raw", "0", "1"], "--ranges takes the place of START and END: behind the form stands one file at most"),
    (["withhold", "--ranges", "-", "raw"], "the notes and the ranges cannot both be standard input: name a file for one of them"),
    (["withhold", "--ranges", "-", "raw", "-"], "the notes and the ranges cannot both be standard input: name a file for one of them"),
    (["duplicates", "--between", "T", "a"], "--between looks for notes that stand in more than one file: name two or more"),
    (["duplicates", "--between", "--between", "T", "a"], "--between is given twice"),
    (["duplicates", "--within", "T", "a"], "there is no option '--within' here; it knows --between and --tsv"),
    (["keys", "--tsv", "raw", "--tsv", "-"], "--tsv is given twice"),
    (["keys", "raw", "-", "-x"], "there is no option '-x' here; it knows --tsv"),
    (["check", "--between", "T", "-"], "there is no option '--between' here; it knows --tsv"),
    (["convert", "--ranges", "T", "P"], "there is no option '--ranges' here; it knows --tsv"),
    (["compare", "--csv", "T", "notes.txt"], "there is no option '--csv' here; it knows --tsv"),
    (["keys", "--tsv=yes", "T", "-"], "there is no option '--tsv=yes' here; it knows --tsv"),
]
# What is made wrong of the port's answers, and the part that `compare` lists.
SPOILED = [
    ("reader: refuses", "answer"),
    ("reader: number", "answer"),
    ("reader: place", "answer"),
    ("reader: N", "numbers"),
    ("reader: cells", "numbers"),
    ("reader: columns", "columns"),
    ("reader: text", "text"),
    ("reader: types", "types"),
    ("reader: boundaries", "boundaries"),
    ("reader: char positions", "char positions"),
    ("reader: byte positions", "byte positions"),
    ("reader: cell starts", "cell starts"),
    ("reader: cell lengths", "cell lengths"),
    ("reader: tag bytes", "tag bytes"),
    ("step: end", "tokens"),
    ("writer: tokenized line", "tokenized line"),
    ("writer: partial line", "partial line"),
    ("conversion: line", "converted to partial"),
    ("conversion: place", "converted to partial"),
    ("conversion: accepts 11", "converted to tokenized"),
]
# Words that target/host/x86/both cannot follow, what it says, and where its output goes.
BOTH = [
    ("", "no word was given", os.devnull),
    ("comparing", "there is no 'comparing'", os.devnull),
    ("check --lines 0", "--lines takes a number from 1 up, and '0' is none", os.devnull),
    ("check --lines", "--lines takes a number from 1 up, and nothing is none", os.devnull),
    ("check --seed x", "--seed takes a number from 1 up, and 'x' is none", os.devnull),
    ("check --quick", "check does not know '--quick'", os.devnull),
    ("check --long --lines 3", "--long and --lines exclude each other", os.devnull),
    ("check --lines 3", "cannot write to standard output: ", "/dev/full"),
    ("joins --pairs 0", "--pairs takes a number from 1 up, and '0' is none", os.devnull),
    ("joins --pairs", "--pairs takes a number from 1 up, and nothing is none", os.devnull),
    ("joins --seed x", "--seed takes a number from 1 up, and 'x' is none", os.devnull),
    ("joins --lines 3", "joins does not know '--lines'", os.devnull),
    ("joins --long --pairs 3", "--long and --pairs exclude each other", os.devnull),
    ("joins --pairs 3", "cannot write to standard output: ", "/dev/full"),
    ("bench --rounds 0", "--rounds takes a number from 1 up, and '0' is none", os.devnull),
    ("bench --laps", "bench does not know '--laps'", os.devnull),
    ("bench --rounds 1", "cannot write to standard output: ", "/dev/full"),
]
LOST = "lost tokens with an unknown boundary, or tags inside a token, which the tokenized form does not have"
# The farthest place that a refusal holds.
FARTHEST = 2**32 - 1


def counted(number, noun):
    """A number with its noun."""
    return f"{number:,} {noun}{'' if number == 1 else 's'}"


def whole(words, data):
    """A run on input from a file, all of it at once."""
    with tempfile.TemporaryFile() as file:
        file.write(data)
        file.seek(0)
        return outcome(start(words, stdin=file))


def program(name, words, data=b"", **more):
    """A run of a program of host/link.sh."""
    return run(words, data, [os.path.join(PROGRAMS, name)], **more)


def columns(text):
    """How many columns of a terminal a text takes."""
    return sum(0 if category(c) in ("Mn", "Me") else 2 if east_asian_width(c) in "WF" else 1 for c in text)


# The help pages and the words


def pages():
    """What the pages say, and how they are asked for."""
    names = sorted(name.removesuffix(".txt") for name in os.listdir(os.path.join(TOP, PAGES)))
    expect("the pages", names, sorted([*HEADINGS, "notes"]))
    for name in names:
        page = document(f"{PAGES}/{name}.txt")
        verb = [] if name == "notes" else [name]
        expect(f"the page of {name}", page.split(" [")[0], f"usage: bash notes.sh {name if verb else 'VERB'}")
        for word in ("--help", "-h"):
            expect(f"{name} {word}", run([*verb, word]), (page.encode(), b"", 0))
        if verb:
            expect(f"{name} --help behind other words", run([name, "--what", "T", "--help"]), (page.encode(), b"", 0))
            expect(f"{name} in the page of all", f"\n  {name} " in run(["--help"])[0].decode(), True)
        else:
            expect("no word", run([]), (b"", page.encode(), 2))
        run_examples(f"the page of {name}", page)
    run_examples("docs/DUPLICATES.md", document("docs/DUPLICATES.md"))


def words():
    """Words that are not understood."""
    for given, told in UNKNOWN_WORDS:
        not_understood(given, told)
    for verb in ("jump", "", "notes", "-x", "--", "--tsv", "./keys", "keys "):
        wanted = b"", said(f"there is no '{verb}'; it does {' '.join(HEADINGS)}", "'bash notes.sh --help' says how it is used"), 2
        expect(f"the verb '{verb}'", run([verb, "raw", "-"]), wanted)
        expect(f"the verb '{verb}', and --help", run([verb, "--help"]), wanted)
    expect("behind -- there is no help", run(["keys", "raw", "--", "--help"]), (b"", said(f"--help {GONE}"), 2))
    expect("a name of nothing", run(["check", "raw", ""]), (b"", said(f"'' {GONE}"), 2))
    expect("the largest number", run(["withhold", "raw", "0", str(2**64 - 1)], b"a\n")[2], 1)
    for form, letter in zip(FORMS, "RTP"):
        expect(f"{letter} for {form}", run(["keys", letter, "-"], b"a b\n"), run(["keys", form, "-"], b"a b\n"))


# Refusals


@cache
def meanings():
    """What README.md says of the refusals 1 to 10, as notes.sh is to say it: words and advice by number."""
    part = document("README.md").partition("\n## What a refusal means\n")[2].partition("\n## ")[0]
    told = {}
    for line in re.findall(r"(?m)^\| \d+ \|.*$", part):
        number, refused, _, advice = (cell.strip().replace("\\|", "|").replace("`", "") for cell in re.split(r"(?<!\\)\|", line)[1:-1])
        number = int(number)
        form = "tokenized: " if 5 <= number <= 8 else "partial: " if 9 <= number <= 10 else ""
        if not refused.startswith(form):
            form, refused = "", f"without its form in README.md: {refused}"
        if number == 2:
            refused = "not UTF-8" if refused == "one that is not UTF-8" else f"otherwise in README.md: {refused}"
        if number == 6:
            advice = told[5][1] if advice == "the same" else f"otherwise in README.md: {advice}"
        told[number] = refused[len(form):], advice
    return {number: told.get(number, ("missing in README.md", "missing in README.md")) for number in range(1, 11)}


def refusal(at, number, place):
    """The line that says what refuses a note."""
    return f"{at}: {number} at {place}: {meanings()[number][0] if number <= 10 else 'a range that is not in the note'}"


def counts(numbers, notes):
    """How many notes are refused, and how many by each number."""
    by_number = "".join(f"\n  {times:,} by {number}, {': '.join(meanings()[number])}" for number, times in sorted(Counter(numbers).items()))
    return f"{len(numbers):,} of {counted(notes, 'note')} refused{by_number}"


def refusals():
    """Each refusal through `check`, as text and as a table, over three files and forms; a good note stands before each."""
    lines = REFUSED + [("tokenized", f"{c}  b".encode(), 6, len(c.encode()) + 1, f"{seen(c)}  b", f"{seen(c)} ") for c in BEFORE_CARET]
    text, rows, named = "", [], []
    for form in FORMS:
        of_form = [line for line in lines if line[0] == form]
        named += [form, file(form[0], with_lf(note for _, line, *_ in of_form for note in (b"a", line)))]
        for at, (_, line, number, place, visible, before) in enumerate(of_form, 1):
            text += f"{refusal(f'{form[0]}:{2 * at}', number, place)}\n    {visible}\n    {' ' * columns(before)}^\n"
            rows.append([form[0].encode(), b"%d" % (2 * at), b"%d" % number, b"%d" % place, meanings()[number][0].encode(), line])
    told = counts([line[2] for line in lines], 2 * len(lines))
    out, err, status = run(["check", *named])
    expect("refusals as text: the end", (err, status), (b"", 1))
    got, wanted = out.decode(errors="replace").split("\n"), f"{text}\n{told}\n".split("\n")
    for at, (line, right) in enumerate(zip(got, wanted)):
        expect(f"refusals as text, behind {got[at - 1]!r}", line, right)
    expect("refusals as text: how many lines", len(got), len(wanted))
    out, err, status = run(["check", "--tsv", *named])
    expect("refusals as a table", (table("check", out), err, status), (rows, said(told), 1))
    good = ["raw", file("r", b"a b\n/\n"), "tokenized", file("t", "猫/名詞 が\n\\ \n".encode()), "partial", file("p", b"a-b/x|c\n|")]
    expect("notes that are good", run(["check", *good]), (b"", b"", 0))
    out, err, status = run(["check", "--tsv", *good])
    expect("notes that are good, as a table", (table("check", out), err, status), ([], b"", 0))
    expect("counts with a comma", run(["check", "T", "-"], b"a\n \n" * 1000)[0].decode().split("\n\n")[1], counts([5] * 1000, 2000) + "\n")


def seen(text):
    """A text as it is shown: what cannot be seen stands in angle brackets."""
    return "".join(f"<U+{ord(c):04X}>" if c in "\t\n\r\0\x1b\u00a0\u200b\ufeff" else c for c in text)


def long_lines():
    """Of a line that is too wide a part is shown around the place, with dots where it goes on; none is cut within a character."""
    numbers, wide = " ".join(map(str, range(1200))), " ".join(chr(0x4E00 + i) for i in range(3000))
    texts = [numbers, wide, "aa" + wide, numbers[:300] + "  " + numbers[300:600], wide[:200] + " " + wide[200:900], numbers[:199] + " ", " " + wide[:900]]
    texts.append("a\t" * 20 + "  b")
    asked = [text.encode() for text in texts]
    out, _, status = run(["check", "T", "-"], with_lf(asked))
    got = out.decode(errors="replace").split("\n")
    expect("wide lines: the status, and how many lines tell of them", (status, got.index("") if "" in got else None), (1, 3 * len(texts)))
    for at, (text, line) in enumerate(zip(texts, asked)):
        number, place = sentence("tokenized", line)
        told, part, caret = (got[3 * at:3 * at + 3] + [""] * 3)[:3]
        is_shown = is_window(seen(text), len(seen(line[:place].decode(errors="ignore"))), part, caret)
        expect(f"the wide line {at + 1}, {part!r}, {caret!r}", (told, is_shown), (refusal(f"-:{at + 1}", number, place), True))
    rows = table("check", run(["check", "--tsv", "T", "-"], with_lf(asked))[0])
    expect("wide lines in a table", [row[-1] for row in rows], [cut(line) for line in asked])


def cut(line):
    """So much of a line as a table has."""
    return line[:8192].decode(errors="ignore").encode() if len(line) > 8192 else line


def is_window(text, at, part, caret):
    """Whether a part of a text is shown, with dots where it goes on, with the character `at` in it, and with the caret under that."""
    part, caret = part.removeprefix("    "), caret.removeprefix("    ")
    before, behind = part.startswith("…"), part.endswith("…")
    middle = part.removeprefix("…").removesuffix("…")
    start = text.find(middle)
    end = start + len(middle)
    is_part = text.count(middle) == 1 and (before, behind) == (start > 0, end < len(text)) and start <= at <= end
    return is_part and 40 <= columns(part) <= 80 and caret == " " * (before + columns(text[start:at])) + "^"


# The answers beside a second reading


@cache
def lines_asked():
    """Every short line, drawn lines, and lines around the limits."""
    return [*short_lines(), *drawn_lines(), *limit_lines()]


def short_lines():
    """Every line of up to four characters."""
    for n in range(5):
        yield from ("".join(signs).encode() for signs in product("aあ/|- \\", repeat=n))


def drawn_lines():
    """Lines drawn from a fixed seed."""
    rng = random.Random(4)
    for _ in range(2000):
        yield "".join(rng.choice(["a", "火", "/", "/名詞", "|", "-", " ", "\\", "\r"]) for _ in range(rng.randint(4, 40))).encode()


def limit_lines():
    """Lines around the limits."""
    for n in (4095, 4096, 4097, 65535, 65536, 65537, 200000):
        yield b"a/" + b"x" * (n - 2)
        yield b"a|" * (n // 2) + b"b" * (n % 2)
    yield b"a" + b"/" * 2048 + b"x" + b"|b" * 1023
    yield b"a" + b"/" * 2048 + b"-" + b" b" * 1023
    # The most cells that there are, and the most with a tag.
    yield b"b" * 2048 + b"/" * 2048
    yield b"b" * 2047 + b"/" * 2048 + b"x"


def of_sentence(form, line, answer):
    """What is answered of a line: of its sentence, or what refuses it."""
    told = sentence(form, line)
    return answer(told) if isinstance(told, reading().Sentence) else told


def key(form, line):
    """The key of a line, or what refuses it."""
    return of_sentence(form, line, lambda told: reading().key_of(told, len(line) * 4096))


def accepted(wanted):
    """The numbers of the lines that are not refused."""
    return [at for at, told in enumerate(wanted, 1) if isinstance(told, bytes)]


def refused(wanted):
    """The lines that are refused: number, and what refuses them."""
    return [(at, *told) for at, told in enumerate(wanted, 1) if isinstance(told, tuple)]


def told_refusals(said):
    """The refusals that are said: line, number and place."""
    return [tuple(map(int, found.groups())) for found in re.finditer(rb"(?m)^-:(\d+): (\d+) at (\d+): ", said)]


def of_all(wanted):
    """How many notes are refused, of how many."""
    return f"{len(refused(wanted)):,} of {counted(len(wanted), 'note')} refused"


def compared_keys():
    """The keys, and what refuses a note."""
    asked = lines_asked()
    for form in FORMS:
        name, wanted = f"keys of {form} notes", [key(form, line) for line in asked]
        out, err, status = whole(["keys", form, "-"], b"\n".join(asked))
        rows = table("keys", heading("keys") + out)
        beside(name, [asked[at - 1] for at in accepted(wanted)], rows, [[wanted[at - 1], b"-", b"%d" % at] for at in accepted(wanted)])
        beside(f"{name}, refusals", [asked[at - 1] for at, _, _ in refused(wanted)], told_refusals(err), refused(wanted))
        expect(f"{name}: the end", (err.endswith(b"\n" + said(f"{of_all(wanted)}: they have no key")), status), (True, 1))
        expect(f"{name}, with their heading", run(["keys", "--tsv", form, "-"], b"\n".join(asked)), (heading("keys") + out, err, 1))


def compared_checks():
    """The refusals and their counts."""
    asked = lines_asked()
    for form in FORMS:
        name, wanted = f"check of {form} notes", refused(sentence(form, line) for line in asked)
        lines = [asked[at - 1] for at, _, _ in wanted]
        last = counts([number for _, number, _ in wanted], len(asked))
        out, err, status = run(["check", "--tsv", form, "-"], b"\n".join(asked))
        rows = table("check", out)
        beside(name, lines, [tuple(map(int, row[1:4])) for row in rows], wanted)
        words = [[b"-", meanings()[number][0].encode(), cut(line)] for line, (_, number, _) in zip(lines, wanted)]
        expect(f"{name}: files, words and lines", [[row[0], *row[4:]] for row in rows], words)
        expect(f"{name}: what is said, the status", (err, status), (said(last), 1))
        out, err, status = run(["check", form, "-"], b"\n".join(asked))
        beside(f"{name} as text", lines, told_refusals(out), wanted)
        expect(f"{name} as text: the end", (out.endswith(f"\n\n{last}\n".encode()), err, status), (True, b"", 1))


def drawn_range(rng, form, line):
    """A range for a line: most are in the note, some are not."""
    told = sentence(form, line)
    most = len(told.chars) if isinstance(told, reading().Sentence) else 3
    start, end = sorted(rng.choices(range(most + 1), k=2))
    return rng.choice([(start, end)] * 8 + [(end, start), (start, most + rng.randint(1, 3)), (most + 1, most + 2), (2**64 - 1, 2**64 - 1), (0, 2**64 - 1)])


def copy(form, line, start, end):
    """The withheld copy of a line, or what refuses it; a place that is too far is the farthest."""
    told = of_sentence(form, line, lambda sentence: reading().copy_of(sentence, start, end, len(line) * 4096))
    return (told[0], min(told[1], FARTHEST)) if isinstance(told, tuple) else told


def compared_copies():
    """The withheld copies, with a range for each line."""
    asked = lines_asked()
    rng = random.Random(5)
    for form in FORMS:
        ranges = [drawn_range(rng, form, line) for line in asked]
        file("ranges", with_lf(b"%d %d" % given for given in ranges))
        wanted = [copy(form, line, start, end) for line, (start, end) in zip(asked, ranges)]
        compared_notes(["withhold", "--ranges", "ranges", form], asked, wanted)


def compared_notes(words, asked, wanted):
    """What a verb writes for each line, as a table and as text: the rows."""
    name, data, numbers = " ".join(words), b"\n".join(asked), [b"%d" % at for at, _ in enumerate(asked, 1)]
    out, err, status = run([words[0], "--tsv", *words[1:]], data)
    rows = table(words[0], out)
    beside(name, asked, [told_in(row) for row in rows], wanted)
    expect(f"{name}: files and lines", [row[:2] for row in rows], [[b"-", number] for number in numbers])
    expect(f"{name}: what is said at the end, the status", (err.endswith(said(f"{of_all(wanted)}: {ROWS}")), told_refusals(err), status), (True, [], 1))
    out, text_err, status = run(words, data)
    beside(f"{name} as text", asked, out.split(b"\n")[:-1], [told if isinstance(told, bytes) else b"" for told in wanted])
    beside(f"{name} as text, refusals", [asked[at - 1] for at, _, _ in refused(wanted)], told_refusals(text_err), refused(wanted))
    expect(f"{name} as text: the end", (text_err.endswith(b"\n" + said(f"{of_all(wanted)}: {EMPTY_LINES}")), status), (True, 1))
    if words[0] == "convert":
        expect(f"{name}: what is lost", (told_losses(err), told_losses(text_err)), (losses(rows), losses(rows)))
    return rows


def told_in(row):
    """What a row says of its note: its last cell, or what refuses it."""
    if row[2:4] == [b"", b""]:
        return row[-1]
    return (int(row[2]), int(row[3])) if set(row[4:]) == {b""} else row


def compared_conversions():
    """The written lines of all pairs of forms, and whether they are kept: whether they read back, in a call of their own, to the same note."""
    asked, tables = lines_asked(), {}
    for reader, writer in PAIRS:
        wanted = [of_sentence(reader, line, lambda sentence: line_of(writer, sentence)) for line in asked]
        tables[reader, writer] = compared_notes(["convert", reader, writer], asked, wanted)
    for (reader, writer), rows in tables.items():
        again = table("convert", run(["convert", "--tsv", writer, "partial"], with_lf(row[5] for row in rows))[0])
        wanted = [kept(*each) for each in zip(rows, again, tables[reader, "partial"])]
        beside(f"convert {reader} {writer}: what is kept", asked, [row[4] for row in rows], wanted)


def kept(row, again, note):
    """What the row of a written line is to say of it: the rows of the line read back and of the note in the partial form tell."""
    if row[2]:
        return b""
    return b"yes" if len(row[5]) <= 4096 and again[2] == b"" and again[5] == note[5] else b"no"


def losses(rows):
    """How many notes lost something, how many were written too long, and the first of each."""
    lost = [[int(row[1]) for row in rows if row[4] == b"no" and (len(row[5]) > 4096) == long] for long in (False, True)]
    return [(len(lines), lines[0]) if lines else (0, 0) for lines in lost]


def told_losses(said):
    """The same as it is said."""
    found = [re.search(rb"(?m)^notes\.sh: ([\d,]+) " + words + rb".*; the first is -:(\d+)$", said) for words in (rb"notes? lost", rb"written notes?")]
    return [(int(told[1].replace(b",", b"")), int(told[2])) if told else (0, 0) for told in found]


def lost():
    """What `convert` says of lines that are not kept."""
    long = b"a" + b"/" * 2048 + b"x" + b"|b" * 10
    expect("one note that loses something", run(["convert", "P", "T"], b"a b|c\na|b\n"), (b"c\na b\n", said(f"1 note {LOST}; the first is -:1"), 0))
    expect("two notes that lose something", run(["convert", "P", "T"], b"a|b\na/x-b\na b\n")[1:], (said(f"2 notes {LOST}; the first is -:2"), 0))
    told = said("1 written note is over 4,096 bytes long, and no reader takes it; the first is -:1")
    expect("one long note", run(["convert", "P", "P"], long)[1:], (told, 0))
    told = said("2 written notes are over 4,096 bytes long, and no reader takes them; the first is -:1")
    expect("two long notes", run(["convert", "P", "P"], with_lf([long, long]))[1:], (told, 0))


# Duplicates


def drawn_tags(rng):
    """Up to four slashes, some with a tag."""
    return "".join(rng.choice(["", "", "", "/", "/x", "//y"]) for _ in range(2))


def drawn_partial(rng):
    """A short partial note, now and then with a mark at its end."""
    line = "".join(rng.choice("aあ") + drawn_tags(rng) + rng.choice("-| ") for _ in range(rng.randint(1, 3)))
    return line if rng.random() < 0.1 else line[:-1]


def drawn_tokenized(rng):
    """A short tokenized note, now and then with two spaces."""
    tokens = [rng.choice(["a", "あ", "\\a", "aあ", "a\\あ"]) + drawn_tags(rng) for _ in range(rng.randint(1, 2))]
    return rng.choice([" "] * 12 + ["  "]).join(tokens)


def drawn_raw(rng):
    """A short raw note, now and then an empty line."""
    return rng.choice(["a", "あ", "aa", "aあ", "aあa", "", "a/あ"])


def drawn_files(rng):
    """Three files of lines in the three forms, many of which mean the same note."""
    draws = {"raw": (drawn_raw, 60), "tokenized": (drawn_tokenized, 300), "partial": (drawn_partial, 400)}
    return {form: [draw(rng).encode() for _ in range(number)] for form, (draw, number) in draws.items()}


def groups(files, between):
    """The lines of each group as form and number, in their order."""
    by_key = {}
    for form, lines in files.items():
        for number, line in enumerate(lines, 1):
            told = key(form, line)
            if isinstance(told, bytes):
                by_key.setdefault(told, []).append((form, number))
    return [group for group in by_key.values() if len(group) > 1 and (not between or len({form for form, _ in group}) > 1)]


def duplicates():
    """The groups of drawn files: through files, standard input and pipes, and where all keys have one hash."""
    files = drawn_files(random.Random(6))
    names = [word for form, lines in files.items() for word in (form, file(f"notes of {form}", with_lf(lines)))]
    for options in ([], ["--between"]):
        wanted, text = wanted_groups(files, options)
        tables = {
            "files": run(["duplicates", "--tsv", *options, *names]),
            "standard input": run(["duplicates", *options, *names[:3], "-", *names[4:], "--tsv"], with_lf(files["tokenized"])),
            "pipes": by_shell(f"notes duplicates --tsv {' '.join(options)} R <(cat '{names[1]}') T - P <(cat '{names[5]}')", with_lf(files["tokenized"])),
        }
        for name, (out, err, status) in tables.items():
            expect(f"duplicates {options}, {name}", (by_form(table("duplicates", out)), err[-len(wanted[1]):], status), wanted)
        shown = re.findall(rb"(?m)^notes of \w+:\d+: \d+ at \d+: ", tables["files"][1])
        expect(f"duplicates {options}: ten refusals are shown", len(shown), 10)
        expect(f"duplicates {options} as text", run(["duplicates", *options, *names]), (text, tables["files"][1], 1))
        one_hash = program("wrong/compare", ["duplicates", "--tsv", *options, *names], env={**os.environ, "SPOIL": "hash"})
        expect(f"duplicates {options} where all keys have one hash", one_hash, tables["files"])
        one_hash = program("wrong/compare", ["duplicates", *options, *names], env={**os.environ, "SPOIL": "hash"})
        expect(f"duplicates {options} as text where all keys have one hash", one_hash, (text, tables["files"][1], 1))


def wanted_groups(files, options):
    """What is to be found in files: the rows with the last lines that are said and the status, and the text."""
    found, notes = groups(files, bool(options)), sum(map(len, files.values()))
    refused = sum(isinstance(key(form, line), tuple) for form, lines in files.items() for line in lines)
    count_answers(notes)
    place = "in more than one file" if options else "more than once"
    told = said(f"{refused} of {notes} notes refused: they are not compared; the first 10 are above, 'bash notes.sh check' lists them all",
                f"{len(found)} notes stand {place}, on {sum(map(len, found))} lines: {notes - refused} notes compared")
    rows = [[b"%d" % at, form.encode(), b"%d" % number, form.encode(), files[form][number - 1]] for at, group in enumerate(found, 1) for form, number in group]
    text = b"\n".join(b"".join(b"notes of %s:%d: %s\n" % (form.encode(), number, files[form][number - 1]) for form, number in group) for group in found)
    return (rows, told, 1), text


def by_form(rows):
    """Rows of duplicates with the form in the place of the file's name."""
    return [[row[0], row[3], *row[2:]] for row in rows]


def few_duplicates():
    """What is said where there are none, one, and none that were asked for."""
    file("a", b"x\nx\n")
    file("b", b"y\n")
    expect("no notes", run(["duplicates", "raw", "-"]), (b"", said("no note stands more than once: 0 notes compared"), 0))
    expect("one note", run(["duplicates", "raw", "b"]), (b"", said("no note stands more than once: 1 note compared"), 0))
    expect("a duplicate", run(["duplicates", "raw", "a", "b"]), (b"a:1: x\na:2: x\n", said("1 note stands more than once, on 2 lines: 3 notes compared"), 1))
    none = said("no note stands in more than one file: 3 notes compared")
    expect("a duplicate in one file", run(["duplicates", "--between", "raw", "a", "b"]), (b"", none, 0))
    out, err, status = run(["duplicates", "--tsv", "raw", "b"])
    expect("a table of none", (table("duplicates", out), status), ([], 0))
    told = said("1 of 2 notes refused: they are not compared", "no note stands more than once: 1 note compared")
    expect("a refused note alone", run(["duplicates", "T", "-"], b"a\n \n"), (b"", f"{refusal('-:2', 5, 0)}\n     \n    ^\n".encode() + told, 1))
    expect("a note that cannot be seen", run(["duplicates", "raw", "-"], b"\r\t\n\r\t\n")[0], b"-:1: <U+000D><U+0009>\n-:2: <U+000D><U+0009>\n")
    names = [file(f"{number:03}", b"%d\nz\n" % (number // 2)) for number in range(150)]
    out, err, status = run(["duplicates", "raw", *names])
    pairs = [f"{2 * at:03}:1: {at}\n{2 * at + 1:03}:1: {at}\n" for at in range(75)]
    pairs.insert(1, "".join(f"{name}:2: z\n" for name in names))
    expect("many files", (out.decode(), err, status), ("\n".join(pairs), said("76 notes stand more than once, on 300 lines: 300 notes compared"), 1))


def one_file():
    """A file that is named twice is refused by `duplicates`, and read twice by the others."""
    os.makedirs(path("inner"), exist_ok=True)
    file("same", b"x\n")
    for link, make in (("soft", os.symlink), ("hard", os.link)):
        make(path("same"), path(link))
    rest = "each of its notes would be its own duplicate"
    expect("a file twice", run(["duplicates", "raw", "same", "same"]), (b"", said(f"same is named twice: {rest}"), 2))
    expect("a file twice in two forms", run(["duplicates", "--between", "raw", "same", "T", "same"]), (b"", said(f"same is named twice: {rest}"), 2))
    for other in ("./same", "inner/../same", "soft", "hard"):
        expect(f"a file, and {other}", run(["duplicates", "raw", "same", "/dev/null", other]), (b"", said(f"same and {other} are one file: {rest}"), 2))
    expect("a file, and the same as input", by_shell("notes duplicates raw same - <same"), (b"", said(f"same and - are one file: {rest}"), 2))
    expect("standard input twice", run(["duplicates", "raw", "-", "-"]), (b"", said(f"- is named twice: {rest}"), 2))
    expect("a file twice for keys", run(["keys", "raw", "same", "./same"]), (b"x\tsame\t1\nx\t./same\t1\n", b"", 0))


def changed():
    """A file that is changed behind its first reading, while `duplicates` waits for a pipe."""
    for name, new, told in [
        ("another note", b"z\ny\n", "a:1 was changed while it was read: run it again"),
        ("no note", b"\0\ny\n", "a:1 was changed while it was read: run it again"),
        ("nothing", b"", "a:1 was changed while it was read: run it again"),
        ("no file", None, f"a {GONE}"),
    ]:
        expect(f"a file that is changed to {name}", changed_to(new, SCRIPT, {}), (b"", said(told), 2))
    wrong = [os.path.join(PROGRAMS, "wrong", "compare")]
    expect("where all keys have one hash, a change is not noticed", changed_to(b"z\ny\n", wrong, {"SPOIL": "hash"})[2], 0)


def changed_to(new, command, environment):
    """A run of `duplicates` on a file that is changed before the second one is written."""
    file("a", b"x\ny\n")
    pipe = path("pipe")
    os.mkfifo(pipe)
    process = start(["duplicates", "raw", "a", "pipe"], command, env={**os.environ, **environment})
    writes = opened_pipe(pipe)
    if new is None:
        os.remove(path("a"))
    else:
        file("a", new)
    os.write(writes, b"x\n")
    os.close(writes)
    os.remove(pipe)
    return outcome(process)


def opened_pipe(name):
    """A named pipe, opened to write as soon as someone reads it."""
    end = time.monotonic() + LIMIT
    while True:
        try:
            writes = os.open(name, os.O_WRONLY | os.O_NONBLOCK)
            os.set_blocking(writes, True)
            return writes
        except OSError:
            if time.monotonic() > end:
                raise
            time.sleep(0.01)


# Files and streams


def as_told(outcome):
    """An outcome of `keys`, with the refusals in the place of what is said, and its last line."""
    out, err, status = outcome
    return out, told_refusals(err), err.split(b"\n")[-2:-1], status


def wanted_of(lines):
    """The same as it should be, for such lines as LINES has."""
    wanted = [told for _, told in lines]
    out = b"".join(b"%s\t-\t%d\n" % (wanted[at - 1], at) for at in accepted(wanted))
    last = [said(f"{of_all(wanted)}: they have no key").strip()] if refused(wanted) else []
    return out, refused(wanted), last, len(last)


def arrivals():
    """Where lines begin and end, and input that comes in pieces."""
    keys = CALLS["keys"]
    expect("the lines", as_told(run(keys, ASKED)), wanted_of(LINES))
    expect("the lines from a file", as_told(whole(keys, ASKED)), wanted_of(LINES))
    expect("the last line without LF", as_told(whole(keys, ASKED[:-1])), wanted_of(LINES))
    expect("one line without LF", run(keys, b"a/-b"), (b"a-b\t-\t1\n", b"", 0))
    expect("an LF alone", as_told(run(keys, b"\n")), wanted_of([(b"", (3, 0))]))
    expect("an empty line between others", as_told(run(keys, b"a\n\nb\n")), wanted_of([(b"a", b"a"), (b"", (3, 0)), (b"b", b"b")]))
    expect("a line that never ends, and more", as_told(run(keys, b"a" * 5000000 + b"\n" + ASKED)), wanted_of([(b"", (1, 4096)), *LINES]))
    expect("a line that never ends", as_told(run(keys, b"a" * 5000000)), wanted_of([(b"", (1, 4096))]))
    out, _, _ = run(["check", "--tsv", "raw", "-"], with_lf(b"a" * n for n in LENGTHS))
    expect("long lines", [row[1:3] for row in table("check", out)], [[b"%d" % at, b"1"] for at, n in enumerate(LENGTHS, 1) if n > 4096])
    expect("many lines", as_told(whole(keys, ASKED * MANY)), wanted_of(LINES * MANY))
    process = start(keys, stdin=subprocess.PIPE, bufsize=0)
    for i in range(0, len(ASKED), 7):
        give(process, ASKED[i:i + 7])
        time.sleep(0.002)
    expect("input in pieces", as_told(outcome(without_more(process))), wanted_of(LINES))
    reads, writes = os.pipe()
    os.set_blocking(reads, False)
    process = start(keys, stdin=reads)
    os.close(reads)
    process.stdin = os.fdopen(writes, "wb", buffering=0)
    time.sleep(0.4)
    give(process, ASKED)
    expect("an input that does not wait", as_told(outcome(without_more(process))), wanted_of(LINES))


def no_input():
    """Each verb where there is nothing to do."""
    for verb, call in CALLS.items():
        printed = b"-: 0 lines, 0 alike (0 accepted, 0 refused), 0 different (unexplained: 0)\n" if verb == "compare" else b""
        told = said("no note stands more than once: 0 notes compared") if verb == "duplicates" else b""
        expect(f"{verb}: no input", run(call), (printed, told, 0))
        out, err, status = run([verb, "--tsv", *call[1:]])
        expect(f"{verb} --tsv: no input", (table(verb, out), err, status), ([], said(printed.decode().strip()) if printed else told, 0))
    expect("withhold with ranges: no input", run(["withhold", "--ranges", "/dev/null", "raw"]), (b"", b"", 0))


def at_once():
    """Each answer is printed before more input is waited for."""
    steps = {
        "check": (b"ab\n", [refusal("-:1", 9, 1), "    ab", "     ^"], b"|\n|-\n", [refusal("-:3", 10, 2)]),
        "compare": (b"\xff\n", ["-:1: D1", "  line  '<byte FF>'"], b"a\n", []),
        "convert": (b"a-b\n", ["ab"], b"a|b\n", ["a b"]),
        "keys": (b"a/-b\n", ["a-b\t-\t1"], b"b\n", ["b\t-\t2"]),
        "withhold": (b"a/x|b\n", ["a b"], b"a|b|c\n", ["a b|c"]),
    }
    for verb, (first, wanted, second, more) in steps.items():
        process = start(CALLS[verb], stdin=subprocess.PIPE, bufsize=0)
        for data, lines in ((first, wanted), (second, more)):
            give(process, data)
            got = [next_line(process.stdout) for _ in lines[:1]]
            got += [next_line(process.stdout) for _ in lines[1:] if got[0]]
            expect(f"{verb} answers at once", got, [line.encode() + b"\n" for line in lines])
        expect(f"{verb} ends behind its input", outcome(without_more(process))[2], 1 if verb == "check" else 0)
    process = start(CALLS["duplicates"], stdin=subprocess.PIPE, bufsize=0)
    give(process, b"ab\n")
    expect("duplicates refuses at once", next_line(process.stderr), refusal("-:1", 9, 1).encode() + b"\n")
    expect("duplicates ends behind its input", outcome(without_more(process))[2], 1)


def line_ends():
    """CR and LF, and the byte order mark."""
    keys = ["keys", "T", "-"]
    hint = said(f"standard input: {CR}")
    expect("CR and LF", run(keys, b"a/x\r\nb\r\n"), (b"a/x\\r\t-\t1\nb-\\r\t-\t2\n", hint, 0))
    expect("CR and LF, and a last line without LF", run(keys, b"a/x\r\nb")[1:], (hint, 0))
    expect("CR and LF, and a last line with CR alone", run(keys, b"a/x\r\nb\r")[1:], (hint, 0))
    expect("one line of CR and LF, and one of LF", run(keys, b"a/x\r\na/x\n"), (b"a/x\\r\t-\t1\na/x\t-\t2\n", b"", 0))
    expect("a CR without LF", run(keys, b"a\r"), (b"a-\\r\t-\t1\n", b"", 0))
    expect("a CR inside a line", run(keys, b"a\rb\n"), (b"a-\\r-b\t-\t1\n", b"", 0))
    long = {file(f"{n} {end.hex()}", b"a" * (n - 1) + end + b"\nb\r\n"): end for n, end in product(LENGTHS, (b"\r", b"a"))}
    _, err, _ = run(["keys", "T", *long])
    expect("long lines that end in CR", [name for name in long if said(f"{name}: {CR}") in err], [name for name, end in long.items() if end == b"\r"])
    file("crs", b"a\r\n")
    file("none", b"a\n")
    for verb, call in (("check", ["check", "raw"]), ("duplicates", ["duplicates", "raw"]), ("keys", ["keys", "raw"]), ("compare", ["compare", "raw"])):
        err = run([*call, "none", "crs"])[1]
        expect(f"{verb}: a file with CR, and one without", err.count(said(f"crs: {CR}")) + err.count(b"CR"), 2)
    expect("convert: a file with CR", run(["convert", "raw", "partial", "crs"]), (b"a \r\n", said(f"crs: {CR}"), 0))
    expect("withhold: a file with CR", run(["withhold", "raw", "0", "0", "crs"]), (b"a \r\n", said(f"crs: {CR}"), 0))
    mark = "\ufeff".encode()
    expect("a byte order mark", run(keys, mark + b"a\n"), (mark + b"-a\t-\t1\n", said(f"standard input: {MARK}"), 0))
    expect("a byte order mark in the second line", run(keys, b"b\n" + mark + b"a\n")[1:], (b"", 0))
    expect("NUL", run(["check", "raw", "-"], b"a\0b\n")[0].split(b"\n")[:3], [refusal("-:1", 4, 1).encode(), b"    a<U+0000>b", b"     ^"])
    # What the two hints advise.
    for data, told, name in ((b"a\r\nb\r\n", CR, "crs"), (mark + b"a\nb\n", MARK, "mark")):
        file(name, data)
        advice = told.split(": ")[-1].removesuffix("FILE")
        expect(f"the advice {advice}", by_shell(f"{advice} {name} | notes keys raw -"), (b"a\t-\t1\nb\t-\t2\n", b"", 0))


def inputs_that_fail():
    """Input that cannot be read."""
    opened = os.open("/", os.O_RDONLY)
    expect("a folder as input", outcome(start(CALLS["keys"], stdin=opened)), (b"", said(f"standard input {FOLDER}"), 2))
    os.close(opened)
    for verb, call in CALLS.items():
        expect(f"{verb}: a closed input", by_shell(f"notes {' '.join(call)} <&-"), (b"", said("standard input is closed"), 2))
    file("a", b"x\n")
    os.makedirs(path("inner"), exist_ok=True)
    expect("a file, and a closed input", by_shell("notes keys raw a <&-"), (b"x\ta\t1\n", b"", 0))
    expect("a file, and a closed output for errors", by_shell("notes keys T a - 2>&-", b"/\n"), (b"x\ta\t1\n", b"", 1))
    for words in (["keys", "raw"], ["check", "raw"], ["duplicates", "raw"], ["compare", "raw"], ["convert", "raw", "T"], ["withhold", "raw", "0", "1"]):
        verb = words[0]
        expect(f"{verb}: a file that is not there", run([*words, "no such"]), (b"", said(f"no such {GONE}"), 2))
        expect(f"{verb} --tsv: a file that is not there", run([*words, "--tsv", "no such"]), (b"", said(f"no such {GONE}"), 2))
        expect(f"{verb}: a folder", run([*words, "inner"]), (b"", said(f"inner {FOLDER}"), 2))
        if verb in ("keys", "check", "duplicates", "compare"):
            expect(f"{verb}: one file that is not there", run([*words, "a", "gone"]), (b"", said(f"gone {GONE}"), 2))
            wrong = said(f"gone {GONE}", f"inner {FOLDER}", "a/b cannot be read: Not a directory (os error 20)", f"lost {GONE}")
            expect(f"{verb}: four that cannot be read", run([*words, "gone", "a", "inner", "a/b", "T", "lost"]), (b"", wrong, 2))
    broken = said("/proc/self/mem cannot be read: Input/output error (os error 5)")
    expect("a file that breaks off", run(["keys", "raw", "a", "/proc/self/mem"]), (b"x\ta\t1\n", broken, 2))
    if os.getuid() != 0:
        os.chmod(path(file("secret", b"x\n")), 0)
        expect("a file without permission", run(["keys", "raw", "secret"]), (b"", said("secret cannot be read: Permission denied (os error 13)"), 2))


def outputs_that_fail():
    """Output that cannot be written."""
    with open("/dev/full", "wb") as full:
        for verb, call in CALLS.items():
            file("notes", b"a|b\na|b\nab\n\xff\n")
            named = [word if word != "-" else "notes" for word in call] + ([] if "-" in call else ["notes"])
            for words in (named, [verb, "--tsv", *named[1:]]):
                _, err, status = outcome(start(words, stdout=full))
                expect(f"{words}: a full device", (err[-len(FULL):], verb == "duplicates" or err == FULL, status), (FULL, True, 2))
        expect("check: a full device, and nothing to print", outcome(start(["check", "raw", "/dev/null"], stdout=full)), (None, b"", 0))
        out, err, status = outcome(start(["--help"], stdout=full))
        expect("--help: a full device", (err.endswith(said("standard output cannot be written")), status), (True, 2))
    for verb, call in CALLS.items():
        expect(f"{verb}: a closed output", by_shell(f"notes {' '.join(call)} >&-"), (b"", said("standard output is closed"), 2))
    for verb, line in {**dict.fromkeys(CALLS, b"a/x|b\n"), "check": b"ab\n", "compare": b"\xff\n"}.items():
        with tempfile.TemporaryFile() as opened:
            opened.write(line * 20000)
            opened.seek(0)
            process = start(CALLS[verb], stdin=opened)
        process.stdout.read(40)
        process.stdout.close()
        expect(f"{verb}: a reader that stops early", (process.stderr.read(), process.wait(LIMIT)), (BROKEN, 2))
    reads, writes = os.pipe()
    os.set_blocking(writes, False)
    process = start(["keys", "P", file("notes", b"a/x|b\n" * 20000)], stdout=writes)
    os.close(writes)
    time.sleep(0.4)
    with os.fdopen(reads, "rb") as pipe:
        out = pipe.read()
    rows = b"".join(b"a/x|b/\tnotes\t%d\n" % at for at in range(1, 20001))
    expect("an output that does not wait", (out == rows, process.stderr.read(), process.wait(LIMIT)), (True, b"", 0))


def from_outside():
    """A script that is called by a link does its work, or ends as in trouble; and a program that is ended before its end."""
    os.symlink(SCRIPT[1], path("link"))
    got, direct = run(CALLS["keys"], b"a\n", ["bash", path("link")]), run(CALLS["keys"], b"a\n")
    expect("notes.sh by a link", direct if got[2] == 2 else got, direct)
    process = start(CALLS["keys"], stdin=subprocess.PIPE, bufsize=0)
    give(process, b"a\n")
    next_line(process.stdout)
    with open(f"/proc/{process.pid}/task/{process.pid}/children", encoding="ascii") as children:
        os.kill(int(children.read().split()[0]), signal.SIGKILL)
    out, err, status = outcome(process)
    expect("a program that is ended", (out, err.endswith(said("the program ended with status 137 before its end")), status), (b"", True, 2))


def names():
    """Files with odd names, as they are given, printed and said."""
    for name, given, row, told in [
        (b"two words", None, b"two words", "two words"),
        (b"a\tb", None, b"a\\tb", "a<U+0009>b"),
        (b"a\nb", None, b"a\\nb", "a<U+000A>b"),
        (b"a\\b", None, b"a\\\\b", "a\\b"),
        (b"a\xff", None, b"a\xff", "a<byte FF>"),
        ("猫".encode(), None, "猫".encode(), "猫"),
        (b"-x", [b"./-x"], b"./-x", "./-x"),
        (b"-x", [b"--", b"-x"], b"-x", "-x"),
        (b"--tsv", [b"--", b"--tsv"], b"--tsv", "--tsv"),
        (b"-h", [b"--", b"-h"], b"-h", "-h"),
        (b"raw", [b"./raw"], b"./raw", "./raw"),
        (b"P", [b"./P"], b"./P", "./P"),
    ]:
        file(name, b"a\n/\n")
        given = given or [name]
        refused = f"{refusal(f'{told}:2', 7, 0)}\n    /\n    ^\n".encode()
        expect(f"keys: the name {name}", run(["keys", "T", *given]), (b"a\t%s\t1\n" % row, refused + said("1 of 2 notes refused: they have no key"), 1))
        expect(f"check: the name {name}", run(["check", "T", *given])[0], refused + f"\n{counts([7], 2)}\n".encode())
    for name in (b"a\tb\nc", b"a\\b\r", b"a\xff"):
        file(name, b"\xff\n")
        for verb, words in (("check", ["T"]), ("convert", ["T", "P"]), ("withhold", ["T", "0", "1"]), ("compare", ["T"])):
            rows = table(verb, run([verb, "--tsv", *words, name])[0])
            expect(f"{verb} --tsv: the name {name}", [row[:2] for row in rows], [[name, b"1"]])
        file(name, b"a\na\n")
        visible = seen(name.decode(errors="replace")).replace("\ufffd", "<byte FF>")
        expect(f"duplicates: the name {name}", run(["duplicates", "T", name])[0], f"{visible}:1: a\n{visible}:2: a\n".encode())
        rows = table("duplicates", run(["duplicates", "--tsv", "T", name])[0])
        expect(f"duplicates --tsv: the name {name}", rows, [[b"1", name, b"%d" % at, b"tokenized", b"a"] for at in (1, 2)])
    expect("odd names that are not there", run(["keys", "raw", b"\xff\t", "no\nfile"])[1], said(f"<byte FF><U+0009> {GONE}", f"no<U+000A>file {GONE}"))
    expect("standard input behind --", run(["keys", "--", "raw", "-"], b"a\n"), (b"a\t-\t1\n", b"", 0))
    expect("two files, two forms and options between", run(["keys", "T", "--tsv", file("a", b"a b\n"), "P", file("b", b"a|b\n"), "-"], b"c\n"),
           (b"key\tfile\tline\na|b\ta\t1\na|b\tb\t1\nc\t-\t1\n", b"", 0))


def with_ranges(data, *words):
    """A run of `withhold` on two notes with a file of ranges."""
    return run(["withhold", *words, "--ranges", file("ranges", data), "P"], b"a/x|b\na|b/y\n")


def ranges():
    """The files that --ranges names."""
    out = b"a b\na b\n"
    for name, data in [
        ("blanks", b"0 1\n1 2\n"),
        ("tabs", b"0\t1\n1\t2\n"),
        ("no last LF", b"0 1\n1 2"),
        ("CR", b"0 1\r\n1 2\r\n"),
        ("a CR", b"0 1\n1 2\r\n"),
        ("zeros in front", b"00 01\n1 002\n"),
    ]:
        expect(f"ranges with {name}", with_ranges(data), (out, b"", 0))
    expect("fewer ranges", with_ranges(b"0 1\n"), (b"a b\n", said("ranges ends before - does: it has no range for line 2"), 2))
    expect("no ranges", with_ranges(b""), (b"", said("ranges ends before - does: it has no range for line 1"), 2))
    more = said("ranges has more lines than -, which has 2: are they of one file?")
    expect("more ranges", with_ranges(b"0 1\n1 2\n0 0\n"), (out, more, 2))
    expect("an empty line more", with_ranges(b"0 1\n1 2\n\n"), (out, more, 2))
    rest = "is no range: write two numbers, the start and the end, with a blank between them"
    for bad in ("", "0", "0 1 2", "0  1", " 0 1", "0 1 ", "0,1", "-1 1", "+0 1", "a b", "0 1x", f"0 {2**64}", "0\u00a01", "０ １"):
        expect(f"the range '{bad}'", with_ranges(f"0 1\n{bad}\n".encode()), (b"a b\n", said(f"ranges:2: '{seen(bad)}' {rest}"), 2))
    expect("a range that is not UTF-8", with_ranges(b"\xff 1\n"), (b"", said(f"ranges:1: '<byte FF> 1' {rest}"), 2))
    out, err, status = with_ranges(b"0 1\nx\n", "--tsv")
    expect("a range that is none, and a table", (table("withhold", out), err, status), ([[b"-", b"1", b"", b"", b"a b"]], said(f"ranges:2: 'x' {rest}"), 2))
    out, err, status = with_ranges("\ufeff0 1\n1 2\n".encode())
    expect("ranges with a byte order mark, which is of no note", (out, b" note" in err, status), (b"", False, 2))
    told = f"{refusal('-:1', 14, 2)}\n    a/x|b\n{refusal('-:2', 14, 0)}\n    a|b/y\n".encode()
    expect("ranges that are not in the note", with_ranges(b"2 1\n0 3\n"), (b"\n\n", told + said(f"2 of 2 notes refused: {EMPTY_LINES}"), 1))
    file("notes", b"a/x|b\na|b/y\n")
    expect("ranges from standard input", run(["withhold", "P", "--ranges", "-", "notes"], b"0 1\n1 2\n"), (b"a b\na b\n", b"", 0))
    expect("ranges from a pipe", by_shell("notes withhold --ranges <(printf '0 1\\n1 2\\n') P <notes"), (b"a b\na b\n", b"", 0))
    expect("one range for all", run(["withhold", "P", "1", "2", "notes"]), (b"a/x b/\na b\n", b"", 0))
    expect("a range of none", run(["withhold", "P", "1", "1", "notes"]), (b"a/x|b/\na/|b/y\n", b"", 0))
    out, err, status = run(["withhold", "--ranges", "gone", "P", "notes"])
    expect("ranges that are not there", (out, err.startswith(b"notes.sh: gone is not there: name a file of ranges"), status), (b"", True, 2))


# Terminals


def at_a_terminal(words, **more):
    """A run that says what it says to a terminal: the run, and the terminal."""
    terminal, inner = pty.openpty()
    process = start(words, stderr=inner, bufsize=0, **more)
    os.close(inner)
    return process, terminal


def said_at(terminal):
    """All that was said at a terminal."""
    told = b""
    while True:
        try:
            more = os.read(terminal, 65536)
        except OSError:
            more = b""
        if not more:
            os.close(terminal)
            return told.decode()
        told += more


def screen(told):
    """The lines that stand on a terminal behind what was said."""
    lines, at = [{}], 0
    for c in told:
        if c == "\n":
            lines.append({})
        elif c == "\r":
            at = 0
        else:
            for column in range(at, at + columns(c)):
                lines[-1][column] = c
            at += columns(c)
    return ["".join(line.get(column, " ") for column in range(max(line, default=-1) + 1)).rstrip() for line in lines]


def progress():
    """A word on progress, which comes at a terminal, behind two seconds, and is taken away again."""
    slow, doubled = (at_a_terminal(CALLS[verb], stdin=subprocess.PIPE) for verb in ("keys", "duplicates"))
    piped = start(CALLS["keys"], stdin=subprocess.PIPE, bufsize=0)
    wide, long = (at_a_terminal(["keys", "raw", file(name, b"a\n" * 60000)]) for name in ("猫の", "long " * 25))
    paired = at_a_terminal(["duplicates", "raw", file("pairs", b"".join(b"%d\n%d\n" % (at, at) for at in range(10000)))])
    began = time.monotonic()
    quick = at_a_terminal(["keys", "raw", file("few", b"a\n" * 5)])
    got = (*outcome(quick[0])[1:], said_at(quick[1]))
    # On a machine that others keep busy a run takes long to begin.
    took = time.monotonic() - began
    if took < 2:
        expect("within two seconds", got, (None, 0, ""))
    feeds = [slow[0], doubled[0], piped]
    for data, pause in ((b"a\n", 3 + 5 * took), (b"a\n", 0.2), (b"ab\n", 0)):
        for process in feeds:
            give(process, data)
        time.sleep(pause)
    for process in feeds:
        without_more(process)
    refused = [refusal("-:3", 9, 1), "    ab", "     ^"]
    keys = [*refused, "notes.sh: 1 of 3 notes refused: they have no key", ""]
    groups = [*refused, "notes.sh: 1 of 3 notes refused: they are not compared", "notes.sh: 1 note stands more than once, on 2 lines: 2 notes compared", ""]
    pairs = ["notes.sh: 10,000 notes stand more than once, on 20,000 lines: 20,000 notes compared", ""]
    expect("no progress on a pipe", outcome(piped)[1].decode(errors="replace").split("\n"), keys)
    for name, (process, terminal), lines, status, stands, word in (
        ("standard input", slow, 2, 1, keys, r"standard input: [12] lines?"),
        ("duplicates of standard input", doubled, 2, 1, groups, r"standard input: [12] lines?"),
        ("a wide name", wide, 60000, 0, [""], r"猫の: \d?\d,\d\d\d lines, \d?\d %"),
        ("a long name", long, 60000, 0, [""], r"[long …]*: \d?\d,\d\d\d lines, \d?\d %"),
        ("groups", paired, 29999, 1, pairs, r"[\d,]+ groups found"),
    ):
        out, _, ended = outcome(process)
        told = said_at(terminal)
        words = [word for word in re.split("[\r\n]+", told) if word.strip() and word not in stands]
        expect(f"progress on {name}: lines that are printed, the status, what stands there in the end", (out.count(b"\n"), ended, screen(told)),
               (lines, status, stands))
        expect(f"progress on {name}", (bool(words), [said for said in words if not re.fullmatch(r"notes\.sh: " + word + " *", said)]), (True, []))
        expect(f"progress on {name}: one that is wider than a terminal", [said for said in words if columns(said) > 79], [])


# The old reader beside the new one


def comparison():
    """`compare` on the samples, and with a port that is made wrong."""
    with open(os.path.join(SAMPLES, "notes.report"), "rb") as opened:
        report = opened.read()
    expect("compare: the report on the sample", run(["compare", "T", "notes.txt"], cwd=SAMPLES), (report, b"", 0))
    out, err, status = run(["compare", "--tsv", "T", "notes.txt"], cwd=SAMPLES)
    rows = table("compare", out)
    explained = sorted({(int(row[1]), row[2].decode()) for row in rows})
    told = [(int(line), item) for line, item in re.findall(r"(?m)^notes\.txt:(\d+): (\w+)$", report.decode())]
    expect("compare: the table on the sample", (explained, err, status), (told, said(report.decode().strip().split("\n")[-1]), 0))
    for wrong, part in SPOILED:
        out, _, status = program("wrong/compare", ["compare", "--tsv", "T", "notes.txt"], cwd=SAMPLES, env={**os.environ, "SPOIL": wrong})
        expect(f"compare: a port that is wrong in '{wrong}'", (f"\tunexplained\t{part}\t".encode() in out, status), (True, 1))
    out, _, status = program("wrong/compare", ["compare", "T", "notes.txt"], cwd=SAMPLES, env={**os.environ, "SPOIL": "reader: text"})
    expect("compare: a port that is wrong, as text", (b"\nnotes.txt:2: unexplained\n" in out, status), (True, 1))
    expect("compare: the program of the wrong port, where it is right", program("wrong/compare", ["compare", "T", "notes.txt"], cwd=SAMPLES), (report, b"", 0))
    file("a", b"a\n\xff\n")
    file("b", b"b|\n")
    out, err, status = run(["compare", "T", "a", "P", "b"])
    summary = ["a: 2 lines, 1 alike (1 accepted, 0 refused), 1 different (D1: 1, unexplained: 0)",
               "b: 1 line, 1 alike (0 accepted, 1 refused), 0 different (unexplained: 0)",
               "in all: 3 lines, 2 alike (1 accepted, 1 refused), 1 different (D1: 1, unexplained: 0)", ""]
    expect("compare: two files, two forms", (out.decode().split("\n")[-4:], err, status), (summary, b"", 0))
    out, err, status = run(["compare", "T", "-"], b"a" * 5000000)
    expect("compare: a line that never ends", (out.split(b"\n")[-2], err, status),
           (b"-: 1 line, 0 alike (0 accepted, 0 refused), 1 different (D2: 1, unexplained: 0)", b"", 0))
    for given, told, to in BOTH:
        with open(to, "wb") as opened:
            _, err, status = program("both", given.split(), stdout=opened, cwd=SAMPLES)
        expect(f"both {given}", (err.startswith(f"both: {told}".encode()), status), (True, 2))


def statuses():
    """How each verb ends where nothing is found, and where something is."""
    good, bad = b"a|b\n", b"ab\n"
    for verb, call in CALLS.items():
        expect(f"{verb}: its status for a good note", run(call, good)[2], 0)
        expect(f"{verb}: its status for a refused note", run(call, bad)[2], 0 if verb == "compare" else 1)
        for data in (good, bad):
            out, _, status = run([verb, "--tsv", *call[1:]], data)
            table(verb, out)
            expect(f"{verb}: its status with --tsv", status, run(call, data)[2])
    expect("duplicates: its status where there is one", run(CALLS["duplicates"], good + good)[2], 1)


PARTS = [pages, words, refusals, long_lines, lost, few_duplicates, duplicates, one_file, changed, no_input, arrivals, at_once, line_ends, inputs_that_fail,
         outputs_that_fail, from_outside, names, ranges, progress, comparison, statuses, compared_keys, compared_checks, compared_copies, compared_conversions]


def needs():
    """Sees to it that notes.sh and the programs that go with it can be run."""
    can_run("keys", "compare")
    for name in ("both", "wrong/compare"):
        if not os.access(os.path.join(PROGRAMS, name), os.X_OK):
            raise OSError(f"this is missing: {os.path.join(PROGRAMS, name)} (host/link.sh builds it)")


main(__doc__, needs, PARTS, "notes.sh", "answers")
