#!/usr/bin/env python3
"""Compares the port's withheld copies and keys with a second reading of what is asked of them, crates/test_hiding/reading.py.

Usage: withheld.py PROGRAM...
PROGRAM is the command that runs host/withhold.c. Questions: worked ones, every range of every short line, lines drawn from a fixed seed,
lines around the limits, and starts and ends up to 2^64 - 1; the keys of such lines in all three forms; with the room that the copy or the
key needs, with a byte less, with none and with more, and on a sheet that is none. Then the port's keys among each other: equal exactly where text,
boundaries and present tags with their columns are. Prints how many were compared and the first difference.
Status 0: there is none; 1: there is one; 2: bad usage, or something that could not be run.
"""
import random
import subprocess
import sys
from collections import namedtuple
from functools import cache
from itertools import product
from pathlib import Path

sys.path.insert(0, str(Path(__file__).resolve().parent.parent / "crates/test_hiding"))

# What is asked of the program. The form is a letter; a key has no range; `more` is how many characters too many the sheet is said to have.
Question = namedtuple("Question", "call form line start end room more")
FORMS = "RTP"
# A partial line, a range, and the copy or the refusal.
WORKED_COPIES = [
    ("a|b", 1, 1, "a|b"),
    ("a|b", 2, 2, "a|b"),
    ("a|b|c|d", 1, 2, "a b c|d"),
    ("a/|b//x|c/", 1, 2, "a b c"),
    ("a-b/x|c", 0, 1, "a b/x|c/"),
    ("a/x|b", 1, 2, "a/x b/"),
    ("a|b", 1, 9, (14, 1)),
    ("a|b", 2, 1, (14, 2)),
]
# A form, a line and its key.
WORKED_KEYS = [
    ("P", "a/-b", "a-b"),
    ("P", "a/|b/", "a|b"),
    ("P", "a/x-b|c", "a/x-b/|c/"),
    ("P", "a//x/|b", "a//x|b//"),
    ("T", "a b", "a|b"),
    ("T", "a/ b/", "a|b"),
    ("T", "a/- b", "a/\\-|b/"),
    ("R", "a/b", "a / b"),
]
SIGNS = "-| "
ROWS = ["", "/", "/x", "//y"]
LETTERS = "火星猫は社長だまぁABC012-|/\\ "
FAR = [0, 1, 2, 3, 4, 2**32 - 2, 2**32 - 1, 2**32, 2**32 + 1, 2**32 + 2, 2**63, 2**63 + 1, 2**64 - 1]
# The farthest place that the host's number holds, and the longest output that the program lends.
FARTHEST = 2**32 - 1
ROOM = 1 << 22


def short_lines():
    """Every line of up to three characters over a few rows of tags."""
    for n in (1, 2, 3):
        for signs, rows in product(product(SIGNS, repeat=n - 1), product(ROWS, repeat=n)):
            yield "".join(c + row + sign for c, row, sign in zip("aあ-", rows, (*signs, ""))).encode()


def drawn_line(rng):
    """A line of some characters with up to three columns, now and then damaged."""
    parts = []
    for _ in range(rng.randint(1, 30)):
        tags = "".join("/" + rng.choice(["", "名詞", "x", "\\-y"]) for _ in range(max(0, rng.randint(-4, 3))))
        parts += [rng.choice(LETTERS) + tags, rng.choice(SIGNS)]
    line = "".join(parts[:-1]).encode()
    if rng.random() < 0.1:
        at = rng.randrange(len(line))
        line = line[:at] + rng.choice([b"", b"\0", b"/", b"|", b"\\", b"\xe3", b"\xff"]) + line[at + 1:]
    return line


def limit_lines():
    """Lines around the limit of 4,096 bytes, and lines with many columns."""
    for n in (4095, 4096, 4097):
        yield b"a/" + b"x" * (n - 2)
        yield (b"a|" * n)[: n - 1 + n % 2]
    for n in (40, 400):
        yield b"a" + b"/" * n + b"x" + b"|b" * n


def longest_keys():
    """Lines of 4,096 bytes whose keys are the longest that there are, each with its form."""
    yield "P", b"a" + b"/" * 2048 + b"x" + b"|b" * 1023
    yield "T", b"a" + b"/" * 2048 + b"-" + b" b" * 1023


def ranges(rng, most, count):
    """Some ranges of up to so many characters."""
    return [sorted(rng.choices(range(most + 1), k=2)) for _ in range(count)]


def copies(answer):
    """The questions on withheld copies."""
    rng = random.Random(3)

    def rooms(line, start, end):
        copy = answer(Question("copy", "P", line, start, end, ROOM, 0))
        needed = len(copy) if isinstance(copy, bytes) else 0
        return [(line, start, end, room, 0) for room in {needed, max(needed - 1, 0), 0}]

    for line, start, end, _ in WORKED_COPIES:
        yield from rooms(line.encode(), start, end)
    for line in short_lines():
        for start, end in product(range(5), repeat=2):
            yield from rooms(line, start, end)
    for _ in range(1500):
        line = drawn_line(rng)
        for start, end in [*ranges(rng, 12, 2), *ranges(rng, 32, 2)]:
            yield from rooms(line, start, end)
            yield line, start, end, rng.randrange(8192), 0
            yield line, end, start, rng.randrange(8192), rng.randint(0, 1)
    for line in limit_lines():
        for start, end in [(0, 0), (0, 1), (1, 3), *ranges(rng, 1000, 2)]:
            yield from rooms(line, start, end)
    for start, end, more in product(FAR, FAR, (0, 1)):
        yield "a/x|b-あ//y".encode(), start, end, 64, more


def key_lines(rng):
    """The lines whose keys are asked for, each with its form."""
    for form, line, _ in WORKED_KEYS:
        yield form, line.encode()
    yield from product(FORMS, short_lines())
    yield from product(FORMS, [drawn_line(rng) for _ in range(500)])
    yield from product(FORMS, limit_lines())
    yield from longest_keys()


def keys(answer):
    """The questions on keys: exact room, a byte less, none and more, and a sheet that is none."""
    rng = random.Random(2)
    for form, line in key_lines(rng):
        key = answer(Question("key", form, line, 0, 0, ROOM, 0))
        needed = len(key) if isinstance(key, bytes) else 0
        for room in {needed, max(needed - 1, 0), 0, needed + rng.randrange(1, 4096)}:
            yield form, line, room, 0
        yield form, line, rng.choice([0, needed]), 1


def wanted(told, more):
    """What the program should print where the second reading tells this."""
    if more and (isinstance(told, bytes) or told[0] in (12, 14)):
        told = 13, 0
    if isinstance(told, bytes):
        return f"{len(told)} {told.hex()}"
    return f"!{told[0]} {min(told[1], FARTHEST)}"


def words_of(question):
    """A question in words."""
    said = " on a sheet that is said to have a character more" if question.more else ""
    range_ = f", {question.start} up to {question.end} withheld" if question.call == "copy" else ""
    return f"the {question.call} of {question.form} {question.line[:200]!r}{range_}, with room for {question.room} bytes{said}"


def fault_in_worked(answer):
    """What the second reading says of a worked question that is not right, or nothing."""
    worked = [(Question("copy", "P", line.encode(), start, end, ROOM, 0), copy) for line, start, end, copy in WORKED_COPIES]
    worked += [(Question("key", form, line.encode(), 0, 0, ROOM, 0), key) for form, line, key in WORKED_KEYS]
    for question, right in worked:
        told = answer(question)
        if told != (right.encode() if isinstance(right, str) else right):
            return f"{words_of(question)}:\nthe second reading says {told!r}, where {right!r} is right"
    return None


def fault_in_pairs(asked, printed, content_of):
    """Two questions whose keys are equal where the notes differ, or the other way round, or nothing; and how many notes there are."""
    keys_seen, contents_seen = {}, {}
    for question, told in zip(asked, printed):
        if question.call != "key" or told.startswith("!"):
            continue
        content = content_of(question)
        other = keys_seen.setdefault(told, question)
        if content_of(other) != content:
            return f"{words_of(other)}, and\n{words_of(question)}:\nthe keys are the same, and the notes are not", 0
        other, key = contents_seen.setdefault(content, (question, told))
        if key != told:
            return f"{words_of(other)}, and\n{words_of(question)}:\nthe notes are the same, and the keys are not", 0
    return None, len(contents_seen)


def asked_and_printed(asked):
    """What the program prints for each question."""
    text = "".join(
        f"{q.call} {FORMS.index(q.form)} {q.line.hex() or '.'} {q.start} {q.end} {q.room} {q.more}\n" for q in asked
    )
    return subprocess.run(sys.argv[1:], input=text, capture_output=True, check=True, text=True).stdout.splitlines()


def compare():
    """Asks and compares: the first fault in words, or nothing, and what was compared."""
    from reading import Sentence, copy_of, key_of, outside, read_line
    read = cache(read_line)

    def answer(question):
        sentence = read(question.line, question.form)
        if not isinstance(sentence, Sentence):
            return sentence
        if question.call == "key":
            return key_of(sentence, question.room)
        return copy_of(sentence, question.start, question.end, question.room)

    fault = fault_in_worked(answer)
    if fault:
        return fault, ""
    asked = [Question("copy", "P", *rest) for rest in copies(answer)]
    asked += [Question("key", form, line, 0, 0, room, more) for form, line, room, more in keys(answer)]
    printed = asked_and_printed(asked)
    if len(printed) != len(asked):
        return f"the program answers {len(printed)} questions of {len(asked)}", ""
    for question, told in zip(asked, printed):
        right = wanted(answer(question), question.more)
        if told != right:
            return f"{words_of(question)}:\nthe port answers {told[:400]}, the second reading {right[:400]}", ""
    content = cache(lambda line, form: outside(read(line, form), 0, 0))
    fault, notes = fault_in_pairs(asked, printed, lambda q: content(q.line, q.form))
    count = sum(q.call == "key" for q in asked)
    return fault, f"{len(asked)} questions compared, {count} of them on keys; the keys of {notes} notes differ from each other"


def main():
    if sys.argv[1:] == ["--help"]:
        print(__doc__.strip())
        return 0
    if len(sys.argv) < 2:
        print(__doc__.strip(), file=sys.stderr)
        return 2
    fault, said = compare()
    print(fault or said)
    return 1 if fault else 0


try:
    sys.exit(main())
except (ImportError, OSError, subprocess.CalledProcessError) as error:
    print(f"withheld.py: {error}", file=sys.stderr)
    if isinstance(error, subprocess.CalledProcessError) and error.stderr:
        print(error.stderr, file=sys.stderr)
    sys.exit(2)
