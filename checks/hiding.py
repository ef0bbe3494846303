#!/usr/bin/env python3
"""Asks the built program `test_hiding` for note keys and withheld copies and compares each answer with crates/test_hiding/reading.py.

    python3 checks/hiding.py [PROGRAM]

PROGRAM is crates/test_hiding/out/test_hiding where none is named, which `rt ci` leaves there, and `rt run` in crates/test_hiding too.
Copies are asked of all ranges of: every accepted partial line of up to six characters over a small alphabet; every sentence of up to six text
characters with every mark and few tags; the recorded partial lines of up to six text characters; and of drawn ranges of drawn lines.
Keys are asked of: every accepted partial or tokenized line of up to six characters over that alphabet, and raw line of up to four; those
sentences; the recorded lines of all forms of up to six text characters; and drawn lines beside others of the same note, with unused columns and in
the other forms, and beside one of another note.
The program's own answers are compared with each other: the copies of each range, and all keys that have room enough, of whatever text and form. A copy
may show the text, the boundaries that do not touch the range and the present tags outside it; a key the text, the boundaries and the present tags with
their columns. Where these are equal, the answers are equal, also with little room; where they differ, the written lines differ.
Status 0 where all agree, 1 at the first that does not, with the question in words, 2 where the program does not run. The last line counts what was compared.
"""
import os
import platform
import subprocess
import sys
import tempfile
from collections import defaultdict
from itertools import product
from random import Random

sys.dont_write_bytecode = True
ROOT = os.path.join(os.path.dirname(os.path.abspath(__file__)), "..")
sys.path.insert(0, os.path.join(ROOT, "crates", "test_hiding"))
from expected import bytes_of, every, shown  # noqa: E402
from questions import copies, copy, drawn, drawn_range, key, partial  # noqa: E402
from reading import Sentence, copy_of, key_of, note, outside, read_line, touches, written  # noqa: E402
from reference import MARKS, write  # noqa: E402

ALPHABET = "ax/|- \\"
TEXT = "aあ|c/\U0001f600"
ROOM, LARGE_ROOM = 64, 16384
counted = defaultdict(int)


def fail(*words):
    """Ends with what is wrong."""
    print(*words, sep="\n    ")
    sys.exit(1)


def command():
    """The program, where it can be run."""
    program = os.path.abspath(sys.argv[1] if len(sys.argv) > 1 else os.path.join(ROOT, "crates", "test_hiding", "out", "test_hiding"))
    if not os.path.exists(program):
        print(f"{program} is not there; `rt run` in crates/test_hiding proves and builds it")
        sys.exit(2)
    if platform.machine() != "x86_64":
        print(f"{program} is for x86-64 alone, and this is {platform.machine()}")
        sys.exit(2)
    return [program]


def asked(questions):
    """For each question the list of its answers."""
    with tempfile.TemporaryFile("w+") as given:
        given.write("".join(question + "\n" for question in questions))
        given.seek(0)
        run = subprocess.run(PROGRAM, stdin=given, capture_output=True, text=True)
    lines = run.stdout.splitlines()
    if run.returncode != 0 or run.stderr or len(lines) != len(questions):
        print(f"the program ends with status {run.returncode} and {len(lines)} lines for {len(questions)}: {run.stderr}")
        sys.exit(2)
    for question, line in zip(questions, lines):
        if not line.startswith(question + " "):
            fail("a line does not begin with its question:", question, line)
        yield line[len(question) + 1:].split(" ")


def in_words(answer):
    """An answer that was printed, to be read by a person."""
    if answer.startswith("="):
        digits, changed = answer[1:].rstrip("+"), "+" * answer.endswith("+")
        return f"{bytes.fromhex(digits)!r}{changed}"
    return answer


def in_question(case, span):
    """What was asked of a line, to be read by a person: its key, or the copy of a range."""
    form, line, _ = case
    return f"line {form} {line!r}, " + ("key" if span is None else "range {}..{}".format(*span))


def compare(case, spans, room, expected, got):
    """The answers for ranges of a line, or for its key, against the reading."""
    if expected == got:
        return
    for span, ours, theirs in zip(spans, expected, got):
        if ours != theirs:
            fail("the program and the reading differ:", f"{in_question(case, span)}, room {room}", f"expected {in_words(ours)}", f"got {in_words(theirs)}")
    fail("not an answer for each range:", f"{in_question(case, spans[0])}, {len(got)} answers, {len(spans)} ranges")


def pairs(number):
    """How many pairs so many have."""
    return number * (number - 1) // 2


class Groups:
    """The program's answers, by the range and by what they may show."""

    def __init__(self, name):
        self.name, self.by_shown, self.by_line = name, {}, {}

    def add(self, case, span, shows, answer):
        """One more answer: where the same is shown it is this one, and where this line is written the same is shown."""
        group = self.by_shown.setdefault((span, shows), [answer, case, 0])
        group[2] += 1
        before, first, _ = group
        if before != answer:
            fail("the same is to be shown, and the answers differ:", in_question(first, span), in_words(before), in_question(case, span), in_words(answer))
        before, first = self.by_line.setdefault((span, answer), (shows, case))
        if before != shows and answer.startswith("="):
            fail("not the same is to be shown, and the line is one:", in_question(first, span), in_question(case, span), in_words(answer))

    def count(self):
        """Adds up the groups, the pairs of one group, and the pairs of one range whose lines are written and differ."""
        lines = defaultdict(list)
        for (span, _), (answer, _, number) in self.by_shown.items():
            counted[self.name, "equal"] += pairs(number)
            if answer.startswith("="):
                lines[span].append(number)
        counted[self.name, "groups"] += len(self.by_shown)
        counted[self.name, "unequal"] += sum(pairs(sum(numbers)) - sum(map(pairs, numbers)) for numbers in lines.values())


def accepted(form, lines):
    """The lines that are read, each with its form and its sentence."""
    return [(form, line, sentence) for line in lines if isinstance(sentence := read_line(line, form), Sentence)]


def all_ranges(cases, room):
    """The copies of every range of each partial line, from 0 to one past the characters."""
    groups = Groups("copies")
    for case, answers in zip(cases, asked([copies(line, room) for _, line, _ in cases])):
        sentence = case[2]
        n = len(sentence.chars)
        spans = list(product(range(n + 2), repeat=2))
        compare(case, spans, room, [shown(answer) for answer in every(sentence, room)], answers)
        for span, got in zip(spans, answers):
            if span[0] <= span[1] <= n:
                groups.add(case, span, outside(sentence, *span), got)
        counted["copies"] += len(spans)
    counted["lines"] += len(cases)
    groups.count()


def enough(sentence):
    """A room for the written line, which is no shorter than the key."""
    return ROOM if len(written(sentence)) <= ROOM else LARGE_ROOM


def all_keys(cases, groups, room=None):
    """The key of each line, with room enough where none is named."""
    rooms = [enough(sentence) if room is None else room for _, _, sentence in cases]
    questions = [key(line, room, form) for (form, line, _), room in zip(cases, rooms)]
    for case, room, got in zip(cases, rooms, asked(questions)):
        compare(case, [None], room, [shown(key_of(case[2], room))], got)
        groups.add(case, None, note(case[2]), got[0])
    counted[groups.name] += len(cases)


def small_lines(most):
    """Every line of up to so many characters of the alphabet."""
    return ("".join(line).encode() for n in range(1, most + 1) for line in product(ALPHABET, repeat=n))


def small_sentences(sizes):
    """Every sentence of these numbers of characters, with every mark and few tags, as partial lines."""
    for n in sizes:
        rows = [[], ["x"], ["", "x"]] if n <= 4 else [[], ["x"]]
        for marks in product(MARKS, repeat=n - 1):
            for tags in product(rows, repeat=n):
                yield partial(TEXT[:n], marks, tags).encode()


def recorded(form):
    """The lines of a form in the recorded questions, where their texts have up to six characters."""
    with open(os.path.join(ROOT, "crates", "test_cases", "stdin")) as file:
        lines = {bytes_of(fields[1]) for fields in map(str.split, file) if fields[0] in (form, form.lower()) and fields[1] != "."}
    return [case for case in accepted(form, sorted(lines)) if len(case[2].chars) <= 6]


def changed(random, line, start, end, inside):
    """A drawn line like this one, with other marks and tags inside the range or outside it, and with unused columns."""
    s = read_line(line)
    signs = {mark: sign for sign, mark in MARKS.items()}
    marks = [random.choice(" -|") if touches(i, start, end) == inside else signs[mark] for i, mark in enumerate(s.marks)]
    rows = [[random.choice(["", "x", "y"]) for _ in range(random.randint(0, 6))] if (start <= i < end) == inside else s.rows[i] + [""] * random.randint(0, 2)
            for i in range(len(s.chars))]
    return partial(s.chars, marks, rows).encode()


def drawn_ranges(random, number):
    """Drawn ranges of drawn lines, each line beside one that differs inside the range and one that differs outside it."""
    cases = []
    for _ in range(number):
        line, n = drawn(random, random.choice([8, 60, 200]))
        start, end = drawn_range(random, n)
        room = random.choice([LARGE_ROOM, LARGE_ROOM, random.randint(0, 4 * n)])
        lines = [line.encode()] + [changed(random, line.encode(), start, end, inside) for inside in (True, True, False)]
        cases += [(line, (start, end), room) for line in lines if len(line) <= 4096]
    groups = defaultdict(lambda: Groups("copies"))
    questions = [copy(line, *span, room) for line, span, room in cases]
    for (line, span, room), got in zip(cases, asked(questions)):
        sentence = read_line(line)
        compare(("P", line, sentence), [span], room, [shown(copy_of(sentence, *span, room))], got)
        if span[0] <= span[1] <= len(sentence.chars):
            groups[room].add(("P", line, sentence), span, outside(sentence, *span), got[0])
    for group in groups.values():
        group.count()
    counted["lines"] += len(cases)
    counted["copies"] += len(cases)


def spellings(random, line):
    """Lines beside a drawn one: with unused columns, with other tags at one character, in the other forms; each as the partial form has it, too."""
    for _, _, sentence in accepted("P", [line]):
        at = random.randrange(len(sentence.chars))
        cases = accepted("P", [line, changed(random, line, 0, 0, True), changed(random, line, at, at + 1, True)])
        cases += accepted("T", [write("T", sentence, LARGE_ROOM)]) + accepted("R", ["".join(sentence.chars).encode()])
        yield from cases
        yield from accepted("P", [written(sentence) for _, _, sentence in cases])


def drawn_notes(random, number):
    """Drawn lines with those beside them."""
    lines = [drawn(random, random.choice([8, 60, 200]))[0].encode() for _ in range(number)]
    return [case for line in lines for case in spellings(random, line)]


PROGRAM = command()
lines, sentences, notes = accepted("P", small_lines(6)), accepted("P", small_sentences(range(1, 7))), drawn_notes(Random(20), 300)
all_ranges(lines, ROOM)
all_ranges(sentences, ROOM)
all_ranges(accepted("P", small_sentences(range(1, 5))), 9)
all_ranges(recorded("P"), ROOM)
drawn_ranges(Random(30), 600)
keys = Groups("keys")
all_keys(lines + accepted("T", small_lines(6)) + accepted("R", small_lines(4)), keys)
all_keys(sentences + recorded("P") + recorded("T") + recorded("R") + notes, keys)
keys.count()
for room, cases in ((3, lines), (9, notes), (200, notes)):
    all_keys(cases, Groups("little room"), room)
print("{} lines, {} copies: {} groups of equal outside with {} pairs of equal answers, {} pairs of unequal lines;".format(
    *(counted[name] for name in ("lines", "copies", ("copies", "groups"), ("copies", "equal"), ("copies", "unequal")))),
    "{} keys: {} notes with {} pairs of equal keys, {} pairs of unequal ones; {} keys with little room".format(
    *(counted[name] for name in ("keys", ("keys", "groups"), ("keys", "equal"), ("keys", "unequal"), "little room"))))
