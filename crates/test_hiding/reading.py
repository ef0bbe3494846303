"""The note key and the withheld copy once more, in Python, written from the text of document 02, requests [2] and [3], and of document 01 alone.

The readers are those of crates/test_cases/reference.py, which was written from document 01 alone.
A range is start up to end, end not in it. Positions and columns count from 0.
"""
import sys
from dataclasses import replace
from pathlib import Path

sys.path.insert(0, str(Path(__file__).resolve().parent.parent / "test_cases"))
from reference import NONE, UNKNOWN, WORD, Refused, Sentence, read  # noqa: E402

SIGNS = {NONE: "-", WORD: "|", UNKNOWN: " ", None: ""}  # the last character has no boundary behind it
ESCAPED = {ord(c): "\\" + c for c in " -/\\|"}


def read_line(line, form="P"):
    """The sentence of a line, or its refusal as number and place; a partial line if no other form is named."""
    try:
        return read(form, line)
    except Refused as refusal:
        return refusal.number, refusal.place


def written(sentence):
    """The partial line of a sentence: its last character and those before a word boundary write all columns."""
    line = ""
    for char, row, mark in zip(sentence.chars, sentence.rows, [*sentence.marks, None]):
        line += char
        for tag in row:
            line += "/" + tag.translate(ESCAPED)
        if mark in (WORD, None):
            line += "/" * (sentence.columns - len(row))
        line += SIGNS[mark]
    return line.encode()


def present_tags(sentence):
    """The present tags, each with its character and its column."""
    return [(char, column, tag) for char, row in enumerate(sentence.rows) for column, tag in enumerate(row) if tag != ""]


def columns_of(tags):
    """How many columns there are up to the last that holds one of these tags: none where there is no tag."""
    return max((column + 1 for _, column, _ in tags), default=0)


def fitted(line, room):
    """A line that is to be written, or its refusal: 12 at the length needed."""
    return line if len(line) <= room else (12, len(line))


def note(sentence):
    """What a key tells: the text, the boundaries, the present tags with their characters and columns."""
    return "".join(sentence.chars), tuple(sentence.marks), tuple(present_tags(sentence))


def key_of(sentence, room):
    """The bytes of the note key, or its refusal: the partial line with no column behind the last that holds a present tag anywhere."""
    return fitted(written(replace(sentence, columns=columns_of(present_tags(sentence)))), room)


def in_range(char, start, end):
    """Whether a character is one of the range."""
    return start <= char < end


def touches(boundary, start, end):
    """Whether a boundary has a character of the range on either side."""
    return in_range(boundary, start, end) or in_range(boundary + 1, start, end)


def shown_tags(sentence, start, end):
    """The present tags outside the range."""
    return [(char, column, tag) for char, column, tag in present_tags(sentence) if not in_range(char, start, end)]


def outside(sentence, start, end):
    """What a copy may show: the text, the boundaries that do not touch the range, the present tags outside it with their columns."""
    marks = [(i, mark) for i, mark in enumerate(sentence.marks) if not touches(i, start, end)]
    return "".join(sentence.chars), tuple(marks), tuple(shown_tags(sentence, start, end))


def withheld(sentence, start, end):
    """The sentence with what the range hides taken out, and no column behind the last present tag that is left."""
    marks = [UNKNOWN if touches(i, start, end) else mark for i, mark in enumerate(sentence.marks)]
    shown = shown_tags(sentence, start, end)
    rows = [[] for _ in sentence.chars]
    for char, column, tag in shown:
        rows[char] += [""] * (column - len(rows[char])) + [tag]
    return Sentence(sentence.chars, marks, rows, columns_of(shown))


def copy_of(sentence, start, end, room):
    """The bytes of the copy, or its refusal: 14 at the start of a range that is none, then 12 at the length needed."""
    if start > end or end > len(sentence.chars):
        return 14, start
    return fitted(written(withheld(sentence, start, end)), room)


def answer(line, start, end, room):
    """What is answered for the sheet read from a partial line: the bytes of the copy, or a refusal; a refused line has the reader's."""
    sentence = read_line(line)
    return copy_of(sentence, start, end, room) if isinstance(sentence, Sentence) else sentence
