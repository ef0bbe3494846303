"""Makes `stdout` of `test_damaged` from its `stdin`; with --check tells whether it is what stands there.

    python3 crates/test_damaged/expected.py            writes crates/test_damaged/stdout
    python3 crates/test_damaged/expected.py --check    status 1 where it differs

Where the answers come from: document 01, read once more and by itself, its sections 'Characters and types', 'The sheet', 'Writing and tokens' and
'Refusals by number', and request [11] of document 02 for the cells. Nothing is taken from what the program printed. A sheet is told by laying a
sentence out: the sentence that the buffers spell, if they spell one, must lay out to those very buffers and to that record. Python's codec says what is
UTF-8.

A case is five fields: a sheet by its number, what is changed of it, then the call and its two numbers. A line that starts with # is no case.
A change is a letter, an index and a value, joined by commas; changes are joined by semicolons, and - changes nothing.
The letters: t text, y types, m boundaries, c char positions, p byte positions, s cell starts, l cell lengths, g tag bytes: the element at the index is
the value. N, B, C, E, G: that number of the record is the value, C the columns and E the cells. L: of the buffer with the index only so many elements
are lent.
The calls: c and s character to byte and back, b boundary, t cell, u surface, m boundary set, r tags reset, p boundaries by so many of the scores -1, 1, 0, 0.
Behind the answer of m, r and p stand boundaries, cell starts and cell lengths after the call, as they are lent, eight elements of each at the most.
"""
import sys
from pathlib import Path

HERE = Path(__file__).resolve().parent
MOST, MOST_TAG_BYTES = 4096, 65535
LETTERS = "tymcpslg"  # the buffers, in document 01's order
RECORD = "NBCEG"
SHOWN = 8

# Document 01: first, last, type; all else is 6.
TYPES = [
    ("30-39 FF10-FF19", 1),
    ("41-5A 61-7A FF21-FF3A FF41-FF5A", 2),
    ("3040-3096", 3),
    ("30A0-30FA 30FC-30FF FF66-FF9F", 4),
    ("3400-4DBF 4E00-9FFF F900-FAFF 20000-2A6DF 2A700-2B73F 2B740-2B81F 2B820-2CEAF 2F800-2FA1F", 5),
]


def type_of(char):
    """A character's type."""
    for ranges, kind in TYPES:
        for bounds in ranges.split():
            first, last = (int(bound, 16) for bound in bounds.split("-"))
            if first <= ord(char) <= last:
                return kind
    return 6


class Refused(Exception):
    """A refusal: its number and its place."""


def demand(held, number, place):
    """Refuses where what is demanded does not hold."""
    if not held:
        raise Refused(number, place)


class Sentence:
    """A text, its boundaries, for each character its row of tags (an absent one is empty), and the columns."""

    def __init__(self, text, marks, rows, columns):
        self.text, self.marks, self.rows, self.columns = text, marks, rows, columns

    def laid_out(self):
        """The record and the eight buffers, as far as they are needed."""
        starts, numbers = [], []
        for i, char in enumerate(self.text):
            starts.append(len(numbers))
            numbers += [i] + [0] * (len(char.encode()) - 1)
        text, cell_starts, cell_lengths, tag_bytes = self.text.encode(), [], [], b""
        for row in self.rows:
            for column in range(self.columns):
                cell = row[column].encode() if column < len(row) else b""
                cell_starts.append(len(tag_bytes))
                cell_lengths.append(len(cell))
                tag_bytes += cell
        record = {"N": len(self.text), "B": len(text), "C": self.columns, "E": len(cell_starts), "G": len(tag_bytes)}
        kinds = [type_of(char) for char in self.text]
        buffers = [list(text), kinds, self.marks, starts + [len(text)], numbers + [len(self.text)], cell_starts, cell_lengths, list(tag_bytes)]
        return record, buffers

    def is_one(self):
        """What document 01 asks of a sentence, within the limits."""
        record, _ = self.laid_out()
        return (
            record["N"] >= 1
            and len(self.marks) == record["N"] - 1
            and all(mark in (0, 1, 2) for mark in self.marks)
            and len(self.rows) == record["N"]
            and "\0" not in self.text + "".join(tag for row in self.rows for tag in row)
            and all(len(row) <= self.columns and (not row or row[-1] != "") for row in self.rows)
            and record["B"] <= MOST
            and self.columns <= MOST
            and record["G"] <= MOST_TAG_BYTES
        )


def pieces(values, lengths):
    """The pieces of a list with these lengths, one behind the other; lengths that are not all of it make none."""
    if sum(lengths) != len(values):
        raise ValueError
    at, found = 0, []
    for length in lengths:
        found.append(values[at : at + length])
        at += length
    return found


def rows_of(tags, n, columns):
    """The rows of a padded table: each through its last present tag."""
    rows = [tags[i * columns : (i + 1) * columns] for i in range(n)]
    return [row[: max((j + 1 for j, tag in enumerate(row) if tag != ""), default=0)] for row in rows]


def spelt(record, buffers):
    """The sentence that a record and buffers are, or None."""
    n, b, columns, cells, g = (record[name] for name in RECORD)
    rooms = [b, n, n - 1, n + 1, b + 1, cells, cells, g]
    if n < 1 or cells != n * columns or any(len(buffer) < room for buffer, room in zip(buffers, rooms)):
        return None
    needed = [buffer[:room] for buffer, room in zip(buffers, rooms)]
    text, _, marks, _, _, _, cell_lengths, tag_bytes = needed
    try:
        tags = [bytes(tag).decode() for tag in pieces(tag_bytes, cell_lengths)]
        found = Sentence(bytes(text).decode(), marks, rows_of(tags, n, columns), columns)
    except ValueError:  # no UTF-8, or lengths that are none
        return None
    return found if found.is_one() and found.laid_out() == (record, needed) else None


def answer(record, buffers, call, x, y):
    """What a call answers, in the words that are printed; a change is made in the buffers."""
    s = spelt(record, buffers)
    demand(s, 13, 0)
    n, b = record["N"], record["B"]
    starts = [len(s.text[:i].encode()) for i in range(n + 1)]
    if call == "c":
        demand(x <= n, 14, x)
        return [starts[x]]
    if call == "s":
        demand(x <= b and x in starts, 14, x)
        return [starts.index(x)]
    if call == "b":
        demand(x < n - 1, 14, x)
        return [s.marks[x]]
    if call == "t":
        demand(x < n and y < s.columns, 14, x)
        cell = s.rows[x][y] if y < len(s.rows[x]) else ""
        before = "".join(tag for row in s.rows[:x] for tag in row) + "".join(s.rows[x][:y])
        return [len(before.encode()), len((before + cell).encode())] if cell else ["absent"]
    if call == "u":
        demand(x < y <= n, 14, x)
        return [starts[x], starts[y]]
    if call == "m":
        demand(x < n - 1 and y <= 2, 14, x)
        after = Sentence(s.text, s.marks[:x] + [y] + s.marks[x + 1 :], s.rows, s.columns)
    elif call == "r":
        demand(x <= MOST, 14, x)
        demand(n * x <= min(len(buffers[5]), len(buffers[6])), 11, 0)
        after = Sentence(s.text, s.marks, [[] for _ in s.text], x)
    elif call == "p":
        scores = [-1, 1, 0, 0][:x]
        demand(len(scores) == n - 1, 14, len(scores))
        after = Sentence(s.text, [int(score > 0) for score in scores], [[] for _ in s.text], 0)
    told, laid = after.laid_out()
    for buffer, part in zip(buffers, laid):
        buffer[: len(part)] = part
    return told.values()


def sheet(number):
    """A sheet by its number: record and buffers, with the room that is lent."""
    if number == 0:  # `a` with the tag x, then あ with an absent tag and é, then `b` with none; a boundary of either kind
        return Sentence("aあb", [0, 1], [["x"], ["", "é"], []], 2).laid_out()
    if number == 1:  # the tokenized line `a//x b/y`: starts 0 0 1 2, lengths 0 1 1 0
        record, buffers = Sentence("ab", [1], [["", "x"], ["y"]], 2).laid_out()
        assert buffers[5:7] == [[0, 0, 1, 2], [0, 1, 1, 0]]
        return record, buffers
    text, room, spare, byte = [("ab", 3, 7, ord("z")), ("a" * 17, 17 * MOST, 0, 0)][number - 2]  # no columns, and room for cells
    record, buffers = Sentence(text, [0] * (len(text) - 1), [[] for _ in text], 0).laid_out()
    return record, [*buffers[:5], [spare] * room, [spare] * room, [byte]]


def listed(values, joint):
    """The first elements of a buffer."""
    return joint.join(map(str, values[:SHOWN])) or "."


def case(line):
    """A case with its answer."""
    number, changes, call, x, y = line.split(" ")
    record, buffers = sheet(int(number))
    for change in changes.split(";") if changes != "-" else []:
        letter, index, value = change.split(",")
        index, value = int(index), int(value)
        if letter in LETTERS:
            buffers[LETTERS.index(letter)][index] = value
        elif letter in RECORD:
            record[letter] = value
        elif letter == "L":
            buffers[index] = buffers[index][:value]
    try:
        told = " ".join(str(word) for word in answer(record, buffers, call, int(x), int(y)))
    except Refused as refusal:
        told = "!{} {}".format(*refusal.args)
    left = f" {listed(buffers[2], '')} {listed(buffers[5], ',')} {listed(buffers[6], ',')}" if call in "mrp" else ""
    return f"{line} = {told}{left}"


def main():
    lines = (HERE / "stdin").read_text().splitlines()
    made = "".join((line if line.startswith("#") else case(line)) + "\n" for line in lines)
    if sys.argv[1:] != ["--check"]:
        (HERE / "stdout").write_text(made)
    elif (HERE / "stdout").read_text() != made:
        stands = (HERE / "stdout").read_text().splitlines()
        for ours, theirs in zip(made.splitlines(), stands):
            if ours != theirs:
                print(f"document 01: {ours}\n     stdout: {theirs}")
        sys.exit("crates/test_damaged/stdout is not what expected.py makes of stdin")
    print(f"{sum(not line.startswith('#') for line in lines)} cases")


if __name__ == "__main__":
    main()
