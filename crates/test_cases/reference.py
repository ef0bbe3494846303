"""Document 01 once more, in Python, written from its text alone, and request [11] of document 02: reading, writing, tokens, the sheet, refusals."""
from dataclasses import dataclass

NONE, WORD, UNKNOWN = 0, 1, 2
MARKS = {" ": UNKNOWN, "-": NONE, "|": WORD}

# Types: first, last, type; all else is 6.
RANGES = [
    (0x30, 0x39, 1), (0xFF10, 0xFF19, 1),
    (0x41, 0x5A, 2), (0x61, 0x7A, 2), (0xFF21, 0xFF3A, 2), (0xFF41, 0xFF5A, 2),
    (0x3040, 0x3096, 3),
    (0x30A0, 0x30FA, 4), (0x30FC, 0x30FF, 4), (0xFF66, 0xFF9F, 4),
    (0x3400, 0x4DBF, 5), (0x4E00, 0x9FFF, 5), (0xF900, 0xFAFF, 5), (0x20000, 0x2A6DF, 5), (0x2A700, 0x2B73F, 5),
    (0x2B740, 0x2B81F, 5), (0x2B820, 0x2CEAF, 5), (0x2F800, 0x2FA1F, 5),
]


class Refused(Exception):
    """A refusal by number, with its place."""

    def __init__(self, number, place):
        super().__init__(number, place)
        self.number, self.place = number, place


@dataclass
class Sentence:
    """Characters, the boundaries between them, a list of tags for each character (absent is empty), and the columns."""
    chars: list
    marks: list
    rows: list
    columns: int

    def cells(self, i):
        """All columns of a character."""
        return self.rows[i] + [""] * (self.columns - len(self.rows[i]))


def type_of(value):
    return next((kind for first, last, kind in RANGES if first <= value <= last), 6)


def size(text):
    return len("".join(text).encode())


# Reading


def read(form, line):
    """The sentence of a line, or its refusal."""
    if len(line) > 4096:
        raise Refused(1, 4096)
    try:
        text = line.decode()
    except UnicodeDecodeError as error:
        raise Refused(2, error.start) from None
    return {"R": read_raw, "T": read_tokenized, "P": read_partial}[form](text)


def placed(text):
    """Each character with the byte where it stands."""
    at = 0
    for c in text:
        yield at, c
        at += size(c)


def sentence(chars, marks, tags):
    """Of the tags read for each character, empty ones counted: a row is cut behind its last present tag."""
    rows = []
    for row in tags:
        row = list(row)
        while row and row[-1] == "":
            row.pop()
        rows.append(row)
    return Sentence(chars, marks, rows, max(len(row) for row in tags))


def read_raw(text):
    for at, c in placed(text):
        if c == "\0":
            raise Refused(4, at)
    if not text:
        raise Refused(3, 0)
    return sentence(list(text), [UNKNOWN] * (len(text) - 1), [[] for _ in text])


def read_tokenized(text):
    chars, marks, tags = [], [], []
    escaped = after_space = in_tag = False
    for at, c in placed(text):
        if c == "\0":
            raise Refused(4, at)
        if c == "\\" and not escaped:
            escaped = True
            continue
        plain, escaped = not escaped, False
        if plain and c == " ":
            if not chars:
                raise Refused(5, at)
            if after_space:
                raise Refused(6, at)
            after_space, in_tag = True, False
        elif plain and c == "/":
            if not chars or after_space:
                raise Refused(7, at)
            tags[-1].append("")
            in_tag = True
        elif in_tag:
            tags[-1][-1] += c
        else:
            if chars:
                marks.append(WORD if after_space else NONE)
            chars.append(c)
            tags.append([])
            after_space = False
    if not chars:
        raise Refused(3, size(text))
    if after_space:
        raise Refused(8, size(text))
    return sentence(chars, marks, tags)


def read_partial(text):
    chars, marks, tags = [], [], []
    wants_character, escaped, in_tag = True, False, False
    for at, c in placed(text):
        if c == "\0":
            raise Refused(4, at)
        if wants_character:
            chars.append(c)
            tags.append([])
            wants_character, in_tag = False, False
            continue
        if c == "\\" and not escaped:
            escaped = True
            continue
        plain, escaped = not escaped, False
        if plain and c in MARKS:
            marks.append(MARKS[c])
            wants_character = True
        elif plain and c == "/":
            tags[-1].append("")
            in_tag = True
        elif in_tag:
            tags[-1][-1] += c
        else:
            raise Refused(9, at)
    if not chars:
        raise Refused(3, size(text))
    if wants_character:
        raise Refused(10, size(text))
    return sentence(chars, marks, tags)


# Tokens and writing


def step(s, p):
    """The step of a cursor at p: a token or None, and where the cursor is after it."""
    n = len(s.chars)
    if p >= n:
        return None, p
    start, known = p, True
    for end in range(p + 1, n + 1):
        mark = WORD if end == n else s.marks[end - 1]
        if mark == WORD:
            if known:
                return (start, end), end
            start, known = end, True
        elif mark == UNKNOWN:
            known = False
    return None, n


def tokens(s):
    p = 0
    while True:
        token, p = step(s, p)
        if token is None:
            return
        yield token


def escaped(text, special):
    return "".join("\\" + c if c in special else c for c in text)


def write_tokenized(s):
    special = " \\/"
    return " ".join(
        escaped(s.chars[start:end], special) + "".join("/" + escaped(tag, special) for tag in s.cells(end - 1))
        for start, end in tokens(s))


def write_partial(s):
    written = ""
    for i, c in enumerate(s.chars):
        last = i + 1 == len(s.chars)
        tags = s.cells(i) if last or s.marks[i] == WORD else s.rows[i]
        written += c + "".join("/" + escaped(tag, " -/\\|") for tag in tags)
        if not last:
            written += {mark: c for c, mark in MARKS.items()}[s.marks[i]]
    return written


WRITERS = {"T": write_tokenized, "P": write_partial}


def write(writer, s, room):
    """The written line, or that the output is too short."""
    line = WRITERS[writer](s).encode()
    if len(line) > room:
        raise Refused(12, len(line))
    return line


# Changes


def set_boundary(s, index, value):
    if index >= len(s.marks) or value > 2:
        raise Refused(14, index)
    marks = list(s.marks)
    marks[index] = value
    return Sentence(s.chars, marks, s.rows, s.columns)


def reset_tags(s, count, room):
    """The room is that for cells, as it is lent."""
    if count > 4096:
        raise Refused(14, count)
    if len(s.chars) * count > room:
        raise Refused(11, 0)
    return Sentence(s.chars, s.marks, [[] for _ in s.chars], count)


def predict(s, scores):
    if len(scores) != len(s.marks):
        raise Refused(14, len(scores))
    return Sentence(s.chars, [WORD if score > 0 else NONE for score in scores], [[] for _ in s.chars], 0)


# Look-ups


def char_to_str_pos(s, i):
    if i > len(s.chars):
        raise Refused(14, i)
    return size(s.chars[:i])


def str_to_char_pos(s, p):
    starts = [size(s.chars[:i]) for i in range(len(s.chars) + 1)]
    if p not in starts:
        raise Refused(14, p)
    return starts.index(p)


def boundary(s, i):
    if i >= len(s.marks):
        raise Refused(14, i)
    return s.marks[i]


def tag(s, row, column):
    if row >= len(s.chars) or column >= s.columns:
        raise Refused(14, row)
    return s.cells(row)[column]


def surface(s, start, end):
    if start >= end or end > len(s.chars):
        raise Refused(14, start)
    return "".join(s.chars[start:end])


# The sheet


def char_positions(s):
    return [char_to_str_pos(s, i) for i in range(len(s.chars) + 1)]


def byte_positions(s):
    positions = [0] * (size(s.chars) + 1)
    for number, start in enumerate(char_positions(s)):
        positions[start] = number
    return positions


def lay(s):
    """The eight buffers of a sentence, each as long as the room needed."""
    cell_starts, cell_lengths, tag_bytes = [], [], b""
    for i in range(len(s.chars)):
        for tag in s.cells(i):
            cell_starts.append(len(tag_bytes))
            cell_lengths.append(size(tag))
            tag_bytes += tag.encode()
    text = "".join(s.chars).encode()
    types = [type_of(ord(c)) for c in s.chars]
    return [list(text), types, list(s.marks), char_positions(s), byte_positions(s), cell_starts, cell_lengths, list(tag_bytes)]


def record(s):
    """N, B, columns, cells, G."""
    return len(s.chars), size(s.chars), s.columns, len(s.chars) * s.columns, sum(map(size, s.rows))


BLANK = Sentence([" "], [], [[]], 0)


def fits(s, rooms):
    return all(len(part) <= room for part, room in zip(lay(s), rooms))


def read_into(form, line, rooms):
    s = read(form, line)
    if not fits(s, rooms):
        raise Refused(11, 0)
    return s


def update(form, line, rooms):
    """What is laid down, and the refusal if there is one."""
    if not fits(BLANK, rooms):
        return None, Refused(15, 0)
    try:
        return read_into(form, line, rooms), None
    except Refused as refusal:
        return BLANK, refusal
