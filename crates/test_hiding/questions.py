"""Writes `stdin` of `test_hiding`: questions by hand, and drawn ones. The header of src/main.rt says what a question is.

    python3 crates/test_hiding/questions.py
"""
from pathlib import Path
from random import Random

HERE = Path(__file__).resolve().parent
NOTHING = "- 0 0"
LARGEST = "~0"  # 2^64-1
SHEET = "a/x|あ//é-b"  # the line whose sheet is changed
SPECIAL = "\\/ -|"
CHARS = "aab" + SPECIAL + "éあ漢\U0001f600\ufeff"
REFUSED = ["", "a-", "ab", "a\\-b", "a/\0", b"a\xff"]  # partial lines
TAGS = ["", "", "x", "y", "名詞", "é", "\U00020000", "a b", "-", "|", "/", "\\", " ", "\\-|/ "]


def hexed(line):
    """A line's field."""
    return line.encode().hex() if isinstance(line, str) else line.hex()


def packed(field, start, end, room=16384, form="P", change=NOTHING):
    """A question for one copy, of a line that is given as a field."""
    return f"H {form} {field} {room} {change} {start} {end}"


def copy(line, start, end, room=400, form="P", change=NOTHING):
    """A question for one copy."""
    return packed(hexed(line), start, end, room, form, change)


def copies(line, room=64, form="P"):
    """A question for the copies of all ranges."""
    return f"A {form} {hexed(line)} {room}"


def packed_key(field, room=16384, form="P", change=NOTHING):
    """A question for the key of a line that is given as a field."""
    return f"K {form} {field} {room} {change}"


def key(line, room=400, form="P", change=NOTHING):
    """A question for the key."""
    return packed_key(hexed(line), room, form, change)


def escaped(text):
    """A tag as a line has it, and a text as a tokenized line may have it."""
    return "".join("\\" + c if c in SPECIAL else c for c in text)


def tagged(row):
    """The tags of a row, empty ones too."""
    return "".join("/" + escaped(tag) for tag in row)


def partial(chars, marks, rows):
    """The partial line with these characters, marks and tags, empty ones too."""
    return "".join(c + tagged(row) + mark for c, row, mark in zip(chars, rows, [*marks, ""]))


def tokenized(chars, marks, rows):
    """The same as a tokenized line: a mark other than `-` ends a token, and tags inside a token are left out."""
    line = ""
    for c, row, mark in zip(chars, rows, [*marks, ""]):
        line += escaped(c) + tagged([] if mark == "-" else row) + (" " if mark in ("|", " ") else "")
    return line


def widened(random, rows):
    """These rows, some with columns behind them that no tag uses."""
    return [row + [""] * random.choice([0, 0, 1, 2, 7]) for row in rows]


def drawn_sentence(random, most):
    """Drawn characters, up to so many, with their marks and tags; some have many tags, some none."""
    n = random.randint(1, most)
    columns = random.choice([0, 1, 1, 2, 3, 5])
    rows = [[random.choice(TAGS) for _ in range(random.randint(0, columns))] for _ in range(n)]
    chars = [random.choice(CHARS) for _ in range(n)]
    return chars, [random.choice(" -||") for _ in chars[1:]], rows


def drawn(random, most):
    """A drawn partial line of up to so many characters, and how many it has."""
    chars, marks, rows = drawn_sentence(random, most)
    return partial(chars, marks, rows), len(chars)


def drawn_range(random, n):
    """A drawn range of n characters, now and then one that is none."""
    start, end = random.randint(0, n + 1), random.randint(0, n + 1)
    return (start, end) if random.random() < 0.1 else (min(start, end, n), min(max(start, end), n))


def worked():
    """The worked lines of request [3], and lines that tell its readings apart."""
    yield "# An empty range touches no boundary; it still cuts the columns back."
    yield from (copy("a|b", 1, 1), copy("a|b", 2, 2), copy("a|b", 0, 0), copy("a/|b/", 0, 0), copy("a/x/|b/y-c//z", 0, 0))
    yield "# A boundary touches on either side."
    yield from (copy("a|b|c|d", 1, 2), copy("a|b|c|d", 0, 1), copy("a|b|c|d", 3, 4), copy("a-b-c-d-e", 1, 3), copy("a|b|c|d", 0, 4))
    yield "# Columns that only a hidden tag uses go, and so do unused ones; an absent tag before a present one stays."
    yield from (copy("a/|b//x|c/", 1, 2), copy("a/x|b//y|c/", 1, 2), copy("a//x|b/y|c/", 1, 2), copy("a//x|b/y|c/", 0, 1), copy("a////|b/x", 0, 1))
    yield "# A tag outside, of a token that reaches into the range, stays."
    yield from (copy("a-b/x|c", 0, 1), copy("a-b/x|c", 1, 2), copy("a/x-b/y-c", 1, 2))
    yield "# The last character writes all columns, hidden or not; one before a word boundary too."
    yield from (copy("a/x|b", 1, 2), copy("a|b/x|c", 2, 3), copy("a|b|c/x", 1, 2), copy("a|b|c|d/x", 2, 3))
    yield "# Three columns."
    yield from (copy("a/x|b/y-c//z", start, end) for start, end in ((1, 2), (0, 3), (2, 3), (0, 0), (3, 3)))
    yield "# Lines that differ only inside the range: one answer."
    yield from (copy(line, 1, 2) for line in ("a|b|c/x", "a-b-c/x", "a b c/x", "a|b/y|c/x", "a-b//z|c/x", "a|b///|c/x"))
    yield "# Columns that are not used are none of the copy."
    yield from (copy(line, 0, 1) for line in ("a-b/x", "a-b/x/", "a///-b/x//", "a/y/z|b/x"))


def other_numbers():
    """Changes of the record of SHEET: each of its numbers."""
    for letter, right in (("N", 3), ("B", 5), ("E", 6), ("G", 3)):
        yield from (f"{letter} 0 {value}" for value in (0, right - 1, right, right + 1, 65536, LARGEST))
    yield from (f"C 0 {value}" for value in (0, 1, 2, 3, 4096, 4097, LARGEST))


def other_lengths():
    """Changes of the buffers of SHEET: each is lent in several lengths."""
    for which, need in enumerate((5, 3, 2, 4, 6, 6, 6, 3)):
        yield from (f"L {which} {value}" for value in (0, need - 1, need, need + 1))


def refused():
    """Each refusal at its place, and their order."""
    yield "# 13: a number of the record that is not the sheet's."
    yield from (copy(SHEET, 1, 2, change=change) for change in other_numbers())
    yield "# 13: a buffer that is lent short; exactly as much as is needed is enough."
    yield from (copy(SHEET, 1, 2, change=change) for change in other_lengths())
    yield "# 14 at the start: the start past the end, the end past the characters, or both."
    yield from (copy("a|b", 2, 1), copy("a|b", 1, 9), copy("a|b", 0, 3), copy("a|b", 3, 3), copy("a|b", 4, 3), copy("a|b", 3, 2), copy("a", 1, 0))
    yield from (copy("a|b", start, end) for start, end in ((0, LARGEST), (LARGEST, LARGEST), (LARGEST, 0), ("~1", LARGEST), (1, "~2"), (LARGEST, 2)))
    yield from (copy("a|b", start, end) for start, end in ((65536, 65537), (65536, 1), (0, 65538), (4294967296, 1), (1, 4294967298), ("~65535", 2)))
    yield "# 12 at the length needed: room for all, one less, none."
    for line, start, end in (("a/x|b", 1, 2), ("a|b|c|d", 1, 2), ("あ/x|い/é|う", 0, 1), ("a/\\-|b", 1, 1)):
        yield from (copy(line, start, end, room) for room in (64, 6, 7, 8, 9, 10, 11, 12, 13, 14, 15, 16, 1, 0))
    yield "# What is hidden is not in the length either."
    yield from (copy(line, 0, 1, room) for line in ("a/xxxxxxxx|b", "a|b", "a/////|b") for room in (2, 3))
    yield "# 13 before 14 before 12."
    yield from (copy("a|b", 2, 1, 0, change="N 0 3"), copy("a|b", 0, 1, 0, change="N 0 3"), copy("a|b", 2, 1, 64, change="G 0 1"))
    yield from (copy("a|b", 2, 1, 0), copy("a|b", 0, 3, 0), copy("a|b", LARGEST, LARGEST, 0), copy("a|b", 0, 1, 0), copy("a|b", 0, 1, 3))
    yield "# Lines that are refused by the reader."
    yield from (copy(line, 0, 1) for line in REFUSED)


def places():
    """Every range of some lines: characters of one to four bytes, tags that are escaped, lines of the other forms."""
    yield "# Every range from 0 to one past the characters."
    yield from (copies(line) for line in ("a", "a/x", "a//", "a|b", "a/x|b", "a-b/x", "a/|b/", "a/x-b//y c", "a|b-c d|e", "a/x|b/y-c//z"))
    yield "# The same with little room."
    yield from (copies("a/x|b/y-c//z", room) for room in (0, 5, 7, 9, 10, 11))
    yield "# Characters of two, three and four bytes, and those that are marks or slashes elsewhere."
    yield from (copies(line, 200) for line in ("é|ß", "あ/名-い|う/詞", "\U0001f600/x|\U00020000-a/\U0001f601", "\ufeff|a", " | - ", "/|/", "\\|\\/x", "-||- "))
    yield "# Tags with what is escaped in them."
    yield from (copies(f"a/{tag}|b-c/x", 200) for tag in ("\\ ", "\\-", "\\/", "\\\\", "\\|", "\\a", "\\ \\-\\/\\\\\\|", "あ\\/い", "x\\ /\\-"))
    yield from (copies(line, 200) for line in ("a-b/\\", "a-b/x\\", "a-b//\\", "a/x|b\\", "\\"))
    yield "# Lines of the other forms."
    yield from (copies(line, 64, "R") for line in ("a", "ab", "a b", "あ/é"))
    yield from (copies(line, 64, "T") for line in ("a", "a/x b", "ab//x c", "\\ /\\/ あ", "a/ b/"))


def limits():
    """Long lines, many columns, long tags."""
    yield "# 2,048 characters between marks: 4,095 bytes."
    for start, end in ((0, 0), (0, 1), (1000, 1002), (2047, 2048), (2048, 2048), (0, 2048), (0, 2049), (2049, 2049)):
        yield packed("617c*2047,61", start, end)
    yield from (packed("617c*2047,61", 5, 9, room) for room in (4095, 4094, 0))
    yield "# 4,096 characters: 8,191 bytes, as a raw line and as one token."
    for start, end in ((1, 2), (4095, 4096), (4096, 4096), (0, 4097)):
        yield from (packed("61*4096", start, end, 8191, form) for form in "RT")
    yield from (packed("61*4096", 4095, 4096, 8190, form) for form in "RT")
    yield packed("f09f9880*1024", 1, 3, 16384, "R")
    yield "# One tag of 4,094 bytes, one of 2,047 that is escaped, and 4,094 columns with a tag in the last."
    for field in ("612f,78*4094", "612f,5c2d*2047", "61,2f*4094,78"):
        yield from (packed(field, start, end) for start, end in ((0, 0), (0, 1), (1, 1)))
        yield from (packed(field, 1, 1, room) for room in (4096, 4095))
    yield "# A tag in the last of 700 columns of 501 tokens: over 350,000 bytes, and few where it is hidden."
    yield from (packed("627c*500,62,2f*700,78", start, end) for start, end in ((0, 0), (0, 1), (250, 500), (500, 501), (0, 501)))
    yield packed("627c*500,62,2f*700,78", 500, 501, 1001)
    yield packed("627c*500,62,2f*700,78", 500, 501, 1000)
    yield "# Cells: as many as there is room for, and more."
    yield from (packed(field, 0, 1, form="T") for field in ("62*400,2f*1000", "62*400,2f*1001", "62*401,2f*1000"))
    yield packed("627c*1024,62,2f*2046,78", 1024, 1025)
    yield "# Tags at both ends of a long line."
    for start, end in ((0, 1), (1, 1301), (1301, 1302), (0, 1302), (700, 700)):
        yield packed("622f78,7c62*1300,2d622f2f79", start, end)
    yield "# A line of 4,097 bytes."
    yield packed("617c*2048,61", 0, 1)


def drawings(seed):
    """Drawn lines, some with room that is short; and every range of short ones."""
    random = Random(seed)
    yield f"# Drawn lines and ranges: seed {seed}."
    for _ in range(320):
        line, n = drawn(random, random.choice([3, 8, 8, 30]))
        yield copy(line, *drawn_range(random, n), random.choice([800, 800, 800, random.randint(0, 40)]))
    for _ in range(40):
        yield copies(drawn(random, 5)[0], random.choice([200, 20]))


def worked_keys():
    """The worked lines of request [2], and lines that tell its readings apart."""
    yield "# Keys: a column that no tag uses is none of the key, whatever the form."
    yield from (key(line) for line in ("a/-b", "a-b", "a///-b//", "a/|b/", "a|b", "a/", "a", "々", "々///"))
    yield from (key(line, form="T") for line in ("a b", "a/ b/", "a// b", "ab/", "ab", "々", "a/x b", "a/x/ b//"))
    yield from (key(line, form="R") for line in ("a", "ab", "a b", "a/", "a/x-b", "あ|é", "々"))
    yield "# Only columns at the end are cut: an empty one before a used one stays."
    yield from (key(line) for line in ("a//x/|b", "a//x|b", "a///x/|b/y", "a/|b//x//|c", "a////|b///x", "a/x/|b//y/|c///"))
    yield from (key(line, form="T") for line in ("a//x b", "a//x/ b", "a/ b//x", "ab//x/ c"))
    yield "# A tag inside a token counts, and so does one before an unknown boundary."
    yield from (key(line) for line in ("a/x-b|c", "a//x-b|c", "a/x b|c", "a//x/ b|c", "a|b/x-c|d", "a/x/-b//y/-c", "a/-b/|c/x"))
    yield "# Sentences that differ in one thing: the text, a boundary, a tag, its character or its column."
    yield from (key(line) for line in ("a|b/x", "a|c/x", "a-b/x", "a b/x", "a|b/y", "a|b/xx", "a|b", "a/x|b", "a|b//x", "a|b/x/x", "a/x|b/x"))
    yield "# What is a mark, a slash or a backslash stands plain in the text and escaped in a tag."
    yield from (key(line) for line in ("-|-", "|-|/", " | /", "/|/", "///x/", "\\|\\/", "a/\\-|b", "a/\\|/"))
    yield from (key(line) for line in ("a/\\//\\ /\\\\/-b", "a/\\a-b", "a-b/\\", "a-b/x/\\"))
    yield from (key(line, form="T") for line in ("a-b|c", "\\ \\/ \\\\", "a/-/|/ b/\\/", "a/\\ /\\\\/ b", "a/\\", "a\\"))
    yield "# Characters of two, three and four bytes, in the text and in tags."
    yield from (key(line) for line in ("é/é/|ß", "あ/名-い|う//", "\U0001f600//x|\U00020000-a//\U0001f601/", "\ufeff/\ufeff/"))


def refused_keys():
    """Each refusal of a key at its place, and their order."""
    yield "# Keys, 13: a number of the record that is not the sheet's, columns that no tag uses too."
    yield from (key(SHEET, change=change) for change in other_numbers())
    yield from (key("a-b|c", change=f"C 0 {value}") for value in (0, 1, 4096, 4097, "~4095"))
    yield "# Keys, 13: a buffer that is lent short."
    yield from (key(SHEET, change=change) for change in other_lengths())
    yield "# Keys, 12 at the length of the key, not of the written line: room for all, one less, none."
    yield from (key("a/|b/", room) for room in (5, 4, 3, 2, 1, 0))
    yield from (key("a///////", room) for room in (1, 0))
    for line, length in (("a/x-b//|c/", 9), ("あ/x|い/é/", 12), ("a/\\-|b", 7), (SHEET, 16)):
        yield from (key(line, room) for room in (length + 1, length, length - 1, 1, 0))
    yield from (key(line, room, "T") for line in ("a b", "a/ b/", "a// b//") for room in (3, 2, 0))
    yield from (key("ab", room, "R") for room in (3, 2, 0))
    yield "# Keys, 13 before 12."
    yield from (key(SHEET, room, change=change) for change in ("N 0 4", "B 0 4", "E 0 7", "G 0 2", "C 0 1", "C 0 4097", "L 0 4", "L 5 5", "L 6 5", "L 7 2") for room in (15, 0))
    yield from (key(SHEET, room, change="C 0 4096") for room in (16, 15, 0))
    yield "# Keys of lines that are refused by the reader."
    yield from (key(line) for line in REFUSED)
    yield from (key(line, form="T") for line in ("", "\\", " a", "a  b", "/a", "a /b", "a ", "a/\0", b"a\xff"))
    yield from (key(line, form="R") for line in ("", "a\0", b"\xe3\x81"))


def key_limits():
    """Keys of long lines, of many columns and of long tags."""
    yield "# Keys: long lines of each form; a key may be longer than any line that is read."
    yield from (packed_key("617c*2047,61", room) for room in (4095, 4094, 0))
    yield from (packed_key("61*4096", room, form) for form in "RT" for room in (8191, 8190))
    yield packed_key("f09f9880*1024", form="R")
    yield "# One long tag: plain, escaped, escaped without need, and one that is escaped in the key alone."
    yield from (packed_key(field) for field in ("612f,78*4094", "612f,5c2d*2047", "612f,5c78*2047", "61,2f*3,78*2000,2f*3"))
    yield from (packed_key("612f,2d*4094", room, "T") for room in (8190, 8189))
    yield "# Many columns of which none is used, at one character and at two; and behind used ones."
    yield from (packed_key("61,2f*4094", room) for room in (1, 0))
    yield from (packed_key(field) for field in ("61,2f*4095", "61,2f*2000,7c62,2f*2000", "61,2f*4000,2d62", "612f78,2f*4000", "612f78,2f*2000,7c62,2f*2000"))
    yield from (packed_key(field) for field in ("61,2f*1500,78,2f*1500,7c62", "61,2f*100,78,2f*3000,2d627c63", "627c*500,62,2f*700"))
    yield from (packed_key(field, form="T") for field in ("61,2f*4094", "6120*300,61,2f*1300", "612f7820*900,61,2f*400"))
    yield "# Many columns with a tag in the last: as long as the line, and over 350,000 bytes."
    yield from (packed_key("61,2f*4094,78", room) for room in (4096, 4095))
    yield from (packed_key("627c*500,62,2f*700,78", room) for room in (16384, 0))
    yield packed_key("622d*500,62,2f*700,78")
    yield "# More cells than there is room for: 11, before 12."
    yield from (packed_key(field, room) for field in ("627c*1024,62,2f*2046,78", "627c*1024,62,2f*2046") for room in (16384, 0))
    yield "# A line of 4,097 bytes."
    yield from (packed_key("61,2f*4096", form=form) for form in "RTP")


def drawn_keys(seed):
    """Keys of drawn lines, some with room that is short; and of drawn sentences in several spellings."""
    random = Random(seed)
    yield f"# Keys of drawn lines: seed {seed}."
    for _ in range(120):
        yield key(drawn(random, random.choice([3, 8, 8, 30]))[0], random.choice([800, 800, 800, random.randint(0, 40)]))
    yield "# Keys of drawn sentences, each in a partial and in a tokenized line, and with unused columns in both."
    for _ in range(30):
        chars, marks, rows = drawn_sentence(random, random.choice([3, 8, 30]))
        room = random.choice([800, 800, random.randint(0, 40)])
        for cells in (rows, widened(random, rows), widened(random, rows)):
            yield key(partial(chars, marks, cells), room)
            yield key(tokenized(chars, marks, cells), room, "T")


def main():
    parts = (worked(), refused(), places(), limits(), drawings(3), worked_keys(), refused_keys(), key_limits(), drawn_keys(4))
    (HERE / "stdin").write_text("".join(line + "\n" for part in parts for line in part))


if __name__ == "__main__":
    main()
