"""Makes the questions and the answers of `test_cases`, stdin and stdout; with --check tells whether they are up to date.

What the original answered is taken from host/recorded. The rest is document 01, and request [11] of document 02 for the cells: their lines by hand,
the others by reference.py, which must also agree with every recorded answer.
"""
import itertools
import sys
from pathlib import Path

sys.dont_write_bytecode = True
import reference as r  # noqa: E402

HERE = Path(__file__).resolve().parent
RECORDED = HERE.parent.parent / "host" / "recorded"
FILL = 0xA5  # what every lent byte holds before a call
ROOM = 64  # the most records of a token list
CELLS = 4097  # the cells that a line has room for, but for a long one

# The lines that document 01 names, and its refusals 1 to 10, by hand.
BY_HAND = [
    ("r", "", "! 3 0"), ("t", "", "! 3 0"), ("p", "", "! 3 0"),
    ("r", "aあ", "="), ("t", "a\\", "="), ("t", "\\", "! 3 1"), ("p", "\\", "="), ("p", "a\\", "="),
    ("p", "a\\-b", "! 9 2"), ("t", "a /b", "! 7 2"), ("t", "a ", "! 8 2"), ("p", "a-", "! 10 2"), ("t", "a \\", "! 8 3"),
    ("p", "a|b c|d", "="), ("t", "a//x b", "="), ("p", "a/-b", "="), ("p", "a/x-b", "="), ("r", "ab", "="),
    ("r", "あ\0", "! 4 3"), ("t", "あ\0", "! 4 3"), ("t", "あ\\\0", "! 4 4"), ("t", "あ/\0", "! 4 4"), ("t", "あ/\\\0", "! 4 5"),
    ("t", "あ \0", "! 4 4"), ("t", " \0", "! 5 0"), ("t", "\0 ", "! 4 0"),
    ("p", "\0", "! 4 0"), ("p", "あ\0", "! 4 3"), ("p", "あ\\\0", "! 4 4"), ("p", "あ-\0", "! 4 4"), ("p", "あ/\0", "! 4 4"),
    ("p", "あ/\\\0", "! 4 5"), ("p", "あb\0", "! 9 3"),
    ("t", " a", "! 5 0"), ("t", "\\ ", "="), ("t", "\\  ", "! 8 3"), ("t", "あ  b", "! 6 4"), ("t", "a\\  \\ b", "="),
    ("t", "漢/名  ", "! 6 8"), ("t", "a \\  b", "="), ("t", "a   ", "! 6 2"),
    ("t", "/", "! 7 0"), ("t", "/a", "! 7 0"), ("t", "あ /b", "! 7 4"), ("t", "\\/", "="), ("t", "a \\/", "="), ("t", "a/", "="),
    ("t", "あ ", "! 8 4"), ("t", "あ/x ", "! 8 6"), ("t", "\\あ ", "! 8 5"),
    ("p", "ab", "! 9 1"), ("p", "あい", "! 9 3"), ("p", "𠀀a", "! 9 4"), ("p", "あ\\ ", "! 9 4"), ("p", "あ\\\\", "! 9 4"),
    ("p", "あ\\/", "! 9 4"), ("p", "a-い う", "="), ("p", "a|bc", "! 9 3"), ("p", "--い", "="),
    ("p", "あ-", "! 10 4"), ("p", "あ/x|", "! 10 6"), ("p", "a ", "! 10 2"), ("p", "   ", "="), ("p", "    ", "! 10 4"),
    ("p", "a/\\-", "="), ("p", "あ/\\", "="),
]

# Bytes that no character text spells, or too many of them.
BY_HAND_BYTES = [
    ("r", "61*4096", "="), ("r", "61*4097", "! 1 4096"), ("t", "61*4096", "="), ("t", "61*4097", "! 1 4096"),
    ("p", "612d*2047,61*1", "="), ("p", "612d*2048,61*1", "! 1 4096"), ("r", "ff*5000", "! 1 4096"), ("t", "20*4097", "! 1 4096"),
    ("r", "ff", "! 2 0"), ("t", "e38182ff", "! 2 3"), ("p", "e38182ff", "! 2 3"), ("t", "2020ff", "! 2 2"), ("p", "616100ff", "! 2 3"),
    ("r", "00c0", "! 2 1"), ("r", "e38182e381", "! 2 3"), ("r", "61eda080", "! 2 1"), ("r", "61f4908080", "! 2 1"),
    ("r", "c080", "! 2 0"), ("r", "61e08080", "! 2 1"), ("r", "efbbbf", "="), ("r", "f48fbfbf", "="),
    ("r", "e38182*1365,e3*1", "! 2 4095"), ("r", "e38182*1365,00*1", "! 4 4095"),
]

# Cells by hand: tokenized and partial lines with the room that they need, and what record and buffers are then.
WORKED = "a//x b/y"  # request [11]
CELLS_BY_HAND = [
    ("M", "T", WORKED, "2,2,1,3,3,4,4,2", "= 2 2 2 4 2 6162 0202 01 0,1,2 0,1,2 0,0,1,2 0,1,1,0 7879"),
    ("U", "T", WORKED, "2,2,1,3,3,4,4,2", "= 2 2 2 4 2 6162 0202 01 0,1,2 0,1,2 0,0,1,2 0,1,1,0 7879"),
    ("M", "T", WORKED, "2,2,1,3,3,3,4,2", "! 11 0 a5a5 a5a5 a5 42405,42405,42405 42405,42405,42405 42405,42405,42405 42405,42405,42405,42405 a5a5"),
    ("M", "T", WORKED, "2,2,1,3,3,4,3,2", "! 11 0 a5a5 a5a5 a5 42405,42405,42405 42405,42405,42405 42405,42405,42405,42405 42405,42405,42405 a5a5"),
    ("U", "T", WORKED, "2,2,1,3,3,3,4,2", "! 11 0 20a5 06a5 a5 0,1,42405 0,1,42405 42405,42405,42405 42405,42405,42405,42405 a5a5"),
    ("M", "T", "a//x b", "2,2,1,3,3,4,4,1", "= 2 2 2 4 1 6162 0202 01 0,1,2 0,1,2 0,0,1,1 0,1,0,0 78"),
    ("M", "P", "a/-b", "2,2,1,3,3,2,3,0", "= 2 2 1 2 0 6162 0202 00 0,1,2 0,1,2 0,0 0,0,42405 ."),
    ("M", "P", "a/é//-b/x/y", "2,2,1,3,3,6,6,4", "= 2 2 3 6 4 6162 0202 00 0,1,2 0,1,2 0,2,2,2,3,4 2,0,0,1,1,0 c3a97879"),
    ("M", "R", "ab", "2,2,1,3,3,1,0,0", "= 2 2 0 0 0 6162 0202 02 0,1,2 0,1,2 42405 . ."),
]


# Questions as they are spelt


def hexed(data):
    return bytes(data).hex() or "."


def spelt(runs):
    """The bytes of runs: hex, or hex * count, joined by commas."""
    return b"" if runs == "." else b"".join(
        bytes.fromhex(part) * int(count or 1) for part, _, count in (run.partition("*") for run in runs.split(",")))


def listed(numbers, joint=","):
    return joint.join(map(str, numbers)) or "."


def fields(s):
    """The ten fields of a recorded answer."""
    rows = ";".join(",".join(tag.encode().hex() or "-" for tag in s.cells(i)) for i in range(len(s.chars)))
    laid = r.lay(s)
    return " ".join([
        hexed(laid[0]), listed(laid[1], ""), listed(laid[2], ""), listed(laid[3]), listed(laid[4]), str(s.columns),
        rows if s.columns else ".", listed(f"{start}-{end}" for start, end in r.tokens(s)),
        hexed(r.write_tokenized(s).encode()), hexed(r.write_partial(s).encode())])


def told(refusal):
    return f"! {refusal.number} {refusal.place}"


# Answers by document 01


def recorded_answer(form, line):
    """As the original answers: a refusal has a number only where the line is not UTF-8."""
    try:
        return "= " + fields(r.read(form, spelt(line)))
    except r.Refused as refusal:
        return told(refusal) if refusal.number == 2 else "!"


def long_answer(form, runs):
    try:
        s = r.read(form, spelt(runs))
    except r.Refused:
        return "!"
    rendered, total = fields(s).encode(), 5381
    for byte in rendered:
        total = (33 * total + byte) % 2**32
    return f"= {len(s.chars)} {r.size(s.chars)} {s.columns} {len(rendered)} {total}"


def refusal_answer(form, line):
    try:
        r.read(form.upper(), spelt(line))
        return "="
    except r.Refused as refusal:
        return told(refusal)


def changed_answer(change, form, line, *numbers):
    """The sentence after a change, or the refusal and the sentence left as it was."""
    s = r.read(form, spelt(line))
    try:
        return "= " + fields(change(s, *numbers))
    except r.Refused as refusal:
        return f"{told(refusal)} {fields(s)}"


def score_answer(form, line, scores):
    return changed_answer(lambda s: r.predict(s, [] if scores == "." else [int(score) for score in scores.split(",")]), form, line)


def step_answer(form, line, place):
    token, cursor = r.step(r.read(form, spelt(line)), int(place))
    return f"= {'.' if token is None else f'{token[0]}-{token[1]}'} {cursor}"


def list_told(tokens):
    """The list of all tokens with ample room, with room for one record too few, and with none: what was lent and not stored is a dot."""
    count = len(tokens)
    assert count < ROOM
    told = {True: f"= {count} {','.join([*tokens, '.'])}", False: f"! 12 {count} {','.join(['.'] * (count + 1))}"}
    return " ".join(told[room >= count] for room in [ROOM, max(0, count - 1), 0])


def list_answer(form, line):
    return list_told([f"{start}-{end}" for start, end in r.tokens(r.read(form, spelt(line)))])


def type_answer(first, last):
    kinds = {r.type_of(value) for value in range(int(first), int(last) + 1)}
    return f"= {kinds.pop()}" if len(kinds) == 1 else "!"


def lent(s, rooms):
    """The lent buffers after a sentence was laid over what they held, or after nothing was."""
    parts = r.lay(s) if s else [[]] * 8
    filled = [FILL] * 3 + [FILL * 257] * 4 + [FILL]
    after = [part + [fill] * (room - len(part)) for part, room, fill in zip(parts, rooms, filled)]
    return " ".join(listed(part) if 3 <= i < 7 else hexed(part) for i, part in enumerate(after))


def rooms_of(text):
    return [int(room) for room in text.split(",")]


def room_answer(form, line, rooms):
    rooms = rooms_of(rooms)
    try:
        s = r.read_into(form, spelt(line), rooms)
        return f"= {listed(r.record(s), ' ')} {lent(s, rooms)}"
    except r.Refused as refusal:
        return f"{told(refusal)} {lent(None, rooms)}"


def update_answer(form, line, rooms):
    rooms = rooms_of(rooms)
    s, refusal = r.update(form, spelt(line), rooms)
    return f"{told(refusal) if refusal else '= ' + listed(r.record(s), ' ')} {lent(s, rooms)}"


def write_answer(writer, form, line, room):
    s, room = r.read(form, spelt(line)), int(room)
    try:
        written = r.write(writer, s, room)
        return f"= {len(written)} {hexed(written + bytes([FILL] * (room - len(written))))}"
    except r.Refused as refusal:
        return f"{told(refusal)} {hexed([FILL] * room)}"


def look_answer(which, form, line, *numbers):
    look = {"c": r.char_to_str_pos, "s": r.str_to_char_pos, "b": r.boundary, "t": r.tag, "u": r.surface}[which]
    try:
        found = look(r.read(form, spelt(line)), *map(int, numbers))
        return f"= {(found.encode().hex() or '-') if isinstance(found, str) else found}"
    except r.Refused as refusal:
        return told(refusal)


ANSWERS = {
    "R": recorded_answer, "T": recorded_answer, "P": recorded_answer,
    "r": refusal_answer, "t": refusal_answer, "p": refusal_answer,
    "L": long_answer, "S": score_answer, "N": step_answer, "K": type_answer, "M": room_answer, "U": update_answer, "W": write_answer,
    "Q": look_answer, "A": list_answer,
    "B": lambda form, line, index, value: changed_answer(r.set_boundary, form, line, int(index), int(value)),
    "C": lambda form, line, count: changed_answer(r.reset_tags, form, line, int(count), CELLS),
}


def answered(question):
    """A question with document 01's answer."""
    kind, *rest = question.split(" ")
    return f"{question} {ANSWERS[kind](kind, *rest) if kind in 'RTPrtp' else ANSWERS[kind](*rest)}"


# The lists


def recorded():
    """What the original answered; document 01's answers must be the same."""
    lines = (RECORDED / "answers.txt").read_text().splitlines() + (RECORDED / "acts.txt").read_text().splitlines()
    lines += ["L " + line for line in (RECORDED / "long.txt").read_text().splitlines()]
    lines += ["K {} {} = {}".format(*line.split()) for line in (RECORDED / "types.txt").read_text().splitlines()]
    for line in lines:
        question = line.partition(" =")[0].partition(" !")[0]
        assert answered(question) == line, f"document 01 answers {answered(question)}, and recorded is {line}"
    return lines


def recorded_lists():
    """The token lists of the lines that the original accepted, from the tokens that it served; document 01's must be the same."""
    for line in (RECORDED / "answers.txt").read_text().splitlines():
        question, accepted, told = line.partition(" = ")
        if accepted:
            tokens = told.split(" ")[7]
            made = f"A {question} {list_told([] if tokens == '.' else tokens.split(','))}"
            assert answered(f"A {question}") == made, f"document 01 answers {answered(f'A {question}')}, and recorded is {made}"
            yield made


def by_hand():
    lines = [f"{form} {hexed(text.encode())} {answer}" for form, text, answer in BY_HAND]
    lines += [f"{form} {runs} {answer}" for form, runs, answer in BY_HAND_BYTES]
    lines += [f"{kind} {form} {hexed(text.encode())} {rooms} {answer}" for kind, form, text, rooms, answer in CELLS_BY_HAND]
    for line in lines:
        question = line.partition(" =")[0].partition(" !")[0]
        assert answered(question) == line, f"document 01 answers {answered(question)}, and by hand it is {line}"
    return lines


def every(alphabet, lengths):
    for length in lengths:
        for characters in itertools.product(alphabet, repeat=length):
            yield hexed("".join(characters).encode())


def short():
    """Every short line over small alphabets: the number and the place of its refusal."""
    for form in "rtp":
        yield from (f"{form} {line}" for line in every("aあ /\\-|\0𠀀", range(4)))
    yield from (f"t {line}" for line in every("あ /\\\0", [4]))
    yield from (f"t {line}" for line in every("あ /\\", [5]))
    yield from (f"p {line}" for line in every("あ/\\-|\0", [4]))
    yield from (f"p {line}" for line in every("あ/\\-", [5]))


# Lines that are read, for the calls with numbers and rooms of their own.
LINES = [("R", "a"), ("R", "aあ𠀀"), ("T", "a/x b"), ("T", "あ//y い/z/"), ("P", "a|b c|d"), ("P", "あ/-b/x"), ("T", "a//\\/ b"), ("P", "/-\\/é"), ("T", WORKED)]


def each_line():
    for form, text in LINES:
        yield form, hexed(text.encode()), r.read(form, text.encode())


def numbers():
    """Indices, values, counts and positions in range and out of range."""
    far = [5000, 65536, 2**63]
    for form, line, s in each_line():
        n, b = len(s.chars), r.size(s.chars)
        yield from (f"B {form} {line} {index} {value}" for index in [*range(n + 1), *far] for value in [0, 1, 2, 3, 255])
        yield from (f"C {form} {line} {count}" for count in [0, 3, 4096, 4097, *far])
        yield from (f"S {form} {line} {listed([1] * count)}" for count in {0, n - 1, n, n + 1} - {n - 2})
        yield from (f"N {form} {line} {place}" for place in [*range(n + 2), *far])
        yield from (f"Q c {form} {line} {place}" for place in [*range(n + 3), *far])
        yield from (f"Q s {form} {line} {place}" for place in [*range(b + 3), *far])
        yield from (f"Q b {form} {line} {place}" for place in [*range(n + 2), *far])
        for row in [*range(n + 2), *far]:
            yield from (f"Q t {form} {line} {row} {column}" for column in [*range(s.columns + 2), *far])
        for start in [*range(n + 2), *far]:
            yield from (f"Q u {form} {line} {start} {end}" for end in [*range(n + 3), *far])


def columns():
    """As many columns as have room, and one more."""
    line = hexed(WORKED.encode())
    yield from (f"C T {line} {count}" for count in [CELLS // 2, CELLS // 2 + 1])


def rooms():
    """Buffers of the room needed, with some to spare, and each of them a cell too short, alone and with the next; outputs as well."""
    for form, line, s in each_line():
        needed = [len(part) for part in r.lay(s)]
        lent_rooms = [needed, [room + 1 for room in needed], [room + i for i, room in enumerate(needed)], [0] * 8]
        for i in range(8):
            lent_rooms.append([max(0, room - (j == i)) for j, room in enumerate(needed)])
            lent_rooms.append([max(0, room - (j in (i, i + 1))) for j, room in enumerate(needed)])
        yield from (f"{kind} {form} {line} {listed(each)}" for each in lent_rooms for kind in "MU")
        for writer in "TP":
            length = len(r.WRITERS[writer](s).encode())
            yield from (f"W {writer} {form} {line} {room}" for room in sorted({0, max(0, length - 1), length, length + 1, length + 3}))


def refused_rooms():
    """Refused lines: readers leave all as it was, updates lay the one-blank sentence down where it has room."""
    blank = [len(part) for part in r.lay(r.BLANK)]
    lent_rooms = [[0] * 8, [4] * 8, blank, [1, 1, 0, 2, 2, 2, 1, 1]] + [[room - (j == i) for j, room in enumerate(blank)] for i in range(8) if blank[i]]
    lines = [("R", "61*4097"), ("R", "61ff"), ("R", "."), ("T", "00"), ("T", "20"), ("T", "612020"), ("T", "2f"), ("T", "6120"), ("P", "6161"), ("P", "612d")]
    for form, line in lines:
        yield from (f"{kind} {form} {line} {listed(each)}" for each in lent_rooms for kind in "MU")


def types():
    """Both sides that document 01 names, and the ends of every row of its table."""
    sides = [0x303F, 0x3040, 0x3096, 0x3097, 0x30FA, 0x30FB, 0x30FC, 0x4DBF, 0x4DC0, 0x2CEAF, 0x2CEB0, 0xFF9F, 0xFFA0]
    for first, last, _ in r.RANGES:
        sides += [first - 1, first, last, last + 1]
    sides += [0, 0xD800, 0xDFFF, 0x10FFFF, 0x110000, 0xFFFFFFFF]
    yield from (f"K {value} {value}" for value in sides)


def lists():
    """The lines of stdout, list by list, each under a line that says what it is."""
    yield "# What the original answered", recorded()
    yield "# The lists of the tokens that the original served", recorded_lists()
    yield "# Document 01's lines and refusals and request [11]'s cells, by hand", by_hand()
    yield "# Every short line", map(answered, short())
    yield "# Types on both sides", map(answered, types())
    yield "# Numbers in range and out of range", map(answered, numbers())
    yield "# Columns with room and without", map(answered, columns())
    yield "# Rooms", map(answered, rooms())
    yield "# Refused lines and rooms", map(answered, refused_rooms())


def main():
    answers = [line for title, lines in lists() for line in [title, *lines]]
    questions = [line if line.startswith("#") else line.partition(" =")[0].partition(" !")[0] for line in answers]
    stale = False
    for name, lines in [("stdin", questions), ("stdout", answers)]:
        made = "".join(line + "\n" for line in lines)
        if sys.argv[1:] == ["--check"]:
            stale |= (HERE / name).read_text() != made
        else:
            (HERE / name).write_text(made)
    if stale:
        sys.exit("crates/test_cases/stdin and stdout are not what expected.py makes: run it")
    print(f"{len(answers)} lines, no difference" if sys.argv[1:] else f"{len(answers)} lines")


main()
