"""Makes `stdout` of `test_hiding` from its `stdin`; with --check tells whether it is what stands there.

    python3 crates/test_hiding/expected.py            writes crates/test_hiding/stdout
    python3 crates/test_hiding/expected.py --check    status 1 where it differs

The answers come from reading.py, which was written from documents 01 and 02 alone. Nothing is taken from what the program printed.
The header of src/main.rt says what a question is; questions.py writes them.
"""
import sys
from pathlib import Path

HERE = Path(__file__).resolve().parent
sys.dont_write_bytecode = True
sys.path.insert(0, str(HERE))
from reading import Sentence, copy_of, key_of, read_line  # noqa: E402
from reference import lay, record  # noqa: E402

CELLS = 400000  # the cells that a line has room for; every short line has fewer
RECORD = "NBCEG"


def bytes_of(field):
    """The bytes of a line's field: pieces of hex, joined by commas, each as often as is told."""
    line = b""
    for piece in field.split(","):
        digits, _, count = piece.partition("*")
        line += bytes.fromhex(digits) * int(count or 1)
    return line


def number(field):
    """A number; behind ~ it is counted down from the largest."""
    return 2**64 - 1 - int(field[1:]) if field.startswith("~") else int(field)


def is_sheet(sentence, letter, index, value):
    """Whether record and buffers are a sentence still: with one number changed they are none, for the cells are characters times columns."""
    if letter == "L":
        return len(lay(sentence)[index]) <= value
    return letter == "-" or record(sentence)[RECORD.index(letter)] == value


def one(sentence, room, letter, index, value, *span):
    """The answer for the copy of a range, or for the key where there is no range: 13 first."""
    if not is_sheet(sentence, letter, number(index), number(value)):
        return 13, 0
    return copy_of(sentence, *map(number, span), number(room)) if span else key_of(sentence, number(room))


def every(sentence, room):
    """The answers for every range from 0 to one past the characters."""
    numbers = range(len(sentence.chars) + 2)
    return [copy_of(sentence, start, end, room) for start in numbers for end in numbers]


def shown(answer):
    """An answer as it is printed."""
    return f"={answer.hex()}" if isinstance(answer, bytes) else "!{},{}".format(*answer)


def answered(question):
    """The kind of a question, the question with its answers, and how many they are; a line that is no question has none."""
    if question.startswith("#"):
        return "#", question, 0
    kind, form, field, *asked = question.split(" ")
    sentence = read_line(bytes_of(field), form)
    if not isinstance(sentence, Sentence):
        answers = [sentence]
    elif len(sentence.chars) * sentence.columns > CELLS:
        answers = [(11, 0)]
    elif kind == "A":
        answers = every(sentence, number(asked[0]))
    else:
        answers = [one(sentence, *asked)]
    return kind, " ".join([question, *map(shown, answers)]), len(answers)


def main():
    made = [answered(line) for line in (HERE / "stdin").read_text().splitlines()]
    text = "".join(line + "\n" for _, line, _ in made)
    if sys.argv[1:] != ["--check"]:
        (HERE / "stdout").write_text(text)
    elif (HERE / "stdout").read_text() != text:
        stands = (HERE / "stdout").read_text().splitlines()
        for (_, ours, _), theirs in zip(made, stands):
            if ours != theirs:
                print(f"reading.py: {ours}\n    stdout: {theirs}"[:2000])
        sys.exit("crates/test_hiding/stdout is not what expected.py makes of stdin")
    keys, copies = (sum(count for kind, _, count in made if kind in kinds) for kinds in ("K", "HA"))
    print(f"{sum(count > 0 for _, _, count in made)} questions, {copies} copies, {keys} keys")


if __name__ == "__main__":
    main()
