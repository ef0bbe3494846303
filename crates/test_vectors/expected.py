"""Makes `stdout` of `test_vectors` from its `stdin`; with --check tells whether it is what stands there.

    python3 crates/test_vectors/expected.py            writes crates/test_vectors/stdout
    python3 crates/test_vectors/expected.py --check    status 1 where it differs

Where the answers come from: Python's own UTF-8 codec, which follows RFC 3629. Nothing is taken from what the program printed. The questions are the
examples of RFC 3629, section 7, and bytes around each bound of its section 4.

A case is a letter and hex digits. D: a place of one byte, then a text: the character that stands there, and its bytes. V: a text: how many of
its bytes are UTF-8. E: a number of four bytes: the length and the bytes of its encoding. A line that starts with # is no case.
"""
import sys
from pathlib import Path

HERE = Path(__file__).resolve().parent


def one(text):
    """The character that a text starts with, or None."""
    for n in range(1, 5):
        try:
            found = text[:n].decode("utf-8")
        except UnicodeDecodeError:
            continue
        if len(found) == 1 and len(text) >= n:
            return found, n
    return None


def decode(data):
    at, text = data[0], data[1:]
    if at >= len(text):
        return "end"
    found = one(text[at:])
    return f"char {ord(found[0]):x} {found[1]}" if found else "bad"


def valid(data):
    try:
        return str(len(data.decode("utf-8").encode("utf-8")))
    except UnicodeDecodeError as e:
        return str(e.start)


def encode(data):
    v = int.from_bytes(data, "big")
    try:
        made = chr(v).encode("utf-8")
    except (ValueError, OverflowError):
        made = b""
    return f"{len(made)} {made.ljust(4, bytes(1)).hex()}"


KINDS = {"D": decode, "V": valid, "E": encode}


def main():
    lines = (HERE / "stdin").read_text().splitlines()
    made = [line if line[:1] == "#" else f"{line} = {KINDS[line[0]](bytes.fromhex(line[1:]))}" for line in lines]
    text = "".join(line + "\n" for line in made)
    if sys.argv[1:] != ["--check"]:
        (HERE / "stdout").write_text(text)
    elif (HERE / "stdout").read_text() != text:
        for ours, theirs in zip(made, (HERE / "stdout").read_text().splitlines()):
            if ours != theirs:
                print(f"the codec: {ours}\n   stdout: {theirs}")
        sys.exit("crates/test_vectors/stdout is not what expected.py makes of stdin")
    print(f"{sum(line[:1] != '#' for line in lines)} cases")


if __name__ == "__main__":
    main()
