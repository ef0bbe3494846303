#!/usr/bin/env python3
"""Compares the program `respell` with the oracle: acceptance and the written line, for every pair of forms.

Usage: respelled.py ORACLE RESPELL... [--long]
RESPELL is the command that runs the program. Lines: every short one over a small alphabet, lines drawn from a fixed seed,
lines around each limit, and damaged ones; --long draws some hundred thousand. A sentence of over 2,048 cells, characters
times columns, must be refused by 11, which is D13 of docs/DIFFERENCES.md. Prints how many lines were compared and each difference. Status 0: none; 1: there is one; 2: bad usage, or a program that could not be run.
"""
import random
import subprocess
import sys
from itertools import product

SIGNS = ["a", "あ", " ", "/", "\\", "-", "|", "\0", "\U00020000"]
# How many cells and how many written bytes the program holds.
CELLS, ROOM = 2048, 8192
JAPANESE = "火星猫は社長だまぁ良いだろう名詞動詞カセーヨイ助詞ABC012-|/\\ "


def short_lines(most):
    """Every line of up to `most` signs."""
    for n in range(most + 1):
        for signs in product(SIGNS, repeat=n):
            yield "".join(signs).encode()


def note(rng, tokenized):
    """A note of some tokens with up to two columns, in one of the annotated forms, now and then with a slip in it."""
    parts = []
    for _ in range(rng.randint(1, 30)):
        word = "".join(rng.choice(JAPANESE) for _ in range(rng.randint(1, 4)))
        if tokenized:
            word = "".join("\\" + c if c in " /\\" else c for c in word)
        else:
            word = rng.choice("-| ").join(word)
        tags = "".join("/" + rng.choice(["", "名詞", "カセー", "x\\ y"]) for _ in range(rng.randint(0, 2)))
        parts.append(word + tags)
    text = (" " if tokenized else "|").join(parts)
    if rng.random() < 0.2:
        at = rng.randint(0, len(text))
        text = text[:at] + rng.choice(SIGNS) + text[at:]
    return text.encode()


def drawn_lines(count, seed):
    """Lines drawn from a seed: notes, loose signs, and damaged copies of either."""
    rng = random.Random(seed)
    for i in range(count):
        if i % 3 == 2:
            line = "".join(rng.choice(SIGNS[:7]) for _ in range(rng.randint(0, 24))).encode()
        else:
            line = note(rng, i % 3 == 0)
        if rng.random() < 0.05 and line:
            at = rng.randrange(len(line))
            line = line[:at] + bytes([rng.choice([0x80, 0xC0, 0xE3, 0xED, 0xF4, 0xFF])]) + line[at + rng.randint(0, 1):]
        if b"\n" not in line:
            yield line


def limit_lines():
    """Lines around the limits: 4,096 bytes of a line, 8,192 of a written one, 2,048 cells, many columns."""
    for n in (4094, 4095, 4096, 4097, 4098, 5000, 9000):
        yield b"a" * n
        yield ("あ" * (n // 3)).encode() + b"a" * (n % 3)
        yield b"a/" + b"x" * (n - 2)
        yield (b"a|" * n)[: n - 1 + n % 2]
        yield (b"a " * n)[: n - 1 + n % 2]
    for n in (40, 64, 90, 91, 128, 2000):
        yield b"a" + b"/" * n + b" b" * n
        yield b"a" + b"/" * n + b"|b" * n
    for n, columns in ((1, 2048), (1, 2049), (2, 1024), (2, 1025), (45, 45), (45, 46), (46, 45), (1024, 2), (1025, 2), (2047, 1), (2047, 2)):
        yield b"b" * n + b"/" * columns
        yield b" ".join([b"b"] * n) + b"/" * columns
        yield b"b" + b"/" * (columns - 1) + b"/x" + b"|b" * (n - 1)
    for n, columns in ((3, 5), (3, 6), (40, 51), (45, 46)):
        line = b" ".join([b"b"] * n) + b"/" * columns
        yield line + b"-" * (4096 - len(line))


def answers(oracle, asked):
    """What the oracle answers to each (form, line)."""
    text = "".join(f"{form} {line.hex() or '.'}\n" for form, line in asked)
    run = subprocess.run([oracle, "answers"], input=text.encode(), capture_output=True, check=True)
    return run.stdout.decode().splitlines()


def wanted(line, answer, field):
    """The line that `respell` must print, or what it must begin with."""
    words = answer.split(" ")
    if len(line) > 4096:
        return b"!1 4096", True
    if words[2] == "!":
        return (f"!2 {words[4]}".encode(), True) if len(words) > 3 else (b"!", False)
    if len(words[4]) * int(words[8]) > CELLS:
        return b"!11 0", True
    out = bytes.fromhex(words[field].replace(".", ""))
    return (b"=" + out, True) if len(out) <= ROOM else (f"!12 {len(out)}".encode(), True)


def main():
    words = [w for w in sys.argv[1:] if w != "--long"]
    long = "--long" in sys.argv
    if words[:1] == ["--help"]:
        print(__doc__.strip())
        return 0
    if len(words) < 2:
        print(__doc__.strip(), file=sys.stderr)
        return 2
    oracle, respell = words[0], words[1:]
    compared = different = 0
    rounds = [list(short_lines(3 if not long else 5)), list(limit_lines())]
    rounds += [list(drawn_lines(4000, 1))] if not long else [list(drawn_lines(20000, seed)) for seed in range(1, 13)]
    for lines in rounds:
        asked = [(form, line) for line in lines for form in "RTP"]
        told = answers(oracle, [(f, l if len(l) <= 4096 else b"") for f, l in asked])
        if len(told) != len(asked):
            print(f"the oracle answered {len(told)} lines for {len(asked)}")
            different += 1
        pairs = [(f, w, l, t) for (f, l), t in zip(asked, told) for w in "TP"]
        text = b"".join(f.encode() + w.encode() + l + b"\n" for f, w, l, t in pairs)
        out = subprocess.run(respell, input=text, capture_output=True, check=True).stdout.split(b"\n")
        if len(out) != len(pairs) + 1:
            print(f"respell printed {len(out) - 1} lines for {len(pairs)}")
            different += 1
        for (f, w, l, t), got in zip(pairs, out):
            want, whole = wanted(l, t, 11 if w == "T" else 12)
            compared += 1
            if got != want if whole else not got.startswith(want) or got[1:3] in (b"1 ", b"2 "):
                different += 1
                if different <= 20:
                    print(f"{f}{w} {l[:200]!r}: wanted {want[:200]!r}, got {got[:200]!r}")
    print(f"{compared} answers compared, {different} differ")
    return 1 if different else 0


try:
    sys.exit(main())
except (OSError, subprocess.CalledProcessError) as error:
    print(f"respelled.py: {error}", file=sys.stderr)
    if isinstance(error, subprocess.CalledProcessError) and error.stderr:
        sys.stderr.buffer.write(error.stderr)
    sys.exit(2)
