#!/usr/bin/env python3
"""Times the port's calls by an earlier library and by the one at hand, in one program, and prints by how much they differ.

Usage: python3 host/against.py ARCHIVES [ROUNDS]

ARCHIVES is a folder with the libexports.a of an earlier state; the one at hand is target/staticlib/libexports.a, which host/library.sh makes.
Both are linked into host/against.c. For each line of host/samples/counted.txt, and for lines of up to 4,096 bytes put together from its notes, it
calls the one and the other in turn, ROUNDS times each (300 where it is left out), and takes the fewest ticks of the processor's clock. Where code
lies in memory makes some per cent of difference, so the program is linked at twenty places and in both orders, and geometric means of the
forty are printed, with the least and the greatest change among them. Of one library against itself the mean change is about 1 % at most; such a run
tells how much a change is worth. It takes half a minute, on an x86-64 machine with cc and objcopy.

Status 0: the table is printed; 2: words that are not understood, or something that could not be built or run.
"""
import os
import platform
import statistics
import subprocess
import sys
import tempfile

HERE = os.path.dirname(os.path.abspath(__file__))
NOW = os.path.join(HERE, "..", "target", "staticlib", "libexports.a")
CALLS = "convert", "get_type", "key", "next_token", "read", "withhold", "write"
PLACES = [64 + 208 * place for place in range(20)]
LONGEST = 4096


def give_up(why):
    print(f"host/against.py: {why}", file=sys.stderr)
    sys.exit(2)


def run(words, **options):
    """What a program prints."""
    try:
        done = subprocess.run(words, capture_output=True, check=False, **options)
    except OSError as error:
        give_up(f"{words[0]} could not be run: {error.strerror}")
    if done.returncode != 0:
        give_up(f"{words[0]} failed: {done.stderr.decode(errors='replace').strip()}")
    return done.stdout


def lines():
    """The sample lines, and lines of up to 4,096 bytes: the notes of a form one behind the other, from each of them on."""
    with open(os.path.join(HERE, "samples", "counted.txt"), "rb") as file:
        samples = [line.split(b"\t", 1) for line in file.read().splitlines()]
    found = [kind + b"\t" + note for kind, note in samples]
    for form, mark in (b"T", b" "), (b"P", b"|"):
        notes = [note for kind, note in samples if kind == b"notes " + form]
        for first in range(len(notes)):
            line, at = notes[first], first
            while True:
                at = (at + 1) % len(notes)
                longer = line + mark + notes[at]
                if len(longer) > LONGEST:
                    break
                line = longer
            found.append(b"4,096 bytes " + form + b"\t" + line)
    return b"".join(line + b"\n" for line in found)


def measured(earlier, rounds):
    """The ticks of both libraries for each kind and work, at each place and in both orders."""
    found = {}
    asked = lines()
    with tempfile.TemporaryDirectory() as folder:
        def inside(name):
            return os.path.join(folder, name)

        for name, archive in ("before.o", earlier), ("now.o", NOW):
            with open(inside(name), "wb") as file:
                file.write(run(["ar", "p", archive]))
        run(["objcopy", *(f"--redefine-sym=ighdelmur_{call}=earlier_{call}" for call in CALLS), inside("before.o")])
        run(["cc", "-std=gnu11", "-Wall", "-Wextra", "-Werror", "-O", "-c", os.path.join(HERE, "against.c"), "-o", inside("against.o")])
        for place in PLACES:
            with open(inside("place.s"), "w", encoding="ascii") as file:
                file.write(f'.section .note.GNU-stack,"",@progbits\n.text\n.fill {place}, 1, 0x90\n')
            run(["cc", "-c", inside("place.s"), "-o", inside("place.o")])
            for order in ("before.o", "now.o"), ("now.o", "before.o"):
                run(["cc", inside("against.o"), inside("place.o"), *map(inside, order), "-o", inside("against")])
                for row in run([inside("against"), str(rounds)], input=asked).decode().splitlines():
                    *names, before, now = row.split("\t")
                    found.setdefault(tuple(names), []).append((int(before), int(now)))
    return found


def main():
    words = sys.argv[1:]
    if words == ["--help"]:
        print(__doc__.strip())
        return
    if not 1 <= len(words) <= 2 or words[1:] and not (words[1].isdigit() and int(words[1]) > 0):
        print(__doc__.strip(), file=sys.stderr)
        sys.exit(2)
    if platform.machine() != "x86_64":
        give_up(f"this is for an x86-64 machine, and this is {platform.machine()}: the port's static library is for x86-64 alone")
    earlier, rounds = os.path.join(words[0], "libexports.a"), int(words[1]) if words[1:] else 300
    for archive in earlier, NOW:
        if not os.path.isfile(archive):
            give_up(f"there is no {archive}")
    print("| lines | form | work | before | now | change | of the forty |\n|---|---|---|---|---|---|---|")
    for (kind, work), ticks in measured(earlier, rounds).items():
        before, now = (statistics.geometric_mean(side) for side in zip(*ticks))
        quotients = [after / first for first, after in ticks]
        least, mean, most = (100 * (q - 1) for q in (min(quotients), now / before, max(quotients)))
        print(f"| {kind[:-2]} | {kind[-1]} | {work} | {before:,.0f} | {now:,.0f} | {mean:+.1f} % | {least:+.1f} to {most:+.1f} % |")


main()
