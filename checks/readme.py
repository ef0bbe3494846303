"""The examples of README.md, run: what they print is what stands there.

    python3 checks/readme.py          the lines of respell, which need no compiler
    python3 checks/readme.py notes    the call of notes.sh, which needs one; host/check.sh runs it
"""
import os
import re
import subprocess
import sys

HERE = os.path.dirname(os.path.dirname(os.path.abspath(__file__)))
os.chdir(HERE)
with open("README.md", encoding="utf-8") as file:
    BLOCKS = [re.sub(r"^    ", "", block, flags=re.M) for block in re.findall(r"^    .*\n(?:(?:^\n)?^    .*\n)*", file.read(), re.M)]


def example(start):
    """The block that starts so, and the block behind it."""
    found = [i for i, block in enumerate(BLOCKS) if block.startswith(start)]
    if len(found) != 1:
        sys.exit(f"README.md has {len(found)} blocks that start with {start!r}; one is wanted")
    return BLOCKS[found[0]], BLOCKS[found[0] + 1]


def printed(command, given=""):
    """What a command prints and says, and its status."""
    done = subprocess.run(["bash", "-c", command], input=given.encode(), stdout=subprocess.PIPE, stderr=subprocess.STDOUT, timeout=600)
    return done.stdout.decode(), done.returncode


def build(*words):
    """What a script says of building at its first call is no part of an example."""
    subprocess.run(["bash", *words], stdin=subprocess.DEVNULL, capture_output=True)


def respelled():
    lines, answers = example("TPa/x b\n")
    build("respell.sh")
    return "the lines of respell", printed("bash respell.sh", lines), (answers, 0)


def notes():
    call, report = example("bash notes.sh duplicates --between")
    build("notes.sh", "check", "raw", "/dev/null")
    return "the notes that stand in more than one sample", printed(call), (report, 1)


if sys.argv[1:] not in ([], ["notes"]):
    print(__doc__.strip(), file=sys.stderr)
    sys.exit(2)
name, got, wanted = notes() if sys.argv[1:] else respelled()
if got != wanted:
    print(f"{name}: {got!r}, and wanted was {wanted!r}")
    sys.exit(1)
print(f"an example of README.md, with the outcome that stands there: {name}")
