"""What the tests of notes.sh share, host/notes.py and host/join.py: how it is run, and how what comes of that is looked at, counted and told.

An outcome is what a run printed, what it said and its status. Each test has a folder of its own, in which its files are written and its runs are made. The
answers are compared with a second reading, crates/test_hiding/reading.py, and the examples of a page are run in the project's folder.
"""
import os
import re
import select
import subprocess
import sys
import tempfile
from functools import cache

HERE = os.path.dirname(os.path.abspath(__file__))
TOP = os.path.dirname(HERE)
SCRIPT = ["bash", os.path.join(TOP, "notes.sh")]
sys.path.insert(0, os.path.join(TOP, "crates", "test_hiding"))
LIMIT = 120
# The verbs, and the headings of their tables.
HEADINGS = {
    "check": ["file", "line", "number", "place", "refused", "note"],
    "compare": ["file", "line", "item", "part", "original", "port", "text"],
    "convert": ["file", "line", "number", "place", "kept", "note"],
    "duplicates": ["group", "file", "line", "form", "note"],
    "join": ["line", "file", "number", "place", "note"],
    "keys": ["key", "file", "line"],
    "withhold": ["file", "line", "number", "place", "note"],
}
ESCAPES = {b"\\\\": b"\\", b"\\t": b"\t", b"\\n": b"\n", b"\\r": b"\r"}
# What is said of a file that cannot be read, and of one with CR or a byte order mark.
GONE = "is not there: name a file of notes, or - for standard input"
FOLDER = "is a folder: name a file of notes"
CR = "every line ends in CR, which is a character of each note here; to take it out of a file: sed 's/\\r$//' FILE"
MARK = "it begins with a byte order mark, which is a character of its first note here; to take it out: sed '1s/^\\xEF\\xBB\\xBF//' FILE"
# What is said of the notes that are refused, as text and with --tsv, and of an output that cannot be written.
EMPTY_LINES = "each of them is an empty line of the output"
ROWS = "their rows have the number and the place"
FULL = b"notes.sh: standard output cannot be written: No space left on device (os error 28)\n"
BROKEN = b"notes.sh: standard output cannot be written: Broken pipe (os error 32)\n"
# What is other than it should be, how many outcomes and answers were looked at, and the test's folder.
faults = []
count = answers = 0
folder = None


# Outcomes


def expect(name, got, wanted):
    """One outcome: what was printed, what was said, the status."""
    global count
    count += 1
    if got != wanted:
        faults.append(f"{name}: {shown(got)}, and wanted was {shown(wanted)}")


def shown(outcome):
    """An outcome, to be read by a person; of a long one the beginning."""
    if isinstance(outcome, (tuple, list)):
        return "(" + ", ".join(map(shown, outcome[:20])) + ")"
    told = repr(outcome)
    return told if len(told) <= 500 else f"{told[:250]} and so on, {len(told):,} signs in all"


def said(*lines):
    """Lines that notes.sh says of itself."""
    return "".join(f"notes.sh: {line}\n" for line in lines).encode()


# Runs


def start(words, command=SCRIPT, **more):
    """A run that was begun, in the test's folder."""
    more = {"stdin": subprocess.DEVNULL, "stdout": subprocess.PIPE, "stderr": subprocess.PIPE, "cwd": folder, **more}
    return subprocess.Popen([*command, *words], **more)


def outcome(process, data=None, limit=LIMIT):
    """What a run that was begun printed and said, and its status; `data` is what is left of its input."""
    try:
        out, err = process.communicate(data, timeout=limit)
    except subprocess.TimeoutExpired:
        process.kill()
        raise
    return out, err, process.returncode


def run(words, data=b"", command=SCRIPT, **more):
    """A run on input from a pipe."""
    return outcome(start(words, command, stdin=subprocess.PIPE, **more), data)


def by_shell(words, data=b""):
    """A run with what only a shell makes; notes.sh is called in it as notes."""
    return run(["-c", f'notes() {{ bash "$0" "$@"; }}; {words}', SCRIPT[1]], data, ["bash"])


def not_understood(words, told):
    """A run on words that are not understood, and what is said of them."""
    expect(f"the words {words}", run(words), (b"", said(told, f"'bash notes.sh {words[0]} --help' says how it is used"), 2))


def path(name):
    """Where a file of the test's folder is."""
    return os.path.join(folder, os.fsdecode(name))


def file(name, data):
    """Writes a file into the test's folder: its name."""
    with open(path(name), "wb") as written:
        written.write(data)
    return name


def with_lf(lines):
    """Lines, each with its LF."""
    return b"".join(line + b"\n" for line in lines)


def give(process, data):
    """Gives a run some of its input; one that has ended takes none."""
    try:
        process.stdin.write(data)
    except BrokenPipeError:
        pass


def next_line(stream):
    """The next line of a pipe, or what came of it in ten seconds."""
    line = b""
    while not line.endswith(b"\n") and select.select([stream], [], [], 10)[0]:
        byte = stream.read(1)
        if not byte:
            break
        line += byte
    return line


def without_more(process):
    """A run whose input is ended."""
    process.stdin.close()
    process.stdin = None
    return process


# Tables


def plain(cell):
    """A cell of a table with its escapes undone; one that is none is told."""
    return re.sub(rb"(?s)\\.?", lambda escape: ESCAPES.get(escape[0], b"<no escape: " + escape[0] + b">"), cell)


def escaped(cell):
    """A cell as a table has it."""
    return re.sub(rb"[\\\t\n\r]", lambda byte: next(escape for escape, plain in ESCAPES.items() if plain == byte[0]), cell)


def heading(verb):
    """The first line of a verb's table."""
    return "\t".join(HEADINGS[verb]).encode() + b"\n"


def table(verb, out):
    """The rows of a verb's table under their heading, escapes undone; whoever finds no table there finds no rows."""
    lines = out.split(b"\n")
    rows = [line.split(b"\t") for line in lines[1:-1]]
    odd = [row for row in rows if len(row) != len(HEADINGS[verb]) or any(escaped(plain(cell)) != cell for cell in row)]
    expect(f"the table of {verb}: its heading, its end, a row that is none", (lines[0] + b"\n", lines[-1], odd[:1]), (heading(verb), b"", []))
    return [[plain(cell) for cell in row] for row in rows if len(row) == len(HEADINGS[verb])]


# Pages


def document(name):
    """A document of the project, by its path from there."""
    with open(os.path.join(TOP, name), encoding="utf-8") as opened:
        return opened.read()


def examples(page):
    """The commands of a page, each with what it prints."""
    command, lines = None, []
    for line in [*page.split("\n"), "the end"]:
        if command and (line == "" or line.startswith("    ")) and not line.startswith("    $ "):
            lines.append(line[4:])
            continue
        if command:
            yield command, "\n".join([*lines, ""]).rstrip("\n") + "\n" * any(lines)
        command, lines = line[6:] if line.startswith("    $ ") else None, []


def run_examples(name, page):
    """The commands of a page, run in the project's folder."""
    commands = list(examples(page))
    expect(f"{name} has an example", bool(commands), True)
    for command, printed in commands:
        out, _, _ = outcome(start(["-c", command], ["bash"], stderr=subprocess.STDOUT, cwd=TOP))
        expect(f"{name}: {command}", out.decode(errors="replace"), printed)


# The second reading


def reading():
    """The second reading."""
    import reading
    return reading


@cache
def sentence(form, line):
    """The second reading of a line: its sentence, or what refuses it."""
    return reading().read_line(line, form[0].upper())


def line_of(form, sentence):
    """The line of a form that a sentence is written as, by the writers beside the second reading."""
    from reference import WRITERS
    return WRITERS[form[0].upper()](sentence).encode()


def beside(name, asked, got, wanted):
    """Answers beside those of the second reading; the first that differs is told with what was asked."""
    count_answers(len(wanted))
    for question, told, right in zip(asked, got, wanted):
        if told != right:
            faults.append(f"{name}: {shown(question)}: the tool has {shown(told)}, the second reading {shown(right)}")
            break
    expect(f"{name}: how many answers there are", len(got), len(wanted))


def count_answers(number):
    """Counts answers that are held to the second reading."""
    global answers
    answers += number


# A test, from its words to its status


def can_run(*verbs):
    """Sees to it that notes.sh does what it is asked here. The first calls may build, which takes its time."""
    for verb in verbs:
        _, err, status = outcome(start([verb, "raw", os.devnull]), limit=None)
        if status != 0:
            raise OSError(f"notes.sh {verb} cannot be run (status {status}): {err.decode(errors='replace')}")


def run_parts(parts):
    """Runs the parts of a test, in a folder that is there as long as they run."""
    global folder
    with tempfile.TemporaryDirectory() as folder:
        for part in parts:
            try:
                part()
            except (LookupError, ValueError) as error:
                faults.append(f"{part.__doc__} What is printed there cannot be read: {error!r}")


def tell(called, answered):
    """Tells what was found, 20 outcomes at most, and how much was looked at, by what was called and what it answered: the status."""
    for fault in faults[:20]:
        print(fault)
    print(f"{count} outcomes of {called} looked at, {answers} {answered} beside a second reading, {len(faults)} other than they should be")
    return 1 if faults else 0


def main(usage, needs, parts, called, answered):
    """Runs a test and ends it. `needs` fails where something is missing that the parts need."""
    try:
        if len(sys.argv) > 1:
            is_asked = sys.argv[1:] == ["--help"]
            print(usage.strip(), file=sys.stdout if is_asked else sys.stderr)
            sys.exit(0 if is_asked else 2)
        needs()
        reading()
        run_parts(parts)
        sys.exit(tell(called, answered))
    except (ImportError, OSError, subprocess.SubprocessError) as error:
        print(f"{os.path.basename(sys.argv[0])}: {error}", file=sys.stderr)
        sys.exit(2)
