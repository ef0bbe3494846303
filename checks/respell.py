"""respell.sh on input that arrives in any pieces, and on files and devices that fail: what is printed, what is said, and the status.

The lines asked and their answers are document 01's own; the answers to overlong lines are those of its table of refusals, and those to lines around
2,048 cells, characters times columns, are document 02's.
"""
import array
import fcntl
import os
import socket
import subprocess
import sys
import tempfile
import termios
import time

HERE = os.path.dirname(os.path.dirname(os.path.abspath(__file__)))
SCRIPT = ["bash", os.path.join(HERE, "respell.sh")]
LIMIT = 60
LINES = [
    (b"TPa/x b", b"=a/x|b/"),
    (b"PTa-b|c", b"=ab c"),
    (b"PTa b", b"="),
    (b"PPa/-b", b"=a-b/"),
    (b"TPa  b", b"!6 2"),
    (b"PP", b"!3 0"),
    (b"PTa\\", b"=a"),
    (b"QPa", b"!16 0"),
]
ASKED = b"".join(line + b"\n" for line, _ in LINES)
WANTED = b"".join(answer + b"\n" for _, answer in LINES)
faults = []
count = 0


def expect(name, got, wanted):
    """One outcome: what was printed, what was said, the status."""
    global count
    count += 1
    if got != wanted:
        faults.append(f"{name}: {got!r}, and wanted was {wanted!r}"[:2000])


def waiting(fd):
    """How many bytes of a pipe nobody has read yet."""
    size = array.array("i", [0])
    fcntl.ioctl(fd, termios.FIONREAD, size)
    return size[0]


def drained(fd, process):
    """Waits until all that was written to a pipe has been read."""
    end = time.monotonic() + LIMIT
    while waiting(fd) and process.poll() is None and time.monotonic() < end:
        time.sleep(0.0005)


def outcome(process):
    out, err = process.communicate(timeout=LIMIT)
    return out, err, process.returncode


def start(words=(), **files):
    files = {"stdin": subprocess.DEVNULL, "stdout": subprocess.PIPE, "stderr": subprocess.PIPE, **files}
    return subprocess.Popen([*SCRIPT, *words], **files)


def whole(data, words=()):
    """All of the input at once, from a file."""
    with tempfile.TemporaryFile() as file:
        file.write(data)
        file.seek(0)
        return outcome(start(words, stdin=file))


def pieces(parts, hasty=False):
    """The parts one by one, each written when the one before it has been read; a hasty end does not wait for the next one."""
    reads, writes = os.pipe()
    os.set_blocking(reads, not hasty)
    with tempfile.TemporaryFile() as out, tempfile.TemporaryFile() as err:
        process = start(stdin=reads, stdout=out, stderr=err)
        os.close(reads)
        for part in parts:
            os.write(writes, part)
            drained(writes, process)
            if hasty:
                time.sleep(0.2)
        os.close(writes)
        process.wait(LIMIT)
        out.seek(0)
        err.seek(0)
        return out.read(), err.read(), process.returncode


def broken(data):
    """An input that answers, once the data is read, that it would block."""
    ours, theirs = socket.socketpair()
    theirs.setblocking(False)
    ours.sendall(data)
    with ours, theirs:
        return outcome(start(stdin=theirs))


def arrivals():
    expect("no input", whole(b""), (b"", b"", 0))
    expect("document 01's lines", whole(ASKED), (WANTED, b"", 0))
    expect("the last line without LF", whole(ASKED[:-1]), (WANTED, b"", 0))
    expect("one line without LF", whole(b"TPa/x b"), (b"=a/x|b/\n", b"", 0))
    expect("an LF alone", whole(b"\n"), (b"!16 0\n", b"", 0))
    expect("one letter at the end", whole(b"TPa\nP"), (b"=a\n!16 0\n", b"", 0))
    expect("byte by byte", pieces([ASKED[i:i + 1] for i in range(len(ASKED) - 1)]), (WANTED, b"", 0))
    for i in range(1, len(ASKED)):
        expect(f"split at {i}", pieces([ASKED[:i], ASKED[i:]]), (WANTED, b"", 0))
    many = 40000
    expect("many lines", whole(ASKED * (many // 8)), (WANTED * (many // 8), b"", 0))


def long_lines():
    for n in (4096, 4097, 4098, 4099, 4100, 65534, 65535, 65536, 65537, 200000):
        line = b"PT" + b"a" * (n - 2)
        answer = b"!9 1\n" if n - 2 <= 4096 else b"!1 4096\n"
        expect(f"a line of {n} bytes", whole(line + b"\n" + ASKED), (answer + WANTED, b"", 0))
        expect(f"a line of {n} bytes without LF", whole(ASKED + line), (WANTED + answer, b"", 0))
    for n in (4097, 4098, 4099, 4100, 5000):
        line = b"QT" + b"a" * (n - 2)
        expect(f"a line of {n} bytes in no form", pieces([line[:4098], line[4098:] + b"\n", ASKED]), (b"!16 0\n" + WANTED, b"", 0))
        line = b"RT" + b"a" * (n - 2)
        answer = b"=\n" if n - 2 <= 4096 else b"!1 4096\n"
        for cut in (1, 4096, 4097, 4098, 4099):
            if cut < n:
                expect(f"a line of {n} bytes split at {cut}", pieces([line[:cut], line[cut:], b"\n" + ASKED]), (answer + WANTED, b"", 0))


def many_cells():
    """11 for over 2,048 cells, after all that the reader refuses and before 12."""
    lines = [
        (b"TP" + b"b" * 45 + b"/" * 46, b"!11 0"),
        (b"TP" + b"b" * 45 + b"/" * 45, b"=" + b"-".join([b"b"] * 45) + b"/" * 45),
        (b"TPb b" + b"/" * 1024, b"=b" + b"/" * 1024 + b"|b" + b"/" * 1024),
        (b"TPb b" + b"/" * 1025, b"!11 0"),
        (b"PTb|b" + b"/" * 1024, b"=b" + b"/" * 1024 + b" b" + b"/" * 1024),
        (b"PTb|b" + b"/" * 1025, b"!11 0"),
        (b"TT" + b"b" * 1024 + b"//x", b"=" + b"b" * 1024 + b"//x"),
        (b"TT" + b"b" * 1025 + b"//x", b"!11 0"),
        (b"RT" + b"b" * 45 + b"/" * 46, b"="),
        (b"TP" + b"b" * 45 + b"/" * 46 + b"\0", b"!4 91"),
        (b"TP" + b"b" * 45 + b"/" * 46 + b" ", b"!8 92"),
        (b"PT" + b"b" * 45 + b"/" * 46, b"!9 1"),
        (b"TR" + b"b" * 45 + b"/" * 46, b"!16 0"),
        (b"TP" + b" ".join([b"b"] * 91) + b"/" * 91, b"!11 0"),
        (b"TP" + b" ".join([b"b"] * 40) + b"/" * 51 + b"-" * 3966, b"!12 10051"),
    ]
    got, err, status = whole(b"".join(line + b"\n" for line, _ in lines))
    for (line, wanted), told in zip(lines, got.split(b"\n")):
        expect(f"cells: {line[:80]!r}, {len(line)} bytes", told, wanted)
    expect("cells: how many answers, what is said, the status", (got.count(b"\n"), err, status), (len(lines), b"", 0))


def inputs_that_fail():
    folder = os.open("/", os.O_RDONLY)
    expect("a folder as input", outcome(start(stdin=folder)), (b"", b"respell: standard input: Is a directory\n", 1))
    os.close(folder)
    closed = subprocess.run(["bash", "-c", 'exec bash "$0" <&-', SCRIPT[1]], capture_output=True, timeout=LIMIT)
    expect("a closed input", (closed.stdout, closed.stderr, closed.returncode), (b"", b"respell.sh: standard input is closed\n", 1))
    blocked = b"respell: standard input: Resource temporarily unavailable\n"
    expect("an input that would block", broken(b"TPa/x b\nPTa-"), (b"=a/x|b/\n", blocked, 1))
    expect("an overlong line whose end does not come", broken(b"TPa/x b\nRT" + b"a" * 5000), (b"=a/x|b/\n", blocked, 1))
    expect("a hasty pipe as input", pieces([ASKED[:3], ASKED[3:20], ASKED[20:]], True), (WANTED, b"", 0))


def outputs_that_fail():
    with open("/dev/full", "wb") as full:
        got = outcome(start(stdin=subprocess.PIPE, stdout=full))
        expect("a full device, and no input", got, (None, b"", 0))
        process = start(stdin=subprocess.PIPE, stdout=full)
        _, err = process.communicate(ASKED, timeout=LIMIT)
        expect("a full device", (err, process.returncode), (b"respell: standard output: No space left on device\n", 1))
    closed = subprocess.run(["bash", "-c", 'exec bash "$0" >&-', SCRIPT[1]], input=ASKED, capture_output=True, timeout=LIMIT)
    expect("a closed output", (closed.stdout, closed.stderr, closed.returncode), (b"", b"respell.sh: standard output is closed\n", 1))
    with tempfile.TemporaryFile() as file:
        file.write(ASKED * 20000)
        file.seek(0)
        process = start(stdin=file)
        first = process.stdout.read(100)
        process.stdout.close()
        err = process.stderr.read()
        expect("a reader that stops early", (first, err, process.wait(LIMIT)),
               ((WANTED * 20)[:100], b"respell: standard output: Broken pipe\n", 1))
        file.seek(0)
        reads, writes = os.pipe()
        os.set_blocking(writes, False)
        process = start(stdin=file, stdout=writes)
        os.close(writes)
        time.sleep(0.5)
        with os.fdopen(reads, "rb") as pipe:
            out = pipe.read()
        expect("a hasty pipe as output, and a slow reader", (out == WANTED * 20000, process.stderr.read(), process.wait(LIMIT)), (True, b"", 0))
        file.seek(0)
        ours, theirs = socket.socketpair()
        theirs.setblocking(False)
        process = start(stdin=file, stdout=theirs)
        theirs.close()
        err = process.stderr.read()
        status = process.wait(LIMIT)
        out = b""
        with ours:
            while part := ours.recv(65536):
                out += part
        expect("an output that would block", (out != b"" and (WANTED * 20000).startswith(out), err, status),
               (True, b"respell: standard output: Resource temporarily unavailable\n", 1))


def words():
    out, err, status = outcome(start(["--help"]))
    expect("--help", (out.startswith(b"usage: bash respell.sh [FILE]\n"), err, status), (True, b"", 0))
    expect("-h", outcome(start(["-h"])), (out, b"", 0))
    expect("an unknown word", outcome(start(["--bytes"])), (b"", b"respell.sh: unknown word '--bytes'; --help says how it is used\n", 2))
    expect("two files", outcome(start(["/dev/null", "b"])), (b"", b"respell.sh: one file at most: 'b' is one too many; --help says how it is used\n", 2))
    with tempfile.TemporaryDirectory() as folder:
        expect("a folder", outcome(start([folder])), (b"", f"respell.sh: '{folder}' is a folder\n".encode(), 2))
        name = os.path.join(folder, "notes with blanks")
        expect("a file that is not there", outcome(start([name])), (b"", f"respell.sh: '{name}' cannot be read\n".encode(), 2))
        with open(name, "wb") as file:
            file.write(ASKED)
        expect("a file", outcome(start([name])), (WANTED, b"", 0))


whole(b"")
arrivals()
long_lines()
many_cells()
inputs_that_fail()
outputs_that_fail()
words()
for fault in faults[:20]:
    print(fault)
print(f"{count} outcomes of respell.sh, {len(faults)} other than they should be")
sys.exit(1 if faults else 0)
