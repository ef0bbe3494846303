"""Times and memory of notes.sh on many drawn notes, beside the same job done with the original: a table in Markdown.

    python3 host/measure.py [N]      N notes of 200 bytes on average; 1,000,000 where it is left out

It builds what it needs by host/link.sh and notes.sh. The notes are drawn by host/both.sh notes, and kept in target/host/measure. Memory is the most that
one process of a job had, time is that of all its processes. What the jobs find is held to each other. Status 0: the table is printed; 1: two jobs do not
find the same; 2: it could not be measured.
"""
import os
import platform
import subprocess
import sys
import time

TOP = os.path.dirname(os.path.dirname(os.path.abspath(__file__)))
WORK = os.path.join(TOP, "target", "host", "measure")
SORT = ["env", "LC_ALL=C", "sort", "--parallel=2", "--buffer-size=1G", f"--temporary-directory={WORK}", "-t", "\t", "-k1,1", "-s"]
# The rows of keys that stand more than once, and how many keys they have.
GROUPS = ["awk", "-F", "\t", "$1 == key { if (!open) { print row; groups++; open = 1 } print } $1 != key { key = $1; row = $0; open = 0 } END { print groups + 0 > \"/dev/stderr\" }"]


def programs():
    """The programs, built: both sides, and the desk."""
    subprocess.run(["bash", f"{TOP}/host/link.sh"], check=True)
    subprocess.run(["bash", f"{TOP}/notes.sh", "check", "raw", "/dev/null"], check=True)
    return f"{TOP}/target/host/x86/both", f"{TOP}/target/host/notes/notes"


def measured(commands, out, status):
    """A pipe of commands: seconds by the clock, seconds of processors, the most memory of each in MB, and what the last says."""
    began, processes, given = time.time(), [], subprocess.DEVNULL
    with open(os.path.join(WORK, "said"), "w+b") as said, open(os.path.join(WORK, out), "wb") as last:
        for i, command in enumerate(commands):
            final = i == len(commands) - 1
            processes.append(subprocess.Popen(command, stdin=given, stdout=last if final else subprocess.PIPE, stderr=said if final else None))
            if not final:
                given = processes[-1].stdout
        for process in processes[:-1]:
            process.stdout.close()
        ends = [os.wait4(process.pid, 0) for process in processes]
        clock = time.time() - began
        said.seek(0)
        words = said.read().decode(errors="replace").strip()
    ended = [os.waitstatus_to_exitcode(wait) for _, wait, _ in ends]
    if ended[-1] != status or any(ended[:-1]):
        raise OSError(f"{' | '.join(' '.join(c) for c in commands)}: status {ended}: {words}")
    return clock, sum(u.ru_utime + u.ru_stime for _, _, u in ends), [round(u.ru_maxrss / 1024) for _, _, u in ends], words


def row(name, clock, busy, memory):
    print(f"| {name} | {clock:.1f} | {busy:.1f} | {', '.join(f'{m:,}' for m in memory)} |", flush=True)


def main(words):
    if words and (words[0] == "--help" or not words[0].isdigit() or len(words) > 1):
        print(__doc__.strip(), file=sys.stdout if words[0] == "--help" else sys.stderr)
        return 0 if words[0] == "--help" else 2
    count = int(words[0]) if words else 1_000_000
    os.makedirs(WORK, exist_ok=True)
    both, notes = programs()
    file = os.path.join(WORK, f"{count}.txt")
    with open(file, "wb") as out:
        subprocess.run([both, "notes", str(count)], stdout=out, check=True)
    print(f"{count:,} tokenized notes, {os.path.getsize(file) / 1e6:,.0f} MB; {platform.machine()}, {os.cpu_count()} processors.\n")
    print("| job | seconds | of processors | MB |\n|---|---|---|---|")
    for verb in (["check", "T", file], ["convert", "T", "P", file], ["keys", "T", file], ["join", "T", file, file]):
        row(f"`notes.sh {' '.join(word for word in verb if word != file)}`", *measured([[notes, *verb]], "out", 0)[:3])
    *figures, said = measured([[notes, "duplicates", "T", file]], "found", 1)
    row("`notes.sh duplicates T`", *figures)
    *figures, groups = measured([[notes, "keys", "T", file], SORT, GROUPS], "grouped", 0)
    row("`notes.sh keys T`, `sort`, groups by `awk`", *figures)
    *figures, _ = measured([[both, "duplicates", file]], "original", 0)
    row("the original: read, write partial, sort", *figures)
    print(f"\n`duplicates`: {said.splitlines()[-1]}\n`keys` and `sort`: {int(groups):,} keys stand more than once")
    os.remove(file)
    if f" {int(groups):,} notes stand more than once" not in " " + said:
        print("the two do not find the same")
        return 1
    return 0


try:
    sys.exit(main(sys.argv[1:]))
except (OSError, ValueError, subprocess.CalledProcessError) as error:
    print(f"measure.py: {error}", file=sys.stderr)
    sys.exit(2)
