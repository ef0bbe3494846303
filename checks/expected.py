#!/usr/bin/env python3
"""Whether the file `stdout` that a program's output is held to is what its expected.py makes.

Each makes it by itself and takes nothing from the program: `test_vectors` by Python's codec, `test_damaged` and `test_hiding` by documents 01 and 02, `test_cases` by them
and by what the Rust answered (host/recorded). Status 0 where all agree, 1 where one does not. The last line counts what each compared.
"""
import os
import subprocess
import sys

PROGRAMS = ["test_vectors", "test_damaged", "test_cases", "test_hiding"]
ROOT = os.path.join(os.path.dirname(os.path.abspath(__file__)), "..")


def main():
    told, failed = [], False
    for program in PROGRAMS:
        script = os.path.join("crates", program, "expected.py")
        run = subprocess.run([sys.executable, "-B", script, "--check"], cwd=ROOT, capture_output=True, text=True)
        lines = (run.stdout + run.stderr).strip().splitlines()
        if run.returncode != 0 or not lines:
            failed = True
            print(f"{script} --check:", *lines, sep="\n    ")
        told.append(f"{program}: {lines[-1] if lines else 'nothing'}")
    print("; ".join(told))
    return 1 if failed else 0


if __name__ == "__main__":
    sys.exit(main())
