#!/usr/bin/env python3
"""Runs the built checker where the system refuses something, and compares the line and the exit status with those of the
README's table. Prints each difference; where there is one, the exit status is 1.

Usage: bench/edges.py
"""

import os
import subprocess
import sys
import tempfile

from bench import CHECKER

FORMULA = b"p cnf 2 1\na 1 0\nd 2 1 0\n1 2 0\n"
CERTIFICATE = b"aag 1 1 0 1 0\n2\n3\n"

ABSENT = "no such folder/no such file"


def run(words, stdout=subprocess.PIPE):
    """What a run with these words writes, and its exit status."""
    done = subprocess.run([CHECKER, *words], stdout=stdout, check=False)
    return (done.stdout or b"").decode(), done.returncode


def cases(folder):
    """Each case: what it shows, the words, and what is written with which status."""
    formula = os.path.join(folder, "formula.dqdimacs")
    certificate = os.path.join(folder, "certificate.aag")
    for path, text in ((formula, FORMULA), (certificate, CERTIFICATE)):
        with open(path, "wb") as file:
            file.write(text)
    yield "two files", [formula, certificate], ("VALID TRUE\n", 0)
    yield "an absent formula", [ABSENT, certificate], ("source fault\n", 3)
    yield "an absent certificate", [formula, ABSENT], ("source fault\n", 3)
    yield "a folder for a formula", [folder, certificate], ("source fault\n", 3)
    yield "a folder for a certificate", [formula, folder], ("source fault\n", 3)
    yield "one word", [formula], ("usage: dqcheck FORMULA CERT\n", 1)


def main():
    if sys.argv[1:] == ["--help"]:
        print(__doc__.strip())
        return 0
    differences = 0
    with tempfile.TemporaryDirectory() as folder:
        for shows, words, due in cases(folder):
            found = run(words)
            if found != due:
                print(f"{shows}: {found} in place of {due}")
                differences += 1
        with open("/dev/full", "wb") as full:
            status = run([os.path.join(folder, "formula.dqdimacs"), os.path.join(folder, "certificate.aag")], full)[1]
        if status != 4:
            print(f"a full device: status {status} in place of 4")
            differences += 1
    print(f"{differences} differences")
    return 1 if differences else 0


if __name__ == "__main__":
    sys.exit(main())
