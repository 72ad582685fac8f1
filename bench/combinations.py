#!/usr/bin/env python3
"""Runs the built solver on every formula of its cases and of examples/, with `--bare`, `--v2`, `--prep` and `--binary` in all
combinations. The verdict has to be the same in each, and the certificate is judged by the built checker and by the second
judge, reference.py; what is said of a text that is refused has to be the same too.

Usage: bench/combinations.py [FORMULA..]     those formulas, in place of the cases and the examples

The variables DQSOLVE and DQCHECK name the programs.
"""

import glob
import itertools
import os
import sys
import tempfile

import reference
from bench import TOP
from cuts import text_of
from decisions import check, solve

OPTIONS = ("--bare", "--v2", "--prep", "--binary")
COMBINATIONS = [words for n in range(len(OPTIONS) + 1) for words in itertools.combinations(OPTIONS, n)]
VERDICTS = {10: "TRUE", 20: "FALSE"}


def case_formulas():
    """The formulas of the solver's cases."""
    with open(os.path.join(TOP, "crates", "run_cases", "data", "dqsolve"), encoding="utf-8") as file:
        for line in file:
            word, _, spelled = line.rstrip("\n").partition(" ")
            if word == "formula":
                yield text_of(spelled)


def file_formulas(paths):
    for path in paths:
        with open(path, "rb") as file:
            yield file.read()


def faults_of(folder, path, text):
    """What is wrong with the answers to a text, as a list of sentences, and its verdict, if it has one."""
    plain, status = solve(path)
    verdict, faults = VERDICTS.get(status), []
    for words in COMBINATIONS:
        certificate, found = solve(path, *words)
        said = f"with {' '.join(words) or 'no option'}"
        if found != status:
            faults.append(f"{said} the status is {found}, and {status} without")
        elif verdict is None:
            faults += [] if status == 0 or certificate == plain else [f"{said} the solver says {certificate}"]
        else:
            judges = {check(folder, path, certificate), reference.answer(text, certificate)}
            faults += [] if judges == {f"VALID {verdict}"} else [f"{said} the judges say {judges}"]
            faults += [] if "--bare" in words or certificate.startswith(b"s ") else [f"{said} no line has the verdict"]
    return faults, verdict


def main(words):
    if "--help" in words:
        print(__doc__.strip())
        return 0
    texts = file_formulas(words) if words else itertools.chain(
        case_formulas(), file_formulas(sorted(glob.glob(os.path.join(TOP, "examples", "*.dqdimacs"))))
    )
    counts, differences = {}, 0
    with tempfile.TemporaryDirectory() as folder:
        path = os.path.join(folder, "formula")
        for text in texts:
            with open(path, "wb") as file:
                file.write(text)
            faults, verdict = faults_of(folder, path, text)
            counts[verdict] = counts.get(verdict, 0) + 1
            if faults:
                differences += 1
                print(text.decode(errors="replace"), *faults, sep="\n  ")
    print(f"{counts}, {len(COMBINATIONS)} combinations each, {differences} differences")
    return 1 if differences else 0


if __name__ == "__main__":
    sys.exit(main(sys.argv[1:]))
