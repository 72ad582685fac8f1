#!/usr/bin/env python3
"""Solves each family's formula, families.py's, in every form of its clauses and declarations, and tells how many times the processor
seconds of the quickest form the slowest one takes: no order in which a text has its clauses is to matter. Verdicts of the forms that
differ, from each other or from what the generator knows, are told, and the script then ends with 1.

Usage: bench/orders.py [--limit SECONDS] [--least SECONDS] [FAMILY..]     all families, or those whose names begin with a FAMILY

A family's size doubles from its least one until some form takes `--least` seconds, 0.1, or one isn't decided within the limit, 10. The
variable DQSOLVE names the program.
"""

import argparse
import os
import resource
import subprocess
import sys
import tempfile

from decisions import SOLVER
from families import FAMILIES, FORMS, formula_of

VERDICTS = {10: "TRUE", 20: "FALSE"}
LARGEST = 4096


def run(path, limit):
    """The verdict, or None, and the processor seconds."""
    limits = lambda: resource.setrlimit(resource.RLIMIT_CPU, (limit, limit))
    process = subprocess.Popen([SOLVER, "solve", path], stdout=subprocess.DEVNULL, stderr=subprocess.DEVNULL, preexec_fn=limits)
    _, status, usage = os.wait4(process.pid, 0)
    process.returncode = os.waitstatus_to_exitcode(status)
    return VERDICTS.get(process.returncode), usage.ru_utime + usage.ru_stime


def runs(folder, family, size, limit):
    """Verdict and seconds of each form, and the verdict that the generator knows, if any."""
    taken, known = {}, None
    for form in FORMS:
        formula, known = formula_of(family, size, 1, form)
        path = os.path.join(folder, "formula")
        with open(path, "w", encoding="ascii") as file:
            file.write(formula.text())
        taken[form] = run(path, limit)
    return taken, known


def told(family, size, taken):
    """The family's line."""
    seconds = {form: spent for form, (verdict, spent) in taken.items() if verdict is not None}
    cells = " ".join(f"{seconds[form]:9.2f} s" if form in seconds else f"{'–':>11}" for form in FORMS)
    least = max(min(seconds.values(), default=0), 0.01)
    times = f"{max(seconds.values()) / least:6.1f}" if len(seconds) == len(FORMS) else "  lost"
    return f"{family:18} {size:5} {cells} {times}"


def measure(folder, family, words):
    """Doubles the size and tells the last run; answers whether all verdicts are right."""
    size = FAMILIES[family][1]
    while True:
        taken, known = runs(folder, family, size, words.limit)
        verdicts = {verdict for verdict, _ in taken.values()} - {None}
        if len(verdicts) > 1 or known and verdicts - {known}:
            print(f"{family} {size}: verdicts differ: {taken}, known: {known}", flush=True)
            return False
        slow = any(verdict is None or spent >= words.least for verdict, spent in taken.values())
        if slow or 2 * size > LARGEST:
            print(told(family, size, taken), flush=True)
            return True
        size *= 2


def main():
    parser = argparse.ArgumentParser(description="measures what the order of a text's clauses costs the solver")
    parser.add_argument("--limit", type=int, default=10, metavar="SECONDS", help="processor seconds of a run")
    parser.add_argument("--least", type=float, default=0.1, metavar="SECONDS", help="of the slowest form of the size that is told")
    parser.add_argument("names", nargs="*", metavar="FAMILY", help="what the families' names begin with")
    words = parser.parse_args()
    if not os.path.exists(SOLVER):
        sys.exit(f"{SOLVER} isn't built: run `rt ci` at the top, or name it by DQSOLVE")
    print(f"{'':24} {' '.join(f'{form:>11}' for form in FORMS)}  times")
    with tempfile.TemporaryDirectory() as folder:
        names = [family for family in FAMILIES if not words.names or family.startswith(tuple(words.names))]
        right = [measure(folder, family, words) for family in names]
    if not all(right):
        sys.exit(1)


if __name__ == "__main__":
    main()
