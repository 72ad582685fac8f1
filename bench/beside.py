#!/usr/bin/env python3
"""Runs the built solver beside another one on formulas of the families of families.py, at sizes that double as long as one of both decides
them: the other solver within a few seconds, the built one within ten times as many. Prints a line for each formula: both verdicts and
seconds, and the rows of a refutation or the gates of a circuit, whose certificate the built checker judges. Behind them stand how many of
the formulas that the other one decides the built one does too, those that it loses, the geometric mean of how many times the other's time
it takes where both decide, and up to which sizes it alone decides. Verdicts that differ, or a certificate that isn't VALID, end the run with 1.

Usage: bench/beside.py --beside PROGRAM [--seconds N] [--seed N] [--summary] [--csv FILE] [FAMILY..]

The PROGRAM is told a file in DQDIMACS, and ends with 10 or 20. The variables DQSOLVE and DQCHECK, or flags, name the programs.
"""

import argparse
import csv
import itertools
import math
import os
import resource
import subprocess
import sys
import tempfile
import textwrap

from bench import CHECKER
from decisions import SOLVER
from families import FAMILIES, formula_of
from solve import facts

VERDICTS = {10: "TRUE", 20: "FALSE"}
STEPS = "1000000000"
# The built solver may take so many times the seconds of the other one.
TIMES = 10
# Shorter times aren't told apart.
SHORTEST = 0.02
# From here on a time tells something of the search.
TELLING = 0.1
WIDTH = 118
COLUMNS = ["family", "size", "seed", "other", "other_seconds", "verdict", "seconds", "rows", "gates"]


class Fault(Exception):
    pass


def run(command, output, limit):
    """The verdict, or None, and the processor seconds of a command that may take so many of them."""
    before = resource.getrusage(resource.RUSAGE_CHILDREN).ru_utime

    def bound():
        resource.setrlimit(resource.RLIMIT_CPU, (math.ceil(limit), math.ceil(limit) + 1))

    with open(output, "wb") as sink:
        done = subprocess.run(command, stdout=sink, stderr=subprocess.DEVNULL, preexec_fn=bound, check=False)
    seconds = resource.getrusage(resource.RUSAGE_CHILDREN).ru_utime - before
    return VERDICTS.get(done.returncode), seconds


class Beside:
    """Runs of both solvers in a folder, with their rows so far."""

    def __init__(self, words, folder, sink):
        self.words, self.folder, self.rows = words, folder, []
        self.csv = csv.DictWriter(sink, COLUMNS, restval="") if sink else None
        if self.csv:
            self.csv.writeheader()

    def path(self, name):
        return os.path.join(self.folder, name)

    def measure(self, family, size):
        """Whether one of both decides a formula."""
        formula, expected = formula_of(family, size, self.words.seed, "forward")
        path, certificate = self.path("formula"), self.path("certificate")
        with open(path, "w", encoding="ascii") as file:
            file.write(formula.text())
        row = {"family": family, "size": size, "seed": self.words.seed}
        row["other"], row["other_seconds"] = run([self.words.beside, path], self.path("other"), self.words.seconds)
        solve = [self.words.solver, "solve", "--steps", STEPS, path]
        row["verdict"], row["seconds"] = run(solve, certificate, TIMES * self.words.seconds if row["other"] else self.words.seconds)
        if len({expected or None, row["other"], row["verdict"]} - {None}) > 1:
            raise Fault(f"{family} {size}: the generator says {expected}, the other {row['other']}, the solver {row['verdict']}")
        if row["verdict"]:
            judged = subprocess.run([self.words.checker, path, certificate], stdout=subprocess.PIPE, check=False).stdout.decode().strip()
            if judged != f"VALID {row['verdict']}":
                raise Fault(f"{family} {size}: the checker says {judged}")
            found = facts(certificate)
            row |= {name: found[name] for name in ("rows", "gates") if name in found}
        self.keep(row)
        return bool(row["other"] or row["verdict"])

    def keep(self, row):
        self.rows.append(row)
        shown = {name: f"{it:.2f}" if isinstance(it, float) else str("-" if it is None else it) for name, it in row.items()}
        if self.csv:
            self.csv.writerow(shown)
        if self.words.summary:
            return
        print(f"{shown['family']:16} {shown['size']:>6} beside {shown['other']:5} {shown['other_seconds']:>6}", end="")
        print(f" dqsolve {shown['verdict']:5} {shown['seconds']:>6} {shown.get('rows', ''):>6} {shown.get('gates', ''):>7}", flush=True)

    def family(self, family):
        for size in (FAMILIES[family][1] << k for k in itertools.count()):
            if size > self.words.largest or not self.measure(family, size):
                return

    def summary(self):
        """What the runs say together."""
        due = [row for row in self.rows if row["other"]]
        both = [row for row in due if row["verdict"]]
        lost = [f"{row['family']} {row['size']}" for row in due if not row["verdict"]]
        alone = {row["family"]: f"{row['family']} to {row['size']}" for row in self.rows if row["verdict"] and not row["other"]}
        print(f"{len(both)} of {len(due)} that the other decides; lost: {', '.join(lost) or 'none'}")
        for least in (0, TELLING):
            print_mean([row for row in both if max(row["seconds"], row["other_seconds"]) >= least], least)
        print(textwrap.fill(f"alone: {', '.join(alone.values()) or 'none'}", WIDTH, subsequent_indent="  "))


def print_mean(rows, least):
    """How many times the other's time is taken, where one of both takes so many seconds at least."""
    if rows:
        logs = [math.log(max(row["seconds"], SHORTEST) / max(row["other_seconds"], SHORTEST)) for row in rows]
        print(f"{math.exp(sum(logs) / len(logs)):.2f} times its time, in the geometric mean of {len(rows)} of {least} seconds or more")


def words_of(arguments):
    reader = argparse.ArgumentParser(description=__doc__.split("\n\n")[0])
    reader.add_argument("families", nargs="*", metavar="FAMILY", help="families whose names begin so; all where there is none")
    reader.add_argument("--beside", required=True, metavar="PROGRAM", help="the other solver")
    reader.add_argument("--seconds", type=float, default=3, metavar="N", help="of the other one's processor time (3)")
    reader.add_argument("--largest", type=int, default=1 << 14, metavar="N", help="the largest size (2^14)")
    reader.add_argument("--seed", type=int, default=1, metavar="N", help="of the formulas (1)")
    reader.add_argument("--summary", action="store_true", help="tell what the runs say together, and none of them")
    reader.add_argument("--csv", metavar="FILE", help="where the table is written")
    reader.add_argument("--solver", default=SOLVER, metavar="FILE", help="the built dqsolve")
    reader.add_argument("--checker", default=CHECKER, metavar="FILE", help="the built dqcheck")
    return reader.parse_args(arguments)


def main(arguments):
    words = words_of(arguments)
    sink = open(words.csv, "w", newline="", encoding="ascii") if words.csv else None
    with tempfile.TemporaryDirectory() as folder:
        beside = Beside(words, folder, sink)
        try:
            for family in FAMILIES:
                if not words.families or any(family.startswith(name) for name in words.families):
                    beside.family(family)
        except Fault as fault:
            print(fault)
            return 1
        finally:
            if sink:
                sink.close()
    beside.summary()
    return 0


if __name__ == "__main__":
    sys.exit(main(sys.argv[1:]))
