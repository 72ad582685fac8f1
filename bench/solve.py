#!/usr/bin/env python3
"""Makes formulas of the families of families.py, runs the built solver on them at sizes that double until a run takes the limit, and has
the built checker judge each certificate. Prints a line for each run: with UNKNOWN the solver's rounds and learned clauses, with a verdict
the rows of the refutation or the gates of the circuit, and the lines of the proof. Other solvers that are on the path run beside it:
pedant, hqs, dqbdd, and depqbf where what existentials see is a chain. A certificate that isn't VALID, or a verdict that differs from
another solver's or from what the generator knows, ends the run with exit status 1, and the files are kept.

Usage: bench/solve.py [--help] [FAMILY..]     all families, or those whose names begin with a FAMILY

The variables DQSOLVE and DQCHECK, or flags, name the programs.
"""

import argparse
import csv
import itertools
import os
import resource
import shutil
import subprocess
import sys
import tempfile
import time

from bench import CHECKER
from decisions import SOLVER, UNKNOWN
from families import FAMILIES, FORMS, formula_of

MOST_VARIABLES, MOST_CLAUSES = 1_000_000, 10_000_000
GIGABYTE = 1_000_000_000
VERDICTS = {10: "TRUE", 20: "FALSE"}
OTHERS = ["pedant", "hqs", "dqbdd", "depqbf"]
COLUMNS = ["family", "size", "form", "seed", "variables", "universals", "clauses", "expected", "solver", "verdict", "seconds", "rounds", "learned"]
COLUMNS += ["rows", "gates", "lines", "bytes", "check_seconds", "check"]
WIDTHS = {"family": -17, "size": 6, "form": -11, "variables": 9, "clauses": 8, "solver": -8, "verdict": -8, "seconds": 8, "rounds": 7, "learned": 8}
WIDTHS |= {"rows": 7, "gates": 8, "lines": 8, "bytes": 10, "check_seconds": 13, "check": -12}


class Bench:
    def __init__(self, words, folder, sink):
        self.words, self.folder = words, folder
        self.others = [name for name in OTHERS if shutil.which(name)]
        self.csv = csv.DictWriter(sink, COLUMNS, restval="") if sink else None
        if self.csv:
            self.csv.writeheader()
        print(" ".join(f"{name:{aligned(width)}}" for name, width in WIDTHS.items()).rstrip())

    def path(self, name):
        return os.path.join(self.folder, name)

    def write(self, name, text):
        with open(self.path(name), "w") as file:
            file.write(text)
        return self.path(name)

    def run(self, command, limit=None):
        """The exit status, or None where the limit was reached, and the seconds; what it writes goes to the file `output`."""
        size = round(self.words.memory * GIGABYTE)
        started = time.perf_counter()
        with open(self.path("output"), "wb") as sink:
            run = subprocess.Popen(command, stdout=sink, stderr=subprocess.DEVNULL)
            resource.prlimit(run.pid, resource.RLIMIT_AS, (size, size))
            try:
                status = run.wait(limit)
            except subprocess.TimeoutExpired:
                run.kill()
                run.wait()
                status = None
        return status, time.perf_counter() - started

    def solve(self, path, row):
        """Fills in what the solver and the checker say, and answers the faults."""
        steps = ["--steps", str(self.words.steps)] if self.words.steps else []
        prep = ["--prep"] if self.words.prep else []
        status, row["seconds"] = self.run([self.words.solver, "solve", *steps, *prep, path], self.words.limit)
        certificate = self.path("certificate")
        os.replace(self.path("output"), certificate)
        row["verdict"] = {**VERDICTS, 0: "UNKNOWN", 5: "memory", 6: "too long", None: "timeout"}.get(status, f"status {status}")
        if status == 0:
            return self.unknown(certificate, row)
        if status not in VERDICTS:
            return [f"the solver's status is {status}"] if row["verdict"].startswith("status") else []
        checked, row["check_seconds"] = self.run([self.words.checker, path, certificate])
        with open(self.path("output")) as file:
            row["check"] = file.read().strip()
        if (checked, row["check"]) != (0, f"VALID {row['verdict']}"):
            return [f"the checker says {row['check']!r} with {checked}"]
        row |= facts(certificate)
        return []

    def unknown(self, certificate, row):
        with open(certificate, "rb") as file:
            match = UNKNOWN.fullmatch(file.read())
        if not match:
            return ["the solver's UNKNOWN has another form"]
        row["rounds"], row["learned"] = map(int, match.groups())
        return []

    def beside(self, name, formula, path, row):
        """What another solver says, as a row of its own, or None where the formula isn't for it."""
        if name == "depqbf":
            text = formula.linear_text()
            if text is None:
                return None
            path = self.write("linear", text)
        other = {key: row[key] for key in COLUMNS[: COLUMNS.index("solver")]} | {"solver": name}
        status, other["seconds"] = self.run([name, path], self.words.limit)
        other["verdict"] = {**VERDICTS, None: "timeout"}.get(status, f"none ({status})")
        return other

    def measure(self, family, size):
        """The solver's row, or None where the formula is too large; a fault raises."""
        formula, expected = formula_of(family, size, self.words.seed, self.words.form)
        if formula.variables > MOST_VARIABLES or len(formula.clauses) > MOST_CLAUSES:
            return None
        path = self.write("formula", formula.text())
        row = {"family": family, "size": size, "form": self.words.form, "seed": self.words.seed, "variables": formula.variables, "solver": "dqsolve"}
        row |= {"universals": len(formula.universals), "clauses": len(formula.clauses), "expected": expected}
        faults = self.solve(path, row)
        rows = [row, *filter(None, (self.beside(name, formula, path, row) for name in self.others))]
        verdicts = {name: verdict for name, verdict in [("the generator", expected), *((r["solver"], r["verdict"]) for r in rows)]}
        if {"TRUE", "FALSE"} <= set(verdicts.values()):
            faults.append(f"verdicts differ: {verdicts}")
        for one in rows:
            self.show(one)
        if faults:
            raise Fault(f"{family} {size}, seed {self.words.seed}: {'; '.join(faults)}; the files are in {self.folder}")
        return row

    def show(self, row):
        if not self.words.largest:
            self.tell(row)
        if self.csv:
            self.csv.writerow(shown(row))

    def tell(self, row):
        values = shown(row)
        print(" ".join(f"{values.get(name, ''):{aligned(width)}}" for name, width in WIDTHS.items()).rstrip(), flush=True)

    def family(self, family):
        """Sizes that are given, or that double as long as runs are decided below the limit."""
        largest = None
        for size in self.words.sizes or (FAMILIES[family][1] << k for k in itertools.count()):
            row = self.measure(family, size) if size >= FAMILIES[family][1] else None
            if not self.words.sizes and (row is None or row["verdict"] not in VERDICTS.values() or row["seconds"] >= self.words.limit):
                break
            largest = row
        if self.words.largest and largest:
            self.tell(largest)


class Fault(Exception):
    pass


def shown(row):
    return {key: f"{value:.2f}" if isinstance(value, float) else str(value) for key, value in row.items()}


def aligned(width):
    return f"<{-width}" if width < 0 else f">{width}"


def facts(path):
    """What an accepted certificate has: rows or gates, lines of the proof, bytes."""
    with open(path) as file:
        next(file)
        header = next(file).split()
        if header[0] == "p":
            return {"rows": int(header[2]), "lines": int(header[3]), "bytes": os.path.getsize(path)}
        behind = itertools.dropwhile(lambda line: line != "c\n", file)
        proof = list(itertools.islice(behind, 2))[-1].split()
        return {"gates": int(header[5]), "lines": int(proof[1]) if proof[0] == "dqp" else 0, "bytes": os.path.getsize(path)}


def sizes_of(text):
    return [int(word) for word in text.split(",")]


def words_of(arguments):
    reader = argparse.ArgumentParser(description=__doc__.split("\n\n")[0], epilog=f"families: {', '.join(FAMILIES)}")
    reader.add_argument("families", nargs="*", metavar="FAMILY", help="families whose names begin so; all where there is none")
    reader.add_argument("--limit", type=float, default=30, metavar="SECONDS", help="of a run (30)")
    reader.add_argument("--memory", type=float, default=8, metavar="GIGABYTES", help="of a run (8)")
    reader.add_argument("--steps", type=int, metavar="N", help="the solver's limit of steps (its own)")
    reader.add_argument("--prep", action="store_true", help="units are taken before the search")
    reader.add_argument("--seed", type=int, default=1, help="of the formulas (1)")
    reader.add_argument("--form", choices=FORMS, default="forward", help="of the declarations: gates behind their inputs, or any way")
    reader.add_argument("--sizes", type=sizes_of, metavar="N,..", help="these sizes only, as far as a family has them")
    reader.add_argument("--largest", action="store_true", help="tell of each family the largest size that was decided")
    reader.add_argument("--csv", metavar="FILE", help="where the table is written, a row for each run and solver")
    reader.add_argument("--solver", default=SOLVER, metavar="FILE", help="the built dqsolve")
    reader.add_argument("--checker", default=CHECKER, metavar="FILE", help="the built dqcheck")
    words = reader.parse_args(arguments)
    for name in words.families:
        if not any(family.startswith(name) for family in FAMILIES):
            reader.error(f"no family begins with {name}")
    return words


def measure_all(words, folder, sink):
    bench = Bench(words, folder, sink)
    for family in FAMILIES:
        if not words.families or any(family.startswith(name) for name in words.families):
            bench.family(family)


def main(arguments):
    words = words_of(arguments)
    for program in (words.solver, words.checker):
        if not os.path.exists(program):
            sys.exit(f"{program} isn't built: run ./{os.path.basename(program)} at the top")
    folder = tempfile.mkdtemp(prefix="solve-")
    sink = open(words.csv, "w", newline="") if words.csv else None
    try:
        measure_all(words, folder, sink)
    except Fault as fault:
        print(fault)
        return 1
    finally:
        if sink:
            sink.close()
    shutil.rmtree(folder)
    return 0


if __name__ == "__main__":
    sys.exit(main(sys.argv[1:]))
