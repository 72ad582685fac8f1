#!/usr/bin/env python3
"""Designs as engineers have them: the texts in bench/verilog, of which each is a specification and the same with black boxes, become circuits
by Debian's yosys (tools/fill.py --circuits), and the built solver says by `pec` whether the boxes can be filled: where each box sees what it
needs they can, and where boxes are blind they can't. The checker judges each certificate on the formula that `encode` writes. Prints a line
for each design, with the gates of the circuit or the rows of the refutation. A verdict that isn't the expected one, or a certificate that
isn't VALID, ends the run with 1; so does a design that isn't decided.

Usage: bench/from_verilog.py [--limit SECONDS] [--beside PROGRAM] [DESIGN..]      10 seconds, and all designs

With --beside another solver is run on the formula, too: one that is told a file in DQDIMACS, and ends with 10 or 20. The variables DQSOLVE
and DQCHECK name the programs.
"""

import argparse
import os
import subprocess
import sys
import tempfile

from bench import CHECKER, TOP
from decisions import SOLVER
from designs import STEPS, seconds_of
from solve import facts

TEXTS = os.path.join(TOP, "bench", "verilog")
VERDICTS = {10: "TRUE", 20: "FALSE", 0: "UNKNOWN", None: "-"}

# A design, its size, and whether boxes are blind.
DESIGNS = [("adder", 16, False), ("adder", 64, False), ("adder", 64, True), ("alu", 16, False), ("alu", 16, True)]
DESIGNS += [("gray", 12, False), ("gray", 12, True), ("gray", 20, False), ("gray", 20, True)]
DESIGNS += [("crc", 8, False), ("crc", 12, False), ("crc", 16, False), ("crc", 16, True)]
DESIGNS += [("multiplier", 5, False), ("multiplier", 6, False), ("multiplier", 6, True)]
DESIGNS += [("arbiter", 32, False), ("arbiter", 64, False), ("arbiter", 16, True), ("arbiter", 32, True), ("arbiter", 64, True)]


class Fault(Exception):
    pass


class Runs:
    """Runs in a folder, of so many seconds at most."""

    def __init__(self, folder, words):
        self.folder, self.limit, self.beside = folder, words.limit, words.beside
        self.solver, self.checker = os.environ.get("DQSOLVE", SOLVER), os.environ.get("DQCHECK", CHECKER)

    def path(self, name):
        return os.path.join(self.folder, name)

    def circuits(self, design, size, is_blind):
        """The paths of both circuits."""
        texts = []
        for part in ("spec", "boxes"):
            with open(os.path.join(TEXTS, f"{design}-{part}.v"), encoding="ascii") as file:
                text = f"`define SIZE {size}\n`define BLIND {int(is_blind)}\n{file.read()}"
            texts.append(self.path(f"{part}.v"))
            with open(texts[-1], "w", encoding="ascii") as file:
                file.write(text)
        tool = os.path.join(TOP, "tools", "fill.py")
        words = ["--circuits", "--keep", self.folder, "--top", design, *texts]
        subprocess.run([sys.executable, tool, *words], stdout=subprocess.DEVNULL, check=True)
        return [self.path("spec.aag"), self.path("impl.aag")]

    def measure(self, design, size, is_blind):
        """Whether a design is decided."""
        circuits, formula, certificate = self.circuits(design, size, is_blind), self.path("formula"), self.path("certificate")
        name = f"{design} {size}{', blind' if is_blind else ''}"
        _, encoded = seconds_of([self.solver, "encode", *circuits], formula, self.limit)
        if encoded != 0:
            raise Fault(f"{name}: encode ends with {encoded}")
        seconds, status = seconds_of([self.solver, "pec", "--steps", STEPS, *circuits], certificate, self.limit)
        with open(formula, encoding="ascii") as file:
            _, _, variables, clauses = file.readline().split()
        line = f"{name:20} {variables:>7} {clauses:>7} {VERDICTS.get(status, status):7} {seconds:6.2f}"
        if status in (10, 20):
            line += self.judged(name, status, is_blind, formula, certificate)
        if self.beside:
            other, said = seconds_of([self.beside, formula], self.path("other"), self.limit)
            line += f"  beside {VERDICTS.get(said, said):7} {other:6.2f}"
            if {status, said} == {10, 20}:
                raise Fault(f"{name}: the verdicts differ")
        print(line, flush=True)
        return status in (10, 20)

    def judged(self, name, status, is_blind, formula, certificate):
        """What the certificate has, where it is accepted and the verdict is the expected one."""
        if VERDICTS[status] != ("FALSE" if is_blind else "TRUE"):
            raise Fault(f"{name}: the verdict is {VERDICTS[status]}")
        run = subprocess.run([self.checker, formula, certificate], stdout=subprocess.PIPE, check=False)
        said = run.stdout.decode().strip()
        if said != f"VALID {VERDICTS[status]}":
            raise Fault(f"{name}: the checker says {said}")
        found = facts(certificate)
        return f" {found['rows']:6} rows  {said}" if "rows" in found else f" {found['gates']:6} gates {said}"


def words_of(arguments):
    reader = argparse.ArgumentParser(description=__doc__.split("\n\n")[0])
    names = list(dict.fromkeys(it[0] for it in DESIGNS))
    reader.add_argument("designs", nargs="*", metavar="DESIGN", help=f"of {', '.join(names)}; all where there is none")
    reader.add_argument("--limit", type=float, default=10, metavar="SECONDS", help="of a run (10)")
    reader.add_argument("--beside", metavar="PROGRAM", help="another solver")
    words = reader.parse_args(arguments)
    for name in words.designs:
        if name not in names:
            reader.error(f"there is no design {name}")
    return words


def main(arguments):
    words = words_of(arguments)
    chosen = [it for it in DESIGNS if not words.designs or it[0] in words.designs]
    with tempfile.TemporaryDirectory() as folder:
        runs = Runs(folder, words)
        try:
            lost = [it for it in chosen if not runs.measure(*it)]
        except Fault as fault:
            print(fault)
            return 1
    print(f"{len(chosen) - len(lost)} of {len(chosen)} designs decided within {words.limit:g} s")
    return 1 if lost else 0


if __name__ == "__main__":
    sys.exit(main(sys.argv[1:]))
