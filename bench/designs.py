#!/usr/bin/env python3
"""Makes pairs of circuits, a specification and an implementation with black boxes, of the kinds that families.py has as formulas, and runs the
built solver on each: `pec` on the pair, `solve` on the formula that `encode` writes of it, and `solve` on the family's own formula. Prints
the seconds of each; pec's certificate is judged by dqcheck on the formula that `encode` writes. Sizes double until a run takes the limit.
A verdict that isn't the expected one, or a certificate that isn't VALID, ends the run with 1.

Usage: bench/designs.py [LIMIT [KIND..]]      seconds (10), and kinds, all where none is given

The variables DQSOLVE and DQCHECK name the programs.
"""

import os
import subprocess
import sys
import tempfile
import time

from bench import CHECKER
from decisions import SOLVER
from families import FAMILIES, Algebra, add, formula_of, less, multiply

STEPS = "100000000"


class Netlist(Algebra):
    """Signals as literals of an and-inverter graph in AIGER's numbers."""

    def __init__(self):
        self.variables, self.inputs, self.gates, self.known, self.boxes = 0, [], [], {}, []

    def input(self):
        self.variables += 1
        self.inputs.append(2 * self.variables)
        return self.inputs[-1]

    def word(self, size):
        return [self.input() for _ in range(size)]

    def negation(self, a):
        return a ^ 1

    def conjunction(self, a, b):
        sides = (max(a, b), min(a, b))
        if sides not in self.known:
            self.variables += 1
            self.gates.append((2 * self.variables, *sides))
            self.known[sides] = 2 * self.variables
        return self.known[sides]

    def parity(self, a, b):
        return self.disjunction(self.conjunction(a, b ^ 1), self.conjunction(a ^ 1, b))

    def choice(self, s, a, b):
        return self.disjunction(self.conjunction(s, a), self.conjunction(s ^ 1, b))

    def box(self, inputs, outputs):
        """A box that reads these literals: what it drives."""
        driven = self.word(outputs)
        self.boxes.append((list(inputs), driven))
        return driven

    def text(self, outputs, with_boxes):
        lines = [["aag", self.variables, len(self.inputs), 0, len(outputs), len(self.gates)]]
        lines += [[literal] for literal in (*self.inputs, *outputs)] + [list(gate) for gate in self.gates]
        if with_boxes:
            lines += [["c"], ["pec", len(self.boxes)]]
            lines += [[len(read), len(driven), *read, *driven] for read, driven in self.boxes]
        return "".join(" ".join(map(str, line)) + "\n" for line in lines)


def cells(netlist, plain, outputs, places):
    """What stands at a place: a box, or a cell of gates."""

    def cell(place, *inputs):
        if place not in places:
            return plain(*inputs)
        driven = netlist.box(inputs, outputs)
        return driven if outputs > 1 else driven[0]

    return cell


def of_words(circuit, plain_of, outputs, places_of):
    """Pairs of a circuit of two words."""

    def pair(size):
        spec, imp = Netlist(), Netlist()
        specified = circuit(spec, spec.word(size), spec.word(size), cells(spec, plain_of(spec), outputs, ()))
        words = imp.word(size), imp.word(size)
        found = circuit(imp, *words, cells(imp, plain_of(imp), outputs, places_of(size)))
        return spec.text(specified, False), imp.text(found, True)

    return pair


def block(size):
    """The upper halves of an adder of words of twice so many bits in one box."""
    spec, imp = Netlist(), Netlist()
    specified = add(spec, spec.word(2 * size), spec.word(2 * size), lambda _, *inputs: spec.full_adder(*inputs))
    a, b = imp.word(2 * size), imp.word(2 * size)
    low = add(imp, a[:size], b[:size], lambda _, *inputs: imp.full_adder(*inputs))
    return spec.text(specified, False), imp.text([*low[:-1], *imp.box([*a[size:], *b[size:], low[-1]], size + 1)], True)


def multiplexer(size):
    """A multiplexer as one box."""
    spec, imp = Netlist(), Netlist()
    selects, chosen = spec.word(size), spec.word(1 << size)
    for select in selects:
        chosen = [spec.choice(select, chosen[k + 1], chosen[k]) for k in range(0, len(chosen), 2)]
    return spec.text(chosen, False), imp.text(imp.box(imp.word(size + (1 << size)), 1), True)


def parity(size):
    """The parity of boxes that read three inputs each."""
    spec, imp = Netlist(), Netlist()
    total, *others = spec.word(size)
    for other in others:
        total = spec.parity(total, other)
    inputs = imp.word(size)
    found, *rest = [imp.box(inputs[k : k + 3], 1)[0] for k in range(0, size, 3)]
    for other in rest:
        found = imp.parity(found, other)
    return spec.text([total], False), imp.text([found], True)


def each_fourth(size):
    return range(0, size - 1, 4)


KINDS = {
    "adder": of_words(add, lambda netlist: netlist.full_adder, 2, each_fourth),
    "comparator": of_words(less, lambda netlist: netlist.less, 1, each_fourth),
    "multiplier": of_words(multiply, lambda netlist: netlist.full_adder, 2, lambda size: [size * (size - 2) // 2]),
    "block": block,
    "multiplexer": multiplexer,
    "parity": parity,
}


def seconds_of(command, output, limit):
    """How long a command takes, and its status; None where it takes longer than the limit."""
    began = time.monotonic()
    with open(output, "wb") as file:
        try:
            status = subprocess.run(command, stdout=file, timeout=limit, check=False).returncode
        except subprocess.TimeoutExpired:
            return limit, None
    return time.monotonic() - began, status


class Measuring:
    """Runs in a folder, of so many seconds at most."""

    def __init__(self, folder, limit):
        self.folder, self.limit = folder, limit
        self.solver, self.checker = os.environ.get("DQSOLVE", SOLVER), os.environ.get("DQCHECK", CHECKER)

    def path(self, name, text=None):
        path = os.path.join(self.folder, name)
        if text is not None:
            with open(path, "w", encoding="ascii") as file:
                file.write(text)
        return path

    def measure(self, kind, size):
        """Whether all runs ended, each with its verdict."""
        spec, imp = (self.path(name, text) for name, text in zip(("spec", "imp"), KINDS[kind](size)))
        certificate, formula = self.path("certificate"), self.path("formula")
        encoding, encoded = seconds_of([self.solver, "encode", spec, imp], formula, self.limit)
        comparing, compared = seconds_of([self.solver, "pec", "--steps", STEPS, spec, imp], certificate, self.limit)
        judged = subprocess.run([self.checker, formula, certificate], stdout=subprocess.PIPE, check=False).stdout.decode().strip()
        solving, solved = seconds_of([self.solver, "solve", "--steps", STEPS, formula], self.path("solved"), self.limit)
        family, _ = formula_of(kind, size, 1, "forward")
        text = self.path("family", family.text())
        beside, decided = seconds_of([self.solver, "solve", "--steps", STEPS, text], self.path("decided"), self.limit)
        gates = sum(1 for path in (spec, imp) for _ in open(path, encoding="ascii"))
        print(f"{kind:12} {size:5} lines {gates:7} encode {encoding:6.2f} pec {comparing:6.2f} solve {solving:6.2f} family {beside:6.2f} {judged}", flush=True)
        if encoded != 0 or {compared, solved, decided} - {10, None} or (compared == 10 and judged != "VALID TRUE"):
            sys.exit(1)
        return None not in (compared, solved, decided)


def main():
    words = sys.argv[1:]
    if words == ["--help"] or any(word not in KINDS for word in words[1:]):
        print(__doc__.strip())
        return 0 if words == ["--help"] else 1
    with tempfile.TemporaryDirectory() as folder:
        measuring = Measuring(folder, float(words[0]) if words else 10.0)
        for kind in words[1:] or KINDS:
            size = FAMILIES[kind][1]
            while measuring.measure(kind, size):
                size *= 2
    return 0


if __name__ == "__main__":
    sys.exit(main())
