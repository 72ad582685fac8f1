#!/usr/bin/env python3
"""Gives the built programs texts of kinds at which a program like them slows down, natural ones among them, each at a
size and at twice that size, and tells how much more the larger text takes. Whatever a text says, time and memory are
to follow its length: a growth beyond 2.3 is marked. A kind ends with the status that it has by its making; another one
is told, and the script then ends with 1.

Usage: bench/hostile.py [--limit SECONDS] [--times N] [--list] [NAME..]

All kinds are measured, or those whose names contain a NAME; with --times at N times their size. A run that takes more
processor seconds than the limit, 20, is stopped. The variables DQSOLVE and DQCHECK name the programs."""

import argparse
import os
import resource
import subprocess
import sys
import tempfile
from dataclasses import dataclass
from typing import Callable

from bench import CHECKER, write
from checker_inputs import Proof, delta, lines, numbers, pair_blocks
from decisions import SOLVER

GROWTH = 2.3
SHORT = 0.05  # seconds of which a growth tells nothing
STOPPED = "over the limit"


# Designs: a specification and an implementation with boxes, each box in a line of what it reads and drives.


def circuit(inputs, outputs, gates=(), boxes=None):
    """A circuit over the inputs 2, 4, ..; with boxes it is an implementation."""
    comment = [] if boxes is None else ["c", f"pec {len(boxes)}", *map(box_line, boxes)]
    return lines(
        f"aag {inputs + len(gates)} {inputs} 0 {len(outputs)} {len(gates)}",
        *range(2, 2 * inputs + 1, 2),
        *outputs,
        *(" ".join(map(str, gate)) for gate in gates),
        *comment,
    )


def box_line(box):
    reads, drives = box
    return " ".join(map(str, (len(reads), len(drives), *reads, *drives)))


def chained_boxes(n):
    """Boxes that each negate or copy what the one before drives; the specification is a wire."""
    boxes = [([2 * i], [2 * i + 2]) for i in range(1, n + 1)]
    return circuit(1, [2]), circuit(n + 1, [2 * n + 2], boxes=boxes)


def boxes_behind_gates(n):
    """The same, where each box reads the AND of the box before and of one input."""
    first = n + 3
    gates = [(2 * (first + i), 2 if i == 0 else 2 * (i + 2), 4) for i in range(n)]
    boxes = [([2 * (first + i)], [2 * (i + 3)]) for i in range(n)]
    return circuit(2, [6], [(6, 2, 4)]), circuit(n + 2, [2 * (n + 2)], gates, boxes)


def boxes_side_by_side(n):
    """Each box has a wire of its own to copy."""
    boxes = [([2 * i], [2 * (n + i)]) for i in range(1, n + 1)]
    return circuit(n, range(2, 2 * n + 1, 2)), circuit(2 * n, range(2 * n + 2, 4 * n + 1, 2), boxes=boxes)


def one_wide_box(n):
    """One box has all wires to copy."""
    wires = list(range(2, 2 * n + 1, 2))
    return circuit(n, wires), circuit(2 * n, [w + 2 * n for w in wires], boxes=[(wires, [w + 2 * n for w in wires])])


def gates_before_a_box(n):
    """A chain of gates over two inputs, and a box behind it that has to copy it."""

    def chain(inputs):
        return [(2 * (inputs + 1 + i), 2 * (inputs + i) if i else 2, 4 if i % 2 == 0 else 2) for i in range(n)]

    last = 2 * (3 + n)
    return circuit(2, [2 * (2 + n)], chain(2)), circuit(3, [6], chain(3), [([last], [6])])


def equal_outputs(n):
    """One box, whose output is the circuit's so many times."""
    return circuit(1, [2] * n), circuit(2, [4] * n, boxes=[([2], [4])])


def repeated_reads(n):
    """A box that reads one input so many times."""
    return circuit(1, [2]), circuit(2, [4], boxes=[([2] * n, [4])])


# Sessions: a formula and a script.

CONTRADICTION = "p cnf 1 2\ne 1 0\n1 0\n-1 0\n"


def solved_again(n):
    """A formula without a model, asked for so many times."""
    return CONTRADICTION, "solve\n" * n


def solved_in_frames(n):
    """The same, each time in a frame of its own."""
    return CONTRADICTION, "push\nadd 1 0\npop\nsolve\n" * n


def added_one_by_one(n):
    """A clause more before each search, all in one frame."""
    clauses = (f"add {i} -{i + 1} 0\nsolve\n" for i in range(1, n + 1))
    return lines(f"p cnf {n + 1} 0", f"e {numbers(1, n + 1)} 0"), "push\n" + "".join(clauses)


# Formulas. All are true.


def formula(universals, variables, clauses):
    """A formula whose existentials are of one set behind the universals."""
    return lines(
        f"p cnf {variables} {len(clauses)}",
        f"a {numbers(1, universals)} 0" if universals else "a 0",
        f"e {numbers(universals + 1, variables)} 0",
        *(f"{clause} 0" for clause in clauses),
    )


def equal_lines_of_five(n):
    """One XOR line of five literals, so many times."""
    return (formula(4, 5, ["x 1 2 3 4 5"] * n),)


def equal_lines_of_three(n):
    """One XOR line of two universals and an existential, so many times."""
    return (formula(2, 3, ["x 1 2 3"] * n),)


def chained_lines_of_five(n):
    """XOR lines of five literals, three of universals, each on the existential of the one before."""
    return (formula(3, n + 4, [f"x 1 2 3 {i} {i + 1}" for i in range(4, n + 4)]),)


def ring(n):
    """A ring of implications between existentials of one set."""
    return (formula(1, n + 1, [f"-{i + 2} {(i + 1) % n + 2}" for i in range(n)]),)


def copies_of_a_gate(n):
    """So many outputs that are each the AND of the same two universals."""
    return (formula(2, n + 2, [part for y in range(3, n + 3) for part in (f"-{y} 1", f"-{y} 2", f"{y} -1 -2")]),)


def free_existentials(n):
    """Existentials of which nothing is said."""
    return (formula(0, n, []),)


def empty_clause(n):
    """Existentials beside the empty clause."""
    return (formula(0, n, [""]),)


def copies_of_a_universal(n):
    """Existentials that each equal one universal."""
    return (formula(1, n + 1, [part for y in range(2, n + 2) for part in (f"-{y} 1", f"{y} -1")]),)


def chained_implications(n):
    """Existentials that each imply the next one."""
    return (formula(0, n, [f"-{i} {i + 1}" for i in range(1, n)]),)


# Certificates and other texts for the checker.


def circuit_with_lines(n):
    """A circuit of one gate, and a proof of so many equal lines."""
    proof = Proof(2, [[-3, 2]], [(3, 2, 1)])
    hints = [proof.literal(0, 0), proof.literal(0, 1), proof.gate(0, 0)]
    for _ in range(n):
        line = proof.derive([-proof.false(0)], hints)
    proof.derive([], [line, proof.last])
    return proof.texts([3])


def in_binary(texts):
    """A certificate of one gate over two inputs in AIGER's binary form."""
    text, certificate = texts
    header, _, _, output, _, rest = certificate.split("\n", 5)
    return text, lines(header.replace("aag", "aig"), output) + delta(2) + delta(2) + rest


def binary_circuit_with_lines(n):
    """The same in the binary form."""
    return in_binary(circuit_with_lines(n))


def deleted_lines(n):
    """The same, where all lines but the last two are deleted, each right behind itself."""
    text, certificate = circuit_with_lines(n)
    head, proof = certificate.split("\ndqp ", 1)
    *filler, line, last = proof.splitlines()[1:]
    parts = [part for old in filler for part in (old, f"d {old.split()[0]} 0")]
    return text, lines(head, f"dqp2 {len(parts) + 2}", *parts, line, last)


def binary_deleted_lines(n):
    """The same in the binary form."""
    return in_binary(deleted_lines(n))


def long_comment(n):
    """A formula behind a comment of so many bytes in one line, and a circuit for it."""
    return f"c{'x' * n}\n" + formula(1, 2, ["2 -1", "-2 1"]), lines("aag 1 1 0 1 0", 2, 2)


def long_circuit_comment(n):
    """A binary circuit with so many bytes of comment in one line."""
    return formula(1, 2, ["2 -1", "-2 1"]), lines("aig 1 1 0 1 0", 2, "c", "x" * n)


def long_ascii_comment(n):
    """A circuit with so many bytes of comment in one line."""
    return formula(1, 2, ["2 -1", "-2 1"]), lines("aag 1 1 0 1 0", 2, 2, "c", "x" * n)


@dataclass
class Kind:
    """A kind of texts: what is run on them, a size, and the status by its making."""

    command: list
    make: Callable
    size: int
    status: int

    @property
    def name(self):
        return self.make.__name__


TRUE, TOLD, DONE = 10, 30, 0
PEC, SESSION, SOLVE, DEFINED = ([SOLVER, word] for word in ("pec", "session", "solve", "defined"))
CHECK = [CHECKER]

KINDS = [
    Kind(PEC, chained_boxes, 125, TRUE),
    Kind(PEC, boxes_behind_gates, 125, TRUE),
    Kind(PEC, boxes_side_by_side, 125, TRUE),
    Kind(PEC, one_wide_box, 125, TRUE),
    Kind(PEC, gates_before_a_box, 1_000, TRUE),
    Kind(PEC, equal_outputs, 500, TRUE),
    Kind(PEC, repeated_reads, 500, TRUE),
    Kind(SESSION, solved_again, 8_000, DONE),
    Kind(SESSION, solved_in_frames, 8_000, DONE),
    Kind(SESSION, added_one_by_one, 500, DONE),
    Kind(SOLVE, equal_lines_of_five, 125, TRUE),
    Kind(SOLVE, equal_lines_of_three, 500, TRUE),
    Kind(SOLVE, chained_lines_of_five, 100, TRUE),
    Kind(SOLVE, ring, 500, TRUE),
    Kind(SOLVE, copies_of_a_gate, 8_000, TRUE),
    Kind(DEFINED, free_existentials, 500, TOLD),
    Kind(DEFINED, empty_clause, 1_000, TOLD),
    Kind(DEFINED, copies_of_a_universal, 2_000, TOLD),
    Kind(DEFINED, chained_implications, 500, TOLD),
    Kind(CHECK, circuit_with_lines, 500_000, DONE),
    Kind(CHECK, binary_circuit_with_lines, 500_000, DONE),
    Kind(CHECK, deleted_lines, 500_000, DONE),
    Kind(CHECK, binary_deleted_lines, 500_000, DONE),
    Kind(CHECK, long_comment, 20_000_000, DONE),
    Kind(CHECK, long_circuit_comment, 20_000_000, DONE),
    Kind(CHECK, long_ascii_comment, 20_000_000, DONE),
    Kind(CHECK, pair_blocks, 250, DONE),
]


@dataclass
class Run:
    """What a run took and wrote; bytes are of the texts, megabytes of memory at the peak."""

    read: int
    written: int
    seconds: float
    megabytes: float
    status: object


def run(folder, kind, size, limit):
    paths = [os.path.join(folder, name) for name in ("first", "second")]
    write(lambda: kind.make(size), paths)
    paths = [path for path in paths if os.path.exists(path)]
    read = sum(map(os.path.getsize, paths))
    limits = lambda: resource.setrlimit(resource.RLIMIT_CPU, (limit, limit))
    answer = os.path.join(folder, "answer")
    with open(answer, "wb") as sink:
        process = subprocess.Popen([*kind.command, *paths], stdout=sink, stderr=subprocess.DEVNULL, preexec_fn=limits)
        _, status, usage = os.wait4(process.pid, 0)
    process.returncode = os.waitstatus_to_exitcode(status)
    for path in paths:
        os.remove(path)
    ended = STOPPED if process.returncode < 0 else process.returncode
    return Run(read, os.path.getsize(answer), usage.ru_utime + usage.ru_stime, usage.ru_maxrss / 1000, ended)


def growth(small, large):
    """How many times the seconds of the smaller text the larger one takes, and whether that is too much."""
    if STOPPED in (small.status, large.status):
        return STOPPED, True
    if large.seconds < SHORT:
        return "too short to tell", False
    times = large.seconds / max(small.seconds, SHORT / 5)
    return f"{times:.1f}", times > GROWTH and large.seconds > GROWTH * SHORT


def line(kind, size, taken):
    sizes = f"{size:10,} {taken.read / 1000:10,.1f} KB {taken.written / 1000:10,.1f} KB"
    return f"{kind.name:28}{sizes} {taken.seconds:8.2f} s {taken.megabytes:6.0f} MB"


def measure(folder, kind, times, limit):
    """Tells of a kind, and whether its statuses are those by its making."""
    size = kind.size * times
    small = run(folder, kind, size, limit)
    print(line(kind, size, small), flush=True)
    large = run(folder, kind, 2 * size, limit)
    told, much = growth(small, large)
    print(f"{line(kind, 2 * size, large)}   {told}{' *' if much else ''}", flush=True)
    wrong = {taken.status for taken in (small, large)} - {kind.status, STOPPED}
    for status in wrong:
        print(f"{kind.name}: ends with {status} and not with {kind.status}", flush=True)
    return not wrong


def main():
    parser = argparse.ArgumentParser(description="measures how time and memory grow with texts that slow programs down")
    parser.add_argument("--limit", type=int, default=20, metavar="SECONDS", help="processor seconds of a run")
    parser.add_argument("--times", type=int, default=1, metavar="N", help="how many times each kind's size")
    parser.add_argument("--list", action="store_true", help="print the kinds' names")
    parser.add_argument("names", nargs="*", metavar="NAME", help="what the kinds' names contain")
    words = parser.parse_args()
    kinds = [kind for kind in KINDS if not words.names or any(name in kind.name for name in words.names)]
    if words.list:
        for kind in kinds:
            print(f"{kind.name}: {kind.make.__doc__}")
        return
    for program in {kind.command[0] for kind in kinds}:
        if not os.path.exists(program):
            sys.exit(f"{program} isn't built: run `rt ci` at the top, or name it by DQSOLVE or DQCHECK")
    with tempfile.TemporaryDirectory() as folder:
        right = [measure(folder, kind, words.times, words.limit) for kind in kinds]
    if not all(right):
        sys.exit(1)


if __name__ == "__main__":
    main()
