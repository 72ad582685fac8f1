#!/usr/bin/env python3
"""Runs tools/prove_circuit.py and tools/refute.py, each with and without --v2, on the examples, on a circuit of 64 inputs,
on random formulas and circuits, some of them spoiled, and where something is amiss. What they write is judged by the checker
where one is named, and else by the second judge, reference.py; where they refuse, the second judge says whether they may.
Prints each difference and how many there were; where there is one, the exit status is 1. Needs cadical on the path.

Usage: bench/tools.py [CHECKER]     such as crates/dqcheck/out/dqcheck
"""

import functools
import itertools
import os
import random
import re
import subprocess
import sys
import tempfile

import reference
from bench import TOP
from differential import chance, likely_circuit, random_formula, random_rows, spoiled, text_of

EXAMPLES = os.path.join(TOP, "examples")
RANDOM_CASES = 100
WRITTEN, USAGE, UNREADABLE, NO_SOLVER, SOLVER_FAILED, WRONG_CIRCUIT, FOREIGN_READ, TOO_FEW_ROWS, NOT_FALSE = range(9)


def without_deletions(certificate):
    """The lines that aren't deletions, and what they are but for the header's version and count."""
    header = re.compile(rb"(p dqr|dqp)2?( .*)? [0-9]+")
    kept = [line for line in certificate.splitlines() if not line.startswith(b"d ")]
    return [header.sub(rb"\1\2", line) if header.fullmatch(line) else line for line in kept]


class Bench:
    """Runs cases in a folder and counts differences."""

    def __init__(self, folder, checker):
        self.folder = folder
        self.checker = checker
        self.cases, self.differences, self.deletions = 0, 0, 0

    def file(self, name, text):
        path = os.path.join(self.folder, name)
        with open(path, "wb") as file:
            file.write(text)
        return path

    def run(self, script, words, path=None):
        """What a script writes, what it says, and its exit status, where PATH is as given."""
        command = [sys.executable, os.path.join(TOP, "tools", script), *words]
        environment = {**os.environ, "PATH": os.environ["PATH"] if path is None else path}
        done = subprocess.run(command, capture_output=True, env=environment, check=False)
        return done.stdout, done.stderr.decode(errors="replace"), done.returncode

    def verdict(self, formula_path, certificate):
        if self.checker is None:
            with open(formula_path, "rb") as file:
                return reference.answer(file.read(), certificate)
        path = self.file("certificate", certificate)
        done = subprocess.run([self.checker, formula_path, path], capture_output=True, text=True, check=False)
        return done.stdout.rstrip("\n")

    def check(self, shows, holds, found):
        self.cases += 1
        if not holds:
            self.differences += 1
            print(f"{shows}: {found}")

    def check_status(self, shows, script, words, due, path=None):
        """A case in which nothing is to be written, and one line to be said."""
        written, said, status = self.run(script, words, path)
        self.check(shows, (written, said.count("\n"), status) == (b"", 1, due), (written, said, status))

    def check_verdict(self, shows, script, words, due):
        """A case in which a certificate is to be written that earns this verdict, with deletions too. Answers the one
        without."""
        written = self.check_written(shows, script, words, words[0], due)
        deleting = self.check_written(f"{shows}, with deletions", script, ["--v2", *words], words[0], due)
        same = without_deletions(deleting) == without_deletions(written)
        self.check(f"{shows}: deletions aside both are one", same, (written, deleting))
        return written

    def check_written(self, shows, script, words, formula, due):
        written, said, status = self.run(script, words)
        found = self.verdict(formula, written) if status == WRITTEN else None
        self.check(shows, (said, found) == ("", due), (said, status, found, written))
        self.deletions += written.count(b"\nd ")
        return written


# Examples and their like


def example(name):
    return os.path.join(EXAMPLES, name)


def examples(bench):
    for formula, circuit in (
        ("copies", "copies"),
        ("small-boxes", "small-boxes"),
        ("small-boxes", "small-boxes-broken"),
        ("two-boxes", "two-boxes-unproved"),
        ("two-boxes", "two-boxes"),
    ):
        words = [example(formula + ".dqdimacs"), example(circuit + ".aag")]
        written = bench.check_verdict(circuit, "prove_circuit.py", words, "VALID TRUE")
        with open(words[1], "rb") as file:
            kept = re.split(rb"(?m)^c$", file.read())[0]
        bench.check(f"{circuit}: the circuit's text", written.startswith(kept + b"c\ndqp "), written)
    for formula in ("blind-copy", "blind-boxes", "small-blind-boxes"):
        bench.check_verdict(formula, "refute.py", [example(formula + ".dqdimacs")], "VALID FALSE")
    for formula, circuit, status in (
        ("copies", "bad-row", WRONG_CIRCUIT),
        ("copies", "foreign-read", FOREIGN_READ),
        ("small-boxes", "small-boxes-bad-row", WRONG_CIRCUIT),
        ("small-boxes", "small-boxes-foreign", FOREIGN_READ),
        ("small-blind-boxes", "small-boxes", FOREIGN_READ),
        ("two-boxes", "copies", UNREADABLE),
    ):
        words = [example(formula + ".dqdimacs"), example(circuit + ".aag")]
        bench.check_status(f"{formula} {circuit}", "prove_circuit.py", words, status)
    for formula in ("copies", "small-boxes", "two-boxes"):
        bench.check_status(formula, "refute.py", [example(formula + ".dqdimacs")], NOT_FALSE)


def forms(bench):
    """One circuit in forms that its text may have, of which all but an old comment is kept."""
    formula = example("copies.dqdimacs")
    symbols = b"aag 2 2 0 2 0\n4\n2\n4\n2\ni1 1\ni0 2\no0 4\no1 3\n"
    for text, kept in (
        (b"s TRUE\naag 2 2 0 2 0\n2\n4\n2\n4", b"s TRUE\naag 2 2 0 2 0\n2\n4\n2\n4\n"),
        (b"aag 2 2 0 2 0\r\n2\r\n4\r\n2\r\n4\r\n", b"aag 2 2 0 2 0\r\n2\r\n4\r\n2\r\n4\r\n"),
        (b"aag 9 2 0 2 1 0\n2\n 4\n02\n4\n18 18 0\n", None),
        (b"aag 9 2 0 2 1 0\n2\n 4\n02\n4\n18 2 0\n", b"aag 9 2 0 2 1 0\n2\n 4\n02\n4\n18 2 0\n"),
        (symbols, symbols),
        (symbols + b"\nc \t\nsome words\nc\ndqp 0\n", symbols + b"\n"),
        (symbols.replace(b"o1 3", b"o1 4"), None),
        (symbols.replace(b"o1 3\n", b""), None),
    ):
        words = [formula, bench.file("circuit", text)]
        if kept is None:
            bench.check_status(f"{text}", "prove_circuit.py", words, UNREADABLE)
        else:
            written = bench.check_verdict(f"{text}", "prove_circuit.py", words, "VALID TRUE")
            bench.check(f"{text}: what is kept", written.startswith(kept + b"c\ndqp "), written)


def odd_clauses(bench):
    """Formulas with tautologies, with an empty clause, and without clauses or variables."""
    for text, verdict in (
        (b"p cnf 5 5\na 1 2 0\nd 3 1 0\n5 -5 0\n3 -2 0\n-3 2 0\n3 -3 4 0\n5 2 -5 0\n", "VALID FALSE"),
        (b"p cnf 2 2\na 1 0\ne 2 0\n2 -1 0\n0\n", "VALID FALSE"),
        (b"p cnf 0 1\n0\n", "VALID FALSE"),
        (b"p cnf 2 2\na 1 0\n2 -2 0\n1 -1 0\n", "VALID TRUE"),
        (b"p cnf 0 0\n", "VALID TRUE"),
    ):
        words = [bench.file("formula", text)]
        formula = reference.FormulaReader(text).read()
        inputs, outputs = len(formula.universals), len(formula.existentials)
        header = ["aag", inputs, inputs, 0, outputs, 0]
        circuit = text_of([header, *([2 * place] for place in range(1, inputs + 1)), *([1] for _ in range(outputs))])
        proved = [*words, bench.file("circuit", circuit)]
        if verdict == "VALID TRUE":
            bench.check_verdict(f"{text}", "prove_circuit.py", proved, verdict)
            bench.check_status(f"{text}", "refute.py", words, NOT_FALSE)
        else:
            bench.check_status(f"{text}", "prove_circuit.py", proved, WRONG_CIRCUIT)
            bench.check_verdict(f"{text}", "refute.py", words, verdict)


def given_rows(bench):
    """Rows that refute a formula and rows that don't, as lines of numbers and as the rows of a `dqr` text."""
    formula = example("small-blind-boxes.dqdimacs")
    for shows, rows, is_enough in (
        ("rows", b"1 2 3 4\n1 -2 3 4\n", True),
        ("rows of a dqr text", b"u 1 2 3 4 0\n\nu 1 -2 3 4 0", True),
        ("rows of which one is no use, in other orders", b"-1 -2 -3 -4\n4 3 2 1\n-2 4 3 1\n-2 4 3 1\n", True),
        ("one row", b"1 2 3 4\n", False),
        ("no rows", b"", False),
    ):
        words = [formula, bench.file("rows", rows)]
        if is_enough:
            written = bench.check_verdict(shows, "refute.py", words, "VALID FALSE")
            count = len([line for line in rows.split(b"\n") if line])
            bench.check(f"{shows}: each is written", written.startswith(b"p dqr %d " % count), written)
        else:
            bench.check_status(shows, "refute.py", words, TOO_FEW_ROWS)
    for shows, rows in (("a row too short", b"1 2 3\n"), ("a universal twice", b"1 2 3 4 4\n"), ("a word", b"1 2 x 4\n")):
        bench.check_status(shows, "refute.py", [formula, bench.file("rows", rows)], UNREADABLE)


# Where something is amiss


def amiss(bench):
    formula, circuit = example("small-boxes.dqdimacs"), example("small-boxes.aag")
    refuted = example("small-blind-boxes.dqdimacs")
    absent = os.path.join(bench.folder, "absent")
    for script, words in (
        ("prove_circuit.py", []),
        ("prove_circuit.py", [formula]),
        ("prove_circuit.py", [formula, circuit, circuit]),
        ("prove_circuit.py", [formula, "--help"]),
        ("refute.py", []),
        ("refute.py", ["-h"]),
    ):
        bench.check_status(f"{script} {words}", script, words, USAGE)
    for script, words in (
        ("prove_circuit.py", [absent, circuit]),
        ("prove_circuit.py", [formula, absent]),
        ("prove_circuit.py", [formula, bench.folder]),
        ("prove_circuit.py", [formula, bench.file("binary", b"aig 1 1 0 1 0\n2\n")]),
        ("prove_circuit.py", [circuit, circuit]),
        ("refute.py", [absent]),
        ("refute.py", [formula, absent]),
        ("refute.py", [circuit]),
    ):
        bench.check_status(f"{script} {words}", script, words, UNREADABLE)
    for script, words in (("prove_circuit.py", [formula, circuit]), ("refute.py", [refuted])):
        bench.check_status(f"{script} without a solver", script, words, NO_SOLVER, bench.folder)


def bad_solvers(bench):
    """Programs in cadical's place: one that fails, one whose proof is empty, and one with a clause that doesn't follow."""
    words = [example("copies.dqdimacs"), example("copies.aag")]
    folder = os.path.join(bench.folder, "solvers")
    os.mkdir(folder)
    for shows, body in (
        ("a solver that fails", "exit 1"),
        ("a solver with an empty proof", "for last; do :; done; : > $last; exit 20"),
        ("a solver with a wrong clause", "for last; do :; done; printf '5 0\\n-5 0\\n0\\n' > $last; exit 20"),
    ):
        path = bench.file("solvers/cadical", f"#!/bin/sh\n{body}\n".encode())
        os.chmod(path, 0o755)
        bench.check_status(shows, "prove_circuit.py", words, SOLVER_FAILED, folder)


# Many inputs


def gates_of_pairs(count, seed):
    """A formula with a gate over two universals in each existential, with its clauses, and a circuit of these gates, in
    any order."""
    choose = random.Random(seed)
    universals = list(range(1, 2 * count + 1))
    lines, clauses, gates, outputs = [], [], [], []
    for at in range(count):
        a, b, y = 2 * at + 1, 2 * at + 2, 2 * count + 1 + at
        lines.append(["d", y, a, b, 0])
        if choose.randrange(2):
            clauses += [[-y, a, 0], [-y, b, 0], [y, -a, -b, 0]]
            gates.append([2 * y, 2 * a, 2 * b])
            outputs.append(2 * y)
        else:
            both, neither = 2 * (y + count), 2 * (y + 2 * count)
            clauses += [[-y, a, b, 0], [-y, -a, -b, 0], [y, -a, b, 0], [y, a, -b, 0]]
            gates += [[both, 2 * a, 2 * b], [neither, 2 * a + 1, 2 * b + 1], [2 * y, both + 1, neither + 1]]
            outputs.append(2 * y)
    choose.shuffle(gates)
    formula = text_of([["p", "cnf", 3 * count, len(clauses)], ["a", *universals, 0], *lines, *clauses])
    header = ["aag", 5 * count, 2 * count, 0, count, len(gates)]
    return formula, text_of([header, *([2 * x] for x in universals), *([output] for output in outputs), *gates])


def pigeons(holes):
    """One pigeon more than holes; pigeons see nothing, and two universals have no part in it."""
    clauses = [[*(pigeon * holes + hole + 3 for hole in range(holes)), 0] for pigeon in range(holes + 1)]
    for hole in range(holes):
        for pigeon, other in itertools.combinations(range(holes + 1), 2):
            clauses.append([-(pigeon * holes + hole + 3), -(other * holes + hole + 3), 0])
    return text_of([["p", "cnf", holes * (holes + 1) + 2, len(clauses)], ["a", 1, 2, 0], *clauses])


def parities(count, seed):
    """A formula whose existentials are the parities of the first 2, 3, .. universals, each by its gate over the one before,
    and a circuit whose last output sums in another order."""
    universals = list(range(1, count + 1))
    order = random.Random(seed).sample(universals, count)
    existentials = list(range(count + 1, 2 * count))
    clauses, gates, outputs = [], [], []

    def gate(*sides):
        gates.append([2 * (count + 1 + len(gates)), *sides])
        return gates[-1][0]

    def parity(left, right):
        return gate(gate(left, right) + 1, gate(left + 1, right + 1) + 1)

    def parity_of(variables):
        return functools.reduce(parity, [2 * variable for variable in variables])

    for y, a, b in zip(existentials, [1, *existentials], universals[1:]):
        clauses += [[-y, a, b, 0], [-y, -a, -b, 0], [y, -a, b, 0], [y, a, -b, 0]]
        outputs.append(parity_of(order) if b == count else parity(outputs[-1] if outputs else 2, 2 * b))
    formula = [["p", "cnf", 2 * count - 1, len(clauses)], ["a", *universals, 0], ["e", *existentials, 0], *clauses]
    header = ["aag", count + len(gates), count, 0, len(outputs), len(gates)]
    circuit = [header, *([2 * x] for x in universals), *([output] for output in outputs), *gates]
    return text_of(formula), text_of(circuit)


def larger(bench):
    formula, circuit = gates_of_pairs(32, 1)
    words = [bench.file("formula", formula), bench.file("circuit", circuit)]
    bench.check_verdict("64 inputs", "prove_circuit.py", words, "VALID TRUE")
    wrong = circuit.replace(b"\n130\n", b"\n131\n")
    bench.check_status("64 inputs, an output negated", "prove_circuit.py", [words[0], bench.file("circuit", wrong)], WRONG_CIRCUIT)
    formula, circuit = parities(22, 1)
    words = [bench.file("formula", formula), bench.file("circuit", circuit)]
    bench.check_verdict("parities", "prove_circuit.py", words, "VALID TRUE")
    bench.check_status("parities", "refute.py", words[:1], NOT_FALSE)
    blind = formula.replace(b" 43 0\n", b" 0\nd 43 " + b" ".join(b"%d" % x for x in range(1, 22)) + b" 0\n", 1)
    bench.check_verdict("a parity that doesn't see all", "refute.py", [bench.file("formula", blind)], "VALID FALSE")
    for holes in (4, 6):
        bench.check_verdict(f"{holes} holes", "refute.py", [bench.file("formula", pigeons(holes))], "VALID FALSE")


# Random cases


def is_satisfiable(clauses):
    """Whether clauses, sets of literals, have a model, by trying."""
    if not all(clauses):
        return False
    if not clauses:
        return True
    literal = next(iter(min(clauses, key=len)))
    return any(
        is_satisfiable([clause - {-chosen} for clause in clauses if chosen not in clause]) for chosen in (literal, -literal)
    )


def is_formula_true(formula):
    """Whether a random formula is true: in its clauses three universals occur at most, so that the others may be fixed."""
    used = sorted({abs(literal) for clause in formula.clauses for literal in clause} & set(formula.universals))
    fixed = dict.fromkeys(formula.universals, False)
    rows = [fixed | dict(zip(used, row)) for row in itertools.product((False, True), repeat=len(used))]
    return is_satisfiable(list(reference.instances(formula, rows).values()))


def read_circuit(formula, text):
    """A circuit with its inputs and outputs; a fault of the text is raised."""
    reader = reference.LineReader(text)
    header = reference.tokens_of(reader.take())
    reader.check(header[:1] == [b"aag"], "BadHeader")
    circuit = reference.read_circuit(reader, header)
    return circuit, *reference.mapping(formula, circuit)


def due_of_circuit(formula, text):
    """The exit statuses that may come on the text of a circuit: one, or where there are too many rows to be tried two."""
    try:
        circuit, inputs, outputs = read_circuit(formula, text)
    except reference.Fault:
        return [UNREADABLE]
    if reference.foreign_read(formula, circuit, inputs, outputs):
        return [FOREIGN_READ]
    if len(formula.universals) > reference.MOST_UNIVERSALS_BY_ROWS:
        return [WRITTEN, WRONG_CIRCUIT]
    return [WRONG_CIRCUIT if reference.bad_row(formula, circuit, inputs, outputs) else WRITTEN]


def is_row_bad(formula, text, said):
    """Whether a clause is false under the row where a script says so."""
    row, place, clause = re.fullmatch(r".*: under row(.*), clause ([0-9]+) is false: (.*)0\n", said).groups()
    values = {abs(literal): literal > 0 for literal in map(int, row.split())}
    circuit, inputs, outputs = read_circuit(formula, text)
    assignment = values | reference.output_values(circuit, inputs, outputs, values)
    literals = list(map(int, clause.split()))
    return formula.clauses[int(place) - 1] == literals and not reference.is_true(literals, assignment)


def random_proof(bench, shows, formula, path, text):
    words = [path, bench.file("circuit", text)]
    written, said, status = bench.run("prove_circuit.py", words)
    is_right = status in due_of_circuit(formula, text) and (status == WRITTEN) == (said == "")
    if status == WRITTEN:
        is_right = is_right and bench.verdict(path, written) == "VALID TRUE"
    if status == WRONG_CIRCUIT:
        is_right = is_right and is_row_bad(formula, text, said)
    bench.check(f"{shows}, proof", is_right, (status, said, written, text, due_of_circuit(formula, text)))


def random_refutation(bench, shows, formula, path):
    written, said, status = bench.run("refute.py", [path])
    is_right = status == (NOT_FALSE if is_formula_true(formula) else WRITTEN)
    if status == WRITTEN:
        is_right = is_right and bench.verdict(path, written) == "VALID FALSE"
    bench.check(f"{shows}, refutation", is_right, (status, said, written))


def random_case_of_rows(bench, shows, choose, formula, path):
    rows = random_rows(choose, formula.universals)
    due = reference.instances(formula, [{abs(literal): literal > 0 for literal in row} for row in rows])
    words = [path, bench.file("rows", text_of([["u", *row, 0] for row in rows]))]
    if is_satisfiable(list(due.values())):
        bench.check_status(f"{shows}, given rows", "refute.py", words, TOO_FEW_ROWS)
    else:
        bench.check_verdict(f"{shows}, given rows", "refute.py", words, "VALID FALSE")


def random_cases(bench):
    for case in range(1, RANDOM_CASES + 1):
        choose = random.Random(case)
        text = random_formula(choose)
        formula, path, shows = reference.FormulaReader(text).read(), bench.file("formula", text), f"case {case}"
        circuit = likely_circuit(choose, formula)
        random_proof(bench, shows, formula, path, spoiled(choose, circuit) if chance(choose, 0.3) else circuit)
        random_refutation(bench, shows, formula, path)
        random_case_of_rows(bench, shows, choose, formula, path)
        spoiled_text = spoiled(choose, text)
        try:
            reference.FormulaReader(spoiled_text).read()
        except reference.Fault:
            bench.check_status(f"{shows}, spoiled: {spoiled_text}", "refute.py", [bench.file("formula", spoiled_text)], UNREADABLE)


def main():
    if sys.argv[1:] == ["--help"]:
        print(__doc__.strip())
        return 0
    checker = sys.argv[1] if len(sys.argv) > 1 else None
    with tempfile.TemporaryDirectory() as folder:
        bench = Bench(folder, checker)
        for part in (examples, forms, odd_clauses, given_rows, amiss, bad_solvers, larger, random_cases):
            part(bench)
    print(f"{bench.cases} cases with {bench.deletions} deletions, {bench.differences} differences")
    return 1 if bench.differences else 0


if __name__ == "__main__":
    sys.exit(main())
