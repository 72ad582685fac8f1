#!/usr/bin/env python3
"""Writes a circuit with a proof that it stands for Skolem functions of a formula: the circuit's text, and behind its line
`c`, in place of a comment that it has, a `dqp` proof as docs/FORMATS.md describes it. The proof is found by the solver
cadical. Nothing here is trusted: dqcheck judges what is written.

Usage: tools/prove_circuit.py [--v2] FORMULA CIRCUIT > CERT     DQDIMACS, and AIGER, whose form stays: ASCII or binary

With --v2 a line is deleted behind the last one that hints it. With --json, as first word, status,
output and message are one line of JSON.

The exit status is 0 where a proof was written, 1 for words that aren't two files, and else, with a message: 2 a text can't be
read, 3 there is no cadical, 4 cadical failed, 5 a clause is false under some row, 6 an output reaches a universal that its
existential may not see.
"""

import sys

import hinted
from failure import FOREIGN_READ, WRONG_CIRCUIT, Failure
from failure import USAGE as USAGE_STATUS
from processes import run_script
from skolem import first_id, gates_in_order, mapping, negated_matrix
from texts import read_circuit, read_formula

USAGE = "usage: tools/prove_circuit.py [--v2] FORMULA CIRCUIT > CERT"


# Reads

UNIVERSALS_AT_A_TIME = 1024


def check_reads(formula, circuit, inputs, outputs):
    """Each output reaches only inputs of universals that its existential sees."""
    order = gates_in_order(circuit)
    universals = list(formula.universals)
    foreign = []
    for start in range(0, len(universals), UNIVERSALS_AT_A_TIME):
        foreign += foreign_reads(formula, order, inputs, outputs, universals[start : start + UNIVERSALS_AT_A_TIME])
    if foreign:
        _, existential, universal = min(foreign)
        message = f"the output for {existential} reaches universal {universal}, which {existential} may not see"
        raise Failure(FOREIGN_READ, message)


def foreign_reads(formula, order, inputs, outputs, universals):
    """The first existential whose output reaches one of these universals that it may not see, with its place and the first
    such universal, in a list; sets of universals are bits of a number."""
    reached = {0: 0, **dict.fromkeys(inputs.values(), 0)}
    reached |= {inputs[universal]: 1 << at for at, universal in enumerate(universals)}
    for variable, (left, right) in order:
        reached[variable] = reached[left // 2] | reached[right // 2]
    for place, (existential, seen) in enumerate(formula.dependencies.items()):
        bits = reached[outputs[existential] // 2] if len(seen) < len(inputs) else 0
        for at in places_of(bits):
            if universals[at] not in seen:
                return [(place, existential, universals[at])]
    return []


def places_of(bits):
    """The places of ones, from the lowest on."""
    while bits:
        lowest = bits & -bits
        yield lowest.bit_length() - 1
        bits ^= lowest


# The proof


def failing_row(formula, circuit, inputs, true):
    """What a model of the negated matrix says against the circuit."""
    row = [universal if inputs[universal] in true else -universal for universal in formula.universals]
    place = next(place for place in range(1, len(formula.clauses) + 1) if circuit.variables + place in true)
    clause = " ".join(map(str, [*formula.clauses[place - 1], 0]))
    return f"{' '.join(map(str, ['under row', *row]))}, clause {place} is false: {clause}"


def prove(formula_path, circuit_path, deletes=False):
    formula, circuit = read_formula(formula_path), read_circuit(circuit_path)
    inputs, outputs = mapping(formula, circuit)
    check_reads(formula, circuit, inputs, outputs)
    clauses = negated_matrix(formula, circuit, inputs, outputs)
    answer = hinted.solve(clauses.values())
    if answer.has_model:
        raise Failure(WRONG_CIRCUIT, failing_row(formula, circuit, inputs, answer.true))
    lines = hinted.derivation(clauses, answer.steps, first_id(formula, circuit))
    items = hinted.with_deletions(lines) if deletes else lines
    sys.stdout.buffer.write(circuit.text + f"c\ndqp{hinted.version_of(items)} {len(items)}\n".encode())
    hinted.write(items)


def main(words):
    """Checks the words, and does the work."""
    deletes = words[:1] == ["--v2"]
    words = words[deletes:]
    if len(words) != 2 or any(word.startswith("-") for word in words):
        print(USAGE, file=sys.stderr)
        return USAGE_STATUS
    prove(*words, deletes=deletes)
    return 0


if __name__ == "__main__":
    run_script("prove_circuit", __doc__, main, has_json=False)
