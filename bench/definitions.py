#!/usr/bin/env python3
"""Makes random formulas with texts of definitions, right ones and spoiled ones, and compares what the built checker
answers on them with the second judge, reference.py. Prints how many of each answer there were, and each difference with
the texts of both files. Where there is a difference, the exit status is 1.

Usage: bench/definitions.py [COUNT [SEED]]     2,000 cases from seed 1, or COUNT cases from SEED
"""

import itertools
import os
import random
import sys

import differential
import reference
from bench import CHECKER
from differential import Cases, chance, derivation, random_formula, spoiled, stated_count, text_of, texts_of
from reference import Definition, Gate

MOST_VARIABLES = 9


def models_of(formula):
    """The assignments of all declared variables that make the matrix true."""
    variables = [*formula.universals, *formula.existentials]
    rows = itertools.product((False, True), repeat=len(variables))
    assignments = (dict(zip(variables, row)) for row in rows)
    return [a for a in assignments if all(reference.is_true(clause, a) for clause in formula.clauses)]


def signs(letter, variables, assignment):
    return [letter, *(variable if assignment[variable] else -variable for variable in variables), 0]


def pair_lines(choose, formula, existential, models):
    """An `f` block: two models that agree on what a definition may read, and not on the existential, where there are
    such; else two assignments."""
    readable = reference.readable_variables(formula, existential)
    pairs = [
        pair
        for pair in itertools.combinations(models, 2)
        if all(pair[0][v] == pair[1][v] for v in readable) and pair[0][existential] != pair[1][existential]
    ]
    if pairs:
        pair = choose.choice(pairs)
    elif models:
        pair = choose.choices(models, k=2)
    else:
        pair = [dict.fromkeys([*formula.universals, *formula.existentials], value) for value in (False, True)]
    pair = choose.sample(pair, 2)
    if chance(choose, 0.1) and pair[0]:
        pair[0] = pair[0] | {variable: chance(choose, 0.5) for variable in choose.sample(list(pair[0]), 1)}
    lines = [["f", existential]]
    for assignment in pair:
        lines += [signs("u", formula.universals, assignment), signs("v", formula.existentials, assignment)]
    return lines


class Tree:
    """Gates for the existential's value by cases over the variables that a definition may read."""

    def __init__(self, choose, formula, existential):
        self.choose, self.formula, self.existential = choose, formula, existential
        self.gates = []

    def gate(self, left, right):
        variable = self.formula.variables + len(self.gates) + 1
        sides = (left, right) if chance(self.choose, 0.5) else (right, left)
        self.gates.append(Gate(variable, sides))
        return 2 * variable

    def literal(self, models, variables):
        values = {model[self.existential] for model in models}
        if len(values) < 2 or not variables:
            return int(self.choose.choice(sorted(values) or (False, True)))
        variable, *others = variables
        low, high = (self.literal([m for m in models if m[variable] == value], others) for value in (False, True))
        if low == high and chance(self.choose, 0.9):
            return low
        if (low, high) in ((0, 1), (1, 0)) and chance(self.choose, 0.9):
            return 2 * variable + low
        return self.gate(self.gate(2 * variable, high) ^ 1, self.gate(2 * variable ^ 1, low) ^ 1) ^ 1


def definition_lines(choose, formula, existential, models, spoiled_part):
    """A `t` block with a proof by cases, where there is one."""
    readable = sorted(reference.readable_variables(formula, existential))
    if chance(choose, 0.1):
        readable = [*formula.universals, *formula.existentials]
    tree = Tree(choose, formula, existential)
    output = tree.literal(models, choose.sample(readable, len(readable)))
    for _ in range(choose.choice((0, 0, 0, 1, 2))):
        known = [0, *readable, *(gate.variable for gate in tree.gates)]
        tree.gate(*(2 * choose.choice(known) + choose.randrange(2) for _ in range(2)))
    if chance(choose, 0.1):
        output ^= 1
    definition = Definition(existential, output, tree.gates, [])
    base = reference.definition_base(formula, definition)
    first_id = len(formula.clauses) + 3 * len(tree.gates) + 3
    used = sorted({abs(literal) for clause in base.values() for literal in clause})
    named = [variable for variable in used if variable <= formula.variables]
    cases = Cases(choose, base, first_id, choose.sample(named, len(named)))
    lines = derivation(choose, cases, formula.variables + len(tree.gates), spoiled_part)
    gates = [[2 * gate.variable, *gate.sides] for gate in tree.gates]
    counts = [stated_count(choose, gates), stated_count(choose, lines)]
    return [["t", existential, output, *counts], *gates, *texts_of(lines)]


def random_definitions(choose, formula):
    models, spoiled_part = models_of(formula), choose.choice((0, 0, 0.05, 0.3))
    lines = [["p", "dqd", len(formula.existentials)]]
    for existential in formula.existentials:
        readable = sorted(reference.readable_variables(formula, existential))
        keys = {(model[existential], *(model[v] for v in readable)) for model in models}
        is_defined = len({key[1:] for key in keys}) == len(keys)
        if is_defined == chance(choose, 0.93):
            lines += definition_lines(choose, formula, existential, models, spoiled_part)
        else:
            lines += pair_lines(choose, formula, existential, models)
    return text_of(lines + ([[], [" "]] if chance(choose, 0.1) else []))


def random_case(choose):
    """The texts of a formula and of its definitions, rarely those of another formula."""
    while True:
        formula_text = random_formula(choose)
        formula = reference.FormulaReader(formula_text).read()
        if len(formula.universals) + len(formula.existentials) <= MOST_VARIABLES:
            break
    certificate_text = random_definitions(choose, formula)
    if chance(choose, 0.03):
        formula_text = random_formula(choose)
    if chance(choose, 0.05):
        certificate_text = choose.choice((b"s TRUE\n", b"s FALSE\n", b"s\n", b"\n")) + certificate_text
    while chance(choose, 0.25):
        certificate_text = spoiled(choose, certificate_text)
    return formula_text, certificate_text


def main():
    if sys.argv[1:] == ["--help"]:
        print(__doc__.strip())
        return
    if not os.path.exists(CHECKER):
        sys.exit(f"{CHECKER} isn't built: run `rt run` in crates/dqcheck, or `rt ci` at the top")
    words = sys.argv[1:]
    count = int(words[0]) if words else 2_000
    seed = int(words[1]) if len(words) > 1 else 1
    sys.exit(1 if differential.compare(count, seed, random_case) else 0)


if __name__ == "__main__":
    main()
