#!/usr/bin/env python3
"""Has the built solver define the existentials of random formulas, and compares which it says are functions of what
they may read with what the models say, tried one by one; and has the built checker and the second judge, reference.py,
judge each text. Prints how many blocks of each kind there were, and each difference with the formula. Where there is a
difference, the exit status is 1.

Usage: bench/defined.py [COUNT [SEED]]     1,000 formulas from seed 1, or COUNT formulas from SEED
"""

import collections
import os
import random
import subprocess
import sys
import tempfile

import reference
from bench import CHECKER, TOP
from definitions import models_of
from differential import chance, text_of

SOLVER = os.environ.get("DQSOLVE", os.path.join(TOP, "crates", "dqsolve", "out", "dqsolve"))


def random_formula(choose):
    """Up to four universals and five existentials, and up to sixteen clauses, of which some are an exclusive or's."""
    universals = list(range(1, choose.randrange(5) + 1))
    existentials = list(range(len(universals) + 1, len(universals) + choose.randrange(1, 6) + 1))
    lines, declared = [["a", *universals, 0]] if universals else [], universals + existentials
    for existential in existentials:
        lines.append(["d", existential, *choose.sample(universals, choose.randrange(len(universals) + 1)), 0])
    clauses = []
    while len(clauses) < 14 and chance(choose, 0.85):
        size = min(len(declared), choose.choice((1, 2, 2, 3, 3)))
        picked = choose.sample(declared, size)
        if chance(choose, 0.35):
            clauses += odd_clauses(picked, choose.randrange(2))
        else:
            clauses.append([choose.choice((v, -v)) for v in picked] + [0])
    return text_of([["p", "cnf", len(declared), len(clauses)], *lines, *clauses])


def odd_clauses(variables, parity):
    """That an odd number of these variables is true, or an even one."""
    rows = range(2 ** len(variables))
    wrong = [row for row in rows if bin(row).count("1") % 2 == parity]
    return [[-v if row >> k & 1 else v for k, v in enumerate(variables)] + [0] for row in wrong]


def defined_by_models(formula):
    """Of each existential, in order, whether it is a function of what it may read wherever the matrix is true."""
    models = models_of(formula)
    answers = []
    for existential in formula.existentials:
        readable = sorted(reference.readable_variables(formula, existential))
        values = collections.defaultdict(set)
        for model in models:
            values[tuple(model[v] for v in readable)].add(model[existential])
        answers.append(all(len(both) < 2 for both in values.values()))
    return answers


def run(words):
    done = subprocess.run(words, stdout=subprocess.PIPE, stderr=subprocess.PIPE, check=False)
    return done.returncode, done.stdout


def faults_of(text, folder, counts):
    """What is wrong with the solver's answer for a formula."""
    paths = [os.path.join(folder, name) for name in ("formula", "definitions")]
    with open(paths[0], "wb") as file:
        file.write(text)
    status, answer = run([SOLVER, "defined", paths[0]])
    if status != 30:
        return [f"status {status}"]
    with open(paths[1], "wb") as file:
        file.write(answer)
    formula = reference.FormulaReader(text).read()
    expected = defined_by_models(formula)
    blocks = [line[:1] == b"t" for line in answer.splitlines() if line[:1] in b"tf"]
    counts.update("defined" if block else "free" for block in blocks)
    line = f"VALID DEFINED {sum(expected)} FREE {len(expected) - sum(expected)}"
    judged = run([CHECKER, *paths])
    faults = [] if blocks == expected else [f"blocks {blocks}, by the models {expected}"]
    faults += [] if judged == (0, f"{line}\n".encode()) else [f"dqcheck says {judged}"]
    return faults + ([] if reference.judge(formula, answer) == line else ["the second judge differs"])


def main():
    if sys.argv[1:] == ["--help"]:
        print(__doc__.strip())
        return
    for program in (CHECKER, SOLVER):
        if not os.path.exists(program):
            sys.exit(f"{program} isn't built: run `rt run` in its crate, or `rt ci` at the top")
    words = sys.argv[1:]
    count = int(words[0]) if words else 1_000
    choose = random.Random(int(words[1]) if len(words) > 1 else 1)
    counts, differences = collections.Counter(), 0
    with tempfile.TemporaryDirectory() as folder:
        for _ in range(count):
            text = random_formula(choose)
            for fault in faults_of(text, folder, counts):
                differences += 1
                print(fault, text.decode(), sep="\n")
    print(f"{count} formulas, {counts['defined']} defined, {counts['free']} free, {differences} differences")
    sys.exit(1 if differences else 0)


if __name__ == "__main__":
    main()
