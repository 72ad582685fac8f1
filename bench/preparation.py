#!/usr/bin/env python3
"""Runs the built solver with `--prep` on random small formulas, to which units are added, with `--bare`, `--v2` and
`--binary` in all combinations. Each verdict is compared with all choices of bits at the pairs of existentials and what
they see, tried one by one; each certificate is judged by the built checker and by the second judge, reference.py. With
fewer steps the answer is UNKNOWN with as many steps in its counts.

Usage: bench/preparation.py [COUNT [SEED]]     500 formulas from seed 1 where no words are given

The variables DQSOLVE and DQCHECK name the programs.
"""

import itertools
import os
import random
import sys
import tempfile

import loop
import reference
from decisions import check, solve, steps_in

OPTIONS = ("--bare", "--v2", "--binary")
FORMS = [words for n in range(len(OPTIONS) + 1) for words in itertools.combinations(OPTIONS, n)]


def prepared_formula(rng):
    """A random formula with a few units among its clauses."""
    universals, existentials, clauses = loop.random_formula(rng)
    some = rng.sample(list(existentials), rng.randint(0, min(2, len(existentials))))
    units = [[y * rng.choice((1, -1))] for y in some]
    return loop.shuffled(rng, (universals, existentials, clauses + units))


def solve_prepared(path, *words):
    return solve(path, "--prep", *words)


def faults_of_forms(folder, path, text, formula):
    """What is wrong with the answers, as a list of sentences."""
    word, status = ("TRUE", 10) if loop.is_true(formula) else ("FALSE", 20)
    faults = []
    for words in FORMS:
        certificate, found = solve_prepared(path, *words)
        if found != status or ("--bare" not in words and not certificate.startswith(f"s {word}\n".encode())):
            faults.append(f"due is {word} with status {status}, with {words} the solver says {certificate[:20]} with {found}")
            continue
        for judge, said in (("checker", check(folder, path, certificate)), ("second judge", reference.answer(text, certificate))):
            if said != f"VALID {word}":
                faults.append(f"with {words} the {judge} says {said}")
    return faults


def faults_of_one_step(path, answer):
    """What is wrong with the answer where one step is allowed: one step, or the verdict."""
    found = solve_prepared(path, "--steps", "1")
    return [] if found == answer or steps_in(found) == 1 else [f"with one step the solver says {found[0][:60]} with {found[1]}"]


def compare(count, seed):
    rng, differences = random.Random(seed), 0
    with tempfile.TemporaryDirectory() as folder:
        path = os.path.join(folder, "formula")
        for case in range(1, count + 1):
            formula = prepared_formula(rng)
            text = loop.text_of(formula).replace(" / ", "\n").encode() + b"\n"
            with open(path, "wb") as file:
                file.write(text)
            faults = faults_of_forms(folder, path, text, formula)
            faults += faults_of_one_step(path, solve_prepared(path))
            if faults:
                differences += 1
                print(f"formula {case}:", *faults, text.decode(), sep="\n  ")
    print(f"{count} formulas from seed {seed}, {differences} differences")
    return differences


def main(words):
    if "--help" in words:
        print(__doc__.strip())
        return 0
    count, seed = [*map(int, words), *(500, 1)[len(words) :]]
    return 1 if compare(count, seed) else 0


if __name__ == "__main__":
    sys.exit(main(sys.argv[1:]))
