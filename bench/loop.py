#!/usr/bin/env python3
"""Runs the search's loop, by the program of cases, on random small formulas, and compares its verdicts with all choices of bits at
the pairs of existentials and what they see, tried one by one. Each refutation that it exports is judged by the checker inside of that
program. Prints each difference and how many there were; where there is one, the exit status is 1.

Usage: bench/loop.py PROGRAM [COUNT [SEED]]     such as crates/engine_cases/out/engine_cases 1000 1
"""

import itertools
import os
import random
import subprocess
import sys
import tempfile

MOST_UNIVERSALS = MOST_EXISTENTIALS = 4
MOST_CLAUSES = 12
MOST_SEEN = 2
STEPS = 1_000_000


def random_formula(rng):
    """Universals, existentials with the universals that they see, and clauses."""
    universals = list(range(1, rng.randint(0, MOST_UNIVERSALS) + 1))
    first = len(universals) + 1
    count = rng.randint(0 if universals else 1, MOST_EXISTENTIALS)
    existentials = {y: sorted(rng.sample(universals, rng.randint(0, min(len(universals), MOST_SEEN)))) for y in range(first, first + count)}
    variables = universals + list(existentials)
    clauses = [random_clause(rng, variables) for _ in range(rng.randint(0, MOST_CLAUSES))]
    return universals, existentials, clauses


def shuffled(rng, formula):
    """The same formula with its universals, its existentials and its clauses in any order."""
    universals, existentials, clauses = formula
    declared = rng.sample(list(existentials), len(existentials))
    return rng.sample(universals, len(universals)), {y: existentials[y] for y in declared}, rng.sample(clauses, len(clauses))


def random_clause(rng, variables):
    some = rng.sample(variables, rng.randint(1, min(3, len(variables))))
    return [v * rng.choice((1, -1)) for v in some]


def instances(universals, existentials, clauses):
    """Each clause under each row, as the literals of pairs that are left; clauses that a universal makes true are dropped."""
    left = set()
    for bits in itertools.product((False, True), repeat=len(universals)):
        row = dict(zip(universals, bits))
        for clause in clauses:
            if not any(abs(l) in row and row[abs(l)] == (l > 0) for l in clause):
                left.add(frozenset((pair(existentials, row, abs(l)), l > 0) for l in clause if abs(l) in existentials))
    return left


def pair(existentials, row, y):
    """An existential and the bits that a row gives it to see."""
    return y, tuple(row[x] for x in existentials[y])


def is_true(formula):
    """Whether some choice of bits at the pairs makes every instance true."""
    universals, existentials, clauses = formula
    pairs = [(y, bits) for y, seen in existentials.items() for bits in itertools.product((False, True), repeat=len(seen))]
    left = instances(universals, existentials, clauses)
    choices = (dict(zip(pairs, bits)) for bits in itertools.product((False, True), repeat=len(pairs)))
    return any(all(any(choice[p] == sign for p, sign in instance) for instance in left) for choice in choices)


def text_of(formula):
    """DQDIMACS, with a slash for each end of a line."""
    universals, existentials, clauses = formula
    lines = [f"p cnf {len(universals) + len(existentials)} {len(clauses)}"]
    if universals:
        lines.append(numbers("a", universals))
    lines += [numbers("d", [y, *seen]) for y, seen in existentials.items()]
    lines += [" ".join(map(str, [*clause, 0])) for clause in clauses]
    return " / ".join(lines)


def numbers(word, items):
    return " ".join(map(str, [word, *items, 0]))


def table(formulas):
    """The table of cases: a verdict and a refutation for each formula."""
    lines = []
    for formula in formulas:
        lines += [f"formula {text_of(formula)}", f"decide verdict : {STEPS}", f"refute certificate : {STEPS}"]
    return "".join(line + "\n" for line in lines)


def printed(program, formulas):
    with tempfile.TemporaryDirectory() as folder:
        for name, text in ("engines", table(formulas)), ("solver", ""):
            with open(os.path.join(folder, name), "w") as cases:
                cases.write(text)
        run = subprocess.run([os.path.abspath(program)], cwd=folder, stdout=subprocess.PIPE, text=True, check=True)
    return run.stdout.splitlines()


def expected(formula):
    if is_true(formula):
        return ["verdict: true", "certificate: not refuted"]
    return ["verdict: false", "certificate: VALID FALSE"]


def main(words):
    program = words[0]
    count = int(words[1]) if len(words) > 1 else 1000
    seed = int(words[2]) if len(words) > 2 else 1
    rng = random.Random(seed)
    formulas = [shuffled(rng, random_formula(rng)) for _ in range(count)]
    lines = printed(program, formulas)
    differences = 0
    for place, formula in enumerate(formulas):
        found = lines[2 * place : 2 * place + 2]
        if found != expected(formula):
            differences += 1
            print(text_of(formula), found)
    print(f"{count} formulas from seed {seed}, {differences} differences")
    return 1 if differences else 0


if __name__ == "__main__":
    if sys.argv[1:] == ["--help"]:
        print(__doc__.strip())
        sys.exit(0)
    if not 2 <= len(sys.argv) <= 4:
        sys.exit(__doc__.strip().split("\n")[-1])
    sys.exit(main(sys.argv[1:]))
