#!/usr/bin/env python3
"""Writes a refutation of a false formula: rows of its universals, and hinted lines that derive the empty clause from the
clauses' instances there, a `dqr` text as docs/FORMATS.md describes it. The solver cadical finds the lines. Nothing here is
trusted: dqcheck judges what is written.

Usage: tools/refute.py [--v2] FORMULA > CERT            DQDIMACS; the rows are found here
       tools/refute.py [--v2] FORMULA ROWS > CERT       a row a line, each universal with its sign

With --v2 a line is deleted behind the last one that hints it. With --json, as first word, status,
output and message are one line of JSON.

Rows are found so: a model of the instances so far gives each existential a bit in each row, and decision trees that agree with
these bits give it a function of what it sees; where a clause is then false under some row, that row is added. At worst all rows
are.

The exit status is 0 where a refutation was written, 1 for words that aren't files, and else, with a message: 2 a text can't be
read, 3 there is no cadical, 4 cadical failed, 7 the instances under the rows of ROWS have a model, 8 the formula isn't
false.
"""

import sys

import hinted
from failure import NOT_FALSE, TOO_FEW_ROWS, Failure
from failure import USAGE as USAGE_STATUS
from processes import run_script
from texts import Place, bytes_of, lines_of, number, read_formula, tokens_of

USAGE = "usage: tools/refute.py [--v2] FORMULA [ROWS] > CERT"


def read_rows(formula, path):
    """The rows that a text lists, each a set of literals. `u` before a row and 0 behind it, as in a `dqr` text, are
    accepted, and lines of blanks are skipped."""
    place, rows = Place(path), []
    for place.line, line in enumerate(lines_of(bytes_of(path)), 1):
        words = tokens_of(line)
        literals = [number(word) for word in words[words[:1] == [b"u"] :]]
        if literals[-1:] == [0]:
            literals.pop()
        place.check(None not in literals, "a row is a list of numbers")
        fits = sorted(map(abs, literals)) == sorted(formula.universals)
        place.check(fits or not words, "a row has each universal once, with its sign")
        if words:
            rows.append(frozenset(literals))
    return rows


class Expansion:
    """The clauses' instances under rows, by id, and the variable of each existential under each row: the number that it has
    under the first row in which it sees the same."""

    def __init__(self, formula, rows=()):
        self.formula = formula
        self.rows = []
        self.variables = []
        self.pairs = {}
        self.instances = {}
        for row in rows:
            self.add(row)

    def add(self, row):
        variables = {}
        for existential, seen in self.formula.dependencies.items():
            pair = existential, frozenset(literal for literal in row if abs(literal) in seen)
            variables[existential] = self.pairs.setdefault(pair, len(self.rows) * self.formula.variables + existential)
        first = len(self.rows) * len(self.formula.clauses) + 1
        for id, clause in enumerate(self.formula.clauses, first):
            if row.isdisjoint(clause):
                left = [literal for literal in clause if abs(literal) in variables]
                self.instances[id] = [variables[literal] if literal > 0 else -variables[-literal] for literal in left]
        self.rows.append(row)
        self.variables.append(variables)

    def first_id(self):
        return len(self.rows) * len(self.formula.clauses) + 1

    def rows_of(self, lines):
        """The rows whose instances are used by lines, in order."""
        used = {(hint - 1) // len(self.formula.clauses) for line in lines for hint in line.hints if hint < self.first_id()}
        return [self.rows[place] for place in sorted(used)]

    def lines(self, steps):
        return hinted.derivation(self.instances, steps, self.first_id())


# Functions that agree with a model

LONG_CLAUSE = 50  # what stands in a longer one says little of each of its variables


class Trees:
    """Learns decision trees. An existential may be decided by universals that it sees, and by existentials that are placed before
    it and see no more: first by those that share a clause with it, as a gate's sides do, and then by all universals that it sees."""

    def __init__(self, formula):
        self.formula = formula
        sees = formula.dependencies
        self.order = {y: place for place, y in enumerate(sorted(sees, key=lambda y: len(sees[y])))}
        self.near = {y: {} for y in sees}
        for clause in formula.clauses:
            variables = [abs(literal) for literal in clause] if len(clause) <= LONG_CLAUSE else []
            for existential in filter(sees.__contains__, variables):
                self.near[existential].update(dict.fromkeys(x for x in variables if self.may_decide(x, existential)))

    def may_decide(self, variable, existential):
        sees = self.formula.dependencies
        if variable not in sees:
            return variable in sees[existential]
        return self.order[variable] < self.order[existential] and sees[variable] <= sees[existential]

    def clauses(self, expansion, true):
        """Clauses that make each existential what its tree says."""
        columns = self.columns(expansion, true)
        every = (1 << len(expansion.rows)) - 1
        return [clause for existential in self.order for clause in self.tree(existential, columns, every)]

    def columns(self, expansion, true):
        """The rows in which each variable is true, as bits of a number."""
        columns = dict.fromkeys([*self.formula.universals, *self.order], 0)
        for place, (row, variables) in enumerate(zip(expansion.rows, expansion.variables)):
            for variable in [x for x in row if x > 0] + [y for y, pair in variables.items() if pair in true]:
                columns[variable] |= 1 << place
        return columns

    def tree(self, existential, columns, every):
        """A clause for each leaf: the existential is as in the leaf's rows, or one of the decisions was another."""
        waiting = [([], every)]
        while waiting:
            others, rows = waiting.pop()
            ones = columns[existential] & rows
            if ones in (0, rows):
                yield [*others, existential if ones else -existential]
            else:
                chosen = self.decision(existential, columns, rows)
                waiting.append(([*others, -chosen], rows & columns[chosen]))
                waiting.append(([*others, chosen], rows & ~columns[chosen]))

    def decision(self, existential, columns, rows):
        """The variable that parts rows best by what the existential is in them; rows in which it differs differ in what it
        sees, so that there is one."""

        def parts(variable):
            return columns[variable] & rows not in (0, rows)

        def disorder(variable):
            halves = rows & columns[variable], rows & ~columns[variable]
            return sum(mixture((half & columns[existential]).bit_count(), half.bit_count()) for half in halves)

        near = list(filter(parts, self.near[existential]))
        return min(near or filter(parts, sorted(self.formula.dependencies[existential])), key=disorder)


def mixture(ones, count):
    """Gini's impurity of so many bits, times their number."""
    return ones * (count - ones) / count


# Rows that are found


def failing_row(formula, functions):
    """A row under which functions, given as clauses, make some clause of the formula false, or None."""
    falsities = range(formula.variables + 1, formula.variables + len(formula.clauses) + 1)
    some_is_false = [
        list(falsities),
        *([-falsity, -literal] for falsity, clause in zip(falsities, formula.clauses) for literal in clause),
    ]
    answer = hinted.solve(some_is_false + functions)
    if not answer.has_model:
        return None
    return frozenset(universal if universal in answer.true else -universal for universal in formula.universals)


def find_rows(formula):
    """An expansion under rows that are found, and the steps of the solver that refute it."""
    expansion, trees = Expansion(formula), Trees(formula)
    while (answer := hinted.solve(expansion.instances.values())).has_model:
        row = failing_row(formula, trees.clauses(expansion, answer.true))
        if row is None:
            count = len(expansion.rows)
            message = f"the formula isn't false: functions learned from {count} rows make each clause true under every row"
            raise Failure(NOT_FALSE, message)
        expansion.add(row)
    return expansion, answer.steps


def found_refutation(formula):
    """Rows and lines, without the rows that no line uses."""
    expansion, steps = find_rows(formula)
    lines = expansion.lines(steps)
    while len(rows := expansion.rows_of(lines)) < len(expansion.rows):
        expansion = Expansion(formula, rows)
        lines = expansion.lines(hinted.solve(expansion.instances.values()).steps)
    return expansion.rows, lines


# Rows that are given


def refutation_under(formula, rows):
    expansion = Expansion(formula, rows)
    answer = hinted.solve(expansion.instances.values())
    if answer.has_model:
        raise Failure(TOO_FEW_ROWS, f"the clauses' instances under these {len(rows)} rows have a model: the rows don't refute the formula")
    return rows, expansion.lines(answer.steps)


def refute(formula_path, rows_path=None, deletes=False):
    formula = read_formula(formula_path)
    if rows_path is None:
        rows, lines = found_refutation(formula)
    else:
        rows, lines = refutation_under(formula, read_rows(formula, rows_path))
    items = hinted.with_deletions(lines) if deletes else lines
    sys.stdout.write(f"p dqr{hinted.version_of(items)} {len(rows)} {len(items)}\n")
    for row in rows:
        literals = [universal if universal in row else -universal for universal in formula.universals]
        sys.stdout.write(" ".join(map(str, ["u", *literals, 0])) + "\n")
    hinted.write(items)


def main(words):
    """Checks the words, and does the work."""
    deletes = words[:1] == ["--v2"]
    words = words[deletes:]
    if not 1 <= len(words) <= 2 or any(word.startswith("-") for word in words):
        print(USAGE, file=sys.stderr)
        return USAGE_STATUS
    refute(*words, deletes=deletes)
    return 0


if __name__ == "__main__":
    run_script("refute", __doc__, main, has_json=False)
