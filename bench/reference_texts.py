"""What the second judge, reference.py, reads of texts: numbers, tokens, lines, and formulas in DQDIMACS, from docs/FORMATS.md alone."""

import re
from dataclasses import dataclass, field

TOO_BIG = 10**18
MOST_VARIABLES = 1_000_000
MOST_CLAUSES = 10_000_000
LARGEST_XOR = 5


class Fault(Exception):
    """The first fault of a text: its line and its name."""

    def __init__(self, line, name):
        super().__init__(f"{line} {name}")


# Numbers, tokens, lines


def lines_of(text):
    """The lines without their LFs; an empty piece behind the last LF is none."""
    lines = text.split(b"\n")
    return lines if lines[-1] else lines[:-1]


def tokens_of(line):
    return re.findall(rb"[^ \t\r]+", line)


def number(token):
    """The number that a token spells, of any magnitude, or None."""
    if not re.fullmatch(rb"-?[0-9]+", token):
        return None
    value = int(token)
    return None if value == 0 and token.startswith(b"-") else value


def natural(token):
    """The natural number that a token spells, of any magnitude, or None."""
    value = number(token)
    return None if value is None or value < 0 else value


class LineReader:
    """Takes a text's lines in order; a fault is one of the line taken last."""

    def __init__(self, text):
        self.text = text
        self.lines = lines_of(text)
        self.number = 0

    def is_done(self):
        return self.number >= len(self.lines)

    def take(self, at_end="Truncated"):
        self.number += 1
        self.check(self.number <= len(self.lines), at_end)
        return self.lines[self.number - 1]

    def check(self, holds, name):
        if not holds:
            raise Fault(self.number, name)

    def behind(self):
        """The bytes behind the lines that were taken."""
        return b"".join(self.text.split(b"\n", self.number)[self.number :])

    def go_on(self, text):
        """What stands behind the line taken last is this text, whatever lines it was."""
        self.lines = (self.lines + [b""] * self.number)[: self.number] + lines_of(text)


# DQDIMACS


@dataclass
class Formula:
    """A formula whose header states so many variables. Each existential has the set of the universals that it sees;
    the order is that of declaration, and undeclared variables follow."""

    variables: int
    universals: list = field(default_factory=list)
    dependencies: dict = field(default_factory=dict)
    clauses: list = field(default_factory=list)

    @property
    def existentials(self):
        return list(self.dependencies)


class FormulaReader:
    """Reads the formula that a text spells; a fault is one of the token taken last, or of the end of the text."""

    def __init__(self, text):
        self.tokens = [
            (place, token)
            for place, line in enumerate(text.split(b"\n"), 1)
            if not line.strip(b" \t\r").startswith(b"c")
            for token in tokens_of(line)
        ]
        self.taken = 0
        self.last_line = text.count(b"\n") + 1
        self.line, self.token = None, None

    def read(self):
        self.take_header()
        while self.taken < len(self.tokens):
            self.take_part()
        if self.constraint_count < self.header_count:
            raise Fault(self.last_line, "TooFewClauses")
        self.add_undeclared()
        return self.formula

    def take(self, at_end):
        if self.taken == len(self.tokens):
            raise Fault(self.last_line, at_end)
        self.line, self.token = self.tokens[self.taken]
        self.taken += 1

    def check(self, holds, name):
        if not holds:
            raise Fault(self.line, name)

    def value(self, read):
        """The number of the token taken last, where `read` is `number` or `natural`."""
        value = read(self.token)
        self.check(value is not None, "BadNumber")
        self.check(abs(value) < TOO_BIG, "TooBig")
        return value

    def take_header(self):
        for word in (b"p", b"cnf"):
            self.take("NoHeader")
            self.check(self.token == word, "NoHeader")
        self.formula = Formula(self.take_count(MOST_VARIABLES))
        self.header_count = self.take_count(MOST_CLAUSES)
        self.constraint_count = 0

    def take_count(self, limit):
        self.take("NoHeader")
        count = self.value(natural)
        self.check(count <= limit, "Limit")
        return count

    def take_part(self):
        """A set, an item, a clause or an XOR line."""
        self.take("MissingZero")
        self.check(self.token != b"p", "HeaderTwice")
        takers = {b"a": self.take_universals, b"e": self.take_existentials, b"d": self.take_item}
        if self.token in takers:
            self.check(self.constraint_count == 0, "PrefixLate")
            takers[self.token]()
        elif self.token == b"x":
            self.count_constraint()
            self.take_xor()
        else:
            literal = self.value(number)
            self.count_constraint()
            self.take_clause(literal)

    def take_in_prefix(self):
        self.take("MissingZero")
        self.check(self.token != b"p", "HeaderTwice")
        return self.value(natural)

    def check_range(self, literal):
        self.check(abs(literal) <= self.formula.variables, "VarRange")

    def check_new(self, variable):
        self.check_range(variable)
        declared = variable in self.formula.universals or variable in self.formula.dependencies
        self.check(not declared, "DeclaredTwice")

    def take_universals(self):
        while variable := self.take_in_prefix():
            self.check_new(variable)
            self.formula.universals.append(variable)

    def take_existentials(self):
        while variable := self.take_in_prefix():
            self.check_new(variable)
            self.formula.dependencies[variable] = set(self.formula.universals)

    def take_item(self):
        existential = self.take_in_prefix()
        self.check(existential != 0, "EmptyD")
        self.check_new(existential)
        seen = self.formula.dependencies[existential] = set()
        while universal := self.take_in_prefix():
            self.check_range(universal)
            self.check(universal in self.formula.universals, "NotUniversal")
            seen.add(universal)

    def count_constraint(self):
        """One more clause or XOR line begins."""
        self.check(self.constraint_count < self.header_count, "TooManyClauses")
        self.constraint_count += 1

    def take_clause(self, literal):
        """The clause that begins with this literal, or with its zero."""
        clause = []
        while literal:
            self.check_range(literal)
            if literal not in clause:
                clause.append(literal)
            literal = self.take_in_clause()
        self.add_clauses([clause])

    def take_xor(self):
        """The XOR line whose letter was taken, as its clauses: an even number of its literals is negated."""
        literals = []
        while literal := self.take_in_clause():
            self.check_range(literal)
            self.check(len(literals) < LARGEST_XOR, "XorSize")
            self.check(literal not in literals and -literal not in literals, "XorRepeat")
            literals.append(literal)
        self.check(literals, "XorSize")
        masks = (mask for mask in range(2 ** len(literals)) if mask.bit_count() % 2 == 0)
        self.add_clauses([[-literal if mask >> i & 1 else literal for i, literal in enumerate(literals)] for mask in masks])

    def add_clauses(self, clauses):
        self.check(len(self.formula.clauses) + len(clauses) <= MOST_CLAUSES, "Limit")
        self.formula.clauses.extend(clauses)

    def take_in_clause(self):
        self.take("MissingZero")
        self.check(self.token != b"p", "HeaderTwice")
        self.check(self.token not in (b"a", b"e", b"d"), "PrefixLate")
        return self.value(number)

    def add_undeclared(self):
        """Variables of clauses that aren't declared are existentials that see nothing."""
        used = {abs(literal) for clause in self.formula.clauses for literal in clause}
        for variable in sorted(used - {*self.formula.universals, *self.formula.dependencies}):
            self.formula.dependencies[variable] = set()
