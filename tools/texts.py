"""Readers of the texts that docs/FORMATS.md describes, for the scripts beside this one. What can't be read ends the
script with the line and a message; the names of faults are the checker's own and aren't repeated here."""

import os
import re
from dataclasses import dataclass, field
from typing import NamedTuple

from failure import UNREADABLE, Failure


def bytes_of(path):
    try:
        with open(path, "rb") as file:
            return file.read()
    except OSError as error:
        raise Failure(UNREADABLE, f"{path}: {error.strerror}") from error


def check_writable(path):
    """Fails where a file can't be written, before there is anything to write."""
    was_there = os.path.lexists(path)
    try:
        with open(path, "ab"):
            pass
        if not was_there:
            os.unlink(path)
    except OSError as error:
        raise Failure(UNREADABLE, f"{path}: it can't be written: {error.strerror}") from error


def lines_of(text):
    """The lines without their LFs; an empty piece behind the last LF is none."""
    lines = text.split(b"\n")
    return lines if lines[-1] else lines[:-1]


def tokens_of(line):
    return re.findall(rb"[^ \t\r]+", line)


def number(token):
    """The number below 10^18 that a token spells, or None."""
    is_negative = token.startswith(b"-")
    digits = token[1:] if is_negative else token
    significant = digits.lstrip(b"0")
    if not digits.isdigit() or len(significant) > 18 or is_negative and not significant:
        return None
    return int(token)


# The checker refuses what is over these.
MOST_VARIABLES = 1_000_000
MOST_CLAUSES = 10_000_000
LARGEST_XOR = 5
LARGEST_COUNT = 1_000_000_000


class Place:
    """A file and the line that is looked at."""

    def __init__(self, path):
        self.path = path
        self.line = 1

    def check(self, holds, message):
        if not holds:
            raise Failure(UNREADABLE, f"{self.path}: line {self.line}: {message}")


# Formulas


@dataclass
class Formula:
    """A formula whose header states so many variables; each existential has the set of the universals that it sees."""

    variables: int
    universals: dict = field(default_factory=dict)  # each with its place
    dependencies: dict = field(default_factory=dict)
    clauses: list = field(default_factory=list)

    @property
    def existentials(self):
        return list(self.dependencies)

    def text(self, further=()):
        """The canonical text, with further clauses behind its own."""
        clauses = [*self.clauses, *further]
        lines = [f"p cnf {self.variables} {len(clauses)}"]
        if self.universals:
            lines.append(" ".join(map(str, ["a", *self.universals, 0])))
        for existential, seen in self.dependencies.items():
            sees_all = len(seen) == len(self.universals)
            letter, sights = ("e", []) if sees_all else ("d", sorted(seen, key=self.universals.__getitem__))
            lines.append(" ".join(map(str, [letter, existential, *sights, 0])))
        lines += [" ".join(map(str, [*clause, 0])) for clause in clauses]
        return "".join(f"{line}\n" for line in lines).encode()


class FormulaReader:
    """Reads the formula that a DQDIMACS text spells, part by part."""

    def __init__(self, path):
        self.place = Place(path)
        self.numbered_tokens = (
            (line_number, token)
            for line_number, line in enumerate(lines_of(bytes_of(path)), 1)
            if not line.lstrip(b" \t\r").startswith(b"c")
            for token in tokens_of(line)
        )

    def read(self):
        words = [self.take(), self.take()]
        self.place.check(words == [b"p", b"cnf"], "no header `p cnf V C` stands here")
        self.formula = Formula(self.count(MOST_VARIABLES))
        stated = self.count(MOST_CLAUSES)
        found = 0
        takers = {b"a": self.take_universals, b"e": self.take_existentials, b"d": self.take_item}
        while token := self.take_any():
            if token in takers:
                self.place.check(found == 0, "a set or an item behind a clause or an XOR line")
                takers[token](token)
            else:
                found += 1
                (self.take_xor if token == b"x" else self.take_clause)(token)
        self.place.check(found == stated, f"{found} clauses and XOR lines, and the header says {stated}")
        self.add_undeclared()
        return self.formula

    def take_any(self):
        """The next token, or None at the end."""
        self.place.line, token = next(self.numbered_tokens, (self.place.line, None))
        return token

    def take(self):
        token = self.take_any()
        self.place.check(token is not None, "the text ends inside a part")
        return token

    def count(self, limit):
        count = self.natural(self.take())
        self.place.check(count <= limit, f"{count} is over the limit {limit}")
        return count

    def natural(self, token):
        value = number(token)
        self.place.check(value is not None and value >= 0, f"{token.decode(errors='replace')} where a count or a variable is due")
        return value

    def variables_to_zero(self):
        while variable := self.natural(self.take()):
            self.place.check(variable <= self.formula.variables, f"{variable} is larger than the header says")
            yield variable

    def check_new(self, variable):
        declared = variable in self.formula.universals or variable in self.formula.dependencies
        self.place.check(not declared, f"{variable} is declared twice")

    def take_universals(self, _letter):
        for variable in self.variables_to_zero():
            self.check_new(variable)
            self.formula.universals[variable] = len(self.formula.universals)

    def take_existentials(self, _letter):
        seen = frozenset(self.formula.universals)
        for variable in self.variables_to_zero():
            self.check_new(variable)
            self.formula.dependencies[variable] = seen

    def take_item(self, _letter):
        variables = self.variables_to_zero()
        existential = next(variables, None)
        self.place.check(existential is not None, "an item without a variable")
        self.check_new(existential)
        seen = set()
        for universal in variables:
            self.place.check(universal in self.formula.universals, f"{universal} isn't a universal declared before")
            seen.add(universal)
        self.formula.dependencies[existential] = frozenset(seen)

    def take_clause(self, token):
        """The clause that begins with this token: its distinct literals."""
        clause = {}
        while literal := self.literal(token):
            clause[literal] = True
            token = self.take()
        self.add_clauses([list(clause)])

    def take_xor(self, _letter):
        """An XOR line, as its clauses: those in which an even number of its literals is negated."""
        literals = []
        while literal := self.literal(self.take()):
            repeated = literal in literals or -literal in literals
            self.place.check(not repeated, f"{abs(literal)} stands twice in an XOR line")
            literals.append(literal)
        self.place.check(1 <= len(literals) <= LARGEST_XOR, f"an XOR line of {len(literals)} literals")
        masks = (mask for mask in range(2 ** len(literals)) if mask.bit_count() % 2 == 0)
        self.add_clauses([[-literal if mask >> i & 1 else literal for i, literal in enumerate(literals)] for mask in masks])

    def add_clauses(self, clauses):
        self.formula.clauses.extend(clauses)
        self.place.check(len(self.formula.clauses) <= MOST_CLAUSES, "too many clauses")

    def literal(self, token):
        value = number(token)
        self.place.check(value is not None, f"{token.decode(errors='replace')} where a literal is due")
        self.place.check(abs(value) <= self.formula.variables, f"{value} is larger than the header says")
        return value

    def add_undeclared(self):
        """Variables of clauses that aren't declared are existentials that see nothing."""
        used = {abs(literal) for clause in self.formula.clauses for literal in clause}
        for variable in sorted(used - self.formula.universals.keys() - self.formula.dependencies.keys()):
            self.formula.dependencies[variable] = frozenset()


def read_formula(path):
    return FormulaReader(path).read()


# Circuits


def binary_place(lines):
    """How many lines stand before the binary part of a circuit, and its number of gates, or None for another file's lines."""
    tokens = [tokens_of(line) for line in lines[:2]]
    header = 1 if tokens[:1] == [[b"s", b"TRUE"]] else 0
    counts = [number(token) for token in tokens[header][1:6]] if header < len(tokens) and tokens[header][:1] == [b"aig"] else []
    return None if len(counts) < 5 or None in counts else (header + 1 + counts[3], counts[4])


def file_lines(data):
    """The lines of a file, of which the binary part of a circuit is one, with all its bytes."""
    lines = lines_of(data)
    place = binary_place(lines)
    if place is None or place[0] > len(lines):
        return lines
    rest = b"".join(data.split(b"\n", place[0])[place[0] :])
    end, left = 0, 2 * place[1]
    while left and end < len(rest):
        left -= rest[end] < 128
        end += 1
    return lines[: place[0]] + [rest[:end]] + lines_of(rest[end:])


def deltas_of(code):
    """The differences that the bytes of a binary part are."""
    delta, shift = 0, 0
    for byte in code:
        delta += byte % 128 << shift
        shift += 7
        if byte < 128:
            yield delta
            delta, shift = 0, 0


class Gate(NamedTuple):
    """An and-gate: its variable and the literals of its right sides."""

    variable: int
    sides: tuple


@dataclass
class Circuit:
    """A combinational circuit in AIGER. Inputs are variables and outputs are literals; `text` is the file's
    text before its comment, and `place` its header line."""

    place: Place
    variables: int
    inputs: list
    outputs: list
    gates: list
    input_names: dict
    output_names: dict
    text: bytes


class CircuitReader:
    """Reads the circuit that an AIGER text spells, ASCII or binary, behind a line `s TRUE` where it has one."""

    def __init__(self, path):
        self.place = Place(path)
        self.lines = file_lines(bytes_of(path))
        self.place.line = 0

    def read(self):
        header = self.header()
        counts = [number(token) for token in header[1:]]
        is_binary = header[:1] == [b"aig"]
        fits = header[:1] in ([b"aag"], [b"aig"]) and 5 <= len(counts) <= 9 and all(count is not None and count >= 0 for count in counts)
        self.place.check(fits, "no header `aag M I L O A` stands here")
        self.variables, input_count, latch_count, output_count, gate_count, *further = counts
        self.place.check(max(counts) <= LARGEST_COUNT, f"a number over the limit {LARGEST_COUNT}")
        self.place.check(latch_count == 0 and not any(further), "only combinational circuits, without latches and properties")
        self.place.check(self.variables >= input_count + gate_count, "fewer variables than inputs and gates")
        self.place.check(not is_binary or self.variables == input_count + gate_count, "other variables than inputs and gates")
        self.defined = set() if not is_binary else range(1, self.variables + 1)
        inputs = range(1, input_count + 1) if is_binary else [self.new_variable(self.numbers(1)[0]) for _ in range(input_count)]
        outputs = [self.literal(self.numbers(1)[0]) for _ in range(output_count)]
        gates = self.binary_gates(input_count, gate_count) if is_binary else [self.gate() for _ in range(gate_count)]
        names = {b"i": {}, b"o": {}}
        self.take_symbols(names, {b"i": input_count, b"o": output_count})
        code_line = self.header_line + output_count + 1 if is_binary else 0
        text = b"".join(line + b"\n" * (at != code_line) for at, line in enumerate(self.lines[: self.place.line], 1))
        self.place.line = self.header_line + (0 if is_binary else input_count)
        self.check_defined([*([output] for output in outputs), *(gate.sides for gate in gates)])
        self.place.line = self.header_line
        return Circuit(self.place, self.variables, inputs, outputs, gates, names[b"i"], names[b"o"], text)

    def header(self):
        tokens = tokens_of(self.take())
        if tokens == [b"s", b"TRUE"]:
            tokens = tokens_of(self.take())
        self.header_line = self.place.line
        return tokens

    def take(self):
        self.place.line += 1
        self.place.check(self.place.line <= len(self.lines), "the text ends here, too early")
        return self.lines[self.place.line - 1]

    def numbers(self, count):
        values = [number(token) for token in tokens_of(self.take())]
        fits = len(values) == count and all(value is not None and value >= 0 for value in values)
        self.place.check(fits, f"{count} natural numbers are due")
        return values

    def literal(self, literal):
        self.place.check(literal <= 2 * self.variables + 1, f"{literal} is larger than the header says")
        return literal

    def new_variable(self, literal):
        variable = self.literal(literal) // 2
        self.place.check(literal % 2 == 0 and variable > 0, f"{literal} is no variable's literal")
        self.place.check(variable not in self.defined, f"{literal} is defined twice")
        self.defined.add(variable)
        return variable

    def gate(self):
        left, *sides = self.numbers(3)
        return Gate(self.new_variable(left), tuple(self.literal(side) for side in sides))

    def binary_gates(self, input_count, gate_count):
        """The gates of the binary part, which is the line behind the outputs; where the text ends there, it may be none."""
        code = self.take() if gate_count or self.place.line < len(self.lines) else b""
        deltas, gates = list(deltas_of(code)), []
        self.place.check(len(deltas) == 2 * gate_count, "the binary part ends here, too early")
        for place, variable in enumerate(range(input_count + 1, self.variables + 1)):
            left = 2 * variable - deltas[2 * place]
            sides = left, left - deltas[2 * place + 1]
            self.place.check(0 <= sides[1] and left < 2 * variable, f"no right sides of the gate of variable {variable}")
            gates.append(Gate(variable, sides))
        return gates

    def take_symbols(self, names, counts):
        """The symbols; the line that is looked at is then the last one before the comment."""
        while self.place.line < len(self.lines):
            line = self.take()
            if re.fullmatch(rb"c[ \t\r]*", line):
                self.place.line -= 1
                return
            symbol = re.fullmatch(rb"([io])([0-9]+)[ \t](.*[^\r])\r*", line, re.DOTALL)
            if symbol:
                kind, at = symbol[1], int(symbol[2])
                self.place.check(at < counts[kind] and at not in names[kind], "a symbol of no place, or a second one of its place")
                names[kind][at] = symbol[3]
            else:
                self.place.check(not tokens_of(line), "neither a symbol nor the line `c`")

    def check_defined(self, read):
        """The literals that each line reads, from the first output's line on, are constants, inputs and gates."""
        for literals in read:
            self.place.line += 1
            for literal in literals:
                fits = literal < 2 or literal // 2 in self.defined
                self.place.check(fits, f"variable {literal // 2} is neither an input nor a gate")


def read_circuit(path):
    return CircuitReader(path).read()
