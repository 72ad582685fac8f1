"""A second judge of formulas and certificates, for tests. It is written from docs/FORMATS.md and docs/MEANING.md alone,
apart from the checker's code, and made to be read beside them: each part of the formats is a function or a small class,
and none is fast.

`answer` gives the line that the checker is to print for a formula's text and a certificate's, and `STATUSES` the exit
status by the line's first word.
"""

import re
from dataclasses import dataclass, field
from typing import NamedTuple

from reference_texts import (
    Fault,
    FormulaReader,
    LARGEST_XOR,
    LineReader,
    MOST_CLAUSES,
    TOO_BIG,
    lines_of,
    natural,
    number,
    tokens_of,
)

LARGEST_COUNT = 1_000_000_000
MOST_UNIVERSALS_BY_ROWS = 20
STATUSES = {"VALID": 0, "refused": 2, "certificate": 7, "INVALID": 8, "UNPROVED": 9}

# Circuits


class Gate(NamedTuple):
    """An and-gate: its variable and the literals of its right sides."""

    variable: int
    sides: tuple


@dataclass
class Circuit:
    """A circuit file: inputs are variables and outputs are literals, and names go by place. `header_line` is the
    number of its header line."""

    header_line: int
    variables: int
    input_count: int
    output_count: int
    gate_count: int
    inputs: list = field(default_factory=list)
    outputs: list = field(default_factory=list)
    gates: list = field(default_factory=list)
    input_names: dict = field(default_factory=dict)
    output_names: dict = field(default_factory=dict)
    has_comment: bool = False
    is_binary: bool = False

    def input_line(self, place):
        return self.header_line if self.is_binary else self.header_line + 1 + place

    def output_line(self, place):
        return self.header_line + 1 + (0 if self.is_binary else self.input_count) + place

    def gate_line(self, place):
        return self.output_line(self.output_count) + place

    def is_defined(self, variable):
        return variable in self.inputs or any(gate.variable == variable for gate in self.gates)


def read_circuit(reader, header):
    """The circuit file whose header line, with these tokens, was taken. Where it has a comment, the line `c` is the one
    taken last."""
    circuit = Circuit(reader.number, *circuit_counts(reader, header), is_binary=header[0] == b"aig")
    if circuit.is_binary:
        reader.check(circuit.variables == circuit.input_count + circuit.gate_count, "BadHeader")
        circuit.inputs = range(1, circuit.input_count + 1)
        read_outputs(reader, circuit)
        read_binary_gates(reader, circuit)
    else:
        read_inputs(reader, circuit)
        read_outputs(reader, circuit)
        read_gates(reader, circuit)
    read_symbols(reader, circuit)
    check_defined(circuit)
    check_acyclic(circuit)
    return circuit


def circuit_counts(reader, header):
    """The numbers M, I, O and A."""
    counts = [natural(token) for token in header[1:]]
    reader.check(header[0] in (b"aag", b"aig") and 5 <= len(counts) <= 9 and None not in counts, "BadHeader")
    reader.check(max(counts) <= LARGEST_COUNT, "TooBig")
    variables, inputs, latches, outputs, gates, *further = counts
    reader.check(latches == 0 and not any(further), "NotCombinational")
    reader.check(variables >= inputs + gates, "BadHeader")
    return variables, inputs, outputs, gates


def take_naturals(reader, count):
    values = [natural(token) for token in tokens_of(reader.take())]
    reader.check(len(values) == count and None not in values, "BadLine")
    reader.check(max(values) < TOO_BIG, "TooBig")
    return values


def is_variable_literal(circuit, literal):
    return literal % 2 == 0 and 2 <= literal <= 2 * circuit.variables


def is_literal(circuit, literal):
    return literal <= 2 * circuit.variables + 1


def read_inputs(reader, circuit):
    for _ in range(circuit.input_count):
        [literal] = take_naturals(reader, 1)
        reader.check(is_variable_literal(circuit, literal), "Range")
        reader.check(not circuit.is_defined(literal // 2), "DefinedTwice")
        circuit.inputs.append(literal // 2)


def read_outputs(reader, circuit):
    for _ in range(circuit.output_count):
        [literal] = take_naturals(reader, 1)
        reader.check(is_literal(circuit, literal), "Range")
        circuit.outputs.append(literal)


def read_gates(reader, circuit):
    for _ in range(circuit.gate_count):
        literal, *sides = take_naturals(reader, 3)
        reader.check(is_variable_literal(circuit, literal), "Range")
        reader.check(all(is_literal(circuit, side) for side in sides), "Range")
        reader.check(not circuit.is_defined(literal // 2), "DefinedTwice")
        circuit.gates.append(Gate(literal // 2, tuple(sides)))


class DeltaReader:
    """Takes the differences of the binary part, which counts as the line taken last."""

    def __init__(self, reader):
        self.reader, self.bytes = reader, reader.behind()
        reader.number += 1

    def take(self):
        delta = 0
        for group in range(5):
            self.reader.check(self.bytes, "Truncated")
            byte, self.bytes = self.bytes[0], self.bytes[1:]
            delta += byte % 128 << 7 * group
            if byte < 128:
                return delta
        self.reader.check(False, "BadDelta")


def read_binary_gates(reader, circuit):
    """The gates of the variables behind the inputs, each by two differences."""
    deltas = DeltaReader(reader)
    for variable in range(circuit.input_count + 1, circuit.variables + 1):
        first = deltas.take()
        reader.check(0 < first <= 2 * variable, "BadDelta")
        left = 2 * variable - first
        second = deltas.take()
        reader.check(second <= left, "BadDelta")
        circuit.gates.append(Gate(variable, (left, left - second)))
    reader.go_on(deltas.bytes)


def read_symbols(reader, circuit):
    """Symbols and lines of blanks, up to the line `c` or the end of the text."""
    tables = {b"i": (circuit.input_names, circuit.input_count), b"o": (circuit.output_names, circuit.output_count)}
    while not reader.is_done() and not circuit.has_comment:
        line = reader.take()
        if re.fullmatch(rb"c[ \t\r]*", line):
            circuit.has_comment = True
        elif tokens_of(line):
            symbol = re.fullmatch(rb"([io])([0-9]+)[ \t](.*[^\r])\r*", line, re.DOTALL)
            reader.check(symbol, "BadSymbol")
            names, count = tables[symbol[1]]
            place = int(symbol[2])
            reader.check(place < count and place not in names, "BadSymbol")
            names[place] = symbol[3]


def check_defined(circuit):
    """Every variable that an output or a gate names is an input or a gate."""
    named = [(circuit.output_line(place), [literal]) for place, literal in enumerate(circuit.outputs)]
    named += [(circuit.gate_line(place), gate.sides) for place, gate in enumerate(circuit.gates)]
    for line, literals in named:
        for literal in literals:
            if literal >= 2 and not circuit.is_defined(literal // 2):
                raise Fault(line, "Undefined")


def check_acyclic(circuit):
    """Every gate is in the least set that holds a gate as soon as each right side is a constant, an input or in it."""
    held, size = {0}, None
    while size != len(held):
        size = len(held)
        held.update(
            gate.variable
            for gate in circuit.gates
            if all(side // 2 in held or side // 2 in circuit.inputs for side in gate.sides)
        )
    for place, gate in enumerate(circuit.gates):
        if gate.variable not in held:
            raise Fault(circuit.gate_line(place), "Cyclic")


# Inputs, outputs and variables


def mapping(formula, circuit):
    """The input, a variable, of each universal, and the output, a literal, of each existential."""
    if circuit.input_count != len(formula.universals):
        raise Fault(circuit.header_line, "InputCount")
    if circuit.output_count != len(formula.existentials):
        raise Fault(circuit.header_line, "OutputCount")
    universals, existentials = formula.universals, formula.existentials
    if circuit.input_names or circuit.output_names:
        universals = named_variables(circuit.input_names, universals, circuit.input_line)
        existentials = named_variables(circuit.output_names, existentials, circuit.output_line)
    return dict(zip(universals, circuit.inputs)), dict(zip(existentials, circuit.outputs))


def named_variables(names, variables, line_of):
    """The variables that the symbols of all places name, each at its place."""
    named = []
    for place in range(len(variables)):
        if place not in names:
            raise Fault(line_of(place), "SymbolMissing")
        variable = number(names[place])
        if variable not in variables:
            raise Fault(line_of(place), "SymbolNumber")
        if variable in named:
            raise Fault(line_of(place), "SymbolTwice")
        named.append(variable)
    return named


# Derivations


class DerivationLine(NamedTuple):
    id: int
    literals: list
    hints: list


class Deletion(NamedTuple):
    ids: list


VERSIONS = {b"dqr": 1, b"dqr2": 2, b"dqp": 1, b"dqp2": 2}


def read_derivation(reader, count, first_id, is_variable, version):
    """So many derivation and deletion lines; `is_variable` tells the variables that the proof has."""
    items, next_id, live = [], first_id, set()
    for _ in range(count):
        tokens = tokens_of(reader.take())
        if version == 2 and tokens[:1] == [b"d"]:
            items.append(read_deletion(reader, tokens, live))
        else:
            items.append(read_derivation_line(reader, tokens, next_id, is_variable))
            live.add(next_id)
            next_id += 1
    return items


def read_deletion(reader, tokens, live):
    """A deletion line; its ids leave those of the lines that can be deleted."""
    values = [number(token) for token in tokens[1:]]
    reader.check(None not in values, "BadLine")
    reader.check(all(abs(value) < TOO_BIG for value in values), "TooBig")
    *ids, end = values or [None]
    reader.check(end == 0 and ids and all(id > 0 for id in ids), "BadLine")
    for id in ids:
        reader.check(id in live, "NotLive")
        live.remove(id)
    return Deletion(ids)


def read_derivation_line(reader, tokens, next_id, is_variable):
    values = [number(token) for token in tokens]
    reader.check(values and None not in values, "BadLine")
    reader.check(all(abs(value) < TOO_BIG for value in values), "TooBig")
    zeros = [place for place, value in enumerate(values) if value == 0]
    reader.check(len(zeros) == 2 and zeros[1] == len(values) - 1, "BadLine")
    literals, hints = values[1 : zeros[0]], values[zeros[0] + 1 : -1]
    reader.check(values[0] > 0 and all(hint > 0 for hint in hints), "BadLine")
    reader.check(values[0] == next_id, "IdOrder")
    reader.check(all(is_variable(abs(literal)) for literal in literals), "BadVariable")
    reader.check(all(hint < next_id for hint in hints), "UnknownHint")
    return DerivationLine(next_id, literals, hints)


def is_derived(line, clauses):
    """Whether hinted unit propagation over the clauses, sets of literals by id, derives the line."""
    true = {-literal for literal in line.literals}
    if any(literal in true for literal in line.literals) or not line.hints:
        return False
    *before, last = line.hints
    for hint in before:
        left = [literal for literal in clauses.get(hint, ()) if -literal not in true]
        if len(left) != 1 or left[0] in true:
            return False
        true.add(left[0])
    return last in clauses and all(-literal in true for literal in clauses[last])


def derivation_fault(clauses, items):
    """What is wrong with a derivation from these clauses that is to end on the empty clause, or None."""
    clauses, last = dict(clauses), None
    for item in items:
        if isinstance(item, Deletion):
            for id in item.ids:
                del clauses[id]
            continue
        last = item
        if not is_derived(last, clauses):
            return f"INVALID step {last.id}"
        clauses[last.id] = frozenset(last.literals)
    return None if last and not last.literals else "INVALID end"

# Circuits' proofs


def first_id_of_proof(formula, circuit):
    return 3 * len(circuit.gates) + sum(map(len, formula.clauses)) + 2


def read_proof(reader, formula, circuit):
    """The items of the proof in a circuit's comment, or None where it begins none."""
    if not circuit.has_comment or reader.is_done():
        return None
    header = tokens_of(reader.take())
    if header[:1] not in ([b"dqp"], [b"dqp2"]):
        return None
    counts = [natural(token) for token in header[1:]]
    reader.check(len(counts) == 1 and None not in counts, "BadHeader")
    reader.check(counts[0] <= LARGEST_COUNT, "TooBig")
    largest = circuit.variables + len(formula.clauses)
    first_id, version = first_id_of_proof(formula, circuit), VERSIONS[header[0]]
    return read_derivation(reader, counts[0], first_id, lambda variable: variable <= largest, version)


def negated_matrix(formula, circuit, inputs, outputs):
    """The clauses, by id, that hold where the gates have their values and some clause of the formula is false."""
    clauses = []
    for gate in circuit.gates:
        itself = 2 * gate.variable
        left, right = gate.sides
        clauses += [[itself ^ 1, left], [itself ^ 1, right], [itself, left ^ 1, right ^ 1]]
    falsities = [2 * (circuit.variables + place) for place in range(1, len(formula.clauses) + 1)]
    for falsity, clause in zip(falsities, formula.clauses):
        clauses += [[falsity ^ 1, circuit_literal(literal, inputs, outputs) ^ 1] for literal in clause]
    clauses.append(falsities)
    return {id: without_constants(clause) for id, clause in enumerate(clauses, 1) if 1 not in clause}


def circuit_literal(literal, inputs, outputs):
    """The circuit's literal that has the value of a clause's literal."""
    variable = abs(literal)
    positive = 2 * inputs[variable] if variable in inputs else outputs[variable]
    return positive if literal > 0 else positive ^ 1


def without_constants(clause):
    """A clause of circuit literals as a set of signed variables, without those that are 0."""
    return frozenset(-(literal // 2) if literal % 2 else literal // 2 for literal in clause if literal != 0)


# Reads and rows


def foreign_read(formula, circuit, inputs, outputs):
    """The first existential whose output reaches a universal that it may not see, with the first such, or None."""
    for existential, seen in formula.dependencies.items():
        reached = reached_variables(circuit, outputs[existential])
        for universal in formula.universals:
            if inputs[universal] in reached and universal not in seen:
                return f"INVALID reads {existential} {universal}"
    return None


def reached_variables(circuit, literal):
    sides = {gate.variable: gate.sides for gate in circuit.gates}
    reached, waiting = set(), [literal // 2]
    while waiting:
        variable = waiting.pop()
        if variable not in reached:
            reached.add(variable)
            waiting += [side // 2 for side in sides.get(variable, ())]
    return reached


def bad_row(formula, circuit, inputs, outputs):
    """The first row under which a clause is false, or None. Bit i of a row's number is the universal's at place i."""
    for row in range(2 ** len(formula.universals)):
        values = {universal: bool(row >> place & 1) for place, universal in enumerate(formula.universals)}
        assignment = values | output_values(circuit, inputs, outputs, values)
        if not all(is_true(clause, assignment) for clause in formula.clauses):
            return " ".join(["INVALID row", *(str(x if values[x] else -x) for x in formula.universals)])
    return None


def output_values(circuit, inputs, outputs, values):
    """The values of the existentials' outputs where the universals have these values."""
    sides = {gate.variable: gate.sides for gate in circuit.gates}
    known = {0: False, **{inputs[universal]: value for universal, value in values.items()}}

    def value(literal):
        variable = literal // 2
        if variable not in known:
            known[variable] = all([value(side) for side in sides[variable]])
        return known[variable] != bool(literal % 2)

    return {existential: value(literal) for existential, literal in outputs.items()}


def is_true(clause, assignment):
    return any(assignment[abs(literal)] == (literal > 0) for literal in clause)


# Expansion refutations


def read_refutation(reader, header, formula):
    """The rows and the items of the refutation whose header line, with these tokens, was taken."""
    counts = [natural(token) for token in header[2:]]
    is_header = header[:2] in ([b"p", b"dqr"], [b"p", b"dqr2"])
    reader.check(is_header and len(counts) == 2 and None not in counts, "BadHeader")
    reader.check(max(counts) <= LARGEST_COUNT, "TooBig")
    rows = [read_row(reader, formula) for _ in range(counts[0])]
    first_id = len(rows) * len(formula.clauses) + 1
    version = VERSIONS[header[1]]
    items = read_derivation(reader, counts[1], first_id, lambda variable: is_pair(formula, rows, variable), version)
    while not reader.is_done():
        reader.check(not tokens_of(reader.take()), "BadLine")
    return rows, items


def read_row(reader, formula):
    """The value of each universal under a row."""
    return read_signs(reader, b"u", formula.universals)


def read_signs(reader, letter, variables):
    """The value of each of these variables on a line of their signs."""
    tokens = tokens_of(reader.take())
    reader.check(tokens[:1] == [letter], "BadLine")
    values = [number(token) for token in tokens[1:]]
    reader.check(None not in values, "BadLine")
    reader.check(all(abs(value) < TOO_BIG for value in values), "TooBig")
    reader.check([abs(value) for value in values] == [*variables, 0], "RowIncomplete")
    return {abs(value): value > 0 for value in values[:-1]}


def is_pair(formula, rows, variable):
    """Whether a positive number is that of an existential under a row."""
    if formula.variables == 0:
        return False
    row, place = divmod(variable - 1, formula.variables)
    return row < len(rows) and place + 1 in formula.dependencies


def first_pair(formula, rows, row, existential):
    """The variable of an existential under a row, both counted as in the formats but the row from 0: the pair with the
    first row that gives its dependency set the same bits."""
    seen = formula.dependencies[existential]
    same = (other for other, bits in enumerate(rows) if all(bits[x] == rows[row][x] for x in seen))
    return next(same) * formula.variables + existential


def shared_literal(formula, rows, literal):
    """A literal on a pair, with the pair as rows share it."""
    row, place = divmod(abs(literal) - 1, formula.variables)
    variable = first_pair(formula, rows, row, place + 1)
    return variable if literal > 0 else -variable


def instances(formula, rows):
    """The clauses under the rows, by id, where no universal literal makes them true."""
    clauses = {}
    for row, bits in enumerate(rows):
        for place, clause in enumerate(formula.clauses, 1):
            if not is_true([literal for literal in clause if abs(literal) in bits], bits):
                clauses[row * len(formula.clauses) + place] = instance(formula, rows, row, clause)
    return clauses


def instance(formula, rows, row, clause):
    literals = [literal for literal in clause if abs(literal) in formula.dependencies]
    pairs = {literal: first_pair(formula, rows, row, abs(literal)) for literal in literals}
    return frozenset(pair if literal > 0 else -pair for literal, pair in pairs.items())


# Definitions


class Definition(NamedTuple):
    """An existential as a literal over the formula's variables and those of the gates, with its proof."""

    existential: int
    output: int
    gates: list
    items: list


class FreePair(NamedTuple):
    """Two values of each variable, which are to show that the existential has no definition."""

    existential: int
    assignments: list


def read_definitions(reader, header, formula):
    """The block of each existential, where the header line with these tokens was taken."""
    count = natural(header[2]) if len(header) == 3 else None
    reader.check(count is not None, "BadHeader")
    reader.check(count <= LARGEST_COUNT, "TooBig")
    reader.check(count == len(formula.existentials), "BadHeader")
    blocks = [read_block(reader, formula, existential) for existential in formula.existentials]
    while not reader.is_done():
        reader.check(not tokens_of(reader.take()), "BadLine")
    return blocks


def read_block(reader, formula, existential):
    letter, *numbers = tokens_of(reader.take()) or [b""]
    values = [natural(token) for token in numbers]
    reader.check((letter, len(values)) in ((b"t", 4), (b"f", 1)) and None not in values, "BadLine")
    reader.check(max(values) < TOO_BIG, "TooBig")
    reader.check(values[0] == existential, "BlockOrder")
    if letter == b"f":
        return FreePair(existential, [read_assignment(reader, formula) for _ in range(2)])
    _, output, gate_count, line_count = values
    reader.check(max(gate_count, line_count) <= LARGEST_COUNT, "TooBig")
    reader.check(is_block_literal(formula, output, formula.variables + gate_count), "BadGate")
    gates = [read_block_gate(reader, formula, formula.variables + i) for i in range(1, gate_count + 1)]
    largest, first_id = formula.variables + gate_count, len(formula.clauses) + 3 * gate_count + 3
    items = read_derivation(reader, line_count, first_id, lambda variable: variable <= largest, 1)
    return Definition(existential, output, gates, items)


def read_assignment(reader, formula):
    row = read_row(reader, formula)
    return row | read_signs(reader, b"v", formula.existentials)


def is_block_literal(formula, literal, largest):
    """Whether a literal is on a constant, a declared variable, or a gate's variable up to the largest one."""
    variable = literal // 2
    return formula.variables < variable <= largest or variable == 0 or is_declared(formula, variable)


def is_declared(formula, variable):
    return variable in formula.universals or variable in formula.dependencies


def read_block_gate(reader, formula, variable):
    literal, *sides = take_naturals(reader, 3)
    is_gate = literal == 2 * variable and all(side < literal for side in sides)
    reader.check(is_gate and all(is_block_literal(formula, side, variable) for side in sides), "BadGate")
    return Gate(variable, tuple(sides))


def readable_variables(formula, existential):
    """What a definition of the existential may read."""
    seen, order = formula.dependencies[existential], formula.existentials

    def rank(other):
        return len(formula.dependencies[other]), order.index(other)

    return seen | {z for z in order if formula.dependencies[z] <= seen and rank(z) < rank(existential)}


def block_fault(formula, block):
    """What is wrong with a block, or None."""
    if isinstance(block, FreePair):
        return pair_fault(formula, block)
    reached = reached_variables(block, block.output)
    foreign = [v for v in reached - readable_variables(formula, block.existential) if 0 < v <= formula.variables]
    if foreign:
        return f"INVALID reads {block.existential} {min(foreign)}"
    fault = derivation_fault(definition_base(formula, block), block.items)
    return fault and f"INVALID definition {block.existential} {fault.split()[-1]}"


def definition_base(formula, block):
    """The clauses, by id, that hold where the matrix does, the gates have their values, and the existential hasn't the
    output's."""
    clauses = []
    for gate in block.gates:
        itself = 2 * gate.variable
        left, right = gate.sides
        clauses += [[itself ^ 1, left], [itself ^ 1, right], [itself, left ^ 1, right ^ 1]]
    itself = 2 * block.existential
    clauses += [[itself, block.output], [itself ^ 1, block.output ^ 1]]
    base = {id: frozenset(clause) for id, clause in enumerate(formula.clauses, 1)}
    first = len(formula.clauses) + 1
    return base | {id: without_constants(clause) for id, clause in enumerate(clauses, first) if 1 not in clause}


def pair_fault(formula, block):
    first, second = block.assignments
    are_models = all(is_true(clause, assignment) for clause in formula.clauses for assignment in block.assignments)
    alike = all(first[v] == second[v] for v in readable_variables(formula, block.existential))
    apart = first[block.existential] != second[block.existential]
    return None if are_models and alike and apart else f"INVALID pair {block.existential}"


def judge_definitions(reader, header, formula):
    blocks = read_definitions(reader, header, formula)
    faults = [fault for block in blocks if (fault := block_fault(formula, block))]
    defined = sum(isinstance(block, Definition) for block in blocks)
    return faults[0] if faults else f"VALID DEFINED {defined} FREE {len(blocks) - defined}"


# Judgement


def judge_circuit(reader, header, formula):
    circuit = read_circuit(reader, header)
    proof = read_proof(reader, formula, circuit)
    inputs, outputs = mapping(formula, circuit)
    fault = foreign_read(formula, circuit, inputs, outputs)
    if fault is None and proof is not None:
        fault = derivation_fault(negated_matrix(formula, circuit, inputs, outputs), proof)
    elif fault is None and len(formula.universals) > MOST_UNIVERSALS_BY_ROWS:
        fault = f"UNPROVED {len(formula.universals)}"
    elif fault is None:
        fault = bad_row(formula, circuit, inputs, outputs)
    return fault or "VALID TRUE"


def shared_item(formula, rows, item):
    if isinstance(item, Deletion):
        return item
    return item._replace(literals=[shared_literal(formula, rows, literal) for literal in item.literals])


def judge_refutation(reader, header, formula):
    rows, items = read_refutation(reader, header, formula)
    shared = [shared_item(formula, rows, item) for item in items]
    return derivation_fault(instances(formula, rows), shared) or "VALID FALSE"


def judge(formula, text):
    """The line that a certificate's text earns; a fault of the text is raised."""
    reader = LineReader(text)
    tokens = tokens_of(reader.take("BadHeader"))
    verdict = None
    if tokens[:1] == [b"s"]:
        reader.check(tokens[1:] in ([b"TRUE"], [b"FALSE"]), "BadHeader")
        verdict = tokens[1]
        tokens = tokens_of(reader.take("BadHeader"))
    reader.check(tokens[:1] in ([b"aag"], [b"aig"], [b"p"]), "BadHeader")
    if tokens[:2] == [b"p", b"dqd"]:
        shown, judge_kind = None, judge_definitions
    elif tokens[0] == b"p":
        shown, judge_kind = b"FALSE", judge_refutation
    else:
        shown, judge_kind = b"TRUE", judge_circuit
    if verdict is not None and verdict != shown:
        raise Fault(1, "WrongVerdict")
    return judge_kind(reader, tokens, formula)


def certificate_answer(formula, text):
    """The line that is due on a certificate's text for a formula."""
    try:
        return judge(formula, text)
    except Fault as fault:
        return f"certificate {fault}"


def answer(formula_text, certificate_text):
    """The line that is due on two texts."""
    try:
        formula = FormulaReader(formula_text).read()
    except Fault as fault:
        return f"refused {fault}"
    return certificate_answer(formula, certificate_text)
