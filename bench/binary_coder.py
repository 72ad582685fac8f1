"""Writes a certificate's circuit in AIGER's binary form, and its proof with it."""

import reference


def delta(value):
    """A difference in groups of seven bits, the lowest first."""
    return bytes([value]) if value < 128 else bytes([128 | value % 128]) + delta(value >> 7)


def in_order(circuit):
    """The places of the gates, each behind those that it reads: as they stand, where that holds already."""
    before = {0, *circuit.inputs}
    for gate in circuit.gates:
        if any(side // 2 not in before for side in gate.sides):
            break
        before.add(gate.variable)
    else:
        return list(range(len(circuit.gates)))
    settled, order, left = {0, *circuit.inputs}, [], list(range(len(circuit.gates)))
    while left:
        ready = [place for place in left if all(side // 2 in settled for side in circuit.gates[place].sides)]
        settled.update(circuit.gates[place].variable for place in ready)
        order += ready
        left = [place for place in left if circuit.gates[place].variable not in settled]
    return order


def binary_netlist(circuit):
    """Header and outputs of a circuit, its binary part, each variable's new one, and each clause's new id."""
    order = in_order(circuit)
    variables = {0: 0} | {variable: new for new, variable in enumerate(circuit.inputs, 1)}
    variables |= {circuit.gates[place].variable: len(variables) + new for new, place in enumerate(order)}
    renamed = lambda literal: 2 * variables[literal // 2] + literal % 2
    code, ids = b"", {}
    for new, place in enumerate(order):
        gate = circuit.gates[place]
        literal, (left, right) = 2 * variables[gate.variable], map(renamed, gate.sides)
        ids |= {3 * place + i + 1: 3 * new + (1 - i if left < right and i < 2 else i) + 1 for i in range(3)}
        code += delta(literal - max(left, right)) + delta(abs(left - right))
    counts = [len(variables) - 1, len(circuit.inputs), 0, len(circuit.outputs), len(order)]
    lines = [" ".join(map(str, ["aig", *counts])), *(str(renamed(literal)) for literal in circuit.outputs)]
    return "".join(line + "\n" for line in lines).encode(), code, variables, ids


# The texts


def circuit_of(text):
    """The circuit of a certificate's text, the line `s` before it, and the lines behind its gates."""
    reader = reference.LineReader(text)
    header = reference.tokens_of(reader.take())
    verdict = b""
    if header[0] == b"s":
        verdict, header = text.split(b"\n")[0] + b"\n", reference.tokens_of(reader.take())
    circuit = reference.read_circuit(reader, header)
    behind = circuit.gate_line(circuit.gate_count) - 1
    return circuit, verdict, b"".join(text.split(b"\n", behind)[behind:])


def renamed_proof(formula, circuit, text, variables, ids):
    """The items of a proof over the circuit with other variables and other ids of the gates' clauses."""
    reader = reference.LineReader(text)
    reader.number = reader.lines.index(b"c") + 1 if b"c" in reader.lines else len(reader.lines)
    items = reference.read_proof(reader, formula, circuit)
    if items is None:
        return b""
    added = len(variables) - 1 - circuit.variables

    def renamed(literal):
        old = abs(literal)
        new = old + added if old > circuit.variables else variables[old]
        return new if literal > 0 else -new

    lines, word = [], "dqp"
    for item in items:
        if isinstance(item, reference.Deletion):
            word = "dqp2"
            lines.append(["d", *item.ids, 0])
        else:
            hints = [ids.get(hint, hint) for hint in item.hints]
            lines.append([item.id, *map(renamed, item.literals), 0, *hints, 0])
    return "".join(" ".join(map(str, line)) + "\n" for line in [["c"], [word, len(lines)], *lines]).encode()


def binary_text(formula, text):
    """The text of a circuit in the binary form as its parts: before, in and behind the binary part."""
    circuit, verdict, behind = circuit_of(text)
    front, code, variables, ids = binary_netlist(circuit)
    symbols, mark, _comment = (b"\n" + behind).partition(b"\nc\n")
    proof = renamed_proof(formula, circuit, text, variables, ids) if mark else b""
    return verdict + front, code, symbols[1:] + (b"\n" if mark else b"") + (proof or mark[1:])
