"""A circuit of a formula's Skolem functions, for the scripts beside this one: which inputs and outputs stand for which variables,
its gates in order, and the clauses that its proof begins with."""

from texts import number

def mapping(formula, circuit):
    """The input, a variable, of each universal, and the output, a literal, of each existential."""
    universals, existentials = list(formula.universals), formula.existentials
    for kind, places, variables in (
        ("inputs", circuit.inputs, universals),
        ("outputs", circuit.outputs, existentials),
    ):
        fits = len(places) == len(variables)
        circuit.place.check(fits, f"{len(places)} {kind}, and the formula has {len(variables)} variables for them")
    if circuit.input_names or circuit.output_names:
        universals = named_variables(circuit, "input", circuit.input_names, universals)
        existentials = named_variables(circuit, "output", circuit.output_names, existentials)
    return dict(zip(universals, circuit.inputs)), dict(zip(existentials, circuit.outputs))


def named_variables(circuit, kind, names, variables):
    """The variables that the symbols of all places name, each at its place."""
    numbers = [number(names.get(place, b"")) for place in range(len(variables))]
    fits = sorted(variables) == sorted(value or 0 for value in numbers)
    circuit.place.check(fits, f"the {kind}s' symbols must be the numbers of the formula's variables, each once")
    return numbers


def gates_in_order(circuit):
    """The gates, each behind those that it reads."""
    gates = {gate.variable: gate for gate in circuit.gates}
    order, is_placed = [], {}  # False while a gate is on the path
    for root in gates:
        path = [] if root in is_placed else [root]
        is_placed.setdefault(root, False)
        while path:
            sides = [side // 2 for side in gates[path[-1]].sides]
            waiting = next((side for side in sides if side in gates and not is_placed.get(side)), None)
            if waiting is None:
                is_placed[path[-1]] = True
                order.append(gates[path.pop()])
            else:
                circuit.place.check(waiting not in is_placed, f"the gate of variable {waiting} reads itself through gates")
                is_placed[waiting] = False
                path.append(waiting)
    return order


def negated_matrix(formula, circuit, inputs, outputs):
    """The clauses, by id, that hold where the gates have their values and some clause of the formula is false."""
    clauses = []
    for gate in circuit.gates:
        itself = 2 * gate.variable
        left, right = gate.sides
        clauses += [[itself ^ 1, left], [itself ^ 1, right], [itself, left ^ 1, right ^ 1]]
    literals = {variable: 2 * place for variable, place in inputs.items()} | outputs
    falsities = [2 * (circuit.variables + place) for place in range(1, len(formula.clauses) + 1)]
    for falsity, clause in zip(falsities, formula.clauses):
        clauses += [[falsity ^ 1, literals[abs(literal)] ^ (literal > 0)] for literal in clause]
    clauses.append(falsities)
    return {id: without_constants(clause) for id, clause in enumerate(clauses, 1) if 1 not in clause}


def without_constants(clause):
    """A clause of circuit literals as distinct signed variables, without those that are 0."""
    return list(dict.fromkeys(-(literal // 2) if literal % 2 else literal // 2 for literal in clause if literal != 0))


def first_id(formula, circuit):
    return 3 * len(circuit.gates) + sum(map(len, formula.clauses)) + 2
