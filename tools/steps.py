"""What the hints of one step of a proof come to, for people: the clauses by their ids, and unit propagation along them."""

from skolem import first_id, mapping, negated_matrix
from texts import Place, bytes_of, file_lines, number, read_circuit, tokens_of


class Proof:
    """The derivation lines of a certificate up to one id, and the clauses that it begins with."""

    def __init__(self, path, first_line, first_id, own_clause):
        self.place = Place(path)
        self.first_line, self.first_id = first_line, first_id
        self.own_clause = own_clause

    def read_to(self, last):
        """The clauses of the lines up to the id `last`, of which none was deleted, and the hints of the last one."""
        clauses, hints, next_id = {}, [], self.first_id
        lines = file_lines(bytes_of(self.place.path))
        for self.place.line in range(self.first_line, len(lines) + 1):
            values = [number(token) for token in tokens_of(lines[self.place.line - 1])]
            if values[:1] == [None]:  # the letter d
                for gone in values[1:-1]:
                    clauses.pop(gone, None)
                continue
            end = values.index(0)
            clauses[next_id], hints = values[1:end], values[end + 1 : -1]
            if next_id == last:
                return clauses, hints
            next_id += 1
        self.place.check(False, f"step {last} is due")

    def clause(self, clauses, hint):
        return self.own_clause(hint) if hint < self.first_id else clauses.get(hint)


def refutation(formula, path, header, tokens):
    """The proof of a refutation, and what its numbers are read as."""
    lines, rows = file_lines(bytes_of(path)), int(tokens[2])
    row_sets = [{number(token) for token in tokens_of(lines[header + 1 + k])[1:-1]} for k in range(rows)]
    firsts = {}
    variables, clauses = formula.variables, len(formula.clauses)

    def shared(literal):
        """The literal on the first row's pair of those that the existential can't tell apart."""
        k, y = divmod(abs(literal) - 1, variables)
        seen = formula.dependencies[y + 1]
        key = (y, frozenset(l for l in row_sets[k] if abs(l) in seen))
        first = firsts.setdefault(key, next(i for i, row in enumerate(row_sets) if key[1] <= row)) * variables + y + 1
        return first if literal > 0 else -first

    def instance(hint):
        k, j = divmod(hint - 1, clauses)
        clause = formula.clauses[j]
        if any(literal in row_sets[k] for literal in clause):
            return None
        named = [literal for literal in clause if abs(literal) not in formula.universals]
        return [shared((k * variables + abs(literal)) * (1 if literal > 0 else -1)) for literal in named]

    return Proof(path, header + rows + 2, rows * clauses + 1, instance), shared


def circuit_proof(formula, path):
    """The proof in a circuit's comment, whose numbers are read as they stand."""
    circuit = read_circuit(path)
    own = negated_matrix(formula, circuit, *mapping(formula, circuit))
    comment = next(at for at, line in enumerate(file_lines(bytes_of(path)), 1) if tokens_of(line) == [b"c"])
    return Proof(path, comment + 2, first_id(formula, circuit), own.get), lambda literal: literal


def explain_step(formula, path, last):
    """Prints what each hint of a step comes to."""
    lines = file_lines(bytes_of(path))
    header = 1 if tokens_of(lines[0])[:1] == [b"s"] else 0
    tokens = tokens_of(lines[header])
    is_refutation = tokens[:1] == [b"p"]
    proof, shared = refutation(formula, path, header, tokens) if is_refutation else circuit_proof(formula, path)
    clauses, hints = proof.read_to(last)
    clause = [shared(literal) for literal in clauses[last]]
    print(f"{path}, line {proof.place.line}: step {last} is the clause {written(clause)}; all its literals are taken as false.")
    false = set(clause)
    if any(-literal in false for literal in false):
        print("It holds a literal beside its negation.")
        return
    for place, hint in enumerate(hints, 1):
        hinted = proof.clause(clauses, hint)
        if hinted is None:
            print(f"Hint {hint} is no clause: it is true under its row or by a constant, or was deleted.")
            return
        hinted = {shared(literal) for literal in hinted}
        open_literals = [literal for literal in hinted if literal not in false]
        if not open_literals:
            print(f"Hint {hint}, {written(hinted)}: all false" + ("." if place == len(hints) else ", and further hints follow."))
            return
        if len(open_literals) > 1 or -open_literals[0] in false:
            print(f"Hint {hint}, {written(hinted)}: not false are {written(open_literals)}; one that isn't true was due.")
            return
        print(f"Hint {hint}, {written(hinted)}: {open_literals[0]} is made true.")
        false.add(-open_literals[0])
    print("The hints end, and no clause is false.")


def written(literals):
    return " ".join(map(str, sorted(literals, key=abs))) or "that is empty"
