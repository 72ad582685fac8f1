#!/usr/bin/env python3
"""Runs the headline's page, crates/headline/specs/Headline.antt, on the tables of run_cases: what the page's own
definitions say of each formula's text, of its truth, of circuits and of definitions is compared with the second judge.

- A text spells a formula on the page exactly where the judge reads one; what is tried is the formula that the text's
  tokens give, read loosely, so that a text that is refused has one, too.
- A formula whose choices have 12 bits or fewer is true on the page by trying all choices, and by the same over the
  judge's clauses; where a certificate is accepted, it is what that says.
- `HoldsSkolem` holds of a circuit's text, and `AreDefined` of definitions, exactly where the judge accepts.

What is said of all assignments is tried over all bits of the formula's variables and of the circuit's inputs.

Usage: bench/page.py [--mistakes] [NAME..]: the cases whose names contain a NAME; with --mistakes, whether they tell pages
with a mistake from the page."""

import argparse
import itertools
import os
import re
import sys
import threading
from collections import Counter

import reference
import reference_texts
from antt import Fields, Page
from bench import TOP
from cuts import cases

MOST_BITS, MOST_UNIVERSALS, MOST_VARIABLES, MOST_BYTES = 12, 5, 12, 3000
PAGE = os.path.join(TOP, "crates", "headline", "specs", "Headline.antt")


def numbers(tokens):
    """The numbers before the first zero and the tokens behind it, or None."""
    values = []
    for place, token in enumerate(tokens):
        value = reference_texts.number(token)
        if value is None:
            return None
        if value == 0:
            return values, tokens[place + 1 :]
        values.append(value)
    return None


def literal(value):
    return ("positive", value) if value > 0 else ("opposite", -value)


def loose_formula(text):
    """The page's formula of a text, whatever its faults, or None."""
    tokens = [
        token
        for line in text.split(b"\n")
        if not line.strip(b" \t\r").startswith(b"c")
        for token in reference_texts.tokens_of(line)
    ]
    if tokens[:2] != [b"p", b"cnf"] or len(tokens) < 4 or reference_texts.natural(tokens[2]) is None:
        return None
    parts, constraints, rest = [], [], tokens[4:]
    while rest:
        word = rest[0] if rest[0] in (b"a", b"e", b"d", b"x") else None
        found = numbers(rest[1:] if word else rest)
        if found is None:
            return None
        values, rest = found
        if word in (None, b"x"):
            constraints.append(("xor" if word else "clause", tuple(map(literal, values))))
        elif min(values, default=1) < 0 or (word == b"d" and not values):
            return None
        else:
            made = {b"a": ("universals", tuple(values)), b"e": ("existentials", tuple(values))}
            parts.append(made.get(word) or ("dependent", values[0], tuple(values[1:])))
    return Fields(variables=reference_texts.natural(tokens[2]), parts=tuple(parts), constraints=tuple(constraints))


def judged_formula(text):
    try:
        return reference.FormulaReader(text).read()
    except reference.Fault:
        return None


def assignments(variables):
    """All bits of these variables; others are false."""
    for bits in itertools.product((False, True), repeat=len(variables)):
        yield dict(zip(variables, bits))


def function(bits):
    return lambda variable: bits.get(variable, False)


# Truth


def is_true_by_choices(universals, existentials, holds):
    """Whether some tables, one for each existential over what it sees, hold in all rows."""
    rows = list(assignments(universals))
    keys = [(y, tuple(bits)) for y, sees in existentials for bits in itertools.product((False, True), repeat=len(sees))]
    for table in assignments(keys):
        chosen = ({**row, **{y: table[y, tuple(row[x] for x in sees)] for y, sees in existentials}} for row in rows)
        if all(map(holds, chosen)):
            return True
    return False


def page_truth(page, f):
    """The page's own truth: `Solve` of each choice, over the assignments that follow it."""
    existentials = [(y.variable, tuple(y.sees)) for y in page.existentials_of(f)]
    known = {}

    def holds(bits):
        key = tuple(sorted(bits.items()))
        if key not in known:
            known[key] = page.Holds(f, function(bits))
        return known[key]

    def solves(table):
        value = lambda y, bits: table[y, tuple(bits)]
        page.domains["m"] = lambda: (
            function({**row, **{y: value(y, [row[x] for x in sees]) for y, sees in existentials}})
            for row in assignments(page.universals_of(f))
        )
        return page.Solve(value, f)

    true = is_true_by_choices(page.universals_of(f), existentials, holds)
    keys = [(y, tuple(bits)) for y, sees in existentials for bits in itertools.product((False, True), repeat=len(sees))]
    tables = list(itertools.islice(assignments(keys), 64))
    return true, any(map(solves, tables)) if len(tables) == 2 ** len(keys) else true


def judged_truth(f):
    def holds(bits):
        return all(any(bits[abs(l)] == (l > 0) for l in clause) for clause in f.clauses)

    return is_true_by_choices(f.universals, [(y, tuple(sorted(xs))) for y, xs in f.dependencies.items()], holds)


def is_small(f):
    return len(f.universals) <= MOST_UNIVERSALS and sum(2 ** len(xs) for xs in f.dependencies.values()) <= MOST_BITS


# Circuits


def loose_circuit(text):
    """The page's circuit of a text and its names, and where the parts stand, whatever its faults, or None."""
    lines = reference_texts.lines_of(text)
    verdict = lines[:1] if lines and reference_texts.tokens_of(lines[0])[:1] == [b"s"] else []
    lines = lines[len(verdict) :]
    header = reference_texts.tokens_of(lines[0]) if lines else []
    counts = [reference_texts.natural(token) for token in header[1:]]
    if header[:1] not in ([b"aag"], [b"aig"]) or len(counts) < 5 or None in counts or max(counts) > 1000:
        return None
    largest, inputs, _, outputs, gates = counts[:5]
    if header[0] == b"aig":
        return loose_binary(text, verdict, lines, counts)
    rows = [[reference_texts.natural(token) for token in reference_texts.tokens_of(line)] for line in lines[1 : 1 + inputs + outputs + gates]]
    if len(rows) < inputs + outputs + gates or any(None in row or not row for row in rows):
        return None
    gate_rows = rows[inputs + outputs :]
    if any(len(row) != 3 for row in gate_rows):
        return None
    circuit = Fields(
        largest=largest,
        inputs=tuple(row[0] // 2 for row in rows[:inputs]),
        outputs=tuple(row[0] for row in rows[inputs : inputs + outputs]),
        gates=tuple(Fields(variable=row[0] // 2, left=row[1], right=row[2]) for row in gate_rows),
    )
    behind = lines[1 + len(rows) :]
    found = {"verdict": verdict, "header": lines[0], "body": lines[1 : 1 + len(rows)], "behind": behind, "zeros": len(counts) - 5}
    return circuit, loose_names(behind), ("SpellsAscii", bytes_of(found))


def loose_binary(text, verdict, lines, counts):
    largest, inputs, _, outputs, gates = counts[:5]
    if len(lines) < 1 + outputs:
        return None
    front = b"".join(line + b"\n" for line in [*verdict, *lines[: 1 + outputs]])
    code, at, deltas = text[len(front) :], 0, []
    while len(deltas) < 2 * gates:
        delta, shift = 0, 0
        while True:
            if at >= len(code):
                return None
            delta += code[at] % 128 << shift
            shift, at = shift + 7, at + 1
            if code[at - 1] < 128:
                break
        deltas.append(delta)
    made = []
    for k in range(gates):
        left = 2 * (inputs + 1 + k) - deltas[2 * k]
        made.append(Fields(variable=inputs + 1 + k, left=left, right=left - deltas[2 * k + 1]))
    values = [reference_texts.tokens_of(line) for line in lines[1 : 1 + outputs]]
    if any(len(value) != 1 or reference_texts.natural(value[0]) is None for value in values):
        return None
    circuit = Fields(
        largest=largest,
        inputs=tuple(range(1, inputs + 1)),
        outputs=tuple(reference_texts.natural(value[0]) for value in values),
        gates=tuple(made),
    )
    found = {"verdict": verdict, "header": lines[0], "outputs": lines[1 : 1 + outputs], "code": code[:at], "behind": code[at:], "zeros": len(counts) - 5}
    return circuit, loose_names(reference_texts.lines_of(code[at:])), ("SpellsBinary", bytes_of(found))


SYMBOL = re.compile(rb"([io])([0-9]+)([ \t])(.*?)(\r*)", re.DOTALL)


def loose_names(lines):
    """The symbols before the line `c`."""
    names = []
    for line in itertools.takewhile(lambda line: not re.fullmatch(rb"c[ \t\r]*", line), lines):
        match = SYMBOL.fullmatch(line)
        if match:
            names.append(Fields(letter=match[1][0], place=int(match[2]), name=tuple(match[4])))
    return tuple(names)


def bytes_of(found):
    """Bytes and lists of lines as the page has them."""

    def one(value):
        if isinstance(value, list):
            return tuple(map(tuple, value))
        return tuple(value) if isinstance(value, bytes) else value

    return {name: one(value) for name, value in found.items()}


def name_witness(line, named):
    match = SYMBOL.fullmatch(bytes(line))
    if match:
        yield bytes_of({"digits": match[2], "space": match[3][0], "ends": match[5]})


def gate_code_witness(code, gate):
    end = next((k + 1 for k, byte in enumerate(code) if byte < 128), len(code))
    yield {"first": code[:end], "second": code[end:]}


def names_witness(lines, names):
    end = next((k for k, line in enumerate(lines) if re.fullmatch(rb"c[ \t\r]*", bytes(line))), len(lines))
    yield {"symbols": tuple(lines[:end]), "end": tuple(lines[end:])}


def reached(circuit, variable):
    """What a variable reaches through gates."""
    found, left = {variable}, [variable]
    while left:
        at = left.pop()
        sides = [side // 2 for gate in circuit.gates if gate.variable == at for side in (gate.left, gate.right)]
        left += [side for side in sides if side not in found]
        found.update(sides)
    return found


def ranks(circuit):
    """A rank for each variable that gates without cycles have; the others have 0."""
    found, more = {}, True
    while more:
        more = False
        for gate in circuit.gates:
            sides = [side // 2 for side in (gate.left, gate.right)]
            if gate.variable not in found and all(not any(g.variable == s for g in circuit.gates) or s in found for s in sides):
                found[gate.variable] = 1 + max(found.get(side, 0) for side in sides)
                more = True
    return lambda variable: found.get(variable, 0)


def fitting(page, circuit, inputs):
    """The bits of the circuit's variables under the bits of its inputs by place."""
    bits = {variable: inputs.get(place, False) for place, variable in enumerate(circuit.inputs)}
    for gate in sorted(circuit.gates, key=lambda gate: ranks(circuit)(gate.variable)):
        bits[gate.variable] = page.literal_bit(function(bits), gate.left) and page.literal_bit(function(bits), gate.right)
    return bits


def place_of(names, letter, variables):
    """The place of a variable's input or output."""
    named = {reference_texts.natural(bytes(name.name)): name.place for name in names if name.letter == letter}
    plain = {variable: place for place, variable in enumerate(variables)}
    return lambda variable: (named if names else plain).get(variable, len(variables))


def holds_skolem(page, f, text):
    found = loose_circuit(text)
    if found is None:
        return False
    circuit, names, (form, parts) = found
    universals, existentials = page.universals_of(f), page.existentials_of(f)
    input_of = place_of(names, ord("i"), universals)
    output_of = place_of(names, ord("o"), tuple(y.variable for y in existentials))
    if not page.names[form](tuple(text), circuit, names, parts) or not page.IsCircuit(circuit):
        return False

    def rows():
        for inputs in assignments(range(len(circuit.inputs))):
            bits = function(fitting(page, circuit, inputs))
            own = {x: inputs.get(input_of(x), False) for x in universals}
            own |= {
                y.variable: page.literal_bit(bits, page.slice_index(circuit.outputs, output_of(y.variable))) for y in existentials
            }
            yield function(own), bits, function(inputs)

    page.domains.update({"m bits inputs": rows, "name": lambda: [name.name for name in names]})
    return page.IsSkolem(f, circuit, names, {"input_of": input_of, "output_of": output_of})


def without_comment(text):
    """A circuit's text up to its comment, where a proof stands, which may be wrong."""
    _, _, (form, parts) = loose_circuit(text)
    if form == "SpellsBinary":
        front = text[: len(text) - len(parts["behind"])]
        behind = reference_texts.lines_of(bytes(parts["behind"]))
    else:
        lines = reference_texts.lines_of(text)
        first = len(lines) - len(parts["behind"])
        front, behind = b"".join(line + b"\n" for line in lines[:first]), lines[first:]
    kept = itertools.takewhile(lambda line: not re.fullmatch(rb"c[ \t\r]*", line), behind)
    return front + b"".join(line + b"\n" for line in kept)


# Definitions


def circuit_function(page, c):
    """The output's bit under an assignment of the formula's variables, which are the inputs."""
    output = c.outputs[0]
    return lambda m: page.literal_bit(function(fitting(page, c, {k: m(v) for k, v in enumerate(c.inputs)})), output)


def block_of(f, lines, y):
    """The circuit of an existential's definition, and where its lines stand, or None."""
    for place, line in enumerate(lines):
        word, *rest = reference_texts.tokens_of(line) or [b""]
        given = [reference_texts.natural(token) for token in rest]
        if word == b"t" and given[0] == y.variable:
            _, output, count, steps = given
            block = lines[place : place + 1 + count]
            rows = [[reference_texts.natural(token) for token in reference_texts.tokens_of(line)] for line in block[1:]]
            gates = tuple(Fields(variable=row[0] // 2, left=row[1], right=row[2]) for row in rows)
            inputs = tuple(range(1, f.variables + 1))
            circuit = Fields(largest=f.variables + count, inputs=inputs, outputs=(output,), gates=gates)
            return circuit, steps, {"before": lines[:place], "block": block, "behind": lines[place + 1 + count :]}
    return None


def are_defined(page, f, text, defined, free):
    """Whether the page has so many definitions of the text, and so many existentials without one."""
    variables = tuple(range(1, f.variables + 1))
    every = list(assignments(variables))
    holding = [bits for bits in every if page.Holds(f, function(bits))]
    lines = reference_texts.lines_of(text)

    def values(f, y):
        """The only function of what y may read that can have y's bit wherever the matrix holds."""
        reads = [v for v in variables if page.MayRead(f, y, v)]
        table = {}
        for bits in holding:
            table.setdefault(tuple(bits[v] for v in reads), bits[y.variable])
        yield {"value": lambda m: table.get(tuple(m(v) for v in reads), False)}

    def definitions(f, text, y):
        found = block_of(f, lines, y)
        if found is None:
            return
        c, steps, parts = found
        fits = [(function(bits), function(fitting(page, c, {k: bits[v] for k, v in enumerate(c.inputs)}))) for bits in every]
        page.domains["m bits"] = lambda: fits
        own = {"value": circuit_function(page, c)}
        yield {"c": c, "output": c.outputs[0], "steps": steps, "defined": own, **bytes_of(parts)}

    page.domains["m"] = lambda: map(function, every)
    page.domains["m n"] = lambda: itertools.product(map(function, every), repeat=2)
    page.domains.update(z=lambda: page.existentials_of(f), v=lambda: variables)
    page.witnesses.update(IsDefined=values, HoldsDefinition=definitions)
    return page.AreDefined(f, tuple(text), page.existentials_of(f), defined, free)


# Mistakes that a page could make: what stands there, and what would stand there then.
MISTAKES = {
    "LF alone ends a word": ("byte == 32 || (byte == 9 || (byte == 13 || byte == 10))", "byte == 10"),
    "comments are read": ("is_comment ((byte ∷ _) ∷ _) = byte == 99", "is_comment ((byte ∷ _) ∷ _) = false"),
    "a numeral's digits from the right": ("so_far * 10 + (digit - 48)", "so_far + 10 * (digit - 48)"),
    "an `e` variable sees no universal": ("map (seeing before) ys", "map (seeing []) ys"),
    "a `d` variable sees what stands before it": ("seeing (filter (among xs) before) y", "seeing before y"),
    "variables may be declared twice": ("once : AllPairs (λ v w. v ≢ w) (declared f)", "once : 0 ≡ 0"),
    "a `d` line may list what comes later": ("All (Contains before) xs × AreListed before parts", "AreListed before parts"),
    "an XOR line is a clause": ("constraint_true m (xor ls) = odd_true m ls", "constraint_true m (xor ls) = list_any (literal_true m) ls"),
    "an XOR line may repeat a variable": ("AllPairs (λ k l. variable_of k ≢ variable_of l) ls", "(0 ≡ 0)"),
    "a negative literal is positive": ("literal_true m (opposite v) = not (m v)", "literal_true m (opposite v) = m v"),
    "an odd number negates nothing": ("if l % 2 == 1 then not (m (l / 2)) else m (l / 2)", "m (l / 2)"),
    "a gate is an OR": ("(literal_bit m g.left && literal_bit m g.right)", "(literal_bit m g.left || literal_bit m g.right)"),
    "reads aren't tested": ("→ Contains y.sees x) (universals_of f))", "→ Contains (universals_of f) x) (universals_of f))"),
    "a place is taken for a number": ("(v ≡ slice_index variables place))", "(v ≡ suc place))"),
    "names are left out": ("    ⊎ ((name : List ℕ) × IsNatural name v", "    ⊎ ((name : List ℕ) × (place ≡ v)"),
    "more inputs and outputs than variables": (
        "(length c.inputs ≡ length (universals_of f)) × (length c.outputs ≡ length (existentials_of f))",
        "(0 ≡ 0)",
    ),
    "a variable beyond the header's": ("All (λ v. v ≤ c.largest)", "All (λ v. 0 ≤ v)"),
    "cycles": ("< rank g.variable)", "≤ rank g.variable + 1000)"),
    "differences of any length": ("(length first ≤ 5) × (length second ≤ 5)", "0 ≤ length first"),
    "the highest group first": ("(n ≡ byte - 128 + 128 * high)", "(n ≡ high + 128 * (byte - 128))"),
    "a definition may read everything": ("    Contains y.sees v\n", "    (0 ≡ 0)\n"),
    "a definition's output is anything": ("defined.value m ≡ literal_bit bits output", "(0 ≡ 0)"),
}


def main():
    parser = argparse.ArgumentParser(description=__doc__, formatter_class=argparse.RawDescriptionHelpFormatter)
    parser.add_argument("--mistakes", action="store_true", help="the same with each of the mistakes that a page could make")
    parser.add_argument("names", nargs="*")
    options = parser.parse_args()
    with open(PAGE, encoding="utf-8") as file:
        text = file.read()
    if not options.mistakes:
        sys.exit(compare_all(text, options.names, False))
    missed = 0
    for mistake, (old, new) in MISTAKES.items():
        if text.count(old) == 0:
            sys.exit(f"{mistake}: its words aren't on the page")
        found = compare_all(text.replace(old, new), options.names, True)
        print(f"{'found' if found else 'NOT FOUND'}: {mistake}")
        missed += not found
    print(f"{len(MISTAKES)} mistakes, {missed} not found")
    sys.exit(1 if missed else 0)


def compare_all(page_text, words, is_mistaken):
    """Compares all cases whose names have one of the words: 1 where there is a difference, where a mistaken page stops."""
    page = Page(page_text)
    page.names["Reaches"] = lambda circuit, start, end: end in reached(circuit, start)
    page.domains.update(i=lambda: range(64), high=lambda: range(2048))
    page.witnesses["IsCircuit"] = lambda circuit: [{"rank": ranks(circuit)}]
    page.witnesses.update(SpellsName=name_witness, SpellsNames=names_witness, IsGateCode=gate_code_witness)
    seen, differences, formulas = Counter(), 0, {}

    def compare(kind, name, found, due):
        nonlocal differences
        seen[kind] += 1
        if found != due:
            differences += 1
            if not is_mistaken:
                print(f"{kind}: {name}: the page says {found}, due is {due}")

    for name, formula_text, certificate in cases():
        if is_mistaken and differences:
            return 1
        if words and not any(word in name for word in words):
            continue
        if max(len(formula_text), len(certificate)) > MOST_BYTES:
            continue
        f, judged = loose_formula(formula_text), judged_formula(formula_text)
        answer = reference.answer(formula_text, certificate)
        if formula_text not in formulas:
            spelled = f is not None and page.SpellsFormula(tuple(formula_text), f)
            compare("texts of formulas", name, spelled, judged is not None)
            truth = None
            if judged is not None and is_small(judged):
                truth = judged_truth(judged)
                compare("truth", name, page_truth(page, f), (truth, truth))
            formulas[formula_text] = truth
        if judged is None:
            continue
        truth = formulas[formula_text]
        if answer in ("VALID TRUE", "VALID FALSE") and truth is not None:
            compare("accepted verdicts", name, truth, answer == "VALID TRUE")
        if answer == "UNPROVED" or len(judged.universals) > 8:
            continue
        if loose_circuit(certificate) is not None:
            compare("circuits", name, holds_skolem(page, f, certificate), reference.answer(formula_text, without_comment(certificate)) == "VALID TRUE")
        elif answer.startswith("VALID DEFINED") and f.variables <= MOST_VARIABLES // 2:
            _, _, defined, _, free = answer.split()
            for more in (0, 1):
                found = are_defined(page, f, certificate, int(defined) + more, int(free) - more)
                compare("definitions", name, found, more == 0)
            spoiled = re.sub(rb"^(t [0-9]+ )([0-9]+)", lambda m: m[1] + str(int(m[2]) ^ 1).encode(), certificate, flags=re.M)
            if spoiled != certificate and any(page.Holds(f, function(bits)) for bits in assignments(range(1, f.variables + 1))):
                compare("definitions, negated", name, are_defined(page, f, spoiled, int(defined), int(free)), False)
    if not is_mistaken:
        for kind, count in seen.items():
            print(f"{count:6} {kind}")
        print(f"{differences} differences")
    return 1 if differences or not seen else 0


if __name__ == "__main__":
    sys.setrecursionlimit(200_000)
    threading.stack_size(512 << 20)
    thread = threading.Thread(target=main)
    thread.start()
    thread.join()
