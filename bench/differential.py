#!/usr/bin/env python3
"""Makes random formulas, circuits with and without proofs, and refutations, right ones and spoiled ones, some of them on
numbers that collide in a hash table or have large gaps, and compares what the built checker answers on them with a
second judge, reference.py. Prints how many of each answer there were, and each difference with the texts of both files.
Then decisions.py compares the built solver's verdicts on random formulas, a tenth as many, with all choices. Where there is a
difference, the exit status is 1.

Usage: bench/differential.py [COUNT [SEED]]     5,000 cases from seed 1, or COUNT cases from SEED
"""

import collections
import itertools
import os
import random
import re
import subprocess
import sys
import tempfile

import decisions
import reference
from bench import CHECKER
from reference import Deletion, DerivationLine

MOST_DIFFERENCES = 10


def chance(choose, probability):
    return choose.random() < probability


def either_sign(choose, variable):
    return choose.choice((variable, -variable))


def collides(number):
    """Whether a number stands with 1 in 4096 of all numbers at one place of a hash table that takes no seed."""
    product = (number ^ 0x243F6A8885A308D3) * (0x9E3779B97F4A7C15 ^ 16)
    folded = (product ^ product >> 64) & (1 << 64) - 1
    return (folded ^ folded >> 32) & 4095 == 0


COLLIDING = list(filter(collides, range(1, 300_000)))
GAPS = [1, 2, 3, *range(1020, 1030), 4095, 4096, 4097, *range(65_530, 65_540), *range(999_980, 1_000_000)]
FAR_GAPS = [*GAPS, *range(2**20 - 5, 2**20 + 5), 10**8, *range(999_999_980, 999_999_998)]


def text_of(lines):
    """The text with these lines, each a list of what stands between its spaces."""
    return "".join(" ".join(map(str, line)) + "\n" for line in lines).encode()


# Formulas


def random_formula(choose):
    """A formula's text: up to three universals and existentials, or rarely too many universals for rows to be tried."""
    universal_count = choose.randrange(22, 26) if chance(choose, 0.04) else choose.randrange(4)
    existential_count = choose.randrange(4)
    declared = universal_count + existential_count
    numbers = choose.choice((COLLIDING, GAPS)) if chance(choose, 0.15) else range(1, declared + 4)
    variables = choose.sample(numbers, declared + choose.randrange(3))
    universals, existentials = variables[:universal_count], variables[universal_count:declared]
    largest = max(variables, default=0) + choose.randrange(2)
    undeclared = variables[declared:] if chance(choose, 0.15) else []
    used = [*universals[:3], *existentials, *undeclared]
    clauses = with_xor_lines(choose, random_clauses(choose, used), used)
    return text_of([["p", "cnf", largest, len(clauses)], *prefix(choose, universals, existentials), *clauses])


def prefix(choose, universals, existentials):
    """Sets and items, mostly with all universals first."""
    order = [*universals, *existentials]
    if chance(choose, 0.2):
        choose.shuffle(order)
    parts, declared = [], []
    for variable in order:
        letter = "a" if variable in universals else choose.choice("edd")
        if letter == "d":
            parts.append(["d", variable, *choose.sample(declared, choose.randrange(len(declared) + 1)), 0])
        elif parts and parts[-1][0] == letter and chance(choose, 0.8):
            parts[-1].insert(-1, variable)
        else:
            parts.append([letter, variable, 0])
        if letter == "a":
            declared.append(variable)
    return parts


def random_clauses(choose, variables):
    """Up to four clauses of one to three literals, or more that are rarely of one."""
    if chance(choose, 0.7):
        sizes = choose.choices((1, 2, 3), (2, 3, 1), k=choose.randrange(5))
    else:
        sizes = choose.choices((1, 2, 3), (1, 8, 2), k=choose.randrange(5, 10))
    if not variables:
        sizes = [0] * len(sizes)
    return [[*(either_sign(choose, choose.choice(variables)) for _ in range(size)), 0] for size in sizes]


def with_xor_lines(choose, clauses, variables):
    """The clauses, sometimes with XOR lines among them."""
    for _ in range(choose.choices((0, 1, 2), (7, 2, 1))[0] if variables else 0):
        chosen = choose.sample(variables, choose.randrange(1, min(len(variables), reference.LARGEST_XOR) + 1))
        line = ["x", *(either_sign(choose, variable) for variable in chosen), 0]
        clauses.insert(choose.randrange(len(clauses) + 1), line)
    return clauses


def loosened(choose, text):
    """A formula's text with other blanks and line ends behind its `p`, and with comments."""
    blanks = [b"", b"", b" ", b"\t", b"\n", b"\r\n", b"\nc 1 0\n", b"\n \tcomment\r\n"]
    letter, rest = text.split(b" ", 1)
    return letter + b" " + re.sub(rb"[ \n]", lambda blank: blank[0] + choose.choice(blanks), rest)


# Circuits


def random_circuit(choose, formula):
    """The text of a circuit with an output for each existential; most outputs reach only what they may."""
    universals, existentials = formula.universals, formula.existentials
    has_symbols = chance(choose, 0.6)
    if has_symbols:
        universals = choose.sample(universals, len(universals))
        existentials = choose.sample(existentials, len(existentials))
    gate_count = choose.randrange(5)
    largest = len(universals) + gate_count + choose.randrange(4)
    variables = choose.sample(range(1, largest + 1), largest)
    if chance(choose, 0.2):
        variables = choose.sample(choose.choice((COLLIDING, FAR_GAPS)), len(variables))
        largest = max([largest, *variables])
    inputs = variables[: len(universals)]
    gates, reached = random_gates(choose, variables[len(inputs) :][:gate_count], dict(zip(inputs, universals)))
    outputs = [random_output(choose, reached, formula.dependencies[existential]) for existential in existentials]
    choose.shuffle(gates)
    further = choose.choice(([], [], [], [0], [0, 0, 0, 0]))
    lines = [["aag", largest, len(inputs), 0, len(outputs), gate_count, *further]]
    lines += [[2 * variable] for variable in inputs] + [[literal] for literal in outputs] + gates
    return text_of(lines + (symbols(choose, universals, existentials) if has_symbols else []))


def random_gates(choose, variables, inputs):
    """Gates of these variables, each over what stands before it, and the universals that each variable reaches."""
    gates, reached = [], {0: set(), **{variable: {universal} for variable, universal in inputs.items()}}
    for variable in variables:
        sides = [2 * choose.choice(list(reached)) + choose.randrange(2) for _ in range(2)]
        gates.append([2 * variable, *sides])
        reached[variable] = reached[sides[0] // 2] | reached[sides[1] // 2]
    return gates, reached


def random_output(choose, reached, seen):
    fitting = [variable for variable, universals in reached.items() if universals <= seen]
    return 2 * choose.choice(fitting if chance(choose, 0.9) else list(reached)) + choose.randrange(2)


def symbols(choose, universals, existentials):
    lines = [[f"i{place}", universal] for place, universal in enumerate(universals)]
    lines += [[f"o{place}", existential] for place, existential in enumerate(existentials)]
    return choose.sample(lines, len(lines))


def likely_circuit(choose, formula):
    """A circuit's text: the first of a few that has a proof, or the last."""
    for _ in range(choose.choice((1, 1, 5, 30))):
        text = random_circuit(choose, formula)
        proved = with_proof(choose, formula, text, 0)
        if reference.certificate_answer(formula, proved) == "VALID TRUE":
            break
    return text


def with_other_numbers(choose, text):
    """A circuit's text with numbers of its body replaced, mostly within the range of literals."""
    lines = [line.split(b" ") for line in text.split(b"\n")]
    largest = int(lines[0][1])
    for _ in range(choose.randrange(1, 3)):
        line = choose.choice(lines[1:])
        place = choose.randrange(len(line))
        if line[place].isdigit():
            literal = choose.choice((choose.randrange(2 * largest + 3), 2 * choose.randrange(largest + 2)))
            line[place] = str(literal).encode()
    return b"\n".join(b" ".join(line) for line in lines)


# Derivations


class Cases:
    """Derives the empty clause from clauses by cases over variables, where they suffice: each line says that not all
    literals of a list are false. Before a further case, a few hints at most are propagated."""

    def __init__(self, choose, clauses, first_id, variables):
        self.choose = choose
        self.clauses = dict(clauses)
        self.first_id = first_id
        self.variables = variables
        self.most_units = choose.choice((0, 0, 1, 2, 4))
        self.lines = []

    def refute(self, false=()):
        """The id of a clause of these literals alone, or None."""
        is_last = len(false) == len(self.variables)
        hints = self.closing_hints(false, len(self.clauses) if is_last else self.most_units)
        if hints is not None:
            return self.derive(false, hints)
        if is_last:
            return None
        variable = self.variables[len(false)]
        found = []
        for literal in (-variable, variable):
            found.append(self.refute((*false, literal)))
            if found[-1] is None or self.clauses[found[-1]] <= set(false):
                return found[-1]
        return self.derive(false, found)

    def closing_hints(self, false, most_units):
        """Hints that end on a clause of false literals, found by propagation, or None."""
        true, hints, clauses = {-literal for literal in false}, [], list(self.clauses.items())
        self.choose.shuffle(clauses)
        is_growing = True
        while is_growing:
            is_growing = False
            for id, clause in clauses:
                left = [literal for literal in clause if -literal not in true]
                if not left:
                    return [*hints, id]
                if len(left) == 1 and left[0] not in true and len(hints) < most_units:
                    true.add(left[0])
                    hints.append(id)
                    is_growing = True
        return None

    def derive(self, false, hints):
        literals = self.shortened(list(false), hints)
        self.choose.shuffle(literals)
        if literals and chance(self.choose, 0.1):
            literals.append(self.choose.choice(literals))
        id = self.first_id + len(self.lines)
        self.lines.append(DerivationLine(id, literals, hints))
        self.clauses[id] = frozenset(literals)
        return id

    def shortened(self, literals, hints):
        """The literals without those that the same hints don't need."""
        for literal in list(literals):
            fewer = [other for other in literals if other != literal]
            if reference.is_derived(DerivationLine(0, fewer, hints), self.clauses):
                literals = fewer
        return literals


def spoiled_line(choose, line, variables):
    """The derivation line with a literal or a hint changed, added, repeated, dropped or moved."""
    id, literals, hints = line.id, list(line.literals), list(line.hints)
    ways = ["add literal", "add hint"] + ["add opposite", "negate", "drop literal"] * bool(literals)
    ways += ["change hint", "repeat hint", "drop hint", "drop last hint", "move hints"] * bool(hints)
    way = choose.choice(ways)
    if way == "add literal":
        literals.append(either_sign(choose, choose.randrange(1, variables + 2)))
    elif way == "add hint":
        hints.insert(choose.randrange(len(hints) + 1), choose.randrange(1, id + 1))
    elif way == "add opposite":
        literals.append(-literals[0])
    elif way == "negate":
        literals[0] = -literals[0]
    elif way == "drop literal":
        literals.pop(choose.randrange(len(literals)))
    elif way == "change hint":
        hints[choose.randrange(len(hints))] = choose.randrange(1, id + 1)
    elif way == "repeat hint":
        place = choose.randrange(len(hints))
        hints.insert(place, hints[place])
    elif way == "drop hint":
        hints.pop(choose.randrange(len(hints)))
    elif way == "drop last hint":
        hints.pop()
    elif way == "move hints":
        choose.shuffle(hints)
    return DerivationLine(id, literals, hints)


def random_line(choose, id, variables):
    literals = [either_sign(choose, choose.randrange(1, variables + 1)) for _ in range(choose.randrange(3))]
    return DerivationLine(id, literals, [choose.randrange(1, max(2, id)) for _ in range(choose.randrange(4))])


def derivation(choose, cases, variables, spoiled_part):
    """The lines by cases, a part of them spoiled, or a few random ones."""
    cases.refute()
    lines = cases.lines
    if not lines:
        lines = [random_line(choose, cases.first_id + place, max(1, variables)) for place in range(choose.randrange(4))]
    return [spoiled_line(choose, line, variables) if chance(choose, spoiled_part) else line for line in lines]


def with_deletions(choose, lines, first_id):
    """The lines with deletions between them, mostly of lines that no later line hints, and each once."""
    items, live, foreign_part = [], [], choose.choice((0, 0, 0.1))
    for place, line in enumerate(lines):
        items.append(line)
        live.append(line.id)
        unused = live if chance(choose, 0.1) else [id for id in live if all(id not in later.hints for later in lines[place + 1 :])]
        while chance(choose, 0.4):
            ids = choose.sample(unused, choose.randrange(len(unused) + 1))
            live = [id for id in live if id not in ids]
            unused = [id for id in unused if id not in ids]
            if chance(choose, foreign_part):
                ids.insert(choose.randrange(len(ids) + 1), choose.randrange(1, first_id + len(lines) + 2))
            if ids:
                items.append(Deletion(ids))
    return items


def versioned(choose, lines, first_id):
    """The items, and what stands behind the header's word: in version 2 some are deletions."""
    if chance(choose, 0.5):
        return lines, ""
    return with_deletions(choose, lines, first_id), "" if chance(choose, 0.05) else "2"


def texts_of(items):
    return [
        ["d", *item.ids, 0] if isinstance(item, Deletion) else [item.id, *item.literals, 0, *item.hints, 0]
        for item in items
    ]


def stated_count(choose, lines):
    return len(lines) if chance(choose, 0.97) else max(0, len(lines) + choose.choice((-1, 1)))


# Proofs and refutations


def with_proof(choose, formula, text, spoiled_part):
    """The circuit's text with a proof by cases in its comment, if it can be read."""
    reader = reference.LineReader(text)
    try:
        circuit = reference.read_circuit(reader, reference.tokens_of(reader.take()))
        inputs, outputs = reference.mapping(formula, circuit)
    except reference.Fault:
        return text
    clauses = reference.negated_matrix(formula, circuit, inputs, outputs)
    first_id = reference.first_id_of_proof(formula, circuit)
    cases = Cases(choose, clauses, first_id, some_variables(choose, clauses))
    lines = derivation(choose, cases, circuit.variables + len(formula.clauses), spoiled_part)
    items, version = versioned(choose, lines, first_id)
    free_text = [["free", "text"], []] if chance(choose, 0.1) else []
    return text + text_of([["c"], [f"dqp{version}", stated_count(choose, items)], *texts_of(items), *free_text])


def some_variables(choose, clauses):
    used = sorted({abs(literal) for clause in clauses.values() for literal in clause})
    return choose.sample(used, min(6, len(used)))


def with_comment(choose, text):
    return text + text_of([["c"], [choose.choice(("hello", "", "dq", "i0 1", "dqpp 0"))], ["dqp", 0]])


def random_rows(choose, universals):
    """Most rows of a few universals, or some of many, in any order."""
    if len(universals) > 3:
        rows = [[either_sign(choose, universal) for universal in universals] for _ in range(choose.randrange(6))]
    else:
        rows = [list(row) for row in itertools.product(*((-universal, universal) for universal in universals))]
        rows = [row for row in rows if chance(choose, 0.85)]
        choose.shuffle(rows)
    return rows + [choose.choice(rows)] if rows and chance(choose, 0.2) else rows


def random_refutation(choose, formula, spoiled_part):
    """The text of a refutation by cases on pairs, which it names by any of the rows that share them."""
    signed_rows = random_rows(choose, formula.universals)
    rows = [{abs(literal): literal > 0 for literal in row} for row in signed_rows]
    clauses = reference.instances(formula, rows)
    cases = Cases(choose, clauses, len(rows) * len(formula.clauses) + 1, some_variables(choose, clauses))
    lines = derivation(choose, cases, len(rows) * formula.variables, spoiled_part)
    lines = [
        DerivationLine(id, [renamed(choose, formula, rows, literal) for literal in literals], hints)
        for id, literals, hints in lines
    ]
    items, version = versioned(choose, lines, cases.first_id)
    header = ["p", f"dqr{version}", len(rows), stated_count(choose, items)]
    blank_lines = [[], [""]] if chance(choose, 0.1) else []
    return text_of([header, *(["u", *row, 0] for row in signed_rows), *texts_of(items), *blank_lines])


def renamed(choose, formula, rows, literal):
    """The literal on the same pair under any row that shares it, or itself where it is on no pair."""
    if not reference.is_pair(formula, rows, abs(literal)):
        return literal
    existential = (abs(literal) - 1) % formula.variables + 1
    names = [row * formula.variables + existential for row in range(len(rows))]
    shared = reference.shared_literal(formula, rows, abs(literal))
    name = choose.choice([name for name in names if reference.shared_literal(formula, rows, name) == shared])
    return name if literal > 0 else -name


# Spoiled texts

WORDS = b"a e d p s u c aag cnf dqr dqr2 dqp dqp2 i0 o0 TRUE FALSE x -0 +1 -".split()
LINES = [b"", b" ", b"\t", b"\r", b"c", b"c ", b"c x", b" c", b"0", b"-1", b"i0 1", b"o0 1", b"dqp 0", b"s TRUE"]
ENDS = [b"\r", b"\r\r", b" ", b"\t", b" 0", b" 1", b" x"]


def other_number(choose, value):
    limit = choose.choice((10**18 - 1, 10**18, 10**9, 10**9 + 1, 10**6 + 1, 10**7 + 1, -(10**18)))
    return choose.choice((value + 1, value - 1, value + 2, -value, 2 * value, 0, choose.randrange(10), limit))


def spoil_token(choose, lines, place):
    tokens = lines[place].split(b" ")
    chosen = choose.randrange(len(tokens))
    value = reference.number(tokens[chosen])
    is_word = value is None or chance(choose, 0.1)
    tokens[chosen] = choose.choice(WORDS) if is_word else str(other_number(choose, value)).encode()
    lines[place] = b" ".join(tokens)


def drop_line(choose, lines, place):
    del lines[place]


def repeat_line(choose, lines, place):
    lines.insert(choose.randrange(len(lines) + 1), lines[place])


def insert_line(choose, lines, place):
    lines.insert(place, choose.choice(LINES))


def swap_lines(choose, lines, place):
    other = choose.randrange(len(lines))
    lines[place], lines[other] = lines[other], lines[place]


def lengthen_line(choose, lines, place):
    lines[place] += choose.choice(ENDS)


def change_blank(choose, lines, place):
    lines[place] = lines[place].replace(b" ", choose.choice((b"  ", b"\t", b"\r", b"\n")), 1)


def add_zeros(choose, lines, place):
    lines[place] = re.sub(rb"\b[0-9]", rb"00\g<0>", lines[place], count=choose.randrange(2))


def cut_lines(choose, lines, place):
    lines[place:] = [lines[place][: choose.randrange(len(lines[place]) + 1)]]


def change_byte(choose, lines, place):
    if lines[place]:
        chosen = choose.randrange(len(lines[place]))
        lines[place] = lines[place][:chosen] + bytes([choose.randrange(256)]) + lines[place][chosen + 1 :]


def drop_last_line_end(choose, lines, place):
    if lines[-1] == b"":
        lines.pop()


SPOILINGS = {
    spoil_token: 8,
    drop_line: 2,
    repeat_line: 2,
    insert_line: 2,
    swap_lines: 2,
    lengthen_line: 2,
    change_blank: 1,
    add_zeros: 1,
    cut_lines: 1,
    change_byte: 1,
    drop_last_line_end: 1,
}


def spoiled(choose, text):
    lines = text.split(b"\n")
    [spoil] = choose.choices(list(SPOILINGS), SPOILINGS.values())
    spoil(choose, lines, choose.randrange(len(lines)))
    return b"\n".join(lines)


# Cases


def random_certificate(choose, formula):
    spoiled_part = choose.choice((0, 0, 0.05, 0.3))
    if chance(choose, 0.35):
        return random_refutation(choose, formula, spoiled_part)
    text = likely_circuit(choose, formula)
    if chance(choose, 0.25):
        text = with_other_numbers(choose, text)
    if chance(choose, 0.6):
        return with_proof(choose, formula, text, spoiled_part)
    return with_comment(choose, text) if chance(choose, 0.2) else text


def random_case(choose):
    """The texts of a formula and a certificate; a certificate is rarely one for another formula."""
    formula_text = random_formula(choose)
    made_for = random_formula(choose) if chance(choose, 0.05) else formula_text
    certificate_text = random_certificate(choose, reference.FormulaReader(made_for).read())
    if chance(choose, 0.1):
        certificate_text = choose.choice((b"s TRUE\n", b"s FALSE\n")) + certificate_text
    if chance(choose, 0.15):
        formula_text = loosened(choose, formula_text)
    if chance(choose, 0.1):
        formula_text = spoiled(choose, formula_text)
    while chance(choose, 0.3):
        certificate_text = spoiled(choose, certificate_text)
    return formula_text, certificate_text


def checker_answer(folder, texts):
    """What the checker writes on two texts, and its exit status."""
    paths = [os.path.join(folder, kind) for kind in ("formula", "certificate")]
    for path, text in zip(paths, texts):
        with open(path, "wb") as file:
            file.write(text)
    run = subprocess.run([CHECKER, *paths], stdout=subprocess.PIPE, check=False)
    return run.stdout, run.returncode


def expected_answer(texts):
    line = reference.answer(*texts)
    return f"{line}\n".encode(), reference.STATUSES[line.split()[0]]


def kind_of(answer):
    """The words of an answer without its numbers."""
    return " ".join(word for word in answer.decode().split() if not word.lstrip("-").isdigit())


def show_difference(case, texts, expected, found):
    print(f"case {case}: due is {expected[0]} with status {expected[1]}, the checker says {found[0]} with {found[1]}")
    for kind, text in zip(("formula", "certificate"), texts):
        print(f"  {kind}:")
        for line in text.splitlines(keepends=True):
            print(f"    {line}")


def compare(count, seed, make_case=random_case):
    """The number of differences in so many cases; behind the tenth the rest is left out."""
    choose = random.Random(seed)
    kinds, differences = collections.Counter(), 0
    with tempfile.TemporaryDirectory() as folder:
        for case in range(1, count + 1):
            texts = make_case(choose)
            expected, found = expected_answer(texts), checker_answer(folder, texts)
            kinds[kind_of(expected[0])] += 1
            if expected != found:
                differences += 1
                show_difference(case, texts, expected, found)
            if differences == MOST_DIFFERENCES:
                break
    for kind, seen in sorted(kinds.items()):
        print(f"{seen:8} {kind}")
    print(f"{sum(kinds.values())} cases from seed {seed}, {differences} differences")
    return differences


def main():
    if sys.argv[1:] == ["--help"]:
        print(__doc__.strip())
        return 0
    if not os.path.exists(CHECKER):
        sys.exit(f"{CHECKER} isn't built: run `rt run` in crates/dqcheck, or `rt ci` at the top")
    words = sys.argv[1:]
    count = int(words[0]) if words else 5_000
    seed = int(words[1]) if len(words) > 1 else 1
    if not os.path.exists(decisions.SOLVER):
        sys.exit(f"{decisions.SOLVER} isn't built: run `rt run` in crates/dqsolve, or `rt ci` at the top")
    differences = compare(count, seed)
    differences += decisions.compare(count // 10, seed)
    sys.exit(1 if differences else 0)


if __name__ == "__main__":
    main()
