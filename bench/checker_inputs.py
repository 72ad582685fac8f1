"""Inputs of many kinds for the checker, honest and hostile: each function makes a formula and a certificate, or None in
place of the latter. `bench.py` measures the checker on them."""

import os
import random
import subprocess
import tempfile

MEGABYTE = 1_000_000


def lines(*parts):
    return "".join(f"{part}\n" for part in parts)


def numbers(first, last, step=1):
    return " ".join(map(str, range(first, last + 1, step)))


def rows(universals):
    """All rows of a circuit of 100 gates and 300 clauses: outputs are chains of gates, and each clause holds."""
    return chains(universals, 20, 300)


def gates_by_rows(count):
    """4,096 rows of so many gates and 10 clauses."""
    return chains(12, count // 5, 10)


def chains(universals, chain, count):
    """Five outputs, each with a chain of gates, and clauses that each hold."""
    outputs = 5
    existentials = list(range(universals + 1, universals + outputs + 1))
    gates, literals, variable = [], [], universals
    for output in range(outputs):
        side = 2 * (output + 1)
        for step in range(chain):
            variable += 1
            gates.append(f"{2 * variable} {side} {2 * ((output + 3 * step) % universals + 1)}")
            side = 2 * variable + step % 2
        literals.append(side)
    clauses = []
    for j in range(count):
        y = existentials[j % outputs]
        x = j % universals + 1
        clauses.append(f"{y} {-y} {x} {-(x % universals + 1)} 0")
    formula = lines(
        f"p cnf {existentials[-1]} {len(clauses)}",
        f"a {numbers(1, universals)} 0",
        f"e {' '.join(map(str, existentials))} 0",
        *clauses,
    )
    circuit = lines(
        f"aag {variable} {universals} 0 {outputs} {len(gates)}",
        *range(2, 2 * universals + 1, 2),
        *literals,
        *gates,
    )
    return formula, circuit


def large_formula():
    """A formula of 100 MB: ten million clauses of small literals on a million variables."""
    clauses = []
    size, j = 0, 0
    while size < 100 * MEGABYTE and j < 3_500_000:
        a, b, c = j % 999_000 + 1, (7 * j) % 999_000 + 1, (31 * j) % 999_000 + 1
        clause = f"{a} {-b} {c} {-(a + 500)} 0"
        clauses.append(clause)
        size += len(clause) + 1
        j += 1
    return lines(f"p cnf 1000000 {len(clauses)}", "a 1 2 3 0", *clauses), None


def long_clause():
    """One clause of a million literals."""
    return lines("p cnf 1000000 1", f"{numbers(1, 1_000_000)} 0"), None


def many_items():
    """A million `d` lines."""
    items = (f"d {y} 1 2 3 0" for y in range(4, 1_000_001))
    return lines("p cnf 1000000 0", "a 1 2 3 0", *items), None


def many_comments():
    """A million comments."""
    return lines("p cnf 1 0", *(f"c comment {i}" for i in range(1_000_000))), None


def long_prefix():
    """A set of half a million universals, and half a million existentials that see them all."""
    return lines("p cnf 1000000 0", f"a {numbers(1, 500_000)} 0", f"e {numbers(500_001, 1_000_000)} 0"), None


def many_gates(order):
    """A chain of a million gates over 21 universals, in or against the order of the chain."""
    universals = 21
    formula = lines("p cnf 22 0", f"a {numbers(1, universals)} 0", "e 22 0")
    first, count = universals + 1, 1_000_000
    gates = [f"{2 * (first + i)} {2 * (first + i - 1)} {2 * (i % universals + 1)}" for i in range(count)]
    circuit = lines(
        f"aag {universals + count} {universals} 0 1 {count}",
        *range(2, 2 * universals + 1, 2),
        2 * (universals + count),
        *order(gates),
    )
    return formula, circuit


def forward_gates():
    return many_gates(list)


def reverse_gates():
    return many_gates(lambda gates: gates[::-1])


def delta(value):
    """A difference of binary AIGER: groups of seven bits, the lowest first."""
    return chr(value) if value < 128 else chr(128 | value % 128) + delta(value >> 7)


def binary_gates():
    """The circuit of `forward_gates` in the binary form."""
    formula, circuit = forward_gates()
    header, *rest = circuit.splitlines()
    counts = header.split()[1:]
    inputs, outputs = int(counts[1]), int(counts[3])
    code = []
    for gate in rest[inputs + outputs :]:
        literal, *sides = map(int, gate.split())
        code += [delta(literal - max(sides)), delta(max(sides) - min(sides))]
    return formula, lines(" ".join(["aig", *counts]), *rest[inputs : inputs + outputs]) + "".join(code)


def binary_header():
    """A binary circuit whose header states a thousand million inputs."""
    return lines("p cnf 2 0", "a 1 0", "d 2 1 0"), lines("aig 1000000000 1000000000 0 1 0", "2000000000")


def wide_gates():
    """A million gates, each over inputs alone."""
    universals = 21
    formula = lines("p cnf 22 0", f"a {numbers(1, universals)} 0", "e 22 0")
    count = 1_000_000
    gates = [f"{2 * (universals + 1 + i)} {2 * (i % universals + 1)} {2 * (i // universals % universals + 1)}" for i in range(count)]
    circuit = lines(
        f"aag {universals + count} {universals} 0 1 {count}",
        *range(2, 2 * universals + 1, 2),
        2 * (universals + count),
        *gates,
    )
    return formula, circuit


def large_header():
    """A circuit of three lines that states a thousand million variables."""
    return lines("p cnf 2 0", "a 1 0", "d 2 1 0"), lines("aag 1000000000 1 0 1 0", "2000000000", "2000000000")


def blind_bit(seen, padding, rows, lines_wanted, variables):
    """An existential is to equal a universal that it doesn't see, told by `seen` others. Two rows for each choice of
    these are refuted with each other; further lines repeat what is known."""
    blind = seen + 1
    universals = blind + padding
    y = universals + 1
    others = f"e {numbers(y + 1, variables)} 0" if variables > y else "e 0"
    formula = lines(
        f"p cnf {variables} 2",
        f"a {numbers(1, universals)} 0",
        f"d {y} {numbers(1, seen)} 0",
        others,
        f"{y} -{blind} 0",
        f"-{y} {blind} 0",
    )

    def row(k):
        bits = [k >> (i + 1) & 1 for i in range(seen)] + [k & 1] + [0] * padding
        return "u " + " ".join(str(i + 1 if bit else -(i + 1)) for i, bit in enumerate(bits)) + " 0"

    pair = [2 * i * variables + y for i in range(rows // 2)]
    first = 2 * rows + 1
    steps = []
    for i, p in enumerate(pair):
        steps.append(f"{first + 2 * i} -{p} 0 {4 * i + 2} 0")
        steps.append(f"{first + 2 * i + 1} {p} 0 {4 * i + 3} 0")
    i = 0
    while len(steps) < lines_wanted - 1:
        steps.append(f"{first + len(steps)} {pair[i]} -{pair[i + 1]} 0 {first + 2 * i + 1} 0")
        steps.append(f"{first + len(steps)} -{pair[i]} {pair[i + 1]} 0 {first + 2 * i} 0")
        i += 1
    steps.append(f"{first + len(steps)} 0 {first} {first + 1} 0")
    return formula, lines(f"p dqr {rows} {len(steps)}", *map(row, range(rows)), *steps)


def refuted_rows(rows):
    """A refutation of so many rows, a power of two, with two lines for each but one."""
    seen = rows.bit_length() - 2
    return blind_bit(seen, 16, rows, 2 * rows - 1, seen + 18)


def many_variables():
    """A refutation of 5,000 rows of a formula with a million variables."""
    return blind_bit(12, 0, 5_000, 9_999, 1_000_000)


def many_existentials():
    """A refutation of 65,536 rows of a formula with 2,000 existentials that see one universal each, and are to equal
    another. Each has four lines: its two pairs, false by one row and true by another."""
    universals, existentials = 16, 2_000
    variables = universals + existentials
    seen = [i % universals for i in range(existentials)]
    blind = [(i + 1) % universals for i in range(existentials)]
    formula = lines(
        f"p cnf {variables} {2 * existentials}",
        f"a {numbers(1, universals)} 0",
        *(f"d {universals + 1 + i} {seen[i] + 1} 0" for i in range(existentials)),
        *(
            clause
            for i in range(existentials)
            for clause in (f"{universals + 1 + i} -{blind[i] + 1} 0", f"-{universals + 1 + i} {blind[i] + 1} 0")
        ),
    )
    rows, first = 1 << universals, 2 * existentials * (1 << universals) + 1
    choose = random.Random(1)
    steps = []
    for i in range(existentials):
        for value in (0, 1):
            row = choose.randrange(rows) & ~(1 << seen[i]) & ~(1 << blind[i]) | value << seen[i]
            for k, sign, j in ((row, "-", 2 * i + 1), (row | 1 << blind[i], "", 2 * i)):
                literal = f"{sign}{k * variables + universals + 1 + i}"
                steps.append(f"{first + len(steps)} {literal} 0 {2 * existentials * k + j + 1} 0")
    steps.append(f"{first + len(steps)} 0 {first} {first + 1} 0")
    texts = (" ".join(str(x + 1 if k >> x & 1 else -x - 1) for x in range(universals)) for k in range(rows))
    return formula, lines(f"p dqr {rows} {len(steps)}", *(f"u {row} 0" for row in texts), *steps)


class Proof:
    """A circuit's proof: its lines so far, and the ids of the clauses before them. Gates, clauses and places in a
    clause count from 0; the parts of a gate are 0 (not g, a), 1 (not g, b) and 2 (g, not a, not b)."""

    def __init__(self, universals, clauses, gates):
        self.universals = universals
        self.clauses = clauses
        self.gates = gates
        self.variables = universals + len(gates)
        self.starts = [3 * len(gates) + 1]
        for clause in clauses:
            self.starts.append(self.starts[-1] + len(clause))
        self.last = self.starts[-1]
        self.lines = []

    def gate(self, k, part):
        """The id of a gate's clause."""
        return 3 * k + 1 + part

    def literal(self, j, place):
        """The id of the clause that says that clause j, if false, has this literal false."""
        return self.starts[j] + place

    def false(self, j):
        """The variable that says that clause j is false."""
        return self.variables + 1 + j

    def derive(self, literals, hints):
        """Adds a line and answers its id."""
        id = self.last + 1 + len(self.lines)
        self.lines.append(" ".join(map(str, (id, *literals, 0, *hints, 0))))
        return id

    def texts(self, outputs):
        """The formula, where each existential sees all universals, and the circuit, where outputs are gates' variables."""
        variables = self.universals + len(outputs)
        formula = lines(
            f"p cnf {variables} {len(self.clauses)}",
            f"a {numbers(1, self.universals)} 0",
            f"e {numbers(self.universals + 1, variables)} 0",
            *(" ".join(map(str, (*clause, 0))) for clause in self.clauses),
        )
        circuit = lines(
            f"aag {self.variables} {self.universals} 0 {len(outputs)} {len(self.gates)}",
            *range(2, 2 * self.universals + 1, 2),
            *(2 * output for output in outputs),
            *(f"{2 * g} {2 * a} {2 * b}" for g, a, b in self.gates),
            "c",
            f"dqp {len(self.lines)}",
            *self.lines,
        )
        return formula, circuit


def chain(universals, count):
    """A chain of and-gates that takes each universal in turn; the formula says that its last gate is the AND of all.
    Answers the proof so far and the ids of its lines: a clause of a universal isn't false, since where the last gate
    is 1, so are the gates before it and the universals that they take."""
    y = universals + 1
    clauses = [[-y, i] for i in range(1, y)] + [[y, *(-i for i in range(1, y))]]
    gates = [(y + k, y + k - 1 if k else 1, (k + 1) % universals + 1) for k in range(count)]
    proof = Proof(universals, clauses, gates)
    last, ends, above = gates[-1][0], [], []
    for k in range(count - 1, count - 1 - universals, -1):
        gate, before, x = gates[k]
        j = x - 1
        ends.append(proof.derive([-proof.false(j)], [proof.literal(j, 0), *above, proof.gate(k, 1), proof.literal(j, 1)]))
        above = [proof.derive([-last, before], [*above, proof.gate(k, 0)])]
    return proof, ends


def gates_and_proof():
    """A chain of a million gates over 24 universals, and a proof with a line for each gate: where all universals are
    1, so is the gate."""
    universals, count = 24, 1_000_000
    proof, ends = chain(universals, count)
    known = proof.literal(universals, 1)
    for k, (gate, _, x) in enumerate(proof.gates):
        known = proof.derive([-proof.false(universals), gate], [known, proof.literal(universals, x), proof.gate(k, 2)])
    ends.append(proof.derive([-proof.false(universals)], [known, proof.literal(universals, 0)]))
    proof.derive([], [*ends, proof.last])
    return proof.texts([proof.gates[-1][0]])


def long_proof(wanted):
    """A proof of so many lines for a chain of a thousand gates. Each says that an earlier gate is 1 where a later
    one is, from up to twelve lines of its block; a block's lines have up to seven literals of universals besides."""
    universals, count, block, window = 24, 1_000, 3_000, 200
    proof, ends = chain(universals, count)
    falsity = proof.false(universals)
    hints = [proof.literal(universals, place) for place in range(1, universals + 1)]
    hints += [proof.gate(k, 2) for k in range(count)]
    ends.append(proof.derive([-falsity], [*hints, proof.literal(universals, 0)]))
    choose = random.Random(1)
    while len(proof.lines) < wanted - 1:
        more = [choose.choice((-x, x)) for x in choose.sample(range(1, universals + 1), choose.randrange(8))]
        base = choose.randrange(count - window)
        below = {}
        for k in range(base + 1, base + window):
            gate, before, _ = proof.gates[k]
            below[k] = [(k - 1, proof.derive([*more, -gate, before], [proof.gate(k, 0)]))]
        for _ in range(min(block, wanted - 1 - len(proof.lines))):
            start = k = choose.randrange(base + window // 2, base + window)
            hints = []
            for _ in range(choose.randrange(5, 13)):
                if k > base:
                    k, hint = choose.choice(below[k])
                    hints.append(hint)
            id = proof.derive([*more, -proof.gates[start][0], proof.gates[k][0]], hints)
            if start - k < 16:
                below[start].append((k, id))
    proof.derive([], [*ends, proof.last])
    return proof.texts([proof.gates[-1][0]])


def wide_last_clause():
    """A million clauses of three literals over a thousand gates, a line for each clause, and a last line that hints
    all of these and the clause of a million literals."""
    universals, existentials, count = 24, 1_000, 1_000_000
    gates, clauses = [], []
    for k in range(existentials):
        a = k % universals + 1
        gates.append((universals + 1 + k, a, (a + k // universals % (universals - 1)) % universals + 1))
    for j in range(count):
        y, a, b = gates[j % existentials]
        other = universals + 1 + (7 * j + 3) % existentials
        clauses.append(([-y, a, other], [-y, b, -other], [y, -a, -b])[j // existentials % 3])
    proof = Proof(universals, clauses, gates)
    lines_of_clauses = []
    for j in range(count):
        part = j // existentials % 3
        hints = [proof.literal(j, 1), proof.literal(j, 2)] if part == 2 else [proof.literal(j, 0)]
        hints += [proof.gate(j % existentials, part), proof.literal(j, 0 if part == 2 else 1)]
        lines_of_clauses.append(proof.derive([-proof.false(j)], hints))
    proof.derive([], [*lines_of_clauses, proof.last])
    return proof.texts([gate for gate, _, _ in gates])


COLLIDING = r"""
#include <stdint.h>
#include <stdio.h>
#include <stdlib.h>
/* Numbers from 1 on whose hash has its low bits 0, in the hash that the standard maps take without a seed. */
int main(int argc, char **argv) {
    uint64_t count = strtoull(argv[1], 0, 10), mask = (1ULL << strtoull(argv[2], 0, 10)) - 1;
    for (uint64_t n = 1; count; n++) {
        __uint128_t product = (__uint128_t)(n ^ 0x243f6a8885a308d3ULL) * (0x9e3779b97f4a7c15ULL ^ 16);
        uint64_t hash = (uint64_t)product ^ (uint64_t)(product >> 64);
        if (!((hash ^ hash >> 32) & mask)) { printf("%llu\n", (unsigned long long)n); count--; }
    }
}
"""


def colliding_numbers(count):
    """So many numbers that stand in one place of a hash table for them, or None where no C compiler is there to find
    them. They are spread over the numbers up to a thousand million."""
    with tempfile.TemporaryDirectory() as folder:
        program = os.path.join(folder, "colliding")
        try:
            subprocess.run(["cc", "-O2", "-x", "c", "-", "-o", program], input=COLLIDING.encode(), check=True)
        except (OSError, subprocess.CalledProcessError):
            return None
        bits = (count // 9).bit_length() - 1
        return list(map(int, subprocess.run([program, str(count), str(bits)], stdout=subprocess.PIPE).stdout.split()))


def colliding_gates(count):
    """A circuit whose gates have variables that collide in a hash table with a fixed seed."""
    numbers = colliding_numbers(count)
    if numbers is None:
        return None, None
    formula = lines("p cnf 2 0", "a 1 0", "e 2 0")
    taken = next(v for v in range(1, count + 2) if v not in set(numbers[:10]))
    gates = (f"{2 * v} {2 * taken} {2 * taken}" for v in numbers)
    return formula, lines(f"aag {numbers[-1]} 1 0 1 {count}", 2 * taken, 2 * numbers[0], *gates)


def many_constants(count):
    """Existentials that see one universal each, with constant outputs, over as many universals and gates."""
    formula = lines(
        f"p cnf {2 * count} 0", f"a {numbers(1, count)} 0", *(f"d {count + i} {i} 0" for i in range(1, count + 1))
    )
    gates = (f"{2 * (count + i)} {2 * (count + i - 1)} {2 * i}" for i in range(1, count + 1))
    circuit = lines(f"aag {2 * count} {count} 0 {count} {count}", *range(2, 2 * count + 1, 2), *["0"] * count, *gates)
    return formula, circuit


def planted_functions(count):
    """Existentials that see five universals each, each with four gates of its own over these."""
    universals = count // 2
    seen = [[(7 * i + 11 * j) % universals + 1 for j in range(5)] for i in range(count)]
    formula = lines(
        f"p cnf {universals + count} 0",
        f"a {numbers(1, universals)} 0",
        *(f"d {universals + 1 + i} {' '.join(map(str, xs))} 0" for i, xs in enumerate(seen)),
    )
    gates, outputs, variable = [], [], universals
    for xs in seen:
        side = 2 * xs[0]
        for x in xs[1:]:
            variable += 1
            gates.append(f"{2 * variable} {side} {2 * x + variable % 2}")
            side = 2 * variable
        outputs.append(side)
    circuit = lines(
        f"aag {variable} {universals} 0 {count} {len(gates)}", *range(2, 2 * universals + 1, 2), *outputs, *gates
    )
    return formula, circuit


def shared_chain(count):
    """Existentials that see a first universal and one of their own, and all read a chain of gates over the first one."""
    formula = lines(
        f"p cnf {2 * count} 0", f"a {numbers(1, count)} 0", *(f"d {count + i} 1 {i} 0" for i in range(1, count + 1))
    )
    gates = (f"{2 * (count + i)} {2 * (count + i - 1) if i > 1 else 2} 2" for i in range(1, count + 1))
    circuit = lines(
        f"aag {2 * count} {count} 0 {count} {count}", *range(2, 2 * count + 1, 2), *[4 * count] * count, *gates
    )
    return formula, circuit


def own_universals(count):
    """Existentials that see one universal each, each with a gate of its own over this one."""
    formula = lines(
        f"p cnf {2 * count} 0", f"a {numbers(1, count)} 0", *(f"d {count + i} {i} 0" for i in range(1, count + 1))
    )
    gates = (f"{2 * (count + i)} {2 * i} {2 * i}" for i in range(1, count + 1))
    outputs = (2 * (count + i) for i in range(1, count + 1))
    circuit = lines(f"aag {2 * count} {count} 0 {count} {count}", *range(2, 2 * count + 1, 2), *outputs, *gates)
    return formula, circuit


def own_prefixes(count):
    """Existentials each of which sees the universals before it, and reads the last one of these."""
    formula = lines(
        f"p cnf {2 * count} 0", *(f"a {2 * i + 1} 0\ne {2 * i + 2} 0" for i in range(count))
    )
    gates = (f"{2 * (count + i)} {2 * i} {2 * (count + i - 1) if i > 1 else 2}" for i in range(1, count + 1))
    outputs = (2 * (count + i) for i in range(1, count + 1))
    circuit = lines(f"aag {2 * count} {count} 0 {count} {count}", *range(2, 2 * count + 1, 2), *outputs, *gates)
    return formula, circuit


def one_seen_set(count):
    """Existentials that see the last five universals of many, and all read a chain of gates over these."""
    universals = count // 4
    seen = range(universals - 4, universals + 1)
    formula = lines(
        f"p cnf {universals + count} 0",
        f"a {numbers(1, universals)} 0",
        *(f"d {universals + i} {' '.join(map(str, seen))} 0" for i in range(1, count + 1)),
    )
    first, length = universals + 1, count // 20
    gates = [f"{2 * (first + i)} {2 * (first + i - 1)} {2 * seen[i % 5]}" for i in range(length)]
    others = [f"{2 * (first + length + i)} 2 4" for i in range(count)]
    circuit = lines(
        f"aag {universals + length + count} {universals} 0 {count} {length + count}",
        *range(2, 2 * universals + 1, 2),
        *[2 * (first + length - 1)] * count,
        *gates,
        *others,
    )
    return formula, circuit


def last_undeclared(count):
    """As `own_universals`, but the last one reads the first universal as well."""
    formula, circuit = own_universals(count)
    last = 2 * (2 * count)
    return formula, circuit.replace(f"\n{last} {2 * count} {2 * count}\n", f"\n{last} {2 * count} 2\n")


def row_text(k, universals):
    return "u " + " ".join(str(x + 1 if k >> x & 1 else -x - 1) for x in range(universals)) + " 0"


def long_instances(count):
    """Lines that hint the instances of one long clause under many rows; none is derived."""
    universals, rows = 12, count // 10
    variables = universals + count
    formula = lines(
        f"p cnf {variables} 1",
        f"a {numbers(1, universals)} 0",
        f"e {numbers(universals + 1, variables)} 0",
        f"{numbers(universals + 1, variables)} 0",
    )
    steps = (f"{rows + 1 + k} 0 {k + 1} 0" for k in range(rows))
    return formula, lines(f"p dqr {rows} {rows}", *(row_text(k, universals) for k in range(rows)), *steps)


def long_last_clause(count):
    """A circuit's proof whose lines all hint the clause of as many literals as the formula has clauses; none is derived."""
    formula = lines(f"p cnf 2 {count}", "a 1 0", "e 2 0", *["2 1 0"] * count)
    last = 3 + 2 * count + 1
    steps = (f"{last + 1 + k} 0 {last} 0" for k in range(count))
    return formula, lines("aag 2 1 0 1 1", 2, 4, "4 2 2", "c", f"dqp {count}", *steps)


def one_dependency_set(count):
    """A refutation with as many rows as existentials, which all have one dependency set; each has a line of its own."""
    universals = 16
    variables = universals + count
    formula = lines(
        f"p cnf {variables} {count + 1}",
        f"a {numbers(1, universals)} 0",
        *(f"d {y} 1 2 3 0" for y in range(universals + 1, variables + 1)),
        *(f"{y} 0" for y in range(universals + 1, variables + 1)),
        f"-{universals + 1} 0",
    )
    clauses, first = count + 1, count * (count + 1) + 1
    steps = [f"{first + k} {k * variables + universals + 1 + k} 0 {k * clauses + k + 1} 0" for k in range(count)]
    steps.append(f"{first + count} 0 1 {count + 1} 0")
    return formula, lines(f"p dqr {count} {count + 1}", *(row_text(k, universals) for k in range(count)), *steps)


def deleting(lines_and_deletions):
    """A refutation in version 2 of a formula of two unit clauses, with these items before the empty clause: a line for
    each `None`, which repeats the first clause, and a `d` line for each list of places of lines."""
    formula = lines("p cnf 2 2", "a 1 0", "d 2 0", "2 0", "-2 0")
    items, id = [], 3
    for places in lines_and_deletions:
        if places is None:
            items.append(f"{id} 2 0 1 0")
            id += 1
        else:
            items.append(f"d {' '.join(str(3 + place) for place in places)} 0")
    items.append(f"{id} 0 1 2 0")
    return formula, lines(f"p dqr2 1 {len(items)}", "u 1 0", *items)


def deleted_at_once(count):
    """So many lines, deleted by one line."""
    return deleting([*[None] * count, range(count)])


def deleted_one_by_one(count):
    """So many lines, and then as many that each delete one, the last line first."""
    return deleting([*[None] * count, *([place] for place in range(count - 1, -1, -1))])


def deleted_by_turns(count):
    """So many lines, each deleted behind the next one."""
    return deleting([item for place in range(count) for item in (None, *([[place - 1]] if place else []))])


def deleted_twice(count):
    """So many lines, and one that deletes them, the first one twice: not live at the second place."""
    return deleting([*[None] * count, [*range(count), 0]])


def deleted_visits(count):
    """Lines that each hint an instance of their own, as many rows as existentials with one dependency set each, and a
    deletion behind each line."""
    universals, side = 16, int(count**0.5)
    variables = universals + side
    formula = lines(
        f"p cnf {variables} {side + 1}",
        f"a {numbers(1, universals)} 0",
        *(f"d {universals + 1 + i} {' '.join(map(str, set_of(i)))} 0" for i in range(side)),
        *(f"{universals + 1 + i} 0" for i in range(side)),
        f"-{universals + 1} 0",
    )
    clauses, id, items = side + 1, side * (side + 1) + 1, []
    for k in range(side):
        for i in range(side):
            items.append(f"{id} {k * variables + universals + 1 + i} 0 {k * clauses + i + 1} 0")
            items.append(f"d {id} 0")
            id += 1
    items.append(f"{id} 0 1 {side + 1} 0")
    return formula, lines(f"p dqr2 {side} {len(items)}", *(row_text(k, universals) for k in range(side)), *items)


def set_of(i):
    """A dependency set of up to 16 universals for each number."""
    return [x + 1 for x in range(16) if (i + 1) >> x & 1]


def deleted_long_instances(count):
    """As `long_instances`, with a deletion of the line before each."""
    formula, certificate = long_instances(count)
    rows = count // 10
    kept, steps = certificate.splitlines()[1 : 1 + rows], certificate.splitlines()[1 + rows :]
    items = [steps[0]]
    for k, step in enumerate(steps[1:]):
        items += [f"d {rows + 1 + k} 0", step]
    return formula, lines(f"p dqr2 {rows} {len(items)}", *kept, *items)


def deleted_long_last_clause(count):
    """As `long_last_clause`, with a deletion of the line before each."""
    formula, circuit = long_last_clause(count)
    head, steps = circuit.splitlines()[:5], circuit.splitlines()[6:]
    first = int(steps[0].split()[0])
    items = [steps[0]]
    for k, step in enumerate(steps[1:]):
        items += [f"d {first + k} 0", step]
    return formula, lines(*head, f"dqp2 {len(items)}", *items)


def underived_first(count):
    """A first line that isn't derived, and so many lines and deletions behind it."""
    formula, certificate = deleted_by_turns(count)
    return formula, certificate.replace("3 2 0 1 0", "3 -2 0 1 0", 1)


def unended_last_line(count):
    """So many lines, the empty clause, and a last line that deletes all the others, without an end."""
    formula, certificate = deleted_at_once(count)
    *others, gone, last = certificate.splitlines()
    return formula, lines(*others, last) + gone


def one_definition(count):
    """Definitions of one existential: a chain of so many gates, and as many lines, each a clause of a gate."""
    formula = lines("p cnf 2 1", "a 1 0", "d 2 1 0", "0")
    sides = [2, *range(6, 2 * count + 4, 2)]
    gates = [f"{2 * (3 + i)} {side} 2" for i, side in enumerate(sides)]
    first = 1 + 3 * count + 3
    steps = [f"{first + i} -{3 + i} 1 0 {3 * i + 3} 0" for i in range(count)]
    head = f"t 2 {2 * (2 + count)} {count} {count + 1}"
    return formula, lines("p dqd 1", head, *gates, *steps, f"{first + count} 0 1 0")


def definition_blocks(count):
    """So many existentials that see as many universals, each with a definition that reads the one before."""
    formula = lines(f"p cnf {2 * count} 1", f"a {numbers(1, count)} 0", f"e {numbers(count + 1, 2 * count)} 0", "0")
    outputs = [0, *range(2 * count + 2, 4 * count, 2)]
    blocks = [f"t {count + 1 + i} {output} 0 1\n4 0 1 0" for i, output in enumerate(outputs)]
    return formula, lines(f"p dqd {count}", *blocks)


def pair_blocks(count):
    """So many existentials without a clause, each with two assignments, and 100 clauses for each."""
    formula = lines(f"p cnf {count} {100 * count}", f"e {numbers(1, count)} 0", *["1 -1 0"] * (100 * count))
    second = f"u 0\nv {numbers(1, count)} 0"
    firsts = (" ".join(str(-z if z == y else z) for z in range(1, count + 1)) for y in range(1, count + 1))
    return formula, lines(f"p dqd {count}", *(f"f {y}\nu 0\nv {first} 0\n{second}" for y, first in enumerate(firsts, 1)))


def one_long_clause(count):
    """One clause of so many literals, each variable with both signs, in falling order."""
    literals = " ".join(f"{v} -{v}" for v in range(count // 2, 0, -1))
    return lines("p cnf 1000000 1", f"{literals} 0"), None


def many_xor_lines(count):
    """So many XOR lines of five literals, of 16 clauses each."""
    return lines(f"p cnf 5 {count}", *["x 1 2 3 4 5 0"] * count), None


def one_long_token(count):
    """A literal behind so many zeros."""
    return lines("p cnf 1 1", f"{'0' * count}1 0"), None


def one_long_comment(count):
    """A comment of so many bytes, without an end."""
    return f"p cnf 1 1\n1 0\nc{'x' * count}", None


def at(make, size):
    """An input of this size."""

    def made():
        return make(size)

    made.__name__ = f"{make.__name__}_{size}"
    return made


INPUTS = [
    *(at(rows, universals) for universals in (14, 20)),
    at(gates_by_rows, 100_000),
    large_formula,
    long_clause,
    many_items,
    many_comments,
    long_prefix,
    forward_gates,
    reverse_gates,
    binary_gates,
    binary_header,
    wide_gates,
    large_header,
    *(at(refuted_rows, rows) for rows in (4_096, 131_072)),
    many_variables,
    many_existentials,
    *(at(long_proof, wanted) for wanted in (20_000, 1_000_000)),
    gates_and_proof,
    wide_last_clause,
    *(at(colliding_gates, size) for size in (50_000, 100_000)),
    *(at(many_constants, size) for size in (20_000, 40_000)),
    *(at(make, size) for make in (many_constants, own_universals, own_prefixes) for size in (80_000, 160_000)),
    *(at(one_seen_set, size) for size in (20_000, 40_000)),
    *(at(last_undeclared, size) for size in (80_000, 160_000)),
    *(at(planted_functions, size) for size in (10_000, 20_000)),
    *(at(shared_chain, size) for size in (10_000, 20_000)),
    *(at(long_instances, size) for size in (10_000, 20_000)),
    *(at(long_last_clause, size) for size in (20_000, 40_000)),
    *(at(one_dependency_set, size) for size in (10_000, 20_000)),
    *(
        at(make, size)
        for make in (deleted_at_once, deleted_one_by_one, deleted_by_turns, deleted_twice, deleted_visits)
        for size in (200_000, 400_000)
    ),
    *(at(make, size) for make in (underived_first, unended_last_line) for size in (200_000, 400_000)),
    *(at(deleted_long_instances, size) for size in (10_000, 20_000)),
    *(at(deleted_long_last_clause, size) for size in (20_000, 40_000)),
    *(at(one_definition, size) for size in (50_000, 100_000)),
    *(at(definition_blocks, size) for size in (50_000, 100_000)),
    *(at(pair_blocks, size) for size in (250, 500)),
    *(at(one_long_clause, size) for size in (500_000, 1_000_000)),
    *(at(many_xor_lines, size) for size in (100_000, 200_000)),
    *(at(one_long_token, size) for size in (10_000_000, 20_000_000)),
    *(at(one_long_comment, size) for size in (10_000_000, 20_000_000)),
]
