#!/usr/bin/env python3
"""Certificates of unlike kinds, as different programs write them, judged by the built checker: what each costs in a second or in
instructions, and beside another checker of the same command line. Each is valid by its making; an answer that isn't VALID is told, and the
script then ends with 1.

Usage: bench/certificates.py [--beside PROGRAM] [--instructions] [--times N] [--list] [NAME..]

All kinds are measured, or those whose names contain a NAME; with --times at N times their size. With --instructions both run under
valgrind's callgrind. The variable DQCHECK names the checker.
"""

import argparse
import math
import os
import random
import sys
import tempfile

from bench import CHECKER, instructions, run, write
from checker_inputs import MEGABYTE, Proof, blind_bit, delta, lines, numbers

UNIVERSALS = 24
GATES = 1_000


def chained():
    """A proof over a chain of gates that take each universal in turn; the formula says that the last gate is the AND of all. Answers the
    proof so far and the ids of the lines which say that a clause holds."""
    y = UNIVERSALS + 1
    clauses = [[-y, i] for i in range(1, y)] + [[y, *(-i for i in range(1, y))]]
    gates = [(y + k, y + k - 1 if k else 1, (k + 1) % UNIVERSALS + 1) for k in range(GATES)]
    proof = Proof(UNIVERSALS, clauses, gates)
    last, ends, above = gates[-1][0], [], []
    for k in range(GATES - 1, GATES - 1 - UNIVERSALS, -1):
        _, before, x = gates[k]
        j = x - 1
        ends.append(proof.derive([-proof.false(j)], [proof.literal(j, 0), *above, proof.gate(k, 1), proof.literal(j, 1)]))
        above = [proof.derive([-last, before], [*above, proof.gate(k, 0)])]
    hints = [proof.literal(UNIVERSALS, place) for place in range(1, UNIVERSALS + 1)]
    hints += [proof.gate(k, 2) for k in range(GATES)]
    ends.append(proof.derive([-proof.false(UNIVERSALS)], [*hints, proof.literal(UNIVERSALS, 0)]))
    return proof, ends


def closed(proof, ends):
    """The texts, behind a last line that takes those of all clauses."""
    proof.derive([], [*ends, proof.last])
    return proof.texts([proof.gates[-1][0]])


def long_lines(n):
    """Lines of some twenty literals, in any order, with two hints."""
    proof, ends = chained()
    choose = random.Random(1)
    for _ in range(n):
        more = [choose.choice((-x, x)) for x in range(1, UNIVERSALS - 3)]
        k = choose.randrange(1, GATES - 1)
        literals = [*more, -proof.gates[k + 1][0], proof.gates[k - 1][0]]
        choose.shuffle(literals)
        proof.derive(literals, [proof.gate(k + 1, 0), proof.gate(k, 0)])
    return closed(proof, ends)


def many_hints(n):
    """Lines of two literals with forty hints of gates."""
    proof, ends = chained()
    choose = random.Random(2)
    for _ in range(n):
        k = choose.randrange(40, GATES)
        proof.derive([-proof.gates[k][0], proof.gates[k - 40][0]], [proof.gate(k - i, 0) for i in range(40)])
    return closed(proof, ends)


def implied(n, choose):
    """Lines that say that an earlier gate is 1 where a later one is, each from a line before and a gate: `choose` says which line."""
    proof, ends = chained()
    known = [(GATES - 1, GATES - 2, proof.derive([-proof.gates[-1][0], proof.gates[-2][0]], [proof.gate(GATES - 1, 0)]))]
    for _ in range(n):
        start, end, id = known[choose(len(known))]
        if end == 0:
            start = end = GATES - 1 - len(known) % (GATES // 2)
            hints = [proof.gate(end, 0)]
        else:
            hints = [id, proof.gate(end, 0)]
        if end > 0:
            known.append((start, end - 1, proof.derive([-proof.gates[start][0], proof.gates[end - 1][0]], hints)))
    return closed(proof, ends)


def near_ids(n):
    """Each line hints the one before."""
    return implied(n, lambda count: count - 1)


def far_ids(n):
    """Each line hints any line before."""
    choose = random.Random(3)
    return implied(n, choose.randrange)


def matrix_in_turn(n):
    """Clauses of three literals over a thousand gates, and a line for each, which hints outputs, a gate and inputs in turn."""
    gates, clauses = [], []
    for k in range(GATES):
        a = k % UNIVERSALS + 1
        gates.append((UNIVERSALS + 1 + k, a, (a + k // UNIVERSALS % (UNIVERSALS - 1)) % UNIVERSALS + 1))
    for j in range(n):
        y, a, b = gates[j % GATES]
        other = UNIVERSALS + 1 + (7 * j + 3) % GATES
        clauses.append(([-y, a, other], [-y, b, -other], [y, -a, -b])[j // GATES % 3])
    proof = Proof(UNIVERSALS, clauses, gates)
    ends = []
    for j in range(n):
        part = j // GATES % 3
        hints = [proof.literal(j, 1), proof.literal(j, 2)] if part == 2 else [proof.literal(j, 0)]
        hints += [proof.gate(j % GATES, part), proof.literal(j, 0 if part == 2 else 1)]
        ends.append(proof.derive([-proof.false(j)], hints))
    proof.derive([], [*ends, proof.last])
    return proof.texts([gate for gate, _, _ in gates])


def instances_and_lines(n):
    """A refutation of n rows whose lines hint instances, and further ones that hint earlier lines."""
    return blind_bit(11, 16, n, 2 * n - 1, 30)


def wide_rows(n):
    """A refutation of 128 rows over so many universals, with two lines a row."""
    return blind_bit(6, n, 128, 255, n + 8)


def long_refutation_lines(n):
    """A refutation of two rows with lines of a hundred literals, of which none but the first matters; in version 2 each is deleted."""
    existentials = list(range(2, 202))
    formula = lines("p cnf 201 2", "a 1 0", *(f"d {y} 0" for y in existentials), "2 1 0", "-2 -1 0")
    choose, id, parts = random.Random(4), 5, []
    for _ in range(n):
        literals = [2, *(choose.choice((-y, y)) for y in choose.sample(existentials[1:], 99))]
        parts += [f"{id} {' '.join(map(str, literals))} 0 1 0", f"d {id} 0"]
        id += 1
    parts += [f"{id} 0 1 4 0"]
    return formula, lines(f"p dqr2 2 {len(parts)}", "u -1 0", "u 1 0", *parts)


def gates_alone(n):
    """A circuit of n gates over eight universals without a proof: its rows are tried."""
    first = 9
    formula = lines("p cnf 9 1", f"a {numbers(1, 8)} 0", "e 9 0", "9 -9 0")
    gates = [(first + k, first + k - 1 if k else 1, k % 8 + 1) for k in range(n)]
    texts = (f"{2 * g} {2 * a + k % 2} {2 * b}" for k, (g, a, b) in enumerate(gates))
    return formula, lines(f"aag {8 + n} 8 0 1 {n}", *range(2, 17, 2), 2 * (8 + n), *texts)


def symbols(n):
    """So many outputs with symbols, in falling order, each an input of eight."""
    ys = range(9, 9 + n)
    parts = [f"{sign}{y} {other}{y % 8 + 1} 0" for y in ys for sign, other in (("", "-"), ("-", ""))]
    formula = lines(f"p cnf {8 + n} {2 * n}", f"a {numbers(1, 8)} 0", *(f"d {y} {y % 8 + 1} 0" for y in ys), *parts)
    back = list(reversed(ys))
    outputs = (2 * (y % 8 + 1) for y in back)
    names = [*(f"i{i} {i + 1}" for i in range(8)), *(f"o{i} {y}" for i, y in enumerate(back))]
    return formula, lines(f"aag 8 8 0 {n} 0", *range(2, 17, 2), *outputs, *names)


def definitions(n):
    """Definitions of so many existentials, each the AND of the two before, by one gate and no line."""
    ys = range(3, 3 + n)
    clauses = [part for y in ys for part in (f"-{y} {y - 1} 0", f"-{y} {y - 2} 0", f"{y} -{y - 1} -{y - 2} 0")]
    formula = lines(f"p cnf {2 + n} {3 * n}", "a 1 2 0", f"e {numbers(3, 2 + n)} 0", *clauses)
    gate, first = 2 + n + 1, 3 * n + 6
    blocks = []
    for y in ys:
        own, parts = 3 * (y - 3) + 1, 3 * n + 1  # the ids of the clauses on y, and of those of the gate, of (y, gate) and (not y, not gate)
        blocks.append(f"t {y} {2 * gate} 1 2\n{2 * gate} {2 * (y - 1)} {2 * (y - 2)}")
        blocks.append(f"{first} -{y} 0 {parts + 4} {own} {own + 1} {parts + 2} 0")
        blocks.append(f"{first + 1} 0 {first} {parts + 3} {parts} {parts + 1} {own + 2} 0")
    return formula, lines(f"p dqd {n}", *blocks)


def binary(texts):
    """A circuit's certificate in AIGER's binary form; its inputs are the first variables, and its gates stand in order."""
    formula, certificate = texts
    header, *rest = certificate.splitlines()
    _, _, inputs, _, outputs, gates = header.split()
    inputs, outputs, gates = int(inputs), int(outputs), int(gates)
    code = []
    for gate in rest[inputs + outputs : inputs + outputs + gates]:
        literal, *sides = map(int, gate.split())
        code += [delta(literal - max(sides)), delta(max(sides) - min(sides))]
    head = lines(header.replace("aag", "aig"), *rest[inputs : inputs + outputs])
    return formula, head + "".join(code) + lines(*rest[inputs + outputs + gates :])


def binary_gates_alone(n):
    """The circuit of `gates_alone` in the binary form."""
    return binary(gates_alone(n))


# Each kind and its size.
KINDS = [
    (long_lines, 10_000),
    (many_hints, 2_000),
    (near_ids, 40_000),
    (far_ids, 40_000),
    (matrix_in_turn, 10_000),
    (instances_and_lines, 2_048),
    (wide_rows, 1_000),
    (long_refutation_lines, 2_000),
    (gates_alone, 30_000),
    (binary_gates_alone, 100_000),
    (symbols, 20_000),
    (definitions, 5_000),
]


def cost_of(folder, command, counts):
    """Seconds or instructions, answer and status, and peak memory in KB."""
    answer, status, seconds, peak = run(command)
    return (instructions(folder, command) if counts else seconds), answer, status, peak


def measure(folder, make, size, words):
    """Tells what a kind costs; answers the ratio to the other checker, if there is one, and whether both found it valid."""
    paths = [os.path.join(folder, kind) for kind in ("formula", "certificate")]
    write(lambda: make(size), paths)
    text = sum(map(os.path.getsize, paths))
    cost, answer, status, peak = cost_of(folder, [CHECKER, *paths], words.instructions)
    told = f"{cost / 1_000_000:10.1f} million" if words.instructions else f"{cost:8.3f} s"
    line = f"{make.__name__:24} {text / MEGABYTE:6.2f} MB {told} {peak / 1000:6.0f} MB"
    right, ratio = status == 0 and answer.startswith("VALID"), None
    if words.beside:
        other, said, other_status, other_peak = cost_of(folder, [words.beside, *paths], words.instructions)
        if other_status == 0:
            ratio = cost / other
            line += f"   {ratio:.2f} times, {other_peak / 1000:.0f} MB"
        else:
            line += f"   the other checker ends with {other_status}: {said[:40]}"
    print(line if right else f"{line}   {answer[:60]}", flush=True)
    return ratio, right


def main():
    parser = argparse.ArgumentParser(description="measures the built checker on valid certificates of unlike kinds")
    parser.add_argument("--beside", metavar="PROGRAM", help="another checker, on the same inputs")
    parser.add_argument("--instructions", action="store_true", help="count instructions in place of seconds")
    parser.add_argument("--times", type=int, default=1, metavar="N", help="how many times each kind's size")
    parser.add_argument("--list", action="store_true", help="print the kinds")
    parser.add_argument("names", nargs="*", metavar="NAME", help="what the kinds' names contain")
    words = parser.parse_args()
    kinds = [(make, size) for make, size in KINDS if not words.names or any(name in make.__name__ for name in words.names)]
    if words.list:
        for make, _ in kinds:
            print(f"{make.__name__}: {make.__doc__}")
        return
    if not os.path.exists(CHECKER):
        sys.exit(f"{CHECKER} isn't built: run `rt run` in crates/dqcheck, or `rt ci` at the top")
    with tempfile.TemporaryDirectory() as folder:
        found = [measure(folder, make, size * words.times, words) for make, size in kinds]
    ratios = [ratio for ratio, _ in found if ratio]
    if ratios:
        print(f"mean {math.exp(sum(map(math.log, ratios)) / len(ratios)):.2f}, at most {max(ratios):.2f}")
    if not all(right for _, right in found):
        sys.exit(1)


if __name__ == "__main__":
    main()
