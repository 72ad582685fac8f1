#!/usr/bin/env python3
"""Makes formulas, solves each by the built solver and by minisat, compares the answers, checks each model and each refutation, and
prints how many conflicts either had. With --callgrind it prints, too, how many instructions a conflict takes, start and reading counted,
among the first 20,000: of the solver, and of cadical, which keeps all that it learns then, as the solver does. Since cadical writes no
refutation, the solver stops one clause before its answer there.

Usage: bench/cdcl.py [--callgrind] [NAME..]     all formulas, or those whose names begin with a NAME

The program is crates/engine_cases/out/engine_cases, which `rt run` in crates/engine_cases builds, or what ENGINE_CASES names; minisat, cadical
and valgrind are Debian's.
"""

import itertools
import math
import os
import random
import re
import subprocess
import sys
import tempfile
import time

TOP = os.path.dirname(os.path.dirname(os.path.abspath(__file__)))
SOLVER = os.environ.get("ENGINE_CASES", os.path.join(TOP, "crates", "engine_cases", "out", "engine_cases"))
SECONDS = 100
FIRST = 20_000


def random_formula(variables, seed):
    """Random clauses of three literals, 4.26 for each variable."""
    rng = random.Random(f"{variables} {seed}")
    clauses = []
    for _ in range(round(4.26 * variables)):
        chosen = rng.sample(range(1, variables + 1), 3)
        clauses.append([v if rng.random() < 0.5 else -v for v in chosen])
    return variables, clauses


def pigeons(holes):
    """One pigeon more than holes."""
    def at(pigeon, hole):
        return pigeon * holes + hole + 1

    clauses = [[at(p, h) for h in range(holes)] for p in range(holes + 1)]
    for h in range(holes):
        for p, q in itertools.combinations(range(holes + 1), 2):
            clauses.append([-at(p, h), -at(q, h)])
    return holes * (holes + 1), clauses


def parity_chain(length, seed):
    """Two chains that sum the same bits in different orders, and differ."""
    rng = random.Random(f"parity {length} {seed}")
    variables, clauses = length, []

    def chain(order):
        nonlocal variables
        total = order[0]
        for bit in order[1:]:
            variables += 1
            a, b, c = total, bit, variables
            clauses.extend([[-a, -b, -c], [a, b, -c], [a, -b, c], [-a, b, c]])
            total = variables
        return total

    order = list(range(1, length + 1))
    first = chain(order)
    rng.shuffle(order)
    second = chain(order)
    clauses.extend([[first, second], [-first, -second]])
    return variables, clauses


class Gates:
    """Clauses of gates; a variable for each."""

    def __init__(self, inputs):
        self.variables, self.clauses = inputs, []

    def gate(self, clauses):
        self.variables += 1
        self.clauses.extend(clauses(self.variables))
        return self.variables

    def conjunction(self, a, b):
        return self.gate(lambda c: [[-c, a], [-c, b], [c, -a, -b]])

    def parity(self, a, b):
        return self.gate(lambda c: [[-c, a, b], [-c, -a, -b], [c, -a, b], [c, a, -b]])

    def half_adder(self, a, b):
        return self.parity(a, b), self.conjunction(a, b)

    def full_adder(self, a, b, c):
        total, carry = self.half_adder(a, b)
        sum_bit, other = self.half_adder(total, c)
        return sum_bit, self.gate(lambda d: [[d, -carry], [d, -other], [-d, carry, other]])

    def product(self, first, second, place):
        """The bits of a product; each column is summed from this end on."""
        columns = [[] for _ in range(2 * len(first))]
        for i, a in enumerate(first):
            for j, b in enumerate(second):
                columns[i + j].append(self.conjunction(a, b))
        for k, column in enumerate(columns):
            while len(column) > 1:
                bits = [column.pop(place) for _ in range(min(3, len(column)))]
                sum_bit, carry = self.full_adder(*bits) if len(bits) == 3 else self.half_adder(*bits)
                column.append(sum_bit)
                if k + 1 < len(columns):
                    columns[k + 1].append(carry)
        return [column[0] for column in columns if column]


def multipliers(bits):
    """Two multipliers that sum their columns from either end, and differ in a bit."""
    gates = Gates(2 * bits)
    first, second = list(range(1, bits + 1)), list(range(bits + 1, 2 * bits + 1))
    left, right = gates.product(first, second, 0), gates.product(second, first, -1)
    gates.clauses.append([gates.parity(a, b) for a, b in zip(left, right)])
    return gates.variables, gates.clauses


def formulas():
    for variables in (100, 120, 140, 150, 175, 200, 225):
        for seed in range(10 if variables < 150 else 4):
            yield f"random-{variables}-{seed}", random_formula(variables, seed)
    for holes in (6, 7, 8):
        yield f"pigeons-{holes}", pigeons(holes)
    for length in (10, 14, 18):
        for seed in range(10 if length == 10 else 2):
            yield f"parity-{length}-{seed}", parity_chain(length, seed)
    for bits in (3, 4, 5, 6):
        yield f"multipliers-{bits}", multipliers(bits)


def text_of(variables, clauses):
    lines = [f"p cnf {variables} {len(clauses)}"]
    lines.extend(" ".join(map(str, clause + [0])) for clause in clauses)
    return "\n".join(lines) + "\n"


def is_model(clauses, literals):
    true = set(literals)
    return all(any(l in true for l in clause) for clause in clauses)


def is_refutation(clauses, lines):
    """Each hint but a line's last is unit in its turn, and the last one is falsified; the last line is empty."""
    live = {i + 1: clause for i, clause in enumerate(clauses)}
    last = None
    for number, literals, hints in lines:
        true = {-l for l in literals}
        for place, hint in enumerate(hints):
            left = {l for l in live[hint] if -l not in true}
            if not left:
                if place + 1 < len(hints):
                    return False
                break
            if len(left) > 1 or left & true:
                return False
            true |= left
        else:
            return False
        live[number] = literals
        last = literals
    return last == []


def solve(path, clauses):
    """The answer, how many clauses were learned, and the seconds."""
    began = time.monotonic()
    try:
        run = subprocess.run([SOLVER, path], capture_output=True, text=True, timeout=SECONDS)
    except subprocess.TimeoutExpired:
        return "timeout", None, SECONDS
    seconds = time.monotonic() - began
    lines = run.stdout.split("\n")
    learned = int(re.search(r"^c (\d+) learned$", run.stdout, re.M).group(1))
    if lines[0] == "s SATISFIABLE":
        literals = [int(word) for word in lines[1].split()[1:-1]]
        return ("true" if is_model(clauses, literals) else "WRONG MODEL"), learned, seconds
    steps = []
    for line in lines[1:]:
        if line and line[0].isdigit():
            numbers = [int(word) for word in line.split()]
            zero = numbers.index(0)
            steps.append((numbers[0], numbers[1:zero], numbers[zero + 1 : -1]))
    return ("false" if is_refutation(clauses, steps) else "WRONG REFUTATION"), learned, seconds


def minisat(path):
    run = subprocess.run(["minisat", path], capture_output=True, text=True)
    conflicts = int(re.search(r"conflicts\s*:\s*(\d+)", run.stdout).group(1))
    return {10: "true", 20: "false"}[run.returncode], conflicts


def instructions(command, conflicts):
    """How many instructions a conflict takes, by a pattern of how many conflicts there were."""
    with tempfile.TemporaryDirectory() as folder:
        run = subprocess.run(
            ["valgrind", "--tool=callgrind", f"--callgrind-out-file={folder}/out", *command], capture_output=True, text=True
        )
    collected, count = re.search(r"Collected : (\d+)", run.stderr), re.search(conflicts, run.stdout, re.M)
    return int(collected.group(1)) / max(1, int(count.group(1))) if collected and count else float("nan")


def compared(path, learned):
    most = FIRST if learned is None else max(1, min(FIRST, learned - 1))
    own = instructions([SOLVER, path, str(most)], r"^c (\d+) learned$")
    other = instructions(["cadical", "--reduce=0", "-c", str(FIRST), path], r"^c conflicts:\s+(\d+)")
    return f" {own:12.0f} {other:12.0f} instructions a conflict, ratio {own / other:.2f}"


def mean(numbers):
    return math.exp(sum(math.log(n) for n in numbers) / len(numbers)) if numbers else float("nan")


def main():
    if sys.argv[1:] == ["--help"]:
        print(__doc__.strip())
        return 0
    names = [word for word in sys.argv[1:] if not word.startswith("--")]
    counted = "--callgrind" in sys.argv
    ratios, kinds, wrong = [], {}, 0
    with tempfile.TemporaryDirectory() as folder:
        for name, (variables, clauses) in formulas():
            if names and not any(name.startswith(n) for n in names):
                continue
            path = os.path.join(folder, "formula.cnf")
            with open(path, "w") as file:
                file.write(text_of(variables, clauses))
            answer, learned, seconds = solve(path, clauses)
            other, conflicts = minisat(path)
            agrees = answer == other or answer == "timeout"
            wrong += not agrees
            print(f"{name:16} {answer:8} {learned!s:>8} {conflicts:>8} {seconds:8.2f} s" + ("" if agrees else f"  minisat says {other}"), end="")
            if counted:
                print(compared(path, learned), end="")
            print(flush=True)
            if learned is not None:
                ratio = (learned + 1) / (conflicts + 1)
                ratios.append(ratio)
                kinds.setdefault(name.rsplit("-", 1)[0], []).append((ratio, learned + 1, conflicts + 1, seconds))
    for kind, rows in kinds.items():
        print(f"{kind:12} {len(rows):3} formulas: {mean([r[1] for r in rows]):9.0f} learned, {mean([r[2] for r in rows]):9.0f} conflicts of minisat, ratio {mean([r[0] for r in rows]):.2f}, {sum(r[3] for r in rows):.1f} s")
    print(f"geometric mean of the ratios: {mean(ratios):.2f}; wrong answers: {wrong}")
    return 1 if wrong else 0


if __name__ == "__main__":
    sys.exit(main())
