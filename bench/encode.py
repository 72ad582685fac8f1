#!/usr/bin/env python3
"""A second encoder of partial equivalence, written from the formats alone, against which the first is compared.

Usage: encode.py SPEC IMPL      writes the formula, or the first refusal of IMPL's boxes
       encode.py --random SEED  writes SPEC and IMPL of a small random pair to spec.aag and impl.aag

Both files are taken to be circuits that the reader of `aag` files accepts. Untrusted, and not made for large ones.
"""
import random
import re
import sys

TOO_BIG = 10**18
MAX_BOXES, MAX_VARIABLES, MAX_CLAUSES = 10**6, 10**6, 10**7


class Refusal(Exception):
    pass


def tokens(line):
    return [it for it in re.split(rb"[ \t\r]+", line) if it]


def natural(token):
    return int(token) if re.fullmatch(rb"[0-9]+", token) else None


class Circuit:
    """A circuit of an `aag` text: inputs, outputs and gates, and the comment's lines with their numbers."""

    def __init__(self, path):
        with open(path, "rb") as it:
            text = it.read()
        lines = text.split(b"\n")
        if lines[-1] == b"":
            lines.pop()
        _, i, _, o, a = [int(it) for it in tokens(lines[0])[1:6]]
        self.inputs = [int(it) // 2 for it in lines[1 : 1 + i]]
        self.outputs = [int(it) for it in lines[1 + i : 1 + i + o]]
        self.gates = [tuple(int(n) for n in tokens(it)) for it in lines[1 + i + o : 1 + i + o + a]]
        self.comment = None
        for at in range(1 + i + o + a, len(lines)):
            if tokens(lines[at]) == [b"c"]:
                self.comment = (at + 2, lines[at + 1 :])
                break


def box_of(line, variables, further):
    """The box of a line: what it reads, and the inputs that it drives."""
    numbers = [natural(it) for it in tokens(line)]
    if len(numbers) < 2 or None in numbers or max(numbers) >= TOO_BIG:
        raise Refusal("BadBox")
    reads, drives = numbers[:2]
    if len(numbers) != 2 + reads + drives:
        raise Refusal("BadBox")
    ins, outs = numbers[2 : 2 + reads], numbers[2 + reads :]
    if any(it // 2 not in variables for it in ins):
        raise Refusal("BadBox")
    if any(it % 2 or it // 2 not in further for it in outs):
        raise Refusal("BadBox")
    return ins, [it // 2 for it in outs]


def boxes_of(spec, imp, header):
    """The boxes, or the first refusal: a line's number and a name."""
    if len(imp.inputs) < len(spec.inputs):
        raise Refusal(header, "InputShort")
    if len(imp.outputs) != len(spec.outputs):
        raise Refusal(header, "OutputCount")
    if imp.comment is None:
        raise Refusal(header, "NoPec")
    number, lines = imp.comment
    words = tokens(lines[0]) if lines else []
    if len(words) != 2 or words[0] != b"pec" or natural(words[1]) is None:
        raise Refusal(number, "NoPec")
    if natural(words[1]) > MAX_BOXES:
        raise Refusal(number, "Limit")
    further = imp.inputs[len(spec.inputs) :]
    variables = set(imp.inputs) | {it[0] // 2 for it in imp.gates}
    boxes, driven = [], set()
    for i in range(natural(words[1])):
        line = number + 1 + i
        if 1 + i >= len(lines):
            raise Refusal(line, "Truncated")
        try:
            ins, outs = box_of(lines[1 + i], variables, set(further))
        except Refusal as it:
            raise Refusal(line, it.args[0]) from it
        for it in outs:
            if it in driven:
                raise Refusal(line, "BoxTwice")
            driven.add(it)
        boxes.append((ins, outs))
    for place, it in enumerate(imp.inputs):
        if place >= len(spec.inputs) and it not in driven:
            raise Refusal(header + 1 + place, "BoxMissing")
    check_order(imp, boxes, number + 1)
    return boxes


def check_order(imp, boxes, first):
    """Refuses the first box that reads what reaches an input driven by it or by a later one."""
    sides = {lhs // 2: (a // 2, b // 2) for lhs, a, b in imp.gates}

    def reached(variable):
        found, left = {variable}, [variable]
        while left:
            for it in sides.get(left.pop(), ()):
                if it not in found:
                    found.add(it)
                    left.append(it)
        return found

    for i, (ins, _) in enumerate(boxes):
        later = {it for _, outs in boxes[i:] for it in outs}
        if any(reached(it // 2) & later for it in ins):
            raise Refusal(first + i, "BoxOrder")


def formula_of(spec, imp, boxes, header):
    """The number of variables, the lines of the prefix, and the clauses."""
    p, signals = len(spec.inputs), [it for ins, _ in boxes for it in ins]
    further = imp.inputs[p:]
    last = 0

    def fresh(count):
        nonlocal last
        last += count
        return list(range(last - count + 1, last + 1))

    inputs, copies, driven = fresh(p), fresh(len(signals)), fresh(len(further))
    spec_gates, imp_gates = fresh(len(spec.gates)), fresh(len(imp.gates))
    same, agree = fresh(len(signals)), fresh(len(spec.outputs))
    if last > MAX_VARIABLES:
        raise Refusal(header, "Limit")
    number_s = dict(zip(spec.inputs, inputs)) | {g[0] // 2: n for g, n in zip(spec.gates, spec_gates)}
    number_i = dict(zip(imp.inputs, inputs + driven)) | {g[0] // 2: n for g, n in zip(imp.gates, imp_gates)}

    def literal(number, it):
        """A literal as a formula has it; the constants are the words False and True."""
        if it < 2:
            return it == 1
        return -number[it // 2] if it % 2 else number[it // 2]

    def opposite(it):
        return not it if isinstance(it, bool) else -it

    clauses = []

    def clause(*literals):
        kept = []
        for it in literals:
            if it is True:
                return
            if it is not False and it not in kept:
                kept.append(it)
        clauses.append(kept)

    def equal(flag, a, b):
        clause(-flag, opposite(a), b)
        clause(-flag, a, opposite(b))
        clause(flag, a, b)
        clause(flag, opposite(a), opposite(b))

    for number, circuit in (number_s, spec), (number_i, imp):
        for lhs, left, right in circuit.gates:
            v, a, b = (literal(number, it) for it in (lhs, left, right))
            clause(-v, a)
            clause(-v, b)
            clause(v, opposite(a), opposite(b))
    for t, copy, signal in zip(same, copies, signals):
        equal(t, copy, literal(number_i, signal))
    for u, a, b in zip(agree, spec.outputs, imp.outputs):
        equal(u, literal(number_s, a), literal(number_i, b))
    for u in agree:
        clause(u, *(-t for t in same))
    if len(clauses) > MAX_CLAUSES:
        raise Refusal(header, "Limit")
    sees, at = {}, 0
    for ins, outs in boxes:
        sees |= {it: copies[at : at + len(ins)] for it in outs}
        at += len(ins)
    prefix = [(y, sees[it]) for y, it in zip(driven, further)]
    everything = inputs + copies
    prefix += [(y, everything) for y in spec_gates + imp_gates + same + agree]
    return last, everything, prefix, clauses


def text_of(variables, universals, prefix, clauses):
    """The canonical text: a line for each existential, `e` where it sees all universals."""
    out = [f"p cnf {variables} {len(clauses)}"]
    if universals:
        out.append(" ".join(["a", *map(str, universals), "0"]))
    for y, sees in prefix:
        out.append(f"e {y} 0" if sees == universals else " ".join(["d", str(y), *map(str, sees), "0"]))
    out += [" ".join(map(str, [*it, 0])) for it in clauses]
    return "".join(it + "\n" for it in out)


def random_pair(seed):
    """Two small circuits, the second with boxes; some of them are refused."""
    rng = random.Random(seed)
    p, r, o = rng.randint(0, 3), rng.randint(0, 3), rng.randint(0, 3)

    def circuit(inputs, outputs):
        numbers = list(range(1, 12))
        rng.shuffle(numbers)
        known, gates = [0] + numbers[:inputs], []
        for v in numbers[inputs : inputs + rng.randint(0, 4)]:
            gates.append((2 * v, *(2 * rng.choice(known) + rng.randint(0, 1) for _ in range(2))))
            known.append(v)
        rng.shuffle(gates)
        outs = [2 * rng.choice(known) + rng.randint(0, 1) for _ in range(outputs)]
        head = f"aag 11 {inputs} 0 {outputs} {len(gates)}"
        lines = [head, *(str(2 * it) for it in numbers[:inputs]), *map(str, outs)]
        lines += [" ".join(map(str, it)) for it in gates]
        return lines, known, numbers[:inputs]

    spec, _, _ = circuit(p, o)
    imp, known, inputs = circuit(p + r, o if rng.random() < 0.97 else o + 1)
    further = inputs[p:]
    rng.shuffle(further)
    boxes = []
    while further or rng.random() < 0.2:
        outs = [further.pop() for _ in range(rng.randint(0, len(further)))]
        safe = [it for it in known[1:] if it not in further and it not in outs]
        pool = safe if rng.random() < 0.8 else known
        ins = [2 * rng.choice(pool) + rng.randint(0, 1) for _ in range(rng.randint(0, 3))] if pool else []
        boxes.append(" ".join(map(str, [len(ins), len(outs), *ins, *(2 * it for it in outs)])))
    count = len(boxes) + (rng.random() < 0.05)
    comment = ["c", f"pec {count}", *boxes] if rng.random() < 0.97 else ["c"]
    return "\n".join(spec) + "\n", "\n".join(imp + comment) + "\n"


def main():
    if sys.argv[1:] == ["--help"]:
        print(__doc__.strip())
        return 0
    if sys.argv[1:2] == ["--random"]:
        for name, text in zip(("spec.aag", "impl.aag"), random_pair(int(sys.argv[2]))):
            with open(name, "w", encoding="ascii") as it:
                it.write(text)
        return 0
    spec, imp = (Circuit(it) for it in sys.argv[1:3])
    try:
        sys.stdout.write(text_of(*formula_of(spec, imp, boxes_of(spec, imp, 1), 1)))
    except Refusal as it:
        print("impl", *it.args)
        return 7
    return 0


if __name__ == "__main__":
    sys.exit(main())
