#!/usr/bin/env python3
"""Compares `dqsolve encode` and `dqsolve pec` on random pairs of circuits with what is known of them: the formula or the refusal
with that of a second encoder, the verdict with all contents of the boxes where these are few. Certificates are judged by dqcheck,
and boxes are filled, which is tried under all rows and judged in turn. The same texts with a token or a line changed are compared
with a second reader of circuits, and then with the second encoder. Prints each difference and how many there were; where there
is one, the exit status is 1.

Usage: bench/boxes.py DQSOLVE DQCHECK [COUNT [SEED]]
"""
import itertools
import os
import random
import subprocess
import sys
import tempfile

import encode
import reference

TOOLS = os.path.join(os.path.dirname(os.path.abspath(__file__)), "..", "tools")
WORDS = ["0", "1", "2", "3", "7", "24", "100", "-1", "x", "c", "pec", "aag", "", "1000000000000000000", "i0 a", "o0", "2 1 2 4 6"]
MOST_BITS = 10  # of the boxes' tables, to be tried in all ways


def run(*words):
    done = subprocess.run(words, capture_output=True, check=False)
    return done.stdout.decode(), done.returncode


def values(circuit, bits):
    """The bit of each variable, where the inputs have these."""
    found = dict(zip(circuit.inputs, bits)) | {0: False}
    sides = {lhs // 2: (a, b) for lhs, a, b in circuit.gates}

    def bit(literal):
        if literal // 2 not in found:
            a, b = sides[literal // 2]
            found[literal // 2] = bit(a) and bit(b)
        return found[literal // 2] != bool(literal % 2)

    return bit


def outputs(circuit, bits):
    bit = values(circuit, bits)
    return [bit(it) for it in circuit.outputs]


def agrees(spec, imp, boxes, tables):
    """Whether the outputs agree under all rows, with the boxes filled by tables: by input, its bit for what its box reads."""
    for row in itertools.product((False, True), repeat=len(spec.inputs)):
        known = dict(zip(imp.inputs, row))
        for ins, outs in boxes:
            bit = values(imp, [known.get(it, False) for it in imp.inputs])
            read = tuple(bit(it) for it in ins)
            known |= {out: tables[out][read] for out in outs}
        if outputs(spec, row) != outputs(imp, [known[it] for it in imp.inputs]):
            return False
    return True


def can_be_filled(spec, imp, boxes):
    """Whether some contents of the boxes make the outputs agree, or None where they are too many to be tried."""
    keys = [(out, read) for ins, outs in boxes for out in outs for read in itertools.product((False, True), repeat=len(ins))]
    if len(keys) > MOST_BITS:
        return None
    for bits in itertools.product((False, True), repeat=len(keys)):
        tables = {}
        for (out, read), bit in zip(keys, bits):
            tables.setdefault(out, {})[read] = bit
        if agrees(spec, imp, boxes, tables):
            return True
    return False


def written(path, text):
    with open(path, "w", encoding="ascii", newline="") as file:
        file.write(text)
    return path


def touched(rng, text):
    """The text with a token or a line changed, left out or said twice."""
    lines = text.split("\n")
    at = rng.randrange(len(lines))
    tokens = lines[at].split(" ")
    chosen = rng.randrange(len(tokens))
    changes = [
        [" ".join([*tokens[:chosen], rng.choice(WORDS), *tokens[chosen + 1 :]])],
        [" ".join([*tokens[:chosen], rng.choice(WORDS), *tokens[chosen:]])],
        [lines[at], lines[at]],
        [lines[at] + rng.choice(["\r", " ", "\t\r"])],
        [],
    ]
    lines[at : at + 1] = rng.choice(changes)
    return "\n".join(lines)


def circuit_fault(path):
    """The line and the name of the first fault of a text as a circuit, or None."""
    with open(path, "rb") as file:
        reader = reference.LineReader(file.read())
    try:
        header = reference.tokens_of(reader.take("BadHeader"))
        reader.check(header[:1] == [b"aag"], "BadHeader")
        reference.read_circuit(reader, header)
    except reference.Fault as it:
        return str(it)
    return None


def due_of(paths):
    """What `encode` has to write for these files, with its status, and the boxes where there is a design."""
    for path, word in zip(paths, ("spec", "impl")):
        fault = circuit_fault(path)
        if fault:
            return (f"{word} {fault}\n", 7), None
    spec, imp = (encode.Circuit(it) for it in paths)
    try:
        boxes = encode.boxes_of(spec, imp, 1)
        return (encode.text_of(*encode.formula_of(spec, imp, boxes, 1)), 0), boxes
    except encode.Refusal as it:
        return (" ".join(["impl", *map(str, it.args)]) + "\n", 7), None


def refusal_differences(solver, folder, seed):
    """What is amiss where a token or a line of the random pair is changed."""
    rng = random.Random(seed)
    texts = list(encode.random_pair(seed))
    chosen = rng.choice((0, 1, 1))
    texts[chosen] = touched(rng, texts[chosen])
    paths = [written(os.path.join(folder, name), text) for name, text in zip(("spec.aag", "impl.aag"), texts)]
    found, (due, _) = run(solver, "encode", *paths), due_of(paths)
    if found != due:
        yield f"touched: {found} in place of {due}"


def differences(solver, checker, folder, seed):
    """What is amiss with the random pair of this seed."""
    paths = [written(os.path.join(folder, name), text) for name, text in zip(("spec.aag", "impl.aag"), encode.random_pair(seed))]
    found, (due, boxes) = run(solver, "encode", *paths), due_of(paths)
    if found != due:
        yield f"encode: {found} in place of {due}"
    certificate, status = run(solver, "pec", *paths)
    if due[1]:
        if (certificate, status) != due:
            yield f"pec: {certificate} {status} in place of {due}"
        return
    spec, imp = (encode.Circuit(it) for it in paths)
    is_filled = can_be_filled(spec, imp, boxes)
    if status not in (10, 20) or is_filled is not None and is_filled != (status == 10):
        yield f"pec: {status}, and that it can be filled is {is_filled}"
    formula, proof = (written(os.path.join(folder, name), text) for name, text in (("formula", due[0]), ("certificate", certificate)))
    judged = run(checker, formula, proof)[0]
    if judged != f"VALID {'TRUE' if status == 10 else 'FALSE'}\n":
        yield f"dqcheck: {judged}"
    if status == 10:
        filled = written(os.path.join(folder, "filled"), run(os.path.join(TOOLS, "fill_boxes.py"), *paths, proof)[0])
        if not agrees(spec, encode.Circuit(filled), [], {}):
            yield "the filled circuit differs from the specification"
        if run(solver, "pec", paths[0], filled)[1] != 10:
            yield "pec of the filled circuit"


def main():
    if len(sys.argv) < 3:
        print(__doc__.strip())
        return 0 if sys.argv[1:] == ["--help"] else 1
    solver, checker = sys.argv[1:3]
    count = int(sys.argv[3]) if len(sys.argv) > 3 else 1000
    first = int(sys.argv[4]) if len(sys.argv) > 4 else 1
    amiss = 0
    with tempfile.TemporaryDirectory() as folder:
        for seed in range(first, first + count):
            for it in (*refusal_differences(solver, folder, seed), *differences(solver, checker, folder, seed)):
                print(f"{seed}: {it}")
                amiss += 1
    print(f"{amiss} differences")
    return 1 if amiss else 0


if __name__ == "__main__":
    sys.exit(main())
