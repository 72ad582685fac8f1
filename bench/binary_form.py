#!/usr/bin/env python3
"""Compares what the built checker says of circuits in AIGER's two forms, and of spoiled binary parts.

Each circuit of the cases of run_cases and of examples/ that isn't refused is written in the binary form, its proof
with it, and has to be judged as before. Then each byte of a short binary part is given other values, and the text is
cut at each of its bytes, and the checker has to say what the second judge, reference.py, says. Prints the counts and
each difference; where there is one, the exit status is 1.

Usage: bench/binary_form.py [CERTIFICATE FORMULA]..     those circuits, in place of the cases and the examples
"""

import collections
import glob
import os
import sys
import tempfile

import reference
from bench import CHECKER, TOP
from binary_coder import binary_text
from differential import checker_answer, expected_answer

LONGEST_SPOILED = 40
OTHER_BYTES = (0x00, 0x01, 0x02, 0x0A, 0x63, 0x7F, 0x80, 0xFF)


# The cases


def table_cases():
    """The formulas and circuits of the checker's cases."""
    formula = b""
    with open(os.path.join(TOP, "crates", "run_cases", "data", "dqcheck"), encoding="utf-8") as file:
        for line in file:
            word, _, spelled = line.rstrip("\n").partition(" ")
            lines = spelled.removesuffix("\\").replace("\\r", "\r").split(" / ")
            text = "".join(part + "\n" for part in lines).encode()
            text = text[:-1] if spelled.endswith("\\") else text
            if word == "formula":
                formula = text
            elif word == "certificate" and "aag" in spelled[:20]:
                yield formula, text


def file_cases(words):
    for certificate, formula in zip(words[::2], words[1::2]):
        with open(formula, "rb") as first, open(certificate, "rb") as second:
            yield first.read(), second.read()


def example_cases():
    for certificate in glob.glob(os.path.join(TOP, "examples", "*.aag")):
        formula = certificate.removesuffix(".aag") + ".dqdimacs"
        if os.path.exists(formula):
            yield from file_cases([certificate, formula])


def spoiled(code):
    for place in range(len(code)):
        yield code[:place]
        for byte in {*OTHER_BYTES, (code[place] + 1) % 256, (code[place] - 1) % 256} - {code[place]}:
            yield code[:place] + bytes([byte]) + code[place + 1 :]


class Comparison:
    def __init__(self, folder):
        self.folder, self.seen, self.differences = folder, collections.Counter(), 0

    def compare(self, kind, texts, expected):
        found = checker_answer(self.folder, texts)
        self.seen[kind] += 1
        if found != expected:
            self.differences += 1
            print(f"{kind}: due is {expected}, the checker says {found}, on {texts}")

    def take(self, formula_text, text):
        """Compares the two forms of a circuit that isn't refused, and spoiled forms of it."""
        texts = formula_text, text
        answer = checker_answer(self.folder, texts)
        if answer[1] not in (0, 8, 9):
            return
        formula = reference.FormulaReader(formula_text).read()
        try:
            before, code, behind = binary_text(formula, text)
        except KeyError:
            return  # a proof over a variable that is neither an input nor a gate, which the binary form lacks
        self.compare("both forms", (formula_text, before + code + behind), answer)
        if len(code) <= LONGEST_SPOILED and len(text) < 2000:
            for other in spoiled(code):
                for rest in (behind, b""):
                    spoiled_texts = formula_text, before + other + rest
                    self.compare("spoiled", spoiled_texts, expected_answer(spoiled_texts))


def main():
    if sys.argv[1:] == ["--help"]:
        print(__doc__.strip())
        return
    words = sys.argv[1:]
    if not os.path.exists(CHECKER):
        sys.exit(f"{CHECKER} isn't built: run `rt run` in crates/dqcheck, or `rt ci` at the top")
    with tempfile.TemporaryDirectory() as folder:
        comparison = Comparison(folder)
        for case in file_cases(words) if words else [*table_cases(), *example_cases()]:
            comparison.take(*case)
    for kind, count in sorted(comparison.seen.items()):
        print(f"{count:8} {kind}")
    print(f"{comparison.differences} differences")
    sys.exit(1 if comparison.differences else 0)


if __name__ == "__main__":
    main()
