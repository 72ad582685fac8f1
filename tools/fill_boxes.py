#!/usr/bin/env python3
"""Fills the black boxes of an implementation with what a certificate of its design's formula says of them.

Usage: tools/fill_boxes.py SPEC IMPL CERT > FILLED

CERT is a circuit for the formula that SPEC and IMPL make, in AIGER, whose symbols are the formula's variables.
FILLED is IMPL with the inputs of SPEC alone: each input that a box drives is replaced by the certificate's output for
it, over what the box reads. Inputs and outputs keep their names. Its comment says that no box is left, so that it can be
judged against SPEC in turn. (tools/fill.py goes from Verilog to Verilog.)
Untrusted: nothing here is proved, and nothing needs to be.

With --json, as first word, status, output and message are one line of JSON.

The exit status is 0 where the circuit was written, 1 for other words, and 2, with a sentence, where a text can't be read or
is another one: a refutation, an UNKNOWN, a formula, a certificate for other circuits.
"""
import sys
from typing import List, Sequence

from aiger import Graph, Network, ascii_text, value_of
from boxes import Content, Design, contents, read_design
from failure import USAGE
from processes import run_script

USAGE_LINE = "usage: tools/fill_boxes.py SPEC IMPL CERT > FILLED"


def filled(design: Design, filling: Sequence[Content]) -> Network:
    """The network of the implementation with its boxes filled, which have the order in which they read each other."""
    graph = Graph()
    inputs = [graph.variable() for _ in range(design.shared)]
    made = {0: 0, **{theirs // 2: mine for theirs, mine in zip(design.imp.inputs, inputs)}}
    gates = {literal // 2: (a, b) for literal, a, b in design.imp.gates}

    def placed(literal: int) -> int:
        """What stands for a literal of the implementation."""
        left = [literal // 2]
        while left:
            missing = [] if left[-1] in made else [it // 2 for it in gates[left[-1]] if it // 2 not in made]
            if not missing:
                variable = left.pop()
                if variable not in made:
                    made[variable] = graph.conjunction(*(value_of(made, it) for it in gates[variable]))
            left += missing
        return value_of(made, literal)

    for content in filling:
        inner = {0: 0, **{variable: placed(content.box.ins[place]) for variable, place in content.places.items()}}
        for literal, a, b in content.gates:
            inner[literal // 2] = graph.conjunction(value_of(inner, a), value_of(inner, b))
        for out, value in zip(content.box.outs, content.values):
            made[out // 2] = value_of(inner, value)
    network = graph.network(inputs, [placed(it) for it in design.imp.outputs])
    for (letter, place), name in design.imp.names.items():
        if letter == "o" or place < design.shared:
            network.names[letter, place] = name
    network.comment = ["pec 0"]
    return network


def main(words: List[str]) -> int:
    if len(words) != 3 or any(it.startswith("-") for it in words):
        print(USAGE_LINE, file=sys.stderr)
        return USAGE
    spec, imp, cert = words
    design = read_design(spec, imp)
    sys.stdout.write(ascii_text(filled(design, contents(design, cert))))
    return 0


if __name__ == "__main__":
    run_script("fill_boxes.py", __doc__, main, has_json=False)
