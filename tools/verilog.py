#!/usr/bin/env python3
"""Writes what a certificate of two circuits' formula says of the black boxes: each box as a module of Verilog, with a
wire for each of its gates. Of a text of definitions it writes one module, with an assignment for each definition.

Usage: tools/verilog.py [--dot] SPEC IMPL CERT
       tools/verilog.py DEFINITIONS

CERT is what `dqsolve pec SPEC IMPL` writes with status 10. Boxes and ports have the names that tools/fill.py puts behind
the boxes' lines, and else their numbers. With --dot the boxes are written as a graph for graphviz
(`| dot -Tsvg`); an edge with a circle at its end negates. DEFINITIONS is what `dqsolve defined` writes; its variable 7
is `v7`, and existentials without a definition are inputs where others read them. Untrusted: nothing here is proved, and
nothing needs to be.

With --json, as first word, status, output and message are one line of JSON.

The exit status is 0 where the text was written, 1 for other words, and 2, with a sentence, where a text can't be read or
is another one: a refutation, an UNKNOWN, a formula, a certificate for other circuits.
"""
import sys

from boxes import Shown, contents, read_design
from failure import UNREADABLE, USAGE, Failure
from processes import run_script
from texts import bytes_of

USAGE_LINE = "usage: tools/verilog.py [--dot] SPEC IMPL CERT / tools/verilog.py DEFINITIONS"


def cluster(number, shown):
    """The box as a part of a graph."""

    def edge(literal, to):
        source = f"b{number}_" + (shown.wires[literal // 2] if literal > 1 else "const")
        return f'    "{source}" -> "b{number}_{to}"{" [arrowhead=odot]" if literal % 2 else ""};'

    lines = [f"  subgraph cluster_{number} {{", f'    label="{shown.box.name}";']
    lines += [f'    "b{number}_{it}" [label="{it}", shape=cds];' for it in shown.ins]
    lines += [f'    "b{number}_out_{it}" [label="{it}", shape=cds];' for it in shown.outs]
    lines += [f'    "b{number}_{shown.wires[it // 2]}" [label="&", shape=circle];' for it, _, _ in shown.content.gates]
    if any(it < 2 for it in shown.content.values):
        lines.append(f'    b{number}_const [label="0", shape=plaintext];')
    for it, a, b in shown.content.gates:
        lines += [edge(a, shown.wires[it // 2]), edge(b, shown.wires[it // 2])]
    lines += [edge(value, f"out_{it}") for it, value in zip(shown.outs, shown.content.values)]
    return [*lines, "  }"]


def definitions_of(path):
    """Of each `t` block the existential, its output and its gates; and the existentials of `f` blocks."""
    lines = [line.split() for line in bytes_of(path).decode(errors="replace").split("\n") if line.split()]
    if not lines or lines[0][:2] != ["p", "dqd"]:
        what = {"s": "a verdict", "aag": "a circuit", "p": "a formula or a refutation"}.get((lines or [[""]])[0][0], "another text")
        due = "where definitions are due, which `dqsolve defined` writes; a certificate goes with SPEC and IMPL"
        raise Failure(UNREADABLE, f"{path}: it is {what}, {due}")
    blocks, free, at = [], [], 1
    while at < len(lines):
        words = lines[at]
        if words[0] == "t":
            existential, output, gates, steps = map(int, words[1:])
            blocks.append((existential, output, [[int(n) for n in it] for it in lines[at + 1 : at + 1 + gates]]))
            at += 1 + gates + steps
        else:
            free.append(int(words[1]))
            at += 5
    return blocks, free


def definitions_module(blocks, free):
    """One module: the gates of each definition as wires of its own, and an assignment."""
    inner, read = [], set()
    for existential, output, gates in blocks:
        wires = {lhs // 2: f"v{existential}_{place + 1}" for place, (lhs, _, _) in enumerate(gates)}

        def text(literal, wires=wires):
            if literal < 2:
                return f"1'b{literal}"
            return "~" * (literal % 2) + wires.get(literal // 2, f"v{literal // 2}")

        inner += [f"  wire {wires[lhs // 2]} = {text(a)} & {text(b)};" for lhs, a, b in gates]
        inner.append(f"  assign v{existential} = {text(output)};")
        read |= {n // 2 for n in [output, *(side for _, *sides in gates for side in sides)]} - set(wires) - {0}
    defined = [existential for existential, _, _ in blocks]
    ports = [f"input v{it}" for it in sorted(read - set(defined))] + [f"output v{it}" for it in defined]
    notes = [f"  // no definition: {', '.join(f'v{it}' for it in free)}"] if free else []
    return [f"module definitions({', '.join(ports)});", *notes, *inner, "endmodule"]


def main(words):
    if len(words) == 1 and not words[0].startswith("--"):
        try:
            print("\n".join(definitions_module(*definitions_of(words[0]))))
        except (ValueError, IndexError) as error:
            raise Failure(UNREADABLE, f"{words[0]}: its definitions can't be read: dqcheck names the line") from error
        return 0
    is_graph = words[:1] == ["--dot"]
    if len(words) - is_graph != 3:
        print(USAGE_LINE, file=sys.stderr)
        return USAGE
    spec, imp, cert = words[is_graph:]
    shown = [Shown(it) for it in contents(read_design(spec, imp), cert)]
    if is_graph:
        parts = [cluster(number, it) for number, it in enumerate(shown)]
        print("\n".join(["digraph boxes {", "  rankdir=LR;", *(line for it in parts for line in it), "}"]))
    else:
        print("\n\n".join("\n".join(it.module()) for it in shown))
    return 0


if __name__ == "__main__":
    run_script("verilog.py", __doc__, main, has_json=False)
