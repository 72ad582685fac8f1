#!/usr/bin/env python3
"""What the programs are for, as a new engineer would try it: the designs in bench/uses go through tools/fill.py, plants there and in examples
through tools/control.py. A filled design is compared with its specification a second time, by yosys alone (`miter` and `sat`), and a controller's
Verilog runs in its plant under chance inputs. Prints a line for each case; where one isn't as it stands here the status is 1. Needs yosys; abc is
used where it is.

Usage: bench/uses.py [NAME..]      cases whose names have one of these words; all where there is none

The variables DQSOLVE and DQCHECK name the programs.
"""

import os
import random
import re
import subprocess
import sys
import tempfile
import time

from bench import TOP

TOOLS, USES, EXAMPLES = os.path.join(TOP, "tools"), os.path.join(TOP, "bench", "uses"), os.path.join(TOP, "examples")
sys.path.insert(0, TOOLS)

from abc_tool import abc_program
from aiger import Graph, binary_text, read_network, write_text
from designs import Source, literals, next_value, read_module
from plants import read_plant

SECONDS = 300
BLANKS = os.path.join(USES, "with blanks")
PACKAGE = os.path.join(BLANKS, "shared-types.sv")

# A design's name, words, the status that is due, what the answer has, what filled.v has, and whether yosys can compare it (no registers).
DESIGNS = (
    ("saturate", [], 10, "contents of 2 boxes fit", "module clamp(input [8:6] sum, output y);", True),
    ("saturate", ["-DBLIND"], 20, r"box u_clamp sees sum = 0x\d in both: .* wants [01], .* wants [01]", None, False),
    ("priority", [], 10, "contents of 4 boxes fit", "input [0:1] r", True),
    ("priority", ["--same"], 10, "contents of 4 boxes fit", "module pair(", True),
    ("hamming", [], 10, "contents of 2 boxes fit", "module place(input [2:0] s, output [7:1] turn);", True),
    ("ranges", [], 10, "contents of 2 boxes fit", r"module turn(input [7:4] n, input \on! , output [0:3] r);", True),
    ("twice", ["--same"], 10, "contents of 2 boxes fit", "module greater(", True),
    ("apart", [], 10, "contents of 2 boxes fit", "module fold_left_u_fold(", True),
    ("apart", ["--same"], 20, "One row shows", None, False),
    ("digits", [], 10, "contents of 2 boxes fit", "module lower(", True),
    ("counter", [], 10, "contents of the box fit", "module after(", False),
    ("handshake", [], 20, "box u_step sees state = 0x1, req = 1 in both", None, False),
    ("widths", [], 10, "contents of 2 boxes fit", "input [4:0] word", True),
    ("equal", [], 20, "the implementation has yes = 1", None, False),
    ("rotate", ["--same"], 10, "contents of 8 boxes fit", "module choose(", True),
    ("alu", [], 10, "contents of the box fit", "module invert(", True),
)

# A plant, its folder, words, and the status that is due.
PLANTS = (
    ("arbiter.v", EXAMPLES, [], 10),
    ("arbiter.v", EXAMPLES, ["--see", "asks"], 20),
    ("crossing.v", EXAMPLES, ["--see", "enters,leaves"], 20),
    ("crossing.v", EXAMPLES, ["--see", "enters,leaves", "--memory", "1"], 10),
    ("tank.v", EXAMPLES, ["--see", "low"], 10),
    ("tank.v", EXAMPLES, ["--see", "drained"], 20),
    ("bridge.v", EXAMPLES, ["--see", "left=left_waits,lamp", "--see", "right=right_waits,lamp"], 10),
    ("bridge.v", EXAMPLES, ["--see", "left=left_waits,lamp", "--see", "right=right_waits"], 20),
    ("tool-plant.v", USES, ["--see", "a=", "--see", "b=", "--memory", "1"], 10),
    ("tool-plant.v", USES, ["--see", "a=", "--see", "b="], 20),
    ("follow.aag", USES, ["--see", ""], 20),
    ("follow.aag", USES, ["--see", "", "--memory", "1"], 10),
    ("valve.aag", USES, ["--see", "pressure"], 10),
    ("valve.aig", USES, ["--see", "pressure,rises"], 10),
)


class Bench:
    """Cases in a folder, and how many aren't as they are due."""

    def __init__(self, folder):
        self.folder, self.cases, self.differences = folder, 0, 0

    def path(self, name):
        return os.path.join(self.folder, name)

    def run(self, tool, words):
        began = time.monotonic()
        done = subprocess.run([os.path.join(TOOLS, tool), *words], capture_output=True, text=True, cwd=self.folder, timeout=SECONDS, check=False)
        return done, time.monotonic() - began

    def report(self, name, wrong, seconds):
        self.cases += 1
        self.differences += bool(wrong)
        print(f"{name:60} {'; '.join(wrong) or 'as due'} {seconds:6.2f} s", flush=True)


# Designs


def sides_of(name):
    """The files of both sides."""
    if name == "alu":
        return [PACKAGE, os.path.join(BLANKS, "alu-spec.sv")], [PACKAGE, os.path.join(BLANKS, "alu-boxes.sv")]
    return [os.path.join(USES, f"{name}-spec.v")], [os.path.join(USES, f"{name}-boxes.v")]


def yosys_agrees(bench, spec):
    """Whether yosys proves that filled.v is what the specification says, where that isn't x."""

    def read(files, name):
        reads = "; ".join(f'read_verilog {"-sv " * it.endswith("sv")}"{it}"' for it in files)
        return f"{reads}; hierarchy -auto-top; proc; flatten; memory; opt_clean; rename -top {name}; design -stash {name}"

    both = "design -copy-from gold gold; design -copy-from gate gate; miter -equiv -flatten -ignore_gold_x gold gate miter"
    prove = "sat -verify -enable_undef -set-def-inputs -prove trigger 0 miter"
    commands = f"{read(spec, 'gold')}; {read([bench.path('filled.v')], 'gate')}; {both}; {prove}"
    return subprocess.run(["yosys", "-q", "-p", commands], capture_output=True, check=False).returncode == 0


def design_case(bench, name, words, status, says, filled, is_plain):
    spec, imp = sides_of(name)
    done, seconds = bench.run("fill.py", [*words, "--spec", *spec, "--impl", *imp])
    wrong = [] if done.returncode == status else [f"status {done.returncode} in place of {status}: {done.stderr.strip()[-200:]}"]
    if not re.search(says, done.stdout):
        wrong.append(f"`{says}` isn't said: {done.stdout[:200]}")
    if status == 10 and not wrong:
        how = "abc cec" if abc_program() else "dqsolve pec, dqcheck"
        wrong += [] if f"equal to the specification, by {how}" in done.stdout else ["it isn't compared again"]
        with open(bench.path("filled.v"), encoding="utf-8") as file:
            wrong += [] if filled in file.read() else [f"filled.v hasn't `{filled}`"]
        wrong += [] if not is_plain or yosys_agrees(bench, spec) else ["yosys can't prove that filled.v is right"]
    bench.report(f"{name} {' '.join(words)}", wrong, seconds)


# Plants


class Running:
    """A plant and its controllers' Verilog, step by step."""

    def __init__(self, plant, modules):
        self.plant, self.parts = plant, []
        self.seen = {label: literal for label, literal in plant.free} | {it.name: it.literal for it in plant.states}
        self.seen |= {label: literal for bits in plant.signals.values() for label, literal in bits if label not in self.seen}
        for module in modules:
            graph = Graph()
            known = {bit: graph.variable() for port in module.inputs for bit in port.bits} | {it.value: graph.variable() for it in module.registers}
            literal = literals(module, known, lambda _: 0, graph)
            inputs = [(port.label(place), known[bit]) for port in module.inputs if port.name != "clk" for place, bit in enumerate(port.bits)]
            outputs = [(port.label(place), literal(bit)) for port in module.outputs for place, bit in enumerate(port.bits)]
            registers = [(known[it.value], next_value(it, literal, graph), it.first or 0) for it in module.registers]
            self.parts.append((graph, inputs, outputs, registers))

    def meets_bad(self, steps, chance):
        """Whether something bad is met in a run."""
        plant = self.plant
        state = {it.literal // 2: chance.getrandbits(1) if it.first is None else it.first for it in plant.states}
        held = [[first for _, _, first in registers] for _, _, _, registers in self.parts]
        for _ in range(steps):
            values = {**state, **{literal // 2: chance.getrandbits(1) for _, literal in plant.free}}
            for place, (graph, inputs, outputs, registers) in enumerate(self.parts):
                inner = {literal // 2: bit_of(plant.graph, values, self.seen[label]) for label, literal in inputs}
                inner |= {literal // 2: bit for (literal, _, _), bit in zip(registers, held[place])}
                driven = dict(plant.driven)
                values |= {driven[label] // 2: bit_of(graph, inner, literal) for label, literal in outputs}
                held[place] = [bit_of(graph, inner, following) for _, following, _ in registers]
            if not all(bit_of(plant.graph, values, literal) for _, literal in plant.constraints):
                return False
            if any(bit_of(plant.graph, values, literal) for _, literal in plant.bad):
                return True
            state = {it.literal // 2: bit_of(plant.graph, values, it.following) for it in plant.states}
        return False


def bit_of(graph, values, literal):
    found = {0: 0, **values}
    for variable in graph.cone([literal]):
        if variable not in found:
            found[variable] = int(all(found[it // 2] ^ (it & 1) for it in graph.gates[variable]))
    return found[literal // 2] ^ (literal & 1)


def controllers_hold(bench, path):
    """Whether nothing bad is met in some runs of the plant with the controllers' Verilog."""
    text = bench.path("controlled/controller.v")
    with open(text, encoding="utf-8") as file:
        names = re.findall(r"^module (\w+)", file.read(), re.MULTILINE)
    modules = [read_module(Source((text,), name)) for name in names]
    running, chance = Running(read_plant([path], None, []), modules), random.Random(1)
    return not any(running.meets_bad(100, chance) for _ in range(5))


def plant_case(bench, name, folder, words, status):
    path = os.path.join(folder, name)
    if name.endswith(".aig"):
        path = bench.path(name)
        write_text(path, binary_text(read_network(os.path.join(folder, name.replace(".aig", ".aag")))))
    done, seconds = bench.run("control.py", [*words, path])
    wrong = [] if done.returncode == status else [f"status {done.returncode} in place of {status}: {done.stderr.strip()[-200:]}"]
    if status == 10 and not wrong:
        due = ["the invariant, by dqsolve pec and dqcheck", *(["abc pdr"] if abc_program() else [])]
        wrong += [f"not checked: {it}" for it in due if it not in done.stdout]
        wrong += [] if controllers_hold(bench, path) else ["its Verilog meets something bad"]
    if status == 20 and not re.search(r"^1\. .*\(first\)", done.stdout, re.MULTILINE):
        wrong.append("no row of a first state is told")
    bench.report(f"{name} {' '.join(words)}", wrong, seconds)


def main(words):
    if words == ["--help"]:
        print(__doc__.strip())
        return 0
    with tempfile.TemporaryDirectory() as folder:
        bench = Bench(folder)
        for case, table in ((design_case, DESIGNS), (plant_case, PLANTS)):
            for row in table:
                if not words or any(it in row[0] for it in words):
                    case(bench, *row)
    print(f"{bench.cases} cases, {bench.differences} differences")
    return 1 if bench.differences else 0


if __name__ == "__main__":
    sys.exit(main(sys.argv[1:]))
