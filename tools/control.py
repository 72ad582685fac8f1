#!/usr/bin/env python3
"""Finds controllers that see a part of their plant, under which nothing bad ever happens, or says that there are none.

Usage: tools/control.py [OPTIONS] PLANT.v ..
       tools/control.py [OPTIONS] PLANT.aag         AIGER in either form, with registers

Inputs of the plant whose names begin with `controllable_` are driven, all others are free. Bad is AIGER's section B, or the outputs where there is
none; in Verilog the outputs `bad` and `bad_..`, or all outputs where there are none of these. AIGER's constraints, in Verilog the outputs `assume..`,
are taken to hold in each step. A register without a first value may have any.

  --see NAME,..       what is seen: free inputs, registers, and signals that hang on nothing driven, by words, bits, or with `*`;
                      all free inputs and registers where it isn't given
  --see X=NAME,..     what the controller of `controllable_X` sees; X+Y is one controller of two words
  --memory K          K bits of memory for each controller (0)
  --top NAME, -D NAME[=VALUE], -I FOLDER    as in tools/fill.py
  --seconds S, --steps N         of the search
  --out FOLDER        where the results stand (controlled)
  --vcd FILE          a run of the controlled plant as a waveform; where there is no controller, the rows that show it
  --run N             the steps of that run (40)
  --json              one line of JSON on standard output

With TRUE the folder has controller.v, a module for each controller; closed.aag, the plant with the controllers in it, whose output is bad;
invariant.aag, of which each state that is reached is one; formula and certificate. dqcheck judges the certificate; then it is shown, of the
closed circuit and the invariant as they stand in their files, that the first states are in it, that no bad one is, and that steps stay in it, by
`dqsolve pec` and dqcheck; and abc's `pdr`, where it is there, has a look of its own. FALSE says that no controller with so much memory sees enough.

The exit status is 10, 20 or 0 as dqsolve's; 1 for other words, 2 where a plant can't be read, 3 there is no yosys, 4 a check failed.
docs/CONTROL.md goes through it.
"""

from __future__ import annotations

import os
import re
import sys
from dataclasses import dataclass, field
from typing import Dict, List, Optional, Sequence, Tuple

import sapuendy
from abc_tool import abc_program, safe_by_abc
from aiger import Graph, Latch, Network, ascii_text, read_network, value_of, write_text
from boxes import escaped, plain
from failure import SOLVER_FAILED, USAGE, Failure
from plants import Controller, Plant, State, Word, controllers_of, read_plant, word_of, words
from processes import run_script
from rows import said, words_of as words_with_values
from run_of_plant import run_vcd
from texts import FormulaReader

MOST_ROWS = 60  # of a refutation that are looked at one by one
SECONDS_A_ROW = 2.0
MOST_SHOWN = 20  # of them


# Words


@dataclass
class Words:
    """What the command's words ask for."""

    plant: List[str] = field(default_factory=list)
    see: List[str] = field(default_factory=list)
    memory: int = 0
    top: Optional[str] = None
    defines: List[str] = field(default_factory=list)
    folders: List[str] = field(default_factory=list)
    seconds: Optional[float] = None
    steps: int = sapuendy.MOST_STEPS
    out: str = "controlled"
    vcd: Optional[str] = None
    run: int = 40
    json: bool = False


def words_of(words: Sequence[str]) -> Optional[Words]:
    """What the words ask for, or None where they aren't understood."""
    asked, left = Words(), list(words)
    while left:
        word = left.pop(0)
        if word == "--json":
            asked.json = True
        elif word == "--see" and left:
            asked.see.append(left.pop(0))
        elif word == "-D" and left:
            asked.defines.append(left.pop(0))
        elif word.startswith("-D") and len(word) > 2:
            asked.defines.append(word[2:])
        elif word == "-I" and left:
            asked.folders.append(left.pop(0))
        elif word in ("--top", "--out", "--vcd") and left:
            setattr(asked, word[2:], left.pop(0))
        elif word in ("--seconds", "--steps", "--memory", "--run") and left and re.fullmatch(r"\d{1,10}", left[0]):
            setattr(asked, word[2:], int(left.pop(0)))
        elif word == "--":
            asked.plant, left = asked.plant + left, []
        elif word.startswith("-"):
            return None
        else:
            asked.plant.append(word)
    is_right = asked.plant and 1 <= asked.steps <= sapuendy.MOST_STEPS and asked.seconds != 0 and asked.memory <= 16
    return asked if is_right else None


# The formula


class Question:
    """The formula that is true where there are controllers: W holds in the states that are held, W' is the same of a second copy of the registers.

    Universals are the registers, the free inputs, the second copy and a copy of each other signal that is seen. Clauses: a first state is in W; W and
    W' agree where both copies do; no state in W is bad; a step leads from W into W'. The last two speak only of steps in which the constraints
    hold and the copies of signals are right."""

    def __init__(self, plant: Plant, controllers: Sequence[Controller]):
        self.plant, self.controllers = plant, controllers
        self.states = self.needed()
        self.free = self.needed_inputs()
        self.count, self.universals, self.sights, self.clauses = 0, [], [], []
        self.variable: Dict[int, int] = {}
        self.held = [self.universal(it.literal) for it in self.states]
        self.inputs = [self.universal(literal) for _, literal in self.free]
        self.copies = self.copied_signals()
        self.next_copies = [self.universal() for _ in self.states]
        self.now = [*self.held, *self.inputs, *self.copies.values()]
        self.inside, self.inside_next = self.existential(self.held), self.existential(self.next_copies)
        for controller in controllers:
            seen = [self.seen(literal) for _, literal in [*controller.sees, *((it.name, it.literal) for it in controller.memory)]]
            for _, literal in [*controller.drives, *controller.recalls]:
                self.variable[literal // 2] = self.existential([it for it in seen if it])
        self.add_clauses()

    def needed(self) -> List[State]:
        """The registers that what is bad or assumed hangs on, or that are seen, and what these hang on."""
        plant, by_variable = self.plant, {it.literal // 2: it for it in self.plant.states}
        roots = [literal for _, literal in (*plant.bad, *plant.constraints)]
        roots += [literal for it in self.controllers for _, literal in it.sees] + [it.literal for c in self.controllers for it in c.memory]
        found: Dict[int, State] = {}
        while roots:
            new = {it: by_variable[it] for it in plant.hangs_on(roots) if it in by_variable and it not in found}
            found.update(new)
            roots = [it.following for it in new.values()]
        return [it for it in plant.states if it.literal // 2 in found]

    def needed_inputs(self) -> Word:
        plant = self.plant
        roots = [literal for _, literal in (*plant.bad, *plant.constraints)] + [it.following for it in self.states]
        roots += [literal for it in self.controllers for _, literal in it.sees]
        used = plant.hangs_on(roots)
        return [it for it in plant.free if it[1] // 2 in used]

    def universal(self, literal: Optional[int] = None) -> int:
        self.count += 1
        self.universals.append(self.count)
        if literal is not None:
            self.variable[literal // 2] = self.count
        return self.count

    def existential(self, sees: Sequence[int]) -> int:
        self.count += 1
        self.sights.append((self.count, list(dict.fromkeys(sees))))
        return self.count

    def copied_signals(self) -> Dict[int, int]:
        """A universal for each variable of a seen signal that is a gate."""
        gates = {literal // 2 for it in self.controllers for _, literal in it.sees if literal // 2 in self.plant.graph.gates}
        return {it: self.universal() for it in sorted(gates)}

    def seen(self, literal: int) -> int:
        """The universal that tells a literal, or 0 for a constant."""
        return self.copies.get(literal // 2) or self.variable.get(literal // 2, 0)

    def signed(self, literal: int) -> int:
        if literal < 2:
            if 0 not in self.variable:
                self.variable[0] = self.existential([])
                self.clauses.append([-self.variable[0]])
            return self.variable[0] if literal == 0 else -self.variable[0]
        return -self.variable[literal // 2] if literal & 1 else self.variable[literal // 2]

    def differs(self, a: int, b: int, sees: Sequence[int]) -> int:
        """An existential that says that two literals of the formula differ."""
        it = self.existential(sees)
        self.clauses += [[-it, a, b], [-it, -a, -b], [it, a, -b], [it, -a, b]]
        return it

    def add_clauses(self) -> None:
        plant, graph = self.plant, self.plant.graph
        roots = [literal for _, literal in (*plant.bad, *plant.constraints)] + [it.following for it in self.states]
        roots += [2 * it for it in self.copies]
        gates = [it for it in graph.cone(roots) if it in graph.gates]
        for it in gates:
            self.variable[it] = self.existential(self.now)
        for it in gates:
            y, (a, b) = self.variable[it], map(self.signed, graph.gates[it])
            self.clauses += [[-y, a], [-y, b], [y, -a, -b]]
        apart = [self.differs(s, t, [s, t]) for s, t in zip(self.held, self.next_copies)]
        self.clauses += [[*apart, -self.inside, self.inside_next], [*apart, self.inside, -self.inside_next]]
        first = [(-s if it.first else s) for s, it in zip(self.held, self.states) if it.first is not None]
        self.clauses.append([*first, self.inside])
        pre = [-self.signed(literal) for _, literal in plant.constraints]
        pre += [self.differs(copy, self.variable[it], self.now) for it, copy in self.copies.items()]
        self.clauses += [[-self.inside, -self.signed(literal), *pre] for _, literal in plant.bad]
        misses = [self.differs(t, self.signed(it.following), [*self.now, t]) for t, it in zip(self.next_copies, self.states)]
        self.clauses.append([-self.inside, self.inside_next, *misses, *pre])

    def text(self) -> bytes:
        lines = [f"p cnf {self.count} {len(self.clauses)}", " ".join(map(str, ["a", *self.universals, 0]))]
        lines += [" ".join(map(str, ["d", y, *seen, 0])) for y, seen in self.sights]
        lines += [" ".join(map(str, [*clause, 0])) for clause in self.clauses]
        return "".join(f"{line}\n" for line in lines).encode()


# What comes of TRUE


class Closing:
    """The plant with its controllers in it, out of a certificate."""

    def __init__(self, question: Question, certificate: Network):
        self.question, plant = question, question.plant
        self.graph = Graph()
        self.certificate = certificate
        self.output = {int(certificate.name("o", place)): it for place, it in enumerate(certificate.outputs)}
        self.input = {it // 2: int(certificate.name("i", place)) for place, it in enumerate(certificate.inputs)}
        self.now = {it.literal // 2: self.graph.variable() for it in question.states}
        self.free = {literal // 2: self.graph.variable() for _, literal in plant.free}
        self.made = {0: 0, **self.now, **self.free}
        copies = {universal: self.placed(2 * gate) for gate, universal in question.copies.items()}
        given = {universal: self.made[variable] for variable, universal in question.variable.items() if universal in set(question.universals)}
        self.universal = {**given, **copies}
        self.inside = self.of_certificate(question.inside)
        self.functions: Dict[int, int] = {}
        for controller in question.controllers:
            for _, literal in [*controller.drives, *controller.recalls]:
                self.functions[literal] = self.of_certificate(question.variable[literal // 2])
                self.made[literal // 2] = self.functions[literal]

    def of_certificate(self, existential: int) -> int:
        """A function of the certificate over what stands for the universals."""
        stands = {variable: self.universal.get(number, 0) for variable, number in self.input.items()}
        return value_of(self.graph.copied(self.certificate, stands), self.output[existential])

    def placed(self, literal: int) -> int:
        """A literal of the plant in this graph."""
        gates = self.question.plant.graph.gates
        for variable in self.question.plant.graph.cone([literal]):
            if variable not in self.made and variable in gates:
                a, b = gates[variable]
                self.made[variable] = self.graph.conjunction(value_of(self.made, a), value_of(self.made, b))
            elif variable not in self.made:
                self.made[variable] = 0  # an input that nothing needed hangs on
        return value_of(self.made, literal)

    def closed(self) -> Network:
        """The closed circuit: registers, and one output, whether a bad state is met while the constraints hold all the time."""
        question, graph, plant = self.question, self.graph, self.question.plant
        holds = graph.all_of(self.placed(literal) for _, literal in plant.constraints)
        latches = [Latch(self.now[it.literal // 2], self.placed(it.following), it.first) for it in question.states]
        names = [it.name for it in question.states]
        if plant.constraints:
            held = graph.variable()
            latches.append(Latch(held, graph.conjunction(held, holds), 1))
            names.append("constraints_held")
            holds = graph.conjunction(held, holds)
        bad = graph.conjunction(holds, graph.any_of(self.placed(literal) for _, literal in plant.bad))
        network = graph.network(list(self.free.values()), [bad], latches)
        network.names.update({("i", place): name for place, (name, _) in enumerate(plant.free)})
        network.names.update({("l", place): name for place, name in enumerate(names)})
        network.names["o", 0] = "bad"
        return network

    def invariant(self) -> Network:
        """The invariant over the registers, by their names."""
        network = self.graph.network(list(self.now.values()), [self.inside])
        network.names.update({("i", place): it.name for place, it in enumerate(self.question.states)})
        network.names["o", 0] = "invariant"
        return network


def controller_text(closing: Closing, controller: Controller, plant: Plant) -> str:
    """A controller as a module of Verilog."""
    graph = Graph()
    question = closing.question
    inputs = [*controller.sees, *((it.name, it.literal) for it in controller.memory)]
    stands, ports = {}, {}
    for label, literal in inputs:
        universal = question.seen(literal)
        own = graph.variable()
        ports[own // 2] = label
        if universal:
            stands[universal] = own ^ (literal & 1)
    made = graph.copied(closing.certificate, {variable: stands.get(number, 0) for variable, number in closing.input.items()})
    values = [(label, value_of(made, closing.output[question.variable[it // 2]])) for label, it in (*controller.drives, *controller.recalls)]
    return "\n".join(module_lines(controller, plant, graph, ports, values)) + "\n"


def module_lines(controller: Controller, plant: Plant, graph: Graph, ports: Dict[int, str], values: Word) -> List[str]:
    own = {it.name for it in controller.memory}
    declared = ["input clk"] if controller.memory else []
    declared += [f"input {declared_word(word, bits, plant)}" for word, bits in words(controller.sees).items()]
    declared += [f"output {declared_word(word, bits, plant)}" for word, bits in words(controller.drives).items()]
    lines = [f"module {escaped(plain(controller.name))}({', '.join(declared)});"]
    if controller.memory:
        size = len(controller.memory)
        lines += [f"  reg {f'[{size - 1}:0] ' if size > 1 else ''}{escaped(word_of(controller.memory[0].name))} = 0;"]
    wires = {variable: reference(label, label in own, controller) for variable, label in ports.items()}
    for number, variable in enumerate((it for it in graph.cone(literal for _, literal in values) if it in graph.gates), 1):
        wires[variable] = f"n{number}"
        a, b = graph.gates[variable]
        lines.append(f"  wire n{number} = {expression(a, wires)} & {expression(b, wires)};")
    drives = dict(values[: len(controller.drives)])
    lines += [f"  assign {reference(label, False, controller)} = {expression(value, wires)};" for label, value in drives.items()]
    if controller.memory:
        lines.append("  always @(posedge clk) begin")
        for state, (_, value) in zip(controller.memory, values[len(controller.drives) :]):
            lines.append(f"    {reference(state.name, True, controller)} <= {expression(value, wires)};")
        lines.append("  end")
    return [*lines, "endmodule"]


def expression(literal: int, wires: Dict[int, str]) -> str:
    return f"1'b{literal}" if literal < 2 else "~" * (literal & 1) + wires[literal // 2]


def is_whole(word: str, bits: Word) -> bool:
    """Whether a word's bits can stand as a port with a range: no gap, and more than a plain bit."""
    indices = sorted(int(re.sub(r".*\[|\]", "", label)) for label, _ in bits if label != word)
    return bool(indices) and len(indices) == len(bits) and indices == list(range(indices[0], indices[-1] + 1))


def declared_word(word: str, bits: Word, plant: Plant) -> str:
    """A word as a port: with its own range where all of it is there, and else with that of its bits; a word with gaps is bits."""
    if not is_whole(word, bits):
        return ", ".join(escaped(label if label == word else plain(label)) for label, _ in bits)
    indices = sorted(int(re.sub(r".*\[|\]", "", label)) for label, _ in bits)
    own = plant.ranges.get(word, "")
    ends = sorted(map(int, re.findall(r"-?\d+", own)))
    return f"{own if ends == [indices[0], indices[-1]] else f'[{indices[-1]}:{indices[0]}]'} {escaped(word)}"


def reference(label: str, is_memory: bool, controller: Controller) -> str:
    """A bit in the module's text."""
    word = word_of(label)
    groups = {**words(controller.sees), **words(controller.drives)}
    if is_memory or is_whole(word, groups.get(word, [])):
        return escaped(word) + label[len(word) :]
    return escaped(label if label == word else plain(label))


# Checks


def violation(closed: Network, invariant: Network) -> Tuple[str, str]:
    """Two circuits that agree where the closed circuit never leaves the invariant: what is wrong somewhere, and nothing."""
    graph = Graph()
    inputs = [graph.variable() for _ in closed.inputs]
    now = [graph.variable() for _ in closed.latches]
    stands = {it // 2: mine for it, mine in zip(closed.inputs, inputs)}
    stands.update({it.literal // 2: mine for it, mine in zip(closed.latches, now)})
    made = graph.copied(closed, stands)
    names = {closed.name("l", place): place for place in range(len(closed.latches))}
    known = [names[invariant.name("i", place)] for place in range(len(invariant.inputs))]
    further = [it for name, it in names.items() if name == "constraints_held"]

    def holds(values: Sequence[int]) -> int:
        of = graph.copied(invariant, {it // 2: values[place] for it, place in zip(invariant.inputs, known)})
        inside = value_of(of, invariant.outputs[0])
        return graph.any_of([inside, *(values[it] ^ 1 for it in further)])

    following = [value_of(made, it.following) for it in closed.latches]
    begins = graph.all_of(mine ^ (1 - it.first) for it, mine in zip(closed.latches, now) if it.first is not None)
    wrong = graph.any_of(
        [
            graph.conjunction(begins, holds(now) ^ 1),
            graph.conjunction(holds(now), value_of(made, closed.outputs[0])),
            graph.conjunction(holds(now), holds(following) ^ 1),
        ]
    )
    spec, imp = graph.network([*inputs, *now], [0]), graph.network([*inputs, *now], [wrong])
    imp.comment = ["pec 0"]
    return ascii_text(spec), ascii_text(imp)


def for_abc(closed: Network) -> Network:
    """The closed circuit with registers that all begin with 0: others are turned, and free ones take an input in the first step."""
    graph = Graph()
    inputs = [graph.variable() for _ in closed.inputs]
    held = [graph.variable() for _ in closed.latches]
    begun = graph.variable()
    now, first_inputs = [], []
    for latch, literal in zip(closed.latches, held):
        if latch.first is None:
            first_inputs.append(graph.variable())
            now.append(graph.disjunction(graph.conjunction(begun, literal), graph.conjunction(begun ^ 1, first_inputs[-1])))
        else:
            now.append(literal ^ latch.first)
    stands = {it // 2: mine for it, mine in zip(closed.inputs, inputs)}
    stands.update({it.literal // 2: mine for it, mine in zip(closed.latches, now)})
    made = graph.copied(closed, stands)
    latches = [Latch(mine, value_of(made, it.following) ^ (it.first or 0), 0) for it, mine in zip(closed.latches, held)]
    return graph.network([*inputs, *first_inputs], [value_of(made, it) for it in closed.outputs], [*latches, Latch(begun, 1, 0)])


def check_closed(folder: str, seconds: Optional[float]) -> List[str]:
    """Looks at the closed circuit and the invariant in their files; answers who found them right, or fails."""
    closed, invariant = (read_network(os.path.join(folder, it)) for it in ("closed.aag", "invariant.aag"))
    spec, imp = violation(closed, invariant)
    answer = sapuendy.decide(lambda steps, left: sapuendy.pec(spec.encode(), imp.encode(), steps=steps, seconds=left), seconds=seconds)
    if answer.verdict == "FALSE":
        raise Failure(SOLVER_FAILED, f"{folder}: closed.aag leaves invariant.aag")
    found = []
    if answer.verdict == "TRUE":
        sapuendy.checked(sapuendy.encode(spec.encode(), imp.encode()), answer)
        found.append("the invariant, by dqsolve pec and dqcheck")
    if abc_program():
        safe = safe_by_abc(for_abc(closed), seconds)
        if safe == "unsafe":
            raise Failure(SOLVER_FAILED, f"{folder}: abc says that closed.aag meets a bad state")
        found += ["abc pdr"] if safe == "safe" else []
    return found


# What comes of FALSE


@dataclass
class Row:
    """A state and inputs that a refutation speaks of, what each controller sees there, and the states that it has behind them."""

    state: Dict[str, str]
    inputs: Dict[str, str]
    sees: Dict[str, Dict[str, str]]
    following: List[Dict[str, str]]
    is_first: bool


def needed_rows(formula: bytes, text: bytes, seconds: float) -> List[Tuple[int, ...]]:
    """The rows of a refutation that are needed, as literals."""
    from refute import Expansion

    rows = [tuple(map(int, line.split())) for line in dict.fromkeys(re.findall(rb"^u ([-0-9 ]+?) ?0\s*$", text, re.MULTILINE))]
    with sapuendy.named(formula) as names:
        read = FormulaReader(names[0]).read()

    def refuted(chosen: Sequence[Tuple[int, ...]]) -> bool:
        clauses = list(Expansion(read, map(frozenset, chosen)).instances.values())
        variables = sorted({abs(it) for clause in clauses for it in clause})
        number = {it: place for place, it in enumerate(variables, 1)}
        lines = [f"p cnf {len(variables)} {len(clauses)}"]
        lines += [" ".join(map(str, [*(number[abs(it)] * (1 if it > 0 else -1) for it in clause), 0])) for clause in clauses]
        try:
            return sapuendy.solve("".join(f"{it}\n" for it in lines).encode(), seconds=seconds).verdict == "FALSE"
        except sapuendy.OutOfTime:
            return False

    at = 0
    while at < len(rows) <= MOST_ROWS:
        left = rows[:at] + rows[at + 1 :]
        if left and refuted(left):
            rows = left
        else:
            at += 1
    return rows


def rows_in_names(question: Question, rows: Sequence[Sequence[int]]) -> List[Row]:
    """Rows in names, those of one state and one input together, in the order in which they are met from a first state. A row whose copy of the
    registers is its state says only that both copies are judged alike."""
    found: Dict[str, Row] = {}
    for literals in rows:
        row = row_of(question, literals)
        kept = found.setdefault(str((row.state, row.inputs)), row)
        kept.following += [it for it in row.following if it not in kept.following and it != kept.state]
        kept.following = [it for it in kept.following if it != kept.state]
    left = list(found.values())
    leads = [it.state for it in left if it.following]
    left = [it for it in left if it.following or it.state not in leads]
    ordered = [it for it in left if it.is_first]
    for row in ordered:
        ordered += [it for it in left if it.state in row.following and it not in ordered]
    return ordered + [it for it in left if it not in ordered]


def bit_of(graph: Graph, value: Dict[int, int], literal: int) -> int:
    """A literal's bit, where variables have these."""
    found = {0: 0, **value}
    for variable in graph.cone([literal]):
        if variable not in found:
            sides = graph.gates.get(variable)
            found[variable] = int(all(found[it // 2] ^ (it & 1) for it in sides)) if sides else 0
    return found[literal // 2] ^ (literal & 1)


def row_of(question: Question, literals: Sequence[int]) -> Row:
    """A row in names."""
    true = {it for it in literals if it > 0}

    def values(pairs: Sequence[Tuple[str, int]]) -> Dict[str, str]:
        return words_with_values([(label, int(universal in true)) for label, universal in pairs])

    value = {variable: int(universal in true) for variable, universal in question.variable.items() if universal in set(question.universals)}
    sees = {}
    for it in question.controllers:
        shown = [*it.sees, *((state.name, state.literal) for state in it.memory)]
        bits = [(label, bit_of(question.plant.graph, value, literal)) for label, literal in shown]
        sees[it.name] = words_with_values(bits, question.plant.widths())
    names = [it.name for it in question.states]
    inputs = values([(label, universal) for (label, _), universal in zip(question.free, question.inputs)])
    is_first = all(it.first is None or (universal in true) == bool(it.first) for it, universal in zip(question.states, question.held))
    return Row(values(list(zip(names, question.held))), inputs, sees, [values(list(zip(names, question.next_copies)))], is_first)


# The run


@dataclass
class Controlled(sapuendy.Result):
    """What came of it."""

    verdict: str
    seconds: float
    steps: int
    memory: int
    registers: int
    controllers: Dict[str, List[str]]
    checked: Optional[str] = None
    closed_loop: List[str] = field(default_factory=list)
    folder: Optional[str] = None
    rows: List[Row] = field(default_factory=list)


def write_results(question: Question, certificate_text: bytes, folder: str) -> Closing:
    """The files of a verdict TRUE."""
    os.makedirs(folder, exist_ok=True)
    write_text(os.path.join(folder, "formula"), question.text())
    write_text(os.path.join(folder, "certificate"), certificate_text)
    closing = Closing(question, read_network(os.path.join(folder, "certificate")))
    modules = [controller_text(closing, it, question.plant) for it in question.controllers]
    write_text(os.path.join(folder, "controller.v"), "\n".join(modules))
    write_text(os.path.join(folder, "closed.aag"), ascii_text(closing.closed()))
    write_text(os.path.join(folder, "invariant.aag"), ascii_text(closing.invariant()))
    return closing


def names_in(word: str, bits: Word, widths: Dict[str, int]) -> List[str]:
    """A word's name where all of it is there, and else those of its bits."""
    return [word] if len(bits) == widths.get(word, len(bits)) else [label for label, _ in bits]


def tell_run(answer: sapuendy.Answer) -> None:
    counts = f"rounds {answer.rounds} learned {answer.learned}" if answer.rounds is not None else answer.verdict
    print(f"{answer.steps} steps: {counts}, {answer.seconds:.1f} s", file=sys.stderr, flush=True)


def control(asked: Words) -> Controlled:
    """Everything."""
    plant = read_plant(asked.plant, asked.top, asked.defines, asked.folders)
    controllers = controllers_of(plant, asked.see, asked.memory)
    question = Question(plant, controllers)
    driven = {it // 2 for _, it in plant.driven}
    if driven & plant.hangs_on(literal for _, literal in plant.constraints):
        print("note: a constraint hangs on what is driven: a controller may break it, and then nothing is asked of it", file=sys.stderr)
    text = question.text()

    def search(steps: int, left: Optional[float]) -> sapuendy.Answer:
        return sapuendy.solve(text, steps=steps, seconds=left)

    answer = sapuendy.decide(search, steps=asked.steps, seconds=asked.seconds, tell=tell_run)
    answer = sapuendy.checked(text, answer)
    widths = plant.widths()
    views = {it.name: [name for word, bits in words(it.sees).items() for name in names_in(word, bits, widths)] for it in controllers}
    result = Controlled(answer.verdict, round(answer.seconds, 3), answer.steps, asked.memory, len(question.states), views, answer.checked)
    if answer.verdict == "TRUE":
        write_results(question, answer.text, asked.out)
        result.folder, result.closed_loop = asked.out, check_closed(asked.out, asked.seconds)
        if asked.vcd:
            write_text(asked.vcd, run_vcd(read_network(os.path.join(asked.out, "closed.aag")), words_with_values, asked.run))
    if answer.verdict == "FALSE":
        result.rows = rows_in_names(question, needed_rows(text, answer.text, SECONDS_A_ROW))
        if asked.vcd:
            write_text(asked.vcd, rows_vcd(result.rows))
    return result


def rows_vcd(rows: Sequence[Row]) -> str:
    from waveforms import Waveform

    wave = Waveform("rows")
    for row in rows:
        scopes = [("registers", row.state), ("inputs", row.inputs), *row.sees.items()]
        wave.add({(scope, name): value for scope, values in scopes for name, value in values.items()})
    return wave.text()


def tell(result: Controlled) -> None:
    """The result in words."""
    views = "; ".join(f"{name} sees {', '.join(it) or 'nothing'}" for name, it in result.controllers.items())
    memory = "no memory" if result.memory == 0 else f"{result.memory} bit{'s' * (result.memory > 1)} of memory"
    verdicts = {"TRUE": f"TRUE: a controller with {memory} suffices", "FALSE": f"FALSE: no controller with {memory} sees enough"}
    verdict = verdicts.get(result.verdict, "UNKNOWN: not decided in time; --seconds and --steps allow more")
    print(f"{verdict}; {result.checked}" if result.checked else verdict)
    print(views)
    if result.folder:
        print(f"{result.folder}: controller.v, closed.aag, invariant.aag, formula, certificate")
        print(f"closed loop: {', '.join(result.closed_loop) or 'not decided again'}")
    if result.rows:
        print(f"{len(result.rows)} states with inputs show it; where a controller sees the same, it does the same, and in one of them that is wrong:")
        for place, row in enumerate(result.rows[:MOST_SHOWN], 1):
            views = "; ".join(f"{name} sees {said(sees)}" for name, sees in row.sees.items())
            then = f": then {' or '.join(said(it) for it in row.following)}" if row.following else ""
            print(f"{place}. {said(row.state)}{' (first)' * row.is_first}, inputs {said(row.inputs)}{then}\n   {views}")
        if len(result.rows) > MOST_SHOWN:
            print(f"and {len(result.rows) - MOST_SHOWN} more, which --json and --vcd have")


def main(words: List[str]) -> int:
    asked = words_of(words)
    if asked is None:
        print("\n".join((__doc__ or "").split("\n")[2:4]), file=sys.stderr)
        return USAGE
    result = control(asked)
    if asked.json:
        print(result.as_json())
    else:
        tell(result)
    return {"TRUE": 10, "FALSE": 20}.get(result.verdict, 0)


if __name__ == "__main__":
    run_script("control.py", __doc__, main)
