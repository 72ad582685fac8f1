"""Plants for controllers: from AIGER with registers, or from Verilog by yosys. Inputs whose names begin with `controllable_` are driven."""

from __future__ import annotations

import fnmatch
import re
from dataclasses import dataclass, field
from typing import Dict, Iterable, List, Optional, Sequence, Set, Tuple

from aiger import Graph, Network, read_network, value_of
from designs import Module, Source, literals, next_value, read_module
from failure import UNREADABLE, Failure

DRIVEN = "controllable_"

Word = List[Tuple[str, int]]  # bits with their names, the lowest first


@dataclass
class State:
    """A register of one bit: its name, its literal, its next value, and its first one, None where it is free."""

    name: str
    literal: int
    following: int
    first: Optional[int]


@dataclass
class Plant:
    """A plant in a graph: inputs that are free, inputs that are driven, registers, what is bad, what is assumed, and what else has a name."""

    graph: Graph
    free: Word = field(default_factory=list)
    driven: Word = field(default_factory=list)
    states: List[State] = field(default_factory=list)
    bad: Word = field(default_factory=list)
    constraints: Word = field(default_factory=list)
    signals: Dict[str, Word] = field(default_factory=dict)
    ranges: Dict[str, str] = field(default_factory=dict)

    def widths(self) -> Dict[str, int]:
        """How many bits each word has."""
        named = [self.free, [(it.name, it.literal) for it in self.states], *self.signals.values()]
        return {word: len(bits) for it in reversed(named) for word, bits in words(it).items()}

    def hangs_on(self, roots: Iterable[int]) -> Set[int]:
        """The variables that literals hang on."""
        return set(self.graph.cone(roots))


def word_of(label: str) -> str:
    """A bit's word: `a` of `a[3]`."""
    return re.sub(r"\[-?\d+\]$", "", label)


def words(bits: Word) -> Dict[str, Word]:
    """Bits by their words."""
    found: Dict[str, Word] = {}
    for label, literal in bits:
        found.setdefault(word_of(label), []).append((label, literal))
    return found


# Reading


def check_network(network: Network, path: str) -> None:
    for count, name in ((network.justice, "J (justice)"), (network.fairness, "F (fairness)")):
        if count:
            what = "that something happens again and again isn't asked here, only that nothing bad does"
            raise Failure(UNREADABLE, f"{path}: it has a section {name}: {what}")


def plant_of_network(network: Network, path: str) -> Plant:
    check_network(network, path)
    graph = Graph()
    plant = Plant(graph)
    stands = {}
    for place, literal in enumerate(network.inputs):
        name = network.name("i", place)
        stands[literal // 2] = graph.variable()
        (plant.driven if name.startswith(DRIVEN) else plant.free).append((name, stands[literal // 2]))
    for latch in network.latches:
        stands[latch.literal // 2] = graph.variable()
    made = graph.copied(network, stands)
    for place, latch in enumerate(network.latches):
        plant.states.append(State(network.name("l", place), stands[latch.literal // 2], value_of(made, latch.following), latch.first))
    outputs = [(network.name("o", place), value_of(made, it)) for place, it in enumerate(network.outputs)]
    bad = [(network.name("b", place), value_of(made, it)) for place, it in enumerate(network.bad)]
    plant.bad = bad or outputs
    plant.constraints = [(network.name("c", place), value_of(made, it)) for place, it in enumerate(network.constraints)]
    plant.signals = words(outputs) if bad else {}
    return plant


def plant_of_module(module: Module) -> Plant:
    """Outputs that are `bad`, or begin with `bad_`, are bad, and those that begin with `assume` are assumed; without any of these, all are bad."""
    if module.boxes:
        raise Failure(UNREADABLE, f"{module.source.shown}: a plant has no black boxes: what is driven is an input {DRIVEN}NAME")
    clocks = {it.clock for it in module.registers}
    if len(clocks) > 1:
        raise Failure(UNREADABLE, f"{module.source.shown}: registers have several clocks: {', '.join(sorted(clocks))}")
    graph = Graph()
    plant, known = Plant(graph), {}
    for port in module.inputs:
        is_clock = any(clock.split(" ")[-1] == port.name for clock in clocks)
        for place, bit in enumerate(port.bits):
            known[bit] = graph.variable()
            if not is_clock:
                (plant.driven if port.name.startswith(DRIVEN) else plant.free).append((port.label(place), known[bit]))
    for it in module.registers:
        known[it.value] = graph.variable()

    def unknown(_kind: str) -> int:
        plant.free.append((f"x{graph.top + 1}", graph.variable()))
        return plant.free[-1][1]

    literal = literals(module, known, unknown, graph)
    plant.states = [State(it.name, known[it.value], next_value(it, literal, graph), it.first) for it in module.registers]
    outputs = {port.name: [(port.label(place), literal(bit)) for place, bit in enumerate(port.bits)] for port in module.outputs}
    named_bad = [name for name in outputs if name == "bad" or name.startswith("bad_")]
    assumed = [name for name in outputs if name.startswith("assume")]
    chosen = named_bad or [name for name in outputs if name not in assumed]
    plant.bad = [bit for name in chosen for bit in outputs[name]]
    plant.constraints = [bit for name in assumed for bit in outputs[name]]
    drivers = {*module.drivers, *known} - {bit for port in module.inputs for bit in port.bits}
    for name, word in module.words.items():
        if all(bit in drivers or bit in ("0", "1") for bit in word.bits):
            plant.signals[name] = [(word.label(place), literal(bit)) for place, bit in enumerate(word.bits)]
        plant.ranges[name] = word.range()
    plant.ranges.update({port.name: port.range() for port in module.ports})
    return plant


def read_plant(paths: Sequence[str], top: Optional[str] = None, defines: Sequence[str] = (), folders: Sequence[str] = ()) -> Plant:
    """The plant in Verilog's files, or in one of AIGER."""
    with_aiger = [it for it in paths if it.endswith((".aag", ".aig"))]
    if with_aiger and len(paths) > 1:
        raise Failure(UNREADABLE, f"{with_aiger[0]}: a plant in AIGER is one file")
    if with_aiger:
        plant = plant_of_network(read_network(paths[0]), paths[0])
    else:
        plant = plant_of_module(read_module(Source(tuple(paths), top, tuple(defines), tuple(folders)), keeps_all=True))
    if not plant.driven:
        raise Failure(UNREADABLE, f"{paths[0]}: no input's name begins with {DRIVEN}: nothing is driven")
    if not plant.bad:
        raise Failure(UNREADABLE, f"{paths[0]}: it has no output, and no section B: nothing is bad")
    return plant


# Controllers


@dataclass
class Controller:
    """A controller: its name, the words that it drives, and what it sees; its memory, a register whose next value it drives too."""

    name: str
    drives: Word
    sees: Word
    memory: List[State] = field(default_factory=list)
    recalls: Word = field(default_factory=list)  # the next values of its memory


def found_bits(plant: Plant, name: str) -> Word:
    """What a name of `--see` means: words and bits of free inputs, registers and, where none has it, other signals; `*` stands for anything."""
    seen = plant.free + [(it.name, it.literal) for it in plant.states]
    found = [bit for bit in seen if fnmatch.fnmatchcase(word_of(bit[0]), name) or bit[0] == name]
    if not found:
        found = [bit for word, bits in plant.signals.items() for bit in bits if fnmatch.fnmatchcase(word, name) or bit[0] == name]
    if not found:
        there = [*words(seen), *(it for it in plant.signals if it not in words(seen))]
        there = [it for it in there if not it.startswith(DRIVEN)]
        raise Failure(UNREADABLE, f"there is no {name} to be seen; there are {', '.join(there[:30])}{' ..' if len(there) > 30 else ''}")
    return found


def distinct(bits: Word) -> Word:
    found: Dict[str, int] = {}
    for label, literal in bits:
        found.setdefault(label, literal)
    return list(found.items())


def controllers_of(plant: Plant, sights: Sequence[str], memory: int) -> List[Controller]:
    """The controllers that the options `--see` part the driven words into, each with so many bits of memory."""
    left, found = words(plant.driven), []
    common: Optional[Word] = None
    for sight in sights:
        who, equals, names = sight.rpartition("=")
        bits = distinct([bit for name in names.split(",") if name for bit in found_bits(plant, name)])
        if not equals:
            common = (common or []) + bits
            continue
        drives: Word = []
        for name in who.split("+"):
            whole = name if name in left else DRIVEN + name
            if whole not in left:
                driven = ", ".join(words(plant.driven))
                raise Failure(UNREADABLE, f"--see {sight}: {whole} isn't driven, or is another controller's; driven are {driven}")
            drives += left.pop(whole)
        found.append(Controller("_".join(it.removeprefix(DRIVEN) for it in who.split("+")), drives, bits))
    if left:
        everything = plant.free + [(it.name, it.literal) for it in plant.states]
        drives = [bit for it in left.values() for bit in it]
        found.append(Controller("others" if found else "controller", drives, distinct(everything if common is None else common)))
    check_sights(plant, found)
    for controller in found:
        add_memory(plant, controller, memory, len(found) > 1)
    return found


def check_sights(plant: Plant, controllers: Sequence[Controller]) -> None:
    driven = {it // 2: name for name, it in plant.driven}
    for controller in controllers:
        for label, literal in controller.sees:
            own = [driven[it] for it in plant.hangs_on([literal]) if it in driven]
            if own:
                raise Failure(UNREADABLE, f"{label} can't be seen: it hangs on {own[0]}, which is driven in the same step")


def add_memory(plant: Plant, controller: Controller, size: int, has_name: bool) -> None:
    """Gives a controller so many registers, which begin with 0, and whose next values it drives."""
    word = f"{controller.name}_memory" if has_name else "memory"
    for place in range(size):
        label = f"{word}[{place}]" if size > 1 else word
        state = State(label, plant.graph.variable(), plant.graph.variable(), 0)
        plant.states.append(state)
        controller.memory.append(state)
        controller.recalls.append((label.replace(word, f"next_{word}"), state.following))
    if size > 1:
        plant.ranges[word] = f"[{size - 1}:0]"
