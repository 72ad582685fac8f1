"""Two designs from Verilog as the two circuits of a comparison: ports by name, registers cut by name, black boxes in order.

What the specification leaves open, an x or a z, isn't compared: both sides are masked by what hangs on it, as three-valued logic says. An x of
the implementation is an input more: whatever it is, the outputs must be right; a search may take it as 0 first, which many an x that is never
met makes easier, where what it finds is compared with such inputs. A register that both have is an input, and its next value an
output; one that a side alone has is an input, and its next value isn't compared."""

from __future__ import annotations

from dataclasses import dataclass
from typing import Callable, Dict, List, Sequence, Set, Tuple

from aiger import Graph, Network, ascii_text
from designs import Bit, Box, Module, Port, Register, literals, next_value
from failure import UNREADABLE, Failure
from rows import formula_of
from sapuendy import OutOfTime, solve

SECONDS, STEPS = 5.0, 1_000_000  # for the question whether an x is ever met


@dataclass
class Compared:
    """The two circuits as texts, and what is worth saying of how they came about."""

    spec: str
    imp: str
    notes: List[str]
    boxes: List[Box]
    has_x: bool


def check_ports(spec: Module, imp: Module) -> List[str]:
    """Fails where ports differ; answers what else is odd."""
    notes = []
    mine = {it.name: it for it in imp.ports}
    for port in spec.ports:
        other = mine.pop(port.name, None)
        if port.direction == "inout" or other is not None and other.direction == "inout":
            raise Failure(UNREADABLE, f"the port {port.name} goes both ways")
        if other is None or other.direction != port.direction:
            raise Failure(UNREADABLE, f"{imp.source.shown}: the specification's {port.direction} {port.name} isn't there")
        if other.width != port.width:
            raise Failure(UNREADABLE, f"{imp.source.shown}: {port.name} has {other.width} bits, and in the specification {port.width}")
        if other.range() != port.range():
            ranges = f"{port.range() or 'one bit'} in the specification and {other.range() or 'one bit'} in the implementation"
            notes.append(f"{port.name} is {ranges}: compared from the lowest bit on")
    if mine:
        raise Failure(UNREADABLE, f"{imp.source.shown}: the specification has no {next(iter(mine))}")
    return notes


def partners(spec: Module, imp: Module) -> Tuple[List[Tuple[Register, Register]], List[Register], List[Register], List[str]]:
    """Registers of both by their names, those of one side alone, and what is said of them."""
    mine = {name: it for it in imp.registers for name in (it.name, *it.names)}
    both = []
    for a in spec.registers:
        b = next((mine[name] for name in (a.name, *a.names) if name in mine), None)
        if b is not None and all(b is not it for _, it in both):
            both.append((a, b))
    for a, b in both:
        check_partners(a, b)
    lone = [
        [it for it in registers if not any(it is pair[side] for pair in both)]
        for side, registers in enumerate((spec.registers, imp.registers))
    ]
    notes = []
    if both:
        notes.append(f"registers that both have are cut, and their next values compared: {words_in(a.name for a, _ in both)}")
    for registers, has, lacks in ((lone[0], "specification", "implementation"), (lone[1], "implementation", "specification")):
        if registers:
            names = words_in(it.name for it in registers)
            what = "any value is tried, and their next values aren't compared"
            notes.append(f"registers of the {has} without a partner of their name in the {lacks}: {names}: {what}")
    return both, lone[0], lone[1], notes


def check_partners(a: Register, b: Register) -> None:
    """Fails where registers of one name can't be compared by their next values."""
    sides = "{} in the specification and {} in the implementation"
    if a.kind != b.kind:
        raise Failure(UNREADABLE, f"register {a.name} can't be cut: its clock is {sides.format(a.kind or 'none', b.kind or 'none')}")
    if a.first is not None and a.first != b.first:
        values = "{} in the specification and with {} in the implementation".format(a.first, "anything" if b.first is None else b.first)
        raise Failure(UNREADABLE, f"register {a.name} can't be cut: it begins with {values}")


def words_in(names: Sequence[str]) -> str:
    """Names of bits as words, each once."""
    return ", ".join(dict.fromkeys(it.partition("[")[0] for it in names))


def known_ports(module: Module, inputs: Dict[Tuple[str, int], int]) -> Dict[Bit, int]:
    return {bit: inputs[port.name, place] for port in module.inputs for place, bit in enumerate(port.bits)}


def masks(graph: Graph, roots: Sequence[int], unknowns: Set[int]) -> List[Tuple[int, int]]:
    """Of each literal what it is where it hangs on no unknown, and where it does, by three-valued logic."""
    may: Dict[int, Tuple[int, int]] = {0: (0, 1)}  # whether it may be 1, and whether it may be 0

    def pair(literal: int) -> Tuple[int, int]:
        one, zero = may[literal // 2]
        return (zero, one) if literal & 1 else (one, zero)

    for variable in graph.cone(roots):
        if 2 * variable in unknowns:
            may[variable] = (1, 1)
        elif variable not in graph.gates:
            may[variable] = (2 * variable, 2 * variable + 1)
        else:
            (one, zero), (other_one, other_zero) = map(pair, graph.gates[variable])
            may[variable] = (graph.conjunction(one, other_one), graph.disjunction(zero, other_zero))
    return [(pair(it)[0], graph.conjunction(*pair(it))) for it in roots]


class Comparison:
    """Makes both circuits in one graph, over common inputs."""

    def __init__(self, spec: Module, imp: Module, same: bool = False, x_is_input: bool = True):
        if spec.boxes:
            raise Failure(UNREADABLE, f"{spec.source.shown}: a specification has no black boxes, and {spec.boxes[0].module} is one")
        self.spec, self.imp, self.same, self.x_is_input = spec, imp, same, x_is_input
        self.has_x = False
        self.met: Dict[int, bool] = {}
        self.graph, self.inputs, self.names = Graph(), [], []
        self.notes = check_ports(spec, imp)
        self.both, spec_alone, imp_alone, notes = partners(spec, imp)
        self.notes += notes
        ports = {(port.name, place): self.input(port.label(place)) for port in imp.inputs for place in range(port.width)}
        self.known_spec, self.known_imp = known_ports(spec, ports), known_ports(imp, ports)
        for a, b in self.both:
            self.known_spec[a.value] = self.known_imp[b.value] = self.input(a.name)
        for known, registers in ((self.known_spec, spec_alone), (self.known_imp, imp_alone)):
            for it in registers:
                known[it.value] = self.input(it.name)

    def input(self, name: str) -> int:
        literal = self.graph.variable()
        self.inputs.append(literal)
        taken = set(self.names)
        self.names.append(name if name not in taken else next(f"{name}.{k}" for k in range(2, len(taken) + 3) if f"{name}.{k}" not in taken))
        return literal

    def roots(self, module: Module, registers: Sequence[Register], literal: Callable[[Bit], int]) -> List[int]:
        """What is compared: outputs in the implementation's order, next values, and what resets asynchronously, of each word once."""
        ports = {it.name: it for it in module.outputs}
        outputs = [literal(bit) for port in self.imp.outputs for bit in ports[port.name].bits]
        following = [next_value(it, literal, self.graph) for it in registers]
        return outputs + following + [literal(registers[it].reset or "0") for it in self.resets()]

    def resets(self) -> List[int]:
        """The places of the first bits of words with an asynchronous reset."""
        first: Dict[str, int] = {}
        for place, (a, _) in enumerate(self.both):
            if a.reset is not None:
                first.setdefault(a.name.partition("[")[0], place)
        return list(first.values())

    def output_names(self) -> List[str]:
        ports = [port.label(place) for port in self.imp.outputs for place in range(port.width)]
        resets = [f"{self.both[it][0].name.partition('[')[0]}:reset" for it in self.resets()]
        return ports + [f"{a.name}'" for a, _ in self.both] + resets

    def specified(self) -> List[Tuple[int, int]]:
        """The specification's values, and where each isn't compared."""
        unknowns: Set[int] = set()

        def unknown(_kind: str) -> int:
            unknowns.add(self.graph.variable())
            return 2 * self.graph.top

        literal = literals(self.spec, self.known_spec, unknown, self.graph)
        found = masks(self.graph, self.roots(self.spec, [a for a, _ in self.both], literal), unknowns)
        found = [(value, mask if self.is_met(mask) else 0) for value, mask in found]
        open_names = [name for name, (_, mask) in zip(self.output_names(), found) if mask]
        if open_names:
            self.notes.append(f"an x of the specification leaves these open in some rows, where they aren't compared: {words_in(open_names)}")
        return found

    def is_met(self, mask: int) -> bool:
        """Whether a mask may be 1 in some row: an x of a case that is never met leaves nothing open."""
        if mask > 1 and mask not in self.met:
            try:
                self.met[mask] = solve(formula_of(self.graph, [mask], ()), steps=STEPS, seconds=SECONDS).verdict != "FALSE"
            except OutOfTime:
                self.met[mask] = True
        return self.met.get(mask, mask == 1)

    def implemented(self) -> Tuple[List[int], List[List[Tuple[str, int]]], List[List[Tuple[str, int]]]]:
        """The implementation's values, and what each box reads and drives."""
        drives = []
        for box in self.imp.boxes:
            drives.append([])
            for port in box.outs:
                for place, bit in enumerate(port.bits):
                    if isinstance(bit, int):
                        self.known_imp[bit] = self.graph.variable()
                        drives[-1].append((port.label(place), self.known_imp[bit]))
        found: List[int] = []

        def unknown(_kind: str) -> int:
            self.has_x = True
            found.append(self.input(f"x{len(found) + 1}") if self.x_is_input else 0)
            return found[-1]

        literal = literals(self.imp, self.known_imp, unknown, self.graph)
        roots = self.roots(self.imp, [b for _, b in self.both], literal)
        reads = [
            [(port.label(place), 0 if bit in ("x", "z") else literal(bit)) for port in box.ins for place, bit in enumerate(port.bits)]
            for box in self.imp.boxes
        ]
        return roots, reads, drives

    def in_order(self, reads: List[List[Tuple[str, int]]], drives: List[List[Tuple[str, int]]]) -> List[int]:
        """The places of the boxes in an order in which each stands behind those whose outputs it reads."""
        driver = {literal // 2: place for place, outs in enumerate(drives) for _, literal in outs}
        before = [{driver[it] for it in self.graph.cone(literal for _, literal in ins) if it in driver} for ins in reads]
        order: List[int] = []
        while len(order) < len(reads):
            ready = [it for it in range(len(reads)) if it not in order and before[it] <= set(order)]
            if not ready:
                rest = ", ".join(box.name for place, box in enumerate(self.imp.boxes) if place not in order)
                raise Failure(UNREADABLE, f"{self.imp.source.shown}: these boxes read each other in a circle: {rest}")
            order += ready
        return order

    def groups(self, boxes: Sequence[Box]) -> List[List[int]]:
        """The places of boxes that are one module, of one width."""
        found: Dict[object, List[int]] = {}
        for place, box in enumerate(boxes):
            shape = (box.module, tuple((it.name, it.width) for it in (*box.ins, *box.outs)))
            found.setdefault(shape, []).append(place)
        return [it for it in found.values() if len(it) > 1]

    def made(self) -> Compared:
        """Both circuits."""
        specified = self.specified()
        roots, reads, drives = self.implemented()
        order = self.in_order(reads, drives)
        boxes = [self.imp.boxes[it] for it in order]
        reads, drives = [reads[it] for it in order], [drives[it] for it in order]
        if self.same:
            self.share_ports(boxes, reads, drives)
        else:
            reads = [[it for it in ins if it[1] > 1] for ins in reads]
        values = [self.graph.conjunction(value, mask ^ 1) for value, mask in specified]
        compared = [self.graph.conjunction(value, mask ^ 1) for value, (_, mask) in zip(roots, specified)]
        spec, imp = self.spec_text(values, [mask for _, mask in specified]), self.imp_text(compared, boxes, reads, drives)
        return Compared(spec, imp, self.notes, boxes, self.has_x)

    def share_ports(self, boxes: Sequence[Box], reads: List[List[Tuple[str, int]]], drives: List[List[Tuple[str, int]]]) -> None:
        """Gives boxes of one content the same ports: an output that one leaves unconnected is driven too, and read by nothing."""
        for group in self.groups(boxes):
            labels = list(dict.fromkeys(label for place in group for label, _ in drives[place]))
            for place in group:
                own = dict(drives[place])
                drives[place] = [(label, own[label] if label in own else self.graph.variable()) for label in labels]

    def named(self, network: Network) -> Network:
        network.names.update({("i", place): name for place, name in enumerate(self.names)})
        network.names.update({("o", place): name for place, name in enumerate(self.output_names())})
        return network

    def spec_text(self, values: List[int], open_where: List[int]) -> str:
        network = self.graph.network(self.inputs, values, further=open_where)
        network.outputs, free = network.outputs[: len(values)], network.outputs[len(values) :]
        network.comment = [f"free {place} {literal}" for place, literal in enumerate(free) if literal]
        return ascii_text(self.named(network))

    def imp_text(self, values: List[int], boxes: Sequence[Box], reads: List[List[Tuple[str, int]]], drives: List[List[Tuple[str, int]]]) -> str:
        driven = [literal for outs in drives for _, literal in outs]
        read = [literal for ins in reads for _, literal in ins]
        network = self.graph.network([*self.inputs, *driven], values, further=read)
        network.outputs, numbers = network.outputs[: len(values)], with_constants(network, network.outputs[len(values) :])
        new = dict(zip(driven, network.inputs[len(self.inputs) :]))
        lines, names, ports = [], [], []
        for box, ins, outs in zip(boxes, reads, drives):
            literals_of = [numbers.pop(0) for _ in ins] + [new[literal] for _, literal in outs]
            lines.append(" ".join(map(str, [len(ins), len(outs), *literals_of])))
            names.append(" ".join(["box", box.name, *(label for label, _ in (*ins, *outs))]))
            ports.append(" ".join(["module", box.name, box.module, *map(declaration, (*box.ins, *box.outs))]))
        same = [" ".join(map(str, ["same", *(it + 1 for it in group)])) for group in (self.groups(boxes) if self.same else [])]
        network.comment = [f"pec {len(boxes)}", *lines, *names, *ports, *same]
        for place, (box, label) in enumerate((box, label) for box, outs in zip(boxes, drives) for label, _ in outs):
            network.names["i", len(self.inputs) + place] = f"{box.name}.{label}"
        return ascii_text(self.named(network))


def with_constants(network: Network, literals_read: List[int]) -> List[int]:
    """The literals, of which constants are replaced by a gate that is one: a box reads no constant."""
    if any(it < 2 for it in literals_read):
        if not network.inputs:
            raise Failure(UNREADABLE, "a design without inputs, whose boxes read constants")
        literal = 2 * (len(network.inputs) + len(network.gates) + 1)
        network.gates.append((literal, network.inputs[0], network.inputs[0] ^ 1))
        return [literal ^ it if it < 2 else it for it in literals_read]
    return literals_read


def declaration(port: Port) -> str:
    """A port in the implementation's comment."""
    return f"{port.direction}{' signed' * port.signed}".replace(" ", "-") + f":{port.range()}:{port.name}"
