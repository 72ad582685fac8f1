"""And-inverter networks: AIGER's texts with registers and properties in either form, and a graph in which gates are made as they are needed.

A literal is AIGER's: 2v for variable v, 2v + 1 for its negation, 0 and 1 for false and true."""

from __future__ import annotations

import re
from dataclasses import dataclass, field
from typing import Dict, Iterable, List, Optional, Sequence, Tuple

from failure import UNREADABLE, Failure
from texts import bytes_of

SECTIONS = ("bad", "constraints", "justice", "fairness")


@dataclass
class Latch:
    """A register of one bit: its literal, its next value, and its first one, None where it is free."""

    literal: int
    following: int
    first: Optional[int] = 0


@dataclass
class Network:
    """What a text in AIGER says. Gates stand in an order in which each reads what stands before it."""

    inputs: List[int] = field(default_factory=list)
    latches: List[Latch] = field(default_factory=list)
    outputs: List[int] = field(default_factory=list)
    bad: List[int] = field(default_factory=list)
    constraints: List[int] = field(default_factory=list)
    justice: int = 0
    fairness: int = 0
    gates: List[Tuple[int, int, int]] = field(default_factory=list)
    names: Dict[Tuple[str, int], str] = field(default_factory=dict)
    comment: List[str] = field(default_factory=list)

    def name(self, letter: str, place: int) -> str:
        """The symbol of an input (i), register (l), output (o), bad state (b) or constraint (c), or what stands for it."""
        return self.names.get((letter, place)) or f"{letter}{place}"


class Graph:
    """Gates, of which equal ones are made once, and constants are put in."""

    def __init__(self) -> None:
        self.top = 0
        self.gates: Dict[int, Tuple[int, int]] = {}
        self._known: Dict[Tuple[int, int], int] = {}

    def variable(self) -> int:
        """A new variable's literal."""
        self.top += 1
        return 2 * self.top

    def conjunction(self, a: int, b: int) -> int:
        """The literal of `a and b`."""
        if a > b:
            a, b = b, a
        if a == 0 or a == b ^ 1:
            return 0
        if a == 1 or a == b:
            return b
        if (a, b) not in self._known:
            literal = self.variable()
            self._known[a, b] = literal
            self.gates[literal // 2] = (a, b)
        return self._known[a, b]

    def disjunction(self, a: int, b: int) -> int:
        """The literal of `a or b`."""
        return self.conjunction(a ^ 1, b ^ 1) ^ 1

    def difference(self, a: int, b: int) -> int:
        """The literal of `a xor b`."""
        return self.disjunction(self.conjunction(a, b ^ 1), self.conjunction(a ^ 1, b))

    def all_of(self, literals: Iterable[int]) -> int:
        """The conjunction of all, balanced."""
        left = list(literals) or [1]
        while len(left) > 1:
            left = [self.conjunction(*left[k : k + 2]) if k + 1 < len(left) else left[k] for k in range(0, len(left), 2)]
        return left[0]

    def any_of(self, literals: Iterable[int]) -> int:
        """The disjunction of all."""
        return self.all_of(it ^ 1 for it in literals) ^ 1

    def copied(self, network: Network, stands_for: Dict[int, int]) -> Dict[int, int]:
        """Makes a network's gates over literals that stand for its variables; answers what stands for each variable of it."""
        made = {0: 0, **stands_for}
        for literal, a, b in network.gates:
            made[literal // 2] = self.conjunction(made[a // 2] ^ (a & 1), made[b // 2] ^ (b & 1))
        return made

    def cone(self, roots: Iterable[int]) -> List[int]:
        """The variables that literals hang on, each behind those that it reads."""
        found, left = set(), [it // 2 for it in roots]
        while left:
            variable = left.pop()
            if variable and variable not in found:
                found.add(variable)
                left += [side // 2 for side in self.gates.get(variable, ())]
        return sorted(found)

    def network(self, inputs: Sequence[int], outputs: Sequence[int], latches: Sequence[Latch] = (), further: Sequence[int] = ()) -> Network:
        """The network of these outputs, in new numbers: inputs, then registers, then the gates that are reached, also from further literals,
        which come as its last outputs."""
        number = {0: 0}
        for literal in [*inputs, *(it.literal for it in latches)]:
            number[literal // 2] = 2 * len(number)
        gates = []

        def new(literal: int) -> int:
            return number[literal // 2] ^ (literal & 1)

        for variable in self.cone([*outputs, *further, *(it.following for it in latches)]):
            if variable not in number:
                number[variable] = 2 * len(number)
                a, b = map(new, self.gates[variable])
                gates.append((number[variable], a, b))
        registers = [Latch(new(it.literal), new(it.following), it.first) for it in latches]
        return Network([new(it) for it in inputs], registers, [new(it) for it in (*outputs, *further)], gates=gates)


def value_of(made: Dict[int, int], literal: int) -> int:
    """What stands for a literal, where this stands for variables."""
    return made[literal // 2] ^ (literal & 1)


def columns(network: Network, given: Dict[int, int], every: int) -> Dict[int, int]:
    """The values of all variables in many rows at once: a bit a row, of those that are set in `every`."""
    found = {0: 0, **given}
    for literal, a, b in network.gates:
        left = found[a // 2] ^ (every if a & 1 else 0)
        right = found[b // 2] ^ (every if b & 1 else 0)
        found[literal // 2] = left & right
    return found


# Reading


class Reader:
    """Reads a text in AIGER, of either form, line by line."""

    def __init__(self, path: str):
        self.path, self.data, self.at, self.line = path, bytes_of(path), 0, 0

    def check(self, holds: object, message: str) -> None:
        if not holds:
            raise Failure(UNREADABLE, f"{self.path}: line {self.line}: {message}")

    def take(self) -> str:
        self.line += 1
        self.check(self.at < len(self.data), "the text ends here, too early")
        end = self.data.find(b"\n", self.at)
        end = len(self.data) if end < 0 else end
        taken, self.at = self.data[self.at : end], end + 1
        return taken.decode("utf-8", "replace").rstrip("\r")

    def numbers(self, least: int, most: int) -> List[int]:
        words = self.take().split()
        self.check(least <= len(words) <= most and all(it.isdigit() for it in words), "natural numbers are due here")
        return [int(it) for it in words]

    def delta(self) -> int:
        value, shift = 0, 0
        while True:
            self.check(self.at < len(self.data), "the binary part ends too early")
            byte = self.data[self.at]
            self.at += 1
            value |= (byte & 127) << shift
            shift += 7
            if byte < 128:
                return value

    def read(self) -> Network:
        words = self.take().split()
        if words == ["s", "TRUE"]:
            words = self.take().split()
        fits = words[:1] in (["aag"], ["aig"]) and 6 <= len(words) <= 10 and all(it.isdigit() for it in words[1:])
        self.check(fits, "no header `aag M I L O A` or `aig M I L O A` stands here")
        is_binary = words[0] == "aig"
        top, ins, latches, outs, gates, *further = [int(it) for it in words[1:]]
        counts = dict(zip(SECTIONS, further + [0] * 4))
        network = Network(justice=counts["justice"], fairness=counts["fairness"])
        self.check(top >= ins + latches + gates, "fewer variables than inputs, registers and gates")
        network.inputs = [2 * k + 2 if is_binary else self.numbers(1, 1)[0] for k in range(ins)]
        for k in range(latches):
            network.latches.append(self.latch(2 * (ins + k) + 2 if is_binary else None))
        network.outputs = [self.numbers(1, 1)[0] for _ in range(outs)]
        network.bad = [self.numbers(1, 1)[0] for _ in range(counts["bad"])]
        network.constraints = [self.numbers(1, 1)[0] for _ in range(counts["constraints"])]
        for size in [self.numbers(1, 1)[0] for _ in range(network.justice)]:
            for _ in range(size):
                self.take()
        for _ in range(network.fairness):
            self.take()
        read = self.binary_gates(ins + latches, gates) if is_binary else [self.gate() for _ in range(gates)]
        self.symbols(network)
        return self.ordered(network, read, top)

    def latch(self, literal: Optional[int]) -> Latch:
        numbers = self.numbers(2 - (literal is not None), 3 - (literal is not None))
        if literal is not None:
            numbers.insert(0, literal)
        first = numbers[2] if len(numbers) > 2 else 0
        self.check(first in (0, 1, numbers[0]), "a register begins with 0, with 1, or, free, with itself")
        return Latch(numbers[0], numbers[1], first if first < 2 else None)

    def gate(self) -> Tuple[int, int, int]:
        literal, a, b = self.numbers(3, 3)
        return literal, a, b

    def binary_gates(self, before: int, count: int) -> List[Tuple[int, int, int]]:
        gates = []
        self.line += 1
        for k in range(count):
            literal = 2 * (before + k + 1)
            a = literal - self.delta()
            b = a - self.delta()
            self.check(0 <= b <= a < literal, f"no right sides of the gate of variable {literal // 2}")
            gates.append((literal, a, b))
        return gates

    def symbols(self, network: Network) -> None:
        while self.at < len(self.data):
            line = self.take()
            if line.rstrip() == "c":
                network.comment = self.data[self.at :].decode("utf-8", "replace").split("\n")
                return
            symbol = re.fullmatch(r"([ilobcjf])([0-9]+)\s(.*)", line)
            self.check(symbol or not line.strip(), "neither a symbol nor the line `c`")
            if symbol:
                network.names[symbol[1], int(symbol[2])] = symbol[3]

    def ordered(self, network: Network, gates: List[Tuple[int, int, int]], top: int) -> Network:
        """The network with its gates in order."""
        sides = {literal // 2: (literal, a, b) for literal, a, b in gates}
        placed = {0, *(it // 2 for it in network.inputs), *(it.literal // 2 for it in network.latches)}
        self.check(len(sides) == len(gates) and not placed & sides.keys(), "a variable is an input, a register or one gate alone")
        path: Dict[int, bool] = {}
        for root in sides:
            left = [root]
            while left:
                variable = left[-1]
                self.check(variable in placed or variable in sides, f"variable {variable} is neither an input nor a gate")
                missing = [] if variable in placed else [it // 2 for it in sides[variable][1:] if it // 2 not in placed]
                if not missing:
                    if variable not in placed:
                        network.gates.append(sides[variable])
                        placed.add(variable)
                    left.pop()
                else:
                    self.check(not any(path.get(it) for it in missing), "gates read each other in a circle")
                    path[variable] = True
                    left += missing
        read = [*network.outputs, *network.bad, *network.constraints, *(it.following for it in network.latches)]
        undefined = [it // 2 for it in read if it // 2 not in placed]
        self.check(not undefined, f"variable {undefined[:1]} is neither an input nor a gate")
        return network


def read_network(path: str) -> Network:
    """The network in a file."""
    return Reader(path).read()


# Writing


def symbol_lines(network: Network) -> List[str]:
    order = "ilobcjf"
    return [f"{letter}{place} {name}" for (letter, place), name in sorted(network.names.items(), key=lambda it: (order.index(it[0][0]), it[0][1]))]


def header(kind: str, network: Network) -> str:
    top = max([0, *(it // 2 for it in network.inputs), *(it.literal // 2 for it in network.latches), *(it[0] // 2 for it in network.gates)])
    counts = [top, len(network.inputs), len(network.latches), len(network.outputs), len(network.gates)]
    if network.bad or network.constraints:
        counts += [len(network.bad), len(network.constraints)]
    return " ".join(map(str, [kind, *counts]))


def latch_line(latch: Latch) -> List[int]:
    first = [] if latch.first == 0 else [latch.literal if latch.first is None else latch.first]
    return [latch.literal, latch.following, *first]


def ascii_text(network: Network) -> str:
    """The text in the ASCII form, with symbols and comment."""
    lines = [header("aag", network), *map(str, network.inputs)]
    lines += [" ".join(map(str, latch_line(it))) for it in network.latches]
    lines += [str(it) for it in (*network.outputs, *network.bad, *network.constraints)]
    lines += [" ".join(map(str, it)) for it in network.gates] + symbol_lines(network)
    return "\n".join(lines + (["c", *network.comment] if network.comment else [])) + "\n"


def delta_bytes(delta: int) -> bytes:
    code = bytearray()
    while delta >= 128:
        code.append(delta & 127 | 128)
        delta >>= 7
    code.append(delta)
    return bytes(code)


def binary_text(network: Network) -> bytes:
    """The text in the binary form, for a network in the numbers that `Graph.network` gives."""
    lines = [header("aig", network), *(" ".join(map(str, latch_line(it)[1:])) for it in network.latches)]
    lines += [str(it) for it in (*network.outputs, *network.bad, *network.constraints)]
    code = b"".join(delta_bytes(it - max(a, b)) + delta_bytes(max(a, b) - min(a, b)) for it, a, b in network.gates)
    return "".join(f"{line}\n" for line in lines).encode() + code + "".join(f"{line}\n" for line in symbol_lines(network)).encode()


def write_text(path: str, text: object) -> None:
    """Writes a file, or fails with a sentence."""
    try:
        with open(path, "wb") as file:
            file.write(text if isinstance(text, bytes) else str(text).encode())
    except OSError as error:
        raise Failure(UNREADABLE, f"{path}: {error.strerror}") from error
