"""Two circuits of a comparison with black boxes, as docs/BLACK_BOX.md has them, and what a certificate says of the boxes' contents.

Behind the boxes' lines of the comment `pec` stand, as free text, a line `box NAME IN.. OUT..` for each box with the names of what it reads and
drives, and a line `module NAME MODULE PORT..` with its declaration, a port as `input:[7:4]:a`; `same B..` names boxes, by their numbers, that
get one content. The specification's comment may say `free PLACE LITERAL`: its output at this place isn't compared where the literal is true."""

from __future__ import annotations

import re
from dataclasses import dataclass, field
from typing import Dict, List, Optional, Sequence, Tuple

from aiger import Network, read_network
from failure import UNREADABLE, Failure
from texts import bytes_of


@dataclass(frozen=True)
class Declared:
    """A port of a box's module as it was declared."""

    direction: str
    range: str
    name: str

    @staticmethod
    def read(word: str) -> "Declared":
        """A port as the comment has it: `input:[7:4]:a`."""
        found = re.fullmatch(r"([a-z-]+):(\[-?\d+:-?\d+\])?:(.+)", word)
        if not found:
            raise Failure(UNREADABLE, f"`{word}` isn't a port of a box's module")
        return Declared(found[1], found[2] or "", found[3])

    def text(self) -> str:
        return " ".join(it for it in (self.direction.replace("-", " "), self.range, escaped(self.name)) if it)


@dataclass
class Box:
    """A box: what it reads and drives, as literals of the implementation, and their names."""

    name: str
    ins: List[int]
    outs: List[int]
    in_names: List[str]
    out_names: List[str]
    module: Optional[str] = None
    ports: List[Declared] = field(default_factory=list)


@dataclass
class Design:
    """A specification, an implementation, and its boxes; what isn't compared, and which boxes get one content."""

    spec: Network
    imp: Network
    boxes: List[Box]
    free: Dict[int, int]
    same: List[List[int]]

    @property
    def shared(self) -> int:
        """How many inputs both have."""
        return len(self.spec.inputs)

    @property
    def driven(self) -> List[int]:
        """The literals of the inputs that boxes drive, in the implementation's order."""
        return self.imp.inputs[self.shared :]

    def group(self, place: int) -> int:
        """The first of the boxes that get this one's content."""
        return next((it[0] for it in self.same if place in it), place)

    def first_copy(self, place: int) -> int:
        """The formula's universal for the first literal that a box reads."""
        return self.shared + 1 + sum(len(it.ins) for it in self.boxes[:place])

    def copies(self, place: int) -> range:
        """The formula's universals for what a box reads."""
        return range(self.first_copy(place), self.first_copy(place) + len(self.boxes[place].ins))

    def existential(self, literal: int) -> int:
        """The formula's existential for an input that a box drives."""
        return self.first_copy(len(self.boxes)) + self.driven.index(literal)


def default_names(place: int, ins: int, outs: int) -> List[str]:
    return [f"box{place + 1}", *(f"in{k + 1}" for k in range(ins)), *(f"out{k + 1}" for k in range(outs))]


def read_boxes(path: str, imp: Network) -> List[Box]:
    """The boxes that an implementation's comment states."""
    words = [line.split() for line in imp.comment]
    if not words or words[0][:1] != ["pec"] or len(words[0]) != 2 or not words[0][1].isdigit():
        raise Failure(UNREADABLE, f"{path}: behind its line `c` stands no line `pec B`: it isn't an implementation")
    count = int(words[0][1])
    lines, behind = words[1 : 1 + count], words[1 + count :]
    named = [it[1:] for it in behind if it[:1] == ["box"]]
    declared = {it[1]: it[2:] for it in behind if it[:1] == ["module"] and len(it) > 2}
    boxes = []
    for place, line in enumerate(lines):
        if len(line) < 2 or not all(it.isdigit() for it in line) or len(line) != 2 + int(line[0]) + int(line[1]):
            raise Failure(UNREADABLE, f"{path}: a box's line is `K L in.. out..`, here {' '.join(line)}")
        numbers = [int(it) for it in line]
        ins, outs = numbers[2 : 2 + numbers[0]], numbers[2 + numbers[0] :]
        names = default_names(place, len(ins), len(outs))
        if place < len(named) and len(named[place]) == len(names):
            names = named[place]
        module, *ports = declared.get(names[0], [None])
        boxes.append(Box(names[0], ins, outs, names[1 : 1 + len(ins)], names[1 + len(ins) :], module, [Declared.read(it) for it in ports]))
    return boxes


def read_design(spec_path: str, imp_path: str) -> Design:
    """The design that two circuits make."""
    spec, imp = read_network(spec_path), read_network(imp_path)
    boxes = read_boxes(imp_path, imp)
    words = [line.split() for line in spec.comment]
    free = {int(it[1]): int(it[2]) for it in words if it[:1] == ["free"] and len(it) == 3 and it[1].isdigit() and it[2].isdigit()}
    numbers = [[int(n) - 1 for n in line.split()[1:]] for line in imp.comment if line.split()[:1] == ["same"] and re.fullmatch(r"[a-z0-9 ]+", line)]
    if len(imp.inputs) < len(spec.inputs) or len(imp.outputs) != len(spec.outputs):
        raise Failure(UNREADABLE, f"{imp_path}: its inputs and outputs aren't those of {spec_path}; tools/explain.py --pec says more")
    design = Design(spec, imp, boxes, free, numbers)
    if sorted(it for box in boxes for it in box.outs) != sorted(design.driven):
        raise Failure(UNREADABLE, f"{imp_path}: each input behind the specification's is driven by one box; tools/explain.py --pec says more")
    return design


def tied(design: Design, formula: bytes) -> bytes:
    """The formula in which boxes of one content have one: where both read the same they drive the same."""
    head, _, rest = formula.partition(b"\n")
    variables, clauses = map(int, head.split()[2:])
    lines, added = [], []
    for group in design.same:
        first = group[0]
        for other in group[1:]:
            pairs = list(zip(design.copies(first), design.copies(other)))
            differs = list(range(variables + 1, variables + 1 + len(pairs)))
            variables += len(pairs)
            for it, (a, b) in zip(differs, pairs):
                lines.append(f"d {it} {a} {b} 0")
                added += [f"{-it} {a} {b} 0", f"{-it} {-a} {-b} 0", f"{it} {a} {-b} 0", f"{it} {-a} {b} 0"]
            tail = " ".join(map(str, [*differs, 0]))
            for mine, theirs in zip(design.boxes[first].outs, design.boxes[other].outs):
                y, z = design.existential(mine), design.existential(theirs)
                added += [f"{y} {-z} {tail}", f"{-y} {z} {tail}"]
    prefix, matrix = parted(rest)
    new_head = f"p cnf {variables} {clauses + len(added)}\n"
    return new_head.encode() + prefix + "".join(f"{it}\n" for it in lines).encode() + matrix + "".join(f"{it}\n" for it in added).encode()


def parted(text: bytes) -> Tuple[bytes, bytes]:
    """The lines of a canonical formula that declare, and the clauses."""
    last = 0
    for found in re.finditer(rb"^[aed][^\n]*\n", text, re.MULTILINE):
        last = found.end()
    return text[:last], text[last:]


# Contents


@dataclass
class Content:
    """What fills a box: gates by the certificate's variables, each behind those that it reads, and the outputs' literals; of each
    variable that is an input the place among what the box reads."""

    box: Box
    places: Dict[int, int]
    gates: List[Tuple[int, int, int]]
    values: List[int]


def read_certificate(path: str) -> Network:
    """A certificate of truth; what else the file is, is said."""
    start = bytes_of(path)[:200].split()
    for words, sentence in (
        ([b"s", b"FALSE"], "the verdict is FALSE: no contents fit; tools/explain.py --pec SPEC IMPL CERT says why"),
        ([b"p", b"dqr"], "it is a refutation: no contents fit; tools/explain.py --pec SPEC IMPL CERT says why"),
        ([b"p", b"dqr2"], "it is a refutation: no contents fit; tools/explain.py --pec SPEC IMPL CERT says why"),
        ([b"s", b"UNKNOWN"], "the verdict is UNKNOWN: there are no contents yet; tools/decide.py --pec takes more steps"),
        ([b"p", b"cnf"], "it is a formula, where a certificate is due, which `dqsolve pec` writes"),
        ([], "it is empty"),
    ):
        if start[: len(words)] == words and (words or not start):
            raise Failure(UNREADABLE, f"{path}: {sentence}")
    return read_network(path)


def check_fit(design: Design, cert: Network, path: str) -> None:
    """Fails where the certificate is for another formula."""
    universals = design.first_copy(len(design.boxes)) - 1
    ins = [cert.names.get(("i", place)) for place in range(len(cert.inputs))]
    outs = {cert.names.get(("o", place)) for place in range(len(cert.outputs))}
    due = {str(design.existential(it)) for it in design.driven}
    if sorted(map(str, ins)) != sorted(str(k + 1) for k in range(universals)) or not due <= outs:
        raise Failure(UNREADABLE, f"{path}: it isn't a certificate for these two circuits: their formula has other variables")


def contents(design: Design, path: str) -> List[Content]:
    """What a certificate says of each box; boxes that get one content get the first one's."""
    cert = read_certificate(path)
    check_fit(design, cert, path)
    universal_of = {it // 2: int(cert.name("i", place)) for place, it in enumerate(cert.inputs)}
    output_of = {int(cert.name("o", place)): it for place, it in enumerate(cert.outputs)}
    sides = {gate[0] // 2: gate for gate in cert.gates}
    filled: List[Content] = []
    for place, box in enumerate(design.boxes):
        first = design.group(place)
        if first != place:
            filled.append(Content(box, filled[first].places, filled[first].gates, filled[first].values))
            continue
        copy = design.first_copy(place)
        values = [output_of[design.existential(it)] for it in box.outs]
        places = {variable: n - copy for variable, n in universal_of.items() if copy <= n < copy + len(box.ins)}
        filled.append(Content(box, places, cone_of(values, sides, places, path), values))
    return filled


def cone_of(roots: Sequence[int], sides: Dict[int, Tuple[int, int, int]], places: Dict[int, int], path: str) -> List[Tuple[int, int, int]]:
    """The gates that literals hang on, in order."""
    gates: List[Tuple[int, int, int]] = []
    done = {0, *places}
    left = [it // 2 for it in reversed(roots)]
    while left:
        variable = left[-1]
        if variable not in done and variable not in sides:
            raise Failure(UNREADABLE, f"{path}: a box reads what it doesn't see; dqcheck says which")
        missing = [] if variable in done else [it // 2 for it in sides[variable][1:] if it // 2 not in done]
        if not missing:
            if variable not in done:
                gates.append(sides[variable])
                done.add(variable)
            left.pop()
        left += missing
    return gates


# Verilog


def plain(name: str) -> str:
    """A name as a plain identifier."""
    text = re.sub(r"\W+", "_", name).strip("_")
    return text if text and not text[0].isdigit() else f"_{text}"


def escaped(name: str) -> str:
    """A name as the designer wrote it: escaped where it isn't plain."""
    return name if re.fullmatch(r"[A-Za-z_][\w$]*", name) else f"\\{name} "


def label_text(label: str, words: Sequence[str]) -> str:
    """A bit by its label, `a[3]` where a is one of the words."""
    name, bracket, rest = label.rpartition("[")
    return f"{escaped(name)}[{rest}" if bracket and name in words else escaped(label)


class Shown:
    """A box's content in Verilog: names of its wires."""

    def __init__(self, content: Content):
        self.content, self.box = content, content.box
        words = [it.name for it in self.box.ports if it.range]
        has_ports = bool(self.box.ports)
        self.ins = [label_text(it, words) if has_ports else plain(it) for it in self.box.in_names]
        self.outs = [label_text(it, words) if has_ports else plain(it) for it in self.box.out_names]
        taken = {it.name for it in self.box.ports} or {*self.ins, *self.outs}
        letter = next(it for it in ("n", "w", "wire_", "gate_of_box_") if not any(re.fullmatch(it + r"\d+", t) for t in taken))
        self.wires = {0: "0", **{variable: self.ins[place] for variable, place in content.places.items()}}
        for number, (lhs, _, _) in enumerate(content.gates, 1):
            self.wires[lhs // 2] = f"{letter}{number}"

    def text(self, literal: int) -> str:
        """A literal as an expression."""
        return f"1'b{literal}" if literal < 2 else "~" * (literal % 2) + self.wires[literal // 2]

    def unread(self) -> List[str]:
        used = {it // 2 for gate in self.content.gates for it in gate[1:]} | {it // 2 for it in self.content.values}
        return [it for place, it in enumerate(self.ins) if not any(p == place and v in used for v, p in self.content.places.items())]

    def ports(self) -> List[str]:
        if self.box.ports:
            return [it.text() for it in self.box.ports]
        return [f"input {it}" for it in self.ins] + [f"output {it}" for it in self.outs]

    def body(self) -> List[str]:
        """The lines between `module` and `endmodule`."""
        lines = [f"  // isn't read: {', '.join(it.strip() for it in self.unread())}"] if self.unread() else []
        lines += [f"  wire {self.wires[it // 2]} = {self.text(a)} & {self.text(b)};" for it, a, b in self.content.gates]
        lines += [f"  assign {it} = {self.text(value)};" for it, value in zip(self.outs, self.content.values)]
        return lines + [f"  assign {it} = 1'b0; // drives nothing" for it in self.undriven()]

    def undriven(self) -> List[str]:
        """Outputs of the declaration that are connected to nothing."""
        labels = [label for it in self.box.ports if it.direction.startswith("output") for label in labels_of(it)]
        words = [it.name for it in self.box.ports if it.range]
        return [label_text(it, words) for it in labels if it not in self.box.out_names]

    def module(self, name: Optional[str] = None) -> List[str]:
        """The module, under the box's name where none is given."""
        named = plain(self.box.name) if name is None else escaped(name)
        return [f"module {named}({', '.join(self.ports())});", *self.body(), "endmodule"]


def labels_of(port: Declared) -> List[str]:
    """The names of a declared port's bits, the lowest first."""
    if not port.range:
        return [port.name]
    left, right = map(int, port.range.strip("[]").split(":"))
    step = 1 if left >= right else -1
    return [f"{port.name}[{index}]" for index in range(right, left + step, step)]
