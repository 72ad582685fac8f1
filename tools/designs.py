"""Designs from Verilog, by yosys: a module's ports, registers and black boxes, and its gates as a graph."""

from __future__ import annotations

import json
import os
import re
import shutil
import tempfile
from dataclasses import dataclass, field
from typing import Any, Callable, Dict, Iterator, List, Optional, Tuple, Union

from aiger import Graph
from failure import NO_SOLVER, UNREADABLE, Failure
from processes import run

Bit = Union[int, str]  # a net's number, or a constant: "0", "1", "x", "z"

READ = "{reading}hierarchy -check {top}; proc"
KEPT = "setattr -set keep 1 w:*; "  # so that a register which nothing reads stays
MAP = "flatten; memory; check -assert; dffunmap; techmap; aigmap; opt_clean; write_json {out}"


# Ports


@dataclass(frozen=True)
class Port:
    """A port, or a register's word: its name and its range as they were declared."""

    name: str
    direction: str
    bits: Tuple[Bit, ...]
    offset: int = 0
    upto: bool = False
    signed: bool = False

    @property
    def width(self) -> int:
        return len(self.bits)

    @property
    def is_word(self) -> bool:
        return self.width > 1 or self.offset != 0

    def index(self, place: int) -> int:
        """The index that the designer gave to the bit at a place, the lowest bit's being 0."""
        return self.offset + (self.width - 1 - place if self.upto else place)

    def label(self, place: int) -> str:
        """A bit's name."""
        return f"{self.name}[{self.index(place)}]" if self.is_word else self.name

    def range(self) -> str:
        """The range as it was declared, or nothing."""
        if not self.is_word:
            return ""
        ends = self.offset + self.width - 1, self.offset
        return "[{}:{}]".format(*(reversed(ends) if self.upto else ends))


def ports_of(module: Dict[str, Any]) -> List[Port]:
    return [
        Port(name, it["direction"], tuple(it["bits"]), it.get("offset", 0), bool(it.get("upto")), bool(it.get("signed")))
        for name, it in module["ports"].items()
    ]


# yosys


@dataclass(frozen=True)
class Source:
    """The files of a design, its top module's name where it is given, what is defined for its text, and where included files are looked for."""

    files: Tuple[str, ...]
    top: Optional[str] = None
    defines: Tuple[str, ...] = ()
    folders: Tuple[str, ...] = ()

    @property
    def shown(self) -> str:
        return self.files[0] if len(self.files) == 1 else f"{self.files[0]} .."

    def reading(self, all_as_system: bool) -> str:
        """The commands of yosys that read it. A file `.v` is read as Verilog, where `bit` and `logic` are names like others, or as SystemVerilog."""
        for file in self.files:
            if not os.path.exists(file):
                raise Failure(UNREADABLE, f"{file}: there is no such file")
        for folder in self.folders:
            if len(folder.split()) != 1:
                raise Failure(UNREADABLE, f"{folder}: yosys can't be told a folder of includes with a blank in its name")
        defines = "".join(f"-D{it} " for it in self.defines) + "".join(f"-I {it} " for it in self.folders)
        system = {file: "-sv " if all_as_system or not file.endswith(".v") else "" for file in self.files}
        reading = "".join(f"read_verilog {system[it]}{defines}{quoted(it)}; " for it in self.files)
        return READ.format(reading=reading, top=f"-top {self.top}" if self.top else "-auto-top")


def quoted(path: str) -> str:
    if '"' in path or "\n" in path:
        raise Failure(UNREADABLE, f"{path}: yosys can't be told a name with a quotation mark or a line's end")
    return f'"{path}"'


def message_of(said: str) -> str:
    """What yosys found wrong, in one line."""
    lines = said.split("\n")
    errors = [it for it in lines if "ERROR" in it] or ["yosys failed"]
    message = errors[0].replace("ERROR: ", "")
    if "check -assert" in message:
        warnings = [it.removeprefix("Warning: ") for it in lines if it.startswith("Warning: ")]
        message = " ".join(warnings) or message
    if "is not part of the design" in message:
        message += " Declare a black box as (* blackbox *) module .. endmodule."
    return message


def yosys(commands: str, shown: str, seconds: Optional[float] = None) -> None:
    """Runs commands of yosys, and ends with its message where they fail."""
    if shutil.which("yosys") is None:
        raise Failure(NO_SOLVER, "there is no yosys; Debian's package has its name")
    done = run(["yosys", "-q", "-p", commands], seconds=seconds)
    if done.status:
        raise Failure(UNREADABLE, f"{shown}: {message_of((done.output + done.error).decode(errors='replace'))}")


def run_on(source: Source, commands: str) -> None:
    """Reads a source, and runs commands of yosys on it. Where files `.v` aren't Verilog they may be SystemVerilog."""
    try:
        yosys(f"{source.reading(False)}; {commands}", source.shown)
    except Failure as failure:
        if "syntax error" not in str(failure):
            raise
        try:
            yosys(f"{source.reading(True)}; {commands}", source.shown)
        except Failure:
            raise failure from None


def modules_of(source: Source, commands: str) -> Dict[str, Any]:
    """The modules that yosys leaves of a source."""
    with tempfile.TemporaryDirectory(prefix="sapuendy-") as folder:
        out = os.path.join(folder, "modules.json")
        run_on(source, commands.format(out=f'"{out}"'))
        with open(out, encoding="utf-8") as file:
            return json.load(file)["modules"]


def is_box(module: Dict[str, Any]) -> bool:
    return "blackbox" in module["attributes"]


def top_of(modules: Dict[str, Any], source: Source) -> str:
    tops = [name for name, it in modules.items() if "top" in it["attributes"]]
    if not tops:
        raise Failure(UNREADABLE, f"{source.shown}: there is no module at the top; --top names one")
    return tops[0]


# A module as a graph


@dataclass
class Register:
    """A register of one bit: its name, the nets of its value and its next one, its first value, its clock's name and edge, and all names of its
    value; where it has an asynchronous reset, the net of that, whether 1 resets, and the value that it then has."""

    name: str
    value: Bit
    following: Bit
    first: Optional[int]
    clock: str
    names: Tuple[str, ...] = ()
    reset: Optional[Bit] = None
    resets_at: int = 1
    reset_value: int = 0

    @property
    def kind(self) -> str:
        """Its clock, and whether it has an asynchronous reset."""
        return self.clock + (f", with an asynchronous reset to {self.reset_value}" if self.reset is not None else "")


@dataclass
class Box:
    """An instance of a black box: its ports with the nets that they are connected to."""

    name: str
    module: str
    ins: List[Port]
    outs: List[Port]


@dataclass
class Module:
    """A flat module: ports, registers, boxes, gates by the nets that they drive, and names of nets."""

    source: Source
    name: str
    ports: List[Port]
    registers: List[Register] = field(default_factory=list)
    boxes: List[Box] = field(default_factory=list)
    drivers: Dict[Bit, Tuple[Bit, ...]] = field(default_factory=dict)
    words: Dict[str, Port] = field(default_factory=dict)

    @property
    def inputs(self) -> List[Port]:
        return [it for it in self.ports if it.direction == "input"]

    @property
    def outputs(self) -> List[Port]:
        return [it for it in self.ports if it.direction == "output"]


def words_of(module: Dict[str, Any]) -> Dict[str, Port]:
    """The named words of a module, in the order of its text."""
    return {
        name: Port(name, "", tuple(it["bits"]), it.get("offset", 0), bool(it.get("upto")))
        for name, it in module["netnames"].items()
        if not it["hide_name"]
    }


def names_of(words: Dict[str, Port]) -> Dict[Bit, str]:
    """A name for each net: that of the outermost word that has it."""
    names: Dict[Bit, str] = {}
    for word in sorted(words.values(), key=lambda it: it.name.count(".")):
        for place, bit in enumerate(word.bits):
            names.setdefault(bit, word.label(place))
    return names


def all_names_of(words: Dict[str, Port]) -> Dict[Bit, List[str]]:
    """All names of each net."""
    names: Dict[Bit, List[str]] = {}
    for word in words.values():
        for place, bit in enumerate(word.bits):
            names.setdefault(bit, []).append(word.label(place))
    return names


def first_values(module: Dict[str, Any]) -> Dict[Bit, int]:
    """The first values of nets that have one."""
    values = {}
    for it in module["netnames"].values():
        init = it["attributes"].get("init", "")
        for bit, digit in zip(it["bits"], reversed(init)):
            if digit in "01":
                values[bit] = int(digit)
    return values


def register_of(cell: Dict[str, Any], names: Dict[Bit, str], firsts: Dict[Bit, int]) -> Register:
    """The register that a cell `$_FF_`, `$_DFF_P_` or, with a reset, `$_DFF_PN0_` is."""
    nets = {port: bits[0] for port, bits in cell["connections"].items()}
    letters = cell["type"][6:-1] if cell["type"].startswith("$_DFF_") else ""
    edge = {"P": "rising ", "N": "falling "}[letters[0]] + names.get(nets["C"], "clock") if letters else ""
    register = Register(names.get(nets["Q"], f"net {nets['Q']}"), nets["Q"], nets["D"], firsts.get(nets["Q"]), edge)
    if len(letters) == 3:
        register.reset, register.resets_at, register.reset_value = nets["R"], int(letters[1] == "P"), int(letters[2])
    return register


def box_of(name: str, cell: Dict[str, Any], module: Dict[str, Any]) -> Box:
    """A box with its ports in the order of its declaration; where its instance has another width, a range from 0 on."""
    box = Box(name, cell["type"], [], [])
    for port in ports_of(module):
        bits = tuple(cell["connections"].get(port.name, ()))
        if port.direction == "inout":
            raise Failure(UNREADABLE, f"box {name}: its port {port.name} goes both ways")
        given = Port(port.name, port.direction, bits or ("x",) * port.width, port.offset, port.upto, port.signed)
        if given.width != port.width:
            given = Port(port.name, port.direction, bits, 0, False, port.signed)
        (box.ins if port.direction == "input" else box.outs).append(given)
    return box


def read_module(source: Source, keeps_all: bool = False) -> Module:
    """The flat module at the top of a source, also with registers that nothing reads where all is kept."""
    modules = modules_of(source, (KEPT if keeps_all else "") + MAP)
    name = top_of(modules, source)
    flat = modules[name]
    module = Module(source, name, ports_of(flat), words=words_of(flat))
    names, firsts, all_names = names_of(module.words), first_values(flat), all_names_of(module.words)
    for cell_name, cell in flat["cells"].items():
        kind, nets = cell["type"], cell["connections"]
        if kind == "$_AND_":
            module.drivers[nets["Y"][0]] = ("and", nets["A"][0], nets["B"][0])
        elif kind == "$_NOT_":
            module.drivers[nets["Y"][0]] = ("not", nets["A"][0])
        elif re.fullmatch(r"\$_FF_|\$_DFF_[PN]([PN][01])?_", kind):
            module.registers.append(register_of(cell, names, firsts))
            module.registers[-1].names = tuple(all_names.get(module.registers[-1].value, ()))
        elif kind in modules and is_box(modules[kind]):
            module.boxes.append(box_of(cell_name, cell, modules[kind]))
        else:
            raise Failure(UNREADABLE, f"{source.shown}: {what_it_is(kind, cell)}")
    return module


def what_it_is(kind: str, cell: Dict[str, Any]) -> str:
    """What a cell that is no gate is, with its place in the text."""
    place = cell["attributes"].get("src", "").split("|")[-1]
    at = f" ({place})" if place else ""
    if "LATCH" in kind or kind.startswith("$_SR_"):
        return f"a latch stands here{at}: a value that isn't given on each way through a block"
    if "DFFSR" in kind or "ALDFF" in kind:
        return f"a register with an asynchronous set or load stands here{at}, which can't be cut"
    return f"{kind} can't be made of gates and registers{at}"


def literals(module: Module, known: Dict[Bit, int], unknown: Callable[[str], int], graph: Graph) -> Callable[[Bit], int]:
    """A function from nets to their literals in a graph, where some nets' are known; `unknown` says what an x or z is."""
    found: Dict[Bit, int] = {"0": 0, "1": 1, **known}

    def made(bit: Bit) -> None:
        kind, *sides = module.drivers.get(bit, ("none",))
        values = [unknown(str(it)) if it in ("x", "z") else found[it] for it in sides]
        if kind == "none":
            found[bit] = unknown("z")
        else:
            found[bit] = values[0] ^ 1 if kind == "not" else graph.conjunction(*values)

    def literal(bit: Bit) -> int:
        if bit in ("x", "z"):
            return unknown(str(bit))
        left = [bit]
        while left:
            sides = module.drivers.get(left[-1], ("none",))[1:]
            missing = [it for it in sides if it not in found and it not in ("x", "z")]
            if left[-1] not in found and not missing:
                made(left[-1])
            if left[-1] in found:
                left.pop()
            left += missing
        return found[bit]

    return literal


def next_value(register: Register, literal: Callable[[Bit], int], graph: Graph) -> int:
    """A register's next value, at a reset that of the reset."""
    following = literal(register.following)
    if register.reset is None:
        return following
    resets = literal(register.reset) ^ (1 - register.resets_at)
    return graph.disjunction(resets, following) if register.reset_value else graph.conjunction(resets ^ 1, following)


# Instances


def instances(modules: Dict[str, Any], top: str) -> Iterator[Tuple[str, str, str]]:
    """Of each black box in a design that isn't flat: its whole name, and the module and the cell that stand for it."""
    for name, cell in modules[top]["cells"].items():
        if cell["type"] not in modules:
            continue
        if is_box(modules[cell["type"]]):
            yield name, top, name
        else:
            for path, module, inner in instances(modules, cell["type"]):
                yield f"{name}.{path}", module, inner
