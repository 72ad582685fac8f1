#!/usr/bin/env python3
"""From Verilog to Verilog: fills a design's black boxes so that it does what a specification says, or says in the designer's names why none fit.

Usage: tools/fill.py [OPTIONS] SPEC.v IMPL.v
       tools/fill.py [OPTIONS] --spec A.v B.v .. --impl C.v D.v ..

Both sides have a module at the top with the same ports. The implementation declares each black box as

    (* blackbox *) module clamp(input [7:4] sum, output y); endmodule

and uses it by instances, also within other modules. `filled.v` is the whole implementation with contents of the boxes as modules, their ports
as they were declared: under a box's own name where all its instances got one content, and else under MODULE_INSTANCE.

  --top NAME       the module at the top of both sides, or SPEC,IMPL; by default the one that no other uses
  --out FILE       in place of filled.v
  --same           instances of one module get one content
  --seconds S      for the search; --steps N: its steps at most
  -D NAME[=VALUE]  a macro for both texts; -I FOLDER: where included files are looked for
  --keep FOLDER    keeps spec.aag, impl.aag, the formula and the certificate
  --circuits       stops at the two circuits, which --keep is to name a folder for
  --vcd FILE       where no contents fit: the rows that show it as a waveform
  --json           one line of JSON on standard output

An x of the specification isn't compared: what hangs on it is masked on both sides. Registers are cut: those of one name on both sides are
inputs, and their next values are compared as outputs; what has no partner is said. Each verdict is judged by dqcheck, and filled.v is read
again and compared with the specification, by abc's `cec` where it is there, and else by `dqsolve pec` and dqcheck.

The exit status is 10 where filled.v was written, 20 where no contents fit, 0 where that isn't decided; 1 for other words, 2 where a design
can't be read or compared, 3 there is no yosys, 4 a check failed. Needs yosys; docs/BLACK_BOX.md goes through it.
"""

from __future__ import annotations

import dataclasses
import os
import re
import sys
import tempfile
from dataclasses import dataclass, field
from typing import Any, Dict, List, Optional, Sequence, Tuple

import sapuendy
from abc_tool import abc_program, equal_by_abc
from aiger import Network, read_network, write_text
from boxes import Content, Design, Shown, contents, plain, read_design, tied
from comparison import Compared, Comparison
from designs import Module, Source, instances, modules_of, read_module, run_on, top_of
from failure import SOLVER_FAILED, USAGE, Failure
from processes import run_script
from rows import Told, lines_of, rows_vcd, tell_rows
from texts import check_writable

FIRST_LINE = "// Filled by tools/fill.py: the implementation with contents of its black boxes. Checked against the specification.\n"


@dataclass
class Words:
    """What the command's words ask for."""

    spec: List[str] = field(default_factory=list)
    impl: List[str] = field(default_factory=list)
    top: Optional[str] = None
    out: str = "filled.v"
    seconds: Optional[float] = None
    steps: int = sapuendy.MOST_STEPS
    defines: List[str] = field(default_factory=list)
    folders: List[str] = field(default_factory=list)
    keep: Optional[str] = None
    vcd: Optional[str] = None
    same: bool = False
    circuits: bool = False
    json: bool = False

    def sources(self) -> Tuple[Source, Source]:
        tops = (self.top or "").split(",")
        spec_top, imp_top = tops[0] or None, tops[-1] or None
        further = tuple(self.defines), tuple(self.folders)
        return Source(tuple(self.spec), spec_top, *further), Source(tuple(self.impl), imp_top, *further)


@dataclass
class Filled(sapuendy.Result):
    """What came of it; `equal` says how filled.v was compared."""

    verdict: str
    seconds: float
    steps: int
    boxes: List[str]
    notes: List[str]
    checked: Optional[str] = None
    filled: Optional[str] = None
    equal: Optional[str] = None
    rows: List[Told] = field(default_factory=list)


# Words


def words_of(words: Sequence[str]) -> Optional[Words]:
    """What the words ask for, or None where they aren't understood."""
    asked, left, names = Words(), list(words), []
    while left:
        word = left.pop(0)
        if word in ("--same", "--circuits", "--json"):
            setattr(asked, word[2:], True)
        elif word in ("--spec", "--impl"):
            while left and not left[0].startswith("-"):
                getattr(asked, word[2:]).append(left.pop(0))
        elif word == "-D" and left:
            asked.defines.append(left.pop(0))
        elif word.startswith("-D") and len(word) > 2:
            asked.defines.append(word[2:])
        elif word == "-I" and left:
            asked.folders.append(left.pop(0))
        elif word in ("--top", "--out", "--keep", "--vcd") and left:
            setattr(asked, word[2:], left.pop(0))
        elif word in ("--seconds", "--steps") and left and re.fullmatch(r"\d{1,10}", left[0]) and int(left[0]) > 0:
            setattr(asked, word[2:], int(left.pop(0)))
        elif word == "--":
            names, left = names + left, []
        elif word.startswith("-"):
            return None
        else:
            names.append(word)
    if names and not asked.spec and not asked.impl and len(names) == 2:
        asked.spec, asked.impl, names = names[:1], names[1:], []
    is_right = asked.spec and asked.impl and not names and (asked.keep or not asked.circuits) and asked.steps <= sapuendy.MOST_STEPS
    return asked if is_right else None


# The search


class Place:
    """The folder that circuits, formula and certificate stand in."""

    def __init__(self, folder: str):
        self.spec, self.imp, self.formula, self.certificate = (os.path.join(folder, it) for it in ("spec.aag", "impl.aag", "formula", "certificate"))


def searched(design: Design, place: Place, asked: Words, tell: Any) -> sapuendy.Answer:
    """The verdict on the boxes, judged by dqcheck."""
    formula = sapuendy.encode(place.spec, place.imp)
    if design.same:
        formula = tied(design, formula)
    write_text(place.formula, formula)
    if design.same:

        def search(steps: int, left: Optional[float]) -> sapuendy.Answer:
            return sapuendy.solve(place.formula, steps=steps, seconds=left)

    else:

        def search(steps: int, left: Optional[float]) -> sapuendy.Answer:
            return sapuendy.pec(place.spec, place.imp, steps=steps, seconds=left)

    answer = sapuendy.decide(search, steps=asked.steps, seconds=asked.seconds, tell=tell)
    write_text(place.certificate, answer.text)
    return sapuendy.checked(place.formula, answer)


# The filled design


def names_of(filling: Sequence[Content]) -> Tuple[Dict[str, str], Dict[str, List[str]]]:
    """The module of each box by the box's name, and the modules' lines."""
    by_module: Dict[str, Dict[str, Content]] = {}
    for content in filling:
        by_module.setdefault(content.box.module or content.box.name, {})[content.box.name] = content
    chosen, modules = {}, {}
    for module, members in by_module.items():
        texts = {name: Shown(it).module(module) for name, it in members.items()}
        is_one = len({tuple(it) for it in texts.values()}) == 1
        for name, content in members.items():
            own = module if is_one else f"{module}_{plain(name)}"
            while not is_one and own in modules:
                own += "_"
            chosen[name] = own
            modules[own] = Shown(content).module(own)
    return chosen, modules


def filled_text(source: Source, filling: Sequence[Content]) -> str:
    """The implementation with its boxes filled; it stays in its modules where each place of a box in a module has one content."""
    chosen, boxes = names_of(filling)
    modules = modules_of(source, "write_json {out}")
    wanted: Dict[Tuple[str, str], Dict[str, None]] = {}
    top = top_of(modules, source)
    for path, module, cell in instances(modules, top):
        wanted.setdefault((module, cell), {})[chosen[path]] = None
    flat = any(len(it) > 1 for it in wanted.values())
    if flat:
        wanted = {(top, name): {own: None} for name, own in chosen.items()}
        modules = modules_of(source, "flatten; write_json {out}")
    edits = ["flatten"] * flat
    for (module, cell), (name,) in wanted.items():
        place = f"{module}/{cell}"
        edits += [f"setparam -unset {it} {place}" for it in modules[module]["cells"][cell]["parameters"]]
        edits.append(f"chtype -set {name} {place}")
    return FIRST_LINE + verilog_of(source, edits) + "\n" + "\n\n".join("\n".join(it) for it in boxes.values()) + "\n"


def verilog_of(source: Source, edits: Sequence[str]) -> str:
    """A source as yosys writes it after some commands."""
    with tempfile.TemporaryDirectory(prefix="sapuendy-") as folder:
        out = os.path.join(folder, "modules.v")
        run_on(source, "; ".join([*edits, f'write_verilog -noattr "{out}"']))
        with open(out, encoding="utf-8") as file:
            return re.sub(r"\A/\*.*?\*/\s*", "", file.read(), flags=re.DOTALL)


def networks(comparison: Compared) -> Tuple[Network, Network]:
    """Both sides of a comparison without boxes, in the numbers that abc's format wants."""
    found = []
    with tempfile.TemporaryDirectory(prefix="sapuendy-") as folder:
        for name, text in (("spec", comparison.spec), ("imp", comparison.imp)):
            path = os.path.join(folder, name)
            write_text(path, text)
            found.append(read_network(path))
            found[-1].comment = []
    return found[0], found[1]


def compared_again(spec: Module, out: str, top: str, asked: Words) -> str:
    """Reads what was written, and compares it with the specification: how it was found equal, or `different`, or `undecided`."""
    comparison = Comparison(spec, read_module(Source((out,), top))).made()
    if abc_program():
        found = equal_by_abc(*networks(comparison), asked.seconds)
        if found != "undecided":
            return "abc cec" if found == "equal" else found
    answer = sapuendy.pec(comparison.spec.encode(), comparison.imp.encode(), steps=asked.steps, seconds=asked.seconds)
    if answer.verdict == "FALSE":
        return "different"
    sapuendy.checked(sapuendy.encode(comparison.spec.encode(), comparison.imp.encode()), answer)
    return "undecided" if answer.verdict == "UNKNOWN" else "dqsolve pec, dqcheck"


# The run


def tell_run(answer: sapuendy.Answer) -> None:
    counts = f"rounds {answer.rounds} learned {answer.learned}" if answer.rounds is not None else answer.verdict
    print(f"{answer.steps} steps: {counts}, {answer.seconds:.1f} s", file=sys.stderr, flush=True)


def compared(asked: Words, spec: Module, imp: Module, place: Place, x_is_input: bool) -> Compared:
    """Both circuits, in their files."""
    comparison = Comparison(spec, imp, asked.same, x_is_input).made()
    write_text(place.spec, comparison.spec)
    write_text(place.imp, comparison.imp)
    return comparison


def fill(asked: Words, folder: str) -> Filled:
    """Everything in a folder: circuits, verdict, the filled design or the rows."""
    spec_source, imp_source = asked.sources()
    spec, imp = read_module(spec_source), read_module(imp_source)
    place = Place(folder)
    comparison = compared(asked, spec, imp, place, asked.circuits)
    result = Filled("UNKNOWN", 0.0, 0, [f"{it.name} ({it.module})" for it in comparison.boxes], comparison.notes)
    for note in comparison.notes:
        print(f"note: {note}", file=sys.stderr)
    if asked.circuits:
        return result
    result = decided(asked, result, place, spec, imp)
    if result.equal == "different" and comparison.has_x:
        print("note: an x of the implementation isn't taken as 0, but as an input, whatever it is", file=sys.stderr)
        compared(asked, spec, imp, place, True)
        result = decided(asked, result, place, spec, imp)
    if result.equal == "different":
        raise Failure(SOLVER_FAILED, f"{asked.out}: it isn't equal to the specification")
    return result


def decided(asked: Words, result: Filled, place: Place, spec: Module, imp: Module) -> Filled:
    """What comes of the two circuits in their files."""
    design = read_design(place.spec, place.imp)
    answer = searched(design, place, asked, tell_run)
    result = dataclasses.replace(result, verdict=answer.verdict, seconds=round(answer.seconds, 3), steps=answer.steps, checked=answer.checked)
    result.filled = result.equal = None
    if answer.verdict == "TRUE":
        write_text(asked.out, filled_text(imp.source, contents(design, place.certificate)))
        result.filled, result.equal = asked.out, compared_again(spec, asked.out, imp.name, asked)
    if answer.verdict == "FALSE":
        result.rows = tell_rows(design, answer.text)
        if asked.vcd:
            write_text(asked.vcd, rows_vcd(design, result.rows))
    return result


def tell(result: Filled, asked: Words, cut: bool) -> None:
    """The result in words."""
    count = len(result.boxes)
    if asked.circuits:
        print(f"{asked.keep}: spec.aag and impl.aag, with {count} boxes")
    elif result.verdict == "TRUE":
        what = ("the circuits agree", "contents of the box fit", f"contents of {count} boxes fit")[min(count, 2)]
        print(f"TRUE: {what}; {result.checked}")
        how = {"undecided": "not compared again: undecided"}.get(result.equal or "", f"equal to the specification, by {result.equal}")
        print(f"{result.filled}: {how}")
    elif result.verdict == "FALSE":
        print(f"FALSE: {'no contents of the boxes fit' if count else 'the circuits differ'}; {result.checked}")
        print("\n".join(lines_of(result.rows, count > 0)))
        if cut:
            print("Registers were cut: a row may have a state that is never reached.")
    else:
        print("UNKNOWN: neither contents nor rows that exclude them were found in time; --seconds and --steps allow more")


def main(words: List[str]) -> int:
    asked = words_of(words)
    if asked is None:
        print("\n".join((__doc__ or "").split("\n")[2:4]), file=sys.stderr)
        return USAGE
    if not asked.circuits:
        check_writable(asked.out)
    if asked.keep:
        os.makedirs(asked.keep, exist_ok=True)
    with tempfile.TemporaryDirectory(prefix="sapuendy-") as folder:
        result = fill(asked, asked.keep or folder)
    if asked.json:
        print(result.as_json())
    else:
        tell(result, asked, any(it.startswith("registers") for it in result.notes))
    return {"TRUE": 10, "FALSE": 20}.get(result.verdict, 0)


if __name__ == "__main__":
    run_script("fill.py", __doc__, main)
