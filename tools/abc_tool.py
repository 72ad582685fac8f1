"""Berkeley's abc, where it is there: equivalence of two circuits, and whether a bad state is reached."""

from __future__ import annotations

import os
import re
import shutil
import tempfile
from typing import Optional

from aiger import Network, binary_text, write_text
from failure import SOLVER_FAILED, Failure
from processes import OutOfTime, run

NAMES = ("abc", "berkeley-abc", "yosys-abc")


def abc_program() -> Optional[str]:
    """What ABC names, or abc under one of its names, or None."""
    named = os.environ.get("ABC")
    if named is not None:
        return named or None
    return next((path for path in map(shutil.which, NAMES) if path), None)


def said_by_abc(commands: str, folder: str, seconds: Optional[float]) -> str:
    program = abc_program()
    if program is None:
        raise Failure(SOLVER_FAILED, "there is no abc")
    done = run([program, "-c", commands], seconds=seconds, folder=folder)
    return (done.output + done.error).decode(errors="replace")


def equal_by_abc(one: Network, other: Network, seconds: Optional[float] = None) -> str:
    """`equal`, `different` or `undecided`, by `cec`; both networks are in the numbers of `Graph.network`, with symbols."""
    with tempfile.TemporaryDirectory(prefix="sapuendy-") as folder:
        for name, network in (("one.aig", one), ("other.aig", other)):
            write_text(os.path.join(folder, name), binary_text(network))
        try:
            said = said_by_abc("cec one.aig other.aig", folder, seconds)
        except OutOfTime:
            return "undecided"
    if re.search(r"Networks are equivalent", said):
        return "equal"
    return "different" if re.search(r"NOT EQUIVALENT", said) else "undecided"


def safe_by_abc(closed: Network, seconds: Optional[float] = None) -> str:
    """`safe`, `unsafe` or `undecided`, by `pdr`: whether an output of a circuit with registers is ever 1."""
    with tempfile.TemporaryDirectory(prefix="sapuendy-") as folder:
        write_text(os.path.join(folder, "closed.aig"), binary_text(closed))
        try:
            said = said_by_abc("read closed.aig; pdr", folder, seconds)
        except OutOfTime:
            return "undecided"
    if re.search(r"Property proved|was proved|Networks? .*proved", said):
        return "safe"
    return "unsafe" if re.search(r"was asserted|is not proved|Output .* asserted", said) else "undecided"
