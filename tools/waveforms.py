"""Waveforms in VCD, for viewers such as gtkwave: words over steps."""

from __future__ import annotations

from typing import Dict, List, Tuple

Signal = Tuple[str, str]  # a scope and a name

FIRST_CODE, CODES = 33, 94  # the printable characters that short names are made of


def bits_of(value: str) -> str:
    """The bits of a word as it is shown: `0x9F`, `0b1x0`, `1`."""
    if value.startswith("0x"):
        return f"{int(value, 16):0{4 * len(value[2:])}b}"
    return value.removeprefix("0b").replace("-", "x")


def short_name(number: int) -> str:
    name = ""
    while True:
        name += chr(FIRST_CODE + number % CODES)
        number //= CODES
        if number == 0:
            return name


class Waveform:
    """Values of signals, step by step; what a step doesn't state is unknown there."""

    def __init__(self, title: str):
        self.title = title
        self.steps: List[Dict[Signal, str]] = []

    def add(self, values: Dict[Signal, str]) -> None:
        """A further step."""
        self.steps.append({signal: bits_of(value) for signal, value in values.items()})

    def text(self) -> str:
        """The file's text."""
        width: Dict[Signal, int] = {}
        for step in self.steps:
            for signal, bits in step.items():
                width[signal] = max(width.get(signal, 1), len(bits))
        codes = {signal: short_name(number) for number, signal in enumerate(width)}
        lines = ["$timescale 1 ns $end", f"$scope module {self.title} $end"]
        for scope in dict.fromkeys(scope for scope, _ in width):
            lines.append(f"$scope module {scope.replace(' ', '_')} $end")
            lines += [f"$var wire {width[it]} {codes[it]} {it[1].replace(' ', '_')} $end" for it in width if it[0] == scope]
            lines.append("$upscope $end")
        lines += ["$upscope $end", "$enddefinitions $end"]
        for time, step in enumerate(self.steps):
            lines.append(f"#{10 * time}")
            for signal in width:
                bits = step.get(signal, "x" * width[signal]).rjust(width[signal], "0")
                lines.append(f"b{bits} {codes[signal]}" if width[signal] > 1 else f"{bits}{codes[signal]}")
        return "\n".join([*lines, f"#{10 * len(self.steps)}"]) + "\n"
