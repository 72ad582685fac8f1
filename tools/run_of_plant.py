"""Runs of a plant with its controllers: steps under chance inputs, as a waveform."""

from __future__ import annotations

import random
from typing import Any, Dict, List, Tuple

from aiger import Network, columns
from waveforms import Waveform

SEED = 1
TRIES = 200  # of inputs for a step in which the constraints hold


def bit(found: Dict[int, int], literal: int) -> int:
    return found[literal // 2] ^ (literal & 1)


def step(closed: Network, state: List[int], chance: random.Random) -> Dict[int, int]:
    """The values of all variables in a step, with inputs under which the constraints go on to hold, where they are found."""
    held = [place for place in range(len(closed.latches)) if closed.name("l", place) == "constraints_held"]
    given = {it.literal // 2: value for it, value in zip(closed.latches, state)}
    for _ in range(TRIES):
        found = columns(closed, {**given, **{it // 2: chance.getrandbits(1) for it in closed.inputs}}, 1)
        if all(bit(found, closed.latches[it].following) for it in held):
            break
    return found


def run_vcd(closed: Network, words_with_values: Any, steps: int) -> str:
    """A run of so many steps from a first state."""
    chance, wave = random.Random(SEED), Waveform("plant")
    state = [chance.getrandbits(1) if it.first is None else it.first for it in closed.latches]
    for _ in range(steps):
        found = step(closed, state, chance)
        scopes: Tuple[Tuple[str, List[Tuple[str, int]]], ...] = (
            ("inputs", [(closed.name("i", place), bit(found, it)) for place, it in enumerate(closed.inputs)]),
            ("registers", [(closed.name("l", place), value) for place, value in enumerate(state)]),
            ("outputs", [(closed.name("o", place), bit(found, it)) for place, it in enumerate(closed.outputs)]),
        )
        wave.add({(scope, name): value for scope, bits in scopes for name, value in words_with_values(bits).items()})
        state = [bit(found, it.following) for it in closed.latches]
    return wave.text()
