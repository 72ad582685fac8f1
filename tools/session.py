#!/usr/bin/env python3
"""Drives a session from standard input: each `solve` is answered before the next command is read, so that a loop can go on from the answer.

Usage: tools/session.py [--steps N] [--seconds S] [--json] FORMULA      commands from standard input, as in a script of `dqsolve session`
       tools/session.py --formula K FORMULA SCRIPT                      writes the formula of the block K of a script's session

Behind each `solve` comes a line `solve K B`, and then B bytes, what `dqsolve solve` writes for the formula with the clauses of the open frames; with
--json one line of JSON, with the certificate as text. N steps (1,000,000) and S seconds go for each `solve`. A command that is refused is told on
standard error, and passed over.

The exit status is 0 at the end of the input, 2 where the formula can't be read, and 1 for other words or where a command was refused.
"""

import re
import sys
from typing import Iterator, List, Optional, Sequence, Tuple

import sapuendy
from failure import UNREADABLE, USAGE, Failure
from processes import run_script
from texts import bytes_of, number

HEAD = re.compile(rb"solve ([0-9]+) ([0-9]+)\n")


def blocks_of(path: str) -> Iterator[Tuple[int, bytes]]:
    """The numbers and the texts of the blocks that a session wrote."""
    text, at = bytes_of(path), 0
    while at < len(text):
        head = HEAD.match(text, at)
        if not head or head.end() + int(head[2]) > len(text):
            raise Failure(UNREADABLE, f"{path}: at byte {at} no block `solve K B` stands, or not all of it")
        yield int(head[1]), text[head.end() : head.end() + int(head[2])]
        at = head.end() + int(head[2])


def literals_of(words: Sequence[str]) -> List[int]:
    """The literals of `add l.. 0`."""
    values = [number(word.encode()) for word in words]
    if None in values or not values or values[-1] != 0 or 0 in values[:-1]:
        raise sapuendy.Refused(7, f"add {' '.join(words)}: a clause is numbers with one 0 at its end")
    return values[:-1]


def obey(session: sapuendy.Session, words: Sequence[str]) -> None:
    """Does a command that isn't `solve`."""
    if words == ["push"]:
        session.push()
    elif words == ["pop"]:
        session.pop()
    elif words[0] == "add":
        session.add(*literals_of(words[1:]))
    else:
        raise sapuendy.Refused(7, f"{' '.join(words)}: push, add l.. 0, pop and solve are the commands")


def formula_of_block(formula: str, script: str, block: int) -> bytes:
    """The formula of the k-th search that a script asks for."""
    session, asked = sapuendy.Session(formula), 0
    for line in bytes_of(script).decode(errors="replace").split("\n"):
        words = line.split()
        if words == ["solve"]:
            asked += 1
            if asked == block:
                return session.formula()
        elif words:
            obey(session, words)
    raise Failure(UNREADABLE, f"{script}: it asks for {asked} searches, and {block} isn't one of them")


def answer(session: sapuendy.Session, block: int, steps: int, seconds: Optional[float], as_json: bool) -> None:
    """Writes what a search comes to."""
    try:
        found = session.solve(steps=steps, seconds=seconds)
    except sapuendy.OutOfTime:
        found = sapuendy.Answer("UNKNOWN", b"s UNKNOWN\n", steps, seconds)
    if as_json:
        print(found.as_json(), flush=True)
    else:
        sys.stdout.buffer.write(f"solve {block} {len(found.text)}\n".encode() + found.text)
        sys.stdout.buffer.flush()


def drive(formula: str, steps: int, seconds: Optional[float], as_json: bool) -> int:
    """Reads commands to the end of the input; answers the exit status."""
    session, block, status = sapuendy.Session(formula), 0, 0
    for line in sys.stdin:
        words = line.split()
        try:
            if words == ["solve"]:
                block += 1
                answer(session, block, steps, seconds, as_json)
            elif words:
                obey(session, words)
        except sapuendy.Refused as refused:
            print(f"session.py: {refused}", file=sys.stderr, flush=True)
            status = 1
    return status


def main(words: List[str]) -> int:
    numbers, as_json = {"--steps": 1_000_000, "--seconds": None, "--formula": None}, False
    words = list(words)
    while words and words[0].startswith("--"):
        option = words.pop(0)
        if option == "--json":
            as_json = True
        elif option in numbers and words and re.fullmatch(r"[1-9]\d{0,8}", words[0]):
            numbers[option] = int(words.pop(0))
        else:
            words = []
    if len(words) != (1 if numbers["--formula"] is None else 2):
        print("\n".join(__doc__.split("\n")[2:4]), file=sys.stderr)
        return USAGE
    if numbers["--formula"] is None:
        return drive(words[0], numbers["--steps"], numbers["--seconds"], as_json)
    sys.stdout.buffer.write(formula_of_block(*words, numbers["--formula"]))
    return 0


if __name__ == "__main__":
    run_script("session.py", __doc__, main)
