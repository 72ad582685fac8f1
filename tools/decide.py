#!/usr/bin/env python3
"""decide.py [--seconds S] [--steps N] [--json] QUESTION [CERT]: decides by dqsolve, with 1,000 steps, then more and more, up to N (1,000,000,000
where none is given), for at most S seconds; judges the certificate by dqcheck, and keeps it as CERT.

  FORMULA                   a formula
  --pec SPEC IMPL           whether the boxes of a circuit can be filled
  --defined FORMULA         which existentials are functions
  --session FORMULA SCRIPT  a script's searches

Standard output is one line, TRUE, FALSE or UNKNOWN, and the exit status 10, 20 or 0; of definitions it is `DEFINED D FREE R` with 30, of a session
a line for each block with 0. With --json it is a line of JSON. Standard error has a line for each run as it ends: its steps, the rounds and learned
clauses among them, seconds. At the time limit, at SIGTERM and at Ctrl-C the answer is UNKNOWN. What dqsolve refuses is printed as it says it, with
its status; a certificate that dqcheck doesn't accept ends the script with 4. Whether CERT can be written is tested first.

A run with more steps begins anew, and goes the way of the one before it: ten times the steps while runs take less than a second, and then twice as
many, so that all runs together take little more than twice the last, and counts come often.
DQSOLVE and DQCHECK may name the programs; else they are those beside this folder, which are built at their first use.
"""

import dataclasses
import json
import os
import re
import shutil
import sys
import tempfile
from dataclasses import dataclass
from typing import Any, Callable, List, Optional, Sequence, Tuple

import sapuendy
from failure import SOLVER_FAILED, UNREADABLE, USAGE, Failure
from processes import OutOfTime, Stopped, run_script
from session import blocks_of, formula_of_block
from texts import check_writable

KINDS = {"--pec": 2, "--defined": 1, "--session": 2}


@dataclass
class Words:
    """What the words ask for: limits, a kind of question, the files that it is about, and the certificate's name."""

    seconds: Optional[float] = None
    steps: int = sapuendy.MOST_STEPS
    json: bool = False
    kind: str = "solve"
    names: Tuple[str, ...] = ()
    certificate: Optional[str] = None


def words_of(words: Sequence[str]) -> Optional[Words]:
    """What the words say, or None where they don't."""
    asked, words = Words(), list(words)
    while words and words[0].startswith("--") and words[0] not in KINDS:
        option = words.pop(0)
        if option == "--json":
            asked.json = True
        elif option in ("--seconds", "--steps") and words and re.fullmatch(r"\d{1,10}", words[0]) and int(words[0]) > 0:
            setattr(asked, option[2:], int(words.pop(0)))
        else:
            return None
    count = 1
    if words and words[0] in KINDS:
        asked.kind, count = words[0][2:], KINDS[words[0]]
        words.pop(0)
    if not count <= len(words) <= count + 1 or words[0].startswith("-") or asked.steps > sapuendy.MOST_STEPS:
        return None
    asked.names, asked.certificate = tuple(words[:count]), words[count] if len(words) > count else None
    return asked


def tell(answer: sapuendy.Answer) -> None:
    """A line for a run as it ends."""
    found = f"rounds {answer.rounds} learned {answer.learned}" if answer.rounds is not None else answer.verdict
    print(f"{answer.steps} steps: {found}, {answer.seconds:.1f} s", file=sys.stderr, flush=True)


class Search:
    """A question's runs, in a folder that they write to. `last` is the last run that ended."""

    def __init__(self, names: Sequence[str], folder: str, seconds: Optional[float], kind: str = "solve"):
        self.names, self.kind, self.seconds = names, kind, seconds
        self.output, self.encoded = os.path.join(folder, "output"), os.path.join(folder, "formula")
        self.last = sapuendy.Answer("UNKNOWN", b"", 0, 0.0)

    def run(self, steps: int, left: Optional[float]) -> sapuendy.Answer:
        """A run; what it writes stands in the output, but an UNKNOWN of a run that is stopped."""
        question = {"solve": sapuendy.solve, "pec": sapuendy.pec}[self.kind]
        return question(*self.names, steps=steps, seconds=left, into=self.output)

    def kept(self, answer: sapuendy.Answer) -> None:
        """Tells a run that ended."""
        self.last = answer
        tell(answer)

    def formula(self) -> str:
        """The formula that the certificate is for."""
        if self.kind == "solve":
            return self.names[0]
        with open(self.encoded, "wb") as file:
            file.write(sapuendy.encode(*self.names))
        return self.encoded

    def decide(self, steps: int) -> sapuendy.Answer:
        """The answer, with the checker's line where there is a verdict."""
        answer = sapuendy.decide(self.run, steps=steps, seconds=self.seconds, tell=self.kept)
        if answer.verdict == "UNKNOWN":
            return answer
        judgement = sapuendy.check(self.formula(), self.output)
        if not judgement.is_accepted:
            raise Failure(SOLVER_FAILED, f"dqcheck says: {judgement.line}")
        return dataclasses.replace(answer, checked=judgement.line)


def decide_verdict(asked: Words, folder: str) -> int:
    """TRUE, FALSE or UNKNOWN."""
    search = Search(asked.names, folder, asked.seconds, asked.kind)
    try:
        answer = search.decide(asked.steps)
    except (OutOfTime, Stopped) as end:
        if isinstance(end, Stopped):
            print(f"decide.py: {end}", file=sys.stderr)
        answer = dataclasses.replace(search.last, verdict="UNKNOWN")
    if answer.verdict != "UNKNOWN" and asked.certificate is not None:
        shutil.copyfile(search.output, asked.certificate)
    found = {it: getattr(answer, it) for it in ("verdict", "steps", "seconds", "rounds", "learned", "checked")}
    print(json.dumps({**found, "certificate": asked.certificate}) if asked.json else answer.verdict)
    return answer.status


def growing(asked: Words, run_once: Callable[[int, Optional[float]], Tuple[Any, bool, float]]) -> Any:
    """Makes runs with more and more steps until `run_once`, which answers a result and whether it is whole, is content, or the time is over."""
    found: List[Any] = [None]

    def search(steps: int, left: Optional[float]) -> sapuendy.Answer:
        found[0], is_whole, seconds = run_once(steps, left)
        answer = sapuendy.Answer("TRUE" if is_whole else "UNKNOWN", b"", steps, seconds)
        print(f"{steps} steps: {'all is decided' if is_whole else 'not all is decided'}, {seconds:.1f} s", file=sys.stderr, flush=True)
        return answer

    try:
        sapuendy.decide(search, steps=asked.steps, seconds=asked.seconds)
    except (OutOfTime, Stopped) as end:
        print(f"decide.py: {end or 'out of time'}", file=sys.stderr)
    return found[0]


def decide_defined(asked: Words, _folder: str) -> int:
    """Which existentials are functions."""

    def run_once(steps: int, left: Optional[float]) -> Tuple[Any, bool, float]:
        found = sapuendy.defined(asked.names[0], steps=steps, seconds=left)
        return found, found.text is not None, found.seconds

    found = growing(asked, run_once)
    if found is None or found.text is None:
        print(json.dumps({"verdict": "UNKNOWN"}) if asked.json else "UNKNOWN")
        return 0
    judgement = sapuendy.check(asked.names[0], found.text)
    if not judgement.is_accepted:
        raise Failure(SOLVER_FAILED, f"dqcheck says: {judgement.line}")
    if asked.certificate is not None:
        with open(asked.certificate, "wb") as file:
            file.write(found.text)
    line = f"DEFINED {len(found.functions)} FREE {len(found.free)}"
    shown = {"verdict": "DEFINED", "functions": found.functions, "free": found.free, "checked": judgement.line}
    print(json.dumps(shown) if asked.json else line)
    return 30


def decide_session(asked: Words, folder: str) -> int:
    """The searches of a script."""
    output = os.path.join(folder, "output")

    def run_once(steps: int, left: Optional[float]) -> Tuple[Any, bool, float]:
        partial = output + ".run"
        done = sapuendy.dqsolve(["session"], list(asked.names), steps, left, partial)
        os.replace(partial, output)
        verdicts = [block[:20].split()[1].decode() for _, block in blocks_of(output)]
        return verdicts, "UNKNOWN" not in verdicts, done.seconds

    verdicts = growing(asked, run_once) or []
    blocks = list(blocks_of(output)) if verdicts else []
    for number, block in blocks:
        checked = None
        if verdicts[number - 1] != "UNKNOWN":
            judgement = sapuendy.check(formula_of_block(*asked.names, number), block)
            checked = judgement.line
            if not judgement.is_accepted:
                raise Failure(SOLVER_FAILED, f"dqcheck says of block {number}: {checked}")
        found = {"block": number, "verdict": verdicts[number - 1], "checked": checked}
        print(json.dumps(found) if asked.json else f"{number} {verdicts[number - 1]}")
    if asked.certificate is not None and verdicts:
        shutil.copyfile(output, asked.certificate)
    if not verdicts:
        print("UNKNOWN")
    return 0


DECIDERS = {"solve": decide_verdict, "pec": decide_verdict, "defined": decide_defined, "session": decide_session}


def main(words: List[str]) -> int:
    asked = words_of(words)
    if asked is None:
        print(__doc__.strip().split("\n\n")[0], file=sys.stderr)
        return USAGE
    for name in asked.names:
        if not os.path.exists(name):
            raise Failure(UNREADABLE, f"{name}: there is no such file")
    if asked.certificate is not None:
        check_writable(asked.certificate)
    with tempfile.TemporaryDirectory(prefix="sapuendy-") as folder:
        try:
            return DECIDERS[asked.kind](asked, folder)
        except sapuendy.Refused as refused:
            print(refused.line)
            return refused.status


if __name__ == "__main__":
    run_script("decide.py", __doc__, main)
