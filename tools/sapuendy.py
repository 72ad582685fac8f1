"""The programs as calls: formulas are decided, certificates judged, circuits with black boxes compared, definitions and sessions asked for.

    import sapuendy
    answer = sapuendy.solve("formula.dqdimacs", seconds=60)
    if answer.verdict == "TRUE":
        print(sapuendy.check("formula.dqdimacs", answer.text).line)

A text is given as the name of its file, or as `bytes`, which are the text itself. What a program refuses raises Refused, a time limit
OutOfTime. DQSOLVE and DQCHECK may name the programs; else they are those beside this folder, which are built at their first use. Nothing here
is trusted: a verdict counts with the checker's word. Python's standard library suffices.
"""

from __future__ import annotations

import contextlib
import dataclasses
import json
import os
import re
import tempfile
import time
from dataclasses import dataclass
from typing import Callable, Iterable, Iterator, List, Optional, Tuple, Union

from failure import SOLVER_FAILED, Failure
from processes import Done, OutOfTime, program, run
from texts import Formula, FormulaReader

__all__ = ["Answer", "Definitions", "Judgement", "OutOfTime", "Refused", "Session"]
__all__ += ["check", "checked", "decide", "decided", "defined", "encode", "pec", "solve"]

Text = Union[str, "os.PathLike[str]", bytes]

FIRST_STEPS = 1_000
MOST_STEPS = 1_000_000_000
LONG_RUN = 1.0  # seconds, from which on a search gets twice the steps in place of ten times as many
HEAD = 200  # bytes of an answer that goes to a file
VERDICTS = {10: "TRUE", 20: "FALSE", 0: "UNKNOWN"}
COUNTS = re.compile(rb"c rounds (\d+) learned (\d+)")


class Refused(Failure):
    """A program's refusal: its status, and the line that it wrote."""

    def __init__(self, status: int, line: str):
        super().__init__(status, line)
        self.line = line


class Result:
    """What dataclasses of results share: they are written as JSON, texts as strings."""

    def as_json(self) -> str:
        """One line of JSON."""
        return json.dumps(dataclasses.asdict(self), default=lambda it: it.decode("ascii", "backslashreplace"))  # type: ignore[call-overload]


@dataclass(frozen=True)
class Answer(Result):
    """What a search came to. `text` is what dqsolve wrote: the line `s ..` and the certificate, or the counts of an UNKNOWN."""

    verdict: str
    text: bytes
    steps: int
    seconds: float
    rounds: Optional[int] = None
    learned: Optional[int] = None
    checked: Optional[str] = None  # the checker's line, where it was asked

    @property
    def status(self) -> int:
        """The programs' exit status for this verdict."""
        return {verdict: status for status, verdict in VERDICTS.items()}[self.verdict]


@dataclass(frozen=True)
class Judgement(Result):
    """The checker's answer: its status and its line."""

    status: int
    line: str

    @property
    def is_accepted(self) -> bool:
        """Whether the certificate is accepted."""
        return self.status == 0


@dataclass(frozen=True)
class Definitions(Result):
    """A text of definitions, or None where the steps didn't suffice; the existentials that are functions, and those that aren't."""

    text: Optional[bytes]
    functions: Tuple[int, ...]
    free: Tuple[int, ...]
    steps: int
    seconds: float

    @property
    def status(self) -> int:
        """dqsolve's exit status."""
        return 0 if self.text is None else 30


@contextlib.contextmanager
def named(*texts: Text) -> Iterator[List[str]]:
    """Names of files that have these texts."""
    with tempfile.TemporaryDirectory(prefix="sapuendy-") as folder:
        names = []
        for place, text in enumerate(texts):
            if isinstance(text, bytes):
                names.append(os.path.join(folder, str(place)))
                with open(names[-1], "wb") as file:
                    file.write(text)
            else:
                names.append(os.fspath(text))
        yield names


def called(variable: str, name: str, words: Iterable[str], seconds: Optional[float], into: Optional[str] = None) -> Done:
    """A run of a program, whose building is told on standard error. With `into` its output goes to a file, of which the first bytes are answered."""
    command = [program(variable, name), *words]
    if into is None:
        return run(command, seconds=seconds, passes_errors=True)
    with open(into, "wb") as file:
        done = run(command, seconds=seconds, passes_errors=True, output=file)
    with open(into, "rb") as file:
        return dataclasses.replace(done, output=file.read(HEAD))


def first_line(text: bytes) -> str:
    """The first line of a text, at most some thousand bytes of it."""
    return text[:10_000].decode(errors="replace").split("\n")[0]


def dqsolve(words: Iterable[str], names: List[str], steps: Optional[int], seconds: Optional[float], into: Optional[str] = None) -> Done:
    """A run of dqsolve, which ends with one of its verdicts' statuses or is refused."""
    budget = [] if steps is None else ["--steps", str(steps)]
    done = called("DQSOLVE", "dqsolve", [*words, *budget, "--", *names], seconds, into)
    if done.status not in (*VERDICTS, 30):
        raise Refused(done.status, first_line(done.output) or f"dqsolve ended with {done.status}")
    return done


def answer_of(done: Done, steps: int) -> Answer:
    """What a run that ended says."""
    counts = COUNTS.search(done.output[:HEAD]) if done.status == 0 else None
    rounds, learned = (int(counts[1]), int(counts[2])) if counts else (None, None)
    return Answer(VERDICTS[done.status], done.output, steps, done.seconds, rounds, learned)


def solve(
    formula: Text, *, steps: int = 1_000_000, seconds: Optional[float] = None, options: Iterable[str] = (), into: Optional[str] = None
) -> Answer:
    """Decides a formula in so many steps. Options are dqsolve's: --v2, --prep, --binary. With `into` what is written goes to this file, and the
    answer's text is its first bytes: a certificate may be larger than the memory."""
    with named(formula) as names:
        return answer_of(dqsolve(["solve", *options], names, steps, seconds, into), steps)


def pec(spec: Text, impl: Text, *, steps: int = 1_000_000, seconds: Optional[float] = None, into: Optional[str] = None) -> Answer:
    """Whether the black boxes of a circuit can be filled as its specification asks."""
    with named(spec, impl) as names:
        return answer_of(dqsolve(["pec"], names, steps, seconds, into), steps)


def encode(spec: Text, impl: Text, *, seconds: Optional[float] = None) -> bytes:
    """The formula that `pec` decides."""
    with named(spec, impl) as names:
        return dqsolve(["encode"], names, None, seconds).output


def defined(formula: Text, *, steps: int = 1_000_000, seconds: Optional[float] = None) -> Definitions:
    """Which existentials are functions of what they may read, wherever the clauses are true."""
    with named(formula) as names:
        done = dqsolve(["defined"], names, steps, seconds)
    if done.status == 0:
        return Definitions(None, (), (), steps, done.seconds)
    functions = tuple(int(it) for it in re.findall(rb"^t (\d+)", done.output, re.MULTILINE))
    free = tuple(int(it) for it in re.findall(rb"^f (\d+)", done.output, re.MULTILINE))
    return Definitions(done.output, functions, free, steps, done.seconds)


def check(formula: Text, certificate: Text, *, seconds: Optional[float] = None) -> Judgement:
    """What dqcheck says of a certificate."""
    with named(formula, certificate) as names:
        done = called("DQCHECK", "dqcheck", ["--", *names], seconds)
    return Judgement(done.status, first_line(done.output))


def decide(
    search: Callable[[int, Optional[float]], Answer],
    *,
    steps: int = MOST_STEPS,
    seconds: Optional[float] = None,
    tell: Callable[[Answer], None] = lambda _: None,
) -> Answer:
    """Makes a search, a function of steps and seconds, with more and more steps until there is a verdict, the steps are spent, or the time is.
    Each run begins anew, and goes the way of the one before it. `tell` gets each run's answer as it comes; at the time limit the last one is
    the answer."""
    end = None if seconds is None else time.monotonic() + seconds
    budget, answer = min(FIRST_STEPS, steps), Answer("UNKNOWN", b"", 0, 0.0)
    while True:
        try:
            answer = search(budget, None if end is None else end - time.monotonic())
        except OutOfTime:
            return answer
        tell(answer)
        if answer.verdict != "UNKNOWN" or budget == steps:
            return answer
        budget = min(steps, budget * (10 if answer.seconds < LONG_RUN else 2))


def decided(formula: Text, *, steps: int = MOST_STEPS, seconds: Optional[float] = None) -> Answer:
    """Decides a formula with more and more steps, and asks the checker; a certificate that it doesn't accept is a failure."""
    with named(formula) as names:
        answer = decide(lambda budget, left: solve(names[0], steps=budget, seconds=left), steps=steps, seconds=seconds)
        return checked(names[0], answer)


def checked(formula: Text, answer: Answer, *, seconds: Optional[float] = None) -> Answer:
    """The answer with the checker's line on it, which accepts it, or a failure."""
    if answer.verdict == "UNKNOWN":
        return answer
    judgement = check(formula, answer.text, seconds=seconds)
    if not judgement.is_accepted:
        raise Failure(SOLVER_FAILED, f"dqcheck says: {judgement.line}")
    return dataclasses.replace(answer, checked=judgement.line)


class Session:
    """A formula to which clauses are added in frames, and taken away again, as in a script of `dqsolve session`; each `solve` is answered before
    the next command is known."""

    def __init__(self, formula: Text):
        with named(formula) as names:
            self._prefix: Formula = FormulaReader(names[0]).read()
        self._frames: List[List[List[int]]] = []
        self._commands: List[str] = []

    def push(self) -> None:
        """Opens a frame."""
        self._frames.append([])
        self._commands.append("push")

    def add(self, *literals: int) -> None:
        """Adds a clause to the newest frame."""
        if not self._frames:
            raise Refused(7, "add where no frame is open")
        for literal in literals:
            if abs(literal) not in self._prefix.universals and abs(literal) not in self._prefix.dependencies:
                raise Refused(7, f"{literal} is on no variable of the formula")
        self._frames[-1].append(list(dict.fromkeys(literals)))
        self._commands.append(" ".join(map(str, ["add", *literals, 0])))

    def pop(self) -> None:
        """Closes the newest frame, and takes its clauses away."""
        if not self._frames:
            raise Refused(7, "pop where no frame is open")
        self._frames.pop()
        self._commands.append("pop")

    def formula(self) -> bytes:
        """The formula with the clauses of all open frames, which certificates of the next search are for."""
        return self._prefix.text([clause for frame in self._frames for clause in frame])

    def solve(self, *, steps: int = 1_000_000, seconds: Optional[float] = None) -> Answer:
        """Decides that formula."""
        self._commands.append("solve")
        return solve(self.formula(), steps=steps, seconds=seconds)

    def script(self) -> str:
        """The commands so far, as `dqsolve session` reads them."""
        return "".join(f"{command}\n" for command in self._commands)
