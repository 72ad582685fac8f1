#!/usr/bin/env python3
"""batch.py [--seconds S] [--steps N] FOLDER FORMULA..: decides formulas as decide.py does, and keeps a line for each in FOLDER, where one
that has a line is passed over. So it goes on where it was stopped, and many may run at once, on one machine or on several with a
common folder:

    parallel tools/batch.py --seconds 60 results ::: formulas/*.dqdimacs
    parallel --sshlogin one,other --wd . tools/batch.py --seconds 60 results ::: formulas/*.dqdimacs

or each a job of a Slurm array, `tools/batch.py results "$(sed -n "$SLURM_ARRAY_TASK_ID p" list)"`. A run has one thread.

batch.py --table FOLDER prints all lines as CSV, --json as JSON; batch.py --cactus FOLDER prints a drawing in SVG: how many formulas were decided
in at most so many seconds each.

The exit status is 0, or 1 where a run of one of these formulas failed: it was refused, or its certificate was.
"""

import csv
import hashlib
import json
import os
import re
import sys
import tempfile
import time
from typing import List, Optional, Tuple

import sapuendy
from decide import Search
from failure import UNREADABLE, USAGE, Failure
from processes import OutOfTime, run_script

HEAD = ("formula", "verdict", "seconds", "rounds", "learned", "bytes", "checker")
DECIDED = ("TRUE", "FALSE", "UNKNOWN")


def line_of(path: str, seconds: Optional[float], steps: int) -> tuple:
    """What comes of a formula: a verdict counts only with the checker's word."""
    began = time.monotonic()
    with tempfile.TemporaryDirectory(prefix="sapuendy-") as folder:
        search = Search([path], folder, seconds)
        size, checker = "", ""
        try:
            answer = search.decide(steps)
            verdict = answer.verdict
            if verdict != "UNKNOWN":
                size, checker = os.path.getsize(search.output), answer.checked
        except OutOfTime:
            verdict = "UNKNOWN"
        except sapuendy.Refused as refused:
            verdict, checker = f"status {refused.status}", refused.line
        except Failure as failure:
            verdict, checker = "REFUSED", str(failure)
        counts = ["" if it is None else it for it in (search.last.rounds, search.last.learned)]
        return (path, verdict, f"{time.monotonic() - began:.2f}", *counts, size, checker)


def place_of(folder, path):
    """The file that a formula's line is kept in: its name, and what tells it from others of that name."""
    mark = hashlib.sha256(os.path.abspath(path).encode()).hexdigest()[:8]
    return os.path.join(folder, f"{os.path.basename(path)}.{mark}.csv")


def decide_all(folder: str, paths: List[str], seconds: Optional[float], steps: int) -> int:
    """Decides formulas that have no line yet; answers 1 where a run of one of all these failed, and else 0."""
    try:
        os.makedirs(folder, exist_ok=True)
    except OSError as error:
        raise Failure(UNREADABLE, f"{folder}: {error.strerror}") from error
    status = 0
    for path in paths:
        place = place_of(folder, path)
        if not os.path.exists(place):
            line = line_of(path, seconds, steps)
            with open(f"{place}.{os.getpid()}", "w", newline="") as file:
                csv.writer(file).writerow(line)
            os.replace(file.name, place)  # whole or not at all
            print(*line[:3], file=sys.stderr, flush=True)
        with open(place, newline="") as file:
            verdict = next(csv.reader(file))[1]
        if verdict not in DECIDED:
            print(f"{path}: {verdict}, in {place}", file=sys.stderr)
            status = 1
    return status


def kept_lines(folder):
    for name in sorted(os.listdir(folder)):
        if name.endswith(".csv"):
            with open(os.path.join(folder, name), newline="") as file:
                yield from csv.reader(file)


# A drawing

WIDTH, HEIGHT, EDGE = 640, 400, 50


def cactus(times):
    """The seconds of the decided formulas in order, over how many they are."""
    times = sorted(times)
    most = max([1.0, *times])
    points = [
        (EDGE + WIDTH * place / max(1, len(times)), EDGE + HEIGHT * (1 - seconds / most)) for place, seconds in enumerate(times, 1)
    ]
    line = " ".join(f"{x:.1f},{y:.1f}" for x, y in points)
    right, foot = EDGE + WIDTH, EDGE + HEIGHT
    return f"""<svg xmlns="http://www.w3.org/2000/svg" viewBox="0 0 {right + EDGE} {foot + EDGE}" font-family="sans-serif" font-size="13">
<path d="M {EDGE} {EDGE} V {foot} H {right}" fill="none" stroke="black"/>
<polyline points="{line}" fill="none" stroke="#1565c0" stroke-width="2"/>
<text x="{right}" y="{foot + 20}" text-anchor="end">{len(times)} formulas decided</text>
<text x="{EDGE}" y="{EDGE - 10}">{most:.1f} s each</text>
</svg>"""


def options_of(words: List[str]) -> Optional[Tuple[Optional[float], int, List[str]]]:
    """The seconds, the steps and the words behind them, or None where they aren't understood."""
    numbers, words = {"--seconds": None, "--steps": sapuendy.MOST_STEPS}, list(words)
    while words and words[0] in numbers:
        if len(words) < 2 or not re.fullmatch(r"\d{1,10}", words[1]) or not 0 < int(words[1]) <= sapuendy.MOST_STEPS:
            return None
        numbers[words[0]] = int(words[1])
        words = words[2:]
    return numbers["--seconds"], numbers["--steps"], words


def main(words: List[str]) -> int:
    if len(words) == 2 and words[0] == "--table":
        csv.writer(sys.stdout).writerows([HEAD, *kept_lines(words[1])])
        return 0
    if len(words) == 2 and words[0] == "--json":
        print("\n".join(json.dumps(dict(zip(HEAD, line))) for line in kept_lines(words[1])))
        return 0
    if len(words) == 2 and words[0] == "--cactus":
        print(cactus([float(line[2]) for line in kept_lines(words[1]) if line[1] in ("TRUE", "FALSE")]))
        return 0
    asked = options_of(words)
    if asked is None or len(asked[2]) < 2 or asked[2][0].startswith("-"):
        print(__doc__.strip().splitlines()[0], file=sys.stderr)
        return USAGE
    seconds, steps, (folder, *formulas) = asked
    return decide_all(folder, formulas, seconds, steps)


if __name__ == "__main__":
    run_script("batch.py", __doc__, main)
