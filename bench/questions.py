#!/usr/bin/env python3
"""What a session is worth: makes formulas of some families, leaves one clause of ten out of each, and asks for them in a session, and by a
run of `solve` for each question, once with the questions one after the other in frames of their own (variants: the clauses that were left
out, each time with some literals negated), and once with a frame more for each question (constraints: a part of the clauses left out in
each). Prints, for each formula, the seconds of the session and of all runs, how many times as long these took, and how many answers were
TRUE. A session, or all runs of a formula, are given up after 60 seconds, or N. A verdict that differs ends the run with exit status 1.

Usage: bench/questions.py [--questions N] [--seed N] [--seconds N] [FAMILY SIZE]..     without words adders, comparators, controllers and two-levels

The variable DQSOLVE names the program.
"""

import os
import random
import subprocess
import sys
import tempfile
import time

from decisions import SOLVER
from families import formula_of

DEFAULT = [("adder", 32), ("comparator", 16), ("controller", 6), ("two-levels", 8)]
VERDICTS = {b"s TRUE": "TRUE", b"s FALSE": "FALSE", b"s UNKNOWN": "UNKNOWN"}


def parts_of(text):
    """The header's variables, the lines of the prefix, and the clauses."""
    lines = [line for line in text.splitlines() if line and not line.startswith("c")]
    variables = int(lines[0].split()[2])
    prefix = [line for line in lines[1:] if line[0] in "aed"]
    clauses = [line for line in lines[1:] if line[0] not in "aed"]
    return variables, prefix, clauses


def text_of(variables, prefix, clauses):
    return "\n".join([f"p cnf {variables} {len(clauses)}", *prefix, *clauses]) + "\n"


def variant(rng, clauses):
    """The clauses, with a literal of one in four of them negated."""
    changed = []
    for clause in clauses:
        literals = [int(word) for word in clause.split()[:-1]]
        if literals and rng.random() < 0.25:
            place = rng.randrange(len(literals))
            literals[place] = -literals[place]
        changed.append(" ".join(map(str, [*literals, 0])))
    return changed


def questions_of(rng, kept, left, count, kind):
    """A script, and the clauses of each question."""
    script, asked = [], []
    if kind == "variants":
        for k in range(count):
            own = left if k == 0 else variant(rng, left)
            script += ["push", *(f"add {clause}" for clause in own), "solve", "pop"]
            asked.append(kept + own)
    else:
        live = list(kept)
        for k in range(count):
            own = left[k * len(left) // count : (k + 1) * len(left) // count]
            live += own
            script += ["push", *(f"add {clause}" for clause in own), "solve"]
            asked.append(list(live))
    return "\n".join(script) + "\n", asked


def blocks_of(output):
    """The verdicts of a session's blocks."""
    verdicts, place = [], 0
    while place < len(output):
        end = output.index(b"\n", place)
        _, _, size = output[place:end].split()
        block = output[end + 1 : end + 1 + int(size)]
        verdicts.append(VERDICTS[block.split(b"\n", 1)[0]])
        place = end + 1 + int(size)
    return verdicts


def timed(command, limit):
    """The output and the seconds; no output where the run took as long as the limit."""
    started = time.perf_counter()
    try:
        output = subprocess.run(command, stdout=subprocess.PIPE, stderr=subprocess.DEVNULL, timeout=limit).stdout
    except subprocess.TimeoutExpired:
        output = None
    return output, time.perf_counter() - started


def alone_of(path, variables, prefix, asked, limit):
    """The verdicts of a run of `solve` for each question, None where one took as long as the limit, and the seconds of all."""
    verdicts, seconds = [], 0.0
    for question in asked:
        with open(path, "w") as file:
            file.write(text_of(variables, prefix, question))
        text, taken = timed([SOLVER, "solve", path], limit - seconds)
        seconds += taken
        if text is None:
            return None, seconds
        verdicts.append(VERDICTS[text.split(b"\n", 1)[0]])
    return verdicts, seconds


def measure(folder, family, size, seed, count, limit):
    rng = random.Random(f"{family} {size} {seed} questions")
    variables, prefix, clauses = parts_of(formula_of(family, size, seed, "forward")[0].text())
    chosen = set(rng.sample(range(len(clauses)), max(1, len(clauses) // 10)))
    kept = [clause for place, clause in enumerate(clauses) if place not in chosen]
    left = [clause for place, clause in enumerate(clauses) if place in chosen]
    for kind in "variants", "constraints":
        script, asked = questions_of(rng, kept, left, count, kind)
        paths = [os.path.join(folder, name) for name in ("file", "script", "single")]
        for path, text in zip(paths, (text_of(variables, prefix, kept), script)):
            with open(path, "w") as file:
                file.write(text)
        output, in_session = timed([SOLVER, "session", paths[0], paths[1]], limit)
        verdicts, alone = alone_of(paths[2], variables, prefix, asked, limit)
        if output is not None and verdicts is not None and blocks_of(output) != verdicts:
            print(f"{family} {size} {kind}: the verdicts differ", file=sys.stderr)
            return False
        share = f"{alone / in_session:8.1f}" if output is not None and verdicts is not None else "       -"
        true = (verdicts or (output and blocks_of(output)) or []).count("TRUE")
        times = [f"{seconds:9.2f}" if known is not None else f"{'> ' + str(limit):>9}" for seconds, known in ((in_session, output), (alone, verdicts))]
        print(f"{family:<16} {size:5} {kind:<12} {len(asked):4} {times[0]} {times[1]} {share} {true:5}", flush=True)
    return True


def main(words):
    options = {"--questions": 50, "--seed": 1, "--seconds": 60}
    while words and words[0] in options and len(words) > 1 and words[1].isdigit():
        options[words[0]], words = int(words[1]), words[2:]
    if len(words) % 2 or not all(word.isdigit() for word in words[1::2]):
        print(__doc__.strip())
        return 0 if words == ["--help"] else 1
    chosen = [(family, int(size)) for family, size in zip(words[::2], words[1::2])] or DEFAULT
    print(f"{'family':<16} {'size':>5} {'kind':<12} {'asks':>4} {'session':>9} {'alone':>9} {'times':>8} {'true':>5}")
    with tempfile.TemporaryDirectory() as folder:
        return 0 if all(measure(folder, *one, options["--seed"], options["--questions"], options["--seconds"]) for one in chosen) else 1


if __name__ == "__main__":
    sys.exit(main(sys.argv[1:]))
