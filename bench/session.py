#!/usr/bin/env python3
"""Runs the built solver's sessions on random small formulas with random scripts, and reads each script a second time, by the functions
here, which are written from docs/FORMATS.md alone. Of an honest script each block is compared with all choices of bits for the formula
of its search, tried one by one, and its certificate is judged by the built checker and by the second judge, reference.py, against
that formula's text. Each script is run again with one, two, three and ten steps in all, where a block may be UNKNOWN; its counts are
then the session's. Spoilt scripts, which have one or two random changes, are to be refused at the line and with the name that the
second reader finds first. A few runs are made with files that are missing or refused, where the order of the refusals shows.

Prints how many blocks of each kind and how many refusals of each name there were, and each difference with formula and script; where
there is one, the exit status is 1.

Usage: bench/session.py [COUNT [SEED]]     300 formulas from seed 1, or COUNT formulas from SEED

The variables DQSOLVE and DQCHECK name the programs.
"""

import collections
import os
import random
import re
import subprocess
import sys
import tempfile

import loop
import reference
from bench import CHECKER
from decisions import SOLVER, UNKNOWN

BUDGETS = (1, 2, 3, 10)
MOST_DIFFERENCES = 10
VERDICTS = {"TRUE": b"s TRUE\n", "FALSE": b"s FALSE\n", "UNKNOWN": b"s UNKNOWN\n"}
HEAD = re.compile(rb"solve ([1-9][0-9]*) ([1-9][0-9]*)\n")
STRANGE = [b"solve 1", b"push 0", b"pop pop", b"Push", b"add", b"add 0 0", b"add 1", b"add x 0", b"add -0 0", b"add +1 0"]
STRANGE += [b"add 1000000000000000000 0", b"add 99 0", b"add 1 0 x", b"add 1 0 99", b"add 1 99 x", b"c comment", b"pop", b"solve\r", b"\t", b"0", b"add 1 0 2"]


# The second reader


class Refused(Exception):
    """A script's first refusal: its line and its name."""

    def __init__(self, line, name):
        super().__init__(f"{line} {name}")
        self.line, self.name = line, name


def word_of_clause(formula, line, token):
    """The literal that a word of a clause spells, or 0."""
    value = reference.number(token)
    if value is None:
        raise Refused(line, "BadNumber")
    if abs(value) >= reference.TOO_BIG:
        raise Refused(line, "TooBig")
    if abs(value) > formula.variables:
        raise Refused(line, "VarRange")
    if value and abs(value) not in formula.universals and abs(value) not in formula.dependencies:
        raise Refused(line, "Undeclared")
    return value


def clause_of(formula, line, tokens):
    """The distinct literals of the words behind `add`."""
    values = [word_of_clause(formula, line, token) for token in tokens]
    if 0 not in values or values.index(0) < len(values) - 1:
        raise Refused(line, "MissingZero")
    return list(dict.fromkeys(values[:-1]))


def searches_of(formula, text):
    """The clauses of each search that a script asks for, in order."""
    frames, searches, count = [], [], len(formula.clauses)
    for line, words in enumerate(map(reference.tokens_of, reference.lines_of(text)), 1):
        if not words:
            continue
        command, rest = words[0], words[1:]
        if command not in (b"push", b"add", b"pop", b"solve") or (rest and command != b"add"):
            raise Refused(line, "BadCommand")
        if command in (b"pop", b"add") and not frames:
            raise Refused(line, "NoFrame")
        if command == b"push":
            frames.append([])
        elif command == b"pop":
            frames.pop()
        elif command == b"solve":
            searches.append(formula.clauses + [clause for frame in frames for clause in frame])
        else:
            clause = clause_of(formula, line, rest)
            if count >= reference.MOST_CLAUSES:
                raise Refused(line, "Limit")
            count += 1
            frames[-1].append(clause)
    return searches


# Formulas, scripts, and changes


def random_script(rng, variables):
    """An honest script: clauses come to frames that are open, and searches are asked for in between."""
    lines, depth = [], 0
    for _ in range(rng.randint(0, 30)):
        kind = rng.choice("pppaaaaaooss")
        if kind == "p":
            lines.append(b"push")
            depth += 1
        elif kind == "a" and depth and variables:
            lines.append(b"add " + b" ".join(str(l).encode() for l in [*random_literals(rng, variables), 0]))
        elif kind == "o" and depth:
            lines.append(b"pop")
            depth -= 1
        elif kind == "s":
            lines.append(b"solve")
        if rng.random() < 0.05:
            lines.append(rng.choice((b"", b"  \t", b"\r")))
    return lines + [b"solve"] * rng.randint(0, 2)


def random_literals(rng, variables):
    """Up to four literals, perhaps none, perhaps one twice or with its negation."""
    return [rng.choice(variables) * rng.choice((1, -1)) for _ in range(rng.choice((0, 1, 1, 1, 2, 2, 2, 3, 3, 4)))]


def spoilt(rng, lines):
    """The same lines with one or two changes."""
    lines = list(lines)
    for _ in range(rng.randint(1, 2)):
        place = rng.randrange(len(lines) + 1)
        kind = rng.choice("idxw")
        if kind == "i" or not lines:
            lines.insert(place, rng.choice(STRANGE))
        elif kind == "d":
            del lines[place % len(lines)]
        elif kind == "x":
            line = lines[place % len(lines)]
            cut = rng.randrange(len(line) + 1)
            lines[place % len(lines)] = line[:cut] + rng.choice((b"", b" ", b"0", b"-", b"x", b"9", b" 0")) + line[cut + 1 :]
        else:
            lines[place % len(lines)] += rng.choice((b" 0", b" 1", b" solve", b"  "))
    return lines


def text_of(rng, lines):
    """The lines with their LFs, of which the last may be missing."""
    text = b"".join(line + b"\n" for line in lines)
    return text[:-1] if text and rng.random() < 0.2 else text


# Blocks


def blocks_of(output):
    """The texts of the blocks, in order, or None where the output isn't blocks with their numbers and lengths."""
    blocks, at = [], 0
    while at < len(output):
        head = HEAD.match(output, at)
        if not head or int(head[1]) != len(blocks) + 1:
            return None
        at = head.end() + int(head[2])
        if at > len(output):
            return None
        blocks.append(output[head.end() : at])
    return blocks


def verdict_of(block):
    return next((word for word, first in VERDICTS.items() if block.startswith(first)), None)


def canonical(formula, clauses):
    """The canonical text of a formula's prefix over these clauses."""
    lines = [["p", "cnf", formula.variables, len(clauses)]]
    if formula.universals:
        lines.append(["a", *formula.universals, 0])
    for y, seen in formula.dependencies.items():
        whole = len(seen) == len(formula.universals)
        lines.append(["e", y, 0] if whole else ["d", y, *(x for x in formula.universals if x in seen), 0])
    lines += [[*clause, 0] for clause in clauses]
    return "".join(" ".join(map(str, line)) + "\n" for line in lines).encode()


class Session:
    """Runs on one formula, in a folder of its own."""

    def __init__(self, folder, text):
        self.folder, self.text = folder, text
        self.formula = reference.FormulaReader(text).read()
        self.truths = {}
        self.write("formula", text)

    def path(self, name):
        return os.path.join(self.folder, name)

    def write(self, name, text):
        with open(self.path(name), "wb") as file:
            file.write(text)

    def run(self, script, *words):
        self.write("script", script)
        command = [SOLVER, "session", *words, self.path("formula"), self.path("script")]
        done = subprocess.run(command, stdout=subprocess.PIPE, check=False)
        return done.returncode, done.stdout

    def is_true(self, clauses):
        key = tuple(map(tuple, clauses))
        if key not in self.truths:
            seen = {y: sorted(xs) for y, xs in self.formula.dependencies.items()}
            self.truths[key] = loop.is_true((self.formula.universals, seen, clauses))
        return self.truths[key]

    def faults_of_block(self, place, clauses, block, budget):
        """What is wrong with a block for the formula of these clauses."""
        word, due = verdict_of(block), "TRUE" if self.is_true(clauses) else "FALSE"
        if word == "UNKNOWN" and budget:
            counts = UNKNOWN.fullmatch(block)
            right = counts and int(counts[1]) + int(counts[2]) == budget
            return [] if right else [f"block {place}: the counts aren't those of {budget} steps"]
        if word != due:
            return [f"block {place}: due is {due}, the solver says {word}"]
        text = canonical(self.formula, clauses)
        self.write("now", text)
        self.write("certificate", block)
        judge = subprocess.run([CHECKER, self.path("now"), self.path("certificate")], stdout=subprocess.PIPE, check=False)
        said = {judge.stdout.decode().strip(), reference.answer(text, block)}
        return [] if said == {f"VALID {word}"} else [f"block {place}: the judges say {sorted(said)}"]

    def faults_of_blocks(self, searches, ran, budget):
        status, output = ran
        blocks = blocks_of(output)
        if status != 0 or blocks is None or len(blocks) != len(searches):
            return [f"status {status} with {output[:60]} for {len(searches)} searches"]
        faults = []
        for place, (clauses, block) in enumerate(zip(searches, blocks), 1):
            faults += self.faults_of_block(place, clauses, block, budget)
        return faults

    def faults_of(self, script, counts):
        """What is wrong with a session's output, or with its refusal."""
        try:
            searches = searches_of(self.formula, script)
        except Refused as refused:
            counts[refused.name] += 1
            ran, due = self.run(script), (7, f"script {refused}\n".encode())
            return [] if ran == due else [f"due is {due}, the solver says {ran[0]} {ran[1][:60]}"]
        ran = self.run(script)
        counts.update(verdict_of(block) for block in blocks_of(ran[1]) or [])
        faults = self.faults_of_blocks(searches, ran, None)
        for budget in BUDGETS:
            ran = self.run(script, "--steps", str(budget))
            counts["UNKNOWN"] += sum(verdict_of(block) == "UNKNOWN" for block in blocks_of(ran[1]) or [])
            faults += self.faults_of_blocks(searches, ran, budget)
        return faults


def faults_of_orders(folder):
    """What is wrong with which refusal comes first, where more than one is due."""
    good, bad = b"p cnf 1 0\na 1 0\n", b"p cnf 1 0\na 1 1 0\n"
    cases = [
        (good, b"solve\n", 0, None),
        (good, b"", 0, b""),
        (None, b"pup\n", 3, b"source fault\n"),
        (None, None, 3, b"source fault\n"),
        (bad, None, 3, b"source fault\n"),
        (good, None, 3, b"source fault\n"),
        (bad, b"pup\n", 2, b"refused 2 DeclaredTwice\n"),
        (bad, b"solve\n", 2, b"refused 2 DeclaredTwice\n"),
        (good, b"solve\npup\nsolve x\n", 7, b"script 2 BadCommand\n"),
    ]
    faults = []
    for formula, script, status, output in cases:
        paths = [os.path.join(folder, name) for name in ("first", "second")]
        for path, text in zip(paths, (formula, script)):
            if os.path.exists(path):
                os.remove(path)
            if text is not None:
                with open(path, "wb") as file:
                    file.write(text)
        done = subprocess.run([SOLVER, "session", *paths], stdout=subprocess.PIPE, check=False)
        if done.returncode != status or output not in (None, done.stdout):
            faults.append(f"{formula} with {script}: due is {status} {output}, the solver says {done.returncode} {done.stdout[:60]}")
    return faults


def compare(count, seed):
    """The number of differences; behind the tenth the rest is left out."""
    rng, counts, differences = random.Random(seed), collections.Counter(), 0
    with tempfile.TemporaryDirectory() as folder:
        for fault in faults_of_orders(folder):
            differences += 1
            print(fault)
        for case in range(1, count + 1):
            formula = loop.shuffled(rng, loop.random_formula(rng))
            text = loop.text_of(formula).replace(" / ", "\n").encode() + b"\n"
            session = Session(folder, text)
            lines = random_script(rng, session.formula.universals + session.formula.existentials)
            for script in (text_of(rng, lines), text_of(rng, spoilt(rng, lines)), text_of(rng, spoilt(rng, lines))):
                faults = session.faults_of(script, counts)
                if faults:
                    differences += 1
                    print(f"formula {case}:", *faults, text.decode(), script.decode(), sep="\n  ")
            if differences >= MOST_DIFFERENCES:
                break
    print(", ".join(f"{seen} {word}" for word, seen in sorted(counts.items(), key=str)))
    print(f"{count} formulas from seed {seed}, {differences} differences")
    return differences


if __name__ == "__main__":
    if sys.argv[1:] == ["--help"]:
        print(__doc__.strip())
        sys.exit(0)
    numbers = [int(word) for word in sys.argv[1:]]
    sys.exit(1 if compare(*(numbers + [300, 1][len(numbers) :])) else 0)
