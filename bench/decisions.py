"""Runs the built solver on random small formulas, declared in any order. Each verdict is compared with all choices of bits at the pairs of
existentials and what they see, tried one by one; each certificate is judged by the built checker and by the second judge, reference.py,
also with deletions, which deletions.py writes as well, and with circuits in the binary form, which binary_coder.py
writes as well.
Then the solver runs with each number of steps from 1 on: below what the verdict takes the answer is UNKNOWN with as many steps in its
counts, and from there on the verdict, with the same bytes."""

import collections
import itertools
import os
import random
import re
import subprocess
import tempfile

import loop
import reference
from bench import CHECKER, TOP
from binary_coder import binary_text
from deletions import with_deletions

SOLVER = os.environ.get("DQSOLVE", os.path.join(TOP, "crates", "dqsolve", "out", "dqsolve"))
MOST_DIFFERENCES = 10
MOST_VERDICTS = 3
UNKNOWN = re.compile(rb"s UNKNOWN\nc rounds ([0-9]+) learned ([0-9]+)\n")


def solve(formula_path, *words):
    """What the solver writes, and its exit status."""
    run = subprocess.run([SOLVER, "solve", *words, formula_path], stdout=subprocess.PIPE, check=False)
    return run.stdout, run.returncode


def check(folder, formula_path, certificate):
    """What the checker says of a certificate."""
    path = os.path.join(folder, "certificate")
    with open(path, "wb") as file:
        file.write(certificate)
    return subprocess.run([CHECKER, formula_path, path], stdout=subprocess.PIPE, check=False).stdout.decode().strip()


def steps_in(answer):
    """The steps that an UNKNOWN counts, or none for another answer."""
    match = UNKNOWN.fullmatch(answer[0])
    return int(match[1]) + int(match[2]) if match and answer[1] == 0 else None


def faults_of_verdict(folder, path, text, formula, answer):
    """What is wrong with a verdict, as a list of sentences."""
    word, status = ("TRUE", 10) if loop.is_true(formula) else ("FALSE", 20)
    certificate, found = answer
    faults = []
    if found != status or not certificate.startswith(f"s {word}\n".encode()):
        faults.append(f"due is {word} with status {status}, the solver says {certificate[:20]} with {found}")
        return faults
    for judge, said in (("checker", check(folder, path, certificate)), ("second judge", reference.answer(text, certificate))):
        if said != f"VALID {word}":
            faults.append(f"the {judge} says {said}")
    bare, found = solve(path, "--bare")
    if found != status or b"s %s\n" % word.encode() + bare != certificate:
        faults.append("without the line with the verdict the text is another")
    return faults + faults_of_deletions(folder, path, text, answer) + faults_of_forms(folder, path, text, answer)


def in_binary(text, certificate):
    """A certificate with its circuit in the binary form, if it has one."""
    if not certificate.startswith(b"s TRUE\n"):
        return certificate
    return b"".join(binary_text(reference.FormulaReader(text).read(), certificate))


def faults_of_forms(folder, path, text, answer):
    """What is wrong with the same certificate in the binary form, in all combinations with other forms."""
    faults = []
    for deletes, bare in itertools.product((False, True), repeat=2):
        due = with_deletions(answer[0].decode()).encode() if deletes else answer[0]
        due = in_binary(text, due)
        due = due[due.index(b"\n") + 1 :] if bare else due
        words = ["--binary"] + ["--v2"] * deletes + ["--bare"] * bare
        if solve(path, *words) != (due, answer[1]):
            faults.append(f"with {' '.join(words)} the text is another")
        said = {check(folder, path, due), reference.answer(text, due)}
        if len(said) > 1 or not said.pop().startswith("VALID "):
            faults.append(f"with {' '.join(words)} a judge says otherwise")
    return faults


def faults_of_deletions(folder, path, text, answer):
    """What is wrong with the same proof where clauses are deleted behind their last use."""
    deleting = with_deletions(answer[0].decode()).encode()
    if solve(path, "--v2") != (deleting, answer[1]):
        return ["with deletions the text is another"]
    bare, _ = solve(path, "--v2", "--bare")
    if deleting[deleting.index(b"\n") + 1 :] != bare:
        return ["with deletions and without the line with the verdict the text is another"]
    said = {check(folder, path, deleting), reference.answer(text, deleting)}
    return [] if len(said) == 1 and said.pop().startswith("VALID ") else ["with deletions a judge says otherwise"]


def faults_of_steps(path, answer):
    """What is wrong with the answers to numbers of steps from 1 on: as many steps each, and then the verdict."""
    faults, decided = [], 0
    for steps in itertools.count(1):
        found = solve(path, "--steps", str(steps))
        if found == answer:
            decided += 1
        elif decided or steps_in(found) != steps:
            faults.append(f"with {steps} steps the solver says {found[0][:60]} with {found[1]}")
        if decided == MOST_VERDICTS or len(faults) == MOST_DIFFERENCES:
            return faults


def compare(count, seed):
    """The number of formulas with a difference; behind the tenth the rest is left out."""
    rng = random.Random(seed)
    kinds, differences = collections.Counter(), 0
    with tempfile.TemporaryDirectory() as folder:
        path = os.path.join(folder, "formula")
        for case in range(1, count + 1):
            formula = loop.shuffled(rng, loop.random_formula(rng))
            text = loop.text_of(formula).replace(" / ", "\n").encode() + b"\n"
            with open(path, "wb") as file:
                file.write(text)
            answer = solve(path)
            faults = faults_of_verdict(folder, path, text, formula, answer) + faults_of_steps(path, answer)
            kinds[answer[1]] += 1
            if faults:
                differences += 1
                print(f"formula {case}:", *faults, text.decode(), sep="\n  ")
            if differences == MOST_DIFFERENCES:
                break
    print(", ".join(f"{seen} with status {status}" for status, seen in sorted(kinds.items())))
    print(f"{sum(kinds.values())} formulas from seed {seed}, {differences} differences")
    return differences
