"""Refutations of clauses as hinted lines. The solver cadical finds a proof, and unit propagation backward through it
keeps the clauses that are used and finds each one's hints, in the strict form that docs/LRAT.md describes.

Nothing here is trusted: dqcheck judges the lines.
"""

import os
import shutil
import sys
import tempfile
from typing import NamedTuple

from failure import NO_SOLVER, SOLVER_FAILED, Failure
from processes import run

# Without what may need RAT steps, or clauses that were deleted before.
OPTIONS = ["-q", "--no-binary", "--no-block", "--no-condition", "--no-cover", "--no-elim", "--no-instantiate"]
HAS_MODEL, HAS_NONE = 10, 20


class Step(NamedTuple):
    """A clause that the solver learned, and those that it deleted since the one before."""

    literals: list
    deleted: list


class Answer(NamedTuple):
    """What the solver says of clauses: the variables that a model makes true, or else what it learned up to the empty
    clause."""

    true: set
    steps: list

    @property
    def has_model(self):
        return self.true is not None


class Line(NamedTuple):
    """A derivation line."""

    id: int
    literals: list
    hints: list

    def text(self):
        return " ".join(map(str, (self.id, *self.literals, 0, *self.hints, 0)))


class Deletion(NamedTuple):
    """A deletion line."""

    ids: list

    def text(self):
        return " ".join(map(str, ("d", *self.ids, 0)))


def is_tautology(clause):
    return len(set(map(abs, clause))) < len(set(clause))


class Numbering:
    """Numbers from 1 on, without gaps, for the variables of clauses: theirs may be as large as a circuit's header says."""

    def __init__(self, clauses):
        self.variables = [0, *dict.fromkeys(abs(literal) for clause in clauses for literal in clause)]
        self.numbers = {variable: place for place, variable in enumerate(self.variables)}

    def __len__(self):
        return len(self.variables) - 1

    def inward(self, clause):
        return [self.numbers[literal] if literal > 0 else -self.numbers[-literal] for literal in clause]

    def outward(self, clause):
        return [self.variables[literal] if literal > 0 else -self.variables[-literal] for literal in clause]


# The solver


def solve(clauses):
    """The solver's answer on clauses, lists of signed variables."""
    solver = shutil.which("cadical")
    if solver is None:
        raise Failure(NO_SOLVER, "the solver cadical isn't on the path; Debian and Ubuntu have it as a package: apt-get install cadical")
    numbering = Numbering(clauses)
    with tempfile.TemporaryDirectory() as folder:
        paths = [os.path.join(folder, name) for name in ("clauses.cnf", "learned.drat")]
        with open(paths[0], "w", encoding="ascii") as file:
            write_dimacs(file, numbering, clauses)
        done = run([solver, *OPTIONS, *paths])
        if done.status == HAS_MODEL:
            return Answer(true_variables(numbering, done.output.decode()), None)
        if done.status == HAS_NONE:
            return Answer(None, read_drat(numbering, paths[1]))
    said = done.error.decode(errors="replace").strip()
    raise Failure(SOLVER_FAILED, f"cadical ended with status {done.status} and no answer: {said}")


def write_dimacs(file, numbering, clauses):
    file.write(f"p cnf {len(numbering)} {len(clauses)}\n")
    for clause in clauses:
        file.write(" ".join(map(str, [*numbering.inward(clause), 0])) + "\n")


def true_variables(numbering, output):
    literals = [int(word) for line in output.splitlines() if line.startswith("v ") for word in line.split()[1:]]
    return set(numbering.outward([literal for literal in literals if literal > 0]))


def read_drat(numbering, path):
    """The steps of a DRAT text before its first empty clause."""
    steps, deleted = [], []
    with open(path, encoding="ascii") as file:
        for line in file:
            words = line.split()
            is_deletion = words[0] == "d"
            literals = numbering.outward([int(word) for word in words[is_deletion:-1]])
            if is_deletion:
                deleted.append(literals)
            elif literals:
                steps.append(Step(literals, deleted))
                deleted = []
            else:
                break
    return steps


# Unit propagation


class Propagation:
    """Unit propagation over clauses that are added one by one, with two watched literals each, the first ones of their
    lists. Clauses are named by their places. `trail` has the true literals in the order in which they became true; `reasons` has, by variable, the
    clause that made it so, or None where it was assumed."""

    def __init__(self, variables):
        self.clauses = []
        self.unwatched = set()
        self.watching = [[] for _ in range(2 * variables + 1)]  # by literal; a negative one counts from the end
        self.is_true = [False] * (2 * variables + 1)
        self.reasons = [None] * (variables + 1)
        self.positions = [0] * (variables + 1)
        self.trail = []
        self.propagated = 0  # how many of the trail

    def assign(self, literal, reason):
        self.is_true[literal] = True
        self.reasons[abs(literal)] = reason
        self.positions[abs(literal)] = len(self.trail)
        self.trail.append(literal)

    def take_back(self, length, clause_count):
        """Takes the trail back to a length at which all of it was propagated, and away the clauses from a place on."""
        for literal in self.trail[length:]:
            self.is_true[literal] = False
        del self.trail[length:]
        del self.clauses[clause_count:]
        self.propagated = length

    def add(self, literals):
        """Adds a clause; answers its place where it is false, else None. It stays only while the trail isn't taken back
        behind its present end: so a literal that is false or true now needs no watch."""
        place = len(self.clauses)
        falses = [literal for literal in literals if self.is_true[-literal]]
        left = [literal for literal in literals if not self.is_true[-literal]]
        self.clauses.append(left + falses)
        if len(left) >= 2 and not any(self.is_true[literal] for literal in left):
            self.watch(place)
        else:
            self.unwatched.add(place)
            if len(left) == 1 and not self.is_true[left[0]]:
                self.assign(left[0], place)
        return None if left else place

    def watch(self, place):
        for literal in self.clauses[place][:2]:
            self.watching[literal].append(place)

    def stop_watching(self, place):
        """Passes a clause over from now on, and answers whether it was looked at: not where it made a literal true, or
        needed no watch. `watch` brings it back once the trail is as it was."""
        clause = self.clauses[place]
        if place in self.unwatched or any(self.is_true[literal] and self.reasons[abs(literal)] == place for literal in clause):
            return False
        for literal in clause[:2]:
            self.watching[literal].remove(place)
        return True

    def propagate(self):
        """Makes true what is unit; answers a clause that is false, or None."""
        while self.propagated < len(self.trail):
            false = -self.trail[self.propagated]
            self.propagated += 1
            conflict = self.visit(false)
            if conflict is not None:
                return conflict
        return None

    def visit(self, false):
        """Looks at the clauses that watch a literal which became false. Those that were taken away are dropped."""
        is_true, clauses = self.is_true, self.clauses
        places = self.watching[false]
        kept = self.watching[false] = []
        for at, place in enumerate(places):
            if place >= len(clauses):
                continue
            clause = clauses[place]
            if clause[0] == false:
                clause[0], clause[1] = clause[1], false
            other = clause[0]
            if is_true[other] or not self.moves_watch(place, clause, false):
                kept.append(place)
                if is_true[-other]:
                    kept.extend(places[at + 1 :])
                    return place
                if not is_true[other]:
                    self.assign(other, place)
        return None

    def moves_watch(self, place, clause, false):
        """Whether a literal behind the watched ones isn't false and is watched from now on."""
        for at in range(2, len(clause)):
            literal = clause[at]
            if not self.is_true[-literal]:
                clause[1], clause[at] = literal, false
                self.watching[literal].append(place)
                return True
        return False

    def falsified_under(self, literals):
        """Assumes that literals are false and propagates; answers a clause that is false then, or None. Where one is true
        already, that is the reason of the first one that became so."""
        held = [literal for literal in literals if self.is_true[literal]]
        if held:
            return self.reasons[abs(min(held, key=lambda literal: self.positions[abs(literal)]))]
        for literal in literals:
            if not self.is_true[-literal]:
                self.assign(-literal, None)
        return self.propagate()

    def hints(self, conflict, literals):
        """The clauses that lead from false literals to a false clause, in the order of the trail, and that clause. A
        literal is supposed to be false even where the trail has a reason for it, since a hint to that would say nothing new."""
        supposed = {abs(literal) for literal in literals}
        needed, waiting = set(), [conflict]
        while waiting:
            clause = self.clauses[waiting.pop()]
            new = {abs(literal) for literal in clause} - supposed - needed
            needed |= new
            waiting += [self.reasons[variable] for variable in new]
        ordered = sorted(needed, key=self.positions.__getitem__)
        return [self.reasons[variable] for variable in ordered] + [conflict]


# Derivations


def with_deletions(lines):
    """The lines, and behind each but the last one a deletion of those that no later one hints, where there are such."""
    last_uses = {hint: line.id for line in lines for hint in line.hints}
    own = {line.id for line in lines}
    gone = {}
    for id in sorted(own & last_uses.keys()):
        gone.setdefault(last_uses[id], []).append(id)
    items = []
    for line in lines:
        items.append(line)
        if line.id in gone and line is not lines[-1]:
            items.append(Deletion(gone[line.id]))
    return items


def version_of(items):
    """What stands behind the word of a header: 2 where something is deleted."""
    return "2" if any(isinstance(item, Deletion) for item in items) else ""


def write(lines):
    """Writes lines and deletions to standard output."""
    sys.stdout.flush()
    for line in lines:
        sys.stdout.write(line.text() + "\n")
    sys.stdout.flush()


def derivation(clauses, steps, first_id):
    """The lines, with ids from `first_id` on, that derive the empty clause from clauses by id: those of the learned clauses
    that are used, and the empty one."""
    base = {id: clause for id, clause in clauses.items() if not is_tautology(clause)}
    proof = Proof(Numbering(clauses.values()), base.values(), steps)
    used = dict(proof.hints_backward())
    ids = dict(enumerate(base))
    ids.update(zip(sorted(used), range(first_id, first_id + len(used))))
    literals = {len(base) + at: step.literals for at, step in enumerate(steps)} | {proof.end: []}
    return [Line(ids[place], literals[place], [ids[hint] for hint in used[place]]) for place in sorted(used)]


class Proof:
    """Clauses and steps that lead to an empty clause by unit propagation, all added. `lengths` has how long the trail was before
    each step, `deleted` the places of what was deleted before it, and `end` is the place of the empty clause."""

    def __init__(self, numbering, base, steps):
        self.propagation = Propagation(len(numbering))
        self.base_count = len(base)
        self.literals = [numbering.inward(step.literals) for step in steps]
        self.lengths, self.deleted = [], []
        self.places = {}  # of equal clauses
        self.conflict = self.add_base(map(numbering.inward, base))
        for literals, step in zip(self.literals, steps):
            if self.conflict is None:
                self.delete(map(numbering.inward, step.deleted))
                self.lengths.append(len(self.propagation.trail))
                self.conflict = self.add(literals)
                if self.conflict is None:
                    self.conflict = self.propagation.propagate()
        if self.conflict is None:
            raise Failure(SOLVER_FAILED, "the solver's proof doesn't lead to the empty clause by unit propagation")
        self.end = self.base_count + len(self.lengths)

    def add(self, literals):
        self.places.setdefault(frozenset(literals), []).append(len(self.propagation.clauses))
        return self.propagation.add(literals)

    def add_base(self, base):
        for literals in base:
            conflict = self.add(literals)
            if conflict is not None:
                return conflict
        return self.propagation.propagate()

    def delete(self, clauses):
        """Passes clauses over from the next step on; what isn't there, or made a literal true, is left."""
        found = [self.places[key].pop() for key in map(frozenset, clauses) if self.places.get(key)]
        self.deleted.append([place for place in found if self.propagation.stop_watching(place)])

    def hints_backward(self):
        """The place and the hints of the empty clause, and then of each step that is used, from the last one on."""
        hints = self.propagation.hints(self.conflict, [])
        yield self.end, hints
        used = set(hints)
        for at in reversed(range(len(self.lengths))):
            place = self.base_count + at
            self.propagation.take_back(self.lengths[at], place)
            if place in used:
                hints = self.hints_of(at)
                yield place, hints
                used.update(hints)
                self.propagation.take_back(self.lengths[at], place)
            for restored in self.deleted[at]:
                self.propagation.watch(restored)

    def hints_of(self, at):
        """The hints of a step, where only the clauses before it are left."""
        conflict = self.propagation.falsified_under(self.literals[at])
        if conflict is None:
            raise Failure(SOLVER_FAILED, f"clause {at + 1} of the solver's proof doesn't follow by unit propagation")
        return self.propagation.hints(conflict, self.literals[at])
