#!/usr/bin/env python3
"""families.py FAMILY SIZE [SEED [FORM]]: prints a formula of a family in DQDIMACS, and its verdict as a comment where that is known; families.py
alone prints the families, each with its least size. FORM is how its declarations stand: forward, shuffled, reversed, and gates-first or
gates-last, where they are shuffled and the clauses that define gates stand before or behind all others.

Formulas of families that people have: gates with their definitions, circuits with black boxes against their specifications, controllers
that see a part of their plant, random clauses. A family makes a formula of a size from a seeded source of choices, and says its verdict where
that is known."""

import functools
import itertools
import random
import sys


# Signals


class Algebra:
    """Cells made of conjunctions, parities and negations."""

    def disjunction(self, a, b):
        return self.negation(self.conjunction(self.negation(a), self.negation(b)))

    def half_adder(self, a, b):
        return self.parity(a, b), self.conjunction(a, b)

    def full_adder(self, a, b, c):
        return self.parity(self.parity(a, b), c), self.disjunction(self.conjunction(a, b), self.conjunction(c, self.parity(a, b)))

    def less(self, a, b, below):
        """Whether a is less than b in this bit, or equal and less below."""
        here = self.conjunction(self.negation(a), b)
        return self.disjunction(here, self.conjunction(self.negation(self.parity(a, b)), below))


class Tables(Algebra):
    """Signals as tables over all rows of some inputs, each an integer of 2^inputs bits."""

    def __init__(self, inputs):
        self.count = 1 << inputs
        self.full = (1 << self.count) - 1

    def input(self, place):
        half = 1 << place
        table, size = ((1 << half) - 1) << half, 2 * half
        while size < self.count:
            table, size = table | table << size, 2 * size
        return table

    def negation(self, a):
        return self.full ^ a

    def conjunction(self, a, b):
        return a & b

    def parity(self, a, b):
        return a ^ b

    def equal(self, pairs):
        """The rows where the signals of each pair are equal."""
        return functools.reduce(lambda rows, pair: rows & ~(pair[0] ^ pair[1]), pairs, self.full)


class Formula(Algebra):
    """Signals as literals of a DQBF that grows. A gate is an existential with the clauses that define it; it sees all universals, or, where
    gates are narrow, what its inputs see. `seen` has None for all."""

    def __init__(self, narrow=False):
        self.narrow = narrow
        self.variables = 0
        self.universals = {}
        self.seen = {}
        self.clauses = []
        self.defining = []

    def universal(self):
        self.variables += 1
        self.universals[self.variables] = True
        return self.variables

    def word(self, count):
        return [self.universal() for _ in range(count)]

    def existential(self, seen=None):
        self.variables += 1
        self.seen[self.variables] = None if seen is None else sorted(seen)
        return self.variables

    def sight(self, *signals):
        """The universals that these signals see together."""
        return {x for s in signals for x in ([abs(s)] if abs(s) in self.universals else self.seen[abs(s)])}

    def gate(self, *inputs):
        return self.existential(self.sight(*inputs) if self.narrow else None)

    def define(self, clauses):
        """The clauses that define a gate."""
        self.defining += clauses
        self.clauses += clauses

    def negation(self, a):
        return -a

    def conjunction(self, a, b):
        y = self.gate(a, b)
        self.define([[-y, a], [-y, b], [y, -a, -b]])
        return y

    def parity(self, a, b):
        y = self.gate(a, b)
        self.define([[-y, a, b], [-y, -a, -b], [y, -a, b], [y, a, -b]])
        return y

    def choice(self, s, a, b):
        """a where s is true, and else b."""
        y = self.gate(s, a, b)
        self.define([[-s, -a, y], [-s, a, -y], [s, -b, y], [s, b, -y]])
        return y

    def equate(self, signals, others, demands=()):
        """Signals equal others wherever the signals of each demand are equal."""
        guard = []
        if demands:
            guard = [-functools.reduce(self.conjunction, [-self.parity(*demand) for demand in demands])]
        for a, b in zip(signals, others):
            self.clauses += [[*guard, a, -b], [*guard, -a, b]]

    def declare(self, form, rng):
        """Puts the declarations in this form: forward, as they were made, each gate behind its inputs, else shuffled or reversed, and then
        the clauses are shuffled too, and those that define gates put before or behind the others where the form says so."""
        seen = list(self.seen.items())
        if form == "reversed":
            seen.reverse()
        elif form != "forward":
            rng.shuffle(seen)
        self.seen = dict(seen)
        if form != "forward":
            rng.shuffle(self.clauses)
        if form in ("gates-first", "gates-last"):
            defining = set(map(id, self.defining))
            self.clauses.sort(key=lambda clause: (id(clause) in defining) == (form == "gates-last"))

    def text(self):
        """DQDIMACS."""
        lines = [["p", "cnf", self.variables, len(self.clauses)], ["a", *self.universals, 0]]
        lines += [["d", y, *seen, 0] for y, seen in self.seen.items() if seen is not None]
        lines += [["e", *(y for y, seen in self.seen.items() if seen is None), 0]]
        return text_of(lines + [[*clause, 0] for clause in self.clauses])

    def linear_text(self):
        """QDIMACS, or None where what existentials see is no chain."""
        sights = [(frozenset(self.universals if seen is None else seen), y) for y, seen in self.seen.items()]
        lines, told = [["p", "cnf", self.variables, len(self.clauses)]], set()
        for seen, group in itertools.groupby(sorted(sights, key=lambda s: (len(s[0]), sorted(s[0]))), lambda s: s[0]):
            if not told <= seen:
                return None
            lines += [["a", *sorted(seen - told), 0]] if seen else []
            lines.append(["e", *(y for _, y in group), 0])
            told = seen
        rest = sorted(self.universals.keys() - told)
        return text_of(lines + ([["a", *rest, 0]] if rest else []) + [[*clause, 0] for clause in self.clauses])


def text_of(lines):
    return "".join(" ".join(map(str, line)) + "\n" for line in lines)


class Boxes:
    """A circuit's cells, of which those at some places are boxes: outputs that see what the cell has as inputs, a universal of its own for
    each input that is none. The demands say that these equal the inputs. A blind input, of a place, isn't seen."""

    def __init__(self, formula, places, blind=None):
        self.formula, self.places, self.blind, self.demands = formula, places, blind, []

    def cells(self, plain, outputs):
        """What stands at a place."""

        def cell(place, *inputs):
            if place not in self.places:
                return plain(*inputs)
            seen = [self.universal(signal) for k, signal in enumerate(inputs) if (place, k) != self.blind]
            boxes = [self.formula.existential(seen) for _ in range(outputs)]
            return boxes if outputs > 1 else boxes[0]

        return cell

    def universal(self, signal):
        if signal in self.formula.universals:
            return signal
        self.demands.append((self.formula.universal(), signal))
        return self.demands[-1][0]


# Circuits of cells, which are given their place and their inputs


def add(algebra, a, b, cell):
    """A ripple adder, whose second word may be longer."""
    places, sums, carry = itertools.count(), [], None
    for bits in itertools.zip_longest(a, b):
        given = [signal for signal in (*bits, carry) if signal is not None]
        total, carry = cell(next(places), *given) if len(given) == 3 else algebra.half_adder(*given)
        sums.append(total)
    return [*sums, carry]


def multiply(algebra, a, b, cell):
    """An array of adders, with size * (size - 2) full ones."""
    places, product = itertools.count(), []
    total = [algebra.conjunction(x, b[0]) for x in a]
    for y in b[1:]:
        product.append(total[0])
        row = [algebra.conjunction(x, y) for x in a]
        total = add(algebra, total[1:], row, lambda _, *inputs: cell(next(places), *inputs))
    return product + total


def less(algebra, a, b, cell):
    """Whether a word is less than another."""
    below = algebra.conjunction(algebra.negation(a[0]), b[0])
    for place, bits in enumerate(zip(a[1:], b[1:])):
        below = cell(place, *bits, below)
    return [below]


# Families: each gives a formula of a size, and its verdict where that is known


def definitions(rng, size):
    """As many gates as the size, of two or three inputs, over half as many universals; each sees the up to eight that it stands on. True."""
    formula = Formula(narrow=True)
    signals = formula.word(max(3, size // 2))
    first = len(signals)
    for _ in range(size):
        inputs = next((some for some in (rng.sample(signals, 3) for _ in range(20)) if len(formula.sight(*some)) <= 8), signals[:3])
        inputs = [signal * rng.choice((1, -1)) for signal in inputs]
        kind = rng.choice((formula.conjunction, formula.parity, formula.choice))
        signals.append(kind(*inputs if kind == formula.choice else inputs[:2]))
        signals = signals[:first] + signals[-2 * first :] if len(signals) > 3 * first else signals
    return formula, "TRUE"


def parities(rng, size):
    """As many exclusive ors of two signals as the size, over eight universals, each of which sees all. True."""
    formula = Formula()
    return gates_of_two(rng, formula, formula.word(8), size, formula.parity), "TRUE"


def conjunctions(rng, size):
    """The same of conjunctions, over twenty universals. True."""
    formula = Formula()
    return gates_of_two(rng, formula, formula.word(20), size, formula.conjunction), "TRUE"


def gates_of_two(rng, formula, signals, size, gate):
    for _ in range(size):
        signals.append(gate(*(signal * rng.choice((1, -1)) for signal in rng.sample(signals, 2))))
    return formula


def against_plain(formula, circuit, plain, outputs, size, places, blind):
    """A circuit of two words with boxes at some places against the same without."""
    a, b = formula.word(size), formula.word(size)
    boxes = Boxes(formula, places, blind)
    found = circuit(formula, a, b, boxes.cells(plain, outputs))
    formula.equate(found, circuit(formula, a, b, lambda place, *inputs: plain(*inputs)), boxes.demands)
    return formula


def adder(rng, size, is_blind=False):
    """An adder of words, with a box at each fourth full adder, against one without boxes. True; where a box lacks an input, false, since the
    sum of its place is the parity of its inputs."""
    formula, places = Formula(), range(0, size - 1, 4)
    blind = (rng.choice(places), rng.randrange(3)) if is_blind else None
    return against_plain(formula, add, formula.full_adder, 2, size, places, blind), "FALSE" if is_blind else "TRUE"


def all_boxes(rng, size, is_blind=False):
    """The same with a box at each full adder, of words one bit longer than the size."""
    formula, places = Formula(), range(size)
    blind = (rng.choice(places), rng.randrange(3)) if is_blind else None
    return against_plain(formula, add, formula.full_adder, 2, size + 1, places, blind), "FALSE" if is_blind else "TRUE"


def block(rng, size, is_blind=False):
    """An adder of words of twice so many bits, whose upper halves one box adds, with the carry from below, against one without. True; where
    the box lacks an input, false."""
    formula = Formula()
    a, b = formula.word(2 * size), formula.word(2 * size)
    boxes = Boxes(formula, [0], (0, rng.randrange(2 * size + 1)) if is_blind else None)

    def plain(place, *inputs):
        return formula.full_adder(*inputs)

    carry = add(formula, a[:size], b[:size], plain)[-1]
    sums = boxes.cells(None, size + 1)(0, *a[size:], *b[size:], carry)
    formula.equate(sums, add(formula, a, b, plain)[size:], boxes.demands)
    return formula, "FALSE" if is_blind else "TRUE"


def comparator(rng, size, is_blind=False):
    """A comparator of words, with a box at each fourth cell, against one without boxes. True; where a box lacks an input, false, since
    words that are equal above tell what the box gives."""
    formula, places = Formula(), range(0, size - 1, 4)
    blind = (rng.choice(places), rng.randrange(3)) if is_blind else None
    return against_plain(formula, less, formula.less, 1, size, places, blind), "FALSE" if is_blind else "TRUE"


def multiplier(rng, size, is_blind=False):
    """An array multiplier of words, with a box for some full adder, against one without. True; where the box lacks an input, false if the
    tables say so, and not known over 16 inputs."""
    formula = Formula()
    place, input = rng.randrange(size * (size - 2)), rng.randrange(3)
    against_plain(formula, multiply, formula.full_adder, 2, size, [place], (place, input) if is_blind else None)
    if not is_blind:
        return formula, "TRUE"
    return formula, multiplier_verdict(size, place, input) if size <= 8 else ""


def multiplier_verdict(size, place, blind):
    """Whether some outputs of a box that lacks an input fit all rows that it can't tell apart."""
    tables, inputs, fits = Tables(2 * size), [], []
    words = [[tables.input(first + i) for i in range(size)] for first in (0, size)]
    specified = multiply(tables, *words, lambda at, *given: tables.full_adder(*given))
    for outputs in itertools.product((0, tables.full), repeat=2):

        def cell(at, *given):
            inputs[:] = given if at == place else inputs
            return outputs if at == place else tables.full_adder(*given)

        fits.append(tables.equal(zip(multiply(tables, *words, cell), specified)))
    seen = [table for k, table in enumerate(inputs) if k != blind]
    for bits in itertools.product((0, tables.full), repeat=2):
        rows = tables.equal(zip(seen, bits))
        if all(rows & ~fit for fit in fits):
            return "FALSE"
    return "TRUE"


def parity(rng, size, is_blind=False):
    """The parity of boxes that see three universals each, in some order, against the parity of the universals. True; where one isn't seen,
    false."""
    formula = Formula()
    inputs = formula.word(size)
    order = rng.sample(inputs, size)
    groups = [order[k : k + 3] for k in range(0, size, 3)]
    if is_blind:
        rng.choice(groups).pop()
    boxes = [formula.existential(group) for group in groups]
    formula.equate(*([functools.reduce(formula.parity, signals)] for signals in (boxes, inputs)))
    return formula, "FALSE" if is_blind else "TRUE"


def two_below(rng, bound):
    """Two different numbers from 1 on below a bound, which may be too large for `sample`."""
    if bound < 1 << 62:
        return rng.sample(range(1, bound), 2)
    first = rng.randrange(1, bound)
    second = rng.randrange(1, bound - 1)
    return first, second + (second >= first)


def controller(rng, size, is_blind=False):
    """A position of so many bits is to stay between two bounds, where wind may move it by one and the controller, which sees some of the bits
    and not the wind, may move it back by one. True where it sees a bit in which the bounds differ, and else false."""
    formula = Formula()
    position, wind = formula.word(size), formula.universal()
    low, high = sorted(two_below(rng, (1 << size) - 1))
    differ = [i for i in range(size) if (low ^ high) >> i & 1]
    same = [i for i in range(size) if i not in differ]
    seen = same if is_blind else {rng.choice(differ), *rng.sample(range(size), size // 2)}
    control = formula.existential(position[i] for i in seen)
    moved = move(formula, position, formula.conjunction(wind, -control), formula.conjunction(-wind, control))
    before = [-bound for bound in bounds(formula, position, low, high)]
    formula.clauses += [[*before, bound] for bound in bounds(formula, moved, low, high)]
    return formula, "FALSE" if is_blind else "TRUE"


def move(formula, bits, up, down):
    """A word that goes up or down by one."""
    moved = []
    for bit in bits:
        total = formula.parity(bit, up)
        moved.append(formula.parity(total, down))
        up, down = formula.conjunction(bit, up), formula.conjunction(-total, down)
    return moved


def bounds(formula, bits, low, high):
    """Signals that a word is at least a number, and at most another."""
    return [at_most(formula, [-bit for bit in bits], (1 << len(bits)) - 1 - low), at_most(formula, bits, high)]


def at_most(formula, bits, number):
    """A signal that a word is at most a number below its greatest one; None stands for true meanwhile."""
    signal = None
    for i, bit in enumerate(bits):
        if number >> i & 1:
            signal = None if signal is None else formula.disjunction(-bit, signal)
        else:
            signal = -bit if signal is None else formula.conjunction(-bit, signal)
    return signal


def two_levels(rng, size):
    """Random clauses of two universals and three existentials, which see all; as many of both, and eight times as many clauses."""
    formula = Formula()
    universals, existentials = formula.word(size), [formula.existential() for _ in range(size)]
    random_clauses(rng, formula, 8 * size, (universals, 2), (existentials, 3))
    return formula, ""


def random_sights(rng, size):
    """Random clauses of a universal and two existentials, which see a random half each; as many of both, and twice as many clauses."""
    formula = Formula()
    universals = formula.word(size)
    existentials = [formula.existential(rng.sample(universals, size // 2)) for _ in range(size)]
    random_clauses(rng, formula, 2 * size, (universals, 1), (existentials, 2))
    return formula, ""


def cycle(rng, size, is_odd=False):
    """A colour for each position, of so many bits, of a cycle, told by two existentials, each for a position of its own: where the positions
    are equal the colours are, and where the second follows the first they differ. True for 2^n positions, and false for one fewer."""
    formula = Formula()
    first, second = formula.word(size), formula.word(size)
    colours = [[formula.existential(position)] for position in (first, second)]
    follower = successor(formula, first)
    if is_odd:
        last = functools.reduce(formula.conjunction, [-first[0], *first[1:]])
        follower = [formula.conjunction(bit, -last) for bit in follower]
    formula.equate(*colours, list(zip(first, second)))
    formula.equate(colours[0], [-colours[1][0]], list(zip(follower, second)))
    return formula, "FALSE" if is_odd else "TRUE"


def successor(formula, bits):
    """The word that is one more, and 0 behind the last one."""
    follower, carry = [-bits[0]], bits[0]
    for bit in bits[1:]:
        follower.append(formula.parity(bit, carry))
        carry = formula.conjunction(bit, carry)
    return follower


def region(rng, size, is_reached=False):
    """A set of states, of so many bits and two more, told by two existentials, each for a state of its own: with a state it has the one that
    is four more, it has state 0, and not a certain one. True where this is no multiple of four, and else false."""
    formula = Formula()
    first, second = formula.word(size + 2), formula.word(size + 2)
    members = [[formula.existential(state)] for state in (first, second)]
    formula.equate(*members, list(zip(first, second)))
    follower = first[:2] + successor(formula, first[2:])
    step = functools.reduce(formula.conjunction, [-formula.parity(*bits) for bits in zip(follower, second)])
    formula.clauses.append([-step, -members[0][0], members[1][0]])
    avoided = 4 * rng.randrange(1, 1 << size) + (0 if is_reached else rng.randrange(1, 4))
    formula.clauses.append([*first, members[0][0]])
    formula.clauses.append([*(-bit if avoided >> i & 1 else bit for i, bit in enumerate(first)), -members[0][0]])
    return formula, "FALSE" if is_reached else "TRUE"


def injection(rng, size, lacks_a_place=False):
    """A map of words of so many bits to such words, told by two lists of existentials, each for a word of its own, that maps different words to
    different ones. True, and false where it may not give the last word."""
    formula = Formula()
    words = [formula.word(size) for _ in range(2)]
    images = [[formula.existential(word) for _ in range(size)] for word in words]
    formula.equate(*images, list(zip(*words)))
    differ = [[formula.parity(*bits) for bits in zip(*pair)] for pair in (words, images)]
    formula.clauses += [[-bit, *differ[1]] for bit in differ[0]]
    if lacks_a_place:
        formula.clauses.append([-bit for bit in images[0]])
    return formula, "FALSE" if lacks_a_place else "TRUE"


def lookups(rng, size):
    """As many gates as the size, each with a clause for every row of its random table of four signals, over eight universals; each sees
    all of these. True."""
    return gates_by_rows(rng, size, 4, lambda row: rng.choice((1, -1)))


def triple_parities(rng, size):
    """The same of exclusive ors of three signals. True."""
    return gates_by_rows(rng, size, 3, lambda row: 1 if sum(signal < 0 for signal in row) % 2 else -1)


def gates_by_rows(rng, size, inputs, sign):
    formula = Formula()
    signals = formula.word(8)
    for _ in range(size):
        chosen, output = rng.sample(signals, inputs), formula.existential()
        formula.clauses += [[*row, sign(row) * output] for row in itertools.product(*((x, -x) for x in chosen))]
        signals.append(output)
    return formula, "TRUE"


def tables(rng, size):
    """As many existentials as the size, each with a clause for every row of its random table of seven universals, of half as many and seven
    in all. True."""
    formula = Formula()
    universals = formula.word(7 + size // 2)
    for _ in range(size):
        seen = sorted(rng.sample(universals, 7))
        output = formula.existential(seen)
        formula.clauses += [[*row, rng.choice((1, -1)) * output] for row in itertools.product(*((x, -x) for x in seen))]
    return formula, "TRUE"


def cubes(rng, size):
    """Two existentials that see two universals more than the size, and clauses that say their values on so many random cubes of four literals
    for each bit, or as many as a hundred thousand draws give, and nothing else of them. True."""
    formula = Formula()
    universals = formula.word(size + 2)
    for _ in range(2):
        output, said = formula.existential(), {1: [], -1: []}
        for _ in range(100_000):
            if min(len(said[1]), len(said[-1])) == size:
                break
            sign = rng.choice((1, -1))
            cube = [rng.choice((1, -1)) * x for x in rng.sample(universals, 4)]
            if len(said[sign]) < size and all(any(-l in cube for l in other) for other in said[-sign]):
                said[sign].append(cube)
                formula.clauses.append([*(-l for l in cube), sign * output])
    return formula, "TRUE"


def multiplexer(rng, size):
    """A box that sees copies of so many selects and of the word that they select from, against a multiplexer. True."""
    formula = Formula()
    selects, word = formula.word(size), formula.word(1 << size)
    copies = formula.word(size + (1 << size))
    box = formula.existential(copies)
    chosen = word
    for select in selects:
        chosen = [formula.choice(select, chosen[k + 1], chosen[k]) for k in range(0, len(chosen), 2)]
    formula.equate([box], chosen, list(zip(selects + word, copies)))
    return formula, "TRUE"


def random_threes(rng, size):
    """So many universals, and as many existentials that see three of them each, in random clauses of three existentials and a universal,
    2.2 for each existential."""
    formula = Formula()
    universals = formula.word(size)
    existentials = [formula.existential(rng.sample(universals, 3)) for _ in universals]
    random_clauses(rng, formula, int(2.2 * size), (existentials, 3), (universals, 1))
    return formula, ""


def implications(rng, size):
    """A chain of implications among existentials that see a universal of their own each. True."""
    formula = Formula()
    signals = [formula.existential([x]) for x in formula.word(size)]
    formula.clauses += [[-a, b] for a, b in zip(signals, signals[1:])]
    return formula, "TRUE"


def unseen(rng, size):
    """As many random clauses of three existentials that see nothing as there are existentials."""
    formula = Formula()
    formula.universal()
    random_clauses(rng, formula, size, ([formula.existential([]) for _ in range(size)], 3))
    return formula, ""


def long_clauses(rng, size):
    """Existentials that see forty universals, each in a clause with twenty of them. True."""
    formula = Formula()
    universals = formula.word(40)
    formula.clauses += [[formula.existential(), *rng.sample(universals, 20)] for _ in range(size)]
    return formula, "TRUE"


def half_free(rng, size):
    """Existentials that see two universals each, every other one their conjunction, the rest in a clause with the one before. True."""
    formula = Formula(narrow=True)
    universals = formula.word(max(2, size))
    for a, b in zip(universals[::2], universals[1::2]):
        gate = formula.conjunction(a, b)
        formula.clauses.append([-formula.existential([a, b]), a, gate])
    return formula, "TRUE"


def one_set(rng, size):
    """Existentials with one dependency set of as many universals, which each states anew, each in a clause with a universal. True."""
    formula = Formula()
    universals = formula.word(size)
    formula.clauses += [[formula.existential(universals), x] for x in universals]
    return formula, "TRUE"


def random_clauses(rng, formula, count, *parts):
    for _ in range(count):
        chosen = [v for variables, number in parts for v in rng.sample(variables, min(number, len(variables)))]
        formula.clauses.append([v * rng.choice((1, -1)) for v in chosen])


def blind(family):
    return lambda rng, size: family(rng, size, True)


FORMS = ("forward", "shuffled", "reversed", "gates-first", "gates-last")
FAMILIES = {"definitions": (definitions, 4), "parities": (parities, 5), "conjunctions": (conjunctions, 5)}
for made, start in ((adder, 2), (all_boxes, 1), (block, 1), (comparator, 2), (multiplier, 3), (parity, 4), (controller, 2)):
    name = made.__name__.replace("_", "-")
    FAMILIES |= {name: (made, start), f"{name}-blind": (blind(made), start)}
FAMILIES |= {"two-levels": (two_levels, 4), "random-sights": (random_sights, 4), "random-threes": (random_threes, 10)}
FAMILIES |= {"cycle": (cycle, 3), "cycle-odd": (lambda rng, size: cycle(rng, size, True), 3), "multiplexer": (multiplexer, 1)}
FAMILIES |= {"region": (region, 1), "region-reached": (lambda rng, size: region(rng, size, True), 1), "tables": (tables, 2)}
FAMILIES |= {"injection": (injection, 1), "injection-short": (lambda rng, size: injection(rng, size, True), 1)}
FAMILIES |= {"lookups": (lookups, 5), "triple-parities": (triple_parities, 5)}
FAMILIES |= {"implications": (implications, 100), "unseen": (unseen, 100), "long-clauses": (long_clauses, 50)}
FAMILIES |= {"half-free": (half_free, 100), "one-set": (one_set, 50), "cubes": (cubes, 4)}


def formula_of(family, size, seed, form):
    """A formula of a family, and whether it is true, or None where that isn't known."""
    formula, verdict = FAMILIES[family][0](random.Random(f"{family} {size} {seed}"), size)
    formula.declare(form, random.Random(f"{family} {size} {form} {seed}"))
    return formula, verdict


def main(words):
    if not words:
        for family, (_, least) in FAMILIES.items():
            print(family, least)
        return 0
    if words == ["--help"] or not 2 <= len(words) <= 4 or words[0] not in FAMILIES or not words[1].isdigit():
        print(__doc__.strip())
        return 0 if words == ["--help"] else 1
    family, size, seed, form = [*words, *("1", "forward")[len(words) - 2 :]]
    if int(size) < FAMILIES[family][1] or form not in FORMS:
        print(f"families.py: {family} begins with size {FAMILIES[family][1]}; forms are {', '.join(FORMS)}", file=sys.stderr)
        return 1
    formula, verdict = formula_of(family, int(size), seed, form)
    if verdict is not None:
        print(f"c {family} {size}: {verdict}")
    sys.stdout.write(formula.text())
    return 0


if __name__ == "__main__":
    sys.exit(main(sys.argv[1:]))
