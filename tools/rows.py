"""Why black boxes can't be filled, in the designer's names: a few rows of the inputs, what each box sees there, what the specification wants,
and what the boxes would have to drive. Rows come from a refutation; where one or two rows suffice, these are looked for. Nothing here is
trusted: the refutation is judged by dqcheck, and this tells what it comes to."""

from __future__ import annotations

import dataclasses
import re
from dataclasses import dataclass, field
from typing import Dict, Iterable, Iterator, List, Optional, Sequence, Tuple

import sapuendy
from aiger import Graph, columns, value_of
from boxes import Box, Design
from failure import UNREADABLE, Failure
from texts import bytes_of
from waveforms import Waveform, bits_of

MOST_LISTED = 4  # ways in which boxes may drive, and words of a list
MOST_TRIED_BITS = 14  # of boxes' outputs, whose values are tried in all ways
MOST_ASKED_BITS = 64  # of a box's outputs, that are asked for one by one
SECONDS = 5.0  # for a question that is asked to say it shorter
STEPS = 1_000_000

Bits = Tuple[int, ...]


# Words


def words_of(bits: Sequence[Tuple[str, int]], whole: Optional[Dict[str, int]] = None) -> Dict[str, str]:
    """Bits with their labels, the lowest of a word first, as words: `a` = `0x9F`. Where `whole` states widths, a word that isn't there in whole
    is left as bits."""
    found: Dict[str, List[Tuple[str, int]]] = {}
    for label, bit in bits:
        found.setdefault(word_name(label), []).append((label, bit))
    words: Dict[str, str] = {}
    for name, parts in found.items():
        if whole is not None and len(parts) != whole.get(name, len(parts)):
            words.update({label: str(bit) for label, bit in parts})
        elif len(parts) == 1 and parts[0][0] == name:
            words[name] = str(parts[0][1])
        else:
            value = sum(bit << place for place, (_, bit) in enumerate(parts))
            words[name] = f"0x{value:0{(len(parts) + 3) // 4}X}"
    return words


def word_name(label: str) -> str:
    """A bit's word: `a` of `a[3]`, and `a'` of `a[3]'`, a register's next value."""
    return re.sub(r"\[-?\d+\](?='?$)", "", label)


def said(words: Dict[str, str]) -> str:
    return ", ".join(f"{name} = {value}" for name, value in words.items()) or "nothing"


def widths(box: Box) -> Dict[str, int]:
    """How many bits the words of a box's declaration have."""
    found = {}
    for port in box.ports:
        left, right = map(int, port.range.strip("[]").split(":")) if port.range else (0, 0)
        found[port.name] = abs(left - right) + 1
    return found


# Questions to the solver


@dataclass
class Condition:
    """In a row an output is to be what the specification says."""

    row: int
    output: int
    holds: int


class Question:
    """Whether contents of the boxes can be right in some rows, whose inputs are literals of a graph."""

    def __init__(self, design: Design, rows: Sequence[Sequence[int]], graph: Graph):
        self.design, self.graph = design, graph
        self.conditions: List[Condition] = []
        self.consistent: List[int] = []
        self.driven: List[List[int]] = []
        self.seen: List[Tuple[int, int, List[int], List[int]]] = []  # of each box in each row what it sees and drives
        for row, inputs in enumerate(rows):
            self.add(row, inputs)
        for place, one in enumerate(self.seen):
            for other in self.seen[:place]:
                if design.group(one[1]) == design.group(other[1]):
                    self.be_one(one, other)

    def add(self, row: int, inputs: Sequence[int]) -> None:
        design, graph = self.design, self.graph
        spec = graph.copied(design.spec, {theirs // 2: mine for theirs, mine in zip(design.spec.inputs, inputs)})
        self.driven.append([graph.variable() for _ in design.driven])
        imp = graph.copied(design.imp, {theirs // 2: mine for theirs, mine in zip(design.imp.inputs, [*inputs, *self.driven[-1]])})
        for output, (wanted, found) in enumerate(zip(design.spec.outputs, design.imp.outputs)):
            holds = graph.difference(value_of(spec, wanted), value_of(imp, found)) ^ 1
            self.conditions.append(Condition(row, output, holds))
        for place, box in enumerate(design.boxes):
            self.seen.append((row, place, [value_of(imp, it) for it in box.ins], [value_of(imp, it) for it in box.outs]))

    def be_one(self, one: Tuple[int, int, List[int], List[int]], other: Tuple[int, int, List[int], List[int]]) -> None:
        """Where both see the same they drive the same."""
        graph = self.graph
        sees_same = graph.all_of(graph.difference(a, b) ^ 1 for a, b in zip(one[2], other[2]))
        if sees_same:
            self.consistent += [graph.disjunction(sees_same ^ 1, graph.difference(a, b) ^ 1) for a, b in zip(one[3], other[3])]

    def formula(self, universals: Sequence[int] = (), conditions: Optional[Sequence[Condition]] = None) -> bytes:
        """The formula that says so, of these conditions or of all."""
        due = [it.holds for it in (self.conditions if conditions is None else conditions)] + self.consistent
        return formula_of(self.graph, [it for it in due if it != 1], universals)

    def is_refuted(self, conditions: Optional[Sequence[Condition]] = None) -> bool:
        """Whether no contents are right in these rows."""
        if any(it.holds == 0 for it in (self.conditions if conditions is None else conditions)):
            return True
        return answer(self.formula((), conditions)).verdict == "FALSE"


def answer(formula: bytes, seconds: float = SECONDS) -> sapuendy.Answer:
    try:
        return sapuendy.solve(formula, steps=STEPS, seconds=seconds)
    except sapuendy.OutOfTime:
        return sapuendy.Answer("UNKNOWN", b"", STEPS, seconds)


def formula_of(graph: Graph, due: Sequence[int], universals: Sequence[int]) -> bytes:
    """The formula that literals of a graph are all true, for all values of some variables and some of the others."""
    number = {it // 2: place for place, it in enumerate(universals, 1)}
    for variable in graph.cone(due):
        number.setdefault(variable, len(number) + 1)

    def signed(literal: int) -> int:
        return -number[literal // 2] if literal & 1 else number[literal // 2]

    clauses = [[] if it == 0 else [signed(it)] for it in due]
    for variable in number:
        if variable in graph.gates:
            a, b = map(signed, graph.gates[variable])
            clauses += [[-number[variable], a], [-number[variable], b], [number[variable], -a, -b]]
    lines = [f"p cnf {len(number)} {len(clauses)}"]
    lines += ["a " + " ".join(str(k + 1) for k in range(len(universals))) + " 0"] if universals else []
    others = range(len(universals) + 1, len(number) + 1)
    lines += ["e " + " ".join(map(str, others)) + " 0"] if others else []
    lines += [" ".join(map(str, [*it, 0])) for it in clauses]
    return "".join(f"{line}\n" for line in lines).encode()


# Rows


def rows_of(text: bytes, count: int) -> List[Bits]:
    """The first `count` universals' bits in each row of a refutation, each row once."""
    lines = re.findall(rb"^u ([-0-9 ]+?) ?0?\s*$", text, re.MULTILINE)
    rows = [tuple(int(not word.startswith(b"-")) for word in line.split()[:count]) for line in lines]
    return list(dict.fromkeys(rows))


def refutes(design: Design, rows: Sequence[Bits]) -> bool:
    return Question(design, rows, Graph()).is_refuted()


def fewer(design: Design, rows: List[Bits]) -> List[Bits]:
    """Rows of which none can be left out; larger parts are tried first."""
    size = max(1, len(rows) // 2)
    while True:
        at = 0
        while at < len(rows) and len(rows) > 1:
            left = rows[:at] + rows[at + size :]
            if left and refutes(design, left):
                rows = left
            else:
                at += size
        if size == 1:
            return rows
        size //= 2


def found_rows(design: Design, count: int) -> Optional[List[Bits]]:
    """So many rows that suffice, or None where they aren't found: whatever the rows are, the boxes can drive values that are right there."""
    graph = Graph()
    inputs = [[graph.variable() for _ in range(design.shared)] for _ in range(count)]
    universals = [it for row in inputs for it in row]
    question = Question(design, inputs, graph)
    found = answer(question.formula(universals))
    if found.verdict != "FALSE":
        return None
    for bits in rows_of(found.text, len(universals)):
        rows = list(dict.fromkeys(bits[k : k + design.shared] for k in range(0, len(bits), design.shared)))
        if refutes(design, rows):
            return rows
    return None


def fewest_rows(design: Design, text: bytes) -> List[Bits]:
    """A few rows that show that no contents fit: those of a refutation that are needed, or one or two where these suffice."""
    rows = fewer(design, rows_of(text, design.shared))
    for count in (1, 2):
        if len(rows) > count:
            rows = found_rows(design, count) or rows
    return rows


def needed(question: Question) -> List[Condition]:
    """Conditions that can't all hold, of which none can be left out."""
    kept = question.conditions
    false = [it for it in kept if it.holds == 0]
    if false:
        return false[:1]
    kept = [it for it in kept if it.holds != 1]
    size = max(1, len(kept) // 2)
    while True:
        at = 0
        while at < len(kept) and len(kept) > 1:
            left = kept[:at] + kept[at + size :]
            if left and question.is_refuted(left):
                kept = left
            else:
                at += size
        if size == 1:
            return kept
        size //= 2


# What is told


@dataclass
class Seen:
    """What a box sees in a row, where that is settled, and what it would have to drive: all ways that are right, or None where they aren't
    listed."""

    box: str
    sees: Optional[Dict[str, str]]
    drives: Optional[List[Dict[str, str]]]
    free: bool = False
    has_one_word: bool = False
    right: Optional[int] = None  # how many ways are right, where they aren't listed


@dataclass
class Told:
    """A row: the inputs, what the specification wants, what comes out where no box has a part in it, the boxes, and, where their ways hang
    together, how."""

    inputs: Dict[str, str]
    wants: Dict[str, str]
    has: Optional[Dict[str, str]]
    boxes: List[Seen] = field(default_factory=list)
    together: Optional[List[str]] = None
    bits: Bits = ()


class Teller:
    """Tells rows of a design."""

    def __init__(self, design: Design, rows: Sequence[Bits]):
        self.design, self.rows = design, rows
        self.question = Question(design, rows, Graph())
        self.core = needed(self.question)

    def relevant(self, row: int) -> Dict[int, List[int]]:
        """The boxes that have a part in what is wrong in a row, each with the places of the outputs that have it: those that outputs hang on, and
        those that these boxes read."""
        graph, driver, sees = self.question.graph, {}, {}
        for of_row, place, ins, outs in self.question.seen:
            if of_row == row:
                sees[place] = ins
                driver.update({it // 2: (place, at) for at, it in enumerate(outs)})
        found: Dict[int, List[int]] = {}
        left = [it.holds for it in self.core if it.row == row]
        while left:
            new = [driver[it] for it in graph.cone(left) if it in driver and driver[it][1] not in found.get(driver[it][0], ())]
            left = [it for place, _ in new if place not in found for it in sees[place]]
            for place, at in new:
                found.setdefault(place, []).append(at)
        return {place: sorted(found[place]) for place in sorted(found)}

    def supported(self, outputs: Iterable[int]) -> List[int]:
        """The shared inputs that outputs hang on, on either side, or boxes that they hang on see."""
        design, found = self.design, set()
        for network, literals in ((design.spec, design.spec.outputs), (design.imp, design.imp.outputs)):
            sides = {it[0] // 2: it[1:] for it in network.gates}
            if network is design.imp:
                sides.update({out // 2: tuple(box.ins) for box in design.boxes for out in box.outs})
            places = {it // 2: place for place, it in enumerate(network.inputs[: design.shared])}
            done, left = set(), [literals[it] // 2 for it in outputs]
            while left:
                variable = left.pop()
                if variable not in done:
                    done.add(variable)
                    left += [it // 2 for it in sides.get(variable, ())]
            found |= {places[it] for it in done if it in places}
        return sorted(found)

    def told(self, row: int) -> Told:
        design, bits = self.design, self.rows[row]
        outputs = [it.output for it in self.core if it.row == row]
        names = {word_name(design.spec.name("o", it)) for it in outputs}
        shown_outputs = [it for it in range(len(design.spec.outputs)) if word_name(design.spec.name("o", it)) in names]
        words = {word_name(design.spec.name("i", it)) for it in self.supported(shown_outputs)}
        ins = [(design.spec.name("i", it), bits[it]) for it in range(design.shared) if word_name(design.spec.name("i", it)) in words]
        wants = self.wanted(row, shown_outputs)
        parts = self.relevant(row)
        found = Told(words_of(ins), wants, None, bits=bits)
        if not parts:
            found.has = self.had(row, shown_outputs)
        elif sum(map(len, parts.values())) <= MOST_TRIED_BITS:
            self.add_ways(found, row, list(parts), [part_of(design.boxes[place], outs) for place, outs in parts.items()])
        else:
            found.boxes = [self.forced(row, place, part_of(design.boxes[place], outs)) for place, outs in parts.items()]
        return found

    def forced(self, row: int, place: int, box: Box) -> Seen:
        """A box's outputs that can have one value alone, asked bit by bit: for boxes of many outputs."""
        question = Question(self.design, [self.rows[row]], Graph())
        outputs = {it.output for it in self.core if it.row == row}
        due = [it.holds for it in question.conditions if it.output in outputs]
        settled = []
        for name, out in list(zip(box.out_names, box.outs))[:MOST_ASKED_BITS]:
            driven = question.driven[0][self.design.driven.index(out)]
            for bit in (0, 1):
                if answer(formula_of(question.graph, [*due, driven ^ bit], ())).verdict == "FALSE":
                    settled.append((name, bit))
                    break
        return Seen(box.name, self.constant_sight(row, place), [words_of(settled, widths(box))] if settled else None)

    def wanted(self, row: int, outputs: Sequence[int]) -> Dict[str, str]:
        """What the specification wants of outputs; a bit that isn't compared is an x."""
        design = self.design
        found = columns(design.spec, {it // 2: bit for it, bit in zip(design.spec.inputs, self.rows[row])}, 1)
        bits = [(design.spec.name("o", it), found[design.spec.outputs[it] // 2] ^ (design.spec.outputs[it] & 1)) for it in outputs]
        free = {it for it in outputs if it in design.free and found[design.free[it] // 2] ^ (design.free[it] & 1)}
        words = words_of(bits)
        for name in {word_name(design.spec.name("o", it)) for it in free}:
            parts = [("x" if it in free else str(bit)) for it, (label, bit) in zip(outputs, bits) if word_name(label) == name]
            words[name] = parts[0] if len(parts) == 1 else "0b" + "".join(reversed(parts))
        return words

    def had(self, row: int, outputs: Sequence[int]) -> Dict[str, str]:
        """What comes out of the implementation, where no box has a part in it."""
        design = self.design
        found = columns(design.imp, {it // 2: bit for it, bit in zip(design.imp.inputs, [*self.rows[row], *([0] * len(design.driven))])}, 1)
        return words_of([(design.imp.name("o", it), found[design.imp.outputs[it] // 2] ^ (design.imp.outputs[it] & 1)) for it in outputs])

    def constant_sight(self, row: int, place: int) -> Optional[Dict[str, str]]:
        """What a box sees in a row, where it hangs on no box."""
        ins = next(ins for of_row, box, ins, _ in self.question.seen if (of_row, box) == (row, place))
        if any(it > 1 for it in ins):
            return None
        box = self.design.boxes[place]
        return words_of(list(zip(box.in_names, ins)), widths(box))

    def ways(self, row: int, boxes: Sequence[Box]) -> List[Tuple[Bits, ...]]:
        """All values that these boxes can drive so that what is needed holds in a row, box by box what it sees and drives."""
        design = self.design
        driven = [it for box in boxes for it in box.outs]
        count = 1 << len(driven)
        every = (1 << count) - 1
        given = {it // 2: every * bit for it, bit in zip(design.imp.inputs, [*self.rows[row], *([0] * len(design.driven))])}
        for at, it in enumerate(driven):
            period = 1 << at
            given[it // 2] = every // ((1 << 2 * period) - 1) * ((1 << period) - 1) << period
        found = columns(design.imp, given, every)
        wanted = columns(design.spec, {it // 2: bit for it, bit in zip(design.spec.inputs, self.rows[row])}, 1)
        right = every
        for it in self.core:
            if it.row == row:
                theirs, mine = design.spec.outputs[it.output], design.imp.outputs[it.output]
                is_set = wanted[theirs // 2] ^ (theirs & 1)
                right &= found[mine // 2] ^ (every if mine & 1 else 0) ^ (0 if is_set else every)

        def bit(literal: int, at: int) -> int:
            return (found[literal // 2] >> at & 1) ^ (literal & 1)

        return [
            tuple(tuple(bit(it, at) for it in literals) for box in boxes for literals in (box.ins, box.outs))
            for at in range(count)
            if right >> at & 1
        ]

    def add_ways(self, told: Told, row: int, places: Sequence[int], boxes: Sequence[Box]) -> None:
        """What the boxes would have to drive: each by itself where that says all, and else together."""
        ways = self.ways(row, boxes)
        sights = [sorted({way[2 * k] for way in ways}) for k in range(len(boxes))]
        drives = [sorted({way[2 * k + 1] for way in ways}) for k in range(len(boxes))]
        size = 1
        for it in drives:
            size *= len(it)
        are_apart = size == len(ways) and all(len(it) <= 1 for it in sights)
        for k, box in enumerate(boxes):
            sees = words_of(list(zip(box.in_names, sights[k][0])), widths(box)) if len(sights[k]) == 1 else self.constant_sight(row, places[k])
            listed = listed_ways(drives[k], box) if are_apart else necessary(drives[k], box)
            is_free = are_apart and len(drives[k]) == 1 << len(box.outs)
            has_one_word = len({word_name(it) for it in self.design.boxes[places[k]].out_names}) == 1
            is_listed = 0 < len(listed) <= MOST_LISTED or not ways
            right = len(listed) if are_apart and ways else None
            told.boxes.append(Seen(box.name, sees, listed if is_listed else None, is_free, has_one_word, right))
        if ways and not are_apart:
            told.together = [self.way_text(boxes, way) for way in ways[:MOST_LISTED]]
            if len(ways) > MOST_LISTED:
                told.together.append(f"one of {len(ways) - MOST_LISTED} more ways")

    def way_text(self, boxes: Sequence[Box], way: Tuple[Bits, ...]) -> str:
        parts = []
        for k, box in enumerate(boxes):
            sides = (box.in_names, way[2 * k]), (box.out_names, way[2 * k + 1])
            sees, drives = (words_of(list(zip(names, bits)), widths(box)) for names, bits in sides)
            parts.append(f"{box.name}, which sees {said(sees)}, drives {said(drives)}")
        return "; ".join(parts)


def part_of(box: Box, outs: Sequence[int]) -> Box:
    """A box with some of its outputs alone."""
    return dataclasses.replace(box, outs=[box.outs[it] for it in outs], out_names=[box.out_names[it] for it in outs])


def listed_ways(ways: Sequence[Bits], box: Box) -> List[Dict[str, str]]:
    """Ways to drive a box's outputs. Where each word may be driven by itself, and some of its bits may be anything, it is one way, `0b0-`, and a
    word that may be anything isn't told."""
    places: Dict[str, List[int]] = {}
    for place, label in enumerate(box.out_names):
        places.setdefault(word_name(label), []).append(place)
    told: Dict[str, str] = {}
    size = 1
    for name, own in places.items():
        values = {tuple(way[it] for it in own) for way in ways}
        bits = [{value[k] for value in values} for k in range(len(own))]
        size *= len(values)
        if len(values) != 1 << sum(len(it) == 2 for it in bits):
            break
        if all(len(it) == 1 for it in bits):
            told.update(words_of([(box.out_names[it], next(iter(b))) for it, b in zip(own, bits)], widths(box)))
        elif len(own) != widths(box).get(name, len(own)):
            told.update({box.out_names[it]: str(next(iter(b))) for it, b in zip(own, bits) if len(b) == 1})
        elif any(len(it) == 1 for it in bits):
            told[name] = "0b" + "".join(str(next(iter(it))) if len(it) == 1 else "-" for it in reversed(bits))
    else:
        if size == len(ways):
            return [told]
    return [words_of(list(zip(box.out_names, it)), widths(box)) for it in ways]


def necessary(ways: Sequence[Bits], box: Box) -> List[Dict[str, str]]:
    """What is common to all ways to drive a box's outputs: the words that have one value, or else a word of few."""
    places: Dict[str, List[int]] = {}
    for place, label in enumerate(box.out_names):
        places.setdefault(word_name(label), []).append(place)
    settled: List[Tuple[str, int]] = []
    few: List[Dict[str, str]] = []
    for own in places.values():
        values = sorted({tuple(way[it] for it in own) for way in ways})
        shown = [[(box.out_names[it], bit) for it, bit in zip(own, value)] for value in values]
        if len(values) == 1:
            settled += shown[0]
        elif len(values) < 1 << len(own) and len(values) <= MOST_LISTED and not few:
            few = [words_of(it, widths(box)) for it in shown]
    return [words_of(settled, widths(box))] if settled else few


def tell_rows(design: Design, text: bytes) -> List[Told]:
    """What a refutation of a design comes to."""
    rows = fewest_rows(design, text)
    if not rows:
        raise Failure(UNREADABLE, "the refutation has no row of this design")
    teller = Teller(design, rows)
    return [teller.told(row) for row in range(len(rows)) if any(it.row == row for it in teller.core)]


NUMBERS = ("No", "One row shows", "Two rows show", "Three rows show", "Four rows show", "Five rows show")


def lines_of(told: Sequence[Told], has_boxes: bool = True) -> Iterator[str]:
    """The rows in words."""
    count = NUMBERS[len(told)] if len(told) < len(NUMBERS) else f"{len(told)} rows show"
    yield f"{count} that {'no contents of the boxes fit' if has_boxes else 'the circuits differ'}:"
    for place, row in enumerate(told, 1):
        yield f"{place}. {said(row.inputs)}: the specification wants {said(row.wants)}"
        if row.has is not None:
            yield f"   {'whatever the boxes are, ' * has_boxes}the implementation has {said(row.has)}"
        for box in row.boxes:
            yield "   " + box_text(box)
        if row.boxes and all(it.drives == [] for it in row.boxes):
            yield "   whatever they drive, it doesn't come out"
        for way in row.together or ():
            yield f"   - {way}"
    yield from conflicts(told)


def box_text(box: Seen) -> str:
    sees = f"box {box.box} sees {said(box.sees)}" if box.sees is not None else f"box {box.box} sees what other boxes drive"
    if box.free:
        return f"{sees}, and may drive anything"
    if not box.drives:
        return sees + (f": {box.right} ways to drive it are right" if box.right and box.drives is None else "")
    return f"{sees}, and would have to drive {' or '.join(said(it) for it in box.drives)}"


def conflicts(told: Sequence[Told]) -> Iterator[str]:
    """Boxes that see the same in two rows and would have to drive what can't be one."""
    for place, one in enumerate(told):
        for other in told[place + 1 :]:
            for a in one.boxes:
                b = next((it for it in other.boxes if it.box == a.box), None)
                if b is None or a.sees is None or a.sees != b.sees:
                    continue
                rows = "both" if len(told) == 2 else f"rows {told.index(one) + 1} and {told.index(other) + 1}"
                if a.drives and b.drives and are_apart(a.drives, b.drives):
                    yield f"box {a.box} sees {said(a.sees)} in {rows}: {said(one.inputs)} wants {wish(a)}, {said(other.inputs)} wants {wish(b)}"
                elif len(told) == 2 and len(one.boxes) == len(other.boxes) == 1:
                    yield f"box {a.box} sees {said(a.sees)} in both, and no way to drive it is right in both"


def are_apart(ways: Sequence[Dict[str, str]], others: Sequence[Dict[str, str]]) -> bool:
    """Whether each two of the ways have a word or a bit that can't be both."""

    def differ(a: str, b: str) -> bool:
        left, right = bits_of(a), bits_of(b)
        return any(x != y and "x" not in (x, y) for x, y in zip(left, right))

    return all(any(name in other and differ(way[name], other[name]) for name in way) for way in ways for other in others)


def wish(box: Seen) -> str:
    ways = box.drives or []
    return " or ".join(next(iter(it.values())) if box.has_one_word and len(it) == 1 and "[" not in next(iter(it)) else said(it) for it in ways)


# Waveforms


def rows_vcd(design: Design, told: Sequence[Told]) -> str:
    """The rows for a viewer, one after the other: inputs, what is wanted, what boxes see and would have to drive."""
    wave = Waveform("rows")
    for row in told:
        values = {("inputs", label): str(bit) for label, bit in zip((design.spec.name("i", k) for k in range(design.shared)), row.bits)}
        step = {(scope, name): value for scope, words in (("wanted", row.wants), ("found", row.has or {})) for name, value in words.items()}
        for box in row.boxes:
            step.update({(box.box, name): value for name, value in (box.sees or {}).items()})
            if box.drives and len(box.drives) == 1:
                step.update({(box.box, name): value for name, value in box.drives[0].items()})
        inputs = words_of([(label, int(value)) for (_, label), value in values.items()])
        wave.add({**{("inputs", name): value for name, value in inputs.items()}, **step})
    return wave.text()


def refutation_text(path: str) -> bytes:
    """A refutation's text; anything else is said."""
    text = bytes_of(path)
    start = text[:200].split()
    if start[:2] == [b"s", b"FALSE"] or start[:1] == [b"p"] and start[1:2] in ([b"dqr"], [b"dqr2"]):
        return text
    raise Failure(UNREADABLE, f"{path}: no refutation stands here")
