#!/usr/bin/env python3
"""explain.py FORMULA [CERT], explain.py --pec SPEC IMPL [CERT], explain.py --session FORMULA SCRIPT [BLOCKS]: what dqcheck says of a certificate,
or dqsolve of a formula alone, of two circuits or of a session's script, and then why.

The first line is the program's own. Behind it: at a refusal the text's line and what its name stands for; where a clause is
false under a row, that clause and the outputs' bits; at a step that isn't derived, what each of its hints comes to; where an
output reaches what it may not read, the way there; where no proof stands, the command that makes one; of definitions, what one may
read. Of a refutation of two circuits: a few rows of the inputs in the designer's names, what each box sees there, what the
specification wants, and what the boxes would have to drive; --vcd FILE, before --pec, writes them as a waveform. Of a session's blocks: what
each says, and the checker of it. With --json, as first word, rows and blocks are lines of JSON, and so is all else, as text in one.
Nothing here is trusted: the program's word is its own, and the script only looks at the texts again.

The exit status is the program's, or 2 where a text can't be looked at. DQSOLVE and DQCHECK may name the programs; else they are
those beside this folder.
"""

import dataclasses
import json
import os
import re
import sys
import tempfile
from typing import Dict, List, Optional, Tuple

import sapuendy
from aiger import write_text
from boxes import read_design, tied
from failure import USAGE
from processes import as_json as json_of
from processes import program, run, run_script
from refusals import at_start, sentences
from rows import lines_of, refutation_text, rows_vcd, tell_rows
from session import blocks_of, formula_of_block
from skolem import gates_in_order, mapping
from steps import explain_step
from texts import bytes_of, file_lines, read_circuit, read_formula, tokens_of

TOP = os.path.dirname(os.path.dirname(os.path.abspath(__file__)))
LONGEST_SHOWN = 160


def answer_of(variable: str, name: str, words: List[str]) -> Tuple[int, str]:
    """A program's status, and what it wrote: its first line alone."""
    done = run([program(variable, name), *words], passes_errors=True)
    return done.status, done.output[:10_000].decode(errors="replace").split("\n")[0]


def shown(line):
    """A line of a text as one can print it."""
    text = "".join(chr(byte) if 32 <= byte < 127 else f"\\x{byte:02x}" for byte in line[: 4 * LONGEST_SHOWN])
    return text if len(text) <= LONGEST_SHOWN else text[:LONGEST_SHOWN] + " .."


def explain_refusal(path, words, *kinds):
    """The line that a refusal names, and what its name stands for in a text of the first of these kinds that has it."""
    number, name = int(words[1]), words[2]
    lines = file_lines(bytes_of(path))
    if number <= len(lines):
        print(f"{path}, line {number}: {shown(lines[number - 1])}")
    else:
        print(f"{path} has {len(lines)} lines; line {number} is due")
    found = [sentences(kind)[name] for kind in kinds if name in sentences(kind)]
    print(found[0] if found else "docs/FORMATS.md has the name.")
    hint = at_start(bytes_of(path), name)
    if hint:
        print(hint)


def explain_row(formula_path, certificate_path, words):
    """The outputs' bits under a row, and the first clause that is false there."""
    formula, circuit = read_formula(formula_path), read_circuit(certificate_path)
    inputs, outputs = mapping(formula, circuit)
    row = [int(word) for word in words[2:] if word != "0"]
    bits = {0: False, **{inputs[abs(literal)]: literal > 0 for literal in row}}
    for gate in gates_in_order(circuit):
        left, right = gate.sides
        bits[gate.variable] = (bits[left // 2] ^ (left & 1)) and (bits[right // 2] ^ (right & 1))
    chosen = {y: bool(bits[literal // 2] ^ (literal & 1)) for y, literal in outputs.items()}
    print("Under this row the outputs are", " ".join(str(y if bit else -y) for y, bit in chosen.items()))
    true = {*row, *(y if bit else -y for y, bit in chosen.items())}
    for place, clause in enumerate(formula.clauses, 1):
        if not any(literal in true for literal in clause):
            print(f"Clause {place} is false there: {' '.join(map(str, clause))}")
            return


def explain_reads(formula_path, certificate_path, words):
    """A way from an existential's output to the input of a universal that it may not see."""
    formula, circuit = read_formula(formula_path), read_circuit(certificate_path)
    existential, universal = int(words[2]), int(words[3])
    inputs, outputs = mapping(formula, circuit)
    sides = {gate.variable: gate.sides for gate in circuit.gates}
    start, goal = outputs[existential] // 2, inputs[universal]
    came_from, stack = {start: None}, [start]
    while stack and goal not in came_from:
        variable = stack.pop()
        for side in sides.get(variable, ()):
            if side // 2 not in came_from:
                came_from[side // 2] = variable
                stack.append(side // 2)
    way, variable = [], goal
    while variable is not None:
        way.append(2 * variable)
        variable = came_from[variable]
    seen = " ".join(map(str, sorted(formula.dependencies[existential]))) or "no universal"
    print(f"{existential} sees {seen}. From its output to the input of {universal}, by the circuit's literals:")
    print(" <- ".join(map(str, reversed(way))))


def are_definitions(path):
    """Whether a certificate's first line is that of definitions."""
    return [tokens_of(line)[:2] for line in file_lines(bytes_of(path))[:1]] == [[b"p", b"dqd"]]


def readable(formula, existential):
    """What a definition of the existential may read, as text."""
    seen, order = formula.dependencies[existential], list(formula.dependencies)
    before = [
        other
        for place, other in enumerate(order)
        if formula.dependencies[other] <= seen
        and (len(formula.dependencies[other]), place) < (len(seen), order.index(existential))
    ]
    return " ".join(map(str, [*sorted(seen), *before])) or "nothing"


def explain_block(formula_path, words):
    """What is wrong with the block of an existential."""
    existential = int(words[2])
    may_read = f"a definition of {existential} may read {readable(read_formula(formula_path), existential)}"
    if words[1] == "reads":
        print(f"The output's cone has variable {words[3]}, and {may_read}.")
    elif words[1] == "pair":
        print(f"Both assignments are to make each clause true, to differ at {existential}, and to agree on what it may read:")
        print(f"{may_read}.")
    elif words[3] == "end":
        print("Each line of its proof is derived, and the last one isn't the empty clause, or there is none.")
    else:
        print(f"In its proof the line {words[3]} isn't derived, and all before it are. Of C clauses and G gates, ids from 1 are")
        print("the clauses', three a gate, and two which say that output and existential differ.")


def explain(formula, certificate, words):
    """Prints why the checker answered with these words."""
    if words[:1] == ["refused"]:
        explain_refusal(formula, words, "formula")
    elif words[:1] == ["certificate"]:
        explain_refusal(certificate, words, "certificate")
    elif words[:1] == ["INVALID"] and are_definitions(certificate):
        explain_block(formula, words)
    elif words[:2] == ["INVALID", "row"]:
        explain_row(formula, certificate, words)
    elif words[:2] == ["INVALID", "reads"]:
        explain_reads(formula, certificate, words)
    elif words[:2] == ["INVALID", "step"]:
        explain_step(read_formula(formula), certificate, int(words[2]))
    elif words[:2] == ["INVALID", "end"]:
        print("Each step is derived, and the last one isn't the empty clause: the proof shows nothing yet.")
    elif words[:1] == ["UNPROVED"]:
        print(f"{words[1]} universals are too many to try each row, and the circuit has no proof. This makes one:")
        print(f"  {os.path.relpath(os.path.join(TOP, 'tools', 'prove_circuit.py'))} {formula} {certificate} > CERT")
    elif words == ["VALID", "TRUE"]:
        print("The formula is true: the circuit's outputs are Skolem functions.")
    elif words == ["VALID", "FALSE"]:
        print("The formula is false: under the certificate's rows its clauses have no model.")
    elif words[:2] == ["VALID", "DEFINED"]:
        print(f"Wherever the matrix is true, {words[2]} existentials are functions of what they may read, and {words[4]} aren't.")
    elif words[:2] == ["too", "long"]:
        print("A formula has at most 2^30 bytes, a certificate 2^40.")
    elif words == ["source", "fault"]:
        print("A file can't be read: look at its name and its rights; a name that begins with - stands behind --.")


def main_of_circuits(words: List[str], vcd: Optional[str], as_json: bool) -> int:
    """The same of the two circuits of a comparison, and of a certificate for them."""
    status, line = answer_of("DQSOLVE", "dqsolve", ["encode", "--", *words[:2]])
    if status == 0 and len(words) == 3:
        return main_of_boxes(*words, vcd, as_json)
    if status == 0:
        print("The two circuits make a design with black boxes.")
        return status
    print(line)
    said = line.split()
    if said[:1] in (["spec"], ["impl"]):
        path = words[said[0] == "impl"]
        explain_refusal(path, said, "design", "certificate")
    else:
        explain(words[0], words[-1], said)
    return status


def main_of_boxes(spec: str, imp: str, certificate: str, vcd: Optional[str], as_json: bool) -> int:
    """What the checker says of a certificate for two circuits, and, where it refutes, the rows in names."""
    design = read_design(spec, imp)
    formula = sapuendy.encode(spec, imp)
    with tempfile.TemporaryDirectory(prefix="sapuendy-") as folder:
        path = os.path.join(folder, "formula")
        write_text(path, tied(design, formula) if design.same else formula)
        judgement = sapuendy.check(path, certificate)
        if not as_json or judgement.line != "VALID FALSE":
            print(judgement.line)
        if judgement.line != "VALID FALSE":
            explain(path, certificate, judgement.line.split())
            return judgement.status
    told = tell_rows(design, refutation_text(certificate))
    if vcd:
        write_text(vcd, rows_vcd(design, told))
    if as_json:
        print(json.dumps([dataclasses.asdict(it) for it in told]))
    else:
        print("\n".join(lines_of(told, bool(design.boxes))))
    return judgement.status


def script_names() -> Dict[str, str]:
    """What the names of a script's refusals stand for, out of docs/FORMATS.md."""
    with open(os.path.join(TOP, "docs", "FORMATS.md"), encoding="utf-8") as page:
        part = page.read().split("## Scripts of a session")[-1].split("\n## ")[0]
    rows = re.findall(r"^\| ([\w, ]+) \| (.+) \|$", part, re.MULTILINE)
    return {name.strip(): where for names, where in rows for name in names.split(",")}


def main_of_session(words: List[str], as_json: bool) -> int:
    """What is wrong with a script, or what the blocks of its session say, each with the checker's word."""
    formula, script = words[:2]
    status, line = answer_of("DQSOLVE", "dqsolve", ["session", "--steps", "1", "--", formula, script])
    if status != 0:
        print(line)
        said = line.split()
        if said[:1] == ["script"]:
            lines = file_lines(bytes_of(script))
            number = int(said[1])
            print(f"{script}, line {number}: {shown(lines[number - 1])}" if number <= len(lines) else f"{script} has {len(lines)} lines")
            print(f"{said[2]}: {script_names().get(said[2], 'docs/FORMATS.md has the name')}.")
        else:
            explain(formula, script, said)
        return status
    if len(words) == 2:
        print("The script's commands stand on the formula.")
        return 0
    worst = 0
    for number, block in blocks_of(words[2]):
        verdict = (block[:200].split() + [b"", b""])[1].decode(errors="replace")
        judgement = sapuendy.check(formula_of_block(formula, script, number), block) if verdict in ("TRUE", "FALSE") else None
        checked = judgement.line if judgement else None
        worst = max(worst, judgement.status if judgement else 0)
        if as_json:
            print(json.dumps({"block": number, "verdict": verdict, "bytes": len(block), "checked": checked}))
        else:
            print(f"block {number}: {verdict}, {len(block)} bytes" + (f"; {checked}" if checked else ""))
    return worst


def main(words: List[str]) -> int:
    vcd, as_json = None, words[:1] == ["--json"]
    words = words[as_json:]
    if words[:1] == ["--vcd"] and len(words) > 1:
        vcd, words = words[1], words[2:]
    if as_json and not (len(words) == 4 and words[0] in ("--pec", "--session")):
        return json_of("explain.py", main, words)
    if words[:1] == ["--pec"] and 3 <= len(words) <= 4:
        return main_of_circuits(words[1:], vcd, as_json)
    if words[:1] == ["--session"] and 3 <= len(words) <= 4:
        return main_of_session(words[1:], as_json)
    if not 1 <= len(words) <= 2 or words[0].startswith("-"):
        print(__doc__.strip().split("\n\n")[0], file=sys.stderr)
        return USAGE
    if len(words) == 2:
        status, line = answer_of("DQCHECK", "dqcheck", words)
    else:
        status, line = answer_of("DQSOLVE", "dqsolve", ["solve", "--steps", "1", *words])
    print(line)
    if len(words) == 1 and status in (0, 10, 20):
        print("The text spells a formula.")
    else:
        explain(words[0], words[-1], line.split())
    return status


if __name__ == "__main__":
    run_script("explain.py", __doc__, main)
