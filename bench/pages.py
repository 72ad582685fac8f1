#!/usr/bin/env python3
"""pages.py: runs the commands that README and the pages show, as written, in a folder of their own, and compares statuses and first lines with
what stands here. Commands of the pages that aren't listed here, and the other way round, are differences too,
and so is a launcher's usage line that isn't its program's, a table or a count of what has to be believed that
tools/believed.py doesn't print, and what links.py tells of links, files' names and crates. DQCHECK and DQSOLVE may name built programs.
"""

import os
import re
import shutil
import subprocess
import sys
import tempfile

TOP = os.path.dirname(os.path.dirname(os.path.abspath(__file__)))
sys.path.insert(0, os.path.join(TOP, "tools"))

import believed
import links

PAGES = ("README.md", "docs/SOLVING.md", "docs/BLACK_BOX.md", "docs/CONTROL.md", "docs/FORMATS.md")

# What each command ends with, and the first line that it prints, or None where nothing is printed or the line says little.
COMMANDS = {
    "./dqsolve solve examples/copies.dqdimacs > certificate": (10, None),
    "./dqcheck examples/copies.dqdimacs certificate": (0, "VALID TRUE"),
    "./dqsolve session examples/copies.dqdimacs examples/copies.script": (0, "solve 1 121"),
    "tools/package.sh": (0, None),
    "tools/fill.py examples/adder-spec.v examples/adder-boxes.v": (10, "TRUE: contents of 2 boxes fit; VALID TRUE"),
    "tools/fill.py examples/adder-spec.v examples/adder-blind.v": (20, "FALSE: no contents of the boxes fit; VALID FALSE"),
    "tools/fill.py --circuits --keep circuits examples/adder-spec.v examples/adder-boxes.v": (0, "circuits: spec.aag and impl.aag, with 2 boxes"),
    "tools/control.py examples/crossing.v": (10, "TRUE: a controller with no memory suffices; VALID TRUE"),
    "tools/control.py --see enters,leaves examples/crossing.v": (20, "FALSE: no controller with no memory sees enough; VALID FALSE"),
    "tools/control.py --memory 1 --see enters,leaves --vcd run.vcd examples/crossing.v": (10, "TRUE: a controller with 1 bit of memory suffices; VALID TRUE"),
    "tools/control.py --see low examples/tank.v": (10, "TRUE: a controller with no memory suffices; VALID TRUE"),
    "tools/control.py --see drained examples/tank.v": (20, "FALSE: no controller with no memory sees enough; VALID FALSE"),
    "tools/control.py --see asks,waited examples/arbiter.v": (10, "TRUE: a controller with no memory suffices; VALID TRUE"),
    "tools/control.py --see left=left_waits,lamp --see right=right_waits,lamp examples/bridge.v": (10, "TRUE: a controller with no memory suffices; VALID TRUE"),
    "tools/control.py --see left=left_waits,lamp --see right=right_waits examples/bridge.v": (20, "FALSE: no controller with no memory sees enough; VALID FALSE"),
    "./dqsolve pec examples/adder-spec.aag examples/adder-boxes.aag > certificate": (10, None),
    "./dqsolve pec examples/adder-spec.aag examples/adder-blind.aag": (20, "s FALSE"),
    "./dqsolve encode examples/adder-spec.aag examples/adder-boxes.aag > formula": (0, None),
    "./dqcheck formula certificate": (0, "VALID TRUE"),
    "tools/fill_boxes.py examples/adder-spec.aag examples/adder-boxes.aag certificate > filled.aag": (0, None),
    "./dqsolve pec examples/adder-spec.aag filled.aag > proof": (10, None),
    "tools/verilog.py examples/adder-spec.aag examples/adder-boxes.aag certificate": (0, None),
    "sed '/^c$/,$d' examples/small-boxes.aag > boxes.aag": (0, None),
    "./dqcheck examples/small-boxes.dqdimacs boxes.aag": (0, "VALID TRUE"),
    "./dqcheck examples/small-boxes.dqdimacs examples/small-boxes.aag": (0, "VALID TRUE"),
    "./dqsolve solve examples/small-boxes.dqdimacs > certificate": (10, None),
    "./dqcheck examples/small-boxes.dqdimacs certificate": (0, "VALID TRUE"),
    "./dqcheck examples/small-blind-boxes.dqdimacs examples/small-boxes.aag": (8, "INVALID reads 5 2"),
    "./dqcheck examples/small-blind-boxes.dqdimacs examples/small-blind-boxes.dqr": (0, "VALID FALSE"),
    "./dqcheck examples/small-boxes.dqdimacs examples/small-blind-boxes.dqr": (8, "INVALID step 13"),
    "./dqcheck examples/two-boxes.dqdimacs examples/two-boxes-unproved.aag": (9, "UNPROVED 24"),
    "./dqcheck examples/two-boxes.dqdimacs examples/two-boxes.aag": (0, "VALID TRUE"),
    "./dqcheck examples/blind-boxes.dqdimacs examples/blind-boxes.dqr": (0, "VALID FALSE"),
}

# Patterns for the reader's own files, commands that take long, and what needs a solver that may not be there.
NOT_RUN = re.compile(r"[A-Z]{4}|^rt ci$|^tools/prove_circuit\.py examples/|^tools/sapuendy\.py |^parallel ")
NEEDS_YOSYS = re.compile(r"^tools/(fill|control)\.py ")


def commands(page):
    """The commands of a page: indented lines that begin with a program's name."""
    with open(os.path.join(TOP, page), encoding="utf-8") as file:
        lines = re.findall(r"^    ((?:\./|tools/|bench/|sed |rt |parallel ).*)$", file.read(), re.MULTILINE)
    return [line for line in lines if not NOT_RUN.search(line)]


def prepare(folder):
    """The repository's files by links, and built programs in their places."""
    for name in os.listdir(TOP):
        if not name.startswith("."):
            os.symlink(os.path.join(TOP, name), os.path.join(folder, name))
    for variable, name in (("DQCHECK", "dqcheck"), ("DQSOLVE", "dqsolve")):
        if variable in os.environ:
            os.unlink(os.path.join(folder, name))
            os.symlink(os.environ[variable], os.path.join(folder, name))


def run(command, folder):
    done = subprocess.run(command, shell=True, cwd=folder, stdout=subprocess.PIPE, check=False)
    return done.returncode, done.stdout.decode(errors="replace").split("\n")[0]


def text_of(page):
    with open(os.path.join(TOP, page), encoding="utf-8") as file:
        return file.read()


def wrong_counts():
    """The pages that say otherwise than tools/believed.py how much has to be believed."""
    rows = believed.table(believed.Repository())
    lines = dict(re.findall(r"^\| (.*?) \| ([0-9,]+) \|", rows, re.MULTILINE))
    first, last = believed.TABLE
    if text_of("docs/PROVED.md").split(first)[-1].split(last)[0].strip() != rows:
        yield "docs/PROVED.md: its table isn't what tools/believed.py prints"
    if not re.search(rf"\b{lines[believed.WHOLE]}\s+lines\s+of\s+definitions", text_of("README.md")):
        yield f"README.md: {lines[believed.WHOLE]} lines of definitions have to be believed"


def main(words):
    if words:
        print(__doc__.strip())
        return 0 if words == ["--help"] else 1
    differences, seen = 0, set()
    for difference in [*wrong_counts(), *links.differences()]:
        print(difference)
        differences += 1
    for page in PAGES:
        with tempfile.TemporaryDirectory() as folder:
            prepare(folder)
            for command in commands(page):
                seen.add(command)
                due = COMMANDS.get(command)
                if NEEDS_YOSYS.search(command) and shutil.which("yosys") is None:
                    print(f"{page}: there is no yosys: {command} isn't run")
                    continue
                found = run(command, folder)
                if due is None or found[0] != due[0] or due[1] not in (None, found[1]):
                    print(f"{page}: {command}: {found} in place of {due}")
                    differences += 1
    for name in ("dqcheck", "dqsolve"):
        program = os.environ.get(name.upper(), os.path.join(TOP, "crates", name, "out", name))
        said = [subprocess.run([path], stdout=subprocess.PIPE, check=False).stdout for path in (os.path.join(TOP, name), program)]
        if said[0] != said[1]:
            print(f"{name}: the launcher says {said[0]}, the program {said[1]}")
            differences += 1
    for command in COMMANDS.keys() - seen:
        print(f"no page has {command}")
        differences += 1
    print(f"{len(seen)} commands, {differences} differences")
    return 1 if differences else 0


if __name__ == "__main__":
    sys.exit(main(sys.argv[1:]))
