#!/usr/bin/env python3
"""Scripts that hold: each way in which a call of a script can go wrong, or wants a word of its own, is a case here, with the status that it ends with
and what it says. Prints each difference and how many there were; where there is one, the exit status is 1. Cases that need yosys are passed over
where it isn't there.

Usage: bench/scripts.py

The variables DQSOLVE and DQCHECK name the programs.
"""

import json
import os
import re
import shutil
import signal
import subprocess
import sys
import tempfile
import time

from bench import TOP

TOOLS, EXAMPLES, USES = (os.path.join(TOP, *it) for it in (("tools",), ("examples",), ("bench", "uses")))
SECONDS = 240
TRACE = "Traceback"

SPEC = "module top(input clk, input rst, input [1:0] a, output [1:0] y); %s endmodule\n"
IMPL = "(* blackbox *) module box(input [1:0] i, output [1:0] o); endmodule\n" + SPEC
PLAIN = "assign y = ~a;"
BOXED = "box u(a, y);"
HELD = "reg [1:0] r = %d; assign y = r; always @(%s clk) r <= a;"
HELD_BOX = "reg [1:0] r = %d; wire [1:0] n; box u(a, n); assign y = r; always @(%s clk) r <= n;"
CIRCLE = "wire [1:0] m; box u(m, y); box v(y, m);"

# Formulas that take a solver for ever, for what ends a script: a pigeon more than holes, which see nothing.
HOLES = 13


def pigeons():
    clauses = [[pigeon * HOLES + hole + 1 for hole in range(HOLES)] for pigeon in range(HOLES + 1)]
    clauses += [[-(p * HOLES + h + 1), -(q * HOLES + h + 1)] for h in range(HOLES) for p in range(HOLES + 1) for q in range(p)]
    lines = [f"p cnf {HOLES * (HOLES + 1)} {len(clauses)}", *(" ".join(map(str, [*it, 0])) for it in clauses)]
    return "".join(f"{it}\n" for it in lines)


class Bench:
    """Cases in a folder of their own, whose name has a blank."""

    def __init__(self, folder):
        self.folder, self.cases, self.differences = folder, 0, 0
        for name in os.listdir(EXAMPLES):
            shutil.copy(os.path.join(EXAMPLES, name), folder)
        solver = os.environ.get("DQSOLVE", os.path.join(TOP, "dqsolve"))
        for name, words in (
            ("true", ["pec", "adder-spec.aag", "adder-boxes.aag"]),
            ("false", ["pec", "adder-spec.aag", "adder-blind.aag"]),
            ("unknown", ["pec", "--steps", "1", "adder-spec.aag", "adder-boxes.aag"]),
            ("other", ["pec", "alu-spec.aag", "alu-boxes.aag"]),
            ("formula", ["encode", "adder-spec.aag", "adder-boxes.aag"]),
            ("definitions", ["defined", "copies.dqdimacs"]),
            ("blocks", ["session", "copies.dqdimacs", "copies.script"]),
        ):
            self.write(name, subprocess.run([solver, *words], cwd=folder, capture_output=True, check=False).stdout)
        self.write("pigeons", pigeons().encode())

    def write(self, name, text):
        with open(os.path.join(self.folder, name), "wb") as file:
            file.write(text if isinstance(text, bytes) else text.encode())
        return name

    def read(self, name):
        with open(os.path.join(self.folder, name), encoding="utf-8") as file:
            return file.read()

    def call(self, words, text="", environment=None):
        """A script's status, and what it writes and says."""
        command = [os.path.join(TOOLS, words[0]), *words[1:]]
        done = subprocess.run(command, input=text, capture_output=True, text=True, cwd=self.folder, timeout=SECONDS, env=environment, check=False)
        return done.returncode, done.stdout, done.stderr

    def check(self, name, holds, found):
        self.cases += 1
        if not holds:
            self.differences += 1
            print(f"{name}: {found}", flush=True)

    def case(self, words, status, says, text="", environment=None):
        """A call that ends with a status, and says something, on standard output or standard error, that a pattern describes; never a traceback."""
        found = self.call(words, text, environment)
        both = found[1] + found[2]
        self.check(" ".join(words), found[0] == status and re.search(says, both) and TRACE not in both, found)


# Tables: the words, the status, and what is said.

BOXES = [
    (["fill_boxes.py", "adder-spec.aag", "adder-boxes.aag", "true"], 0, r"i0 a\[0\](.|\n)*o0 carry(.|\n)*pec 0"),
    (["verilog.py", "adder-spec.aag", "adder-boxes.aag", "true"], 0, "module bit1"),
    (["verilog.py", "definitions"], 0, "module definitions"),
    (["verilog.py", "--json", "definitions"], 0, r'^\{"status": 0, "output": "module definitions'),
    (["verilog.py", "--json", "true"], 2, r'^\{"status": 2, "output": "", "message": "verilog.py: true: it is a verdict'),
    (["fill_boxes.py", "--json", "adder-spec.aag", "adder-boxes.aag", "true"], 0, r'^\{"status": 0, "output": "aag '),
    (["explain.py", "--json", "copies.dqdimacs"], 0, r'^\{"status": 0, "output": "s UNKNOWN'),
    (["refute.py", "--json", "nothing"], 2, r'^\{"status": 2, '),
    (["verilog.py", "true"], 2, "it is a verdict, where definitions are due"),
    (["verilog.py", "formula"], 2, "it is a formula or a refutation, where definitions are due"),
]
for script in ("fill_boxes.py", "verilog.py"):
    BOXES += [
        ([script, "adder-spec.aag", "adder-boxes.aag", "false"], 2, "false: the verdict is FALSE: no contents fit"),
        ([script, "adder-spec.aag", "adder-boxes.aag", "unknown"], 2, "the verdict is UNKNOWN"),
        ([script, "adder-spec.aag", "adder-boxes.aag", "other"], 2, "it isn't a certificate for these two circuits"),
        ([script, "adder-spec.aag", "adder-boxes.aag", "formula"], 2, "it is a formula, where a certificate is due"),
        ([script, "adder-spec.aag", "adder-boxes.aag", "nothing"], 2, "No such file"),
        ([script, "adder-spec.aag", "adder-spec.aag", "true"], 2, "no line `pec B`"),
        ([script, "copies.dqdimacs", "adder-boxes.aag", "true"], 2, "line 1: no header"),
        ([script, "adder-spec.aag", "alu-boxes.aag", "true"], 2, "aren't those of adder-spec.aag"),
    ]

DECIDING = [
    (["decide.py", "copies.dqdimacs", "kept"], 10, r"^TRUE\n"),
    (["decide.py", "--json", "copies.dqdimacs"], 10, '"checked": "VALID TRUE"'),
    (["decide.py", "--pec", "adder-spec.aag", "adder-blind.aag", "kept"], 20, r"^FALSE\n"),
    (["decide.py", "--steps", "20", "--pec", "adder-spec.aag", "adder-boxes.aag"], 0, r"^UNKNOWN\n20 steps: rounds \d+ learned \d+"),
    (["decide.py", "--seconds", "2", "pigeons"], 0, r"^UNKNOWN\n1000 steps: rounds \d+ learned \d+"),
    (["decide.py", "--defined", "copies.dqdimacs"], 30, r"^DEFINED 2 FREE 0\n"),
    (["decide.py", "--session", "copies.dqdimacs", "copies.script"], 0, r"^1 TRUE\n2 FALSE\n3 TRUE\n"),
    (["decide.py", "pigeons", "no/where"], 2, r"^decide.py: no/where: it can't be written: No such file or directory\n$"),
    (["decide.py", "copies.dqdimacs", "/"], 2, "it can't be written: Is a directory"),
    (["decide.py", "copies.aag"], 2, "^refused 1 NoHeader\n"),
    (["decide.py", "--pec", "copies.aag", "adder-boxes.aag"], 7, "^impl"),
    (["decide.py", "nothing"], 2, "there is no such file"),
    (["decide.py", "--pec", "copies.aag"], 1, "QUESTION"),
    (["batch.py", "results", "copies.dqdimacs"], 0, "TRUE"),
    (["batch.py", "results", "copies.dqdimacs", "copies.aag"], 1, "copies.aag: status 2, in results"),
    (["batch.py", "--json", "results"], 0, '"verdict": "status 2"'),
    (["session.py", "--formula", "2", "copies.dqdimacs", "copies.script"], 0, "-3 -4 0\n$"),
    (["session.py", "--formula", "9", "copies.dqdimacs", "copies.script"], 2, "it asks for 3 searches"),
]

IN_BOTH = r"Two rows show(.|\n)*box bit2 sees a = [01], b = [01] in both: a = 0x. *, b = 0x. wants"
DIFFER = r"One row shows that the circuits differ(.|\n)*the specification wants sum = (.|\n)*the implementation has sum ="

EXPLAINED = [
    (["explain.py", "--pec", "adder-spec.aag", "adder-blind.aag", "false"], 0, IN_BOTH),
    (["explain.py", "--vcd", "rows.vcd", "--pec", "adder-spec.aag", "adder-blind.aag", "false"], 0, "VALID FALSE"),
    (["explain.py", "--json", "--pec", "adder-spec.aag", "adder-blind.aag", "false"], 0, r'^\[\{"inputs"'),
    (["explain.py", "--pec", "adder-spec.aag", "adder-boxes.aag", "true"], 0, "VALID TRUE"),
    (["explain.py", "--pec", "adder-spec.aag", "adder-boxes.aag", "unknown"], 7, "certificate 1 WrongVerdict|certificate 1 BadHeader"),
    (["explain.py", "--pec", "adder-spec.aag", "adder-boxes.aag", "false"], 7, "another formula"),
    (["explain.py", "--pec", "adder-spec.aag", "adder-wrong.aag", "wrong"], 0, DIFFER),
    (["explain.py", "--session", "copies.dqdimacs", "copies.script", "blocks"], 0, "block 2: FALSE, 38 bytes; VALID FALSE"),
    (["explain.py", "--session", "copies.dqdimacs", "bad.script"], 7, r"script 2 VarRange\n(.|\n)*line 2: add 9 0"),
    (["explain.py", "--session", "copies.dqdimacs", "copies.script", "true"], 2, "no block `solve K B`"),
]

DESIGNS = [
    (["fill.py", "spec.v", "impl.v"], 10, "equal to the specification, by"),
    (["fill.py", "--json", "spec.v", "impl.v"], 10, '"verdict": "TRUE"'),
    (["fill.py", "--out", "no/where", "spec.v", "impl.v"], 2, "it can't be written"),
    (["fill.py", "spec.v"], 1, "Usage"),
    (["fill.py", "spec.v", "nothing.v"], 2, "nothing.v: there is no such file"),
    (["fill.py", "spec.v", "syntax.v"], 2, "syntax error"),
    (["fill.py", "spec.v", "unknown.v"], 2, "Declare a black box as"),
    (["fill.py", "impl.v", "impl.v"], 2, "a specification has no black boxes"),
    (["fill.py", "spec.v", "narrow.v"], 2, "a has 1 bits, and in the specification 2"),
    (["fill.py", "spec.v", "latch.v"], 2, "a latch stands here"),
    (["fill.py", "spec.v", "circle.v"], 2, "these boxes read each other in a circle: u, v"),
    (["fill.py", "held.v", "held-box.v"], 10, "registers that both have are cut, and their next values compared: r"),
    (["fill.py", "held.v", "held-other.v"], 2, r"register r\[0\] can't be cut: it begins with 1 in the specification and with 0"),
    (["fill.py", "held.v", "held-falling.v"], 2, r"register r\[0\] can't be cut: its clock is rising clk in the specification and falling clk"),
    (["fill.py", "held.v", "impl.v"], 20, "registers of the specification without a partner of their name in the implementation: r"),
    (["fill.py", "--steps", "1", "saturate-spec.v", "saturate-boxes.v"], 0, "^UNKNOWN"),
    (["control.py", "liveness.aag"], 2, r"section J \(justice\)"),
    (["control.py", "fair.aag"], 2, r"section F \(fairness\)"),
    (["control.py", "adder-spec.aag"], 2, "no input's name begins with controllable_"),
    (["control.py", "--see", "train,nothing", "crossing.v"], 2, "there is no nothing to be seen; there are comes, goes, train"),
    (["control.py", "--see", "bad_open", "crossing.v"], 2, r"bad_open can't be seen: it hangs on controllable_down"),
    (["control.py", "--see", "up=train", "crossing.v"], 2, "controllable_up isn't driven"),
    (["control.py", "--json", "--see", "enters,leaves", "crossing.v"], 20, '"verdict": "FALSE"'),
    (["control.py", "--vcd", "run.vcd", "--memory", "1", "--see", "enters,leaves", "crossing.v"], 10, "closed loop: the invariant"),
    (["control.py"], 1, "Usage"),
]

TEXTS = {
    "spec.v": SPEC % PLAIN,
    "impl.v": IMPL % BOXED,
    "syntax.v": SPEC % "assign y = ;",
    "unknown.v": SPEC % "nowhere u(a, y);",
    "narrow.v": (IMPL % "box u(a, y);").replace("input [1:0] a,", "input a,"),
    "latch.v": SPEC % "reg [1:0] q; assign y = q; always @* if (rst) q = a;",
    "circle.v": IMPL % CIRCLE,
    "held.v": SPEC % (HELD % (1, "posedge")),
    "held-box.v": IMPL % (HELD_BOX % (1, "posedge")),
    "held-other.v": IMPL % (HELD_BOX % (0, "posedge")),
    "held-falling.v": IMPL % (HELD_BOX % (1, "negedge")),
    "liveness.aag": "aag 1 1 0 0 0 0 0 1\n2\n1\n2\ni0 controllable_x\n",
    "fair.aag": "aag 1 1 0 0 0 0 0 0 1\n2\n2\ni0 controllable_x\n",
    "bad.script": "push\nadd 9 0\n",
}


def boxes_and_verdicts(bench):
    for words, status, says in (*BOXES, *DECIDING):
        bench.case(words, status, says)


def explanations(bench):
    """Refutations in names, one of a circuit without boxes too: a filled one in which an output is negated."""
    filled = bench.call(["fill_boxes.py", "adder-spec.aag", "adder-boxes.aag", "true"])[1].split("\n")
    counts = [int(it) for it in filled[0].split()[1:]]
    filled[1 + counts[1] + 2] = str(int(filled[1 + counts[1] + 2]) ^ 1)
    bench.write("adder-wrong.aag", "\n".join(filled))
    bench.call(["decide.py", "--pec", "adder-spec.aag", "adder-wrong.aag", "wrong"])
    for words, status, says in EXPLAINED:
        bench.case(words, status, says)
    bench.check("rows.vcd", "$enddefinitions" in bench.read("rows.vcd"), bench.read("rows.vcd"))


def designs(bench):
    if shutil.which("yosys") is None:
        print("there is no yosys: designs are passed over")
        return
    for name in ("saturate-spec.v", "saturate-boxes.v"):
        shutil.copy(os.path.join(USES, name), bench.folder)
    for words, status, says in DESIGNS:
        bench.case(words, status, says)
    bench.check("run.vcd", "$var wire 1" in bench.read("run.vcd"), bench.read("run.vcd")[:300])
    without_abc = {**os.environ, "ABC": ""}
    bench.case(["fill.py", "spec.v", "impl.v"], 10, "by dqsolve pec, dqcheck", environment=without_abc)
    bare = os.path.join(bench.folder, "bare")
    os.mkdir(bare)
    os.symlink(sys.executable, os.path.join(bare, "python3"))
    bench.case(["fill.py", "spec.v", "impl.v"], 3, "there is no yosys", environment={**os.environ, "PATH": bare})


def session_of_a_loop(bench):
    """Each search is answered before the next command is written."""
    command = [os.path.join(TOOLS, "session.py"), "--json", "copies.dqdimacs"]
    with subprocess.Popen(command, stdin=subprocess.PIPE, stdout=subprocess.PIPE, text=True, cwd=bench.folder) as process:
        verdicts = []
        for commands in ("solve\n", "push\nadd -3 -4 0\nsolve\n", "pop\nsolve\n"):
            process.stdin.write(commands)
            process.stdin.flush()
            verdicts.append(json.loads(process.stdout.readline())["verdict"])
        process.stdin.close()
        bench.check("a session's loop", (verdicts, process.wait()) == (["TRUE", "FALSE", "TRUE"], 0), verdicts)
    bench.case(["session.py", "copies.dqdimacs"], 1, r"solve 1 121\n(.|\n)*pop where no frame is open", "pop\nsolve\n")
    bench.case(["session.py", "copies.dqdimacs"], 1, "a clause is numbers with one 0", "push\nadd 3\n")
    bench.case(["session.py", "copies.aag"], 2, "no header", "solve\n")


def module(bench):
    """The module's calls."""
    program = """
import sapuendy
answer = sapuendy.solve("copies.dqdimacs")
assert answer.verdict == "TRUE" and sapuendy.check("copies.dqdimacs", answer.text).is_accepted
assert sapuendy.check("copies.dqdimacs", b"s FALSE\\np dqr 0 0\\n").status == 8
assert sapuendy.pec("adder-spec.aag", "adder-blind.aag").verdict == "FALSE"
assert sapuendy.encode("adder-spec.aag", "adder-blind.aag").startswith(b"p cnf ")
assert sapuendy.defined(b"p cnf 2 2\\na 1 0\\ne 2 0\\n1 -2 0\\n-1 2 0\\n").functions == (2,)
assert sapuendy.decided("blind-copy.dqdimacs").checked == "VALID FALSE"
session = sapuendy.Session("copies.dqdimacs")
session.push(); session.add(-3, -4)
assert session.solve().verdict == "FALSE" and session.script() == "push\\nadd -3 -4 0\\nsolve\\n"
session.pop()
assert session.solve().verdict == "TRUE" and '"verdict": "TRUE"' in session.solve().as_json()
try:
    sapuendy.solve(b"p cnf")
except sapuendy.Refused as refused:
    assert (refused.status, refused.line) == (2, "refused 1 NoHeader")
try:
    sapuendy.solve("pigeons", steps=10**9, seconds=1)
except sapuendy.OutOfTime:
    print("held")
"""
    environment, command = {**os.environ, "PYTHONPATH": TOOLS}, [sys.executable, "-c", program]
    done = subprocess.run(command, capture_output=True, text=True, cwd=bench.folder, env=environment, check=False)
    bench.check("the module", (done.returncode, done.stdout) == (0, "held\n"), (done.stdout, done.stderr))


# What ends a script


def children_of(parent):
    """The processes whose parent this is."""
    found = []
    for name in filter(str.isdigit, os.listdir("/proc")):
        try:
            with open(f"/proc/{name}/stat", encoding="ascii", errors="replace") as file:
                if int(file.read().rpartition(")")[2].split()[1]) == parent:
                    found.append(int(name))
        except OSError:
            continue
    return found


def lasting_children(parent):
    """The children that are still there half a second later: first runs are short, and one comes after the other."""
    for _ in range(60):
        found = children_of(parent)
        time.sleep(0.5)
        if found and found == children_of(parent):
            return found
    return []


def is_gone(process):
    for _ in range(100):
        if not os.path.exists(f"/proc/{process}"):
            return True
        time.sleep(0.1)
    return False


def endings(bench):
    """A signal ends what a script started, and its folders go; a script that is killed takes its programs along."""
    temporary = os.path.join(bench.folder, "temporary")
    os.mkdir(temporary)
    environment = {**os.environ, "TMPDIR": temporary}
    for words, number, status, says in (
        (["decide.py", "pigeons"], signal.SIGTERM, 0, ("UNKNOWN\n", "decide.py: stopped by SIGTERM")),
        (["decide.py", "pigeons"], signal.SIGINT, 0, ("UNKNOWN\n", "decide.py: stopped by SIGINT")),
        (["batch.py", "ended", "pigeons"], signal.SIGTERM, 143, ("", "batch.py: stopped by SIGTERM")),
        (["decide.py", "pigeons"], signal.SIGKILL, -9, ("", "")),
    ):
        command = [os.path.join(TOOLS, words[0]), *words[1:]]
        process = subprocess.Popen(command, stdout=subprocess.PIPE, stderr=subprocess.PIPE, text=True, cwd=bench.folder, env=environment)
        children = lasting_children(process.pid)
        process.send_signal(number)
        written, said = process.communicate(timeout=SECONDS)
        found = process.returncode, written, said.strip().split("\n")[-1] if says[1] else ""
        bench.check(f"{words[0]} at {number.name}", found == (status, *says), found)
        bench.check(f"{words[0]} at {number.name}: its children", children and all(map(is_gone, children)), children)
        if number != signal.SIGKILL:
            bench.check(f"{words[0]} at {number.name}: its folders", os.listdir(temporary) == [], os.listdir(temporary))


# The launcher


def launcher(bench):
    """A launcher beside a program that says its words: links, the commit, what is out of date."""
    top = os.path.join(bench.folder, "launched")
    out = os.path.join(top, "crates", "dqsolve", "out")
    source = os.path.join(top, "crates", "dqsolve", "src", "main.rt")
    for it in (out, os.path.dirname(source)):
        os.makedirs(it)
    shutil.copy(os.path.join(TOP, "dqcheck"), top)
    os.symlink("dqcheck", os.path.join(top, "dqsolve"))
    texts = {source: "// a source\n", os.path.join(top, "crates.txt"): "dqsolve:\n", os.path.join(out, "dqsolve"): '#!/bin/sh\necho "ran $@"\n'}
    for path, text in texts.items():
        with open(path, "w", encoding="ascii") as file:
            file.write(text)
    os.chmod(os.path.join(out, "dqsolve"), 0o755)
    os.symlink(os.path.join(top, "dqsolve"), os.path.join(bench.folder, "my-solver"))
    bare = {**os.environ, "PATH": "/usr/bin:/bin"}

    def said(path, *words):
        done = subprocess.run([path, *words], capture_output=True, text=True, env=bare, check=False)
        return done.returncode, done.stdout

    own, link = os.path.join(top, "dqsolve"), os.path.join(bench.folder, "my-solver")
    stamp = os.path.join(out, "dqsolve.stamp")
    os.utime(os.path.join(out, "dqsolve"), (1, 1))
    bench.check("an old program without a stamp", said(own, "x") == (70, ""), said(own, "x"))
    bench.check("--version before", re.fullmatch(r"dqsolve .*, not built yet\n", said(own, "--version")[1]), said(own, "--version"))
    time.sleep(1.1)
    os.utime(os.path.join(out, "dqsolve"))
    bench.check("a new program without a stamp", said(own, "x") == (0, "ran x\n") and os.path.exists(stamp), said(own, "x"))
    time.sleep(1.1)
    with open(stamp, "w", encoding="ascii") as file:
        file.write("0123456789ab\n")
    bench.check("it runs", said(own, "x", "a b") == (0, "ran x a b\n"), said(own, "x", "a b"))
    bench.check("a link of another name", said(link, "x") == (0, "ran x\n"), said(link, "x"))
    bench.check("--version", said(link, "--version") == (0, "dqsolve 0123456789ab\n"), said(link, "--version"))
    time.sleep(1.1)
    os.utime(os.path.join(top, "crates", "dqsolve"))
    bench.check("a folder that changed, and no source", said(own, "x") == (0, "ran x\n"), said(own, "x"))
    time.sleep(1.1)
    os.utime(source)
    bench.check("a source that changed", said(own, "x") == (70, ""), said(own, "x"))


def main(words):
    if words:
        print(__doc__.strip())
        return 0 if words == ["--help"] else 1
    with tempfile.TemporaryDirectory(prefix="with blanks ") as folder:
        bench = Bench(folder)
        for name, text in TEXTS.items():
            bench.write(name, text)
        for part in (boxes_and_verdicts, explanations, designs, session_of_a_loop, module, endings, launcher):
            part(bench)
    print(f"{bench.cases} cases, {bench.differences} differences")
    return 1 if bench.differences else 0


if __name__ == "__main__":
    sys.exit(main(sys.argv[1:]))
