#!/usr/bin/env python3
"""gate_times.py [--table] LOG [COMMAND..]: what a gate's CPU minutes go to, by crate.

With a command, such as `tools/gate_times.py LOG rt ci`, it runs the command, keeps its output in LOG, looks four times a second in
/proc which crate each process under it is at, and puts what each took behind the output. Then, or without a command, it prints the
table out of LOG: CPU seconds of libraries, of programs with their builds, and of edits with the proofs that they begin with. The
machine's measure is hint_log with the crates below it, which take 98 seconds on the fast kind: minutes in brackets are for such a
machine, so that figures of two machines compare. What was kept from an earlier run costs nothing and isn't in it.

With --table it prints the table of docs/PROVING.md: of each crate its lines that aren't blank, its edits, and its CPU seconds
on the fast kind, with builds and edits.
"""
import os
import re
import resource
import subprocess
import sys
import time
from collections import defaultdict

TOP = os.path.dirname(os.path.dirname(os.path.abspath(__file__)))
MEASURE, FAST = "hint_log", 98.0
KINDS = ("libraries", "programs", "edits")
LINE = re.compile(r"^gate-times: (\w+) (\S+) ([\d.]+)$", re.M)
TICK = os.sysconf("SC_CLK_TCK")


def below(name):
    """The crate and those that it stands on, by crates.txt."""
    stands_on = {}
    with open(os.path.join(TOP, "crates.txt"), encoding="utf-8") as file:
        for line in file:
            crate, colon, others = line.partition(":")
            if colon and not line.startswith("#"):
                stands_on[crate.strip()] = others.split()
    found, due = set(), [name]
    while due:
        crate = due.pop()
        if crate in stands_on and crate not in found:
            found.add(crate)
            due += stands_on[crate]
    return found


def read(path):
    """A file of /proc, or nothing where its process has ended."""
    try:
        with open(path, "rb") as file:
            return file.read()
    except OSError:
        return b""


def folder_of(pid):
    try:
        return os.readlink(f"/proc/{pid}/cwd")
    except OSError:
        return ""


def processes():
    """Each process: its number and start, its parent, and its seconds."""
    found = {}
    for pid in filter(str.isdigit, os.listdir("/proc")):
        fields = read(f"/proc/{pid}/stat").rpartition(b") ")[2].split()
        if fields:
            found[int(pid)] = int(fields[19]), int(fields[1]), (int(fields[11]) + int(fields[12])) / TICK
    return found


def place_of(pid):
    """What a process is at, by its words and its folder: a kind and a crate, or nothing where it is at no crate itself."""
    words = read(f"/proc/{pid}/cmdline").split(b"\0")
    if b"--crate-name" not in words[:-1]:
        return None
    crate = words[words.index(b"--crate-name") + 1].decode()
    if "/rt-edit" in folder_of(pid):
        return "edits", crate
    is_program = os.path.exists(os.path.join(TOP, "crates", crate, "src", "main.rt"))
    return "programs" if is_program else "libraries", crate


class Watch:
    """The seconds of each process that was seen under one, by what it is at."""

    def __init__(self, root):
        self.root, self.places, self.seconds = root, {}, {}

    def look(self):
        now = processes()
        for pid in now:
            if self.is_under(pid, now):
                place = self.place(pid, now)
                if place:
                    self.seconds[pid, now[pid][0]] = place, now[pid][2]

    def is_under(self, pid, now):
        while pid in now and pid != self.root:
            pid = now[pid][1]
        return pid == self.root

    def place(self, pid, now):
        """The process's own place, or that of the nearest one above it that has one."""
        key = pid, now[pid][0]
        if not self.places.get(key):
            self.places[key] = place_of(pid)
        if self.places[key] or pid == self.root or now[pid][1] not in now:
            return self.places[key]
        return self.place(now[pid][1], now)

    def sums(self):
        found = defaultdict(float)
        for place, seconds in self.seconds.values():
            found[place] += seconds
        return found


def run(log, command):
    """Runs the command, with its output and the times in the log, and gives its status."""
    with open(log, "w", encoding="utf-8") as file:
        started = time.time()
        with subprocess.Popen(command, stdout=file, stderr=subprocess.STDOUT) as child:
            watch = Watch(child.pid)
            while child.poll() is None:
                watch.look()
                time.sleep(0.25)
        used = resource.getrusage(resource.RUSAGE_CHILDREN)
        for (kind, crate), seconds in sorted(watch.sums().items()):
            file.write(f"gate-times: {kind} {crate} {seconds:.1f}\n")
        file.write(f"gate-times: whole cpu {used.ru_utime + used.ru_stime:.1f}\n")
        file.write(f"gate-times: whole clock {time.time() - started:.1f}\n")
    return child.returncode


def show(text):
    """Prints the table, the dearest crate first."""
    times = {(kind, crate): float(seconds) for kind, crate, seconds in LINE.findall(text)}
    crates = sorted({crate for kind, crate in times if kind in KINDS}, key=lambda c: -sum(times.get((k, c), 0) for k in KINDS))
    measured = below(MEASURE)
    measure = sum(times.get(("libraries", crate), 0) for crate in measured)
    scale = FAST / measure if all(("libraries", crate) in times for crate in measured) else None
    print(f"{'crate':24}" + "".join(f"{kind:>11}" for kind in KINDS))
    for crate in crates:
        print(f"{crate:24}" + "".join(f"{times.get((kind, crate), 0):11.0f}" for kind in KINDS))
    sums = [sum(s for (k, _), s in times.items() if k == kind) for kind in KINDS]
    print(f"{'minutes':24}" + "".join(f"{seconds / 60:11.1f}" for seconds in sums))
    whole = times.get(("whole", "cpu"), sum(sums))
    fast = f" ({whole / 60 * scale:.1f} on the fast kind)" if scale else ""
    print(f"in all {whole / 60:.1f} CPU minutes{fast}, {times.get(('whole', 'clock'), 0) / 60:.1f} by the clock")
    if scale:
        print(f"hint_log with the crates below it: {measure:.0f} CPU seconds, {1 / scale:.2f} times the fast kind's {FAST:.0f}")


def lines_of(crate, part, ending):
    """A crate's lines in a part that aren't blank."""
    count = 0
    for folder, _, names in os.walk(os.path.join(TOP, "crates", crate, part)):
        for name in names:
            if name.endswith(ending):
                with open(os.path.join(folder, name), encoding="utf-8") as file:
                    count += sum(1 for line in file if line.strip())
    return count


def rows(text):
    """The rows of docs/PROVING.md, crates as crates.txt has them."""
    times = {(kind, crate): float(seconds) for kind, crate, seconds in LINE.findall(text)}
    scale = FAST / sum(times.get(("libraries", crate), 0) for crate in below(MEASURE))
    with open(os.path.join(TOP, "crates.txt"), encoding="utf-8") as file:
        crates = [line.partition(":")[0] for line in file if ":" in line and not line.startswith("#")]
    for crate in crates:
        folder = os.path.join(TOP, "crates", crate, "must-fail")
        edits = sum(name.endswith(".edit") for name in os.listdir(folder)) if os.path.isdir(folder) else 0
        counts = lines_of(crate, "src", ".rt"), lines_of(crate, "specs", ".antt"), lines_of(crate, "proofs", ".antt"), edits
        yield crate, *counts, round(sum(times.get((kind, crate), 0) for kind in KINDS) * scale)


def table(text):
    found = list(rows(text))
    found.append(("all", *(sum(row[k] for row in found) for k in range(1, 6))))
    print("| Crate | code | specs | proofs | edits | CPU seconds |\n|---|---|---|---|---|---|")
    for crate, *counts in found:
        print(f"| {crate} | " + " | ".join(f"{count:,}" for count in counts) + " |")


def main(words):
    if words[:1] == ["--table"] and len(words) == 2:
        with open(words[1], encoding="utf-8", errors="replace") as file:
            table(file.read())
        return 0
    if not words or words[0].startswith("-"):
        print(__doc__.strip())
        return 0 if words == ["--help"] else 2
    status = run(words[0], words[1:]) if len(words) > 1 else 0
    with open(words[0], encoding="utf-8", errors="replace") as file:
        show(file.read())
    return status


if __name__ == "__main__":
    sys.exit(main(sys.argv[1:]))
