#!/usr/bin/env python3
"""Makes large inputs, runs the built checker on them, and prints what it answers, how long it took, how many MB of
input it read in a second, and its peak memory.

Usage: bench/bench.py [--beside PROGRAM] [--instructions] [NAME..]

All measurements are made, or those whose names contain a NAME. With --beside the same inputs are given to another
checker of the same command line, and each line ends with how many times its time the checker took. With --instructions
both run under valgrind's callgrind, which takes 50 times as long, and instructions are counted in place of seconds.

Where the variable DQCHECK is set, it names the checker that is measured. Behind the measurements of large honest inputs
stand hostile ones at two sizes, whose time and memory are to follow the text.
"""

import argparse
import os
import re
import subprocess
import sys
import tempfile
import time

from checker_inputs import INPUTS, MEGABYTE

TOP = os.path.dirname(os.path.dirname(os.path.abspath(__file__)))
CHECKER = os.environ.get("DQCHECK", os.path.join(TOP, "crates", "dqcheck", "out", "dqcheck"))


def write(make, paths):
    """Writes the texts in a process of its own: a child's peak memory begins with its parent's."""
    writer = os.fork()
    if writer == 0:
        for path, text in zip(paths, make()):
            if text is not None:
                with open(path, "w", encoding="latin-1", newline="") as file:
                    file.write(text)
        os._exit(0)
    os.waitpid(writer, 0)


def run(command):
    """What a command wrote, its status, its seconds and its peak memory in KB."""
    started = time.perf_counter()
    process = subprocess.Popen(command, stdout=subprocess.PIPE, stderr=subprocess.DEVNULL)
    answer = process.stdout.read().decode().strip()
    _, status, usage = os.wait4(process.pid, 0)
    process.returncode = os.waitstatus_to_exitcode(status)
    return answer, process.returncode, time.perf_counter() - started, usage.ru_maxrss


def instructions(folder, command):
    """How many instructions a command takes, by callgrind."""
    counts = os.path.join(folder, "callgrind")
    run(["valgrind", "--tool=callgrind", f"--callgrind-out-file={counts}", *command])
    with open(counts, encoding="ascii") as file:
        return int(re.search(r"^(?:summary|totals): (\d+)", file.read(), re.MULTILINE).group(1))


def measure(folder, make, beside, counts):
    paths = [os.path.join(folder, kind) for kind in ("formula", "certificate")]
    write(make, paths)
    size = sum(os.path.getsize(path) for path in paths if os.path.exists(path))
    answer, status, seconds, peak = run([CHECKER, *paths])
    if counts:
        cost = instructions(folder, [CHECKER, *paths])
        line = f"{make.__name__:24} {size / MEGABYTE:8.1f} MB {cost / 1_000_000:10.1f} million instructions"
    else:
        cost = seconds
        line = (
            f"{make.__name__:24} {size / MEGABYTE:8.1f} MB {seconds:8.2f} s {size / MEGABYTE / seconds:8.1f} MB/s"
            f" {peak / 1000:8.0f} MB peak"
        )
    line += f"   {status} {answer[:60]}"
    if beside:
        other, other_status, other_seconds, _ = run([beside, *paths])
        other_cost = instructions(folder, [beside, *paths]) if counts else other_seconds
        line += f"   {cost / other_cost:.2f} times" + ("" if other_status == status else f", which said {other[:60]}")
    print(line, flush=True)
    for path in paths:
        if os.path.exists(path):
            os.remove(path)


def main():
    parser = argparse.ArgumentParser(description="measures the built checker on large inputs")
    parser.add_argument("--beside", metavar="PROGRAM", help="another checker, on the same inputs")
    parser.add_argument("--instructions", action="store_true", help="count instructions in place of seconds")
    parser.add_argument("names", nargs="*", metavar="NAME", help="what the measurements' names contain")
    words = parser.parse_args()
    if not os.path.exists(CHECKER):
        sys.exit(f"{CHECKER} isn't built: run `rt run` in crates/dqcheck, or `rt ci` at the top")
    with tempfile.TemporaryDirectory() as folder:
        for make in INPUTS:
            if not words.names or any(name in make.__name__ for name in words.names):
                measure(folder, make, words.beside, words.instructions)


if __name__ == "__main__":
    main()
