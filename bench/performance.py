#!/usr/bin/env python3
"""Measures what docs/PERFORMANCE.md tells, and writes it into the page: behind each line `<!-- made by COMMAND -->` up to the
next `<!-- end -->` stands what the command printed, and behind `<!-- measured -->` the date, the commit and the machine.

Usage: bench/performance.py [--list] [WORD..]     all commands, or those that contain a WORD

Words of a command such as $CHECKER and $SOLVER are variables of the environment, other programs that these are measured
beside; a command whose variable isn't set stays as it was, and is told. The variables DQSOLVE and DQCHECK name the
programs that are measured. A command that ends with another status than 0 leaves its part, and the script ends with 1.
"""
import argparse
import datetime
import os
import re
import subprocess
import sys

TOP = os.path.dirname(os.path.dirname(os.path.abspath(__file__)))
PAGE = os.path.join(TOP, "docs", "PERFORMANCE.md")
PART = re.compile(r"(<!-- made by (.+?) -->\n).*?(<!-- end -->)", re.S)
MEASURED = re.compile(r"(<!-- measured -->\n).*?(<!-- end -->)", re.S)


def output_of(command):
    """What a command prints, or None where it failed."""
    words = [os.environ[word[1:]] if word.startswith("$") else word for word in command.split()]
    ran = subprocess.run([sys.executable, os.path.join(TOP, words[0]), *words[1:]], cwd=TOP, capture_output=True, text=True)
    if ran.returncode:
        print(f"{command}: status {ran.returncode}\n{ran.stdout[-2000:]}{ran.stderr[-2000:]}", file=sys.stderr)
        return None
    return ran.stdout


def lacking(command):
    return [word for word in command.split() if word.startswith("$") and word[1:] not in os.environ]


def machine():
    """Processors and what they are called."""
    with open("/proc/cpuinfo", encoding="utf-8") as file:
        names = re.findall(r"^model name\s*: (.*)$", file.read(), re.M)
    return f"{len(names)} processors, {names[0]}" if names else f"{os.cpu_count()} processors"


def measured():
    commit = subprocess.run(["git", "rev-parse", "--short", "HEAD"], cwd=TOP, capture_output=True, text=True).stdout.strip()
    return f"Measured on {datetime.date.today().isoformat()}, commit {commit}, {machine()}.\n"


def main():
    parser = argparse.ArgumentParser(description="measures what docs/PERFORMANCE.md tells, and writes it there")
    parser.add_argument("--list", action="store_true", help="print the commands")
    parser.add_argument("words", nargs="*", metavar="WORD", help="what a command contains")
    given = parser.parse_args()
    failed = []

    def made(part):
        command = part[2]
        if given.words and not any(word in command for word in given.words):
            return part[0]
        if given.list or lacking(command):
            print(command + (f"   ({', '.join(lacking(command))} isn't set)" if lacking(command) else ""), flush=True)
            return part[0]
        printed = output_of(command)
        if printed is None:
            failed.append(command)
            return part[0]
        print(f"{command}: {printed.count(chr(10))} lines", flush=True)
        return f"{part[1]}```text\n{printed.rstrip()}\n```\n{part[3]}"

    with open(PAGE, encoding="utf-8") as file:
        page = file.read()
    page = PART.sub(made, page)
    if not given.list:
        with open(PAGE, "w", encoding="utf-8") as file:
            file.write(MEASURED.sub(lambda part: part[1] + measured() + part[2], page))
    return 1 if failed else 0


if __name__ == "__main__":
    sys.exit(main())
