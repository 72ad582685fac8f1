"""Measures the built checker on a proof that memory isn't to hold: each line takes the one before as its only hint, and that
is then deleted, but for one in so many, which stays to the end.

    python3 bench/streams.py [--form dqr|aag|aig] [--megabytes N] [--keep N] [--folder FOLDER]

The proof is a refutation, or a circuit's in AIGER's ASCII or binary form. It writes the texts into a folder of its own,
tells the checker's time and peak memory and the time of `wc -l` on the same file, and takes them away."""

import argparse
import os
import subprocess
import sys
import tempfile
import time

TOP = os.path.dirname(os.path.dirname(os.path.abspath(__file__)))
CHECKER = os.environ.get("DQCHECK", os.path.join(TOP, "crates", "dqcheck", "out", "dqcheck"))
MEGABYTE = 1_000_000

EXISTENTIALS = range(2, 12)
PREFIX = ["p cnf 11 2\n", "a 1 0\n", *(f"d {existential} 1 0\n" for existential in EXISTENTIALS)]


class Refutation:
    """Two unit clauses on the first of ten existentials; under one row they have the ids 1 and 2."""

    formula = [*PREFIX, "2 0\n", "-2 0\n"]
    head, behind_count = b"p dqr2 1 ", b"\nu 1 0\n"
    literals = " ".join(map(str, EXISTENTIALS))
    first, first_hint, last_kept = 3, 1, 2
    begin = []

    @staticmethod
    def end(id, hint):
        return [f"{id} {' '.join(map(str, EXISTENTIALS[1:]))} 0 {hint} 2 0\n", f"{id + 1} 0 1 2 0\n"]


class Circuit:
    """Ten outputs that are one gate, the AND of the universal with itself, and two clauses: the first existential is the
    universal. Gate and clauses have the ids 1 to 7, that one of the clauses is false has 8; that they aren't 9 and 10."""

    formula = [*PREFIX, "2 -1 0\n", "-2 1 0\n"]
    literals = "-3 1 2"
    first, first_hint, last_kept = 11, 9, 10
    begin = ["9 -3 0 5 3 4 0\n", "10 -4 0 6 1 7 0\n"]
    behind_count = b"\n"

    def __init__(self, counts, gate):
        outputs = len(EXISTENTIALS) * b"4\n"
        self.head = counts.replace(b"OUTPUTS", outputs) + gate + b"c\ndqp2 "

    @staticmethod
    def end(id, hint):
        return [f"{id} 0 9 10 8 0\n"]


FORMS = {
    "dqr": Refutation(),
    "aag": Circuit(b"aag 2 1 0 10 1\n2\nOUTPUTS", b"4 2 2\n"),
    "aig": Circuit(b"aig 2 1 0 10 1\nOUTPUTS", bytes([2, 0])),
}


def blocks(form, wanted, keep):
    """The lines of a proof of so many bytes in blocks, and how many lines each has."""
    yield "".join(form.begin), len(form.begin)
    written, id, hint = 0, form.first, form.first_hint
    while written < wanted:
        lines = []
        for _ in range(10_000):
            lines.append(f"{id} {form.literals} 0 {hint} 0\n")
            if hint > form.last_kept and hint % keep:
                lines.append(f"d {hint} 0\n")
            id, hint = id + 1, id
        block = "".join(lines)
        written += len(block)
        yield block, len(lines)
    end = form.end(id, hint)
    yield "".join(end), len(end)


def write(form, formula, certificate, wanted, keep):
    with open(formula, "w", encoding="ascii", newline="") as file:
        file.write("".join(form.formula))
    count = 0
    with open(certificate, "wb") as file:
        file.write(form.head + 12 * b" " + form.behind_count)
        for block, lines in blocks(form, wanted, keep):
            file.write(block.encode())
            count += lines
        file.seek(len(form.head))
        file.write(str(count).encode())


def run(command):
    """What a command wrote, its seconds and its peak memory in KB."""
    started = time.perf_counter()
    process = subprocess.Popen(command, stdout=subprocess.PIPE)
    answer = process.stdout.read().decode().strip()
    _, status, usage = os.wait4(process.pid, 0)
    process.returncode = os.waitstatus_to_exitcode(status)
    return answer, time.perf_counter() - started, usage.ru_maxrss


def tell(name, size, seconds, peak, answer):
    print(
        f"{name:8} {size / MEGABYTE:8.1f} MB {seconds:8.2f} s {size / MEGABYTE / seconds:8.1f} MB/s"
        f" {peak / 1000:8.1f} MB peak   {answer}",
        flush=True,
    )


def main():
    parser = argparse.ArgumentParser(description="measures the built checker on a proof that deletes its lines")
    parser.add_argument("--form", choices=FORMS, default="dqr", help="a refutation, or a circuit's proof in one of two forms")
    parser.add_argument("--megabytes", type=int, default=1_000, help="how long the certificate is")
    parser.add_argument("--keep", type=int, default=10_000, help="one line in so many isn't deleted")
    parser.add_argument("--folder", help="where the texts are written")
    words = parser.parse_args()
    if not os.path.exists(CHECKER):
        sys.exit(f"{CHECKER} isn't built: run `rt run` in crates/dqcheck, or `rt ci` at the top")
    with tempfile.TemporaryDirectory(dir=words.folder) as folder:
        formula, certificate = (os.path.join(folder, kind) for kind in ("formula", "certificate"))
        # A process of its own, since a child's peak memory begins with its parent's.
        writer = os.fork()
        if writer == 0:
            write(FORMS[words.form], formula, certificate, words.megabytes * MEGABYTE, words.keep)
            os._exit(0)
        os.waitpid(writer, 0)
        size = os.path.getsize(certificate)
        for name, command in (("dqcheck", [CHECKER, formula, certificate]), ("wc -l", ["wc", "-l", certificate])):
            answer, seconds, peak = run(command)
            tell(name, size, seconds, peak, answer)


if __name__ == "__main__":
    main()
