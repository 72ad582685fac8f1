"""Judges every certificate of the checker's cases again while it comes in pieces of 1, 2, 3, 7 and 64 bytes, through a
pipe whose reads end where its writes do, and compares status and line with those of the whole file.

    python3 bench/cuts.py"""

import os
import re
import subprocess
import sys
import tempfile

from bench import CHECKER, TOP

SIZES = (1, 2, 3, 7, 64)


def text_of(spelled):
    """A text as run_cases spells it in a line (`run_cases/src/tables.rt`)."""
    lines = spelled.removesuffix("\\").replace(" / ", "\n") + ("" if spelled.endswith("\\") else "\n")
    text = lines.replace("\\r", "\r").encode()
    return re.sub(rb"\\x([0-9a-f]{2})", lambda digits: bytes([int(digits.group(1), 16)]), text)


def cases():
    """Name, formula and certificate of each run of the checker."""
    texts = {}
    with open(os.path.join(TOP, "crates", "run_cases", "data", "dqcheck"), encoding="utf-8") as file:
        for line in file:
            word, _, rest = line.rstrip("\n").partition(" ")
            if word == "absent":
                texts = {}
            elif word in ("formula", "certificate"):
                texts[word] = text_of(rest)
            elif word == "run" and len(texts) == 2:
                yield rest, texts["formula"], texts["certificate"]


def judged(formula, certificate):
    """The checker's status and line."""
    done = subprocess.run([CHECKER, formula, certificate], stdout=subprocess.PIPE, pass_fds=(), check=False)
    return done.returncode, done.stdout


def judged_in_pieces(formula, text, size):
    """The same of a certificate that comes so many bytes a read: a pipe in packet mode keeps its writes apart."""
    reading, writing = os.pipe2(os.O_DIRECT)
    command = [CHECKER, formula, f"/dev/fd/{reading}"]
    process = subprocess.Popen(command, stdout=subprocess.PIPE, pass_fds=(reading,))
    os.close(reading)
    try:
        for place in range(0, len(text), size):
            os.write(writing, text[place : place + size])
    except BrokenPipeError:
        pass
    os.close(writing)
    line = process.stdout.read()
    return process.wait(), line


def main():
    if not os.path.exists(CHECKER):
        sys.exit(f"{CHECKER} isn't built: run `rt run` in crates/dqcheck, or `rt ci` at the top")
    count, different = 0, 0
    with tempfile.TemporaryDirectory() as folder:
        formula, certificate = (os.path.join(folder, kind) for kind in ("formula", "certificate"))
        for name, formula_text, text in cases():
            for path, content in ((formula, formula_text), (certificate, text)):
                with open(path, "wb") as file:
                    file.write(content)
            whole = judged(formula, certificate)
            for size in SIZES:
                count += 1
                pieces = judged_in_pieces(formula, text, size)
                if pieces != whole:
                    different += 1
                    print(f"{name}, by {size} bytes: {pieces} in place of {whole}")
    print(f"{count} readings, {different} differ")
    sys.exit(1 if different else 0)


if __name__ == "__main__":
    main()
