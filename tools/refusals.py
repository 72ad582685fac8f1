"""What the names of refusals stand for, out of the table at the end of docs/FORMATS.md."""

import os
import re

PAGE = os.path.join(os.path.dirname(os.path.dirname(os.path.abspath(__file__))), "docs", "FORMATS.md")


def sentences(kind):
    """For each name of a refusal of a formula, or of a certificate, what it says and what it mostly is."""
    with open(PAGE, encoding="utf-8") as page:
        rows = re.findall(rf"^\| {kind} \| (\w+) \| (.+) \| (.+) \|$", page.read(), re.MULTILINE)
    return {name: f"{says}. Mostly: {mostly}." for name, says, mostly in rows}


def at_start(text, name):
    """What the first bytes of a text tell where its header is refused; None where they tell nothing."""
    if name not in ("NoHeader", "BadHeader"):
        return None
    tokens = text[:200].split()
    if text.startswith((b"\x1f\x8b", b"BZh", b"\xfd7zXZ", b"\x28\xb5\x2f\xfd")):
        return "The file is compressed: unpack it first."
    if text.startswith(b"\xef\xbb\xbf"):
        return "The file begins with a byte order mark: take its first three bytes away."
    if tokens[:2] == [b"p", b"qcnf"] or tokens[:2] == [b"p", b"dqcnf"]:
        return "The header's second word is `cnf`."
    if tokens[:1] == [b"aig"]:
        return "A binary circuit has M = I + A; `pec` and `encode` take ASCII alone, which `aigtoaig -a` writes."
    if tokens[:2] == [b"s", b"SATISFIABLE"] or tokens[:2] == [b"s", b"UNSATISFIABLE"]:
        return "The line `s` says TRUE or FALSE here."
    if tokens[:2] == [b"s", b"cnf"]:
        return "A line `s cnf ..` says a verdict without a certificate."
    return None if tokens else "The file is empty."
