#!/usr/bin/env python3
"""Writes a manual page, made of the repository's own pages: of dqsolve and dqcheck from the tables of docs/SOLVING.md and README.md, of a script
from what stands at its head.

Usage: tools/manual.py NAME VERSION > NAME.1     NAME is dqsolve, dqcheck, or a script's without its ending
       tools/manual.py --completion              bash completion of the programs and scripts
"""

from __future__ import annotations

import ast
import os
import re
import subprocess
import sys
from typing import List, Tuple

TOP = os.path.dirname(os.path.dirname(os.path.abspath(__file__)))
SCRIPTS = ("batch", "control", "decide", "explain", "fill", "fill_boxes", "prove_circuit", "refute", "session", "verilog")
COMMANDS = ("solve", "demo", "pec", "encode", "defined", "session")
PROGRAMS = {
    "dqsolve": ("decides a dependency quantified Boolean formula, with a certificate", "docs/SOLVING.md", "| Status | Text | Meaning |"),
    "dqcheck": ("judges a formula and a certificate", "README.md", "| Status | Line | Meaning |"),
}


def text_of(path: str) -> str:
    with open(os.path.join(TOP, path), encoding="utf-8") as file:
        return file.read()


def roff(text: str) -> str:
    """A text as roff shows it word for word; code and links lose their marks."""
    plain = re.sub(r"\*+([^*\n]+)\*+", r"\1", re.sub(r"\[([^]]*)\]\([^)]*\)", r"\1", text))
    escaped = plain.replace("\\", "\\e").replace("-", "\\-").replace("`", "")
    return "\n".join("\\&" + line if line[:1] in ".'" else line for line in escaped.split("\n"))


def statuses(page: str, head: str) -> List[Tuple[str, str, str]]:
    """The rows of a table of a page, by its head line."""
    rows = []
    for line in text_of(page).split(head + "\n", 1)[1].split("\n")[1:]:
        if not line.startswith("|"):
            break
        _, status, text, meaning, _ = map(str.strip, line.split("|"))
        if "./" not in meaning:  # what the launcher alone says
            rows.append((status, text, meaning))
    return rows


def usage_of(program: str) -> str:
    """A program's usage line, which its launcher takes from the sources."""
    done = subprocess.run([os.path.join(TOP, program), "--help"], stdout=subprocess.PIPE, stderr=subprocess.STDOUT, text=True, check=False)
    return done.stdout.strip().split("usage: ", 1)[1]


def program_page(program: str) -> List[str]:
    summary, page, head = PROGRAMS[program]
    lines = [".SH NAME", roff(f"{program} - {summary}"), ".SH SYNOPSIS"]
    for usage in usage_of(program).split(" / "):
        lines += [roff(usage), ".br"]
    body = text_of(page)
    if program == "dqsolve":
        body = body.split("\n\n")[1] + "\n\n" + body.split(head)[1].split("\n\n", 1)[1].split("## The way")[0]
    else:
        body = body.split("## Input")[1].split("The checker writes a line")[0]
    lines += [".SH DESCRIPTION"]
    for paragraph in body.strip().split("\n\n"):
        lines += [".PP", *([".nf", roff(paragraph), ".fi"] if paragraph.startswith("    ") else [roff(paragraph)])]
    lines += [".SH EXIT STATUS"]
    for status, text, meaning in statuses(page, head):
        lines += [".TP", f".B {roff(status)}", roff(": ".join(filter(None, (text, meaning))))]
    return lines


def script_page(script: str) -> List[str]:
    said = ast.get_docstring(ast.parse(text_of(f"tools/{script}.py"))) or ""
    first = re.split(r"(?<=[.:])\s", re.sub(rf"^{script}\.py[^:]*: ", "", said.replace("\n", " ")))[0]
    said = said.replace(f"tools/{script}.py", f"sapuendy-{script}").replace(f"{script}.py", f"sapuendy-{script}")
    summary = first.rstrip(".:")
    return [".SH NAME", roff(f"sapuendy-{script} - {summary}"), ".SH DESCRIPTION", ".nf", roff(said), ".fi"]


def page_of(name: str, version: str) -> str:
    lines = program_page(name) if name in PROGRAMS else script_page(name)
    title = name if name in PROGRAMS else f"sapuendy-{name}"
    other = ".SH SEE ALSO\nThe pages in share/sapuendy; dqsolve(1), dqcheck(1)"
    return "\n".join([f'.TH {title.upper()} 1 "" "{version}" "Sapuendy"', *lines, other]) + "\n"


def completion() -> str:
    """Commands of dqsolve, and files."""
    scripts = " ".join(f"sapuendy-{script}" for script in SCRIPTS)
    return f"""# Completes the commands of dqsolve, and files.
_dqsolve() {{
  local word=${{COMP_WORDS[COMP_CWORD]}}
  if [ "$COMP_CWORD" = 1 ]; then
    mapfile -t COMPREPLY < <(compgen -W "{' '.join(COMMANDS)}" -- "$word")
  elif [ "${{word:0:2}}" = -- ]; then
    mapfile -t COMPREPLY < <(compgen -W "--steps --bare --v2 --prep --binary" -- "$word")
  fi
}}
complete -o default -F _dqsolve dqsolve
complete -o default dqcheck {scripts}
"""


def main(words: List[str]) -> int:
    if words == ["--completion"]:
        sys.stdout.write(completion())
        return 0
    if len(words) != 2 or words[0] not in (*PROGRAMS, *SCRIPTS):
        print((__doc__ or "").strip(), file=sys.stderr)
        return 1
    sys.stdout.write(page_of(*words))
    return 0


if __name__ == "__main__":
    sys.exit(main(sys.argv[1:]))
