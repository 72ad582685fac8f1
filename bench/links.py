#!/usr/bin/env python3
"""links.py: tells links of the pages that lead nowhere, file names that no file has, crates that there aren't, and pictures that
aren't there. Ends with 1 where it tells something.

A file's name is what stands in backquotes and ends like one of the repository's files; it may leave out the folders that the text
around it names. Names in capitals (FILE, CERT) are the reader's own.
"""
import os
import re
import subprocess
import sys

TOP = os.path.dirname(os.path.dirname(os.path.abspath(__file__)))
LINK = re.compile(r"!?\[[^\]]*\]\(([^)#\s]*)(?:#([^)\s]*))?\)")
NAMED = re.compile(r"`([\w./-]+\.(?:rt|antt|py|sh|md|svg|edit|v|aag|aig|dqdimacs|txt|script))`")
CRATE = re.compile(r"`crates/(\w+)[/`]")
# What commands of the pages make, or a designer's own files are called.
MADE = {"filled.v", "controller.v", "run.vcd", "closed.aag", "invariant.aag", "circuits/spec.aag", "circuits/impl.aag"}


def files():
    """The repository's files, those that aren't committed yet too."""
    listed = subprocess.run(["git", "ls-files", "-co", "--exclude-standard"], cwd=TOP, capture_output=True, text=True, check=True).stdout
    return [name for name in listed.split("\n") if name and os.path.exists(os.path.join(TOP, name))]


def anchors(path):
    """A page's headings as links name them."""
    with open(path, encoding="utf-8") as file:
        headings = re.findall(r"^#+ (.*)$", file.read(), re.M)
    return {re.sub(r"[^\w\- ]", "", heading.lower()).replace(" ", "-") for heading in headings}


def wrong_links(page, text):
    here = os.path.dirname(os.path.join(TOP, page))
    for target, anchor in LINK.findall(text):
        if re.match(r"https?:", target):
            continue
        path = os.path.normpath(os.path.join(here, target)) if target else os.path.join(TOP, page)
        if not os.path.exists(path):
            yield f"{page}: {target} leads nowhere"
        elif anchor and anchor not in anchors(path):
            yield f"{page}: {target} has no heading {anchor}"


def wrong_names(page, text, names):
    for name in NAMED.findall(text):
        own = re.search(r"[A-Z]{2}|^\.|/tmp", os.path.basename(name).split(".")[0]) and not name.endswith(".md")
        if not own and name not in MADE and "NAME" not in name and not any(f"/{found}".endswith(f"/{name}") for found in names):
            yield f"{page}: no file is called {name}"
    crates = {name.split("/")[1] for name in names if name.startswith("crates/")}
    for crate in CRATE.findall(text):
        if crate != "NAME" and crate not in crates:
            yield f"{page}: there is no crate {crate}"


def differences():
    names = files()
    for page in names:
        if page.endswith(".md") and "/must-fail/" not in page:
            with open(os.path.join(TOP, page), encoding="utf-8") as file:
                text = file.read()
            yield from wrong_links(page, text)
            yield from wrong_names(page, text, names)


def main():
    found = list(differences())
    print("\n".join([*found, f"{len(found)} differences"]))
    return 1 if found else 0


if __name__ == "__main__":
    sys.exit(main())
