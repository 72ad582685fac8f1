#!/usr/bin/env python3
"""Writes the list of crates in docs/ARCHITECTURE.md, or tells that it differs.

The crates and what they stand on come from crates.txt, whose comments `# HEAD: what it is` part it
into layers; what a crate does is the first paragraph of its lib.rt or main.rt. The list stands
between the lines `<!-- crates -->` and `<!-- end of crates -->`.

Usage, from the repository's root:  tools/crates.py [--check]
"""
import pathlib
import sys
import textwrap

ROOT = pathlib.Path(__file__).resolve().parent.parent
BEGIN, END = "<!-- crates -->\n", "<!-- end of crates -->\n"
WIDTH = 118


def layers():
    """The layers of crates.txt: a head, what it is, and its crates with what each stands on."""
    found = []
    for line in (ROOT / "crates.txt").read_text().splitlines():
        if line.startswith("# ") and ": " in line and line[2].isupper() and not line.startswith("# NAME"):
            head, text = line[2:].split(": ", 1)
            found.append((head, text, []))
        elif line and not line.startswith("#"):
            name, below = line.split(":", 1)
            found[-1][2].append((name, below.split()))
    return found


def does(name):
    """What a crate does: the first paragraph of its root file."""
    source = ROOT / "crates" / name / "src"
    root = source / "lib.rt" if (source / "lib.rt").exists() else source / "main.rt"
    words = []
    for line in root.read_text().splitlines():
        if not line.startswith("//! "):
            break
        words += line[4:].split()
    return " ".join(words)


def depths(crates):
    """How many crates of the repository stand below each one in its longest chain."""
    below, depth = dict(crates), {}

    def depth_of(name):
        if name not in depth:
            depth[name] = 1 + max((depth_of(it) for it in below[name] if it in below), default=-1)
        return depth[name]

    return {name: depth_of(name) for name in below}


def reach(crates):
    """All crates below each one."""
    below, found = dict(crates), {}

    def reached(name):
        if name not in found:
            names = [it for it in below[name] if it in below]
            found[name] = set(names).union(*map(reached, names))
        return found[name]

    return {name: reached(name) for name in below}


def own(names, reached):
    """Those of the names that stand below none of the others."""
    return [name for name in names if not any(name in reached.get(other, ()) for other in names)]


def architecture():
    """Each layer's crates, with what each does, what it adds to what these stand on, and how long the chain below it is."""
    all_crates = [crate for _, _, crates in layers() for crate in crates]
    depth, reached, ours, lines = depths(all_crates), reach(all_crates), dict(all_crates), []
    for head, text, crates in layers():
        lines += ["", f"{head}: {text}", ""]
        for name, below in crates:
            over = ", ".join(own([it for it in below if it in ours], reached)) or "nothing here"
            kit = ", ".join(it for it in below if it not in ours)
            stands = f"Over {over}" + (f"; of the kit {kit}" if kit else "") + "."
            said = f"{does(name)} {stands}"
            first = f"    {depth[name]:2} {name:22}"
            lines += textwrap.wrap(said, WIDTH, initial_indent=first, subsequent_indent=" " * len(first), break_on_hyphens=False)
    return "\n".join(lines[1:]) + "\n"


def main():
    if sys.argv[1:] == ["--help"]:
        print(__doc__.strip())
        return 0
    check, differ = sys.argv[1:] == ["--check"], False
    if sys.argv[1:] not in ([], ["--check"]):
        sys.exit(__doc__)
    path = ROOT / "docs" / "ARCHITECTURE.md"
    old = path.read_text()
    if BEGIN not in old or END not in old:
        sys.exit("crates.py: docs/ARCHITECTURE.md has no place for its list of crates")
    front, rest = old.split(BEGIN, 1)
    new = front + BEGIN + "\n" + architecture() + "\n" + END + rest.split(END, 1)[1]
    if new != old:
        differ = True
        print(f"crates.py: docs/ARCHITECTURE.md {'differs' if check else 'is written anew'}")
        if not check:
            path.write_text(new)
    sys.exit(1 if check and differ else 0)


if __name__ == "__main__":
    main()
