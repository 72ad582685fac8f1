#!/usr/bin/env python3
"""proof_times.py CRATE [COUNT]: which functions of a crate took longest to prove.

It reads when each module was written that the last `rt check` of the crate kept, so it tells of a check from nothing (remove
crates/CRATE/out before it) by one job (`rt check --jobs 1`), and of seconds by the clock. A function's modules are added up:
`Lts` is its code as the prover sees it, which grows with the values that it owns at each `?`; `Proof` its goals.
"""
import os
import re
import sys
from collections import defaultdict

TOP = os.path.dirname(os.path.dirname(os.path.abspath(__file__)))


def kept_modules(crate):
    """When each module was written, and its name without the library's, the earliest first."""
    found = []
    for folder, _, names in os.walk(f"{TOP}/crates/{crate}/out/incremental"):
        if not folder.endswith("records"):
            for name in names:
                if name.endswith(".oantt"):
                    written = os.stat(f"{folder}/{name}").st_mtime
                    found.append((written, re.sub(r"^Rattle-\w+-", "", name.removesuffix(".oantt"))))
    return sorted(found)


def main(words):
    if not 1 <= len(words) <= 2 or words[0].startswith("-"):
        print(__doc__.strip())
        return 0 if words == ["--help"] else 1
    modules, count = kept_modules(words[0]), int(words[1]) if len(words) == 2 else 20
    if not modules:
        print(f"proof_times.py: no check of {words[0]} was kept", file=sys.stderr)
        return 1
    by_function, by_part = defaultdict(float), defaultdict(float)
    last = modules[0][0]
    for written, name in modules:
        function, _, part = name.rpartition(".")
        by_function[function or name] += written - last
        by_part[part] += written - last
        last = written
    print(f"{last - modules[0][0]:7.1f}  in all; code {by_part['Lts']:.0f}, goals {by_part['Proof']:.0f}")
    for function, seconds in sorted(by_function.items(), key=lambda it: -it[1])[:count]:
        print(f"{seconds:7.1f}  {function}")
    return 0


if __name__ == "__main__":
    sys.exit(main(sys.argv[1:]))
