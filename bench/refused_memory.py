#!/usr/bin/env python3
"""Runs the built programs with each of their allocations refused in turn, the first, the second and so on, and compares what they end with:
status 5 and nothing written, or what they end with where nothing is refused. Prints each difference, and for each run how many
allocations there were and how many of their refusals ended it. The allocations are those that the C library is asked for; a library of a
few lines, which gcc makes, stands before it.

Usage: bench/refused_memory.py

The last run is that of the program of cases for the solver that engines share, on two groups that contradict each other: it makes
each call again that was refused memory, so that all searches answer as without a refusal, or it ends at an allocation of its own.

The variables DQCHECK, DQSOLVE and ENGINE_CASES name the programs.
"""

import os
import subprocess
import sys
import tempfile

from bench import CHECKER, TOP
from decisions import SOLVER

BEFORE_THE_LIBRARY = """
#define _GNU_SOURCE
#include <dlfcn.h>
#include <stdio.h>
#include <stdlib.h>

static long made, refused_one = -1;

static int is_refused(void) {
    if (refused_one < 0) {
        const char *word = getenv("REFUSED_ALLOCATION");
        refused_one = word ? atol(word) : 0;
    }
    return ++made == refused_one;
}

typedef void *(*Malloc)(size_t);
typedef void *(*Realloc)(void *, size_t);
typedef void *(*Aligned)(size_t, size_t);
typedef int (*Memalign)(void **, size_t, size_t);

void *malloc(size_t n) {
    static Malloc real;
    if (!real) real = (Malloc) dlsym(RTLD_NEXT, "malloc");
    return is_refused() ? NULL : real(n);
}

void *realloc(void *p, size_t n) {
    static Realloc real;
    if (!real) real = (Realloc) dlsym(RTLD_NEXT, "realloc");
    return is_refused() ? NULL : real(p, n);
}

void *aligned_alloc(size_t a, size_t n) {
    static Aligned real;
    if (!real) real = (Aligned) dlsym(RTLD_NEXT, "aligned_alloc");
    return is_refused() ? NULL : real(a, n);
}

int posix_memalign(void **p, size_t a, size_t n) {
    static Memalign real;
    if (!real) real = (Memalign) dlsym(RTLD_NEXT, "posix_memalign");
    return is_refused() ? 12 : real(p, a, n);
}

__attribute__((destructor)) static void tell(void) {
    const char *path = getenv("ALLOCATIONS");
    FILE *file = path ? fopen(path, "w") : NULL;
    if (file) {
        fprintf(file, "%ld", made);
        fclose(file);
    }
}
"""

FILES = {
    "copies": "p cnf 4 4\na 1 2 0\nd 3 1 0\nd 4 2 0\n3 -1 0\n-3 1 0\n4 -2 0\n-4 2 0\n",
    "circuit": "aag 2 2 0 2 0\n2\n4\n2\n4\n",
    "xor": "p cnf 4 4\na 1 2 0\nd 3 1 0\nd 4 1 2 0\n-4 3 2 0\n-4 -3 -2 0\n4 -3 2 0\n4 3 -2 0\n",
    "definitions": "p dqd 2\nf 3\nu -1 -2 0\nv -3 -4 0\nu -1 -2 0\nv 3 4 0\n"
    "t 4 15 3 4\n10 6 5\n12 7 4\n14 11 13\n"
    "16 -4 3 0 15 12 1 10 0\n17 -4 0 16 2 15 11 7 0\n18 5 0 17 14 13 8 9 4 0\n19 0 17 18 5 6 3 0\n",
    "no-clause": "p cnf 2 0\na 1 0\nd 2 1 0\n",
    "split-conjunction": "p cnf 4 6\na 1 2 0\nd 3 1 0\nd 4 2 0\n-1 -2 3 4 0\n-1 -2 -3 -4 0\n1 -3 4 0\n1 3 -4 0\n2 -3 4 0\n2 3 -4 0\n",
    "spec": "aag 3 2 0 1 1\n2\n4\n6\n6 4 2\n",
    "engines": "",
    "solver": "new 100\ngroup\ngroup\nvar\nadd 1 3\nadd 2 -3\nsolve one | 1 |\nsolve the other | 2 |\nsolve both | 1 2 |\nsolve one again | 1 |\n",
    "script": "solve\npush\nadd -4 2 0\nsolve\nadd 4 -2 0\nadd 3 0\nsolve\npop\nsolve\n",
    "imp": "aag 3 3 0 1 0\n2\n4\n6\n6\nc\npec 1\n2 1 2 4 6\n",
}

# The program, its words, and the status where nothing is refused.
RUNS = (
    ("DQCHECK", ["copies", "circuit"], 0),
    ("DQCHECK", ["xor", "definitions"], 0),
    ("DQSOLVE", ["solve", "--steps", "1", "no-clause"], 10),
    ("DQSOLVE", ["solve", "split-conjunction"], 20),
    ("DQSOLVE", ["pec", "spec", "imp"], 10),
    ("DQSOLVE", ["encode", "spec", "imp"], 0),
    ("DQSOLVE", ["session", "split-conjunction", "script"], 0),
    ("DQSOLVE", ["session", "copies", "script"], 0),
    ("ENGINE_CASES", [], 0),
)


class Runs:
    """Runs in a folder that has the files and the library."""

    def __init__(self, folder):
        self.folder = folder
        cases = os.path.join(TOP, "crates", "engine_cases", "out", "engine_cases")
        self.programs = {"DQCHECK": CHECKER, "DQSOLVE": SOLVER, "ENGINE_CASES": os.environ.get("ENGINE_CASES", cases)}
        for name, text in FILES.items():
            with open(os.path.join(folder, name), "w", encoding="ascii") as file:
                file.write(text)
        source, self.library = os.path.join(folder, "before.c"), os.path.join(folder, "before.so")
        with open(source, "w", encoding="ascii") as file:
            file.write(BEFORE_THE_LIBRARY)
        subprocess.run(["gcc", "-shared", "-fPIC", "-O1", "-o", self.library, source, "-ldl"], check=True)

    def run(self, program, words, refused):
        """The status and the text, where this allocation is refused, none if it is 0."""
        told = {"LD_PRELOAD": self.library, "REFUSED_ALLOCATION": str(refused), "ALLOCATIONS": os.path.join(self.folder, "count")}
        done = subprocess.run([self.programs[program], *words], cwd=self.folder, env=os.environ | told, stdout=subprocess.PIPE, stderr=subprocess.DEVNULL, check=False)
        return done.returncode, done.stdout

    def count(self):
        with open(os.path.join(self.folder, "count"), encoding="ascii") as file:
            return int(file.read())

    def compare(self, program, words, status):
        """How many differences there are."""
        due = self.run(program, words, 0)
        allocations, ended, differences = self.count(), 0, 0
        if due[0] != status:
            print(f"{' '.join(words)}: status {due[0]} in place of {status}")
            return 1
        for refused in range(1, allocations + 1):
            found = self.run(program, words, refused)
            is_end = found == (5, b"") or program == "ENGINE_CASES" and found[0] != 0 and due[1].startswith(found[1])
            ended += is_end
            if found != due and not is_end:
                print(f"{' '.join(words)}, allocation {refused} refused: {found}")
                differences += 1
        print(f"{program.lower()} {' '.join(words)}: {allocations} allocations, {ended} refusals ended the run")
        return differences


def main():
    if sys.argv[1:]:
        print(__doc__.strip())
        return 0 if sys.argv[1:] == ["--help"] else 1
    with tempfile.TemporaryDirectory() as folder:
        runs = Runs(folder)
        differences = sum(runs.compare(*run) for run in RUNS)
    print(f"{differences} differences")
    return 1 if differences else 0


if __name__ == "__main__":
    sys.exit(main())
