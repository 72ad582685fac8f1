#!/usr/bin/env python3
"""believed.py [CLAUSE..]: which definitions somebody has to believe who relies on a clause.

A clause is `CRATE::FUNCTION.CLAUSE`, of a public function's contract, or `CRATE::DEFINITION`; behind a record's name
`.FIELD,FIELD` asks for these fields alone. From there names are followed through all of `crates/*/specs` and the types that they
name, to std and the kit's crates, and each definition that is reached is printed with its file and its lines, without
blanks, comments and imports. Without a clause the questions of docs/PROVED.md are asked, and the table that stands there
is printed, which bench/pages.py compares.
"""

import collections
import functools
import os
import re
import sys

TOP = os.path.dirname(os.path.dirname(os.path.abspath(__file__)))
CRATES = os.path.join(TOP, "crates")
TABLE = "<!-- believed -->", "<!-- end of believed -->"

TOLD = ["dqcheck_words::spelled_command", "dqcheck_core::AreTold", "dqcheck_core::IsAcceptance.f,spelled,well_formed"]
SOLVED = ["dqsolve_words::spelled_command", "dqsolve_core::IsTold", "dqsolve_core::IsSolution.f,spelled,well_formed"]

WHOLE = "all clauses of `dqcheck_run` and `dqsolve_run`"

# What is asked, and from where the names are followed.
QUESTIONS = (
    ("`VALID TRUE`, `VALID FALSE` and `VALID DEFINED`, on the headline's page", ["dqcheck_core::dqcheck_run.headline"]),
    ("10 and 20 of `solve`, on the headline's page", ["dqsolve_core::dqsolve_run.headline"]),
    ("10 and 20 of `pec`, on the page on black boxes", ["dqsolve_core::dqsolve_run.boxes"]),
    ("0 of `session`, on the page on sessions", ["dqsolve_core::dqsolve_run.session"]),
    ("`VALID TRUE`: the outputs are Skolem functions of the formula", TOLD + ["dqcheck_core::IsProvedTrue.circuit,is_true,written"]),
    ("`VALID FALSE`: the formula is false", TOLD + ["dqcheck_core::IsProvedFalse.is_false,written"]),
    ("`VALID DEFINED D FREE R`", TOLD + ["dqcheck_core::IsProvedDefined.counts,definitions,written"]),
    ("which line `dqcheck` writes, a refusal's line and name too", ["dqcheck_core::dqcheck_run.ends", "dqcheck_core::dqcheck_run.causes"]),
    ("`s UNKNOWN`: each step was productive, and a next one was in hand", SOLVED + ["dq_verdicts::IsLimitReached", "hint_log::IsProductiveLog"]),
    (WHOLE, ["dqcheck_core::dqcheck_run", "dqsolve_core::dqsolve_run"]),
)

WORD = re.compile(r'"(?:[^"\\]|\\.)*"|\.?[^\W\d][\w\'-]*')
HEAD = re.compile(r"(?:(?:abbrev|unfoldable|pub|record|data)\s+)*([^\W\d][\w'-]*)")
ITEM = re.compile(r"^pub(?:\(crate\))? (?:enum|struct|trait) (\w+)")


class Definition:
    """Some lines of a file, and the words that stand in them."""

    def __init__(self, crate, path, name):
        self.crate, self.path, self.name = crate, path, name
        self.lines = {}

    def add(self, number, text):
        self.lines[number] = text

    def words(self, fields=None):
        """The words of all lines, or those of a record's head and of some of its fields."""
        texts = [text for _, text in sorted(self.lines.items())]
        if fields is not None:
            texts = record_part(texts, fields)
        return [word for text in texts for word in WORD.findall(text) if word[0] not in '".']

    def size(self, fields=None):
        return len(self.lines) if fields is None else len(record_part([t for _, t in sorted(self.lines.items())], fields))


def record_part(texts, fields):
    """A record's head, and the lines of these fields."""
    kept, is_kept, seen = [], True, set()
    for text in texts:
        field = re.match(r"  (?:pub )?(\w+) :", text)
        if field:
            is_kept = field[1] in fields
            seen.add(field[1])
        if is_kept:
            kept.append(text)
    missing = set(fields) - seen
    if missing:
        raise LookupError(f"no field {', '.join(sorted(missing))}")
    return kept


def without_comment(line):
    """A line of a specification without what stands behind `--`."""
    for part in re.finditer(r'"(?:[^"\\]|\\.)*"|--', line):
        if part[0] == "--":
            return line[: part.start()].rstrip()
    return line.rstrip()


def imports(text, keyword):
    """What a file's imports bring: by local name, the module's path and the name there."""
    found = {}
    for line in re.findall(rf"^\s*{keyword} (Rattle\.[^\n;]*)", text, re.MULTILINE):
        listed = re.match(r"Rattle\.(.+)\.\{(.*)\}", line)
        if listed:
            for name in listed[2].split(","):
                name, _, local = name.strip().partition(" as ")
                found[local or name] = (listed[1], name)
        else:
            path, _, local = line.removeprefix("Rattle.").partition(" as ")
            found[local or path.split(".")[-1]] = (path, path.split(".")[-1])
    return found


class Specification:
    """A file of specs/: its definitions by name, and what it imports."""

    def __init__(self, crate, path):
        with open(os.path.join(TOP, path), encoding="utf-8") as file:
            text = file.read()
        self.imports = imports(text, "use")
        self.named = {}
        module, current = [], None
        for number, line in enumerate(text.split("\n"), 1):
            line = without_comment(line)
            if not line or line.startswith(("use ", "pub mod ", "mod ")):
                continue
            if line.startswith("module "):
                module, current = [(number, line)], None
                continue
            if not line.startswith(" "):
                inner, body = [], line
            elif module and line.startswith("  ") and not line.startswith("   "):
                inner, body = module, line[2:]
            else:
                inner, body = None, line
            if inner is not None and HEAD.match(body):
                name = HEAD.match(body)[1]
                if not line.startswith(" "):
                    module = []
                current = self.named.setdefault(name, Definition(crate, path, name))
                for part in inner:
                    current.add(*part)
            current.add(number, line)
        self.name_constructors()

    def name_constructors(self):
        """A data type's constructors lead to the type."""
        for definition in list(self.named.values()):
            texts = [text for _, text in sorted(definition.lines.items())]
            if re.match(r"(?:pub )?data ", texts[0]):
                for text in texts[1:]:
                    constructor = re.match(r"  (\w+) :", text)
                    if constructor:
                        self.named.setdefault(constructor[1], definition)


class Source:
    """A file of src/: its types and contracts, and what it imports."""

    def __init__(self, crate, path):
        self.crate, self.path = crate, path
        with open(os.path.join(TOP, path), encoding="utf-8") as file:
            self.text = file.read()
        self.imports = imports(self.text, "ghost use")
        self.crates = dict((name, crate) for crate, names in re.findall(r"^\s*use (\w+)::(?:\w+::)*\{?([\w, \n]+)", self.text, re.MULTILINE)
                           for name in re.findall(r"\w+", names))

    def block(self, start):
        """The lines from a place to the end of the braces that open behind it, or to a semicolon."""
        depth, at = 0, start
        while True:
            char = self.text[at]
            depth += (char in "{(") - (char in "})")
            at += 1
            if depth == 0 and (char == "}" or char == ";"):
                break
        first = self.text.count("\n", 0, start) + 1
        for number, line in enumerate(self.text[start:at].split("\n"), first):
            line = line.split("//")[0].rstrip()
            if line.strip() and not line.strip().startswith("#"):
                yield number, line

    def item(self, name):
        """A type or a trait by its name, without its comments."""
        start = re.search(rf"^pub(?:\(crate\))? (?:enum|struct|trait) {name}\b", self.text, re.MULTILINE)
        if not start:
            return None
        definition = Definition(self.crate, self.path, name)
        for number, line in self.block(start.start()):
            definition.add(number, line)
        value = re.search(rf"^impl(?:<[^>]*>)? Model for {name}\b.*?\n\}}", self.text, re.MULTILINE | re.DOTALL)
        if value:
            said = re.search(r"^ *ghost Value = .*?\};", value[0], re.MULTILINE | re.DOTALL)
            if said:
                at = value.start() + said.start()
                for number, line in enumerate(said[0].split("\n"), self.text.count("\n", 0, at) + 1):
                    definition.add(number, line)
        return definition

    def clauses(self, function):
        """A public function's clauses by their names."""
        start = re.search(rf"^ *pub fn {function}\b", self.text, re.MULTILINE)
        found = {}
        if start:
            end = re.compile(r"^\{|^    \{\n|^\}", re.MULTILINE).search(self.text, start.end()).start()
            for clause in re.finditer(r"\bensures (\w*) ?(?=\{)", self.text[start.end():end]):
                place = start.end() + clause.start()
                definition = Definition(self.crate, self.path, f"{function}.{clause[1] or 'ensures'}")
                for number, line in self.block(place):
                    definition.add(number, line)
                found[clause[1] or "ensures"] = definition
        return found


class Repository:
    """All files of specs/ and src/."""

    def __init__(self):
        self.specs, self.sources = {}, collections.defaultdict(list)
        for crate in sorted(os.listdir(CRATES)):
            for kind, ending in (("specs", ".antt"), ("src", ".rt")):
                for folder, _, names in sorted(os.walk(os.path.join(CRATES, crate, kind))):
                    for name in sorted(names):
                        if name.endswith(ending):
                            self.read(crate, kind, os.path.relpath(os.path.join(folder, name), TOP))

    def read(self, crate, kind, path):
        if kind == "src":
            self.sources[crate].append(Source(crate, path))
        else:
            module = path.split("/specs/")[1].removesuffix(".antt").replace("/", ".")
            self.specs[crate, module] = Specification(crate, path)

    @functools.cache
    def type_named(self, crate, name):
        """A type or a trait of a crate."""
        return next(filter(None, (source.item(name) for source in self.sources[crate])), None)

    def imported(self, path, name):
        """What an import names, or None where it isn't the repository's."""
        crate, _, module = path.partition(".specs.")
        if crate not in self.sources or not module:
            return None
        if module.startswith("declared."):
            words = [word for word in module.split(".") if word != "TheVariants"]
            return self.type_named(crate, words[-1])
        specification = self.specs.get((crate, module))
        if specification is None or name not in specification.named:
            raise LookupError(f"{path} has no {name}")
        return specification.named[name]

    def reached_from(self, definition, fields=None):
        """The definitions that the words of one lead to."""
        module = definition.path.split("/specs/")
        if len(module) == 2:
            specification = self.specs[definition.crate, module[1].removesuffix(".antt").replace("/", ".")]
            local, brought, crates = specification.named, specification.imports, {}
        else:
            source = next(s for s in self.sources[definition.crate] if s.path == definition.path)
            local, brought, crates = {}, source.imports, source.crates
        for word in dict.fromkeys(definition.words(fields)):
            found = local.get(word)
            if found is None and word in brought:
                found = self.imported(*brought[word])
            elif found is None and len(module) == 1 and re.match("[A-Z]", word):
                crate = crates.get(word, definition.crate)
                found = self.type_named(definition.crate if crate in ("crate", "std") else crate, word) if crate != "std" else None
            if found is not None and found is not definition:
                yield found

    def start(self, clause):
        """The definitions that a clause names, each with the fields that are asked for."""
        crate, _, rest = clause.partition("::")
        name, _, part = rest.partition(".")
        for (owner, _), specification in self.specs.items():
            if owner == crate and name in specification.named:
                return [(specification.named[name], tuple(part.split(",")) if part else None)]
        for source in self.sources.get(crate, ()):
            clauses = source.clauses(name)
            if clauses:
                if part and part not in clauses:
                    raise LookupError(f"{name} has no clause {part}")
                return [(clause, None) for which, clause in clauses.items() if part in ("", which)]
        raise LookupError(f"no {clause}")

    def believed(self, clauses):
        """All definitions that clauses lead to, with the fields that are asked for."""
        left = [start for clause in clauses for start in self.start(clause)]
        found = {}
        while left:
            definition, fields = left.pop()
            if definition in found:
                continue
            found[definition] = fields
            left += [(other, None) for other in self.reached_from(definition, fields)]
        return found


def counted(found):
    """How many lines and files these definitions have; a line that two share counts once."""
    whole = {(d.path, number) for d, fields in found.items() if fields is None for number in d.lines}
    parts = sum(d.size(fields) for d, fields in found.items() if fields is not None)
    return len(whole) + parts, len({d.path for d in found})


def table(repository):
    """The questions with their counts, and in which files of which crate the answers stand."""
    rows = ["| To rely on | lines | files | in |", "|---|---|---|---|"]
    for question, clauses in QUESTIONS:
        found = repository.believed(clauses)
        lines, files = counted(found)
        by_crate = collections.Counter()
        for definition, fields in found.items():
            by_crate[definition.crate] += definition.size(fields)
        crates = ", ".join(f"{crate} {lines}" for crate, lines in by_crate.most_common())
        rows.append(f"| {question} | {lines:,} | {files} | {crates} |")
    return "\n".join(rows)


def listing(found):
    """Each definition with its lines, by file."""
    by_path = collections.defaultdict(list)
    for definition, fields in found.items():
        by_path[definition.path].append((min(definition.lines), definition, fields))
    for path, definitions in sorted(by_path.items()):
        print(path)
        for line, definition, fields in sorted(definitions, key=lambda it: it[0]):
            print(f"{line:6}  {definition.size(fields):4}  {definition.name}" + (f": {', '.join(fields)}" if fields else ""))
    lines, files = counted(found)
    print(f"{lines} lines in {files} files")


def main(words):
    if words in (["--help"], ["-h"]):
        print(__doc__.strip())
        return 0
    repository = Repository()
    try:
        if words:
            listing(repository.believed(words))
        else:
            print(table(repository))
    except LookupError as missing:
        print(f"believed.py: {missing.args[0]}", file=sys.stderr)
        return 1
    return 0


if __name__ == "__main__":
    sys.exit(main(sys.argv[1:]))
