#!/usr/bin/env python3
"""Lists the statements that two crates or more prove, each in words of its own.

A lemma of a crate's `proofs/` that another crate proves too belongs in the lowest crate that has
the definitions which it speaks of, as a public lemma that the others import. Two statements are the
same here where they differ only in the names that they bind, in the order of their arguments, in
which of these are implicit, and in plain abbreviations (one clause over variables), which are
opened. Names are followed through the `use` lines, so that two definitions of one name stay apart.

Usage, from the repository's root:  tools/same_lemmas.py [--within] [CRATE..]

--within  lists what stands twice in one crate, too
CRATE..   lists only statements of which one of these crates has a copy

Ends with status 1 where it lists something.
"""
import collections
import itertools
import pathlib
import re
import sys

ROOT = pathlib.Path(__file__).resolve().parent.parent
TYPE = re.compile(r"(?m)^(?:pub )*(?:record|data) ([^\s:(){}]+)")
SIGNATURE = re.compile(r"^((?:abbrev |pub |unfoldable )*)([^\s:(){}\[\],=]+) :(?= |$)")
USE = re.compile(r"^(?:pub )?use (Rattle\.[^{]*)\.\{(.*)\}$", re.S)
TOKEN = re.compile(r"\[\]|[(){}\[\],]|[^\s(){}\[\],]+")
CLOSING = {"(": ")", "{": "}", "[": "]"}
OPERATORS = set("→ × ≡ ≢ ≤ < > ≥ + * - ++ ∷ || && == ⊎ ↔ , : ∙ = ↦ | % / ^ ∘ <= >= != ≠".split())
Declaration = collections.namedtuple("Declaration", "crate path line words name statement clauses size")


def paragraphs(text):
    """The file's parts, each from a line without indentation to the next: their first line's number, and text."""
    parts, lines = [], text.split("\n")
    for number, line in enumerate(lines, 1):
        if not line.strip():
            continue
        if parts and (line[0] in " \t)]}" or (line.startswith("where") and not line.startswith("where_"))):
            parts[-1][1].append(line)
        else:
            parts.append((number, [line]))
    return [(number, "\n".join(part)) for number, part in parts]


def declarations(crate, path, text):
    """The file's declarations, each with its clauses."""
    found = []
    for number, part in paragraphs(text):
        signature = SIGNATURE.match(part)
        if signature:
            words, name = signature.group(1).split(), signature.group(2)
            found.append(Declaration(crate, path, number, words, name, part[signature.end():], [], [part]))
        elif found and re.match(r"\S+", part).group() == found[-1].name:
            found[-1].clauses.append(part)
            found[-1].size.append(part)
    return found


def imports(text):
    """What each name of the file's `use` lines stands for: its whole path."""
    names = {}
    for _, part in paragraphs(text):
        found = USE.match(part)
        if not found:
            continue
        for item in re.split(r",\s*", found.group(2).strip().rstrip(",")):
            name, _, other = item.strip().partition(" as ")
            path = found.group(1) + "." + name
            names[(other or name).split(".")[-1].strip()] = name if path.startswith("Rattle.std.") else path
    return names


def tree(words):
    """The words with each bracket's content as a list that begins with the bracket."""
    stack = [[]]
    for word in words:
        if word in CLOSING:
            stack.append([word])
        elif word in CLOSING.values() and len(stack) > 1:
            inner = stack.pop()
            stack[-1].append(inner)
        else:
            stack[-1].append(word)
    return stack[0]


def binder(part):
    """The names and the type of `(x y : T)`, or None."""
    if isinstance(part, list) and part[0] in "({" and ":" in part[1:]:
        at = part.index(":")
        if at > 1 and all(isinstance(it, str) and it not in OPERATORS for it in part[1:at]):
            return part[1:at], part[at + 1:], part[0] == "{"
    return None


class Namer:
    """Gives bound names their places, and others their whole paths."""

    fresh_numbers = itertools.count()

    def __init__(self, names, abbreviations):
        self.names, self.abbreviations = names, abbreviations

    def fresh(self):
        return f"%{next(self.fresh_numbers)}"

    def word(self, word, bound):
        head, *fields = word.split(".") if not word.startswith(".") else [word]
        if head in bound:
            return ".".join([bound[head], *fields])
        if word.isdigit() or word in OPERATORS:
            return word
        return ".".join([self.names.get(head, head), *fields])

    def sequence(self, parts, bound):
        """The parts with all names in place of those that the file has."""
        out, bound, at = [], dict(bound), 0
        while at < len(parts):
            part, at = parts[at], at + 1
            bind = binder(part)
            if bind:
                kind = self.sequence(bind[1], bound)
                for name in bind[0]:
                    bound[name] = self.fresh()
                    out.append(["(", bound[name], ":", *kind])
            elif isinstance(part, list):
                out.append([part[0], *self.sequence(part[1:], bound)])
            elif part in ("λ", "∃", "∀"):
                out.append("λ")
                while at < len(parts) and isinstance(parts[at], str):
                    name, at = parts[at], at + 1
                    bound[name.rstrip(".")] = self.fresh()
                    out.append(bound[name.rstrip(".")])
                    if name.endswith("."):
                        break
            else:
                out.append(self.word(part, bound))
        return self.opened(out)

    def opened(self, parts):
        """The parts with plain abbreviations opened, and brackets around one word dropped."""
        out, at = [], 0
        while at < len(parts):
            part = parts[at]
            head = at == 0 or (isinstance(parts[at - 1], str) and (parts[at - 1] in OPERATORS or parts[at - 1] == ":"))
            short = self.abbreviations.get(part) if isinstance(part, str) else None
            given = parts[at + 1:at + 1 + len(short[0])] if short else []
            alone = short and (head or not short[0])
            if alone and len(given) == len(short[0]) and not any(it in OPERATORS for it in given if isinstance(it, str)):
                out.append(["(", *replaced(short[1], dict(zip(short[0], given)))])
                at += 1 + len(given)
            else:
                out.append(part)
                at += 1
        return [plain(part) for part in out]


def plain(part):
    """A bracket around one part is that part."""
    while isinstance(part, list) and part[0] == "(" and len(part) == 2:
        part = part[1]
    return part


def replaced(parts, values):
    """The parts with values in place of names."""
    out = []
    for part in parts:
        if isinstance(part, list):
            out.append(plain([part[0], *replaced(part[1:], values)]))
            continue
        head, *fields = part.split(".")
        value = values.get(head)
        out.append(part if value is None else value if not fields else
                   ".".join([value, *fields]) if isinstance(value, str) else ["(", value, *fields])
    return out


def arguments(parts):
    """A type's arguments, each as a name or None, its type and whether it is implicit; and its result."""
    found, piece = [], []
    for part in parts:
        if part != "→":
            piece.append(part)
            continue
        binds = [binder(it) for it in piece]
        if piece and all(binds):
            found += [(name, kind, hidden) for names, kind, hidden in binds for name in names]
        else:
            found.append((None, piece, False))
        piece = []
    return found, piece


def written(part):
    """The words of a part, on one line."""
    if isinstance(part, str):
        return part
    if part and isinstance(part[0], str) and part[0] in CLOSING:
        return part[0] + written(part[1:]) + CLOSING[part[0]]
    return " ".join(written(it) for it in part)


def in_order(text, known, marks="#"):
    """The text with each bound name as its number among those known, and the names that are new in it."""
    new = []

    def number(found):
        name = found.group()
        if name in known:
            return f"{marks}{known[name]}"
        if name not in new:
            new.append(name)
        return "?"

    return re.sub(r"%\d+", number, text), new


def key(statement, names, abbreviations):
    """What is the same for two statements that say the same."""
    namer = Namer(names, abbreviations)
    args, result = arguments(tree(TOKEN.findall(statement)))
    bound, left = {}, []
    for name, kind, _ in args:
        text = written(plain(["(", *namer.sequence(kind, bound)]))
        if name is not None:
            bound[name] = namer.fresh()
        left.append((bound.get(name), text))
    result = written(plain(["(", *namer.sequence(result, bound)]))
    known, out = {}, []

    def told(text):
        for name in in_order(text, known)[1]:
            known[name] = len(known)
        return in_order(text, known)[0]

    out.append(told(result))
    while left:
        left.sort(key=lambda it: (known.get(it[0], 10 ** 6) if it[0] else 10 ** 5, in_order(it[1], known)[0]))
        name, text = left.pop(0)
        if name and name not in known and not any(name in other for _, other in left):
            out.append(told(text))
        else:
            out.append(told(f"{name} : {text}" if name else text))
    return " ⇒ ".join(out)


def is_lemma(it, names):
    """Whether it says something: its result is an equation or the like, or speaks of an argument that is no type."""
    if it.words not in ([], ["pub"]) or not it.clauses:
        return False
    args, result = arguments(tree(TOKEN.findall(it.statement)))
    text = written(result)
    if re.search(r"[≡≢≤<⊥↔⊎×]", text):
        return True
    values = {name for name, kind, _ in args if name and kind[:1] != ["Type"]}
    return any(word.split(".")[0] in values for word in TOKEN.findall(text))


def abbreviation(it, namer):
    """The parameters and the body of an abbreviation with one clause over variables, or None."""
    if "abbrev" not in it.words or len(it.clauses) != 1:
        return None
    head, _, body = it.clauses[0].partition("=")
    _, *names = head.split()
    if any(not re.fullmatch(r"[\w-]+", name) for name in names) or re.search(r"↦|\blet\b|\bwhere\b", body):
        return None
    parts = namer.sequence(tree(TOKEN.findall(body)), {name: f"&{name}" for name in names})
    return [f"&{name}" for name in names], parts


def files():
    """All files of definitions and proofs: the crate, the path, the module and the text."""
    for path in sorted(ROOT.glob("crates/*/*/**/*.antt")):
        crate, kind, *rest = path.relative_to(ROOT / "crates").parts
        if kind in ("proofs", "specs"):
            module = ".".join(["Rattle", crate, kind, *rest])[:-len(".antt")]
            yield crate, kind, path.relative_to(ROOT / "crates"), module, path.read_text()


def one_name(read, abbreviations):
    """For each definition that says what an earlier one does, word for word, the earlier one's path."""
    first, same = {}, {}
    for _, module, found, names in read:
        for it in found:
            if is_lemma(it, names) or not it.clauses:
                continue
            namer = Namer({**names, it.name: "itself"}, abbreviations)
            said = [key(it.statement, names, abbreviations)]
            for clause in it.clauses:
                head, _, body = clause.partition("=")
                parts = tree(TOKEN.findall(head))
                bound = {word: namer.fresh() for word in TOKEN.findall(head) if word not in names and word not in OPERATORS}
                said.append(in_order(written(namer.sequence([*parts, "=", *tree(TOKEN.findall(body))], bound)), {})[0])
            path = f"{module}.{it.name}"
            if first.setdefault("\n".join(said), path) != path:
                same[path] = first["\n".join(said)]
    return same


def parsed():
    """All files' declarations and names, and all plain abbreviations."""
    read, abbreviations = [], {}
    for crate, kind, path, module, text in files():
        found = declarations(crate, path, text)
        names = imports(text)
        names.update({name: f"{module}.{name}" for name in [it.name for it in found] + TYPE.findall(text)})
        read.append((kind, module, found, names))
    for _, module, found, names in read:
        for it in found:
            short = abbreviation(it, Namer(names, {}))
            if short:
                abbreviations[f"{module}.{it.name}"] = short
    same = one_name(read, abbreviations)
    for _, _, _, names in read:
        names.update({name: same[path] for name, path in names.items() if path in same})
    return read, abbreviations


def gathered():
    """All lemmas of proofs, each under its key."""
    groups = collections.defaultdict(list)
    read, abbreviations = parsed()
    for kind, _, found, names in read:
        for it in found if kind == "proofs" else []:
            if is_lemma(it, names):
                groups[key(it.statement, names, abbreviations)].append(it)
    return groups


def lines_of(it):
    """How many lines a lemma has."""
    return sum(part.count("\n") + 1 for part in it.size)


def spare(group):
    """How many lines go where one copy stays."""
    return sum(sorted(map(lines_of, group))[1:])


def main(words):
    within = "--within" in words
    crates = {word for word in words if word != "--within"}
    if crates & {"--help", "-h"} or any(word.startswith("-") for word in crates):
        print(__doc__.strip())
        return 0 if "--help" in crates or "-h" in crates else 2
    groups = [group for group in gathered().values() if len(group) > 1
              and (within or len({it.crate for it in group}) > 1)
              and (not crates or crates & {it.crate for it in group})]
    for group in sorted(groups, key=spare, reverse=True):
        print(f"{len(group)}x spare {spare(group)}: {' '.join(group[0].statement.split())}")
        for it in group:
            print(f"    {it.path}:{it.line} {it.name}")
    return 1 if groups else 0


if __name__ == "__main__":
    sys.exit(main(sys.argv[1:]))
