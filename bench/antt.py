"""Runs definitions of a page of specifications: `load` compiles the page's functions and relations to Python's, as they
stand there, with lists as tuples, numbers as integers, and a proposition as the truth of it.

A record's data are found by the caller: a relation that is a record with data takes them in a dictionary by name, and
where another definition asks for one, `Page.witnesses` has a function of its arguments that gives the dictionaries to try. A
relation by constructors, a least set, isn't compiled: the caller sets it in `Page.names`.
What is said of all numbers, functions or rows of bits is tried over what `Page.domains` has by the variables' names."""

import re
from functools import partial

TOKEN = re.compile(
    r"""\s*(?:(?P<text>"[^"]*")|(?P<number>\d+)|(?P<part>(?<=[\w)])\.[A-Za-z]\w*)|(?P<name>[A-Za-z_][\w-]*)"""
    r"""|(?P<sign>\+\+|&&|\|\||==|[→λ≡≢≤<∷×⊎⊥ℕ+\-*/%^(){}=:;.,]|\[\]))"""
)
# From the weakest; all of a level associate to the right but for those of arithmetic.
LEVELS = [["→"], ["⊎"], ["×"], ["≡", "≢", "≤", "<"], ["||"], ["&&"], ["=="], ["∷", "++"], ["+", "-"], ["*", "/", "%"], ["^"]]
LEFT = {"+", "-", "*", "/", "%"}
WORDS = {"if", "then", "else", "record", "where"}


def tokens_of(text):
    at, found = 0, []
    while text[at:].strip():
        match = TOKEN.match(text, at)
        if match is None:
            raise ValueError(f"no token: {text[at:at + 40]!r}")
        found.append((match.lastgroup, match[match.lastgroup]))
        at = match.end()
    return found


class Parser:
    """Expressions as tuples: a kind, and its parts."""

    def __init__(self, text):
        self.tokens, self.at = tokens_of(text), 0

    def next(self, ahead=0):
        return self.tokens[self.at + ahead] if self.at + ahead < len(self.tokens) else (None, None)

    def take(self, value=None):
        token = self.next()
        if value is not None and token[1] != value:
            raise ValueError(f"{value} is wanted, not {token} in {self.tokens}")
        self.at += 1
        return token

    def expression(self, level=0):
        if self.next()[1] == "λ":
            return self.function()
        if self.next()[1] == "if":
            return self.choice()
        if level == len(LEVELS):
            return self.application()
        if level == 0 and self.is_binder():
            return self.bound()
        left = self.expression(level + 1)
        if self.next()[1] not in LEVELS[level]:
            return left
        if LEVELS[level][0] not in LEFT:
            sign = self.take()[1]
            # behind × and → another binder may stand
            right = self.expression(0 if sign in "→×" and self.is_binder() else level)
            return ("sign", sign, left, right)
        while self.next()[1] in LEVELS[level]:
            sign = self.take()[1]
            left = ("sign", sign, left, self.expression(level + 1))
        return left

    def is_binder(self):
        ahead = 1
        if self.next() != ("sign", "("):
            return False
        while self.next(ahead)[0] == "name" and self.next(ahead)[1] not in WORDS:
            ahead += 1
        return ahead > 1 and self.next(ahead)[1] == ":"

    def bound(self):
        self.take("(")
        names = []
        while self.next()[1] != ":":
            names.append(self.take()[1])
        self.take(":")
        type_ = self.expression()
        self.take(")")
        sign = self.take()[1]
        return ("some" if sign == "×" else "all", names, type_, self.expression(0 if sign == "→" or self.is_binder() else 2))

    def function(self):
        self.take("λ")
        names = []
        while self.next()[1] != ".":
            names.append(self.take()[1])
        self.take(".")
        return ("function", names, self.expression())

    def choice(self):
        self.take("if")
        test = self.expression()
        self.take("then")
        one = self.expression()
        self.take("else")
        return ("if", test, one, self.expression())

    def application(self):
        head, given = self.atom(), []
        while self.next()[0] in ("text", "number") or (self.next()[0] == "name" and self.next()[1] not in WORDS - {"record"}) or self.next()[1] in ("(", "[]", "⊥", "ℕ"):
            given.append(self.atom())
        if self.next()[1] == "λ" and given:
            given.append(self.function())
        return ("apply", head, given) if given else head

    def atom(self):
        kind, value = self.take()
        if kind == "text":
            found = ("text", value[1:-1])
        elif kind == "number":
            found = ("number", int(value))
        elif value == "[]":
            found = ("list",)
        elif value == "⊥":
            found = ("name", "False")
        elif value == "record":
            found = self.record()
        elif value == "(":
            found = self.expression()
            self.take(")")
        elif value == "Unit":
            self.take("{"), self.take(), self.take("}")
            found = ("name", "True")
        else:
            found = ("name", value)
        while self.next()[0] == "part":
            found = ("part", found, self.take()[1][1:])
        return found

    def record(self):
        self.take("{")
        fields = {}
        while self.next()[1] != "}":
            name = self.take()[1]
            self.take("=")
            fields[name] = self.expression()
            if self.next()[1] == ";":
                self.take()
        self.take("}")
        return ("record", fields)


# The page's declarations


def declarations(text):
    """The page without comments and imports, each declaration with the lines that go on with it."""
    found = []
    for line in text.split("\n"):
        line = re.sub(r"(?:^|\s)--.*$", "", line).rstrip()
        if not line or line.startswith("use "):
            continue
        if line.startswith("    ") or (line.startswith("  ") and found[-1][0].startswith(("pub record", "pub data"))):
            is_entry = not line.startswith("    ") and not re.match(r"\s*[→×⊎+∷]", line)
            if is_entry and found[-1][0].startswith(("pub record", "pub data")):
                found[-1].append(line.strip())
            else:
                found[-1][-1] += " " + line.strip()
        else:
            found.append([line])
    return found


class Fields:
    """A record."""

    def __init__(self, **fields):
        self.__dict__.update(fields)

    def __eq__(self, other):
        return self.__dict__ == other.__dict__

    def __repr__(self):
        return repr(self.__dict__)


def splits(items):
    return ((items[:k], items[k:]) for k in range(len(items) + 1))


LIBRARY = {
    "Fields": Fields,
    "partial": partial,
    "splits": splits,
    "zero": 0,
    "true": True,
    "false": False,
    "suc": lambda n: n + 1,
    "list_any": lambda p, xs: any(p(x) for x in xs),
    "list_all": lambda p, xs: all(p(x) for x in xs),
    "All": lambda p, xs: all(p(x) for x in xs),
    "AllZip": lambda r, xs, ys: len(xs) == len(ys) and all(r(x, y) for x, y in zip(xs, ys)),
    "AllPairs": lambda r, xs: all(r(x, y) for k, x in enumerate(xs) for y in xs[k + 1 :]),
    "Contains": lambda xs, x: x in xs,
    "map": lambda f, xs: tuple(f(x) for x in xs),
    "filter": lambda p, xs: tuple(x for x in xs if p(x)),
    "flat_map": lambda f, xs: tuple(y for x in xs for y in f(x)),
    "sum_by": lambda f, xs: sum(f(x) for x in xs),
    "replicate": lambda n, x: (x,) * n,
    "length": len,
    "codes": lambda text: tuple(text.encode()),
    "slice_index": lambda xs, i: xs[i] if i < len(xs) else 0,
    "is_ascii_digit": lambda byte: 48 <= byte <= 57,
    "decimal": lambda n: tuple(str(n).encode()),
    "monus": lambda a, b: max(a - b, 0),
    "not_": lambda a: not a,
}


def fold(step, first, items):
    for item in items:
        first = step(first, item)
    return first


LIBRARY["fold"] = fold
ARITIES = {
    "list_any": 2, "list_all": 2, "All": 2, "AllZip": 3, "AllPairs": 2, "Contains": 2, "map": 2, "filter": 2, "flat_map": 2,
    "sum_by": 2, "replicate": 2, "length": 1, "codes": 1, "slice_index": 2, "is_ascii_digit": 1, "decimal": 1, "fold": 3,
    "suc": 1, "not": 1,
}  # fmt: skip
SIGNS = {
    "≡": "({} == {})", "≢": "({} != {})", "≤": "({} <= {})", "<": "({} < {})", "||": "({} or {})", "&&": "({} and {})",
    "==": "({} == {})", "++": "({} + {})", "+": "({} + {})", "-": "monus({}, {})", "*": "({} * {})", "/": "({} // {})",
    "%": "({} % {})", "^": "({} ** {})", "∷": "(({},) + {})", "×": "({} and {})", "⊎": "({} or {})", "→": "(not {} or {})",
}  # fmt: skip
DATA = {"ℕ", "Bool", "List"}


class Page:
    """The definitions of a page."""

    def __init__(self, text):
        self.arities, self.constructors, self.data = dict(ARITIES), {}, set(DATA)
        self.witnesses, self.domains = {}, {}
        self.names = dict(LIBRARY, page=self)
        functions, records = {}, []
        for head, *entries in declarations(text):
            match = re.match(r"pub (record|data) (\w+)(.*?) : Type 0 where$", head)
            if match and match[1] == "data":
                self.take_data(match[2], entries)
            elif match:
                records.append((match[2], match[3], entries))
            elif not head.startswith(("abbrev", "pub data")):
                name, equation = head.split(None, 1)
                functions.setdefault(name, []).append(equation)
        for name, parameters, entries in records:
            self.take_record(name, parameters, entries)
        for name, equations in functions.items():
            self.arities[name] = len(self.patterns(equations[0])[0])
        for name, parameters, entries in records:
            if name not in self.data:
                self.compile_record(name, parameters, entries)
        for name, equations in functions.items():
            self.compile_function(name, equations)

    def __getattr__(self, name):
        return self.names[name]

    def take_data(self, name, entries):
        self.data.add(name)
        for entry in entries:
            constructor, type_ = entry.split(" : ", 1)
            arity = 0 if "→" not in type_ else depth_zero(type_).count("→")
            self.constructors[constructor] = arity
            self.arities[constructor] = arity
            self.names[constructor] = partial(make, constructor) if arity else (constructor,)

    def take_record(self, name, parameters, entries):
        if parameters:
            self.arities[name] = sum(len(names.split()) for names in re.findall(r"\(([\w ]+) :", parameters))
        else:
            self.data.add(name)

    def is_data(self, type_):
        while type_[0] == "sign" and type_[1] == "→":
            type_ = type_[3]
        if type_[0] == "apply":
            type_ = type_[1]
        return type_[0] == "name" and type_[1] in self.data

    def compile_record(self, name, parameters, entries):
        given = [word for names in re.findall(r"\(([\w ]+) :", parameters) for word in names.split()]
        fields = [(entry[4:].split(" : ", 1)[0], Parser(entry[4:].split(" : ", 1)[1]).expression()) for entry in entries]
        data = [field for field, type_ in fields if self.is_data(type_)]
        inner = [field for field, type_ in fields if field not in data and any(f"{field}." in entry for entry in entries)]
        scope = set(given) | {field for field, _ in fields}
        tests = [
            self.code(type_, scope)[: -1 if field in inner else None] + (f", found['{field}'])" if field in inner else "")
            for field, type_ in fields
            if field not in data
        ]
        lines = [f"def {name}({', '.join(map(python, given))}, found=None):"]
        if data:
            lines += [
                " if found is None:",
                f"  return any({name}({', '.join(map(python, given))}, one) for one in page.witnesses['{name}']({', '.join(map(python, given))}))",
                *(f" {python(field)} = found['{field}']" for field in data),
                *(f" {python(field)} = Fields(**found['{field}'])" for field in inner),
            ]
        self.run("\n".join([*lines, f" return {' and '.join(tests) or True}"]))

    def patterns(self, equation):
        left, right = f" {equation}".split(" = ", 1)
        parser, found = Parser(left), []
        while parser.next()[0] is not None:
            found.append(parser.atom())
        return found, right

    def compile_function(self, name, equations):
        lines = [f"def {name}({', '.join(f'g{k}' for k in range(self.arities[name]))}):"]
        for equation in equations:
            patterns, right = self.patterns(equation)
            tests, binds = [], {}
            for k, pattern in enumerate(patterns):
                self.match(pattern, f"g{k}", tests, binds)
            lines.append(f" if {' and '.join(tests) or 'True'}:")
            lines += [f"  {python(bound)} = {place}" for bound, place in binds.items()]
            lines.append(f"  return {self.code(Parser(right).expression(), set(binds))}")
        self.run("\n".join([*lines, f" raise ValueError('{name}')"]))

    def match(self, pattern, place, tests, binds):
        if pattern == ("list",):
            tests.append(f"{place} == ()")
        elif pattern[:2] == ("sign", "∷"):
            tests.append(f"len({place}) > 0")
            self.match(pattern[2], f"{place}[0]", tests, binds)
            self.match(pattern[3], f"{place}[1:]", tests, binds)
        elif pattern == ("name", "zero"):
            tests.append(f"{place} == 0")
        elif pattern[0] == "apply" and pattern[1] == ("name", "suc"):
            tests.append(f"{place} > 0")
            self.match(pattern[2][0], f"({place} - 1)", tests, binds)
        elif pattern[0] == "apply":
            tests.append(f"{place}[0] == '{pattern[1][1]}'")
            for k, inner in enumerate(pattern[2], 1):
                self.match(inner, f"{place}[{k}]", tests, binds)
        elif pattern[1] in self.constructors:
            tests.append(f"{place}[0] == '{pattern[1]}'")
        elif pattern[1] != "_":
            binds[pattern[1]] = place

    def run(self, source):
        exec(source, self.names)

    # Expressions

    def code(self, e, scope):
        return getattr(self, "code_" + e[0])(e, scope)

    def code_text(self, e, scope):
        return repr(e[1])

    def code_number(self, e, scope):
        return str(e[1])

    def code_list(self, e, scope):
        return "()"

    def code_name(self, e, scope):
        return "not_" if e[1] == "not" else python(e[1])

    def code_part(self, e, scope):
        return f"{self.code(e[1], scope)}.{python(e[2])}"

    def code_record(self, e, scope):
        return "Fields(" + ", ".join(f"{python(name)}={self.code(value, scope)}" for name, value in e[1].items()) + ")"

    def code_if(self, e, scope):
        return f"({self.code(e[2], scope)} if {self.code(e[1], scope)} else {self.code(e[3], scope)})"

    def code_function(self, e, scope):
        return f"(lambda {', '.join(map(python, e[1]))}: {self.code(e[2], scope | set(e[1]))})"

    def code_sign(self, e, scope):
        return SIGNS[e[1]].format(self.code(e[2], scope), self.code(e[3], scope))

    def code_apply(self, e, scope):
        head, given = e[1], [self.code(one, scope) for one in e[2]]
        name = self.code(head, scope)
        arity = self.arities.get(head[1], len(given)) if head[0] == "name" and head[1] not in scope else len(given)
        if len(given) < arity:
            return f"partial({name}, {', '.join(given)})"
        return f"{name}({', '.join(given)})"

    def code_all(self, e, scope):
        names = ", ".join(map(python, e[1]))
        inner = self.code(e[3], scope | set(e[1]))
        return f"all({inner} for {names} in page.domains['{' '.join(e[1])}']())"

    def code_some(self, e, scope):
        names, body = list(e[1]), e[3]
        while body[0] == "some":
            names, body = names + body[1], body[3]
        conjuncts = flat(body)
        loops, left = [], set(names)
        for equation in conjuncts:
            loop = self.solved(equation, left, scope | (set(names) - left))
            if loop:
                loops.append(loop[0])
                left -= loop[1]
        loops += [f"for {python(name)} in page.domains['{name}']()" for name in names if name in left]
        inner = " and ".join(self.code(one, scope | set(names)) for one in conjuncts)
        return f"any({inner} {' '.join(loops)})"

    def solved(self, equation, left, scope):
        """A loop over the values that an equation leaves to these variables, and which."""
        if equation[:2] != ("sign", "≡"):
            return None
        value, pattern = self.code(equation[2], scope), equation[3]
        if pattern[0] == "name" and pattern[1] in left:
            return f"for {python(pattern[1])} in ({value},)", {pattern[1]}
        if pattern[:2] == ("sign", "∷") and pattern[3][0] == "name" and pattern[3][1] in left:
            first, rest = self.code(pattern[2], scope), pattern[3][1]
            return f"for {python(rest)} in [{value}[1:]] if {value}[:1] == ({first},)", {rest}
        if pattern[:2] == ("sign", "++") and pattern[2][0] == "name" and {pattern[2][1], pattern[3][1]} <= left:
            one, other = pattern[2][1], pattern[3][1]
            return f"for {python(one)}, {python(other)} in splits({value})", {one, other}
        if pattern[:2] == ("sign", "+") and pattern[3][:2] == ("sign", "*") and pattern[3][3][1] in left:
            rest = f"({value} - {self.code(pattern[2], scope)})"
            factor, name = self.code(pattern[3][2], scope), pattern[3][3][1]
            return f"for {python(name)} in [{rest} // {factor}] if {rest} >= 0 and {rest} % {factor} == 0", {name}
        if pattern[0] == "apply" and pattern[1] == ("name", "suc") and pattern[2][0][1] in left:
            return f"for {python(pattern[2][0][1])} in [{value} - 1] if {value} > 0", {pattern[2][0][1]}
        return None


def python(name):
    name = name.replace("-", "_")
    return name + "_" if name in ("is", "not", "and", "or", "from", "in", "all", "any") else name


def flat(e):
    return flat(e[2]) + flat(e[3]) if e[:2] == ("sign", "×") else [e]


def make(constructor, *given):
    return (constructor, *given)


def depth_zero(type_):
    return re.sub(r"\([^()]*\)", "", type_)
