"""Reads the repository's definitions: the files of crates/*/specs, and what each definition there cites. A name that a
definition or a clause cites and that can't be found is an error, so nothing is left out in silence."""

import os
import re

from tests.support.harness import ROOT, Failed, ensure, read

WORD = r"[^\W\d][\w'-]*"
OPERATOR = r"◌[^\s{},()]+◌(?:[^\s{},()]+◌)?"
HOLE = "◌"
CODE = "code"

# Words of the language of definitions.
LANGUAGE = set("abbrev pub unfoldable opaque data record where let in if then else λ Type Unit tt inl inr infixl infixr _ with".split())
NUMERALS = ("true", "false", "suc", "zero")

TOKEN = re.compile(
    rf"""--[^\n]*|//[^\n]*|"(?:\\.|[^"\\])*"|'(?:\\.|[^'\\])'|{WORD}|\d[\d_]*"""
    r"""|[(){}\[\]]|[.,;:](?![^\s\w(){}\[\]"])|[^\s\w(){}\[\]"]+"""
)


def files_of(folder, ending):
    return sorted(os.path.join(at, name) for at, _, names in os.walk(folder) for name in names if name.endswith(ending))


def crates():
    """Returns the crates, each behind those that it depends on."""
    depends = {}
    for line in read(os.path.join(ROOT, "crates.txt")).splitlines():
        line = line.split("#")[0]
        if ":" in line:
            head, tail = line.split(":")
            depends[head.split()[0]] = tail.split()
    order = []

    def visit(crate):
        if crate in depends and crate not in order:
            for below in depends[crate]:
                visit(below)
            order.append(crate)

    for crate in depends:
        visit(crate)
    return order


class Imports:
    """What a text imports from specs and declared types: for each name its crate, module and name there; and the modules that it
    imports under another name."""

    USE = re.compile(r"use Rattle\.(\w+)\.(?:specs|proofs)\.([\w.]+?)(?:\.\{([^}]*)\}| as (\w+))?\s*;?\s*$", re.M)

    def __init__(self, text):
        self.names, self.modules = {}, {}
        for crate, module, listed, other in self.USE.findall(text):
            if other:
                self.modules[other] = (crate, module)
            for name in filter(None, (it.strip() for it in listed.split(","))):
                name, _, renamed = name.partition(" as ")
                self.names[(renamed or name).strip()] = (crate, module, name.strip())
        self.operators = {name: parts(name) for name in self.names if HOLE in name}


def parts(operator):
    return [it for it in operator.split(HOLE) if it]


class Token:
    """A word, a sign or a bracket, and whether it directly follows the one before it."""

    def __init__(self, text, touches):
        self.text, self.touches = text, touches
        self.is_word = re.fullmatch(WORD, text) is not None


def tokens(text):
    found, end = [], -1
    for it in TOKEN.finditer(text):
        if not it[0].startswith(("--", "//", '"', "'")):
            found.append(Token(it[0], it.start() == end))
        end = it.end()
    return found


CLOSES = {"(": ")", "{": "}", "[": "]"}


def closing(found, at):
    """Returns the place of the bracket that closes the one at this place."""
    depth = 0
    for i in range(at, len(found)):
        depth += found[i].text in CLOSES
        depth -= found[i].text in CLOSES.values()
        if depth == 0:
            return i
    raise ValueError(f"no bracket closes {' '.join(it.text for it in found[at:at + 8])}")


def at_top(found, sign):
    """Returns the first place of a sign outside of brackets, or None."""
    i = 0
    while i < len(found):
        if found[i].text == sign:
            return i
        i = closing(found, i) + 1 if found[i].text in CLOSES else i + 1
    return None


class Scope:
    """The names that a text may use: those of its own file, those that it imports, and `known`, which mean nothing to look up.
    `cited` collects the definitions that it uses, `unknown` the words that are none of these."""

    def __init__(self, library, imports, own, known=()):
        self.library, self.imports, self.own, self.known = library, imports, own, set(known)
        self.cited, self.unknown = set(), set()

    def is_constructor(self, word):
        if self.own and (word in self.own.inside or word in self.own.definitions and word[0].isupper()):
            return True
        if word in self.imports.names:
            return word[0].isupper() or word in NUMERALS or self.library.is_constructor(*self.imports.names[word])
        return word in ("inl", "inr", "tt")

    def name(self, word):
        if word in self.imports.names:
            self.cited.add(self.library.home(*self.imports.names[word]))
        elif self.own and (word in self.own.definitions or word in self.own.inside):
            self.cited.add(self.library.home(self.own.crate, self.own.name, word))
        elif word not in self.known and word not in LANGUAGE:
            self.unknown.add(word)

    def sign(self, text):
        operators = [(name, it) for name, it in self.imports.operators.items()]
        if self.own:
            operators += [(name, parts(name)) for name in self.own.definitions if HOLE in name]
        for name, signs in operators:
            if text in signs:
                self.name(name)

    def pattern(self, found):
        """Cites the constructors of a pattern, and returns the words that it binds."""
        bound = set()
        for i, it in enumerate(found):
            if not it.is_word:
                self.sign(it.text)
            elif is_field(found, i):
                continue
            elif i + 1 < len(found) and is_field(found, i + 2) and it.text in self.imports.modules:
                self.member(it.text, found[i + 2].text)
            elif self.is_constructor(it.text):
                self.name(it.text)
            else:
                bound.add(it.text)
        return bound

    def member(self, alias, name):
        self.cited.add(self.library.home(*self.imports.modules[alias], name))

    def expression(self, found, bound):
        """Cites what an expression or a type uses, in which these words are bound."""
        bound, i = set(bound), 0
        is_record = False
        while i < len(found):
            it = found[i]
            if it.text == "λ":
                dot = next(k for k in range(i, len(found)) if found[k].text == ".")
                bound |= self.pattern(found[i + 1:dot])
                i = dot + 1
                continue
            if it.text == "let":
                bound.add(found[i + 1].text)
                i += 2
                continue
            if it.text in CLOSES:
                end = closing(found, i)
                inner = found[i + 1:end]
                colon = at_top(inner, ":")
                if it.text == "{" and is_record:
                    self.fields(inner, bound)
                    is_record = False
                elif colon is not None and all(w.is_word for w in inner[:colon]):
                    self.expression(inner[colon + 1:], bound)
                    bound |= {w.text for w in inner[:colon]}
                else:
                    self.expression(inner, bound)
                i = end + 1
                continue
            if it.text == "record":
                is_record = True
            elif it.is_word and not is_field(found, i):
                if it.text in bound:
                    pass
                elif is_field(found, i + 2) and it.text in self.imports.modules:
                    self.member(it.text, found[i + 2].text)
                else:
                    self.name(it.text)
            elif not it.is_word:
                self.sign(it.text)
            i += 1

    def fields(self, found, bound):
        """Cites what the values of a record's fields use: `name = value; ..`."""
        while found:
            end = at_top(found, ";")
            field, found = (found, []) if end is None else (found[:end], found[end + 1:])
            if field:
                ensure(field[1].text == "=", f"no field: {' '.join(it.text for it in field)}")
                self.expression(field[2:], bound)


def is_field(found, i):
    """Whether a word is the name of a field: it directly follows a dot that directly follows something."""
    return 2 <= i < len(found) and found[i].touches and found[i - 1].text == "." and found[i - 1].touches


class Definition:
    """A definition: its lines with their comment, without empty ones, and what it is."""

    def __init__(self, text, kind):
        self.kind = kind
        self.text = "\n".join(it for it in text.splitlines() if not it.lstrip().startswith("--"))
        self.lines = sum(bool(it.strip()) for it in text.splitlines())

    def cite(self, scope):
        """Cites all that the definition uses."""
        if self.kind:
            head, _, rest = self.text.partition(" where")
            found = tokens(head)
            start = next(i for i, it in enumerate(found) if it.text in ("data", "record")) + 1
            start += found[start].text == "pub"
            bound = self.parameters(scope, found[start + 1:])
            for field in re.split(r"\n(?=  \S)", rest):
                it = [t for t in tokens(field) if t.text != "pub"]
                if it:
                    colon = at_top(it, ":")
                    ensure(colon is not None, f"no field: {field}")
                    if self.kind == "record":
                        scope.expression(it[colon + 1:], bound)
                        bound |= {t.text for t in it[:colon]}
                    else:
                        scope.expression(it[colon + 1:], bound)
            return
        lines = self.text.splitlines()
        starts = [0] + [i for i, line in enumerate(lines) if i and line and not line[0].isspace() and line[0] not in ")}"]
        for first, end in zip(starts, starts[1:] + [len(lines)]):
            found = tokens("\n".join(lines[first:end]))
            if first == 0:
                scope.expression(found[at_top(found, ":") + 1:], ())
            else:
                self.equation(scope, found)

    def equation(self, scope, found):
        equals = at_top(found, "=")
        ensure(equals is not None, f"no equation: {' '.join(it.text for it in found)}")
        left = found[:equals]
        # the name itself is no variable
        bound = scope.pattern(left[1:] if left[0].is_word else left)
        right, helpers = found[equals + 1:], []
        where = at_top(right, "where")
        if where is not None:
            right, helpers = right[:where], right[where + 1:]
        if helpers:
            # a helper: its name and type, then its equations
            colon = at_top(helpers, ":")
            name = helpers[colon - 1].text
            bound.add(name)
            rest = [i for i, it in enumerate(helpers) if it.text == name and i > colon]
            scope.expression(helpers[colon + 1:rest[0]], bound)
            for start, end in zip(rest, rest[1:] + [len(helpers)]):
                it = helpers[start:end]
                if at_top(it, "=") is not None:
                    inner = scope.pattern(it[1:at_top(it, "=")])
                    scope.expression(it[at_top(it, "=") + 1:], bound | inner)
        scope.expression(right, bound)

    @staticmethod
    def parameters(scope, found):
        bound, i = set(), 0
        while i < len(found):
            if found[i].text in CLOSES:
                end = closing(found, i)
                inner = found[i + 1:end]
                colon = at_top(inner, ":")
                if colon is not None:
                    scope.expression(inner[colon + 1:], bound)
                    bound |= {it.text for it in inner[:colon]}
                i = end + 1
            else:
                scope.expression(found[i:i + 1], bound)
                i += 1
        return bound


class Module:
    """A file of definitions."""

    HEAD = re.compile(rf"^(?:(?:pub|abbrev|unfoldable|opaque)\s+)*(data\s+|record\s+)?(?:pub\s+)?({OPERATOR}|{WORD})[^:=\n]*\s:\s")

    def __init__(self, crate, name, path):
        self.crate, self.name = crate, name
        text = read(path)
        self.imports = Imports(text)
        # in the order of the file; a constructor counts as its type
        self.definitions, self.inside, self.parameters = {}, {}, set()
        lines = self.without_blocks(it for it in text.splitlines() if not it.startswith("use "))
        starts = [at for at, line in enumerate(lines) if self.HEAD.match(line)]
        firsts = []
        for at in starts:
            while at > 0 and lines[at - 1].startswith("--"):
                at -= 1
            firsts.append(at)
        for at, first, end in zip(starts, firsts, firsts[1:] + [len(lines)]):
            kind, word = self.HEAD.match(lines[at]).groups()
            self.definitions[word] = Definition("\n".join(lines[first:end]), kind and kind.strip())
            if kind and kind.startswith("data"):
                for line in lines[at + 1:end]:
                    constructor = re.match(rf"\s+(?:pub\s+)?({OPERATOR}|{WORD})\s*:\s", line)
                    if constructor:
                        self.inside[constructor[1]] = word

    def without_blocks(self, lines):
        """Returns the lines of a file, with the contents of a block `module _` moved to the left, and keeps the block's parameters."""
        kept, is_inside = [], False
        for line in lines:
            if line and not line[0].isspace():
                is_inside = line.startswith("module _")
                if is_inside:
                    for group in re.findall(r"[({]([^(){}:]*):", line):
                        self.parameters |= set(group.split())
                    line = ""
            kept.append(line[2:] if is_inside and line.startswith("  ") else line)
        return kept


class Library:
    """All definitions of the repository."""

    def __init__(self):
        self.order = crates()
        self.modules, self.citing, self.code = {}, {}, {}
        for crate in self.order:
            folder = os.path.join(ROOT, "crates", crate, "specs")
            for path in files_of(folder, ".antt"):
                name = os.path.relpath(path, folder)[:-5].replace(os.sep, ".")
                self.modules[crate, name] = Module(crate, name, path)

    def home(self, crate, module, name):
        """Returns where a name is defined, as crate, file and name; None if that is the toolchain."""
        if crate not in self.order:
            return None
        path = module.split(".")
        if path[0] in ("declared", "contracts"):
            # a variant, a field or a contract counts as its type
            name = path[-1] if path[0] == "contracts" else name
            name = next((path[i - 1] for i, it in enumerate(path) if it in ("TheVariants", "TheInside")), name)
            self.item(crate, name)
            return crate, CODE, name
        found = self.modules.get((crate, module))
        ensure(found, f"there is no file {crate}: {module}")
        if name in found.definitions:
            return crate, module, name
        if name in found.inside:
            return crate, module, found.inside[name]
        ensure(name in found.imports.names, f"{crate}: {module} has no definition {name}")
        return self.home(*found.imports.names[name])

    def is_constructor(self, crate, module, name):
        if crate not in self.order:
            return False
        if "TheVariants" in module:
            return True
        found = self.modules.get((crate, module))
        if found is None or name in found.inside:
            return found is not None
        return name in found.imports.names and self.is_constructor(*found.imports.names[name])

    def item(self, crate, name):
        """Returns the number of lines of a type or a constant of the code, with its comment."""
        if (crate, name) not in self.code:
            self.code[crate, name] = self.find_item(crate, name)
        return self.code[crate, name]

    def code_home(self, crate, name, imported):
        """Returns where the code has what a clause beside it names: a type or a constant of this crate, or of one that it imports
        from; None if there is none."""
        for it in dict.fromkeys((imported if imported in self.order else crate, crate, *reversed(self.order[:self.order.index(crate)]))):
            if self.has_item(it, name):
                self.item(it, name)
                return it, CODE, name
        return None

    def has_item(self, crate, name):
        try:
            self.item(crate, name)
            return True
        except Failed:
            return False

    def find_item(self, crate, name):
        head = re.compile(rf"^(?:pub(?:\([\w:]+\))? )?(?:struct|enum|const|static|type|trait) {name}\b", re.M)
        for path in files_of(os.path.join(ROOT, "crates", crate, "src"), ".rt"):
            text = read(path)
            found = head.search(text)
            if found:
                before = text[:found.start()].splitlines()
                first = len(before)
                while first > 0 and before[first - 1].startswith(("///", "#[")):
                    first -= 1
                end = re.compile(r"^\}|^[^\n]*;$|\{\}$|\}$", re.M).search(text, found.start()).end()
                return len(before) - first + text[found.start():end].count("\n") + 1
        ensure(False, f"{crate} has no type or constant {name}")

    def cited(self, it):
        """Returns the definitions that a definition cites."""
        if it not in self.citing:
            crate, module, name = it
            where = self.modules[crate, module]
            scope = Scope(self, where.imports, where, where.parameters)
            where.definitions[name].cite(scope)
            ensure(not scope.unknown, f"{crate}: {module}: {name} cites what isn't found: {', '.join(sorted(scope.unknown))}")
            self.citing[it] = scope.cited - {None}
        return self.citing[it]

    def closure(self, first, opaque=()):
        """Returns all definitions that these lead to, not through those that are opaque, and the types and constants of the code
        that they name."""
        found, todo = set(), list(first)
        while todo:
            it = todo.pop()
            if it not in found:
                found.add(it)
                if it[1] != CODE and it not in opaque:
                    todo += self.cited(it)
        return found

    def lines(self, it):
        crate, module, name = it
        return self.item(crate, name) if module == CODE else self.modules[crate, module].definitions[name].lines

    def sums(self, found):
        """Returns how many lines these definitions have, and these types and constants."""
        return tuple(sum(self.lines(it) for it in found if (it[1] == CODE) == is_code) for is_code in (False, True))
