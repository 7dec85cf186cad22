"""Holds the public surface of the crates to tests/surface.txt: each name stands there with its signature, and where it differs from
what was first asked for, both stand there with the entry of docs/DECISIONS.md that says why. It needs no built program.

usage: python3 -m tests.gate.surface [CRATE ..]

With the names of crates it prints their public names with their signatures, as surface.txt writes them."""

import os
import re
import sys

from tests.gate.definitions import crates, files_of, read
from tests.gate.pages import rows_under
from tests.support.harness import ROOT, ensure, expect, run_tests

LIST = os.path.join(ROOT, "tests", "surface.txt")
DECISIONS = os.path.join(ROOT, "docs", "DECISIONS.md")

# What stands between the brackets of a type's parameters, one of which may have some, too; and what ends a signature.
GENERICS = r"(?:<(?:[^<>]|<[^<>]*>)*>)?"
END = r"(?=\n\s*(?:requires|ensures|where)\b|\s\{|;\n)"


# ---- reading code, in the layout that the formatter gives it


def written(text):
    """Returns code on one line, as the formatter writes it if there is room."""
    text = re.sub(r" (?=[)\]>])|(?<=[(\[<]) ", "", " ".join(text.split()))
    return re.sub(r",(?=[)\]>]| \})", "", text)


def function(text, before=""):
    """Returns the name of a function and its signature, in which no `mut` stands that only lets it change its own parameter."""
    name = re.match(r"(?:const )?fn (\w+)", text)
    return before + name[1], written(f"fn {before}{name[1]}" + re.sub(r"(?<=[(,])(\s*)mut ", r"\1", text[name.end() :]))


class Code:
    """The public items of a file: `found` has their signatures by name, a method's behind its type, and `uses` what it hands on."""

    def __init__(self, text):
        self.found, self.uses = {}, []
        # each item begins at the left edge with a word
        for item in re.split(r"^(?!where\b)(?=[a-z])", re.sub(r"//[^\n]*", "", text), flags=re.M):
            if of := re.match(rf"impl{GENERICS} (\w+){GENERICS} \{{", item) or re.match(rf"pub trait (\w+)[^{{]*?(?= \{{)", item):
                begin = "pub " if item.startswith("impl") else ""
                if not begin:
                    self.found[of[1]] = written(of[0].removeprefix("pub "))
                methods = re.findall(rf"^    {begin}((?:const )?fn .*?){END}", item, re.M | re.S)
                self.found.update(function(it, f"{of[1]}::") for it in methods)
            elif fn := re.match(rf"pub ((?:const )?fn .*?){END}", item, re.S):
                self.found.update([function(fn[1])])
            elif data := re.match(rf"pub ((?:struct|enum) (\w+){GENERICS})(.*)", item, re.S):
                self.found[data[2]] = written(data[1]) + self.parts(data[1].startswith("enum"), data[3].strip())
            elif use := re.match(r"pub use ([^;]*);", item):
                self.uses.append(re.sub(r",\}", "}", re.sub(r"\s+(?!as )(?<! as )", "", use[1])))
            elif other := re.match(r"pub (const (\w+): .*?(?= =)|type (\w+).*?(?=;))", item, re.S):
                self.found[other[2] or other[3]] = written(other[1])

    @staticmethod
    def parts(is_enum, text):
        """Returns what is public in a type, in brackets: the fields of a struct, the variants of an enum."""
        if text.startswith("("):
            found = re.findall(r"\bpub ((?:[^,<>()]|<[^()]*>|\([^)]*\))+)", text)
            return f"({', '.join(map(written, found))})" if found else ""
        # each begins on a line of its own, and so does an attribute
        found = [it.strip().removesuffix(",") for it in re.split(r"^    (?=[\w#])", text[1 : text.rfind("}")], flags=re.M)]
        found = [it for it in found if re.match(r"\w" if is_enum else r"pub (?!ghost)", it)]
        return f" {{ {', '.join(written(it.removeprefix('pub ')) for it in found)} }}" if found else ""


class Surface:
    """The public names of all crates."""

    def __init__(self):
        self.crates, self.codes, self.known = crates(), {}, {}

    def code(self, crate):
        """Returns the code of a crate by its modules."""
        if crate not in self.codes:
            folder = os.path.join(ROOT, "crates", crate, "src")
            self.codes[crate] = {os.path.relpath(it, folder)[:-3]: Code(read(it)) for it in files_of(folder, ".rt")}
        return self.codes[crate]

    def of(self, crate, module="lib"):
        """Returns the signatures of a crate, or of a module of it, by their names, with what it hands on."""
        if (crate, module) not in self.known:
            code = self.code(crate)[module]
            self.known[crate, module] = found = dict(code.found)
            for use in code.uses:
                for path, name, other in self.used(use.removeprefix("crate::")):
                    found.update(self.handed_on(crate, module, path, name, other))
        return self.known[crate, module]

    @classmethod
    def used(cls, text):
        """Yields each path that a `use` names, its last part, and under which name it is handed on."""
        if listed := re.fullmatch(r"([\w:]+)::\{(.*)\}", text):
            for it in filter(None, listed[2].split(",")):
                yield from cls.used(f"{listed[1]}::{it}")
        else:
            path, name, other = re.fullmatch(r"([\w:]+)::(\w+)(?: as (\w+))?", text).groups()
            yield path, name, other or name

    def handed_on(self, crate, module, path, name, other):
        """Returns an item's signature and those of its methods under the name by which a module hands it on."""
        code, path = self.code(crate), path.replace("::", "/")
        home = next((it for it in (f"{module}/{path}", path) if it in code), None)
        place = dict(self.of(crate, home) if home else self.of(path))
        if home:
            # a type may have methods in other files of its crate
            place |= {key: text for it in code.values() for key, text in it.found.items() if "::" in key}
        found = {key: text for key, text in place.items() if key == name or key.startswith(f"{name}::")}
        ensure(name in found, f"{crate} hands on {name} of {path}, which isn't there")
        return {other + key[len(name) :]: re.sub(rf"^(\w+ ){name}\b", rf"\g<1>{other}", text) for key, text in found.items()}


# ---- the list


class Row:
    """A row of the list: what was asked for, and, if it differs, what there is and the word of the entry that says why."""

    def __init__(self, text):
        self.crate, self.signature = text.split(": ", 1)
        self.differs, self.word = None, ""

    @property
    def name(self):
        return re.match(r"\w+ ([\w:]+)", self.signature)[1]

    def __str__(self):
        return f"{self.crate}: {self.signature}"


def rows():
    """Returns the rows of the list."""
    found = []
    for line in read(LIST).splitlines():
        if differs := re.fullmatch(r"    `(.+?)` (\w+: .+)", line):
            ensure(found and not found[-1].differs, f"surface.txt: what differs from two rows or from none: {line}")
            found[-1].word, found[-1].differs = differs[1], Row(differs[2])
        elif line and not line.startswith("#"):
            ensure(re.match(r"\w+: (fn|struct|enum|trait|type|const) \w", line), f"surface.txt: not a row: {line}")
            found.append(Row(line))
    return found


def entries():
    """Returns what docs/DECISIONS.md names in its table of what differs: the words between backquotes in the first cell of a row."""
    return [re.findall(r"`([^`]+)`", cells[0]) for cells in rows_under("### The libraries", read(DECISIONS))]


class Tests:
    def __init__(self):
        self.surface, self.rows = Surface(), rows()

    def there(self, row):
        return self.surface.of(row.crate).get(row.name) if row.crate in self.surface.crates else None

    def test_names_and_signatures(self):
        """Each name is there, with the signature that the list has for it."""
        wanted = [row.differs or row for row in self.rows]
        found = [f"{row}\n  found: {self.there(row)}" for row in wanted if self.there(row) != row.signature]
        ensure(not found, "\n".join(["what isn't there, or not so:", *found]))

    def test_what_differs(self):
        """What differs from what was asked still does, and has its entry in docs/DECISIONS.md."""
        listed = {word for words in entries() for word in words}
        for row in filter(lambda it: it.differs, self.rows):
            ensure(self.there(row) != row.signature, f"{row} is there, so it no longer differs")
            ensure(row.word in listed, f"{row.differs}: docs/DECISIONS.md has no entry for `{row.word}`")

    def test_entries(self):
        """Each name of an entry of docs/DECISIONS.md has a row that differs."""
        words = {row.word for row in self.rows if row.differs}
        expect([it for named in entries() for it in named if it not in words], [], "what docs/DECISIONS.md names and doesn't differ")

    def test_no_test_is_in_rattle(self):
        """The crates have none, as docs/DECISIONS.md says."""
        paths = files_of(os.path.join(ROOT, "crates"), ".rt")
        expect([os.path.relpath(it, ROOT) for it in paths if "#[test]" in read(it)], [], "files with tests")

    def test_code_is_read(self):
        """What is public in code, without contracts, hidden parts, attributes and line breaks."""
        code = Code(read(os.path.join(ROOT, "tests", "gate", "surface_test.rt.txt")))
        expect(code.uses, ["other::{First,Second as Third}"], "what it hands on")
        wanted = [
            "struct Part<'a, const N: usize> { bytes: &'a [u8] }",
            "fn Part::get<T: Into<u8>>(&'a mut self, at: T, other: &mut T) -> Option<&'a [u8]>",
            "enum Kind { One(u8, Vec<(u8, u8)>), Two { first: u8, second: u8 }, Three }",
            "struct Name([u8; 2])",
            "trait End: Drop",
            "fn End::take(&mut self) -> (u8, Kind)",
            "const MOST: usize",
            "type All = Vec<Kind>",
            "fn run<R>(rt: &R)",
        ]
        expect(list(code.found.values()), wanted, "what is public")

    def test_no_name_twice(self):
        names = [(row.crate, row.name) for row in self.rows]
        expect(sorted(it for it in set(names) if names.count(it) > 1), [], "names that the list has twice")


def main(words):
    surface = Surface()
    for crate in words:
        for signature in surface.of(crate).values():
            print(f"{crate}: {signature}")
    return 0 if words else run_tests(Tests())


if __name__ == "__main__":
    sys.exit(main(sys.argv[1:]))
