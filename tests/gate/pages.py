"""Holds the pages of docs/ and those of the root against what they name: files, crates, definitions, functions, tests and targets of
make have to be there, what is made from the sources has to be up to date, and the pages have to stay small.

usage: python3 -m tests.gate.pages [--write | --tests [MODULE ..]]

Without an argument it tests that. `--write` makes the list of laws in docs/proved.md.
`--tests` prints what each test shows, by the docstrings, of all modules or of those whose names contain one of the words."""

import ast
import functools
import glob
import os
import re
import subprocess
import sys

from tests.gate.believe import LEFT_OUT, STATES
from tests.gate.definitions import Library, crates, files_of, read
from tests.support.harness import ROOT, ensure, expect, run_tests, write
from tests.support.manual import numbers

DOCS = os.path.join(ROOT, "docs")
FRONT_PAGES = ("README.md", "CONTRIBUTING.md", "SECURITY.md", "CHANGELOG.md")
PROVED = os.path.join(DOCS, "proved.md")
# The greatest sizes, in bytes: of all of docs/, and of some pages.
ALL_DOCS = 212_000
SIZES = {
    "DECISIONS.md": 30_000, "believe.md": 27_500, "maintaining.md": 4_000, "proved.md": 28_500, "room.md": 12_500, "room-law.md": 7_500,
    "decision.md": 4_500, "room.svg": 9_000,
}

# Names of others that pages have, and that stand nowhere in the sources.
OF_OTHERS = {"SyslogLevel"}
# The pages in which most names are NUT's; tests/programs/from_nut.py has their own test.
OF_NUT = ("docs/from-nut.md",)

LAWS = re.compile(r"(?<=<!-- laws -->\n).*?(?=<!-- end of laws -->)", re.S)

# Where code that pages name is: folders, and the endings of files there.
SOURCES = (
    ("crates/*/src", ".rt"), ("crates/*/specs", ".antt"), ("tests", ".py"), ("tests", ".c"), ("tests/support", ".txt"),
    ("bench", ".py"), ("packaging", ""), ("tools", ""), ("man", ""), ("examples", ""),
)
COMMENT = re.compile(r"^\s*(//|--).*$", re.M)


# ---- laws


class Law:
    """A law of a crate: its name, and what its comment says."""

    HEAD = re.compile(r"((?:^[ ]*///.*\n)+)^[ ]*pub fn (\w+)", re.M)

    def __init__(self, name, text):
        self.name = name
        text = STATES.sub("", text, count=1)
        text = re.sub(r"\[(`[^`]*`)\](?:\([^)]*\))?", r"\1", text)
        self.text = text[0].upper() + text[1:]

    @classmethod
    def of(cls, crate):
        """Returns the laws of a crate in the order of its files, without those that only proofs cite."""
        found = []
        for path in files_of(os.path.join(ROOT, "crates", crate, "src"), ".rt"):
            for comment, name in cls.HEAD.findall(read(path)):
                text = " ".join(" ".join(line.strip()[3:] for line in comment.splitlines()).split())
                if STATES.match(text) and name not in LEFT_OUT.get(crate, ()):
                    found.append(cls(name, text))
        return found


def laws():
    """Returns the list of laws: a row for each, by crate."""
    out = []
    for crate in crates():
        found = Law.of(crate)
        if found:
            out += [f"\n### {crate}\n", *(f"- `{it.name}`: {it.text}" for it in found)]
    return "\n".join(out) + "\n\n"


# ---- tests


def tests_of(path):
    """Returns what a module's tests show: the first paragraph of its docstring, and a line for each test."""
    module = ast.parse(read(path))
    about = " ".join((ast.get_docstring(module) or "").split("\n\n")[0].split())
    shown = []
    for it in ast.walk(module):
        if isinstance(it, ast.FunctionDef) and it.name.startswith("test_"):
            name = it.name.removeprefix("test_").replace("_", " ")
            said = " ".join((ast.get_docstring(it) or "").split())
            shown.append(f"- {name}: {said}" if said else f"- {name}")
    return about, shown


def print_tests(words):
    for path in files_of(os.path.join(ROOT, "tests"), ".py"):
        about, shown = tests_of(path)
        name = os.path.relpath(path, ROOT)
        if shown and (not words or any(word in name for word in words)):
            print(f"{name}: {about}", *shown, "", sep="\n")


# ---- what pages name


def rows_under(heading, page):
    """Returns the rows of the table under a heading, each as its cells."""
    table = page.partition(f"\n{heading}\n")[2].partition("\n#")[0]
    found = [[cell.strip() for cell in row.strip("|").split("|")] for row in re.findall(r"^\|.*\|$", table, re.M)]
    ensure(len(found) > 2, f"there is no table under {heading!r}")
    return found[2:]


def prose(text):
    """Returns a page without its blocks of code."""
    return re.sub(r"^```.*?^```$", "", text, flags=re.M | re.S)


class Named:
    """What there is to name."""

    WORD = re.compile(r"[A-Za-z_][A-Za-z0-9_]*")
    # a word that is a name of the code wherever it stands between backquotes
    IS_NAME = re.compile(r"[a-z]+[a-z0-9]*_[a-z0-9_]+|[A-Z][a-z0-9]\w*|[A-Z][A-Z0-9]*_[A-Z0-9_]+")
    PATH = re.compile(r"[\w.*-]+(?:/[\w.*-]+)+/?|[\w-]+\.(?:md|rt|py|sh|c|txt)")

    def __init__(self):
        self.library = Library()
        self.texts = [read(os.path.join(ROOT, "Makefile")), read(os.path.join(ROOT, "crates.txt"))]
        for folder, ending in SOURCES:
            for at in glob.glob(os.path.join(ROOT, folder)):
                paths = [path for path in files_of(at, ending) if "__pycache__" not in path]
                # this file names what there isn't, to see that it is found
                self.texts += [self.code(path) for path in paths if path != os.path.abspath(__file__)]
        self.words = set(self.WORD.findall("\n".join(self.texts))) | OF_OTHERS
        # what each module of tests has, as pages name it: `upsd_sockets.notices`
        self.tests = {
            f"{os.path.basename(path)[:-3]}.{name}"
            for path in files_of(os.path.join(ROOT, "tests"), ".py")
            for name in re.findall(r"^    def test_(\w+)", read(path), re.M)
        }
        # files of definitions and of proofs have names that stand in no text
        for folder in glob.glob(os.path.join(ROOT, "crates", "*", "specs")) + glob.glob(os.path.join(ROOT, "crates", "*", "proofs")):
            self.words |= {os.path.basename(path)[:-5] for path in files_of(folder, ".antt")}
        rules = " ".join(re.findall(r"^([\w -]+):", self.texts[0], re.M))
        self.targets = {*rules.split(), *re.search(r"PROGRAMS := (.*)", self.texts[0])[1].split()}

    @staticmethod
    def code(path):
        text = read(path)
        return COMMENT.sub("", text) if path.endswith((".rt", ".antt")) else text

    @functools.lru_cache(maxsize=None)
    def is_said(self, text):
        return any(text in it for it in self.texts)

    def has_path(self, path):
        """Whether there is such a file or folder, seen from the top, from crates/ or from a crate's code."""
        path = path.rstrip("/").rstrip(".")
        # NAME in a path stands for any
        any_path = re.sub(r"\b[A-Z]+(-[A-Z]+)*\b(?=[/.])", "*", path)
        starts = ("", "crates", "docs", "packaging", "tests/*", "crates/*/src", "crates/*/specs", "crates/*/proofs/*")
        return any(glob.glob(os.path.join(ROOT, start, any_path + end)) for start in starts for end in ("", ".antt")) or self.is_said(path)

    @staticmethod
    def has_function(crate, name):
        files = files_of(os.path.join(ROOT, "crates", crate, "src"), ".rt")
        return any(re.search(rf"^[ ]*pub (?:const )?fn {name}\b", read(path), re.M) for path in files)

    def missing(self, span):
        """Returns what a text between backquotes names that isn't there."""
        if target := re.match(r"make ([a-z][\w-]*)", span):
            return [] if target[1] in self.targets else [span]
        if module := re.search(r"-m (tests\.[\w.]+)", span):
            return [] if os.path.exists(os.path.join(ROOT, *module[1].split(".")) + ".py") else [span]
        if place := re.fullmatch(r"(\w+): ([\w/.]+)", span):
            if place[1] in self.library.order:
                return [] if (place[1], place[2].replace("/", ".")) in self.library.modules else [span]
        if (item := re.fullmatch(r"(\w+)::(\w+)", span)) and item[1] in self.library.order:
            return [] if self.library.code_home(item[1], item[2], None) or self.has_function(*item.groups()) else [span]
        if self.PATH.fullmatch(span):
            return [] if self.has_path(span) else [span]
        if re.fullmatch(r"\w+\.\w+", span) and any(it.startswith(span.partition(".")[0] + ".") for it in self.tests):
            return [] if span in self.tests or self.is_said(span) else [span]
        names = [word for word in self.WORD.findall(span) if self.IS_NAME.fullmatch(word)]
        return [word for word in names if word not in self.words and word not in self.library.order]

    def missing_of(self, page):
        """Returns what a page names that isn't there."""
        text = prose(page)
        found = []
        for span in re.findall(r"`([^`\n]+)`", text):
            found += self.missing(span)
        plain = re.sub(r"`[^`\n]+`", "", text)
        for path in re.findall(r"(?<![\w/])(?:docs|tests|crates|tools|man|packaging|examples|bench)/[\w./*-]+", plain):
            if not self.has_path(path):
                found.append(path)
        for name in re.findall(r"(?<![\w/])[A-Z]+\.md\b", plain):
            if not any(os.path.exists(os.path.join(at, name)) for at in (ROOT, DOCS)):
                found.append(name)
        for block in re.findall(r"^```sh\n(.*?)^```", page, re.M | re.S):
            for span in re.findall(r"(?:^|(?<=&& ))make [a-z][\w-]*|-m tests\.[\w.]+", block, re.M):
                found += self.missing(span)
        return found


def pages():
    """Yields the name and the text of each page."""
    for path in [os.path.join(ROOT, it) for it in FRONT_PAGES] + sorted(glob.glob(os.path.join(DOCS, "*.md"))):
        yield os.path.relpath(path, ROOT), read(path)


class Tests:
    def test_each_folder_has_its_place(self):
        """Each folder at the top that git keeps, but docs/, stands in the table of docs/architecture.md: none is there by mistake."""
        table = read(os.path.join(DOCS, "architecture.md")).partition("## Where things are")[2]
        kept = subprocess.run(["sh", "-c", "git ls-files '*/*'"], cwd=ROOT, capture_output=True, text=True)
        for it in sorted({path.partition("/")[0] for path in kept.stdout.split()} - {"docs"}):
            ensure(it.startswith(".") or f"`{it}/" in table, f"{it}/ is at the top, and not in docs/architecture.md")

    def test_laws_are_up_to_date(self):
        """The list of laws in docs/proved.md is what their comments say."""
        found = LAWS.search(read(PROVED))
        ensure(found, "docs/proved.md has no place for the laws")
        expect(found[0].splitlines(), laws().splitlines(), "the laws in docs/proved.md; python3 -m tests.gate.pages --write writes them")

    def test_what_differs_from_what_was_asked_is_shown(self):
        """Each row of docs/DECISIONS.md on what the programs do differently names tests that are there."""
        tests = Named().tests
        for asked, *_, shown in rows_under("### The programs", read(os.path.join(DOCS, "DECISIONS.md"))):
            named = re.findall(r"`([^`]+)`", shown)
            ensure(named and tests.issuperset(named), f"docs/DECISIONS.md: {asked} is shown by {shown}")

    def test_what_pages_name_is_there(self):
        """Files, crates, definitions, functions, tests and targets of make that a page names are there."""
        named = Named()
        expect([f"{page}: {it}" for page, text in pages() if page not in OF_NUT for it in named.missing_of(text)], [], "what isn't there")
        told = re.findall(r"^# make ([a-z-]+)", named.texts[0], re.M)
        expect([it for it in told if it not in named.targets], [], "targets of make in the Makefile's own list")

    def test_what_is_not_there_is_found(self):
        """A page that names something that isn't there is refused."""
        named = Named()
        code = ("no_such_function", "NoSuchType", "NO_SUCH_LIMIT", "make nothing")
        tests = ("python3 -m tests.nothing", "upsd_sockets.nothing")
        for span in (*code, "nut_words: Nothing", "nut_words::Nothing", "nut_words/src/nothing.rt", *tests):
            ensure(named.missing_of(f"It is `{span}`."), f"{span} counts as something")
        for text in ("See docs/nothing.md.", "See NOTHING.md.", "```sh\nmake nothing\n```\n", "```sh\ncd x && make nothing\n```\n"):
            ensure(named.missing_of(text), f"{text} names something")

    def test_wrong_bodies_of_first_promises_are_listed(self):
        """docs/tests.md lists wrong bodies that are there, and all in the crates' must-fail/, by the words of their names."""
        rows = re.findall(r"^- (nut_\w+): (.*)$", read(os.path.join(DOCS, "tests.md")), re.M)
        listed = {f"{crate}: {words}" for crate, row in rows for words in row.lower().replace("'", "").split("; ")}
        for folders, is_right in ("must-fail", listed.issuperset), ("*", listed.issubset):
            paths = glob.glob(os.path.join(ROOT, "crates", "nut_*", folders, "*.edit"))
            found = {re.sub(".*/(.*)/.*/(.*).edit", lambda it: f"{it[1]}: {re.sub('[-_]', ' ', it[2])}", path) for path in paths}
            ensure(is_right(found), f"docs/tests.md and {folders}/ differ: {sorted(found - listed if folders == 'must-fail' else listed - found)}")

    def test_defaults_of_the_monitors_rule(self):
        """The numbers in brackets of docs/decision.md are the defaults that upsmon.conf(5) names."""
        found = set(re.findall(r"\b([A-Z]{5,}) \((\d+)\)", read(os.path.join(DOCS, "decision.md"))))
        ensure(len(found) >= 5, f"docs/decision.md names few defaults: {found}")
        defaults = {(word, str(it.default)) for word, it in numbers("upsmon.conf").items()}
        expect(sorted(found - defaults), [], "docs/decision.md: what isn't a default")

    def test_sums(self):
        """What a page adds up is right."""
        for page, text in pages():
            for terms, total in re.findall(r"(?<![+-] )\b(\d+(?: [+-] \d+)+) = \**(\d+)", text):
                expect(sum(map(int, terms.replace("- ", "-").replace("+ ", "").split())), int(total), f"{page}: {terms}")

    def test_pages_are_small(self):
        """docs/ and its pages keep to their sizes."""
        size = sum(os.path.getsize(path) for path in files_of(DOCS, ""))
        ensure(size <= ALL_DOCS, f"docs/ has {size:,} bytes, more than {ALL_DOCS:,}")
        for page, most in SIZES.items():
            size = os.path.getsize(os.path.join(DOCS, page))
            ensure(size <= most, f"docs/{page} has {size:,} bytes, more than {most:,}")


def main(words):
    if words == ["--write"]:
        write(PROVED, LAWS.sub(lambda _: laws(), read(PROVED)))
        return 0
    if words and words[0] == "--tests":
        print_tests(words[1:])
        return 0
    return run_tests(Tests())


if __name__ == "__main__":
    sys.exit(main(sys.argv[1:]))
