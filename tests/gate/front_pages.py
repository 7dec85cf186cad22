"""Holds the pages that people read first against what they name beside what every page may name (pages.py). Headings and programs have
to exist, the README has to name this toolchain's logic and laws that are there, its claims have to stand beside their clauses in
docs/proved.md, and the commands of CONTRIBUTING.md that take seconds are pasted into a shell. It needs no built program."""

import glob
import os
import re
import subprocess
import sys

from tests.gate.pages import FRONT_PAGES as PAGES
from tests.support.harness import ROOT, Missing, ensure, expect, read, run_tests
from tools.crates import below, built_programs, is_program, name_of, rows

# The greatest lengths in bytes.
LENGTHS = {"README.md": 8192, "CONTRIBUTING.md": 12 * 1024}
# Commands of CONTRIBUTING.md that take seconds, and the others, which are looked at by their names.
PASTED = ("python3 -m tests.gate.wrong_bodies --look", "python3 -m tests.gate.layout", "python3 -m tests.gate.believe")
LOOKED_AT = (
    "make try",
    "make test",
    "tools/tried bin/tried upsd",
    "python3 -m tests.programs.upsd_stdio bin/tried/upsd refused",
    "cd crates/nut_queue && rt check",
    "python3 -m tests.gate.wrong_bodies nut_queue",
    "python3 -m tests.gate.front_pages",
    "make check",
)
LICENCE = "No licence has been chosen for Mulgefa: that is its owner's to choose."


def text_of(page):
    return read(os.path.join(ROOT, page))


def commands_in(page):
    """Returns the lines of a page's blocks for the shell."""
    return [line for block in re.findall(r"^```sh\n(.*?)^```", text_of(page), re.MULTILINE | re.DOTALL) for line in block.splitlines()]


def headings_in(page):
    return set(re.findall(r"^#+ (.*)$", text_of(page), re.MULTILINE))


def claims():
    """Returns the numbered claims of the README's "What is proved", by their numbers."""
    section = text_of("README.md").partition("\n## What is proved\n")[2].partition("\n## ")[0]
    return dict(re.findall(r"^(\d)\. (.*)$", section, re.MULTILINE))


def clauses_of(name):
    """Returns the names of the clauses of all functions with this name."""
    found = set()
    for path in glob.glob(os.path.join(ROOT, "crates", "*", "src", "**", "*.rt"), recursive=True):
        for head in re.findall(rf"^[ ]*pub fn {name}\b.*?^[ ]*\{{", text_of(path), re.MULTILINE | re.DOTALL):
            found |= set(re.findall(r"ensures\*? (\w+) \{", head))
    return found


class Tests:
    def test_lengths(self):
        for page, most in LENGTHS.items():
            ensure(len(text_of(page).encode()) <= most, f"{page} is longer than {most} bytes")

    def test_headings(self):
        for page in PAGES:
            for other, quoted in re.findall(r'([\w/]+\.md),? \(?((?:"[^"]+"(?: and )?)+)', text_of(page)):
                for heading in re.findall('"([^"]+)"', quoted):
                    ensure(heading in headings_in(other), f"{page}: {other} has no heading {heading!r}")

    def test_programs(self):
        known = {name_of(it) for it in rows() if is_program(it)}
        for page in PAGES:
            named = re.findall(r"(?<![\w/])bin/(?:tried/)?([a-z][\w-]*)", text_of(page))
            expect([it for it in named if it not in known | {"tried"}], [], f"{page}: programs")

    def test_toolchain(self):
        try:
            version = subprocess.run(["rt", "version"], stdout=subprocess.PIPE, text=True, check=True).stdout
        except FileNotFoundError:
            raise Missing("rt isn't on the PATH") from None
        (logic,) = re.findall(r"\blogic ([0-9a-f]{16})\b", text_of("README.md"))
        expect(re.findall(r"\blogic ([0-9a-f]{16})\b", version), [logic], "the logic of this toolchain, which README.md names")

    def test_laws(self):
        """Each law that the README's claims name is one of docs/proved.md, and each clause one of the functions that it names."""
        laws = set(re.findall(r"^- `(\w+)`: ", text_of("docs/proved.md"), re.MULTILINE))
        for number, claim in claims().items():
            named = [it for group in re.findall(r"\bLaws? ((?:`\w+`(?:, | and )?)+)", claim) for it in re.findall(r"`(\w+)`", group)]
            ensure(named or number in "237", f"claim {number} names no law")
            expect([it for it in named if it not in laws], [], f"claim {number}: laws that aren't in docs/proved.md")
            clauses = [it for group in re.findall(r"\bClauses ((?:`\w+`(?:, | and )?)+)", claim) for it in re.findall(r"`(\w+)`", group)]
            # the functions that it calls by their names, a method by that of its type as well
            calls = [it.rpartition("::")[2] for it in re.findall(r"`(\w+::\w+|\w+_\w+)`", claim) if it not in named]
            for call in calls if clauses else ():
                expect([it for it in clauses if it not in clauses_of(call)], [], f"claim {number}: clauses that {call} doesn't have")

    def test_claims(self):
        """Each claim of the README stands in docs/proved.md, by words of its own, beside the laws and clauses that it names."""
        rows = re.findall(r'^\| (\d) "([^"]+)" \| (.*?) \|', text_of("docs/proved.md"), re.MULTILINE)
        found = claims()
        expect(sorted({number for number, *_ in rows}), sorted(found), "the claims of docs/proved.md")
        for number, claim in found.items():
            beside = " ".join(named for at, _, named in rows if at == number)
            expect([words for at, words, _ in rows if at == number and words not in claim], [], f"claim {number}: what docs/proved.md quotes")
            ending = re.search(r"\b(?:Laws?|Clauses) .*", claim)
            named = re.findall(r"`([\w:]+)`", ending[0]) if ending else []
            expect([it for it in named if f"`{it}`" not in beside], [], f"claim {number}: what docs/proved.md doesn't name")

    def test_lines_to_believe(self):
        """The README's numbers of lines to believe are those of docs/believe.md, but for a fiftieth."""
        said = re.search(r"About ([\d,]+) lines of definitions have to be believed, about ([\d,]+) for a server alone", text_of("README.md"))
        page = text_of("docs/believe.md")
        meant = (re.search(r"^In all: [\d,]+ definitions of ([\d,]+) lines", page, re.MULTILINE), re.search(r"^## A server\n\n.*? ([\d,]+) lines", page, re.MULTILINE))
        for words, found in zip(said.groups(), meant):
            number, lines = (int(it.replace(",", "")) for it in (words, found[1]))
            ensure(abs(number - lines) * 50 <= lines, f"README.md says {words} lines, docs/believe.md {lines}")

    def test_notices(self):
        """Each library that is linked in has its licence among the notices, but for the toolchain's own."""
        try:
            said = subprocess.run([os.path.join(ROOT, "tools", "notices")], stdout=subprocess.PIPE, text=True, check=True).stdout
        except subprocess.CalledProcessError:
            raise Missing("rt isn't on the PATH") from None
        listed = rows()
        named = {word for crate in below(built_programs()) for word in listed[crate].partition(":")[2].split() if word not in listed}
        plain = set(re.search(r"come without a notice: (.*)\.$", said, re.MULTILINE)[1].split(", "))
        ensure(all(re.fullmatch(r"core|io|libc|os|std(_\w+)?", it) for it in plain), f"libraries without a licence: {plain}")
        expect([it for it in sorted(named - plain) if not re.search(rf"^(.*, )?{it} \(LICENSE", said, re.MULTILINE)], [], "libraries without a licence")

    def test_licence(self):
        for page in ("README.md", os.path.join("packaging", "deb", "copyright")):
            ensure(LICENCE in text_of(page), f"{page} doesn't say: {LICENCE}")

    def test_commands_of_contributing(self):
        found = commands_in("CONTRIBUTING.md")
        expect(sorted(found), sorted({*PASTED, *LOOKED_AT}), "its commands")
        for command in PASTED:
            done = subprocess.run(["bash", "-c", command], cwd=ROOT, stdin=subprocess.DEVNULL, stdout=subprocess.PIPE, stderr=subprocess.STDOUT, text=True)
            expect(done.returncode, 0, f"{command}: {done.stdout[-2000:]}")


if __name__ == "__main__":
    sys.exit(run_tests(Tests(), sys.argv[1:]))
