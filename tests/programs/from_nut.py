"""Checks docs/from-nut.md against NUT's manual pages, if those are installed, and that the page from-nut(7) says the same.

    python3 -m tests.programs.from_nut [--write] [PROGRAM..]

The text is written only in docs/from-nut.md: with --write the page is made from it. Programs that are given are tested for
whether they support what it says."""

import gzip
import os
import re
import subprocess
import sys
import tempfile

from tests.support import manual
from tests.support.harness import ROOT, Missing, ended_in_bytes, ensure, expect, read, run_tests, write

SOURCE = os.path.join(ROOT, "docs", "from-nut.md")
PAGE = os.path.join(ROOT, "man", "from-nut.7")
NUTS = "/usr/share/man"
HEADER = '.\\" made by tests/programs/from_nut.py --write out of docs/from-nut.md\n.TH FROM-NUT 7 2026-11-30 Mulgefa "Network UPS Tools"\n'

# The sections of the document, and NUT's pages whose directives and options they have to name.
SECTIONS = {
    "ups.conf": "man5/ups.conf.5",
    "upsd.conf": "man5/upsd.conf.5",
    "upsd.users": "man5/upsd.users.5",
    "upsmon.conf": "man5/upsmon.conf.5",
    "nut.conf": "man5/nut.conf.5",
    "upsd": "man8/upsd.8",
    "upsmon": "man8/upsmon.8",
    "upsc": "man8/upsc.8",
    "upsrw": "man8/upsrw.8",
    "upscmd": "man8/upscmd.8",
    "dummy-ups": "man8/nutupsdrv.8",
}


def blocks(text):
    """Yields the document as blocks: headings, tables, code, lists and paragraphs, each a kind with its lines."""
    lines = text.splitlines()
    while lines:
        if not lines[0]:
            lines.pop(0)
        elif lines[0].startswith("#"):
            yield "heading", [lines.pop(0)]
        elif lines[0] == "```":
            end = lines.index("```", 1)
            yield "code", lines[1:end]
            lines = lines[end + 1 :]
        else:
            kind = {"|": "table", "-": "list"}.get(lines[0][0], "paragraph")
            end = lines.index("") if "" in lines else len(lines)
            yield kind, lines[:end]
            lines = lines[end:]


def cells(row):
    return [it.strip() for it in row.strip("|").split(" | ")]


def rows(lines):
    """Returns the rows of a table without its head."""
    return [cells(it) for it in lines[2:]]


def names_of(cell):
    """Returns what the first cell of a row names: a word or several, each as code, or a text."""
    return cell.split(", ") if re.fullmatch("`[^`]+`(, `[^`]+`)*", cell) else [cell]


# From here on, the page.


def escaped(text):
    return text.replace("\\", "\\e").replace("-", "\\-")


def plain(text):
    """Returns a line of text, with code and emphasis in bold."""
    text = re.sub(r"`([^`]*)`|\*\*([^*]*)\*\*", lambda it: f"\\fB{it[1] or it[2]}\\fR", escaped(text))
    return "\\&" + text if text[0] in ".'" else text


def sentences(text):
    """Returns a line for each sentence, as in the other pages."""
    return re.split(r"(?<=[.:]) (?=[A-Z])", plain(text))


def page_of(kind, lines):
    if kind == "heading":
        level, title = lines[0].split(" ", 1)
        if level == "##":
            yield f".SH {escaped(title.upper() if title[0].isupper() else title)}"
    elif kind == "code":
        yield from (".PP", ".EX", *map(escaped, lines), ".EE")
    elif kind == "table":
        for name, text in rows(lines):
            is_bold = re.fullmatch('`[^`"]+`', name)
            yield from (".TP", ".B " + escaped(name.strip("`")) if is_bold else plain(name), *sentences(text))
    elif kind == "list":
        for line in lines:
            yield from (".IP \\(bu 3", *sentences(line[2:]))
    elif re.fullmatch(r"(\S+\(\d\),? ?)+", lines[0]):
        names = re.findall(r"(\S+)\((\d)\)", lines[0])
        yield from (f".BR {name} ({section}){',' if i + 1 < len(names) else ''}" for i, (name, section) in enumerate(names))
    else:
        yield from (".PP", *(it for line in lines for it in sentences(line)))


def made_page(text):
    found = list(blocks(text))
    lines = [".SH NAME", "from-nut \\- what becomes of NUT's directives and options", ".SH DESCRIPTION"]
    for kind, block in found[1:]:
        lines += page_of(kind, block)
    # a paragraph right below a heading needs no mark of its own
    kept = [it for i, it in enumerate(lines) if it != ".PP" or not lines[i - 1].startswith(".SH")]
    return HEADER + "\n".join(kept) + "\n"


# From here on, NUT's pages.


def heads(page):
    """Yields the directives and options that a page of NUT describes: the heads of its indented paragraphs, such as
    '\fB\-c\fR \fIcommand\fR', '"MAXAGE \fIseconds\fR"' or 'SET'."""
    with gzip.open(os.path.join(NUTS, page + ".gz"), "rt", errors="replace") as file:
        text = file.read()
    if page.startswith("man8"):
        text = "".join(re.findall(r'^\.SH "?(?:OPTIONS|ENVIRONMENT VARIABLES)"?$.*?(?=^\.SH|\Z)', text, re.MULTILINE | re.DOTALL))
    for head in re.findall(r"^\.PP\n(.*[^:\n])\n\.RS 4$", text, re.MULTILINE):
        words = re.sub(r"\\f[BIR]", "", head).replace("\\-", "-").replace("\\&", "").strip('"').split()
        yield words[0].split("[")[0].split("=")[0]
    for variable in re.findall(r"^\\fB(NUT_[A-Z]+)\\fR is the path", text, re.MULTILINE):
        yield variable


# A directive in a line that is right except for its first word, behind a section if the file needs one.
LINES = {"ups.conf": "[u]\n{} = 1\n", "upsd.users": "[u]\n{} = 1\n", "upsd.conf": "{} 1\n", "cmdvartab": "{} a 1\n"}
LINES["upsmon.conf"] = "MINSUPPLIES 0\n{} 1\n"


class Tests:
    def __init__(self, built):
        self.built = {os.path.basename(path).replace("_", "-"): os.path.abspath(path) for path in built}

    def program(self, name):
        if name not in self.built:
            raise Missing("no built programs were handed in")
        return self.built[name]

    def said(self, *words):
        """Returns what a program writes to standard error, which it does at once or not at all."""
        try:
            return ended_in_bytes(words, timeout=20, env={"PATH": os.environ["PATH"], "NUT_CONFPATH": "/nowhere"})[2].decode()
        except subprocess.TimeoutExpired:
            return ""

    def test_options_are_supported_as_said(self):
        for program, found in self.sections().items():
            if program not in SECTIONS or "." in program:
                continue
            for name, text in found:
                if name.startswith("`-"):
                    said = self.said(self.program(program), *name.strip("`").split())
                    expect("unexpected argument" in said, text.startswith("refused"), f"{program} refuses {name}: {said}")

    def test_directives_are_supported_as_said(self):
        for section, found in self.sections().items():
            named = [it for it in found if section in LINES and it[0].startswith("`")]
            for name, text in named:
                with tempfile.TemporaryDirectory() as folder:
                    word = name.strip("`").replace("<variable>", "ups.id")
                    for file in LINES:
                        write(os.path.join(folder, file), LINES[file].format(word) if file == section else "")
                    program = "upsmon" if section == "upsmon.conf" else "upsd"
                    said = self.said(self.program(program), "--check", "--conf", folder)
                    expect("UnknownDirective" in said, text.startswith("not supported"), f"{section}: {name}: {said}")
                    # a type of notice begins no line of NUT's, so it isn't shown: it could be a password
                    meant = f"a directive of {section} is meant" if word == "NOPARENT" else f"{word} isn't taken here: see from-nut(7)"
                    hint = f"\n{program}: {meant}\n"
                    expect(said.endswith(hint), text.startswith("not supported"), f"{section}: {name}: {said}")

    def sections(self):
        """Returns the rows of each section's tables, one for each name of a first cell."""
        section, found = None, {}
        for kind, lines in blocks(read(SOURCE)):
            if kind == "heading":
                section = lines[0].lstrip("# ")
            elif kind == "table":
                found.setdefault(section, []).extend([name, *texts] for cell, *texts in rows(lines) for name in names_of(cell))
        return found

    def test_every_directive_and_option_of_nut(self):
        missing_pages = [it for it in SECTIONS.values() if not os.path.exists(os.path.join(NUTS, it + ".gz"))]
        if missing_pages:
            raise Missing(f"NUT's pages aren't installed: {' '.join(missing_pages)}")
        with gzip.open(os.path.join(NUTS, SECTIONS["ups.conf"] + ".gz"), "rt", errors="replace") as file:
            version = re.search(r"Network UPS Tools (\S+)\"", file.read().replace("\\&", ""))[1]
        ensure(version.startswith("2.8.0"), f"NUT's pages are of {version}, and not of 2.8.0")
        sections = self.sections()
        count = 0
        for section, page in SECTIONS.items():
            words = {word for row in sections[section] for cell in row for code in re.findall("`([^`]+)`", cell) for word in code.split()}
            wanted = set(heads(page))
            ensure(wanted, f"{page} has no heads")
            # the types of notices stand in our upsmon.conf(5)
            expect(sorted(wanted - words - set(manual.notices())), [], f"what {page} has and the section {section} doesn't name")
            count += len(wanted)
        ensure(count > 100, f"only {count} directives and options were found in NUT's pages")

    def test_no_name_twice(self):
        for section, found in self.sections().items():
            names = [row[0] for row in found]
            expect(len(set(names)), len(names), f"the rows of {section}")
            for row in found:
                expect(len(row), 2, f"the cells of {row}")

    def test_supported_directives_are_those_of_the_readers(self):
        """What is called supported here is in the file's manual page, or for cmdvartab in docs/programs.md, and what isn't is not.
        The page says of a directive if NUT has none of that name."""
        for section, found in self.sections().items():
            if section not in LINES:
                continue
            if section == "cmdvartab":
                table = read(os.path.join(ROOT, "docs/programs.md")).partition(f"\n## {section}\n")[2].partition("\n## ")[0]
                ours = re.findall(r"^\| `([A-Za-z]+)", table, re.MULTILINE)
            else:
                ours = [word for word, text in manual.directives(section).items() if "NUT has no such directive." not in text]
            supported = {row[0].strip("`") for row in found if row[1].startswith("supported")}
            expect(sorted(supported), sorted(ours), f"what {section} supports")

    def test_page_is_made_of_the_document(self):
        expect(read(PAGE) == made_page(read(SOURCE)), True, "man/from-nut.7 is what 'tests/programs/from_nut.py --write' makes")


def main():
    words = sys.argv[1:]
    if words[:1] == ["--write"]:
        words = words[1:]
        write(PAGE, made_page(read(SOURCE)))
    return run_tests(Tests(words), install="'apt-get install nut-server nut-client' installs NUT's pages")


if __name__ == "__main__":
    sys.exit(main())
