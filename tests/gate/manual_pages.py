"""Holds manual pages against the sources: the lines that a program reports and what its page says of them, the kinds of errors in
files, the priorities, and the numbers of limits and timeouts. upsmon(8) stays short, and its script is that of from-nut(7). Each
symptom of mulgefa-troubleshooting(7) is a text that a test sees. It needs no built program."""

import functools
import glob
import os
import re
import sys

from tests.support.harness import ROOT, ensure, expect, read, run_tests

MAN = os.path.join(ROOT, "man")
CRATES = os.path.join(ROOT, "crates")

# What all daemons report, by the files that have the texts. mulgefa(7) has those that no other page has.
SHARED = ("nut_program/failure", "nut_program/stack", "nut_poll/lossy_lines")
# A program's page, and the files that have what the program alone reports.
REPORTS = {
    "upsd": (
        "nut_server_sockets/report", "nut_server_sockets/deed_report", "nut_upsd/report", "nut_upsd/upsd_fault", "nut_program/reload_report",
        "nut_program/warning",
    ),
    "dummy-ups": ("nut_dummy_ups/dummy", "nut_dummy_ups/dummy_driver", "nut_dummy_ups/listen_fault", "nut_program/conf_file"),
}

# The list of texts with numbers, and of the constants that these are.
LIMITS = os.path.join(ROOT, "tests", "gate", "limits.txt")

# The greatest sizes of pages, in bytes, and how many symptoms there are at least.
MOST_BYTES = {"upsmon.8": 21 * 1024, "mulgefa-troubleshooting.7": 10_500}
LEAST_SYMPTOMS = 30

# The tests that have programs write symptoms, and the scripts that write them; what stands in a symptom for something else; and with
# what many begin, which the tests say apart.
SEEN = ("tests/programs/*.py", "tests/peers/*.py", "tests/support/*.py", "packaging/deb/postinst", "examples/upsmon.conf")
IN_SYMPTOMS = r"\b(?:NAME|WHY|X|FILE|LINE|ADDRESS|PORT|USER|NUMBER|SECONDS|MODE|STATUS|VARIABLE|UNIT)\b"
FRONT = r"Error: |UPS (?:X|NAME): (?:FSD set, but )?|shutdown: |upsmon\.conf:|POWERDOWNFLAG FILE "

# The files with what upsmon writes while it watches, or with --fsd or --check.
OF_UPSMON = ("nut_upsmon/src/*.rt", "nut_monitor_sockets/src/*.rt", "nut_program/src/reload_report.rt")
# Those with texts in the place of WHY, and with what all programs write.
OF_OTHERS = ("nut_poll/src/*.rt", "nut_program/src/*.rt", "nut_client/src/failure.rt", "nut_io/src/*.rt")
# The lines of --check DIR.. begin with the directory; those of the command line are of no watch.
NOT_ON_THE_PAGE = ("room.rt", "command_line.rt")
# What the page has for a part of a line, in capitals or as a number.
PLACE = r"signal: N \(NAME\)|\b(?:X|N|ROLE|FILE|WHY|NAME|ERROR|QUERY|CHANGES|STATUS|DIRECTIVE|PATH|DIR)\b|\b\d+\b"

# A text that a source writes.
WRITTEN = re.compile(r'write(?:ln)?!\([^"]*?"((?:[^"\\]|\\.)*)"')


@functools.lru_cache(maxsize=None)
def code(name):
    """Returns a source, by its crate and file, without comments."""
    crate, _, file = name.partition("/")
    return re.sub(r"//.*", "", read(os.path.join(CRATES, crate, "src", file + ".rt")))


@functools.lru_cache(maxsize=None)
def lines(page):
    """Returns the lines of a page as they are read, each with its macro, if it has one."""
    text = re.sub(r"\\f[BIR]", "", read(os.path.join(MAN, page))).replace(r"\&", "")
    for escape, sign in (("-", "-"), ("~", " "), ("(aq", "'"), ("(dq", '"'), ("(lq", '"'), ("(rq", '"'), ("(bu", "*"), ("e", "\\")):
        text = text.replace("\\" + escape, sign)
    return text.splitlines()


def words(page):
    """Returns what a page says, with one blank between words."""
    plain = (re.sub(r'"', "", re.sub(r"^\.[A-Z]+ ?", "", it)) if it.startswith(".") else it for it in lines(page))
    return " ".join(" ".join(plain).replace(" ,", ",").replace(" .", ".").split())


def heads(page, section=None):
    """Returns the heads of the paragraphs in a section, or in all of them."""
    found, inside, is_head = [], False, False
    for line in lines(page):
        if line.startswith(".SH"):
            inside = section in (None, line.removeprefix(".SH").strip(' "'))
        elif inside and is_head:
            found.append(" ".join(re.sub(r'"', "", re.sub(r"^\.[A-Z]+ ", "", line)).split()))
        is_head = line in (".TP", ".TQ")
    return found


def texts(name):
    """Returns the texts that a source writes, and those that stand there alone, such as what a match gives."""
    written = WRITTEN.findall(code(name))
    alone = [it for it in re.findall(r'"((?:[^"\\{}]|\\.)*)"', code(name)) if it not in written]
    return [re.sub(r"\s+", " ", it) for it in written], alone


def fragments(text):
    """Returns what stands between the places and colons of a text, but for signs."""
    return [it.strip() for it in re.split(r"\{[^{}]*\}|: ", text) if re.search(r"[a-z]{2}", it)]


def forms(written, place):
    """Returns regular expressions for texts, with this one for each of their places."""
    return [place.join(map(re.escape, re.split(r"\{[^{}]*\}", it))) for it in written if fragments(it)]


def numbers(place):
    """Returns the values of constants or fields of a source, or the default of a directive's number."""
    name, *constants = place.split(" ")
    for it in constants:
        found = re.search(rf"\bconst {it}: \w+ = ([\d_]+);|\b{it}: NumberOr<.*, ([\d_]+)>|\b{it}: (\d+),", code(name))
        ensure(found, f"{name} has no {it}")
        yield int((found[1] or found[2] or found[3]).replace("_", ""))


def parts(text, place):
    """Returns what stands between the places and colons of a line."""
    return [it.strip(" ;,()/.") for it in re.split(place + "|: ", text) if re.search("[A-Za-z]{2}", it)]


def codes(patterns, left_out=()):
    """Yields the names and the texts of sources, without comments."""
    for pattern in patterns:
        found = sorted(glob.glob(os.path.join(ROOT, "crates", pattern)))
        ensure(found, f"there is no {pattern}")
        for path in found:
            if os.path.basename(path) not in left_out:
                yield os.path.relpath(path, ROOT), re.sub(r"^\s*//.*$", "", read(path), flags=re.MULTILINE)


class Tests:
    def test_reports_stand_on_the_page(self):
        """What a program writes stands on its page, or in mulgefa(7) if other programs write it too."""
        for program, names in REPORTS.items():
            both = words(program + ".8") + " " + words("mulgefa.7")
            for name in (*names, *SHARED):
                for text in texts(name)[0]:
                    for part in fragments(text):
                        ensure(part.rstrip("; ") in both, f"{program}(8) lacks {part!r} of {name}")

    def test_heads_are_reported(self):
        """Each line under DIAGNOSTICS is one that the program writes. In a place stands a word in capitals, a number, a file or another
        text."""
        for program, names in REPORTS.items():
            written, alone = [], []
            for name in (*names, *SHARED):
                for found, more in zip((written, alone), texts(name)):
                    found += more
            place = "|".join([r"[A-Z]+(?:[@:/]?[A-Za-z]+)*", r"\d+", r"upsd\.users", *map(re.escape, filter(None, alone))])
            # a place may have a short text with places of its own
            short = [it for it in written if len(it) < 30 and ":" not in it]
            place = "|".join([place, *forms(short, f"(?:{place})")])
            known = [re.compile(f"{program}: {form}") for form in forms(written, f"(?:{place})")]
            diagnostics = [it for it in heads(program + ".8", "DIAGNOSTICS") if it.startswith(program + ": ")]
            ensure(len(diagnostics) > 5, f"{program}(8) has no diagnostics")
            for head in diagnostics:
                is_reason = re.fullmatch(rf"{program}: (?:FILE(?::LINE)?: (?:WHY|KIND)|WHY|--ups: KIND)", head)
                ensure(is_reason or any(form.fullmatch(head) for form in known), f"{program}(8) has {head!r}, which nothing writes")

    def test_errors_of_the_tools(self):
        """upsc(8) has each reason of a tool's failure."""
        reasons = re.findall(r'=> b"([a-z ]*[a-zU][a-zPS ]*)"', code("nut_client/failure"))
        ensure(len(reasons) > 5, "no reasons of failures are found")
        found = {it.removeprefix("Error: ") for it in heads("upsc.8", "DIAGNOSTICS") if it.startswith("Error: ")}
        wanted = {*reasons, "FAILED", "PENDING", "UNKNOWN", "NAME OF A REFUSAL"}
        expect(sorted(found), sorted(wanted), "the errors in upsc(8)")

    def test_kinds(self):
        """mulgefa(7) has each kind of error in a configuration file, and dummy-ups(8) each in a script."""
        for name, page, section in (("nut_conf/fault", "mulgefa.7", "ERRORS IN FILES"), ("nut_dummy/fault", "dummy-ups.8", "DIAGNOSTICS")):
            wanted = set(re.findall(r'#\[error\("([A-Z]\w+)"\)\]', code(name))) - {"Memory"}
            ensure(len(wanted) > 5, f"{name} has no kinds")
            found = {word for it in heads(page, section) if re.fullmatch(r"[A-Z]\w+(, [A-Z]\w+)*", it) for word in it.split(", ")}
            expect(sorted(found), sorted(wanted), f"the kinds in {page}")

    def test_priorities(self):
        marks = re.findall(r'Level::(\w+) => "<(\d)>"', code("nut_log/level"))
        short = {"Error": "err", "Warning": "warning", "Notice": "notice", "Info": "info"}
        expect(heads("mulgefa.7", "LOG LINES"), [f"{mark} ({short[name]})" for name, mark in marks], "the priorities in mulgefa(7)")

    def test_limits(self):
        """The numbers of limits and timeouts are those of the sources."""
        rows = [line.split(" | ") for line in read(LIMITS).splitlines() if line and line[0] != "#"]
        ensure(len(rows) > 50, f"only {len(rows)} rows")
        for page, text, place in rows:
            found = re.findall(re.escape(text).replace(r"\{\}", r"([\d,]+\d|\d)").replace(r"\ ", " "), words(page))
            ensure(found, f"{page} doesn't say {text!r}")
            for it in found:
                shown = [int(n.replace(",", "")) for n in ([it] if isinstance(it, str) else it)]
                expect(shown, list(numbers(place)), f"{page}: {text}")

    def test_probes(self):
        """upsd(8) says after how many seconds a machine counts as gone that answers no probe."""
        idle, interval, probes = numbers("nut_server_sockets/keepalive IDLE INTERVAL PROBES")
        ensure(f"client's machine answers no probe {idle + interval * probes} s" in words("upsd.8"), "the time of probes in upsd(8)")

    def test_diagnostics_of_upsmon_are_written(self):
        """What a line has between its places is a text of the sources, or several, since some texts are put together."""
        literals = [it for _, source in codes((*OF_UPSMON, *OF_OTHERS)) for it in re.findall(r'"((?:[^"\\]|\\.)*)"', source)]
        known = {it for literal in literals for it in parts(literal, r"\{[^{}]*\}|\b\d+\b")}
        any_of = "|".join(sorted(map(re.escape, known), key=len, reverse=True))
        written = re.compile(f"(?:{any_of})(?:[ ;(]+(?:{any_of}))*")
        found = heads("upsmon.8", "DIAGNOSTICS")
        ensure(len(found) > 50, f"upsmon(8) has {len(found)} diagnostics")
        for head in found:
            for part in parts(head, PLACE):
                ensure(written.fullmatch(part), f"upsmon(8) has {part!r} of {head!r}, which nothing writes")

    def test_what_upsmon_writes_is_on_the_page(self):
        there = "\n".join(lines("upsmon.8")) + "\n".join(lines("mulgefa.7"))
        for name, source in codes(OF_UPSMON, NOT_ON_THE_PAGE):
            for text in WRITTEN.findall(source):
                # what is wrong with a word of the command line is said of the word
                for part in [] if text.startswith("--") else parts(text, r"\{[^{}]*\}|\\\w|\b\d+\b"):
                    ensure(part in there, f"upsmon(8) lacks {part!r} of {name}: {text!r}")

    def test_sections_of_upsmon(self):
        """What an operator needs first comes first."""
        names = re.findall(r'^\.SH "?([^"\n]*)"?$', "\n".join(lines("upsmon.8")), re.MULTILINE)
        expect(names[2:5], ["DESCRIPTION", "IN AN EMERGENCY", "WHEN THE MACHINE IS SHUT DOWN"], "the first sections")
        for name in ("OPTIONS", "EXIT STATUS", "ENVIRONMENT", "FILES", "DIAGNOSTICS", "SECURITY", "EXAMPLES", "SEE ALSO"):
            ensure(name in names, f"upsmon(8) has no section {name}")

    def test_script_of_upsmon(self):
        """The script that shuts down after some minutes is the one that from-nut(7) has, which the packages' tests run."""
        script = re.search(r"^#!/bin/sh\n.*?^esac$", "\n".join(lines("upsmon.8")), re.MULTILINE | re.DOTALL)
        ensure(script, "upsmon(8) has no script")
        source = read(os.path.join(ROOT, "docs", "from-nut.md"))
        ensure(f"```\n{script[0]}\n```" in source, "the script isn't that of docs/from-nut.md")

    def test_symptoms_are_seen(self):
        """Each symptom of mulgefa-troubleshooting(7) is a text that a test has a program write, or one of a script."""
        seen = "\n".join(read(path) for it in SEEN for path in sorted(glob.glob(os.path.join(ROOT, it))))
        symptoms = heads("mulgefa-troubleshooting.7")
        expect(len(set(symptoms)), len(symptoms), "symptoms, each once")
        ensure(len(symptoms) >= LEAST_SYMPTOMS, f"only {len(symptoms)} symptoms")
        for symptom in symptoms:
            parts = re.split(IN_SYMPTOMS, re.sub(f"^(?:{FRONT})", "", symptom))
            # a test may have the seconds of a silence from a table
            text = ".+".join(re.escape(it).replace("60", r"(?:60|\{\})") for it in parts).removeprefix(".+")
            ensure(re.search(text, seen), f"no test sees {symptom!r}")

    def test_sizes(self):
        for page, most in MOST_BYTES.items():
            size = os.path.getsize(os.path.join(MAN, page))
            ensure(size <= most, f"{page} has {size:,} bytes, more than {most:,}")


if __name__ == "__main__":
    sys.exit(run_tests(Tests(), sys.argv[1:]))
