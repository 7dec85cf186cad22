"""Has the programs check configuration files: each fault with its line, which of two faults is reported, each limit, at it and
just past it, and what is said to be meant.

    python3 -m tests.programs.files UPSD UPSMON"""

import os
import sys
import tempfile

from tests.support import manual
from tests.support.harness import ended_in_bytes, ensure, expect, play, sections, spelled, write


# a password, which nothing ever shows
SECRET = b"ge/heim"


def rows_of_files():
    """Returns for each file the rows of file_faults.txt: a text of it, the line and the kind of its fault, or None if it has none, and
    for some what is said to be meant there."""
    found = {}
    for name, lines in sections("file_faults.txt"):
        rows = found.setdefault(name, [])
        for line in lines:
            text, *said = line.split(" | ")
            fault, *meant = said or [None]
            rows.append((spelled(text).encode("latin-1"), fault, *(spelled(it).replace("<TYPE>", manual.type_meant()) for it in meant)))
    return found


FILES = rows_of_files()


def texts_of_numbers(page):
    """Yields rows of texts about each directive that has one number. Limits and forms are those of the manual page."""
    head = spelled("{32*MONITOR u%d@h 1000 m p primary\\n}") if page == "upsmon.conf" else ""
    for word, (name, least, most, _) in manual.numbers(page).items():
        right = f"a number from {least} to {most} is meant"
        for line, kind, meant in (
            (f"{word} {least}", None, None),
            (f"{word} {most}", None, None),
            (f"{word} {least - 1}", "BadNumber", f"{least - 1}: {right}"),
            (f"{word} {most + 1}", "BadNumber", f"{most + 1}: {right}"),
            (f"{word} {least}\n{word} {most + 1}", "BadNumber", f"{most + 1}: {right}"),
            (f"{word} {least}\n{word} {least}", "Repeated", f"{word}: a line before has it"),
            (f"{word}", "BadForm", f"{word} {name} is meant"),
        ):
            text = head + line
            yield text.encode(), kind and f"{len(text.splitlines())}: {kind}", meant


def faults_of_each_kind():
    """Yields for each file of upsd the shortest text with a fault of each kind, as its file, its text and what is said of it."""
    for name, rows in FILES.items():
        longest_first = sorted((row for row in rows if len(row) == 3), key=lambda row: -len(row[0]))
        kinds = {row[1].split(": ")[1]: row for row in longest_first if name != "upsmon.conf"}
        yield from ((name, *row) for row in kinds.values())


class Tests:
    def __init__(self, upsd, upsmon, folder):
        self.upsd, self.upsmon, self.folder = upsd, upsmon, folder

    def checked(self, program, **texts):
        """Returns what a program says of a folder of files, each named with '_' for '.'."""
        with tempfile.TemporaryDirectory(dir=self.folder) as folder:
            for name, text in texts.items():
                write(os.path.join(folder, name.replace("_", ".")), text)
            # upsmon looks for upsc, and finds none
            return ended_in_bytes([program, "--check", "--conf", folder], env={"PATH": folder})

    def compare(self, name, rows):
        """Compares what a program says of each text of a file with a row: the first fault, and what is expected. No password is in
        either line."""
        program, own = (self.upsmon, "upsmon") if name == "upsmon.conf" else (self.upsd, "upsd")
        others = {it: b"" for it in ("ups_conf", "upsd_users", "upsd_conf") if name != "upsmon.conf"}
        for text, fault, *meant in rows:
            status, out, err = self.checked(program, **{**others, name.replace(".", "_"): text})
            what = f"{name}, {len(text)} bytes: {text[-60:]!r}"
            if fault is None:
                # the servers that upsmon.conf names aren't there, and upsmon says so
                is_warned = b"upsmon: UPS " in err
                ensure(status == int(is_warned) and f"{own}: {name}:".encode() not in err, f"{what}: found {status}, {err!r}")
                continue
            said = err.decode().splitlines()
            expect((status, out, said[:1], len(said)), (1, b"", [f"{own}: {name}:{fault}"], 2), what)
            if meant:
                expect(said[1], f"{own}: {meant[0]}", what)
            ensure(SECRET[:4] not in err and b"\xfc" not in err and b"0xfc" not in err, f"{what}: a password is shown: {err!r}")

    def test_ups_conf(self):
        self.compare("ups.conf", FILES["ups.conf"])

    def test_upsd_users(self):
        self.compare("upsd.users", FILES["upsd.users"])

    def test_upsd_conf(self):
        self.compare("upsd.conf", FILES["upsd.conf"])

    def test_upsmon_conf(self):
        self.compare("upsmon.conf", FILES["upsmon.conf"])

    def test_cmdvartab(self):
        self.compare("cmdvartab", FILES["cmdvartab"])

    def test_numbers(self):
        for page in ("upsd.conf", "upsmon.conf"):
            self.compare(page, texts_of_numbers(page))


if __name__ == "__main__":
    sys.exit(play(Tests, 2))
