"""Plays the parts that have the program `rehearse` to themselves, and compares them with worked rows: the words of lines, the links
of a client, the loop of a server over arrivals in memory, and upsd's folder over files in memory.

    python3 -m tests.rehearsals.parts REHEARSE"""

import random
import sys

from tests.support.harness import ensure, expect, fewer, play, sections, spelled, table
from tests.support.model import words_of
from tests.support.player import escaped
from tests.support.request_rows import FORMS, LINK_ROWS, SHORTER_FORMS
from tests.support.stage import StageTests

# lines, and the words that each spells, or its fault
LINES = [
    (spelled(line).encode("latin-1"), spelled(what).removeprefix("nothing").encode())
    for what, line in (row.split(" <= ") for row in table("word_rows.txt"))
]

# the queries that begin with two command words
LONG_FORMS = (b"GET", b"LIST", b"SET")

# A server's files, and a line for each thing that its world does: behind '>' an arrival that is given.
FILES = [("ups", b"[su700]\n"), ("users", b""), ("upsd", b"MAXCONN 2")]
LOOP = r"""
> open a
> open b
> up 0
driver 0 takes DUMPALL\n
> bytes 1 VER\nFOO\n
connection 1 takes Network UPS Tools upsd profile 1.3\nERR UNKNOWN-COMMAND\n
> bytes 2 VER\nLOGOUT\nVER\n
connection 2 takes Network UPS Tools upsd profile 1.3\nOK Goodbye\n
connection 2 is closed
= 0 0
"""


def shown_words(words):
    return b"".join(escaped(word) + b"|" for word in words)


def written(query):
    """Returns a query as a link writes it: with its commands in capitals."""
    words = query.split(b" ")
    commands = 2 if words[0].upper() in LONG_FORMS else 1
    return b" ".join([word.upper() for word in words[:commands]] + words[commands:]) + b"\n"


class Tests(StageTests):
    def split(self, lines):
        return [("words split", line) for line in lines]

    def test_words_of_lines(self):
        for (line, wanted), it in zip(LINES, self.stage.play(self.split(line for line, _ in LINES))):
            expect(it, wanted, f"the words of {line!r}, or its fault")

    def test_copied_words_with_each_allocation_refused(self):
        lines = [line for line, wanted in LINES if not wanted.isalpha()]
        steps = self.split(lines)
        whole = self.stage.play(steps)
        seen = set()
        for at, found, is_whole in self.stage.refused_in_turn(steps):
            changed = [place for place, (one, other) in enumerate(zip(found, whole)) if one != other]
            ensure(len(changed) <= 1 and all(found[place] == b"Memory" for place in changed), f"allocation {at}: {found}")
            seen.update(changed)
        expect(seen, {at for at, line in enumerate(lines) if b"\\" in line}, "lines for which memory was refused")

    def test_10000_lines_without_sense(self):
        chance = random.Random(14)
        lines = b"".join(bytes(chance.choices(range(256), k=chance.randrange(513))) for _ in range(fewer(10_000))).split(b"\n")
        for line, it in zip(lines, self.stage.play(self.split(lines))):
            words = words_of(line)
            ensure(it == shown_words(words) if words is not None else it.isalpha(), f"{line!r}: {it!r}")

    def test_answers_on_links(self):
        steps = [[("link ask", query), ("link bytes", lines), ("link answer",)] for query, lines, *_ in LINK_ROWS]
        found = self.stage.play(sum(steps, []))
        for at, (query, lines, outcome, fault) in enumerate(LINK_ROWS):
            due = [escaped(written(query)), (fault or "ok").encode(), outcome.encode()]
            expect(found[3 * at : 3 * at + 3], due, f"{query}, answered by {lines}")

    def test_forms_of_queries(self):
        """Each form is asked in mixed case, and as it is written."""
        pairs = [(mixed, capitals) for mixed, capitals, *_ in FORMS + SHORTER_FORMS]
        pairs += [(capitals, capitals) for _, capitals in pairs]
        for (query, capitals), taken in zip(pairs, self.stage.play([("link ask", query) for query, _ in pairs])):
            expect(taken, escaped(capitals + b"\n"), f"{query}, as it is written")

    def test_the_loop_of_a_server(self):
        """That it does so in every world, also one that is slow, late or broken, is proved of `serve`."""
        lines = LOOP.replace("\\n", "%0A").strip().splitlines()
        steps = [*FILES, *((f"serve {line[2:]}",) for line in lines if line[0] == ">"), ("serve run",)]
        found = self.stage.play(steps)[len(steps) - 1 :]
        expect([line.decode() for line in found], lines, "what is taken and closed")

    def test_the_folder_of_upsd(self):
        """What is read of its files, what that means to a server, and what is reported."""
        for name, lines in sections("folder_runs.txt"):
            steps = [(it[2:].replace("DIR", self.stage.folder),) for it in lines if it[0] == ">"]
            status, *written = self.stage.run(steps)
            answers, errors = (it.decode().splitlines() for it in written)
            due = [it for it in lines if it[0] not in ">!"], ["rehearse: " + it[2:] for it in lines if it[0] == "!"]
            expect((status, [it for it in answers if it.split(" ")[0] != "ok"], errors), (0, *due), f"that {name}")


if __name__ == "__main__":
    sys.exit(play(Tests, 1))
