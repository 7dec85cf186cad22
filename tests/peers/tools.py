"""Runs upsc, upsrw and upscmd against NUT's own upsd and dummy-ups, side by side with NUT's own tools.

    python3 -m tests.peers.tools UPSC UPSRW UPSCMD

It wants Debian's packages nut-server and nut-client, and runs their programs on loopback out of a folder of its own."""

import contextlib
import sys

from tests.peers.server import NutRoom
from tests.support.harness import ended, ensure, expect, play
from tests.support.room import until

DEVICE = b"""ups.status: OL
battery.charge: 90
battery.charge.low: 20
device.mfr: a "quoted" \\\\ name
ups.mfr: Dummy
ups.model: Rehearsal
"""
LOGIN = ["-u", "admin", "-p", "pw", "ROOM"]


class ToolRoom(NutRoom):
    """A room with NUT's server and driver, which both projects' tools ask."""

    def theirs(self, tool, *words):
        """Returns the status and the output of NUT's tool, and no error text."""
        return *self.tool(tool, *words), ""

    def ours(self, tool, *words):
        return ended([self.tools[tool], *self.named(words)])


class Tests:
    def __init__(self, upsc, upsrw, upscmd, folder):
        self.tools = {"upsc": upsc, "upsrw": upsrw, "upscmd": upscmd}
        self.folder = folder

    @contextlib.contextmanager
    def room(self):
        with ToolRoom((None, None), self.folder) as room:
            room.tools = self.tools
            room.nut_online(DEVICE)
            yield room

    def test_variables(self):
        with self.room() as room:
            found = room.ours("upsc", "ROOM")
            expect(found, room.theirs("upsc", "ROOM"), "upsc NAME")
            ensure("ups.status: " in found[1], "ups.status is shown")
            for line in found[1].splitlines():
                variable = line.split(": ", 1)[0]
                expect(room.ours("upsc", "ROOM", variable), room.theirs("upsc", "ROOM", variable), f"upsc NAME {variable}")

    def test_servers_and_clients(self):
        with self.room() as room:
            for option in ("-l", "-L"):
                expect(room.ours("upsc", option, "AT"), room.theirs("upsc", option, "AT"), f"upsc {option}")
            expect(room.ours("upsc", "-c", "ROOM"), (0, "", ""), "upsc -c")

    def test_refusals(self):
        with self.room() as room:
            expect(room.ours("upsc", "other@AT"), (1, "", "Error: UNKNOWN-UPS\n"), "an unknown UPS")
            expect(room.ours("upsc", "ROOM", "no.such"), (1, "", "Error: VAR-NOT-SUPPORTED\n"), "an unknown variable")

    def test_settable(self):
        with self.room() as room:
            heads = lambda run: [line for line in run("upsrw", "ROOM")[1].splitlines() if line.startswith("[")]
            # NUT's driver may tell of some only after its start
            until(lambda: heads(room.theirs) and heads(room.ours) == heads(room.theirs), "both show the variables that may be set", 30)
            expect(room.ours("upsrw", "ROOM")[::2], (0, ""), "upsrw NAME")

    def test_sets(self):
        with self.room() as room:
            # NUT's driver accepts no SET soon after its start
            until(lambda: room.ours("upsrw", "-s", "ups.status=OB DISCHRG", *LOGIN) == (0, "OK\n", ""), "upsrw -s", 30)
            until(lambda: room.ours("upsc", "ROOM", "ups.status") == (0, "OB DISCHRG\n", ""), "the variable is set")
            expect(room.theirs("upsc", "ROOM", "ups.status"), (0, "OB DISCHRG\n", ""), "NUT's upsc sees it")
            # NUT's server numbers no requests
            expect(room.ours("upsrw", "-w", "-s", "ups.status=OL", *LOGIN), (1, "", "Error: not tracked\n"), "upsrw -w")
            wrong = room.ours("upsrw", "-s", "ups.status=OL", "-u", "admin", "-p", "x", "ROOM")
            expect(wrong, (1, "", "Error: ACCESS-DENIED\n"), "a wrong password")

    def test_commands(self):
        with self.room() as room:
            status, output, error = room.ours("upscmd", "-l", "ROOM")
            expect((status, error), (0, ""), "upscmd -l")
            theirs = room.theirs("upscmd", "-l", "ROOM")[1].splitlines()[2:]
            expect(output.splitlines(), theirs, "the commands")
            command = output.splitlines()[0].split(" - ")[0]
            expect(room.ours("upscmd", *LOGIN, command), (0, "OK\n", ""), f"upscmd {command}")
            expect(room.ours("upscmd", *LOGIN, "no.such"), (1, "", "Error: CMD-NOT-SUPPORTED\n"), "an unknown command")


if __name__ == "__main__":
    sys.exit(play(Tests, 3, "'apt-get install nut-client nut-server' installs what they need"))
