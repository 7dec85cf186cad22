"""Runs upsd and dummy-ups with the programs of Network UPS Tools that are installed here: its tools and its monitor's peers as
clients of this upsd, its dummy driver as a driver of this upsd, and its upsd as the server of this dummy driver.

    python3 -m tests.peers.server UPSD DUMMY_UPS

If a program isn't installed, what needs it is skipped, with a line that says so."""

import functools
import getpass
import os
import sys
import time

from tests.support import harness
from tests.support.harness import ended, ensure, expect, play
from tests.support.room import DEVICE, ONLINE, STATUS, Room, RoomTests, until

# where Debian keeps NUT's daemons and drivers
NUT_FOLDER = "/lib/nut"
# for how many seconds data are fresh, in tests that wait for it
MAXAGE = 4


# The path of one of NUT's programs, whose drivers and servers aren't on everybody's PATH.
needed = functools.partial(harness.needed, folders=(NUT_FOLDER,))


class NutRoom(Room):
    """A room in which NUT's own programs run too, with configurations of their own."""

    def environment(self):
        return {**os.environ, "NUT_CONFPATH": self.path("nut"), "NUT_STATEPATH": self.folder, "NUT_ALTPIDPATH": self.folder}

    def configure_nut(self, text=DEVICE, users=b""):
        """Writes the files of NUT's programs: a UPS of NUT's dummy driver, the user admin, and more users."""
        os.mkdir(self.path("nut"))
        for name, content in (
            ("ups.conf", b'[su700]\ndriver = dummy-ups\nport = %s\ndesc = "Server room"\n' % self.path("nut/su700.dev").encode()),
            ("upsd.conf", b"LISTEN 127.0.0.1 %d\n" % self.port),
            ("upsd.users", b"[admin]\npassword = pw\nactions = SET\ninstcmds = ALL\n" + users),
            ("su700.dev", text),
        ):
            self.write(f"nut/{name}", content)
            os.chmod(self.path(f"nut/{name}"), 0o600)

    def start_nut(self, *words):
        return self.start([*words, "-F", "-u", getpass.getuser()], env=self.environment())

    def start_nuts_driver(self):
        self.driver_process = self.start_nut(needed("dummy-ups", "nut-server"), "-a", "su700")

    def start_nuts_server(self):
        """Starts NUT's server, and waits until it listens."""
        self.server_process = self.start_nut(needed("upsd", "nut-server"))
        until(lambda: self.can_connect(self.server_process), "NUT's upsd listens")

    def nut_online(self, text=DEVICE, users=b""):
        """Starts NUT's driver and NUT's server, and waits until they report the first value of this text, which is the status."""
        for name, package in (("dummy-ups", "nut-server"), ("upsd", "nut-server"), ("upsc", "nut-client")):
            needed(name, package)
        self.configure_nut(text, users)
        self.start_nuts_driver()
        self.start_nuts_server()
        # until NUT's server has heard its driver, it shows WAIT
        shown = text.split(b": ")[1].partition(b"\n")[0].decode() + "\n"
        until(lambda: self.tool("upsc", "ROOM", "ups.status") == (0, shown), "NUT's upsd tells its driver's status")

    def online_by_nuts_driver(self):
        """Starts NUT's driver and this server, and waits until it shows that the UPS is on line."""
        needed("dummy-ups", "nut-server")
        self.configure_nut()
        self.start_nuts_driver()
        self.upsd()
        self.until(STATUS, ONLINE)

    def named(self, words):
        """Returns the words of a tool, with this room's UPS for ROOM, and its server for AT."""
        return [it.replace("ROOM", "su700@AT").replace("AT", f"127.0.0.1:{self.port}") for it in words]

    def tool(self, name, *words):
        """Returns what one of NUT's tools prints about this room's server."""
        return ended([needed(name, "nut-client"), *self.named(words)])[:2]


class Tests(RoomTests):
    kind = NutRoom

    def test_upsc_of_nut_and_this_upsd(self):
        with self.room() as room:
            needed("upsc", "nut-client")
            room.online()
            expect(room.tool("upsc", "ROOM", "ups.status"), (0, "OL\n"), "a value")
            expect(room.tool("upsc", "ROOM"), (0, "battery.charge: 100\nups.id: x\nups.status: OL\n"), "all values")
            expect(room.tool("upsc", "-L", "AT"), (0, "su700: Server room\n"), "all UPSes")
            expect(room.tool("upsc", "ROOM", "no.such")[0], 1, "a variable that isn't there")

    def test_upscmd_of_nut_and_this_upsd(self):
        with self.room() as room:
            needed("upscmd", "nut-client")
            room.online()
            status, out = room.tool("upscmd", "-l", "ROOM")
            expect((status, "load.off - " in out, "test.battery.start - " in out), (0, True, True), "commands")
            expect(room.tool("upscmd", "-u", "admin", "-p", "pw", "ROOM", "load.off"), (0, ""), "a command")
            room.until(STATUS, b'VAR su700 ups.status "OFF"\n')
            expect(room.tool("upscmd", "-u", "admin", "-p", "no", "ROOM", "load.on")[0], 1, "a wrong password")

    def test_upsrw_of_nut_and_this_upsd(self):
        with self.room() as room:
            needed("upsrw", "nut-client")
            room.online()
            status, out = room.tool("upsrw", "ROOM")
            expect((status, "[ups.id]" in out, "Value: x" in out), (0, True, True), "what may be set")
            expect(room.tool("upsrw", "-s", "ups.id=y z", "-u", "admin", "-p", "pw", "ROOM"), (0, ""), "a SET")
            room.until(b"GET VAR su700 ups.id\n", b'VAR su700 ups.id "y z"\n')

    def test_dummy_ups_of_nut_and_this_upsd(self):
        with self.room(conf=b"MAXAGE %d\n" % MAXAGE) as room:
            room.online_by_nuts_driver()
            expect(room.ask(b"GET VAR su700 driver.name\n"), b'VAR su700 driver.name "dummy-ups"\n', "its own value")
            with room.client() as client:
                client.log_in()
                rows = client.list(b"LIST RW su700\n")
                ensure(rows[0] == b"BEGIN LIST RW su700\n", f"what may be set: {rows!r}")
                set_it, get_it = b'SET VAR su700 battery.charge "50"\n', b"GET VAR su700 battery.charge\n"
                # a driver of NUT's may take no SET soon after its start
                until(lambda: client.ask(set_it) == b"OK\n" and b'"50"' in client.ask(get_it), "a SET", 30)
            # the driver is heard for longer than its data would be fresh without a word
            begun = time.monotonic()
            while time.monotonic() < begun + 2 * MAXAGE:
                expect(room.ask(STATUS), ONLINE, "still live")
                time.sleep(0.1)

    def test_dummy_ups_of_nut_tells_how_requests_ended(self):
        with self.room() as room:
            room.online_by_nuts_driver()
            with room.client() as client:
                client.log_in()
                client.track()
                expect(client.ask(b'SET VAR su700 battery.charge "50"\n'), b"OK TRACKING 1\n", "a SET")
                room.until(b"GET TRACKING 1\n", b"TRACKING 1 SUCCESS\n")
                # NUT's dummy driver has this command, and refuses it
                expect(client.ask(b"INSTCMD su700 load.off 5\n"), b"OK TRACKING 2\n", "a command")
                room.until(b"GET TRACKING 2\n", b"TRACKING 2 FAILED\n")

    def test_tools_of_nut_that_wait(self):
        """They take the number of a request for the end of the answer, and don't wait."""
        with self.room() as room:
            for tool in ("upscmd", "upsrw"):
                needed(tool, "nut-client")
            room.online()
            expect(room.tool("upscmd", "-w", "-u", "admin", "-p", "pw", "ROOM", "load.off"), (0, ""), "a command")
            expect(room.tool("upsrw", "-w", "-s", "ups.id=y", "-u", "admin", "-p", "pw", "ROOM"), (0, ""), "a SET")
            room.until(b"GET TRACKING 1\n", b"TRACKING 1 SUCCESS\n")
            room.until(b"GET TRACKING 2\n", b"TRACKING 2 SUCCESS\n")
            expect(room.tool("upscmd", "-u", "admin", "-p", "pw", "ROOM", "load.on", "5"), (0, ""), "a command with a parameter")
            room.until(STATUS, ONLINE)

    def test_upsd_of_nut_and_this_dummy_ups(self):
        with self.room() as room:
            needed("upsd", "nut-server")
            needed("upsc", "nut-client")
            room.configure_nut()
            room.dummy()
            until(lambda: os.path.exists(room.path("dummy-ups-su700")), "a driver listens")
            room.start_nuts_server()
            until(lambda: room.tool("upsc", "ROOM", "ups.status") == (0, "OL\n"), "a value")
            expect(room.tool("upsc", "ROOM"), (0, "battery.charge: 100\nups.id: x\nups.status: OL\n"), "all values")
            expect(room.tool("upsrw", "-s", "ups.id=new", "-u", "admin", "-p", "pw", "ROOM"), (0, ""), "a SET")
            until(lambda: room.tool("upsc", "ROOM", "ups.id") == (0, "new\n"), "a value that was set")
            expect(room.tool("upscmd", "-u", "admin", "-p", "pw", "ROOM", "load.off"), (0, ""), "a command")
            until(lambda: room.tool("upsc", "ROOM", "ups.status") == (0, "OFF\n"), "after a command")


if __name__ == "__main__":
    sys.exit(play(Tests, 2, "'apt-get install nut-client nut-server' installs what they need"))
