"""Runs upsmon against NUT's own upsd with NUT's own dummy-ups, on loopback, from a folder of its own.

    python3 -m tests.peers.monitor UPSMON

If Debian's packages nut-server and nut-client aren't installed, what needs them is skipped, with a line that says so."""

import os
import sys
import time

from tests.support.harness import ended, ended_in_bytes, expect, play
from tests.support.monitored import BATTERY_LOW, ESTABLISHED, FLAG, FORCED, LOST, ON_BATTERY, QUICK, SHUTDOWN, USERS, Watch, put_program
from tests.peers.server import NutRoom, needed
from tests.support.room import stopped, until

HALTS = 'POWERDOWNFLAG FOLDER/flag\nSHUTDOWNCMD "touch FOLDER/halted"\n'


class Tests:
    def __init__(self, upsmon, folder):
        self.upsmon, self.folder = upsmon, folder

    def room(self):
        return NutRoom((None, None), self.folder)

    def begin(self, room, text):
        """Starts NUT's driver, with this text, and its server, and waits until they report its status. Returns the UPS."""
        room.nut_online(text, USERS)
        return f"su700@127.0.0.1:{room.port}"

    def watch(self, target, user, conf):
        name, password, role = user
        return Watch(self.upsmon, self.folder, f"MONITOR {target} 1 {name} {password} {role}\n{conf}")

    def set_status(self, room, status):
        words = ["-s", f"ups.status={status}", "-u", "admin", "-p", "pw", "ROOM"]
        # NUT's driver accepts no SET soon after its start
        until(lambda: room.tool("upsrw", *words)[0] == 0, f"the status is set to {status}", 30)

    def test_power_fails(self):
        with self.room() as room:
            target = self.begin(room, b"ups.status: OB LB\n")
            with self.watch(target, ("mon", "m1", "primary"), QUICK + HALTS) as watch:
                expect(watch.status(20), 0, "status")
                expect(watch.lines(), [ON_BATTERY % target, BATTERY_LOW % target, SHUTDOWN], "what upsmon prints")
                expect((watch.read("flag"), watch.read("halted")), (FLAG, b""), "the halt")
                self.expect_known_flag(room, watch)

    def expect_known_flag(self, room, watch):
        """Expects that NUT's own monitor recognizes this POWERDOWNFLAG."""
        upsmon = needed("upsmon", "nut-client")
        for name, status in (("flag", 0), ("none", 1)):
            conf = f"MONITOR su700@localhost 1 mon m1 primary\nPOWERDOWNFLAG {watch.path(name)}\nSHUTDOWNCMD true\n"
            room.write("nut/upsmon.conf", conf.encode())
            os.chmod(room.path("nut/upsmon.conf"), 0o600)
            expect(ended_in_bytes([upsmon, "-K"], env=room.environment())[0], status, f"'upsmon -K' with the file {name}")

    def test_two_machines(self):
        with self.room() as room:
            target = self.begin(room, b"ups.status: OL\n")
            conf = "POLLFREQ 1\nFINALDELAY 0\nHOSTSYNC 60\n" + HALTS
            as_guest, as_primary = ("guest", "g1", "secondary"), ("mon", "m1", "primary")
            with self.watch(target, as_guest, conf) as guest, self.watch(target, as_primary, conf) as primary:
                room.until(b"GET NUMLOGINS su700\n", b"NUMLOGINS su700 2\n")
                self.set_status(room, "OB LB")
                expect((guest.status(30), primary.status(30)), (0, 0), "status of both")
                wanted = {ON_BATTERY % target, BATTERY_LOW % target, FORCED % target, SHUTDOWN}
                expect((set(guest.lines()) <= wanted, guest.lines()[-1]), (True, SHUTDOWN), f"what the secondary prints: {guest.lines()}")
                expect(guest.read("flag"), None, "a secondary writes no POWERDOWNFLAG")
                expect((primary.read("flag"), primary.read("halted")), (FLAG, b""), "the primary's halt")

    def force(self, folder):
        """Forces the shutdown that the upsmon.conf of this folder names. Returns the status, and what is written to both streams."""
        return ended([self.upsmon, "--fsd", "--conf", folder])

    def test_shutdown_by_hand(self):
        with self.room() as room:
            target = self.begin(room, b"ups.status: OL\n")
            numlogins = b"GET NUMLOGINS su700\n"
            with self.watch(target, ("mon", "wrong", "primary"), QUICK) as stranger:
                told = f"UPS {target}: FSD failed: FSD refused: ACCESS-DENIED"
                told += f"\nupsmon: this machine keeps running: {target} still supplies 1"
                expect(self.force(stranger.folder), (1, "", f"upsmon: {told}\n"), "a wrong password")
            with self.watch(target, ("mon", "m1", "primary"), QUICK + HALTS) as watch:
                room.until(numlogins, b"NUMLOGINS su700 1\n")
                expect(self.force(watch.folder), (0, f"UPS {target}: FSD set\n", ""), "the shutdown is forced")
                expect(watch.status(20), 0, "status of the monitor that runs")
                expect(watch.lines(), [FORCED % target, SHUTDOWN], "what it prints")
                expect((watch.read("flag"), watch.read("halted")), (FLAG, b""), "the halt")
            expect(room.tool("upsc", "ROOM", "ups.status"), (0, "FSD OL\n"), "what NUT's upsc shows")
            room.until(numlogins, b"NUMLOGINS su700 0\n")

    def test_upssched_forces_a_shutdown(self):
        """NUT's upssched as NOTIFYCMD, whose CMDSCRIPT calls this upsmon."""
        with self.room() as room:
            target = self.begin(room, b"ups.status: OB\n")
            upssched, nut = needed("upssched", "nut-client"), room.path("nut")
            script = os.path.join(nut, "cmdscript")
            conf = f"CMDSCRIPT {script}\nPIPEFN {nut}/pipe\nLOCKFN {nut}/lock\nAT ONBATT * START-TIMER early-shutdown 1\n"
            room.write("nut/upssched.conf", conf.encode())
            execs = f'NOTIFYFLAG ONBATT EXEC\nNOTIFYCMD "NUT_CONFPATH={nut} {upssched}"\n'
            with self.watch(target, ("mon", "m1", "primary"), QUICK + HALTS + execs) as watch:
                put_program(script, f"case $1 in early-shutdown) {self.upsmon} --fsd --conf {watch.folder} ;; esac")
                expect(watch.status(20), 0, "status")
                expect((watch.read("flag"), watch.read("halted")), (FLAG, b""), "the halt")

    def test_driver_that_comes_and_goes(self):
        with self.room() as room:
            target = self.begin(room, b"ups.status: OL\n")
            with self.watch(target, ("mon", "m1", "secondary"), "POLLFREQ 1\n") as watch:
                until(lambda: "server connected" in watch.read("err").decode(), "the server is connected")
                room.until(b"GET NUMLOGINS su700\n", b"NUMLOGINS su700 1\n")
                room.driver_process.kill()
                room.driver_process.wait()
                watch.until_printed(LOST % target, 30)
                room.start_nuts_driver()
                watch.until_printed(ESTABLISHED % target, 30)
                expect(watch.lines(), [LOST % target, ESTABLISHED % target], "what upsmon prints")

    def test_server_that_waits_for_its_driver(self):
        """NUT's server is started again on battery, and its driver hangs: what upsmon tells, and that DEADTIME stops nothing."""
        with self.room() as room:
            target = self.begin(room, b"ups.status: OB\n")
            waits = f"upsmon: UPS {target}: server reports WAIT: DEADTIME can't start a shutdown until it hears its driver"
            with self.watch(target, ("mon", "m1", "primary"), f"{QUICK}DEADTIME 4\n{HALTS}") as watch:
                watch.until_printed(ON_BATTERY % target)
                with stopped(room.driver_process):
                    room.server_process.kill()
                    room.server_process.wait()
                    room.start_nuts_server()
                    watch.until_told(waits, 20)
                    # NUT's server refuses the status from the fifteenth second on; the one that was killed was lost, too
                    watch.until_told(f"upsmon: UPS {target}: status refused: DATA-STALE", 40)
                    until(lambda: watch.lines()[-1] == LOST % target, "the loss of what the server refuses")
                    time.sleep(8)
                    expect((watch.process.poll(), watch.lines("err").count(waits)), (None, 1), "it goes on, and tells it once")
                    # one of NUT that goes on after its server ended goes down at its next SET, so another driver takes its place
                    room.driver_process.kill()
                    room.driver_process.wait()
                room.write("nut/su700.dev", b"ups.status: OB LB\n")
                room.start_nuts_driver()
                expect((watch.status(30), watch.read("halted")), (0, b""), "the halt")
                expect(watch.lines()[-2:], [BATTERY_LOW % target, SHUTDOWN], "what it is for")


if __name__ == "__main__":
    sys.exit(play(Tests, 1, "'apt-get install nut-client nut-server' installs what they need"))
