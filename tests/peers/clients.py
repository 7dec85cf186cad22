"""Runs upsd with clients that Network UPS Tools bring beside their tools: the monitor upsmon, and the Python module PyNUT.

    python3 -m tests.peers.clients UPSD DUMMY_UPS

If one of them isn't installed, what needs it is skipped, with a line that says so."""

import ast
import os
import sys

from tests.support.harness import Missing, apart, ended_in_bytes, ensure, expect, play, read
from tests.peers.server import NutRoom, needed
from tests.support.room import ONLINE, RoomTests, STATUS, USERS as ROOM_USERS, until

# Debian's module is for Debian's Python.
PYTHON = "/usr/bin/python3"

DEVICE = b"ups.status: OL\nups.id: x\nups.model: 5 E\nbattery.charge: 100\n"
# a battery that runs empty
FAILURE = b"ups.status: OB\nTIMER 2\nups.status: OB LB\nTIMER 600\n"
USERS = b"\n[guest]\npassword = m2\nupsmon secondary\n"
LOGINS = b"GET NUMLOGINS su700\n"

# where NUT's upsmon writes its process number
NUMBERS = "/run/nut"

# Makes a client of PyNUT, and prints the value of an expression.
SCRIPT = """
import sys
import PyNUT
port, expression, *user = sys.argv[1:]
client = PyNUT.PyNUTClient("127.0.0.1", int(port), *user)
try:
    print(repr(eval(expression)))
except PyNUT.PyNUTError as fault:
    print(repr(("refused", *fault.args)))
"""

MONITOR = """MONITOR su700@127.0.0.1:{port} 1 {user} {role}
MINSUPPLIES 1
SHUTDOWNCMD "touch {folder}/is-down"
POWERDOWNFLAG {folder}/killpower
POLLFREQ 1
POLLFREQALERT 1
HOSTSYNC 10
DEADTIME 15
FINALDELAY 0
"""
NOTICES = ("ONLINE", "ONBATT", "LOWBATT", "FSD", "COMMOK", "COMMBAD", "SHUTDOWN", "REPLBATT", "NOCOMM", "NOPARENT")


def values(text):
    """Returns PyNUT's values, with its bytes read as text."""
    if isinstance(text, dict):
        return {values(name): values(value) for name, value in text.items()}
    if isinstance(text, (tuple, list)):
        return type(text)(map(values, text))
    return text.decode() if isinstance(text, bytes) else text


class ClientRoom(NutRoom):
    """A room with this upsd, this dummy driver, and clients of NUT."""

    def __init__(self, *words):
        super().__init__(*words)
        self.write("upsd.users", ROOM_USERS + USERS)

    def begin(self):
        """Starts a driver of a UPS that is on line, and the server."""
        self.driver_process, _ = self.online(device=DEVICE)

    def fail(self):
        """Has the mains fail: another driver takes the place of the one that said that all was well."""
        self.driver_process.kill()
        self.driver_process.wait()
        self.dummy(FAILURE, "seq")

    def pynut(self, expression, *user):
        """Returns the value of an expression about PyNUT's client of this room."""
        words = [PYTHON, "-W", "ignore", "-c", SCRIPT, str(self.port), expression, *user]
        status, out, err = ended_in_bytes(words)
        ensure(status == 0, f"{expression}: {err.decode()}")
        return values(ast.literal_eval(out.decode()))

    def monitor(self, role, user="mon m1"):
        """Starts NUT's upsmon with a folder of its own. Returns the folder and the process."""
        program = needed("upsmon", "nut-client")
        folder = self.path(role)
        os.mkdir(folder)
        # it refuses to run twice; in a mount namespace it has a folder of its own for its process number
        command = apart("--mount", "sh", "-c", f'mount --bind "$0" {NUMBERS} && exec "$@"', folder)
        path = os.path.join(folder, "upsmon.conf")
        with open(path, "w") as file:
            file.write(MONITOR.format(port=self.port, user=user, role=role, folder=folder))
            # it must not write to anybody's terminal
            file.writelines(f"NOTIFYFLAG {notice} SYSLOG\n" for notice in NOTICES)
        os.chmod(path, 0o600)
        env = {**os.environ, "NUT_CONFPATH": folder, "NUT_STATEPATH": folder, "NUT_ALTPIDPATH": folder}
        # -p: it has no other user to run as; what it says goes to a file, which can be read without waiting for more
        with open(os.path.join(folder, "said"), "wb") as said:
            return folder, self.start([*command, program, "-D", "-p"], env=env, stderr=said)

    def clients(self):
        """Returns the rows of LIST CLIENT."""
        with self.client() as client:
            return client.list(b"LIST CLIENT su700\n")[1:-1]


class Tests(RoomTests):
    kind = ClientRoom

    def python_room(self):
        if not os.access(PYTHON, os.X_OK) or ended_in_bytes([PYTHON, "-c", "import PyNUT"])[0] != 0:
            raise Missing("PyNUT isn't installed (Debian's package python3-nut)")
        return self.room()

    def test_pynut_asks(self):
        with self.python_room() as room:
            room.begin()
            expect(room.pynut("client.GetUPSList()"), {"su700": "Server room"}, "GetUPSList")
            found = room.pynut("client.GetUPSVars('su700')")
            wanted = {"battery.charge": "100", "ups.id": "x", "ups.model": "5 E", "ups.status": "OL"}
            expect(found, wanted, "GetUPSVars")
            expect(room.pynut("client.GetRWVars('su700')"), {"ups.id": "x"}, "GetRWVars")
            names = ["beeper.disable", "beeper.enable", "load.off", "load.on", "test.battery.start", "test.battery.stop"]
            found = room.pynut("sorted(client.GetUPSCommands('su700'))")
            expect(found[:6], names, "GetUPSCommands")
            expect(room.pynut("client.ver()"), "Network UPS Tools upsd profile 1.3\n", "ver")
            expect(room.pynut("client.help()")[:20], "Commands: GET LIST S", "help")
            for call in ("GetUPSVars", "GetUPSCommands", "GetRWVars"):
                expect(room.pynut(f"client.{call}('x')"), ("refused", "ERR UNKNOWN-UPS"), call)

    def test_pynut_changes(self):
        with self.python_room() as room:
            room.begin()
            expect(room.pynut("client.SetRWVar('su700', 'ups.id', 'new')", "admin", "pw"), "OK", "SetRWVar")
            room.until(b"GET VAR su700 ups.id\n", b'VAR su700 ups.id "new"\n')
            expect(room.pynut("client.RunUPSCommand('su700', 'load.off')", "admin", "pw"), "OK", "RunUPSCommand")
            room.until(STATUS, b'VAR su700 ups.status "OFF"\n')
            for call, user, name in (
                ("SetRWVar('su700', 'ups.id', 'y')", [], "USERNAME-REQUIRED\n"),
                ("SetRWVar('su700', 'ups.id', 'y')", ["admin", "no"], "ACCESS-DENIED\n"),
                ("SetRWVar('su700', 'ups.status', 'y')", ["admin", "pw"], "READONLY\n"),
                ("RunUPSCommand('su700', 'no.such')", ["admin", "pw"], "CMD-NOT-SUPPORTED"),
            ):
                expect(room.pynut(f"client.{call}", *user), ("refused", f"ERR {name}"), f"{call} of {user}")

    def test_pynut_and_what_it_cannot_do_here(self):
        """PyNUT sends a word that no server knows, and wants more than OK in an answer."""
        with self.python_room() as room:
            room.begin()
            expect(room.pynut("client.ListClients()"), ("refused", "ERR INVALID-ARGUMENT"), "ListClients")
            found = room.pynut("client.FSD('su700')", "mon", "m1")
            expect(found, ("refused", ("Primary level functions are not available", "")), "FSD")

    def test_pynut_without_a_driver(self):
        with self.python_room() as room:
            room.upsd()
            expect(room.pynut("client.GetUPSList()"), {"su700": "Server room"}, "GetUPSList")
            expect(room.pynut("client.GetUPSVars('su700')"), ("refused", "ERR DRIVER-NOT-CONNECTED"), "GetUPSVars")

    def test_upsmon_of_nut_logs_in(self):
        with self.room() as room:
            room.begin()
            _, monitor = room.monitor("primary")
            room.until(LOGINS, b"NUMLOGINS su700 1\n")
            expect(room.clients(), [b"CLIENT su700 127.0.0.1\n"], "who is logged in")
            monitor.terminate()
            room.until(LOGINS, b"NUMLOGINS su700 0\n")

    def test_upsmon_of_nut_with_a_wrong_password(self):
        with self.room() as room:
            room.begin()
            folder, _ = room.monitor("primary", user="mon no")

            def refusal():
                with open(os.path.join(folder, "said"), "rb") as said:
                    return next((it for it in said if it.endswith(b"\n") and (b"ERR" in it or b"enied" in it)), b"")

            found = until(refusal, "it is told")
            expect(b"ACCESS-DENIED" in found or b"denied" in found, True, f"what is told: {found!r}")
            expect(room.ask(LOGINS), b"NUMLOGINS su700 0\n", "nobody is logged in")

    def test_upsmon_of_nut_comes_back(self):
        with self.room() as room:
            _, server = room.online()
            room.monitor("primary")
            room.until(LOGINS, b"NUMLOGINS su700 1\n")
            server.kill()
            server.wait()
            room.upsd()
            room.until(STATUS, ONLINE)
            room.until(LOGINS, b"NUMLOGINS su700 1\n", 30)

    def test_upsmon_of_nut_stops_its_machine(self):
        with self.room() as room:
            room.begin()
            folder, monitor = room.monitor("primary")
            room.until(LOGINS, b"NUMLOGINS su700 1\n")
            room.fail()
            room.until(STATUS, b'VAR su700 ups.status "FSD OB LB"\n', 30)
            until(lambda: os.path.exists(os.path.join(folder, "is-down")), "its SHUTDOWNCMD", 30)
            expect(read(os.path.join(folder, "killpower")).strip(), "upsmon-shutdown-file", "its POWERDOWNFLAG")
            until(lambda: monitor.poll() is not None, "it ends")
            room.until(LOGINS, b"NUMLOGINS su700 0\n")

    def test_upsmon_of_nut_stops_its_room(self):
        """A secondary stops when the primary sets FSD, and the primary waits for it."""
        with self.room() as room:
            room.begin()
            first, _ = room.monitor("primary")
            second, _ = room.monitor("secondary", user="guest m2")
            room.until(LOGINS, b"NUMLOGINS su700 2\n")
            expect(room.clients(), [b"CLIENT su700 127.0.0.1\n"] * 2, "who is logged in")
            room.fail()
            for folder in (second, first):
                until(lambda: os.path.exists(os.path.join(folder, "is-down")), f"SHUTDOWNCMD of {folder}", 30)
            times = [os.stat(os.path.join(folder, "is-down")).st_mtime_ns for folder in (second, first)]
            expect(times[0] <= times[1], True, "the secondary stops first")


if __name__ == "__main__":
    sys.exit(play(Tests, 2, "'apt-get install nut-client python3-nut' installs what they need"))
