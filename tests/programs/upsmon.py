"""Starts upsmon with upsd and dummy-ups, and with servers that the tests play.

    python3 -m tests.programs.upsmon UPSD DUMMY_UPS UPSC UPSMON"""

import contextlib
import errno
import itertools
import os
import random
import re
import signal
import subprocess
import sys
import tempfile
import time
import unittest.mock

from tests.support import manual, room_model
from tests.support.harness import (
    NUTS_OPTIONS, ROOT, VERSION_SHOWN, build_library, cannot_read, ended, ensure, expect, named_error, play, read, refusals,
    streams_without_readers, write,
)
from tests.support.monitored import (
    BATTERY_LOW, ESTABLISHED, FLAG, FORCED, LOST, OF_SHUTDOWN, ON_BATTERY, QUICK, SHUTDOWN, UNAVAILABLE, ByteByByte, MonitorTests, Silent,
    Upstream, children_of, put_program,
)
from tests.support.room import SOON, accepted, free_port, until
from tests.support.room_model import Watched

sys.path.append(os.path.join(ROOT, "tools"))

from nutroom_modules import bounds
from nutroom_modules.rooms import Line, Machine, Rules
from nutroom_modules.rooms import Room as PlayedRoom
from nutroom_modules.times import SECOND


def random_machines(chance):
    """Returns the machines of a room with two UPSes, each with the text of its upsmon.conf."""
    machines = []
    for m in range(chance.randint(1, 4)):
        upses = chance.choice(([0], [0], [0, 1]))
        lines = tuple(Line(u, chance.choice((0, 1, 1, 1, 2)), chance.random() < 0.5, "mon", "m1") for u in upses)
        settings = min(chance.randint(0, 3), sum(it.power for it in lines)), *(chance.choice(it) for it in ((1, 5, 9), (5, 15, 30), (0, 3, 15, 40), (0, 1, 5)))
        watched = [Watched((b"a", b"b")[it.ups], "primary" if it.is_primary else "secondary", it.power) for it in lines]
        numbers = dict(zip(("MINSUPPLIES", "POLLFREQ", "DEADTIME", "HOSTSYNC", "FINALDELAY"), settings))
        text = room_model.Rules(watched, **numbers).text().decode() + "SHUTDOWNCMD true\n"
        machines.append(Machine(f"m{m}", text, 0, chance.randint(0, 5) * SECOND, Rules(lines, *settings)))
    return machines


class Driver:
    """A driver of su700, played by the test."""

    def __init__(self, room):
        self.listener = room.driver()
        self.end = None

    def __enter__(self):
        return self

    def __exit__(self, *_):
        if self.end:
            self.end.close()
        self.listener.close()

    def connect(self):
        self.end = accepted(self.listener)
        self.tell(b"OL")
        self.end.sendall(b"DATAOK\nDUMPDONE\n")

    def tell(self, status):
        self.end.sendall(b'SETINFO ups.status "%s"\n' % status)


FLAGGED = 'POWERDOWNFLAG FOLDER/flag\nSHUTDOWNCMD "touch FOLDER/halted"\n'
# an upsc whose every battery lasts longer than any machine needs
LASTS_LONG = "echo 9999999"


def put_upsc(folder, script):
    """Makes an upsc out of such a script in a new folder of this one, or none, and gives the PATH on which it comes first."""
    path = os.path.join(folder, "bin")
    os.mkdir(path)
    if script is None:
        return path
    put_program(os.path.join(path, "upsc"), script)
    return f"{path}:/usr/bin:/bin"


def fails(target):
    """Returns what is printed where a UPS fails."""
    return [ON_BATTERY % target, BATTERY_LOW % target, SHUTDOWN]


class Tests(MonitorTests):
    def expect_halt(self, watch, lines, status=0, within=SOON):
        expect(watch.status(within), status, "status")
        expect(watch.lines(), lines, "what upsmon prints")

    @contextlib.contextmanager
    def two_supplies(self, needed):
        """Gives a server of two UPSes, a machine that needs so many of them, and the UPSes as the machine names them."""
        with Upstream() as server:
            server.statuses = {b"a": b"OL", b"b": b"OL"}
            a, b = (f"{ups}@127.0.0.1:{server.port}" for ups in "ab")
            conf = f"MINSUPPLIES {needed}\nMONITOR {a} 1 mon m1 secondary\nMONITOR {b} 1 mon m1 secondary\n{QUICK}"
            with self.watch(conf) as watch:
                until(lambda: b"GET VAR b ups.status\n" in server.asked, "both are asked for")
                yield server, watch, a, b

    def test_power_fails(self):
        with self.room() as room:
            room.dummy(b"ups.status: OB LB\nTIMER 60\n", "seq")
            room.upsd()
            until(lambda: ended([self.upsc, room.target, "ups.status"])[1] == "OB LB\n", "upsc prints the status")
            with self.watch(f"MONITOR {room.target} 1 mon m1 primary\n{QUICK}{FLAGGED}") as watch:
                self.expect_halt(watch, fails(room.target))
                expect((watch.read("flag"), watch.read("halted")), (FLAG, b""), "what the halt makes")
                expect(watch.lines("err")[0], f"upsmon: UPS {room.target}: watched as primary, power value 1", "what is watched")

    def test_two_machines(self):
        with self.room() as room, Driver(room) as driver:
            room.upsd()
            driver.connect()
            target = room.target
            halts = FLAGGED + "POLLFREQ 1\nHOSTSYNC 60\n"
            # the delay leaves the secondary time to run its command, after its logout
            with self.watch(f"MONITOR {target} 1 guest g1 secondary\nFINALDELAY 0\n" + halts) as guest, self.watch(
                f"MONITOR {target} 1 mon m1 primary\nFINALDELAY 2\n" + halts
            ) as primary:
                room.until(b"GET NUMLOGINS su700\n", b"NUMLOGINS su700 2\n")
                driver.tell(b"OB LB")
                # the order of its notices depends on when it asked
                expect(guest.status(), 0, "status")
                told = {ON_BATTERY % target, BATTERY_LOW % target, FORCED % target}
                expect((set(guest.lines()[:-1]), len(guest.lines()), guest.lines()[-1]), (told, 4, SHUTDOWN), "what the guest prints")
                expect((guest.read("flag"), guest.read("halted")), (None, b""), "a secondary writes no POWERDOWNFLAG")
                # the primary waits for the secondary, and no longer than it has to
                self.expect_halt(primary, fails(target))
                expect((primary.read("flag"), primary.read("halted")), (FLAG, b""), "the primary writes it")
                halted = [os.stat(it.path("halted")).st_mtime_ns for it in (guest, primary)]
                expect(halted == sorted(halted), True, "the secondary halts first")

    def test_halting_machine_is_logged_out(self):
        """The server doesn't count a machine whose SHUTDOWNCMD runs, so that no primary waits for it."""
        with self.room() as room, Driver(room) as driver:
            room.upsd()
            driver.connect()
            asks, counts = b"GET NUMLOGINS su700\n", b"NUMLOGINS su700 %d\n"
            lasts = 'SHUTDOWNCMD "touch FOLDER/begun; sleep 5; touch FOLDER/ended"\n'
            with self.watch(f"MONITOR {room.target} 1 guest g1 secondary\n{QUICK}{lasts}") as guest, room.client() as client:
                until(lambda: client.ask(asks) == counts % 1, "the machine is logged in")
                driver.tell(b"OB LB")
                until(lambda: guest.read("begun") is not None, "SHUTDOWNCMD is run")
                until(lambda: client.ask(asks) == counts % 0 or guest.read("ended") is not None, "the machine is logged out")
                expect(guest.read("ended"), None, "SHUTDOWNCMD has not ended by then")
                expect(guest.status(), 0, "status")

    def test_primary_waits_for_hostsync(self):
        with self.watched(QUICK + FLAGGED, logins=2) as (server, watch):
            server.until_asked()
            server.statuses[b"su700"] = b"OB LB"
            self.expect_halt(watch, fails(server.target))
            # more than HOSTSYNC, in whole seconds
            expect(time.monotonic() - server.told[b"OB LB"] > 0.9, True, "HOSTSYNC passes")
            expect(watch.read("flag"), FLAG, "POWERDOWNFLAG")
            first = [b"USERNAME mon", b"PASSWORD m1", b"LOGIN su700", b"PRIMARY su700", b"GET VAR su700 ups.status"]
            asked = server.queries()
            expect(asked[:5], first, "what a link is asked first")
            expect(asked[asked.index(b"FSD su700") + 1], b"GET NUMLOGINS su700", "what follows the FSD")

    def test_secondary_alone(self):
        with self.watched(QUICK + FLAGGED, role="secondary", status=b"OB LB") as (server, watch):
            self.expect_halt(watch, fails(server.target))
            expect((watch.read("flag"), watch.read("flag.new")), (None, None), "a secondary writes no POWERDOWNFLAG")

    def test_final_delay(self):
        with self.watched('FINALDELAY 2\nSHUTDOWNCMD "touch FOLDER/halted"\n', status=b"FSD OL") as (server, watch):
            self.expect_halt(watch, [FORCED % server.target, SHUTDOWN])
            printed, halted = (os.stat(watch.path(name)).st_mtime for name in ("out", "halted"))
            expect(halted - printed > 1, True, "FINALDELAY passes")
            expect(watch.read("halted"), b"", "what SHUTDOWNCMD makes")

    def test_server_that_comes_and_goes(self):
        server = Upstream()
        port, target = server.port, server.target
        server.close()
        with self.watch(server.line("secondary") + "POLLFREQ 1\nNOCOMMWARNTIME 4\n") as watch:
            watch.until_printed(UNAVAILABLE % target)
            for round in (1, 2):
                with Upstream(port) as server:
                    # the first time communication was never lost, so it isn't established again
                    server.until_asked(2)
                    if round == 2:
                        watch.until_printed(ESTABLISHED % target)
                until(lambda: watch.lines().count(LOST % target) == round, "the loss is told")
            wanted = [UNAVAILABLE % target, LOST % target, ESTABLISHED % target, LOST % target]
            # repeated lines only once
            found = [line for line, _ in itertools.groupby(watch.lines())]
            expect([line for line in found if line != UNAVAILABLE % target], wanted[1:], "what is told")
            expect(found[0], wanted[0], "what is told first")
            expect(watch.process.poll(), None, "it goes on")

    def test_server_byte_by_byte(self):
        with self.watched(QUICK, status=b"OB LB", kind=ByteByByte) as (server, watch):
            self.expect_halt(watch, fails(server.target))

    def test_silent_server_is_unavailable(self):
        """A silent server is unavailable before it is given up, which takes longer."""
        with self.watched("NOCOMMWARNTIME 1\n", kind=Silent) as (server, watch):
            watch.until_printed(UNAVAILABLE % server.target)
            expect(set(watch.lines()), {UNAVAILABLE % server.target}, "what is told")
            watch.until_told(f"upsmon: UPS {server.target}: server does not answer", 20)

    def test_one_of_two_supplies(self):
        with self.two_supplies(1) as (server, watch, a, b):
            server.statuses[b"a"] = b"OB LB"
            watch.until_printed(BATTERY_LOW % a)
            time.sleep(2.5)
            expect(watch.process.poll(), None, "one supply is left")
            expect(watch.lines(), [ON_BATTERY % a, BATTERY_LOW % a], "what is told")
            server.statuses[b"b"] = b"OB LB"
            self.expect_halt(watch, [it % ups for ups in (a, b) for it in (ON_BATTERY, BATTERY_LOW)] + [SHUTDOWN])

    def test_both_of_two_supplies(self):
        with self.two_supplies(2) as (server, watch, _, b):
            until(lambda: server.asked.count(b"GET VAR b ups.status\n") == 3, "both are asked for again")
            expect((watch.process.poll(), watch.lines()), (None, []), "both supplies are there")
            server.statuses[b"b"] = b"OB LB"
            self.expect_halt(watch, fails(b))

    def test_flags(self):
        for flags, is_printed, is_run in (
            (None, True, False),
            ("SYSLOG", True, False),
            ("WALL", True, False),
            ("SYSLOG+WALL+EXEC", True, True),
            ("EXEC", False, True),
            ("IGNORE", False, False),
            ("IGNORE+SYSLOG+WALL+EXEC", False, False),
        ):
            conf = QUICK + (f"NOTIFYFLAG SHUTDOWN {flags}\n" if flags else "") + "NOTIFYFLAG FSD IGNORE\n"
            conf += 'NOTIFYCMD "touch FOLDER/run #"\nSHUTDOWNCMD "sleep 0.5"\n'
            with self.watched(conf, role="secondary", status=b"FSD") as (_, watch):
                self.expect_halt(watch, [SHUTDOWN] if is_printed else [])
                if is_run:
                    until(lambda: watch.read("run") is not None, f"NOTIFYCMD with {flags} is run")
                expect(watch.read("run"), b"" if is_run else None, f"NOTIFYCMD with {flags}")

    def test_notify_command(self):
        text = "%s `touch FOLDER/bad` $(touch FOLDER/bad) ; ' \\\" * \\\\ $HOME"
        command = "sh -c 'printf \\\"%s|%s|%s\\\\n\\\" \\\"$NOTIFYTYPE\\\" \\\"$UPSNAME\\\" \\\"$1\\\" >> FOLDER/run' a"
        conf = f'NOTIFYCMD "{command}"\nNOTIFYMSG ONBATT "{text}"\nNOTIFYMSG SHUTDOWN ""\n'
        conf += "".join(f"NOTIFYFLAG {it} EXEC\n" for it in ("ONBATT", "SHUTDOWN"))
        with self.watched(QUICK + conf, role="secondary", status=b"OB") as (server, watch):
            until(lambda: watch.read("run"), "NOTIFYCMD is run")
            server.statuses[b"su700"] = b"FSD OB"
            self.expect_halt(watch, [FORCED % server.target])
            until(lambda: len(watch.lines("run")) == 2, "NOTIFYCMD is run again")
            said = text.replace("\\\"", '"').replace("\\\\", "\\").replace("FOLDER", watch.folder)
            wanted = [f"ONBATT|{server.target}|{said.replace('%s', server.target)}", "SHUTDOWN||"]
            expect(watch.lines("run"), wanted, "what NOTIFYCMD is told")
            expect(watch.read("bad"), None, "no text is read as a command")

    def test_notify_command_that_lasts(self):
        execs = "".join(f"NOTIFYFLAG {it} EXEC\n" for it in ("ONBATT", "LOWBATT", "SHUTDOWN"))
        begun = time.monotonic()
        with self.watched(f'{QUICK}{execs}NOTIFYCMD "sleep 30 && true"\n', status=b"OB LB") as (_, watch):
            self.expect_halt(watch, [])
            ensure(time.monotonic() - begun < 15, "NOTIFYCMD was waited for")

    def test_notify_command_that_is_not_there(self):
        with self.watched(QUICK + "NOTIFYFLAG ONBATT SYSLOG+EXEC\nNOTIFYCMD FOLDER/none\n", status=b"OB LB") as (server, watch):
            self.expect_halt(watch, fails(server.target))

    def test_what_is_told_of_a_shutdown(self):
        """What it is for, and whom it doesn't wait for, also with -q."""
        low, forced = "UPS %s is on battery, and its battery is low", "UPS %s has a forced shutdown"
        for status, logins, wanted in (
            (b"OB LB", 1, [low]),
            (b"OB LB", 3, [low, "no longer waiting for 2 clients logged in to UPS %s"]),
            (b"FSD OB", 1, [forced]),
        ):
            with self.watched(QUICK + "SHUTDOWNCMD true\n", "-q", status=status, logins=logins) as (server, watch):
                expect(watch.status(), 0, "status")
                expect(watch.of_shutdown(), [it % server.target for it in wanted], f"{status} {logins}")

    def test_order_of_what_is_told_of_a_shutdown(self):
        """What it is for comes after the notices of what began it, and before its own."""
        for times in (QUICK, "POLLFREQ 1\nHOSTSYNC 3\nFINALDELAY 0\n"):
            conf = f"{times}SHUTDOWNCMD true\n"
            with self.watched(conf, "-q", status=b"OB LB", logins=2, stderr=subprocess.STDOUT) as (server, watch):
                expect(watch.status(), 0, "status")
                found = [line for line in watch.lines() if not line.startswith(f"{OF_SHUTDOWN}no longer")]
                low = f"{OF_SHUTDOWN}UPS {server.target} is on battery, and its battery is low"
                expect(found, [ON_BATTERY % server.target, BATTERY_LOW % server.target, low, SHUTDOWN], "the lines in turn")

    def test_what_is_told_of_a_shutdown_for_a_lost_server(self):
        with self.watched(QUICK + "DEADTIME 3\nSHUTDOWNCMD true\n", "-q", status=b"OB") as (server, watch):
            watch.until_printed(ON_BATTERY % server.target)
            server.close()
            self.expect_halt(watch, [ON_BATTERY % server.target, LOST % server.target, SHUTDOWN], within=20)
            wanted = [f"UPS {server.target} was on battery when its status was last known", f"FSD on UPS {server.target} was not accepted"]
            expect(watch.of_shutdown(), wanted, "what is told")

    def test_notify_command_that_cannot_be_started(self):
        conf, env = QUICK + "NOTIFYFLAG ONBATT SYSLOG+EXEC\nNOTIFYCMD true\n", self.refusing_starts(self.folder)
        with self.watched(conf, "-q", status=b"OB LB", env=env) as (server, watch):
            self.expect_halt(watch, fails(server.target))
            said = [line for line in watch.told() if "SHUTDOWNCMD is not set" not in line]
            expect([it.partition(" started: ")[0] for it in said], ["upsmon: NOTIFYCMD cannot be"], "what is said of it")

    def test_notify_commands_are_bounded(self):
        conf = "MINSUPPLIES 0\nSHUTDOWNCMD true\nPOLLFREQ 1\nNOCOMMWARNTIME 1\nNOTIFYFLAG NOCOMM EXEC\nNOTIFYCMD \"echo . >> FOLDER/run; sleep 60 #\"\n"
        with Silent() as dead:
            # 32 lines, each of which has a notice every other second
            lines = "".join(f"MONITOR u{i}@127.0.0.1:{dead.port} 0 mon m1 secondary\n" for i in range(32))
            with self.watch(conf + lines, "-q") as watch:
                said = "upsmon: NOTIFYCMD skipped: 64 still running"
                until(lambda: said in watch.lines("err"), "that there are too many", 30)
                expect(set(watch.lines("err")), {said}, "what is said")
                until(lambda: len(watch.lines("run")) == 64, "all of them started", 30)
                self.end_children(watch)
                # once they have ended, others are run
                until(lambda: len(watch.lines("run")) > 64, "room for more", 30)
                self.end_children(watch)

    def end_children(self, watch):
        for pid in children_of(watch.process.pid):
            os.kill(pid, signal.SIGKILL)

    def test_ended_commands_leave_no_process(self):
        conf = 'POLLFREQ 1\nNOTIFYFLAG ONBATT EXEC\nNOTIFYCMD "touch FOLDER/run #"\n'
        with self.watched(conf, role="secondary", status=b"OB") as (_, watch):
            until(lambda: watch.read("run") is not None, "the command is run")
            until(lambda: not children_of(watch.process.pid), "the command is reaped")

    def test_shutdown_command_that_fails(self):
        for command, said in (
            ("exit 3", "SHUTDOWNCMD ended with status 3"),
            ("FOLDER/none 2> FOLDER/said", "SHUTDOWNCMD ended with status 127"),
            ("kill -9 $$", "SHUTDOWNCMD ended by a signal: 9 (SIGKILL)"),
        ):
            conf = f'{QUICK}POWERDOWNFLAG FOLDER/flag\nSHUTDOWNCMD "{command}"\n'
            with self.watched(conf, "-q", status=b"FSD") as (server, watch):
                self.expect_halt(watch, [FORCED % server.target, SHUTDOWN], 1)
                expect((watch.told(), watch.read("flag")), ([f"upsmon: {said}"], FLAG), command)

    def test_output_that_is_closed(self):
        with streams_without_readers() as streams, Upstream(status=b"OB LB") as server:
            for name, options in streams.items():
                with self.watch(server.line() + QUICK + FLAGGED, **options) as watch:
                    expect(watch.status(), 0, f"status with {name}")
                    expect((watch.read("flag"), watch.read("halted")), (FLAG, b""), f"the halt with {name}")
            expect([line for line in server.asked if line.startswith((b"upsmon", b"UPS"))], [], "what the server gets of it")

    def test_reports(self):
        for words in ((), ("-q",)):
            with self.watched(QUICK + "SHUTDOWNCMD true\n", *words, role="secondary", power=2) as (server, watch):
                server.until_asked(2)
                server.close()
                watch.until_printed(LOST % server.target)
                wanted = [
                    f"upsmon: UPS {server.target}: watched as secondary, power value 2",
                    "upsmon: this machine shuts down within 6 s of OB LB if answers take at most 2 s",
                    f"upsmon: UPS {server.target}: server connected",
                    f"upsmon: UPS {server.target}: server lost",
                ]
                expect(watch.lines("err")[:4], [] if words else wanted, f"reports {words}")

    def test_waiting_for_a_server_takes_nothing(self):
        server = Upstream()
        server.close()
        with self.watch(server.line("secondary")) as watch:
            time.sleep(0.5)
            expect(watch.is_idle(), True, "processor time without a server")

    def test_command_lines(self):
        conf = ["--conf", self.folder]
        for words in (["--conf"], [*conf, "more"], ["--none"], [*conf, "-K", "-q"], [*conf, "-K", "--check"]):
            status, out, err = ended([self.upsmon, *words])
            expect((status, out, err != ""), (2, "", True), f"{words}")
            expect(err.endswith(NUTS_OPTIONS.format("upsmon")), "unexpected argument" in err, f"{words}: {err!r}")
        # NUT's options that ask for what is done anyway
        missing = cannot_read("upsmon", "upsmon.conf", "/nowhere/upsmon.conf", errno.ENOENT)
        for words in (["-F"], ["-D"], ["-DDD", "-F"], ["-D", "-q", "-D"]):
            expect(ended([self.upsmon, "--conf", "/nowhere", *words]), (1, "", missing), words)
        for word, shown in (("--help", "upsmon.conf"), ("--version", f"upsmon {VERSION_SHOWN}\n")):
            status, out, err = ended([self.upsmon, word])
            expect((status, shown in out, err), (0, True, ""), word)

    def test_faults_of_files(self):
        """A start and -K say of a fault what --check says. tests/programs/files.py has all of them."""
        with tempfile.TemporaryDirectory(dir=self.folder) as folder:
            path = os.path.join(folder, "upsmon.conf")
            missing = cannot_read("upsmon", "upsmon.conf", path, errno.ENOENT)
            faulty = f"upsmon: upsmon.conf:1: UnknownWord\nupsmon: NOPARENT: {manual.type_meant()}\n"
            for said in (missing, faulty):
                for words in ([], ["--check"], ["-K"]):
                    expect(ended([self.upsmon, "--conf", folder, *words]), (1, "", said), words)
                write(path, "NOTIFYMSG NOPARENT x\n")

    def checked(self, conf, *words, env=None, upsc=LASTS_LONG):
        """What 'upsmon --check' gives of such a file, whose folder the words and the environment name by FOLDER, where upsc
        is such a script."""
        with tempfile.TemporaryDirectory(dir=self.folder) as folder:
            env = {"PATH": put_upsc(folder, upsc), **(env or {})}
            write(os.path.join(folder, "upsmon.conf"), conf)
            words = [it.replace("FOLDER", folder) for it in words or ("--conf", "FOLDER")]
            env = {**os.environ, **{name: it.replace("FOLDER", folder) for name, it in env.items()}}
            status, out, err = ended([self.upsmon, "--check", *words], env=env)
        # no server is there, which is told of each line, and nothing else is of interest here
        told = err.splitlines(keepends=True)
        rest = [it for it in told if not re.fullmatch(r"upsmon: UPS \S+: connection failed: .*\n", it)]
        is_only_that = status == 1 and len(rest) < len(told)
        return 0 if is_only_that else status, out, "".join(rest)

    def test_check_tells_how_soon(self):
        primary, secondary = ("MONITOR %s@h 1 mon m1 %s\nSHUTDOWNCMD true\n" % it for it in (("a", "primary"), ("a", "secondary")))
        for conf, seconds in (
            # POLLFREQ 5, an answer 2, HOSTSYNC 15 and 1, FINALDELAY 5
            (primary, 28),
            (secondary, 28),
            (secondary + "HOSTSYNC 30\n", 43),
            (primary + "HOSTSYNC 30\nFINALDELAY 9\n", 47),
            # the status isn't asked for before it is answered
            (primary + "POLLFREQ 1\n", 25),
            (primary + "POLLFREQ 2\n", 25),
            (primary + "POLLFREQ 3\nHOSTSYNC 3\nFINALDELAY 0\n", 9),
            # a machine that waits for its primary, and that another one waits for
            (primary + "MONITOR b@h 1 mon m1 secondary\n", 44),
            # a UPS that feeds only another machine
            (primary + "MONITOR b@h 0 mon m1 secondary\n", 28),
            ("MONITOR a@h 0 mon m1 primary\nMONITOR b@h 1 mon m1 secondary\nSHUTDOWNCMD true\n", 44),
            (primary + "POLLFREQ 999998\nDEADTIME 1000000\nHOSTSYNC 1000000\nFINALDELAY 1000000\n", 3000001),
        ):
            wanted = (0, f"upsmon: this machine shuts down within {seconds} s of OB LB if answers take at most 2 s\n", "")
            expect(self.checked(conf), wanted, conf)
        wanted = (0, "upsmon: this machine never shuts down: MINSUPPLIES is 0\n", "")
        expect(self.checked(primary + "MINSUPPLIES 0\n"), wanted, "a machine that needs no UPS")
        warning = "upsmon: SHUTDOWNCMD is not set: nothing will shut down this machine\n"
        expect(self.checked("MONITOR a@h 1 mon m1 primary\n")[::2], (0, warning), "what should be set otherwise")

    def test_check_of_a_room(self):
        """What 'upsmon --check DIR ..' says of the machines of a room, whose files it is given by their folders' names."""
        primary, secondary = ("MONITOR su700@%s 1 mon m1 %s\nSHUTDOWNCMD true\n" % it for it in (("localhost", "primary"), ("m1", "secondary")))
        two = "MONITOR su700@m1 1 mon m1 primary\nMONITOR su800@m1 1 mon m1 primary\nMINSUPPLIES 2\nSHUTDOWNCMD true\n"
        stops = "upsmon: %s: shuts down within %d s of OB LB if answers take at most %d s\n"
        enough, short = ("upsmon: m1: HOSTSYNC %d is enough: %s needs the most, %d\n", "upsmon: m1: HOSTSYNC %d is too short: %s needs the most, %d\n")
        battery = "upsmon: m1: battery.runtime.low: at least %d s, and what a machine takes from SHUTDOWNCMD until it is off\n"
        alone = "upsmon: %s: no machine here is the primary of its UPSes: none waits for it\n"
        answers = (
            "upsmon: m2: 6 s for an answer are too long: upsmon gives a server up after 5 s while a UPS is on battery, "
            "so nothing is known of this room\n"
        )
        several = "upsmon: m1: its UPSes are at several servers: HOSTSYNC and the battery are reckoned for one\n"
        keeps = "upsmon: m1: keeps running without the UPSes of which it is the primary: it forces no shutdown while their battery is low\n"
        unset = "upsmon: m1: SHUTDOWNCMD is not set: nothing will shut down this machine\n"
        lonely, never = "upsmon: m1: no other machine here needs its UPSes\n", "upsmon: m3: never shuts down: MINSUPPLIES is 0\n"
        m1, m2 = stops % ("m1", 28, 2), stops % ("m2", 28, 2)
        for files, words, out, err in (
            # FSD is accepted within 3 s; a second for the clocks; POLLFREQ 5, an answer 2, FINALDELAY 5 - 1
            ({"m1": primary, "m2": secondary}, (), (m1, m2, enough % (15, "m2", 15), battery % 28), ()),
            # the room of docs/room.md
            ({"m1": primary, "m2": secondary, "m5": secondary}, ("--delay", "m1=1", "--delay", "m2=1", "--delay=m5=3"),
             (stops % ("m1", 27, 1), stops % ("m2", 27, 1), stops % ("m5", 29, 3), enough % (15, "m5", 14), battery % 27), ()),
            # a HOSTSYNC that is too short: the last machine is halted after the primary
            ({"m1": primary + "HOSTSYNC 9\n", "m2": secondary + "FINALDELAY 30\n"}, (),
             (stops % ("m1", 22, 2), stops % ("m2", 53, 2), battery % 47), (short % (9, "m2", 40),)),
            # a primary of two UPSes; a machine that needs one of them and one that needs none
            ({"m1": two, "m2": secondary, "m3": secondary + "MINSUPPLIES 0\n"}, (),
             (m1, m2, never, battery % 28), (short % (15, "m2", 16),)),
            ({"m1": primary}, (), (m1, lonely, battery % 28), ()),
            ({"m2": secondary}, (), (m2,), (alone % "m2",)),
            ({"m1": primary + "MONITOR su800@m9 1 mon m1 secondary\n"}, (), (stops % ("m1", 44, 2),), (several, keeps)),
            ({"m1": primary, "m2": secondary}, ("--delay", "m2=6"), (m1,), (answers,)),
            ({"m1": "MONITOR su700@m1 1 mon m1 primary\n"}, (), (m1, lonely, battery % 28), (unset,)),
        ):
            expect(self.checked_room(files, *words, *files), (0, "".join(out), "".join(err)), f"{files} {words}")

    def test_check_of_a_room_agrees_with_nutroom(self):
        """The HOSTSYNC that 'upsmon --check DIR ..' reckons for random rooms is the one that nutroom reckons for a primary that may
        have no young status."""
        seen = 0
        for seed in range(80):
            machines = random_machines(random.Random(f"check {seed}"))
            room = PlayedRoom("")
            room.machines = machines
            words = [it.name for it in machines] + [word for it in machines for word in ("--delay", f"{it.name}={it.delay}")]
            _, out, err = self.checked_room({it.name: it.conf for it in machines}, *words)
            said = {name: int(need) for name, need in re.findall(r"(m\d): HOSTSYNC \d+ is (?:enough|too short): m\d needs the most, (\d+)", out + err)}
            with unittest.mock.patch.object(bounds, "is_patient", lambda room, primary: False):
                for primary in machines:
                    needs = [bounds.needed_host_sync(room, primary, it) for it in machines if it is not primary]
                    most = max((it for it in needs if it is not None), default=None)
                    # one that goes on without its own UPSes forces no shutdown
                    leads = primary.rules.has_primary and bounds.needed_host_sync(room, primary, primary) is not None
                    expect(said.get(primary.name), most if leads else None, f"{primary.name} of room {seed}: {out}{err}")
            seen += len(said)
        ensure(seen > 30, f"only {seen} primaries have others to wait for")

    def test_check_of_a_room_that_is_wrong(self):
        primary = "MONITOR su700@localhost 1 mon m1 primary\nSHUTDOWNCMD true\n"
        delay = "upsmon: --delay %s: expected DIR=SECONDS, with a DIR that is checked\n"
        for word in ("m2=1", "m1=", "m1=x", "m1=-1", "m1", "=1", ""):
            expect(self.checked_room({"m1": primary}, "--delay", word, "m1"), (1, "", delay % word), word)
        fault = "upsmon: in m2:\nupsmon: upsmon.conf:1: BadForm\n"
        status, out, err = self.checked_room({"m1": primary, "m2": "MONITOR\n"}, "m1", "m2")
        expect((status, out, err[: len(fault)]), (1, "", fault), "a file with a fault")
        status, out, err = self.checked_room({"m1": primary}, "m1", "m9")
        expect((status, out, err.splitlines()[:2]), (1, "", ["upsmon: in m9:", "upsmon: upsmon.conf: cannot read"]), "a folder that isn't there")
        for words in (["m1", "--conf", "m1"], ["--delay", "m1=1"]):
            status, out, _ = self.checked_room({"m1": primary}, *words)
            expect((status, out), (2, ""), words)

    def checked_room(self, files, *words):
        """What 'upsmon --check' gives with such words in a folder that has these files upsmon.conf in folders of these names."""
        with tempfile.TemporaryDirectory(dir=self.folder) as folder:
            for name, conf in files.items():
                write(os.path.join(folder, name, "upsmon.conf"), conf)
            return ended([self.upsmon, "--check", *words], cwd=folder)

    def test_check_finds_what_keeps_a_machine_from_stopping(self):
        """A login that a server refuses, a server that isn't there, a command that isn't a program. Each login is ended."""
        down = f"su700@127.0.0.1:{free_port()}"
        with self.room() as room, Silent() as silent, tempfile.TemporaryDirectory(dir=self.folder) as folder:
            room.dummy()
            room.upsd()
            target = room.target
            text = os.path.join(folder, "text")
            write(text, "#!/bin/sh\n")
            env = {**os.environ, "PATH": put_upsc(folder, LASTS_LONG)}
            refused = f"connection failed: {named_error(errno.ECONNREFUSED)}"
            for line, shutdown, warnings in (
                (f"{target} 1 mon m1 primary", "true", []),
                (f"{target} 1 guest g1 secondary", "/bin/true now", []),
                (f"{target} 1 mon wrong primary", "true", [f"UPS {target}: LOGIN refused: ACCESS-DENIED"]),
                (f"none@127.0.0.1:{room.port} 1 mon m1 primary", "true", [f"UPS none@127.0.0.1:{room.port}: LOGIN refused: UNKNOWN-UPS"]),
                (f"{down} 1 mon m1 primary", "true", [f"UPS {down}: {refused}"]),
                (f"{silent.target} 1 mon m1 primary", "true", [f"UPS {silent.target}: connection lost"]),
                (f"{target} 1 mon m1 primary", "/sbin/shutdwon -h now", ["SHUTDOWNCMD: /sbin/shutdwon isn't a program"]),
                (f"{target} 1 mon m1 primary", f"{text} now", [f"SHUTDOWNCMD: {text} isn't a program"]),
                (f"{target} 1 mon m1 primary", f"{folder}/$1", []),
            ):
                write(os.path.join(folder, "upsmon.conf"), f'MONITOR {line}\nSHUTDOWNCMD "{shutdown}"\n')
                status, _, err = ended([self.upsmon, "--check", "--conf", folder], env=env)
                expect((status, err), (int(bool(warnings)), "".join(f"upsmon: {it}\n" for it in warnings)), f"{line}, {shutdown}")
            expect(room.ask(b"GET NUMLOGINS su700\n"), b"NUMLOGINS su700 0\n", "who is logged in")

    def test_check_asks_how_early_lb_is_said(self):
        conf = "MONITOR a@h 1 mon m1 primary\nMONITOR b@h:9 1 mon m1 primary\nMONITOR c@h 0 mon m1 primary\nSHUTDOWNCMD true\n"
        unknown = "upsmon: UPS %s: battery.runtime.low is unknown\n"
        late = "upsmon: UPS %s: battery.runtime.low is %d s, but this machine may shut down as late as 28 s after OB LB\n"
        slow = "upsmon: UPS %s: no answer within 5 s: on battery upsmon gives up such a server, and may shut down this machine after DEADTIME\n"
        for upsc, told in (
            ("echo 28", ""),
            ("echo 28.9", ""),
            ("echo 27", late % ("a@h", 27) + late % ("b@h:9", 27)),
            ("echo 27.9", late % ("a@h", 27) + late % ("b@h:9", 27)),
            ('[ "$1" = b@h:9 ] && echo 0 || echo 300', late % ("b@h:9", 0)),
            ('[ "$*" = "a@h battery.runtime.low" ] && echo 1 || echo 300', late % ("a@h", 1)),
            ("exit 1", unknown % "a@h" + unknown % "b@h:9"),
            ("echo 20; exit 1", unknown % "a@h" + unknown % "b@h:9"),
            ("echo", unknown % "a@h" + unknown % "b@h:9"),
            ("echo 1e3", unknown % "a@h" + unknown % "b@h:9"),
            # nothing within the time that upsmon gives a server on battery
            ("exec sleep 60", slow % "a@h" + slow % "b@h:9"),
            ("sleep 3; echo 300", ""),
            # it leaves a process that holds its output
            ("sleep 60 & exit 0", unknown % "a@h" + unknown % "b@h:9"),
            ("sleep 60 & echo 20", late % ("a@h", 20) + late % ("b@h:9", 20)),
            (None, unknown % "a@h" + unknown % "b@h:9"),
        ):
            begun = time.monotonic()
            status, _, err = self.checked(conf, upsc=upsc)
            expect((status, sorted(err.splitlines())), (0, sorted(told.splitlines())), upsc)
            ensure(time.monotonic() - begun < 15, f"{upsc}: it took too long")
        expect(self.checked(conf + "MINSUPPLIES 0\n", upsc="echo 1")[2], "", "a machine that needs no UPS")
        names = [f"u{i:02}@h" for i in range(20)]
        conf = "".join(f"MONITOR {name} 1 mon m1 primary\n" for name in names) + "MINSUPPLIES 1\nSHUTDOWNCMD true\n"
        begun = time.monotonic()
        err = self.checked(conf, upsc="exec sleep 60")[2]
        # eight are asked at a time, and the next ones don't have these seconds
        wanted = sorted([slow % name for name in names[:8]] + [unknown % name for name in names[8:]])
        expect(sorted(err.splitlines(True)), wanted, "more UPSes than are asked in time")
        ensure(time.monotonic() - begun < 15, "twenty silent UPSes: it took too long")

    @contextlib.contextmanager
    def asking(self, script, conf, haste):
        """Watches a server by a clock that is so many times as fast, where upsc is such a script. Yields the server, the monitor, and how
        often upsc was called."""
        with tempfile.TemporaryDirectory(dir=self.folder) as folder, Upstream() as server:
            asked = os.path.join(folder, "asked")
            path = put_upsc(folder, f"echo >> {asked}; {script.replace('ASKED', asked)}")
            env = {**os.environ, "PATH": path, "LD_PRELOAD": build_library("hasten", self.folder), "HASTE": str(haste)}
            with self.watch(f"{server.line()}SHUTDOWNCMD true\n{conf}", "-q", env=env) as watch:
                yield server, watch, lambda: read(asked).count("\n") if os.path.exists(asked) else 0

    def test_start_asks_how_early_lb_is_said(self):
        """A server that can be asked only after some time: its answer is told once, and it isn't asked again."""
        late = "upsmon: UPS %s: battery.runtime.low is 12 s, but this machine may shut down as late as 28 s after OB LB"
        with self.asking('[ "$(wc -l < ASKED)" = 1 ] && exit 1; echo 12', "", 20) as (server, watch, asked):
            # by this clock an answer of the server may take long, which is told too
            told = lambda: [line for line in watch.lines("err") if "runtime" in line]
            until(told, "a warning", 15)
            count = asked()
            ensure(count >= 2, "it isn't asked again after it gave no answer")
            time.sleep(3)
            expect(told(), [late % server.target], "what is told")
            expect(asked(), count, "how often it was asked, once it had answered")

    def test_shutdown_ends_the_questions(self):
        """A UPS that is asked for how early it says LB when the shutdown begins isn't asked for again."""
        with self.asking("exec sleep 60", "POLLFREQ 1\nHOSTSYNC 1\nFINALDELAY 60\n", 8) as (server, watch, asked):
            until(asked, "a question", 15)
            server.statuses[b"su700"] = b"FSD"
            expect(watch.status(30), 0, "the halt")
            expect(asked(), 1, "how often it was asked")

    def test_folder_of_the_environment(self):
        conf = "MONITOR a@h 1 mon m1 primary\nSHUTDOWNCMD true\n"
        said = "upsmon: this machine shuts down within 28 s of OB LB if answers take at most 2 s\n"
        expect(self.checked(conf, "-q", env={"NUT_CONFPATH": "FOLDER"}), (0, said, ""), "NUT_CONFPATH")
        status, out, err = self.checked(conf, "--conf", "FOLDER/none", env={"NUT_CONFPATH": "FOLDER"})
        expect((status, out, err.splitlines()[0]), (1, "", "upsmon: upsmon.conf: cannot read"), "--conf comes first")
        ensure(err.endswith(f"/none/upsmon.conf: No such file or directory (os error {errno.ENOENT})\n"), f"where it looked: {err}")
        cannot = (1, "", cannot_read("upsmon", "upsmon.conf", "/nowhere/upsmon.conf", errno.ENOENT))
        expect(self.checked(conf, "--conf", "FOLDER", env={"NUT_CONFPATH": "/nowhere"}), (0, said, ""), "--conf alone counts")
        expect(self.checked(conf, "-q", env={"NUT_CONFPATH": "/nowhere"}), cannot, "a folder that isn't there")
        # an empty variable names no folder: the machine's own is used
        own = self.checked(conf, "-q", env={"NUT_CONFPATH": ""})
        expect(own, self.checked(conf, "--conf", "/etc/nut"), "an empty NUT_CONFPATH")
        found = ended([self.upsmon], env={**os.environ, "NUT_CONFPATH": "/nowhere"})
        expect(found, cannot, "a start without --conf")

    def test_memory_refused(self):
        """Each allocation of a whole run is refused in turn: upsmon ends before it watches anything and reports the lack of
        memory, or it continues and halts."""
        with Upstream(status=b"FSD") as server:
            conf = server.line() + QUICK + "POWERDOWNFLAG FOLDER/flag\nSHUTDOWNCMD true\n"
            for at, env, is_reached in refusals(self.shim):
                with self.watch(conf, "-q", env={**os.environ, **env}) as watch:
                    status = watch.status()
                    if status == 1:
                        expect((watch.lines(), watch.lines("err")), ([], ["upsmon: out of memory"]), f"allocation {at}")
                        expect(watch.read("flag"), None, f"allocation {at}")
                    else:
                        expect((status, watch.lines()[-1], watch.read("flag")), (0, SHUTDOWN, FLAG), f"allocation {at}")
                if not is_reached():
                    break
            ensure(at >= 10, f"{at - 1} allocations were seen")


if __name__ == "__main__":
    sys.exit(play(Tests, 4))
