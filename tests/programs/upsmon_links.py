"""Starts upsmon with servers that are silent, refuse, close or hang, and with a name server that never answers; and stops it
for a while.

    python3 -m tests.programs.upsmon_links UPSD DUMMY_UPS UPSC UPSMON"""

import contextlib
import errno
import os
import re
import signal
import socket
import subprocess
import sys
import tempfile
import threading
import time

from tests.support.harness import Missing, apart, build_library, ended, ensure, expect, named_error, play, write
from tests.support.model import LINE_MAX
from tests.support.monitored import (
    BATTERY_LOW, ESTABLISHED, LOST, ON_BATTERY, QUICK, SHUTDOWN, Closing, Endless, MonitorTests, Nonsense, Rubbish, Silent, Upstream,
    Urgent, children_of, put_program,
)
from tests.support.room import STATUS, has_ipv6, raise_loopback, until

# how long a server may take for an answer while a UPS is on battery and while none is, and for a connection, in seconds
SHORT, LONG, PATIENCE = 5, 10, 5
# for how many seconds after its start upsmon doesn't tell that a UPS without a status is lost
FIRST = 15
# how many hosts the dead name server is asked for, and a host that is found without it
HOSTS = 30
KNOWN = "ups.example"
FSD = b"FSD su700\n"
COUNT = b"GET NUMLOGINS su700\n"
WAITS = "upsmon: UPS %s: server reports WAIT: DEADTIME can't start a shutdown until it hears its driver"
LATE = (
    "upsmon: UPS %s: an answer took more than 5 s: on battery upsmon gives up such a server, and may shut down this machine"
    " after DEADTIME"
)
RETURNED = (
    "upsmon: UPS %s: reconnected to the server that accepted FSD; if it restarted, FSD is lost and absent machines"
    " aren't waited for"
)


class Moody(Upstream):
    """A server that becomes silent, or refuses, when the test says so."""

    def __init__(self, **options):
        self.is_silent = False
        self.refused = {}
        # when it last answered
        self.answered = None
        super().__init__(**options)

    def answer(self, line):
        if self.is_silent:
            return b""
        self.answered = time.monotonic()
        return self.refused.get(line.split()[0]) or super().answer(line)

    def drop(self):
        """Ends its connections, and continues to listen."""
        for end in self.ends:
            with contextlib.suppress(OSError):
                end.shutdown(socket.SHUT_RDWR)
        self.ends.clear()


class Slow(Moody):
    """A server that takes a second and a half more for each answer to a query for a status than it has on battery."""

    def __init__(self, **options):
        self.slow = []
        super().__init__(**options)

    def answer(self, line):
        if line == STATUS:
            time.sleep(SHORT + 1.5)
            self.slow.append(line)
        return super().answer(line)


@contextlib.contextmanager
def deaf(port):
    """Has this port take no connections, as behind a firewall that drops them: nobody accepts those that fill its queue."""
    with contextlib.ExitStack() as held:
        held.enter_context(socket.create_server(("127.0.0.1", port), backlog=0))
        for _ in range(4):
            caller = held.enter_context(socket.socket())
            caller.setblocking(False)
            with contextlib.suppress(BlockingIOError):
                caller.connect(("127.0.0.1", port))
        yield


def reports_of(watch, target):
    """Returns what upsmon reported about a UPS on standard error, without what it reported at its start."""
    front = f"upsmon: UPS {target}: "
    found = [line[len(front) :] for line in watch.lines("err") if line.startswith(front)]
    return [line for line in found if not line.startswith("watched as ")]


def warnings_of(watch):
    """Returns the lines on standard error that are written also with -q: warnings of servers, without those of settings."""
    return [line for line in watch.lines("err") if re.search(": (server reports WAIT|an answer took|reconnected to the server)", line)]


class Tests(MonitorTests):
    def expect_reported(self, watch, target, line):
        """Waits until this is the last report about a UPS."""
        until(lambda: reports_of(watch, target)[-1:] == [line], f"{line!r} is reported")

    def test_silent_server_is_given_up(self):
        """Two servers become silent, one of them with its UPS on battery, before two monitors."""
        calm = self.watched("POLLFREQ 1\n", kind=Moody)
        failing = self.watched("POLLFREQ 1\nDEADTIME 60\n", kind=Moody, status=b"OB")
        with calm as (calm_server, first), failing as (failing_server, second):
            for server in (calm_server, failing_server):
                server.until_asked(2)
                server.is_silent = True
            # the server whose UPS is on battery is given up sooner
            self.expect_given_up(failing_server, second, SHORT)
            self.expect_given_up(calm_server, first, LONG)

    def expect_given_up(self, server, watch, limit):
        watch.until_printed(LOST % server.target, limit + 10)
        passed = time.monotonic() - server.answered
        ensure(passed >= limit, f"{limit} s are waited for, not {passed:.1f}")
        wanted = ["server connected", f"server lost: no answer for {limit} s"]
        expect(reports_of(watch, server.target), wanted, "reports")
        until(lambda: len(server.ends) >= 2, "it is called again")
        server.is_silent = False
        # the link that was made meanwhile may still be waited for
        server.drop()
        watch.until_printed(ESTABLISHED % server.target, limit + 10)
        self.expect_reported(watch, server.target, "server connected")
        expect(watch.lines().count(LOST % server.target), 1, "how often the loss is told")

    def test_call_begins_with_the_address_that_served(self):
        """Of the two addresses of `localhost`, the first one takes no call."""
        with self.second_address(deaf) as (server, watch):
            dropped = time.monotonic()
            server.drop()
            until(lambda: server.ends, "it is called again", 30)
            passed = time.monotonic() - dropped
            ensure(passed < PATIENCE, f"the first address isn't dialled before it: {passed:.1f} s")

    def test_address_that_never_serves(self):
        """Of the two addresses of `localhost`, the first one takes each call, and never answers."""
        with self.second_address(lambda port: socket.create_server(("127.0.0.1", port))) as (server, _):
            server.drop()
            until(lambda: server.ends, "it is called first from now on", PATIENCE)

    @contextlib.contextmanager
    def second_address(self, first):
        """Watches a server at the second address of `localhost`, once it serves, where the first one is such a place."""
        if not has_ipv6():
            raise Missing("this machine has no IPv6")
        with Moody(host="::1") as server, first(server.port):
            target = f"su700@localhost:{server.port}"
            with self.watch(f"MONITOR {target} 1 mon m1 primary\nPOLLFREQ 1\n") as watch:
                server.until_asked(1, 30)
                self.expect_reported(watch, target, "server connected")
                yield server, watch

    def test_name_whose_address_never_serves(self):
        """The name is looked up again once its address has closed the link."""
        with tempfile.TemporaryDirectory(dir=self.folder) as names, Closing(host="127.0.0.2") as closing, Moody(
            port=closing.port, host="127.0.0.3"
        ) as server:
            target = f"su700@{KNOWN}:{closing.port}"
            getent = put_program(os.path.join(names, "getent"), "echo 127.0.0.2 STREAM")
            conf = f"MONITOR {target} 1 mon m1 primary\nPOLLFREQ 1\n"
            with self.watch(conf, env={**os.environ, "PATH": names}) as watch:
                until(lambda: reports_of(watch, target), "that the address closes the link is reported")
                put_program(getent, "echo 127.0.0.3 STREAM")
                server.until_asked(1, 30)

    def test_host_is_looked_up_by_a_program(self):
        """What is told of a host if the program isn't there, can't be run, fails, or can't be started at all."""
        starts = self.refusing_starts(self.folder)
        cannot, unknown = "cannot connect to the server: getent, which looks its name up, cannot be started", "cannot resolve the server's name"
        for script, mode, settings, why in (
            (None, 0, {}, cannot),
            ("echo 127.0.0.1 STREAM", 0o644, {}, cannot),
            ("exit 2", 0o755, {}, unknown),
            ("echo 127.0.0.1 DGRAM", 0o755, {}, unknown),
            # it leaves a process that holds its output
            ("/bin/sleep 60 & exit 0", 0o755, {}, unknown),
            ("echo 127.0.0.1 STREAM", 0o755, starts, cannot),
        ):
            with tempfile.TemporaryDirectory(dir=self.folder) as names:
                if script is not None:
                    put_program(os.path.join(names, "getent"), script, mode)
                env = {**os.environ, **settings, "PATH": names}
                with self.watch("MONITOR su700@ups.example 1 mon m1 primary\n", env=env) as watch:
                    until(lambda: reports_of(watch, "su700@ups.example"), "a report")
                    expect(reports_of(watch, "su700@ups.example"), [why], f"{script} {mode:o} refused: {bool(settings)}")

    def test_no_watch_is_left(self):
        """What is reported if no socket can be watched."""
        env = {**os.environ, "LD_PRELOAD": self.shim, "REFUSE": "watch"}
        with self.watched("", env=env) as (server, watch):
            until(lambda: reports_of(watch, server.target), "a report")
            expect(reports_of(watch, server.target), [f"cannot connect to the server: {named_error(errno.ENOSPC)}"], "reports")

    def test_refusals(self):
        """A wrong password: upsd refuses what needs a user, and each refusal is reported once a link."""
        with self.room() as room:
            target = room.target
            room.dummy()
            server = room.upsd()
            conf = f"MONITOR {target} 1 mon wrong primary\nPOLLFREQ 1\n"
            refused = ["LOGIN refused: ACCESS-DENIED", "PRIMARY refused: ACCESS-DENIED"]
            with self.watch(conf) as watch, self.watch(conf, "-q") as quiet:
                for it in (watch, quiet):
                    until(lambda: refused[-1] in reports_of(it, target), "the refusals are told")
                time.sleep(2.5)
                told = [line for line in reports_of(watch, target) if "refused: ACCESS" in line]
                expect((told, reports_of(quiet, target)), (refused, refused), "what is told once, also with -q")
                server.kill()
                server.wait()
                room.upsd()
                for it in (watch, quiet):
                    until(lambda: reports_of(it, target).count(refused[0]) == 2, "it is told of the new link")

    def test_refusals_of_a_status_and_of_fsd(self):
        """With `-q` only the refusal of FSD is told: a notice tells of a UPS without a status."""
        stale, unknown = "status refused: DATA-STALE", "status refused: UNKNOWN-UPS"
        for words in ((), ("-q",)):
            with self.watched("POLLFREQ 1\nHOSTSYNC 2\nFINALDELAY 0\n", *words, kind=Moody) as (server, watch):
                wanted = [] if words else ["server connected"]
                for answer, line in (
                    (b"ERR DATA-STALE\n", stale),
                    (b"ERR UNKNOWN-UPS\n", unknown),
                    (b"OL", None),
                    (b"ERR DATA-STALE\n", stale),
                ):
                    server.statuses[b"su700"] = answer
                    server.until_asked_again(3)
                    wanted += [line] if line and not words else []
                    expect(reports_of(watch, server.target), wanted, f"what is told {words}")
                server.refused[b"FSD"] = b"ERR ACCESS-DENIED\n"
                server.statuses[b"su700"] = b"OB LB"
                expect(watch.status(), 0, "status")
                ensure(server.asked.count(FSD) >= 2, "FSD is asked for again")
                expect(reports_of(watch, server.target), [*wanted, "FSD refused: ACCESS-DENIED"], f"what is told at the end {words}")

    def test_server_that_is_slow(self):
        """An answer that comes after the time that a server has on battery is told once, until the server was lost, also with -q.
        It is read all the same."""
        with self.watched("POLLFREQ 1\n", "-q", kind=Slow) as (server, watch):
            for count in (1, 2):
                until(lambda: len(server.slow) >= 2 * count, "two slow answers", 40)
                until(lambda: len(warnings_of(watch)) >= count, "that is told", 40)
                expect(warnings_of(watch), [LATE % server.target] * count, "what is told")
                expect(watch.lines().count(LOST % server.target), count - 1, "the link stays until the server drops it")
                server.drop()

    def test_server_that_waits_for_its_driver(self):
        """A status with WAIT after another is told once, also with -q, and however often the link is lost meanwhile."""
        for words in ((), ("-q",)):
            with self.watched("POLLFREQ 1\nDEADTIME 8\n", *words, kind=Moody, status=b"WAIT") as (server, watch):
                for count, status in enumerate((b"WAIT", b"OB", b"WAIT", b"AWAIT", b"ALARM WAIT", b"ERR DATA-STALE\n", b"WAIT", b"OL")):
                    server.statuses[b"su700"] = status
                    if count in (2, 6):
                        server.drop()
                    server.until_asked_again(3, 20)
                    wanted = 0 if count < 2 else 1 if count < 4 else 2
                    expect(warnings_of(watch), [WAITS % server.target] * wanted, f"what is told of {status}, {words}")

    def test_server_that_waits_for_its_driver_stops_no_machine(self):
        """After OB, WAIT and then nothing the machine goes on after DEADTIME, as the warning says; after OB and nothing it
        doesn't."""
        for status, is_halted in ((b"OB", True), (b"WAIT", False)):
            with self.watched(QUICK + "DEADTIME 3\n", kind=Moody, status=b"OB") as (server, watch):
                watch.until_printed(ON_BATTERY % server.target)
                server.statuses[b"su700"] = status
                server.until_asked_again(3)
                server.close()
                watch.until_printed(LOST % server.target, 20)
                if is_halted:
                    expect(watch.status(20), 0, "the halt")
                else:
                    time.sleep(6)
                    expect((watch.process.poll(), warnings_of(watch)), (None, [WAITS % server.target]), "it goes on")

    def test_server_that_is_lost_after_fsd(self):
        """A primary that waits for others is told each time that the server which accepted its FSD is back. A server that
        comes and goes without serving isn't."""
        conf = "POLLFREQ 1\nHOSTSYNC 60\nFINALDELAY 0\n"
        with self.watched(conf, "-q", kind=Moody, status=b"OB LB", logins=2) as (server, watch):
            for count in (0, 1, 2):
                until(lambda: server.asked.count(COUNT) >= 2, "who is logged in is counted")
                expect(warnings_of(watch), [RETURNED % server.target] * count, f"what is told after {count} losses")
                expect(server.asked.count(FSD), 1 if count == 0 else 0, "how often FSD is asked for")
                server.asked.clear()
                server.is_silent = count == 0
                server.drop()
                if server.is_silent:
                    until(lambda: server.ends, "it is called again")
                    server.is_silent = False
                    server.drop()
            server.logins = 1
            expect(watch.status(20), 0, "the halt")

    def test_server_that_is_started_again_after_fsd(self):
        """upsd is killed once it has accepted FSD, and started again: a secondary that isn't back isn't waited for, which is
        told before the shutdown goes on."""
        with self.room() as room:
            target = room.target
            room.dummy(b"ups.status: OB LB\n")
            server = room.upsd()
            room.until(STATUS, b'VAR su700 ups.status "OB LB"\n')
            conf = f"MONITOR {target} 1 mon m1 primary\nPOLLFREQ 1\nHOSTSYNC 60\nFINALDELAY 0\n"
            with room.client() as secondary:
                secondary.log_in(b"guest", b"g1")
                expect(secondary.ask(b"LOGIN su700\n"), b"OK\n", "the secondary logs in")
                with self.watch(conf, stderr=subprocess.STDOUT) as watch:
                    room.until(STATUS, b'VAR su700 ups.status "FSD OB LB"\n')
                    room.until(COUNT, b"NUMLOGINS su700 2\n")
                    time.sleep(1.5)
                    ensure(SHUTDOWN not in watch.lines(), "the secondary is waited for")
                    server.kill()
                    server.wait()
                    room.upsd()
                    expect(watch.status(20), 0, "the halt")
                    told = [line for line in watch.lines() if line in (RETURNED % target, SHUTDOWN)]
                    expect(told, [RETURNED % target, SHUTDOWN], "what is told in turn")

    def test_servers_that_never_serve(self):
        """A server that closes each connection, one that says what wasn't asked, one that answers with a line that is no answer,
        one that sends a line without an end, and one that is silent. None costs processor time, or holds up the other UPS."""
        closes, unread = "server closed the connection before answering", "server gave an unexpected answer"
        for kind, reports in ((Closing, [closes]), (Rubbish, [unread]), (Nonsense, [unread]), (Endless, [unread]), (Silent, [])):
            name = kind.__name__
            with kind() as server, Upstream() as other:
                with self.watch("MINSUPPLIES 1\n" + server.line("secondary", 0) + other.line("secondary") + QUICK) as watch:
                    begun = time.monotonic()
                    if reports:
                        until(lambda: len(server.ends) >= 4, "it is called again", 20)
                        # after pauses of 1, 2 and 4 seconds
                        ensure(time.monotonic() - begun > 5, f"the pauses grow: {name}")
                    other.until_asked(3)
                    expect(reports_of(watch, server.target), reports, f"what is told once: {name}")
                    expect(reports_of(watch, other.target), ["server connected"], "what is told of the other")
                    expect(watch.lines(), [], f"what is told of a UPS without a status in the first seconds: {name}")
                    ensure(watch.is_idle(3, 0.15), f"processor time: {name}")
                    other.statuses[b"su700"] = b"OB LB"
                    expect(watch.status(), 0, f"status: {name}")
                    told = [ON_BATTERY % other.target, BATTERY_LOW % other.target, LOST % server.target, SHUTDOWN]
                    expect(watch.lines(), told, f"what is told: {name}")

    def test_line_without_an_end(self):
        """A server that answers, and then sends a line that never ends, is given up at 2,049 bytes of it, long before its time is
        over; at 2,048 it still has its time."""
        for length, is_given_up in ((LINE_MAX, False), (LINE_MAX + 1, True)):
            with self.watched(QUICK, role="secondary", kind=Moody) as (server, watch):
                server.until_asked(2)
                server.refused[b"GET"] = b"x" * length
                server.until_asked_again()
                time.sleep(3)
                lost = ["server lost: unexpected answer"] if is_given_up else []
                expect(reports_of(watch, server.target)[1:2], lost, f"what is told after {length} bytes")

    def test_driver_that_comes_late(self):
        """At a boot the server is there before the driver is: nothing is told of a loss, and the first status at once."""
        with self.room() as room:
            target = room.target
            room.upsd()
            with self.watch(f"MONITOR {target} 1 mon m1 primary\nPOLLFREQ 1\n") as watch:
                until(lambda: "status refused: DRIVER-NOT-CONNECTED" in reports_of(watch, target), "the status is refused")
                time.sleep(2)
                room.dummy(b"ups.status: OB\n")
                watch.until_printed(ON_BATTERY % target)
                expect(watch.lines(), [ON_BATTERY % target], "what is told")

    def test_first_seconds(self):
        """That UPSes without a status are lost is told after the first seconds, and that of one which had a status at once."""
        with Moody(status=b"ERR DATA-STALE\n") as stale, Closing() as closing, Moody() as heard:
            lines = "".join(it.line("secondary") for it in (stale, closing, heard))
            begun = time.time()
            with self.watch(lines + "POLLFREQ 1\n") as watch:
                for server in (heard, stale):
                    server.until_asked(2)
                heard.drop()
                watch.until_printed(LOST % heard.target, FIRST - 3)
                watch.until_printed(ESTABLISHED % heard.target, 5)
                told = [LOST % heard.target, ESTABLISHED % heard.target]
                expect(watch.lines(), told, "what is told in the first seconds")
                for server in (stale, closing):
                    watch.until_printed(LOST % server.target, FIRST + 5)
                passed = os.stat(watch.path("out")).st_mtime - begun
                ensure(FIRST - 1 <= passed <= FIRST + 3, f"the losses are told after {FIRST} s: {passed:.1f}")
                expect(sorted(watch.lines()[2:]), sorted(LOST % it.target for it in (stale, closing)), "what is told then")
                stale.statuses[b"su700"] = b"OL"
                watch.until_printed(ESTABLISHED % stale.target)
                heard.is_silent = True
                heard.drop()
                until(lambda: watch.lines().count(LOST % heard.target) == 2, "a later loss is told at once", 3)

    def test_losses_are_told_before_a_shutdown(self):
        with Moody(status=b"ERR DATA-STALE\n") as stale, Moody() as other:
            with self.watch("MINSUPPLIES 1\n" + stale.line("secondary", 0) + other.line("secondary") + QUICK) as watch:
                for server in (stale, other):
                    server.until_asked(2)
                other.statuses[b"su700"] = b"OB FSD"
                expect(watch.status(), 0, "status")
                expect(watch.lines()[-2:], [LOST % stale.target, SHUTDOWN], "what is told last")

    def test_urgent_data(self):
        """A second of the monitor's clock lasts a minute here: bytes behind urgent data are read without waiting for the
        next second, when each link is looked at again."""
        library = build_library("hasten", self.folder)
        env = {**os.environ, "LD_PRELOAD": library, "HASTE": str(1 / 60)}
        with self.watched(QUICK, kind=Urgent, env=env) as (server, watch):
            server.watch = watch
            until(lambda: "server connected" in reports_of(watch, server.target), "each of its lines is read", 20)
            ensure(watch.is_idle(), "urgent data keep the monitor busy")
            for _ in range(1000):
                server.ends[0].send(b"!", socket.MSG_OOB)
            ensure(watch.is_idle(), "urgent data that nothing follows keep the monitor busy")
            expect(reports_of(watch, server.target), ["server connected"], "reports")

    def test_monitor_that_stands_still(self):
        """A UPS on battery that answers again halts no machine, though DEADTIME passed while the monitor was stopped:
        neither if its server kept the link, nor if it closed it meanwhile, nor if it is late to come back."""
        conf = "POLLFREQ 1\nDEADTIME 5\nFINALDELAY 0\n"
        with contextlib.ExitStack() as stack:
            pairs = [stack.enter_context(self.watched(conf, kind=Moody, status=b"OB")) for _ in range(3)]
            kept, closed, late = (server for server, _ in pairs)
            for server, watch in pairs:
                watch.until_printed(ON_BATTERY % server.target)
                server.until_asked(2)
            for _, watch in pairs:
                watch.signal(signal.SIGSTOP)
            time.sleep(1)
            closed.drop()
            late.is_silent = True
            time.sleep(7)
            for server, _ in pairs:
                server.asked.clear()
            for _, watch in pairs:
                watch.signal(signal.SIGCONT)
            time.sleep(0.5)
            late.is_silent = False
            late.drop()
            time.sleep(3)
            for server, watch in pairs:
                server.until_asked(2)
                expect((watch.process.poll(), SHUTDOWN in watch.lines()), (None, False), "it goes on")
            # it still halts if there is a reason
            kept.statuses[b"su700"] = b"OB LB"
            closed.is_silent = late.is_silent = True
            for _, watch in pairs:
                expect(watch.status(30), 0, "status")
                expect(watch.lines()[-1], SHUTDOWN, "what upsmon prints last")
            ensure(BATTERY_LOW % kept.target in pairs[0][1].lines(), "the low battery is told")

    def test_shutdown_after_a_stall(self):
        """The seconds that a monitor missed don't shorten the time that it gives the others to stop."""
        with self.watched("POLLFREQ 1\nHOSTSYNC 3\nFINALDELAY 1\n", kind=Moody, logins=2) as (server, watch):
            server.until_asked(2)
            with watch.stopped():
                time.sleep(7)
                server.statuses[b"su700"] = b"OB LB"
                server.asked.clear()
            expect(watch.status(20), 0, "status")
            ensure(FSD in server.asked, "FSD is asked for")
            ensure(time.monotonic() - server.told[b"OB LB"] > 3, "HOSTSYNC and FINALDELAY pass")

    def test_stall_in_a_shutdown(self):
        """A monitor that is stopped while it waits for the others gives them HOSTSYNC once it goes on, and then FINALDELAY; one
        that is stopped after the notice SHUTDOWN waits no longer than FINALDELAY."""
        with self.watched("POLLFREQ 1\nHOSTSYNC 4\nFINALDELAY 3\n", kind=Moody, status=b"FSD", logins=2) as (server, watch):
            until(lambda: FSD in server.asked, "FSD is asked for")
            with watch.stopped():
                time.sleep(8)
                begun = time.time()
            expect(watch.status(20), 0, "status")
            ended_at = time.time()
            # the notice is the last line
            told = os.stat(watch.path("out")).st_mtime
            expect(watch.lines()[-1], SHUTDOWN, "what upsmon prints last")
            ensure(told - begun > 2.5, f"HOSTSYNC passes after the stall: {told - begun}")
            ensure(ended_at - told > 1.5, "FINALDELAY passes after the notice")
        with self.watched("POLLFREQ 1\nHOSTSYNC 1\nFINALDELAY 6\n", kind=Moody, status=b"FSD", logins=2) as (_, watch):
            watch.until_printed(SHUTDOWN)
            with watch.stopped():
                time.sleep(7)
            # if it waited for FINALDELAY anew, it would take 6 s
            expect(watch.status(4), 0, "status right after FINALDELAY")

    def test_dead_name_server(self):
        """This program plays the test again in a network of its own, whose name server never answers."""
        command = apart("--mount", "--net")
        inside = [sys.executable, "-m", "tests.programs.upsmon_links", "--inside", self.folder, *self.programs]
        status, out, err = ended([*command, *inside], timeout=120)
        ensure(status == 0, out + err)


class NameServer:
    """A name server of this namespace that receives queries and answers none."""

    def __init__(self, folder):
        raise_loopback()
        self.hosts = os.path.join(folder, "hosts")
        files = {"resolv.conf": "nameserver 127.0.0.1\n", "nsswitch.conf": "hosts: files dns\n", "hosts": f"127.0.0.1 {KNOWN}\n"}
        for name, text in files.items():
            own = os.path.join(folder, name)
            write(own, text)
            subprocess.run(["mount", "--bind", own, os.path.join("/etc", name)], check=True)
        self.socket = socket.socket(socket.AF_INET, socket.SOCK_DGRAM)
        self.socket.bind(("127.0.0.1", 53))
        self.heard = 0
        threading.Thread(target=self.hear, daemon=True).start()

    def hear(self):
        while True:
            self.socket.recv(4096)
            self.heard += 1

    def forget_hosts(self):
        """From now on no name is known without the name server."""
        write(self.hosts, "")


class Inside(Tests):
    """The tests that are played in a namespace with a name server that never answers."""

    def play(self):
        names = NameServer(self.folder)
        with Moody() as server:
            lost = "".join(f"MONITOR u{i}@h{i}.example 0 mon m1 secondary\n" for i in range(HOSTS))
            target = f"su700@{KNOWN}:{server.port}"
            conf = f"MONITOR {target} 1 mon m1 primary\n{lost}POLLFREQ 1\nFINALDELAY 1\n"
            with self.watch(conf + 'SHUTDOWNCMD "touch FOLDER/halted"\n') as watch:
                server.until_asked(2)
                names.forget_hosts()
                server.drop()
                watch.until_printed(ESTABLISHED % target)
                until(lambda: "not looked up in time" in watch.read("err").decode(), "a look-up is given up", 20)
                ensure(names.heard > 0, "the name server is asked")
                # one of them is the shell that waits for the halt
                most = len(children_of(watch.process.pid)) - 1
                ensure(0 < most <= 8, f"look-ups are few: {most}")
                server.statuses[b"su700"] = b"OB LB"
                begun = time.monotonic()
                expect(watch.status(30), 0, "status")
                passed = time.monotonic() - begun
                ensure(passed <= 1 + 5, f"it halts within FINALDELAY and 5 s: {passed:.1f} s")
                expect(watch.read("halted"), b"", "what SHUTDOWNCMD makes")
                told = reports_of(watch, "u0@h0.example")
                expect(told, ["cannot connect to the server: its name is not looked up in time"], "what is told of a name")


def main():
    if sys.argv[1] == "--inside":
        folder, *programs = sys.argv[2:]
        Inside(*programs, folder).play()
        return 0
    # they wait most of the time, so they are run in parallel
    return play(Tests, 4, "they need Linux's namespaces and a C compiler", at_once=8)


if __name__ == "__main__":
    sys.exit(main())
