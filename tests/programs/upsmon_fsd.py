"""Forces shutdowns by 'upsmon --fsd', at upsd with dummy-ups and at servers that the tests play.

    python3 -m tests.programs.upsmon_fsd UPSD DUMMY_UPS UPSC UPSMON"""

import contextlib
import errno
import os
import re
import socket
import sys
import tempfile
import time

from tests.support.harness import (
    NUTS_OPTIONS, ROOT, cannot_read, ended, ensure, expect, named_error, play, read, refusals, streams_without_readers, write,
)
from tests.support.monitored import (
    FLAG, FORCED, QUICK, SHUTDOWN, USERS, ByteByByte, Closing, Endless, MonitorTests, Rubbish, Silent, Upstream,
)
from tests.support.room import STATUS, free_port

PASSWORD = "not-to-be-shown"
GOES_ON = "upsmon: this machine keeps running: "
QUERIES = [b"USERNAME mon", f"PASSWORD {PASSWORD}".encode(), b"FSD su700"]
# what a server is asked that accepts each query
ALL = [*QUERIES, b"GET VAR su700 ups.status", b"LOGOUT"]
REFUSED = f"connection failed: {named_error(errno.ECONNREFUSED)}"
NO_PRIMARY = "upsmon: upsmon.conf: no MONITOR line is primary\n"


class Forced(Upstream):
    """It shows a forced shutdown."""

    def answer(self, line):
        if line.startswith(b"FSD"):
            self.statuses[b"su700"] = b"FSD OL"
        return super().answer(line)


class Slow(Forced, ByteByByte):
    """It sends byte by byte."""


class Dripping(Slow):
    """It sends a byte each six seconds."""

    pause = 6


class Answering(Forced):
    """It answers a query in its own way, and others as any server."""

    def __init__(self, answers):
        super().__init__()
        self.answers = answers

    def answer(self, line):
        return self.answers.get(line.split()[0]) or super().answer(line)


class OneByOne(Forced):
    """It notes what a client has sent before its last query was answered."""

    early = b""

    def send(self, end, data):
        time.sleep(0.2)
        with contextlib.suppress(BlockingIOError):
            self.early += end.recv(4096, socket.MSG_PEEK | socket.MSG_DONTWAIT)
        super().send(end, data)


def line_of(target, user="mon", password=PASSWORD, role="primary"):
    return f"MONITOR {target} 1 {user} {password} {role}\n"


def is_set(target):
    return f"UPS {target}: FSD set\n"


def failed(target, why):
    return f"upsmon: UPS {target}: FSD failed: {why}\n"


def set_but(target, why):
    return f"upsmon: UPS {target}: FSD set, but {why}\n"


def goes_on(*targets):
    return GOES_ON + ", ".join(f"{it} still supplies 1" for it in targets) + "\n"


def in_any_order(text):
    return "".join(sorted(text.splitlines(keepends=True)))


class Tests(MonitorTests):
    @contextlib.contextmanager
    def room(self, **options):
        """A room with a server and a driver for su700."""
        users = USERS + b"[operator]\npassword = o1\nactions = FSD\n"
        with super().room(users, **options) as room:
            room.driver = room.dummy()
            room.upsd()
            room.until(STATUS, b'VAR su700 ups.status "OL"\n')
            yield room

    def force(self, conf, *words, **options):
        """Runs upsmon with such a file to force shutdowns. Returns the status, and what it writes to both streams. Of several
        servers it tells as they answer: lines are sorted here, but for the last one, by which the machine goes on."""
        with tempfile.TemporaryDirectory(dir=self.folder) as folder:
            if conf is not None:
                write(os.path.join(folder, "upsmon.conf"), conf)
            status, out, err = ended([self.upsmon, "--fsd", "--conf", folder, *words], **options)
        ensure(PASSWORD not in out + err, "the password is shown")
        told = err.replace(folder, "FOLDER").splitlines(keepends=True)
        last = told.pop() if told and told[-1].startswith(GOES_ON) else ""
        if all(": FSD " in it for it in told):
            told.sort()
        return status, in_any_order(out), "".join(told) + last

    def status(self, target):
        """Returns the status that upsc shows."""
        return ended([self.upsc, target, "ups.status"])[1]

    def test_shutdown_is_forced(self):
        with self.room() as room:
            target = room.target
            halts = 'POWERDOWNFLAG FOLDER/flag\nSHUTDOWNCMD "touch FOLDER/halted"\n'
            line = line_of(target, password="m1")
            with self.watch(line + QUICK + halts) as watch:
                room.until(b"GET NUMLOGINS su700\n", b"NUMLOGINS su700 1\n")
                expect(self.force(line), (0, is_set(target), ""), "what is told")
                expect(self.status(target), "FSD OL\n", "the status")
                expect(watch.status(), 0, "the monitor that runs halts")
                expect(watch.lines(), [FORCED % target, SHUTDOWN], "what it prints")
                expect((watch.read("flag"), watch.read("halted")), (FLAG, b""), "the halt")
            # it is set already, and nobody watches
            expect(self.force(line), (0, is_set(target), ""), "once more")

    def test_user_who_may_only_force(self):
        """A user with 'actions = FSD' alone may do it."""
        with self.room() as room:
            expect(self.force(line_of(room.target, "operator", "o1")), (0, is_set(room.target), ""), "what is told")
            expect(room.ask(b"GET NUMLOGINS su700\n"), b"NUMLOGINS su700 0\n", "no primary counts it")

    def test_several_lines(self):
        """Each primary line counts, and no other."""
        with self.room(ups=b"[su700]\n[b]\n[c]\n") as room, Forced() as other:
            for ups in "bc":
                room.dummy(ups=ups)
                room.until(b"GET VAR %s ups.status\n" % ups.encode(), b'VAR %s ups.status "OL"\n' % ups.encode())
            a, b, c = (f"{ups}@localhost:{room.port}" for ups in ("su700", "b", "c"))
            conf = line_of(b, password="m1") + line_of(other.target, role="secondary") + line_of(c, "guest", "g1", "secondary")
            found = self.force(f"MINSUPPLIES 0\nPOLLFREQ 1\n{conf}{line_of(a, password='m1')}")
            expect(found, (0, is_set(b) + is_set(a), f"{GOES_ON}MINSUPPLIES is 0\n"), "what is told")
            expect([self.status(it) for it in (a, b, c)], ["FSD OL\n", "FSD OL\n", "OL\n"], "the statuses")
            expect(other.asked, [], "what the server of a secondary line is asked")

    def test_one_server_is_down(self):
        """A server that fails keeps no other from being asked."""
        down = f"su700@127.0.0.1:{free_port()}"
        with Forced() as first, Closing() as closing, Rubbish() as rubbish, Forced() as last:
            targets = [it.target for it in (first, closing, rubbish, last)]
            found = self.force("".join(map(line_of, [down, *targets])))
            whys = zip([down, *targets[1:3]], [REFUSED, "connection lost", "bad answer"])
            told = in_any_order("".join(failed(*it) for it in whys)) + goes_on(down, *targets[1:3])
            expect(found, (1, in_any_order(is_set(targets[0]) + is_set(targets[3])), told), "what is told")
            for server in (first, last):
                expect(server.queries(), ALL, "what a server is asked")

    def test_silent_server(self):
        """Servers that don't answer, or trickle, are given up after ten seconds, all at once, and keep no other waiting."""
        with contextlib.ExitStack() as servers:
            silent = [servers.enter_context(Silent()) for _ in range(6)]
            dripping, server = servers.enter_context(Dripping()), servers.enter_context(Forced())
            late = [it.target for it in (*silent, dripping)]
            begun = time.monotonic()
            found = self.force("".join(map(line_of, [*late, server.target])))
            told = in_any_order("".join(failed(it, "connection lost") for it in late)) + goes_on(*late)
            expect(found, (1, is_set(server.target), told), "what is told")
            ensure(9 < time.monotonic() - begun < 20, "all are given up after 10 seconds")
            ensure(server.told[b"FSD OL"] - begun < 5, "a server that answers has FSD at once")
            for it in (*silent, dripping):
                expect(it.asked, [b"USERNAME mon\n"], "what a server is asked that doesn't answer")

    def test_machines_that_are_not_told(self):
        """FSD is set, and nobody hears of it: the status is refused, or doesn't show it."""
        back = "; they shut down once the driver is back"
        unheard = "its machines don't hear of it: "
        for answer, why in (
            (b"ERR DRIVER-NOT-CONNECTED\n", f"{unheard}DRIVER-NOT-CONNECTED{back}"),
            (b"ERR DATA-STALE\n", f"{unheard}DATA-STALE{back}"),
            (b"ERR VAR-NOT-SUPPORTED\n", f"{unheard}VAR-NOT-SUPPORTED{back}"),
            (b'VAR su700 ups.status "OL"\n', f"{unheard}its status is OL"),
            (b"\xff\n", "it is unknown whether its machines hear of it: bad answer"),
        ):
            with Answering({b"GET": answer}) as server:
                told = set_but(server.target, why) + goes_on(server.target)
                expect(self.force(line_of(server.target)), (1, "", told), f"{answer}")
                expect(server.queries(), ALL, f"what is asked at {answer}")

    def test_driver_is_gone(self):
        """The server accepts FSD of a UPS without a driver, and warns; its machines stop once the driver is back."""
        with self.room() as room:
            room.driver.kill()
            room.driver.wait()
            room.until(STATUS, b"ERR DRIVER-NOT-CONNECTED\n")
            why = "its machines don't hear of it: DRIVER-NOT-CONNECTED; they shut down once the driver is back"
            told = set_but(room.target, why) + goes_on(room.target)
            expect(self.force(line_of(room.target, password="m1")), (1, "", told), "what is told")
            room.dummy()
            room.until(STATUS, b'VAR su700 ups.status "FSD OL"\n')

    def test_what_still_supplies(self):
        """By power values: secondary lines and lines that failed still supply, those without power don't."""
        down = f"su700@127.0.0.1:{free_port()}"
        with Forced() as first, Forced() as second:
            target, other = first.target, second.target
            without = line_of(other, role="secondary").replace(" 1 ", " 0 ")
            expect(self.force(line_of(target) + without), (0, is_set(target), ""), "a line without power")
            found = self.force(line_of(target) + line_of(other, role="secondary"))
            expect(found, (0, is_set(target), goes_on(other)), "a secondary line")
            found = self.force("MINSUPPLIES 2\n" + "".join(map(line_of, (target, other, down))))
            expect(found, (1, in_any_order(is_set(target) + is_set(other)), failed(down, REFUSED)), "too little is left")

    def test_line_without_an_end(self):
        """A server whose line is too long is given up at once, and the next one is asked."""
        with Endless() as endless, Forced() as server:
            begun = time.monotonic()
            found = self.force(line_of(endless.target) + line_of(server.target))
            expect(found, (1, is_set(server.target), failed(endless.target, "bad answer") + goes_on(endless.target)), "what is told")
            ensure(time.monotonic() - begun < 5, "no time is lost")

    def test_queries_come_one_by_one(self):
        with OneByOne() as server, Slow() as slow:
            expect(self.force(line_of(server.target))[0], 0, "status")
            expect((server.queries(), server.early), (ALL, b""), "what is asked")
            expect(self.force(line_of(slow.target)), (0, is_set(slow.target), ""), "a server that sends byte by byte")

    def test_answers(self):
        """Whatever query isn't answered OK, it is the last."""
        for answer, why in (
            (b"ERR ACCESS-DENIED\n", "ACCESS-DENIED"),
            (b"ERR DRIVER-NOT-CONNECTED\nOK\n", "DRIVER-NOT-CONNECTED"),
            (b'VAR su700 ups.status "OL"\n', "bad answer"),
            (b"NOK\n", "bad answer"),
            (b'OK "\n', "bad answer"),
        ):
            for at, query in enumerate(QUERIES):
                with Answering({query.split()[0]: answer}) as server:
                    found = self.force(line_of(server.target))
                    name = query.split()[0].decode()
                    told = failed(server.target, f"{name} refused: {why}" if answer.startswith(b"ERR") else why)
                    expect(found, (1, "", told + goes_on(server.target)), f"{answer} to {query}")
                    expect(server.queries(), QUERIES[: at + 1], f"what is asked if {query} gets {answer}")

    def test_files_by_which_nothing_is_forced(self):
        """One that isn't there, one with a fault, and those without a primary line."""
        with Upstream() as server:
            for conf, told in (
                (None, cannot_read("upsmon", "upsmon.conf", "FOLDER/upsmon.conf", errno.ENOENT)),
                (server.line() + "POLLFREQ 0\n", "upsmon: upsmon.conf:2: BadNumber\nupsmon: 0: a number from 1 to 1000000 is meant\n"),
                (server.line("secondary"), NO_PRIMARY),
                ("MINSUPPLIES 0\n", NO_PRIMARY),
            ):
                expect(self.force(conf), (1, "", told), f"{conf}")
            expect(server.asked, [], "what the server is asked")

    def test_folder_of_the_environment(self):
        with Forced() as server, tempfile.TemporaryDirectory(dir=self.folder) as folder:
            write(os.path.join(folder, "upsmon.conf"), line_of(server.target))
            found = ended([self.upsmon, "--fsd"], env={**os.environ, "NUT_CONFPATH": folder})
            expect(found, (0, is_set(server.target), ""), "NUT_CONFPATH")

    def test_command_lines(self):
        with Forced() as server:
            for words in (["-K"], ["--check"], ["--fsd"], ["more"]):
                status, out, err = self.force(line_of(server.target), *words)
                expect((status, out, err != ""), (2, "", True), f"{words}")
            expect(server.asked, [], "what the server is asked")
            expect(self.force(line_of(server.target), "-q"), (0, is_set(server.target), ""), "-q")

    def test_options_of_nut(self):
        """What to do in place of an option of NUT's upsmon comes below clap's text, which has no tip to pass it as an argument."""
        pid, user = "there are no PID files; use", "the unit decides as which user upsmon runs"
        for words, way in (
            (["-c", "fsd"], "-c fsd is not supported: use upsmon --fsd"),
            (["-cfsd"], "-c fsd is not supported: use upsmon --fsd"),
            (["-q", "-c", "reload"], "-c reload is not supported: use systemctl reload mulgefa-upsmon"),
            (["-c", "stop"], "-c stop is not supported: use systemctl stop mulgefa-upsmon"),
            (["-c"], "-c is not supported: use upsmon --fsd or systemctl"),
            (["-P", "7"], f"-P is not supported: {pid} systemctl"),
            (["-FF"], f"-FF is not supported: {pid} -F"),
            (["-F", "-F"], f"-F -F is not supported: {pid} -F"),
            (["-DB"], None),
            (["-B"], "-B is not supported: upsmon always stays in the foreground"),
            (["-p"], f"-p is not supported: {user}"),
            (["-u", "nut"], f"-u is not supported: {user}"),
            (["--frobnicate"], None),
        ):
            status, out, err = ended([self.upsmon, *words])
            expect((status, out, err[:7], "tip: to pass" in err), (2, "", "error: ", False), f"{words}")
            last = (f"upsmon: {way}\n" if way else "") + NUTS_OPTIONS.format("upsmon")
            expect(err.partition("\nupsmon: ")[1:], ("\nupsmon: ", last[len("upsmon: ") :]), f"what comes last: {words}")

    def test_help_has_the_forms_of_the_page(self):
        forms = re.findall(r"^(?:Usage:|      ) (upsmon .*)$", ended([self.upsmon, "--help"])[1], re.MULTILINE)
        page = read(os.path.join(ROOT, "man", "upsmon.8")).replace("\\-", "-")
        shown = re.findall(r"^\.SY (upsmon\n.*?)\n\.YS$", page, re.MULTILINE | re.DOTALL)
        words = re.compile(r"-?-[a-zA-Z]+|DIR|SECONDS|upsmon")
        expect([words.findall(it) for it in forms], [words.findall(it) for it in shown], "the forms")

    def test_output_that_is_closed(self):
        """All servers are asked, whoever reads what is told, and none is sent it."""
        down = f"su700@127.0.0.1:{free_port()}"
        with streams_without_readers() as streams:
            for name, options in streams.items():
                with Forced() as server:
                    expect(self.force(line_of(down) + line_of(server.target), **options)[0], 1, f"the status with {name}")
                    expect(server.queries(), ALL, f"what the server is asked with {name}")

    def test_memory_refused(self):
        """Each allocation is refused in turn: FSD is set and told, or what failed is told and the status is 1."""
        with Forced() as server:
            unknown = "it is unknown whether its machines hear of it: out of memory"
            told = [failed(server.target, "out of memory"), set_but(server.target, unknown)]
            reasons = ["upsmon: out of memory\n", *(it + goes_on(server.target) for it in told)]
            for at, env, is_reached in refusals(self.shim):
                status, out, err = self.force(line_of(server.target), env={**os.environ, **env})
                if status == 1:
                    expect((out, err in reasons), ("", True), f"allocation {at}: {err!r}")
                else:
                    expect((status, out, err), (0, is_set(server.target), ""), f"allocation {at}")
                if not is_reached():
                    break
            ensure(at > 10, f"{at - 1} allocations were seen")


if __name__ == "__main__":
    sys.exit(play(Tests, 4))
