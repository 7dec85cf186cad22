"""Plays systemd's journal for upsd, upsmon and dummy-ups: the priorities with which their lines begin there, and that lines are
plain everywhere else.

    python3 -m tests.programs.journal UPSD DUMMY_UPS UPSC UPSMON"""

import errno
import os
import socket
import sys

from tests.support.harness import FullPipe, ended, ensure, expect, named_error, play
from tests.support.monitored import BATTERY_LOW, LOST, ON_BATTERY, QUICK, SHUTDOWN, MonitorTests
from tests.support.room import Lines, until

HALTS = 'SHUTDOWNCMD "touch FOLDER/halted"\n'
VARIABLE = "JOURNAL_STREAM"
KEPT = "<3>not reloaded: the earlier configuration stays in force"


def named(stream, device=0, inode=0):
    """Returns the environment in which this stream is the journal's, or one whose numbers differ by so much."""
    found = os.fstat(stream if isinstance(stream, int) else stream.fileno())
    return {**os.environ, VARIABLE: f"{found.st_dev + device}:{found.st_ino + inode}"}


class Journal(Lines):
    """A socket such as systemd gives to a service, and the lines that are written to it."""

    def __init__(self):
        self.end, self.stream = socket.socketpair()
        self.stderr = self.end.makefile("rb")
        super().__init__(self)

    def __enter__(self):
        return self

    def __exit__(self, *_):
        # the thread that reads ends with the last writer
        self.stream.close()
        self.thread.join(10)
        self.stderr.close()
        self.end.close()

    def streams(self):
        """Returns how a program is started whose standard output and error are this stream."""
        return {"stdout": self.stream, "stderr": self.stream, "env": named(self.stream)}

    def whole(self):
        """Returns all lines, once nobody writes any more."""
        self.stream.close()
        self.thread.join(10)
        return self.lines


class Tests(MonitorTests):
    def ended(self, *words):
        """Runs a program to its end. Returns its status, and what it wrote to the journal."""
        with Journal() as journal:
            status, _, _ = ended(words, **journal.streams())
            return status, journal.whole()

    def expect_priorities(self, lines, program):
        """Expects each line to begin with one, and none with the program's name."""
        for line in lines:
            ensure(line[:3] in ("<3>", "<4>", "<5>", "<6>") and f"{program}:" not in line, f"the beginning of {line!r}")

    def test_server(self):
        with Journal() as journal, self.room() as room:
            room.upsd(**journal.streams())
            journal.next(f"<6>listening on 127.0.0.1:{room.port}")
            journal.next(f"<6>UPS su700, driver at {room.path('dummy-ups-su700')}")
            journal.next("<4>UPS su700: cannot connect to its driver: ")
            driver = room.dummy()
            journal.next("<6>UPS su700: driver connected")
            # the server told that the data is stale if a second passed before the dump
            with room.client() as client:
                until(lambda: client.ask(b"GET VAR su700 ups.id\n").startswith(b"VAR"), "the driver is heard")
                client.log_in(b"mon", b"m1")
                expect(client.ask(b"LOGIN su700\n"), b"OK\n", "LOGIN")
                expect(client.ask(b"FSD su700\n"), b"OK FSD-SET\n", "FSD")
                journal.next("<4>UPS su700: shutdown is forced (FSD)")
            driver.kill()
            journal.next("<4>UPS su700: driver lost")
            room.reload(b"[su700]\n[su700]\n")
            journal.next(KEPT)
            expect(journal.found_last(3), ["<3>ups.conf:2: Repeated", "<3>[su700]: a line before has it", KEPT], "a fault")
            room.reload(b"[su700]\ndesc = \"another\"\n")
            journal.next("<5>reloaded: UPS su700: description")
            self.expect_priorities(journal.lines, "upsd")

    def test_faults(self):
        none = os.path.join(self.folder, "none")
        with self.room() as room, socket.create_server(("127.0.0.1", room.port)):
            for words, *lines in (
                ((self.upsd, "--conf", none, "-s", none), "ups.conf: cannot read", f"{none}/ups.conf: {named_error(errno.ENOENT)}"),
                (
                    (self.upsd, "--conf", room.folder, "-s", room.folder),
                    f"cannot listen on 127.0.0.1:{room.port}", named_error(errno.EADDRINUSE),
                ),
                ((self.upsmon, "--conf", none), "upsmon.conf: cannot read", f"{none}/upsmon.conf: {named_error(errno.ENOENT)}"),
                ((self.dummy, "a.txt", none), "a.txt: unknown kind"),
            ):
                expect(self.ended(*words), (1, [f"<3>{line}" for line in lines]), words)

    def test_command_lines(self):
        """clap's text keeps its form, its first line is an error, and so is the line below it. The help is none."""
        for program in (self.upsd, self.upsmon, self.dummy):
            status, lines = self.ended(program, "--wrong")
            with Journal() as journal:
                first, *rest, last = ended([program, "--wrong"], env=named(journal.stream))[2].splitlines()
            expect((status, lines), (2, ["<3>" + first, *rest, "<3>" + last.partition(": ")[2]]), "a wrong option")
            ensure(first.startswith("error: "), "clap's text elsewhere")
            status, lines = self.ended(program, "--help")
            ensure(status == 0 and not any(line.startswith("<") and line[2:3] == ">" for line in lines), f"the help: {lines}")

    def test_monitor(self):
        with Journal() as journal:
            with self.watched(QUICK + HALTS, role="secondary", **journal.streams()) as (server, watch):
                target = server.target
                journal.next(f"<6>UPS {target}: watched as secondary, power value 1")
                journal.next("<6>this machine shuts down within ")
                journal.next(f"<6>UPS {target}: server connected")
                watch.reload("POLLFREQ x\n")
                journal.next(KEPT)
                fault = ["<3>upsmon.conf:1: BadNumber", "<3>x: a number from 1 to 1000000 is meant"]
                expect(journal.found_last(3), [*fault, KEPT], "a fault")
                server.statuses[b"su700"] = b"OB"
                journal.next(f"<5>{ON_BATTERY % target}")
                server.statuses[b"su700"] = b"OB LB"
                expect(watch.status(), 0, "the status")
                expect(watch.read("halted"), b"", "what SHUTDOWNCMD makes")
            last = [f"<5>{BATTERY_LOW % target}", f"<5>shutdown: UPS {target} is on battery, and its battery is low", f"<5>{SHUTDOWN}"]
            lines = journal.whole()
            expect([line for line in lines if line in last], last, "how the shutdown begins")
            self.expect_priorities(lines, "upsmon")

    def test_monitor_without_its_server(self):
        with Journal() as journal, self.watched("POLLFREQ 1\n", role="secondary", **journal.streams()) as (server, _):
            journal.next("<4>SHUTDOWNCMD is not set")
            journal.next(f"<6>UPS {server.target}: server connected")
            server.close()
            journal.next(f"<4>UPS {server.target}: server lost")
            journal.next(f"<5>{LOST % server.target}")
            journal.next(f"<4>UPS {server.target}: cannot connect to the server: ")

    def test_faults_of_a_halt(self):
        with Journal() as journal:
            conf = QUICK + 'POWERDOWNFLAG FOLDER/none/flag\nSHUTDOWNCMD "exit 3"\n'
            with self.watched(conf, status=b"OB LB", **journal.streams()) as (_, watch):
                expect(watch.status(), 1, "the status")
                flag = watch.path("none/flag")
            lines = journal.whole()
            expect([line for line in lines if "POWERDOWNFLAG" in line][0][:3], "<4>", "a flag that can't be made ready")
            last = [f"<4>POWERDOWNFLAG {flag}", "<3>SHUTDOWNCMD ended with status 3"]
            expect([line.partition(" cannot")[0] for line in lines[-2:]], last, "the end")

    def test_check_of_a_configuration(self):
        with Journal() as journal:
            with self.watch("MINSUPPLIES 0\n", "--check", **journal.streams()) as watch:
                expect(watch.status(), 0, "the status")
            lines = journal.whole()
            expect(sorted(line[:3] for line in lines), ["<4>", "<6>"], f"a warning, and how soon the machine stops: {lines}")

    def test_one_stream_alone(self):
        """Whether a stream is the journal's is asked of each stream."""
        for name, other in (("stdout", "err"), ("stderr", "out")):
            with Journal() as journal:
                options = {"env": named(journal.stream), name: journal.stream}
                with self.watched(QUICK + HALTS, role="secondary", status=b"OB LB", **options) as (_, watch):
                    expect(watch.status(), 0, "the status")
                    ensure(all(line.startswith("<") for line in journal.whole()), f"{name} in the journal: {journal.lines}")
                    plain = watch.lines(other)
                    ensure(plain and not any(line.startswith("<") for line in plain), f"what isn't in the journal: {plain}")

    def test_lines_that_were_let_go(self):
        """They are counted once there is room again, in the journal and elsewhere, and the next line comes alone."""
        for is_journal, warning, notice in ((True, "<4>", "<5>"), (False, "upsmon: ", "")):
            stream = FullPipe()
            options = {"env": named(stream.writer)} if is_journal else {}
            with stream as pipe, self.watched("POLLFREQ 1\n", role="secondary", stdout=pipe.writer, **options) as (server, watch):
                for status in (b"OB", b"OL"):
                    server.statuses[b"su700"] = status
                    server.until_asked_again(2)
                expect(pipe.read(), b"", "nothing is printed where there is no room")
                server.statuses[b"su700"] = b"OB"
                told = f"{warning}2 log lines dropped (output blocked)\n{notice}{ON_BATTERY % server.target}\n".encode()
                until(lambda: told == pipe.read() or watch.process.poll(), "what was let go is told")
                server.statuses[b"su700"] = b"OL"
                until(lambda: f"{notice}UPS {server.target} on line power\n".encode() == pipe.read(), "the next line comes alone")

    def test_elsewhere(self):
        """Programs below a service, or in a terminal that is one, have the variable, and another stream."""
        words = [self.dummy, "a.txt", "none"]
        with Journal() as journal:
            own, wrong = named(journal.stream)[VARIABLE], []
            device, inode = own.split(":")
            for value in ("", ":", device, f"{device}:", f":{inode}", f"{device}:{inode}:", f"{device} {inode}", f"{own}x", "9" * 500):
                wrong.append({**os.environ, VARIABLE: value})
            wrong += [named(journal.stream, device=1), named(journal.stream, inode=1), named(journal.end)]
            wrong.append({name: value for name, value in os.environ.items() if name != VARIABLE})
            for env in wrong:
                expect(ended(words, stderr=journal.stream, env=env)[0], 1, "the status")
            expect(journal.whole(), ["dummy-ups: a.txt: unknown kind"] * len(wrong), f"the lines without {own}")

    def test_daemons_elsewhere(self):
        with Journal() as journal, self.room() as room:
            env = named(journal.stream)
            told = Lines(room.upsd(env=env))
            told.next(f"upsd: listening on 127.0.0.1:{room.port}")
            with self.watch(f"MONITOR su700@127.0.0.1:{room.port} 1 mon m1 secondary\nPOLLFREQ 1\n", env=env) as watch:
                watch.until_told("upsmon: SHUTDOWNCMD is not set: nothing will shut down this machine")
                watch.until_told(f"upsmon: UPS su700@127.0.0.1:{room.port}: watched as secondary, power value 1")
                room.dummy(b"ups.status: OB\n")
                watch.until_printed(ON_BATTERY % f"su700@127.0.0.1:{room.port}")
                ensure(not any(line.startswith("<") for line in watch.lines() + watch.lines("err")), "no priorities")


if __name__ == "__main__":
    sys.exit(play(Tests, 4))
