"""Starts upsmon, upsd and dummy-ups without what they need: readers of what they print, memory, a stack, a shell. The machine is
halted all the same, except by an upsmon that refuses to start.

    python3 -m tests.programs.upsmon_halting UPSD DUMMY_UPS UPSC UPSMON"""

import contextlib
import errno
import functools
import itertools
import os
import resource
import shlex
import signal
import socket
import stat
import subprocess
import sys
import tempfile
import time

from tests.support.harness import ROOT, FullPipe, apart, cannot_read, ended, ensure, expect, patience, play, read, read_bytes, write
from tests.support.monitored import FLAG, QUICK, SHUTDOWN, MonitorTests, Upstream, children_of, put_program
from tests.support.room import ONLINE, SOON, STATUS, USERS, Lines, heed_modes, said, state_of, stopped, until

WORD = FLAG.strip()
HALTED = 'SHUTDOWNCMD "touch FOLDER/halted"\n'
# how much a command writes to each of its streams, which is more than a pipe holds
MUCH = 200000
LOUD = f'SHUTDOWNCMD "head -c {MUCH} /dev/zero; head -c {MUCH} /dev/zero >&2; touch FOLDER/halted"\n'
ECHOED = 'SHUTDOWNCMD "echo a; echo b >&2; touch FOLDER/halted"\n'
FOREIGN = "was not written by upsmon; left unchanged"
NO_SHELL = "upsmon: cannot start SHUTDOWNCMD's shell yet: "
NOT_YET = "upsmon: SHUTDOWNCMD cannot be started yet: "
NOT_STARTED = "upsmon: SHUTDOWNCMD cannot be started: "
REPLACED = "upsmon: SHUTDOWNCMD's shell was missing (killed or not started); replaced"
CONTINUED = "upsmon: SHUTDOWNCMD's shell is suspended; sending SIGCONT"
UNTOLD = "upsmon: SHUTDOWNCMD has run; how it ended isn't known, since SIGCHLD is ignored"
# how much stack each daemon asks for, in KiB
STACK = 512


def fronts(lines, wanted):
    """Returns the lines, each cut to the wanted beginning if it has that."""
    return [front if line.startswith(front) else line for line, front in itertools.zip_longest(lines, wanted, fillvalue="")]


def is_running(pid):
    """Whether a process exists and hasn't ended."""
    return state_of(pid) not in ("", "Z", "X")


def stack(most):
    """Returns what limits the stack of the program that is started next, in KiB."""
    return functools.partial(resource.setrlimit, resource.RLIMIT_STACK, (most * 1024, most * 1024))


@contextlib.contextmanager
def masked(bits):
    """Files that are made meanwhile don't get these bits of a mode."""
    before = os.umask(bits)
    try:
        yield
    finally:
        os.umask(before)


class Tests(MonitorTests):
    def room(self):
        return super().room(USERS)

    def halting(self, conf, *words, delay=0, status=b"FSD", **options):
        """Starts an upsmon that halts soon, as the primary of a UPS with a forced shutdown or this status."""
        return self.watched(f"POLLFREQ 1\nHOSTSYNC 1\nFINALDELAY {delay}\n{conf}", *words, status=status, **options)

    @contextlib.contextmanager
    def flag(self, held=None):
        """The path of a POWERDOWNFLAG in a folder of its own, in which nothing is, or a file that holds this."""
        with tempfile.TemporaryDirectory(dir=self.folder) as folder:
            path = os.path.join(folder, "flag")
            if held is not None:
                write(path, held)
            yield path
            os.chmod(folder, 0o700)

    def expect_halt(self, watch, *told):
        """Expects that SHUTDOWNCMD runs, and that standard error has these lines, or lines that begin so before a colon."""
        expect((watch.status(), watch.read("halted")), (0, b""), "the halt")
        expect(fronts(watch.told(), told), [*told], "what is told")
        expect([it for it in told if it[-2:] != ": " and it not in watch.told()], [], "whole lines")

    def key(self, folder, conf=None, **options):
        """Returns the status of 'upsmon -K', and what it writes."""
        if conf is not None:
            write(os.path.join(folder, "upsmon.conf"), f"MONITOR su700@localhost 1 mon m1 primary\n{conf}")
        return ended([self.upsmon, "-K", *options.pop("words", ["--conf", folder])], **options)

    def test_too_little_stack(self):
        """A daemon that would be ended by SIGSEGV once its stack is full says so before anything else."""
        none = os.path.join(self.folder, "none")
        for name, *words in (
            ("upsd", self.upsd, "--conf", none, "-s", none),
            ("dummy-ups", self.dummy, none, none),
            ("upsmon", self.upsmon, "--conf", none),
            ("upsmon", self.upsmon, "--no-such-option"),
        ):
            for most in (128, 256, STACK - 1):
                told = f"{name}: the stack is limited to {most} KiB; {STACK} are needed\n"
                expect(ended(words, preexec_fn=stack(most)), (1, "", told), f"{words} with {most} KiB")

    def test_enough_stack(self):
        """Each daemon runs with the stack that it asks for: a dump of all that fits, long lists, a reload, a fault, a halt."""
        with self.room() as room:
            names = b"".join(b"ambient.%d.status: %s\n" % (i, b"x" * 400) for i in range(400))
            dummy = room.dummy(names + b"ups.status: OL\n", preexec_fn=stack(STACK))
            upsd = room.upsd(preexec_fn=stack(STACK))
            lines = Lines(upsd)
            room.until(STATUS, ONLINE, patience(SOON))
            with room.client() as client:
                client.log_in()
                expect(len(client.list(b"LIST VAR su700\n")), 403, "a list")
                expect(client.ask(b"INSTCMD su700 load.off\n"), b"OK\n", "a command")
            for text, told in ((b"[su700]\n[b]\n", "upsd: reloaded: UPS b added"), (b"[a]\n[a]\n", "upsd: not reloaded")):
                room.reload(text)
                lines.next(told)
            expect((dummy.poll(), upsd.poll()), (None, None), "the daemons that run")
        conf = f"POWERDOWNFLAG FOLDER/flag\nNOTIFYCMD true\nNOTIFYFLAG FSD EXEC\n{HALTED}"
        with self.halting(conf, preexec_fn=stack(STACK)) as (_, watch):
            expect((watch.status(), watch.read("flag"), watch.read("halted")), (0, FLAG, b""), "a halt")

    def test_full_output_holds_up_no_halt(self):
        notices = "".join(f"NOTIFYFLAG {it} SYSLOG+EXEC\n" for it in ("ONBATT", "LOWBATT", "SHUTDOWN"))
        conf = f"{QUICK}{notices}NOTIFYCMD FOLDER/none\nPOWERDOWNFLAG FOLDER/flag\n{HALTED}"
        for names in (("stdout",), ("stderr",), ("stdout", "stderr")):
            with FullPipe() as pipe, self.watched(conf, status=b"OB LB", **{name: pipe.writer for name in names}) as (_, watch):
                expect(watch.status(), 0, f"status with a full pipe as {names}")
                expect((watch.read("flag"), watch.read("halted")), (FLAG, b""), f"the halt with a full pipe as {names}")

    def test_full_output_holds_up_no_failed_halt(self):
        with FullPipe() as pipe, self.halting('SHUTDOWNCMD "exit 3"\n', stdout=pipe.writer, stderr=pipe.writer) as (_, watch):
            expect(watch.status(), 1, "status")

    def test_full_output_holds_up_no_shutdown_command(self):
        """A stream that takes nothing is /dev/null for a command that writes much, and the other one stays."""
        for names in ((), ("stdout",), ("stderr",), ("stdout", "stderr")):
            with FullPipe() as pipe, self.halting(LOUD, **{name: pipe.writer for name in names}) as (_, watch):
                expect((watch.status(), watch.read("halted")), (0, b""), f"the halt with a full pipe as {names}")
                expect(pipe.read(), b"", "what the pipe takes")
                for name, file in (("stdout", "out"), ("stderr", "err")):
                    expect(watch.read(file).count(0), 0 if name in names else MUCH, f"what {name} takes with a full pipe as {names}")

    def test_readers_that_are_gone_end_no_shutdown_command(self):
        """Where nobody can read any more, a write ends the shell that does it."""
        for names in (("stdout",), ("stderr",), ("stdout", "stderr")):
            reader, writer = os.pipe()
            with self.halting(ECHOED, **{name: writer for name in names}) as (_, watch):
                os.close(reader)
                os.close(writer)
                expect((watch.status(), watch.read("halted")), (0, b""), f"the halt without a reader of {names}")

    def test_full_error_output_of_the_server(self):
        with FullPipe() as pipe, self.room() as room:
            room.upsd(stderr=pipe.writer)
            with room.client() as client:
                for _ in range(2):
                    driver = room.dummy()
                    until(lambda: client.ask(STATUS) == ONLINE, "the driver is heard")
                    driver.kill()
                    driver.wait()
                    until(lambda: client.ask(STATUS) == b"ERR DRIVER-NOT-CONNECTED\n", "the driver is gone")

    def test_full_error_output_at_the_end(self):
        with FullPipe() as pipe:
            conf = ("--conf", self.folder)
            for status, words in (
                (1, [self.upsd, *conf, "-s", self.folder]),
                (1, [self.dummy, "none.dev", "none"]),
                (1, [self.upsmon, *conf]),
                (2, [self.upsd, "-x"]),
            ):
                expect(ended(words, stderr=pipe.writer)[0], status, f"{words}")

    def test_stale_flag(self):
        for held in (FLAG, WORD):
            with self.flag(held) as flag, self.watched(f"POWERDOWNFLAG {flag}\n{HALTED}") as (server, watch):
                server.until_asked()
                expect(os.path.exists(flag), False, "a flag of an earlier shutdown")
                watch.until_told(f"upsmon: POWERDOWNFLAG {flag} of an earlier shutdown is removed")

    def test_stale_flag_without_descriptors(self):
        """An upsmon that reads its file removes a flag that was left, even if it has too few descriptors to watch."""
        ended_early = 0
        for few in range(4, 13):
            limit = functools.partial(resource.setrlimit, resource.RLIMIT_NOFILE, (few, few))
            with self.flag(FLAG) as flag:
                conf = f"MONITOR su700@127.0.0.1:1 1 mon m1 primary\nPOWERDOWNFLAG {flag}\n{HALTED}"
                with self.watch(conf, "-q", preexec_fn=limit) as watch:
                    until(lambda: watch.process.poll() is not None or not os.path.exists(flag), f"{few} descriptors")
                    if "upsmon: upsmon.conf: cannot read" not in watch.lines("err"):
                        expect(os.path.exists(flag), False, f"a flag of an earlier shutdown with {few} descriptors")
                        with contextlib.suppress(subprocess.TimeoutExpired):
                            ended_early += watch.process.wait(1) == 1
        ensure(ended_early > 1, f"{ended_early} ended before they watched")

    def test_foreign_flag(self):
        # devices without a driver
        devices = [functools.partial(os.mknod, mode=kind | 0o600) for kind in (stat.S_IFCHR, stat.S_IFBLK)]
        for lay in (self.file_of(b"mine\n"), self.file_of(b"\n"), os.mkfifo, os.mkdir, self.link, self.socket_at, *devices):
            with self.flag() as flag:
                try:
                    lay(flag)
                except PermissionError:
                    ensure(lay in devices, f"{lay} is refused")
                    continue
                before = self.look(flag)
                with self.halting(f"POWERDOWNFLAG {flag}\n{HALTED}", "-q") as (_, watch):
                    self.expect_halt(watch, *[f"upsmon: POWERDOWNFLAG {flag} {FOREIGN}"] * 2)
                expect(self.look(flag), before, f"what lies there: {lay}")

    def test_empty_flag(self):
        """An empty file is no flag, and becomes it at the halt, even if upsmon may not read it. What was written to it before stays."""
        for mode, held in ((0o600, b""), (0o000, b""), (0o600, b"mine\n")):
            with self.flag(b"") as flag:
                os.chmod(flag, mode)
                with self.halting(f"POWERDOWNFLAG {flag}\n{HALTED}", "-q", delay=2, preexec_fn=heed_modes) as (_, watch):
                    watch.until_printed(SHUTDOWN)
                    with stopped(watch.process):
                        expect(set(self.look(flag)), {"flag", "flag.new"}, "what lies there before the halt")
                        expect(self.key(watch.folder)[0], 1, "the flag isn't set")
                        if held:
                            write(flag, held)
                    self.expect_halt(watch, *[f"upsmon: POWERDOWNFLAG {flag} {FOREIGN}"] * bool(held))
                    expect(self.key(watch.folder)[0], 1 if held else 0, "whether the flag is set")
                expect(read_bytes(flag), held or FLAG, f"what the file holds, of mode {mode:o}")

    def file_of(self, held):
        return lambda path: write(path, held)

    def link(self, path):
        """A link to a flag: the file that it leads to isn't upsmon's to remove."""
        write(path + ".other", FLAG)
        os.symlink(path + ".other", path)

    def socket_at(self, path):
        with socket.socket(socket.AF_UNIX) as it:
            it.bind(path)

    def look(self, path):
        """Returns the visible state of each file of the folder that this file is in."""
        seen = {}
        for name in os.listdir(os.path.dirname(path)):
            at = os.lstat(os.path.join(os.path.dirname(path), name))
            seen[name] = (at.st_mode, at.st_ino, at.st_mtime_ns, at.st_size)
        return seen

    def test_flag_is_its_owners(self):
        with self.flag() as flag:
            # left behind by an upsmon that was killed while it wrote
            write(flag + ".new", b"upsm")
            with self.halting(f"POWERDOWNFLAG {flag}\n{HALTED}", preexec_fn=lambda: os.umask(0)) as (_, watch):
                expect(watch.status(), 0, "status")
            expect((read_bytes(flag), oct(stat.S_IMODE(os.stat(flag).st_mode))), (FLAG, "0o600"), "what the flag holds, and its mode")
            expect(os.path.exists(flag + ".new"), False, "the new file")

    def test_flag_is_ready(self):
        """The new file is there before the halt, and no flag yet. If something else has its name at the halt, or nothing, it is
        written then."""
        for change in (lambda new: None, os.remove, self.file_of(b"upsm"), self.pipe_at):
            with self.flag() as flag:
                with self.halting(f"POWERDOWNFLAG {flag}\n{HALTED}", "-q", delay=2) as (_, watch):
                    watch.until_printed(SHUTDOWN)
                    with stopped(watch.process):
                        expect(set(self.look(flag)), {"flag.new"}, "what lies there before the halt")
                        expect(self.key(watch.folder)[0], 1, "the flag isn't set")
                        change(flag + ".new")
                    self.expect_halt(watch)
                expect((read_bytes(flag), set(self.look(flag))), (FLAG, {"flag"}), "what the flag holds, and what lies there")

    def pipe_at(self, path):
        os.remove(path)
        os.mkfifo(path)

    def test_flag_on_a_full_disk(self):
        """The flag is set though its disk became full after the start."""
        disk = os.path.join(self.folder, "disk")
        os.mkdir(disk)
        # room for its folder and two files
        mount = f'mount -t tmpfs -o nr_inodes=3 tmpfs {disk} && exec "$0" "$@"'
        program = self.wrapped("on-a-full-disk", [*apart("--mount", "sh", "-c", mount), self.upsmon])
        conf = f'NOTIFYFLAG ONBATT EXEC\nNOTIFYCMD "touch {disk}/a; touch {disk}/b 2> FOLDER/full; true"\n'
        conf += f'POWERDOWNFLAG {disk}/flag\nSHUTDOWNCMD "cat {disk}/flag > FOLDER/halted"\n'
        with self.halting(conf, "-q", program=program, status=b"OB") as (server, watch):
            until(lambda: b"No space left" in (watch.read("full") or b""), "the disk is full")
            server.statuses[b"su700"] = b"FSD"
            expect((watch.status(), watch.told()), (0, []), "the halt")
            expect(watch.read("halted"), FLAG, "what the flag holds")

    def test_flag_that_cannot_be_written(self):
        """It is told at the start, and at the halt."""
        with self.flag() as flag:
            os.chmod(os.path.dirname(flag), 0o500)
            with self.halting(f"POWERDOWNFLAG {flag}\n{HALTED}", "-q", preexec_fn=heed_modes) as (_, watch):
                self.expect_halt(watch, *[f"upsmon: POWERDOWNFLAG {flag} cannot be written: "] * 2)

    def test_check_tells_of_the_flag(self):
        """It says what the start says of the flag, removes none, and leaves no file."""
        with tempfile.TemporaryDirectory(dir=self.folder) as folder:
            flag, closed = os.path.join(folder, "flag"), os.path.join(folder, "closed")
            os.mkdir(closed, 0o500)
            warning = "upsmon: POWERDOWNFLAG %s "
            for path, lay, role, wanted in (
                (flag, None, "primary", []),
                (os.path.join(folder, "none/flag"), None, "primary", [warning + "cannot be written: No such file or directory"]),
                (os.path.join(closed, "flag"), None, "primary", [warning + "cannot be written: Permission denied"]),
                (os.path.join(closed, "flag"), None, "secondary", []),
                (flag, self.file_of(FLAG), "primary", []),
                (flag, self.file_of(b"mine\n"), "primary", [warning + FOREIGN]),
                (flag, self.file_of(b""), "primary", []),
                (flag, os.mkfifo, "secondary", [warning + FOREIGN]),
                # what an upsmon that watches has ready, and what one left that was killed
                (flag + "-1", lambda it: self.file_of(FLAG)(it + ".new"), "primary", []),
                (flag + "-2", lambda it: os.mkdir(it + ".new"), "primary", [warning + "cannot be written: File exists"]),
                # beside an empty file
                (flag + "-2", self.file_of(b""), "primary", [warning + "cannot be written: File exists"]),
            ):
                if lay is not None:
                    lay(path)
                before = self.look(flag), self.look(os.path.join(closed, "flag"))
                told = [it % path for it in wanted]
                expect(fronts(self.checked(f"POWERDOWNFLAG {path}\n", role), told), told, f"what is told of {path} on a {role}")
                after = self.look(flag), self.look(os.path.join(closed, "flag"))
                # a file was made there meanwhile, so a folder's time may differ
                expect([set(it) for it in after], [set(it) for it in before], f"what lies there: {path}")
                expect(after[0].get("flag"), before[0].get("flag"), "the flag")
                expect(after[0].get("flag-1.new"), before[0].get("flag-1.new"), "the file that is ready")
                if path == flag and lay is not None:
                    os.remove(flag)

    def checked(self, conf, role):
        """Returns what 'upsmon --check' warns of for a machine that needs no UPS."""
        with tempfile.TemporaryDirectory(dir=self.folder) as folder:
            conf = f"MONITOR su700@localhost 1 mon m1 {role}\nMINSUPPLIES 0\nSHUTDOWNCMD true\n{conf}"
            write(os.path.join(folder, "upsmon.conf"), conf)
            status, _, err = ended([self.upsmon, "--check", "--conf", folder], preexec_fn=heed_modes)
        expect(status, 0, "status")
        return err.splitlines()

    def test_flag_that_cannot_be_removed(self):
        """A flag of an earlier shutdown in a folder in which upsmon may not write: it stays, and the machine is halted."""
        with self.flag(FLAG) as flag:
            os.chmod(os.path.dirname(flag), 0o500)
            before = self.look(flag)
            with self.halting(f"POWERDOWNFLAG {flag}\n{HALTED}", "-q", preexec_fn=heed_modes) as (_, watch):
                told = f"upsmon: POWERDOWNFLAG {flag} cannot be removed: ", f"upsmon: POWERDOWNFLAG {flag} cannot be written: "
                self.expect_halt(watch, *told)
            expect(self.look(flag), before, "what lies there")

    def test_is_the_flag_set(self):
        with self.flag() as flag:
            folder, conf = os.path.dirname(flag), f"POWERDOWNFLAG {flag}\n"
            expect(self.key(folder, ""), (1, "", ""), "no POWERDOWNFLAG")
            expect(self.key(folder, conf), (1, "", ""), "no flag")
            for held, status in ((b"upsmon-shutdown-files", 1), (b"", 1), (b"mine\n", 1), (WORD, 0), (FLAG, 0)):
                write(flag, held)
                expect(self.key(folder, conf), (status, "", ""), f"{held!r}")
            named = {**os.environ, "NUT_CONFPATH": folder}
            expect(self.key(folder, env=named, words=[]), (0, "", ""), "NUT_CONFPATH")
            told = "upsmon: upsmon.conf:2: BadNumber\nupsmon: x: a number from 1 to 1000000 is meant\n"
            expect(self.key(folder, "POLLFREQ x\n", env=named, words=[]), (1, "", told), "a fault")
            told = cannot_read("upsmon", "upsmon.conf", folder + "/none/upsmon.conf", errno.ENOENT)
            expect(self.key(folder, words=["--conf", folder + "/none"]), (1, "", told), "no file")
            path = os.path.join(folder, "upsmon.conf")
            # nobody writes to it, so a read would wait for ever
            self.pipe_at(path)
            expect(self.key(folder), (1, "", cannot_read("upsmon", "upsmon.conf", path, "not a plain file")), "a pipe in place of the file")
            os.remove(path)
            self.pipe_at(flag)
            expect(self.key(folder, conf), (1, "", ""), "a pipe")

    def test_is_the_flag_set_in_a_file_with_a_fault(self):
        """A fault that came into the file while upsmon was running keeps no UPS from cutting its power."""
        with tempfile.TemporaryDirectory(dir=self.folder) as folder:
            flag, other = (os.path.join(folder, it) for it in ("flag", "other"))
            write(flag, FLAG)
            taken = "upsmon: CERTPATH isn't taken here: see from-nut(7)\n"
            repeated = "upsmon: POWERDOWNFLAG: a line before has it\n"
            power = "upsmon: the power values of the MONITOR lines sum to less than MINSUPPLIES, which is 1 unless it is set\n"
            unread = "upsmon: the line can't be read as words: a quote is not closed\n"
            for conf, status, fault in (
                (f"CERTPATH x\nPOWERDOWNFLAG {flag}\n", 0, f"2: UnknownDirective\n{taken}"),
                (f"CERTPATH x\nPOWERDOWNFLAG {other}\n", 1, f"2: UnknownDirective\n{taken}"),
                ("CERTPATH x\n", 1, f"2: UnknownDirective\n{taken}"),
                (f'POWERDOWNFLAG "{flag}" # written otherwise\nNOTIFYCMD "x', 0, f"3: Unreadable\n{unread}"),
                # the last line counts
                (f"POWERDOWNFLAG {other}\nPOWERDOWNFLAG {flag}\n", 0, f"3: Repeated\n{repeated}"),
                (f"POWERDOWNFLAG {flag}\nPOWERDOWNFLAG {other}\n", 1, f"3: Repeated\n{repeated}"),
                # but none that has a fault itself, or that is something else
                (f"POWERDOWNFLAG {flag}\nPOWERDOWNFLAG {other} x\n", 0, '3: BadForm\nupsmon: POWERDOWNFLAG "FILE" is meant\n'),
                (f"POWERDOWNFLAG {flag}\nPOWERDOWNFLAG {'x' * 257}\n", 0, "3: PastLimit\nupsmon: FILE: 1 to 256 bytes are meant\n"),
                (f'POWERDOWNFLAG {flag}\n# POWERDOWNFLAG {other}\nNOTIFYCMD "POWERDOWNFLAG {other}"\nx\n', 0, None),
                # a fault of the file as a whole
                (f"POWERDOWNFLAG {flag}\nMINSUPPLIES 2\n", 0, f"0: PastLimit\n{power}"),
            ):
                found, out, err = self.key(folder, conf)
                expect((found, out), (status, ""), f"{conf}, which {err!r}")
                if fault is not None:
                    expect(err, f"upsmon: upsmon.conf:{fault}", conf)

    def test_warnings(self):
        asks, late = "is above", "POLLFREQ %d and 2 s for an answer are above DEADTIME %d"
        for conf, mode, wanted in (
            (HALTED, 0o600, []),
            (HALTED, 0o640, []),
            (HALTED, 0o644, ["upsmon.conf holds passwords, and everybody can read it (mode 644)"]),
            ("", 0o600, ["SHUTDOWNCMD is not set: nothing will shut down this machine"]),
            (HALTED + "POLLFREQ 13\n", 0o600, []),
            (HALTED + "POLLFREQ 15\n", 0o600, [late % (15, 15)]),
            (HALTED + "POLLFREQ 16\n", 0o600, [late % (16, 15), f"POLLFREQ 16 {asks} HOSTSYNC 15"]),
            (HALTED + "HOSTSYNC 4\n", 0o600, [f"POLLFREQ 5 {asks} HOSTSYNC 4"]),
            (HALTED + "DEADTIME 6\n", 0o600, [late % (5, 6)]),
            (HALTED + "DEADTIME 7\n", 0o600, []),
        ):
            with masked(0o666 & ~mode), self.watched(conf, "-q") as (server, watch):
                server.until_asked()
                told = [f"upsmon: {front}" for front in wanted]
                expect(fronts(watch.lines("err"), told), told, f"{conf} {mode:o}")

    def test_readable_users(self):
        for mode, wanted in ((0o640, []), (0o604, ["upsd: upsd.users holds passwords, and everybody can read it (mode 604)"])):
            with self.room() as room:
                os.chmod(room.path("upsd.users"), mode)
                upsd = room.upsd("-q")
                expect(said(upsd), wanted, f"mode {mode:o}")

    @contextlib.contextmanager
    def without_starts(self, **settings):
        """The name of a file that is there, and the environment of a program that can start no process while it is."""
        none = write(os.path.join(self.folder, "none-starts"), b"")
        try:
            yield none, self.refusing_starts(none, **settings)
        finally:
            with contextlib.suppress(FileNotFoundError):
                os.remove(none)

    def test_shell_that_comes_late(self):
        with self.without_starts() as (none, env), self.halting(HALTED, "-q", env=env) as (_, watch):
            until(lambda: any(it.startswith(NOT_YET) for it in watch.lines("err")), "that it can't be started")
            os.remove(none)
            # it is tried again, and told once
            self.expect_halt(watch, NO_SHELL, NOT_YET)

    def test_shell_that_never_comes(self):
        naps = {"REFUSE": "sleep", "REFUSE_COUNT": self.shim + ".naps"}
        conf = "POWERDOWNFLAG FOLDER/flag\nSHUTDOWNCMD true\n"
        with self.without_starts(**naps) as (_, env), self.halting(conf, "-q", env=env) as (_, watch):
            wanted = [NO_SHELL, NOT_YET, NOT_STARTED]
            expect((watch.status(), watch.read("flag")), (1, FLAG), "status, and POWERDOWNFLAG")
            expect(fronts(watch.told(), wanted), wanted, "what is told")
            expect(read(self.shim + ".naps"), "30\n", "how often it waits for a second")

    @contextlib.contextmanager
    def halting_without_memory(self, command=HALTED, **streams):
        """Starts an upsmon whose shutdown has begun, and for which no allocation succeeds any more, not even the C
        library's. Returns the file that causes that."""
        gone = os.path.join(self.folder, "gone")
        env = self.refusing_memory(gone)
        with self.halting(f"POWERDOWNFLAG FOLDER/flag\n{command}", "-q", delay=3, env=env, **streams) as (_, watch):
            watch.until_printed(SHUTDOWN)
            write(gone, b"")
            try:
                yield watch, gone
            finally:
                with contextlib.suppress(FileNotFoundError):
                    os.remove(gone)

    def test_halt_without_memory(self):
        with self.halting_without_memory() as (watch, _):
            self.expect_halt(watch)
            expect(watch.read("flag"), FLAG, "the flag")

    def test_halt_without_memory_and_readers(self):
        with FullPipe() as pipe, self.halting_without_memory(command=LOUD, stderr=pipe.writer) as (watch, _):
            expect(watch.status(), 0, "status")
            expect((watch.read("flag"), watch.read("halted"), pipe.read()), (FLAG, b"", b""), "the halt")

    def test_halt_without_memory_and_shell(self):
        """If the waiting shell was killed, the machine is halted as soon as memory is available again."""
        with self.halting_without_memory() as (watch, gone):
            self.end_shell(watch)
            until(lambda: any(it.startswith(NOT_YET) for it in watch.lines("err")), "the start is tried again", 20)
            expect((watch.read("flag"), watch.read("halted")), (FLAG, None), "what is done without memory")
            os.remove(gone)
            expect((watch.status(), watch.read("halted")), (0, b""), f"the halt: {watch.lines('err')}")

    def test_folder_of_the_path_that_never_answers(self):
        """A name is looked up, a UPS asked, and NOTIFYCMD and SHUTDOWNCMD run, although upsmon itself would wait for ever if it
        looked into the first folder of PATH."""
        with tempfile.TemporaryDirectory(dir=self.folder) as folder, Upstream(status=b"FSD") as server:
            dead, answers = (os.path.join(folder, it) for it in ("dead", "answers"))
            os.mkdir(dead)
            for name, script in (("getent", "echo 127.0.0.1 STREAM"), ("upsc", "echo 1")):
                put_program(os.path.join(answers, name), script)
            path = f"{dead}:{answers}:{os.environ['PATH']}"
            env = {**os.environ, "PATH": path, "LD_PRELOAD": self.shim, "DEAD_FOLDER": dead}
            target = f"su700@ups.example:{server.port}"
            notes = "NOTIFYFLAG SHUTDOWN SYSLOG+EXEC\nNOTIFYCMD \"touch FOLDER/noted; true\"\n"
            conf = f"MONITOR {target} 1 mon m1 primary\n{QUICK}{notes}{HALTED}"
            with self.watch(conf, "-q", env=env) as watch:
                self.expect_halt(watch)
                until(lambda: watch.read("noted") == b"", "NOTIFYCMD is run")
            write(os.path.join(folder, "upsmon.conf"), conf)
            _, _, err = ended([self.upsmon, "--check", "--conf", folder], env=env)
            warning = f"upsmon: UPS {target}: battery.runtime.low is 1 s, but this machine may shut down as late as"
            expect(fronts(err.splitlines(), [warning]), [warning], "what is told of the UPS")

    def test_halt_without_dev_null(self):
        """SHUTDOWNCMD runs although /dev/null isn't there, with streams that take nothing and with others."""
        command = [*apart("--mount", "sh", "-c", 'mount -t tmpfs tmpfs /dev && exec "$0" "$@"'), self.upsmon]
        with FullPipe() as out, FullPipe() as err:
            for streams in ({}, {"stdout": out.writer}, {"stderr": err.writer}, {"stdout": out.writer, "stderr": err.writer}):
                with self.halting(ECHOED, "-q", program=self.wrapped("without-null", command), **streams) as (_, watch):
                    expect((watch.status(), watch.read("halted")), (0, b""), f"the halt with {list(streams)} full")

    def test_commands_that_use_the_terminal(self):
        """They stop neither themselves nor upsmon, which runs in the background of that terminal."""
        command = [sys.executable, os.path.join(ROOT, "tests/support/on_terminal.py"), self.upsmon]
        conf = 'NOTIFYFLAG ONBATT EXEC\nNOTIFYCMD "stty -echo < /dev/tty; touch FOLDER/noted; true"\n'
        conf += 'SHUTDOWNCMD "stty echo < /dev/tty && touch FOLDER/halted"\n'
        with self.halting(conf, "-q", program=self.wrapped("on-terminal", command), status=b"OB") as (server, watch):
            # stty fails if another one changes the terminal meanwhile
            until(lambda: watch.read("noted") == b"", "NOTIFYCMD is run")
            server.statuses[b"su700"] = b"FSD"
            expect((watch.status(), watch.read("halted")), (0, b""), "the halt")

    def wrapped(self, name, command):
        """Returns the path of a program that runs this command with its own arguments behind."""
        return put_program(os.path.join(self.folder, name), f'exec {shlex.join(command)} "$@"')

    def test_shell_that_was_ended(self):
        with self.halting(HALTED, "-q", delay=3) as (_, watch):
            watch.until_printed(SHUTDOWN)
            self.end_shell(watch)
            until(lambda: watch.told() == [REPLACED], "that another shell waits")
            self.expect_halt(watch, REPLACED)

    def test_shell_that_was_ended_long_before(self):
        """Another shell waits in its place within a second or two, and what ended is waited for."""
        with self.watched(QUICK + HALTED, "-q") as (server, watch):
            server.until_asked()
            (former,) = children_of(watch.process.pid)
            self.end_shell(watch)
            until(lambda: watch.told() == [REPLACED], "that another shell waits")
            until(lambda: children_of(watch.process.pid) not in ([former], []), "it waits")
            server.statuses[b"su700"] = b"FSD"
            expect((watch.status(), watch.read("halted")), (0, b""), "the halt")

    def test_shell_that_was_ended_and_cannot_be_replaced(self):
        """It is reported that no shell waits, and once one can be started again, that another one does."""
        with self.without_starts() as (none, env):
            os.remove(none)
            with self.watched(QUICK + HALTED, "-q", env=env) as (server, watch):
                server.until_asked()
                write(none, b"")
                self.end_shell(watch)
                until(lambda: watch.told(), "that no shell waits")
                os.remove(none)
                until(lambda: len(watch.told()) == 2, "that another shell waits")
                expect(fronts(watch.told(), [NO_SHELL, REPLACED]), [NO_SHELL, REPLACED], "what is told")
                server.statuses[b"su700"] = b"FSD"
                expect((watch.status(), watch.read("halted")), (0, b""), "the halt")

    def test_shell_that_was_stopped(self):
        """A shell that is stopped alone is continued, and upsmon says so once for each time."""
        with self.watched(QUICK + HALTED, "-q") as (server, watch):
            server.until_asked()
            (shell,) = children_of(watch.process.pid)
            for times in (1, 2):
                os.kill(shell, signal.SIGSTOP)
                until(lambda: watch.told() == [CONTINUED] * times, "that it is continued")
                until(lambda: state_of(shell) == "S", "the shell goes on")
                # until upsmon has looked at it again
                time.sleep(2.5)
            until(lambda: children_of(watch.process.pid) == [shell], "no other process is left")
            server.statuses[b"su700"] = b"FSD"
            expect((watch.status(), watch.read("halted")), (0, b""), "the halt")

    def test_shell_that_is_stopped_at_the_halt(self):
        """However often the shell is stopped while the machine is halted, SHUTDOWNCMD runs."""
        self.halt_with_stops(0.3)

    def test_shell_that_stays_stopped(self):
        """A shell that SIGCONT doesn't continue is ended after some seconds, and another one runs SHUTDOWNCMD."""
        self.halt_with_stops(0.001)

    def halt_with_stops(self, pause):
        """Halts a machine while the shell that is to run SHUTDOWNCMD is stopped again after each pause, in seconds."""
        with self.halting(HALTED, "-q", delay=1) as (_, watch):
            watch.until_printed(SHUTDOWN)
            (shell,) = children_of(watch.process.pid)
            while watch.process.poll() is None:
                with contextlib.suppress(ProcessLookupError):
                    os.kill(shell, signal.SIGSTOP)
                time.sleep(pause)
            expect((watch.status(), watch.read("halted")), (0, b""), "the halt")

    def test_ends_of_children_that_nobody_hears_of(self):
        """If whoever starts upsmon ignores SIGCHLD, the system doesn't tell how SHUTDOWNCMD ended. It has run."""
        ignore = {"preexec_fn": lambda: signal.signal(signal.SIGCHLD, signal.SIG_IGN)}
        for command in (HALTED, 'SHUTDOWNCMD "touch FOLDER/halted; exit 3"\n'):
            with self.halting(command, "-q", **ignore) as (_, watch):
                self.expect_halt(watch, UNTOLD)

    def end_shell(self, watch):
        """Kills the shell that waits for the halt."""
        (shell,) = children_of(watch.process.pid)
        os.kill(shell, signal.SIGKILL)
        until(lambda: not is_running(shell), "the shell ends")

    def test_shell_that_waits_ends_with_its_monitor(self):
        """However upsmon ends, its shell ends too and runs nothing, whether it gets the signal itself or not."""
        for number, at_all in ((signal.SIGTERM, False), (signal.SIGTERM, True), (signal.SIGKILL, False)):
            with self.watched(HALTED) as (server, watch):
                server.until_asked()
                (shell,) = children_of(watch.process.pid)
                if at_all:
                    watch.signal(number)
                else:
                    watch.process.send_signal(number)
                expect(watch.process.wait(10), -number, "how it ends")
                until(lambda: not is_running(shell), "the shell ends")
                expect(watch.read("halted"), None, "the machine goes on")

    def test_shutdown_command_is_alone(self):
        """The command has no input, no argument and no descriptor of upsmon's."""
        conf = 'SHUTDOWNCMD "cat > FOLDER/input; echo $# > FOLDER/count; ls /proc/self/fd > FOLDER/open"\n'
        with self.halting(conf, "-q") as (_, watch):
            expect(watch.status(), 0, "status")
            expect((watch.read("input"), watch.read("count")), (b"", b"0\n"), "its input and arguments")
            # the three standard streams, and the folder that ls reads
            expect(watch.lines("open"), ["0", "1", "2", "3"], "its descriptors")

    def test_terminated(self):
        with self.room() as room, self.watched(HALTED) as (server, watch):
            programs = [room.upsd(), room.dummy()]
            room.until(STATUS, ONLINE)
            server.until_asked()
            with room.client() as client:
                for program in (*programs, watch.process):
                    program.terminate()
                    expect(program.wait(10), -signal.SIGTERM, "how it ends")
                expect(client.is_closed(), True, "a client of the server")
                expect(watch.read("halted"), None, "the machine goes on")


if __name__ == "__main__":
    sys.exit(play(Tests, 4))
