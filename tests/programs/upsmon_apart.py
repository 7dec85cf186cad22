"""Runs upsmon as two processes: the one that halts the machine by orders that the test gives, the one that watches with its orders
read by the test, and both by packaging/upsmon-apart, which needs root and a user nut.

    python3 -m tests.programs.upsmon_apart UPSD DUMMY_UPS UPSC UPSMON"""

import contextlib
import os
import pwd
import random
import shutil
import signal
import subprocess
import sys
import tempfile
import time

from tests.support.harness import ROOT, FullPipe, Missing, ended, ensure, expect, play, read, status_of, write
from tests.support.monitored import FLAG, ON_BATTERY, QUICK, SHUTDOWN, MonitorTests, Watch, children_of
from tests.support.room import SOON, state_of, until

LAUNCHER = os.path.join(ROOT, "packaging", "upsmon-apart")
USER = "nut"
# each run of SHUTDOWNCMD adds a line, which says whether the flag was set before
COUNTED = 'POWERDOWNFLAG FOLDER/flag\nSHUTDOWNCMD "test -e FOLDER/flag; echo $? >> FOLDER/halted"\n'
WITH_FLAG, WITHOUT_FLAG = b"0\n", b"1\n"
NOBODY = "MONITOR su700@localhost 1 mon m1 primary\n"
NO_WATCH = "upsmon: the process that watches has ended"
REPLACED = "upsmon: SHUTDOWNCMD's shell was missing (killed or not started); replaced"
LATE = "upsmon: the halt is still that of the earlier upsmon.conf; the changed one is tried each second: "
UNHEARD = "upsmon: process {}, which is to run SHUTDOWNCMD, is stopped by a signal or doesn't read"
NOT_ORDERED = "upsmon: process {} takes no order to run SHUTDOWNCMD"
ALONE = ": one process of root does all"


def orders_in(read):
    """Returns the orders among these bytes, without those of each second and what says how many were dropped."""
    return [it for it in read.decode().splitlines() if it != "second" and not it.endswith(" dropped (output blocked)")]


class Halter(Watch):
    """An 'upsmon --obey' that the test gives orders."""

    def __init__(self, program, folder, conf):
        reader, self.orders = os.pipe()
        super().__init__(program, folder, conf, "--obey", stdin=reader)
        os.close(reader)

    def give(self, orders):
        os.write(self.orders, orders)

    def end(self):
        """Ends the orders."""
        if self.orders is not None:
            os.close(self.orders)
            self.orders = None

    def __exit__(self, *words):
        self.end()
        super().__exit__(*words)

    def shell(self):
        """Returns the shell that waits, once there is only one."""
        # until it is one, upsmon waits for it, which a stopped one would make it do for ever
        children = lambda: children_of(self.process.pid)
        return until(lambda: [name_of(it) for it in children()] == ["sh"] and children(), "a shell waits")[0]


class Watcher(Watch):
    """An 'upsmon --halter' whose orders the test reads. The process that it gives them to only sleeps, unless another one is given."""

    def __init__(self, program, folder, conf, *words, **options):
        self.halter = subprocess.Popen(["sleep", "1000"])
        self.given = b""
        reader, writer = os.pipe()
        os.set_blocking(reader, False)
        self.reader = reader
        super().__init__(program, folder, conf, "--halter", str(self.halter.pid), *words, **{"stdout": writer, **options})
        os.close(writer)

    def __exit__(self, *words):
        super().__exit__(*words)
        self.halter.kill()
        self.halter.wait()
        os.close(self.reader)

    def read_orders(self):
        """Returns all that it has written to standard output so far."""
        with contextlib.suppress(BlockingIOError):
            while piece := os.read(self.reader, 65536):
                self.given += piece
        return self.given


class Apart(Watch):
    """Both, by the script of the unit. The user nut can read upsmon.conf in a folder of its own."""

    def __init__(self, program, folder, conf, *words, mode=0o640, **settings):
        self.user = pwd.getpwnam(USER)
        self.folder = tempfile.mkdtemp(dir=folder)
        # the user has to reach it, whoever may reach the folder of the repository
        for path in (folder, self.folder):
            os.chmod(path, 0o711)
        shutil.copy(program, self.path("upsmon"))
        self.put(conf, mode=mode)
        os.mkdir(self.path("nuts"))
        os.chown(self.path("nuts"), self.user.pw_uid, self.user.pw_gid)
        environment = {**os.environ, "UPSMON": self.path("upsmon"), "NUT_CONFPATH": self.folder, **settings}
        environment.pop("JOURNAL_STREAM", None)
        streams = {"stdout": self.open("out"), "stderr": self.open("err")}
        self.process = subprocess.Popen([LAUNCHER, *words], stdin=subprocess.DEVNULL, start_new_session=True, env=environment, **streams)

    def put(self, conf, name="upsmon.conf", mode=0o640):
        """Replaces a file of root's, which the group of the user may have access to."""
        super().put(conf, name, mode)
        os.chown(self.path(name), 0, self.user.pw_gid)

    def watcher(self):
        """Returns the process that watches, once both run."""

        def found():
            named = {name_of(it): it for it in children_of(self.process.pid)}
            return name_of(self.process.pid) == "upsmon" and "sh" in named and named.get("upsmon")

        return until(found, f"both run: {self.read('err')}")


def name_of(pid):
    """Returns the name of a process; empty if there is none."""
    with contextlib.suppress(FileNotFoundError):
        return read(f"/proc/{pid}/comm").strip()
    return ""


def facts_of(pid, *names):
    """Returns these lines of what the system says of a process."""
    return tuple(status_of(pid)[name].strip() for name in names)


class Tests(MonitorTests):
    def watch(self, conf, *words, start=Watcher, **options):
        """Starts a process that only watches, or another one."""
        return start(self.upsmon, self.folder, conf, *words, **options)

    def halter(self, conf=COUNTED):
        return self.watch(NOBODY + conf, start=Halter)

    def watched(self, conf=COUNTED, *words, **options):
        """Starts what watches a server that the test plays."""
        return super().watched(QUICK + conf, *words, **options)

    def apart(self, conf=COUNTED, **options):
        """Starts both processes."""
        if os.geteuid():
            raise Missing("only root can start a process of another user")
        if shutil.which("setpriv") is None:
            raise Missing("setpriv isn't installed (Debian's package util-linux)")
        try:
            pwd.getpwnam(USER)
        except KeyError:
            raise Missing(f"there is no user {USER}") from None
        return self.watched(conf, start=Apart, **options)

    def test_halts_once_and_last(self):
        for orders, ran, flag in (
            (b"halt flag\n", WITH_FLAG, FLAG),
            (b"halt\n", WITHOUT_FLAG, None),
            (b"second\nchanged\nsecond\nhalt flag\nhalt flag\nhalt\nchanged\nsecond\n", WITH_FLAG, FLAG),
        ):
            with self.halter() as watch:
                watch.give(orders)
                expect((watch.status(), watch.read("halted"), watch.read("flag")), (0, ran, flag), f"the halt by {orders}")
                expect(watch.lines("err"), [], "what is reported")

    def test_end_of_orders_halts_nothing(self):
        for orders in (b"", b"second\n", b"halt", b"halt flag", b"second\nhal"):
            with self.halter() as watch:
                watch.give(orders)
                watch.end()
                expect((watch.status(), watch.read("halted"), watch.read("flag")), (1, None, None), f"the end after {orders}")
                expect(watch.lines("err"), [NO_WATCH], "what is reported")

    def test_other_lines_halt_nothing(self):
        """Neither lines that are nearly an order nor bytes by chance are one, and orders after them are obeyed."""
        near = b"Halt\nhalt \n halt\nhalt\r\nhalt\0\nhalt  flag\nhalt flag \nhalts\nhalt flags\nhaltflag\n\nhalt flagaaaaaaaaaaaaa\n" + b"x" * 16 + b"halt"
        chance = random.Random(7)
        with self.halter() as watch:
            watch.give(near + b"\n")
            for _ in range(30):
                watch.give(chance.randbytes(10_000).replace(b"\nhalt", b"\nhold"))
            time.sleep(0.5)
            expect((watch.process.poll(), watch.read("halted"), watch.read("flag"), watch.lines("err")), (None, None, None, []), "no halt")
            watch.give(b"\nhalt flag\n")
            expect((watch.status(), watch.read("halted")), (0, WITH_FLAG), "an order after that")

    def test_command_that_fails(self):
        with self.halter('SHUTDOWNCMD "exit 3"\n') as watch:
            watch.give(b"halt\n")
            expect((watch.status(), watch.lines("err")), (1, ["upsmon: SHUTDOWNCMD ended with status 3"]), "the halt")

    def test_changed_file(self):
        """The halt of a changed file takes the place of the former one, and a faulty file changes nothing until it is mended."""
        with self.halter() as watch:
            former = watch.shell()
            new = NOBODY + 'POWERDOWNFLAG FOLDER/other\nSHUTDOWNCMD "touch FOLDER/new"\n'
            watch.put(FLAG.decode(), "other")
            watch.put(new.replace("SHUTDOWNCMD", "SHUTDOWNCMDS"))
            watch.give(b"changed\nsecond\nsecond\n")
            until(lambda: watch.lines("err"), "the fault is reported")
            expect((watch.shell(), watch.read("other")), (former, FLAG), "what a faulty file changes")
            watch.put(new)
            watch.give(b"second\n")
            until(lambda: state_of(former) == "", "its shell has ended")
            expect((watch.shell() != former, watch.read("other")), (True, None), "another one waits, and a flag that was left is removed")
            watch.give(b"halt flag\n")
            expect((watch.status(), watch.read("new"), watch.read("other"), watch.read("halted")), (0, b"", FLAG, None), "the halt")
            expect(watch.lines("err")[0][: len(LATE)], LATE, "the fault")
            removed = f"upsmon: POWERDOWNFLAG {watch.path('other')} of an earlier shutdown is removed"
            expect(watch.lines("err")[1:], [removed], "what else is reported")

    def test_shell_is_looked_after(self):
        with self.halter() as watch:
            shell = watch.shell()
            os.kill(shell, signal.SIGSTOP)
            until(lambda: state_of(shell) == "T", "it is stopped")
            watch.give(b"second\n")
            until(lambda: state_of(shell) == "S", "it is continued")
            os.kill(shell, signal.SIGKILL)
            until(lambda: state_of(shell) in ("", "Z"), "it has ended")
            watch.give(b"second\n")
            until(lambda: REPLACED in watch.lines("err"), "another one waits")
            watch.give(b"halt\n")
            expect((watch.status(), watch.read("halted")), (0, WITHOUT_FLAG), "the halt")

    def test_flag_of_an_earlier_shutdown(self):
        """Root's process removes it, at its start. The other one leaves it."""
        with self.watched() as (server, watch):
            watch.put(FLAG.decode(), "flag")
            until(lambda: watch.read_orders(), "it watches")
            watch.reload(server.line() + QUICK + COUNTED + "DEADTIME 20\n")
            until(lambda: "changed" in orders_in(watch.read_orders()), "it has taken up the file")
            expect(watch.read("flag"), FLAG, "the flag")
        left = write(os.path.join(self.folder, "left"), FLAG)
        with self.halter(f"POWERDOWNFLAG {left}\n{COUNTED.splitlines()[1]}\n") as watch:
            until(lambda: watch.lines("err") == [f"upsmon: POWERDOWNFLAG {left} of an earlier shutdown is removed"], "it is removed")
            expect(os.path.exists(left), False, "the flag")

    def test_orders(self):
        """It orders the halt, with the flag as the primary of a UPS, and does nothing of it."""
        for role, order in (("primary", "halt flag"), ("secondary", "halt")):
            notify = 'NOTIFYCMD "echo halt; echo"\nNOTIFYFLAG ONBATT SYSLOG+EXEC\n'
            with self.watched(COUNTED + notify, role=role) as (server, watch):
                until(lambda: watch.read_orders().count(b"second\n") > 1, "the order of a second")
                expect(children_of(watch.process.pid), [], "its processes")
                server.statuses[b"su700"] = b"OB"
                watch.until_told(ON_BATTERY % server.target)
                until(lambda: "halt" in watch.lines("err"), "what NOTIFYCMD writes")
                server.statuses[b"su700"] = b"OB FSD"
                expect((watch.status(), orders_in(watch.read_orders())), (0, [order]), f"the orders of a {role}")
                ensure(SHUTDOWN in watch.lines("err"), "notices on standard error")
                expect([watch.read(name) for name in ("halted", "flag", "flag.new")], [None] * 3, "what it does of the halt")

    def test_change_is_ordered(self):
        """A changed file is ordered to be read, and before a halt at the latest."""
        with self.watched() as (server, watch):
            until(lambda: watch.read_orders().count(b"second\n") > 1, "the order of a second")
            expect(orders_in(watch.read_orders()), [], "the orders of a start")
            watch.reload(server.line() + QUICK + COUNTED + "DEADTIME 20\n")
            watch.until_told("upsmon: reloaded: DEADTIME changed")
            until(lambda: orders_in(watch.read_orders()) == ["changed"], "it is ordered")
            server.statuses[b"su700"] = b"FSD"
            expect((watch.status(), orders_in(watch.read_orders())), (0, ["changed", "halt flag"]), "the orders")

    def test_full_pipe(self):
        """A pipe that is full holds up its orders and loses none but those of seconds. That is reported once."""
        with FullPipe() as pipe, self.watched(stdout=pipe.writer) as (server, watch):
            unheard = UNHEARD.format(watch.halter.pid)
            watch.until_told(unheard)
            watch.reload(server.line() + QUICK + COUNTED + "DEADTIME 20\n")
            watch.until_told("upsmon: reloaded: DEADTIME changed")
            expect(watch.lines("err").count(unheard), 1, "the reports")
            server.statuses[b"su700"] = b"FSD"
            until(lambda: SHUTDOWN in watch.lines("err"), "the shutdown")
            time.sleep(1)
            expect(watch.process.poll(), None, "it goes on trying")
            first = pipe.read()
            expect(watch.status(), 0, "its end")
            expect(orders_in(first + pipe.read()), ["changed", "halt flag"], "the orders")

    def test_pipe_that_stays_full(self):
        """An order to halt that finds no room is given up after half a minute, so that the unit starts both again."""
        with FullPipe() as pipe, self.watched(stdout=pipe.writer, status=b"FSD") as (_, watch):
            expect(watch.status(60), 1, "its status")
            expect(watch.lines("err")[-1], NOT_ORDERED.format(watch.halter.pid), "why it ends")

    def test_halter_that_is_stopped(self):
        """One that a signal has stopped is given no seconds, which would fill the pipe, and that is reported once."""
        with self.watched() as (_, watch):
            until(lambda: watch.read_orders(), "it watches")
            for times in (1, 2):
                watch.halter.send_signal(signal.SIGSTOP)
                unheard = UNHEARD.format(watch.halter.pid)
                until(lambda: watch.lines("err").count(unheard) == times, "that it is stopped")
                given = watch.read_orders()
                time.sleep(2.5)
                expect((watch.read_orders(), watch.lines("err").count(unheard)), (given, times), "meanwhile")
                watch.halter.send_signal(signal.SIGCONT)
                until(lambda: watch.read_orders() != given, "it is given orders again")

    def test_page(self):
        """The page has the lines of standard error, and a drop-in that runs what the unit runs, as two processes."""
        page = read(os.path.join(ROOT, "man", "upsmon.8")).replace("\\-", "-").replace(" \\e\n   ", "")
        unit = read(os.path.join(ROOT, "packaging", "mulgefa-upsmon.service"))
        (start,) = [line for line in unit.splitlines() if line.startswith("ExecStart=")]
        wanted = start.replace("@PREFIX@/sbin/upsmon", "/usr/lib/mulgefa/upsmon-apart")
        # the page leaves out what each line begins with
        for line in (f"\nExecStart=\n{wanted}\n", NO_WATCH, UNHEARD.format("PID"), LATE + "WHY", NOT_ORDERED.format("PID")):
            ensure(line.removeprefix("upsmon: ") in page, f"upsmon(8) lacks {line!r}")

    def test_command_line(self):
        """Only the script gives these options, so the help doesn't have them."""
        for words in ("--halter", "--halter x", "--halter -1", "--halter 1 --obey", "--obey --check", "--obey --fsd", "-K --obey", "-K --halter 1"):
            status, out, err = ended([self.upsmon, *words.split()])
            expect((status, out, err != ""), (2, "", True), f"upsmon {words}")
        status, out, _ = ended([self.upsmon, "--help"])
        expect((status, "--obey" in out, "--halter" in out), (0, False, False), "the help")

    def test_halts_as_root(self):
        """Root's process runs SHUTDOWNCMD, once. NOTIFYCMD runs as nut, without a capability."""
        notify = 'NOTIFYCMD "id -u > FOLDER/nuts/who; grep -h CapBnd /proc/self/status >> FOLDER/nuts/who"\nNOTIFYFLAG ONBATT SYSLOG+EXEC\n'
        with self.apart(f'{notify}POWERDOWNFLAG FOLDER/flag\nSHUTDOWNCMD "id -u >> FOLDER/halted"\n') as (server, watch):
            watcher = watch.watcher()
            server.until_asked()
            facts = ("Uid", "CapEff", "CapBnd", "CapInh", "NoNewPrivs")
            expect(facts_of(watcher, *facts), ("\t".join([str(watch.user.pw_uid)] * 4), *["0" * 16] * 3, "1"), "the process that watches")
            expect(facts_of(watch.process.pid, "Uid"), ("0\t0\t0\t0",), "the one that halts")
            server.statuses[b"su700"] = b"OB"
            until(lambda: (watch.read("nuts/who") or b"").count(b"\n") == 2, "NOTIFYCMD")
            expect(watch.lines("nuts/who"), [str(watch.user.pw_uid), "CapBnd:\t" + "0" * 16], "what NOTIFYCMD runs as")
            server.statuses[b"su700"] = b"OB LB"
            expect((watch.status(), watch.read("halted"), watch.read("flag")), (0, b"0\n", FLAG), "the halt")
            until(lambda: state_of(watcher) in ("", "Z"), "the other one has ended")

    def test_either_is_killed(self):
        """If one of the two ends, the other one does, and nothing is halted."""
        for is_watcher in (True, False):
            with self.apart(status=b"OB") as (_, watch):
                watcher, halter = watch.watcher(), watch.process.pid
                shells = [it for it in children_of(halter) if it != watcher]
                os.kill(watcher if is_watcher else halter, signal.SIGKILL)
                expect(watch.process.wait(SOON), 1 if is_watcher else -signal.SIGKILL, "the status of root's")
                for it in (watcher, *shells):
                    until(lambda: state_of(it) in ("", "Z"), "all have ended")
                expect((watch.read("halted"), watch.read("flag")), (None, None), "nothing is halted")
                expect(watch.lines("err").count(NO_WATCH), int(is_watcher), "what is reported")

    def test_pipe_has_no_way_in(self):
        """Another process of the user nut can't write orders, and can't kill root's."""
        with self.apart() as (_, watch):
            watcher = watch.watcher()
            script = f"echo halt > /proc/{watcher}/fd/1; kill -KILL {watch.process.pid}"
            words = ["setpriv", "--reuid", USER, "--regid", USER, "--init-groups", "sh", "-c", script]
            ensure(ended(words)[0] != 0, "it is refused")
            time.sleep(1.5)
            expect((watch.process.poll(), watch.read("halted")), (None, None), "nothing is halted")

    def test_root_does_all(self):
        """Where the user can't read upsmon.conf or can't be become, one process of root watches and halts, and says so."""
        for what, settings in (
            (f"the user {USER} cannot read FOLDER/upsmon.conf", {"mode": 0o600}),
            ("cannot become the user nobody-at-all", {"RUN_AS_USER": "nobody-at-all"}),
        ):
            with self.apart(**settings) as (server, watch):
                server.until_asked()
                told = f"upsmon: {what.replace('FOLDER', watch.folder)}{ALONE}"
                expect(told in watch.lines("err"), True, f"it says so: {watch.lines('err')}")
                expect([name_of(it) for it in children_of(watch.process.pid)], ["sh"], "its processes")
                server.statuses[b"su700"] = b"FSD"
                expect((watch.status(), watch.read("halted")), (0, WITH_FLAG), "the halt")

    def test_reload(self):
        """Both take up a changed file, also a second time: the file that asks for it stays, since the user can't remove it."""
        with self.apart() as (server, watch):
            # a file from before the start asks for nothing
            server.until_asked()
            for times, name in enumerate(("first", "second"), 1):
                watch.put(f'{server.line()}{QUICK}SHUTDOWNCMD "touch FOLDER/{name}"\nPOWERDOWNFLAG FOLDER/{name}-flag\n')
                watch.put("", "reload", 0o644)
                until(lambda: sum(it.startswith("upsmon: reloaded: ") for it in watch.lines("err")) == times, "it is read again")
                expect(watch.read("reload"), b"", "the file that asks for it")
            server.statuses[b"su700"] = b"FSD"
            expect(watch.status(), 0, "its status")
            found = [watch.read(it) for it in ("first", "first-flag", "second", "second-flag", "halted")]
            expect(found, [None, None, b"", FLAG, None], "the halt")

    def test_nothing_is_denied(self):
        with self.apart(DENIED="") as (_, watch):
            expect(facts_of(watch.watcher(), "CapEff", "NoNewPrivs"), ("0" * 16, "0"), "what it may still gain")

    def test_faulty_file(self):
        """A file with a fault ends both, with the status and the line of one process."""
        with self.apart("MONITOR\n") as (_, watch):
            expect(watch.status(), 1, "its status")
            until(lambda: any(line.startswith("upsmon: upsmon.conf:5: ") for line in watch.lines("err")), "the fault is told")


if __name__ == "__main__":
    sys.exit(play(Tests, 4))
