"""Has a running upsmon take up a changed upsmon.conf: lines that come and go, faults, a reload while a UPS is on battery or a
shutdown is under way, and what is run at the halt after it.

    python3 -m tests.programs.upsmon_reload UPSD DUMMY_UPS UPSC UPSMON"""

import contextlib
import os
import sys
import time

from tests.support import manual
from tests.support.harness import ended, expect, play, read, write
from tests.support.monitored import FLAG, ON_BATTERY, QUICK, SHUTDOWN, MonitorTests, Upstream, Watch, children_of, put_program
from tests.support.room import ONLINE, STATUS, USERS, descriptors, until

OLD = 'SHUTDOWNCMD "touch FOLDER/old"\n'
NEW = 'SHUTDOWNCMD "touch FOLDER/new"\n'
USERNAME = b"USERNAME mon\n"
REFUSED = "upsmon: not reloaded: "
KEPT = REFUSED + "the earlier configuration stays in force"


class Reloaded(Watch):
    """A running upsmon whose file changes."""

    def until_in_turn(self, *wanted):
        """Waits until upsmon has reported these lines, one right below the other."""
        until(lambda: "\n".join(wanted) in "\n".join(self.lines("err")), f"upsmon reports {wanted}")

    def until_refused(self, fault):
        """Waits until upsmon has reported the fault of its file as a start does, and below that it keeps the earlier configuration."""
        status, _, err = ended([self.process.args[0], "--conf", self.folder])
        at_start = err.splitlines()
        expect((status, at_start[:1], len(at_start)), (1, [fault], 2), "a start with the same file")
        self.until_in_turn(*at_start, KEPT)

    def until_reloaded(self, changes):
        self.until_told(f"upsmon: reloaded: {changes}")


class Tests(MonitorTests):
    def watch(self, conf, *words, **options):
        return Reloaded(self.upsmon, self.folder, conf, *words, **options)

    def expect_halt_by(self, watch, name):
        """Expects that the SHUTDOWNCMD of one file alone runs, which makes a file of this name."""
        expect(watch.status(20), 0, "status")
        expect([it for it in ("old", "new") if watch.read(it) is not None], [name], "the halt")

    @contextlib.contextmanager
    def asked(self, *words, conf=QUICK + OLD, **options):
        """Watches a server whose UPS is on line, until its status was asked for."""
        with self.watched(conf, *words, **options) as (server, watch):
            server.until_asked()
            yield server, watch

    def test_lines_come_and_go(self):
        with Upstream() as first, Upstream() as second, self.watch(first.line() + QUICK + OLD) as watch:
            first.until_asked()
            watch.reload(first.line() + second.line() + QUICK + OLD)
            watch.until_reloaded(f"MONITOR {second.target} added")
            first.until_asked_again(2)
            second.until_asked_again(2)
            watch.reload("MINSUPPLIES 1\n" + second.line(power=2) + QUICK + OLD)
            watch.until_reloaded(f"MONITOR {second.target} changed, MONITOR {first.target} removed")
            second.until_asked_again(2)
            seen = len(first.asked)
            second.until_asked_again(2)
            expect(len(first.asked), seen, "what the server of a line is asked that is gone")
            expect(watch.lines(), [], "notices")
            expect(watch.read("reload"), None, "the file that asked")

    def test_what_is_reported(self):
        with self.asked() as (server, watch):
            watch.reload(server.line() + "POLLFREQ 2\nHOSTSYNC 1\nFINALDELAY 0\nNOTIFYFLAG ONLINE IGNORE\n" + NEW)
            watch.until_reloaded("SHUTDOWNCMD changed, POLLFREQ changed, NOTIFYFLAG changed")
            watch.until_told("upsmon: POLLFREQ 2 is above HOSTSYNC 1: primary and secondaries will not wait for each other")
            watch.until_told("upsmon: this machine shuts down within 6 s of OB LB if answers take at most 2 s")
            told = f"upsmon: UPS {server.target}: watched as primary, power value 1"
            until(lambda: watch.lines("err").count(told) == 2, "that the UPS is watched")

    def test_each_directive_is_reported(self):
        changed = {word: it.default + 1 for word, it in manual.numbers("upsmon.conf").items()} | {
            "MINSUPPLIES": 0, "SHUTDOWNCMD": "true", "NOTIFYCMD": "true", "POWERDOWNFLAG": "FOLDER/flag",
            "NOTIFYMSG": "ONLINE x", "NOTIFYFLAG": "ONLINE IGNORE",
        }
        words = [it for it in manual.directives("upsmon.conf") if it != "MONITOR"]
        with self.asked() as (server, watch):
            watch.reload(server.line() + "".join(f"{word} {changed[word]}\n" for word in words))
            watch.until_reloaded(", ".join(f"{word} changed" for word in words))

    def test_quiet(self):
        with self.asked("-q") as (server, watch):
            watch.reload("POLLFREQ x\n")
            watch.until_refused("upsmon: upsmon.conf:1: BadNumber")
            watch.reload(server.line() + QUICK + NEW)
            until(lambda: server.asked.count(USERNAME) == 2, "the links begin anew")
            expect(len(watch.lines("err")), 3, f"what is told: {watch.lines('err')}")

    def test_nothing_changed(self):
        with self.asked() as (server, watch):
            watch.reload("# the same\n" + QUICK + "DEADTIME 15\n" + server.line() + OLD)
            watch.until_reloaded("nothing changed")
            server.until_asked_again(2)
            expect(server.asked.count(USERNAME), 1, "how often upsmon logs in")

    def test_fault(self):
        """A file with a fault leaves everything as it was: the links, and what is run at the halt."""
        with self.asked() as (server, watch):
            watch.reload(server.line() + "FINALDELAY x\n" + NEW)
            watch.until_refused("upsmon: upsmon.conf:2: BadNumber")
            watch.reload("CERTPATH x\n" + server.line() + NEW)
            watch.until_refused("upsmon: upsmon.conf:1: UnknownDirective")
            os.remove(watch.path("upsmon.conf"))
            watch.reload()
            watch.until_refused("upsmon: upsmon.conf: cannot read")
            # nobody writes to it, so a read would wait for ever
            os.mkfifo(watch.path("upsmon.conf"))
            watch.reload()
            watch.until_refused("upsmon: upsmon.conf: cannot read")
            server.until_asked_again(2)
            expect(server.asked.count(USERNAME), 1, "how often upsmon logs in")
            server.statuses[b"su700"] = b"OB LB"
            self.expect_halt_by(watch, "old")

    def test_command_of_the_new_file(self):
        with self.asked() as (server, watch):
            for changes, conf in (("SHUTDOWNCMD changed", NEW), ("NOTIFYCMD changed", NEW + "NOTIFYCMD true\n")):
                before = children_of(watch.process.pid)
                watch.reload(server.line() + QUICK + conf)
                watch.until_reloaded(changes)
                until(lambda: len(children_of(watch.process.pid)) == 1, "the earlier shell is waited for")
                expect(children_of(watch.process.pid) != before, True, "another shell waits")
            server.statuses[b"su700"] = b"OB LB"
            self.expect_halt_by(watch, "new")

    def test_no_command_any_more(self):
        with self.asked() as (server, watch):
            watch.reload(server.line() + QUICK)
            watch.until_reloaded("SHUTDOWNCMD changed")
            watch.until_told("upsmon: SHUTDOWNCMD is not set: nothing will shut down this machine")
            until(lambda: children_of(watch.process.pid) == [], "the shell is waited for")
            server.statuses[b"su700"] = b"OB LB"
            expect((watch.status(), watch.read("old")), (0, None), "status, and the halt")

    def test_flag(self):
        """The flag of another name is removed, as at a start; one whose name stays is left alone."""
        with Upstream() as server, self.watch(server.line() + QUICK + OLD + "POWERDOWNFLAG FOLDER/a\n") as watch:
            server.until_asked()
            for name in "ab":
                write(watch.path(name), FLAG)
            watch.reload(server.line() + QUICK + NEW + "POWERDOWNFLAG FOLDER/a\n")
            watch.until_reloaded("SHUTDOWNCMD changed")
            expect(watch.read("a"), FLAG, "a flag of the same name")
            watch.reload(server.line() + QUICK + NEW + "POWERDOWNFLAG FOLDER/b\n")
            watch.until_reloaded("POWERDOWNFLAG changed")
            watch.until_told(f"upsmon: POWERDOWNFLAG {watch.path('b')} of an earlier shutdown is removed")
            expect(watch.read("b"), None, "a flag of another name")
            watch.reload(server.line() + QUICK + NEW + "POWERDOWNFLAG FOLDER/none/b\n")
            warning = f"upsmon: POWERDOWNFLAG {watch.path('none/b')} cannot be written: No such file or directory (os error 2)"
            watch.until_told(warning)
            watch.put("", "none/b")
            watch.reload(server.line() + QUICK + OLD + "POWERDOWNFLAG FOLDER/none/b\n")
            watch.until_reloaded("SHUTDOWNCMD changed")
            expect(watch.lines("err").count(warning), 1, "that it can't be written")
            server.statuses[b"su700"] = b"OB LB"
            expect((watch.status(), watch.read("none/b")), (0, FLAG), "status, and the flag, which was an empty file")

    def test_on_battery(self):
        """A reload waits until the UPS is back on line, and says so once."""
        with self.watched(QUICK + OLD, status=b"OB") as (server, watch):
            watch.until_printed(ON_BATTERY % server.target)
            watch.reload(server.line() + QUICK + NEW)
            told = f"upsmon: not reloaded yet: UPS {server.target} is on battery"
            watch.until_told(told)
            server.until_asked_again(3)
            expect((watch.lines("err").count(told), server.asked.count(USERNAME)), (1, 1), "how often it is told, and logs in")
            server.statuses[b"su700"] = b"OL"
            watch.until_reloaded("SHUTDOWNCMD changed")

    def test_lost_on_battery(self):
        """A UPS that was last heard of on battery isn't forgotten for a reload: its machine is halted."""
        with self.watched(QUICK + "DEADTIME 6\n" + OLD, status=b"OB") as (server, watch):
            watch.until_printed(ON_BATTERY % server.target)
            server.close()
            watch.reload(server.line() + QUICK + "DEADTIME 6\n" + NEW)
            watch.until_told(f"upsmon: not reloaded yet: UPS {server.target} is on battery")
            self.expect_halt_by(watch, "old")
            watch.until_told(REFUSED + "a shutdown has begun")

    def test_line_on_battery_is_removed(self):
        """A UPS that is no longer to be watched holds up nothing."""
        with Upstream() as first, Upstream(status=b"OB") as second, self.watch(first.line() + second.line() + QUICK + OLD) as watch:
            watch.until_printed(ON_BATTERY % second.target)
            watch.reload(first.line() + QUICK + OLD)
            watch.until_reloaded(f"MONITOR {second.target} removed")

    def test_forced_shutdown_of_one_of_two(self):
        """A UPS with a forced shutdown is waited for, too, where the other supplies enough."""
        with Upstream() as first, Upstream(status=b"FSD OL") as second, self.watch(first.line() + second.line() + QUICK + OLD) as watch:
            watch.until_printed(f"UPS {second.target}: forced shutdown in progress")
            watch.reload(first.line() + second.line() + QUICK + NEW)
            watch.until_told(f"upsmon: not reloaded yet: UPS {second.target} has a forced shutdown")
            # a fault takes its place, and nothing waits any more
            watch.reload("POLLFREQ x\n")
            watch.until_refused("upsmon: upsmon.conf:1: BadNumber")
            second.statuses[b"su700"] = b"OL"
            second.until_asked_again(3)
            expect(second.asked.count(USERNAME), 1, "how often upsmon logs in")

    def test_lost_on_line(self):
        """A server that is gone holds up no reload if its UPS was on line."""
        server = Upstream()
        with Upstream() as other, self.watch(server.line() + other.line() + QUICK + OLD) as watch:
            # twice, so that the first answer was heard
            server.until_asked_again(2)
            server.close()
            watch.until_printed(f"Communications with UPS {server.target} lost")
            watch.reload(other.line() + QUICK + OLD)
            watch.until_reloaded(f"MONITOR {server.target} removed")

    def test_shutdown(self):
        with self.watched("POLLFREQ 1\nHOSTSYNC 1\nFINALDELAY 4\n" + OLD, status=b"FSD") as (server, watch):
            watch.until_printed(SHUTDOWN)
            watch.reload(server.line() + NEW)
            watch.until_told(REFUSED + "a shutdown has begun")
            self.expect_halt_by(watch, "old")

    def test_without_a_shell(self):
        """If the shell of the new SHUTDOWNCMD can't be started, the earlier one goes on waiting."""
        none = os.path.join(self.folder, "reload-none-starts")
        with self.asked("-q", env=self.refusing_starts(none)) as (server, watch):
            write(none, "")
            watch.reload(server.line() + QUICK + NEW)
            until(lambda: KEPT in watch.lines("err"), "that it can't be started")
            front = "upsmon: SHUTDOWNCMD cannot be started: "
            expect([it.startswith(front) for it in watch.lines("err")], [True, False], f"what is told: {watch.lines('err')}")
            expect(len(children_of(watch.process.pid)), 1, "the earlier shell")
            os.remove(none)
            server.statuses[b"su700"] = b"OB LB"
            self.expect_halt_by(watch, "old")

    def test_without_memory(self):
        """Without memory upsmon says so and goes on as before. Once there is some, a reload that is asked for anew comes."""
        gone = os.path.join(self.folder, "reload-gone")
        with self.asked(env=self.refusing_memory(gone)) as (server, watch):
            write(gone, "")
            watch.reload(server.line() + QUICK + NEW)
            watch.until_in_turn("upsmon: out of memory", KEPT)
            expect(len(children_of(watch.process.pid)), 1, "the earlier shell")
            os.remove(gone)
            watch.reload()
            watch.until_reloaded("SHUTDOWNCMD changed")

    def test_folder_of_two_programs(self):
        """Where upsd has the folder too, the file is left to it for a while."""
        with self.asked() as (server, watch):
            watch.put("", "upsd.conf")
            watch.reload(server.line() + QUICK + NEW)
            watch.until_reloaded("SHUTDOWNCMD changed")
            expect(watch.read("reload"), b"", "the file, for upsd")
            until(lambda: watch.read("reload") is None, "the file is removed")
            time.sleep(1.5)
            expect(watch.lines("err").count("upsmon: reloaded: nothing changed"), 0, "further reloads")

    def test_file_is_left_after_a_stall(self):
        """Seconds that upsmon missed are no looks at the file: where upsd has the folder too, it is left to it for as long as ever."""
        with self.asked() as (server, watch):
            watch.put("", "upsd.conf")
            with watch.stopped():
                time.sleep(5)
                watch.reload()
            # at the second look
            watch.until_reloaded("nothing changed")
            expect(watch.read("reload"), b"", "the file, for upsd")
            until(lambda: watch.read("reload") is None, "the file is removed")

    def test_file_that_is_gone(self):
        """Where upsd has the folder too, upsmon reads its file a look after it saw the request, even if upsd has removed that."""
        with self.asked() as (server, watch):
            watch.put("", "upsd.conf")
            changed, took = "upsmon: reloaded: SHUTDOWNCMD changed", False
            for _ in range(5):
                before = watch.lines("err").count(changed)
                watch.reload(server.line() + QUICK + (OLD if before % 2 else NEW))
                # upsmon has looked once or twice by then; on a slow machine perhaps never, or more often, and is asked again
                time.sleep(1.2)
                with contextlib.suppress(FileNotFoundError):
                    os.remove(watch.path("reload"))
                    time.sleep(1.5)
                    took = watch.lines("err").count(changed) > before
                if took:
                    break
            expect(took, True, "the new file is read")
            time.sleep(2.5)
            expect(watch.lines("err").count("upsmon: reloaded: nothing changed"), 0, "further reloads")

    def test_password_of_two_programs(self):
        """upsmon logs in by its new password when upsd of the same folder knows that, whichever looks for the file first."""
        with self.room(USERS) as room:

            def set_password(word):
                write(room.path("upsd.users"), USERS.replace(b"password = m1", b"password = " + word))
                write(room.path("upsmon.conf"), f"MONITOR su700@{room.host}:{room.port} 1 mon {word.decode()} primary\n{QUICK}{OLD}")

            def count_reports(name, report):
                return read(room.path(name)).splitlines().count(report)

            set_password(b"first")
            with open(room.path("upsd.err"), "wb") as upsd, open(room.path("upsmon.err"), "wb") as upsmon:
                room.dummy()
                room.upsd(stderr=upsd)
                begun = time.monotonic()
                room.until(STATUS, ONLINE)
                # each looks once a second from its start on: so either is the first to see half of all requests
                time.sleep((begun + 0.5 - time.monotonic()) % 1)
                room.start([self.upsmon, "--conf", room.folder], stderr=upsmon)
            room.until(b"GET NUMLOGINS su700\n", b"NUMLOGINS su700 1\n")
            changed = f"upsmon: reloaded: MONITOR su700@{room.host}:{room.port} changed"
            for turn in range(1, 6):
                time.sleep((begun + 0.2 * turn - time.monotonic()) % 1)
                set_password(b"next%d" % turn)
                write(room.path("reload"), "")
                until(lambda: count_reports("upsd.err", "upsd: reloaded: users") == turn, "upsd knows the password")
                until(lambda: count_reports("upsmon.err", changed) == turn, "upsmon knows the password")
                # the earlier link is gone, and the new one has been made
                time.sleep(1.5)
                room.until(b"GET NUMLOGINS su700\n", b"NUMLOGINS su700 1\n")

    def test_addresses_are_kept(self):
        """A host whose name was found once is called at its address after a reload, too, whatever the name server says then."""
        names = os.path.join(self.folder, "reload-names")
        asked = os.path.join(names, "asked")
        script = f"echo >> {asked}\n[ $(wc -l < {asked}) = 1 ] || exit 2\necho 127.0.0.1 STREAM"
        put_program(os.path.join(names, "getent"), script)
        env = {**os.environ, "PATH": f"{names}:{os.environ['PATH']}"}
        with Upstream() as server, Upstream() as other:
            first, second = (f"MONITOR su700@ups.example:{it.port} 1 mon m1 primary\n" for it in (server, other))
            with self.watch(first + QUICK + OLD, env=env) as watch:
                server.until_asked()
                watch.reload(first + second + QUICK + OLD)
                watch.until_reloaded(f"MONITOR su700@ups.example:{other.port} added")
                until(lambda: server.asked.count(USERNAME) == 2, "the link is made anew")
                other.until_asked()
                expect(read(asked).count("\n"), 1, "how often the name is looked up")

    def test_many(self):
        """Reloads leave neither descriptors nor processes behind."""
        with self.asked() as (server, watch):
            counts = []
            for power in (2, 3, 4):
                watch.reload(server.line(power=power) + QUICK + OLD)
                until(lambda: sum("reloaded" in it for it in watch.lines("err")) == power - 1, "a reload")
                server.until_asked_again(2)
                until(lambda: len(children_of(watch.process.pid)) == 1, "the earlier shell is waited for")
                counts.append(descriptors(watch.process.pid))
                until(lambda: descriptors(watch.process.pid) == counts[0], f"as many descriptors as {counts[0]}")


if __name__ == "__main__":
    sys.exit(play(Tests, 4))
