"""Changes the files of a running upsd, has it read them again, and looks at what its clients and drivers notice.

    python3 -m tests.programs.upsd_reload UPSD DUMMY_UPS"""

import contextlib
import errno
import os
import re
import select
import shutil
import sys
import tempfile
import threading
import time
from concurrent import futures

from tests.support.harness import Missing, apart, ended_in_bytes, ensure, expect, expect_rest, fewer, play, refusal
from tests.support.room import Client, DEVICE, Lines, NOT_CONNECTED, ONLINE, Room, RoomTests, NO_PINGS, SOON, STATUS, USERS, VERSION
from tests.support.room import descriptors, first_lines, play_driver, stopped, until

ONE = b'[su700]\ndesc = "Server room"\n'
TWO = ONE + b"[old]\n"
ON_LINE = b'SETINFO ups.status "OL"'
NOTHING = "upsd: reloaded: nothing changed"
KEPT = "upsd: not reloaded: the earlier configuration stays in force"
ORDER = "upsd: reloaded: order of UPSes"
# a moment in which upsd looks for the file at least twice, in seconds
LOOKS = 2.5
# how many allocations in turn no reload has met before the rest are taken to come after it
UNMET = 20


class Poller:
    """Asks the same all the time, by a function of a request, and notes each answer that isn't the one that it expects."""

    def __init__(self, ask, requests, pause):
        self.ask, self.requests, self.pause = ask, requests, pause
        self.asked = 0
        self.wrong = []
        self.goes_on = True
        self.thread = threading.Thread(target=self.run, daemon=True)
        self.thread.start()

    def run(self):
        while self.goes_on:
            for request, wanted in self.requests:
                try:
                    found = self.ask(request)
                except OSError as error:
                    found = repr(error).encode()
                self.asked += 1
                if found != wanted:
                    self.wrong.append((request, found))
                    return
            time.sleep(self.pause)

    def stop(self, least):
        """Ends it. It has been answered more often than this by now, and is answered each of its requests once more."""
        ensure(self.asked > least, "one who asks all the time was hardly served")
        wanted = self.asked + len(self.requests)
        until(lambda: self.asked > wanted or self.wrong, "one who asks all the time is served on", 60)
        self.goes_on = False
        self.thread.join(SOON)
        expect(self.wrong, [], f"answers that are wrong, of {self.asked}")


class Reloaded(Room):
    """A room whose upsd is told to read its files again."""

    def online_both(self):
        """Starts dummies of su700 and old, and upsd, and waits until it shows that both are on line."""
        self.dummy(ups="old")
        self.online()
        self.until(status_of(b"old"), online(b"old"))

    def touch(self):
        """Asks for a reload: changes the time of the file, or makes it. Either is one call, since upsd may remove the file at any
        time."""
        try:
            os.utime(self.path("reload"))
        except FileNotFoundError:
            open(self.path("reload"), "x").close()

    def is_asked(self):
        return os.path.exists(self.path("reload"))

    def reload(self, ups=None, said=None):
        """Has upsd read its files again, ups.conf with this text. Returns the line that it writes, which has to be this."""
        if ups is not None:
            self.write("ups.conf", ups)
        self.touch()
        found = self.lines.next("upsd: reloaded", "upsd: not reloaded")
        if said is not None:
            expect(found, said, "what changed")
        until(lambda: not self.is_asked(), "the file is removed")
        return found

    def refuse(self, ups, fault):
        """Has upsd read files again that have this fault, ups.conf with this text. It writes what a start writes, and below that it
        keeps the earlier configuration."""
        self.reload(ups, KEPT)
        status, out, err = ended_in_bytes(self.command())
        at_start = err.decode().splitlines()
        expect((status, out, at_start[:1], len(at_start)), (1, b"", [fault], 2), "a start with the same files")
        expect(self.lines.found_last(3), [*at_start, KEPT], "what is told of a fault")

    def upses(self):
        """Returns the names of the UPSes that are served."""
        with self.client() as client:
            return [row.split()[1].decode() for row in client.list(b"LIST UPS\n")[1:-1]]

    def serves_all(self, count, online_ones):
        """Whether so many UPSes are served, and the drivers of these are connected, as a new client sees it."""
        try:
            with self.client() as client:
                are_online = all(client.ask(status_of(ups)) == online(ups) for ups in online_ones)
                return are_online and len(client.list(b"LIST UPS\n")) == count + 2
        except ConnectionError:
            return False

    def settled(self, upsd):
        """Returns how many descriptors upsd has open once all earlier clients are gone: it hears of their ends in turn."""
        with self.client() as last:
            expect((last.ask(b"LOGOUT\n"), last.is_closed()), (b"OK Goodbye\n", True), "the last client leaves")
        return descriptors(upsd.pid)


def status_of(ups):
    return b"GET VAR %s ups.status\n" % ups


def online(ups):
    return b'VAR %s ups.status "OL"\n' % ups


class Tests(RoomTests):
    kind = Reloaded

    def test_upses_that_come_and_go(self):
        with self.room(ups=TWO) as room:
            room.online_both()
            with room.logged_in(b"old") as first, room.logged_in() as second:
                expect(first.ask(b"FSD old\n"), b"OK FSD-SET\n", "FSD old")
                changed = b'[neu]\ndesc = "N"\n[su700]\ndesc = "New room"\n'
                room.reload(changed, "upsd: reloaded: UPS neu added, UPS old removed, UPS su700: description")
                expect(first.is_closed(), True, "a client that is logged in to a UPS that is gone")
                rows = [b"BEGIN LIST UPS\n", b'UPS neu "N"\n', b'UPS su700 "New room"\n', b"END LIST UPS\n"]
                expect(second.list(b"LIST UPS\n"), rows, "LIST UPS")
                expect(second.ask(b"GET NUMLOGINS su700\n"), b"NUMLOGINS su700 1\n", "the login stays")
                expect(second.ask(STATUS), ONLINE, "the values stay")
                expect(second.ask(status_of(b"old")), b"ERR UNKNOWN-UPS\n", "a UPS that is gone")
                expect(second.ask(status_of(b"neu")), NOT_CONNECTED, "a new UPS")
                room.dummy(ups="neu")
                room.until(status_of(b"neu"), online(b"neu"))
                room.reload(TWO, "upsd: reloaded: UPS old added, UPS neu removed, UPS su700: description")
                # its driver, which went on, is dialled at once, and the flag of FSD is gone
                room.until(status_of(b"old"), online(b"old"))
                expect(room.upses(), ["su700", "old"], "in the order of the file")
                expect(second.ask(b"GET NUMLOGINS su700\n"), b"NUMLOGINS su700 1\n", "the login still stays")

    def test_order_of_upses(self):
        """It is said if those that stay are in another order. One that comes or goes between them changes nothing of theirs."""
        with self.room(ups=TWO) as room:
            room.serve()
            for names, said in (
                (["old", "su700"], ORDER),
                (["old", "su700"], NOTHING),
                (["a", "old", "b", "su700"], "upsd: reloaded: UPS a added, UPS b added"),
                (["a", "b", "su700", "old"], ORDER),
                (["old", "su700"], "upsd: reloaded: UPS a removed, UPS b removed, order of UPSes"),
                (["su700", "c"], "upsd: reloaded: UPS c added, UPS old removed"),
            ):
                room.reload(b"".join(ONE if name == "su700" else b"[%s]\n" % name.encode() for name in names), said)
                expect(room.upses(), names, said)

    def test_driver_and_forced_shutdown_of_a_ups_that_stays(self):
        """The link to its driver stays the same, and the shutdown forced."""
        with self.room(ups=TWO, conf=NO_PINGS) as room, room.driver() as listener:
            room.serve()
            with play_driver(listener, ON_LINE) as link, room.logged_in() as client:
                room.until(STATUS, ONLINE)
                expect(client.ask(b"FSD su700\n"), b"OK FSD-SET\n", "FSD")
                room.reload(b"[new]\n[su700]\ndesc = x\n", "upsd: reloaded: UPS new added, UPS old removed, UPS su700: description")
                expect(client.ask(STATUS), b'VAR su700 ups.status "FSD OL"\n', "the status after a reload")
                link.sendall(b'SETINFO ups.status "OB"\n')
                room.until(STATUS, b'VAR su700 ups.status "FSD OB"\n')
                dialled, _, _ = select.select([listener], [], [], LOOKS)
                expect(dialled, [], "a driver that stays, and is dialled again")

    def test_other_driver(self):
        with self.room(ups=ONE, conf=NO_PINGS) as room, room.driver() as listener, room.listener("other-su700") as other:
            room.serve()
            with play_driver(listener, ON_LINE) as link, room.logged_in() as client:
                room.until(STATUS, ONLINE)
                room.reload(ONE + b"driver = other\n", "upsd: reloaded: UPS su700: driver")
                expect(link.recv(100), b"", "the old driver is disconnected")
                expect(room.lines.count("upsd: UPS su700: driver disconnected by the reload"), 1, "it is told")
                with play_driver(other, b'SETINFO ups.status "OB"'):
                    room.until(STATUS, b'VAR su700 ups.status "OB"\n')
                    expect(client.ask(b"GET NUMLOGINS su700\n"), b"NUMLOGINS su700 1\n", "the login stays")
                    room.reload(b"[su700]\n", "upsd: reloaded: UPS su700: driver and description")
                    with play_driver(listener, ON_LINE):
                        room.until(STATUS, ONLINE)

    def test_many_upses(self):
        """All numbers are given away, freed and given away again, and no descriptor is left open."""

        def upses(prefix, count):
            return b"".join(b"[%s%d]\n" % (prefix, i) for i in range(count))

        with self.room(ups=ONE) as room:
            for ups in (*(f"a{i}" for i in range(31)), *(f"b{i}" for i in range(32))):
                room.dummy(ups=ups)
            _, upsd = room.online()
            at_first = room.settled(upsd)
            for _ in range(3):
                room.reload(upses(b"a", 31) + ONE)
                for i in range(31):
                    room.until(status_of(b"a%d" % i), online(b"a%d" % i))
                expect(room.ask(STATUS), ONLINE, "the UPS that stays")
                room.reload(upses(b"b", 32))
                for i in range(32):
                    room.until(status_of(b"b%d" % i), online(b"b%d" % i))
                room.reload(ONE)
                room.until(STATUS, ONLINE)
                until(lambda: descriptors(upsd.pid) == at_first, f"as many open files as {at_first}")

    def test_fault_keeps_the_old(self):
        with self.room(ups=TWO) as room:
            room.online()
            with room.logged_in() as client:
                listen = b"LISTEN 127.0.0.1 %d\n" % room.port
                for name, faulty, fault, mended in (
                    ("ups.conf", b"[neu]\n\n[a/b]\n", "ups.conf:3: BadName", ONE),
                    ("ups.conf", b"[neu]\nvendorid = 1\n", "ups.conf:2: UnknownDirective", ONE),
                    ("upsd.users", b"password = m1\n" + USERS, "upsd.users:1: OutsideSection", USERS),
                    ("upsd.conf", b"MAXAGE 0\n", "upsd.conf:1: BadNumber", listen),
                    ("cmdvartab", b"VARDESC x\n", "cmdvartab:1: BadForm", b""),
                ):
                    room.write(name, faulty)
                    room.refuse(None, f"upsd: {fault}")
                    expect(room.upses(), ["su700", "old"], f"the old UPSes, with the fault {fault}")
                    room.write(name, mended)
                os.remove(room.path("cmdvartab"))
                os.remove(room.path("upsd.users"))
                room.refuse(None, "upsd: upsd.users: cannot read")
                # nobody writes to it, so a read would wait for ever
                os.mkfifo(room.path("upsd.users"))
                room.refuse(None, "upsd: upsd.users: cannot read")
                expect(client.ask(STATUS), ONLINE, "an old client, with a pipe in place of a file")
                os.remove(room.path("upsd.users"))
                room.write("upsd.users", USERS)
                expect(room.upses(), ["su700", "old"], "the old UPSes after each fault")
                expect(client.ask(STATUS), ONLINE, "an old client")
                room.reload(None, "upsd: reloaded: UPS old removed")
                expect(room.upses(), ["su700"], "the new UPSes")
                expect(client.ask(b"GET NUMLOGINS su700\n"), b"NUMLOGINS su700 1\n", "an old client after the reload")

    def test_others_notice_nothing(self):
        with self.room(ups=TWO) as room:
            room.online_both()
            poller = Poller(room.client().ask, [(STATUS, ONLINE), (b"VER\n", VERSION)], 0)
            with room.client() as slow, room.logged_in() as logged_in, room.logged_in(b"old") as gone, room.client() as busy:
                slow.send(STATUS[:10])
                gone.send(STATUS[:10])
                # one that has asked for a lot, and takes it later
                busy.send(STATUS * 20_000)
                room.reload(ONE, "upsd: reloaded: UPS old removed")
                expect(gone.is_closed(), True, "a client that is logged in to a UPS that is gone, in mid-line")
                slow.send(STATUS[10:])
                expect(slow.line(), ONLINE, "a client in mid-line")
                expect(logged_in.ask(b"GET NUMLOGINS su700\n"), b"NUMLOGINS su700 1\n", "a client that is logged in")
                for i in range(20_000):
                    expect(busy.line(), ONLINE, f"answer {i} of many")
            poller.stop(fewer(100))

    def test_reloads_under_load(self):
        with self.room(ups=TWO) as room:
            room.online_both()
            rows = [(STATUS, ONLINE), (b"VER\n", VERSION), (b"GET UPSDESC su700\n", b'UPSDESC su700 "Server room"\n')]
            pollers = [Poller(room.client().ask, rows, 0.05) for _ in range(20)]
            for turn in range(10):
                room.reload(TWO if turn % 2 else ONE, f"upsd: reloaded: UPS old {'added' if turn % 2 else 'removed'}")
            for poller in pollers:
                poller.stop(fewer(100))

    def test_limits(self):
        listen = b"LISTEN 127.0.0.1 %d\n"
        with self.room() as room:
            room.serve()
            with contextlib.ExitStack() as stack:
                clients = [stack.enter_context(room.logged_in()) for _ in range(4)]
                room.write("upsd.conf", listen % room.port + b"MAXAGE 30\nMAXCONN 2\n")
                room.reload(None, "upsd: reloaded: MAXAGE 30, MAXCONN 2")
                for client in clients:
                    expect(client.ask(b"VER\n"), VERSION, "a client that is past MAXCONN")
                with room.client() as more:
                    expect(more.is_closed(), True, "a client more")
                for client in clients[1:]:
                    client.close()
                until(room.serves, "a new client, once others have gone")
                room.write("upsd.conf", listen % room.port)
                room.reload(None, "upsd: reloaded: MAXAGE 15, MAXCONN 256")
                with room.client() as second, room.client() as third:
                    for client in (clients[0], second, third):
                        expect(client.ask(b"VER\n"), VERSION, "a client of three")

    def test_fewer_places_than_clients(self):
        """After a reload that lowers MAXCONN nobody is closed until a client calls; then as many make way as it takes."""
        with self.room() as room:
            room.serve()
            with contextlib.ExitStack() as stack:
                kinds = (room.client, room.logged_in, *[room.client] * 4)
                clients = [stack.enter_context(connect()) for connect in kinds]
                room.write("upsd.conf", b"LISTEN 127.0.0.1 %d\nMAXCONN 3\n" % room.port)
                room.reload(None, "upsd: reloaded: MAXCONN 3")
                for client in clients:
                    expect(client.ask(b"VER\n"), VERSION, "a client that is past MAXCONN")
                more = stack.enter_context(room.client())
                for client in (more, clients[1], clients[5]):
                    expect(client.ask(b"VER\n"), VERSION, "a new client, one that is logged in, and the last without login")
                for client in (clients[0], *clients[2:5]):
                    expect(client.is_closed(), True, "a client that came before makes way")

    def test_listeners_stay(self):
        with self.room() as room:
            room.serve()
            listen = b"LISTEN 127.0.0.1 %d\n" % room.port
            room.write("upsd.conf", b"LISTEN 127.0.0.2 %d\n" % room.port)
            room.reload(b"[new]\n", "upsd: reloaded: UPS new added, UPS su700 removed, LISTEN takes effect at the next start")
            expect(room.upses(), ["new"], "at the old address")
            # it is said as long as it is so
            room.reload(None, "upsd: reloaded: LISTEN takes effect at the next start")
            room.write("upsd.conf", listen)
            room.reload(None, NOTHING)

    def test_descriptions(self):
        asked = b"GET DESC su700 ups.model\n"
        with self.room() as room:
            room.online(device=DEVICE + b"ups.model: S\n")
            room.until(asked, b'DESC su700 ups.model "Description unavailable"\n')
            room.write("cmdvartab", b'VARDESC ups.model "the model"\n')
            room.reload(None, "upsd: reloaded: cmdvartab")
            expect(room.ask(asked), b'DESC su700 ups.model "the model"\n', "a text that is new")
            room.reload(None, NOTHING)
            os.remove(room.path("cmdvartab"))
            room.reload(None, "upsd: reloaded: cmdvartab")
            expect(room.ask(asked), b'DESC su700 ups.model "Description unavailable"\n', "a text that is gone")

    def test_readable_passwords(self):
        with self.room() as room:
            lines = room.serve()
            os.chmod(room.path("upsd.users"), 0o644)
            room.reload(None, NOTHING)
            expect(lines.count("upsd: upsd.users holds passwords"), 1, "warnings")

    def test_quiet(self):
        with self.room() as room:
            room.serve("-q")
            room.write("ups.conf", b"[new]\n")
            room.touch()
            until(lambda: room.upses() == ["new"], "the new UPS")
            expect(room.lines.lines, [], "nothing is told of a reload")
            room.refuse(b"[new]\n[new]\n", "upsd: ups.conf:2: Repeated")
            expect(room.upses(), ["new"], "the old UPS")

    def test_file_of_before_the_start(self):
        with self.room() as room:
            room.touch()
            lines = room.serve()
            until(lambda: not room.is_asked(), "the file is removed")
            time.sleep(LOOKS)
            expect(lines.count("upsd: reloaded"), 0, "reloads")
            room.reload(None, NOTHING)

    def test_file_that_cannot_be_removed(self):
        with self.room() as room:
            lines = room.serve()
            os.mkdir(room.path("reload"))
            lines.next("upsd: cannot remove " + room.path("reload") + ": ")
            lines.next(NOTHING)
            expect_rest(room.server, LOOKS, 0.1, "for a file that can't be removed")
            expect(lines.count("upsd: reloaded"), 1, "reloads by one file")
            room.write("ups.conf", b"[new]\n")
            os.utime(room.path("reload"))
            lines.next("upsd: reloaded: UPS new added, UPS su700 removed")
            time.sleep(LOOKS)
            expect(lines.count("upsd: reloaded"), 2, "reloads by a file that was touched once more")
            expect(lines.count("upsd: cannot remove"), 1, "what can't be done is told once")
            os.rmdir(room.path("reload"))
            room.reload(None, NOTHING)

    def test_folder_of_another_user(self):
        """As in the unit: the folder is root's, and upsd runs as another user, who can read the files."""
        if os.geteuid() != 0:
            raise Missing("only root can run upsd as another user")
        nobody = 65534
        with self.room() as room, tempfile.TemporaryDirectory() as parent:
            for name in ("ups.conf", "upsd.users", "upsd.conf"):
                os.chown(room.path(name), 0, nobody)
                os.chmod(room.path(name), 0o640)
            os.chown(room.folder, 0, nobody)
            os.chmod(room.folder, 0o750)
            for at in (parent, self.folder):
                os.chmod(at, 0o755)
            program = os.path.join(parent, "upsd")
            shutil.copyfile(self.programs[0], program)
            os.chmod(program, 0o755)
            room.upsd_program = program
            lines = room.serve(user=nobody, group=nobody, extra_groups=[])
            for turn in range(3):
                room.write("ups.conf", b"[new]\n" if turn % 2 == 0 else ONE)
                os.chown(room.path("ups.conf"), 0, nobody)
                os.chmod(room.path("ups.conf"), 0o640)
                room.touch()
                found = lines.next("upsd: reloaded: UPS")
                ensure(("UPS new added" in found) == (turn % 2 == 0), f"turn {turn}: {found}")
                ensure(room.is_asked(), "the file stays")
            expect(lines.count("upsd: reloaded"), 3, "reloads")
            expect(lines.count("upsd: cannot remove"), 1, "what can't be done is told once")
            expect(lines.count("upsd: running as root"), 0, "what is told of the user")

    def test_folder_with_two_programs(self):
        """The file stays for a while, so that upsmon sees it too."""
        with self.room() as room:
            room.write("upsmon.conf", b"MINSUPPLIES 0\n")
            lines = room.serve()
            before = None
            for _ in range(3):
                room.touch()
                lines.next(NOTHING)
                ensure(room.is_asked(), "the file isn't left to another program")
                end = time.monotonic() + SOON
                while room.is_asked():
                    there = time.monotonic()
                    ensure(there < end, "the file isn't removed")
                    time.sleep(0.02)
                # it is seen by the first look after the last removal at the earliest, and removed two looks later
                ensure(before is None or time.monotonic() - before > 2.5, "the file is removed too soon for another program")
                before = there
            time.sleep(LOOKS)
            expect(lines.count("upsd: reloaded"), 3, "reloads")
            expect(lines.count("upsd: cannot remove"), 0, "faults")

    def test_file_beside_the_sockets(self):
        """A file in the folder of the sockets asks for a reload, too, and both files together are one request."""
        with self.room() as room:
            os.mkdir(room.path("sockets"))
            beside = room.path("sockets/reload")
            room.write("sockets/reload", b"")
            upsd = room.start([self.programs[0], "--conf", room.folder, "-s", room.path("sockets")])
            lines = room.lines = Lines(upsd)
            lines.next("upsd: listening on ")
            until(lambda: not os.path.exists(beside), "a file of before the start is removed")
            time.sleep(LOOKS)
            expect(lines.count("upsd: reloaded"), 0, "reloads by a file of before the start")
            room.write("ups.conf", TWO)
            room.write("sockets/reload", b"")
            lines.next("upsd: reloaded: UPS old added")
            ensure(not os.path.exists(beside), "the file stays")
            room.reload(ONE, "upsd: reloaded: UPS old removed")
            with stopped(upsd):
                room.touch()
                room.write("sockets/reload", b"")
            lines.next(NOTHING)
            time.sleep(LOOKS)
            expect(lines.count("upsd: reloaded"), 3, "reloads by three requests, of which one is two files")
            expect((room.is_asked(), os.path.exists(beside)), (False, False), "files that stay")
            # upsmon has the folder of the files: that file is left to it, and is no second request meanwhile
            room.write("upsmon.conf", b"MINSUPPLIES 0\n")
            with stopped(upsd):
                room.touch()
                room.write("sockets/reload", b"")
            lines.next(NOTHING)
            expect((room.is_asked(), os.path.exists(beside)), (True, False), "files that stay where upsmon looks for one")
            time.sleep(LOOKS)
            expect(lines.count("upsd: reloaded"), 4, "reloads by four requests")
            expect(lines.count("upsd: cannot remove"), 0, "faults")

    def test_files_that_nobody_can_change(self):
        """Where the folder of the files is read-only, the one of the sockets is not."""
        with self.room() as room:
            os.mkdir(room.path("sockets"))
            os.mkdir(room.path("conf"))
            for name in ("ups.conf", "upsd.users", "upsd.conf"):
                os.rename(room.path(name), room.path(f"conf/{name}"))
            room.write("conf/reload", b"")
            words = ["sh", "-c", 'mount --bind "$0" "$0" && mount -o remount,bind,ro "$0" && exec "$@"', room.path("conf")]
            upsd = room.start([*apart("--mount", *words), self.programs[0], "--conf", room.path("conf"), "-s", room.path("sockets")])
            lines = Lines(upsd)
            lines.next("upsd: listening on ")
            time.sleep(LOOKS)
            for _ in range(3):
                room.write("sockets/reload", b"")
                lines.next(NOTHING)
                ensure(not os.path.exists(room.path("sockets/reload")), "the file stays")
            expect(lines.count("upsd: cannot remove"), 0, "faults")
            for _ in range(2):
                os.utime(room.path("conf/reload"))
                lines.next(NOTHING)
            told = f"upsd: cannot remove {room.path('conf/reload')}: {os.strerror(errno.EROFS)}"
            expect((lines.count(told), lines.count("upsd: reloaded")), (1, 5), "what can't be removed is told once")

    def test_no_look_without_sockets(self):
        with self.room() as room:
            room.touch()
            for word in ("--stdio", "--check"):
                expect(ended_in_bytes([room.upsd_program, word, "--conf", room.folder])[0], 0, word)
            ensure(room.is_asked(), "the file is removed by one who doesn't serve on")

    def test_lack_of_memory(self):
        once = os.path.join(self.folder, "dry")
        env = self.refusing_memory(once)
        with self.room() as room:
            room.online(env=env)
            with room.client() as client:
                # answers that wait together leave room for each of those below
                client.send(4 * STATUS)
                expect([client.line() for _ in range(4)], 4 * [ONLINE], "before")
                open(once, "w").close()
                room.reload(TWO, KEPT)
                expect(room.lines.found_last(2), ["upsd: out of memory", KEPT], "what is told of a lack of memory")
                expect(client.ask(STATUS), ONLINE, "without memory")
                expect(client.ask(b"GET UPSDESC su700\n"), b'UPSDESC su700 "Server room"\n', "an answer that is written the first time")
                expect(client.ask(status_of(b"old")), b"ERR UNKNOWN-UPS\n", "what couldn't be read")
                os.remove(once)
                room.reload(None, "upsd: reloaded: UPS old added")
                expect(client.ask(status_of(b"old")), NOT_CONNECTED, "what was read")

    def test_clients_without_memory(self):
        """Clients are let in without memory, and wait for nothing but their answers."""
        once = os.path.join(self.folder, "thirsty")
        with self.room() as room:
            lines, upsd = room.serve("-q", env=self.refusing_memory(once)), room.server
            before = room.settled(upsd)
            with contextlib.ExitStack() as closing:
                first = closing.enter_context(room.client())
                expect(first.ask(b"VER\n"), VERSION, "before")
                open(once, "w").close()
                clients = [closing.enter_context(room.client()) for _ in range(40)]
                until(lambda: descriptors(upsd.pid) == before + 41, "all are let in")
                expect(first.ask(b"VER\n"), VERSION, "one that was there before")
                os.remove(once)
                for client in clients:
                    expect(client.ask(b"VER\n"), VERSION, "one that was let in without memory")
            expect(lines.lines, [], "what is told")

    def test_connections_closed_for_lack_of_memory(self):
        """It is told, of clients at most once a second, and of those that leave by themselves never."""
        once = os.path.join(self.folder, "parched")
        driver_told, client_told = "upsd: UPS su700: driver disconnected: out of memory", "upsd: client 127.0.0.1 closed: out of memory"
        with self.room(conf=NO_PINGS) as room, room.driver() as listener:
            lines, upsd = room.serve(env=self.refusing_memory(once)), room.server
            with play_driver(listener, ON_LINE) as link, contextlib.ExitStack() as closing:
                room.until(STATUS, ONLINE)
                before = room.settled(upsd)
                first, *others = [closing.enter_context(room.client()) for _ in range(20)]
                until(lambda: descriptors(upsd.pid) == before + 20, "all are let in")
                expect(first.ask(b"VER\n"), VERSION, "before")
                open(once, "w").close()
                begun = time.monotonic()
                for client in others:
                    client.send(b"VER\n")
                for client in others:
                    ensure(client.is_closed(), "a client whose answer finds no memory")
                took = time.monotonic() - begun
                lines.next(client_told)
                expect(first.ask(b"LOGOUT\n"), b"OK Goodbye\n", "a client that needs none")
                # more variables than there is room for
                link.sendall(b"".join(b'SETINFO ambient.%d.status "x"\n' % i for i in range(200)))
                lines.next(driver_told)
                os.remove(once)
            with play_driver(listener, ON_LINE):
                room.until(STATUS, ONLINE)
            lines.next("upsd: UPS su700: driver lost")
            ensure(lines.count(client_told) <= took + 2, "clients are told too often")
            expect(lines.count(driver_told), 1, "drivers that are disconnected")

    def test_dummy_without_memory(self):
        """dummy-ups says each time that it closes a link for lack of memory, and serves the next server."""
        once = os.path.join(self.folder, "arid")
        told = "dummy-ups: connection of the server closed: out of memory"
        with self.room() as room:
            # what a dump says is more than what has been said before
            room.write("su700.dev", DEVICE + b"".join(b"ambient.%d.status: x\n" % i for i in range(200)))
            path = room.path("dummy-ups-su700")
            driver = room.start([self.programs[1], room.path("su700.dev"), path], env=self.refusing_memory(once))
            lines = Lines(driver)
            with Client(path) as server:
                expect(server.ask(b"PING\n"), b"PONG\n", "before")
            open(once, "w").close()
            for _ in range(2):
                with Client(path) as server:
                    server.send(b"DUMPALL\n")
                    ensure(server.is_closed(), "a server whose dump finds no memory")
                lines.next(told)
            os.remove(once)
            with Client(path) as server:
                server.send(b"DUMPALL\n")
                until(lambda: server.line() == b"DUMPDONE\n", "a dump")
            expect((lines.lines, driver.poll()), ([told] * 2, None), "what is told")

    def test_each_allocation_refused_in_turn(self):
        """A reload that is refused memory changes nothing, or a driver is dialled a second later. The next one succeeds."""
        many = ONE + b"".join(b"[u%d]\n" % i for i in range(8))
        refused, unmet, at = 0, 0, self.allocations_of_a_start()
        with futures.ThreadPoolExecutor(8) as pool:
            while unmet < UNMET:
                for met in pool.map(lambda at: self.reload_without(at, many), range(at, at + 8)):
                    refused += met is True
                    unmet = unmet + 1 if met is False else 0
                at += 8
        print(f"   {refused} reloads were refused memory, before allocation {at}")
        ensure(refused > 5, "hardly a reload was refused memory")

    def allocations_of_a_start(self):
        """Returns how many allocations a start takes, at least."""
        few, many = 0, 1 << 16
        with self.room() as room:
            while many - few > 1:
                at = (few + many) // 2
                env = refusal(self.shim, "allocation", at)
                upsd = room.start(room.command(), env=env)
                if "".join(first_lines(upsd, 1)).startswith("upsd: listening on "):
                    many = at
                else:
                    few = at
                upsd.kill()
                upsd.wait()
        return many

    def reload_without(self, at, ups):
        """Has upsd reload with one allocation refused. Returns whether the reload met the refusal, None if the start did."""
        env = refusal(self.shim, "allocation", at)
        with self.room() as room:
            room.dummy()
            room.dummy(ups="u7")
            upsd = room.start(room.command(), env=env)
            room.lines = Lines(upsd)
            until(lambda: upsd.poll() is not None or room.lines.count("upsd: UPS su700: driver connected"), f"allocation {at}: a start")
            if upsd.poll() is not None:
                expect(upsd.returncode, 1, f"allocation {at}: the status")
                return None
            found = room.reload(ups)
            met = not re.match("upsd: reloaded: UPS u0 added", found)
            if met:
                expect(room.lines.found_last(2), ["upsd: out of memory", KEPT], f"allocation {at}")
                ensure(room.reload().startswith("upsd: reloaded: UPS u0 added"), f"allocation {at}: the second reload")
            until(lambda: room.serves_all(9, [b"su700", b"u7"]), f"allocation {at}: UPSes are served, and drivers dialled")
            return met


if __name__ == "__main__":
    sys.exit(play(Tests, 2, "root and a C compiler run them", at_once=4))
