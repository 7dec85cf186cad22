"""What upsd tells its operator of clients and drivers: who set a variable, gave a command, forced a shutdown, logged in and out,
who was refused, and which lines of a driver can't be read.

    python3 -m tests.programs.upsd_audit UPSD DUMMY_UPS"""

import re
import signal
import socket
import struct
import sys
import time

from tests.support.harness import ensure, expect, play
from tests.support.room import Client, ONLINE, Room, RoomTests, NO_PINGS, STATUS, play_driver, stopped, until

UPS = "upsd: UPS su700: "
ADMIN, MON = "admin@127.0.0.1", "mon@127.0.0.1"
SET_ID = f"{UPS}{ADMIN} asked the driver to set ups.id"
RUN_OFF = f"{UPS}{ADMIN} asked the driver to run load.off"
FORCED = f"{UPS}shutdown is forced (FSD) by {MON}"
LOGGED_IN, LOGGED_OUT = f"{UPS}{MON} logged in", f"{UPS}{MON} logged out"
LEFT = f"{UPS}connection of {MON} ended without LOGOUT"
UNREAD = "%sunreadable line about {} from the driver" % UPS

# what a driver tells of a UPS that is on line
ON_LINE = b'SETINFO ups.status "OL"'

# passwords and values that show nowhere else
USERS = (
    b"[admin]\npassword = first-pass\nactions = SET\ninstcmds = ALL\n"
    b"[mon]\npassword = second-pass\nupsmon primary\n"
)
SECRETS = ("first-pass", "second-pass", "wrong-pass", "mistyped", "hidden-value", "hidden-parameter")

# the lines that tell of clients, and those that are told of refusals
OF_CLIENTS = re.compile(r".*( asked the driver to |\(FSD\)| logged (in|out)$|without LOGOUT$|: access denied )")
REFUSED = re.compile(r"upsd: (?:client|clients at other) (\S+): access denied .*\((\d+) requests?\)$")


class Source(Client):
    """A client that connects from an address of its own."""

    def __init__(self, room, address):
        self.socket = socket.create_connection((room.host, room.port), 10, (address, 0))
        self.file = self.socket.makefile("rb")


class Audited(Room):
    """A room whose passwords show nowhere else."""

    mon = b"second-pass"

    def __init__(self, *programs_and_folder, **texts):
        super().__init__(*programs_and_folder, **texts)
        self.write("upsd.users", USERS)

    def known(self, name, password):
        """Returns a new client that has given a name and a password."""
        client = self.client()
        client.log_in(name, password)
        return client

    def admin(self):
        return self.known(b"admin", b"first-pass")

    def monitor(self):
        return self.known(b"mon", self.mon)

    def told(self):
        """Returns the lines that tell of clients."""
        return [line for line in self.lines.lines if OF_CLIENTS.match(line)]

    def expect_told(self, wanted, what):
        """Waits until as many lines tell of clients, and compares them. No secret may show."""
        until(lambda: len(self.told()) >= len(wanted), f"{what}: {wanted} in {self.lines.lines}")
        expect(self.told(), wanted, what)
        for secret in SECRETS:
            ensure(not any(secret in line for line in self.lines.lines), f"{what}: {secret} shows in {self.lines.lines}")


def settable(most):
    """Returns what a driver tells of ups.id, which may be set to so many bytes."""
    return b'SETINFO ups.id "x"', b"SETFLAGS ups.id RW STRING", b"SETAUX ups.id %d" % most


def refusals(lines):
    """Returns the address and the count of each line that tells of refusals, in turn."""
    found = [REFUSED.match(line) for line in lines]
    return [(it[1], int(it[2])) for it in found if it]


class Tests(RoomTests):
    kind = Audited

    def test_what_changes_something(self):
        """Each request that a driver is handed, whether or not the reports are to be quiet."""
        for words in ((), ("-q",)):
            with self.room() as room:
                driver, _ = room.online(*words)
                with room.admin() as client:
                    expect(client.ask(b"SET VAR su700 ups.id hidden-value\n"), b"OK\n", "SET")
                    expect(client.ask(b"INSTCMD su700 load.off\n"), b"OK\n", "INSTCMD")
                    expect(client.ask(b"INSTCMD su700 load.off hidden-parameter\n"), b"OK\n", "INSTCMD with a parameter")
                    client.track()
                    expect(client.ask(b"SET VAR su700 ups.id hidden-value\n"), b"OK TRACKING 1\n", "SET that is tracked")
                    # a driver that is slow to take it has been handed it all the same
                    with stopped(driver):
                        expect(client.ask(b"INSTCMD su700 load.off\n"), b"OK TRACKING 2\n", "INSTCMD to a driver that stands still")
                        room.expect_told([SET_ID, RUN_OFF, RUN_OFF, SET_ID, RUN_OFF], f"with {words}")

    def test_it_is_told_at_once(self):
        with self.room() as room:
            room.online()
            with room.admin() as client:
                begun = time.monotonic()
                for i in range(1, 21):
                    expect(client.ask(b"SET VAR su700 ups.id %d\n" % i), b"OK\n", "SET")
                    until(lambda: room.lines.count(SET_ID) == i, f"line {i}", pause=0.001)
                took = time.monotonic() - begun
                ensure(took < 10, f"20 requests were told one after the other in {took:.1f} s, as if each waited for the next second")

    def test_what_is_refused_is_not_told_as_done(self):
        with self.room() as room:
            driver, _ = room.online()
            with room.admin() as client:
                for request, answer in (
                    (b"SET VAR su700 ups.status x\n", b"ERR READONLY\n"),
                    (b"SET VAR su700 no.such x\n", b"ERR VAR-NOT-SUPPORTED\n"),
                    (b"SET VAR none ups.id x\n", b"ERR UNKNOWN-UPS\n"),
                    (b"SET VAR su700 ups.id\n", b"ERR INVALID-ARGUMENT\n"),
                    (b"INSTCMD su700 no.such\n", b"ERR CMD-NOT-SUPPORTED\n"),
                    (b"SET TRACKING ON\n", b"OK\n"),
                    (b"PRIMARY none\n", b"ERR UNKNOWN-UPS\n"),
                    (b"LOGOUT now\n", b"ERR INVALID-ARGUMENT\n"),
                ):
                    expect(client.ask(request), answer, f"{request}")
                driver.kill()
                until(lambda: client.ask(STATUS) == b"ERR DRIVER-NOT-CONNECTED\n", "no driver")
                expect(client.ask(b"SET VAR su700 ups.id x\n"), b"ERR DRIVER-NOT-CONNECTED\n", "SET without a driver")
            with room.client() as client:
                expect(client.ask(b"FSD su700\n"), b"ERR USERNAME-REQUIRED\n", "FSD without a name")
            with room.monitor() as client:
                expect(client.ask(b"LOGIN none\n"), b"ERR UNKNOWN-UPS\n", "LOGIN")
            time.sleep(1.5)
            room.expect_told([], "refused requests")

    def test_a_full_queue(self):
        with self.room(conf=NO_PINGS) as room, room.driver() as listener:
            room.serve()
            with play_driver(listener, *settable(512)):
                room.until(b"GET VAR su700 ups.id\n", b'VAR su700 ups.id "x"\n')
                with room.admin() as client:
                    request, answers = b"SET VAR su700 ups.id " + b"y" * 512 + b"\n", []
                    while answers[-3:] != [b"ERR SET-FAILED\n"] * 3:
                        answers.append(client.ask(request))
                    room.expect_told([SET_ID] * answers.count(b"OK\n"), "a line for each that was taken, and none for the others")

    def test_logins(self):
        with self.room() as room:
            room.online()
            with room.logged_in() as client:
                expect(client.ask(b"LOGIN su700\n"), b"ERR ALREADY-LOGGED-IN\n", "LOGIN again")
                expect(client.ask(b"LOGOUT\n"), b"OK Goodbye\n", "LOGOUT")
                room.expect_told([LOGGED_IN, LOGGED_OUT], "LOGIN and LOGOUT")
            room.logged_in().close()
            room.expect_told([LOGGED_IN, LOGGED_OUT, LOGGED_IN, LEFT], "a connection that ends")
            with room.monitor() as client:
                expect(client.ask(b"LOGOUT\n"), b"OK Goodbye\n", "LOGOUT without LOGIN")
            with room.monitor() as client:
                expect(client.ask(b"VER\n")[:3], b"Net", "VER")
            time.sleep(0.5)
            room.expect_told([LOGGED_IN, LOGGED_OUT, LOGGED_IN, LEFT], "clients that weren't logged in")

    def test_connections_that_are_reset(self):
        """Whatever becomes of the answers, each LOGIN and its end is told, and LOGOUT as what it is."""
        with self.room() as room:
            room.online()
            wanted = []
            for last, end in ((b"", LEFT), (b"LOGOUT\n", LOGGED_OUT)):
                for _ in range(20):
                    client = room.logged_in()
                    # it is reset once it is closed
                    client.socket.setsockopt(socket.SOL_SOCKET, socket.SO_LINGER, struct.pack("ii", 1, 0))
                    client.send(b"VER\n" * 5 + last)
                    if last:
                        # what was sent arrives before the reset
                        room.lines.next(LOGGED_IN)
                        room.lines.next(LOGGED_OUT)
                    client.close()
                    wanted += [LOGGED_IN, end]
                    room.expect_told(wanted, f"reset after {last!r}")

    def test_clients_that_do_not_stay(self):
        """Clients that are gone before they are answered: each request that the driver gets is told, and no other."""
        with self.room(conf=NO_PINGS) as room, room.driver() as listener:
            room.serve()
            with play_driver(listener, ON_LINE, *settable(9)) as driver, driver.makefile("rb") as asked:
                room.until(STATUS, ONLINE)
                for i in range(40):
                    with room.client() as client:
                        client.send(b"USERNAME admin\nPASSWORD first-pass\nSET VAR su700 ups.id %d\n" % i + b"VER\n" * (i % 3))
                with room.admin() as client:
                    expect(client.ask(b"SET VAR su700 ups.id last\n"), b"OK\n", "the last")
                got = []
                while b'SET ups.id "last"\n' not in got:
                    got.append(asked.readline())
                time.sleep(0.5)
                wanted = [SET_ID] * sum(line.startswith(b"SET ") for line in got)
                room.expect_told(wanted, "what the driver got")
                ensure(len(wanted) > 1, "no client was heard in time")

    def test_clients_that_end_behind_their_requests(self):
        with self.room() as room:
            room.online()
            for _ in range(10):
                with room.client() as client:
                    client.send(b"USERNAME mon\nPASSWORD second-pass\nLOGIN su700\nLOGOUT\n")
                    client.socket.shutdown(socket.SHUT_WR)
                    expect(client.file.read(), b"OK\n" * 3 + b"OK Goodbye\n", "the answers")
            room.expect_told([LOGGED_IN, LOGGED_OUT] * 10, "LOGIN and LOGOUT in turn")

    def test_several_lines_at_once(self):
        done = (
            b"GET VAR su700 ups.id\n", b"SET VAR su700 ups.id hidden-value\n", b" \tset var su700 ups.id hidden-value\n",
            b'"SET" VAR su700 ups.id x\n', b"INSTCMD su700 load.off\n", b"instcmd su700 load.off\n", b"VER\n",
            b"SET VAR su700 ups.status x\n", b"SET VAR su700 ups.id x\n", b"LOGOUT\n",
        )
        watched = (b"GET VAR su700 ups.id\n", b"LOGIN su700\n", b"VER\n", b"FSD su700\n", b"\tFSD su700\n", b"LOGOUT\n", b"FSD su700\n")
        with self.room() as room:
            room.online()
            with room.client() as client:
                client.send(b"USERNAME admin\nPASSWORD first-pass\n" + b"".join(done))
                answers = client.file.read().splitlines()
                expect((len(answers), answers.count(b"OK"), answers[-1]), (12, 8, b"OK Goodbye"), "the answers")
            wanted = [SET_ID] * 3 + [RUN_OFF] * 2 + [SET_ID]
            room.expect_told(wanted, "requests at once")
            with room.client() as client:
                client.send(b"USERNAME mon\nPASSWORD second-pass\n" + b"".join(watched))
                expect(client.file.read().splitlines()[-1], b"OK Goodbye", "the answers of a monitor")
            room.expect_told([*wanted, LOGGED_IN, FORCED, LOGGED_OUT], "what a monitor does at once")

    def test_a_line_that_comes_byte_by_byte(self):
        with self.room() as room:
            room.online()
            with room.admin() as client:
                client.socket.setsockopt(socket.IPPROTO_TCP, socket.TCP_NODELAY, 1)
                for line in (b"SET VAR su700 ups.id hidden-value\n", b"INSTCMD su700 load.off\n"):
                    for byte in line:
                        client.send(bytes([byte]))
                        time.sleep(0.002)
                    expect(client.line(), b"OK\n", f"{line}")
                # cut into two pieces at each place
                line = b"INSTCMD su700 load.off\nSET VAR su700 ups.id x\n"
                for at in range(1, len(line)):
                    client.send(line[:at])
                    time.sleep(0.002)
                    client.send(line[at:])
                    expect([client.line(), client.line()], [b"OK\n"] * 2, f"{line}, cut at {at}")
            room.expect_told([SET_ID, RUN_OFF] + [RUN_OFF, SET_ID] * (len(line) - 1), "lines that were cut")

    def test_many_requests_at_once(self):
        """Requests between a great many others, in pieces that end anywhere."""
        with self.room(conf=NO_PINGS) as room:
            room.online()
            with room.admin() as client:
                part = b"VER\n" * 7 + b"INSTCMD su700 load.off\n" + b"GET VAR su700 ups.id\n" * 3 + b"SET VAR su700 ups.id x\n"
                for _ in range(20):
                    client.send(part * 5)
                    answers = [client.line() for _ in range(5 * 12)]
                    expect(answers.count(b"OK\n"), 10, f"{answers}")
            room.expect_told([RUN_OFF, SET_ID] * 100, "each in turn")

    def test_who_forced_a_shutdown(self):
        """Only the first FSD changes something, and has a line."""
        with self.room() as room:
            room.online()
            with room.monitor() as client:
                for _ in range(3):
                    expect(client.ask(b"FSD su700\n"), b"OK FSD-SET\n", "FSD")
            time.sleep(1.5)
            room.expect_told([FORCED], "FSD")

    def test_logins_are_not_told_to_the_quiet(self):
        with self.room() as room:
            room.online("-q")
            room.logged_in().close()
            with room.logged_in() as client:
                expect(client.ask(b"LOGOUT\n"), b"OK Goodbye\n", "LOGOUT")
            time.sleep(0.5)
            expect(room.lines.lines, [], "what is told")

    def test_a_reload_that_ends_logins(self):
        with self.room(ups=b"[su700]\n[other]\n") as room:
            room.online()
            clients = [room.logged_in() for _ in range(3)]
            room.write("ups.conf", b"[other]\n")
            room.write("reload", b"")
            for client in clients:
                ensure(client.is_closed(), "a client of a UPS that is gone")
                client.close()
            room.expect_told([LOGGED_IN] * 3 + [LEFT] * 3, "logins that a reload ends")

    def refuse(self, client, times):
        """Has requests of a client refused."""
        client.send(b"LOGIN su700\n" * times)
        expect([client.line() for _ in range(times)], [b"ERR ACCESS-DENIED\n"] * times, "LOGIN")

    def test_refused_passwords(self):
        """At most a line a second and address, the first at once, and all are counted."""
        for words in ((), ("-q",)):
            with self.room() as room:
                room.online(*words)
                begun = time.monotonic()
                with room.known(b"mon", b"wrong-pass") as client:
                    self.refuse(client, 50)
                    first = "upsd: client 127.0.0.1: access denied for user mon (1 request)"
                    expect(room.lines.next("upsd: client "), first, "the first")
                    for request in (b"PRIMARY su700", b"FSD su700", b"SET VAR su700 ups.id hidden-value", b"INSTCMD su700 load.off"):
                        expect(client.ask(request + b"\n"), b"ERR ACCESS-DENIED\n", f"{request}")
                until(lambda: sum(count for _, count in refusals(room.lines.lines)) >= 54, "all of them")
                took = time.monotonic() - begun
                # in a later second the next one is told at once again
                time.sleep(2.5)
                with room.known(b"mistyped", b"wrong-pass") as client:
                    self.refuse(client, 1)
                unknown = "upsd: client 127.0.0.1: access denied for an unknown user (1 request)"
                room.lines.next(unknown)
                found = refusals(room.lines.lines)
                expect(sum(count for _, count in found), 55, f"the sum of {found}")
                ensure(len(found) <= took + 3, f"{len(found)} lines in {took:.1f} s: {found}")
                ensure(not any("mistyped" in line or "-pass" in line for line in room.lines.lines), f"a secret shows: {room.lines.lines}")

    def test_refused_passwords_of_several_users(self):
        """Those of one second are told together: by the user's name if all are his, and else as those of several."""
        mon, admin = (b"mon", b"wrong-pass"), (b"admin", b"wrong-pass")
        for later, whose in (
            ((mon, mon), "user mon"),
            ((admin, mon), "several users"),
            (((b"no", b"x"), (b"nobody", b"x")), "an unknown user"),
        ):
            with self.room() as room:
                room.online()
                for name, password in (later[1], *later):
                    with room.known(name, password) as client:
                        self.refuse(client, 1)
                until(lambda: sum(count for _, count in refusals(room.lines.lines)) == 3, "all are counted")
                found = [line for line in room.lines.lines if ": access denied " in line]
                # the first is told at once, and the others mostly in the same second
                wanted = f"upsd: client 127.0.0.1: access denied for {whose} (2 requests)"
                ensure(len(found) == 3 or found[1] == wanted, f"what is told of {later}: {found}")

    def test_a_user_without_the_right(self):
        with self.room() as room:
            room.online()
            with room.monitor() as client:
                expect(client.ask(b"INSTCMD su700 load.off\n"), b"ERR ACCESS-DENIED\n", "INSTCMD of a monitor")
            room.expect_told(["upsd: client 127.0.0.1: access denied for user mon (1 request)"], "a user without the right")

    def test_refusals_of_many_addresses(self):
        """Each address has its own count, up to a number of addresses."""
        with self.room() as room:
            room.online()
            clients = [Source(room, f"127.0.1.{i}") for i in range(1, 41)]
            for client in clients:
                client.log_in(b"mon", b"wrong-pass")
            for client in clients:
                client.send(b"LOGIN su700\n")
            for client in clients:
                expect(client.line(), b"ERR ACCESS-DENIED\n", "LOGIN")
                client.close()
            until(lambda: sum(count for _, count in refusals(room.lines.lines)) == 40, "all are counted")
            found = refusals(room.lines.lines)
            others = sum(count for address, count in found if address == "addresses")
            ensure(others <= 8, f"{others} of 40 aren't told by their address: {found}")
            # nothing of them is left after some seconds
            time.sleep(2.5)
            with Source(room, "127.0.2.1") as client:
                client.log_in(b"mon", b"wrong-pass")
                self.refuse(client, 1)
            room.lines.next("upsd: client 127.0.2.1: access denied for user mon (1 request)")

    def test_lines_of_a_driver_that_cannot_be_read(self):
        """A value with a quote that isn't escaped: the earlier one stays until the driver connects again, and that is told once."""
        for words in ((), ("-q",)):
            with self.room(conf=NO_PINGS) as room, room.driver() as listener:
                room.serve(*words)
                with play_driver(listener, ON_LINE, b'SETINFO ups.id "old"') as driver:
                    room.until(STATUS, ONLINE)
                    for _ in range(2):
                        driver.sendall(b'SETINFO ups.id "hidden-value"b"\nSETINFO ups.model "" ""\n')
                        time.sleep(1.2)
                    driver.sendall(b'SETINFO ups.status "OB"\n')
                    room.until(STATUS, b'VAR su700 ups.status "OB"\n')
                    expect(room.ask(b"GET VAR su700 ups.id\n"), b'VAR su700 ups.id "old"\n', "the earlier value")
                with play_driver(listener, ON_LINE, b'SETINFO ups.id "a\\"b"') as driver:
                    room.until(b"GET VAR su700 ups.id\n", b'VAR su700 ups.id "a\\"b"\n')
                    driver.sendall(b'SETINFO ups.id "hidden-value"b"\n')
                    time.sleep(1.5)
                found = [line for line in room.lines.lines if "unreadable" in line]
                expect(found, [UNREAD.format("ups.id"), UNREAD.format("ups.model")], f"with {words}")
                ensure(not any("hidden-value" in line for line in room.lines.lines), f"a value shows: {room.lines.lines}")

    def test_many_lines_of_a_driver_that_cannot_be_read(self):
        nameless, more = f"{UPS}unreadable line from the driver", f"{UPS}unreadable lines about more than 8 variables from the driver"
        with self.room(conf=NO_PINGS) as room, room.driver() as listener:
            room.serve()
            with play_driver(listener, ON_LINE) as driver:
                room.until(STATUS, ONLINE)
                # what isn't known or blank, or needs no reading, is no matter
                driver.sendall(b"\n  \nNEWS of a later driver\nPONG\nDATAOK\n")
                time.sleep(1.2)
                # a control byte, a byte that isn't ASCII, a line that is too long, a name that is none
                driver.sendall(b'SETINFO ups.temperature "21 \xc2\xb0C"\n\x1b[2J\n' + b"x" * 3000 + b"\n")
                driver.sendall(b'SETINFO \x1b[2J "x"\nSETINFO "ups.mfr" "a"b"\n')
                until(lambda: room.lines.count(nameless) == 1, "a line without a name")
                for i in range(20):
                    driver.sendall(b'SETINFO outlet.%d.desc "a"b"\n' % i)
                until(lambda: room.lines.count(more) == 1, "more of them")
                driver.sendall(b'SETINFO outlet.99.desc "a"b"\n' * 1000)
                time.sleep(1.5)
            found = [line for line in room.lines.lines if "unreadable" in line]
            expect(found[:3], [UNREAD.format("ups.temperature"), nameless, UNREAD.format("outlet.0.desc")], "the first")
            expect((len(found), found[-1]), (9, more), f"a number of variables, and once that there are more: {found}")


if __name__ == "__main__":
    signal.signal(signal.SIGPIPE, signal.SIG_IGN)
    sys.exit(play(Tests, 2, at_once=4))
