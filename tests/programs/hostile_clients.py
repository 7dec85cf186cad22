"""Has clients of upsd do what holds others up or exhausts a server, and stops and kills upsd and its drivers.

    python3 -m tests.programs.hostile_clients UPSD DUMMY_UPS

If a minute or more has to pass, upsd runs with a faster clock (tests/support/hasten.c), so a C compiler is needed."""

import contextlib
import errno
import fcntl
import functools
import os
import resource
import signal
import socket
import stat
import struct
import sys
import time

from tests.support.harness import build_library, built_without_proof, cannot_listen, cannot_read, ended_in_bytes, ensure, expect
from tests.support.harness import needs_proved_build, patience, play, processor_time, status_of
from tests.support.room import NOT_CONNECTED, ONLINE, NO_PINGS, SOON, STATUS, VERSION, Client, RoomTests
from tests.support.room import accepted, descriptors, said, stopped, until

# the default of MAXCONN
MOST = 256
# the longest table that a dummy driver tells: every byte of a value takes two in an answer
LONGEST = b"ups.status: OL\n" + b"".join(b"%s: %s\n" % (name, b'"' * 512) for name in [b"a", *(b"%s.%03d" % (b"x" * 60, i) for i in range(507))])
# a piece with a list of that table behind long answers to short lines
GREEDY = b"GET VAR su700 a\n" * 31 + b"LIST VAR su700\n"
# what the server takes at most if every client sends that and takes nothing: for each the longest list, 64 KiB
# beyond it, and some room
GREEDY_MAX_KIB = MOST * (570 + 64 + 32)
# a table whose list has 27 KB
LONG = b"ups.status: OL\n" + b"".join(b"ambient.%d.status: %s\n" % (i, b"x" * 100) for i in range(200))
END_OF_LIST = b"END LIST VAR su700\n"
STALE = b"ERR DATA-STALE\n"
SILENT = "upsd: client 127.0.0.1 closed: silent for {} s"
FULL = "upsd: client refused: MAXCONN {} is reached, and all clients are logged in"
MADE_WAY = "upsd: client 127.0.0.1 closed for another: not logged in, and MAXCONN {} is reached"
LOG_IN = b"USERNAME mon\nPASSWORD m1\nLOGIN su700\n"
# why a driver can't listen where another one does, or is about to
IN_USE = "another driver listens there"
LOCKED = "another driver is about to listen there"
# the mode of a driver's socket
SHARED = 0o660


def resident(pid):
    """Returns the resident memory of a process in KiB."""
    return int(status_of(pid)["VmRSS"].split()[0])


def probed(port):
    """Returns after how many seconds the system will probe the peers of the connections to a port of this machine."""
    found = []
    with open("/proc/net/tcp") as table:
        for _, local, _, state, _, timer, *_ in map(str.split, table.readlines()[1:]):
            kind, at = timer.split(":")
            if int(local.split(":")[1], 16) == port and state == "01" and kind == "02":
                found.append(int(at, 16) / os.sysconf("SC_CLK_TCK"))
    return found


def is_quiet(pid):
    """Whether a process does nothing for a while."""
    used = processor_time(pid)
    time.sleep(0.5)
    return processor_time(pid) - used < patience(0.1)


def mode_of(path):
    """Returns who may connect to a socket, as the bits of a mode."""
    return stat.S_IMODE(os.stat(path).st_mode)


class Hostile(Client):
    """A client that reads nothing. Its buffers are small, and because of its short segments so are those of the server."""

    def __init__(self, room, request):
        self.socket = socket.socket()
        self.socket.setsockopt(socket.SOL_SOCKET, socket.SO_RCVBUF, 2048)
        self.socket.setsockopt(socket.IPPROTO_TCP, socket.TCP_MAXSEG, 536)
        self.socket.settimeout(SOON)
        self.socket.connect((room.host, room.port))
        self.file = self.socket.makefile("rb")
        self.send(request)


def end(process):
    """Kills a process, and waits for its end."""
    process.kill()
    process.wait()


@contextlib.contextmanager
def closing(clients):
    """Closes the clients of a list at the end."""
    try:
        yield clients
    finally:
        for client in clients:
            client.close()


class Tests(RoomTests):
    @functools.cached_property
    def library(self):
        """The library that hastens a clock, which the first test that needs it builds."""
        return build_library("hasten", self.folder)

    def hastened(self, room, haste, **settings):
        """Starts upsd with a clock that runs this many times as fast."""
        env = {**os.environ, "LD_PRELOAD": self.library, "HASTE": str(haste), **settings}
        return room.upsd(env=env)

    def test_as_many_as_there_may_be_never_read(self):
        needs_proved_build("how fast hundreds of clients are answered")
        with self.room() as room:
            _, upsd = room.online(device=LONG)
            with closing([Hostile(room, b"LIST VAR su700\n" * 10) for _ in range(MOST)]) as clients:
                # each is answered until its buffers are full, and then none takes anything
                until(lambda: is_quiet(upsd.pid), "a server whose clients don't read has nothing to do", 60)
                for client in clients:
                    client.send(b"LIST VAR su700\n" * 10)
                until(lambda: is_quiet(upsd.pid), "it has nothing to do again", 60)
                expect(upsd.poll(), None, "a server whose clients don't read")
                clients[0].read_to(END_OF_LIST, times=20)
                expect(clients[0].ask(b"VER\n"), VERSION, "one that reads at last")
            until(room.serves, "a new client is served")

    def test_what_is_kept_for_greedy_clients(self):
        needs_proved_build("how much memory is taken")
        with self.room() as room:
            _, upsd = room.online(device=LONGEST)
            with closing([Hostile(room, GREEDY * 2) for _ in range(MOST - 1)]):
                with room.client() as client:
                    client.socket.settimeout(60)
                    expect(client.ask(STATUS), ONLINE, "beside greedy clients")
                    until(lambda: is_quiet(upsd.pid), "nothing is left to do for clients that take nothing", 60)
                    ensure(GREEDY_MAX_KIB // 2 < resident(upsd.pid) < GREEDY_MAX_KIB, f"{resident(upsd.pid)} KiB are resident")
                    listed = client.list(b"LIST VAR su700\n")
                    expect(len(listed), 511, "the lines of the longest list")

    def test_lists_in_one_piece(self):
        """What is held back of a piece is answered in order, however the piece is cut and whatever comes between."""
        asked = b"VER\nlist UPS\n\nGET UPSDESC su700\n \"LIST\" UPS\n#\nL\nVER\n"
        answer = [b"BEGIN LIST UPS\n", b'UPS su700 "Server room"\n', b"END LIST UPS\n"]
        desc = b'UPSDESC su700 "Server room"\n'
        wanted = [VERSION, *answer, desc, *answer, b"ERR UNKNOWN-COMMAND\n", VERSION]
        with self.room() as room:
            room.upsd()
            for cut in range(0, len(asked), 3):
                with room.client() as client:
                    client.socket.setsockopt(socket.IPPROTO_TCP, socket.TCP_NODELAY, 1)
                    client.send(asked[:cut])
                    client.send(asked[cut:])
                    expect([client.line() for _ in wanted], wanted, f"cut at {cut}")
            with room.client() as client:
                client.send(asked * 40)
                client.socket.shutdown(socket.SHUT_WR)
                expect(client.file.read(), b"".join(wanted * 40), "all at once, and the end behind them")

    def test_what_is_held_of_clients_that_come_and_go(self):
        """Each is answered what it asked, in order, whoever has gone or come while its requests were held back."""

        def asking_of(i):
            request = b"LIST VAR su700\n" * 10 + b"GET VAR su700 ambient.%d.status\n" % i
            return leaving.enter_context(contextlib.closing(Hostile(room, request)))

        with self.room() as room:
            _, upsd = room.online(device=LONG)
            with contextlib.ExitStack() as leaving:
                asking = {i: asking_of(i) for i in range(60)}
                for first in range(3):
                    until(lambda: is_quiet(upsd.pid), "all wait for a reader")
                    for i in [i for i in asking if i % 3 == first]:
                        asking.pop(i).close()
                    until(lambda: is_quiet(upsd.pid), "the server has noticed who has gone")
                    for i in range(60 + 20 * first, 80 + 20 * first):
                        asking[i] = asking_of(i)
                for i, client in asking.items():
                    client.read_to(END_OF_LIST, times=10)
                    expect(client.line(), b'VAR su700 ambient.%d.status "%s"\n' % (i, b"x" * 100), f"client {i}")

    def test_silent_clients(self):
        """A minute of the server's clock lasts four seconds here."""
        with self.room() as room:
            upsd = self.hastened(room, 15)
            begun = time.monotonic()
            with closing([room.client() for _ in range(MOST - 1)]) as clients, room.client() as speaker:
                expect(speaker.ask(b"VER\n"), VERSION, "a client that speaks")
                with room.client() as more:
                    expect(more.ask(b"VER\n"), VERSION, "one more than there may be")
                ensure(clients[0].is_closed(), "the one that came first makes way")
                drip = clients[1]
                waiting = clients[1:]
                while waiting and time.monotonic() < begun + 60:
                    expect(speaker.ask(b"VER\n"), VERSION, "a client that speaks all the time")
                    with contextlib.suppress(OSError):
                        drip.send(b"V")
                    waiting = [client for client in waiting if not self.has_ended(client)]
                    time.sleep(0.2)
                took = (time.monotonic() - begun) * 15
                expect(len(waiting), 0, "silent clients, one with a byte now and then, that are there after 15 minutes")
                ensure(took > 59, f"silent clients were closed after {took:.0f} s")
                expect(room.serves(), True, "a new client is served")
                expect(speaker.ask(b"VER\n"), VERSION, "a client that spoke all the time")
            told = [line for line in said(upsd) if "client" in line]
            expect(told, [MADE_WAY.format(MOST)] + [SILENT.format(60)] * (MOST - 2), "what is told of it")

    def test_strangers_lock_no_monitor_out(self):
        """Strangers hold all places, and send an empty line now and then. Each that calls again makes way for the next."""
        with self.room(conf=b"MAXCONN 4\n") as room:
            room.upsd()
            with closing([room.client() for _ in range(4)]) as strangers:
                for stranger in strangers:
                    expect(stranger.ask(b"\nVER\n"), VERSION, "a stranger")
                with room.logged_in() as monitor:
                    for made_way in range(20):
                        strangers.append(room.client())
                        expect(strangers[-1].ask(b"\nVER\n"), VERSION, "a stranger that calls again")
                        ensure(strangers[made_way + 1].is_closed(), "the stranger that was there for longest makes way")
                        expect(monitor.ask(b"VER\n"), VERSION, "a monitor that is logged in")
                ensure(strangers[0].is_closed(), "the first made way for the monitor")

    def test_who_makes_way(self):
        """A client with a wrong password, then one without a name, then one with the right name and password; nobody who is
        logged in."""
        with self.room(conf=b"MAXCONN 4\n") as room:
            lines = room.serve("-q")
            with contextlib.ExitStack() as stack:
                there = [stack.enter_context(room.logged_in())]
                known, wrong, nameless = (stack.enter_context(room.client()) for _ in range(3))
                known.log_in()
                wrong.log_in(b"admin", b"wrong")
                expect(nameless.ask(b"VER\n"), VERSION, "a client that gives no name")
                for who, gone in (("a wrong password", wrong), ("no name", nameless), ("the right password", known)):
                    there.append(stack.enter_context(room.logged_in()))
                    ensure(gone.is_closed(), f"a client with {who} makes way")
                    for client in there if gone is known else [*there, known]:
                        expect(client.ask(b"VER\n"), VERSION, f"another client, once that with {who} has made way")

                def is_told():
                    with room.client() as more:
                        ensure(more.is_closed(), "a client is let in though all places are taken by logins")
                    return lines.count(FULL.format(4))

                until(is_told, "a refusal is told")
                for client in there:
                    expect(client.ask(b"VER\n"), VERSION, "one that is logged in")
            until(room.serves, "the others have gone")

    def test_who_asks_stays(self):
        """A client that asks each five seconds, whoever calls meanwhile and says nothing; and of those that ask the one that was heard
        last."""
        with self.room() as room:
            room.upsd("-q")
            with room.client() as dashboard, closing([]) as strangers:
                for _ in range(2):
                    expect(dashboard.ask(b"VER\n"), VERSION, "a client that asks")
                    strangers += [room.client() for _ in range(MOST)]
                    time.sleep(5)
                until(lambda: sum(map(self.has_ended, strangers)) == MOST + 1, "as many as it takes have made way", 60)
                expect(dashboard.ask(b"VER\n"), VERSION, "a client that asks each five seconds")
                gone = [i for i, it in enumerate(strangers) if self.has_ended(it)]
                expect(gone, list(range(MOST + 1)), "who has made way: the first of those that say nothing")
        with self.room(conf=b"MAXCONN 4\n") as room:
            room.upsd("-q")
            with contextlib.ExitStack() as stack:
                there = [stack.enter_context(room.client()) for _ in range(4)]
                for client in there:
                    expect(client.ask(b"VER\n"), VERSION, "a client that asks")
                # a second is over for each
                time.sleep(2.2)
                for client in (there[0], there[2], there[3]):
                    expect(client.ask(b"VER\n"), VERSION, "a client that asks again")
                expect(stack.enter_context(room.client()).ask(b"VER\n"), VERSION, "one more")
                ensure(there[1].is_closed(), "the one that was silent for longest makes way")
                for client in (there[0], there[2], there[3]):
                    expect(client.ask(b"VER\n"), VERSION, "another")

    def test_what_is_told_of_those_that_make_way(self):
        with self.room(conf=b"MAXCONN 4\n") as room:
            upsd, begun = room.upsd("-q"), time.monotonic()
            before = descriptors(upsd.pid)
            with closing([]) as clients:
                for _ in range(500):
                    clients.append(room.client())
                    expect(clients[-1].ask(b"VER\n"), VERSION, "a client that calls")
                    if len(clients) > 4:
                        # it has made way, and is closed here only now
                        clients.pop(0).close()
                ensure(descriptors(upsd.pid) <= before + 5, "those that made way leave no descriptor")
            took = time.monotonic() - begun
            told = said(upsd)
            expect(set(told), {MADE_WAY.format(4)}, "what is told")
            ensure(len(told) <= took + 2, f"{len(told)} lines in {took:.1f} s")

    def test_silent_login(self):
        """Ten minutes of the server's clock last twelve seconds here."""
        with self.room(conf=NO_PINGS) as room:
            room.dummy()
            upsd = self.hastened(room, 50)
            begun = time.monotonic()

            def called():
                # one that hasn't logged in is closed after little more than a second, so it asks before it is let in
                with stopped(upsd):
                    client = room.client()
                    client.send(LOG_IN)
                return client

            with called() as silent, called() as speaker:
                for client in (silent, speaker):
                    expect([client.line() for _ in range(3)], [b"OK\n"] * 3, "a login")
                until(lambda: speaker.ask(b"GET NUMLOGINS su700\n") == b"NUMLOGINS su700 2\n", "both count")
                while True:
                    counted = speaker.ask(b"GET NUMLOGINS su700\n")
                    if self.has_ended(silent):
                        break
                    expect(counted, b"NUMLOGINS su700 2\n", "both count")
                    ensure(time.monotonic() < begun + 75, "a login that is silent is there for an hour and more")
                    time.sleep(0.1)
                took = (time.monotonic() - begun) * 50
                ensure(took > 599, f"a login was ended after {took:.0f} s of silence")
                expect(speaker.ask(b"GET NUMLOGINS su700\n"), b"NUMLOGINS su700 1\n", "one still counts")
            told = said(upsd)
            ensure(SILENT.format(600) in told, f"what is told of it: {told}")
            ended = "upsd: UPS su700: connection of mon@127.0.0.1 ended without LOGOUT"
            expect(told[told.index(SILENT.format(600)) + 1], ended, "what is told of its login")

    @staticmethod
    def has_ended(client):
        """Whether the other end has closed by now."""
        client.socket.setblocking(False)
        try:
            return client.is_closed()
        except BlockingIOError:
            return False
        finally:
            client.socket.settimeout(SOON)

    def test_peers_are_probed(self):
        with self.room() as room:
            room.upsd()
            with room.client() as client:
                expect(client.ask(b"VER\n"), VERSION, "a client")
                (after,) = until(lambda: probed(room.port), "the client's peer is to be probed")
                ensure(after <= 60.1, f"it is probed after {after} s")

    def test_urgent_data(self):
        with self.room() as room:
            upsd = room.upsd()
            with room.client() as client, room.client() as other:
                expect(client.ask(b"VER\n"), VERSION, "a client")
                with stopped(upsd):
                    client.send(b"VER\nVE")
                    client.socket.send(b"!", socket.MSG_OOB)
                    client.send(b"R\nVER\n")
                    other.send(b"VER\n")
                expect([client.line() for _ in range(3)], [VERSION] * 3, "before and behind urgent data")
                expect(other.line(), VERSION, "another client")
                for _ in range(20):
                    client.send(b"VE")
                    client.socket.send(b"!", socket.MSG_OOB)
                    expect(client.ask(b"R\n"), VERSION, "urgent data again")

    def test_clients_that_are_gone_before_they_come_in(self):
        """A second of the server's clock lasts a minute here: the next client doesn't wait that long."""
        with self.room() as room:
            upsd = self.hastened(room, 1 / 60, ABORTED_ACCEPTS="3")
            with stopped(upsd):
                gone = [room.client() for _ in range(2)]
                last = room.client()
            with closing([*gone, last]):
                expect(last.ask(b"VER\n"), VERSION, "the one behind them")
                for client in gone:
                    ensure(client.is_closed(), "a client that couldn't come in")

    def test_stopped_server(self):
        """The server is stopped for many times MAXAGE: what was waiting in its driver's socket is fresh, if there was
        anything."""
        with self.room(conf=b"MAXAGE 6\n") as room, room.driver() as listener:
            upsd = self.hastened(room, 20)
            with accepted(listener) as driver, room.client() as client:
                room.until_heard(driver)
                with stopped(upsd):
                    client.send(STATUS)
                    driver.sendall(b'SETINFO ups.status "OB"\n')
                    time.sleep(1)
                expect(client.line(), b'VAR su700 ups.status "OB"\n', "what the driver told meanwhile")
                with stopped(upsd):
                    client.send(STATUS)
                    time.sleep(1)
                expect(client.line(), STALE, "of a driver that says nothing")

    def test_stopped_server_asks_its_driver(self):
        with self.room(conf=b"MAXAGE 1\n") as room:
            _, upsd = room.online()
            with room.client() as client:
                with stopped(upsd):
                    client.send(STATUS)
                    time.sleep(3.5)
                expect(client.line(), ONLINE, "of a driver that answers when it is asked")

    def test_server_that_is_ended(self):
        with self.room() as room:
            _, upsd = room.online()
            with closing([room.client() for _ in range(20)]) as clients:
                for client in clients:
                    expect(client.ask(b"VER\n"), VERSION, "a client")
                upsd.terminate()
                expect(upsd.wait(SOON), -signal.SIGTERM, "how it ends")
                for client in clients:
                    ensure(client.is_closed(), "a connection outlives the server")
            # its address is available again, and the driver serves the next one
            room.upsd()
            room.until(STATUS, ONLINE)

    def test_connections_in_turn(self):
        needs_proved_build("how much memory is taken")
        with self.room() as room:
            upsd = room.upsd()
            address = (room.host, room.port)
            reset = struct.pack("ii", 1, 0)
            before = None
            for i in range(20_000):
                with socket.create_connection(address, SOON) as client:
                    # no port is kept back, so that there are enough of them
                    client.setsockopt(socket.SOL_SOCKET, socket.SO_LINGER, reset)
                    client.sendall(b"VER\n")
                    expect(client.recv(100), VERSION, "one after the other")
                if i == 1000:
                    before = resident(upsd.pid)
            until(lambda: descriptors(upsd.pid) < 12, "no descriptor is left")
            grown = resident(upsd.pid) - before
            ensure(grown < 1024, f"{grown} KiB more are resident")

    def expect_refused(self, room, path, why, what, **options):
        """Expects that a driver can't listen at a socket, for this reason."""
        found = ended_in_bytes([room.dummy_program, room.path("su700.dev"), path], **options)
        expect(found, (1, b"", cannot_listen("dummy-ups", path, why).encode()), what)

    def expect_pong(self, path, what):
        """Expects that a driver listens at a socket, and answers."""
        with Client(path) as server:
            expect(server.ask(b"PING\n"), b"PONG\n", what)

    def test_two_drivers_at_one_socket(self):
        with self.room() as room:
            first = room.dummy()
            path = room.path("dummy-ups-su700")
            self.expect_pong(path, "the first driver")
            until(lambda: mode_of(path) == SHARED, "its user and its group may connect, and nobody else")
            for _ in range(2):
                self.expect_refused(room, path, IN_USE, "a second driver")
            # one that can't find out whether a driver listens there, for lack of descriptors, leaves the socket alone
            few = (6, resource.getrlimit(resource.RLIMIT_NOFILE)[1])
            limit = {"preexec_fn": lambda: resource.setrlimit(resource.RLIMIT_NOFILE, few)}
            self.expect_refused(room, path, errno.EMFILE, "a second driver without descriptors", **limit)
            room.upsd()
            room.until(STATUS, ONLINE)
            end(first)
            room.until(STATUS, NOT_CONNECTED)
            ensure(os.path.exists(path), "a driver that is killed leaves its socket behind")
            room.dummy()
            room.until(STATUS, ONLINE)

    def drivers_at(self, room, path, count):
        """Starts as many drivers at a socket at once. Returns the one that serves there, once the others have ended."""
        drivers = [room.start([room.dummy_program, room.path("su700.dev"), path]) for _ in range(count)]
        until(lambda: sum(it.poll() is None for it in drivers) <= 1, f"one of {count} drivers is left")
        (left,) = [it for it in drivers if it.poll() is None]
        drivers.remove(left)
        told = {cannot_listen("dummy-ups", path, it).encode() for it in (IN_USE, LOCKED)}
        for driver in drivers:
            said_last = driver.stderr.read()
            ensure(driver.returncode == 1 and said_last in told, f"one that doesn't serve says {said_last}")
        return left

    def test_drivers_that_begin_at_once(self):
        with self.room() as room:
            room.write("su700.dev", b"ups.status: OL\n")
            path = room.path("socket")
            for i in range(4 if built_without_proof() else 20):
                # where nothing is, where a driver was killed, and where an empty file is
                if i % 4 >= 2:
                    os.remove(path)
                if i % 4 == 3:
                    room.write("socket", b"")
                driver = self.drivers_at(room, path, 6)
                self.expect_pong(path, "the one that is left")
                end(driver)
                ensure(not os.path.exists(f"{path}.lock"), "a lock file is left behind")

    def held_up(self, room, path, call, mask=0o077):
        """Starts a driver at a socket that stands still after its next call of this kind, until the file `hold` is removed."""
        room.write("hold", b"")
        env = {**os.environ, "LD_PRELOAD": self.shim, "HOLD": call, "HOLD_WHILE": room.path("hold")}
        driver = room.start([room.dummy_program, room.path("su700.dev"), path], env=env, preexec_fn=lambda: os.umask(mask))
        until(lambda: os.path.exists(f"{path}.lock"), "a driver begins")
        return driver

    def test_drivers_that_are_held_up(self):
        with self.room() as room:
            room.write("su700.dev", b"ups.status: OL\n")
            path = room.path("socket")
            for call in ("connect", "bind"):
                # one looks at what a driver left, or has bound and doesn't listen yet
                room.listener("socket").close()
                first = self.held_up(room, path, call)
                for _ in range(2):
                    self.expect_refused(room, path, LOCKED, f"a second driver while one is held at {call}")
                os.remove(room.path("hold"))
                self.expect_pong(path, f"a driver that was held at {call}")
                end(first)
                # one that is killed there leaves nothing that holds up the next
                os.remove(path)
                room.listener("socket").close()
                end(self.held_up(room, path, call))
                os.remove(room.path("hold"))
                self.drivers_at(room, path, 2).kill()
                os.remove(path)

    def test_lock_of_a_socket(self):
        with self.room() as room:
            path = room.path("dummy-ups-su700")
            locked = cannot_listen("dummy-ups", path, LOCKED).encode()
            with open(f"{path}.lock", "w") as file:
                fcntl.flock(file, fcntl.LOCK_EX)
                driver = room.dummy()
                expect((driver.wait(SOON), driver.stderr.read()), (1, locked), "a driver without the lock")
                # a file that holds something is another's, and stays
                file.write("of value")
            room.dummy()
            self.expect_pong(path, "a driver with the lock")
            with open(f"{path}.lock") as file:
                expect(file.read(), "of value", "a file that has the name of a lock")

    def test_mode_of_a_socket(self):
        with self.room() as room:
            room.write("su700.dev", b"ups.status: OL\n")
            for mask in (0, 0o022, 0o077, 0o777):
                path = room.path(f"socket-{mask}")
                driver = self.held_up(room, path, "bind", mask)
                until(lambda: os.path.exists(path), "a driver has bound its socket")
                expect(mode_of(path) & ~SHARED, 0, f"more than a socket may ever allow, with the umask {mask:o}")
                with socket.socket(socket.AF_UNIX) as early:
                    expect(early.connect_ex(path), errno.ECONNREFUSED, "a server before the mode is set")
                os.remove(room.path("hold"))
                until(lambda: mode_of(path) == SHARED, f"the mode of a socket, with the umask {mask:o}")
                driver.kill()

    def test_no_watch_is_left(self):
        """A program that can't wait for its sockets says so before it ends."""
        with self.room() as room:
            env = {**os.environ, "LD_PRELOAD": self.shim, "REFUSE": "watch"}
            room.write("su700.dev", b"ups.status: OL\n")
            for words, told in (
                ([room.dummy_program, room.path("su700.dev"), room.path("socket")], b"dummy-ups: I/O failed\n"),
                (room.command("-q"), b"upsd: I/O failed\n"),
            ):
                status, _, err = ended_in_bytes(words, env=env)
                ensure(status == 1 and err.endswith(told), f"{words[0]} ends with {status} and {err}")

    def test_files_that_are_no_scripts(self):
        path = os.path.join(self.folder, "endless.dev")
        at = os.path.join(self.folder, "no-socket")
        not_plain = cannot_read("dummy-ups", path, path, "not a plain file")
        for make, said in (
            (lambda: os.symlink("/dev/zero", path), not_plain),
            (lambda: os.mkfifo(path), not_plain),
            (lambda: os.mkdir(path), not_plain),
            # a file of this length that takes no space
            (lambda: (open(path, "wb").close(), os.truncate(path, 1 << 34)), f"dummy-ups: {path}: more than 16777216 bytes\n"),
        ):
            make()
            expect(ended_in_bytes([self.programs[1], path, at]), (1, b"", said.encode()), said)
            os.rmdir(path) if os.path.isdir(path) else os.remove(path)
        ensure(not os.path.exists(at), "a socket was made")


if __name__ == "__main__":
    # as many clients as are allowed, and what else is open
    resource.setrlimit(resource.RLIMIT_NOFILE, (1024, resource.getrlimit(resource.RLIMIT_NOFILE)[1]))
    sys.exit(play(Tests, 2, "they need a C compiler"))
