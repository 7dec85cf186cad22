"""Starts upsd and dummy-ups on sockets of this machine, and plays their clients, a driver and a server.

    python3 -m tests.programs.upsd_sockets UPSD DUMMY_UPS UPSRW UPSCMD"""

import contextlib
import errno
import os
import resource
import select
import signal
import socket
import sys
import time
from concurrent import futures

from tests.support.harness import (
    NUTS_OPTIONS, Missing, apart, cannot_listen, cannot_read, ended_in_bytes, ensure, expect, expect_rest, play,
    read_bytes, write,
)
from tests.support.room import Client, DEVICE, Lines, NOT_CONNECTED, ONLINE, NO_PINGS, RoomTests, SOON, STATUS, VERSION
from tests.support.room import accepted, connected, family_of, first_lines, free_port, give_address, has_ipv6, heed_modes, play_driver
from tests.support.room import raise_loopback, said, stopped, until

# the setting of a network that keeps IPv4 out of a socket of IPv6
ONLY_IPV6 = "/proc/sys/net/ipv6/bindv6only"

# what upsd says at its start if it runs as root
AS_ROOT = "upsd: running as root, which only a port below 1024 needs"
# why dummy-ups can't listen where a file is of value, or where another one listens
NOT_A_SOCKET = "the file exists and is not a socket"
IN_USE = "another driver listens there"
# what a driver tells of a UPS that is on line
ON_LINE = b'SETINFO ups.status "OL"'

# LISTEN lines, where upsd listens then, and where clients are served: hosts, at another port than the room's if OTHER stands behind
LISTENERS_OF_IPV4 = (
    (["0.0.0.0"], ["0.0.0.0"], ["127.0.0.1", "127.0.0.2"]),
    (["127.0.0.1", "127.0.0.2 OTHER"], ["127.0.0.1", "127.0.0.2 OTHER"], ["127.0.0.1", "127.0.0.2 OTHER"]),
    # the same host at two ports
    (["127.0.0.1 OTHER", "0.0.0.0"], ["0.0.0.0", "127.0.0.1 OTHER"], ["127.0.0.1 OTHER", "127.0.0.1"]),
    # lines that add nothing: the same line twice, and one address beside every address, in either order
    (["127.0.0.1", "127.0.0.1"], ["127.0.0.1"], ["127.0.0.1"]),
    (["0.0.0.0", "0.0.0.0"], ["0.0.0.0"], ["127.0.0.1", "127.0.0.2"]),
    (["0.0.0.0", "127.0.0.1"], ["0.0.0.0"], ["127.0.0.1", "127.0.0.2"]),
    (["127.0.0.1", "0.0.0.0"], ["0.0.0.0"], ["127.0.0.1", "127.0.0.2"]),
    (["127.0.0.2", "127.0.0.1", "0.0.0.0", "127.0.0.2"], ["0.0.0.0"], ["127.0.0.1", "127.0.0.2"]),
)
# a listener at every address of IPv6 also serves those of IPv4, so lines for these beside it change nothing
LISTENERS_OF_IPV6 = (
    (["127.0.0.1", "::1"], ["127.0.0.1", "::1"], ["127.0.0.1", "::1"]),
    (["::1", "0.0.0.0"], ["0.0.0.0", "::1"], ["127.0.0.1", "::1"]),
    (["::1", "::1"], ["::1"], ["::1"]),
    (["::", "::"], ["::"], ["127.0.0.1", "::1"]),
    (["0.0.0.0", "::"], ["::"], ["127.0.0.1", "::1"]),
    (["::", "0.0.0.0"], ["::"], ["127.0.0.1", "::1"]),
    (["127.0.0.1", "::"], ["::"], ["127.0.0.1", "::1"]),
    (["127.0.0.1", "0.0.0.0", "::1", "0:0:0:0:0:0:0:0"], ["::"], ["127.0.0.1", "::1"]),
)


def with_hosts(folder, text=b""):
    """Returns the words that run a program which knows only the names in the file `hosts` of a folder, which has this text at first:
    it asks no name server."""
    paths = [os.path.join(folder, name) for name in ("hosts", "nsswitch.conf")]
    for path, content in zip(paths, (text, b"hosts: files\n")):
        write(path, content)
    mounts = 'mount --bind "$0" /etc/hosts && mount --bind "$1" /etc/nsswitch.conf && shift && exec "$@"'
    return apart("--mount", "sh", "-c", mounts, *paths)


def why(error):
    """Returns how programs say an error of the system's."""
    return f"{os.strerror(error)} (os error {error})"


def without_listener(host, port, reason):
    """Returns how an upsd ends that can't listen there: its status, and what it writes."""
    return 1, b"", cannot_listen("upsd", f"{host}:{port}", reason).encode()


def shown(host):
    """Returns an address as it stands before a port."""
    return f"[{host}]" if ":" in host else host


def needs_ipv6():
    if not has_ipv6():
        raise Missing("this machine has no IPv6")


def put_listeners(room, *hosts):
    """Has a room's upsd listen at these hosts alone, at the room's port."""
    room.write("upsd.conf", b"".join(b"LISTEN %b %d\n" % (host.encode(), room.port) for host in hosts))


def expect_served(*places):
    """Expects that a client is answered at each of these addresses."""
    for place in places:
        with until(lambda place=place: connected(place), f"upsd listens at {place}") as client:
            client.sendall(b"VER\n")
            expect(client.recv(100), VERSION, f"at {place}")


class Tests(RoomTests):
    def test_values(self):
        with self.room() as room:
            room.online()
            with room.client() as client:
                expect(client.ask(b"VER\n"), VERSION, "version")
                expect(client.ask(b"GET VAR su700 battery.charge\n"), b'VAR su700 battery.charge "100"\n', "a value")
                rows = [b'VAR su700 battery.charge "100"\n', b'VAR su700 ups.id "x"\n', ONLINE]
                listed = [b"BEGIN LIST VAR su700\n", *rows, b"END LIST VAR su700\n"]
                expect(client.list(b"LIST VAR su700\n"), listed, "all values")
                # requests in flight are answered in turn
                client.send(STATUS * 100 + b"VER\n")
                expect([client.line() for _ in range(101)], [ONLINE] * 100 + [VERSION], "a hundred requests at once")
                expect(client.ask(b"LOGOUT\n"), b"OK Goodbye\n", "farewell")
                expect(client.line(), b"", "the end")

    def test_sequence(self):
        with self.room() as room:
            room.dummy(b"ups.status: OL\nTIMER 2\nups.status: OB LB\nTIMER 2\n", "seq")
            room.upsd()
            for _ in range(2):
                room.until(STATUS, ONLINE)
                room.until(STATUS, b'VAR su700 ups.status "OB LB"\n')

    def test_tools_that_wait(self):
        with self.room() as room:
            driver, _ = room.online()
            *_, upsrw, upscmd = self.all_programs
            login = ["-u", "admin", "-p", "pw", f"su700@{room.host}:{room.port}"]
            expect(ended_in_bytes([upsrw, "-w", "-s", "ups.id=new", *login]), (0, b"SUCCESS\n", b""), "upsrw -w")
            expect(room.ask(b"GET VAR su700 ups.id\n"), b'VAR su700 ups.id "new"\n', "what upsrw -w set")
            expect(ended_in_bytes([upscmd, "-w", *login, "load.off", "now"]), (0, b"SUCCESS\n", b""), "upscmd -w")
            expect(ended_in_bytes([upscmd, *login, "load.off"]), (0, b"OK\n", b""), "upscmd")
            with stopped(driver), futures.ThreadPoolExecutor(1) as pool:
                found = pool.submit(ended_in_bytes, [upscmd, "-w", *login, "load.on"])
                # the third that is tracked
                room.until(b"GET TRACKING 3\n", b"TRACKING 3 PENDING\n")
                driver.kill()
                expect(found.result(), (1, b"", b"Error: FAILED\n"), "a driver that is killed")
            refused = (1, b"", b"Error: DRIVER-NOT-CONNECTED\n")
            expect(ended_in_bytes([upscmd, "-w", *login, "load.on"]), refused, "a request without a driver")

    def test_driver_that_never_reads(self):
        # the driver says nothing more, and its data must not become stale meanwhile
        with self.room(conf=NO_PINGS) as room, room.driver() as listener:
            upsd = room.upsd()
            settable = b'SETINFO ups.id "x"', b"SETFLAGS ups.id RW STRING", b"SETAUX ups.id 128"
            with play_driver(listener, *settable), room.client() as client:
                room.until(b"GET VAR su700 ups.id\n", b'VAR su700 ups.id "x"\n')
                client.log_in()
                request = b"SET VAR su700 ups.id " + b"y" * 128 + b"\n"
                until(lambda: client.ask(request) == b"ERR SET-FAILED\n", "a full queue", 60, pause=0)
                expect(room.ask(b"VER\n"), VERSION, "beside a driver that never reads")
                expect_rest(upsd, 1, 0.5, "beside a driver that never reads")

    def test_driver_that_passes_descriptors(self):
        """Each message with a descriptor ends a read, and no event tells of the next one."""
        with self.room(conf=NO_PINGS) as room, room.driver() as listener, open(os.devnull) as passed:
            upsd = room.upsd()
            with play_driver(listener, ON_LINE) as driver:
                room.until(STATUS, ONLINE)
                with stopped(upsd):
                    for i in range(50):
                        socket.send_fds(driver, [b"SETINFO ups.id %d\n" % i], [passed.fileno()])
                room.until(b"GET VAR su700 ups.id\n", b'VAR su700 ups.id "49"\n')

    def test_dummy_removes_nothing_of_value(self):
        """A plain file with a byte, a directory, a link and a pipe stay, whatever has the name of the socket."""
        with self.room() as room:
            script, other = room.path("su700.dev"), room.path("other.dev")
            for name, text in (("su700.dev", DEVICE), ("other.dev", DEVICE), ("empty", b"")):
                room.write(name, text)
            os.mkdir(room.path("folder"))
            os.mkfifo(room.path("pipe"))
            room.listener("socket").close()
            links = {"link": "other.dev", "broken-link": "none", "socket-link": "socket", "empty-link": "empty"}
            for name, to in links.items():
                os.symlink(room.path(to), room.path(name))
            before = {it.name: it.stat(follow_symlinks=False).st_ino for it in os.scandir(room.folder)}
            for name in ("su700.dev", "other.dev", "folder", "pipe", *links):
                path = room.path(name)
                there = cannot_listen("dummy-ups", path, NOT_A_SOCKET).encode()
                expect(ended_in_bytes([room.dummy_program, script, path]), (1, b"", there), name)
            after = {it.name: it.stat(follow_symlinks=False).st_ino for it in os.scandir(room.folder)}
            expect(after, before, "what lies there")
            for path in (script, other):
                expect(read_bytes(path), DEVICE, path)
            # a socket that was left is replaced, and so is an empty file, but no socket at which a driver listens
            for name in ("socket", "empty"):
                path = room.path(name)
                driver = room.start([room.dummy_program, script, path])
                with Client(path) as server:
                    expect(server.ask(b"PING\n"), b"PONG\n", f"a driver at the place of {name}")
                    in_use = cannot_listen("dummy-ups", path, IN_USE).encode()
                    expect(ended_in_bytes([room.dummy_program, other, path]), (1, b"", in_use), "another driver")
                    expect((driver.poll(), server.ask(b"PING\n")), (None, b"PONG\n"), "the first driver")

    def refuses(self, hosts, missing, error, taken=None):
        """upsd doesn't start with LISTEN lines for these hosts, of which it names one, with an error. Another program listens at the
        room's port of the address `taken`."""
        with self.room() as room, contextlib.ExitStack() as closing:
            if taken:
                closing.enter_context(socket.create_server((taken, room.port)))
            put_listeners(room, *hosts)
            expect(ended_in_bytes(room.command()), without_listener(missing, room.port, error), f"{hosts}, with a program at {taken}")

    def test_port_in_use(self):
        """A listener at another address doesn't stand for the one that is in use."""
        for hosts in (["127.0.0.1"], ["127.0.0.2", "127.0.0.1"], ["127.0.0.1", "0.0.0.0"]):
            self.refuses(hosts, hosts[-1], errno.EADDRINUSE, taken="127.0.0.1")

    def test_warning_before_a_fault(self):
        """That everybody can read the passwords comes before the fault."""
        with self.room() as room, socket.create_server(("127.0.0.1", room.port)):
            os.chmod(room.path("upsd.users"), 0o644)
            status, out, err = ended_in_bytes(room.command())
            warning, fault, *_ = err.decode().splitlines()
            expect((status, out), (1, b""), "a port in use")
            ensure(warning.startswith("upsd: upsd.users holds passwords"), f"it comes first: {warning}")
            ensure(fault.startswith(f"upsd: cannot listen on 127.0.0.1:{room.port}"), f"it comes then: {fault}")

    def each_in_use(self, name, addresses, words=()):
        """Has another program at each address of a name in turn. If it is the first, upsd ends: at the next one it would serve
        beside that program. The others don't matter."""
        for taken in addresses:
            with self.room() as room, socket.create_server((taken, room.port), family=family_of(taken)):
                put_listeners(room, name)
                upsd = [*words, *room.command()]
                if taken == addresses[0]:
                    wanted = without_listener(name, room.port, errno.EADDRINUSE)
                    expect(ended_in_bytes(upsd), wanted, f"{taken} in use, the first of {addresses}")
                else:
                    wanted = [f"upsd: listening on {shown(addresses[0])}:{room.port}"]
                    expect(first_lines(room.start(upsd), 1), wanted, f"{taken} in use, of {addresses}")

    def test_localhost_in_use(self):
        found = [it[4][0] for it in socket.getaddrinfo("localhost", None, type=socket.SOCK_STREAM)]
        self.each_in_use("localhost", list(dict.fromkeys(found)))

    def test_name_of_two_addresses_in_use(self):
        words = with_hosts(self.folder, b"127.0.0.2 twofold\n127.0.0.3 twofold\n")
        _, found, _ = ended_in_bytes([*words, "getent", "ahostsv4", "twofold"])
        addresses = list(dict.fromkeys(line.split()[0] for line in found.decode().splitlines()))
        expect(sorted(addresses), ["127.0.0.2", "127.0.0.3"], "the addresses of the name")
        self.each_in_use("twofold", addresses, words)
        # a listener of its own has the first address
        with self.room() as room:
            put_listeners(room, "twofold", addresses[0])
            listener, other = first_lines(room.start([*words, *room.command()]), 2)
            expect(listener, f"upsd: listening on {addresses[0]}:{room.port}", "where it listens")
            expect(other.startswith("upsd: UPS su700, driver at "), True, "no other listener")

    def test_host_that_is_not_here(self):
        self.refuses(["192.0.2.1"], "192.0.2.1", errno.EADDRNOTAVAIL)
        self.refuses(["198.51.100.1", "192.0.2.1"], "198.51.100.1", errno.EADDRNOTAVAIL)
        self.refuses(["198.51.100.1", "127.0.0.1"], "127.0.0.1", errno.EADDRINUSE, taken="127.0.0.1")

    def play_inside(self, name):
        """Plays a test of `Inside` in a network of its own."""
        inside = [sys.executable, "-m", "tests.programs.upsd_sockets", "--inside", name, self.folder, *self.all_programs]
        status, out, err = ended_in_bytes([*apart("--net"), *inside])
        ensure(status == 0, (out + err).decode().strip())

    def test_address_that_comes_late(self):
        self.play_inside("play_late_address")

    def test_late_address_that_is_in_use(self):
        self.play_inside("play_late_address_in_use")

    def test_name_that_comes_late(self):
        """Nobody knows a host's name at the start. That is told once, clients are served meanwhile, and there once it is known."""
        unknown = "failed to lookup address information: Name or service not known"
        with self.room() as room:
            words = with_hosts(room.folder)
            upsd = [*words, *room.command("-q")]
            put_listeners(room, "late.example", "192.0.2.1")
            expect(ended_in_bytes(upsd), without_listener("late.example", room.port, unknown), "no address at all")
            put_listeners(room, "late.example", "127.0.0.1")
            lines = Lines(room.start(upsd))
            told = f"upsd: cannot listen on late.example:{room.port} yet: {unknown}"
            expect(lines.next("upsd: cannot listen"), told, "what is told of it")
            until(room.serves, "upsd listens at the other address")
            with room.client() as client:
                # it is looked up several times
                time.sleep(3)
                expect(client.ask(b"VER\n"), VERSION, "a client that was there before")
                room.write("hosts", b"127.0.0.2 late.example\n")
                expect_served(("127.0.0.2", room.port))
                expect(client.ask(b"VER\n"), VERSION, "the client that was there before")
            expect(lines.count("upsd: cannot listen"), 1, "how often it is told")

    def listens(self, lines, at, clients):
        """Starts upsd with a row's LISTEN lines. It says where it listens, and serves clients."""
        with self.room() as room:
            ports = {"": room.port, "OTHER": free_port()}

            def place(it):
                host, _, port = it.partition(" ")
                return host, ports[port]

            room.write("upsd.conf", b"".join(b"LISTEN %b %d\n" % (host.encode(), port) for host, port in map(place, lines)))
            *listeners, other = first_lines(room.start(room.command()), len(at) + 1)
            expect(listeners, [f"upsd: listening on {shown(host)}:{port}" for host, port in map(place, at)], f"LISTEN {lines}")
            ensure(other.startswith("upsd: UPS su700, driver at "), f"LISTEN {lines}: no other listener than {listeners}")
            expect_served(*map(place, clients))

    def test_listeners_of_ipv4(self):
        for row in LISTENERS_OF_IPV4:
            self.listens(*row)

    def test_listeners_of_ipv6(self):
        needs_ipv6()
        for row in LISTENERS_OF_IPV6:
            self.listens(*row)

    def test_host_by_its_name(self):
        """A name means the first of its addresses."""
        first = socket.getaddrinfo("localhost", None, type=socket.SOCK_STREAM)[0][4][0]
        self.listens(["localhost"], [first], [first])
        self.listens(["127.0.0.2", "localhost OTHER"], ["127.0.0.2", f"{first} OTHER"], ["127.0.0.2", f"{first} OTHER"])

    def test_listeners_of_ipv6_alone(self):
        """This program plays the test again in a network of its own, where a socket of IPv6 takes no clients of IPv4."""
        needs_ipv6()
        status, _, err = ended_in_bytes([*apart("--net"), "sh", "-c", f"echo 1 >{ONLY_IPV6}"])
        if status:
            raise Missing(f"the network can't be set up: {err.decode().strip()}")
        self.play_inside("play_ipv6_alone")

    def test_addresses_of_clients(self):
        self.list_clients("127.0.0.1", ["127.0.0.1"])

    def test_addresses_of_clients_by_ipv6(self):
        needs_ipv6()
        self.list_clients("::1", ["::1"])
        # clients of either kind, each by its own address
        self.list_clients("::", ["::1", "127.0.0.1"])

    def list_clients(self, listen, hosts):
        """Has clients log in from these hosts where upsd listens at one address, and compares LIST CLIENT."""
        with self.room() as room, contextlib.ExitStack() as closing:
            put_listeners(room, listen)
            room.host = hosts[0]
            room.online()
            for room.host in hosts:
                client = closing.enter_context(room.logged_in())
            found = client.list(b"LIST CLIENT su700\n")[1:-1]
            expect(found, [b"CLIENT su700 %s\n" % host.encode() for host in hosts], f"addresses at {listen}")

    def test_too_many_connections(self):
        with self.room(conf=b"MAXCONN 2\n") as room:
            upsd = room.upsd("-q")
            until(room.serves, "the first connection has gone")
            # no client that is logged in makes way for another
            with room.logged_in() as first:
                for turn in range(2):
                    with room.logged_in() as second:
                        expect([it.ask(b"VER\n") for it in (first, second)], [VERSION] * 2, f"those who are there, turn {turn}")
                        for _ in range(5):
                            with room.client() as third:
                                ensure(third.is_closed(), f"the third is closed, turn {turn}")
                    until(room.serves, "a place that was left is taken again")
                    # what is told is told at most once a second
                    time.sleep(1.5)
            told = ["upsd: client refused: MAXCONN 2 is reached, and all clients are logged in"]
            expect(said(upsd), told * 2, "it is told once until a client was let in again")

    def test_want_of_descriptors(self):
        with self.room() as room:
            upsd = room.upsd("-q", preexec_fn=lambda: resource.setrlimit(resource.RLIMIT_NOFILE, (16, 16)))
            with contextlib.ExitStack() as closing:
                clients = [closing.enter_context(room.client()) for _ in range(24)]
                expect(clients[0].ask(b"VER\n"), VERSION, "the first client")
                expect_rest(upsd, 3.5, 0.5, "while descriptors are wanting")
                expect(clients[0].ask(b"VER\n"), VERSION, "the first client later")
                for client in clients[:20]:
                    client.close()
                expect(clients[-1].ask(b"VER\n"), VERSION, "the last client, once others have gone")
            # once for those that wait, and perhaps once more after the first of them was let in
            told = said(upsd)
            wanted = f"upsd: cannot accept a client: {why(errno.EMFILE)}"
            expect((len(told) in (1, 2), set(told)), (True, {wanted}), f"what is told: {told}")

    def test_idle_server_sleeps(self):
        with self.room() as room:
            upsd = room.upsd()
            with room.client() as client:
                expect(client.ask(b"VER\n"), VERSION, "a client")
                expect_rest(upsd, 2, 0.1, "by an idle server")

    def test_notices(self):
        with self.room() as room:
            driver = room.dummy()
            Client(room.path("dummy-ups-su700")).close()
            told = room.serve()
            room.until(STATUS, ONLINE)
            driver.kill()
            told.next("upsd: UPS su700: cannot connect to its driver: ")
            # a few tries more
            time.sleep(2.5)
            socket_path = room.path("dummy-ups-su700")
            lines = [
                f"upsd: listening on 127.0.0.1:{room.port}",
                f"upsd: UPS su700, driver at {socket_path}",
                *([AS_ROOT] if os.geteuid() == 0 else []),
                "upsd: UPS su700: driver connected",
                "upsd: UPS su700: driver lost",
            ]
            expect(told.lines[:-1], lines, "notices, and before the last one that a driver is missed, once")

    def test_causes_for_which_a_driver_is_missed(self):
        """Each is told once, and again only if there was another one or a driver since."""
        missed = "upsd: UPS su700: cannot connect to its driver: "
        with self.room() as room:
            path = room.path("dummy-ups-su700")
            lines = room.serve(preexec_fn=heed_modes)
            lines.next(missed + why(errno.ENOENT))
            with open(path, "w"):
                lines.next(missed + why(errno.ECONNREFUSED))
            with room.listener("of-another-user") as listener:
                os.chmod(room.path("of-another-user"), 0)
                os.rename(room.path("of-another-user"), path)
                lines.next(missed + why(errno.EACCES))
                # a few tries more
                time.sleep(2.5)
                os.chmod(path, 0o600)
                accepted(listener).close()
                lines.next("upsd: UPS su700: driver lost")
            lines.next(missed + why(errno.ECONNREFUSED))
            time.sleep(1.5)
            wanted = [missed + why(it) for it in (errno.ENOENT, errno.ECONNREFUSED, errno.EACCES, errno.ECONNREFUSED)]
            expect([line for line in lines.lines if line.startswith(missed)], wanted, "what is told")

    def test_stale_data_is_told(self):
        stale, fresh = "upsd: UPS su700: data is stale", "upsd: UPS su700: data is no longer stale"
        with self.room(conf=b"MAXAGE 2\n") as room, room.driver() as listener:
            lines = room.serve()
            with accepted(listener) as driver:
                room.until_heard(driver)
                # the driver says so
                driver.sendall(b"DATASTALE\n")
                lines.next(stale)
                expect(room.ask(STATUS), b"ERR DATA-STALE\n", "the status of stale data")
                driver.sendall(b"DATAOK\n")
                lines.next(fresh)
                # the driver is silent
                lines.next(stale)
                driver.sendall(b"PONG\n")
                lines.next(fresh)
            lines.next("upsd: UPS su700: driver lost")
            told = [line for line in lines.lines if ": data is " in line]
            expect(told, ([stale, fresh] * len(told))[: len(told)], "each change is told once")

    def test_a_forced_shutdown_is_told(self):
        forced = "upsd: UPS su700: shutdown is forced (FSD) by mon@127.0.0.1"
        with self.room() as room:
            driver, _ = room.online("-q")
            lines = room.lines
            with room.logged_in() as client:
                expect(client.ask(b"FSD su700\n"), b"OK FSD-SET\n", "FSD")
                lines.next(forced)
                # another FSD is no news
                expect(client.ask(b"FSD su700\n"), b"OK FSD-SET\n", "FSD once more")
                driver.kill()
                driver.wait()
                room.until(STATUS, NOT_CONNECTED)
                room.dummy()
                room.until(STATUS, b'VAR su700 ups.status "FSD OL"\n')
                time.sleep(2.5)
            back = "upsd: UPS su700: shutdown is still forced (FSD); its machines shut down now"
            expect(lines.lines, [forced, back], "what is told")

    def test_a_shutdown_that_nobody_hears_of_is_told(self):
        with self.room() as room:
            lines = room.serve("-q")
            with room.client() as client:
                client.log_in(b"mon", b"m1")
                expect(client.ask(b"FSD su700\n"), b"OK FSD-SET\n", "FSD")
            lines.next("upsd: UPS su700: shutdown is forced (FSD) by mon@127.0.0.1; its machines learn of it once the driver is back")
            room.dummy()
            lines.next("upsd: UPS su700: shutdown is still forced (FSD); its machines shut down now")
            room.until(STATUS, b'VAR su700 ups.status "FSD OL"\n')

    def test_quiet(self):
        with self.room() as room:
            driver, _ = room.online("-q")
            driver.kill()
            room.until(STATUS, NOT_CONNECTED)
            expect(room.lines.lines, [], "nothing is told")

    def test_command_lines(self):
        upsd, dummy = self.programs
        conf = ["--conf", self.folder]
        sockets = ["-s", self.folder]
        for words in (
            [upsd], [upsd, *conf], [upsd, *sockets], [upsd, "--stdio", *sockets], [upsd, "--stdio", *conf, *sockets],
            [upsd, "--stdio", "-q"], [upsd, *conf, *sockets, "--ups", "a=b"], [upsd, *sockets, "--ups", "a=b"],
            [upsd, *conf, *sockets, "-c", "reload"], [dummy], [dummy, "a.dev"], [dummy, "a.dev", "b", "c"],
        ):
            status, out, err = ended_in_bytes(words)
            expect((status, out, err != b""), (2, b"", True), f"{words}")
        for program, word in ((upsd, b"SOCKDIR"), (dummy, b"SOCKET")):
            status, out, err = ended_in_bytes([program, "--help"])
            expect((status, word in out, err), (0, True, b""), "help")

    def test_options_of_nut(self):
        """What to do in place of an option of NUT stands below clap's text, without a tip to pass it as a file. An unknown one has the
        last line alone."""
        upsd, dummy = self.programs
        conf = ["--conf", self.folder, "-s", self.folder]
        for program, words, way in (
            (upsd, ["-c", "reload"], "-c reload is not supported: use systemctl reload mulgefa-upsd"),
            (upsd, [*conf, "-creload"], "-c reload is not supported: use systemctl reload mulgefa-upsd"),
            (upsd, ["-D", "-c", "stop"], "-c stop is not supported: use systemctl stop mulgefa-upsd"),
            (upsd, ["-c"], "-c is not supported: use systemctl; --conf names the directory of the files"),
            (upsd, ["-P", "77", "-c", "stop"], "-P is not supported: there are no PID files; use systemctl"),
            (upsd, [*conf, "-FF"], "-FF is not supported: there are no PID files; use -F"),
            (upsd, ["-F", "-F"], "-F -F is not supported: there are no PID files; use -F"),
            (upsd, ["-B"], "-B is not supported: upsd always stays in the foreground"),
            (upsd, [*conf, "-u", "nut"], "-u is not supported: the unit decides as which user upsd runs"),
            (upsd, ["-r", "/jail"], "-r is not supported: the unit can have RootDirectory"),
            (upsd, ["-4"], "-4 is not supported: LISTEN in upsd.conf names the addresses"),
            (upsd, ["-x"], None),
            (dummy, ["-a", "su700"], "-a is not supported: use dummy-ups FILE SOCKET, or systemctl start mulgefa-dummy-ups@NAME"),
            (dummy, ["-s", "su700", "-x", "port=a.dev"], "-s is not supported: use dummy-ups FILE SOCKET"),
            (dummy, ["-DD", "a.dev", "b"], "-D is not supported: dummy-ups reports only why it ends"),
            (dummy, ["-F", "a.dev", "b"], "-F is not supported: dummy-ups always stays in the foreground"),
            (dummy, ["-k", "-a", "su700"], "-k is not supported: use upscmd NAME load.off"),
            (dummy, ["-q"], None),
        ):
            status, out, err = ended_in_bytes([program, *words])
            name = "upsd" if program == upsd else "dummy-ups"
            said = f"{name}: {way}\n" if way else ""
            expect((status, out), (2, b""), f"{name} {words}")
            ensure(err.startswith(b"error: ") and b"tip: to pass" not in err, f"what clap says of {name} {words}: {err}")
            below = f"\n\nFor more information, try '--help'.\n{said}{NUTS_OPTIONS.format(name)}"
            ensure(err.decode().endswith(below), f"{name} {words}: {err}")

    def test_descriptions(self):
        status, off = b"GET DESC su700 ups.status\n", b"GET CMDDESC su700 load.off\n"
        model, maker = b"GET DESC su700 ups.model\n", b"GET DESC su700 ups.mfr\n"
        own = {status: b'DESC su700 ups.status "Status of the UPS"\n', off: b'CMDDESC su700 load.off "Turn off the load"\n'}
        none = {
            model: b'DESC su700 ups.model "Description unavailable"\n',
            maker: b'DESC su700 ups.mfr "Description unavailable"\n',
        }
        # a text for a name that has one of upsd's own, one for the model, and some for names that only look like the maker's
        file = (
            b'# texts\nVARDESC ups.status "UPS status"\nVARDESC ups.model "the \\"model\\""\n'
            b"CMDDESC ups.mfr x\nVARDESC UPS.MFR x\nCMDDESC load.off x\n"
        )
        told = {model: b'DESC su700 ups.model "the \\"model\\""\n'}
        for descriptions, texts in ((None, {**own, **none}), (b"", {**own, **none}), (file, {**own, **none, **told})):
            with self.room(descriptions=descriptions) as room:
                room.online(device=DEVICE + b"ups.model: S\nups.mfr: M\n")
                for asked, answer in texts.items():
                    expect(room.ask(asked), answer, f"{asked} with {descriptions}")

    def test_faults_of_scripts(self):
        with self.room() as room:
            for name, text, told in (
                ("none.txt", None, "dummy-ups: FILE: unknown kind\n"),
                ("a", b"", "dummy-ups: FILE: unknown kind\n"),
                ("none.dev", None, cannot_read("dummy-ups", "FILE", "FILE", errno.ENOENT)),
                ("a.dev", b"TIMER 5\n", "dummy-ups: FILE:1: TimerInDev\n"),
                ("a.dev", b"a: b\n\na b: c\n", "dummy-ups: FILE:3: BadName\n"),
                ("a.seq", b"a: b\n", "dummy-ups: FILE:0: NoTimer\n"),
                ("a.seq", b"a: b\nTIMER 0\n", "dummy-ups: FILE:2: BadTimer\n"),
            ):
                if text is not None:
                    room.write(name, text)
                found = ended_in_bytes([room.dummy_program, room.path(name), room.path("socket")])
                expect(found, (1, b"", told.replace("FILE", room.path(name)).encode()), f"{name}: {text}")
            ensure(not os.path.exists(room.path("socket")), "no socket is made")
            room.write("b.dev", DEVICE)
            for at, cause in (
                (room.folder, NOT_A_SOCKET),
                (room.path("none/at"), errno.ENOENT),
                ("x" * 200, "path must be shorter than SUN_LEN"),
                ("", "invalid input parameter"),
            ):
                found = ended_in_bytes([room.dummy_program, room.path("b.dev"), at])
                expect(found, (1, b"", cannot_listen("dummy-ups", at, cause).encode()), f"socket {at!r}")

    def test_dummy_and_its_servers(self):
        with self.room() as room:
            driver = room.dummy(b"ups.status: OL\n")
            path = room.path("dummy-ups-su700")
            with Client(path) as first, Client(path) as second:
                expect(first.ask(b"DUMPALL\n"), b'SETINFO ups.status "OL"\n', "the first server")
                first.read_to(b"DUMPDONE\n")
                expect(first.ask(b"PING\n"), b"PONG\n", "a PING")
                expect(first.ask(b"INSTCMD load.off\n"), b'SETINFO ups.status "OFF"\n', "a command")
                # a second server waits until the first has left
                second.send(b"DUMPALL\n")
                ready, _, _ = select.select([second.socket], [], [], 1.5)
                expect(ready, [], "a second server that gets something")
                first.close()
                expect(second.line(), b'SETINFO ups.status "OFF"\n', "the second server")
                second.read_to(b"DUMPDONE\n")
                expect_rest(driver, 1.5, 0.1, "by an idle driver")

    def test_dummy_and_a_server_that_passes_descriptors(self):
        with self.room() as room, open(os.devnull) as passed:
            driver = room.dummy()
            with Client(room.path("dummy-ups-su700")) as server:
                expect(server.ask(b"PING\n"), b"PONG\n", "a PING")
                server.socket.settimeout(SOON)
                with stopped(driver):
                    for _ in range(50):
                        socket.send_fds(server.socket, [b"PING\n"], [passed.fileno()])
                expect([server.line() for _ in range(50)], [b"PONG\n"] * 50, "an answer for each")

    def test_dummy_and_a_server_that_never_reads(self):
        with self.room() as room:
            driver = room.dummy()
            path = room.path("dummy-ups-su700")
            with Client(path) as server:
                server.flood(b"DUMPALL\n" * 50)
                expect_rest(driver, 1.5, 0.1, "by a driver whose server doesn't read")
                server.read_to(b"DUMPDONE\n", times=100)
            with Client(path) as server:
                expect(server.ask(b"PING\n"), b"PONG\n", "the next server")


class Inside(Tests):
    """The tests that are played in a network of their own."""

    def starts_without(self, room):
        """Starts upsd, which can listen at one address, and not yet at another. Returns its lines."""
        put_listeners(room, "192.0.2.1", "127.0.0.1")
        lines = room.serve("-q")
        told = lines.next("upsd: cannot listen")
        expect(told, f"upsd: cannot listen on 192.0.2.1:{room.port} yet: {why(errno.EADDRNOTAVAIL)}", "what is told of it")
        expect(room.ask(b"VER\n"), VERSION, "at the other address")
        return lines

    def play_late_address(self):
        raise_loopback()
        with self.room() as room:
            lines = self.starts_without(room)
            with room.client() as client:
                # it is tried several times
                time.sleep(3)
                expect(lines.count("upsd: cannot listen"), 1, "how often it is told")
                give_address("192.0.2.1")
                expect_served(("192.0.2.1", room.port), ("127.0.0.1", room.port))
                expect(client.ask(b"VER\n"), VERSION, "a client that was there before")
        with self.room() as room:
            # without -q each is told when it comes
            put_listeners(room, "127.0.0.1", "198.51.100.1")
            lines = room.serve()
            missing = f"upsd: cannot listen on 198.51.100.1:{room.port} yet: {why(errno.EADDRNOTAVAIL)}"
            until(lambda: len(lines.lines) > 2, "it begins to serve")
            expect(lines.lines[:2], [f"upsd: listening on 127.0.0.1:{room.port}", missing], "what is told at the start")
            give_address("198.51.100.1")
            expect(lines.next("upsd: listening on 198"), f"upsd: listening on 198.51.100.1:{room.port}", "what is told then")

    def play_late_address_in_use(self):
        """Another program listens at the address before it comes. upsd tells it, and listens there once that program is gone."""
        raise_loopback()
        free_bind = 15
        with self.room() as room, socket.socket() as other:
            lines = self.starts_without(room)
            other.setsockopt(socket.SOL_IP, free_bind, 1)
            other.bind(("192.0.2.1", room.port))
            other.listen()
            give_address("192.0.2.1")
            told = lines.next("upsd: cannot listen")
            expect(told, f"upsd: cannot listen on 192.0.2.1:{room.port} yet: {why(errno.EADDRINUSE)}", "what is told of it")
            other.close()
            expect_served(("192.0.2.1", room.port))

    def play_ipv6_alone(self):
        """A socket of IPv6 takes no clients of IPv4."""
        raise_loopback()
        write(ONLY_IPV6, "1")
        self.listens(["::", "::"], ["::"], ["::1"])
        for other in ("127.0.0.1", "0.0.0.0"):
            # it listens at every address of IPv6, and at this one of IPv4 or at all of them
            self.listens([other, "::"], ["::", other], ["127.0.0.1", "::1"])
            # a listener of IPv6 doesn't stand for one of IPv4 that another program keeps from it
            self.refuses(["::", other], other, errno.EADDRINUSE, taken="127.0.0.1")


def main():
    if sys.argv[1] == "--inside":
        name, folder, *programs = sys.argv[2:]
        getattr(Inside(*programs, folder), name)()
        return 0
    signal.signal(signal.SIGPIPE, signal.SIG_IGN)
    return play(Tests, 4, "a machine with IPv6 runs them", at_once=4)


if __name__ == "__main__":
    sys.exit(main())
