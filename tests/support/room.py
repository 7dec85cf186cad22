"""A room of built programs: upsd and dummy drivers in a folder of their own, and clients that speak to them."""

import contextlib
import ctypes
import fcntl
import os
import random
import shutil
import signal
import socket
import struct
import subprocess
import tempfile
import threading
import time

from tests.support.harness import Failed, Shimmed, ensure, expect, read, write

DEVICE = b"ups.status: OL\nups.id: x\nbattery.charge: 100\n"
USERS = b'[admin]\npassword = pw\nactions = SET\ninstcmds = ALL\n[mon]\npassword = m1\nupsmon primary\n'
VERSION = b"Network UPS Tools upsd profile 1.3\n"
STATUS = b"GET VAR su700 ups.status\n"
ONLINE = b'VAR su700 ups.status "OL"\n'
NOT_CONNECTED = b"ERR DRIVER-NOT-CONNECTED\n"
# how long a thing may take that should come soon, in seconds: upsd connects to a driver once a second
SOON = 10.0
# the upsd.conf of a server that asks drivers for no sign of life, such as those that a test plays
NO_PINGS = b"MAXAGE 86400\n"


def until(test, what, within=SOON, pause=0.02):
    """Repeats a test until its result is true, and returns that."""
    end = time.monotonic() + within
    while True:
        found = test()
        if found:
            return found
        if time.monotonic() > end:
            raise Failed(f"{what}: not within {within} s")
        time.sleep(pause)


# the ports that this program hasn't used yet, and the names that keep other tests from them
PORTS, NAMES, LOCK = [], [], threading.Lock()


def block_of_ports():
    """Returns a hundred ports that no other test of this machine gets while this program runs, by a name that only one can hold.
    They are below those that the system gives to clients: one of these could have a port before it is used."""
    while True:
        first = random.SystemRandom().randrange(15_000, 32_000, 100)
        name = socket.socket(socket.AF_UNIX)
        try:
            name.bind(f"\0ports of a test, from {first} on")
        except OSError:
            name.close()
            continue
        NAMES.append(name)
        return list(range(first, first + 100))


def free_port():
    """Returns a port of this machine that nobody listens on, each time another one."""
    with LOCK:
        while True:
            PORTS[:] = PORTS or block_of_ports()
            port = PORTS.pop()
            with contextlib.suppress(OSError), socket.socket() as free:
                # a program that another thread is about to start has this socket, too, until it begins, and may not hold the port
                free.setsockopt(socket.SOL_SOCKET, socket.SO_REUSEADDR, 1)
                free.bind(("", port))
                return port


def has_ipv6():
    """Whether this machine has the IPv6 loopback address."""
    try:
        with socket.socket(socket.AF_INET6) as it:
            it.bind(("::1", 0))
        return True
    except OSError:
        return False


def raise_loopback():
    """Brings up the loopback interface of this network, one made by `unshare`."""
    get_flags, set_flags, up = 0x8913, 0x8914, 1
    with socket.socket(socket.AF_INET, socket.SOCK_DGRAM) as any_socket:
        request = struct.pack("16sh14x", b"lo", 0)
        flags = struct.unpack("16sh14x", fcntl.ioctl(any_socket, get_flags, request))[1]
        fcntl.ioctl(any_socket, set_flags, struct.pack("16sh14x", b"lo", flags | up))


def give_address(address):
    """Gives the loopback interface of this network, one made by `unshare`, this IPv4 address too."""
    set_address = 0x8916
    with socket.socket(socket.AF_INET, socket.SOCK_DGRAM) as any_socket:
        fcntl.ioctl(any_socket, set_address, struct.pack("16sH2x4s8x", b"lo:1", socket.AF_INET, socket.inet_aton(address)))


def family_of(host):
    """Returns the family of an address that is written with colons or without."""
    return socket.AF_INET6 if ":" in host else socket.AF_INET


def connected(address):
    """Returns a socket that is connected to this address, or None if nobody listens, whether or not its file exists already."""
    family = socket.AF_UNIX if isinstance(address, str) else family_of(address[0])
    found = socket.socket(family, socket.SOCK_STREAM)
    found.settimeout(SOON)
    try:
        found.connect(address)
    except (ConnectionRefusedError, FileNotFoundError):
        found.close()
        return None
    return found


def accepted(listener):
    """Returns the next connection of a listener. It has a limit of time of its own, since it doesn't get the listener's."""
    found, _ = listener.accept()
    found.settimeout(SOON)
    return found


def state_of(pid):
    """Returns the system's letter for the state of a process: T if it is stopped, Z if it has ended; empty if there is none."""
    try:
        return read(f"/proc/{pid}/stat").rsplit(")", 1)[1].split()[0]
    except FileNotFoundError:
        return ""


def descriptors(pid):
    """Returns how many descriptors a process has open."""
    return len(os.listdir(f"/proc/{pid}/fd"))


def heed_modes():
    """Has the program that is started next heed the modes of files and folders, which root doesn't otherwise."""
    drop, dac_override = 24, 1
    if os.geteuid() == 0 and ctypes.CDLL(None, use_errno=True).prctl(drop, dac_override, 0, 0, 0) != 0:
        raise OSError(ctypes.get_errno(), "CAP_DAC_OVERRIDE can't be dropped")


@contextlib.contextmanager
def stopped(process, send=None):
    """Stops a process, waits until it stands still, and lets it continue at the end. `send` sends a signal, where others are to
    have it too."""
    send = send or process.send_signal
    send(signal.SIGSTOP)
    try:
        until(lambda: state_of(process.pid) == "T", "a process stands still")
        yield
    finally:
        send(signal.SIGCONT)


def said(process):
    """Ends a process. Returns the lines that it has written to standard error."""
    process.kill()
    return process.stderr.read().decode().splitlines()


class Client:
    """A client of a server, or a server of a driver."""

    def __init__(self, address):
        self.socket = until(lambda: connected(address), f"{address} takes a connection")
        self.file = self.socket.makefile("rb")

    def __enter__(self):
        return self

    def __exit__(self, *_):
        self.close()

    def close(self):
        self.file.close()
        self.socket.close()

    def send(self, data):
        self.socket.sendall(data)

    def line(self):
        return self.file.readline()

    def ask(self, data):
        """Returns the line that answers one request."""
        self.send(data)
        return self.line()

    def list(self, data):
        """Returns the lines of a list, or the one line of a refusal."""
        lines = [self.ask(data)]
        while lines[0].startswith(b"BEGIN") and not lines[-1].startswith(b"END") and lines[-1]:
            lines.append(self.line())
        return lines

    def read_to(self, line, times=1):
        """Reads up to this line, or up to where it has come so many times."""
        while times > 0:
            found = self.line()
            ensure(found, "the connection ended")
            times -= found == line

    def flood(self, request, most=100_000):
        """Sends a request again and again, until the other end takes no more of them."""
        self.socket.setblocking(False)
        try:
            for _ in range(most):
                self.socket.send(request)
        except BlockingIOError:
            self.socket.settimeout(SOON)
            return
        raise Failed("requests of one who never reads are read without end")

    def is_closed(self):
        """Whether the other end closes without sending anything."""
        try:
            return self.socket.recv(1) == b""
        except ConnectionResetError:
            return True

    def log_in(self, user=b"admin", password=b"pw"):
        expect(self.ask(b"USERNAME " + user + b"\n"), b"OK\n", "user")
        expect(self.ask(b"PASSWORD " + password + b"\n"), b"OK\n", "password")

    def track(self):
        """Has the server track this client's requests from now on."""
        expect(self.ask(b"SET TRACKING ON\n"), b"OK\n", "SET TRACKING")


def play_driver(listener, *lines):
    """Accepts upsd at the socket of a driver, and tells these lines, and that its data is whole and fresh. Returns the link."""
    link = accepted(listener)
    expect(link.recv(100), b"DUMPALL\n", "a driver is asked")
    link.sendall(b"\n".join([*lines, b"DATAOK", b"DUMPDONE", b""]))
    return link


class Lines:
    """The lines that a program writes to standard error."""

    def __init__(self, process):
        self.lines = []
        self.place = 0
        self.thread = threading.Thread(target=self.read, args=(process.stderr,), daemon=True)
        self.thread.start()

    def read(self, stream):
        try:
            for line in stream:
                self.lines.append(line.decode().rstrip("\n"))
        except ValueError:
            # the stream was closed with its program
            pass

    def next(self, *beginnings):
        """Returns the next line that begins with one of these."""

        def find():
            for at in range(self.place, len(self.lines)):
                if self.lines[at].startswith(beginnings):
                    self.place = at + 1
                    return self.lines[at]
            return None

        return until(find, f"a line {beginnings}, after {self.lines}")

    def found_last(self, count):
        """Returns so many lines up to the one that was found last."""
        return self.lines[self.place - count:self.place]

    def count(self, beginning):
        return sum(line.startswith(beginning) for line in self.lines)


def first_lines(process, count):
    """Returns the first lines that a program writes to standard error, which have to come soon; fewer if it ends before."""
    told = Lines(process)
    until(lambda: len(told.lines) >= count or not told.thread.is_alive(), f"{count} lines on standard error")
    return told.lines[:count]


class Room:
    """A folder with a configuration, and the programs that run with it."""

    # the password of the user `mon`
    mon = b"m1"

    def __init__(self, programs, folder, conf=b"", ups=b'[su700]\ndesc = "Server room"\n', descriptions=None, users=USERS):
        self.upsd_program, self.dummy_program = programs
        self.folder = tempfile.mkdtemp(dir=folder)
        self.port = free_port()
        self.host = "127.0.0.1"
        self.running = []
        listen = b"" if b"LISTEN" in conf else b"LISTEN 127.0.0.1 %d\n" % self.port
        for name, text in (("ups.conf", ups), ("upsd.users", users), ("upsd.conf", listen + conf), ("cmdvartab", descriptions)):
            if text is not None:
                write(self.path(name), text)

    def __enter__(self):
        return self

    def __exit__(self, *_):
        for process in self.running:
            process.kill()
            process.wait()
            if process.stderr is not None:
                process.stderr.close()
        shutil.rmtree(self.folder)

    def path(self, name):
        return os.path.join(self.folder, name)

    @property
    def target(self):
        """What a MONITOR line calls the first UPS."""
        return f"su700@{self.host}:{self.port}"

    def start(self, words, **options):
        streams = {"stdin": subprocess.DEVNULL, "stdout": subprocess.DEVNULL, "stderr": subprocess.PIPE, **options}
        process = subprocess.Popen(words, **streams)
        self.running.append(process)
        return process

    def write(self, name, text):
        with open(self.path(name), "wb") as file:
            file.write(text)

    def command(self, *words):
        """Returns the words that start upsd with this folder."""
        return [self.upsd_program, "--conf", self.folder, "-s", self.folder, *words]

    def upsd(self, *words, **options):
        """Starts upsd, and waits until it serves."""
        process = self.start(self.command(*words), **options)
        until(lambda: self.can_connect(process), "upsd listens")
        return process

    def serve(self, *words, **options):
        """Starts upsd, and waits until it serves. Returns the lines that it writes, which `lines` has from now on."""
        self.server = self.upsd(*words, **options)
        self.lines = Lines(self.server)
        return self.lines

    def online(self, *words, device=DEVICE, **options):
        """Starts a dummy driver of su700, and upsd as `serve` does, and waits until upsd shows that the UPS is on line. Returns both
        processes."""
        driver = self.dummy(device)
        self.serve(*words, **options)
        self.until(STATUS, ONLINE)
        return driver, self.server

    def can_connect(self, process):
        if process.poll() is not None:
            said = process.stderr.read() if process.stderr else "its error output goes elsewhere"
            raise Failed(f"upsd ended with status {process.returncode}: {said!r}")
        found = connected((self.host, self.port))
        if found is not None:
            found.close()
        return found is not None

    def dummy(self, text=DEVICE, ending="dev", ups="su700", **options):
        """Starts a dummy driver."""
        script = write(self.path(f"{ups}.{ending}"), text)
        return self.start([self.dummy_program, script, self.path(f"dummy-ups-{ups}")], **options)

    def reload(self, ups):
        """Replaces ups.conf, and asks for a reload."""
        write(self.path("ups.conf"), ups)
        write(self.path("reload"), "")

    def client(self):
        return Client((self.host, self.port))

    def logged_in(self, ups=b"su700"):
        """Returns a new client that is logged in to a UPS as a primary."""
        client = self.client()
        client.send(b"USERNAME mon\nPASSWORD %b\nLOGIN %b\n" % (self.mon, ups))
        expect([client.line() for _ in range(3)], [b"OK\n"] * 3, "a login")
        return client

    def ask(self, request):
        """Returns the reply to a new client's only request."""
        with self.client() as client:
            return client.ask(request)

    def serves(self):
        """Whether a new client is accepted and answered."""
        try:
            return self.ask(b"VER\n") == VERSION
        except ConnectionError:
            return False

    def until(self, request, wanted, within=SOON):
        """Repeats a request on one connection until this is the reply."""
        with self.client() as client:
            until(lambda: client.ask(request) == wanted, f"{request!r} gives {wanted!r}", within)

    def until_heard(self, driver):
        """Has a driver that the test plays tell that the UPS is on line, until upsd shows it: data may become stale soon."""

        def is_heard(client):
            driver.sendall(b'SETINFO ups.status "OL"\nDATAOK\nDUMPDONE\n')
            return client.ask(STATUS) == ONLINE

        with self.client() as client:
            until(lambda: is_heard(client), "a driver is heard")

    def listener(self, name):
        """Returns a listener at the socket of a driver."""
        listener = socket.socket(socket.AF_UNIX, socket.SOCK_STREAM)
        listener.settimeout(SOON)
        listener.bind(self.path(name))
        listener.listen()
        return listener

    def driver(self):
        """Returns a listener at the place where upsd looks for the driver of su700."""
        return self.listener("dummy-ups-su700")


class RoomTests(Shimmed):
    """Tests in rooms of their own, with these programs, of which upsd and dummy-ups are the first."""

    kind = Room

    def __init__(self, *programs_and_folder):
        *self.all_programs, self.folder = programs_and_folder
        self.programs = self.all_programs[:2]

    def room(self, **texts):
        return self.kind(self.programs, self.folder, **texts)
