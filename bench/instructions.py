#!/usr/bin/env python3
"""Counts the instructions that upsd and upsmon spend on their work, and beside them those of NUT's own if Debian's package has
installed them. It needs valgrind. Unlike times, the counts hardly depend on what else the machine does.

    bench/instructions.py UPSD UPSMON [WORD]

Each row is measured by two runs under callgrind, one with little of its work and one with much. What the second executed more is
shared out among the work that it did more. The kernel's part isn't counted. With a WORD only the rows are measured whose name has
it."""

import contextlib
import getpass
import itertools
import os
import re
import shutil
import signal
import socket
import subprocess
import sys
import tempfile
import threading
import time

from sockets import NUT_UPSD, VARIABLES, free_port

NUT_PLACES = ("NUT_CONFPATH", "NUT_STATEPATH", "NUT_ALTPIDPATH")
NUT_UPSMON = "/lib/nut/upsmon"
FEW, MANY = 122, 1342
# the seconds of a run whose work comes by the clock
FEW_SECONDS, MANY_SECONDS = 5, 25
STATUS = "GET VAR su700 ups.status"
IN_TURN = [STATUS, *(f"GET VAR su700 ambient.{i}.temperature" for i in range(VARIABLES))]
UPSES, CLIENTS = 32, 200

# what is asked: a name, the requests that are asked in turn, how many are sent at once, and how many parts an answer has
ASKED = [
    ("GET VAR, 61 variables in turn", IN_TURN, 1, 1),
    ("GET VAR, the same again and again", [STATUS], 1, 1),
    ("GET VAR, eight in a piece, each", IN_TURN, 8, 1),
    ("GET UPSDESC", ["GET UPSDESC su700"], 1, 1),
    ("LIST VAR, a row", ["LIST VAR su700"], 1, VARIABLES + 1),
]


def ask(client, requests, at_once, count):
    """Sends this many requests, some at once, and reads the answers to them before it sends more."""
    turn = itertools.cycle(requests)
    with client.makefile("rb") as answers:
        while count > 0:
            asked = [next(turn) for _ in range(min(at_once, count))]
            client.sendall("".join(it + "\n" for it in asked).encode())
            for it in asked:
                last = b"END LIST" if it.startswith("LIST") else b""
                while not answers.readline().startswith(last):
                    pass
            count -= len(asked)


class Driver(threading.Thread):
    """A driver that this program plays at a socket: it answers DUMPALL and PING, and tells what it is asked to tell."""

    def __init__(self, path, variables=VARIABLES):
        super().__init__(daemon=True)
        self.variables = variables
        self.listener = socket.socket(socket.AF_UNIX)
        self.listener.bind(path)
        self.listener.listen()
        self.link = None
        self.is_dumped = threading.Event()
        self.start()

    def run(self):
        with contextlib.suppress(OSError):
            self.link, _ = self.listener.accept()
            for line in self.link.makefile("rb"):
                if line.startswith(b"DUMPALL"):
                    told = [b'SETINFO ups.status "OL"\n', *(b'SETINFO ambient.%d.temperature "21.%d"\n' % (i, i) for i in range(self.variables))]
                    self.link.sendall(b"".join(told) + b"DATAOK\nDUMPDONE\n")
                    self.is_dumped.set()
                elif line.startswith(b"PING"):
                    self.link.sendall(b"PONG\n")

    def tell(self, count):
        """Tells new values of the variables in turn."""
        for at in range(count):
            self.link.sendall(b'SETINFO ambient.%d.temperature "%d.5"\n' % (at % VARIABLES, at % 90))

    def stop(self):
        for it in (self.link, self.listener):
            if it is not None:
                it.close()


@contextlib.contextmanager
def counted(folder, words, environment=None):
    """Runs a program under callgrind. Gives a list, into which the number of instructions comes once it has ended by SIGTERM."""
    here = tempfile.mkdtemp(dir=folder)
    said = os.path.join(here, "callgrind.txt")
    counting = ["valgrind", "--tool=callgrind", f"--callgrind-out-file={here}/callgrind.out", f"--log-file={said}"]
    quiet = {"stdout": subprocess.DEVNULL, "stderr": subprocess.DEVNULL}
    process, found = subprocess.Popen(counting + words, env={**os.environ, **(environment or {})}, **quiet), []
    try:
        yield found
        process.send_signal(signal.SIGTERM)
        process.wait(60)
        with open(said) as file:
            found.append(int(re.search(r"Collected : (\d+)", file.read())[1]))
    finally:
        process.kill()
        process.wait()


class Upsd:
    """How a server is started: this one, or NUT's."""

    def __init__(self, program, is_nut):
        self.program, self.is_nut = program, is_nut

    def words(self, folder):
        return [self.program, *(["-F", "-u", getpass.getuser()] if self.is_nut else ["--conf", folder, "-s", folder, "-q"])]

    def environment(self, folder):
        return {it: folder for it in NUT_PLACES} if self.is_nut else {}

    @contextlib.contextmanager
    def served(self, folder, names, variables=VARIABLES):
        """Runs the server under callgrind with UPSes of these names, each with a status and this many other variables. Gives its
        port, its drivers, each of which has told its values, and the list of counted()."""
        here = tempfile.mkdtemp(dir=folder)
        drivers = [Driver(f"{here}/dummy-ups-{it}", variables) for it in names]
        port = written(here, names)
        with counted(folder, self.words(here), self.environment(here)) as found:
            # each call that isn't answered yet would count, too
            for it in drivers:
                it.is_dumped.wait(60)
            yield port, drivers, found
        for it in drivers:
            it.stop()

    def answers(self, folder, asked, count, upses=1, variables=VARIABLES, clients=0):
        """Returns the instructions of a server that answers this many requests of one client. It has this many UPSes, each with
        this many variables beside its status, and this many other clients, which are idle."""
        _, requests, at_once, _ = asked
        names = ["su700", *(f"u{it}" for it in range(1, upses))]
        with self.served(folder, names, variables) as (port, _, found), until_served(port, "su700") as client:
            others = [until_open(port) for _ in range(clients)]
            ask(client, requests, at_once, count)
            for it in others:
                it.close()
        return found[0]

    def reports(self, folder, count):
        """Returns the instructions of a server whose driver tells this many values."""
        with self.served(folder, ["su700"]) as (port, (driver,), found), until_served(port, "su700") as client:
            driver.tell(count)
            last = b"%d.5" % ((count - 1) % 90)
            while True:
                client.sendall(b"GET VAR su700 ambient.%d.temperature\n" % ((count - 1) % VARIABLES))
                if last in client.recv(200):
                    break
                time.sleep(0.2)
        return found[0]

    def seconds(self, folder, count):
        """Returns the instructions of a server with many idle clients and live drivers in this many seconds."""
        names = [f"u{it}" for it in range(UPSES)]
        with self.served(folder, names) as (port, _, found):
            time.sleep(2)
            with until_served(port, names[-1]):
                clients = [until_open(port) for _ in range(CLIENTS)]
                time.sleep(1 + count)
                for it in clients:
                    it.close()
        return found[0]


def written(here, names):
    """Writes the files of a server with these UPSes, and returns its port."""
    port = free_port()
    for file, text in (
        ("ups.conf", "".join(f"[{it}]\ndriver = dummy-ups\nport = {it}.dev\n" for it in names)),
        ("upsd.users", "[mon]\npassword = m1\nupsmon secondary\n"),
        ("upsd.conf", f"LISTEN 127.0.0.1 {port}\nMAXCONN 256\n"),
    ):
        with open(f"{here}/{file}", "w") as out:
            out.write(text)
        os.chmod(f"{here}/{file}", 0o600)
    return port


def until_open(port):
    """Returns a connection to a server that serves."""
    return socket.create_connection(("127.0.0.1", port), 60)


def until_served(port, ups):
    """Returns a connection to a server once it shows the status of a UPS."""
    for _ in range(600):
        with contextlib.suppress(OSError):
            client = socket.create_connection(("127.0.0.1", port))
            client.setsockopt(socket.IPPROTO_TCP, socket.TCP_NODELAY, 1)
            client.sendall(b"GET VAR %s ups.status\n" % ups.encode())
            if client.recv(200).startswith(b"VAR"):
                return client
            client.close()
        time.sleep(0.05)
    sys.exit("the server doesn't serve")


def polls(folder, upsmon, is_nut, seconds):
    """Returns the instructions of upsmon, which asks a server for one status a second, in this many seconds."""
    here, is_asked = tempfile.mkdtemp(dir=folder), threading.Event()
    with socket.create_server(("127.0.0.1", 0)) as listener:

        def serve():
            with contextlib.suppress(OSError):
                while True:
                    link, _ = listener.accept()
                    threading.Thread(target=answer, args=(link,), daemon=True).start()

        def answer(link):
            with contextlib.suppress(OSError):
                for line in link.makefile("rb"):
                    is_asked.set()
                    link.sendall(b'VAR su700 ups.status "OL"\n' if line.startswith(b"GET VAR") else b"OK\n")

        threading.Thread(target=serve, daemon=True).start()
        with open(f"{here}/upsmon.conf", "w") as out:
            out.write(f"MONITOR su700@127.0.0.1:{listener.getsockname()[1]} 1 mon m1 secondary\nMINSUPPLIES 1\nSHUTDOWNCMD true\nPOLLFREQ 1\n")
            out.write("POLLFREQALERT 1\n" if is_nut else "")
        os.chmod(f"{here}/upsmon.conf", 0o600)
        words = [upsmon, "-F", "-p"] if is_nut else [upsmon, "--conf", here, "-q"]
        with counted(folder, words, {it: here for it in NUT_PLACES}) as found:
            is_asked.wait(60)
            time.sleep(1 + seconds)
    return found[0]


def rows(folder, upsmon):
    """Gives each row: its name, and a call that counts the instructions of a program for some of its work, once little of it and
    once much, and by how much of the work these differ."""
    for asked in ASKED:
        yield asked[0], lambda upsd, count, it=asked: upsd.answers(folder, it, count), FEW, MANY, asked[3]
    yield "SETINFO of a variable that is there", lambda upsd, count: upsd.reports(folder, count), FEW, MANY, 1
    idle = f"a second with {CLIENTS} idle clients and {UPSES} live drivers"
    yield idle, lambda upsd, count: upsd.seconds(folder, count), FEW_SECONDS, MANY_SECONDS, 1
    poll = "upsmon, a second with one poll of one UPS"
    yield poll, lambda upsd, count: polls(folder, NUT_UPSMON if upsd.is_nut else upsmon, upsd.is_nut, count), FEW_SECONDS, MANY_SECONDS, 1


def main():
    upsd, upsmon = (os.path.abspath(it) for it in sys.argv[1:3])
    word = sys.argv[3] if len(sys.argv) > 3 else ""
    if shutil.which("valgrind") is None:
        sys.exit("valgrind is missing")
    servers = [Upsd(upsd, False)]
    if os.access(NUT_UPSD, os.X_OK):
        servers.append(Upsd(NUT_UPSD, True))
    else:
        print("NUT's upsd isn't installed (Debian's package nut-server): no ratios")
    with tempfile.TemporaryDirectory() as folder:
        for name, count, few, many, parts in rows(folder, upsmon):
            if word not in name:
                continue
            ours, *nuts = [(count(it, many) - count(it, few)) / (many - few) / parts for it in servers]
            ratio = f", {ours / nuts[0]:5.2f} of NUT's {nuts[0]:10,.0f}" if nuts else ""
            print(f"{name:50} {ours:10,.0f} instructions{ratio}", flush=True)


if __name__ == "__main__":
    main()
