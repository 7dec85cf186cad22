"""A running upsmon, and servers for it that the tests play."""

import contextlib
import os
import shutil
import signal
import socket
import subprocess
import tempfile
import threading
import time

from tests.support.harness import Failed, Shimmed, expect, patience, processor_time, read, read_bytes, write
from tests.support.room import SOON, STATUS, Room, family_of, free_port, stopped, until

FLAG = b"upsmon-shutdown-file\n"
ON_BATTERY = "UPS %s on battery"
BATTERY_LOW = "UPS %s battery is low"
FORCED = "UPS %s: forced shutdown in progress"
LOST = "Communications with UPS %s lost"
ESTABLISHED = "Communications with UPS %s established"
UNAVAILABLE = "UPS %s is unavailable"
SHUTDOWN = "Auto logout and shutdown proceeding"
# how the lines begin that say on standard error what a shutdown is for and whom it doesn't wait for
OF_SHUTDOWN = "upsmon: shutdown: "
# so that each run is short: the status is asked for each second, and no delay is waited for
QUICK = "POLLFREQ 1\nHOSTSYNC 1\nFINALDELAY 0\n"
USERS = b"[mon]\npassword = m1\nupsmon primary\n[guest]\npassword = g1\nupsmon secondary\n"


def put_program(path, script, mode=0o755):
    """Makes a program out of a script for the shell. Returns its path."""
    return write(path, f"#!/bin/sh\n{script}\n", mode)


def children_of(pid):
    """Returns the numbers of the processes that a process started and that weren't waited for."""
    return [int(it) for it in read(f"/proc/{pid}/task/{pid}/children").split()]


class Watch:
    """A running upsmon, with a folder of its own for its configuration and what it writes."""

    def __init__(self, program, folder, conf, *words, **options):
        self.folder = tempfile.mkdtemp(dir=folder)
        self.put(conf)
        streams = {"stdin": subprocess.DEVNULL, "stdout": self.open("out"), "stderr": self.open("err"), **options}
        # a session of its own, so that what it started is ended with it
        self.process = subprocess.Popen([program, "--conf", self.folder, *words], start_new_session=True, **streams)

    def __enter__(self):
        return self

    def __exit__(self, *_):
        self.signal(signal.SIGKILL)
        self.process.wait()
        shutil.rmtree(self.folder, ignore_errors=True)

    def signal(self, number):
        """Sends a signal to it and to all that it has started."""
        with contextlib.suppress(ProcessLookupError):
            os.killpg(self.process.pid, number)

    def stopped(self):
        """Stops it and all that it has started, for a while."""
        return stopped(self.process, self.signal)

    def path(self, name):
        return os.path.join(self.folder, name)

    def open(self, name):
        return open(self.path(name), "wb")

    def read(self, name):
        """Returns the contents of a file of the folder, or None if there is none."""
        try:
            return read_bytes(self.path(name))
        except FileNotFoundError:
            return None

    def put(self, conf, name="upsmon.conf", mode=None):
        """Replaces a file of the folder, which the text calls FOLDER."""
        write(self.path(name), conf.replace("FOLDER", self.folder), mode)

    def reload(self, conf=None):
        """Asks for a reload, of this upsmon.conf if one is given."""
        if conf is not None:
            self.put(conf)
        write(self.path("reload"), "")

    def lines(self, name="out"):
        return self.read(name).decode().splitlines()

    def told(self):
        """Returns the lines of standard error, without those that say what a shutdown is for and whom it doesn't wait for."""
        return [line for line in self.lines("err") if not line.startswith(OF_SHUTDOWN)]

    def of_shutdown(self):
        """Returns those that do, without their beginning."""
        return [line[len(OF_SHUTDOWN) :] for line in self.lines("err") if line.startswith(OF_SHUTDOWN)]

    def until_printed(self, line, within=SOON, name="out"):
        until(lambda: line in self.lines(name) or self.process.poll() is not None, f"upsmon writes {line!r}", within)
        expect(line in self.lines(name), True, f"upsmon writes {line!r} before it ends: {self.lines(name)}")

    def until_told(self, line, within=SOON):
        """Waits for a line on standard error."""
        self.until_printed(line, within, "err")

    def status(self, within=SOON):
        """Returns its exit status, once it has ended."""
        try:
            return self.process.wait(within)
        except subprocess.TimeoutExpired:
            raise Failed(f"upsmon hasn't ended within {within} s; it printed {self.lines()}, {self.lines('err')}") from None

    def is_idle(self, seconds=1.5, most=0.3):
        used = processor_time(self.process.pid)
        time.sleep(seconds)
        return processor_time(self.process.pid) - used <= patience(most)


class Upstream:
    """A server that the test plays, with a thread for each connection. It answers each line with `answer`, and keeps the
    lines."""

    def __init__(self, port=None, status=b"OL", host="127.0.0.1"):
        self.listener = socket.create_server((host, port or free_port()), family=family_of(host))
        self.port = self.listener.getsockname()[1]
        self.target = f"su700@127.0.0.1:{self.port}"
        self.statuses = {b"su700": status}
        self.logins = 1
        self.asked = []
        # when each status was first told
        self.told = {}
        self.ends = []
        threading.Thread(target=self.let_in, daemon=True).start()

    def __enter__(self):
        return self

    def __exit__(self, *_):
        self.close()

    def line(self, role="primary", power=1):
        """Returns the MONITOR line of a machine that watches its UPS."""
        return f"MONITOR {self.target} {power} mon m1 {role}\n"

    def queries(self):
        """Returns the lines that it was asked, without their ends."""
        return b"".join(self.asked).splitlines()

    def until_asked(self, times=1, within=SOON):
        """Waits until the status was asked for so many times."""
        until(lambda: self.asked.count(STATUS) >= times, "the status is asked for", within)

    def until_asked_again(self, times=1, within=SOON):
        """Waits until the status was asked for so many times more. What a query after the next one follows was heard."""
        self.until_asked(self.asked.count(STATUS) + times, within)

    def close(self):
        # a thread waits in accept, which closing alone doesn't end
        for end in (self.listener, *self.ends):
            with contextlib.suppress(OSError):
                end.shutdown(socket.SHUT_RDWR)
            end.close()

    def let_in(self):
        while True:
            try:
                end, _ = self.listener.accept()
            except OSError:
                return
            self.ends.append(end)
            threading.Thread(target=self.converse, args=(end,), daemon=True).start()

    def converse(self, end):
        with contextlib.suppress(OSError, ValueError), end, end.makefile("rb") as file:
            self.greet(end)
            for line in file:
                self.asked.append(line)
                self.send(end, self.answer(line))

    def greet(self, end):
        """Does what comes before any query: nothing here, but a subclass may send or close."""

    def send(self, end, data):
        end.sendall(data)

    def answer(self, line):
        words = line.split()
        if words[:2] == [b"GET", b"VAR"]:
            status = self.statuses[words[2]]
            self.told.setdefault(status, time.monotonic())
            return status if status.startswith(b"ERR") else b'VAR %s ups.status "%s"\n' % (words[2], status)
        if words[:2] == [b"GET", b"NUMLOGINS"]:
            return b"NUMLOGINS %s %d\n" % (words[2], self.logins)
        return b"OK FSD-SET\n" if words[0] == b"FSD" else b"OK\n"


class ByteByByte(Upstream):
    # between two bytes, in seconds
    pause = 0.002

    def greet(self, end):
        end.setsockopt(socket.IPPROTO_TCP, socket.TCP_NODELAY, 1)

    def send(self, end, data):
        for byte in data:
            end.sendall(bytes([byte]))
            time.sleep(self.pause)


class Closing(Upstream):
    def greet(self, end):
        end.shutdown(socket.SHUT_RDWR)


class Rubbish(Upstream):
    def greet(self, end):
        end.sendall(b'BEGIN LIST UPS\n\xff\x00 "')


class Nonsense(Upstream):
    """It answers the query for a status with a line that is no answer."""

    def answer(self, line):
        return b"HTTP/1.0 400 Bad Request\n" if line.startswith(b"GET VAR") else super().answer(line)


class Urgent(Upstream):
    """It splits each line by urgent data. Its monitor is stopped meanwhile, so that all of the line arrives at once."""

    watch = None

    def send(self, end, data):
        until(lambda: self.watch is not None, "the monitor is known")
        with self.watch.stopped():
            end.sendall(data[:2])
            end.send(b"!", socket.MSG_OOB)
            end.sendall(data[2:])


class Endless(Upstream):
    """It sends one line that never ends."""

    def greet(self, end):
        while True:
            end.sendall(b"x" * 4096)


class Silent(Upstream):
    def answer(self, line):
        return b""


class MonitorTests(Shimmed):
    """Tests of a running upsmon, with the built programs and a folder for all that they write."""

    def __init__(self, *programs_and_folder):
        *self.programs, self.folder = programs_and_folder
        self.upsd, self.dummy, self.upsc, self.upsmon = self.programs

    def room(self, users=USERS, **options):
        """Returns a room whose server knows a primary and a secondary."""
        return Room((self.upsd, self.dummy), self.folder, users=users, **options)

    def watch(self, conf, *words, program=None, **options):
        """Starts an upsmon, or this program, with this file."""
        return Watch(program or self.upsmon, self.folder, conf, *words, **options)

    @contextlib.contextmanager
    def watched(self, conf, *words, role="primary", power=1, status=b"OL", logins=1, kind=Upstream, **options):
        """Starts an upsmon that watches a server which the test plays, by the line of that and this file. Yields both."""
        with kind(status=status) as server:
            server.logins = logins
            with self.watch(server.line(role, power) + conf, *words, **options) as watch:
                yield server, watch
