#!/usr/bin/env python3
"""Measures upsd over sockets, and beside it NUT's own upsd if Debian's package has installed it: the same table, told by two of
this project's dummy drivers, on the same machine, taking turns.

    bench/sockets.py UPSD DUMMY_UPS [SECONDS]

SECONDS (by default 1) is how long each measurement takes. More answers a second are better; of the time to an answer, the
server's processor time for an answer, and memory, less is better. It reads /proc, so it needs Linux."""

import getpass
import os
import shutil
import socket
import statistics
import subprocess
import sys
import tempfile
import time

HERE = os.path.dirname(os.path.abspath(__file__))
sys.path.insert(0, os.path.dirname(HERE))

from tests.programs.hostile_clients import Hostile
from tests.support.room import free_port

NUT_UPSD = "/lib/nut/upsd"
VARIABLES = 60
ROUNDS = 9

# what is asked: a name, the request, the lines of its answer, connections, requests sent at once on each
LOADS = [
    ("GET VAR, 1 client", "GET VAR su700 ups.status", 1, 1, 1),
    ("GET VAR, 50 clients", "GET VAR su700 ups.status", 1, 50, 1),
    ("GET VAR, 200 clients", "GET VAR su700 ups.status", 1, 200, 1),
    ("GET VAR, 1 client, 8 at a time", "GET VAR su700 ups.status", 1, 1, 8),
    ("LIST VAR, 1 client", "LIST VAR su700", VARIABLES + 3, 1, 1),
]
# what a loop answers that reads nothing but line feeds, and the load at which servers are compared with it
LIMIT_REPLY = 'VAR su700 ups.status "OL"'
LIMIT_LOAD = ("GET VAR, 10 clients, 8 at a time", "GET VAR su700 ups.status", 1, 10, 8)


def script():
    return "ups.status: OL\n" + "".join(f"ambient.{i}.temperature: 21.{i}\n" for i in range(VARIABLES))


def exact_processor_time(pid):
    """Returns how many seconds of processor time a process of one thread has used, to the nanosecond. What processor_time of the
    tests counts are ticks, which miss bursts between two of them."""
    with open(f"/proc/{pid}/schedstat") as file:
        return int(file.read().split()[0]) / 1e9


class Server:
    """An upsd with its driver."""

    def __init__(self, name, folder, dummy, command, environment=None):
        self.name = name
        self.host, self.port = "127.0.0.1", free_port()
        self.folder = os.path.join(folder, name)
        os.mkdir(self.folder)
        for file, text in (
            ("ups.conf", "[su700]\ndriver = dummy-ups\nport = su700.dev\n"),
            ("upsd.users", ""),
            ("upsd.conf", f"LISTEN 127.0.0.1 {self.port}\nMAXCONN 256\n"),
            ("su700.dev", script()),
        ):
            with open(os.path.join(self.folder, file), "w") as out:
                out.write(text)
        self.driver = subprocess.Popen([dummy, os.path.join(self.folder, "su700.dev"), os.path.join(self.folder, "dummy-ups-su700")])
        time.sleep(0.5)
        words = [word.replace("FOLDER", self.folder) for word in command]
        variables = {name: self.folder for name in environment or ()}
        quiet = {"stdout": subprocess.DEVNULL, "stderr": subprocess.DEVNULL}
        self.process = subprocess.Popen(words, env={**os.environ, **variables}, **quiet)
        self.wait()

    def connect(self):
        return socket.create_connection((self.host, self.port))

    def wait(self):
        for _ in range(200):
            try:
                with self.connect() as client:
                    client.sendall(b"GET VAR su700 ups.status\n")
                    if client.recv(100).startswith(b"VAR"):
                        return
            except OSError:
                pass
            time.sleep(0.05)
        self.stop()
        sys.exit(f"{self.name} doesn't serve")

    def load(self, program, seconds, request, lines, clients, in_flight):
        """Returns the answers a second, the median and 99th percentile of the time to one in microseconds, and the server's
        processor time for one in microseconds."""
        words = [program, self.port, clients, in_flight, lines, seconds, request]
        before = exact_processor_time(self.process.pid)
        done = subprocess.run([str(word) for word in words], stdout=subprocess.PIPE, check=True)
        rate, middle, worst = (int(word) for word in done.stdout.split())
        return rate, middle, worst, (exact_processor_time(self.process.pid) - before) * 1e6 / (rate * seconds)

    def show_memory(self, when):
        """Prints how much memory is resident, and how much of it is no part of a file that other programs share."""
        with open(f"/proc/{self.process.pid}/status") as status:
            kib = {name: value.split()[0] for name, value in (line.split(":", 1) for line in status) if name in ("VmRSS", "RssAnon")}
        print(f"{self.name}: {kib['VmRSS']} KiB resident, {kib['RssAnon']} of these its own, {when}")

    def stop(self):
        for process in (self.process, self.driver):
            process.kill()
            process.wait()


class Limit(Server):
    """What one thread can do at most (limit.c): a loop that answers each line feed with a reply that it has."""

    def __init__(self, program):
        self.name = "limit"
        self.host, self.port = "127.0.0.1", free_port()
        self.process = subprocess.Popen([program, str(self.port), LIMIT_REPLY])
        self.driver = self.process
        self.wait()


def compiled(folder, name):
    """Returns the path of a program of this folder, compiled."""
    program = os.path.join(folder, name)
    compiler = shutil.which("cc") or shutil.which("clang")
    if compiler is None:
        sys.exit("a C compiler is missing: the load comes from a program in C (cc or clang)")
    subprocess.run([compiler, "-O2", "-o", program, os.path.join(HERE, f"{name}.c")], check=True)
    return program


def compare_with_limit(servers, limit, program, seconds):
    """Prints what an answer takes of the server's processor, and what it takes of the loop's: the least of the rounds, and the
    ratio in the middle of them, since other work of the machine can double either from one second to the next."""
    name, request, lines, clients, in_flight = LIMIT_LOAD
    costs = {it.name: [] for it in [limit, *servers]}
    for _ in range(ROUNDS):
        for it in [limit, *servers]:
            costs[it.name].append(it.load(program, seconds, request, lines, clients, in_flight)[3])
    for it, found in costs.items():
        ratio = statistics.median(mine / loop for mine, loop in zip(found, costs["limit"]))
        least = min(found)
        print(f"{name:32} {it:6} processor {least:6.2f} us an answer, {least / min(costs['limit']):.2f} of the bare loop's; {ratio:.2f} in the middle")


def best(rounds):
    """Returns the most answers a second, and the least times. Other work of the machine only slows a round down, so the best
    of many rounds says more than their middle."""
    rates, middles, worsts, costs = zip(*rounds)
    return max(rates), min(middles), min(worsts), min(costs)


def show_memory_with(server, what, clients):
    """Prints how much memory is resident while these clients are connected."""
    time.sleep(1)
    server.show_memory(f"with {what}")
    for client in clients:
        client.close()
    time.sleep(1)


def measure(servers, program, seconds):
    for name, request, lines, clients, in_flight in LOADS:
        found = {server.name: [] for server in servers}
        for _ in range(ROUNDS):
            for server in servers:
                found[server.name].append(server.load(program, seconds, request, lines, clients, in_flight))
        rows = {it: best(rounds) for it, rounds in found.items()}
        for it, (rate, middle, worst, cost) in rows.items():
            print(f"{name:32} {it:6} {rate:8} answers/s, median {middle:6} us, 99th percentile {worst:6} us, processor {cost:6.2f} us")
        if len(rows) == 2:
            (ours, _, our_worst, our_cost), (theirs, _, their_worst, their_cost) = rows["upsd"], rows["nut"]
            ratios = f"{our_worst / max(their_worst, 1):.2f} of the 99th percentile, {our_cost / max(their_cost, 0.01):.2f} of the processor"
            print(f"{'':32} ratio  {ours / theirs:8.2f} of the answers/s, {ratios}")


def main():
    upsd, dummy = (os.path.abspath(it) for it in sys.argv[1:3])
    seconds = float(sys.argv[3]) if len(sys.argv) > 3 else 1.0
    with tempfile.TemporaryDirectory() as folder:
        program = compiled(folder, "load")
        servers = []
        try:
            servers.append(Server("upsd", folder, dummy, [upsd, "--conf", "FOLDER", "-s", "FOLDER", "-q"]))
            if os.access(NUT_UPSD, os.X_OK):
                places = ("NUT_CONFPATH", "NUT_STATEPATH", "NUT_ALTPIDPATH")
                servers.append(Server("nut", folder, dummy, [NUT_UPSD, "-F", "-u", getpass.getuser()], places))
            else:
                print("NUT's upsd isn't installed (Debian's package nut-server): no ratios")
            for server in servers:
                server.show_memory("idle")
                show_memory_with(server, "256 idle connections", [server.connect() for _ in range(256)])
            # (NUT's accepts fewer)
            deaf = [Hostile(servers[0], b"LIST VAR su700\n" * 34) for _ in range(255)]
            show_memory_with(servers[0], "255 clients that ask for lists and read nothing", deaf)
            measure(servers, program, seconds)
            limit = Limit(compiled(folder, "limit"))
            try:
                compare_with_limit(servers, limit, program, seconds)
            finally:
                limit.stop()
        finally:
            for server in servers:
                server.stop()


if __name__ == "__main__":
    main()
