"""Runs a room of built programs, records what happens at their ends, and has `nutsim` play it again.

    python3 -m tests.programs.recorded_room UPSD DUMMY_UPS UPSMON NUTSIM

Between each upsmon and upsd there is a network of the test, which delays bytes, cuts them anew, and loses them with their links. The
programs write down what they do (tests/support/record.c). Their record has to be a run as nut_running defines it: `first_fault`
repeats in Python what Running.antt says of a network. Then `nutsim` plays the schedule that follows the run step by step. It has to
skip no step, and to tell the notices and halts of the record at the same steps. The plain model of a room has to move the same
bytes at each step, so each monitor learns the same statuses."""

import collections
import contextlib
import functools
import os
import random
import re
import socket
import sys
import threading
import time

from tests.programs.nutsim import RoomFiles, server_files
from tests.support import manual, room_model
from tests.support.harness import build_library, ended, ensure, expect, play, read
from tests.support.model import Config, User
from tests.support.monitored import MonitorTests
from tests.support.room import ONLINE, STATUS, Room, free_port, until
from tests.support.room_model import Rules, Watched, line_of, shown

# the clocks of the programs are faster, and none misses a second; for how many seconds of this clock what comes soon is waited for
CLOCK, SOON, FOREVER = {"HASTE": "4", "LEAP": "0.9"}, 60, 1_000_000
# the longest delay of a piece, in seconds
DELAY = 0.03
CONFIG = Config([(b"su700", b"Server room")], {b"mon": User(b"m1", (), (), "primary"), b"sec": User(b"m2", (), (), "secondary")})
ON_BATTERY = b"ups.status: OB\nTIMER 1\nups.status: OB DISCHRG\nTIMER 86400\n"
MONITORS = 3
# how many runs with a fault are tried
FAULTY_RUNS = 300
SERVER = "server"
EVENTS = {"opened": "Open", "called": "Up", "put": "Took", "got": "Bytes", "closed": "Lost", "second": "Moment", "said": "Said"}

# What happened at the server or at the monitor of a number. The end of a link is the number of the server's connection, 0 for its
# driver's, or a monitor with the number of its call. That of a Moment is its second.
Happening = collections.namedtuple("Happening", "at event end bytes")


def other_ends(network):
    """Returns the other end of each end. A network has for each call of a monitor the connection of the server that belongs to it."""
    return {**network, **{c: call for call, c in network.items()}}


def first_fault(run, network):
    """Returns the number of the first happening that this network can't bring about, or None. No connection belongs to two calls.
    Bytes come to an end only if they are the next that the other end has sent, to a monitor on its last call. Whatever belongs to no
    call may say anything to the server."""
    others = other_ends(network)
    if len(others) < 2 * len(network):
        return 0
    calls, sent, came = collections.Counter(), collections.defaultdict(bytes), collections.defaultdict(bytes)
    for number, it in enumerate(run):
        calls[it.at] += it.event == "Linked"
        if it.event == "Took":
            sent[it.end] += it.bytes
        if it.event == "Bytes":
            came[it.end] += it.bytes
            is_next = it.end in others and sent[others[it.end]].startswith(came[it.end])
            may_be = is_next or it.end not in others if it.at == SERVER else is_next and it.end == (it.at, calls[it.at])
            if not it.bytes or not may_be:
                return number
    return None


def run_of(record, joined):
    """Returns the run that the lines of a record tell, and its network. For a monitor and the port of its call, `joined` has the port
    from which the network called the server."""
    run, connections, ports, seconds = [], {"0": 0}, collections.defaultdict(list), collections.Counter()
    for line in record:
        at, word, port, digits = line.split(" ")
        at = at if at == SERVER else int(at)
        if word == "second":
            # the first look at the file is that at the start
            end = seconds[at]
            seconds[at] += 1
        elif word == "said":
            end = None
        elif at == SERVER:
            end = connections.setdefault(port, len(connections))
        else:
            # a monitor has a link from its first query on
            if word == "put" and port not in ports[at]:
                ports[at].append(port)
                run.append(Happening(at, "Linked", (at, len(ports[at])), b""))
            if port not in ports[at]:
                continue
            end = at, ports[at].index(port) + 1
        run.append(Happening(at, EVENTS[word], end, bytes.fromhex(digits)))
    called = {(m, k): joined.get((m, port)) for m in ports for k, port in enumerate(ports[m], 1)}
    return run, {call: connections[port] for call, port in called.items() if port in connections}


def schedule_of(run, network):
    """Returns the steps that follow a run, each with the bytes of its happening, and the notices, each with the number of the step
    before it. Both ends of a link are made at once: when the monitor has its end. If the server still has the old one, a link of
    another monitor takes that over: it logs in and does nothing else. Connections that belong to no call are left out."""
    others, steps, notices, last, line = other_ends(network), [], [], {}, b""
    # the connection of each monitor's link that the server has, and who took over an old one
    open_ends, kept = {}, {}
    for it in run:
        is_server, new = it.at == SERVER, []
        m = it.at if not is_server else others.get(it.end, (None,))[0]
        if it.event == "Said":
            notices += [(last[m], f"monitor {m} {text}") for text in it.bytes.decode().splitlines()]
        elif it.event == "Moment":
            new = [("server", it.end) if is_server else ("monitor", m, it.end)]
        elif is_server and it.end == 0 and it.event == "Bytes":
            *lines, line = (line + it.bytes).split(b"\n")
            new = [("driver", 0, text) for text in lines]
        elif is_server and it.end == 0 and it.event != "Took":
            new, line = [("up" if it.event == "Up" else "down", 0)], b""
        elif it.event == "Linked":
            if m in open_ends:
                keeper = kept[open_ends.pop(m)] = m + MONITORS
                moves = [(verb, keeper, 0, 512) for verb in ("out", "reach", "back", "land")]
                steps += [(step, None) for step in (("link", keeper, 0), *3 * moves, ("cut-server", m, 0))]
            # the server never took a call that the network doesn't know
            new = [("link", m, 0), ("cut-server", m, 0)][: 1 if it.end in others else 2]
            if it.end in others:
                open_ends[m] = others[it.end]
        elif is_server and it.end in kept and it.event != "Up":
            expect(it.event, "Lost", "what happens on an old connection")
            new = [("cut-server", kept.pop(it.end), 0)]
        elif m is not None and it.event == "Lost":
            if is_server:
                del open_ends[m]
            new = [("cut-server" if is_server else "cut-monitor", m, 0)]
        elif m is not None and it.bytes:
            new = [({"Took": ("out", "back"), "Bytes": ("land", "reach")}[it.event][is_server], m, 0, len(it.bytes))]
        steps += [(step, it.bytes) for step in new]
        if new:
            last[it.at] = len(steps)
    return steps, notices


def moved_by(model, word, m, i, count):
    """Returns the bytes that a step of a model moves."""
    pipes, monitor = model.pipes[m][i], model.monitors[m]
    if word in ("out", "back"):
        return (monitor.watches[i].call.waits if word == "out" else model.server.waits(pipes.connection))[:count]
    return (pipes.to_server if word == "reach" else pipes.to_monitor)[:count]


def faulty(run, network, kind, chance):
    """Returns a run in which bytes came that can't have, and the number of the happening that can't be."""
    others, sources, came, arrivals = other_ends(network), collections.defaultdict(list), collections.Counter(), []
    for number, it in enumerate(run):
        if it.event == "Took":
            sources[it.end] += [number] * len(it.bytes)
        if it.event == "Bytes" and it.end in others:
            came[it.end] += len(it.bytes)
            if len(set(it.bytes)) > 1:
                # with the happening that sent its last byte
                arrivals.append((number, sources[others[it.end]][came[it.end] - 1]))
    number, source = chance.choice(arrivals)
    it = run[number]
    if kind == "early":
        return [*run[:source], it, *run[source:number], *run[number + 1 :]], source
    place = chance.choice([at for at in range(1, len(it.bytes)) if it.bytes[at] != it.bytes[at - 1]])
    front, one, other, behind = it.bytes[: place - 1], it.bytes[place - 1 : place], it.bytes[place : place + 1], it.bytes[place + 1 :]
    spoilt = front + {"swapped": other + one, "invented": one + one + other, "lost": other}[kind] + behind
    return [*run[:number], it._replace(bytes=spoilt), *run[number + 1 :]], number


class Network:
    """The network between one monitor and the server, with a port for the monitor. It takes a call if it is up and the call before has
    ended: both its ends are closed, or the monitor's, while the switch restarts."""

    def __init__(self, server_port, chance):
        self.port, self.server_port, self.chance = free_port(), server_port, chance
        # for each call the monitor's port, with the network's own at the server
        self.joined = {}
        self.is_up, self.loses, self.ends = True, (), ()
        # whether the switch restarts, and the old end that the server has since
        self.restarts, self.old = False, None
        threading.Thread(target=self.run, daemon=True).start()

    def run(self):
        while True:
            monitor, server = self.ends = self.next_call(), socket.create_connection(("127.0.0.1", self.server_port))
            self.joined[str(monitor.getpeername()[1])] = str(server.getsockname()[1])
            self.loses, self.restarts = (), False
            carriers = [threading.Thread(target=self.carry, args=ends, daemon=True) for ends in (self.ends, self.ends[::-1])]
            for it in carriers:
                it.start()
            carriers[0].join()
            if self.restarts:
                self.old = server
            else:
                carriers[1].join()
                server.close()
            monitor.close()
            self.ends = ()

    def restart(self):
        """Loses all bytes until the monitor calls again. The server isn't told that the end of the old call is closed."""
        self.restarts, self.loses = True, self.ends

    def next_call(self):
        while True:
            until(lambda: self.is_up, "the network is up", FOREVER)
            with until(self.listener, "the port is free") as listener:
                while self.is_up:
                    with contextlib.suppress(TimeoutError):
                        return listener.accept()[0]

    def listener(self):
        # a program that is about to start has the socket of the last listener, too, until it begins
        with contextlib.suppress(OSError):
            listener = socket.create_server(("127.0.0.1", self.port))
            listener.settimeout(0.1)
            return listener

    def carry(self, source, target):
        """Carries what comes from one end to the other, late and in other pieces, and then has the other closed, unless the switch
        restarts."""
        with contextlib.suppress(OSError):
            while piece := source.recv(self.chance.randrange(1, 64)):
                time.sleep(self.chance.random() * DELAY)
                if source not in self.loses:
                    target.sendall(piece)
        if not self.restarts:
            close_later(target)

    def cut(self, closes, loses=()):
        """Has the ends at these places closed, 0 for the monitor's and 1 for the server's. What some of them send is lost."""
        ends = self.ends
        self.loses = [ends[it] for it in loses if ends]
        for it in closes if ends else ():
            close_later(ends[it])


def close_later(end):
    """Has a program close its end of a link."""
    with contextlib.suppress(OSError):
        end.shutdown(socket.SHUT_WR)


class Tests(MonitorTests):
    def __init__(self, upsd, dummy, upsmon, nutsim, folder):
        super().__init__(upsd, dummy, "", upsmon, folder)
        self.nutsim = nutsim

    @functools.cached_property
    def libraries(self):
        return ":".join(build_library(it, self.folder) for it in ("record", "hasten"))

    def recorded(self, name):
        """Returns the environment of a program that is recorded by this name."""
        return {**os.environ, **CLOCK, "LD_PRELOAD": self.libraries, "RECORD": self.record, "RECORD_AS": str(name)}

    def lines(self):
        """Returns the whole lines of the record."""
        return read(self.record).rpartition("\n")[0].splitlines()

    def conf(self, m, port, halted):
        """Returns the upsmon.conf of a monitor, which gives notices by their types."""
        user, password, role = (b"sec", b"m2", "secondary") if m else (b"mon", b"m1", "primary")
        line = Watched(b"su700", role, 1, user, password, b"127.0.0.1:%d" % port)
        self.rules.append(Rules([line], POLLFREQ=1, HOSTSYNC=60, DEADTIME=(60, 60, 6)[m], FINALDELAY=(10, 1, 1)[m]))
        texts = (f'NOTIFYMSG {it} "notice {it}{" %s" * (it != "SHUTDOWN")}"\n' for it in manual.notices())
        return self.rules[m].text().decode() + f'SHUTDOWNCMD "echo {m} >> {halted}"\n' + "".join(texts)

    def answers(self, m):
        """Returns how many answers a monitor has read."""
        return sum(bytes.fromhex(it.split(" ")[3]).count(b"\n") for it in self.lines() if it.startswith(f"{m} got "))

    def go_on(self, count=8):
        """Waits until each monitor has read so many answers more: of a new link three or four, and then statuses."""
        before = [self.answers(m) for m in range(MONITORS)]
        for m in range(MONITORS):
            until(lambda: self.answers(m) >= before[m] + count, f"monitor {m} has answers", SOON)

    @functools.cached_property
    def story(self):
        """Returns the run of a room, its network, and who was halted in turn."""
        files, chance = server_files(CONFIG), random.Random(7)
        texts = {"conf": files["upsd.conf"], "ups": files["ups.conf"], "users": files["upsd.users"]}
        with Room(self.programs[:2], self.folder, **texts) as room, contextlib.ExitStack() as held:
            self.record, self.rules = room.path("record"), []
            halted = room.path("halted")

            def say(script, kind="dev"):
                for it in [it for it in room.running if self.dummy in it.args]:
                    it.kill()
                    it.wait()
                room.dummy(script, kind)

            say(b"ups.status: OL\n")
            room.upsd(env=self.recorded(SERVER))
            room.until(STATUS, ONLINE, SOON)
            self.networks = [Network(room.port, chance) for _ in range(MONITORS)]
            confs = [self.conf(m, it.port, halted) for m, it in enumerate(self.networks)]
            watches = [held.enter_context(self.watch(it, env=self.recorded(m))) for m, it in enumerate(confs)]
            self.go_on()
            for closes, loses in (((0,), ()), ((1,), ()), ((0, 1), (0, 1))):
                for it in self.networks:
                    it.cut(closes, loses)
                self.go_on()
            # no network for a second
            for it in self.networks:
                it.is_up = False
                it.cut((0, 1), (0, 1))
            time.sleep(1)
            for it in self.networks:
                it.is_up = True
            self.go_on()
            # the switch restarts
            for it in self.networks:
                it.restart()
            until(lambda: all(it.old for it in self.networks), "the monitors have given the server up", SOON)
            self.go_on()
            for it in self.networks:
                close_later(it.old)
            say(ON_BATTERY, "seq")
            for m, it in enumerate(watches):
                it.until_printed(f"notice ONBATT {self.rules[m].lines[0].target.decode()}", SOON)
            self.go_on(4)
            # what the last monitor asks is lost, and no other call of it is taken
            self.networks[2].is_up = False
            until(lambda: self.networks[2].cut((), (0,)) or watches[2].process.poll() == 0, "the monitor that is cut off ends", SOON)
            say(b"ups.status: OB LB\n")
            for it in watches:
                expect(it.status(SOON), 0, "how the others end")
            until(lambda: not any(it.ends for it in self.networks), "the server has closed all links", SOON)
            joined = {(m, port): other for m, it in enumerate(self.networks) for port, other in it.joined.items()}
            return *run_of(self.lines(), joined), read(halted).split()

    def test_record_is_a_run(self):
        run, network, _ = self.story
        count = collections.Counter(it.event for it in run)
        print(f"   {len(run)} happenings: {len(network)} calls, {count['Took']} writes, {count['Bytes']} reads")
        expect(first_fault(run, network), None, "the first happening that can't be")
        ensure(len(network) >= 18, f"only {len(network)} calls")

    def test_record_with_a_fault_is_no_run(self):
        run, network, _ = self.story
        for seed in range(FAULTY_RUNS):
            chance = random.Random(seed)
            kind = chance.choice(("swapped", "invented", "early", "lost"))
            found, place = faulty(run, network, kind, chance)
            expect(first_fault(found, network), place, f"{kind}, seed {seed}")
        # calls of two users
        one, other = (0, 1), (1, 1)
        ensure(first_fault(run, {**network, one: network[other]}) is not None, "a connection of two calls")
        ensure(first_fault(run, {**network, one: network[other], other: network[one]}) is not None, "connections of each other's call")
        ensure(first_fault(run, {call: c for call, c in network.items() if call != one}) is not None, "answers on no connection")

    def test_schedule_is_played(self):
        run, network, halted = self.story
        steps, notices = schedule_of(run, network)
        ensure([step[:2] for step, _ in steps].count(("link", MONITORS)) == 1, "the server had an old connection of the primary")
        rules = 2 * self.rules
        model, due = room_model.Room(CONFIG, rules), []
        for number, (step, moved) in enumerate(steps, 1):
            if step[0] in ("out", "reach", "back", "land") and moved is not None:
                expect(moved_by(model, *step), moved, f"step {number}, {step}")
            news = model.play(step)
            ensure(("skipped",) not in news, f"step {number}, {step}, can't be")
            due += [shown(number, told) for told in news]
        room = RoomFiles(os.path.join(self.folder, "played"), CONFIG, rules)
        words = [self.nutsim, room.folder, "/dev/stdin", *room.monitors]
        status, out, err = ended(words, input=b"".join(line_of(step) for step, _ in steps))
        expect((status, err, out), (0, "", b"".join(due).decode()), "what nutsim tells, and the model")
        found = re.findall(r"(\d+): (monitor \d notice .*)", out)
        expect([(int(number), text) for number, text in found], sorted(notices, key=lambda it: it[0]), "notices")
        expect((re.findall(r"monitor (\d) phase Halted", out), sorted(halted)), (halted, ["0", "1", "2"]), "who is halted in turn")
        print(f"   {len(steps)} steps, {len(found)} notices")


if __name__ == "__main__":
    sys.exit(play(Tests, 4))
