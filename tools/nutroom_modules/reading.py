"""Reads the description of a room, and the configuration files that it names."""

import dataclasses
import os
import re
import tempfile

from nutroom_modules.bounds import PATIENCE_ON_BATTERY, bound_of
from nutroom_modules.faults import Fault, RoomFault
from nutroom_modules.files import conf_lines, read_text, sections, words_of
from nutroom_modules.rooms import Change, Line, Machine, Room, Rules, Server
from nutroom_modules.staging import client_rules, stage
from nutroom_modules.times import LONGEST, SECOND


NAME = re.compile(r"[A-Za-z0-9._-]{1,32}")
SECONDS = re.compile(r"[0-9]{1,6}(\.[0-9]{1,3})?")


class RoomReader:
    """Reads a description, line by line. Names are looked up once all lines are read, so their order doesn't matter."""

    def __init__(self, path):
        self.room = Room(path)
        self.waits = []

    def read(self):
        for number, text in enumerate(read_text(self.room.path).split("\n"), 1):
            words = words_of(text.rstrip("\r"))
            if words is None:
                raise self.fault(number, "a quote or a backslash is left open")
            if words:
                self.read_line(number, words)
        if not self.room.machines:
            raise self.fault(0, "no line 'machine'")
        self.room.servers = self.room.servers or [Server(os.path.dirname(self.room.path) or ".")]
        for number, server in enumerate(self.room.servers):
            for ups in sections(server.path("ups.conf")):
                self.room.upses.append(ups_name(ups, server))
                self.room.owners.append(number)
        for verb, number, words in self.waits:
            verb(number, words)
        if not self.room.changes:
            raise self.fault(0, "no line 'at': nothing happens")
        self.room.changes.sort(key=lambda it: it.time)
        self.check_cuts()
        return self.room

    def fault(self, number, text):
        return RoomFault(self.room.path, number, text)

    def read_line(self, number, words):
        first = {"conf": self.read_conf, "server": self.read_server, "machine": self.read_machine}
        later = {"client": self.read_client, "battery": self.read_battery, "at": self.read_change}
        if words[0] in first:
            first[words[0]](number, words)
        elif words[0] in later:
            self.waits.append((later[words[0]], number, words))
        else:
            raise self.fault(number, f"{words[0]!r} is no line of a room: there are {', '.join([*first, *later][:-1])} and at")

    def read_conf(self, number, words):
        if len(words) != 2:
            raise self.fault(number, "wanted: conf FOLDER")
        if self.room.servers:
            raise self.fault(number, "a second line 'conf', or one beside 'server'")
        self.room.servers.append(Server(self.beside(words[1])))

    def read_server(self, number, words):
        if len(words) != 3:
            raise self.fault(number, "wanted: server NAME FOLDER")
        if any(it.name in (None, words[1]) for it in self.room.servers):
            raise self.fault(number, f"a second server {words[1]}, or one beside 'conf'")
        self.room.servers.append(Server(self.beside(words[2]), self.name(number, words[1])))

    def read_machine(self, number, words):
        if len(words) != 6 or words[3] != "delay":
            raise self.fault(number, "wanted: machine NAME UPSMON.CONF delay LEAST GREATEST")
        if self.room.machine_number(words[1]) is not None:
            raise self.fault(number, f"a second machine {words[1]}")
        self.room.machines.append(Machine(self.name(number, words[1]), self.beside(words[2]), *self.delays(number, words[4:])))

    def read_client(self, number, words):
        if len(words) != 5 or words[2] != "delay":
            raise self.fault(number, "wanted: client UPS delay LEAST GREATEST")
        rules = client_rules(self.ups(number, words[1]))
        self.room.clients.append(Machine("", None, *self.delays(number, words[3:]), rules, is_client=True))

    def name(self, number, word):
        if not NAME.fullmatch(word):
            raise self.fault(number, f"{word!r} is no name: 1 to 32 letters, digits, '.', '_' and '-'")
        return word

    def delays(self, number, words):
        least, greatest = (self.time(number, it) for it in words)
        if least > greatest:
            raise self.fault(number, "the least delay is above the greatest")
        if greatest > PATIENCE_ON_BATTERY * SECOND:
            raise self.fault(number, f"a delay above {PATIENCE_ON_BATTERY} s: upsmon gives up a server that takes longer while a UPS is on battery")
        return least, greatest

    def ups(self, number, word):
        if word not in self.room.upses:
            raise self.fault(number, f"ups.conf has no UPS {word}")
        return self.room.upses.index(word)

    def read_battery(self, number, words):
        if len(words) != 3:
            raise self.fault(number, "wanted: battery UPS SECONDS")
        ups = self.ups(number, words[1])
        if ups in self.room.batteries:
            raise self.fault(number, f"a second battery of {words[1]}")
        self.room.batteries[ups] = self.time(number, words[2])

    def read_change(self, number, words):
        if len(words) < 4:
            raise self.fault(number, "wanted: at SECONDS UPS STATUS.., or: at SECONDS MACHINE cut|back")
        time, name, rest = self.time(number, words[1]), words[2], words[3:]
        machine = self.room.machine_number(name)
        if machine is not None and name in self.room.upses:
            raise self.fault(number, f"{name} is a machine and a UPS")
        if machine is not None:
            if rest not in (["cut"], ["back"]):
                raise self.fault(number, f"a machine is 'cut' or 'back', and not {' '.join(rest)!r}")
            self.room.changes.append(Change(time, number, machine=machine, is_cut=rest == ["cut"]))
        elif name in self.room.upses:
            self.room.changes.append(Change(time, number, ups=self.room.upses.index(name), status=self.status(number, rest)))
        else:
            raise self.fault(number, f"{name} is neither a machine of this room nor a UPS of ups.conf")

    def status(self, number, words):
        for word in words:
            if not re.fullmatch("[A-Z]{1,16}", word):
                raise self.fault(number, f"{word!r} is no word of a status, which are like OL, OB, LB")
        return " ".join(words)

    def time(self, number, word):
        if not SECONDS.fullmatch(word) or float(word) > LONGEST:
            raise self.fault(number, f"{word!r} is no time: seconds up to {LONGEST}, with at most 3 digits behind the point")
        return round(float(word) * SECOND)

    def beside(self, path):
        """Returns a path that is relative to the folder of the description."""
        return os.path.join(os.path.dirname(self.room.path), path)

    def check_cuts(self):
        cut = set()
        for change in self.room.changes:
            if change.machine is not None:
                name = self.room.machines[change.machine].name
                if change.is_cut == (change.machine in cut):
                    raise self.fault(change.number, f"{name} is cut already" if change.is_cut else f"{name} isn't cut")
                cut ^= {change.machine}


def ups_name(ups, server):
    """Returns what a description calls a UPS."""
    return ups if server.name is None else f"{ups}@{server.name}"


def server_named(room, host, machine):
    """Returns the server that the host of a MONITOR line names, or None. If the room has a single one, hosts don't count."""
    if room.servers[0].name is None:
        return room.servers[0]
    name = re.sub(":[0-9]+$", "", host)
    name = machine if name in ("localhost", "127.0.0.1", "[::1]") else name
    return next((it for it in room.servers if it.name == name), None)


def read_rules(room, machine):
    """Returns the settings of a machine's upsmon.conf. Fails if a line names a UPS that its server doesn't have."""
    path = machine.conf
    numbers = {"MINSUPPLIES": 1, "POLLFREQ": 5, "DEADTIME": 15, "HOSTSYNC": 15, "FINALDELAY": 5}
    lines = []
    for number, words in enumerate(conf_lines(path), 1):
        if words and words[0] == "MONITOR":
            name, _, host = words[1].partition("@")
            server = server_named(room, host, machine.name)
            if server is None:
                raise RoomFault(path, number, f"no line 'server' has the name {host}")
            if ups_name(name, server) not in room.upses:
                raise RoomFault(path, number, f"ups.conf has no UPS {ups_name(name, server)}")
            lines.append(Line(room.upses.index(ups_name(name, server)), int(words[2]), words[5] == "primary", words[3], words[4]))
        elif words and words[0] in numbers:
            numbers[words[0]] = int(words[1])
            if int(words[1]) > LONGEST:
                raise RoomFault(path, number, f"more than {LONGEST} s take too long to play")
    if not lines:
        raise RoomFault(path, 0, "no UPS is watched")
    return Rules(tuple(lines), *numbers.values())


def read_room(path, nutsim):
    """Returns the room that a description describes. nutsim checks first that the configuration files have no fault."""
    room = RoomReader(path).read()
    for at, machine in enumerate(room.machines):
        for server in room.servers:
            nutsim.check(server.folder, machine)
        room.machines[at] = dataclasses.replace(machine, rules=read_rules(room, machine))
    spare = [check_server(room, number, server) for number, server in enumerate(room.servers)]
    room.returning = returning_machines(room, spare)
    room.bounds = [bound_of(room, machine) for machine in room.machines]
    if room.clients or room.returning or room.servers[0].name is not None:
        room.files = tempfile.TemporaryDirectory(prefix="nutroom-")
        stage(room, room.files.name)
    return room


def returning_machines(room, spare):
    """Returns the machines that are cut off and come back, if each server has room for their old connections beside all links."""
    numbers = sorted({it.machine for it in room.changes if it.machine is not None and not it.is_cut})
    owners = [room.owners[line.ups] for number in numbers for line in room.machines[number].rules.lines]
    return [room.machines[it] for it in numbers] if all(owners.count(it) <= most for it, most in enumerate(spare)) else []


def check_server(room, number, server):
    """Checks that a server accepts each machine, with the rights that its file needs, and all links. Returns how many more it takes."""
    lines = [(host, line) for host in room.hosts for line in host.rules.lines if room.owners[line.ups] == number]
    path, users = server.path("upsd.users"), sections(server.path("upsd.users"))
    for machine, line in lines:
        if not machine.is_client:
            words = users.get(line.user, [])
            role = "primary" if line.is_primary else "secondary"
            if ["password", "=", line.password] not in words:
                raise Fault(f"{path}: no user {line.user} with the password of {machine.conf}")
            if ["upsmon", "primary"] not in words and ["upsmon", role] not in words:
                raise Fault(f"{path}: user {line.user} has no 'upsmon {role}', which {machine.conf} needs")
    most = next((int(words[1]) for words in conf_lines(server.path("upsd.conf")) if words[:1] == ["MAXCONN"]), 256)
    if len(lines) > most:
        raise Fault(f"{server.path('upsd.conf')}: MAXCONN {most} lets no {len(lines)} links in")
    return most - len(lines)
