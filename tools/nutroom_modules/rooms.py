"""A room: its servers and machines, with the settings of each, its UPSes, and what happens to them."""

import dataclasses
import math
import os

from nutroom_modules.times import SECOND


@dataclasses.dataclass(frozen=True)
class Server:
    """A server, with the folder of its configuration files. It has a name if the room has several."""

    folder: str
    name: str = None

    def path(self, file):
        return os.path.join(self.folder, file)


@dataclasses.dataclass(frozen=True)
class Line:
    """A MONITOR line. The UPS is its number in the room."""

    ups: int
    power: int
    is_primary: bool
    user: str
    password: str


@dataclasses.dataclass(frozen=True)
class Rules:
    """The settings of an upsmon.conf that matter here. Times are in seconds."""

    lines: tuple
    min_supplies: int
    poll_freq: int
    dead_time: int
    host_sync: int
    final_delay: int

    @property
    def has_primary(self):
        return any(line.is_primary for line in self.lines)


@dataclasses.dataclass(frozen=True)
class Machine:
    """A machine with a monitor, or another client. Each answer takes from `least` to `greatest`."""

    name: str
    conf: str
    least: int
    greatest: int
    rules: Rules = None
    is_client: bool = False

    @property
    def delay(self):
        """Returns the greatest delay in whole seconds, as the theorem counts it."""
        return math.ceil(self.greatest / SECOND)

    @property
    def role(self):
        roles = {line.is_primary for line in self.rules.lines}
        return "mixed" if len(roles) > 1 else "primary" if self.rules.has_primary else "secondary"


@dataclasses.dataclass(frozen=True)
class Change:
    """A line `at` of a description: from then on a UPS shows a status, or a machine is cut off the network or connected
    again."""

    time: int
    number: int
    ups: int = None
    status: str = None
    machine: int = None
    is_cut: bool = False


class Room:
    """The contents of a description, with the configuration files that it names."""

    def __init__(self, path):
        self.path = path
        self.servers = []
        self.machines = []
        self.clients = []
        self.batteries = {}
        self.changes = []
        # each UPS as the description names it, and the number of its server
        self.upses, self.owners = [], []
        # the machines that are cut off and come back, while the server may still have their old connections
        self.returning = []
        # the files that were made for nutsim, or None if it takes those of the room
        self.files = None
        # the bound of each machine, or None
        self.bounds = []

    @property
    def hosts(self):
        """Returns whoever calls servers: the machines and then the clients."""
        return [*self.machines, *self.clients]

    @property
    def monitors(self):
        """Returns whose upsmon.conf each monitor of nutsim has: that of a host, or of a machine whose old connections it stands for."""
        return [*self.hosts, *self.returning]

    def servers_of(self, *machines):
        """Returns the numbers of the servers at which machines have UPSes."""
        return {self.owners[line.ups] for machine in machines for line in machine.rules.lines}

    def machine_number(self, name):
        return next((at for at, it in enumerate(self.machines) if it.name == name), None)

    def ups_told(self, target):
        """Returns the number of the UPS that nutsim names so."""
        name = target.partition("@")[0]
        return self.upses.index(name) if self.files is None else int(name[1:])

    def words_of_change(self, change):
        if change.ups is not None:
            return f"{self.upses[change.ups]} {change.status}"
        return f"{self.machines[change.machine].name} {'cut off' if change.is_cut else 'back'}"

    def last_status(self, ups, time):
        """Returns the status that a UPS shows at a time, after all changes of that time."""
        status = "OL"
        for change in self.changes:
            if change.ups == ups and change.time <= time:
                status = change.status
        return status

    def supply_without(self, machine, lost):
        """Returns the supply that a machine has left if the UPSes of some of its lines are lost."""
        return sum(line.power for at, line in enumerate(machine.rules.lines) if at not in lost)
