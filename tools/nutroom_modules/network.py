"""The links of a run, and the machines at their ends."""

import random

from nutroom_modules.bounds import PATIENCE_ON_BATTERY
from nutroom_modules.times import SECOND


WATCHING, FORCING, FINAL, HALTED = "Watching", "Forcing", "Final", "Halted"

# The queries by which the server counts a link.
LOGIN = ("username", "password", "login")

# upsmon gives up a server that leaves a query open for longer than this, in seconds, while no UPS is on battery.
PATIENCE = 10


class Link:
    """A link of a machine to the server, as the network sees it: what was asked, and whether the answer is still to come."""

    def __init__(self, number, line, seed):
        self.number = number
        self.line = line
        self.random = random.Random(seed)
        # whether the monitor's end and the server's are up, and how many links were made
        self.is_linked = self.is_open = False
        self.made = 0
        # the queries since it was made: how many, the last one, and when that was put by the machine's clock
        self.asked = 0
        self.query = None
        self.asked_at = 0
        self.is_outstanding = False
        self.landed = 0
        self.is_fsd_taken = False
        # the status that is on its way, and the last that arrived, with the machine's clock then
        self.coming = self.status = ""
        self.read_at = 0
        # whether no status was asked for since the machine was last cut off: the theorem counts from that query on
        self.is_broken = True
        self.call_at = 0
        # whether the server has counted its login; and when the server hears that the monitor has closed its end
        self.is_counted = False
        self.heard_at = 0
        # since when it keeps pace, with the machine's clock then, if it does; and the earlier stretches of time in which it did
        self.pace = None
        self.stretches = []

    def opening(self):
        return [*LOGIN, *["primary"] * self.line.is_primary]

    def begin(self):
        """Makes a new link."""
        self.made += 1
        self.is_linked = self.is_open = True
        self.asked, self.query, self.is_outstanding, self.is_counted = 0, None, False, False

    def keep_pace(self, time, clock):
        if self.pace is None:
            self.pace = time, clock

    def lose_pace(self, time):
        if self.pace is not None:
            self.stretches.append((*self.pace, time))
            self.pace = None

    def keeps_pace_at(self, time):
        """Returns since when it kept pace at a time, with the machine's clock then, or None."""
        if self.pace is not None and self.pace[0] <= time:
            return self.pace
        return next(((start, clock) for start, clock, end in self.stretches if start <= time <= end), None)

    def due(self, phase, clock, rules):
        """Returns the query that has to be put now, or None. docs/decision.md has the table."""
        if not self.is_linked or self.is_outstanding:
            return None
        opening = self.opening()
        if self.asked < len(opening):
            return opening[self.asked]
        if phase == WATCHING:
            query, pause = "status", rules.poll_freq
        elif phase == FORCING and self.line.is_primary:
            query, pause = "logins" if self.is_fsd_taken else "fsd", 1
        else:
            return None
        return None if self.query == query and clock - self.asked_at < pause else query


class Host:
    """A machine of a run."""

    def __init__(self, number, machine, seed, old=None):
        self.number = number
        self.machine = machine
        # the number of the monitor of nutsim that stands for its old connections, or None, and how many each of its links had
        self.old = old
        self.olds = [0] * len(machine.rules.lines)
        self.random = random.Random(seed)
        self.links = [Link(i, line, f"{seed} {i}") for i, line in enumerate(machine.rules.lines)]
        # clocks don't tick together, and monitors don't start together
        self.offset = self.random.randrange(SECOND)
        self.starts = self.random.randrange(machine.rules.poll_freq * SECOND)
        self.clock = 0
        self.phase = WATCHING
        self.is_cut = False
        # what is held up while the machine is cut off
        self.held = []
        # when it was cut off, and what the picture shows of its network: a time, what happened, and the UPS of a link
        self.cuts = []
        self.marks = []

    def ready(self):
        """Returns the latest time at which it has read a first status."""
        return self.starts + 6 * self.machine.greatest + (self.machine.rules.poll_freq + 1) * SECOND

    def last_read(self):
        """Returns the machine's clock as it read its last status, if it is cut off on battery for good, or None."""
        is_dark = self.is_cut and self.machine.rules.min_supplies > 0 and all("OB" in link.status.split() for link in self.links)
        return max(link.read_at for link in self.links) if is_dark else None

    def patience(self):
        """Returns for how many seconds upsmon leaves a query open."""
        return PATIENCE_ON_BATTERY if any("OB" in link.status.split() for link in self.links) else PATIENCE
