"""The steps of a run: what the network carries, and when."""

import heapq

from nutroom_modules.bounds import halts_within, knows_within
from nutroom_modules.network import HALTED, LOGIN, Host
from nutroom_modules.times import SECOND


# A connection that isn't accepted is given up after this time, so it is tried again within that.
CALL_TIME = 5 * SECOND
# A server notices that a machine is gone this long after its last bytes.
PROBE_TIME = 90 * SECOND
# A client that isn't a machine leaves with each status, and calls again after this time.
CLIENT_PAUSE = 5 * SECOND

# The order of what happens at the same time: a clock ticks before bytes arrive, so that a query which waits for whole seconds
# waits for no more of them by the clock. Among bytes chance decides, from 0 to 1.
CHANGES_FIRST, SECONDS_FIRST = -2, -1


class Plan:
    """The steps of a run.

    What the network has to carry depends on when monitors begin to stop and halt, and only they decide that. So a plan is made
    with what nutsim told for the plan before: `known` has each phase by the event that led to it. Each machine and each link
    has random numbers of its own. So two plans agree up to the first event about which they know different things.

    The steps, their times and their events are three lists of the same length. An event is the kind of a step at which a
    monitor may decide something, with the number of the monitor and what tells it from others; the monitor's clock comes
    last."""

    def __init__(self, room, seed, known):
        self.room = room
        self.known = known
        self.steps, self.times, self.events = [], [], []
        self.queue, self.queued = [], 0
        self.now = 0
        olds = {machine.name: m for m, machine in enumerate(room.returning, len(room.hosts))}
        self.hosts = [Host(m, machine, f"{seed} {m}", olds.get(machine.name)) for m, machine in enumerate(room.hosts)]
        # the outage begins once each machine knows the status of its UPSes
        self.zero = (max(host.ready() for host in self.hosts) // SECOND + 1) * SECOND
        self.end = self.zero + room.changes[-1].time + longest_halt(room)
        self.statuses = ["OL"] * len(room.upses)
        # when an FSD was accepted for a UPS
        self.forced = {}
        # for each change of a UPS and each machine: its clock then, and which of its links were broken
        self.scenes = {}
        self.make()

    @property
    def time(self):
        """Returns the time now as the description counts it."""
        return self.now - self.zero

    def make(self):
        for u in range(len(self.statuses)):
            self.step(f"up {u}")
            self.show(u, "OL")
            self.step(f"driver {u} DATAOK")
            self.step(f"driver {u} DUMPDONE")
        self.at(SECOND, SECONDS_FIRST, self.server_second, 1)
        for host in self.hosts:
            self.at(host.offset + SECOND, SECONDS_FIRST, self.machine_second, host, 1)
            for link in host.links:
                self.at(host.starts, host.random.random(), self.make_link, host, link)
        for change in self.room.changes:
            # changes of the same time happen in the order of their lines
            self.at(self.zero + change.time, CHANGES_FIRST, self.change, change)
        machines = self.hosts[: len(self.room.machines)]
        while self.queue and self.queue[0][0] <= self.end and any(host.phase != HALTED for host in machines):
            self.now, _, _, action, rest = heapq.heappop(self.queue)
            action(*rest)

    def at(self, time, place, action, *rest):
        """Makes something happen at a time, in this place among all that happens then."""
        self.queued += 1
        heapq.heappush(self.queue, (time, place, self.queued, action, rest))

    def step(self, text, event=None):
        self.steps.append(text + "\n")
        self.times.append(self.time)
        self.events.append(event)

    def mark(self, host, what, link=None):
        host.marks.append((self.time, what, link and link.line.ups))

    # The server and the drivers.

    def server_second(self, clock):
        self.step(f"server {clock}")
        for u in range(len(self.statuses)):
            self.step(f"driver {u} PONG")
        self.at(self.now + SECOND, SECONDS_FIRST, self.server_second, clock + 1)

    def show(self, u, status):
        self.statuses[u] = status
        self.step(f'driver {u} "SETINFO ups.status \\"{status}\\""')

    def change(self, change):
        if change.ups is not None:
            self.show(change.ups, change.status)
            self.scenes[change.time] = [(host.clock, [link.is_broken for link in host.links]) for host in self.hosts]
        elif change.is_cut:
            self.cut(self.hosts[change.machine])
        else:
            self.uncut(self.hosts[change.machine])

    # A machine. Its monitor may decide something at a second, a new link, a lost link and an answer.

    def tell(self, host, step, *event):
        """Plays such a step, and what the monitor then does. Then the machine asks what it has to ask."""
        event = (*event, host.clock)
        self.step(step, event)
        host.phase = self.known.get(event, host.phase)
        if host.phase == HALTED:
            for link in host.links:
                self.leave(host, link)
        for link in host.links:
            self.ask(host, link)

    def machine_second(self, host, clock):
        if host.phase == HALTED:
            return
        host.clock = clock
        self.tell(host, f"monitor {host.number} {clock}", "second", host.number)
        for link in host.links:
            if host.phase != HALTED:
                self.look_after(host, link)
        self.at(self.now + SECOND, SECONDS_FIRST, self.machine_second, host, clock + 1)

    def look_after(self, host, link):
        """Gives up a server that doesn't answer, and connects again to one that was lost."""
        if link.is_linked and link.is_outstanding and host.clock - link.asked_at > host.patience():
            self.lose(host, link)
        elif link.made and not link.is_linked and not host.is_cut and self.now >= link.call_at:
            self.make_link(host, link)

    def make_link(self, host, link):
        if link.is_open:
            self.keep_old(host, link)
            self.close(host, link)
        if link.made:
            self.mark(host, "link back", link)
        link.begin()
        link.keep_pace(self.time, host.clock)
        self.tell(host, f"link {host.number} {link.number}", "link", host.number, link.number, link.made)

    def lose(self, host, link):
        """The monitor drops a link."""
        self.mark(host, "link lost", link)
        self.drop(host, link)
        self.tell(host, f"cut-monitor {host.number} {link.number}", "lost", host.number, link.number, link.made)

    def leave(self, host, link):
        """Closes the links of a machine that is halted."""
        if link.is_linked:
            self.drop(host, link)
            self.step(f"cut-monitor {host.number} {link.number}")

    def drop(self, host, link):
        """Lets the server hear later that the other end is closed."""
        link.is_linked = link.is_outstanding = False
        link.is_broken = True
        link.lose_pace(self.time)
        link.call_at = self.now + (CLIENT_PAUSE if host.machine.is_client else 1)
        self.hear_later(host, link, self.now + self.delay(host, link))

    def hear_later(self, host, link, time):
        link.heard_at = time
        self.at(time, link.random.random(), self.hear_close, host, link, link.made)

    # The server may still have the old connection of a link that is made again: it counts its login until it hears of the end, or
    # notices that nobody is there. A link of nutsim has one connection, so another monitor takes over the old one: its links log in,
    # do nothing else, and are cut.

    def keep_old(self, host, link):
        if host.old is None or not link.is_counted:
            return
        if host.olds[link.number]:
            self.drop_old(host, link, host.olds[link.number])
        host.olds[link.number] = link.made
        self.step(f"link {host.old} {link.number}")
        for _ in LOGIN:
            for verb in ("out", "reach", "back", "land"):
                self.step(f"{verb} {host.old} {link.number} 512")
        self.at(max(link.heard_at, self.now), CHANGES_FIRST, self.drop_old, host, link, link.made)

    def drop_old(self, host, link, made):
        if host.olds[link.number] == made:
            host.olds[link.number] = 0
            self.step(f"cut-monitor {host.old} {link.number}")
            self.step(f"cut-server {host.old} {link.number}")

    def hear_close(self, host, link, made):
        if link.made == made and link.is_open and not self.holds(host, link, self.hear_close, made):
            self.close(host, link)

    def close(self, host, link):
        """The server closes its end."""
        link.is_open = False
        self.step(f"cut-server {host.number} {link.number}")

    # A query goes to the server, and its answer comes back.

    def ask(self, host, link):
        query = link.due(host.phase, host.clock, host.machine.rules)
        if query is None:
            return
        link.asked += 1
        link.query, link.asked_at, link.is_outstanding = query, host.clock, True
        if query == "status" and not host.is_cut:
            link.is_broken = False
        self.step(f"out {host.number} {link.number} 512")
        delay = self.delay(host, link)
        self.at(self.now + part_of(delay, link.random), link.random.random(), self.reach, host, link, link.made, self.now + delay)

    @staticmethod
    def delay(host, link):
        """Returns how long an answer takes: in a quarter of all cases as little as it may, in another quarter as much as it
        may, and otherwise anything between."""
        chance = link.random.random()
        if chance < 0.5:
            return host.machine.least if chance < 0.25 else host.machine.greatest
        return link.random.randint(host.machine.least, host.machine.greatest)

    def reach(self, host, link, made, lands):
        """The server answers. A query that was held up gets a new time of arrival."""
        if link.made != made or not link.is_linked or not link.is_open or self.holds(host, link, self.reach, made, None):
            return
        self.step(f"reach {host.number} {link.number} 512")
        self.step(f"back {host.number} {link.number} 512")
        link.is_counted = link.is_counted or link.query == "login"
        link.coming = self.statuses[link.line.ups]
        if link.query == "fsd":
            self.forced.setdefault(link.line.ups, self.time)
        lands = self.now + self.delay(host, link) if lands is None else lands
        self.at(lands, link.random.random(), self.land, host, link, made)

    def land(self, host, link, made):
        if link.made != made or not link.is_linked or self.holds(host, link, self.land, made):
            return
        link.is_outstanding = False
        link.keep_pace(self.time, host.clock)
        link.landed += 1
        if link.query == "status":
            link.status, link.read_at = link.coming, host.clock
        link.is_fsd_taken = link.is_fsd_taken or link.query == "fsd"
        self.tell(host, f"land {host.number} {link.number} 512", "land", host.number, link.number, link.landed)
        if host.machine.is_client and link.query == "status":
            self.lose(host, link)

    # The network of a machine is cut: no bytes pass, and neither end is told.

    def holds(self, host, link, action, *rest):
        """Whether what is about to happen has to wait until the machine is back."""
        if host.is_cut:
            host.held.append((link, action, rest))
        return host.is_cut

    def cut(self, host):
        host.is_cut = True
        host.cuts.append(self.time)
        self.mark(host, "cut")
        for link in host.links:
            link.is_broken = True
            link.lose_pace(self.time)
        self.at(self.now + PROBE_TIME, CHANGES_FIRST, self.probe, host, len(host.cuts))

    def probe(self, host, cuts):
        """The server's system notices that the machine is gone, if it still is."""
        if host.is_cut and len(host.cuts) == cuts:
            for link in host.links:
                if link.is_open:
                    self.close(host, link)

    def uncut(self, host):
        host.is_cut = False
        self.mark(host, "back")
        held, host.held = host.held, []
        for link, action, rest in held:
            time = self.now + self.delay(host, link)
            if action == self.hear_close:
                # what is sent again comes later and later, and the server notices in the end
                noticed = self.zero + host.cuts[-1] + PROBE_TIME
                self.hear_later(host, link, time + part_of(max(noticed - time, 0), link.random))
            else:
                self.at(time, link.random.random(), action, host, link, *rest)
        for link in host.links:
            if link.is_linked and not link.is_open:
                self.lose(host, link)
            elif link.is_linked and not link.is_outstanding:
                link.keep_pace(self.time, host.clock)
            link.call_at = self.now + link.random.randrange(CALL_TIME)


def part_of(delay, chance):
    """Returns how much of a delay is taken, as by the way to the server: nothing, all of it, or something between."""
    at = chance.random()
    if at < 0.5:
        return 0 if at < 0.25 else delay
    return chance.randint(0, delay)


def longest_halt(room):
    """Returns for how long a run continues after the last change: one primary after the other may force its UPSes."""
    times = [max(it.rules.dead_time, it.rules.host_sync) + knows_within(it) + halts_within(it) + 10 for it in room.machines]
    return (sum(times) + 10) * SECOND
