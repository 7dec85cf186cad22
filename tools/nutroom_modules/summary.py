"""What many runs led to, as text."""

import collections
import math
import statistics

from nutroom_modules.bounds import halt_terms, halts_when_cut_off, halts_when_returned, is_low, known_again_terms, needed_host_sync
from nutroom_modules.times import seconds, short_seconds


class Summary:
    """The stories of all runs."""

    def __init__(self, room, seed, count):
        self.room = room
        self.seed = seed
        self.count = count
        self.stories = [[] for _ in room.machines]
        self.orders = collections.Counter()
        self.last_halts = {}
        self.wrong = []

    def add(self, number, stories):
        for mine, story in zip(self.stories, stories):
            mine.append(story)
        halts = sorted((story.halted, m) for m, story in enumerate(stories) if story.halted is not None)
        self.orders[tuple(m for _, m in halts)] += 1
        self.last_halts[number] = halts[-1][0] if halts else -1
        self.wrong += [(number, m) for m, story in enumerate(stories) if story.is_wrong]

    def slowest(self):
        """Returns the first of the runs whose last machine was halted latest."""
        return max(sorted(self.last_halts), key=self.last_halts.get)

    def lines(self):
        yield f"{self.room.path}: {self.count} run{'s' * (self.count > 1)}, seed {self.seed}"
        yield ""
        yield from self.outage()
        yield ""
        yield from self.table()
        for part in (self.bound_lines(), self.sync_lines(), self.runtime_lines(), self.order_lines()):
            lines = list(part)
            if lines:
                yield ""
                yield from lines

    def outage(self):
        rows = [(change.time, self.room.words_of_change(change)) for change in self.room.changes]
        rows += [(time, f"the battery of {self.room.upses[ups]} is empty") for ups, time in empty_times(self.room).items()]
        width = max(len(short_seconds(time)) for time, _ in rows)
        for time, what in sorted(rows, key=lambda it: it[0]):
            yield f"{short_seconds(time):>{width}} s  {what}"

    def table(self):
        has_battery = bool(empty_times(self.room))
        rows = [["machine", "role", "least", "median", "greatest", "least", "median", "greatest", "at the latest", *["up when empty"] * has_battery]]
        for machine, stories, bound in zip(self.room.machines, self.stories, self.room.bounds):
            row = [machine.name, machine.role]
            for times in ([it.begun for it in stories], [it.halted for it in stories]):
                found = [it for it in times if it is not None]
                row += [seconds(it) for it in (min(found), statistics.median(found), max(found))] if found else ["-"] * 3
            promise = "keeps running" if bound is None else short_seconds(bound.end)
            row.append(promise if self.kept(stories) else "-")
            if has_battery:
                row.append(self.still_up(machine, stories))
            rows.append(row)
        widths = [max(len(row[at]) for row in rows) for at in range(len(rows[0]))]
        yield f"{'':{sum(widths[:2]) + 4}}{'begins to stop at':<{sum(widths[2:5]) + 6}}is halted at"
        for row in rows:
            cells = [f"{it:<{width}}" if at < 2 else f"{it:>{width}}" for at, (it, width) in enumerate(zip(row, widths))]
            yield "  ".join(cells).rstrip()

    @staticmethod
    def kept(stories):
        return sum(it.keeps_pace for it in stories)

    def still_up(self, machine, stories):
        """Returns in how many runs a machine was still up when batteries were empty without which it has too little."""
        time = dark_time(self.room, machine)
        return "-" if time is None else str(sum(it.halted is None or it.halted > time for it in stories))

    def bound_lines(self):
        """Yields how the bounds come about, and for which machines they hold."""
        yield "The theorem, if each answer comes within the greatest delay:"
        width = max(len(it.name) for it in self.room.machines)
        for machine, stories, bound in zip(self.room.machines, self.stories, self.room.bounds):
            kept = self.kept(stories)
            # of a machine with UPSes at several servers only its bound is proved
            aside = ", if its UPSes were at one server" if len(self.room.servers_of(machine)) > 1 else ""
            if bound is not None:
                text = f"halted by {short_seconds(bound.start)} + {bound.terms} = {short_seconds(bound.end)}"
            elif kept:
                text = f"keeps running: its UPSes are neither low nor forced, and DEADTIME is long enough{aside}"
            else:
                text = "nothing is said of it"
            if bound is not None and kept == 0:
                text += "; doesn't hold, since its link was cut"
            elif 0 < kept < self.count:
                why = "its link was cut" if bound is not None else "its link was cut, or its UPSes were forced"
                text += f"; holds in {kept} of {self.count} runs, and in the others {why}"
            yield f"  {machine.name:<{width}}  {text}"
            if any(story.last_read is not None for story in stories):
                sum_of = f"DEADTIME {machine.rules.dead_time} + 1 + {halt_terms(machine)} = {halts_when_cut_off(machine)}"
                yield f"  {'':<{width}}  cut off on battery: halted within {sum_of} s of its last status{aside}"
            if any(story.returned_end is not None for story in stories):
                sum_of = f"{known_again_terms(machine)} + {halt_terms(machine)} = {halts_when_returned(machine)}"
                yield f"  {'':<{width}}  once its links are back, and these UPSes are shown so: halted within {sum_of} s{aside}"

    def sync_lines(self):
        """Yields whether each primary waits long enough for the others."""
        for primary in self.room.machines:
            needs = [(needed_host_sync(self.room, primary, it), it.name) for it in self.room.machines if primary.rules.has_primary and it is not primary]
            needs = [(need, name) for need, name in needs if need is not None]
            if not needs:
                continue
            sync = primary.rules.host_sync
            for is_enough, text in ((True, "is enough for"), (False, "may be too short for")):
                found = [f"{name} ({need})" for need, name in needs if (need <= sync) == is_enough]
                if found:
                    yield f"HOSTSYNC {sync} of {primary.name} {text} {', '.join(found)}; in brackets what is enough"

    def runtime_lines(self):
        for u, ups in enumerate(self.room.upses):
            bounds = [bound.halts for machine, bound in zip(self.room.machines, self.room.bounds) if bound and any(it.ups == u for it in machine.rules.lines)]
            if bounds:
                given = f"; the battery of this room lasts {short_seconds(self.room.batteries[u])} s" if u in self.room.batteries else ""
                yield f"battery.runtime.low of {ups}: at least {max(bounds)} s, and what a machine takes from SHUTDOWNCMD until it is off{given}"

    def order_lines(self, most=5):
        yield "They were halted in this order:"
        found = self.orders.most_common()
        for order, count in found[:most]:
            yield f"  {' '.join(self.room.machines[m].name for m in order) or 'nobody'}: {count} of {self.count}"
        if len(found) > most:
            yield f"  {len(found) - most} other orders: {sum(count for _, count in found[most:])} of {self.count}"


def empty_times(room):
    """Returns when each battery of the description is empty: this long after the time from which on its UPS stays low."""
    times = {}
    for ups, lasts in room.batteries.items():
        low = None
        for change in room.changes:
            if change.ups == ups:
                low = (change.time if low is None else low) if is_low(change.status) else None
        if low is not None:
            times[ups] = low + lasts
    return times


def dark_time(room, machine):
    """Returns when so many batteries are empty that a machine has too little, or None."""
    empty = empty_times(room)
    for time in sorted(empty.values()):
        lost = {i for i, line in enumerate(machine.rules.lines) if empty.get(line.ups, math.inf) <= time}
        if room.supply_without(machine, lost) < machine.rules.min_supplies:
            return time
    return None
