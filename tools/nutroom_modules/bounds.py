"""What the theorem of docs/room.md gives for a room: by when each machine is halted, and the HOSTSYNC that is enough."""

import dataclasses
import math

from nutroom_modules.times import SECOND

# upsmon gives up a server that leaves a query open for longer than this while a UPS is on battery, in seconds. So no bound holds
# for longer answers.
PATIENCE_ON_BATTERY = 5


def is_low(status):
    words = status.split()
    return "OB" in words and "LB" in words and "CAL" not in words


def is_forced(status):
    return "FSD" in status.split()


def is_bearable(status):
    return not is_low(status) and not is_forced(status)


def turn(machine):
    """Returns the most seconds from a machine's query for a status to its next."""
    return max(machine.rules.poll_freq, machine.delay)


def knows_within(machine):
    """Returns the most seconds until a machine knows what a UPS shows."""
    return turn(machine) + machine.delay


def halts_within(machine):
    """Returns the most seconds from the beginning of a machine's shutdown to its halt."""
    return (machine.rules.host_sync + 1 if machine.rules.has_primary else 0) + machine.rules.final_delay


def knows_again_within(machine):
    """Returns the most seconds until a machine whose links come back knows what a UPS shows: four answers open a link."""
    return max(turn(machine), 4 * machine.delay) + machine.delay


def halts_when_returned(machine):
    """Returns the most seconds from the return of a machine's links, with its UPSes a reason to stop, to its halt."""
    return knows_again_within(machine) + halts_within(machine)


def halts_when_cut_off(machine):
    """Returns the most seconds from the last status that a machine read to its halt, if it is cut off on battery."""
    return machine.rules.dead_time + 1 + halts_within(machine)


@dataclasses.dataclass(frozen=True)
class Bound:
    """From `start` to `until` the UPSes of these lines of a machine are shown as a reason to stop. So its shutdown begins within
    `begins` seconds, and it is halted within `halts`, if its links keep pace until it begins. `counts_returns`: if they come back
    only later, it counts from then, and the machine knows only once they are opened."""

    start: int
    until: float
    lines: tuple
    begins: int
    halts: int
    terms: str
    counts_returns: bool

    @property
    def end(self):
        return self.start + self.halts * SECOND

    def lasts(self, start, begins):
        """Whether the UPSes are shown so until a shutdown begins that comes within so many seconds of this time."""
        return self.until > start + (begins + 1) * SECOND


def known_terms(machine):
    """Returns how long a machine takes to know, as a sum."""
    first = f"POLLFREQ {machine.rules.poll_freq}" if turn(machine) == machine.rules.poll_freq else f"delay {machine.delay}"
    return f"{first} + delay {machine.delay}"


def known_again_terms(machine):
    """Returns how long a machine whose links come back takes to know, as a sum."""
    return known_terms(machine) if turn(machine) >= 4 * machine.delay else f"4 * delay {machine.delay} + delay {machine.delay}"


def halt_terms(machine):
    """Returns how long a machine takes from the beginning of its shutdown to its halt, as a sum."""
    sync = f"HOSTSYNC {machine.rules.host_sync} + 1 + " if machine.rules.has_primary else ""
    return f"{sync}FINALDELAY {machine.rules.final_delay}"


def primary_bound(machine, start, until, lines):
    begins = knows_within(machine)
    return Bound(start, until, lines, begins, begins + halts_within(machine), f"{known_terms(machine)} + {halt_terms(machine)}", True)


# A machine that reads FSD needs no longer than a primary that reads OB LB.
forced_bound = primary_bound


def secondary_bound(machine, start, until, lines):
    """Returns the bound for a low battery without FSD, at which a secondary waits until HOSTSYNC after its last calm status."""
    calm = machine.delay + machine.rules.host_sync
    if calm > knows_within(machine):
        terms = f"delay {machine.delay} + HOSTSYNC {machine.rules.host_sync}"
    else:
        terms = known_terms(machine)
    begins = max(knows_within(machine), calm) + 1
    return Bound(start, until, lines, begins, begins + halts_within(machine), f"{terms} + 1 + {halt_terms(machine)}", False)


def failing_since(room, machine, test):
    """Yields each time from which UPSes are shown with such statuses without which the machine has too little: that time,
    its lines to these UPSes, and when one of them is first shown otherwise."""
    times = sorted({0, *(it.time for it in room.changes if it.ups is not None)})
    before = None
    for at, time in enumerate(times):
        lines = tuple(i for i, line in enumerate(machine.rules.lines) if test(room.last_status(line.ups, time)))
        if lines != before and room.supply_without(machine, lines) < machine.rules.min_supplies:
            end = next((it for it in times[at + 1 :] if not all(test(room.last_status(machine.rules.lines[i].ups, it)) for i in lines)), math.inf)
            yield time, lines, end
        before = lines


def bound_of(room, machine):
    """Returns the least bound that the theorem gives for a machine by what is going to happen, or None."""
    found = []
    for start, lines, until in failing_since(room, machine, is_low):
        primaries = tuple(i for i in lines if machine.rules.lines[i].is_primary)
        if room.supply_without(machine, primaries) < machine.rules.min_supplies:
            found.append(primary_bound(machine, start, until, primaries))
        else:
            found.append(secondary_bound(machine, start, until, lines))
    for start, lines, until in failing_since(room, machine, is_forced):
        found.append(forced_bound(machine, start, until, lines))
    return min((it for it in found if it.lasts(it.start, it.begins)), key=lambda it: it.end, default=None)


def goes_on(room, machine):
    """Whether the theorem says that a machine never begins to stop, if its links keep pace and nobody forces its UPSes."""
    rules = machine.rules
    lost = {i for i, line in enumerate(rules.lines) if not all(is_bearable(it.status) for it in room.changes if it.ups == line.ups)}
    is_patient = max(rules.poll_freq + machine.delay, knows_within(machine)) <= rules.dead_time
    return room.supply_without(machine, lost) >= rules.min_supplies and is_patient


def is_patient(room, primary):
    """Whether a primary doesn't take its UPS for dead as it begins to stop: its DEADTIME is at least the age that a status can
    have, and it has read one since the description began, over a link that wasn't cut."""
    bound = bound_of(room, primary)
    start = 0 if bound is None else bound.start
    was_cut = any(it.machine is not None and room.machines[it.machine] == primary and it.time <= start for it in room.changes)
    has_read = start >= (knows_within(primary) + 1) * SECOND
    return primary.rules.poll_freq + primary.delay <= primary.rules.dead_time and has_read and not was_cut


def accepts_within(room, primary):
    """Returns the most seconds from the beginning of a primary's shutdown until its FSD is accepted for each of its UPSes: one
    answer if it has one line and is patient. Otherwise FSD may wait for the answer to an earlier query: with several lines on
    another link, and with one line since DEADTIME was over in the second before."""
    if len(primary.rules.lines) > 1:
        return 2 * primary.delay
    return primary.delay + (0 if is_patient(room, primary) else max(primary.delay - 1, 0))


def needed_host_sync(room, primary, machine):
    """Returns the HOSTSYNC of a primary with which a machine is halted before the primary stops waiting for it, or None if
    the machine doesn't depend on the primary's UPSes. A second is for clocks that don't tick together."""
    upses = {line.ups for line in primary.rules.lines if line.is_primary}
    forced = {i for i, line in enumerate(machine.rules.lines) if line.ups in upses}
    if sum(line.power for i, line in enumerate(machine.rules.lines) if i not in forced) >= machine.rules.min_supplies:
        return None
    return accepts_within(room, primary) + 1 + knows_within(machine) + max(halts_within(machine) - 1, 0)
