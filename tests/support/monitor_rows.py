"""Worked runs of a monitor: its events, and what it has to ask, tell and decide, after upsmon(8)."""

import re

from tests.support import manual
from tests.support.harness import Failed, expect, sections, spelled
from tests.support.player import escaped


class Check:
    """A step, and what it has to print: a line, or the words with which a line begins."""

    def __init__(self, step, line=None, front=None):
        self.step = step
        self.line = line
        self.front = front

    def holds(self, found):
        return found == self.line if self.line is not None else found.startswith(self.front)


class Starved(Check):
    """A step at which memory is refused behind this many lines of its piece, or None if it allocates nothing."""

    def __init__(self, lines, step):
        super().__init__(step, front=b"ok ")
        self.lines = lines


class Linked(Check):
    """Whether a link is up; one that no MONITOR line has isn't."""

    def __init__(self, i, is_there):
        super().__init__(("monitor show",))
        self.link = i
        self.is_there = is_there

    def holds(self, found):
        links = re.findall(rb" (true|false):", found)
        return (self.link < len(links) and links[self.link] == b"true") == self.is_there


# Each of these returns the checks of a run's step, for the run's file.


def tell(verb, *words):
    """The event is accepted."""
    return lambda file: [Check((f"monitor {verb}", *words), front=b"ok ")]


def refuse(fault, verb, *words):
    """The event is refused, and changes nothing."""
    show = Check(("monitor show",), front=b"ok ")
    return lambda file: [Check((f"monitor {verb}", *words), front=fault.encode() + b" "), show]


def starved(lines, verb, *words):
    return lambda file: [Starved(lines, (f"monitor {verb}", *words))]


def waits(i, bytes):
    """These bytes wait on a link."""
    return lambda file: [Check(("monitor waits", i), escaped(bytes))]


def links(i, is_there):
    """Whether a link is up."""
    return lambda file: [Linked(i, is_there)]


def phase(wanted):
    """The shutdown has come this far."""
    return lambda file: [Check(("monitor show",), front=b"ok " + wanted.encode() + b" ")]


def tells(*notices):
    """Exactly these notices are given."""

    def line(kind, i, text):
        return f"{kind} {'-' if i is None else i} ".encode() + text

    return lambda file: [*(Check(("monitor notice",), line(*it)) for it in notices), Check(("monitor notice",), b"none")]


def ask(i, query, answer):
    """This query waits on this link; its server takes it, and answers with this line."""
    took = Check(("monitor took", i, len(query)), front=b"ok ")
    return lambda file: [*waits(i, query)(file), took, Check(("monitor bytes", i, answer), front=b"ok ")]


def name_of(i):
    return (b"su700", b"su900")[i]


def notice(kind, i=0):
    """A notice about the UPS of this line, or about none, with the text that upsmon.conf(5) gives it."""
    text = manual.notices()[kind].encode()
    return kind.capitalize(), i, text if i is None else text.replace(b"%s", name_of(i) + b"@localhost")


def opens(i):
    """The link of this line is made, and its first queries are answered OK."""

    def checks(file):
        queries = [b"USERNAME mon\n", b"PASSWORD m1\n", b"LOGIN %b\n" % name_of(i)]
        if file.splitlines()[i].endswith(b" primary"):
            queries.append(b"PRIMARY %b\n" % name_of(i))
        linked = Check(("monitor linked", i), front=b"ok ")
        return [linked, *(check for query in queries for check in ask(i, query, b"OK\n")(file))]

    return checks


def status(i, value):
    """The status takes for on this link, and answered with this value."""
    query = b"GET VAR %b ups.status\n" % name_of(i)
    return ask(i, query, b'VAR %b ups.status "%b"\n' % (name_of(i), value))


class Run:
    """A monitor with this file takes these steps."""

    def __init__(self, name, file, *steps):
        self.name = name
        self.file = file
        # if memory is refused for it, the monitor is made once more
        self.checks = [Check(("monitor new", file), b"ok"), Check(("? monitor new", file), b"")]
        self.checks += [check for step in steps for check in step(file)]


def check_run(run, lines, begin=0):
    """Checks that these lines are what a run has to print, from a step on."""
    for at, (check, line) in enumerate(zip(run.checks, lines)):
        if at >= begin and not check.holds(line):
            raise Failed(f"{run.name}, step {at}, {check.step}: {line!r}")
    expect(len(lines), len(run.checks), f"the lines of {run.name}")


def steps_of(run):
    return [check.step for check in run.checks]


def bytes_of(text):
    return spelled(text).encode("latin-1")


def event_of(text):
    """Returns the verb and the words of an event."""
    verb, *words = text.split(" ", 2)
    return verb, *(bytes_of(it) if verb == "bytes" and at else int(it) for at, it in enumerate(words))


def step_of(text):
    """Returns the step of a run that a row spells."""
    verb, _, rest = text.partition(" ")
    first, _, line = rest.partition(" ")
    if verb in ("refused", "starved"):
        event = event_of(line)
        return refuse(first[:-1], *event) if verb == "refused" else starved(None if first == "-:" else int(first[:-1]), *event)
    if verb == "phase":
        return phase(rest)
    if verb == "tells":
        return tells(*(notice(it.partition("@")[0], None if it == "SHUTDOWN" else int(it.partition("@")[2] or 0)) for it in rest.split()))
    if verb in ("up", "down"):
        return links(int(first), verb == "up")
    if verb == "ask":
        query, answer = (bytes_of(it) + b"\n" for it in line.split(" -> "))
        return ask(int(first), query, answer)
    if verb in ("waits", "status"):
        return (waits if verb == "waits" else status)(int(first), bytes_of(line))
    return opens(int(first)) if verb == "opens" else tell(*event_of(text))


def runs():
    """Returns the runs of monitor_runs.txt."""
    for heading, lines in sections("monitor_runs.txt"):
        name, file = heading.split(" | ")
        yield Run(name, bytes_of(file), *(step_of(step) for line in lines for step in line.split("; ")))


PRIMARY = b"MONITOR su700@localhost 1 mon m1 primary\n"
ONLINE = notice("ONLINE")
MEMORY_RUNS = [it for it in runs() if any(isinstance(check, Starved) for check in it.checks)]
# all but those in which memory is refused
RUNS = [it for it in runs() if not any(isinstance(check, Starved) for check in it.checks)]
