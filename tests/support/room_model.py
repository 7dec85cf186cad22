"""A plain model of a room, written from the documents alone, for the programs to be compared with: one server (model.py),
its monitors, and the pipes between them.

A schedule is a list of steps as `nutsim` reads them, each a tuple of a word, numbers and a driver's line. What a step tells is
a list of tuples: `("skipped",)`, `("notice", M, TYPE, WATCH)`, where WATCH is None if no UPS is named, and `("phase", M, P,
FLAG)`, where FLAG says whether POWERDOWNFLAG is to be set."""

import re

from tests.support import manual, model
from tests.support.model import PIECE_MAX, quoted, words_of

WATCHING, FORCING, FINAL, HALTED = "Watching", "Forcing", "Final", "Halted"
COUNT = re.compile(rb"[0-9]{1,9}")


class Watched:
    """A MONITOR line."""

    def __init__(self, ups, role, power=1, user=b"mon", password=b"m1", host=b"localhost"):
        self.ups = ups
        self.is_primary = role == "primary"
        self.power = power
        self.user = user
        self.password = password
        self.target = ups + b"@" + host


class Rules:
    """The contents of an upsmon.conf: its MONITOR lines, and by its word each directive that has a number. One that isn't given
    has the default of upsmon.conf(5)."""

    def __init__(self, lines, **numbers):
        self.lines = lines
        self.numbers = {word: it.default for word, it in manual.numbers("upsmon.conf").items()} | numbers

    def __getitem__(self, word):
        return self.numbers[word]

    def text(self):
        """Returns the upsmon.conf that sets this."""
        lines = [
            b"MONITOR %s %d %s %s %s" % (it.target, it.power, it.user, quoted(it.password), b"primary" if it.is_primary else b"secondary")
            for it in self.lines
        ]
        lines += [b"%s %d" % (word.encode(), number) for word, number in self.numbers.items()]
        return b"".join(it + b"\n" for it in lines)


class Call:
    """A link that is up: what was asked on it, and which of that the server hasn't taken."""

    def __init__(self):
        self.waits = b""
        self.rest = b""
        self.asked = []
        self.answered = 0
        self.asked_at = 0

    @property
    def is_idle(self):
        return len(self.asked) == self.answered


class Watch:
    """What a monitor knows of a UPS."""

    def __init__(self, number, line):
        self.number = number
        self.line = line
        self.call = None
        self.status = None
        self.polled = 0
        self.calm = 0
        self.communication = "never"
        self.replace_told = None
        self.silence_told = None
        self.is_forced = False
        self.logins = None

    def has(self, word):
        return self.status is not None and word in self.status


class Monitor:
    def __init__(self, rules):
        self.rules = rules
        self.now = 0
        self.phase = WATCHING
        self.begun = None
        self.ended = None
        self.watches = [Watch(*it) for it in enumerate(rules.lines)]
        self.notices = []

    # Events. Each method returns whether the event was accepted.

    def moment(self, at):
        self.now = max(self.now, at)
        if self.phase == WATCHING:
            for watch in self.watches:
                self.tell_silence(watch)
        self.settle()
        return True

    def linked(self, i):
        watch = self.watches[i]
        if watch.call is not None:
            return False
        watch.call = Call()
        self.settle()
        return True

    def link_lost(self, i):
        watch = self.watches[i]
        if watch.call is None:
            return False
        self.lose(watch)
        self.settle()
        return True

    def link_took(self, i, count):
        call = self.watches[i].call
        call.waits = call.waits[count:]

    def link_bytes(self, i, piece):
        watch = self.watches[i]
        *lines, watch.call.rest = (watch.call.rest + piece).split(b"\n")
        for line in lines:
            if not self.hear(watch, line):
                self.lose(watch)
                break
        self.settle()

    # What the events do.

    def tell(self, kind, watch=None):
        self.notices.append((kind, watch))

    def tell_silence(self, watch):
        pause = self.rules["NOCOMMWARNTIME"]
        polled = watch.polled if watch.status is not None else 0
        if self.now - polled > pause and (watch.silence_told is None or self.now - watch.silence_told > pause):
            watch.silence_told = self.now
            self.tell("NOCOMM", watch)

    def lose(self, watch):
        watch.call = None
        self.turn_bad(watch)

    def turn_bad(self, watch):
        if watch.communication != "bad" and self.phase == WATCHING:
            self.tell("COMMBAD", watch)
        watch.communication = "bad"

    def hear(self, watch, line):
        """Takes a line as the answer to the outstanding query, if it is one."""
        call = watch.call
        words = words_of(line) if len(line) <= model.LINE_MAX else None
        if not words or call.is_idle or call.waits:
            return False
        query = call.asked[call.answered]
        refused = words[0] == b"ERR" and len(words) > 1
        if not refused and not self.matches(watch, query, words):
            return False
        call.answered += 1
        if query == "status":
            if refused:
                self.turn_bad(watch)
            else:
                self.take_status(watch, [it for it in re.split(rb"[ \t\r]", words[3]) if it])
        elif query == "fsd" and not refused:
            watch.is_forced = True
        elif query == "logins" and not refused:
            watch.logins = int(words[2])
        return True

    def matches(self, watch, query, words):
        if query == "status":
            return len(words) == 4 and words[:3] == [b"VAR", watch.line.ups, b"ups.status"]
        if query == "logins":
            return len(words) == 3 and words[:2] == [b"NUMLOGINS", watch.line.ups] and COUNT.fullmatch(words[2]) is not None
        return words[0] == b"OK"

    def take_status(self, watch, words):
        first = watch.status is None
        new = {it for it in (b"OL", b"OB", b"LB", b"FSD", b"RB") if it in words and not watch.has(it)}
        if self.phase == WATCHING:
            if watch.communication == "bad":
                self.tell("COMMOK", watch)
            if b"OL" in new and not first:
                self.tell("ONLINE", watch)
            for word, kind in ((b"OB", "ONBATT"), (b"LB", "LOWBATT"), (b"FSD", "FSD")):
                if word in new:
                    self.tell(kind, watch)
            told = watch.replace_told
            if b"RB" in words and (b"RB" in new or told is None or self.now - told > self.rules["RBWARNTIME"]):
                watch.replace_told = self.now
                self.tell("REPLBATT", watch)
        watch.communication = "good"
        watch.status = words
        watch.polled = self.now
        if first or not (b"OB" in words and b"LB" in words):
            watch.calm = self.now

    def is_critical(self, watch):
        if watch.status is None:
            return False
        if watch.has(b"FSD"):
            return True
        if watch.has(b"OB") and watch.has(b"LB") and not watch.has(b"CAL"):
            if watch.line.is_primary or self.now - watch.calm > self.rules["HOSTSYNC"]:
                return True
        return watch.has(b"OB") and self.now - watch.polled > self.rules["DEADTIME"]

    def settle(self):
        """Ends an event: the shutdown is judged, the phase moves, and queries are put."""
        if self.phase == WATCHING:
            supply = sum(it.line.power for it in self.watches if not self.is_critical(it))
            if supply < self.rules["MINSUPPLIES"]:
                self.begun = self.now
                self.phase = FORCING
        if self.phase == FORCING and self.is_alone():
            self.phase, self.ended = FINAL, self.now
            self.tell("SHUTDOWN")
        if self.phase == FINAL and self.now - self.ended >= self.rules["FINALDELAY"]:
            self.phase = HALTED
        for watch in self.watches:
            if watch.call is not None and watch.call.is_idle:
                self.ask_next(watch)

    def is_alone(self):
        if self.now - self.begun > self.rules["HOSTSYNC"]:
            return True
        return all(it.logins is not None and it.logins <= 1 for it in self.watches if it.line.is_primary)

    def ask_next(self, watch):
        call = watch.call
        opening = ["username", "password", "login"] + ["primary"] * watch.line.is_primary
        if len(call.asked) < len(opening):
            query, pause = opening[len(call.asked)], 0
        elif self.phase == WATCHING:
            query, pause = "status", self.rules["POLLFREQ"]
        elif self.phase == FORCING and watch.line.is_primary:
            query, pause = "logins" if watch.is_forced else "fsd", 1
        else:
            return
        if call.asked and call.asked[-1] == query and self.now - call.asked_at < pause:
            return
        call.asked.append(query)
        call.asked_at = self.now
        call.waits += self.query_line(watch.line, query)

    def query_line(self, line, query):
        return {
            "username": b"USERNAME %s\n" % self.word(line.user),
            "password": b"PASSWORD %s\n" % self.word(line.password),
            "login": b"LOGIN %s\n" % line.ups,
            "primary": b"PRIMARY %s\n" % line.ups,
            "status": b"GET VAR %s ups.status\n" % line.ups,
            "fsd": b"FSD %s\n" % line.ups,
            "logins": b"GET NUMLOGINS %s\n" % line.ups,
        }[query]

    @staticmethod
    def word(text):
        bare = text and all(0x21 <= it <= 0x7E and it not in b'"\\#=' for it in text)
        return text if bare else quoted(text)


class Pipes:
    """The two directions of a link, and the number of its last connection."""

    def __init__(self):
        self.connection = 0
        self.to_server = b""
        self.to_monitor = b""


class Room:
    def __init__(self, config, rules):
        self.server = model.Server(config)
        self.servers = [self.server]
        self.monitors = [Monitor(it) for it in rules]
        self.pipes = [[Pipes() for _ in it.lines] for it in rules]

    def play(self, step):
        """Plays a step. Returns what it tells."""
        before = [it.phase for it in self.monitors]
        verb, *rest = step
        told = [] if getattr(self, "step_" + verb.replace("-", "_"))(*rest) else [("skipped",)]
        for m, monitor in enumerate(self.monitors):
            told += [("notice", m, kind, watch) for kind, watch in monitor.notices]
            monitor.notices = []
            if monitor.phase != before[m]:
                told.append(("phase", m, monitor.phase, any(it.is_primary for it in monitor.rules.lines)))
        return told

    def server_of(self, m, i):
        """Returns the server to which a link leads."""
        return self.server

    def served(self, u):
        """Returns the server of a UPS, and its number there."""
        return self.server, u

    def is_open(self, m, i):
        return self.pipes[m][i].connection in self.server_of(m, i).connections

    def is_linked(self, m, i):
        return self.monitors[m].watches[i].call is not None

    # A method for each step, by its word. It returns whether the step was played; if not, it is skipped.

    def step_server(self, at):
        for server in self.servers:
            server.moment(at)
        return True

    def step_monitor(self, m, at):
        return self.monitors[m].moment(at)

    def step_up(self, u):
        server, number = self.served(u)
        return server.driver_up(number) is None

    def step_driver(self, u, line):
        server, number = self.served(u)
        return server.driver_bytes(number, line + b"\n") is None

    def step_down(self, u):
        server, number = self.served(u)
        return server.driver_down(number) is None

    def step_link(self, m, i):
        server = self.server_of(m, i)
        if self.is_open(m, i) or self.is_linked(m, i) or server.open(b"m%d" % m) is not None:
            return False
        self.pipes[m][i] = Pipes()
        self.pipes[m][i].connection = server.opened
        return self.monitors[m].linked(i)

    def step_out(self, m, i, n):
        if not self.is_linked(m, i):
            return False
        call = self.monitors[m].watches[i].call
        moved = call.waits[: min(n, PIECE_MAX)]
        if moved:
            if self.is_open(m, i):
                self.pipes[m][i].to_server += moved
            self.monitors[m].link_took(i, len(moved))
        return True

    def step_reach(self, m, i, n):
        if not self.is_open(m, i):
            return False
        pipes = self.pipes[m][i]
        piece = pipes.to_server[: min(n, PIECE_MAX)]
        if not piece:
            return True
        if self.server_of(m, i).bytes(pipes.connection, piece) is not None:
            return False
        pipes.to_server = pipes.to_server[len(piece) :]
        return True

    def step_back(self, m, i, n):
        if not self.is_open(m, i):
            return False
        pipes = self.pipes[m][i]
        server = self.server_of(m, i)
        moved = server.waits(pipes.connection)[: min(n, PIECE_MAX)]
        if moved:
            if self.is_linked(m, i):
                pipes.to_monitor += moved
            server.took(pipes.connection, len(moved))
        return True

    def step_land(self, m, i, n):
        if not self.is_linked(m, i):
            return False
        pipes = self.pipes[m][i]
        piece = pipes.to_monitor[: min(n, PIECE_MAX)]
        if piece:
            pipes.to_monitor = pipes.to_monitor[len(piece) :]
            self.monitors[m].link_bytes(i, piece)
        return True

    def step_cut_server(self, m, i):
        pipes = self.pipes[m][i]
        pipes.to_server = b""
        return self.server_of(m, i).close(pipes.connection) is None

    def step_cut_monitor(self, m, i):
        self.pipes[m][i].to_monitor = b""
        return self.monitors[m].link_lost(i)


class RoomOfServers(Room):
    """A room of several servers, each known by its host, to which the MONITOR lines lead that name it. UPSes are numbered
    through, server by server."""

    def __init__(self, configs, rules):
        super().__init__(next(iter(configs.values())), rules)
        self.servers = [self.server, *(model.Server(it) for it in list(configs.values())[1:])]
        self.hosts = dict(zip(configs, self.servers))

    def server_of(self, m, i):
        return self.hosts[self.monitors[m].watches[i].line.target.partition(b"@")[2]]

    def served(self, u):
        for server in self.servers:
            if u < len(server.upses):
                return server, u
            u -= len(server.upses)
        raise IndexError(u)


def shown(number, told):
    """Returns what `nutsim` prints for a step with this number."""
    verb, *rest = told
    if verb == "notice":
        m, kind, watch = rest
        rest = (m, kind, watch.line.target.decode()) if watch else (m, kind)
    elif verb == "phase":
        rest = rest[:2]
    if not rest:
        return f"{number}: {verb}\n".encode()
    m, *more = rest
    return " ".join([f"{number}: monitor {m} {verb}", *map(str, more)]).encode() + b"\n"


def line_of(step):
    """Returns a step as `nutsim` reads it."""
    return b" ".join([step[0].encode(), *(quoted(it) if isinstance(it, bytes) else b"%d" % it for it in step[1:])]) + b"\n"
