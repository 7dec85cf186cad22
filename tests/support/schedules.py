"""Random schedules of arrivals."""

import random
import re

from tests.support import model
from tests.support.model import Config, User
from tests.support.player import Player, reload_steps
from tests.support.request_rows import QUERIES

UPSES = [(b"su700", b"Server room"), (b"b", b'a "b" \\ # = c'), (b"rack.1_x-Y", b""), (b"all", b"d" * 128)]
USERS = {
    b"admin": User(b"pw", ("SET",), (b"ALL",)),
    b"mon": User(b"m1", (), (), "primary"),
    b"sec": User(b'm "2" #', (), (), "secondary"),
    b"op": User(b"p" * 128, ("FSD", "SET"), (b"load.off", b"beeper.enable")),
    b"open": User(None, ("SET", "FSD"), (b"all",), "primary"),
    b"idle": User(b"x"),
}
VARIABLES = [*model.VARIABLES_DESCRIBED, b"load.off", b"a", b"A", b"ups.mfr", b"ups.STATUS", b"v" * 64, b"input.L1-N_x"]
# names and drivers of UPSes, and users, that other configurations have
NAMES = [*(name for name, _ in UPSES), b"SU700", b"neu", b"old", b"u" * 32]
DRIVERS = [b"dummy-ups", b"usbhid-ups", b"snmp-ups"]
OTHER_USERS = {
    b"admin": User(b"pw", ("FSD",), (b"load.off",), "primary"),
    b"mon": User(b"m2", (), (), "primary"),
    b"sec": User(b'm "2" #', ("SET",), (b"all",)),
    b"op": User(None, ("FSD", "SET"), (b"all",)),
    b"nobody": User(b"pw", ("SET",), (b"all",), "primary"),
}
COMMANDS = [*model.COMMANDS_DESCRIBED, b"ups.id", b"k", b"K", b"k" * 64]
VALUES = [b"OL", b"OB LB", b"", b"x", b"low", b"medium", b"high", b"50", b"-0", b"007", b"-5", b"1000000000"]
VALUES += [b'a "b" \\c # d = e', b"y" * 512, b"y" * 513, b"\t"]
NUMBERS = [b"0", b"-0", b"1", b"-1", b"5", b"10", b"100", b"-999999999", b"999999999", b"1000000000", b"x", b""]
NUMBERS += [b"1.5", b"+1", b"00016", b"512", b"513"]
NO_COMMANDS = [b"FOO", b"GET", b"LIST", b"SET", b"=", b"", b"MASTER", b"VERS", b"GE"]
FLAGS = [b"RW", b"rw", b"STRING", b"String", b"NUMBER", b"OTHER", b""]
UPSES_MAX = 32
# how often the maker chooses a reload; its other choices may give more than one arrival
RELOADED = 0.008
# the verbs of steps that ask or prepare
NO_ARRIVALS = ("next", "next-driver", "ups", "users", "upsd")
ADDRESSES = [b"10.0.0.1", b"::1", b"a" * 64, b"!~", b"192.0.2.7%eth0"]
BAD_ADDRESSES = [b"", b"a" * 65, b"a b", b"a\x7f", b'a"', b"a\\b", b"a#", b"a=b", b"\xc3\xa9", b"a\n"]


def varied(chance, config):
    """Returns a configuration that differs from this one by chance: UPSes that go, come, have another text or driver or are in another
    order, users, and the two numbers."""
    upses = [it for it in config.upses if chance.random() < 0.85]
    upses += [(name, b"new") for name in NAMES if name not in dict(config.upses) and chance.random() < 0.1]
    upses = [(name, chance.choice([text] * 8 + [b"", b"another", b'"#"', b"e" * 128])) for name, text in upses[:UPSES_MAX]]
    if chance.random() < 0.3:
        chance.shuffle(upses)
    drivers = {name: chance.choice(DRIVERS) for name, _ in upses if chance.random() < 0.15}
    users = {name: user for name, user in config.users.items() if chance.random() < 0.97}
    users |= {name: user for name, user in OTHER_USERS.items() if chance.random() < 0.15}
    max_age = chance.choice([config.max_age] * 12 + [1, 5, 30, 86_400])
    return Config(upses, users, max_age, chance.choice([config.max_conn] * 12 + [1, 5, 100, 256]), drivers)


def variants(seed, config):
    """Returns configurations for reloads: this one, one without UPSes, one with as many as there can be, and some by chance."""
    chance = random.Random(seed)
    most = Config([(b"u%d" % it, b"") for it in range(28)] + UPSES, config.users)
    return [config, Config([], config.users), most, *(varied(chance, config) for _ in range(33))]


class ScheduleMaker:
    """Makes a schedule. It looks at the model to know what makes sense, and sometimes makes a step that makes none. The
    configurations of its reloads are drawn from those in `others`, most often the first."""

    def __init__(self, seed, config, forced=0.0005, others=()):
        self.random = random.Random(seed)
        self.player = Player(config)
        self.server = self.player.model
        self.forced, self.others = forced, others
        # what connections and drivers have still to send
        self.said, self.told = {}, {}
        self.may_set = False

    @property
    def config(self):
        """The configuration in force."""
        return self.server.config

    def chance(self, part):
        return self.random.random() < part

    def pick(self, items):
        return self.random.choice(items)

    # Lines

    def cased(self, word):
        if self.chance(0.7):
            return word
        return bytes(it ^ 0x20 if chr(it).isalpha() and self.chance(0.5) else it for it in word)

    def spelled(self, word):
        """Returns a word in one of the spellings that mean it, or nearly so."""
        if any(not 0x20 <= it <= 0x7E for it in word):
            return model.quoted(word)
        plain = word and all(it not in b' "\\#=' for it in word)
        if plain and self.chance(0.8):
            return word
        if self.chance(0.1) and word:
            return b"".join(b"\\%c" % it if it in b' "\\#=' or self.chance(0.3) else b"%c" % it for it in word)
        return model.quoted(word) if self.chance(0.9) else b'"' + re.sub(rb'(["\\])', rb"\\\1", word) + b'"'

    def joined(self, words):
        """Returns a line of these words, sometimes with more blanks, a comment, or a fault."""
        line = b" ".join(words)
        if self.chance(0.85):
            return line
        odd = [
            lambda: b" \t" + b"  ".join(words) + b"\r",
            lambda: line + b" # a comment",
            lambda: line + b" # a comment\xff",
            lambda: line + b" more",
            lambda: line.rpartition(b" ")[0],
            lambda: line + b' "',
            lambda: line + b' "a"b',
            lambda: line + b'x"',
            lambda: line + b"\\",
            lambda: line + b" =",
            lambda: line + b' ="x"',
            lambda: line.ljust(model.LINE_MAX),
            lambda: line.ljust(model.LINE_MAX + 1),
            lambda: line + b"#" + b"z" * self.random.randrange(3000),
            lambda: b" ".join([line, *[b"w"] * (32 - len(words))]),
            lambda: b" ".join([line, *[b"w"] * (33 - len(words))]),
            lambda: b"",
            lambda: b"\r",
            lambda: b"#",
            lambda: bytes(self.random.randrange(256) for _ in range(self.random.randrange(40))).replace(b"\n", b""),
        ]
        return self.pick(odd)()

    def ups(self):
        if self.chance(0.06):
            return self.pick([b"none", b"", b"su700 ", b"VAR", *NAMES])
        return self.pick(self.config.upses)[0] if self.config.upses else b"none"

    def request(self):
        forms = [
            *[lambda: self.query("GET ")] * 6,
            *[lambda: self.query("LIST ")] * 3,
            *[lambda: (b"SET", b"VAR", self.ups(), self.variable(), self.pick(VALUES))] * 2,
            lambda: (b"INSTCMD", self.ups(), self.pick(COMMANDS)),
            lambda: (b"INSTCMD", self.ups(), self.pick(COMMANDS), self.pick(VALUES)),
            lambda: (b"SET", b"TRACKING", self.pick([b"ON", b"on", b"ON", b"OFF", b"maybe"])),
            lambda: (b"GET", b"TRACKING"),
            *[lambda: (b"GET", b"TRACKING", self.number(self.known()))] * 2,
            lambda: (b"LOGIN", self.ups()),
            lambda: (b"PRIMARY", self.ups()),
            lambda: self.who(),
            lambda: (self.pick([b"VER", b"NETVER", b"HELP", b"STARTTLS"]),),
            lambda: (self.pick(NO_COMMANDS), *[b"VAR"] * self.random.randrange(2)),
        ]
        if self.chance(self.forced):
            words = (b"FSD", self.ups())
        elif self.chance(0.01):
            words = (b"LOGOUT",)
        elif self.may_set and self.config.upses and self.chance(0.6):
            words = self.order(self.pick(self.server.upses))
        else:
            words = self.pick(forms)()
        keywords = 2 if words[0] in (b"GET", b"LIST", b"SET") else 1
        return self.joined([self.cased(it) if at < keywords else self.spelled(it) for at, it in enumerate(words)])

    def query(self, command):
        """Returns a query of this command, as docs/protocol.md has them."""
        named = {"u": self.ups, "v": self.variable, "k": lambda: self.pick(COMMANDS)}
        words = self.pick([it.form for it in QUERIES if it.form.startswith(command)]).split()
        return tuple(named[it]() if it in named else it.encode() for it in words)

    def order(self, ups):
        """Returns a SET or an INSTCMD that the driver of this UPS would be asked if its queue has room."""
        u = ups.name
        named = [v for v, it in ups.variables.items() if "RW" in it.flags]
        if not named or self.chance(0.2):
            parameter = [self.pick(VALUES[:-3])] if self.chance(0.3) else []
            return b"INSTCMD", u, self.pick(sorted(ups.commands) or COMMANDS), *parameter
        v = self.pick(named)
        variable = ups.variables[v]
        value = self.pick(variable.enums or [b"%d" % self.pick(it) for it in variable.ranges] or VALUES[:-3])
        return b"SET", b"VAR", u, v, value

    def number(self, tracked):
        """Returns the number of a tracked request: most often one of these, and sometimes one that was never given."""
        if self.chance(0.1):
            return self.pick(NUMBERS)
        if tracked and self.chance(0.8):
            return b"%d" % self.pick(tracked)
        return b"%d" % max(0, self.server.given - int(self.random.expovariate(1 / 60)))

    def known(self):
        """Returns the numbers of the tracked requests that the server still knows."""
        return [number for ups in self.server.upses for number in ups.tracked]

    def pending(self, u):
        """Returns the numbers of the tracked requests whose outcome the driver of this UPS hasn't told."""
        return [number for ups in self.server.upses if ups.number == u for number, status in ups.tracked.items() if status == b"PENDING"]

    def who(self):
        name, password = self.pick([*USERS, b"nobody", b"", b"u" * 129]), self.pick([b"pw", b"m1", b"", b"x", b"q" * 128])
        return self.pick([(b"USERNAME", name), (b"PASSWORD", password)])

    def variable(self):
        if self.chance(0.05):
            return self.pick([b"none", b"", b"a b", b"v" * 65, b"load.off"])
        if self.chance(0.05):
            return b"many.%d" % self.random.randrange(600)
        return self.pick(VARIABLES)

    def greeting(self):
        """Returns the lines with which most clients begin."""
        name = self.pick(list(USERS))
        password = USERS[name].password or b"pw"
        lines = [b"USERNAME " + self.spelled(name), b"PASSWORD " + self.spelled(password if self.chance(0.9) else b"wrong")]
        lines += [b"SET TRACKING ON"] if self.chance(0.5) else []
        return lines + ([b"LOGIN " + self.ups()] if self.chance(0.6) else [])

    def report(self, u):
        """Returns a line of the driver of this UPS."""
        forms = [
            *[lambda: (b"SETINFO", self.variable(), self.pick(VALUES))] * 2,
            lambda: (b"SETINFO", b"ups.status", self.pick(VALUES[:2])),
            lambda: (b"DELINFO", self.variable()) if self.chance(0.3) else (b"PONG",),
            lambda: (self.pick([b"ADDENUM", b"DELENUM"]), self.variable(), self.pick(VALUES)),
            lambda: (b"ADDENUM", self.pick(VARIABLES[:2]), b"%d" % self.random.randrange(100)),
            lambda: (self.pick([b"ADDRANGE", b"DELRANGE"]), self.variable(), self.pick(NUMBERS), self.pick(NUMBERS)),
            lambda: (b"ADDRANGE", self.pick(VARIABLES[2:4]), b"%d" % self.random.randrange(30), b"%d" % self.random.randrange(20, 40)),
            lambda: (b"SETAUX", self.variable(), self.pick(NUMBERS)),
            lambda: (b"SETFLAGS", self.variable(), *(self.pick(FLAGS) for _ in range(self.random.randrange(4)))),
            lambda: (self.pick([b"ADDCMD", b"ADDCMD", b"DELCMD"]), self.pick([*COMMANDS, b"", b"k" * 65, b"a b"])),
            lambda: (b"ADDCMD", b"many.%d" % self.random.randrange(200)),
            *[lambda: (b"TRACKING", self.number(self.pending(u)), self.pick([b"0", b"0", b"1", b"00", b"x"]))] * 2,
            lambda: (self.pick([b"DUMPDONE", b"DATAOK", b"DATAOK", b"DATAOK", b"PONG"]),),
            lambda: (self.pick([b"DATASTALE", b"FOO", b"SETFLAGS", b"="]),) if self.chance(0.2) else (b"DATAOK",),
        ]
        words = self.pick(forms)()
        return self.joined([self.cased(words[0]), *(self.spelled(it) for it in words[1:])])

    def dump(self):
        """Returns what a driver tells first."""
        lines = [b'SETINFO ups.status "OL"', b"SETINFO ups.id x", b"SETFLAGS ups.id RW STRING", b"SETAUX ups.id 16"]
        lines += [b"SETINFO %s 50" % it for it in VARIABLES] + [b"SETFLAGS %s RW" % it for it in VARIABLES if self.chance(0.6)]
        lines += [b"ADDCMD " + it for it in COMMANDS]
        if self.chance(0.3):
            lines += [b"SETINFO many.%d %s" % (it, b"z" * 60) for it in range(self.random.randrange(520))]
        return lines + [b"DATAOK", b"DUMPDONE"]

    # Steps

    def piece(self, waiting, line):
        """Returns the next bytes of a stream: cut anywhere, sometimes with many lines, sometimes all that is there. What is
        long mostly comes in large pieces."""
        while len(waiting) < 20:
            waiting += line() + b"\n"
        is_long = len(waiting) > 512 and self.chance(0.8)
        most = 512 if is_long else self.pick([3, 40, 40, 200, 512])
        end = self.random.randrange(most + 1)
        if not is_long and self.chance(0.6):
            end = waiting.find(b"\n", 0, 512) + 1 or end
        piece = bytes(waiting[:end])
        del waiting[:end]
        return piece

    def connection(self):
        """Returns a connection that is open, or sometimes any number."""
        if not self.server.connections or self.chance(0.003):
            return self.pick([0, 1, self.server.opened + 1, 2**64 - 1, self.random.randrange(self.server.opened + 2)])
        return self.pick(list(self.server.connections))

    def driver(self):
        """Returns the number of a UPS, or sometimes any number."""
        if not self.server.upses or self.chance(0.005):
            return self.pick([self.random.randrange(self.server.places + 1), 2**64 - 1])
        return self.pick(self.server.upses).number

    def is_setter(self, c):
        """Whether this connection's client may set variables."""
        asker = self.server.connections[c]
        user = self.config.users.get(asker.user)
        return user is not None and "SET" in user.actions and asker.password is not None and user.password == asker.password

    def flood_steps(self):
        """A client asks a driver for more than its queue holds."""
        setters = [c for c in self.server.connections if self.is_setter(c)]
        if not setters or not self.server.upses:
            return
        c, ups = self.pick(setters), self.pick(self.server.upses)
        yield ("take", c)
        for _ in range(24):
            lines = (b" ".join(map(self.spelled, self.order(ups))) for _ in range(12))
            yield ("bytes", c, b"".join(b"\n" + it for it in lines if len(it) < 40))
            yield ("take", c)

    def client_steps(self):
        c = self.connection()
        server = self.server
        waits = len(server.waits(c))
        if waits and self.chance(0.97):
            if self.chance(0.8):
                yield ("take", c)
            elif self.chance(0.9):
                yield ("take", c, self.random.randrange(waits + 2))
            else:
                yield ("took", c, self.random.randrange(waits + 2))
                if self.chance(0.3):
                    yield ("fail", c)
                    self.said.pop(c, None)
            return
        if server.leaves(c) and self.chance(0.8):
            yield ("close", c)
            self.said.pop(c, None)
            return
        if self.chance(0.003):
            yield ("bytes", c, b"x" * self.random.randrange(510, 600))
            return
        self.may_set = c in server.connections and self.is_setter(c)
        yield ("bytes", c, self.piece(self.said.setdefault(c, bytearray()), self.request))
        if self.chance(0.7):
            yield ("take", c)

    def driver_steps(self):
        u = self.driver()
        server = self.server
        if server.connected(u) is None and self.chance(0.9) or self.chance(0.001):
            yield ("up", u)
            self.told[u] = bytearray(b"".join(it + b"\n" for it in self.dump()))
        elif self.chance(0.003):
            yield ("down", u)
        elif self.chance(0.001 if u % 2 else 0.3):
            # half of the drivers take hardly anything, so their queues are full
            waits = len(server.waits_for_driver(u))
            if self.chance(0.05):
                yield ("driver-take", u)
            elif self.chance(0.5):
                yield ("driver-take", u, self.random.randrange(waits + 2))
            else:
                yield ("driver-took", u, self.random.randrange(min(waits, 40) + 2))
        elif self.chance(0.003):
            yield ("driver", u, b"x" * self.random.randrange(510, 600))
        else:
            waiting = self.told.setdefault(u, bytearray())
            # a dump is told soon
            for _ in range(1 + len(waiting) // 256):
                yield ("driver", u, self.piece(waiting, lambda: self.report(u)))

    def open_steps(self):
        if self.chance(0.03):
            yield ("open", self.pick(BAD_ADDRESSES))
            return
        opened = self.server.opened
        yield ("open", self.pick(ADDRESSES) if self.chance(0.5) else b"10.1.%d.%d" % divmod(self.random.randrange(65536), 256))
        if self.server.opened > opened and self.chance(0.8):
            self.said[self.server.opened] = bytearray(b"".join(it + b"\n" for it in self.greeting()))

    def other_steps(self):
        found = self.random.random()
        if found < 0.5:
            step = self.random.randrange(4) if self.chance(0.97) else self.pick([6, 20, 100])
            yield ("moment", max(0, self.server.now + step - (5 if self.chance(0.05) else 0)))
        elif found < 0.6:
            yield ("next", self.random.randrange(self.server.opened + 3))
        elif found < 0.7:
            yield ("next-driver", self.random.randrange(self.server.places + 2))
        else:
            c = self.connection()
            # while many connections are open, they are closed slowly
            if self.chance(0.5) or len(self.server.connections) >= self.config.max_conn:
                yield (self.pick(["close", "close", "fail"]), c)
                self.said.pop(c, None)

    def reload_steps(self):
        """Puts another configuration in force, and looks at what it closed."""
        before = list(self.server.connections)
        yield from reload_steps(self.others[0] if self.chance(0.4) else self.pick(self.others))
        for c in before:
            if c not in self.server.connections:
                self.said.pop(c, None)
                yield ("took", c, 0)

    def steps(self, count):
        """Makes this many arrivals and takings. Each step is played on the model before the next is made."""
        for step in self.steps_unplayed(count):
            yield step
            self.player.play(step)

    def steps_unplayed(self, count):
        made = 0
        # many connections are opened at the beginning
        beginning = 4 * self.config.max_conn
        while made < count:
            opened = len(self.server.connections)
            found = self.random.random()
            if opened < self.config.max_conn and made < beginning:
                found *= 2
            if self.others and made >= beginning and self.chance(RELOADED):
                made_now = self.reload_steps()
            elif self.chance(0.0005):
                made_now = self.flood_steps()
            elif found < 0.62:
                made_now = self.client_steps()
            elif found < 0.85:
                made_now = self.driver_steps()
            elif found < 0.92:
                made_now = self.other_steps()
            else:
                made_now = self.open_steps()
            for step in made_now:
                made += step[0] not in NO_ARRIVALS
                yield step


def shifted(step, opened, now):
    """Returns a step as it is played again after this many opened connections and seconds."""
    verb, *words = step
    if verb == "moment":
        return verb, words[0] + now
    if verb in ("bytes", "took", "close", "fail", "take", "next") and words[0] < 2**63:
        return (verb, words[0] + opened, *words[1:])
    return step
