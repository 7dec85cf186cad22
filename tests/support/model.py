"""A plain model of the server, written from the protocol's text alone, for programs to be compared with.

It keeps dictionaries and lists, cuts lines out of the bytes so far, and reads words by regular expressions. All names and
texts are bytes."""

import copy
import inspect
import itertools
import re

LINE_MAX = 2048
PIECE_MAX = 512
WORDS_MAX = 32
VALUE_MAX = 512
CREDENTIAL_MAX = 128
VARIABLES_MAX = 512
COMMANDS_MAX = 128
ENUMS_MAX = 64
RANGES_MAX = 16
ASKS_MAX = 4096
TRACKED_MAX = 64
TRACKING_NUMBER_MAX = 999_999_999
# how many connections a server opens, and the number of the last of them
OPENED_MAX = 4_294_967_295

VARIABLES_DESCRIBED = {
    b"battery.charge": b"Battery charge (percent)",
    b"battery.charge.low": b"Low battery level (percent)",
    b"battery.runtime.low": b"Low battery runtime (seconds)",
    b"input.sensitivity": b"Input sensitivity",
    b"ups.beeper.status": b"Beeper status",
    b"ups.delay.shutdown": b"Delay before shutdown (seconds)",
    b"ups.id": b"Identifier of the UPS",
    b"ups.status": b"Status of the UPS",
    b"ups.test.result": b"Result of the last test",
}
COMMANDS_DESCRIBED = {
    b"beeper.disable": b"Disable the beeper",
    b"beeper.enable": b"Enable the beeper",
    b"load.off": b"Turn off the load",
    b"load.on": b"Turn on the load",
    b"test.battery.start": b"Start a battery test",
    b"test.battery.stop": b"Stop the battery test",
    b"test.failure.start": b"Simulate a power failure",
    b"test.failure.stop": b"Stop the simulated failure",
}
NO_DESCRIPTION = b"Description unavailable"

HELP = b"Commands: GET LIST SET INSTCMD USERNAME PASSWORD LOGIN PRIMARY FSD LOGOUT VER NETVER HELP STARTTLS"

BLANK = rb"[ \t\r]+"
BARE = rb"(?:[!$-<>-\[\]-~]|\\[ -~])+"
QUOTED = rb'"(?:[ !#-\[\]-~]|\\[ -~])*"'
WORD = rb"(?P<bare>" + BARE + rb")|(?P<quoted>" + QUOTED + rb")"
PART = re.compile(rb"(?P<blank>" + BLANK + rb")|" + WORD + rb"|(?P<equals>=)|(?P<comment>#[ -~\t\r]*\Z)")
ESCAPE = re.compile(rb"\\(.)")
NAME = re.compile(rb"[A-Za-z0-9._-]{1,64}")
ADDRESS = re.compile(rb"[!$-<>-\[\]-~]{1,64}")
WHOLE = re.compile(rb"-?[0-9]{1,9}")
COUNT = re.compile(rb"[0-9]{1,9}")
TRACKING_NUMBER = re.compile(rb"[1-9][0-9]{0,8}")


def fits(pattern, text):
    # `$` would also match before a last line feed
    return pattern.fullmatch(text) is not None


def words_of(line):
    """Returns the words that a line spells, or None if it spells none (an empty list is a line without words)."""
    words = []
    at, before = 0, "blank"
    while at < len(line):
        part = PART.match(line, at)
        if part is None:
            return None
        kind = part.lastgroup
        if kind == "quoted" and before not in ("blank", "equals"):
            return None
        if before == "quoted" and kind in ("bare", "quoted"):
            return None
        if kind == "bare":
            words.append(ESCAPE.sub(rb"\1", part[0]))
        elif kind == "quoted":
            words.append(ESCAPE.sub(rb"\1", part[0][1:-1]))
        elif kind == "equals":
            words.append(b"=")
        if len(words) > WORDS_MAX:
            return None
        at, before = part.end(), kind
    return words


def quoted(text):
    return b'"' + re.sub(rb'(["\\#])', rb"\\\1", text) + b'"'


def words_behind(method, own):
    """Returns how many words a line may have behind those that name its method. They are the method's parameters, behind this many
    of its own."""
    parameters = list(inspect.signature(method).parameters.values())[own:]
    needed = [it for it in parameters if it.default is it.empty and it.kind is not it.VAR_POSITIONAL]
    has_more = any(it.kind is it.VAR_POSITIONAL for it in parameters)
    return range(len(needed), (WORDS_MAX if has_more else len(parameters)) + 1)


class Refused(Exception):
    """An answer `ERR ..`."""


class User:
    def __init__(self, password=None, actions=(), commands=(), upsmon=None):
        self.password, self.actions, self.commands, self.upsmon = password, actions, commands, upsmon

    def may(self, right, command):
        if right == "LOGIN":
            return self.upsmon is not None
        if right == "PRIMARY":
            return self.upsmon == "primary"
        if right == "FSD":
            return self.upsmon == "primary" or "FSD" in self.actions
        if right == "SET":
            return "SET" in self.actions
        return any(it.lower() == b"all" or it == command for it in self.commands)


class Config:
    """The contents of the configuration files: (name, description) of each UPS, users by name, two numbers, and the driver of
    each UPS by its name, where that isn't the default."""

    def __init__(self, upses, users, max_age=15, max_conn=256, drivers=None):
        self.upses, self.users, self.drivers = upses, users, drivers or {}
        self.max_age, self.max_conn = max_age, max_conn

    def names(self):
        return [name for name, _ in self.upses]

    def driver(self, name):
        return self.drivers.get(name, b"dummy-ups")


class Variable:
    def __init__(self, value):
        self.value = value
        self.flags = set()
        self.aux = None
        self.enums = []
        self.ranges = []

    def kind(self):
        if self.enums:
            return "ENUM"
        if self.ranges:
            return "RANGE"
        return "STRING" if "STRING" in self.flags else "NUMBER"

    def refuse(self, value):
        """Raises the refusal of a SET to this value, if it is refused."""
        if "RW" not in self.flags:
            raise Refused("READONLY")
        if len(value) > VALUE_MAX:
            raise Refused("TOO-LONG")
        kind = self.kind()
        if kind == "ENUM" and value not in self.enums:
            raise Refused("INVALID-VALUE")
        if kind == "RANGE":
            number = int(value) if fits(WHOLE, value) else None
            if number is None or not any(least <= number <= most for least, most in self.ranges):
                raise Refused("INVALID-VALUE")
        if kind == "STRING" and len(value) > (self.aux or 0):
            raise Refused("TOO-LONG")


class DriverLines:
    """What the lines of a driver do to a UPS: a method for each, named by its first word, whose parameters are the others."""

    def setinfo(self, name, value):
        if not fits(NAME, name) or len(value) > VALUE_MAX:
            return
        if name in self.variables:
            self.variables[name].value = value
        elif len(self.variables) < VARIABLES_MAX:
            self.variables[name] = Variable(value)

    def delinfo(self, name):
        self.variables.pop(name, None)

    def addenum(self, name, value):
        variable = self.variables.get(name)
        if variable and len(value) <= VALUE_MAX and value not in variable.enums and len(variable.enums) < ENUMS_MAX:
            variable.enums.append(value)

    def delenum(self, name, value):
        if name in self.variables and value in self.variables[name].enums:
            self.variables[name].enums.remove(value)

    def addrange(self, name, least, most):
        variable = self.variables.get(name)
        if not variable or not fits(WHOLE, least) or not fits(WHOLE, most):
            return
        pair = int(least), int(most)
        if pair[0] <= pair[1] and pair not in variable.ranges and len(variable.ranges) < RANGES_MAX:
            variable.ranges.append(pair)

    def delrange(self, name, least, most):
        variable = self.variables.get(name)
        if variable and fits(WHOLE, least) and fits(WHOLE, most) and (int(least), int(most)) in variable.ranges:
            variable.ranges.remove((int(least), int(most)))

    def setaux(self, name, number):
        if name in self.variables and fits(COUNT, number) and int(number) <= VALUE_MAX:
            self.variables[name].aux = int(number)

    def setflags(self, name, *flags):
        if name in self.variables:
            named = {flag.upper() for flag in flags}
            self.variables[name].flags = {it.decode() for it in (b"RW", b"STRING", b"NUMBER") if it in named}

    def addcmd(self, name):
        if fits(NAME, name) and len(self.commands) < COMMANDS_MAX:
            self.commands.add(name)

    def delcmd(self, name):
        self.commands.discard(name)

    def dumpdone(self):
        self.is_dumped = True

    def dataok(self):
        self.is_data_ok = True

    def datastale(self):
        self.is_data_ok = False

    def pong(self):
        pass

    def tracking(self, number, status):
        if fits(COUNT, number) and fits(COUNT, status) and self.tracked.get(int(number)) == b"PENDING":
            self.tracked[int(number)] = b"FAILED" if int(status) else b"SUCCESS"


# a driver's lines by their first words, each with how many words may follow it
DRIVER_LINES = {name.upper().encode(): (it, words_behind(it, 1)) for name, it in vars(DriverLines).items() if not name.startswith("_")}


class Ups(DriverLines):
    def __init__(self, number, name):
        self.number, self.name = number, name
        # the configuration sets these
        self.description = self.driver = None
        self.is_forced = False
        self.is_connected = False
        # the statuses of tracked requests by their numbers, the oldest first
        self.tracked = {}
        self.forget()

    def forget(self):
        """Forgets what a driver told, and what waits for it."""
        self.variables = {}
        self.commands = set()
        self.is_dumped = False
        self.is_data_ok = False
        self.last_heard = 0
        self.last_ping = None
        self.rest = b""
        self.asks = b""

    def hear(self, line):
        """Applies a line of the driver. Returns whether it counts as a word of it."""
        words = words_of(line) if len(line) <= LINE_MAX else None
        if not words:
            return False
        verb, *rest = words
        method, counts = DRIVER_LINES.get(verb.upper(), (None, ()))
        if len(rest) not in counts:
            return False
        method(self, *rest)
        return True

    def size(self):
        """Returns how many entries its table has."""
        lists = sum(len(it.enums) + len(it.ranges) for it in self.variables.values())
        return len(self.variables) + len(self.commands) + lists

    def abandon(self):
        """Fails the tracked requests whose outcome the driver hasn't told."""
        self.tracked = {number: b"FAILED" if status == b"PENDING" else status for number, status in self.tracked.items()}

    def track(self, number):
        self.tracked[number] = b"PENDING"
        if len(self.tracked) > TRACKED_MAX:
            del self.tracked[min(self.tracked)]

    def ask(self, line):
        """Puts a request in the driver's queue. Returns whether it fitted."""
        if len(self.asks) + len(line) > ASKS_MAX:
            return False
        self.asks += line
        return True


class Connection:
    def __init__(self, address):
        self.address = address
        self.user = self.password = self.login = None
        self.is_logged_out = self.is_tracking = False
        self.rest = self.waits = b""


def cut(rest, piece):
    """Returns the lines that a piece completes, and the unfinished line. An endless line is kept just long enough to show
    that it is too long."""
    *lines, rest = (rest + piece).split(b"\n")
    return lines, rest[: LINE_MAX + 1]


class Forms:
    """The answers to requests: a method for each form, named by the form's words, whose parameters are the words behind them."""

    def get_numlogins(self, _, u):
        return b"NUMLOGINS %s %d\n" % (u, len(self.logins(self.live(u))))

    def get_upsdesc(self, _, u):
        return b"UPSDESC %s %s\n" % (u, quoted(self.ups(u).description))

    def get_var(self, _, u, v):
        ups = self.live(u)
        self.variable(ups, v)
        return b"VAR %s %s %s\n" % (u, v, quoted(self.shown(ups, v)))

    def get_type(self, _, u, v):
        variable = self.variable(self.live(u), v)
        kind = variable.kind().encode() + (b":%d" % (variable.aux or 0) if variable.kind() == "STRING" else b"")
        return b"TYPE %s %s %s%s\n" % (u, v, b"RW " if "RW" in variable.flags else b"", kind)

    def get_desc(self, _, u, v):
        self.variable(self.live(u), v)
        return b"DESC %s %s %s\n" % (u, v, quoted(VARIABLES_DESCRIBED.get(v, NO_DESCRIPTION)))

    def get_cmddesc(self, _, u, k):
        if k not in self.live(u).commands:
            raise Refused("CMD-NOT-SUPPORTED")
        return b"CMDDESC %s %s %s\n" % (u, k, quoted(COMMANDS_DESCRIBED.get(k, NO_DESCRIPTION)))

    def list_ups(self, _):
        return self.listed(b"UPS", (b"UPS %s %s" % (it.name, quoted(it.description)) for it in self.upses))

    def list_var(self, _, u):
        ups = self.live(u)
        return self.listed(b"VAR " + u, (b"VAR %s %s %s" % (u, v, quoted(self.shown(ups, v))) for v in sorted(ups.variables)))

    def list_rw(self, _, u):
        ups = self.live(u)
        names = sorted(v for v in ups.variables if "RW" in ups.variables[v].flags)
        return self.listed(b"RW " + u, (b"RW %s %s %s" % (u, v, quoted(self.shown(ups, v))) for v in names))

    def list_cmd(self, _, u):
        return self.listed(b"CMD " + u, (b"CMD %s %s" % (u, k) for k in sorted(self.live(u).commands)))

    def list_enum(self, _, u, v):
        variable = self.variable(self.live(u), v)
        return self.listed(b"ENUM %s %s" % (u, v), (b"ENUM %s %s %s" % (u, v, quoted(it)) for it in variable.enums))

    def list_range(self, _, u, v):
        variable = self.variable(self.live(u), v)
        rows = (b'RANGE %s %s "%d" "%d"' % (u, v, least, most) for least, most in variable.ranges)
        return self.listed(b"RANGE %s %s" % (u, v), rows)

    def list_client(self, _, u):
        ups = self.live(u)
        return self.listed(b"CLIENT " + u, (b"CLIENT %s %s" % (u, it.address) for it in self.logins(ups)))

    def set_var(self, connection, u, v, x):
        ups = self.permitted(connection, u, "SET")
        self.live(u)
        self.variable(ups, v).refuse(x)
        return self.hand_on(connection, ups, b"SET %s %s" % (v, quoted(x)), "SET-FAILED")

    def set_tracking(self, connection, word):
        if word.upper() not in (b"ON", b"OFF"):
            raise Refused("INVALID-ARGUMENT")
        self.need_credentials(connection)
        connection.is_tracking = word.upper() == b"ON"
        return b"OK\n"

    def get_tracking(self, connection, number=None):
        if number is None:
            return b"TRACKING %s\n" % (b"ON" if connection.is_tracking else b"OFF")
        if not fits(TRACKING_NUMBER, number):
            raise Refused("INVALID-ARGUMENT")
        statuses = [it.tracked[int(number)] for it in self.upses if int(number) in it.tracked]
        return b"TRACKING %s %s\n" % (number, statuses[0] if statuses else b"UNKNOWN")

    def instcmd(self, connection, u, k, x=None):
        ups = self.permitted(connection, u, "INSTCMD", k)
        self.live(u)
        if k not in ups.commands:
            raise Refused("CMD-NOT-SUPPORTED")
        if x is not None and len(x) > VALUE_MAX:
            raise Refused("TOO-LONG")
        parameter = b"" if x is None else b" " + quoted(x)
        return self.hand_on(connection, ups, b"INSTCMD " + k + parameter, "INSTCMD-FAILED")

    def username(self, connection, x):
        return self.give(connection, "user", x, "ALREADY-SET-USERNAME")

    def password(self, connection, x):
        return self.give(connection, "password", x, "ALREADY-SET-PASSWORD")

    def login(self, connection, u):
        ups = self.permitted(connection, u, "LOGIN")
        if connection.login is not None:
            raise Refused("ALREADY-LOGGED-IN")
        connection.login = ups
        return b"OK\n"

    def primary(self, connection, u):
        self.permitted(connection, u, "PRIMARY")
        return b"OK\n"

    def fsd(self, connection, u):
        self.permitted(connection, u, "FSD").is_forced = True
        return b"OK FSD-SET\n"

    def logout(self, connection):
        connection.is_logged_out = True
        connection.login = None
        return b"OK Goodbye\n"

    def ver(self, _):
        return b"Network UPS Tools upsd profile 1.3\n"

    def netver(self, _):
        return b"1.3\n"

    def help(self, _):
        return HELP + b"\n"

    def starttls(self, _):
        raise Refused("FEATURE-NOT-CONFIGURED")


# the forms by their words, each with how many words may follow them
FORMS = {name.replace("_", " ").upper().encode(): (it, words_behind(it, 2)) for name, it in vars(Forms).items() if not name.startswith("_")}
FIRST_WORDS = {key.split()[0] for key in FORMS}


class Server(Forms):
    def __init__(self, config):
        self.now = 0
        self.opened = 0
        self.given = 0
        self.connections = {}
        # in the order of the file
        self.upses = []
        # how many numbers there have been for UPSes
        self.places = 0
        self.reload(config)

    # The server's arrivals. Each call returns the name of the refusal, or None.

    def reload(self, config):
        """Puts a configuration in force. A UPS whose name stays keeps its number and what is known of it; its driver is
        disconnected if the configuration names another. What is known of other UPSes is dropped, and their clients are
        closed. New UPSes take the least free numbers in the order of the file."""
        drivers, connections = self.ended_by(config)
        for number in drivers:
            self.driver_down(number)
        for number in connections:
            self.close(number)
        staying = {it.name: it for it in self.upses if it.name in config.names()}
        taken = [it.number for it in staying.values()]
        free = (number for number in itertools.count() if number not in taken)
        self.upses = [staying.get(name) or Ups(next(free), name) for name in config.names()]
        for ups, (name, description) in zip(self.upses, config.upses):
            ups.description, ups.driver = description, config.driver(name)
        self.places = max(self.places, len(self.upses))
        self.config = config

    def moment(self, at):
        self.now = max(self.now, at)
        pause = self.config.max_age // 3
        for ups in self.upses:
            is_silent = ups.is_connected and self.now - ups.last_heard > pause
            is_due = ups.last_ping is None or self.now - ups.last_ping > pause
            if is_silent and is_due and ups.ask(b"PING\n"):
                ups.last_ping = self.now

    def open(self, address):
        if not fits(ADDRESS, address):
            return "BadAddress"
        if len(self.connections) >= self.config.max_conn or self.opened >= OPENED_MAX:
            return "Full"
        self.opened += 1
        self.connections[self.opened] = Connection(address)

    def bytes(self, number, piece, lost=None):
        """With `lost`, an allocation is refused behind this many lines of the piece."""
        connection = self.connections.get(number)
        if connection is None:
            return "NoSuchConnection"
        if len(piece) > PIECE_MAX:
            return "PieceTooLong"
        if connection.waits:
            return "Busy"
        lines, connection.rest = cut(connection.rest, piece)
        for line in lines[:lost]:
            connection.waits += self.answer(connection, line)
        if lost is not None:
            del self.connections[number]

    def may_lack(self, number, piece):
        """Returns the lines of an accepted piece, as their numbers from 0, at which memory may be lacking."""
        connection = self.connections[number]
        gone = connection.is_logged_out
        found = set()
        for at, line in enumerate(cut(connection.rest, piece)[0]):
            words = words_of(line) if len(line) <= LINE_MAX else None
            if not gone and (words != [] or b"\\" in line):
                found.add(at)
            gone = gone or (words is not None and [it.upper() for it in words] == [b"LOGOUT"])
        return found

    def driver_may_lack(self, number, piece):
        """Returns the lines of an accepted piece of a driver, as their numbers from 0, at which memory may be lacking."""
        ups = copy.deepcopy(self.numbered(number))
        found = set()
        for at, line in enumerate(cut(ups.rest, piece)[0]):
            before = ups.size()
            ups.hear(line)
            if b"\\" in line or ups.size() > before:
                found.add(at)
        return found

    def took(self, number, count):
        connection = self.connections.get(number)
        if connection is None:
            return "NoSuchConnection"
        if count > len(connection.waits):
            return "TooMuchTaken"
        connection.waits = connection.waits[count:]

    def close(self, number):
        if number not in self.connections:
            return "NoSuchConnection"
        del self.connections[number]

    def driver_up(self, number):
        ups = self.numbered(number)
        if ups is None:
            return "NotConnected"
        ups.abandon()
        ups.forget()
        ups.is_connected = True
        ups.last_heard = self.now
        ups.ask(b"DUMPALL\n")

    def numbered(self, number):
        return next((it for it in self.upses if it.number == number), None)

    def connected(self, number):
        ups = self.numbered(number)
        return ups if ups is not None and ups.is_connected else None

    def driver_bytes(self, number, piece, lost=None):
        ups = self.connected(number)
        if ups is None:
            return "NotConnected"
        if len(piece) > PIECE_MAX:
            return "PieceTooLong"
        lines, ups.rest = cut(ups.rest, piece)
        for line in lines[:lost]:
            if ups.hear(line):
                ups.last_heard = self.now
        if lost is not None:
            self.driver_down(number)

    def driver_took(self, number, count):
        ups = self.connected(number)
        if ups is None:
            return "NotConnected"
        if count > len(ups.asks):
            return "TooMuchTaken"
        ups.asks = ups.asks[count:]

    def driver_down(self, number):
        ups = self.connected(number)
        if ups is None:
            return "NotConnected"
        ups.abandon()
        ups.forget()
        ups.is_connected = False

    # The server's state, as it reports it.

    def ended_by(self, config):
        """Returns the numbers of the drivers that a reload of this configuration disconnects, and those of the connections
        that it closes."""
        names = config.names()
        drivers = [it.number for it in self.upses if it.is_connected and (it.name not in names or it.driver != config.driver(it.name))]
        clients = [number for number, it in self.connections.items() if it.login is not None and it.login.name not in names]
        return sorted(drivers), sorted(clients)

    def waits(self, number):
        return self.connections[number].waits if number in self.connections else b""

    def waits_for_driver(self, number):
        ups = self.numbered(number)
        return b"" if ups is None else ups.asks

    def may_read(self, number):
        connection = self.connections.get(number)
        return connection is not None and not connection.waits and not connection.is_logged_out

    def leaves(self, number):
        connection = self.connections.get(number)
        return connection is not None and not connection.waits and connection.is_logged_out

    def kept(self, number):
        kept = len(self.connections[number].rest) if number in self.connections else 0
        return kept if kept <= LINE_MAX else 0

    # The answers to lines.

    def answer(self, connection, line):
        if connection.is_logged_out:
            return b""
        words = words_of(line) if len(line) <= LINE_MAX else None
        if words == []:
            return b""
        try:
            if words is None:
                raise Refused("INVALID-ARGUMENT")
            return self.reply(connection, words)
        except Refused as refused:
            return b"ERR " + str(refused).encode() + b"\n"

    def reply(self, connection, words):
        first = words[0].upper()
        if first in (b"GET", b"LIST", b"SET"):
            second = words[1].upper() if len(words) > 1 else b""
            key, rest = first + b" " + second, words[2:]
        elif first in FIRST_WORDS:
            key, rest = first, words[1:]
        else:
            raise Refused("UNKNOWN-COMMAND")
        method, counts = FORMS.get(key, (None, ()))
        if len(rest) not in counts:
            raise Refused("INVALID-ARGUMENT")
        return method(self, connection, *rest)

    def ups(self, name):
        found = [it for it in self.upses if it.name == name]
        if not found:
            raise Refused("UNKNOWN-UPS")
        return found[0]

    def live(self, name):
        """Returns the UPS of this name, if its driver is connected and its data is fresh."""
        ups = self.ups(name)
        if not ups.is_connected:
            raise Refused("DRIVER-NOT-CONNECTED")
        if not ups.is_dumped or not ups.is_data_ok or self.now - ups.last_heard > self.config.max_age:
            raise Refused("DATA-STALE")
        return ups

    def variable(self, ups, name):
        if name not in ups.variables:
            raise Refused("VAR-NOT-SUPPORTED")
        return ups.variables[name]

    def give(self, connection, name, text, refusal):
        """Keeps what a client says of itself, if it is the first time."""
        if not 1 <= len(text) <= CREDENTIAL_MAX:
            raise Refused("INVALID-ARGUMENT")
        if getattr(connection, name) is not None:
            raise Refused(refusal)
        setattr(connection, name, text)
        return b"OK\n"

    def need_credentials(self, connection):
        """Refuses a client that hasn't given a user name and a password."""
        if connection.user is None:
            raise Refused("USERNAME-REQUIRED")
        if connection.password is None:
            raise Refused("PASSWORD-REQUIRED")

    def permitted(self, connection, name, right, command=None):
        """Returns the UPS of this name, if the client may do this to it."""
        self.need_credentials(connection)
        ups = self.ups(name)
        user = self.config.users.get(connection.user)
        if user is None or user.password is None or user.password != connection.password or not user.may(right, command):
            raise Refused("ACCESS-DENIED")
        return ups

    def shown(self, ups, name):
        value = ups.variables[name].value
        return b"FSD " + value if ups.is_forced and name == b"ups.status" else value

    def logins(self, ups):
        return [it for _, it in sorted(self.connections.items()) if it.login is ups]

    def listed(self, query, rows):
        return b"BEGIN LIST %s\n%sEND LIST %s\n" % (query, b"".join(row + b"\n" for row in rows), query)

    def hand_on(self, connection, ups, request, refusal):
        """Hands a request on to a driver, under the next number if the client's requests are tracked."""
        if not connection.is_tracking:
            if not ups.ask(request + b"\n"):
                raise Refused(refusal)
            return b"OK\n"
        number = self.given + 1
        if number > TRACKING_NUMBER_MAX or not ups.ask(b"%s TRACKING %d\n" % (request, number)):
            raise Refused(refusal)
        self.given = number
        ups.track(number)
        return b"OK TRACKING %d\n" % number
