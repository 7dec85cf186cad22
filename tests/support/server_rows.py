"""Worked rows: what a server is told, and what a client or a driver takes afterwards. The answers are written by hand."""

from tests.support.model import LINE_MAX, PIECE_MAX, Config, User

LIVE = b'SETINFO ups.status "OL"\nDATAOK\nDUMPDONE\n'
UPS = [(b"su700", b"Server room")]
USERS = {b"admin": User(b"pw", ("SET",), (b"all",)), b"mon": User(b"m1", (), (), "primary")}
ROOM = Config(UPS, USERS)


def pieces_of(data):
    """Returns data in pieces of the greatest length."""
    return [data[at : at + PIECE_MAX] for at in range(0, len(data), PIECE_MAX)]


def told(*lines, u=0):
    return [("driver", u, piece) for line in lines for piece in pieces_of(line + b"\n")]


def live(*lines, u=0):
    """Returns the steps in which a driver connects and tells its state and these lines."""
    return [("up", u), ("driver", u, LIVE), *told(*lines, u=u)]


def ask(c, *lines_and_replies):
    """Returns the steps in which a client asks, line by line, and takes each reply."""
    steps = []
    for line, reply in zip(lines_and_replies[::2], lines_and_replies[1::2]):
        steps += [("bytes", c, line + b"\n"), (("take", c), reply + b"\n")]
    return steps


def err(name):
    return b"ERR " + name.encode()


def listed(query, *rows):
    return b"\n".join([b"BEGIN LIST " + query, *rows, b"END LIST " + query])


class Row:
    """A row's steps, each alone or in a list with others, with the bytes that are due to those that take, and the refusals of
    memory that must occur among those of its allocations."""

    def __init__(self, name, parts, wanted=(), config=ROOM):
        steps = [step for part in parts for step in (part if isinstance(part, list) else [part])]
        self.name, self.wanted, self.config = name, wanted, config
        self.steps = [it[0] if isinstance(it[0], tuple) else it for it in steps]
        self.due = [it[1] if isinstance(it[0], tuple) else None for it in steps]


# the answers to what is said of a driver or a connection that isn't there
NOT_CONNECTED = b"NotConnected waits=0 connected=false"
NO_CONNECTION = b"NoSuchConnection waits=0 kept=0 reads=false leaves=false"
OPEN = [("open", b"10.0.0.1")]
GUEST = [("open", b"10.0.0.2")]
VERSION = b"Network UPS Tools upsd profile 1.3"
HELP = b"Commands: GET LIST SET INSTCMD USERNAME PASSWORD LOGIN PRIMARY FSD LOGOUT VER NETVER HELP STARTTLS"
STATUS = b"GET VAR su700 ups.status"
ONLINE = b'VAR su700 ups.status "OL"'
FORCED = b'VAR su700 ups.status "FSD OL"'
NUMLOGINS = b"GET NUMLOGINS su700"
GET_A, GET_B = b"GET VAR su700 a", b"GET VAR su700 b"
CLIENTS = b"LIST CLIENT su700"
ROOMS = listed(b"UPS", b'UPS su700 "Server room"')
ADMIN = ask(1, b"USERNAME admin", b"OK", b"PASSWORD pw", b"OK")
MONITOR = ask(1, b"USERNAME mon", b"OK", b"PASSWORD m1", b"OK")
LOGIN = MONITOR + ask(1, b"LOGIN su700", b"OK")
ID = [b'SETINFO ups.id "x"', b"SETFLAGS ups.id RW STRING", b"SETAUX ups.id 3"]
SENSITIVITY = [b'SETINFO input.sensitivity "low"', b"SETFLAGS input.sensitivity RW", b'ADDENUM input.sensitivity "low"']
KINDS = [b"SETINFO battery.charge 50", b"ADDRANGE battery.charge -5 100", b'SETINFO input.sensitivity ""']
KINDS += [b'ADDENUM input.sensitivity ""', b"SETINFO a 1"]
SET_ID = b'SET VAR su700 ups.id "abc"'
ASKED_ID = b'SET ups.id "abc"\n'
SET_CHARGE = b'SET VAR su700 battery.charge "50"'
# the greatest line, in pieces of the greatest length
LONG_LINE = [("bytes", 1, piece) for piece in pieces_of(b"VER".ljust(LINE_MAX))]
TRACK = ask(1, b"SET TRACKING ON", b"OK")
# 8 bytes of DUMPALL, and 240 times 17
FULL_QUEUE = live(*ID) + OPEN + ADMIN + ask(1, SET_ID, b"OK") * 240

ROWS = [
    Row("a quoted value", [
        live(b'SETINFO ups.mfr "a \\"b\\" \\\\c"'), OPEN, ask(1, b"GET VAR su700 ups.mfr", b'VAR su700 ups.mfr "a \\"b\\" \\\\c"'),
    ], wanted=[b"Memory(Report(0, 0))", b"Memory(Line(1, 0))"]),
    Row("who one is", [
        OPEN * 3, ask(1, SET_CHARGE, err("USERNAME-REQUIRED")), ask(2, b"USERNAME admin", b"OK", SET_CHARGE, err("PASSWORD-REQUIRED")),
        ask(3, b"USERNAME admin", b"OK", b"PASSWORD x", b"OK", SET_CHARGE, err("ACCESS-DENIED")),
    ], wanted=[b"Memory(Line(1, 0))", b"Memory(Line(2, 0))", b"Memory(Line(3, 0))"]),
    Row("logins are counted", [
        live(), OPEN, LOGIN, ask(1, b"LOGIN su700", err("ALREADY-LOGGED-IN")), GUEST, ask(2, NUMLOGINS, b"NUMLOGINS su700 1"),
        ("close", 1), ask(2, NUMLOGINS, b"NUMLOGINS su700 0"),
    ], wanted=[b"Memory(Line(1, 0))", b"Memory(Line(2, 0))"]),
    Row("logins of two, and no more", [
        live(), ("open", b"a"), ("open", b"b"), ("open", b"c"), LOGIN, ("bytes", 2, b"USERNAME mon\nPASSWORD m1\nLOGIN su700\n"),
        (("take", 2), b"OK\nOK\nOK\n"), ask(2, CLIENTS, listed(b"CLIENT su700", b"CLIENT su700 a", b"CLIENT su700 b")), ("close", 1),
        ("open", b"c"), ("bytes", 1, b"VER\n"), ask(3, CLIENTS, listed(b"CLIENT su700", b"CLIENT su700 b")),
    ], config=Config(UPS, USERS, max_conn=2)),
    Row("settings", [
        live(*ID, *SENSITIVITY, b'SETINFO ups.mfr "m"'), OPEN, ADMIN, (("driver-take", 0), b"DUMPALL\n"),
        ask(1, b"GET TYPE su700 ups.id", b"TYPE su700 ups.id RW STRING:3", SET_ID, b"OK"), (("driver-take", 0), ASKED_ID),
        ask(1,
            b"GET VAR su700 ups.id", b'VAR su700 ups.id "x"', b'SET VAR su700 ups.id "abcd"', err("TOO-LONG"),
            b'SET VAR su700 input.sensitivity "mid"', err("INVALID-VALUE"), b'SET VAR su700 ups.mfr "n"', err("READONLY"),
            b"get type su700 input.sensitivity", b"TYPE su700 input.sensitivity RW ENUM",
            b"LIST RW su700", listed(b"RW su700", b'RW su700 input.sensitivity "low"', b'RW su700 ups.id "x"'),
            b"SET VAR su700 ups.id", err("INVALID-ARGUMENT"), b"LIST LOG", err("INVALID-ARGUMENT"),
            b"GET CMDDESC su700 load.off", err("CMD-NOT-SUPPORTED")),
    ], wanted=[b"Memory(Report(0, 0))", b"Memory(Line(1, 0))"]),
    Row("forms of replies", [
        live(*KINDS), OPEN,
        ask(1,
            b"HELP", HELP, b"NETVER", b"1.3", b"STARTTLS", err("FEATURE-NOT-CONFIGURED"), b"FOO", err("UNKNOWN-COMMAND"),
            b"GET UPSDESC x", err("UNKNOWN-UPS"), b"GET VAR su700 x", err("VAR-NOT-SUPPORTED"),
            b"GET TYPE su700 battery.charge", b"TYPE su700 battery.charge RANGE", b"GET TYPE su700 a", b"TYPE su700 a NUMBER",
            b"GET DESC su700 battery.charge", b'DESC su700 battery.charge "Battery charge (percent)"',
            b"GET DESC su700 a", b'DESC su700 a "Description unavailable"',
            b"LIST RANGE su700 battery.charge", listed(b"RANGE su700 battery.charge", b'RANGE su700 battery.charge "-5" "100"'),
            b"LIST ENUM su700 input.sensitivity", listed(b"ENUM su700 input.sensitivity", b'ENUM su700 input.sensitivity ""')),
    ]),
    Row("a silent driver", [
        live(), OPEN, (("driver-take", 0), b"DUMPALL\n"), ("moment", 5), (("driver-take", 0), b""), ("moment", 6),
        (("driver-take", 0), b"PING\n"), ("moment", 7), (("driver-take", 0), b""), ("moment", 12), (("driver-take", 0), b"PING\n"),
        ("moment", 15), ask(1, STATUS, ONLINE), ("moment", 16), ask(1, STATUS, err("DATA-STALE")),
    ]),
    Row("a full queue", [
        FULL_QUEUE, ask(1, SET_ID, err("SET-FAILED")), ("driver-took", 0, 17), ask(1, SET_ID, b"OK"), ("driver-took", 0, 4089),
        ("driver-took", 0, 4088), ("driver-took", 0, 1),
    ], wanted=[b"Memory(Line(1, 0))"]),
    # of the 88 bytes that are left at the end the first 3 end a line
    Row("a queue that goes round", [
        FULL_QUEUE, ("driver-took", 0, 4000), ask(1, SET_ID, b"OK") * 235, ask(1, SET_ID, err("SET-FAILED")),
        (("driver-take", 0), ASKED_ID[-3:] + ASKED_ID * 240),
    ]),
    Row("PING and a full queue", [
        FULL_QUEUE, ("moment", 6), ("moment", 12), ("driver-took", 0, 8), ("moment", 13),
        (("driver-take", 0), ASKED_ID * 240 + b"PING\nPING\n"),
    ]),
    Row("a write that failed", [
        live(), OPEN, LOGIN, ("bytes", 1, b"FOO\n"), (("take", 1, 7), b"ERR UNK"), ("fail", 1), ("bytes", 1, b"VER\n"), GUEST,
        ask(2, NUMLOGINS, b"NUMLOGINS su700 0"),
    ]),
    Row("a forced shutdown", [
        live(), OPEN, MONITOR, ask(1, b"FSD su700", b"OK FSD-SET", STATUS, FORCED), GUEST, ask(2, STATUS, FORCED),
    ], wanted=[b"Memory(Line(1, 0))"]),
    Row("a list between two lines", [
        OPEN, GUEST, ("bytes", 1, b"VER\nLIST UPS\nVER\n"), (("take", 1), b"\n".join([VERSION, ROOMS, VERSION, b""])),
        ask(1, b"VER", VERSION),
    ], wanted=[b"Memory(Line(1, 1))"]),
    Row("a question that comes again", [
        live(b'SETINFO a "1"', b'SETINFO b "2"'), OPEN, GUEST,
        ask(1, GET_A, b'VAR su700 a "1"', GET_A, b'VAR su700 a "1"', GET_B, b'VAR su700 b "2"'),
        ask(2, GET_B, b'VAR su700 b "2"', GET_A, b'VAR su700 a "1"'), told(b'SETINFO a "3"'), ask(1, GET_A, b'VAR su700 a "3"'),
        ("bytes", 2, GET_A + b"\n" + GET_B + b"\n"), (("take", 2), b'VAR su700 a "3"\nVAR su700 b "2"\n'), told(b"DELINFO b"),
        ask(2, GET_B, err("VAR-NOT-SUPPORTED"), GET_B, err("VAR-NOT-SUPPORTED"), GET_A, b'VAR su700 a "3"'),
    ]),
    Row("a command behind a variable", [
        live(), ("driver", 0, b'SETINFO a "1"\nADDCMD k\n'), OPEN, ask(1, b"GET VAR su700 a", b'VAR su700 a "1"'), ("up", 0),
    ], wanted=[b"Memory(Report(0, 1))"]),
    Row("an end", [OPEN, ("bytes", 1, b"LOGOUT\nVER\n"), (("take", 1), b"OK Goodbye\n"), ("took", 1, 0)]),
    Row("long lines", [
        OPEN, LONG_LINE, ("bytes", 1, b"\n"), (("take", 1), VERSION + b"\n"), LONG_LINE, ("bytes", 1, b" \nVER\n"),
        (("take", 1), err("INVALID-ARGUMENT") + b"\n" + VERSION + b"\n"),
    ]),
    Row("dumps", [
        OPEN, ("up", 0), (("driver-take", 0), b"DUMPALL\n"), told(b'SETINFO ups.status "OL"', b"DATAOK"),
        ask(1, STATUS, err("DATA-STALE")), told(b"DUMPDONE"), ask(1, STATUS, ONLINE), ("up", 0),
        ask(1, STATUS, err("DATA-STALE")), (("driver-take", 0), b"DUMPALL\n"),
    ]),
    Row("one who may do little", [
        live(), OPEN, ADMIN,
        ask(1,
            b"USERNAME mon", err("ALREADY-SET-USERNAME"), b"PASSWORD m1", err("ALREADY-SET-PASSWORD"),
            b"FSD su700", err("ACCESS-DENIED"), b"LOGIN su700", err("ACCESS-DENIED"), b"PRIMARY su700", err("ACCESS-DENIED")),
        GUEST, ask(2, b"USERNAME mon", b"OK", b"PASSWORD m1", b"OK", b"PRIMARY su700", b"OK", SET_CHARGE, err("ACCESS-DENIED")),
    ]),
    Row("a forced shutdown in lists", [
        live(b"SETFLAGS ups.status RW"), OPEN, MONITOR,
        ask(1, b"FSD su700", b"OK FSD-SET", b"LIST VAR su700", listed(b"VAR su700", FORCED)),
        ask(1, b"LIST RW su700", listed(b"RW su700", b'RW su700 ups.status "FSD OL"')),
    ]),
    Row("commands", [
        live(b"ADDCMD load.off"), OPEN, ADMIN, (("driver-take", 0), b"DUMPALL\n"),
        ask(1, b"INSTCMD su700 load.off", b"OK", b"INSTCMD su700 load.on", err("CMD-NOT-SUPPORTED")),
        (("driver-take", 0), b"INSTCMD load.off\n"), ask(1, b"LIST CMD su700", listed(b"CMD su700", b"CMD su700 load.off")),
        ask(1, b"GET CMDDESC su700 load.off", b'CMDDESC su700 load.off "Turn off the load"'),
    ]),
    Row("a command with a parameter", [
        live(b"ADDCMD load.off"), OPEN, ADMIN, (("driver-take", 0), b"DUMPALL\n"),
        ask(1, b"INSTCMD su700 load.off x", b"OK", b'INSTCMD su700 load.off ""', b"OK"),
        (("driver-take", 0), b'INSTCMD load.off "x"\nINSTCMD load.off ""\n'),
        ask(1, b"INSTCMD su700 load.on x", err("CMD-NOT-SUPPORTED"), b"INSTCMD su700 load.off x y", err("INVALID-ARGUMENT")),
        [("bytes", 1, piece) for piece in pieces_of(b"INSTCMD su700 load.off " + b"x" * 512 + b"\n")], (("take", 1), b"OK\n"),
        (("driver-take", 0), b'INSTCMD load.off "' + b"x" * 512 + b'"\n'),
        [("bytes", 1, piece) for piece in pieces_of(b"INSTCMD su700 load.off " + b"x" * 513 + b"\n")],
        (("take", 1), err("TOO-LONG") + b"\n"), (("driver-take", 0), b""),
    ], wanted=[b"Memory(Line(1, 0))"]),
    Row("tracked requests", [
        live(*ID, b"ADDCMD load.off"), OPEN, ADMIN, (("driver-take", 0), b"DUMPALL\n"),
        ask(1, b"GET TRACKING", b"TRACKING OFF"), TRACK, ask(1, b"GET TRACKING", b"TRACKING ON", SET_ID, b"OK TRACKING 1"),
        (("driver-take", 0), b'SET ups.id "abc" TRACKING 1\n'), ask(1, b"GET TRACKING 1", b"TRACKING 1 PENDING"),
        told(b"TRACKING 1 0"), ask(1, b"GET TRACKING 1", b"TRACKING 1 SUCCESS", b"GET TRACKING 2", b"TRACKING 2 UNKNOWN"),
        ask(1, b'SET VAR su700 ups.id "abd"', b"OK TRACKING 2", b"INSTCMD su700 load.off x", b"OK TRACKING 3"),
        (("driver-take", 0), b'SET ups.id "abd" TRACKING 2\nINSTCMD load.off "x" TRACKING 3\n'),
        told(b"TRACKING 003 007", b"TRACKING 3 0"),
        ask(1, b"GET TRACKING 3", b"TRACKING 3 FAILED", b"GET TRACKING 2", b"TRACKING 2 PENDING"), ("down", 0),
        ask(1, b"GET TRACKING 2", b"TRACKING 2 FAILED", b"SET TRACKING off", b"OK", b"get tracking", b"TRACKING OFF"),
        live(*ID), told(b"TRACKING 2 0"), ask(1, b"GET TRACKING 2", b"TRACKING 2 FAILED", SET_ID, b"OK"),
        (("driver-take", 0), b"DUMPALL\n" + ASKED_ID), GUEST,
        ask(2, b"GET TRACKING", b"TRACKING OFF", b"GET TRACKING 1", b"TRACKING 1 SUCCESS"),
    ], wanted=[b"Memory(Line(1, 0))", b"Memory(Report(0, 0))"]),
    Row("who may track requests, and how", [
        live(), OPEN, ask(1, b"SET TRACKING maybe", err("INVALID-ARGUMENT"), b"SET TRACKING", err("INVALID-ARGUMENT")),
        ask(1, b"SET TRACKING ON OFF", err("INVALID-ARGUMENT"), b"SET TRACKING ON", err("USERNAME-REQUIRED")),
        ask(1, b"USERNAME nobody", b"OK", b"SET TRACKING OFF", err("PASSWORD-REQUIRED"), b"PASSWORD x", b"OK"),
        ask(1, b"SET TRACKING oN", b"OK", b"GET TRACKING", b"TRACKING ON", b"GET TRACKING 0", err("INVALID-ARGUMENT")),
        ask(1, b"GET TRACKING 01", err("INVALID-ARGUMENT"), b"GET TRACKING 1234567890", err("INVALID-ARGUMENT")),
        ask(1, b"GET TRACKING -1", err("INVALID-ARGUMENT"), b'GET TRACKING ""', err("INVALID-ARGUMENT")),
        ask(1, b"GET TRACKING 1 2", err("INVALID-ARGUMENT"), b"GET TRACKING 999999999", b"TRACKING 999999999 UNKNOWN"),
    ]),
    # a refusal takes no number, and a request that fits without its number may not fit with it
    Row("numbers of requests", [
        live(*ID, b"ADDCMD k"), OPEN, ADMIN, TRACK,
        ask(1, b'SET VAR su700 ups.id "abcd"', err("TOO-LONG"), b"INSTCMD su700 j", err("CMD-NOT-SUPPORTED")),
        ask(1, b"SET TRACKING OFF", b"OK", *[SET_ID, b"OK"] * 239),
        # 4,071 bytes wait: 25 are left
        TRACK, ask(1, b'SET VAR su700 ups.id "a"', err("SET-FAILED"), b"INSTCMD su700 k", b"OK TRACKING 1"),
        ask(1, b"SET TRACKING OFF", b"OK", b"INSTCMD su700 k", err("INSTCMD-FAILED"), b"GET TRACKING 1", b"TRACKING 1 PENDING"),
    ]),
    Row("64 later numbers", [
        live(*ID), OPEN, ADMIN, TRACK, ask(1, SET_ID, b"OK TRACKING 1"), told(b"TRACKING 1 0"), ("driver-take", 0),
        [step for n in range(2, 65) for step in ask(1, SET_ID, b"OK TRACKING %d" % n)],
        ask(1, b"GET TRACKING 1", b"TRACKING 1 SUCCESS", SET_ID, b"OK TRACKING 65", b"GET TRACKING 1", b"TRACKING 1 UNKNOWN"),
        ask(1, b"GET TRACKING 2", b"TRACKING 2 PENDING"),
    ]),
    Row("the numbers of two UPSes", [
        live(*ID), live(*ID, u=1), OPEN, ADMIN, TRACK, ask(1, SET_ID, b"OK TRACKING 1", b'SET VAR b ups.id "abc"', b"OK TRACKING 2"),
        told(b"TRACKING 1 0", u=1), told(b"TRACKING 2 1"),
        ask(1, b"GET TRACKING 1", b"TRACKING 1 PENDING", b"GET TRACKING 2", b"TRACKING 2 PENDING"), told(b"TRACKING 2 0", u=1), ("up", 0),
        ask(1, b"GET TRACKING 1", b"TRACKING 1 FAILED", b"GET TRACKING 2", b"TRACKING 2 SUCCESS"),
    ], config=Config([*UPS, (b"b", b"")], USERS)),
    Row("lines of a driver that tell of no request", [
        live(*ID), OPEN, ADMIN, TRACK, ask(1, SET_ID, b"OK TRACKING 1"),
        told(b"TRACKING", b"TRACKING 1", b"TRACKING 1 0 0", b"TRACKING x 0", b"TRACKING 1 x", b"TRACKING 1 -1", b'TRACKING 1 ""'),
        told(b"TRACKING 1000000001 0", b"TRACKING 2 0", b"TRACKING 1 1234567890"), ask(1, b"GET TRACKING 1", b"TRACKING 1 PENDING"),
        told(b"tracking 0000001 000"), ask(1, b"GET TRACKING 1", b"TRACKING 1 SUCCESS"),
    ]),
    # a line of three words is heard, whatever its numbers
    Row("TRACKING shows that a driver is alive", [
        live(), OPEN, ("moment", 10), told(b"TRACKING x y"), ("moment", 25), ask(1, STATUS, ONLINE), told(b"TRACKING 1"),
        ("moment", 26), ask(1, STATUS, err("DATA-STALE")),
    ]),
    Row("a driver that answers a PING, and one whose data is stale", [
        live(), OPEN, ("moment", 15), told(b"PONG"), ("moment", 30), ask(1, STATUS, ONLINE), ("moment", 31), ("moment", 0),
        ask(1, STATUS, err("DATA-STALE")), told(b"DATAOK"), ask(1, STATUS, ONLINE), told(b"DATASTALE"), ask(1, STATUS, err("DATA-STALE")),
        ("down", 0), (("driver", 0, b"DATAOK\n"), NOT_CONNECTED), ask(1, STATUS, err("DRIVER-NOT-CONNECTED")),
    ]),
    Row("addresses, and numbers that nobody has", [
        (("open", b"a b"), b"BadAddress opened=0"), (("open", b""), b"BadAddress opened=0"), (("open", b"a"), b"ok opened=1"),
        (("open", b"b"), b"ok opened=2"), (("open", b"c"), b"Full opened=2"),
        (("close", 1), b"ok waits=0 kept=0 reads=false leaves=false"), (("close", 1), NO_CONNECTION),
        (("bytes", 1, b"VER\n"), NO_CONNECTION), (("up", 1), NOT_CONNECTED), (("open", b"c"), b"ok opened=3"),
    ], config=Config(UPS, USERS, max_conn=2)),
    # 8 bytes of DUMPALL, 239 times 17, and 10: for a setting of 16 bytes one is missing, and one of 15 fits
    Row("4,096 bytes to the byte", [
        live(*ID, b"ADDCMD k"), OPEN, ADMIN, ask(1, SET_ID, b"OK") * 239, ask(1, b"INSTCMD su700 k", b"OK"),
        ask(1, b'SET VAR su700 ups.id "ab"', err("SET-FAILED"), b'SET VAR su700 ups.id "a"', b"OK"),
        ask(1, b'SET VAR su700 ups.id "a"', err("SET-FAILED"), b"INSTCMD su700 k", err("INSTCMD-FAILED")),
        (("driver-took", 0, 4097), b"TooMuchTaken waits=4096 connected=true"), (("driver-took", 0, 4096), b"ok waits=0 connected=true"),
    ]),
    Row("lengths of user names and passwords", [
        OPEN,
        ask(1,
            b'USERNAME ""', err("INVALID-ARGUMENT"), b"USERNAME " + b"a" * 129, err("INVALID-ARGUMENT"),
            b'PASSWORD ""', err("INVALID-ARGUMENT"), b"PASSWORD " + b"a" * 129, err("INVALID-ARGUMENT"),
            b'LOGIN ""', err("USERNAME-REQUIRED"), b"LOGIN " + b"a" * 400, err("USERNAME-REQUIRED"),
            b"USERNAME " + b"a" * 128, b"OK", b"PASSWORD " + b"a" * 128, b"OK"),
        GUEST, ask(2, b"USERNAME a", b"OK", b"PASSWORD p", b"OK"),
    ]),
    Row("texts of names, whose case matters", [
        live(b"SETINFO ups.id x", b"SETINFO UPS.ID x", b"SETINFO test.battery.stop x", b"ADDCMD test.battery.stop", b"ADDCMD ups.id"),
        OPEN,
        ask(1,
            b"GET DESC su700 ups.id", b'DESC su700 ups.id "Identifier of the UPS"',
            b"GET DESC su700 UPS.ID", b'DESC su700 UPS.ID "Description unavailable"',
            b"GET DESC su700 test.battery.stop", b'DESC su700 test.battery.stop "Description unavailable"',
            b"GET CMDDESC su700 test.battery.stop", b'CMDDESC su700 test.battery.stop "Stop the battery test"',
            b"GET CMDDESC su700 ups.id", b'CMDDESC su700 ups.id "Description unavailable"'),
    ]),
    Row("no UPS", [OPEN, ask(1, b"LIST UPS", listed(b"UPS"))], config=Config([], {})),
    Row("an answer that isn't taken", [
        OPEN, ("bytes", 1, b"VER\n"), ("bytes", 1, b"VER\n"), ("took", 1, 36), ("took", 1, 35), ask(1, b"VER", VERSION),
    ]),
]

# what is asked behind each row, so that every client and driver is looked at, before and after the driver connects again
LOOK = []
for number in range(1, 5):
    LOOK += [("took", number, 0), ("bytes", number, STATUS + b"\nLIST VAR su700\n" + CLIENTS + b"\n" + NUMLOGINS + b"\n")]
    LOOK += [("next", 0), ("take", number)]
PROBE = [("open", b"10.0.0.9"), *LOOK, ("driver-take", 0), *live(), *LOOK, ("next-driver", 0)]
