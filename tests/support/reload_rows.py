"""Worked rows of reloads, in the form of server_rows.py. The answers are written by hand.

The answer to a reload has the UPSes by their numbers, with how many bytes wait for the driver of each, and then the drivers
that the reload disconnects and the connections that it closes."""

from tests.support.model import Config, User
from tests.support.player import text_steps
from tests.support.server_rows import ADMIN, ASKED_ID, CLIENTS, FORCED, GUEST, ID, LOGIN, MONITOR, NO_CONNECTION, NOT_CONNECTED, NUMLOGINS, ONLINE, OPEN, ROOM, SENSITIVITY, SET_ID, STATUS, TRACK, USERS, VERSION, Row, ask, err, listed, live, told

SU700 = (b"su700", b"Server room")
OLD = (b"old", b"O")
NEU = (b"neu", b"N")
A, B, C, D, X, Y, Z = ((b"%c" % it, b"") for it in b"abcdxyz")
OTHER_DRIVER = {b"su700": b"usbhid-ups"}
WITH_COMMAND = [*ID, b"ADDCMD load.off"]


def conf(*upses, users=USERS, **more):
    return Config(list(upses), users, **more)


def up(name, waits=8):
    """A UPS whose driver is connected. It was asked for a dump, in 8 bytes, which it hasn't taken."""
    return b"%s waits=%d connected=true" % (name, waits)


def down(name=b"-"):
    return name + b" waits=0 connected=false"


def reload(config, *upses, drivers=(), connections=()):
    """Returns the steps that put a configuration in force, with the answer."""
    ended = "drivers %s connections %s" % (list(drivers), list(connections))
    return [*text_steps(config), (("reload", config), b"; ".join([b"ok", *upses, ended.encode()]))]


def monitor(c, *names):
    """Returns the steps in which a client says that it is `mon`, and logs in to a UPS."""
    said = ask(c, b"USERNAME mon", b"OK", b"PASSWORD m1", b"OK")
    return said + [step for name in names for step in ask(c, b"LOGIN " + name, b"OK")]


def status_of(c, name, value=b"OL"):
    return ask(c, b"GET VAR %s ups.status" % name, b'VAR %s ups.status "%s"' % (name, value))


def refused(c, refusal, *lines):
    return [step for line in lines for step in ask(c, line, err(refusal))]


def gone(c):
    return [(("bytes", c, b"VER\n"), NO_CONNECTION)]


PAIR = conf(SU700, OLD)
NEW_ROOM = (b"su700", b"New room")
REDESCRIBED = conf(NEW_ROOM)
REDRIVEN = conf(SU700, drivers=OTHER_DRIVER)
RENAMED = conf(NEU)
BOTH_LIVE = live() + live(u=1)

RELOADS = [
    Row("one UPS goes, one comes, and the first comes back", [
        BOTH_LIVE, OPEN, monitor(1, b"old"), ask(1, b"FSD old", b"OK FSD-SET"), GUEST, monitor(2, b"su700"),
        reload(conf(NEU, NEW_ROOM), up(b"su700"), down(b"neu"), drivers=[1], connections=[1]),
        gone(1), ask(2, b"LIST UPS", listed(b"UPS", b'UPS neu "N"', b'UPS su700 "New room"')),
        ask(2, NUMLOGINS, b"NUMLOGINS su700 1"), refused(2, "DRIVER-NOT-CONNECTED", b"GET VAR neu ups.status"),
        (("up", 1), b"ok waits=8 connected=true"), refused(2, "DATA-STALE", b"GET VAR neu ups.status"),
        reload(PAIR, up(b"su700"), down(b"old"), drivers=[1]),
        live(u=1), status_of(2, b"old"),
    ], config=PAIR),
    Row("the same configuration", [
        live(*ID), OPEN, LOGIN,
        reload(ROOM, up(b"su700")),
        ask(1, STATUS, ONLINE, NUMLOGINS, b"NUMLOGINS su700 1", b"GET VAR su700 ups.id", b'VAR su700 ups.id "x"'),
        (("driver-take", 0), b"DUMPALL\n"),
    ]),
    Row("another description", [
        live(), OPEN, ask(1, b"GET UPSDESC su700", b'UPSDESC su700 "Server room"'),
        reload(REDESCRIBED, up(b"su700")),
        ask(1, b"GET UPSDESC su700", b'UPSDESC su700 "New room"', b"LIST UPS", listed(b"UPS", b'UPS su700 "New room"')),
        ask(1, STATUS, ONLINE),
    ]),
    Row("another name, and back", [
        live(), OPEN, LOGIN, GUEST, monitor(2),
        reload(RENAMED, down(b"neu"), drivers=[0], connections=[1]),
        reload(ROOM, down(b"su700")),
        (("open", b"c"), b"ok opened=3"), refused(2, "DRIVER-NOT-CONNECTED", STATUS), live(),
        ask(2, STATUS, ONLINE, NUMLOGINS, b"NUMLOGINS su700 0", b"LOGIN su700", b"OK"),
    ]),
    Row("upper and lower case differ in names", [
        live(), OPEN, LOGIN, GUEST,
        reload(conf((b"SU700", b"Server room")), down(b"SU700"), drivers=[0], connections=[1]),
        gone(1), refused(2, "UNKNOWN-UPS", STATUS), refused(2, "DRIVER-NOT-CONNECTED", b"GET VAR SU700 ups.status"),
    ]),
    Row("another order", [
        live(), live(b"SETINFO ups.status OB", u=1), OPEN, monitor(1, b"old"),
        reload(conf(OLD, SU700), up(b"su700"), up(b"old")),
        ask(1, b"LIST UPS", listed(b"UPS", b'UPS old "O"', b'UPS su700 "Server room"'), STATUS, ONLINE),
        status_of(1, b"old", b"OB"), told(b'SETINFO ups.status "OB LB"', u=1), status_of(1, b"old", b"OB LB"),
        ask(1, b"GET NUMLOGINS old", b"NUMLOGINS old 1", NUMLOGINS, b"NUMLOGINS su700 0"),
    ], config=PAIR),
    Row("another driver", [
        live(), OPEN, LOGIN,
        reload(REDRIVEN, down(b"su700"), drivers=[0]),
        refused(1, "DRIVER-NOT-CONNECTED", STATUS, NUMLOGINS), refused(1, "ALREADY-LOGGED-IN", b"LOGIN su700"),
        (("driver", 0, b"PONG\n"), NOT_CONNECTED), (("up", 0), b"ok waits=8 connected=true"),
        refused(1, "DATA-STALE", STATUS), live(), ask(1, STATUS, ONLINE, NUMLOGINS, b"NUMLOGINS su700 1"),
    ]),
    Row("another driver of a UPS whose driver isn't connected", [
        OPEN,
        reload(REDRIVEN, down(b"su700")),
        refused(1, "DRIVER-NOT-CONNECTED", STATUS), live(), ask(1, STATUS, ONLINE),
        reload(ROOM, down(b"su700"), drivers=[0]),
    ]),
    Row("the default driver is named", [
        live(), OPEN,
        reload(conf(SU700, drivers={b"su700": b"dummy-ups"}), up(b"su700")),
        ask(1, STATUS, ONLINE),
        reload(ROOM, up(b"su700")),
    ]),
    Row("another driver while requests wait", [
        live(*ID), OPEN, ADMIN, ask(1, SET_ID, b"OK"),
        reload(REDRIVEN, down(b"su700"), drivers=[0]),
        (("driver-take", 0), b""), (("next-driver", 0), b"none"),
        (("driver-took", 0, 0), NOT_CONNECTED), ("up", 0), (("driver-take", 0), b"DUMPALL\n"),
    ]),
    Row("another driver while requests are tracked", [
        live(*ID), OPEN, ADMIN, TRACK, ask(1, SET_ID, b"OK TRACKING 1"), told(b"TRACKING 1 0"), ask(1, SET_ID, b"OK TRACKING 2"),
        reload(REDRIVEN, down(b"su700"), drivers=[0]),
        ask(1, b"GET TRACKING 1", b"TRACKING 1 SUCCESS", b"GET TRACKING 2", b"TRACKING 2 FAILED"), live(*ID), told(b"TRACKING 2 0"),
        ask(1, b"GET TRACKING 2", b"TRACKING 2 FAILED", b"GET TRACKING", b"TRACKING ON", SET_ID, b"OK TRACKING 3"),
    ]),
    Row("another driver of a UPS whose shutdown is forced", [
        live(), OPEN, MONITOR, ask(1, b"FSD su700", b"OK FSD-SET"),
        reload(REDRIVEN, down(b"su700"), drivers=[0]),
        live(), ask(1, STATUS, FORCED),
    ]),
    Row("a shutdown stays forced", [
        live(), OPEN, MONITOR, ask(1, b"FSD su700", b"OK FSD-SET"),
        reload(conf(NEU, NEW_ROOM), up(b"su700"), down(b"neu")),
        ask(1, STATUS, FORCED), live(u=1), status_of(1, b"neu"),
    ]),
    Row("what a driver told stays", [
        live(*ID, *SENSITIVITY, b"ADDCMD load.off"), OPEN,
        reload(conf(NEU, NEW_ROOM), up(b"su700"), down(b"neu")),
        ask(1,
            b"LIST RW su700", listed(b"RW su700", b'RW su700 input.sensitivity "low"', b'RW su700 ups.id "x"'),
            b"LIST ENUM su700 input.sensitivity", listed(b"ENUM su700 input.sensitivity", b'ENUM su700 input.sensitivity "low"'),
            b"GET TYPE su700 ups.id", b"TYPE su700 ups.id RW STRING:3",
            b"LIST CMD su700", listed(b"CMD su700", b"CMD su700 load.off")),
    ]),
    Row("all UPSes go", [
        BOTH_LIVE, OPEN, monitor(1, b"old"), GUEST, monitor(2, b"su700"), GUEST,
        reload(conf(), down(), down(), drivers=[0, 1], connections=[1, 2]),
        gone(1), gone(2), ask(3, b"LIST UPS", listed(b"UPS")), refused(3, "UNKNOWN-UPS", STATUS, b"GET VAR old ups.status"),
        [(("up", u), NOT_CONNECTED) for u in (0, 1, 2)], (("moment", 20), b"ok 0 0"), (("next-driver", 0), b"none"),
    ], config=PAIR),
    Row("32 UPSes come where there was none", [
        OPEN, ask(1, b"LIST UPS", listed(b"UPS")),
        reload(conf(*((b"u%d" % it, b"") for it in range(32))), *(down(b"u%d" % it) for it in range(32))),
        (("up", 32), NOT_CONNECTED), live(u=31), status_of(1, b"u31"),
        (("next-driver", 0), b"driver 31"), ask(1, b"LIST UPS", listed(b"UPS", *(b'UPS u%d ""' % it for it in range(32)))),
    ], wanted=[b"Memory(NewUpses)"], config=conf()),
    Row("new UPSes take the least free numbers in the order of the file", [
        live(u=1), live(u=3), OPEN,
        reload(conf(X, D, Y, B, Z), down(b"x"), up(b"b"), down(b"y"), up(b"d"), down(b"z")),
        ask(1, b"LIST UPS", listed(b"UPS", *(b'UPS %s ""' % name for name, _ in (X, D, Y, B, Z)))), live(u=4), status_of(1, b"z"),
        refused(1, "DRIVER-NOT-CONNECTED", b"GET VAR x ups.status", b"GET VAR y ups.status"), (("up", 5), NOT_CONNECTED),
    ], wanted=[b"Memory(NewUpses)"], config=conf(A, B, C, D)),
    Row("a number that is free, and is taken again", [
        live(), live(u=2), OPEN,
        reload(conf(A, C), up(b"a"), down(), up(b"c")),
        (("up", 1), NOT_CONNECTED), (("driver", 1, b"PONG\n"), NOT_CONNECTED), (("next-driver", 1), b"driver 2"),
        (("moment", 6), b"ok 13 0 13"), status_of(1, b"c"),
        reload(conf(X, C, A), up(b"a", 13), down(b"x"), up(b"c", 13)),
        live(u=1), status_of(1, b"x"),
    ], config=conf(A, B, C)),
    Row("a number that goes over to another UPS", [
        live(*ID), OPEN,
        reload(conf(X), down(b"x"), drivers=[0]),
        refused(1, "DRIVER-NOT-CONNECTED", b"GET VAR x ups.id"), (("up", 0), b"ok waits=8 connected=true"),
        refused(1, "DATA-STALE", b"GET VAR x ups.id"), ("driver", 0, b"DATAOK\nDUMPDONE\n"),
        refused(1, "VAR-NOT-SUPPORTED", b"GET VAR x ups.id"), told(*ID), ask(1, b"GET VAR x ups.id", b'VAR x ups.id "x"'),
    ]),
    Row("a client of a UPS that stays, while another goes", [
        BOTH_LIVE, ("open", b"a"), ("open", b"b"), ("open", b"c"), monitor(1, b"su700"), monitor(2, b"old"), monitor(3, b"su700"),
        ask(1, CLIENTS, listed(b"CLIENT su700", b"CLIENT su700 a", b"CLIENT su700 c")),
        reload(ROOM, up(b"su700"), down(), drivers=[1], connections=[2]),
        gone(2), ask(1, CLIENTS, listed(b"CLIENT su700", b"CLIENT su700 a", b"CLIENT su700 c")), ask(3, NUMLOGINS, b"NUMLOGINS su700 2"),
        refused(3, "ALREADY-LOGGED-IN", b"LOGIN su700"), refused(3, "UNKNOWN-UPS", b"LOGIN old", b"LIST CLIENT old"),
    ], config=PAIR),
    Row("a client that isn't logged in logs in to a new UPS", [
        OPEN, MONITOR,
        reload(RENAMED, down(b"neu")),
        refused(1, "UNKNOWN-UPS", b"LOGIN su700"), ask(1, b"LOGIN neu", b"OK"), live(),
        ask(1, b"LIST CLIENT neu", listed(b"CLIENT neu", b"CLIENT neu 10.0.0.1")),
    ]),
    Row("users who are gone", [
        live(*ID), OPEN, LOGIN, GUEST, ask(2, b"USERNAME admin", b"OK", b"PASSWORD pw", b"OK", SET_ID, b"OK"),
        reload(conf(SU700, users={}), up(b"su700", 25)),
        refused(1, "ACCESS-DENIED", b"LOGIN su700", b"FSD su700", b"PRIMARY su700"),
        refused(2, "ACCESS-DENIED", SET_ID, b"INSTCMD su700 load.off"),
        ask(2, NUMLOGINS, b"NUMLOGINS su700 1", CLIENTS, listed(b"CLIENT su700", b"CLIENT su700 10.0.0.1")),
        ask(1, b"SET TRACKING ON", b"OK"),
    ]),
    Row("a user who comes", [
        OPEN, ask(1, b"USERNAME late", b"OK", b"PASSWORD x", b"OK"), refused(1, "ACCESS-DENIED", b"LOGIN su700"),
        reload(conf(SU700, users={b"late": User(b"x", (), (), "secondary")}), down(b"su700")),
        ask(1, b"LOGIN su700", b"OK"), refused(1, "ACCESS-DENIED", b"PRIMARY su700"),
    ]),
    Row("another password, and the one before", [
        live(*ID), OPEN, ADMIN, GUEST, ask(2, b"USERNAME admin", b"OK", b"PASSWORD new", b"OK"), refused(2, "ACCESS-DENIED", SET_ID),
        reload(conf(SU700, users={b"admin": User(b"new", ("SET",))}), up(b"su700")),
        refused(1, "ACCESS-DENIED", SET_ID), ask(2, SET_ID, b"OK"),
        reload(ROOM, up(b"su700", 25)),
        ask(1, SET_ID, b"OK"), refused(2, "ACCESS-DENIED", SET_ID),
    ]),
    Row("a user who may no longer set, and one who may give fewer commands", [
        live(*WITH_COMMAND, b"ADDCMD load.on"), OPEN, ADMIN,
        reload(conf(SU700, users={b"admin": User(b"pw", (), (b"load.off",))}), up(b"su700")),
        refused(1, "ACCESS-DENIED", SET_ID, b"INSTCMD su700 load.on"), ask(1, b"INSTCMD su700 load.off", b"OK"),
        reload(conf(SU700, users={b"admin": User(b"pw", ("SET",))}), up(b"su700", 25)),
        refused(1, "ACCESS-DENIED", b"INSTCMD su700 load.off"), ask(1, SET_ID, b"OK"),
    ]),
    Row("a primary becomes a secondary", [
        live(), OPEN, LOGIN, ask(1, b"PRIMARY su700", b"OK"),
        reload(conf(SU700, users={b"mon": User(b"m1", (), (), "secondary")}), up(b"su700")),
        refused(1, "ACCESS-DENIED", b"PRIMARY su700", b"FSD su700"), refused(1, "ALREADY-LOGGED-IN", b"LOGIN su700"),
        ask(1, NUMLOGINS, b"NUMLOGINS su700 1"),
    ]),
    Row("MAXCONN below what is open", [
        OPEN * 3,
        reload(conf(SU700, max_conn=2), down(b"su700")),
        ask(1, b"VER", VERSION), ask(3, b"VER", VERSION), (("open", b"d"), b"Full opened=3"), ("close", 2),
        (("open", b"d"), b"Full opened=3"), ("close", 1), (("open", b"d"), b"ok opened=4"), (("open", b"e"), b"Full opened=4"),
        ask(3, b"VER", VERSION), ask(4, b"VER", VERSION),
    ]),
    Row("MAXCONN and connections that a reload closes", [
        OPEN * 2, monitor(1, b"old"),
        reload(conf(SU700, max_conn=1), down(b"su700"), down(), connections=[1]),
        (("open", b"b"), b"Full opened=2"), ("close", 2), (("open", b"b"), b"ok opened=3"),
    ], config=PAIR),
    Row("a smaller MAXAGE: data become stale at once", [
        live(), OPEN, ("moment", 10), ask(1, STATUS, ONLINE),
        reload(conf(SU700, max_age=9), up(b"su700", 13)),
        refused(1, "DATA-STALE", STATUS),
        reload(conf(SU700, max_age=10), up(b"su700", 13)),
        ask(1, STATUS, ONLINE),
    ]),
    Row("another MAXAGE, and when a driver is sent PING", [
        live(), (("driver-take", 0), b"DUMPALL\n"), (("moment", 4), b"ok 0"),
        reload(conf(SU700, max_age=9), up(b"su700", 0)),
        (("moment", 4), b"ok 5"), (("driver-take", 0), b"PING\n"),
        reload(conf(SU700, max_age=30), up(b"su700", 0)),
        (("moment", 14), b"ok 0"), (("moment", 15), b"ok 5"),
    ]),
    Row("in the middle of a client's line", [
        OPEN, ("bytes", 1, b"GET UPSDESC su"),
        reload(REDESCRIBED, down(b"su700")),
        (("bytes", 1, b"700\n"), b"ok waits=25 kept=0 reads=false leaves=false"), (("take", 1), b'UPSDESC su700 "New room"\n'),
    ]),
    Row("in the middle of a line to a UPS that goes", [
        OPEN, MONITOR, ("bytes", 1, b"LOGIN su700"),
        reload(RENAMED, down(b"neu")),
        ("bytes", 1, b"\n"), (("take", 1), err("UNKNOWN-UPS") + b"\n"),
    ]),
    Row("in the middle of a line of a driver that stays", [
        OPEN, ("up", 0), ("driver", 0, b"SETINFO ups.st"),
        reload(conf(NEU, NEW_ROOM), up(b"su700"), down(b"neu")),
        ("driver", 0, b'atus "OL"\nDATAOK\nDUMPDONE\n'), ask(1, STATUS, ONLINE),
    ]),
    Row("in the middle of a line of a driver that goes", [
        OPEN, *live(), ("driver", 0, b"SETINFO ups.status "),
        reload(REDRIVEN, down(b"su700"), drivers=[0]),
        live(), ask(1, STATUS, ONLINE),
    ]),
    Row("answers that wait for a client that stays", [
        OPEN, ("bytes", 1, b"LIST UPS\n"),
        reload(RENAMED, down(b"neu")),
        (("bytes", 1, b"VER\n"), b"Busy waits=52 kept=0 reads=false leaves=false"), (("next", 0), b"connection 1"),
        (("take", 1), listed(b"UPS", b'UPS su700 "Server room"') + b"\n"), ask(1, b"LIST UPS", listed(b"UPS", b'UPS neu "N"')),
    ]),
    Row("answers that wait for a client that is closed", [
        OPEN, LOGIN, ("bytes", 1, b"VER\n"),
        reload(RENAMED, down(b"neu"), connections=[1]),
        (("next", 0), b"none"), (("take", 1), b""), (("took", 1, 1), NO_CONNECTION), (("close", 1), NO_CONNECTION),
        (("open", b"b"), b"ok opened=2"),
    ]),
    Row("a client that has logged out is no client of the UPS", [
        OPEN, LOGIN, ("bytes", 1, b"LOGOUT\n"),
        reload(RENAMED, down(b"neu")),
        (("took", 1, 0), b"ok waits=11 kept=0 reads=false leaves=false"), (("take", 1), b"OK Goodbye\n"),
        (("took", 1, 0), b"ok waits=0 kept=0 reads=false leaves=true"),
    ]),
    Row("requests that wait for a driver that stays", [
        live(*ID), OPEN, ADMIN, ask(1, SET_ID, b"OK"),
        reload(conf(NEU, NEW_ROOM), up(b"su700", 25), down(b"neu")),
        ask(1, SET_ID, b"OK"), (("driver-take", 0, 10), b"DUMPALL\nSE"), (("driver-take", 0), b'T ups.id "abc"\n' + ASKED_ID),
    ]),
    Row("tracked requests to a UPS that stays", [
        live(*ID), OPEN, ADMIN, TRACK, ask(1, SET_ID, b"OK TRACKING 1"),
        reload(conf(NEU, NEW_ROOM), up(b"su700", 36), down(b"neu")),
        ask(1, b"GET TRACKING", b"TRACKING ON", b"GET TRACKING 1", b"TRACKING 1 PENDING"), told(b"TRACKING 1 0"),
        ask(1, b"GET TRACKING 1", b"TRACKING 1 SUCCESS"),
    ]),
    Row("tracked requests to a UPS that goes", [
        live(*ID), OPEN, ADMIN, TRACK, ask(1, SET_ID, b"OK TRACKING 1", SET_ID, b"OK TRACKING 2"), told(b"TRACKING 1 0"),
        reload(RENAMED, down(b"neu"), drivers=[0]),
        ask(1, b"GET TRACKING 1", b"TRACKING 1 UNKNOWN", b"GET TRACKING 2", b"TRACKING 2 UNKNOWN"), live(*ID),
        told(b"TRACKING 2 0"), ask(1, b"GET TRACKING 2", b"TRACKING 2 UNKNOWN", b'SET VAR neu ups.id "abc"', b"OK TRACKING 3"),
        reload(ROOM, down(b"su700"), drivers=[0]),
        ask(1, b"GET TRACKING 1", b"TRACKING 1 UNKNOWN", b"GET TRACKING 3", b"TRACKING 3 UNKNOWN"), live(*ID),
        ask(1, SET_ID, b"OK TRACKING 4"),
    ]),
]
