"""Worked scenes of a dummy driver: a script, the calls of the driver, what it tells after each, and which values change."""

import functools

from tests.support.server_rows import listed

# what is told of a writable variable behind its value
LIMITS = {
    "battery.charge.low": ["SETFLAGS battery.charge.low RW NUMBER", "ADDRANGE battery.charge.low 0 100"],
    "input.sensitivity": ["SETFLAGS input.sensitivity RW STRING", "SETAUX input.sensitivity 8"]
    + [f'ADDENUM input.sensitivity "{it}"' for it in ("low", "medium", "high")],
    "ups.delay.shutdown": ["SETFLAGS ups.delay.shutdown RW NUMBER", "ADDRANGE ups.delay.shutdown 0 600"],
    "ups.id": ["SETFLAGS ups.id RW STRING", "SETAUX ups.id 16"],
}
COMMANDS = "beeper.disable beeper.enable load.off load.on test.battery.start test.battery.stop test.failure.start test.failure.stop".split()


def told(**values):
    """Returns the lines that tell these values, ascending by name; '_' means '.'."""
    return "".join(f'SETINFO {name.replace("_", ".")} "{value}"\n' for name, value in sorted(values.items()))


def told_whole(table):
    """Returns the lines of variables with all that is to be told of them."""
    lines = []
    for name, value in sorted(table.items()):
        lines += [f'SETINFO {name} "{value}"', *LIMITS.get(name, [])]
    return "".join(line + "\n" for line in lines)


def dump(table):
    return told_whole(table) + "".join(f"ADDCMD {it}\n" for it in COMMANDS) + "DATAOK\nDUMPDONE\n"


class Step:
    """A call, what is told at it, and the values that it changes."""

    def __init__(self, verb, word=None, tells="", **changes):
        self.verb, self.word, self.tells = verb, word, tells
        self.changes = {name.replace("_", "."): value for name, value in changes.items()}


link, moment, says = (functools.partial(Step, verb) for verb in ("link", "moment", "bytes"))


class Scene:
    """A script with its kind, the table that it begins with, and the steps. If a line comes in two pieces, a piece that was
    refused can't be repeated."""

    def __init__(self, title, kind, script, table, steps, has_whole_lines=True):
        self.title, self.kind, self.script, self.table = title, kind, script, table
        self.steps, self.has_whole_lines = steps, has_whole_lines


# a script with what it begins with
PLAIN = {"ups.id": "x", "ups.status": "OL"}
PLAIN_SCRIPT = "dev", b"ups.status: OL\nups.id: x\n", PLAIN
LONG = "0123456789" * 12
LATE = (
    b"ups.status: OL\nups.id: x\nups.delay.shutdown: 60\nTIMER 10\nups.status: OB\nbattery.charge.low: 20\n"
    b"input.sensitivity: low\nnote.a: %b\nnote.b: %b\nTIMER 5\n" % (LONG.encode(), LONG.encode())
)
AT_FIRST = {"ups.delay.shutdown": "60", "ups.id": "x", "ups.status": "OL"}
CAME_LATE = {"battery.charge.low": "20", "input.sensitivity": "low", "note.a": LONG, "note.b": LONG}
# what the script sets again a long time later
AS_WRITTEN = {"input_sensitivity": "low", "ups_delay_shutdown": "60", "ups_id": "x", "ups_status": "OB"}

SCENES = [
    Scene("a script that is told once", *PLAIN_SCRIPT, [
        link(),
        says(b"DUMPALL\n", dump(PLAIN)),
        says(b'SET ups.id "y"\n', told(ups_id="y"), ups_id="y"),
        says(b'SET ups.status "x"\n'),
        says(b"INSTCMD load.off\n", told(ups_status="OFF"), ups_status="OFF"),
    ]),
    Scene("requests whose outcome is tracked", *PLAIN_SCRIPT, [
        link(),
        says(b'SET ups.id "z" TRACKING 7\nINSTCMD load.up TRACKING 8\n', ups_id="z"),
        says(b"DUMPALL\n", dump({**PLAIN, "ups.id": "z"})),
        says(b'SET ups.id "y" TRACKING 1\n', told(ups_id="y") + "TRACKING 1 0\n", ups_id="y"),
        says(b'SET ups.status "x" tracking 2\n', "TRACKING 2 1\n"),
        says(b"INSTCMD load.off TRACKING 3\n", told(ups_status="OFF") + "TRACKING 3 0\n", ups_status="OFF"),
        says(b"INSTCMD load.up TRACKING 4\n", "TRACKING 4 1\n"),
        says(b'INSTCMD load.on "5 s" TRACKING 999999999\n', told(ups_status="OL") + "TRACKING 999999999 0\n", ups_status="OL"),
        says(b"INSTCMD load.off x\n", told(ups_status="OFF"), ups_status="OFF"),
        *map(says, (b"SET ups.id z TRACKING\n", b"SET ups.id z TRACKING 0\n", b"SET ups.id z TRACKING 5 6\n")),
        says(b"INSTCMD load.on x y TRACKING 5\n"),
    ]),
    Scene("a script that goes round", "seq", b"ups.status: OL\nTIMER 10\nups.status: OB\nTIMER 5\n", {"ups.status": "OL"}, [
        *map(moment, (0, 9)),
        moment(10, ups_status="OB"),
        moment(14),
        moment(15, ups_status="OL"),
        moment(1000, ups_status="OB"),
        link(),
        says(b"DUMPALL\n", dump({"ups.status": "OB"})),
    ]),
    # before and after DUMPALL; values that come late and need more memory than the dump; words that are copied
    Scene("values that come late", "seq", LATE, AT_FIRST, [
        link(),
        says(b"PING\n", "PONG\n"),
        says(b"SET ups.id w\n", ups_id="w"),
        says(b"DUMPALL\n", dump({**AT_FIRST, "ups.id": "w"})),
        moment(9),
        moment(10, told_whole(CAME_LATE) + told(ups_status="OB"), ups_status="OB", **CAME_LATE),
        says(
            b'SET ups.delay.shutdown 5\nSET ups.id "No\\. 7"\n',
            told(ups_delay_shutdown="5", ups_id="No. 7"), ups_delay_shutdown="5", ups_id="No. 7",
        ),
        says(b"INSTCMD load\\.off\n", told(ups_status="OFF"), ups_status="OFF"),
        says(b"SET input.sensitivity medium\n", told(input_sensitivity="medium"), input_sensitivity="medium"),
        says(b"SET input.sensitivity mid\n"),
        moment(1_000_000_000, told(**AS_WRITTEN), **AS_WRITTEN),
        link(),
        says(b"SET ups.delay.shutdown 7\n", ups_delay_shutdown="7"),
        moment(1_000_000_015, ups_delay_shutdown="60"),
        says(b"DUMPALL\n", dump({**CAME_LATE, **AT_FIRST, "ups.status": "OB"})),
    ]),
    Scene("pieces of a line, and lines of which one says nothing", *PLAIN_SCRIPT, [
        link(),
        says(b"SET ups.id w\nPI", ups_id="w"),
        says(b"NG\n", "PONG\n"),
        says(b"DUMPALL\n", dump({**PLAIN, "ups.id": "w"})),
        says(b'SET ups.status "x"\nSET ups.id "seventeen bytes.."\nFOO\n'),
        says(b"INSTCMD load.off\n", told(ups_status="OFF"), ups_status="OFF"),
        says(b"INSTCMD load.off\nINSTCMD x\n", ""),
    ], has_whole_lines=False),
    Scene("requests in any case, and lines that are none", *PLAIN_SCRIPT, [
        link(),
        says(b"Ping\n", "PONG\n"),
        says(b"DUMPALL\n", dump(PLAIN)),
        says(b"dumpall\n", dump(PLAIN)),
        says(b"Set ups.id Abc\n", told(ups_id="Abc"), ups_id="Abc"),
        says(b"set ups.ID y\nSET UPS.id y\n"),
        says(b"instcmd load.off\n", told(ups_status="OFF"), ups_status="OFF"),
        says(b"instcmd load.On\n"),
        says(b"\nPONG\nPING x\nDUMPALL x\n"),
        says(b"SET ups.id\nSET ups.id a b\nSET ups.id a NUMBER 7\nSET ups.id a TRACKING\nSET ups.id a TRACKING 07\n"),
        says(b"INSTCMD\nINSTCMD load.on a b\nINSTCMD load.on a TRACKING 1 2\n"),
    ]),
    Scene("a moment far ahead", "seq", b"a: 1\nTIMER 1\na: 2\nTIMER 1\na: 3\n", {"a": "1"}, [
        link(),
        moment(1_000_000_000),
        says(b"DUMPALL\n", dump({"a": "1"})),
        moment(1_000_000_001, told(a="2"), a="2"),
    ]),
]

# scripts, and the result of reading each
SCRIPTS = [
    *(("dev", text, "ok") for text in (b"", b" \t\r\n# \xff\nups.status: OL\n", b"TIMER: 5")),
    ("dev", b"a: b\nc: \xff", "2: BadLine"),
    *(("dev", text, "1: BadLine") for text in (b"ups.status OL", b"TIMER", b"a: x\ty")),
    *(("dev", text, "1: BadName") for text in (b": x", b"a b: x")),
    ("dev", b"TIMER 5", "1: TimerInDev"),
    ("dev", b"TIMER 0", "1: BadTimer"),
    ("seq", b"a: b", "0: NoTimer"),
    *(("seq", text, "ok") for text in (b"TIMER 1\na: b", b" TIMER\t86400 # a day")),
    *(("seq", text, "1: BadTimer") for text in (b"TIMER 0", b"TIMER 86401", b"TIMER x")),
    *(("seq", text, "1: BadLine") for text in (b"timer 5", b"TIMER 5 5")),
]

# a driver beside a server: what a client asks and the replies, and the moments that come
ROOM_UPS = b'[su700]\ndriver = dummy-ups\nport = su700.seq\ndesc = "Server room"\n'
ROOM_USERS = b"[admin]\npassword = pw\nactions = SET\ninstcmds = ALL\n"
ROOM_SCRIPT = (
    b'battery.charge.low: 20\ninput.sensitivity: low\nups.id: x\nups.mfr: a "b" \\ #c\nups.status: OL\nTIMER 10\n'
    b"ups.status: OB\nTIMER 5\n"
)
TABLE = [
    b'VAR su700 battery.charge.low "20"', b'VAR su700 input.sensitivity "low"', b'VAR su700 ups.id "x"',
    b'VAR su700 ups.mfr "a \\"b\\" \\\\ \\#c"', b'VAR su700 ups.status "OL"',
]


def lists(query, *rows):
    """Returns a LIST with its answer."""
    return b"LIST " + query, listed(query, *rows) + b"\n"


ROOM = [
    lists(b"VAR su700", *TABLE),
    lists(b"RW su700", b'RW su700 battery.charge.low "20"', b'RW su700 input.sensitivity "low"', b'RW su700 ups.id "x"'),
    (b"GET TYPE su700 battery.charge.low", b"TYPE su700 battery.charge.low RW RANGE\n"),
    lists(b"RANGE su700 battery.charge.low", b'RANGE su700 battery.charge.low "0" "100"'),
    (b"GET TYPE su700 input.sensitivity", b"TYPE su700 input.sensitivity RW ENUM\n"),
    lists(b"ENUM su700 input.sensitivity", *(b'ENUM su700 input.sensitivity "%b"' % it for it in (b"low", b"medium", b"high"))),
    (b"GET TYPE su700 ups.id", b"TYPE su700 ups.id RW STRING:16\n"),
    (b"GET TYPE su700 ups.status", b"TYPE su700 ups.status NUMBER\n"),
    lists(b"CMD su700", *(b"CMD su700 " + it.encode() for it in COMMANDS)),
    (b"USERNAME admin", b"OK\n"),
    (b"PASSWORD pw", b"OK\n"),
    (b'SET VAR su700 ups.id "b c"', b"OK\n"),
    (b"GET VAR su700 ups.id", b'VAR su700 ups.id "b c"\n'),
    (b"SET TRACKING ON", b"OK\n"),
    (b'SET VAR su700 ups.id "b d"', b"OK TRACKING 1\n"),
    (b"GET TRACKING 1", b"TRACKING 1 SUCCESS\n"),
    (b'SET VAR su700 ups.id "more than sixteen"', b"ERR TOO-LONG\n"),
    (b"INSTCMD su700 load.on 5", b"OK TRACKING 2\n"),
    (b"GET TRACKING 2", b"TRACKING 2 SUCCESS\n"),
    (b"SET TRACKING OFF", b"OK\n"),
    (b"SET VAR su700 battery.charge.low 101", b"ERR INVALID-VALUE\n"),
    (b"SET VAR su700 ups.status OL", b"ERR READONLY\n"),
    (b"INSTCMD su700 load.off", b"OK\n"),
    (b"GET VAR su700 ups.status", b'VAR su700 ups.status "OFF"\n'),
    (b"INSTCMD su700 test.battery.start", b"OK\n"),
    (b"GET VAR su700 ups.test.result", b'VAR su700 ups.test.result "In progress"\n'),
    ("moment", 6),
    ("moment", 10),
    (b"GET VAR su700 ups.status", b'VAR su700 ups.status "OB"\n'),
    ("moment", 15),
    lists(b"VAR su700", *TABLE, b'VAR su700 ups.test.result "In progress"'),
]
