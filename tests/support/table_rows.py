"""Worked tables: what a driver tells, and what its server then lists. Both are written by hand."""

LONG_NAME, LONG_TEXT = "a" * 64, "a" * 512


def variable(name, value, kind="NUMBER", *, rw=False, enums=(), ranges=()):
    """Returns all that is listed of a variable: its value, its type, and which values it may have."""
    rows = [f'VAR {name} "{value}"', f"TYPE {name} {'RW ' if rw else ''}{kind}"]
    rows += [f'RW {name} "{value}"'] if rw else []
    rows += [f'ENUM {name} "{it}"' for it in enums]
    return rows + [f'RANGE {name} "{least}" "{most}"' for least, most in ranges]


def commands(*names):
    return [f"CMD {name}" for name in names]


def each(front, numbers, back=""):
    return [f"{front}{number}{back}" for number in numbers]


def numbered(numbers, **values):
    """Returns variables v0, v1 and so on with the value x, or another that is named here."""
    return [row for number in numbers for row in variable(f"v{number}", values.get(f"v{number}", "x"))]


class Table:
    def __init__(self, title, told, *listed):
        self.title, self.told = title, told
        self.listed = sorted(row for rows in listed for row in rows)


FORGOTTEN = ["SETINFO a low", "SETFLAGS a RW STRING", "SETAUX a 8", "ADDENUM a low", "ADDRANGE a 0 9", "DELINFO a"]

TABLES = [
    Table("values with quotes and backslashes",
        [
            *('SETINFO ups.mfr "a \\"b\\" \\\\c"', "SETINFO ups.id a\\ b", 'SETINFO "ups.serial" "" # none'),
            *("SETINFO ups.model x", 'SETINFO ups.model "a\\#b=c"'),
            *('ADDENUM ups.id "a b"', 'ADDENUM ups.id "\\""', "DELENUM ups.id a\\ b"),
        ],
        variable("ups.id", "a b", "ENUM", enums=['\\"']),
        variable("ups.mfr", 'a \\"b\\" \\\\c'),
        variable("ups.model", "a\\#b=c"),
        variable("ups.serial", "")),
    Table("flags, and the greatest length",
        ["SETINFO ups.id x", "SETFLAGS ups.id rw STRING other", "SETAUX ups.id 3"],
        variable("ups.id", "x", "STRING:3", rw=True)),
    Table("enum values, one of them twice",
        ["SETINFO a low", "ADDENUM a low", "ADDENUM a high", "ADDENUM a low", "DELENUM a medium"],
        variable("a", "low", "ENUM", enums=["low", "high"])),
    Table("ranges: before the variable, turned about, twice, and removed",
        [
            *("ADDRANGE a 0 1", "SETINFO a 50", "ADDRANGE a -5 100", "ADDRANGE a 7 6", "ADDRANGE a 200 300"),
            *("ADDRANGE a 0200 0300", "DELRANGE a 200 301", "DELRANGE a -05 100"),
        ],
        variable("a", "50", "RANGE", ranges=[(200, 300)])),
    Table("numbers of ranges, and texts that are none",
        [
            *("SETINFO a x", "ADDRANGE a -000000009 007", "ADDRANGE a -999999999 -0", "ADDRANGE a 999999999 999999999"),
            *each("ADDRANGE a ", ["1000000000", '""', "+1", "-", "--1", "1.5", "1x"], " 999999999"),
            *("ADDRANGE a 0 1000000000", "ADDRANGE a -1000000000 0", "ADDRANGE a 0 +1"),
        ],
        variable("a", "x", "RANGE", ranges=[(-9, 7), (-999_999_999, 0), (999_999_999, 999_999_999)])),
    Table("flags of a number", ["setinfo a 20", "SetFlags a Rw nUMBER"], variable("a", "20", rw=True)),
    Table("flags are those of the last line",
        ["SETINFO a 20", "SETFLAGS a RW NUMBER", "setflags a STRING"],
        variable("a", "20", "STRING:0")),
    Table("no flags", ["SETINFO a 20", "SETFLAGS a RW STRING", "SETFLAGS a"], variable("a", "20")),
    Table("a deleted variable", FORGOTTEN),
    Table("a deleted variable that comes again",
        [*FORGOTTEN, "ADDENUM a high", "SETFLAGS a RW", "SETINFO a low"],
        variable("a", "low")),
    Table("names ascend",
        [
            *("SETINFO b 1", "SETINFO a.b 2", "SETINFO a 3", "SETINFO b! 4", "SETINFO A 5", "SETINFO a 6"),
            *("ADDCMD load.on", "ADDCMD load.off", "ADDCMD load.on", "ADDCMD load/on", "DELCMD none"),
        ],
        *(variable("A", "5"), variable("a", "6"), variable("a.b", "2"), variable("b", "1"), commands("load.off", "load.on"))),
    Table("a deleted command", ["ADDCMD load.on", "ADDCMD load.off", "DELCMD load.on"], commands("load.off")),
    Table("a length before its variable", ["SETAUX a 5", "SETINFO a x", "SETFLAGS a STRING"], variable("a", "x", "STRING:0")),
    Table("lengths at their limit, past it, and none",
        ["SETINFO a x", "SETFLAGS a STRING", "SETAUX a 000000512"]
        + ["SETAUX a 513", "SETAUX a 0000000001", "SETAUX a -1", 'SETAUX a ""', "SETAUX a 1x"]
        + ["SETAUX a +1", "SETAUX a -0", "SETAUX a -", "SETAUX a 1.5", "SETAUX a 1000000000"],
        variable("a", "x", "STRING:512")),
    Table("a length of 0", ["SETINFO a x", "SETFLAGS a STRING", "SETAUX a 128", "SETAUX a 0"], variable("a", "x", "STRING:0")),
    Table("511 variables", each("SETINFO v", range(511), " x"), numbered(range(511))),
    Table("512 variables, and one more",
        [*each("SETINFO v", range(511), " x"), "SETINFO w x", "SETINFO u x"],
        *(numbered(range(511)), variable("w", "x"))),
    Table("one goes, so that another may come",
        [*each("SETINFO v", range(512), " x"), "SETINFO v7 y", "DELINFO v8", "SETINFO u z"],
        *(numbered([*range(8), *range(9, 512)], v7="y"), variable("u", "z"))),
    Table("128 commands, and one more",
        [*each("ADDCMD load.off.", range(127)), "ADDCMD load.off", "ADDCMD load.on"],
        *(commands("load.off"), commands(*each("load.off.", range(127))))),
    Table("a command goes, so that another may come",
        [*each("ADDCMD load.off.", range(128)), "DELCMD load.off.126", "ADDCMD load.on"],
        *(commands("load.on"), commands(*each("load.off.", [*range(126), 127])))),
    Table("64 enum values, and one more",
        ["SETINFO a x", *each("ADDENUM a ", range(65))],
        variable("a", "x", "ENUM", enums=range(64))),
    Table("an enum value goes, so that another may come",
        ["SETINFO a x", *each("ADDENUM a ", range(65)), "DELENUM a 5", "ADDENUM a 64"],
        variable("a", "x", "ENUM", enums=[*range(5), *range(6, 65)])),
    Table("16 ranges, and one more",
        ["SETINFO a x", *each("ADDRANGE a ", range(17), " 999999999")],
        variable("a", "x", "RANGE", ranges=[(least, 999_999_999) for least in range(16)])),
    Table("a range goes, so that another may come",
        ["SETINFO a x", *each("ADDRANGE a ", range(17), " 999999999"), "DELRANGE a 0 999999999", "ADDRANGE a 16 999999999"],
        variable("a", "x", "RANGE", ranges=[(least, 999_999_999) for least in range(1, 17)])),
    Table("names at their limit and past it",
        [
            *(f"SETINFO {LONG_NAME} x", f"SETINFO {LONG_NAME}a x", 'SETINFO "" x'),
            *(f"ADDCMD {LONG_NAME}", f"ADDCMD {LONG_NAME}a", 'ADDCMD ""'),
        ],
        *(variable(LONG_NAME, "x"), commands(LONG_NAME))),
    Table("values at their limit and past it",
        [
            *(f"SETINFO a {LONG_TEXT}", f"SETINFO a {LONG_TEXT}a", f"SETINFO b {LONG_TEXT}a"),
            *(f"ADDENUM a {LONG_TEXT}", f"ADDENUM a {LONG_TEXT}a"),
        ],
        variable("a", LONG_TEXT, "ENUM", enums=[LONG_TEXT])),
]

# lines of a driver that change nothing, as no variable has their name, and whether each counts as a word of the driver
LONG_FLAGS = "SETFLAGS a " + " ".join(map(str, range(3, 33)))
NOTHING_NEW = [
    *((line, True) for line in ("PONG", " \tpong\r# still here", "DELINFO none", "SETAUX none abc", "SETFLAGS none", "SETINFO b! x")),
    *((line, True) for line in ("ADDRANGE none 2 1", LONG_FLAGS, "TRACKING 7 x")),
    *((line, False) for line in ("", " # DATAOK", "PONG x", "SETINFO a", "SETINFO a b c", "SETINFO a=b", "SETFLAGS", "FOO a b", "DATAO")),
    *((line, False) for line in ('SETINFO a "b', 'SETINFO a "b"c', "SETINFO a b\\", "SETINFO a \x7f", LONG_FLAGS + " 33", "TRACKING 7")),
]
