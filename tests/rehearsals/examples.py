"""Has the program `rehearse` read the files of `examples` and others, and looks at what they set, and at what is set where a
file says nothing. Which lines are faults is tested on the programs, by tests/programs/files.py.

    python3 -m tests.rehearsals.examples REHEARSE"""

import os
import sys
import urllib.parse

from tests.support import manual
from tests.support.harness import ROOT, expect, play, read_bytes
from tests.support.monitor_rows import ONLINE, RUNS, Check, Run, ask, check_run, notice, phase, status, steps_of, tell, tells, waits
from tests.support.server_rows import err, listed, live
from tests.support.stage import StageTests

OTHER_UPSES = b'[b]\n[a]\ndesc = ""\ndriver = x\n[c]\n'
OTHER_USERS = b"[a]\npassword = p\nactions = FSD\ninstcmds = load.on\ninstcmds = load.off\n[b]\nactions = SET\ninstcmds = all\n"
# a driver with a variable that may be set, and with these commands
COMMANDS = (b"load.off", b"load.on", b"LOAD.OFF", b"all")
VARIABLE = (b'SETINFO ups.id "x"', b"SETFLAGS ups.id RW STRING", b"SETAUX ups.id 9")
DRIVER = live(*VARIABLE, *(b"ADDCMD " + it for it in COMMANDS))
OK = b"OK"
DENIED = err("ACCESS-DENIED")
# what each user of a file gives as a password, and whether SET, load.off, load.on, LOAD.OFF, all, LOGIN, PRIMARY and FSD are
# then allowed
ASKED = (
    b"SET VAR su700 ups.id y", *(b"INSTCMD su700 " + it for it in COMMANDS), b"LOGIN su700", b"PRIMARY su700", b"FSD su700",
)
EXAMPLE_RIGHTS = (
    (b"admin", b"pw", "+++++---"),
    (b"admin", b"p", "--------"),
    (b"monuser", b"m1", "-----+++"),
    (b"monuser", b"m 2", "--------"),
    (b"guest", b"m 2", "-----+--"),
    (b"nobody", b"pw", "--------"),
)
OTHER_RIGHTS = (
    (b"a", b"p", "-++----+"),
    (b"b", b"p", "--------"),
)


def example(name):
    return read_bytes(os.path.join(ROOT, "examples", name))


def server_of(ups=b"[su700]\n", users=b"", upsd=b""):
    """Returns the steps that make a server of these texts."""
    return [("ups", ups), ("users", users), ("upsd", upsd), ("server",)]


class Tests(StageTests):
    def play(self, head, steps):
        """Returns what is printed of these steps, behind others."""
        return self.stage.play([*head, *steps])[len(head) :]

    def answers(self, head, *lines):
        """Returns what a server answers a new client, line by line."""
        steps = [step for line in lines for step in (("bytes", 1, line + b"\n"), ("take", 1))]
        taken = self.play([*head, ("open", b"a")], steps)[1::2]
        return [urllib.parse.unquote_to_bytes(it).rstrip(b"\n") for it in taken]

    def compare_upses(self, text, upses):
        """Compares names, descriptions, drivers and devices, in the order of the file."""
        head = server_of(ups=text)
        devices = [f"{driver} {port}".encode() for _, _, driver, port in upses]
        expect(self.play(head, [("device", it) for it in range(len(upses) + 1)]), [*devices, b"none"], f"the drivers of {text}")
        rows = [f'UPS {name} "{text}"'.encode() for name, text, _, _ in upses]
        texts = [f'UPSDESC {name} "{text}"'.encode() for name, text, _, _ in upses]
        asked = [f"GET UPSDESC {it[0]}".encode() for it in upses]
        expect(self.answers(head, b"LIST UPS", *asked), [listed(b"UPS", *rows), *texts], f"the UPSes of {text}")

    def test_ups_conf(self):
        self.compare_upses(example("ups.conf"), [("su700", "Server room", "dummy-ups", "su700.dev")])
        others = [("b", "Unavailable", "dummy-ups", ""), ("a", "", "x", ""), ("c", "Unavailable", "dummy-ups", "")]
        self.compare_upses(OTHER_UPSES, others)

    def compare_users(self, text, rows):
        for name, password, rights in rows:
            head = [*server_of(users=text), *DRIVER]
            for line, is_allowed in zip(ASKED, rights):
                # a client for each request, since some requests allow others
                word = b'"%b"' % password
                said = self.answers(head, b"USERNAME " + name, b"PASSWORD " + word, line)[2]
                due = said.startswith(OK) if is_allowed == "+" else said == DENIED
                expect(due, True, f"{name} with {password}: {line}, answered by {said}")

    def test_upsd_users(self):
        self.compare_users(example("upsd.users"), EXAMPLE_RIGHTS)
        self.compare_users(OTHER_USERS, OTHER_RIGHTS)
        # nobody can give an empty password, so a user without a password may do nothing
        said = self.answers([*server_of(users=OTHER_USERS), *DRIVER], b"USERNAME b", b'PASSWORD ""', ASKED[0])
        expect(said, [OK, err("INVALID-ARGUMENT"), err("PASSWORD-REQUIRED")], "an empty password")

    def compare_limits(self, text, max_conn):
        """Compares how many clients may be connected, and when data are stale."""
        head = [*server_of(upsd=text), ("moment", 0), *DRIVER]
        opened = [b"ok opened=%d" % it for it in range(1, max_conn + 1)]
        full = b"Full opened=%d" % max_conn
        expect(self.play(head, [("open", b"a")] * (max_conn + 1)), [*opened, full], f"the clients of {text}")
        for moment, is_stale in ((15, False), (16, True)):
            said = self.answers([*head, ("moment", moment)], b"GET VAR su700 ups.id")
            expect(said, [err("DATA-STALE") if is_stale else b'VAR su700 ups.id "x"'], f"the data at moment {moment} with {text}")

    def test_upsd_conf(self):
        for text, max_conn in ((example("upsd.conf"), 16), (b"", 256)):
            self.compare_limits(text, max_conn)
            listens = f"Some(({list(b'127.0.0.1')}, 3493)) None".encode()
            expect(self.play([], [("upsd", text), ("listen",)]), [b"ok", listens], f"the addresses of {text}")
        others = f"Some(({list(b'::1')}, 5)) Some(({list(b'a')}, 3493))".encode()
        expect(self.play([], [("upsd", b"LISTEN ::1 5\nLISTEN a\n"), ("listen",)]), [b"ok", others], "other addresses")

    def play_run(self, name, file, *steps):
        run = Run(name, file, *steps)
        check_run(run, self.stage.play(steps_of(run)))

    def test_upsmon_conf(self):
        logins = [ask(0, b"%b\n" % it, b"OK\n") for it in (b"USERNAME monuser", b"PASSWORD m1", b"LOGIN su700", b"PRIMARY su700")]
        lost = ("Onbatt", 0, b"UPS su700@localhost: mains lost")
        low = notice("LOWBATT")
        count = ask(0, b"GET NUMLOGINS su700\n", b"NUMLOGINS su700 2\n")
        self.play_run(
            "the example", example("upsmon.conf"), tell("moment", 0), tell("linked", 0), *logins, status(0, b"OB"), tells(lost),
            tell("moment", 4), waits(0, b""), tell("moment", 5), status(0, b"OL"), tells(ONLINE), tell("moment", 10),
            status(0, b"OB LB"), tells(lost, low), phase("Forcing"), ask(0, b"FSD su700\n", b"OK FSD-SET\n"), count,
            tell("moment", 30), phase("Forcing"), tell("moment", 31), phase("Final"),
        )

    def test_a_monitor_line(self):
        """The target as it is written, in the text of a notice, and its parts; a power value; a secondary, which asks for the
        status once it is logged in."""
        line = b"MONITOR u@h:0005 2 m p secondary\n"
        logins = [ask(0, b"%b\n" % it, b"OK\n") for it in (b"USERNAME m", b"PASSWORD p", b"LOGIN u")]
        battery = ask(0, b"GET VAR u ups.status\n", b"VAR u ups.status OB\n")
        told = tells(("Onbatt", 0, b"UPS u@h:0005 on battery"))
        for supplies in (b"", b"MINSUPPLIES 2\n"):
            self.play_run(
                f"{line} {supplies}", line + supplies, tell("moment", 0), tell("linked", 0), *logins, battery, told,
                phase("Watching"),
            )
        expect(self.play([], [("monitor new", line + b"MINSUPPLIES 3\n")]), [b"0: PastLimit"], "more supplies than there are")

    def test_texts_of_notices(self):
        """Each type of notice is given in a run, and a line sets another text for it by its word."""
        texts = {kind.encode(): b"the text of " + kind.encode() for kind in manual.notices()}
        lines = b"".join(b'NOTIFYMSG %b "%b"\n' % it for it in texts.items())
        told = set()
        for run in RUNS:
            other = Run(run.name, run.file + lines)
            for check in run.checks[2:]:
                if check.step == ("monitor notice",) and check.line != b"none":
                    kind, line, _ = check.line.split(b" ", 2)
                    told.add(kind.upper())
                    check = Check(check.step, b" ".join((kind, line, texts[kind.upper()])))
                other.checks.append(check)
            check_run(other, self.stage.play(steps_of(other)))
        expect(told, set(texts), "the types of notices that are given")


if __name__ == "__main__":
    sys.exit(play(Tests, 1))
