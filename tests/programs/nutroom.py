"""Runs `nutroom` with the built `nutsim`: descriptions that are right and wrong, what it prints and draws, and random rooms,
none of which may pass a bound of the theorem.

    python3 -m tests.programs.nutroom NUTSIM

Rooms are made from fixed seeds, so that each run of this test plays the same."""

import collections
import concurrent.futures
import contextlib
import functools
import glob
import os
import random
import re
import shlex
import shutil
import signal
import subprocess
import sys
import time
import xml.etree.ElementTree

from tests.programs.nutsim import server_files
from tests.support.harness import ROOT, VERSION_SHOWN, ended, ensure, expect, fewer, needs_proved_build, patience, play, read, write
from tests.support.model import Config, User, words_of
from tests.support.room import until
from tests.support.room_model import RoomOfServers, Rules, Watched, shown
from tests.support.terminal import run_on_terminal

TOOLS = os.path.join(ROOT, "tools")
sys.path.append(TOOLS)

from nutroom_modules.bounds import PATIENCE_ON_BATTERY, halts_when_cut_off, is_forced, needed_host_sync
from nutroom_modules.nutsim import Nutsim
from nutroom_modules.picture import width_of
from nutroom_modules.reading import read_room
from nutroom_modules.stories import play_run

PROGRAM = os.path.join(TOOLS, "nutroom")
PAGE = os.path.join(ROOT, "docs", "room.md")
PICTURE = os.path.join(ROOT, "docs", "room.svg")
MANUAL = os.path.join(ROOT, "man", "nutroom.8")
LIMITS = os.path.join(ROOT, "crates", "nut_monitor_sockets", "src", "limits.rt")
MONITOR_MANUAL = os.path.join(ROOT, "man", "upsmon.8")
SVG = "{http://www.w3.org/2000/svg}"
# what is wrong with lines of a description, with the messages
WRONG_LINES = os.path.join(ROOT, "tests", "support", "room_faults.txt")

ROOMS = fewer(300)
ROOMS_A_CALL = 25
# one in this many rooms is also played by the plain model
MODEL_EACH = 5

CONFIG = Config([(b"su700", b""), (b"su800", b"")], {b"mon": User(b"m1", (), (), "primary"), b"sec": User(b"m2", (), (), "secondary"), b"idle": User(b"x")})
PRIMARY = Rules([Watched(b"su700", "primary")])
SECONDARY = Rules([Watched(b"su700", "secondary", user=b"sec", password=b"m2")])
FILES = {"m1.conf": PRIMARY, "m2.conf": SECONDARY, "both.conf": Rules([Watched(b"su700", "primary"), Watched(b"su800", "primary")])}

PAIR = "machine m1 m1.conf delay 0 2\nmachine m2 m2.conf delay 0 2\n"
LOW = "at 10 su700 OB\nat 20 su700 OB LB\n"


def write_room(folder, text, config=CONFIG, files=None):
    """Writes a description and its configuration files into a folder. Those of several servers are in folders of their names."""
    for host, it in config.items() if isinstance(config, dict) else [("", config)]:
        for name, data in server_files(it).items():
            write(os.path.join(folder, host, name), data)
    for name, rules in (FILES if files is None else files).items():
        write(os.path.join(folder, name), rules.text())
    return write(os.path.join(folder, "room"), text)


class Tests:
    def __init__(self, nutsim, folder):
        self.nutsim, self.folder = nutsim, folder
        self.made = 0

    def room(self, text, **more):
        """Writes the description of a new room into a folder of its own."""
        self.made += 1
        return write_room(os.path.join(self.folder, f"room-{self.made}"), text, **more)

    def run(self, *words, nutsim=None, cwd=None, **options):
        """Returns the status, what is printed, and what is written about a failure."""
        command = [sys.executable, PROGRAM, "--nutsim", nutsim or self.nutsim, *words]
        return ended(command, timeout=patience(300), cwd=cwd, **options)

    def printed(self, *words, **options):
        status, out, err = self.run(*words, **options)
        expect((status, err), (0, ""), words)
        return out

    def expect_printed(self, lines, *words):
        """Expects that these lines are printed, among others. Returns all."""
        found = self.printed(*words).splitlines()
        expect([it for it in lines if it not in found], [], f"what isn't printed by {words}: {found}")
        return found

    def expect_halts(self, folder, steps, confs, count):
        """Expects that nutsim plays such steps in a folder without skipping any, and halts so many machines."""
        status, out, err = ended([self.nutsim, folder, steps, *(os.path.join(folder, it) for it in confs)])
        expect((status, err, "skipped" in out), (0, "", False), "nutsim")
        expect(len(re.findall(r"monitor \d phase Halted", out)), count, "machines that were halted")

    def refused(self, path, text, **options):
        expect(self.run("-n", "1", path, **options), (1, "", f"nutroom: {text}\n"), text)

    def picture(self, path, *words):
        """Checks the picture of a room's run as a whole. Returns its elements."""
        to = os.path.join(os.path.dirname(path), "x.svg")
        self.printed("-n", "3", "-s", "1", "--svg", to, *words, path)
        return check_picture(read(to))

    def test_command_lines(self):
        path = self.room(PAIR + LOW)
        wrong = (
            [], ["a", "b"], ["--none", path], ["-n", "0", path], ["-n", "x", path], ["-s", "-1", path], ["-n", "2", "--run", "3", path],
            ["--run", "0", path], ["--svg"],
        )
        for words in wrong:
            status, out, err = self.run(*words)
            expect((status, out), (2, ""), words)
            ensure(err.startswith("usage: nutroom "), f"{words}: {err!r}")
        expect(self.printed("--version"), f"nutroom {VERSION_SHOWN}\n", "the version")

    def test_lines_that_do_not_read(self):
        for line, text in (it.split(" | ") for it in read(WRONG_LINES).splitlines()[1:]):
            path = self.room(f"# a room\n{PAIR}{line}\n{LOW}")
            self.refused(path, f"{path}:4: {text}")

    def test_rooms_that_do_not_read(self):
        for text, what in {
            LOW: "0: no line 'machine'",
            PAIR: "0: no line 'at': nothing happens",
            f"{PAIR}battery su700 5\nbattery su700 6\n{LOW}": "4: a second battery of su700",
            f"conf .\nconf .\n{PAIR}{LOW}": "2: a second line 'conf', or one beside 'server'",
            f"server s1 .\nconf .\n{PAIR}{LOW}": "2: a second line 'conf', or one beside 'server'",
            f"conf .\nserver s1 .\n{PAIR}{LOW}": "2: a second server s1, or one beside 'conf'",
            f"server s1 .\nserver s1 .\n{PAIR}{LOW}": "2: a second server s1, or one beside 'conf'",
            f"{PAIR}{LOW}at 5 m1 cut\nat 6 m1 cut\n": "6: m1 is cut already",
            f"{PAIR}{LOW}at 5 m1 back\nat 6 m1 cut\n": "5: m1 isn't cut",
            f"machine su700 m1.conf delay 0 1\n{LOW}": "2: su700 is a machine and a UPS",
        }.items():
            path = self.room(text)
            self.refused(path, f"{path}:{what}")

    def test_files_that_do_not_read(self):
        path = self.room(PAIR + LOW)
        folder = os.path.dirname(path)
        missing = os.path.join(folder, "none")
        self.refused(missing, f"{missing}: cannot read: No such file or directory")
        self.refused(folder, f"{folder}: cannot read: Is a directory")
        other = self.room(f"machine m1 none.conf delay 0 1\n{LOW}")
        none = f"{os.path.dirname(other)}/none.conf"
        self.refused(other, f"{none}: cannot read\nnutroom: {none}: No such file or directory (os error 2)")
        other = self.room(f"conf none\n{PAIR}{LOW}")
        self.refused(other, f"{os.path.dirname(other)}/none/ups.conf: cannot read: No such file or directory")
        line = "MONITOR {} 1 sec m2 {}\n"
        for name, text, fault in (
            ("m2.conf", line.format("su700@localhost", "tertiary"), ":1: UnknownWord\nnutroom: ROLE: 'primary' or 'secondary' is meant"),
            ("m2.conf", "# nobody\n\n" + line.format("su900@localhost", "secondary"), ":3: ups.conf has no UPS su900"),
            ("m2.conf", line.format("su700@localhost", "secondary") + "POLLFREQ 86401\n", ":2: more than 86400 s take too long to play"),
            ("m2.conf", "MINSUPPLIES 0\n", ":0: no UPS is watched"),
            ("upsd.users", "password = x\n", ":1: OutsideSection\nnutroom: password: a line [NAME] has to come before it"),
            ("upsd.users", "maxretry = 3\n", ":1: OutsideSection\nnutroom: a directive of upsd.users is meant"),
        ):
            write(os.path.join(folder, name), text)
            self.refused(path, f"{folder}/{name}{fault}")

    def test_machines_that_the_server_does_not_let_in(self):
        for user, password, text in (
            (b"nobody", b"m1", "no user nobody with the password of {0}/m1.conf"),
            (b"mon", b"wrong", "no user mon with the password of {0}/m1.conf"),
            (b"idle", b"x", "user idle has no 'upsmon primary', which {0}/m1.conf needs"),
            (b"sec", b"m2", "user sec has no 'upsmon primary', which {0}/m1.conf needs"),
        ):
            path = self.room(PAIR + LOW, files={**FILES, "m1.conf": Rules([Watched(b"su700", "primary", user=user, password=password)])})
            self.refused(path, f"{os.path.dirname(path)}/upsd.users: " + text.format(os.path.dirname(path)))
        path = self.room(PAIR + LOW, config=Config(CONFIG.upses, CONFIG.users, 15, 1))
        self.refused(path, f"{os.path.dirname(path)}/upsd.conf: MAXCONN 1 lets no 2 links in")
        path = self.room(f"{PAIR}client su700 delay 0 1\n{LOW}", config=Config(CONFIG.upses, CONFIG.users, 15, 2))
        self.refused(path, f"{os.path.dirname(path)}/upsd.conf: MAXCONN 2 lets no 3 links in")

    def test_servers_that_do_not_fit(self):
        """The hosts of MONITOR lines name servers, and a machine's own server has its name."""
        text = f"server m1 m1\nserver s2 s2\n{PAIR}at 10 su700@s2 OB LB\n"
        for config, files, fault in (
            ({}, {"m2.conf": [Watched(b"su700", "secondary", user=b"sec", password=b"m2", host=b"s3")]}, "{0}/m2.conf:1: no line 'server' has the name s3"),
            ({}, {"m2.conf": [Watched(b"su700", "secondary", user=b"sec", password=b"m2")]}, "{0}/m2.conf:1: no line 'server' has the name localhost"),
            ({}, {"m1.conf": [Watched(b"su900", "primary")]}, "{0}/m1.conf:1: ups.conf has no UPS su900@m1"),
            ({}, {"m1.conf": [Watched(b"su700", "primary", password=b"no")]}, "{0}/m1/upsd.users: no user mon with the password of {0}/m1.conf"),
            ({"s2": Config(CONFIG.upses, CONFIG.users, 15, 1)}, {}, "{0}/s2/upsd.conf: MAXCONN 1 lets no 2 links in"),
        ):
            lines = {"m1.conf": [Watched(b"su700", "primary"), Watched(b"su700", "primary", host=b"s2:3493")]}
            lines["m2.conf"] = [Watched(b"su700", "secondary", user=b"sec", password=b"m2", host=b"s2")]
            rules = {name: Rules(it) for name, it in {**lines, **files}.items()}
            path = self.room(text, config={"m1": CONFIG, "s2": CONFIG, **config}, files=rules)
            self.refused(path, fault.format(os.path.dirname(path)))
        self.refused(self.room(f"server m1 m1\n{PAIR}{LOW}", config={"m1": CONFIG}), f"{self.folder}/room-{self.made}/room:4: su700 is neither a machine of this room nor a UPS of ups.conf")

    def test_nutsim_that_fails(self):
        path = self.room(PAIR + LOW)
        # the first two calls read the files of the machines
        count = os.path.join(self.folder, "count")
        for name, script, text in (
            ("killed", "kill -9 $$", "nutsim was killed by signal 9 (SIGKILL)"),
            ("aborted", "kill -6 $$", "nutsim was killed by signal 6 (SIGABRT)"),
            ("failed", "echo nutsim: out of memory >&2; exit 1", "out of memory"),
            ("silent", "exit 3", "nutsim ended with status 3"),
        ):
            begins = f"cat > /dev/null\necho >> {count}\n[ $(wc -l < {count}) -le 2 ] && exit\n"
            program = write(os.path.join(self.folder, name), f"#!/bin/sh\n{begins}{script}\n", 0o755)
            self.refused(path, f"run 1: {text}", nutsim=program)
            os.remove(count)
        self.refused(path, f"{self.folder}/none cannot be run: No such file or directory", nutsim=os.path.join(self.folder, "none"))

    def test_nutsim_is_found(self):
        path = self.room(PAIR + LOW)
        folder = os.path.join(self.folder, "found")
        shutil.copytree(TOOLS, os.path.join(folder, "tools"), ignore=shutil.ignore_patterns("__pycache__"))
        program = os.path.join(folder, "tools", "nutroom")
        nowhere = "nutroom: nutsim isn't found beside nutroom, in ../bin or on the PATH; --nutsim names it\n"
        for at, search, status, told in (
            ("tools", "/none", 0, ""),
            ("bin", "/none", 0, ""),
            ("other", os.path.join(folder, "other"), 0, ""),
            ("another", "/none", 1, nowhere),
        ):
            link = os.path.join(folder, at, "nutsim")
            os.makedirs(os.path.dirname(link), exist_ok=True)
            os.symlink(self.nutsim, link)
            found = ended([sys.executable, program, "-n", "1", path], env={**os.environ, "PATH": search})
            expect(found[::2], (status, told), at)
            os.remove(link)

    def test_files_that_cannot_be_written(self):
        path = self.room(PAIR + LOW)
        status, _, err = self.run("-n", "1", "--svg", os.path.join(self.folder, "none", "x.svg"), path)
        expect((status, err), (1, f"nutroom: {self.folder}/none/x.svg: cannot write: No such file or directory\n"), "the picture")

    def test_descriptions_that_read(self):
        """The same room can be written down in different ways."""
        plain = self.room(PAIR + "battery su700 40\n" + LOW)
        folder = os.path.dirname(plain)
        text = (
            '  at 20.000\tsu700 OB "LB"  # low\r\nbattery "su700" 40\n\n# machines\nat 10 su700 OB\n'
            f"machine m1 ../{os.path.basename(folder)}/m1.conf delay 0.0 2\nmachine m2 m2.conf delay 0 2.000\nconf ."
        )
        other = write(os.path.join(folder, "other"), text)
        first, second = (self.printed("-n", "5", "-s", "9", it) for it in (plain, other))
        # with the same machines and the same outage
        expect(first.replace(plain, ""), second.replace(other, ""), "what is printed")

    def test_a_worked_room(self):
        """The sums of the worked examples of nut_in_time: the primary knows within 7 seconds and is halted within 28, the
        secondary knows within 23."""
        lines = self.expect_printed((
            "  m1  halted by 20 + POLLFREQ 5 + delay 2 + HOSTSYNC 15 + 1 + FINALDELAY 5 = 48",
            "  m2  halted by 20 + delay 2 + HOSTSYNC 15 + 1 + FINALDELAY 5 = 43",
            "HOSTSYNC 15 of m1 is enough for m2 (14); in brackets what is enough",
            "battery.runtime.low of su700: at least 28 s, and what a machine takes from SHUTDOWNCMD until it is off; "
            "the battery of this room lasts 3 s",
        ), "-n", "3", self.room(PAIR + "battery su700 3\n" + LOW))
        rows = [it.split() for it in lines if it.startswith(("m1", "m2"))]
        expect([(row[0], row[1], row[8], row[9]) for row in rows], [("m1", "primary", "48", "3"), ("m2", "secondary", "43", "3")], "the table")

    def test_what_is_said_of_machines(self):
        """It says which machines have to stop in time, which keep running, and about which nothing is promised."""
        path = self.room("machine m1 both.conf delay 0 1\nmachine m2 m2.conf delay 0 1\nmachine m3 m2.conf delay 0 5\n" + LOW)
        keeps = "  m1  keeps running: its UPSes are neither low nor forced, and DEADTIME is long enough"
        sync = "HOSTSYNC 15 of m1 {}; in brackets what is enough"
        syncs = [sync.format(it) for it in ("is enough for m2 (13)", "may be too short for m3 (17)")]
        lines = self.expect_printed([keeps, *syncs], "-n", "2", path)
        rows = {it.split()[0]: it.split()[2:] for it in lines if it.startswith(("m1 ", "m2 ", "m3 "))}
        expect((rows["m1"], rows["m2"][6], rows["m3"][6]), (["-"] * 6 + ["keeps", "running"], "42", "46"), "the table")
        cut = "; doesn't hold, since its link was cut"
        for changes, *lines in (
            (
                LOW + "at 15 m2 cut\n",
                "  m2  halted by 20 + delay 2 + HOSTSYNC 15 + 1 + FINALDELAY 5 = 43" + cut,
                "      cut off on battery: halted within DEADTIME 15 + 1 + FINALDELAY 5 = 21 s of its last status",
            ),
            (
                LOW + "at 15 m1 cut\nat 25 m1 back\n",
                "  m1  halted by 20 + POLLFREQ 5 + delay 2 + HOSTSYNC 15 + 1 + FINALDELAY 5 = 48" + cut,
                "      once its links are back, and these UPSes are shown so: halted within "
                "4 * delay 2 + delay 2 + HOSTSYNC 15 + 1 + FINALDELAY 5 = 31 s",
            ),
            ("at 5 su700 OB\nat 15 m2 cut\nat 8 su700 OL\n", keeps, "  m2  nothing is said of it", "  nobody: 4 of 4"),
        ):
            self.expect_printed(lines, "-n", "4", self.room(PAIR + changes))

    def test_host_sync_that_is_too_short(self):
        needs_proved_build("what takes many runs or long ones")
        files = {**FILES, "m1.conf": Rules([Watched(b"su700", "primary")], HOSTSYNC=5)}
        path = self.room("machine m1 m1.conf delay 0 1\nmachine m2 m2.conf delay 0 1\nmachine m3 m2.conf delay 0 3\n" + LOW, files=files)
        told = "HOSTSYNC 5 of m1 may be too short for m2 (12), m3 (14); in brackets what is enough"
        lines = self.expect_printed((told,), "-n", "40", "-s", "1", path)
        orders = [it.strip().split(":")[0].split() for it in lines[lines.index("They were halted in this order:") + 1 :]]
        ensure(any(it[-1] != "m1" for it in orders), f"m1 was always last: {orders}")

    def test_host_sync_that_is_enough(self):
        """With the HOSTSYNC that is called enough, the primary never stops first. With two seconds less it sometimes does."""
        needs_proved_build("what takes many runs or long ones")
        for sync, is_enough in ((4, True), (2, False)):
            files = {name: Rules(it.lines, POLLFREQ=1, FINALDELAY=0, HOSTSYNC=sync) for name, it in FILES.items()}
            path = self.room("machine m1 m1.conf delay 1 1\nmachine m2 m2.conf delay 1 1\nat 3 su700 OB LB\n", files=files)
            room, nutsim = read_room(path, Nutsim(self.nutsim)), Nutsim(self.nutsim)
            expect(needed_host_sync(room, *room.machines), 4, "what is enough")
            late = 0
            for number in range(100):
                _, (first, second) = play_run(room, nutsim, 1, number)
                late += second.halted is None or second.halted > first.final
            ensure((late == 0) == is_enough, f"HOSTSYNC {sync}: the primary goes on first in {late} of 100 runs")

    def test_host_sync_counts_until_fsd_is_accepted(self):
        """An answer of 3 seconds if the primary is patient; a second less than two if it isn't, has read nothing before or was
        cut off; and two if it has several lines."""
        patient = {name: FILES[name] for name in ("m1.conf", "m2.conf", "both.conf")}
        hasty = {**patient, "m1.conf": Rules([Watched(b"su700", "primary")], DEADTIME=7)}
        low, early = "at 20 su700 OB LB\n", "at 8 su700 OB LB\n"
        cut = "at 1 m1 cut\nat 2 m1 back\n"
        for conf, files, changes, due in (
            ("m1.conf", patient, low, 16),
            ("m1.conf", hasty, low, 18),
            ("m1.conf", patient, early, 18),
            ("m1.conf", patient, cut + low, 18),
            ("both.conf", patient, low.replace("OB LB", "OB LB\nat 20 su800 OB LB"), 19),
        ):
            path = self.room(f"machine m1 {conf} delay 0 3\nmachine m2 m2.conf delay 0 3\n{changes}", files=files)
            room = read_room(path, Nutsim(self.nutsim))
            expect(needed_host_sync(room, *room.machines), due, (conf, changes))

    def test_the_same_seed_gives_the_same_runs(self):
        path = self.room(PAIR + LOW)
        first, second, third = (self.printed("-n", "6", "-s", seed, path) for seed in ("5", "5", "6"))
        expect(first, second, "the same seed")
        ensure(first.splitlines()[1:] != third.splitlines()[1:], "another seed changes nothing")
        told = re.match(r".*: 6 runs, seed (\d+)\n", self.printed("-n", "6", path))
        expect(self.printed("-n", "6", "-s", told[1], path).splitlines()[0], told[0].strip(), "the seed that is told")
        ensure(self.printed("-n", "1", path).startswith(f"{path}: 1 run, seed "), "one run")

    def test_steps_are_those_of_the_run(self):
        """nutsim plays the printed steps again, and halts the machines at the times that the table shows."""
        path = self.room(PAIR + LOW)
        folder = os.path.dirname(path)
        to = os.path.join(folder, "steps")
        self.printed("-n", "3", "-s", "2", "--steps", to, "--run", "2", path)
        self.expect_halts(folder, to, ("m1.conf", "m2.conf"), 2)
        room = read_room(path, Nutsim(self.nutsim))
        expect("".join(play_run(room, Nutsim(self.nutsim), 2, 2)[0].steps), read(to), "the steps")

    def test_two_servers(self):
        """UPSes with the same name at two servers, a machine that needs one of both, and another client. nutsim plays the steps
        again with the files that are written beside them."""
        both = [Watched(b"su700", "secondary", user=b"sec", password=b"m2", host=it) for it in (b"m1", b"m2:3493")]
        machines = "".join(f"machine m{m} m{m}.conf delay 0 2\n" for m in (1, 2, 3))
        text = f"server m1 m1\nserver m2 m2\n{machines}client su700@m2 delay 0 1\nbattery su700@m2 60\nat 10 su700@m1 OB LB\nat 20 su700@m2 OB LB\n"
        files = {"m1.conf": PRIMARY, "m2.conf": PRIMARY, "m3.conf": Rules(both)}
        path = self.room(text, config={"m1": CONFIG, "m2": CONFIG}, files=files)
        to = os.path.join(os.path.dirname(path), "steps")
        self.expect_printed((
            "10 s  su700@m1 OB LB",
            "80 s  the battery of su700@m2 is empty",
            "  m1  halted by 10 + POLLFREQ 5 + delay 2 + HOSTSYNC 15 + 1 + FINALDELAY 5 = 38",
            "  m2  halted by 20 + POLLFREQ 5 + delay 2 + HOSTSYNC 15 + 1 + FINALDELAY 5 = 48",
            "  m3  halted by 20 + delay 2 + HOSTSYNC 15 + 1 + FINALDELAY 5 = 43",
        ), "-n", "3", "-s", "1", "--run", "2", "--steps", to, path)
        self.expect_halts(f"{to}.files", to, [f"{host}.conf" for host in range(4)], 3)
        ensure(len(re.findall("^link 3 0$", read(to), re.MULTILINE)) > 3, "the client calls again and again")
        self.picture(path)
        # of the machine with UPSes at both, what is proved only for one server
        aside = "21 s of its last status, if its UPSes were at one server"
        for changes, said in (
            ("at 5 su700@m1 OB\nat 5 su700@m2 OB\nat 15 m3 cut\n", f"cut off on battery: halted within DEADTIME 15 + 1 + FINALDELAY 5 = {aside}"),
            ("at 5 su700@m1 OB\n", "  m3  keeps running: its UPSes are neither low nor forced, and DEADTIME is long enough, if its UPSes were at one server"),
        ):
            out = self.printed("-n", "2", self.room(text.partition("battery")[0] + changes, config={"m1": CONFIG, "m2": CONFIG}, files=files))
            ensure(said in out, f"{said!r} isn't printed: {out}")

    def test_a_switch_that_restarts(self):
        """The server counts old logins beside the new ones until it hears of their end, so a primary may wait for HOSTSYNC though
        the others were halted. If MAXCONN has no room for them, a link is made only once the old connection is closed."""
        text = f"{PAIR}at 1 m1 cut\nat 1 m2 cut\nat 20 m1 back\nat 20 m2 back\nat 40 su700 OB LB\n"
        path, full = self.room(text), self.room(text, config=Config(CONFIG.upses, CONFIG.users, 15, 3))
        to = os.path.join(os.path.dirname(path), "steps")
        self.printed("-n", "1", "-s", "1", "--steps", to, path)
        self.expect_halts(f"{to}.files", to, [f"{number}.conf" for number in range(4)], 2)
        waits, kept = [], []
        for it in (path, full):
            room = read_room(it, Nutsim(self.nutsim))
            runs = [play_run(room, Nutsim(self.nutsim), 1, number) for number in range(8)]
            expect([story.is_wrong for _, stories in runs for story in stories], [False] * 16, "what passes a bound")
            waits.append(max(first.final - max(first.begun, second.halted) for _, (first, second) in runs))
            kept.append(any(step.startswith(("link 2 ", "link 3 ")) for plan, _ in runs for step in plan.steps))
        ensure(waits[0] > waits[1] + 3000, f"how long a primary waits though the other was halted: {waits} ms")
        expect(kept, [True, False], "whether a server keeps old connections")

    def test_nothing_is_left_behind(self):
        """The files that are made for nutsim are removed in the end, also if it is interrupted."""
        folder = os.path.join(self.folder, "temporary")
        os.mkdir(folder)
        path = self.room(f"{PAIR}client su700 delay 0 1\n{LOW}")
        self.printed("-n", "1", path, env={**os.environ, "TMPDIR": folder})
        expect(os.listdir(folder), [], "what is left")
        # a shell that starts the tests in the background makes its children ignore interrupts
        heed = functools.partial(signal.signal, signal.SIGINT, signal.SIG_DFL)
        words = [sys.executable, PROGRAM, "--nutsim", self.nutsim, "-n", "99999", path]
        for interrupt in (os.kill, os.killpg):
            process = subprocess.Popen(
                words, stdin=subprocess.DEVNULL, stdout=subprocess.PIPE, stderr=subprocess.PIPE, start_new_session=True, preexec_fn=heed,
                env={**os.environ, "TMPDIR": folder},
            )
            try:
                until(lambda: plays(process.pid) and glob.glob(f"{folder}/*/2.conf"), "it has started a nutsim", patience(30))
                interrupt(process.pid, signal.SIGINT)
                out, err = process.communicate(timeout=30)
            finally:
                if process.poll() is None:
                    os.killpg(process.pid, signal.SIGKILL)
                    process.wait()
            expect((process.returncode, out, err, os.listdir(folder)), (-signal.SIGINT, b"", b"", []), f"an interrupt by {interrupt}")

    def test_pictures(self):
        first = self.picture(self.room(PAIR + "battery su700 60\n" + LOW))
        texts = [it.text for it in first.iter(f"{SVG}text")]
        for text in ("su700", "m1", "primary", "m2", "secondary", "ONBATT", "SHUTDOWN", "by 48", "by 43", "su700 empty at 80", "seconds"):
            ensure(any(text in it for it in texts), f"{text} isn't shown: {texts}")
        fills = {it.get("fill") for it in first.iter(f"{SVG}rect")}
        ensure({"url(#battery)", "url(#low)", "url(#forced)", "url(#Forcing)", "url(#Final)", "#000"} <= fills, f"patterns: {fills}")
        cut = self.picture(self.room(PAIR + LOW + "at 12 m2 cut\nat 24 m2 back\n"))
        texts = [it.text for it in cut.iter(f"{SVG}text")]
        ensure(any("cut" in it for it in texts) and any("COMMBAD" in it for it in texts), f"the cut isn't shown: {texts}")
        ensure(not any("by 43" in it for it in texts), "a bound is shown that doesn't hold")

    def test_pictures_of_much(self):
        """Very many UPSes and machines, long outages and long names."""
        needs_proved_build("what takes many runs or long ones")
        many = "".join(f"machine a-long-name-of-a-machine-{m:04} both.conf delay 0 1\n" for m in range(8))
        self.picture(self.room(f"{many}battery su700 5000\nat 1 su700 OB\nat 4000.5 su700 OB LB\nat 4010 su800 OB LB\n"))
        self.picture(self.room(f"{PAIR}at 86400 su700 OB\n"))

    def test_progress_is_told_on_a_terminal(self):
        words = [sys.executable, PROGRAM, "--nutsim", self.nutsim, "-n", "2", "-s", "1", self.room(PAIR + LOW)]
        status, _, told = run_on_terminal(words)
        expect(status, 0, "the status")
        bars = [f"\rnutroom: [{'#' * full}{'.' * (30 - full)}] {done} of 2 runs" for done, full in ((0, 0), (1, 15), (2, 30))]
        expect(told.decode(), "".join(bars) + "\r\x1b[K", "the bar")

    def test_output_that_fails(self):
        words = [sys.executable, PROGRAM, "--nutsim", self.nutsim, "-n", "1", self.room(PAIR + LOW)]
        with open("/dev/full", "wb") as full:
            status, _, err = ended(words, stdout=full)
        expect((status, err), (1, "nutroom: output failed: No space left on device\n"), "a full disk")

    def test_output_that_nobody_reads(self):
        line = shlex.join([sys.executable, PROGRAM, "--nutsim", self.nutsim, "-n", "1", self.room(PAIR + LOW)]) + " | true"
        expect(ended(["bash", "-c", line])[2], "", "what is told")

    def test_the_page_shows_what_is_printed(self):
        needs_proved_build("what takes many runs or long ones")
        page = read(PAGE)
        found = re.findall(r"```console\n\$ nutroom (.*)\n((?:.*\n)*?)```", page)
        ensure(len(found) >= 1, "no command is shown")
        for words, due in found:
            words = words.split()
            svg = os.path.join(self.folder, "page.svg")
            if "--svg" in words:
                words[words.index("--svg") + 1] = svg
            expect(self.printed(*words, cwd=ROOT), due, f"nutroom {' '.join(words)}")
        expect(read(svg) == read(PICTURE), True, "docs/room.svg is what is drawn")
        ensure("](room.svg)" in page, "the picture isn't shown")

    def test_the_greatest_delay_is_what_upsmon_waits_for(self):
        """upsmon's own limit, which stands in its source, is that of this program and of the pages."""
        (most,) = re.findall(r"^pub const ANSWER_ON_BATTERY: u8 = (\d+);$", read(LIMITS), re.MULTILINE)
        expect(PATIENCE_ON_BATTERY, int(most), "the greatest delay of a room")
        for path, said in (
            (MANUAL, f"The most may be {most}: while a UPS is on battery,"),
            (MONITOR_MANUAL, f"or {most} while any UPS is on battery, it is lost"),
            (PAGE, f"If it is more than {most}, none of this holds"),
        ):
            ensure(said in read(path), f"{path} says {said!r}")

    def test_the_script_that_measures(self):
        """The script that docs/room.md shows prints the greatest delay."""
        script = re.search(r"```sh\n( *for .*?)```", read(PAGE), re.DOTALL)[1]
        few = re.sub(r"seq \d+", "seq 5", script)
        ensure(few != script, "nothing is counted")
        folder = os.path.join(self.folder, "measured")
        count = os.path.join(folder, "count")
        # the third answer takes long
        for name, text in (("sleep", ""), ("upsc", f"echo >> {count}\n[ $(wc -l < {count}) -ne 3 ] || /bin/sleep 0.4\necho OL\n")):
            write(os.path.join(folder, name), f"#!/bin/sh\n{text}", 0o755)
        status, out, err = ended(["sh", "-c", few], env={**os.environ, "PATH": f"{folder}:{os.environ['PATH']}"})
        expect((status, err), (0, ""), "the script")
        ensure(400 <= int(out) < 3000, f"it prints {out!r}")

    def test_random_rooms(self):
        """No machine that keeps pace passes its bound, and some reach it; a HOSTSYNC that is called enough is enough."""
        begun = time.monotonic()
        calls = [range(at, min(at + ROOMS_A_CALL, ROOMS)) for at in range(0, ROOMS, ROOMS_A_CALL)]
        counts, margins = collections.Counter(), collections.Counter()
        with concurrent.futures.ProcessPoolExecutor() as pool:
            for found, left in pool.map(functools.partial(play_rooms, self.nutsim, self.folder), calls):
                counts.update(found)
                margins.update(left)
        print(f"   {ROOMS} rooms in {time.monotonic() - begun:.1f} s: " + ", ".join(f"{counts[it]} {it}" for it in sorted(counts)))
        for law in LAWS:
            left = {seconds: count for (of, seconds), count in margins.items() if of == law}
            if left:
                print(f"   {sum(left.values())} halts {law}: the nearest came {min(left)} s before its bound, {left[min(left)]} times")
        needs_proved_build("enough rooms for each bound to be reached")
        for law in LAWS:
            ensure(any(of == law for of, _ in margins), f"no halt {law} was there")
        for law in (PRIMARY_LAW, SECONDARY_LAW, FORCED_LAW):
            ensure(margins[law, 0] > 0, f"no halt {law} reaches its bound")
        for what in ("machines that went on as promised", "machines at two servers", "other clients", "old connections", "HOSTSYNC that was just enough"):
            ensure(counts[what] > 0, f"not all was played: {counts}")


def plays(pid):
    """Whether a nutroom has started a nutsim."""
    with contextlib.suppress(OSError):
        return any(read(f"/proc/{pid}/task/{thread}/children").strip() for thread in os.listdir(f"/proc/{pid}/task"))
    return False


def check_picture(text):
    """Checks that a picture is XML, that everything is inside it, that no text is too small, and that no text covers
    another."""
    picture = xml.etree.ElementTree.fromstring(text)
    _, _, width, height = map(float, picture.get("viewBox").split())
    ensure(width <= 900 and float(picture.get("font-size")) >= 12, "the text is legible at the width of a page")
    places = []
    for it in picture.iter():
        if it.tag in (f"{SVG}rect", f"{SVG}text"):
            x, y = float(it.get("x")), float(it.get("y"))
            ensure(-0.5 <= x <= width + 0.5 and -0.5 <= y <= height + 0.5, f"{it.tag} at {x}, {y} of {width}, {height}")
        if it.tag == f"{SVG}text":
            ensure(float(it.get("font-size", "13")) >= 12, f"{it.text} is small")
            wide = width_of(it.text) * float(it.get("font-size", "13")) / 13
            left = x - {"end": wide, "middle": wide / 2}.get(it.get("text-anchor"), 0)
            ensure(left >= 0 and left + wide <= width + 4, f"{it.text!r} leaves the picture")
            for other, at, far, line in places:
                ensure(line != y or left >= far or left + wide <= at, f"{it.text!r} covers {other!r}")
            places.append((it.text, left, left + wide, y))
    ensure(not re.search(r'(fill|stroke)="(?!#000|#fff|#bbb|url\(#)', text), "a colour that tells something")
    return picture


# ---- random rooms


class RandomRoom:
    """A room with an outage, in a folder of its own. Some have two servers, whose UPSes have the same names, and some have other
    clients."""

    def __init__(self, seed, folder):
        self.random = random.Random(f"room {seed}")
        self.hosts = self.pick(["localhost"], ["localhost"], ["s1", "s2"])
        self.upses = [(name, host) for host in self.hosts for name in [b"a", b"b"][: self.pick(1, 1, 2)]]
        self.configs = {host: Config([(name, b"") for name, at in self.upses if at == host], CONFIG.users) for host in self.hosts}
        self.rules = [self.rule(m) for m in range(self.pick(1, 2, 2, 3, 4))]
        lines = [f"server {host} {host}" for host in self.hosts if len(self.hosts) > 1]
        lines += [f"machine m{m} m{m}.conf delay {self.delays()}" for m in range(len(self.rules))]
        self.watched = [self.pick(*self.upses) for _ in range(self.pick(0, 0, 1, 3))]
        lines += [f"client {self.called(ups)} delay {self.delays()}" for ups in self.watched]
        for ups in self.upses:
            lines += [f"at {time:.3f} {self.called(ups)} {status}" for time, status in self.outage()]
        lines += self.cuts()
        files = {f"m{m}.conf": it for m, it in enumerate(self.rules)}
        configs = self.configs if len(self.hosts) > 1 else self.configs[self.hosts[0]]
        self.path = write_room(os.path.join(folder, f"random-{seed}"), "\n".join(lines), configs, files)

    def called(self, ups):
        """Returns what the description calls a UPS."""
        name, host = ups
        return name.decode() + f"@{host}" * (len(self.hosts) > 1)

    def model(self, returning):
        """Returns the plain model of this room, in which these machines have old connections."""
        clients = [Rules([Watched(name, "secondary", 0, b"client", b"x", host.encode())], MINSUPPLIES=0) for name, host in self.watched]
        hosts = [*self.rules, *clients]
        return RoomOfServers({host.encode(): it for host, it in self.configs.items()}, [*hosts, *(hosts[m] for m in returning)])

    def pick(self, *items):
        return self.random.choice(items)

    def rule(self, m):
        role = self.pick("primary", "primary", "secondary") if m == 0 else self.pick("secondary", "secondary", "secondary", "primary")
        upses = self.upses if len(self.upses) == 1 else self.pick(self.upses, self.upses, self.upses[:1], self.upses[1:])
        user, password = (b"mon", b"m1") if role == "primary" else (b"sec", b"m2")
        lines = [Watched(name, role, 1, user, password, host.encode()) for name, host in upses]
        return Rules(
            lines, MINSUPPLIES=self.random.randint(1, len(lines)), POLLFREQ=self.pick(1, 2, 3, 5), DEADTIME=self.pick(5, 15, 15, 30),
            HOSTSYNC=self.pick(0, 1, 3, 5, 8, 12, 15, 20), FINALDELAY=self.pick(0, 1, 2, 5),
        )

    def delays(self):
        greatest = self.pick(0, 1, 1, 2, 2, 3, 4, 5, 0.3, 1.5, 2.7)
        return f"{self.pick(0, 0, greatest, greatest / 2):g} {greatest:g}"

    def outage(self):
        """Mostly the UPS is on battery, then low; but also low at once, only for a moment, forced by the UPS itself, or
        never."""
        low = self.random.randint(0, 12) + self.pick(0, 0, 0.5, 0.123)
        kind = self.pick("low", "low", "low", "at once", "moment", "forced", "calibration", "never")
        first = [] if kind == "at once" else [(max(low - self.random.randint(1, 12), 0), "OB")]
        ends = {
            "moment": [(low, "OB LB"), (low + self.random.randint(1, 9), self.pick("OL", "OB")), (low + 30, "OB LB")],
            "forced": [(low, self.pick("FSD OB", "FSD OL", "OB LB FSD"))],
            "calibration": [(low, "OB LB CAL"), (low + 10, self.pick("OL", "OB LB", "OB"))],
            "never": [(low, self.pick("OB", "OB DISCHRG", "OL LB")), (low + 20, self.pick("OL", "OB"))],
        }
        return first + ends.get(kind, [(low, "OB LB")])

    def cuts(self):
        if self.random.random() < 0.75:
            return []
        name, time = f"m{self.random.randrange(len(self.rules))}", self.random.randint(0, 20)
        back = [f"at {time + self.random.randint(1, 40)} {name} back"] if self.random.random() < 0.7 else []
        return [f"at {time} {name} cut", *back]


class Trusted(Nutsim):
    """A nutsim that isn't asked to check the files that the test has made."""

    def check(self, folder, machine):
        pass


def play_rooms(program, folder, seeds):
    """Plays random rooms. Counts what happened in them, and the seconds that machines had left to their bounds, by law."""
    counts, margins, nutsim = collections.Counter(), collections.Counter(), Trusted(program)
    for seed in seeds:
        made = RandomRoom(seed, folder)
        room = read_room(made.path, nutsim)
        plan, stories = play_run(room, nutsim, 1, seed)
        counts["machines"] += len(stories)
        counts["machines at two servers"] += sum(len(room.servers_of(it)) > 1 for it in room.machines)
        counts["other clients"] += len(room.clients)
        counts["old connections"] += sum(f"link {host.old} " in step for host in plan.hosts if host.old is not None for step in plan.steps)
        for machine, host, story, bound in zip(room.machines, plan.hosts, stories, room.bounds):
            ensure(not story.is_wrong, f"room {seed}: {machine.name} passes its bound: {bound}, {story}")
            counts["machines that went on as promised"] += bound is None and story.keeps_pace
            margins.update(margins_of(plan, machine, host, story, bound))
        counts.update(syncs_of(seed, room, plan, stories))
        if seed % MODEL_EACH == 0:
            compare(made, room, plan, nutsim, seed)
            counts["rooms played by the plain model"] += 1
    return counts, margins


# Under which bound a machine is halted.
PRIMARY_LAW, SECONDARY_LAW, FORCED_LAW = "of a primary on a low battery", "of a secondary on a low battery", "after FSD"
CUT_OFF_LAW, RETURNED_LAW = "cut off on battery", "over links that came back"
LAWS = (PRIMARY_LAW, SECONDARY_LAW, FORCED_LAW, CUT_OFF_LAW, RETURNED_LAW)


def margins_of(plan, machine, host, story, bound):
    """Yields the laws under which a machine was halted, each with the seconds of its clock that were left to the bound."""
    if story.last_read is not None:
        yield CUT_OFF_LAW, story.last_read + halts_when_cut_off(machine) - story.halted_clock
    elif story.returned_end is not None:
        ensure(story.halted <= story.returned_end, f"{machine.name} is halted at {story.halted}, past {story.returned_end}")
        yield RETURNED_LAW, story.returned_clock - story.halted_clock
    elif bound is not None and story.keeps_pace and bound.start in plan.scenes:
        clock = plan.scenes[bound.start][host.number][0]
        # by the room's clock it isn't later either
        ensure(story.halted <= bound.end, f"{machine.name} is halted at {story.halted}, past {bound}")
        were_forced = all(is_forced(plan.room.last_status(machine.rules.lines[i].ups, bound.start)) for i in bound.lines)
        law = FORCED_LAW if were_forced else PRIMARY_LAW if bound.counts_returns else SECONDARY_LAW
        yield law, clock + bound.halts - story.halted_clock


def syncs_of(seed, room, plan, stories):
    """If HOSTSYNC of a primary is enough for a machine, that machine is halted before the primary stops waiting. Both have
    to keep pace, and the primary's shutdown has to begin by what it was shown."""
    for p, primary in enumerate(room.machines):
        for m, machine in enumerate(room.machines):
            need = needed_host_sync(room, primary, machine) if primary.rules.has_primary and p != m else None
            if need is None or need > primary.rules.host_sync or room.bounds[p] is None:
                continue
            if plan.hosts[p].cuts or plan.hosts[m].cuts or not stories[p].keeps_pace:
                continue
            ensure(stories[m].halted is not None and stories[m].halted <= stories[p].final, f"room {seed}: m{p} doesn't wait for m{m}: {stories}")
            yield "HOSTSYNC that was just enough" if need == primary.rules.host_sync else "HOSTSYNC that was enough"


def compare(made, room, plan, nutsim, seed):
    """Checks that the plain model plays the same steps and tells the same; that no step is skipped, and each step that moves
    bytes finds some; that each query on a link that isn't cut is answered within the machine's delay; and that clocks move
    on by one."""
    model = made.model([host.number for host in plan.hosts if host.old is not None])
    # how the UPSes are called that nutsim plays under names of their own
    names = {f"{name.decode()}@{host}": f"u{u}@localhost" for u, (name, host) in enumerate(made.upses)} if room.files else {}
    due = []
    for number, (text, at) in enumerate(zip(plan.steps, plan.times), 1):
        verb, *words = words_of(text.rstrip("\n").encode())
        verb = verb.decode()
        step = (verb, int(words[0]), words[1]) if verb == "driver" else (verb, *map(int, words))
        if verb in ("out", "reach", "back", "land"):
            ensure(moves(model, step), f"room {seed}, step {number}: nothing is moved by {step}")
        if verb == "monitor":
            expect(step[2], model.monitors[step[1]].now + 1, f"room {seed}, step {number}: the clock")
        due += [shown(number, it) for it in model.play(step)]
        if verb == "monitor" and not any(cut <= at for cut in plan.hosts[step[1]].cuts):
            for watch in model.monitors[step[1]].watches:
                is_late = watch.call is not None and not watch.call.is_idle and step[2] > watch.call.asked_at + room.hosts[step[1]].delay
                ensure(not is_late, f"room {seed}, step {number}: a query of machine {step[1]} waits for longer than its delay")
    found = nutsim.play(room, plan.steps)
    ensure(all(words != ["skipped"] for _, words in found), f"room {seed}: a step is skipped")
    due = [(int(a), [names.get(word, word) for word in b.split()]) for a, _, b in (it.decode().partition(": ") for it in due)]
    expect(found, due, f"room {seed}: what is told")


def moves(model, step):
    verb, m, i, _ = step
    pipes, watch = model.pipes[m][i], model.monitors[m].watches[i]
    if verb == "out":
        return watch.call is not None and bool(watch.call.waits)
    if verb == "back":
        return bool(model.server_of(m, i).waits(pipes.connection))
    return bool(pipes.to_server if verb == "reach" else pipes.to_monitor)


if __name__ == "__main__":
    sys.exit(play(Tests, 1))
