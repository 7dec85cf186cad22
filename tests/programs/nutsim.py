"""Plays schedules of rooms with `nutsim`, and compares what their steps tell with the plain model in room_model.py.

    python3 -m tests.programs.nutsim NUTSIM

Schedules are made from fixed seeds, so that each run of this test plays the same."""

import concurrent.futures
import errno
import os
import re
import shutil
import subprocess
import sys
import time

from tests.support.harness import (
    ROOT, VERSION_SHOWN, Failed, Shimmed, cannot_read, ended, ensure, expect, fewer, has_read_all, needs_proved_build, patience, play,
    read, refusals, refusing, status_of, write,
)
from tests.support.model import Config, User, quoted
from tests.support.room_model import Room, Rules, Watched, line_of, shown
from tests.support.room_schedules import UPSES, RoomMaker
from tests.support.terminal import run_on_terminal

EXAMPLES = os.path.join(ROOT, "examples")
SCHEDULES = os.path.join(EXAMPLES, "schedules")

# how many random schedules are played, and how many of them use one room
RANDOM_SCHEDULES = fewer(10_000)
SCHEDULES_A_ROOM = 20
LONG_STEPS = 300_000
# the largest configuration file, in bytes (docs/programs.md)
FILE_MAX = 1_048_576

ALONE = Config(UPSES[:1], {b"mon": User(b"m1", (), (), "primary")})
PRIMARY = Rules([Watched(b"su700", "primary")])
SECONDARY = Rules([Watched(b"su700", "secondary")])


def rounds(monitor, count):
    """Returns the steps that move this many queries of a monitor to the server, and their answers back."""
    return [(word, monitor, 0, 512) for _ in range(count) for word in ("out", "reach", "back", "land")]


def live(status):
    return [("up", 0), says(status), ("driver", 0, b"DATAOK"), ("driver", 0, b"DUMPDONE")]


def says(status):
    return ("driver", 0, b'SETINFO ups.status "%s"' % status)


ALONE_ROW = [*live(b"OB LB"), ("link", 0, 0), *rounds(0, 7), ("monitor", 0, 5), ("link", 0, 0)]
ALONE_DUE = b"""25: monitor 0 notice ONBATT su700@localhost
25: monitor 0 notice LOWBATT su700@localhost
25: monitor 0 phase Forcing
33: monitor 0 notice SHUTDOWN
33: monitor 0 phase Final
34: monitor 0 phase Halted
35: skipped
"""

# Monitor 1 hears nothing after the low battery, and monitor 0 waits for it.
PAIR_ROW = [
    *live(b"OL"), ("link", 0, 0), *rounds(0, 5), ("link", 1, 0), *rounds(1, 4),
    says(b"OB LB"), ("monitor", 0, 10), *rounds(0, 3), ("monitor", 0, 25), ("monitor", 0, 26), ("monitor", 0, 31),
]
PAIR_DUE = b"""48: monitor 0 notice ONBATT su700@localhost
48: monitor 0 notice LOWBATT su700@localhost
48: monitor 0 phase Forcing
58: monitor 0 notice SHUTDOWN
58: monitor 0 phase Final
59: monitor 0 phase Halted
"""


def server_files(config):
    """Returns the configuration files of a server, by name. No user has an action or a command: nothing in a room asks for
    one."""
    users = []
    for name, user in config.users.items():
        users.append(b"[%s]\npassword = %s\n" % (name, quoted(user.password)))
        if user.upsmon is not None:
            users.append(b"upsmon %s\n" % user.upsmon.encode())
    return {
        "ups.conf": b"".join(b"[%s]\ndesc = %s\n" % (name, quoted(description)) for name, description in config.upses),
        "upsd.users": b"".join(users),
        "upsd.conf": b"MAXAGE %d\nMAXCONN %d\n" % (config.max_age, config.max_conn),
    }


class RoomFiles:
    """A room's configuration files in a folder."""

    def __init__(self, folder, config, rules):
        self.folder = folder
        for name, text in server_files(config).items():
            write(os.path.join(folder, name), text)
        self.monitors = [write(os.path.join(folder, f"upsmon-{number}.conf"), it.text()) for number, it in enumerate(rules)]


def played(config, rules, steps):
    """Returns what each step tells, by the model."""
    room = Room(config, rules)
    return [room.play(it) for it in steps]


def unreadable(file, path, why):
    """The result of a run that can't read this file."""
    return 1, b"", cannot_read("nutsim", file, path, why).encode()


def greatest_memory(process):
    """Returns the greatest memory, in KiB, of a process that has read all of its input, which is still open. It is the memory
    that the process was given (VmPeak), which the system counts exactly; of the memory in use (VmHWM) each processor keeps
    a count of its own, and together they may be wrong by hundreds of KiB."""
    return int(status_of(process.pid)["VmPeak"].split()[0]) if has_read_all(process) else 0


class Tests(Shimmed):
    def __init__(self, program, folder):
        self.program = program
        self.folder = folder

    def room(self, name, config, rules):
        return RoomFiles(os.path.join(self.folder, name), config, rules)

    def write(self, name, data):
        return write(os.path.join(self.folder, name), data)

    def run(self, room, path, data=b"", env=None, **options):
        """Returns the status, what is printed, and what is written about a failure. The schedule may be `/dev/stdin`, which
        has `data`."""
        words = [self.program, room.folder, path, *room.monitors]
        status, *streams = ended(words, input=data, env={**os.environ, **(env or {})}, timeout=patience(60), **options)
        return status, *(it.encode() for it in streams)

    def plays(self, room, steps, due, what):
        data = b"".join(map(line_of, steps))
        expect(self.run(room, "/dev/stdin", data), (0, due, b""), what)

    def compare(self, seed):
        """Plays random schedules of a random room with nutsim."""
        maker = RoomMaker(seed)
        room = self.room(f"room-{seed}", maker.config, maker.rules)
        for number in range(SCHEDULES_A_ROOM):
            steps, told = maker.schedule(60)
            status, out, err = self.run(room, "/dev/stdin", b"".join(map(line_of, steps)))
            due = [shown(at, it) for at, news in enumerate(told, 1) for it in news]
            if (status, out, err) == (0, b"".join(due), b""):
                continue
            first = next((pair for pair in zip(out.splitlines(True), due) if pair[0] != pair[1]), (out[-200:], b"its end"))
            raise Failed(f"room {seed}, schedule {number}: status {status}, {err!r}; found {first[0]!r}, wanted {first[1]!r}")
        return SCHEDULES_A_ROOM

    def test_worked_rows(self):
        self.plays(self.room("alone", ALONE, [PRIMARY]), ALONE_ROW, ALONE_DUE, "a primary alone")
        self.plays(self.room("pair", ALONE, [PRIMARY, SECONDARY]), PAIR_ROW, PAIR_DUE, "a primary that waits")

    def test_examples_print_what_their_page_says(self):
        shown = re.findall(r"```console\n\$ nutsim (.*)\n((?:.*\n)*?)```", read(os.path.join(SCHEDULES, "README.md")))
        there = [f"examples/schedules/{it}" for it in os.listdir(SCHEDULES) if it.endswith(".sched")]
        expect(sorted(words.split()[1] for words, _ in shown), sorted(there), "the schedules")
        for words, due in shown:
            expect(ended([self.program, *words.split()], cwd=os.path.dirname(EXAMPLES)), (0, due, ""), words)

    def test_the_model_plays_the_rows(self):
        for rules, row, due in (([PRIMARY], ALONE_ROW, ALONE_DUE), ([PRIMARY, SECONDARY], PAIR_ROW, PAIR_DUE)):
            told = played(ALONE, rules, row)
            expect(b"".join(shown(at, it) for at, news in enumerate(told, 1) for it in news), due, "the model")

    def test_random_schedules(self):
        begun = time.monotonic()
        rooms = range(RANDOM_SCHEDULES // SCHEDULES_A_ROOM)
        with concurrent.futures.ProcessPoolExecutor() as pool:
            count = sum(pool.map(self.compare, rooms))
        print(f"   {count} schedules of {len(rooms)} rooms; {time.monotonic() - begun:.1f} s")

    def test_lines_that_are_no_steps(self):
        room = self.room("lines", ALONE, [PRIMARY])
        lines = [
            b"", b"#", b"# a comment", b" \t", b"wait 5", b"server", b"server -1", b"server 1234567890", b"server x", b"server 5 5",
            b"up 1", b"up", b"down 1", b"driver 1 x", b"driver 0", b"driver 0 a b", b"monitor 1 5", b"monitor 0", b"link 1 0", b"link 0 1",
            b"out 0 0", b"out 0 1 5", b"reach 1 0 5", b"back 0 0 x", b"land 0 1 1", b"cut-server 0 1", b"cut-monitor 1 0", b"CUT-server 0 0",
            b'server "5', b'server "5"x', b"server 5\\", b"server \xff", b"server = 5", b"server 0 #" + b"x" * 510,
        ]
        for line in lines:
            found = self.run(room, "/dev/stdin", b"cut-server 0 0\n" + line + b"\nserver 1\n")
            expect(found, (1, b"1: skipped\n", b"nutsim: /dev/stdin:2: BadStep\n"), line)

    def test_lines_that_are_steps(self):
        room = self.room("steps", ALONE, [PRIMARY])
        data = b'  server\t"5"  # a comment\r\nup 0#x\ndriver 0 ""\ndriver 0 "\\\\"\nserver 000000001\nlink 0 0\nout 0 0 999999999 ' + b" " * 480 + b"\nlink 0 0"
        expect(self.run(room, "/dev/stdin", data), (0, b"8: skipped\n", b""), "lines")
        path = self.write("a schedule", b"")
        expect(self.run(room, path), (0, b"", b""), "no step")

    def test_files_are_read_in_turn(self):
        room = self.room("turn", ALONE, [PRIMARY, SECONDARY])
        missing = os.path.join(room.folder, "none")
        room.monitors[1] = os.path.join(room.folder, "other.conf")
        self.write("turn/other.conf", b"MONITOR su700@localhost 1 mon m1 tertiary\n")
        expect(self.run(room, missing), unreadable(missing, missing, errno.ENOENT), "no schedule")
        expect(self.run(room, room.folder), unreadable(room.folder, room.folder, errno.EISDIR), "a folder")
        schedule = self.write("turn/schedule", b"nonsense\n")
        said = b"nutsim: other.conf:1: UnknownWord\nnutsim: ROLE: 'primary' or 'secondary' is meant\n"
        expect(self.run(room, schedule), (1, b"", said), "a monitor's file")
        self.write("turn/other.conf", b"\nPOLLFREQALERT 5\n")
        said = b"nutsim: other.conf:2: UnknownDirective\nnutsim: POLLFREQALERT isn't taken here: see from-nut(7)\n"
        expect(self.run(room, schedule), (1, b"", said), "a directive of NUT's in a monitor's file")
        room.monitors[0] = missing
        expect(self.run(room, schedule), unreadable("none", missing, errno.ENOENT), "no file of a monitor")
        self.write("turn/upsd.conf", b"NONSENSE 1\n")
        said = b"nutsim: upsd.conf:1: UnknownDirective\nnutsim: NONSENSE isn't taken here: see from-nut(7)\n"
        expect(self.run(room, missing), (1, b"", said), "the server's settings")
        self.write("turn/upsd.users", b"upsmon primary\n")
        said = b"nutsim: upsd.users:1: OutsideSection\nnutsim: upsmon: a line [NAME] has to come before it\n"
        expect(self.run(room, missing), (1, b"", said), "users")
        path = os.path.join(room.folder, "ups.conf")
        os.remove(path)
        expect(self.run(room, missing), unreadable("ups.conf", path, errno.ENOENT), "UPSes")

    def test_texts_of_a_server_are_not_read(self):
        """A cmdvartab with a fault, at which upsd ends, is no file of a room."""
        room = self.room("texts", ALONE, [PRIMARY])
        self.write("texts/cmdvartab", b"NONSENSE\n")
        self.plays(room, ALONE_ROW, ALONE_DUE, "a room beside a faulty cmdvartab")

    def test_streams_that_are_closed(self):
        room = self.room("closed", ALONE, [PRIMARY])
        path = self.write("closed.sched", b"".join(map(line_of, ALONE_ROW)))
        faulty = self.write("faulty.sched", b"NONSENSE\n")
        for closed, schedule, end in (
            ((0,), path, (0, ALONE_DUE, b"")),
            ((1,), path, (1, b"", b"nutsim: I/O failed\n")),
            ((2,), path, (0, ALONE_DUE, b"")),
            ((0, 1, 2), path, (1, b"", b"")),
            ((2,), faulty, (1, b"", b"")),
        ):
            found = self.run(room, schedule, preexec_fn=lambda closed=closed: [os.close(it) for it in closed])
            expect(found, end, f"{schedule} without the streams {closed}")

    def test_files_without_a_folder(self):
        room = self.room("bare", ALONE, [PRIMARY])
        room.monitors = ["upsmon-0.conf", "other.conf"]
        self.write("bare/other.conf", b"MONITOR su700@localhost 1 mon m1 tertiary\n")
        self.write("bare/empty.sched", b"")
        said = "nutsim: other.conf:1: UnknownWord\nnutsim: ROLE: 'primary' or 'secondary' is meant\n"
        expect(ended([self.program, ".", "empty.sched", *room.monitors], cwd=room.folder), (1, "", said), "a monitor's file")

    def test_the_longest_file_of_a_monitor(self):
        room = self.room("longest", ALONE, [PRIMARY])
        path = self.write("longest.sched", b"")
        said = f"nutsim: upsmon-0.conf:0: PastLimit\nnutsim: a file has at most {FILE_MAX} bytes\n".encode()
        for length, due in ((FILE_MAX, (0, b"", b"")), (FILE_MAX + 1, (1, b"", said))):
            self.write("longest/upsmon-0.conf", PRIMARY.text().ljust(length, b"\n"))
            expect(self.run(room, path), due, f"{length} bytes")

    def test_command_lines(self):
        for words, status in (([], 2), (["a"], 2), (["a", "b"], 2), (["a", "b", "c", "--none"], 2)):
            found, out, err = ended([self.program, *words])
            expect((found, out, "Usage: nutsim" in err), (status, "", True), f"{words}: {err!r}")
        for word, text in (("--help", "Usage: nutsim <DIR> <SCHEDULE> <MONCONF>..."), ("--version", f"nutsim {VERSION_SHOWN}\n")):
            status, out, err = ended([self.program, word])
            expect((status, err, text in out), (0, "", True), f"{word}: {out!r}")

    def test_nutsim_with_each_allocation_refused_in_turn(self):
        room = self.room("refused", ALONE, [PRIMARY, SECONDARY])
        path = self.write("refused.sched", b"".join(map(line_of, PAIR_ROW)))
        got_over = 0
        for at, env, is_reached in refusals(self.shim):
            status, out, err = self.run(room, path, env=env)
            if not is_reached():
                expect((status, out, err), (0, PAIR_DUE, b""), "without a refusal")
                print(f"   {at - 1} allocations, and all was played without {got_over} of them")
                break
            if status == 0:
                got_over += 1
                expect((out, err), (PAIR_DUE, b""), f"allocation {at}, without which all is played")
                continue
            expect((status, err), (1, b"nutsim: out of memory\n"), f"allocation {at}")
            ensure(PAIR_DUE.startswith(out), f"allocation {at}: {out!r}")
        ensure(got_over <= 1, f"all was played without {got_over} allocations")

    def test_each_read_and_write_refused_in_turn(self):
        """Also with a schedule that is read, and news that are written, in more than one piece."""
        room = self.room("streams", ALONE, [PRIMARY])
        many = [("cut-server", 0, 0)] * 2_000
        for steps, due in ((ALONE_ROW, ALONE_DUE), (many, b"".join(b"%d: skipped\n" % at for at in range(1, len(many) + 1)))):
            path = self.write("streams.sched", b"".join(map(line_of, steps)))
            told = {b"nutsim: %s: cannot read" % it for it in (b"ups.conf", b"upsd.users", b"upsd.conf", path.encode(), b"upsmon-0.conf")}
            for at, env, is_reached in refusals(self.shim, "file-read"):
                status, out, err = self.run(room, path, env=env)
                if not is_reached():
                    expect((status, out, err), (0, due, b""), "without a refusal")
                    break
                expect((status, err.splitlines()[0] in told, due.startswith(out)), (1, True, True), f"read {at}: {err!r}, {out!r}")
            ensure(at > len(told), f"{at - 1} reads were seen, of {len(told)} files")
            for at, env, is_reached in refusals(self.shim, "write"):
                status, out, err = self.run(room, path, env=env)
                if not is_reached():
                    expect((status, out, err), (0, due, b""), "without a refusal")
                    break
                # What a failed write left is written again at the end, so it may still appear: the status says that a write
                # failed.
                expect((status, err, due.startswith(out)), (1, b"nutsim: I/O failed\n", True), f"write {at}: {out!r}")
            ensure(at > 1, "no write was seen")

    def test_a_long_schedule_takes_no_more_memory(self):
        needs_proved_build("how much memory is taken")
        room = self.room("long", ALONE, [PRIMARY])
        turn = b"".join(map(line_of, [("link", 0, 0), *rounds(0, 5), says(b"OL"), ("cut-server", 0, 0), ("cut-monitor", 0, 0)]))
        turns = LONG_STEPS // turn.count(b"\n")
        peaks = []
        for count in (turns // 30, turns):
            path = self.write("long.sched", b"".join(map(line_of, live(b"OL"))) + turn * count)
            begun = time.monotonic()
            peaks.append(self.peak(room, path))
            seconds = time.monotonic() - begun
        steps = turns * turn.count(b"\n")
        print(f"   {steps} steps in {seconds:.1f} s, {steps / seconds:,.0f} a second; {peaks[0]} and {peaks[1]} KiB")
        ensure(peaks[1] <= peaks[0] + 256, f"{peaks[0]} KiB for a thirtieth of what takes {peaks[1]} KiB")

    def peak(self, room, path):
        """Returns the greatest memory of a run, in KiB, after it has read its schedule."""
        words = [self.program, room.folder, "/dev/stdin", *room.monitors]
        with open(path, "rb") as schedule:
            process = subprocess.Popen(words, stdin=subprocess.PIPE, stdout=subprocess.DEVNULL, stderr=subprocess.PIPE)
            shutil.copyfileobj(schedule, process.stdin)
            process.stdin.flush()
            peak = greatest_memory(process)
            _, err = process.communicate(timeout=60)
        expect((process.returncode, err), (0, b""), "a long schedule")
        return peak

    def test_progress_is_told_on_a_terminal(self):
        room = self.room("progress", ALONE, [PRIMARY])
        path = self.write("progress.sched", b"server 1\n" * 250_000)
        expect(self.run_on_terminal(room, path), (0, b"", b"\rnutsim: 100000 steps\rnutsim: 200000 steps\r\x1b[K"), "a long schedule")

    def test_news_stand_above_the_progress(self):
        """On one terminal, the news so far are above the line of the progress, and later news replace it."""
        room = self.room("above", ALONE, [PRIMARY])
        skipped = b"cut-server 0 0\n"
        path = self.write("above.sched", skipped + b"server 1\n" * 149_998 + skipped + b"server 1\n" * 50_000 + skipped)
        due = b"1: skipped\r\n\rnutsim: 100000 steps\r\x1b[K150000: skipped\r\n\rnutsim: 200000 steps\r\x1b[K200001: skipped\r\n"
        expect(self.run_on_terminal(room, path, is_for_both=True), (0, b"", due), "news and progress")
        env, is_reached = refusing(self.shim, "write", 1)
        found = self.run_on_terminal(room, path, env=env)
        expect((found, is_reached()), ((1, b"1: skipped\n", b"nutsim: I/O failed\r\n"), True), "news that can't be written above the progress")

    def run_on_terminal(self, room, path, **options):
        return run_on_terminal([self.program, room.folder, path, *room.monitors], **options)


if __name__ == "__main__":
    sys.exit(play(Tests, 1))
