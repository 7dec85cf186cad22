"""Plays schedules of arrivals on the server, and compares each answer with that of the plain model in model.py.

    python3 -m tests.rehearsals.server REHEARSE

The schedules are made from fixed seeds, so that each run of this test plays the same."""

import contextlib
import itertools
import os
import re
import shutil
import subprocess
import sys
import time
import urllib.parse
from unittest import mock

from tests.support.harness import Failed, ensure, expect, has_read_all, patience, play, refusing
from tests.support.model import Config
from tests.support.player import Player, conf_steps, escaped, line_of, places, reload_steps
from tests.support.reload_rows import RELOADS
from tests.support.request_rows import FORMS, NO_FORMS, QUERIES
from tests.support.server_rows import ID, LOGIN, ONLINE, OPEN, PROBE, ROOM, ROWS, SENSITIVITY, STATUS, Row, ask, err, listed, live, told
from tests.support.schedules import UPSES, USERS, ScheduleMaker, shifted, variants
from tests.support.stage import NEVER, Stage
from tests.support.table_rows import NOTHING_NEW, TABLES

# how much more memory may be in use if a schedule is played twice as often: less than a record of it takes
GROWTH_MAX_KIB = 128
# how many steps make a server
HEAD = 4
# a row with more steps than this repeats a request until a queue is full
LONG_ROW = 200
ERRORS = """ACCESS-DENIED UNKNOWN-UPS VAR-NOT-SUPPORTED CMD-NOT-SUPPORTED INVALID-ARGUMENT INSTCMD-FAILED SET-FAILED READONLY
    TOO-LONG INVALID-VALUE FEATURE-NOT-CONFIGURED DRIVER-NOT-CONNECTED DATA-STALE ALREADY-LOGGED-IN ALREADY-SET-PASSWORD
    ALREADY-SET-USERNAME USERNAME-REQUIRED PASSWORD-REQUIRED UNKNOWN-COMMAND""".split()
REFUSALS = "NoSuchConnection NotConnected PieceTooLong Busy TooMuchTaken BadAddress Full".split()


def halves(step, place):
    """Returns a piece in two parts; the replies to the first part are taken before the second."""
    verb, peer, piece = step
    took = [("take", peer)] if verb == "bytes" else []
    return [(verb, peer, piece[:place]), *took, (verb, peer, piece[place:])]


class Schedule:
    """A schedule in its file, behind the steps that make the server, and what the program has to print for it."""

    def __init__(self, path, config, steps):
        self.path = path
        self.player = Player(config)
        self.due = []
        self.most_open = 0
        self.ends = [0]
        with open(path, "wb") as file:
            for step in itertools.chain(conf_steps(config), steps):
                file.write(line_of(step))
                self.ends.append(file.tell())
                self.due.append(self.player.play(step))
                self.most_open = max(self.most_open, len(self.player.model.connections))

    def line(self, number):
        with open(self.path, "rb") as file:
            file.seek(self.ends[number])
            return file.read(self.ends[number + 1] - self.ends[number])

    def compare(self, found):
        found = found.splitlines(keepends=True)
        for number, (it, due) in enumerate(zip(found, self.due)):
            if it != due:
                raise Failed(f"line {number + 1}: {self.line(number)!r} gives {it!r}, wanted {due!r}")
        expect(len(found), len(self.due), "lines")


def answered(name, config, steps, out):
    """Compares a run in which the server reported one refusal of memory with a model that is told of it: only what it says
    of one connection or driver may differ. Returns the answer that reported it, if there is one."""
    player = Player(config)
    told = None
    found = out.splitlines(keepends=True)
    expect(len(found), len(steps), f"{name}: lines")
    for step, line in zip(steps, found):
        refused = re.match(rb"Memory\((?:NewUpses|(?:Line|Report)\(\d+, (\d+)\))\)", line)
        lost = int(refused[1] or 0) if refused else None
        if refused:
            expect(told, None, f"{name}: a refusal before this one")
            told = refused[0]
            if lost not in player.may_lack(step):
                raise Failed(f"{name}: {line!r} of {step}, which takes no memory there")
        expect(line, player.play(step, lost), f"{name}: {step}")
    return told


def memory_in_use(process):
    """Returns the memory in use, in KiB, of a process that has read all of its input, which is still open."""
    if not has_read_all(process):
        return 0
    with open(f"/proc/{process.pid}/smaps_rollup") as file:
        return next(int(line.split()[1]) for line in file if line.startswith("Anonymous:"))


class Tests:
    def __init__(self, program, folder):
        self.program, self.folder, self.stage = program, folder, Stage(program, folder)
        # the steps that make a server of which each allocation was refused
        self.refused = set()

    def run(self, path, env=None):
        """Plays a schedule. Returns the status, what is printed, what is written about a failure, and the memory in use at its
        end, in KiB."""
        out_path, err_path = (os.path.join(self.folder, it) for it in ("out", "err"))
        with open(path, "rb") as schedule, open(out_path, "wb") as out, open(err_path, "wb") as err:
            streams = {"stdin": subprocess.PIPE, "stdout": out, "stderr": err}
            process = subprocess.Popen([self.program], env={**os.environ, **(env or {})}, **streams)
            memory = 0
            # it may end before its schedule does
            with contextlib.suppress(BrokenPipeError):
                shutil.copyfileobj(schedule, process.stdin)
                process.stdin.flush()
                memory = memory_in_use(process)
            with contextlib.suppress(BrokenPipeError):
                process.stdin.close()
            status = process.wait(timeout=patience(60))
        with open(out_path, "rb") as out, open(err_path, "rb") as err:
            return status, out.read(), err.read(), memory

    def refuse_in_turn(self, name, config, steps, probe=()):
        """Plays a schedule, and a probe behind it, with the first allocation refused, then with the second, and so on. Those that
        make the server, and those of the probe, are refused in the first schedule of a configuration alone. Returns the
        refusals that were reported, and counts the runs that ended before their schedule."""
        path = os.path.join(self.folder, "schedule")
        head = conf_steps(config)
        before_probe = [*head, *steps]
        steps = [*before_probe, *probe]
        made = b"".join(map(line_of, head))
        is_known = made in self.refused
        self.refused.add(made)
        first = self.stage.allocations(head) + 1 if is_known else 1
        last = self.stage.allocations(before_probe if is_known else steps)
        with open(path, "wb") as file:
            file.writelines(map(line_of, steps))
        player = Player(config)
        due = b"".join(player.play(step) for step in steps)
        told, ended = [], 0
        for at in [*range(first, last + 1), NEVER]:
            env, is_reached = refusing(self.stage.shim, "allocation", at)
            status, out, err, _ = self.run(path, env)
            if not is_reached():
                expect((status, out, err), (0, due, b""), f"{name}, without a refusal")
                return told, ended
            if status == 0:
                told += filter(None, [answered(f"{name}, allocation {at}", config, steps, out)])
                continue
            ended += 1
            expect((status, err), (1, b"rehearse: out of memory\n"), f"{name}, allocation {at}")
            expect(out, due[: len(out)], f"{name}, allocation {at}, up to the refusal")

    def rehearse(self, config, steps):
        """Plays a schedule, and compares it with the model. Returns the schedule and the memory in use at its end."""
        schedule = Schedule(os.path.join(self.folder, "schedule"), config, steps)
        status, out, err, memory = self.run(schedule.path)
        if (status, err) != (0, b""):
            raise Failed(f"status {status}: {err!r}, after {out.count(10)} lines")
        schedule.compare(out)
        return schedule, memory

    def play_row(self, row):
        """Plays a worked row. Compares what is printed with the model, and both with the row's answers."""
        schedule, _ = self.rehearse(row.config, row.steps)
        for step, printed, due in zip(row.steps, schedule.due[HEAD:], row.due):
            if due is not None:
                expect(printed, escaped(due) + b"\n", f"{row.name}: {step}")

    def test_256_connections_and_100000_arrivals(self):
        begun = time.monotonic()
        config = Config(UPSES, USERS)
        maker = ScheduleMaker(1, config, others=variants(1, config))
        schedule, memory = self.rehearse(config, maker.steps(100_000))
        expect(schedule.most_open, 256, "connections that were open at once")
        due = b"".join(schedule.due)
        for it in [f"ERR {it}%0A" for it in ERRORS] + [f"\n{it} " for it in REFUSALS]:
            if it.encode() not in due:
                raise Failed(f"{it!r} isn't in the schedule")
        opened, reloads = schedule.player.model.opened, due.count(b"; drivers [")
        ensure(reloads > 400, f"{reloads} reloads")
        tracked, told = (due.count(it) for it in (b"OK TRACKING ", b" SUCCESS"))
        ensure(told > 200, f"SUCCESS is told {told} times, and {tracked} requests are tracked")
        took = time.monotonic() - begun
        print(f"   {opened} connections, 256 at once, {reloads} reloads, {tracked} tracked requests, SUCCESS {told} times, in {memory} KiB; {took:.1f} s")

    def test_memory_does_not_grow(self):
        config = Config(UPSES, USERS)
        maker = ScheduleMaker(9, config, others=variants(9, config))
        steps = [*maker.steps(500), *(("close", c) for c in maker.server.connections)]
        # behind a configuration without UPSes, each turn begins alike
        steps += [*reload_steps(Config([], {})), *reload_steps(config)]
        opened, now = maker.server.opened, maker.server.now
        memory = []
        for count in (10, 20):
            again = (shifted(step, turn * opened, turn * now) for turn in range(count) for step in steps)
            # freed memory is used again at once
            with mock.patch.dict(os.environ, ASAN_OPTIONS="quarantine_size_mb=0:thread_local_quarantine_size_kb=0"):
                memory.append(self.rehearse(config, again)[1])
        print(f"   {memory[0]} KiB for {10 * len(steps)} arrivals, {memory[1]} KiB for twice as many")
        ensure(0 < memory[1] <= memory[0] + GROWTH_MAX_KIB, f"{memory} KiB")

    def test_other_configurations(self):
        for seed, upses, max_age, max_conn in (
            (2, UPSES[:1], 15, 2),
            (3, UPSES, 1, 5),
            (4, [], 15, 3),
            (5, UPSES[:2], 86_400, 40),
            (6, [(b"u%d" % it, b"") for it in range(32)], 2, 8),
        ):
            config = Config(upses, USERS, max_age, max_conn)
            for others in ((), variants(seed, config)):
                self.rehearse(config, ScheduleMaker(seed, config, forced=0.02, others=others).steps(3_000))

    def test_lines_that_are_no_steps(self):
        path = os.path.join(self.folder, "schedule")
        head = b"".join(map(line_of, conf_steps(Config(UPSES, USERS))))
        for line in ("wait 5", "moment", "moment -1", "bytes x VER", "dummy link", "monitor moment 0", "link took", "watch", "carry 1", "took 1", "took 1 x", "up 18446744073709551616"):
            with open(path, "wb") as file:
                file.write(head + f"# a comment\n\nopen a\n{line}\nopen b\n".encode())
            status, out, err, _ = self.run(path)
            wanted = (1, b"ok\n" * HEAD + b"# a comment\n\nok opened=1\n", b"rehearse: line 8 isn't a step\n")
            expect((status, out, err), wanted, line)

    def test_texts_with_faults(self):
        """A new server and a reload report a fault of the texts that were given last, and the server that is there stays."""
        head = [*conf_steps(ROOM), ("open", b"a")]
        for text, fault in (
            (("ups", b"[su700]\n[su700]\n"), b"2: Repeated"),
            (("users", b"[admin]\nactions = DANCE\n"), b"2: UnknownWord"),
            (("upsd", b"\nMAXAGE 0\n"), b"2: BadNumber"),
        ):
            for verb in ("server", "reload"):
                lines = self.stage.play([*head, text, (verb,), ("open", b"b")])
                expect(lines[len(head) :], [b"ok", fault, b"ok opened=2"], f"a {verb} with {text}")
        expect(self.stage.run([("reload",)]), (1, b"", b"rehearse: line 1 isn't a step\n"), "a reload of no server")

    def test_tables(self):
        """What a driver told is listed: each answer is the model's, and together they are what the table's row says."""
        for table in TABLES:
            names = [row.split()[1] for row in table.listed if row.startswith("VAR ")]
            asked = ["LIST VAR", "LIST RW", "LIST CMD"]
            asked += [f"{what} {name}" for name in names for what in ("GET TYPE", "LIST ENUM", "LIST RANGE")]
            steps = [("up", 0), *told(*(line.encode() for line in table.told), b"DATAOK", b"DUMPDONE"), ("open", b"client")]
            for line in asked:
                what, subject, *name = line.split()
                steps += [("bytes", 1, " ".join([what, subject, "su700", *name, "\n"]).encode()), ("take", 1)]
            schedule, _ = self.rehearse(ROOM, steps)
            taken = b"".join(schedule.due[-2 * len(asked) :][1::2])
            rows = [row.replace(" su700", "", 1) for row in urllib.parse.unquote(taken.decode()).splitlines()]
            found = sorted(row for row in rows if row and not row.startswith(("BEGIN ", "END ")))
            expect(found, table.listed, table.title)

    def test_examples_of_the_page(self):
        """docs/protocol.md shows what this room answers: each GET, and of each LIST a row."""
        low = [b"SETINFO battery.charge.low 20", b"ADDRANGE battery.charge.low 0 100"]
        driver = live(*ID[:2], b"SETAUX ups.id 16", *SENSITIVITY, *low, b"ADDCMD load.off")
        steps = [*driver, ("open", b"192.0.2.7"), *Row("a login", LOGIN).steps]
        asked = [step for it in QUERIES for step in (("bytes", 1, it.line + b"\n"), ("take", 1))]
        schedule, _ = self.rehearse(ROOM, steps + asked)
        for query, taken in zip(QUERIES, schedule.due[-len(asked) :][1::2]):
            rows = urllib.parse.unquote_to_bytes(taken.strip()).splitlines()
            if query.is_list:
                ensure(query.example in rows[1:-1], f"{query.line}: {rows}")
            else:
                expect(rows, [query.example], query.line)

    def test_lines_that_change_nothing(self):
        """A line of a driver shows that it is alive if its data isn't stale 16 seconds after the word before it."""
        for line, is_heard in NOTHING_NEW:
            lists = ask(1, b"LIST VAR su700", listed(b"VAR su700", ONLINE), b"LIST CMD su700", listed(b"CMD su700"))
            later = ask(1, STATUS, ONLINE if is_heard else err("DATA-STALE"))
            self.play_row(Row(line, live() + [("moment", 10), *told(line.encode())] + OPEN + lists + [("moment", 16)] + later))

    def test_lines_of_no_form(self):
        """A form with a word less or more is none."""
        refused = [(line, "INVALID-ARGUMENT") for _, whole, short in FORMS for line in (short, whole + b" x") if line]
        steps = [step for line, name in refused + NO_FORMS for step in ask(1, line, err(name))]
        self.play_row(Row("lines of no form", OPEN + steps))

    def test_worked_rows(self):
        for row in ROWS + RELOADS:
            self.play_row(row)

    def test_worked_rows_cut_at_each_place(self):
        """Wherever a line is cut, the answers to it and to all that follows are the same. The answers to the first part are
        taken before the second comes. Rows that fill a queue have no lines of their own."""
        cuts = 0
        for row in ROWS + RELOADS:
            if len(row.steps) > LONG_ROW:
                continue
            schedule, _ = self.rehearse(row.config, row.steps)
            head, due = conf_steps(row.config), schedule.due[HEAD:]
            script, wanted, seen = [], [], set()
            for at, step in enumerate(row.steps):
                if step in seen or step[0] not in ("bytes", "driver") or not due[at].startswith(b"ok"):
                    continue
                seen.add(step)
                for place in places(step[2]):
                    script += [*head, *row.steps[:at], *halves(step, place), *row.steps[at + 1 :]]
                    wanted.append((at, step[0] == "bytes"))
            lines = iter(self.stage.play(script))
            for at, is_client in wanted:
                self.compare_cut(row, due, at, [next(lines) for _ in range(HEAD + len(due) + 1 + is_client)][HEAD:], is_client)
            cuts += len(wanted)
        print(f"   {cuts} cuts")

    def compare_cut(self, row, due, at, found, is_client):
        """Compares a row whose step at this place came in two parts with the whole row."""
        what = f"{row.name}: {row.steps[at]}, cut"
        expect(found[0 : at], [line.rstrip(b"\n") for line in due[:at]], what)
        ensure(found[at].startswith(b"ok "), f"{what}: {found[at]!r}")
        taken, behind = (found[at + 1], found[at + 2 :]) if is_client else (b"", found[at + 1 :])
        later = [line.rstrip(b"\n") for line in due[at + 1 :]]
        if taken and later and row.steps[at + 1][0] == "take":
            expect(taken + behind[1], later[0], what)
            behind[1], taken = later[0], b""
        expect((taken, behind[1:]), (b"", later), what)

    def test_worked_rows_with_each_allocation_refused(self):
        answers = ends = 0
        for row in ROWS + RELOADS:
            told, ended = self.refuse_in_turn(row.name, row.config, row.steps, PROBE)
            for it in row.wanted:
                if it not in told:
                    raise Failed(f"{row.name}: {it!r} isn't among {sorted(set(told))}")
            answers, ends = answers + len(told), ends + ended
        print(f"   {answers} refusals were answered, {ends} ended the program")

    def test_random_schedules_with_each_allocation_refused(self):
        for seed in (7, 8):
            config = Config(UPSES[:2], USERS, 15, 4)
            steps = list(ScheduleMaker(seed, config, forced=0.02, others=variants(seed, config)).steps(400))
            told, ended = self.refuse_in_turn(f"seed {seed}", config, steps)
            print(f"   {len(told)} refusals were answered, {ended} ended the program")


if __name__ == "__main__":
    sys.exit(play(Tests, 1))
