"""Plays monitors on the program `rehearse`, alone and through the loop that watches, and compares them with worked runs.

    python3 -m tests.rehearsals.monitor REHEARSE

If memory is refused for a piece of bytes, its link has to be lost at that line, and all else has to continue as if that link
had been lost instead of the rest of the piece. That the loop does so in every world, also one that is slow, late or broken, is proved of
`watch`."""

import re
import sys

from tests.support.harness import ensure, expect, play, sections, table
from tests.support.monitor_rows import MEMORY_RUNS, PRIMARY, RUNS, Starved, check_run, steps_of
from tests.support.player import places
from tests.support.stage import StageTests

LACK = re.compile(rb"Memory \{ link: Some\(([0-9]+)\), lines: ([0-9]+) \} .*")
NO_FILE = b"1: Memory"
NO_MONITOR = b"Memory { link: None, lines: 0 }"
TAKES = re.compile("> bytes |link [0-9]+ takes ")


class Tests(StageTests):
    def test_runs(self):
        for run in RUNS:
            check_run(run, self.stage.play(steps_of(run)))

    def test_runs_cut_at_each_place(self):
        """A piece that comes in two parts is heard as in one."""
        cuts = 0
        for run in RUNS:
            steps, due = [], []
            for at, check in enumerate(run.checks):
                # each part of a piece that is refused would be refused
                if check.step[0] != "monitor bytes" or check.front != b"ok ":
                    continue
                verb, link, piece = check.step
                for place in places(piece):
                    if b"\n" in piece[:place]:
                        break
                    whole = steps_of(run)
                    steps += [*whole[:at], (verb, link, piece[:place]), (verb, link, piece[place:]), *whole[at + 1 :]]
                    due.append(at)
            lines = self.stage.play(steps)
            for at in due:
                expect(lines[at][:3], b"ok ", f"the first part of a piece of {run.name}")
                found = lines[:at] + lines[at + 1 : len(run.checks) + 1]
                check_run(run, found)
                lines = lines[len(run.checks) + 1 :]
            cuts += len(due)
        print(f"   {cuts} cuts")

    def test_runs_with_each_allocation_refused(self):
        refused = 0
        for run in RUNS:
            steps = steps_of(run)
            whole = self.stage.play(steps)
            for at, lines, is_whole in self.stage.refused_in_turn(steps):
                place = next((it for it, (one, other) in enumerate(zip(lines, whole)) if one != other), len(lines))
                lack = LACK.fullmatch(lines[place]) if place < len(lines) else None
                if place == 0 and lines:
                    ensure(lines[0] in (NO_FILE, NO_MONITOR) and lines[1:2] in ([], [b"ok"]), f"{run.name}: {lines[:2]}")
                    expect(lines[2:], whole[2 : len(lines)], f"{run.name}, allocation {at}")
                    continue
                if lack is None:
                    expect((lines, is_whole), (whole[: len(lines)], False), f"{run.name}, allocation {at}")
                    continue
                refused += 1
                verb, link, piece = steps[place]
                expect((verb, lack[1]), ("monitor bytes", b"%d" % link), f"{run.name}: what memory was refused for")
                done = b"".join(piece.splitlines(keepends=True)[: int(lack[2])])
                # what comes if the link is lost behind those lines
                loss = [*steps[:place], (verb, link, done), ("monitor lost", link), *steps[place + 1 :]]
                other = self.stage.play(loss)
                shown = lines[place].split(b"} ", 1)[1]
                expect(shown, other[place + 1].split(b" ", 1)[1], f"{run.name}: what stands after {steps[place]}")
                expect(lines[place + 1 :], other[place + 2 :][: len(lines) - place - 1], f"{run.name}: what comes later")
        ensure(refused > 50, f"only {refused} refusals were answered")
        print(f"   {refused} refusals were answered")

    def test_what_takes_no_memory(self):
        """The runs that say at which steps memory is refused, and at which it isn't asked for."""
        for run in MEMORY_RUNS:
            starved = {at: check.lines for at, check in enumerate(run.checks) if isinstance(check, Starved)}
            seen = set()
            for at, lines, is_whole in self.stage.refused_in_turn(steps_of(run)):
                place = next((it for it, line in enumerate(lines) if LACK.fullmatch(line)), None)
                if place not in starved or not is_whole:
                    continue
                lack = LACK.fullmatch(lines[place])
                expect(lack[2], b"%s" % str(starved[place]).encode(), f"{run.name}: lines before {run.checks[place].step}")
                check_run(run, lines, place + 1)
                seen.add(place)
            expect(seen, {at for at, lines in starved.items() if lines is not None}, f"{run.name}: what took memory")

    def test_a_monitor_for_which_there_is_no_memory(self):
        answers = {lines[0] for _, lines, _ in self.stage.refused_in_turn([("monitor new", PRIMARY)]) if lines}
        expect(answers, {NO_FILE, NO_MONITOR}, "what is said of a monitor that isn't made")

    def test_the_loop(self):
        # the bytes of a link and of its server end a line
        lines = [line + "%0A" if TAKES.match(line) else line for line in table("monitor_loop.txt")]
        steps = [*((f"watch {line[2:]}",) for line in lines if line[:2] in ("> ", "- ")), ("watch run", PRIMARY)]
        found = self.stage.play(steps)[len(steps) - 1 :]
        expect([line.decode() for line in found], [line for line in lines if line[:2] != "- "], "what happens")

    def test_machines_halt(self):
        """They halt or fail, and tell all that they did, or nothing if memory for an act was refused."""
        for name, lines in sections("machine_runs.txt"):
            steps = [(f"watch {it[2:]}",) for it in lines if it[0] == ">"]
            due = [it.encode() for it in lines if it[0] != ">"]
            expect(self.stage.play(steps)[len(steps) - 1 :], due, f"that {name}")
            for at, answers, _ in self.stage.refused_in_turn(steps):
                found = answers[len(steps) - 1 :]
                halts = found in (due, [b"untold", b"halted"])
                ensure(halts or not {b"set the flag", b"ran SHUTDOWNCMD", b"halted"} & {*found}, f"{name}, allocation {at}: {found}")


if __name__ == "__main__":
    sys.exit(play(Tests, 1))
