"""Plays dummy drivers on the program `rehearse`, alone and beside a server, and compares them with worked scenes.

    python3 -m tests.rehearsals.dummy REHEARSE

If an allocation is refused, the script prints the driver's state and repeats the refused call, and all other lines have to
be those of a run in which nothing is refused."""

import re
import sys

from tests.support.dummy_rows import ROOM, ROOM_SCRIPT, ROOM_UPS, ROOM_USERS, SCENES, SCRIPTS
from tests.support.harness import ensure, expect, play
from tests.support.player import escaped
from tests.support.stage import StageTests

DUMP_ALL = b"DUMPALL\n"
LACK = re.compile(rb"Memory\(([0-9]+)\) waits=0")
NO_SCRIPT = re.compile(rb"[1-9][0-9]*: Memory")
NO_DRIVER = b"Memory(0)"

# what the first line changes, of the one piece that has two
FIRST_OF_TWO = ("ups.delay.shutdown", "5")


def shown(table):
    """Returns a table as it is printed."""
    return b"=" + b"".join(b' %b "%b"' % (name.encode(), value.encode()) for name, value in sorted(table.items()))


class Line:
    """A step of a script and what it has to print; and, if it is played only after a refusal, what it has to print then,
    unless that is None."""

    def __init__(self, step, wanted, after=None):
        self.step = step
        self.wanted = wanted
        self.after = after


class Play:
    """A scene as a script."""

    def __init__(self, scene):
        self.scene = scene
        self.lines = []
        self.again((f"dummy {scene.kind}", scene.script), b"ok")
        table, asked = dict(scene.table), False
        self.look(table)
        for step in scene.steps:
            call = (f"dummy {step.verb}",) + (() if step.word is None else (step.word,))
            self.call(step, call, asked)
            table.update(step.changes)
            self.lines.append(Line(("dummy take",), escaped(step.tells.encode())))
            self.look(table)
            asked = step.verb != "link" and (asked or step.word == DUMP_ALL)

    def again(self, call, wanted):
        """Plays a call, and repeats it if memory was refused."""
        self.lines += [Line(call, wanted), Line(("? " + call[0], *call[1:]), b"", wanted)]

    def call(self, step, call, asked):
        """Plays a call; if it was refused, prints the state, makes a new link after a piece, and repeats the call."""
        wanted = b"ok waits=%d" % len(step.tells)
        self.lines += [Line(call, wanted), Line(("? dummy table",), b"")]
        if step.verb == "bytes":
            self.lines.append(Line(("? dummy link",), b"", b"ok waits=0"))
            if asked:
                self.lines += [Line(("? dummy bytes", DUMP_ALL), b""), Line(("? dummy take",), b"")]
        self.lines.append(Line(("? " + call[0], *call[1:]), b"", wanted))

    def look(self, table):
        self.lines.append(Line(("dummy table",), shown(table)))

    def steps(self):
        return [line.step for line in self.lines]

    def compare(self, found, at):
        """Compares the lines of a run in which a call was refused at most once. Returns a word for what was refused."""
        kind = "nothing"
        for place, (line, it) in enumerate(zip(self.lines, found)):
            if it == line.wanted or (kind != "nothing" and it == line.after):
                continue
            if line.step[0].startswith("? ") and kind != "nothing" and line.after is None:
                continue
            ensure(kind == "nothing", f"allocation {at} was refused twice: {it!r}")
            kind = self.refused(place, line, it, found)
        expect(len(found), len(self.lines), f"the lines of {self.scene.title}")
        return kind

    def refused(self, place, line, it, found):
        """Whether the state after a refused call is right: a moment changes nothing, and a piece leaves the lines done and
        cuts the link."""
        if line.step[0] in ("dummy dev", "dummy seq"):
            ensure(NO_SCRIPT.fullmatch(it) or it == NO_DRIVER, f"what is {it!r}?")
            return "driver" if it == NO_DRIVER else "script"
        lack = LACK.fullmatch(it)
        ensure(lack is not None, f"{line.step} gives {it!r}, wanted {line.wanted!r}")
        before = next(line.wanted for line in reversed(self.lines[:place]) if line.step == ("dummy table",))
        stands = found[place + 1]
        if line.step[0] == "dummy moment":
            expect((lack[1], stands), (b"0", before), f"after {line.step}")
            return "moment"
        wanted = before
        if lack[1] != b"0":
            name, value = FIRST_OF_TWO
            wanted = re.sub(rb'(%b) "[^"]*"' % name.encode(), rb'\1 "%b"' % value.encode(), before)
            ensure(lack[1] == b"1" and wanted != before, f"so many lines weren't in {line.step}: {it!r}")
        expect(stands, wanted, f"after {line.step}")
        return f"piece behind {lack[1].decode()}"


def room(size):
    """Returns a driver beside a server and a client, and what has to be printed if pieces of this size move between them."""
    carry = (("carry", size), b"ok")
    due = [(("ups", ROOM_UPS), b"ok"), (("users", ROOM_USERS), b"ok"), (("server",), b"ok"), (("dummy seq", ROOM_SCRIPT), b"ok")]
    due += [(("? dummy seq", ROOM_SCRIPT), None)]
    due += [(("dummy link",), b"ok waits=0"), (("up", 0), b"ok waits=8 connected=true"), (("open", b"client"), b"ok opened=1"), carry]
    for asked, answer in ROOM:
        if asked == "moment":
            due += [(("moment", answer), None), (("dummy moment", answer), None), carry]
            continue
        due += [(("bytes", 1, asked + b"\n"), b"ok waits=%d kept=0 reads=false leaves=false" % len(answer))]
        due += [(("take", 1), escaped(answer)), carry]
    return due


class Tests(StageTests):
    def test_scenes(self):
        for scene in SCENES:
            play = Play(scene)
            expect(play.compare(self.stage.play(play.steps()), 0), "nothing", scene.title)

    def test_scenes_with_each_allocation_refused(self):
        seen = set()
        for scene in (scene for scene in SCENES if scene.has_whole_lines):
            play = Play(scene)
            wanted = [line.wanted for line in play.lines]
            for at, lines, is_whole in self.stage.refused_in_turn(play.steps()):
                if is_whole:
                    seen.add(play.compare(lines, at))
                else:
                    expect(lines, wanted[: len(lines)], f"allocation {at} of {scene.title}")
        missing = {"script", "driver", "moment", "piece behind 0", "piece behind 1"} - seen
        ensure(not missing, f"never refused: {', '.join(sorted(missing))}")

    def test_scripts(self):
        for kind, script, answer in SCRIPTS:
            expect(self.stage.play([(f"dummy {kind}", script)]), [answer.encode()], f"a .{kind} {script!r}")

    def test_refusals(self):
        long = b"\0" * 513
        lines = self.stage.play(
            [
                *(("dummy dev", b"a: 1\n"), ("dummy bytes", long), ("dummy link",), ("dummy bytes", long)),
                *(("dummy bytes", b"PING\n"), ("dummy bytes", long), ("dummy moment", 1), ("dummy took", 6)),
                *(("dummy took", 5), ("dummy moment", 1)),
            ]
        )
        wanted = b"ok|NotLinked waits=0|ok waits=0|PieceTooLong waits=0|ok waits=5|Busy waits=5|Busy waits=5"
        expect(b"|".join(lines), wanted + b"|TooMuchTaken waits=5|ok waits=0|ok waits=0", "refusals")

    def test_scenes_cut_at_each_place(self):
        """A driver tells the same wherever a piece of the server's is cut, if what it tells is taken."""
        for scene in SCENES:
            steps, wanted = [], []
            pieces = [it for it in scene.steps if it.verb == "bytes"]
            for step in pieces:
                for place in range(len(step.word) + 1):
                    steps += self.cut(scene, step, place)
                    wanted.append(step)
            lines = self.stage.play(steps)
            cuts = [at for at, line in enumerate(lines) if line == b"# cut"]
            expect(len(cuts), len(wanted), "cuts")
            for at, step in zip(cuts, wanted):
                expect(lines[at + 2] + lines[at + 4], escaped(step.tells.encode()), f"{scene.title}, {step.word!r}")

    def cut(self, scene, cut, place):
        """Returns the steps of a scene up to one piece, which is cut at this place."""
        steps = [(f"dummy {scene.kind}", scene.script)]
        for step in scene.steps:
            if step is cut:
                break
            steps += [(f"dummy {step.verb}",) + (() if step.word is None else (step.word,)), ("dummy take",)]
        halves = [("dummy bytes", cut.word[:place]), ("dummy take",), ("dummy bytes", cut.word[place:]), ("dummy take",)]
        return steps + [("# cut",), *halves]

    def test_beside_a_server_in_pieces_of_any_size(self):
        for size in (1, 2, 3, 4, 5, 7, 64, 512):
            due = room(size)
            for (step, wanted), line in zip(due, self.stage.play([step for step, _ in due])):
                if wanted is not None:
                    expect(line, wanted, f"{step}, in pieces of {size}")

    def test_beside_a_server_with_each_allocation_refused(self):
        due = room(512)
        whole = self.stage.play([step for step, _ in due])
        refused = 0
        for at, lines, is_whole in self.stage.refused_in_turn([step for step, _ in due]):
            same = next((place for place, (one, other) in enumerate(zip(lines, whole)) if one != other), len(lines))
            ensure(not is_whole or same == len(lines) or b"Memory" in lines[same], f"allocation {at}: {lines[same : same + 1]}")
            refused += same < len(lines)
        ensure(refused > 0, "no engine answered a refusal")


if __name__ == "__main__":
    sys.exit(play(Tests, 1))
