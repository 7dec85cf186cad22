"""The program `rehearse`, which plays scripts on the engines of this repository, and what it prints."""

import os
import subprocess
import tempfile

from tests.support.harness import Shimmed, counted, ensure, expect, patience, refusals, refusing
from tests.support.player import line_of

# how a run ends in which memory was refused while no engine reports it
OUT_OF_MEMORY = b"rehearse: out of memory\n"
# a number of calls that no run makes
NEVER = 1 << 30


class Stage(Shimmed):
    """The program, and the library that makes its calls fail."""

    def __init__(self, program, folder):
        self.program, self.folder = program, folder

    def run(self, steps, env=None):
        """Plays steps, each a tuple of a verb and its words. Returns the status, the output, and what is written about a
        failure."""
        script = b"".join(map(line_of, steps))
        env = {**os.environ, **(env or {})}
        # from a file, so that it is read in the same parts each time, and takes as many allocations
        with tempfile.TemporaryFile(dir=self.folder) as file:
            file.write(script)
            file.seek(0)
            done = subprocess.run([self.program], stdin=file, env=env, capture_output=True, timeout=patience(60))
        return done.returncode, done.stdout, done.stderr

    def play(self, steps):
        """Plays steps with nothing refused. Returns the printed lines."""
        status, out, err = self.run(steps)
        expect((status, err), (0, b""), "a script's end")
        lines = out.splitlines()
        # each step prints a line or more; a comparison by zip would end with the shorter side
        ensure(len(lines) >= len(steps), f"{len(lines)} lines of {len(steps)} steps")
        return lines

    def refused_in_turn(self, steps):
        """Plays steps with the first allocation refused, then with the second, and so on, up to one that isn't reached.
        Yields the number of each with the lines of its run, and whether the run came to its end."""
        whole = self.run(steps)
        expect((whole[0], whole[2]), (0, b""), "a script's end")
        for at, env, is_reached in refusals(self.shim):
            status, out, err = self.run(steps, env)
            if not is_reached():
                expect((status, out, err), whole, "a run without a refusal")
                return
            expect((status, err) in ((0, b""), (1, OUT_OF_MEMORY)), True, f"allocation {at}: status {status}, {err!r}")
            yield at, out.splitlines(), status == 0

    def allocations(self, steps):
        """Returns how many allocations these steps make."""
        env, is_reached = refusing(self.shim, "allocation", NEVER)
        expect((self.run(steps, env)[0], is_reached()), (0, False), "a run without a refusal")
        # the file of the count takes one
        return counted(self.shim) - 1


class StageTests:
    """Tests with a stage of their own, made of the program and a folder."""

    def __init__(self, program, folder):
        self.stage = Stage(program, folder)
