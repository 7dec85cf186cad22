"""Runs all tests: the layout of the crates' files, the toolchain's gate (every proof, an edit of some crates that must fail, the
tests and the stored runs), then all wrong bodies, and beside them the tests in Python, most of which run the programs that the
gate has built; some run a program that is built without proof, beside the proofs. It shows how much processor time each crate
took, beside the times that were kept, and at the end repeats the lines that reported a failure or a test that was skipped.

usage: python3 -m tests.check [--anew] | --tried FOLDER

The toolchain's gate takes what an earlier run on this machine has proved, if it does so at all and nothing that it rests on has
changed, and no wrong body that one refused is tried again; with --anew all is done. With --tried it runs the tests in Python
alone, several at a time, on the programs that tools/tried has built in a folder without proof."""

import os
import re
import subprocess
import sys
import tempfile
import time
from concurrent import futures

from tests.gate import times as gate_times
from tests.support.harness import ROOT, children_time

# The program of the tests that tests/rehearse/build.py builds, and where it does that for programs that the gate has built.
REHEARSE, TRIED = "rehearse", "bin/tried"

# The tests that run beside the rounds of wrong bodies, or on programs without proof, and the built programs that each is given.
TESTS = (
    ("gate.believe", ()),
    ("gate.front_pages", ()),
    ("gate.pages", ()),
    ("gate.manual_pages", ()),
    ("gate.surface", ()),
    ("gate.builders", ()),
    ("programs.upsd_stdio", ("upsd",)),
    ("programs.files", ("upsd", "upsmon")),
    ("rehearsals.server", (REHEARSE,)),
    ("rehearsals.dummy", (REHEARSE,)),
    ("rehearsals.monitor", (REHEARSE,)),
    ("rehearsals.parts", (REHEARSE,)),
    ("rehearsals.examples", (REHEARSE,)),
    ("gate.borrows", ()),
    ("programs.tools", ("upsc", "upsrw", "upscmd")),
    ("programs.upsd_sockets", ("upsd", "dummy_ups", "upsrw", "upscmd")),
    ("programs.upsd_reload", ("upsd", "dummy_ups")),
    ("programs.upsd_audit", ("upsd", "dummy_ups")),
    ("programs.hostile_clients", ("upsd", "dummy_ups")),
    ("programs.upsmon", ("upsd", "dummy_ups", "upsc", "upsmon")),
    ("programs.upsmon_fsd", ("upsd", "dummy_ups", "upsc", "upsmon")),
    ("programs.upsmon_links", ("upsd", "dummy_ups", "upsc", "upsmon")),
    ("programs.upsmon_halting", ("upsd", "dummy_ups", "upsc", "upsmon")),
    ("programs.upsmon_reload", ("upsd", "dummy_ups", "upsc", "upsmon")),
    ("programs.upsmon_apart", ("upsd", "dummy_ups", "upsc", "upsmon")),
    ("programs.journal", ("upsd", "dummy_ups", "upsc", "upsmon")),
    ("programs.nutsim", ("nutsim",)),
    ("programs.nutroom", ("nutsim",)),
    ("programs.recorded_room", ("upsd", "dummy_ups", "upsmon", "nutsim")),
    ("programs.install", ("upsd", "dummy_ups", "upsc", "upsrw", "upscmd", "upsmon", "nutsim")),
    ("programs.from_nut", ("upsd", "dummy_ups", "upsc", "upsrw", "upscmd", "upsmon")),
    ("programs.packages", ("upsd", "dummy_ups", "upsc", "upsrw", "upscmd", "upsmon", "nutsim")),
    ("peers.server", ("upsd", "dummy_ups")),
    ("peers.clients", ("upsd", "dummy_ups")),
    ("peers.tools", ("upsc", "upsrw", "upscmd")),
    ("peers.monitor", ("upsmon",)),
)

# The beginnings and the ends of lines by which the toolchain or a test reports a failure, and how many of these are repeated.
FAILURE = re.compile(
    r"FAILED|.*\b(NOT PROVED|NOT TRIED|NOT REFUSED|not refused|BAD EDIT|FAILED)\b|rt: .*: the program (ended|was stopped|had not)|rt: .*is not what its file|rt: .*was not run"
)
FAILURES_SHOWN = 60

# What the toolchain's gate says if it took nothing from an earlier run, and what is said where wrong bodies were known from one.
WHOLE = "every proof and must-fail edit was done in this run"
KNOWN = re.compile(r"\d+ edits tried, [1-9]\d* known")


class Count:
    """How many tests passed and failed, the lines that reported a failure or a skipped test, and whether nothing was taken from an
    earlier run."""

    def __init__(self):
        self.passed, self.failed, self.failures, self.skipped, self.is_whole = 0, 0, [], [], False

    def run(self, command):
        """Runs a command, shows what it prints, and adds the counts of its last line."""
        with begin(command, subprocess.PIPE) as run:
            self.add(command, run, run.stdout)

    def run_beside(self, others, command):
        """Runs a command at the lowest priority while the others run, then shows what it printed, and adds its counts."""
        with tempfile.TemporaryFile("w+", errors="replace") as said, begin(["nice", "-n", "19", *command], said) as run:
            others()
            run.wait()
            said.seek(0)
            self.add(command, run, said)

    def add(self, command, run, said):
        """Shows what a command says, and adds the counts of its last line."""
        last = ""
        for line in said:
            print(line, end="", flush=True)
            if FAILURE.match(line):
                self.failures.append(line.rstrip("\n"))
            if line.startswith("skipped "):
                self.skipped.append(f"{command[2]}: {line.rstrip()}")
            self.is_whole = (self.is_whole or WHOLE in line) and not KNOWN.match(line)
            last = line
        status = run.wait()
        counts = re.fullmatch(r"(\d+) passed, (\d+) failed\s*", last)
        passed, failed = map(int, counts.groups()) if counts else (0, 0)
        if not counts or status and not failed:
            self.failures.append(f"FAILED: {' '.join(command)} ended with status {status}, and its last line counts no failure")
            print(self.failures[-1])
            failed += 1
        self.passed += passed
        self.failed += failed

    def run_test(self, name, *words):
        self.run(test_command(name, *words))


def begin(command, output):
    # run as root, the toolchain runs tests as the user 'nobody', who needs access to the folders that it makes for them
    return subprocess.Popen(command, cwd=ROOT, stdout=output, stderr=subprocess.STDOUT, text=True, errors="replace", umask=0o022)


def test_command(name, *words):
    return [sys.executable, "-m", f"tests.{name}", *words]


def path_of(program, folder):
    """Returns the path of a program that is built in a folder, or in the repository if that is ''."""
    if program == REHEARSE:
        folder = folder or TRIED
    return os.path.join(folder, "crates", program, "out", program)


def commands_of_tests(folder=""):
    """Returns the command of each test in Python, with the programs that are built in the repository or in a folder."""
    return [test_command(test, *[path_of(program, folder) for program in programs]) for test, programs in TESTS]


def run_programs(count):
    for command in commands_of_tests():
        count.run(command)


def run_tried(count, folder):
    """Runs the tests on programs that were built without proof, one more at a time than there are processors, since most wait."""
    count.run_test("rehearse.build", folder)

    def run(command):
        began, said = time.monotonic(), tempfile.TemporaryFile("w+", errors="replace")
        with begin(command, said) as process:
            process.wait()
        said.seek(0)
        return command, process, said, time.monotonic() - began

    with futures.ThreadPoolExecutor(len(os.sched_getaffinity(0)) + 1) as pool:
        for done in futures.as_completed([pool.submit(run, command) for command in commands_of_tests(folder)]):
            command, process, said, seconds = done.result()
            print(f"== {command[2]}, {seconds:.0f} s")
            with said:
                count.add(command, process, said)


def takes_from_earlier_runs():
    """Whether the toolchain's gate takes what an earlier run has proved, unless it is told --anew. Some toolchains never do."""
    said = subprocess.run(["rt", "help"], stdout=subprocess.PIPE, stderr=subprocess.STDOUT, text=True, check=False)
    return "--anew" in said.stdout


def run_all(count, words):
    # an edit that cannot be applied, or a file that rt ci would refuse for its layout, is reported before an hour of proofs
    count.run_test("gate.wrong_bodies", "--look")
    count.run_test("gate.layout")
    if not takes_from_earlier_runs():
        words, count.is_whole = [], True
    if count.failed == 0:
        # these two need nothing that the toolchain's gate makes, which at first has work for one processor only
        with_build = lambda: count.run_beside(lambda: count.run(["rt", "ci", *words]), test_command("rehearse.build", TRIED))
        count.run_beside(with_build, test_command("gate.wrong_bodies_test"))
    if count.failed == 0:
        # these tests mostly wait, and the rounds use the processors meanwhile
        count.run_beside(lambda: run_programs(count), test_command("gate.wrong_bodies", "--after-gate", *words))


def run_gate(count, words):
    """Runs all tests, and shows the times of the crates if nothing failed or was taken from an earlier run."""
    with gate_times.Stopwatch() as stopwatch:
        run_all(count, words)
    if count.is_whole and not count.failed:
        gate_times.write(stopwatch.seconds(), gate_times.LAST)
        gate_times.main([])
    else:
        print("no times of crates, since something failed or was done by an earlier run")


def main(words):
    count, started = Count(), time.monotonic()
    if words[:1] == ["--tried"] and len(words) == 2:
        run_tried(count, os.path.abspath(words[1]))
        print("Nothing was proved: only 'make check' does that.")
    else:
        run_gate(count, words)
    clock, processor = (time.monotonic() - started) / 60, children_time() / 60
    print(f"{clock:.0f} minutes, {processor:.0f} of processor with the tests of programs")
    if count.failed:
        print("What failed:", *count.failures[-FAILURES_SHOWN:], sep="\n")
    if count.skipped:
        print(f"{len(count.skipped)} skipped:", *count.skipped, sep="\n")
    print(f"{count.passed} passed, {count.failed} failed")
    return 1 if count.failed else 0


if __name__ == "__main__":
    sys.exit(main(sys.argv[1:]))
