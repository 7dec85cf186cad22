"""The command line."""

import argparse
import collections
import concurrent.futures
import functools
import os
import random
import re
import signal
import sys

from nutroom_modules.drawing import Drawing
from nutroom_modules.faults import Fault
from nutroom_modules.nutsim import Nutsim, find_nutsim
from nutroom_modules.reading import read_room
from nutroom_modules.staging import stage
from nutroom_modules.stories import play_run
from nutroom_modules.summary import Summary


# The version is that of the programs (nut_program).
VERSION = "(Mulgefa) 1.0 profile 1.3"


class Progress:
    """A bar on a terminal that shows how many runs are done. If the stream isn't a terminal, nothing is written."""

    LENGTH = 30

    def __init__(self, stream, count):
        self.stream = stream
        self.count = count
        self.is_shown = stream.isatty()

    def show(self, done):
        if self.is_shown:
            full = self.LENGTH * done // self.count
            self.write(f"\rnutroom: [{'#' * full}{'.' * (self.LENGTH - full)}] {done} of {self.count} runs")

    def clear(self):
        if self.is_shown:
            self.write("\r\x1b[K")

    def write(self, text):
        try:
            self.stream.write(text)
            self.stream.flush()
        except OSError:
            # it is only there to be looked at
            self.is_shown = False


def play_all(room, nutsim, seed, count, progress):
    """Plays all runs, some at a time. Returns their summary."""
    summary, runs = Summary(room, seed, count), collections.deque()
    pool = concurrent.futures.ThreadPoolExecutor(os.cpu_count() or 1)
    try:
        for number in range(1, count + 1):
            runs.append(pool.submit(play_run, room, nutsim, seed, number))
        progress.show(0)
        for number in range(1, count + 1):
            try:
                # what a run left behind isn't kept
                summary.add(number, runs.popleft().result()[1])
            except Fault as fault:
                raise Fault(f"run {number}: {fault}") from None
            progress.show(number)
    finally:
        for run in runs:
            run.cancel()
        pool.shutdown()
        progress.clear()
    return summary


def write_text(path, text):
    try:
        with open(path, "w", encoding="utf-8") as file:
            file.write(text)
    except OSError as error:
        raise Fault(f"{path}: cannot write: {error.strerror}") from None


def count_of_runs(word):
    if not re.fullmatch("[0-9]{1,6}", word) or int(word) == 0:
        raise argparse.ArgumentTypeError(f"{word!r} is no number from 1 to 999999")
    return int(word)


def seed_of_runs(word):
    if not re.fullmatch("[0-9]{1,18}", word):
        raise argparse.ArgumentTypeError(f"{word!r} is no number of at most 18 digits")
    return int(word)


def arguments(words):
    parser = argparse.ArgumentParser(prog="nutroom", description="Simulates a power failure in a room many times, and shows when each machine halts.", add_help=False)
    parser.add_argument("room", metavar="ROOM", help="the file that describes the room")
    parser.add_argument("-n", dest="count", metavar="RUNS", type=count_of_runs, default=100, help="how many runs; 100")
    parser.add_argument("-s", dest="seed", metavar="SEED", type=seed_of_runs, help="the seed of all that is random; by default a new one, which is printed")
    parser.add_argument("--svg", metavar="FILE", help="draw a run as a time line")
    parser.add_argument("--steps", metavar="FILE", help="write the steps of that run for nutsim")
    parser.add_argument("--run", metavar="RUN", type=count_of_runs, help="which run these two show; by default the one that ends latest")
    parser.add_argument("--nutsim", metavar="PROGRAM", help="the program nutsim")
    parser.add_argument("-h", "--help", action="help", help="print this")
    parser.add_argument("-V", "--version", action="version", version=f"nutroom {VERSION}", help="print the version")
    found = parser.parse_args(words)
    if found.run is not None and found.run > found.count:
        parser.error(f"there is no run {found.run} of {found.count}")
    return found


def run(words, beside):
    found = arguments(words)
    nutsim = Nutsim(find_nutsim(found.nutsim, beside))
    room = read_room(found.room, nutsim)
    if room.files is not None and signal.getsignal(signal.SIGINT) is signal.SIG_DFL:
        signal.signal(signal.SIGINT, functools.partial(end_without, room.files))
    seed = random.SystemRandom().randrange(1_000_000) if found.seed is None else found.seed
    summary = play_all(room, nutsim, seed, found.count, Progress(sys.stderr, found.count))
    for line in summary.lines():
        print(line)
    if found.svg or found.steps:
        number = found.run or summary.slowest()
        plan, stories = play_run(room, nutsim, seed, number)
        if found.svg:
            write_text(found.svg, Drawing(room, f"{found.room}: run {number} of seed {seed}", plan, stories).draw())
        if found.steps:
            write_text(found.steps, "".join(plan.steps))
            if room.files is not None:
                stage(room, f"{found.steps}.files")
    for number, m in summary.wrong:
        print(f"nutroom: run {number}: {room.machines[m].name} does what the theorem excludes: please report this", file=sys.stderr)
    return 1 if summary.wrong else 0


def end_without(files, number, frame):
    """Ends the program as the signal does, without these files."""
    files.cleanup()
    signal.signal(number, signal.SIG_DFL)
    signal.raise_signal(number)


def main(beside):
    """Runs the program, whose file is in this folder. Returns its exit status."""
    # An interrupt ends the program at once. As an exception it might come while a lock of the pool is held, and then the
    # pool's threads would wait for that lock for ever. An interrupt that is ignored stays ignored.
    if signal.getsignal(signal.SIGINT) is signal.default_int_handler:
        signal.signal(signal.SIGINT, signal.SIG_DFL)
    try:
        status = run(sys.argv[1:], beside)
        sys.stdout.flush()
        return status
    except Fault as fault:
        print(f"nutroom: {fault}", file=sys.stderr)
        return 1
    except OSError as error:
        # the reader of a broken pipe has seen enough
        if not isinstance(error, BrokenPipeError):
            print(f"nutroom: output failed: {error.strerror}", file=sys.stderr)
        # Python writes what is left when it ends
        os.dup2(os.open(os.devnull, os.O_WRONLY), sys.stdout.fileno())
        return 1
