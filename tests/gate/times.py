"""Measures the processor time of each crate while the gate runs, shows it beside the times that were kept, and keeps it.

usage: python3 -m tests.gate.times [--keep]

It shows the times of the last `make check` that took nothing from an earlier run and passed, beside those in
tests/gate-times.txt, or with --keep writes them there. It also shows the machine's pace, which is the median of the
parts' new times divided by their kept ones. A part has grown if it took longer than the pace explains."""

import os
import shutil
import statistics
import sys
import threading

from tests.support import harness
from tests.support.harness import ROOT

LAST = os.path.join(ROOT, "bin", "gate-times.txt")
KEPT = os.path.join(ROOT, "tests", "gate-times.txt")
PARTS = ("proof", "tests", "build", "edits")
# Times vary from run to run: a part of a crate counts as grown if it takes more than a fifth more, and more than so many
# seconds more. Parts that took fewer seconds than PACED say little about the machine's pace.
FIFTH, SWING, PACED = 1.2, 5, 20


def processes():
    """Returns each process's parent, and its start and processor time in ticks, with that of its children that have ended."""
    found = {}
    for pid in filter(str.isdigit, os.listdir("/proc")):
        try:
            fields = harness.read(f"/proc/{pid}/stat").rpartition(")")[2].split()
        except OSError:
            continue
        found[int(pid)] = int(fields[1]), int(fields[19]), sum(map(int, fields[11:15]))
    return found


def check_of(pid):
    """Returns the crate that a process of the prover checks, and the part of the gate that the check belongs to; or None."""
    try:
        words = harness.read(f"/proc/{pid}/cmdline").split("\0")
        here = os.readlink(f"/proc/{pid}/cwd")
    except OSError:
        return None
    if "--crate-name" not in words[:-1]:
        return None
    crate = words[words.index("--crate-name") + 1]
    # an edit is tried in a copy of its crate
    if not here.startswith(os.path.join(ROOT, "crates")):
        return crate, "edits"
    return crate, "tests" if "--test" in words else "build" if "--crate-checked" in words else "proof"


def ticks_below(pid, running, children):
    return running[pid][2] + sum(ticks_below(it, running, children) for it in children.get(pid, []))


class Stopwatch:
    """Samples twice a second the provers that run below this process, and sums the processor time of each crate."""

    def __enter__(self):
        self.seen, self.ended = {}, threading.Event()
        self.thread = threading.Thread(target=self.watch, daemon=True)
        self.thread.start()
        return self

    def __exit__(self, *_):
        self.ended.set()
        self.thread.join()

    def watch(self):
        while not self.ended.wait(0.5):
            self.look()

    def look(self):
        running, children = processes(), {}
        for pid, (parent, _, _) in running.items():
            children.setdefault(parent, []).append(pid)
        left = [os.getpid()]
        while left:
            pid = left.pop()
            check = check_of(pid)
            if check is None:
                left += children.get(pid, [])
            elif pid in running:
                self.seen[pid, running[pid][1]] = check, ticks_below(pid, running, children)

    def seconds(self):
        """Returns the processor seconds of each crate of the repository, by the part of the gate."""
        found = {}
        for (crate, part), ticks in self.seen.values():
            if not os.path.isdir(os.path.join(ROOT, "crates", crate)):
                continue
            parts = found.setdefault(crate, dict.fromkeys(PARTS, 0.0))
            parts[part] += ticks / os.sysconf("SC_CLK_TCK")
        return found


def lines_of(crate):
    """Returns the number of lines of a crate's code, definitions and proofs."""
    count = 0
    for part in ("src", "specs", "proofs"):
        for at, _, names in os.walk(os.path.join(ROOT, "crates", crate, part)):
            for name in names:
                count += harness.read_bytes(os.path.join(at, name)).count(b"\n")
    return count


def write(seconds, path):
    rows = [f"{crate} {lines_of(crate)} {' '.join(f'{seconds[crate][part]:.0f}' for part in PARTS)}\n" for crate in sorted(seconds)]
    head = f"# processor seconds of make check, written by make check-times\n# crate lines {' '.join(PARTS)}\n"
    harness.write(path, head + "".join(rows))


def read(path):
    """Returns the lines and the seconds of each crate that a file holds; nothing if there is no such file."""
    found = {}
    if os.path.isfile(path):
        for crate, *numbers in (line.split() for line in harness.read(path).splitlines() if not line.startswith("#")):
            found[crate] = dict(zip(("lines", *PARTS), map(int, numbers)))
    return found


def pace_of(now, kept):
    """Returns the median, over all parts of crates, of a new time divided by the kept one."""
    ratios = [
        now[crate][part] / kept[crate][part]
        for crate in now.keys() & kept.keys()
        for part in PARTS
        if kept[crate][part] >= PACED
    ]
    return statistics.median(ratios) if ratios else 1


def show(now, kept):
    """Prints the table, the machine's pace, and the parts that have grown since the other times were kept."""
    columns, grown, pace = ("lines", *PARTS), [], pace_of(now, kept)
    both = lambda new, old: f"{new} ({'-' if old is None else old})"
    print(f"{'processor seconds (kept)':<34}" + "".join(f"{it:>15}" for it in columns))
    for crate in sorted(now):
        was = kept.get(crate, {})
        print(f"{crate:<34}" + "".join(f"{both(now[crate][it], was.get(it)):>15}" for it in columns))
        for part in PARTS:
            new, old = now[crate][part], was.get(part)
            if old is not None and new > FIFTH * pace * old and new > pace * old + SWING:
                grown.append(f"{crate}: {part} grew from {old} to {new} seconds, which is {new / pace:.0f} at the kept pace")
    sums = [sum(it[part] for it in now.values()) for part in columns]
    olds = [sum(it[part] for it in kept.values()) if kept else None for part in columns]
    print(f"{'all':<34}" + "".join(f"{both(new, old):>15}" for new, old in zip(sums, olds)))
    minutes = sum(sums[1:]) / 60
    beside = f", or {minutes / pace:.0f} at the kept pace: this machine takes {pace:.2f} times as long" if kept else ""
    print(f"processor minutes in all: {minutes:.0f}{beside}", *grown, sep="\n", flush=True)


def main(words):
    if not os.path.isfile(LAST):
        sys.exit("make check has to pass first: it measures each crate")
    if words == ["--keep"]:
        shutil.copyfile(LAST, KEPT)
    else:
        show(read(LAST), read(KEPT))


if __name__ == "__main__":
    main(sys.argv[1:])
