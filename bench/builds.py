#!/usr/bin/env python3
"""Measures how long the first run, the builds and the whole gate take on some of this machine's processors.

usage: builds.py PROCESSORS..

For each number it clones the repository into a folder of its own. There it runs `make try` and `make test`, which prove nothing,
then `make upsd` and `make` (which includes the work of `make upsd`), and then `make check`, which uses nothing of earlier
runs. It prints the elapsed minutes and the processor minutes, and leaves the times of each crate where `make check-times` looks for
them. The times of `make upsd` and `make` are right only if no other folder of this machine has the same files built, since `rt`
uses its libraries."""

import os
import shutil
import subprocess
import sys
import tempfile
import time

ROOT = os.path.dirname(os.path.dirname(os.path.abspath(__file__)))
sys.path.insert(0, ROOT)
from tests.support.harness import children_time

# The times of the crates in the last `make check`.
TIMES = os.path.join("bin", "gate-times.txt")
# The words of a `make check` that uses nothing of earlier runs.
CHECK = ["check", "ANEW=--anew"]


def measure(processors, folder):
    os.sched_setaffinity(0, sorted(os.sched_getaffinity(0))[:processors])
    subprocess.run(["git", "clone", "--quiet", ROOT, folder], check=True)
    started, used = time.monotonic(), children_time()
    for words in (["try"], ["test"], ["upsd"], [], CHECK):
        if words in (["test"], ["upsd"], CHECK):
            started, used = time.monotonic(), children_time()
        ran = subprocess.run(["make", *words], cwd=folder, stdout=subprocess.PIPE, stderr=subprocess.STDOUT, text=True, errors="replace")
        clock, processor = (time.monotonic() - started) / 60, (children_time() - used) / 60
        print(f"{processors} processors, {' '.join(['make', *words])}: {clock:.1f} minutes, {processor:.1f} of processor", flush=True)
        if ran.returncode or words == CHECK:
            print(ran.stdout[-6000:])
    if os.path.isfile(os.path.join(folder, TIMES)):
        os.makedirs(os.path.dirname(os.path.join(ROOT, TIMES)), exist_ok=True)
        shutil.copyfile(os.path.join(folder, TIMES), os.path.join(ROOT, TIMES))


def main(words):
    everywhere = os.sched_getaffinity(0)
    for processors in map(int, words):
        with tempfile.TemporaryDirectory(prefix="mulgefa-") as folder:
            measure(processors, os.path.join(folder, "mulgefa"))
        os.sched_setaffinity(0, everywhere)


if __name__ == "__main__":
    main(sys.argv[1:])
