#!/usr/bin/env python3
"""Measures how many lines a second 'upsd --stdio' answers, and how much memory it takes meanwhile.

    bench/stdio.py PROGRAM [LINES]

LINES (by default 10,000,000) times 'GET UPSDESC su700' is sent through standard input, and the answers to a file that
discards them. The same run with a tenth of the lines shows whether memory grows with the work."""

import os
import subprocess
import sys
import tempfile
import time

LINE = b"GET UPSDESC su700\n"
ANSWER = b'UPSDESC su700 "Server room"\n'


def command(program):
    return [program, "--stdio", "--ups", "su700=Server room"]


def greatest_resident(pid):
    """Returns the greatest resident size so far of a running process in KiB, or 0 if it has ended."""
    try:
        with open(f"/proc/{pid}/status") as status:
            return next((int(line.split()[1]) for line in status if line.startswith("VmHWM:")), 0)
    except OSError:
        return 0


def run(program, file):
    """Returns the seconds, the processor seconds and the greatest resident size in KiB of one run over the file."""
    with open(file, "rb") as lines, open(os.devnull, "wb") as nowhere:
        begun = time.monotonic()
        process = subprocess.Popen(command(program), stdin=lines, stdout=nowhere)
        resident = 0
        while True:
            ended, status, usage = os.wait4(process.pid, os.WNOHANG)
            if ended:
                break
            resident = max(resident, greatest_resident(process.pid))
            time.sleep(0.01)
        seconds = time.monotonic() - begun
    if status != 0:
        sys.exit(f"{program} ended with status {status}")
    return seconds, usage.ru_utime + usage.ru_stime, resident


def check_answers(program, count):
    """Checks once that each line gets its answer."""
    done = subprocess.run(command(program), input=LINE * count, stdout=subprocess.PIPE, check=True)
    if done.stdout != ANSWER * count:
        sys.exit(f"{program} doesn't answer as it should")


def main():
    program = os.path.abspath(sys.argv[1])
    count = int(sys.argv[2]) if len(sys.argv) > 2 else 10_000_000
    check_answers(program, 10_000)
    with tempfile.TemporaryDirectory() as folder:
        for lines in (count // 10, count):
            file = os.path.join(folder, "lines")
            with open(file, "wb") as out:
                block = LINE * 10_000
                for _ in range(lines // 10_000):
                    out.write(block)
            seconds, cpu, resident = run(program, file)
            print(f"{lines:>12,} lines  {seconds:6.2f} s  {lines / seconds:>12,.0f} lines/s  "
                  f"{cpu:6.2f} processor s  {resident:>7,} KiB at most")


if __name__ == "__main__":
    main()
