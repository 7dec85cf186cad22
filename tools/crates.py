"""The repository's crates, as crates.txt lists them, and how many of them this machine can work on at a time."""

import os
import re

ROOT = os.path.dirname(os.path.dirname(os.path.abspath(__file__)))
LIST = os.path.join(ROOT, "crates.txt")


def rows():
    """Returns the line of each crate, by its name, in the order of the list."""
    with open(LIST, encoding="utf-8") as file:
        lines = [line.partition("#")[0].strip() for line in file]
    return {line.split(":")[0].split()[0]: line for line in lines if line}


def uses():
    """Returns, by a crate's name, the crates of the repository that it names."""
    found = rows()
    return {crate: [it for it in line.partition(":")[2].split() if it in found] for crate, line in found.items()}


def below(crates):
    """Returns these crates and all below them, each behind those that it uses."""
    used, found = uses(), {}

    def add(crate):
        if crate not in found:
            for it in used[crate]:
                add(it)
            found[crate] = True

    for crate in crates:
        add(crate)
    return list(found)


def is_program(crate):
    return os.path.isfile(os.path.join(folder_of(crate), "src", "main.rt"))


def built_programs():
    """Returns the crates of the programs that `make` builds."""
    with open(os.path.join(ROOT, "Makefile"), encoding="utf-8") as file:
        return re.search(r"^PROGRAMS := (.*)$", file.read(), re.MULTILINE)[1].split()


def at_once(memory):
    """Returns how many runs that take up to this many bytes of memory fit this machine at a time: one for each processor at most."""
    with open("/proc/meminfo", encoding="ascii") as file:
        free = 1024 * int(re.search(r"^MemAvailable: *(\d+) kB$", file.read(), re.MULTILINE)[1])
    return max(1, min(len(os.sched_getaffinity(0)), free // memory))


def folder_of(crate):
    return os.path.join(ROOT, "crates", crate)


def name_of(program):
    """Returns what a program's file is called in bin/: a crate's name has no dash."""
    return program.replace("_", "-")
