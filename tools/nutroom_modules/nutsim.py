"""The program nutsim, which plays the steps of a run."""

import os
import re
import shutil
import signal
import subprocess

from nutroom_modules.faults import Fault


class Nutsim:
    """The program nutsim."""

    def __init__(self, program):
        self.program = program

    def play(self, room, steps):
        """Returns what the steps tell: for each line the number of the step and the words behind it."""
        if room.files is None:
            return self.call(room.servers[0].folder, [it.conf for it in room.machines], "".join(steps))
        confs = [os.path.join(room.files.name, f"{number}.conf") for number in range(len(room.monitors))]
        return self.call(room.files.name, confs, "".join(steps))

    def check(self, folder, machine):
        """Has nutsim read the configuration files of a server and of a machine."""
        self.call(folder, [machine.conf], "")

    def call(self, folder, confs, schedule):
        try:
            done = subprocess.run([self.program, folder, "/dev/stdin", *confs], input=schedule.encode("latin-1"), stdout=subprocess.PIPE, stderr=subprocess.PIPE)
        except OSError as error:
            raise Fault(f"{self.program} cannot be run: {error.strerror}") from None
        if done.returncode < 0:
            raise Fault(f"nutsim was killed by signal {-done.returncode} ({signal_name(-done.returncode)})")
        if done.returncode:
            raise Fault(self.located(done.stderr.decode("latin-1").strip(), folder, confs) or f"nutsim ended with status {done.returncode}")
        lines = done.stdout.decode("latin-1").splitlines()
        return [(int(number), rest.split()) for number, _, rest in (line.partition(": ") for line in lines)]

    @staticmethod
    def located(text, folder, confs):
        """Returns a fault that nutsim reports, with the folder of its file."""
        text = re.sub("^nutsim: ", "", text, count=1)
        # what nutsim says about the faulty line is a line of its own
        text = re.sub("^nutsim: ", "nutroom: ", text, flags=re.MULTILINE)
        name = text.partition(":")[0]
        if name in ("ups.conf", "upsd.users", "upsd.conf"):
            return os.path.join(folder, text)
        path = next((it for it in confs if os.path.basename(it) == name), None)
        return text if path is None else os.path.join(os.path.dirname(path), text)


def signal_name(number):
    try:
        return signal.Signals(number).name
    except ValueError:
        return "unknown"


def find_nutsim(named, beside):
    """Returns the path of nutsim: the one that is named, or else in the folder of nutroom, in ../bin from there, or on the
    PATH."""
    if named is not None:
        return named
    for folder in (beside, os.path.join(beside, "..", "bin")):
        path = os.path.join(folder, "nutsim")
        if os.access(path, os.X_OK) and os.path.isfile(path):
            return path
    path = shutil.which("nutsim")
    if path is None:
        raise Fault("nutsim isn't found beside nutroom, in ../bin or on the PATH; --nutsim names it")
    return path
