"""A fresh Debian 12 in a folder, for tests of packages: made by debootstrap, entered by chroot, or started by
systemd-nspawn."""

import contextlib
import os
import signal
import subprocess

from tests.support.harness import Failed, Missing, ensure, needed, read, write
from tests.support.room import until

SUITE = "bookworm"


def run(words, **options):
    """Runs a command. Returns its status and all that it printed. It runs in the folder `/`, so that no folder outside
    matters."""
    options.setdefault("cwd", "/")
    options.setdefault("timeout", 600)
    done = subprocess.run(words, stdin=subprocess.DEVNULL, stdout=subprocess.PIPE, stderr=subprocess.STDOUT, text=True, errors="replace", **options)
    return done.returncode, done.stdout


def fresh_root(folder, saved=None):
    """Makes a root with systemd in this folder, or copies a saved one."""
    if os.geteuid() != 0:
        raise Missing("a root of its own can be made by root alone")
    if saved is not None:
        subprocess.run(["cp", "-a", "--reflink=auto", saved, folder], check=True, timeout=600)
        return Root(folder)
    debootstrap = needed("debootstrap", "debootstrap")
    try:
        status, said = run([debootstrap, "--variant=minbase", "--include=systemd,systemd-sysv,dbus", SUITE, folder], timeout=1200)
    except subprocess.TimeoutExpired:
        raise Missing("debootstrap made no root within 20 minutes") from None
    if status != 0:
        raise Missing(f"debootstrap made no root: {said.splitlines()[-1:]}")
    return Root(folder)


class Root:
    """A Debian in a folder whose services don't run."""

    def __init__(self, folder):
        self.folder = folder
        # a shell outside may name folders that don't exist here
        self.env = {"PATH": "/usr/local/sbin:/usr/local/bin:/usr/sbin:/usr/bin:/sbin:/bin", "DEBIAN_FRONTEND": "noninteractive", "LC_ALL": "C.UTF-8"}

    def path(self, name):
        return os.path.join(self.folder, name.lstrip("/"))

    def read(self, name):
        return read(self.path(name))

    def write(self, name, text, mode=0o640):
        write(self.path(name), text, mode)

    def nut_files(self):
        """Returns the texts of the configuration, by the names of the files."""
        return {name: self.read(f"/etc/nut/{name}") for name in os.listdir(self.path("/etc/nut"))}

    def words(self, command):
        return ["chroot", self.folder, "sh", "-c", f"cd /root\n{command}"]

    def run(self, command):
        """Runs a shell command. Returns its status and all that it printed."""
        return run(self.words(command), env=self.env)

    def do(self, command):
        """Runs a shell command that has to end with status 0. Returns what it printed."""
        status, said = self.run(command)
        ensure(status == 0, f"'{command}' ends with status {status}: {said[-3000:]}")
        return said

    def journal(self):
        """Returns the last messages of the services."""
        return ""

    def wait_for(self, command, said, seconds=30):
        """Runs a program until it prints this."""
        try:
            until(lambda: self.run(f"timeout 10 {command}")[1].strip() == said, f"'{command}' says {said!r}", seconds, 0.5)
        except Failed as failed:
            raise Failed(f"{failed}; it says {self.run(command)[1]!r} {self.journal()}") from None


class Booted(Root):
    """A Debian in a folder whose services run, on a network of its own."""

    def __init__(self, folder):
        super().__init__(folder)
        self.start()

    def start(self):
        nspawn = needed("systemd-nspawn", "systemd-container")
        words = [nspawn, "--quiet", "--boot", "--register=no", "--keep-unit", "--private-network", "--directory", self.folder]
        self.log = open(self.folder + ".console", "a")
        self.init = None
        self.process = subprocess.Popen(words, stdin=subprocess.DEVNULL, stdout=self.log, stderr=self.log, start_new_session=True)
        try:
            self.init = self.find_init()
            self.wait_for_start()
        except BaseException:
            self.stop()
            raise

    def restart(self):
        """Halts the system and starts it anew, as at a restart of the machine. Only what is enabled runs then, and /run is empty."""
        self.stop()
        self.start()

    def find_init(self):
        """Returns the process that is its first."""
        with contextlib.suppress(Failed):
            return until(lambda: self.process.poll() is None and self.init_below(), "its first process", 30, 0.1)
        raise Missing(f"systemd-nspawn starts no system here: {read(self.folder + '.console')[-200:]!r}")

    def init_below(self):
        """Returns the process below this one that is the first of its namespace, if there is one yet."""
        with contextlib.suppress(OSError, IndexError):
            for pid in read(f"/proc/{self.process.pid}/task/{self.process.pid}/children").split():
                numbers = [it.split()[1:] for it in read(f"/proc/{pid}/status").splitlines() if it.startswith("NSpid:")][0]
                if numbers[-1] == "1":
                    return pid
        return None

    def wait_for_start(self):
        """Waits until it is up."""
        is_up = lambda: self.run("systemctl is-system-running")[1].strip() in ("running", "degraded")
        with contextlib.suppress(Failed):
            return until(is_up, "the system is up", 120, 0.5)
        raise Missing(f"the system in systemd-nspawn doesn't come up: {self.run('systemctl is-system-running')[1]}")

    def words(self, command):
        return ["nsenter", "--target", self.init, "--all", "--root", "sh", "-c", f"cd /root\n{command}"]

    def journal(self):
        return self.run("journalctl --no-pager --lines 40")[1]

    def stop(self):
        if self.process.poll() is None and self.init:
            self.run("systemctl poweroff")
            try:
                self.process.wait(30)
            except subprocess.TimeoutExpired:
                # the end of its first process ends all of them
                os.kill(int(self.init), signal.SIGKILL)
        if self.process.poll() is None:
            self.process.kill()
            self.process.wait(10)
        self.log.close()
