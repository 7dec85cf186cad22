"""Installs the programs into folders of its own, checks the files there, and uninstalls them.

    python3 -m tests.programs.install [PROGRAM..]

A file is used in place of a program that isn't given."""

import functools
import os
import re
import resource
import shlex
import shutil
import signal
import stat
import subprocess
import sys
import tempfile
import time

from tests.support.harness import HERE, ROOT, Failed, Missing, apart, ended, ensure, expect, needed, read, run_tests, write
from tests.support.room import free_port, until

SERVERS = ("upsd", "upsmon")
DRIVERS = ("dummy-ups",)
TOOLS = ("upsc", "upsrw", "upscmd")
PAGES = (
    "ups.conf.5", "upsd.conf.5", "upsd.users.5", "upsmon.conf.5", "from-nut.7", "mulgefa.7", "mulgefa-troubleshooting.7", "mulgefa-check.8",
    "nutroom.8",
)
EXAMPLES = ("ups.conf", "upsd.conf", "upsd.users", "upsmon.conf", "su700.dev")
ROOMS = ("primary-alone", "primary-waits", "power-failure", "cut-network", "server-restarts")
ROOM_FILES = ("m1.conf", "m2.conf", "m3.conf", "m4.conf", "m5.conf", "room", "ups.conf", "upsd.conf", "upsd.users")
SCHEDULES = ("README.md", "primary.conf", "secondary.conf", "ups.conf", "upsd.conf", "upsd.users", *(f"{room}.sched" for room in ROOMS))
# the settings of a unit that give it mounts of its own (systemd.exec(5)), or might
OWN_MOUNTS = re.compile(
    r"^(?:Private\w+|Protect\w+|ProcSubset|DynamicUser|Root(?:Directory|Image)\w*|Mount\w+|Extension\w+|TemporaryFileSystem|LogNamespace|\w+Paths|\w+NamespacePath)=.*$",
    re.MULTILINE,
)
UNITS = {"upsd": "mulgefa-upsd.service", "upsmon": "mulgefa-upsmon.service", "dummy-ups": "mulgefa-dummy-ups@.service"}

# A folder of tools that print what those of a server with two UPSes print, and what is offered then.
SCENE = os.path.join(HERE, "completion")

IN_QUOTES = "    put the password in quotes, at the server and in each MONITOR line: NUT's programs end it at its '='\n"
OF_A_PROCESS = "    take it out: this notice is about a process that upsmon lacks here\n"
# What mulgefa-check says of a driver of NUT's, and of lines that only drivers know.
GOES = "note: the driver {} is NUT's, and goes with nut-server unless mulgefa-nut-drivers keeps it; see from-nut(7)"
REFUSED = "upsd refuses these lines, which NUT's drivers need. With the package mulgefa-nut-drivers it reads a copy without them; see from-nut(7), \"Drivers\""

# What mulgefa-check says of files that are right but for these. By what each row shows: options, the files, the status, what is
# printed of the folder FOLDER, and what the files become, with -w in another folder and with -i in place.
CHECKED = {
    "the case of letters counts in the name of a UPS of this machine, as it doesn't for NUT": (
        (),
        {"upsmon.conf": "".join(f"MONITOR {it} mon m1 {role}\n" for it, role in (
            ("SU700@localhost 1", "primary"), ("SU700@rack 0", "secondary"), ("su700@127.0.0.1 0", "secondary"))) + "SHUTDOWNCMD true\n"},
        0, "note: a MONITOR line has SU700, and ups.conf has su700: the case of letters counts; see from-nut(7)\n", None,
    ),
    "a port behind a colon, which is taken until the server starts": (
        (),
        {"upsd.conf": 'LISTEN 127.0.0.1:24938\nLISTEN ::1\n LISTEN "rack:24" # its port\nLISTEN ::1 24\nLISTEN rack\n'},
        1, "FOLDER/upsd.conf:1: BadName: LISTEN 127.0.0.1:24938\n    change it to: LISTEN 127.0.0.1 24938\n"
        'FOLDER/upsd.conf:3: BadName: LISTEN "rack:24" # its port\n    change it to: LISTEN "rack" 24 # its port\n',
        {"upsd.conf": 'LISTEN 127.0.0.1 24938\nLISTEN ::1\n LISTEN "rack" 24 # its port\nLISTEN ::1 24\nLISTEN rack\n'},
    ),
    "an address that has colons itself": (
        (), {"upsd.conf": "LISTEN 2001:470::1 99999\n"},
        1, "FOLDER/upsd.conf:1: BadNumber: LISTEN 2001:470::1 99999\n    upsd.conf(5) says what may stand there\n", None,
    ),
    "all addresses, and IPv6 in brackets": (
        ("--upsd",),
        {"upsd.conf": 'LISTEN *\nLISTEN "*" 24938 # all\nLISTEN *:24939\nLISTEN [::1]\nLISTEN [2001:470::1]:24940\n'
         'LISTEN "[2001:470::1]" 24941\n'},
        1, "".join(f"FOLDER/upsd.conf:{line}: BadName: LISTEN {was}\n    change it to: LISTEN {is_now}\n" for line, was, is_now in (
            (3, "*:24939", "* 24939"), (1, "*", "::"), (2, '"*" 24938 # all', '"::" 24938 # all'), (3, "* 24939", ":: 24939"),
            (4, "[::1]", "::1"), (5, "[2001:470::1]:24940", "2001:470::1 24940"), (6, '"[2001:470::1]" 24941', '"2001:470::1" 24941'),
        )),
        {"upsd.conf": 'LISTEN ::\nLISTEN "::" 24938 # all\nLISTEN :: 24939\nLISTEN ::1\nLISTEN 2001:470::1 24940\n'
         'LISTEN "2001:470::1" 24941\n'},
    ),
    "an address of IPv6 in a MONITOR line": (
        ("--upsmon",), {"upsmon.conf": "MINSUPPLIES 0\nMONITOR su700@[::1]:3493 1 mon secret primary\n"},
        1, "FOLDER/upsmon.conf:2: BadName: MONITOR su700@[::1]:3493 1 .. primary\n"
        "    a host is a name or an IPv4 address: give this one a name in /etc/hosts, and write that here\n", None,
    ),
    "bytes past ASCII that nobody reads": (
        ("--upsd",), {"upsd.conf": " #\tB\u00fcro\nMAXAGE 15 # \u00b0C\n", "ups.conf": '[u]\n desc = "a # b" # \u00fc\n'},
        1, 'FOLDER/ups.conf:2: Unreadable: desc = "a # b" # \u00fc\n    change it to: desc = "a # b" # ??\n'
        "FOLDER/upsd.conf:1: Unreadable: # ..\n    each byte of the comment that isn't printing ASCII becomes a question mark\n"
        "FOLDER/upsd.conf:2: Unreadable: MAXAGE 15 # \u00b0C\n    change it to: MAXAGE 15 # ??C\n",
        {"upsd.conf": " #\tB??ro\nMAXAGE 15 # ??C\n", "ups.conf": '[u]\n desc = "a # b" # ??\n'},
    ),
    "a byte past ASCII that is read": (
        ("--upsd",), {"ups.conf": '[u]\n desc = "B\u00fcro # 1"\n'},
        1, 'FOLDER/ups.conf:2: Unreadable: desc = "B\u00fcro # 1"\n    ups.conf(5) says what may stand there\n', None,
    ),
    "types of notices that aren't given here, and those of later versions of NUT": (
        ("--upsmon",),
        {"upsmon.conf": 'MINSUPPLIES 0\nNOTIFYFLAG NOPARENT SYSLOG+WALL\n NOTIFYMSG "NOPARENT" "upsmon parent died"\n'
         "NOTIFYFLAG ONBATT EXEC\nNOTIFYFLAG NOTOFF SYSLOG\nOFFDURATION 30\n"},
        1, f"FOLDER/upsmon.conf:2: UnknownWord: NOTIFYFLAG NOPARENT SYSLOG+WALL\n{OF_A_PROCESS}"
        f'FOLDER/upsmon.conf:3: UnknownWord: NOTIFYMSG "NOPARENT" "upsmon parent died"\n{OF_A_PROCESS}'
        "FOLDER/upsmon.conf:5: UnknownWord: NOTIFYFLAG NOTOFF SYSLOG\n    take it out: no notice of NUT 2.8.0 has this type\n"
        "FOLDER/upsmon.conf:6: UnknownDirective: OFFDURATION ..\n    take it out: NUT 2.8.0 has no such directive either\n",
        {"upsmon.conf": "MINSUPPLIES 0\n\n\nNOTIFYFLAG ONBATT EXEC\n\n\n"},
    ),
    "lists of words, which NUT takes in one line": (
        ("--upsd",), {"upsd.users": "[a]\n actions = set fsd # both\n instcmds = load.on, load.off\n upsmon master\n"},
        1, "FOLDER/upsd.users:2: BadForm: actions = set fsd # both\n    change it to: actions = SET # both\n"
        "                  actions = FSD\nFOLDER/upsd.users:3: BadForm: instcmds = load.on, load.off\n"
        "    change it to: instcmds = load.on\n                  instcmds = load.off\n"
        "FOLDER/upsd.users:4: UnknownWord: upsmon master\n    change it to: upsmon primary\n",
        {"upsd.users": "[a]\n actions = SET # both\n actions = FSD\n instcmds = load.on\n instcmds = load.off\n upsmon primary\n"},
    ),
    "a list in quotes": (
        ("--upsd",), {"upsd.users": '[a]\n actions = "SET FSD"\n'},
        1, 'FOLDER/upsd.users:2: UnknownWord: actions = "SET FSD"\n    upsd.users(5) says what may stand there\n', None,
    ),
    "passwords that have a '=', as base64 does": (
        (),
        {"upsd.users": "[a]\n password = secret=1==\n",
         "upsmon.conf": "MINSUPPLIES 0\nMONITOR a@h 1 mon secret=1== primary\nMONITOR b 1 mon secret2= slave # b\n"},
        1, f"FOLDER/upsd.users:2: BadForm: password = ..\n{IN_QUOTES}FOLDER/upsmon.conf:2: BadForm: MONITOR a@h 1 .. primary\n{IN_QUOTES}"
        "FOLDER/upsmon.conf:3: BadForm: MONITOR b 1 .. slave\n    change it to: MONITOR b@localhost 1 .. secondary\n",
        {"upsd.users": '[a]\n password = "secret=1=="\n',
         "upsmon.conf": 'MINSUPPLIES 0\nMONITOR a@h 1 mon "secret=1==" primary\nMONITOR b@localhost 1 mon "secret2=" secondary # b\n'},
    ),
    "a section with a fault, whose lines have none": (
        ("--upsd",), {"ups.conf": '[the rack]\n driver = dummy-ups\n desc = "x"\n'},
        1, "FOLDER/ups.conf:1: OutsideSection: [the rack]\n    ups.conf(5) says what may stand there\n", None,
    ),
    "a directive above all sections": (
        ("--upsd",), {"ups.conf": "driver = dummy-ups\n[a]\n"},
        1, "FOLDER/ups.conf:1: OutsideSection: driver = dummy-ups\n    take it out: it belongs below a section\n", None,
    ),
    "the mark of an editor": (
        ("--upsd",), {"ups.conf": "\ufeff[a]\n"},
        1, "FOLDER/ups.conf:1: Unreadable: [a]\n    take out the three bytes before it, the byte order mark of UTF-8\n",
        {"ups.conf": "[a]\n"},
    ),
    "faults of cmdvartab": (
        ("--upsd",), {"cmdvartab": 'VARDESC ups.load "Load"\nVARIABLE ups.load "Load"\nVARDESC ups.temperature\n'},
        1, 'FOLDER/cmdvartab:2: UnknownDirective: VARIABLE ups.load "Load"\n    take it out: NUT 2.8.0 has no such directive either\n'
        "FOLDER/cmdvartab:3: BadForm: VARDESC ups.temperature\n    upsd(8) says what may stand there\n", None,
    ),
    "a cmdvartab that is right": ((), {"cmdvartab": 'VARDESC ups.load "Load"\n'}, 0, "", {"cmdvartab": 'VARDESC ups.load "Load"\n'}),
}

def programs():
    """Returns the programs that the Makefile builds, as they are installed."""
    words = re.search(r"^PROGRAMS := (.*)$", read(os.path.join(ROOT, "Makefile")), re.MULTILINE)[1].split()
    return [it.replace("_", "-") for it in words]


def folder_of(program):
    return "sbin" if program in SERVERS else "lib/mulgefa" if program in DRIVERS else "bin"


def wanted_files():
    """Returns the files that are installed, with their modes."""
    files = {"lib/sysusers.d/mulgefa.conf": 0o644, "share/bash-completion/completions/nutroom": 0o644}
    scripts = ("sbin/mulgefa-check", "bin/nutroom", "lib/mulgefa/until-ready", "lib/mulgefa/upsmon-apart")
    files.update({script: 0o755 for script in scripts})
    files["lib/mulgefa/nut-drivers.conf"] = 0o644
    files.update({f"share/mulgefa/{page}": 0o644 for page in ("from-nut.md", "room.md", "room.svg", "third-party-notices")})
    files.update({f"share/mulgefa/rooms/five/{file}": 0o644 for file in ROOM_FILES})
    modules = os.listdir(os.path.join(ROOT, "tools", "nutroom_modules"))
    files.update({f"share/mulgefa/nutroom_modules/{file}": 0o644 for file in modules if file.endswith(".py")})
    for program in programs():
        files[f"{folder_of(program)}/{program}"] = 0o755
        files[f"share/man/man8/{program}.8"] = 0o644
        if program in UNITS:
            files[f"lib/systemd/system/{UNITS[program]}"] = 0o644
        if program in (*TOOLS, "upsmon"):
            files[f"share/bash-completion/completions/{program}"] = 0o644
    files.update({f"share/man/man{page[-1]}/{page}": 0o644 for page in PAGES})
    files.update({f"share/mulgefa/examples/{example}": 0o644 for example in EXAMPLES})
    files.update({f"share/mulgefa/schedules/{schedule}": 0o644 for schedule in SCHEDULES})
    return files


def files_below(folder):
    """Yields each file below a folder, by its path from there."""
    for at, _, names in os.walk(folder):
        for name in names:
            yield os.path.relpath(os.path.join(at, name), folder)


def state_of(folder):
    """Returns the visible state of each file below a folder."""
    state = {}
    for path in files_below(folder):
        with open(os.path.join(folder, path), "rb") as file:
            at = os.stat(file.fileno())
            state[path] = (stat.S_IMODE(at.st_mode), at.st_mtime_ns, at.st_ino, file.read())
    return state


def passwords_in(folder):
    """Returns the passwords of a configuration: those of the server's users, by their names, and the monitor's."""
    users, monitor = (read(os.path.join(folder, it)) for it in ("upsd.users", "upsmon.conf"))
    found = dict(re.findall(r"^\[(\w+)\]\n *password = (.*)$", users, re.MULTILINE))
    return found, re.search(r"^MONITOR \S+ 1 monuser (\S+) primary$", monitor, re.MULTILINE)[1]


def mode_of(path):
    return stat.S_IMODE(os.stat(path).st_mode)


def state_of_file(path):
    """Returns the visible state of a file or a link, except for the time of its last reading."""
    at = os.lstat(path)
    return at.st_mode, at.st_mtime_ns, at.st_ino


def put_programs(built, folder):
    """Puts the programs that were built into a folder, scripts in place of the others, and what stands for the notices of the
    libraries. Returns the names of the built programs."""
    write(os.path.join(folder, "third-party-notices"), "notices\n")
    built = {os.path.basename(path).replace("_", "-"): path for path in built}
    for program in programs():
        path = os.path.join(folder, program)
        if program in built:
            shutil.copy(built[program], path)
        else:
            write(path, "#!/bin/sh\n", 0o755)
    return [it for it in programs() if it in built]


def outside_make():
    """Returns the environment without what a 'make' above a test sets, which must not reach the 'make' that the test runs."""
    return {name: value for name, value in os.environ.items() if not name.startswith(("MAKE", "MFLAGS"))}


class Tests:
    def __init__(self, built, folder):
        self.folder, self.places = folder, 0
        self.bin = os.path.join(folder, "bin")
        self.built = put_programs(built, self.bin)

    def needs(self, *programs):
        """Skips a test that runs programs which weren't handed in."""
        if not set(programs) <= set(self.built):
            raise Missing("no built programs were handed in")

    def place(self):
        """Returns a path at which nothing is."""
        self.places += 1
        return os.path.join(self.folder, f"place {self.places}")

    def make(self, *words, cwd=ROOT):
        return ended(["make", "-s", *words], cwd=cwd, env=outside_make())

    def install(self, *words):
        expect(self.make("install-built", f"BIN={self.bin}", *words), (0, "", ""), "make install-built")

    def installed(self, name):
        """Installs everything into the folder of a room, so that units name existing files. Returns the folder."""
        prefix = os.path.join(self.folder, name)
        self.install(f"PREFIX={prefix}")
        return prefix

    def configured(self, name, *words):
        """Returns a folder with a first configuration, and what was printed about it."""
        destination = os.path.join(self.folder, name)
        status, said, wrong = self.make("configure", f"DESTDIR={destination}", *words)
        expect((status, wrong), (0, ""), "make configure")
        return os.path.join(destination, "etc/nut"), said.splitlines()

    def test_tree(self):
        destination = os.path.join(self.folder, "a package")
        self.install(f"DESTDIR={destination}", "PREFIX=/usr")
        found = {path: it[0] for path, it in state_of(destination).items()}
        expect(found, {f"usr/{path}": mode for path, mode in wanted_files().items()}, "files and modes")

    def test_default_prefix(self):
        destination = os.path.join(self.folder, "defaults")
        self.install(f"DESTDIR={destination}")
        expect(set(files_below(destination)), {f"usr/local/{it}" for it in wanted_files()}, "files")

    def test_second_install_changes_nothing(self):
        words = [f"DESTDIR={os.path.join(self.folder, 'twice')}", "PREFIX=/usr"]
        self.install(*words)
        first = state_of(os.path.join(self.folder, "twice"))
        self.install(*words)
        if state_of(os.path.join(self.folder, "twice")) != first:
            raise Failed("a second install changed a file")

    def test_uninstall_leaves_what_is_not_ours(self):
        destination = os.path.join(self.folder, "gone")
        words = [f"DESTDIR={destination}", "PREFIX=/usr"]
        for path in ("etc/nut/ups.conf", "usr/lib/nut/usbhid-ups"):
            write(os.path.join(destination, path), "mine\n")
        before = state_of(destination)
        self.install(*words)
        expect(self.make("uninstall", *words), (0, "", ""), "make uninstall")
        expect(state_of(destination), before, "what was there before")
        expect(os.path.exists(os.path.join(destination, "usr/share/mulgefa")), False, "a folder of ours")
        expect(self.make("uninstall", *words), (0, "", ""), "make uninstall once more")

    def test_configure(self):
        folder, said = self.configured("configured")
        expect(said, [], "what is said of it")
        found = {path: it[0] for path, it in state_of(folder).items()}
        wanted = {example: 0o600 if example == "upsmon.conf" else 0o640 for example in EXAMPLES}
        expect((found, mode_of(folder)), (wanted, 0o750), "files and modes")
        users, monitor = passwords_in(folder)
        expect((set(users), users["monuser"]), ({"admin", "monuser", "guest"}, monitor), "the passwords fit")
        other, _ = passwords_in(self.configured("another")[0])
        for password in (*users.values(), *other.values()):
            expect(re.fullmatch("[a-z0-9]{20}", password) is not None, True, "a password")
        expect(len({*users.values(), *other.values()}), 6, "no two are the same")
        text = read(os.path.join(folder, "upsmon.conf"))
        expect(re.findall("^SHUTDOWNCMD (.*)$", text, re.MULTILINE), ['"echo upsmon would stop this machine now"'], "nothing is stopped yet")
        expect(re.findall("^POWERDOWNFLAG (.*)$", text, re.MULTILINE), ["/run/killpower"], "where a boot clears it")

    def test_configure_leaves_files_as_they_are(self):
        folder = os.path.join(self.folder, "mine/etc/nut")
        write(os.path.join(folder, "upsd.users"), "mine\n")
        os.chmod(folder, 0o711)
        os.symlink("none", os.path.join(folder, "ups.conf"))
        before = [state_of_file(os.path.join(folder, name)) for name in ("ups.conf", "upsd.users")]
        self.configured("mine")
        after = [state_of_file(os.path.join(folder, name)) for name in ("ups.conf", "upsd.users")]
        expect((after, mode_of(folder)), (before, 0o711), "what was there")
        os.remove(os.path.join(folder, "ups.conf"))
        self.configured("mine")
        first = state_of(folder)
        _, said = self.configured("mine")
        expect(state_of(folder), first, "what a second call changes")
        expect(said, [f"{folder}/{example} is there already and stays as it is" for example in sorted(EXAMPLES)], "what is said")

    def first_configuration(self, folder, failing="", at=0):
        """Makes a first configuration as the packages do, while one call of a program fails. Returns the status, what was said,
        how often the program was called, and the files that were noted as made."""
        stand_in, count = os.path.join(self.folder, "stand-in"), os.path.join(self.folder, "calls")
        os.makedirs(stand_in, exist_ok=True)
        write(count, "")
        if failing:
            calls = f'echo >> "{count}"\n[ "$(wc -l < "{count}")" != {at} ] || exit 1\n'
            write(os.path.join(stand_in, failing), f'#!/bin/sh\n{calls}PATH="${{PATH#*:}}"\nexec {failing} "$@"\n', 0o755)
        script = 'set -eu; . "$1/packaging/configure.sh"; first_configuration "$1/examples" "$2" $3'
        env = {**os.environ, "PATH": f"{stand_in}:{os.environ['PATH']}", "GROUP": str(os.getgid()), "MADE": f"{folder}.made"}
        words = ["sh", "-c", script, "sh", ROOT, folder, " ".join(EXAMPLES)]
        status, said, _ = ended(words, env=env, stderr=subprocess.STDOUT)
        shutil.rmtree(stand_in)
        notes = read(f"{folder}.made") if os.path.exists(f"{folder}.made") else ""
        return status, said, read(count).count("\n"), [os.path.relpath(line, folder) for line in notes.splitlines()]

    def test_configure_fails_and_is_called_again(self):
        """Each call of each program that makes a first configuration fails in turn. What is there then is complete, and noted;
        another call makes the rest."""
        modes = {example: 0o600 if example == "upsmon.conf" else 0o640 for example in EXAMPLES}
        for program in ("cat", "chgrp", "chmod", "dirname", "head", "install", "ln", "mktemp", "mv", "sed", "tr"):
            for at in range(1, 100):
                folder = os.path.join(self.folder, f"{program} {at}/nut")
                os.mkdir(os.path.dirname(folder))
                what = f"call {at} of {program} fails"
                status, said, calls, made = self.first_configuration(folder, program, at)
                if calls < at:
                    break
                ensure(status != 0, f"{what}, and the status doesn't say so: {said}")
                left = state_of(folder)
                expect({name: it[0] for name, it in left.items()}, {name: modes[name] for name in made}, f"{what}: what is there")
                ensure(set(os.listdir(os.path.dirname(folder))) <= {"nut", "nut.made"}, f"{what}: a folder is left over")
                status, said, _, made = self.first_configuration(folder)
                expect((status, sorted(made)), (0, sorted(EXAMPLES)), f"{what}: the next call: {said}")
                found = state_of(folder)
                expect({name: it[0] for name, it in found.items()}, modes, f"{what}: files and modes after the next call")
                expect(mode_of(folder), 0o750, f"{what}: the folder")
                expect({name: found[name] for name in left}, left, f"{what}: what was there stays")
                users, monitor = passwords_in(folder)
                expect((len({*users.values()}), users["monuser"]), (3, monitor), f"{what}: the passwords fit")
            ensure(at > 1, f"{program} is never called")

    def test_configure_notes_no_file_of_others(self):
        folder = os.path.join(self.folder, "interrupted/nut")
        status, said, _, made = self.first_configuration(folder, "ln", 3)
        expect((status, made), (1, [*EXAMPLES[:2]]), f"two files are made: {said}")
        path = os.path.join(folder, EXAMPLES[2])
        write(path, "mine\n")
        before = state_of_file(path)
        status, said, _, made = self.first_configuration(folder)
        ensure(f"{path} is there already and stays as it is" in said.splitlines(), f"what is said: {said}")
        expect((status, sorted(made)), (0, sorted({*EXAMPLES} - {EXAMPLES[2]})), "the files that are noted")
        expect(state_of_file(path), before, "the other's file")

    def test_configuration_reads(self):
        self.needs("upsd", "upsmon")
        folder, _ = self.configured("read")
        _, password = passwords_in(folder)
        asks = f"USERNAME monuser\nPASSWORD {password}\nLOGIN su700\nLOGOUT\n"
        words = [os.path.join(self.bin, "upsd"), "--stdio", "--conf", folder]
        expect(ended(words, input=asks.encode()), (0, "OK\nOK\nOK\nOK Goodbye\n", ""), "the server's")
        words = [os.path.join(self.bin, "upsmon"), "-K", "--conf", folder]
        expect(ended(words), (1, "", ""), "the monitor's")

    def test_installed_examples_have_no_passwords(self):
        destination = os.path.join(self.folder, "examples")
        self.install(f"DESTDIR={destination}", "PREFIX=/usr")
        folder = os.path.join(destination, "usr/share/mulgefa/examples")
        users, monitor = (read(os.path.join(folder, it)) for it in ("upsd.users", "upsmon.conf"))
        expect(re.findall("^ *password.*$", users, re.MULTILINE), [], "a password")
        expect(re.findall("^MONITOR.*$", monitor, re.MULTILINE), ["MONITOR su700@localhost 1 monuser PASSWORD primary"], "a password")

    def test_installed_rooms_print_what_the_page_shows(self):
        self.needs("nutsim")
        prefix = self.installed("rooms")
        page = read(os.path.join(ROOT, "man", "nutsim.8")).replace("\\-", "-")
        shown = re.search(r"^\$ nutsim (.*)\n((?:.*\n)*?)\.EE$", page, re.MULTILINE)
        words = [os.path.join(self.bin, "nutsim"), *shown[1].split()]
        expect(ended(words, cwd=os.path.join(prefix, "share/mulgefa")), (0, shown[2], ""), shown[1])

    def test_room_to_try(self):
        """The commands that the README shows work as pasted, on a network of their own."""
        needed("ip", "iproute2")
        self.needs("upsd", "dummy-ups", "upsc", "upsrw", "upscmd")
        shown = re.search(r"A room to try.*?```sh\n(.*?)```", read(os.path.join(ROOT, "README.md")), re.DOTALL)[1]
        room = os.path.join(self.folder, "room")
        os.makedirs(os.path.join(room, "bin"))
        os.symlink(self.bin, os.path.join(room, "bin", "tried"))
        shutil.copytree(os.path.join(ROOT, "examples"), os.path.join(room, "examples"))
        words = [*apart("--net"), "bash", "-c", f"ip link set lo up || exit 77\n{shown}wait"]
        process = subprocess.Popen(
            words, cwd=room, stdin=subprocess.DEVNULL, stdout=subprocess.PIPE, stderr=subprocess.STDOUT, start_new_session=True,
            env={**os.environ, "TMPDIR": room}
        )
        try:
            said = process.communicate(timeout=60)[0].decode()
        finally:
            try:
                os.killpg(process.pid, signal.SIGKILL)
            except ProcessLookupError:
                pass
        if process.returncode == 77:
            raise Missing("no network of its own can be had")
        for line in ("OL", "ups.id: rack7", "ups.status: OB"):
            expect(line in said.splitlines(), True, f"{line!r} is shown: {said}")

    @functools.cached_property
    def checker(self):
        """The path of mulgefa-check with the built programs beside it."""
        self.needs("upsd", "upsmon")
        return os.path.join(self.installed("checked"), "sbin/mulgefa-check")

    def check(self, *words, script=None, **env):
        """Returns the status of a mulgefa-check, and what it prints."""
        script = script or self.checker
        env = {**{it: os.environ[it] for it in ("PATH", "TMPDIR") if it in os.environ}, **env}
        return ended([script, *words], env=env, stderr=subprocess.STDOUT)[:2]

    def nuts_files(self, files=()):
        """Makes a folder with files that are right, except for these."""
        folder = self.place()
        shutil.copytree(os.path.join(ROOT, "examples"), folder)
        for name, text in dict(files).items():
            write(os.path.join(folder, name), text)
        return folder

    def test_check_of_files(self):
        """Rows of files that mulgefa-check reads, and of what it makes of them."""
        for what, (words, files, status, told, changed) in CHECKED.items():
            folder, to = self.nuts_files(files), self.place()
            expect(self.check(*words, folder), (status, told.replace("FOLDER", folder)), what)
            if changed is not None:
                for option, at in ((("-w", to), to), (("-i",), folder)):
                    found, said = self.check(*words, *option, folder)
                    expect((found, {it: read(os.path.join(at, it)) for it in changed}), (0, changed), f"{what}, {option}: {said}")
                    expect(self.check(*words, at), (0, told if status == 0 else ""), f"{what}: what {option} wrote")

    def test_check_of_what_is_taken(self):
        folder = self.nuts_files()
        before = state_of(folder)
        for words in ((folder,), ("--upsd", folder), ("--upsmon", folder), ("-i", folder)):
            expect(self.check(*words), (0, ""), f"mulgefa-check {words}")
        expect(state_of(folder), before, "what it changed")
        os.remove(os.path.join(folder, "upsd.users"))
        missing = f"{folder}/upsd.users: cannot read\n{folder}/upsd.users: No such file or directory (os error 2)\n"
        expect(self.check(folder), (1, missing), "a file that isn't there")
        for name in ("ups.conf", "upsd.conf"):
            os.remove(os.path.join(folder, name))
        expect(self.check(folder), (0, ""), "a machine without a server")
        none = f"mulgefa-check: {folder}: none of ups.conf, upsd.conf and upsd.users is there\n"
        expect(self.check("--upsd", folder), (2, none), "the server of a machine without one")
        os.remove(os.path.join(folder, "upsmon.conf"))
        expect(self.check(folder), (2, f"mulgefa-check: {folder}: none of NUT's files is there\n"), "a folder of others")
        for words in (("--none",), ("-w",), (folder, folder), ("-i", "-w", folder), ("-w", folder, folder), (os.path.join(folder, "none"),)):
            expect(self.check(*words)[0], 2, f"mulgefa-check {words}")

    def test_check_tells_a_command_that_others_may_write(self):
        """NOTIFYCMD runs as root, so whoever can write to it, or replace it, is root."""
        if os.geteuid() != 0:
            raise Missing("only root has files that nobody else may write to")
        scripts = os.path.join(self.folder, "scripts")
        for name in ("kept/notify", "kept/writable", "kept/theirs", "shared/notify"):
            write(os.path.join(scripts, name), "#!/bin/sh\n")
        os.symlink("../shared/notify", os.path.join(scripts, "kept/link"))
        os.chmod(os.path.join(scripts, "shared"), 0o777)
        os.chmod(os.path.join(scripts, "kept/writable"), 0o722)
        os.chown(os.path.join(scripts, "kept/theirs"), 12345, 0)
        kept = f"{scripts}/kept"
        for command, told in (
            ('"logger -t upsmon"', ()),
            (f"{kept}/notify", ()),
            (f'"{kept}/notify -x" # {kept}/writable', ()),
            (f"{kept}/writable", (f"{kept}/writable", f"{kept}/writable")),
            (f'"/bin/sh {kept}/theirs"', (f"{kept}/theirs", f"{kept}/theirs")),
            (f"{kept}/link", (f"{kept}/link", f"{scripts}/shared")),
            (f"{scripts}/shared/notify", (f"{scripts}/shared/notify", f"{scripts}/shared")),
            (f"{scripts}/shared/none", (f"{scripts}/shared/none", f"{scripts}/shared")),
        ):
            folder = self.nuts_files({"upsmon.conf": f"MINSUPPLIES 0\nNOTIFYCMD {command}\n"})
            note = "note: NOTIFYCMD runs {} as root here, and others than root may write to {}; see from-nut(7)\n"
            note = note.format(*told) if told else ""
            expect(self.check("--upsmon", folder), (0, note), f"what it notes of {command}")

    def test_check_shows_no_passwords(self):
        """Neither those of lines that are taken nor those of others."""
        users = "[mon]\n Password = secret1\n pasword = secret2\n password secret3\n upsmon master\n"
        monitors = 'Monitor a@h 1 mon secret4 master\nMONTOR a@h 1 mon secret5 primary\nMONITOR a@h 1 mon "secret 6"\nCERTIDENT a "secret7"\n'
        monitors += "MONITOR a@h 1 mon \\\nsecret9 primary\nMONITOR a@h secretA primary\nMONITOR a@h mon secretB primary # secretC\n"
        drivers = "[r]\n driver = {}\n community = secretD\n authPassword=secretE\n# \u00fc password = secretF\n authPassword\nsecretG\n"
        taken_out, left = {"community = ..", "authPassword = ..", "# .."}, {"community, authPassword, line 6, line 7"}
        for driver, of_ups_conf in (("dummy-ups", taken_out), ("snmp-ups", left)):
            ups_conf = drivers.format(driver) if driver == "snmp-ups" else drivers.format(driver).replace("secretG\n", "")
            files = {"upsd.users": users, "upsd.conf": 'certident "a b" "secret8"\n', "upsmon.conf": monitors, "ups.conf": ups_conf}
            folder = self.nuts_files(files)
            status, said = self.check(folder)
            expect((status, "secret" in said.replace(folder, "")), (1, False), said)
            shown = [line.split(": ", 2)[2] for line in said.splitlines() if line.startswith(folder)]
            wanted = {"Password = ..", "pasword = ..", "password ..", "upsmon master", "certident .."} | of_ups_conf
            expect(wanted - set(shown), set(), f"what it shows: {shown}")

    def test_check_without_what_it_reads(self):
        folder = self.nuts_files()
        os.remove(os.path.join(folder, "upsd.conf"))
        os.mkdir(os.path.join(folder, "upsd.conf"))
        expect(self.check(folder), (2, f"mulgefa-check: {folder}/upsd.conf: cannot read\n"), "a file that can't be read")
        alone = os.path.join(self.folder, "alone", "bin")
        os.makedirs(alone)
        shutil.copy(os.path.join(ROOT, "packaging/mulgefa-check"), alone)
        said = "mulgefa-check: neither upsd nor upsmon is installed beside this program\n"
        expect(ended([os.path.join(alone, "mulgefa-check"), self.nuts_files()]), (2, "", said), "no program")

    def test_check_in_a_full_folder(self):
        """A copy that can't be written whole changes nothing."""
        small = self.place()
        os.mkdir(small)
        mount = apart("--mount", "sh", "-c", 'mount -t tmpfs -o size=16k none "$0" && TMPDIR="$0" exec "$@"', small)
        folder = self.nuts_files({"ups.conf": "maxretry = 3\n" + "# what is in the rack\n" * 300})
        before = state_of(folder)
        status, _, err = ended([*mount, self.checker, "-i", folder])
        expect((status, state_of(folder)), (2, before), err)
        ensure(err.endswith(": cannot write\n"), f"what it tells: {err}")

    def test_check_tells_every_line(self):
        folder = self.nuts_files({
            "ups.conf": 'maxretry = 3\n[apc]\n driver = usbhid-ups\n port = auto\n vendorid = 051d\n override.battery.charge.low = 30\n',
            "upsd.conf": "#\u00a0a comment\nMAXAGE 20\nSTATEPATH /run/nut\n",
            "upsd.users": '[mon]\n password = "s3 cret"\n actions = set\n upsmon = master\n[guest]\n actions = fsd\n upsmon slave # ours\n',
            "upsmon.conf": 'RUN_AS_USER nut\nMONITOR apc 1 mon "s3 cret" master # mine\nMONITOR apc@rack 0 guest m2 slave\n'
            "NOTIFYCMD /sbin/upssched\n",
        })
        before = state_of(folder)
        told = [
            "upsd.users:3: UnknownWord: actions = set",
            "    change it to: actions = SET",
            "upsd.users:4: BadForm: upsmon = master",
            "    change it to: upsmon primary",
            "upsd.users:6: UnknownWord: actions = fsd",
            "    change it to: actions = FSD",
            "upsd.users:7: UnknownWord: upsmon slave # ours",
            "    change it to: upsmon secondary # ours",
            "upsd.conf:1: Unreadable: # ..",
            "    each byte of the comment that isn't printing ASCII becomes a question mark",
            "upsd.conf:3: UnknownDirective: STATEPATH /run/nut",
            "    take it out: the option -s names the directory of the sockets",
            GOES.format("usbhid-ups"),
            "upsmon.conf:1: UnknownDirective: RUN_AS_USER nut",
            "    take it out: the unit runs one process as root; upsmon(8) has a drop-in for two",
            "upsmon.conf:2: BadName: MONITOR apc 1 .. master",
            "    change it to: MONITOR apc@localhost 1 .. primary",
            "upsmon.conf:3: UnknownWord: MONITOR apc@rack 0 .. slave",
            "    change it to: MONITOR apc@rack 0 .. secondary",
            "note: upssched is NUT's, and isn't part of these packages; see from-nut(7)",
            "ups.conf: left to the drivers: maxretry",
            "ups.conf: left to the driver of apc: vendorid, override.battery.charge.low",
            REFUSED,
        ]
        status, said = self.check(folder)
        expect((status, said.replace(f"{folder}/", "").splitlines()), (1, told), "what is told")
        to = self.place()
        status, said = self.check("-w", to, folder)
        expect((status, said.splitlines()[-1]), (0, f"{folder}/{told[-2]}"), "mulgefa-check -w")
        expect(self.check(to)[0], 0, "mulgefa-check of what it wrote")
        written = {path: (it[0], it[3].decode()) for path, it in state_of(to).items()}
        wanted = {
            "ups.conf": (0o640, "\n[apc]\n driver = usbhid-ups\n port = auto\n\n\n"),
            "upsd.conf": (0o640, "#??a comment\nMAXAGE 20\n\n"),
            "upsd.users": (0o640, '[mon]\n password = "s3 cret"\n actions = SET\n upsmon primary\n[guest]\n actions = FSD\n upsmon secondary # ours\n'),
            "upsmon.conf": (0o600, '\nMONITOR apc@localhost 1 mon "s3 cret" primary # mine\nMONITOR apc@rack 0 guest m2 secondary\nNOTIFYCMD /sbin/upssched\n'),
        }
        expect((written, state_of(folder)), (wanted, before), "what it wrote")

        status, said = self.check("-i", folder)
        expect((status, said.splitlines()[-1]), (0, f"{folder}/upsmon.conf is changed; what it was is {folder}/upsmon.conf.nut"), "mulgefa-check -i")
        written = {path: it[3].decode() for path, it in state_of(folder).items() if path in wanted}
        wanted = {**{path: it[1] for path, it in wanted.items()}, "ups.conf": before["ups.conf"][3].decode()}
        expect(written, wanted, "what it wrote in place: NUT's drivers keep their file")
        status, said = self.check(folder)
        expect((status, said.splitlines()[-1]), (1, REFUSED), "what is still refused")

    def test_check_leaves_a_driver_its_lines(self):
        """Those of NUT's dummy-ups too. Nothing is said of a driver that the package mulgefa-nut-drivers has."""
        folder = self.nuts_files({"ups.conf": "maxretry = 3\n[a]\n driver = dummy-ups\n mode = dummy-loop\n override.ups.id = x\n"})
        before = state_of(folder)
        status, said = self.check("--upsd", "-i", folder)
        kept = f"nothing was written: NUT's drivers need {folder}/ups.conf as it is; -w writes another directory for upsd"
        expect((status, said.splitlines()[-1], state_of(folder)), (1, kept, before), "what it changed")
        folder = self.nuts_files({"ups.conf": "[a]\n driver = usbhid-ups\n[b]\n driver = snmp-ups\n"})
        notes = [GOES.format(driver) + "\n" for driver in ("snmp-ups", "usbhid-ups")]
        expect(self.check("--upsd", folder), (0, "".join(notes)), "without that package")
        script = os.path.join(self.installed("kept/usr"), "sbin/mulgefa-check")
        for path in ("systemd/system/mulgefa-upsd.service.d/nut-drivers.conf", "nut/usbhid-ups"):
            write(os.path.join(self.folder, "kept/lib", path), "")
        expect(self.check("--upsd", folder, script=script), (0, notes[0]), "with one of them in it")
        folder = self.nuts_files({"ups.conf": "maxretry = 3\n[a]\n driver = usbhid-ups\n vendorid = 051d\n"})
        expect(self.check("--upsd", folder, script=script), (0, ""), "lines that upsd's unit leaves to them")

    def test_check_gives_upsd_its_view(self):
        """What upsd's unit calls where NUT's drivers read ups.conf: only upsd's lines of it are copied, in their places, and the other
        files as they are, each time anew. No line is left out without a word, and no password is shown."""
        ups = "\ufeffmaxretry = 3\n# \u00fc\n# plain \\\n[eaton]\n driver = usbhid-ups # ours\n vendorid=051d\n override.ups.id = \\\n  hunter2\n"
        ups += ' "desc" = "A" \\\n "B"\n ignorelb\nhunter3\n\n[ apc ] # x\nport = auto\ndescr = \\\n[last]\n'
        view = "\n\n# plain \\\n[eaton]\n driver = usbhid-ups # ours\n\n\n\n" + ' "desc" = "A" \\\n "B"\n\n\n\n[ apc ] # x\nport = auto\n\n[last]\n'
        told = ["left to the drivers: maxretry", "left to the driver of eaton: vendorid, override.ups.id, line 8, line 11, line 12", "left to the driver of apc: descr"]
        others = {"upsd.conf": "CERTFILE x\n", "upsd.users": "[a]\n actions = set\n"}
        folder = self.nuts_files({"ups.conf": ups, **others})
        for name, mode in (("ups.conf", 0o640), ("upsd.conf", 0o600), ("upsd.users", 0o604)):
            os.chmod(os.path.join(folder, name), mode)
        to = self.place()
        for written in ("at first", "once more"):
            expect(self.check("--for-upsd", to, folder), (0, "".join(f"ups.conf: {line}\n" for line in told)), f"what it says {written}")
            found = {path: (it[0], it[3].decode()) for path, it in state_of(to).items()}
            wanted = {"ups.conf": (0o640, view), "upsd.conf": (0o640, others["upsd.conf"]), "upsd.users": (0o644, others["upsd.users"])}
            expect(found, wanted, f"what it writes {written}")
            expect(mode_of(to), 0o750, "who may look into the directory")
        os.remove(os.path.join(folder, "upsd.conf"))
        found = self.check("--for-upsd", to, folder, TMPDIR="/nowhere")
        expect(found, (0, "".join(f"ups.conf: {line}\n" for line in told)), "a file that has gone, and no room but beside the directory")
        expect(sorted(state_of(to)), ["ups.conf", "upsd.users"], "what is there then")
        expect([it for it in os.listdir(self.folder) if it.startswith("mulgefa-check.")], [], "what is left")
        for words in (("--for-upsd",), ("--for-upsd", to, "-i"), ("--for-upsd", to, "--upsd"), ("--for-upsd", to, "-w", to)):
            expect(self.check(*words)[0], 2, f"mulgefa-check {words}")
        empty = self.place()
        os.mkdir(empty)
        expect(self.check("--for-upsd", to, empty), (2, f"mulgefa-check: {empty}: none of ups.conf, upsd.conf and upsd.users is there\n"), "a directory without files")

    def test_check_changes_all_or_nothing(self):
        """Where a disk becomes full, each file is what it was, and none is left over."""
        conf = "DEBUG_MIN 1\n" + "# what is in the rack\n" * 300
        folder = self.nuts_files({"upsd.users": "[a]\n actions = set\n", "upsd.conf": conf})
        before = state_of(folder)
        small, left = self.place(), self.place()
        for path in (small, left):
            os.mkdir(path)
        # nine pages: six for the files, and not enough for what upsd.conf was and for what it becomes
        mount = apart("--mount", "sh", "-c", 'mount -t tmpfs -o size=36k none "$0" && exec "$@"', small)
        script = 'cp -p "$1"/*.* "$0" && status=0 && { "$2" -i "$0" || status=$?; } && cp -p "$0"/* "$3" && exit "$status"'
        words = [*mount, "sh", "-c", script, small, folder, self.checker, left]
        status, _, err = ended(words)
        ensure(err.endswith(f"mulgefa-check: {small}: cannot write, and no file is changed\n"), f"what it tells: {err}")
        expect(status, 2, "its status")
        found, wanted = ({name: it[3] for name, it in state.items() if "/" not in name} for state in (state_of(left), before))
        expect(found, wanted, "what is there")

    def test_check_changes_in_place(self):
        old, new = "actions = set\n", "actions = SET\n"
        folder = self.nuts_files({"upsd.users": "[a]\n" + old})
        os.chmod(os.path.join(folder, "upsd.users"), 0o604)
        status, said = self.check("-i", folder)
        expect((status, said.splitlines()[-1]), (0, f"{folder}/upsd.users is changed; what it was is {folder}/upsd.users.nut"), "mulgefa-check -i")
        found = {path: it for path, it in state_of(folder).items() if path.startswith("upsd.users")}
        expect({path: (it[0], it[3].decode()) for path, it in found.items()}, {"upsd.users": (0o604, "[a]\n" + new), "upsd.users.nut": (0o604, "[a]\n" + old)}, "its files")
        # NUT's own file stays what it was, however often the file is changed
        kept = {"upsd.users.nut": "[a]\n" + old}
        for number in (2, 3):
            mine = f"[mine{number}]\n" + old
            write(os.path.join(folder, "upsd.users"), mine)
            kept[f"upsd.users.nut.{number}"] = mine
            told = f"{folder}/upsd.users is changed; what it was is {folder}/upsd.users.nut.{number}"
            status, said = self.check("-i", folder)
            expect((status, said.splitlines()[-1]), (0, told), "mulgefa-check -i once more")
            found = {path: it[3].decode() for path, it in state_of(folder).items() if path.startswith("upsd.users")}
            expect(found, {**kept, "upsd.users": f"[mine{number}]\n" + new}, "its files")

    def test_check_leaves_what_people_decide(self):
        folder = self.nuts_files({"upsd.conf": "MAXAGE 0\n", "upsmon.conf": "MINSUPPLIES 1\n"})
        to = self.place()
        status, said = self.check("-w", to, folder)
        told = [
            f"{folder}/upsd.conf:1: BadNumber: MAXAGE 0",
            "    upsd.conf(5) says what may stand there",
            f"{folder}/upsmon.conf: PastLimit: the power values of the MONITOR lines sum to less than MINSUPPLIES",
            "nothing was written: change this by hand first",
        ]
        expect((status, said.splitlines(), os.path.exists(to)), (1, told, False), "what is told")

    def completed(self, line, breaks=" \t\n\"'><=;|&(:@"):
        """Returns what bash offers at the end of a line, with the tools of a scene in place of the programs."""
        program = line.split()[0]
        script = f"""COMP_WORDBREAKS=$BREAKS
            . packaging/completions.bash
            compopt() {{ :; }}
            COMP_LINE=$LINE COMP_POINT=${{#LINE}}
            _mulgefa_{program}
            printf '%s\\n' "${{COMPREPLY[@]}}" """
        env = {"PATH": f"{SCENE}:{os.environ['PATH']}", "LINE": line, "BREAKS": breaks}
        return list(filter(None, self.bash(script, env).splitlines()))

    def bash(self, script, env):
        """Returns what bash prints for a script, which is all that it prints."""
        status, out, err = ended([needed("bash", "bash"), "--norc", "-c", script], cwd=ROOT, env={**os.environ, **env})
        expect((status, err), (0, ""), f"{script} with {env}")
        return out

    def test_completion(self):
        rows = [line.partition(" |") for line in read(os.path.join(SCENE, "offered.txt")).splitlines()[1:]]
        for line, _, offered in rows:
            expect(self.completed(line), offered.strip().split(", ") if offered else [], f"what is offered after {line!r}")
        # if bash splits a word only at blanks, the whole word is offered
        expect(self.completed("upsc su700@rack", " \t\n"), ["su700@rack"], "a whole name")
        # What a server says is text, whatever the shell would make of it.
        expect(self.completed("upsc evil "), ["\\$\\(touch\\ hit\\)", "\\`touch\\ hit\\`", "\\*"], "names that a shell would run")
        expect(os.path.exists(os.path.join(ROOT, "hit")), False, "something was run")

    def test_completion_asks_this_server(self):
        """The built tools are asked: of a server that doesn't run nothing is offered, and nothing is printed."""
        self.needs("upsc", "upsrw", "upscmd")
        for tool in TOOLS:
            script = f'. packaging/completions.bash; COMP_LINE=$LINE COMP_POINT=${{#LINE}}; _mulgefa_{tool}; echo "${{#COMPREPLY[@]}}"'
            env = {"PATH": f"{self.bin}:{os.environ['PATH']}", "LINE": f"{tool} su700@127.0.0.1:1 "}
            expect(self.bash(script, env), "0\n", f"the completion of {tool}")

    def test_install_without_programs(self):
        destination = os.path.join(self.folder, "nothing")
        status, _, said = self.make("install-built", f"BIN={self.folder}", f"DESTDIR={destination}")
        expect((status, "isn't built yet" in said), (2, True), f"what is said: {said}")
        expect(os.path.exists(destination), False, "something was installed")

    def test_install_builds(self):
        """The commands of 'make install': each program is built before anything is installed."""
        status, planned, _ = self.make("--dry-run", "install", f"DESTDIR={self.folder}")
        expect(status, 0, "a dry run")
        lines = planned.splitlines()
        last = max(i for i, line in enumerate(lines) if "packaging/install.sh install" in line)
        for program in programs():
            built = [i for i, line in enumerate(lines) if line.endswith(f" bin/{program}") and line.startswith("cp ")]
            expect(len(built) == 1 and built[0] < last, True, f"{program} is built first")

    def test_units_name_what_is_installed(self):
        prefix = self.installed("units")
        for program in programs():
            if program not in UNITS:
                continue
            text = read(os.path.join(prefix, "lib/systemd/system", UNITS[program]))
            expect("@PREFIX@" in text or "@CONFDIR@" in text, False, f"{program}: places left open")
            started = re.findall(r"^ExecStart=/usr/bin/env --ignore-signal=HUP,XFSZ (\S+)", text, re.MULTILINE)
            expect(started, [os.path.join(prefix, folder_of(program), program)], f"{program} is started")
            expect(os.access(started[0], os.X_OK), True, f"{started[0]} can be run")
            expect(re.findall("^Environment=NUT_CONFPATH=(.*)$", text, re.MULTILINE), ["/etc/nut"], f"{program}: the folder of the configuration")
            expect("${NUT_CONFPATH}" in re.search("^ExecStart=(.*)$", text, re.MULTILINE)[1], True, f"{program} is given that folder")
            for page, section in re.findall(r"man:([^ (]+)\((\d)\)", text):
                path = os.path.join(prefix, f"share/man/man{section}/{page}.{section}")
                expect(os.path.exists(path), True, f"{program}: the page {page}({section})")
        text = read(os.path.join(prefix, "lib/mulgefa/upsmon-apart"))
        expect((f"{prefix}/sbin/upsmon}}" in text, "@PREFIX@" in text), (True, False), "the program of upsmon-apart")
        self.install(f"PREFIX={prefix}", "CONFDIR=/srv/ups")
        for program in UNITS.keys() & set(programs()):
            text = read(os.path.join(prefix, "lib/systemd/system", UNITS[program]))
            expect(("=/srv/ups\n" in text, "/etc/nut" in text), (True, False), f"{program}: another folder")

    def test_settings_of_units(self):
        """The journal has their programs' names, and not 'env', by which units start them. However often a program failed, it is started
        again, and whoever starts it sees that it failed. None waits for a network, which may come up long after a power failure. What
        SHUTDOWNCMD unmounts has to be unmounted for the whole machine, so upsmon's unit has no mounts of its own."""
        folder = os.path.join(ROOT, "packaging")
        expect(sorted(it for it in os.listdir(folder) if it.endswith(".service")), sorted(UNITS.values()), "all units")
        texts = {program: read(os.path.join(folder, unit)) for program, unit in UNITS.items()}
        for program, text in texts.items():
            expect(re.findall("^SyslogIdentifier=(.*)$", text, re.MULTILINE), [program], f"{program}: the name in the journal")
            ensure("Restart=on-failure\nRestartSec=5\n" in text, f"{program}: when it starts again")
            ensure("\nStartLimitIntervalSec=0\n" in text.partition("[Service]")[0], f"{program}: how often it starts again")
            waits = re.findall("^ExecStartPost=-/usr/bin/timeout 5 .*/until-ready [$]{MAINPID} ", text, re.MULTILINE)
            expect(len(waits), 1, f"{program}: its start")
            ensure("network-online" not in text, f"{program} waits for a network")
        expect(OWN_MOUNTS.findall(texts["upsmon"]), [], "mounts of upsmon's unit")
        ensure("ProtectKernelModules=yes" in OWN_MOUNTS.findall(texts["upsd"]), "those of upsd's aren't found")

    def test_units_wait_until_they_answer(self):
        """What starts after a driver or a server finds its socket or its values, and waits for none that has ended or listens
        elsewhere."""
        needed("ip", "iproute2")
        self.needs("upsd", "dummy-ups", "upsc", "upsmon")
        prefix = self.installed("ready")
        room = os.path.join(self.folder, "waiting")
        shutil.copytree(os.path.join(ROOT, "examples"), room)
        words = [*apart("--net"), "bash", os.path.join(HERE, "until_ready.sh")]
        status, out, err = ended(words, cwd=room, timeout=120, env={**os.environ, "prefix": prefix})
        if status == 77:
            raise Missing("no network of its own can be had")
        wanted = "the socket of a late driver: there\nthe status of a late driver: OL\n"
        wanted += "a server elsewhere: 0\nthe shells that wait: 1\na monitor that failed: gone\n"
        wanted += "a driver that ended: 0\na server that ended: 0\n"
        expect((status, out), (0, wanted), err)

    def run_by_unit(self, prefix, program, setting, room, **options):
        """Starts what a setting of a unit runs, with a room in place of the folders that it names. Returns the processes."""
        commands = re.findall(f"^{setting}=[-+]?(.*)$", read(os.path.join(prefix, "lib/systemd/system", UNITS[program])), re.MULTILINE)
        meant = {"${NUT_CONFPATH}": room, "/run/nut": room, "${KIND}": "dev", "%i": "su700"}
        for command in commands:
            words = [re.sub("|".join(map(re.escape, meant)), lambda it: meant[it[0]], word) for word in shlex.split(command)]
            yield subprocess.Popen(
                words, env={**os.environ, "NUT_CONFPATH": room}, stdin=subprocess.DEVNULL, start_new_session=True,
                **{"stdout": subprocess.PIPE, "stderr": subprocess.STDOUT, **options},
            )

    def test_units_ignore_hangup(self):
        """SIGHUP to all processes of a unit ends none of them, and keeps no machine from being stopped."""
        self.halt_by_units("hangup", lambda process: os.killpg(process.pid, signal.SIGHUP))

    def test_units_outlive_the_room_for_their_log(self):
        """A log file that may not grow any more ends no program of a unit, and keeps no machine from being stopped."""
        most = (1, 1)
        with tempfile.TemporaryFile(dir=self.folder) as log:
            options = {"stdout": log, "stderr": log, "preexec_fn": lambda: resource.setrlimit(resource.RLIMIT_FSIZE, most)}
            self.halt_by_units("full-log", lambda _: expect(os.fstat(log.fileno()).st_size, 1, "the log"), **options)

    def halt_by_units(self, name, disturb, **options):
        """Runs the units' programs, which have to outlive this disturbance, and then halts the machine."""
        self.needs("upsd", "dummy-ups", "upsmon")
        prefix = self.installed(name)
        room = os.path.join(self.folder, f"room of {name}")
        shutil.copytree(os.path.join(ROOT, "examples"), room)
        port = free_port()
        write(os.path.join(room, "upsd.conf"), f"LISTEN 127.0.0.1 {port}\n")
        halts = f"SHUTDOWNCMD \"mkdir '{room}/halted'\"\nFINALDELAY 0\nHOSTSYNC 0\nPOLLFREQ 1\n"
        write(os.path.join(room, "upsmon.conf"), f"MONITOR su700@127.0.0.1:{port} 1 monuser m1 primary\n{halts}")
        write(os.path.join(room, "su700.dev"), "ups.status: OL\n")
        running = {}
        try:
            for program in UNITS:
                (running[program],) = self.run_by_unit(prefix, program, "ExecStart", room, **options)
                until(lambda: os.path.basename(os.readlink(f"/proc/{running[program].pid}/exe")) == program, f"{program} has begun")
                time.sleep(1)
            for process in running.values():
                disturb(process)
            time.sleep(1)
            expect([program for program, process in running.items() if process.poll() is not None], [], "what has ended")
            running["dummy-ups"].kill()
            running["dummy-ups"].wait()
            write(os.path.join(room, "su700.dev"), "ups.status: OB LB\n")
            (running["dummy-ups"],) = self.run_by_unit(prefix, "dummy-ups", "ExecStart", room, **options)
            said, _ = running["upsmon"].communicate(timeout=60)
            expect((running["upsmon"].returncode, os.path.isdir(f"{room}/halted")), (0, True), f"the halt: {said}")
        finally:
            for process in running.values():
                process.kill()
                process.communicate()

    def test_units_refuse_to_reload_faults(self):
        """A reload by a unit fails at a fault, names the line, and asks for nothing."""
        self.needs("upsd", "upsmon")
        prefix = self.installed("reload")
        room = os.path.join(self.folder, "reloaded")
        shutil.copytree(os.path.join(ROOT, "examples"), room)
        for program, name in (("upsd", "upsd.conf"), ("upsmon", "upsmon.conf")):
            for fault, status in (("", 0), ("FAULTY\n", 1)):
                text = read(os.path.join(ROOT, "examples", name))
                write(os.path.join(room, name), fault + text)
                ended = []
                for process in self.run_by_unit(prefix, program, "ExecReload", room):
                    said = process.communicate(timeout=60)[0].decode()
                    ended.append((process.returncode, f"{program}: {name}:1: UnknownDirective\n" in said))
                    if process.returncode:
                        break
                expect(ended[-1], (status, bool(fault)), f"a reload by the unit of {program}: {said}")
                expect(os.path.exists(os.path.join(room, "reload")), not fault, "a reload is asked for")
                if not fault:
                    os.remove(os.path.join(room, "reload"))
            shutil.copy(os.path.join(ROOT, "examples", name), room)

    def test_units_are_read_by_systemd(self):
        analyze = needed("systemd-analyze", "systemd")
        prefix = self.installed("systemd")
        folder = os.path.join(prefix, "lib/systemd/system")
        env = {**os.environ, "SYSTEMD_UNIT_PATH": folder + ":", "MANPATH": os.path.join(prefix, "share/man")}
        for name in sorted(os.listdir(folder)):
            status, _, err = ended([analyze, "verify", os.path.join(folder, name)], env=env)
            expect((status, err), (0, ""), name)

    def test_pages_format_without_warnings(self):
        groff = needed("groff", "groff-base")
        for page in sorted(os.listdir(os.path.join(ROOT, "man"))):
            words = [groff, "-man", "-ww", "-Tascii", "-P-cbou", os.path.join(ROOT, "man", page)]
            status, text, err = ended(words)
            expect((status, err), (0, ""), page)
            for heading in ("NAME", "DESCRIPTION", "EXAMPLES", "SEE ALSO"):
                expect(heading in text, True, f"{page}: {heading}")

    def test_pages_refer_to_pages(self):
        for page in os.listdir(os.path.join(ROOT, "man")):
            text = read(os.path.join(ROOT, "man", page))
            for name, section in re.findall(r"(?:^\.BR |\\fB)(\S+?)(?: |\\fR)\((\d)\)", text, re.MULTILINE):
                if name in ("getent", "resolv.conf", "setpriv", "syslog", "systemd.exec"):  # the system's
                    continue
                other = f"{name.replace(chr(92), '')}.{section}"
                expect(os.path.exists(os.path.join(ROOT, "man", other)), True, f"{page}: {other}")

    def test_pages_have_every_option(self):
        """Each option of a program's help is in its page, and the page has no other."""
        if not self.built:
            raise Missing("no built program was handed in")
        for program in [*self.built, "nutroom"]:
            words = [os.path.join(self.bin, program)] if program in self.built else [sys.executable, os.path.join(ROOT, "tools", program)]
            status, out, _ = ended([*words, "--help"])
            expect(status, 0, f"{program} --help")
            options = set(re.findall(r"(?<![\w-])--?[A-Za-z][a-z]*", re.split("[Oo]ption[a-z ]*:\n", out)[1]))
            text = read(os.path.join(ROOT, "man", f"{program}.8")).replace("\\-", "-").replace("\\~", " ")
            section = re.search(r"^\.SH OPTIONS\n(.*?)^\.SH", text, re.MULTILINE | re.DOTALL)[1]
            heads = re.findall(r"^\.T[PQ]\n(.*)$", section, re.MULTILINE)
            found = set(re.findall(r"(?<![\w-])--?[A-Za-z][a-z]*", "\n".join(re.sub(r"^\.B[IR]?", "", it) for it in heads)))
            expect(sorted(found), sorted(options), f"the options of {program}")


def main():
    with tempfile.TemporaryDirectory() as folder:
        tests = Tests([os.path.abspath(path) for path in sys.argv[1:]], folder)
        return run_tests(tests, install="'apt-get install groff-base systemd' installs what they need")


if __name__ == "__main__":
    sys.exit(main())
