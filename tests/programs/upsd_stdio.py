"""Runs upsd over standard streams as its users do, and with each allocation, read and write of a run failing in turn.

    python3 -m tests.programs.upsd_stdio UPSD [PART OF A NAME..]"""

import contextlib
import errno
import itertools
import os
import shutil
import subprocess
import sys

from tests.programs.files import faults_of_each_kind
from tests.support.harness import Failed, Missing, ROOT, Shimmed, VERSION_SHOWN, cannot_read, children_time, ended_in_bytes, ensure, expect
from tests.support.harness import needs_proved_build, play, read_bytes, refusal, refusals, unread, write
from tests.support.room import VERSION, until

ROOM = ["--stdio", "--ups", "su700=Server room"]
EXAMPLES = ["--stdio", "--conf", os.path.join(ROOT, "examples")]
USAGE = b"""
Usage: upsd [OPTIONS] --conf <DIR> -s <SOCKDIR>
       upsd --check [--conf <DIR> [-s <SOCKDIR>]]
       upsd --stdio [--conf <DIR> | --ups <NAME=DESC>...]
"""

LIST = b'BEGIN LIST UPS\nUPS su700 "Server room"\nEND LIST UPS\n'
# the descriptions that NUT has, where Debian's package puts them
NUT_DESCRIPTIONS = "/usr/share/nut/cmdvartab"
DESCRIPTION = b'UPSDESC su700 "Server room"\n'
GOODBYE = b"OK Goodbye\n"


def error(name):
    return b"ERR " + name.encode() + b"\n"


def unreadable(path, why):
    """The result of a run that can't read this file."""
    return 1, b"", cannot_read("upsd", os.path.basename(path), path, why).encode()


# requests and the replies due, in turn
MIXED = [
    (b"ver\n", VERSION),
    (b"GET UPSDESC x\n", error("UNKNOWN-UPS")),
    (b"FOO\n", error("UNKNOWN-COMMAND")),
    (b'"a\n', error("INVALID-ARGUMENT")),
    (b"\n", b""),
    (b'get "upsdesc" su\\700\n', DESCRIPTION),
    (b"LIST UPS # all of them\r\n", LIST),
    (b"LOGOUT\n", GOODBYE),
    (b"VER\n", b""),
]
# as many UPSes as there may be
MANY = [f"u{i}=d" for i in range(32)]
ASKED, DUE = map(b"".join, zip(*MIXED))


def ups_options(upses):
    return itertools.chain.from_iterable(("--ups", ups) for ups in upses)


class Tests(Shimmed):
    def __init__(self, upsd, folder):
        self.upsd, self.folder = upsd, folder

    def run(self, args, data=b"", env=None, **streams):
        if "stdin" not in streams:
            streams["input"] = data
        return ended_in_bytes([self.upsd, *args], env={**os.environ, **(env or {})}, **streams)

    def expect_usage(self, args, data=b""):
        """Expects that these words are refused. Returns what is said of them."""
        status, out, err = self.run(args, data)
        expect((status, out, err != b""), (2, b"", True), f"{args}")
        return err

    def refused_in_turn(self, kind, args, asked, due):
        """Runs with the first call of a kind failing, then with the second, and so on. Yields the number of each call that
        failed with the result of that run. It ends at a call that isn't reached; that run has to print the answers due."""
        for at, env, is_reached in refusals(self.shim, kind):
            found = self.run(args, asked, env)
            if not is_reached():
                expect(found, (0, due, b""), f"{kind} {at}, which isn't reached")
                break
            yield at, found
        if at < 2:
            raise Failed(f"no {kind} was seen")

    def conf(self, **texts):
        """Writes a folder's files, each under its name with '_' for '.', where the text isn't None; without a text three are
        empty, and cmdvartab isn't there. It gives the arguments of a run by them."""
        folder = os.path.join(self.folder, "conf")
        shutil.rmtree(folder, ignore_errors=True)
        os.mkdir(folder)
        for name, text in {"ups_conf": b"", "upsd_users": b"", "upsd_conf": b"", **texts}.items():
            if text is not None:
                write(os.path.join(folder, name.replace("_", ".")), text)
        return ["--stdio", "--conf", folder]

    def cut(self, data, at):
        """Returns the exit status of a run whose input comes in two writes, and what it prints. The second part is written once
        the first has been read."""
        process = subprocess.Popen([self.upsd, *ROOM], stdin=subprocess.PIPE, stdout=subprocess.PIPE, bufsize=0)
        with contextlib.suppress(BrokenPipeError):
            process.stdin.write(data[:at])
            until(lambda: unread(process.stdin) == 0 or process.poll() is not None, "the first part is read", pause=0.001)
            process.stdin.write(data[at:])
        out, _ = process.communicate(timeout=60)
        return process.returncode, out

    def test_requests_cut_anywhere(self):
        for at in range(len(ASKED) + 1):
            expect(self.cut(ASKED, at), (0, DUE), f"cut at {at}")

    def test_requests_byte_by_byte(self):
        for kind in ("short-read", "short-write"):
            expect(self.run(ROOM, ASKED, refusal(self.shim, kind, 1)), (0, DUE, b""), kind)

    def test_streams_that_are_closed(self):
        """Nothing that is opened takes the place of one: a closed stream fails as a broken one does."""
        for args in (ROOM, EXAMPLES):
            for closed, end in (
                ((0,), (1, b"", b"upsd: input failed\n")),
                ((1,), (1, b"", b"upsd: output failed\n")),
                ((2,), (0, VERSION, b"")),
                ((1, 2), (1, b"", b"")),
                ((0, 1, 2), (1, b"", b"")),
            ):
                found = self.run(args, b"VER\n", preexec_fn=lambda closed=closed: [os.close(it) for it in closed])
                expect(found, end, f"{args} without the streams {closed}")

    def test_unfinished_line(self):
        expect(self.run(ROOM, b"VER"), (0, b"", b""), "a line without its line feed")
        expect(self.run(ROOM, b"VER\nVER"), (0, VERSION, b""), "the line before is answered")
        expect(self.run(ROOM, b""), (0, b"", b""), "no input")

    def test_long_lines(self):
        invalid = error("INVALID-ARGUMENT")
        expect(self.run(ROOM, b"VER" + b" " * 2045 + b"\n"), (0, VERSION, b""), "2,048 bytes")
        expect(self.run(ROOM, b"VER" + b" " * 2046 + b"\nVER\n"), (0, invalid + VERSION, b""), "2,049 bytes")
        expect(self.run(ROOM, b"a" * 100_000 + b"\nVER\n"), (0, invalid + VERSION, b""), "100,000 bytes")

    def test_no_ups(self):
        expect(self.run(["--stdio"], b"LIST UPS\n"), (0, b"BEGIN LIST UPS\nEND LIST UPS\n", b""), "no UPS")

    def test_several_ups(self):
        args = ["--stdio", "--ups", "b=x", "--ups", 'A.b_c-1=a "b" \\ # = ~c', "--ups", "empty="]
        rows = b'UPS b "x"\nUPS A.b_c-1 "a \\"b\\" \\\\ \\# = ~c"\nUPS empty ""\n'
        found = self.run(args, b"LIST UPS\n")
        expect(found, (0, b"BEGIN LIST UPS\n" + rows + b"END LIST UPS\n", b""), "in the order given")

    def test_ups_faults(self):
        for kind, *cases in (
            ("BadForm", ["su700"], [""]),
            ("BadName", ["=d"], ["a b=d"], ["\u00e9=d"]),
            ("PastLimit", ["a" * 33 + "=d"], ["a=" + "d" * 129], [*MANY, "more=d"]),
            ("Repeated", ["a=d", "a=e"]),
            ("Unreadable", ["a=\t"], ["a=\u00e9"], ["a=\x7f"]),
            # two faults: the first in the order of tests is reported
            ("BadForm", [" " * 40], [*MANY, "more"]),
            ("BadName", ["\u00e9" * 40 + "=\t"], ["!" + "a" * 32 + "=d"], [*MANY, "more!=d"]),
            ("PastLimit", ["a" * 33 + "=\t"], [*MANY, "u1=d"], [*MANY, "more=\t"]),
            ("Repeated", ["a=d", "a=\t"]),
            ("Unreadable", ["a=\t", "b"]),
        ):
            for upses in cases:
                found = self.run(["--stdio", *ups_options(upses)], b"LIST UPS\n")
                expect(found, (1, b"", f"upsd: --ups: {kind}\n".encode()), f"{upses}")
        for upses in (["a" * 32 + "=" + "d" * 128], MANY):
            expect(self.run(["--stdio", *ups_options(upses)], b"")[0], 0, f"{upses} are within the limits")

    def test_command_lines(self):
        for args in (
            [], ["--ups", "a=b"], ["--stdio", "--nothing"], ["--stdio", "more"], ["--stdio", "--ups"], ["--stdio", "--conf"],
            [*EXAMPLES, "--ups", "a=b"], [*EXAMPLES, "--conf", "x"], ["--stdio", "-B"], ["-c", "reload"], ["-u", "nut"], ["-F", "-F"],
        ):
            self.expect_usage(args, b"VER\n")
        for args in ([], ["-s", "x"]):
            err = self.expect_usage(args)
            expect((USAGE in err, b"from-nut" in err), (True, False), f"what is said of {args}: {err}")
        # NUT's options that ask for what is done anyway
        for args in (["-F"], ["-D"], ["-DDD"], ["-D", "-F", "-DD"]):
            expect(self.run([*args, *ROOM], b"VER\n"), (0, VERSION, b""), f"with {args}")
        ensure(b"cannot be used with" in self.expect_usage(["--stdio", "-q"], b"VER\n"), "what --stdio -q gives")
        invalid = b"error: invalid UTF-8 was detected in one or more arguments\n"
        expect(self.run([b"--stdio", b"--ups", b"a=\xff"]), (2, b"", invalid), "words that are no text")
        for args, word in ((["--help"], b"--ups"), (["--version"], f"upsd {VERSION_SHOWN}\n".encode())):
            status, out, err = self.run(args)
            expect((status, word in out, err), (0, True, b""), f"{args}")

    def test_conf_faults(self):
        """A start says of a fault what --check says. tests/programs/files.py has all of them."""
        for name, text, fault, meant in faults_of_each_kind():
            wanted = (1, b"", f"upsd: {name}:{fault}\nupsd: {meant}\n".encode())
            expect(self.run(self.conf(**{name.replace(".", "_"): text}), b"LIST UPS\n"), wanted, f"{name}: {text[:40]!r}")

    def test_conf_that_cannot_be_read(self):
        for name in ("ups.conf", "upsd.users", "upsd.conf", "cmdvartab"):
            args = self.conf(**{name.replace(".", "_"): None})
            path = os.path.join(args[-1], name)
            # only cmdvartab may be left out
            without = (0, VERSION, b"") if name == "cmdvartab" else unreadable(path, errno.ENOENT)
            expect(self.run(args, b"VER\n"), without, f"no {name}")
            not_plain = unreadable(path, "not a plain file")
            os.mkdir(path)
            expect(self.run(args, b"VER\n"), not_plain, f"{name} is a folder")
            os.rmdir(path)
            for target, wanted, what in ((name, unreadable(path, errno.ELOOP), "itself"), ("/dev/zero", not_plain, "a device")):
                os.symlink(target, path)
                expect(self.run(args, b"VER\n"), wanted, f"{name} is a link to {what}")
                os.remove(path)
            # nobody writes to it, so a read would wait for ever
            os.mkfifo(path)
            expect(self.run(args, b"VER\n"), not_plain, f"{name} is a pipe")
            os.remove(path)
            if os.geteuid() != 0:
                write(path, b"", 0)
                expect(self.run(args, b"VER\n"), unreadable(path, errno.EACCES), f"{name} may not be read")
        for folder, why in ((os.path.join(self.folder, "no-such-folder"), errno.ENOENT), (self.upsd, errno.ENOTDIR), ("", errno.ENOENT)):
            wanted = unreadable(os.path.join(folder, "ups.conf"), why)
            expect(self.run(["--stdio", "--conf", folder], b"VER\n"), wanted, f"the folder {folder!r}")

    def test_descriptions_of_nut(self):
        if not os.path.exists(NUT_DESCRIPTIONS):
            raise Missing(f"{NUT_DESCRIPTIONS} isn't installed (Debian's package nut-server)")
        args = self.conf(cmdvartab=read_bytes(NUT_DESCRIPTIONS))
        expect(self.run(args, b"VER\n"), (0, VERSION, b""), "NUT's descriptions")

    def test_conf_in_order(self):
        bad = b"[a]\n[a]\n"
        users = os.path.join(self.folder, "conf", "upsd.users")
        for texts, fault in (
            ({"ups_conf": bad, "upsd_users": None, "upsd_conf": None}, b"upsd: ups.conf:2: Repeated\nupsd: [a]: a line before has it\n"),
            ({"upsd_users": bad, "upsd_conf": None}, b"upsd: upsd.users:2: Repeated\nupsd: [a]: a line before has it\n"),
            ({"upsd_users": None, "upsd_conf": bad}, unreadable(users, errno.ENOENT)[2]),
            (
                {"upsd_conf": bad, "cmdvartab": b"VARDESC a"},
                b"upsd: upsd.conf:1: UnknownDirective\nupsd: [a] isn't taken here: see from-nut(7)\n",
            ),
        ):
            expect(self.run(self.conf(**texts), b"VER\n"), (1, b"", fault), f"{texts}")
            expect(self.run(["--check", *self.conf(**texts)[1:]]), (1, b"", fault), f"--check {texts}")

    def test_word_that_memory_is_refused_for(self):
        """The fault is reported, or that memory for its file is refused; and its word, or else the file's name, if there is
        memory for it."""
        args = self.conf(ups_conf=b"maxretry = 3\n")
        fault = b"upsd: ups.conf:1: OutsideSection\n"
        word = b"upsd: maxretry isn't taken here: see from-nut(7)\n"
        seen = set()
        for at, env, is_reached in refusals(self.shim):
            found = self.run(args, b"", env)
            if not is_reached():
                expect(found, (1, b"", fault + word), f"allocation {at}, which isn't reached")
                break
            seen.add(found)
        # some memory that is taken isn't needed by the program
        seen.discard((1, b"", fault + word))
        meant = b"upsd: a directive of ups.conf is meant\n"
        expect(seen, {(1, b"", b"upsd: out of memory\n"), (1, b"", fault), (1, b"", fault + meant)}, "what is told where memory is refused")

    def test_check(self):
        args = self.conf()[1:]
        folder = args[-1]
        os.chmod(os.path.join(folder, "upsd.users"), 0o600)
        for words in (args, [*args, "-q"], [*args, "-s", "/nowhere"]):
            expect(self.run(["--check", *words]), (0, b"", b""), f"--check {words}")
        named = {"NUT_CONFPATH": folder}
        expect(self.run(["--check"], env=named), (0, b"", b""), "NUT_CONFPATH")
        cannot = unreadable("/nowhere/ups.conf", errno.ENOENT)
        expect(self.run(["--check", "--conf", "/nowhere"], env=named), cannot, "--conf comes first")
        expect(self.run(["--check"], env={"NUT_CONFPATH": "/nowhere"}), cannot, "a folder that isn't there")
        expect(self.run(["--check"], env={"NUT_CONFPATH": ""}), self.run(["--check", "--conf", "/etc/nut"]), "an empty NUT_CONFPATH")
        os.chmod(os.path.join(folder, "upsd.users"), 0o604)
        warning = b"upsd: upsd.users holds passwords, and everybody can read it (mode 604)\n"
        expect(self.run(["--check", *args]), (0, b"", warning), "a file that everybody can read")
        for words in (["--check", "--stdio"], ["--check", "-s", folder], ["--check", *args, "--ups", "a=b"], ["--check", "more"]):
            self.expect_usage(words)

    def test_conf_is_served(self):
        asked = b"LIST UPS\nGET UPSDESC su700\nLOGOUT\n"
        expect(self.run(EXAMPLES, asked), (0, LIST + DESCRIPTION + GOODBYE, b""), "examples")
        expect(self.run(self.conf(), b"LIST UPS\n"), (0, b"BEGIN LIST UPS\nEND LIST UPS\n", b""), "empty files")
        rows = b'UPS b "Unavailable"\nUPS a "say \\"hi\\""\nUPS c ""\n'
        for text in (
            b'[b]\n[a]\ndesc = "say \\"hi\\""\n[c]\ndesc=""\n',
            b'[b]\r\n\r\n[a]\r\ndesc = "say \\"hi\\""\r\n[c]\r\ndesc=""',
        ):
            found = self.run(self.conf(ups_conf=text), b"LIST UPS\n")
            expect(found, (0, b"BEGIN LIST UPS\n" + rows + b"END LIST UPS\n", b""), f"{text}")

    def test_conf_of_the_greatest_length(self):
        needs_proved_build("processor times")
        worst = 0.0
        for line in (b"\n", b"actions = SET\n", b"# " + b"x" * 509 + b"\n"):
            text = b"[a]\n" + line * (1_048_572 // len(line))
            args = self.conf(upsd_users=text.ljust(1_048_576))
            used = children_time()
            expect(self.run(args, b"VER\n"), (0, VERSION, b""), f"lines {line[:20]!r}")
            worst = max(worst, children_time() - used)
        print(f"   1,048,576 bytes take at most {worst:.3f} s of processor time")
        if worst > 1:
            raise Failed(f"a file of 1,048,576 bytes took {worst:.3f} s of processor time")

    def test_huge_conf_is_not_taken_into_memory(self):
        args = self.conf()
        with open(os.path.join(args[-1], "upsd.users"), "wb") as file:
            file.truncate(1 << 40)
        found = self.run(args, b"VER\n")
        said = b"upsd: upsd.users:0: PastLimit\nupsd: a file has at most 1048576 bytes\n"
        expect(found, (1, b"", said), "a file of 1 TiB")

    def test_conf_byte_by_byte(self):
        env = refusal(self.shim, "short-file-read", 1)
        expect(self.run(EXAMPLES, b"LIST UPS\n", env), (0, LIST, b""), "files read byte by byte")

    def test_each_read_of_a_file_refused(self):
        told = set()
        for at, (status, out, err) in self.refused_in_turn("file-read", EXAMPLES, b"LIST UPS\n", LIST):
            expect((status, out, b": cannot read\nupsd: " in err), (1, b"", True), f"read {at}: {err!r}")
            told.add(err)
        expect(len(told), 3, "files of which a read failed")

    def test_failing_devices(self):
        with open("/dev/full", "wb") as full:
            expect(self.run(ROOM, b"VER\n", stdout=full), (1, None, b"upsd: output failed\n"), "an output that is full")
        folder = os.open("/", os.O_RDONLY)
        expect(self.run(ROOM, stdin=folder), (1, b"", b"upsd: input failed\n"), "an input that is a folder")
        os.close(folder)

    def test_each_read_and_write_refused(self):
        for kind, stream in (("read", b"input"), ("write", b"output")):
            for at, (status, out, err) in self.refused_in_turn(kind, ROOM, ASKED, DUE):
                expect((status, err), (1, b"upsd: " + stream + b" failed\n"), f"{kind} {at}")
                ensure(DUE.startswith(out), f"{kind} {at}: {out!r} is no front of the answers due")

    def test_each_allocation_refused(self):
        many = b"".join(b"VARDESC v%d x\n" % i for i in range(40))
        described = self.conf(ups_conf=b'[su700]\ndesc = "Server room"\n', cmdvartab=b'VARDESC a "\\"x\\""\nCMDDESC b y\n' + many)
        for args in (ROOM, EXAMPLES, described):
            self.refuse_allocations(args)

    def refuse_allocations(self, args):
        """Refuses each allocation of a run in turn: the run ends before it serves, or after a line."""
        asked = b"".join(it for it, _ in MIXED)
        fronts = list(itertools.accumulate((it for _, it in MIXED), initial=b""))
        refused = served = 0
        for at, (status, out, err) in self.refused_in_turn("allocation", args, ASKED, DUE):
            refused += 1
            if status == 0:
                served += 1
                expect((out in fronts, err), (True, b""), f"allocation {at}: {out!r}")
            else:
                expect((status, out, err), (1, b"", b"upsd: out of memory\n"), f"allocation {at}")
        print(f"   {refused} allocations refused in turn, {served} of them while lines were answered")


if __name__ == "__main__":
    sys.exit(play(Tests, 1))
