"""What the tests of built programs share: how a check fails, how calls of a program are made to fail, how tests are run and
counted, how a test is skipped on programs that nothing has proved, and how much processor time programs take, which the
benches use, too."""

import array
import collections
import contextlib
import fcntl
import functools
import itertools
import os
import re
import resource
import shutil
import subprocess
import sys
import tempfile
import termios
import threading
import time
import traceback
from concurrent import futures

HERE = os.path.dirname(os.path.abspath(__file__))
# the root of the repository
ROOT = os.path.dirname(os.path.dirname(HERE))

# the version of this project, and what every program prints after its name for --version
VERSION = "1.0"
VERSION_SHOWN = f"(Mulgefa) {VERSION} profile 1.3"


def read_bytes(path):
    """Returns what a file holds."""
    with open(path, "rb") as file:
        return file.read()


def read(path):
    """Returns the text of a file."""
    return read_bytes(path).decode(errors="replace")


def table(name):
    """Returns the lines of a table in a file here, without its comments, which begin with '--'."""
    return [line for line in read(os.path.join(HERE, name)).splitlines() if not line.startswith("--")]


def sections(name):
    """Yields the sections of such a table: a heading, which stands behind '== ', and the lines below it."""
    for section in "\n".join(table(name)).removeprefix("== ").split("\n== "):
        heading, *lines = section.split("\n")
        yield heading, lines


def spelled(text):
    """Returns what a table means by a text. Backslashes are those of Python; {COUNT*PART} repeats a part, in which %d is its number from
    0 on."""
    repeated = lambda found: "".join(found[2].replace("%d", str(number)) for number in range(int(found[1])))
    return re.sub(r"\{(\d+)\*([^}]*)\}", repeated, text.encode().decode("unicode_escape"))


def write(path, data, mode=None):
    """Writes a text or bytes to a file, with this mode if one is given, in a folder that is made if there is none. Returns the
    path."""
    os.makedirs(os.path.dirname(path) or ".", exist_ok=True)
    with open(path, "wb") as file:
        file.write(data.encode() if isinstance(data, str) else data)
    if mode is not None:
        os.chmod(path, mode)
    return path


def ended_in_bytes(words, **options):
    """Runs a program to its end, without input and for at most a minute if the options don't say otherwise. Returns its status, and
    what it wrote to standard output and to standard error."""
    streams = {"stdout": subprocess.PIPE, "stderr": subprocess.PIPE, **({} if "input" in options else {"stdin": subprocess.DEVNULL})}
    done = subprocess.run(words, **{**streams, "timeout": 60, **options})
    return done.returncode, done.stdout, done.stderr


def ended(words, **options):
    """Does the same as `ended_in_bytes`, and returns what the program wrote as text."""
    status, *written = ended_in_bytes(words, **options)
    return status, *((it or b"").decode(errors="replace") for it in written)


def processor_time(pid):
    """Returns how many seconds of processor time a process has used."""
    fields = read(f"/proc/{pid}/stat").rsplit(")", 1)[1].split()
    return (int(fields[11]) + int(fields[12])) / os.sysconf("SC_CLK_TCK")


def expect_rest(process, seconds, most, what):
    """Expects that a process uses no more than so many seconds of processor time in this time."""
    used = processor_time(process.pid)
    time.sleep(seconds)
    used = processor_time(process.pid) - used
    ensure(used <= patience(most), f"{used:.2f} s of processor time are used: {what}")


def children_time():
    """Returns how many seconds of processor time the ended children of this process have used, with their own ended children."""
    used = resource.getrusage(resource.RUSAGE_CHILDREN)
    return used.ru_utime + used.ru_stime


def unread(pipe):
    """Returns how many bytes wait in a pipe."""
    count = array.array("i", [0])
    fcntl.ioctl(pipe, termios.FIONREAD, count)
    return count[0]


def status_of(pid):
    """Returns what the system says about a process, by its names."""
    with open(f"/proc/{pid}/status") as file:
        return dict(line.split(":", 1) for line in file if ":" in line)


def has_read_all(process):
    """Waits until a process has read all of its input, which is still open. Returns False if it ended."""
    while process.poll() is None:
        status = status_of(process.pid)
        if unread(process.stdin) == 0 and status["State"].split()[0] == "S":
            return True
        time.sleep(0.001)
    return False


# the last line of what a program of NUT's name writes if it doesn't know a word of its command line
NUTS_OPTIONS = "{}: for NUT options that are not supported, see from-nut(7)\n"


class Failed(Exception):
    """A program doesn't do what it has to."""


class Missing(Exception):
    """Something that a test needs isn't installed here."""


@functools.lru_cache(maxsize=None)
def built_without_proof():
    """Whether tools/tried has built the programs that this test was given. They hold AddressSanitizer, which takes most of the
    address space, and are some ten times slower than proved ones."""
    return any(b"AddressSanitizer" in read_bytes(it) for it in filter(os.path.isfile, sys.argv[1:]))


def patience(seconds):
    """Returns how many seconds a run may take that takes at most this many on a proved build."""
    return 10 * seconds if built_without_proof() else seconds


def fewer(count):
    """Returns how many random runs are played, or requests answered in a time, of so many on a proved build."""
    return count // 10 if built_without_proof() else count


def needs_proved_build(what):
    """Skips a test of something that can't be seen on a program that was built without proof."""
    if built_without_proof():
        raise Missing(f"a build without proof doesn't show {what}")


def apart(*words):
    """Returns the words that run a command in namespaces of its own: 'unshare' with these words behind it, as root there."""
    owner = ["--map-root-user"] if os.geteuid() else []
    command = ["unshare", *owner, *words]
    try:
        probe = subprocess.run([*command, "true"], stdin=subprocess.DEVNULL, capture_output=True, timeout=60)
    except FileNotFoundError:
        raise Missing("unshare isn't there") from None
    if probe.returncode:
        raise Missing(f"no namespaces here: {probe.stderr.decode().strip()}")
    return command


def needed(name, package, folders=()):
    """Returns the path of a program of one of Debian's packages, which is looked for in these folders first."""
    path = shutil.which(name, path=os.pathsep.join([*folders, os.environ.get("PATH", os.defpath)]))
    if path is None:
        raise Missing(f"{name} isn't installed (Debian's package {package})")
    return path


def expect(found, wanted, what):
    if found != wanted:
        raise Failed(f"{what}: found {found!r}, wanted {wanted!r}")


def ensure(holds, what):
    if not holds:
        raise Failed(what)


def named_error(number):
    """Returns what a program writes of a system error."""
    return f"{os.strerror(number)} (os error {number})"


def cannot_read(program, file, path, why):
    """Returns what a program writes of a file that it can't read, why being a text or the number of a system error."""
    return f"{program}: {file}: cannot read\n{program}: {path}: {named_error(why) if isinstance(why, int) else why}\n"


def cannot_listen(program, where, why):
    """Returns what a program writes of an address or a socket at which it can't listen, why being as for `cannot_read`."""
    return f"{program}: cannot listen on {where}\n{program}: {named_error(why) if isinstance(why, int) else why}\n"


def build_library(name, folder):
    """Builds a library that is preloaded into programs from its C file here. Returns its path. Tests that run beside each other
    may build the same one."""
    library = os.path.join(folder, f"{name}.so")
    built = f"{library}-{threading.get_ident()}"
    compiler = shutil.which("cc") or shutil.which("clang")
    if compiler is None:
        raise Missing("there is no C compiler (cc or clang)")
    subprocess.run([compiler, "-shared", "-fPIC", "-o", built, os.path.join(HERE, f"{name}.c"), "-ldl"], check=True)
    os.replace(built, library)
    return library


def build_shim(folder):
    """Builds the library that makes a program's calls fail. Returns its path."""
    return build_library("refuse", folder)


class Shimmed:
    """What has a folder, and in it the library that makes a program's calls fail. It is built when a test first needs it, so
    that a lack of a compiler skips no other test."""

    @functools.cached_property
    def shim(self):
        return build_shim(self.folder)

    def refusing_starts(self, file, **settings):
        """Returns the environment of a program that can start no process while this file is there."""
        return {**os.environ, "LD_PRELOAD": self.shim, "REFUSE_STARTS": file, **settings}

    def refusing_memory(self, file):
        """Returns the environment of a program for which no allocation succeeds while this file is there."""
        return {**os.environ, "LD_PRELOAD": self.shim, "REFUSE": "memory", "REFUSE_ONCE": file}


@contextlib.contextmanager
def streams_without_readers():
    """Yields options with which a program is started whose output nobody gets, each with a name: a pipe that nobody reads, a full
    disk, and streams that are closed from the start, whose descriptors no socket may get."""
    reader, writer = os.pipe()
    os.close(reader)
    try:
        with open("/dev/full", "wb") as full:
            yield {
                "standard output that nobody reads": {"stdout": writer},
                "both streams that nobody reads": {"stdout": writer, "stderr": writer},
                "both on a full disk": {"stdout": full, "stderr": full},
                "both closed": {"preexec_fn": lambda: os.closerange(1, 3)},
                "all closed": {"preexec_fn": lambda: os.closerange(0, 3)},
            }
    finally:
        os.close(writer)


class FullPipe:
    """A pipe that takes nothing more until it is read."""

    def __init__(self):
        self.reader, self.writer = os.pipe()
        os.set_blocking(self.writer, False)
        with contextlib.suppress(BlockingIOError):
            while True:
                os.write(self.writer, b"x" * 4096)
        # the mode belongs to the pipe's end, which the program must find like any other
        os.set_blocking(self.writer, True)

    def __enter__(self):
        return self

    def __exit__(self, *_):
        os.close(self.reader)
        os.close(self.writer)

    def read(self):
        """Returns what the pipe holds."""
        os.set_blocking(self.reader, False)
        found = b""
        with contextlib.suppress(BlockingIOError):
            while True:
                found += os.read(self.reader, 65536)
        return found.lstrip(b"x")


def counted(shim):
    """Returns the number of calls that a run under `refusing` made, 0 if it wrote none."""
    return int(read(shim + ".count")) if os.path.exists(shim + ".count") else 0


def refusal(shim, kind, at):
    """Returns the environment of a run in which a call fails, given by its kind and its number from 1 on."""
    return {"LD_PRELOAD": shim, "REFUSE": kind, "REFUSE_AT": str(at)}


def refusing(shim, kind, at):
    """Returns the environment of a run in which a call fails, as `refusal` does, and a function that says after that run
    whether the run reached it. One such run at a time: each writes its count of calls to the same file."""
    count = shim + ".count"
    if os.path.exists(count):
        os.remove(count)
    return refusal(shim, kind, at) | {"REFUSE_COUNT": count}, lambda: counted(shim) >= at


def refusals(shim, kind="allocation"):
    """Yields the number of each call of a kind in turn, with what `refusing` returns for it."""
    for at in itertools.count(1):
        yield at, *refusing(shim, kind, at)


def run_test(tests, name):
    """Runs one test. Returns its result, with a line that reports it."""
    shown = name[5:].replace("_", " ")
    try:
        getattr(tests, name)()
    except Missing as missing:
        return "skipped", f"skipped {shown}: {missing}"
    except (Failed, OSError, subprocess.SubprocessError) as found:
        return "failed", f"FAILED {shown}: {found}"
    except Exception as found:
        # a fault of the test itself, or an answer that it doesn't foresee: the other tests are run and counted all the same
        return "failed", f"FAILED {shown}: {found!r}\n{traceback.format_exc()}"
    return "passed", f"ok {shown}"


def run_tests(tests, names=(), install="", at_once=1):
    """Runs each test_.. method, or those with one of these names in theirs, `at_once` of them in parallel. Prints a line for
    each, and at the end 'N passed, M failed'. Returns the exit status."""
    # the files that tests make hold passwords, and a program warns if everybody can read such a file
    os.umask(0o077)
    chosen = [it for it in dir(tests) if it.startswith("test_") and (not names or any(name in it for name in names))]
    if not chosen:
        print("FAILED: no test has such a name\n0 passed, 1 failed")
        return 1
    counts = collections.Counter()
    with futures.ThreadPoolExecutor(at_once) as pool:
        run_all = pool.map if at_once > 1 else map
        for what, line in run_all(functools.partial(run_test, tests), chosen):
            counts[what] += 1
            print(line, flush=True)
    if counts["skipped"]:
        print(f"{counts['skipped']} skipped: {install}")
    print(f"{counts['passed']} passed, {counts['failed']} failed")
    return 1 if counts["failed"] else 0


def play(tests, programs, install="", at_once=1):
    """Runs tests of this class, which is made of the paths of so many programs and of a folder. The words of the command line are
    the programs, and then parts of the names of the wanted tests, as for `run_tests`."""
    paths, names = map(os.path.abspath, sys.argv[1 : programs + 1]), sys.argv[programs + 1 :]
    with tempfile.TemporaryDirectory() as folder:
        return run_tests(tests(*paths, folder), names, install, at_once)
