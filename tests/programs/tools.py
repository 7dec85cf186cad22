"""Runs upsc, upsrw and upscmd against a listener on loopback that answers as NUT's upsd does.

    python3 -m tests.programs.tools UPSC UPSRW UPSCMD"""

import contextlib
import itertools
import json
import os
import resource
import socket
import sys
import threading
import time
from concurrent import futures

from tests.support.harness import (
    NUTS_OPTIONS, VERSION_SHOWN, Failed, Shimmed, built_without_proof, ended_in_bytes, ensure, expect, play, refusals,
)
from tests.support.model import LINE_MAX
from tests.support.room import free_port
from tests.support.server_rows import listed

# every byte that a value may have
EVERY = bytes(range(0x20, 0x7F))


def lists(query, *rows):
    """Returns a LIST with its answer."""
    return {b"LIST " + query: listed(query, *rows) + b"\n"}


def tracked(number, status):
    """Returns the question for a tracked request with its answer."""
    return {b"GET TRACKING " + number: b"TRACKING %b %b\n" % (number, status)}


# what the server answers to each query; any other is an unknown command
ANSWERS = {
    **lists(b"VAR su700", b'VAR su700 battery.charge "100"', b'VAR su700 ups.mfr "a \\"b\\" \\\\c"', b'VAR su700 ups.status "OL"'),
    b"GET VAR su700 ups.status": b'VAR su700 ups.status "OL"\n',
    b"GET VAR su700 ups.mfr": b'VAR su700 ups.mfr "a \\"b\\" \\\\c"\n',
    **lists(b"UPS", b'UPS su700 "Server room"', b'UPS b ""'),
    **lists(b"CLIENT su700", b"CLIENT su700 ::1", b"CLIENT su700 10.0.0.1"),
    b"LIST VAR stale": b"ERR DATA-STALE\n",
    b"LIST VAR wrong": b"BEGIN LIST VAR su700\nEND LIST VAR su700\n",
    b"LIST VAR quoted": b'"BEGIN\n',
    **lists(b"VAR long", b"VAR long a " + b"x" * LINE_MAX),
    **lists(b"VAR past", "VAR past a \"caf\u00e9\"".encode()),
    **lists(b"VAR every", b'VAR every a "' + EVERY.replace(b"\\", b"\\\\").replace(b'"', b'\\"') + b'"'),
    **lists(b"VAR none"),
    **lists(b"RW su700", b'RW su700 input.sensitivity "low"', b'RW su700 ups.delay "5"', b'RW su700 ups.id "x"'),
    b"GET TYPE su700 input.sensitivity": b"TYPE su700 input.sensitivity RW ENUM\n",
    b"GET TYPE su700 ups.delay": b"TYPE su700 ups.delay RW RANGE NUMBER\n",
    b"GET TYPE su700 ups.id": b"TYPE su700 ups.id RW STRING:16\n",
    **lists(b"ENUM su700 input.sensitivity", b'ENUM su700 input.sensitivity "low"', b'ENUM su700 input.sensitivity "high"'),
    **lists(b"RANGE su700 ups.delay", b'RANGE su700 ups.delay "0" "9"', b'RANGE su700 ups.delay "20" "30"'),
    **lists(b"CMD su700", b"CMD su700 load.off", b"CMD su700 load.on"),
    b"GET CMDDESC su700 load.off": b'CMDDESC su700 load.off "Turn off the load"\n',
    b"GET CMDDESC su700 load.on": b'CMDDESC su700 load.on "Turn on the load"\n',
    b"USERNAME admin": b"OK\n",
    b"PASSWORD pw": b"OK\n",
    b'SET VAR su700 ups.id "y"': b"OK\n",
    b'SET VAR su700 ups.id "a=b \\"c\\""': b"OK\n",
    b'SET VAR su700 ups.mfr "y"': b"ERR READONLY\n",
    b"INSTCMD su700 load.off": b"OK TRACKING 1\n",
    b"INSTCMD su700 beep": b"ERR CMD-NOT-SUPPORTED\n",
    b"SET TRACKING ON": b"OK\n",
    b'SET VAR su700 ups.id "seven"': b"OK TRACKING 7\n",
    b'SET VAR su700 ups.id "by name"': b"OK TRACKING 1bd31808-cb49-4aec-9d75-d056e6f018d2\n",
    b"INSTCMD su700 fails": b"OK TRACKING 2\n",
    b"INSTCMD su700 is.forgotten": b"OK TRACKING 3\n",
    b"INSTCMD su700 odd": b"OK TRACKING 4\n",
    b"INSTCMD su700 nameless": b"OK TRACKING 5\n",
    b"INSTCMD su700 takes.time": b"OK TRACKING 999999999\n",
    b"INSTCMD su700 never.ends": b"OK TRACKING 6\n",
    **tracked(b"1", b"SUCCESS"), **tracked(b"2", b"FAILED"), **tracked(b"3", b"UNKNOWN"), **tracked(b"4", b"success"),
    **tracked(b"6", b"PENDING"), **tracked(b"7", b"SUCCESS"),
    b"GET TRACKING 5": b"SUCCESS\n",
    # as often as it is asked
    b"GET TRACKING 999999999": [b"TRACKING 999999999 PENDING\n"] * 2 + [b"TRACKING 999999999 SUCCESS\n"],
}

VARIABLES = b'battery.charge: 100\nups.mfr: a "b" \\c\nups.status: OL\n'
OBJECT = b'{"battery.charge": "100", "ups.mfr": "a \\"b\\" \\\\c", "ups.status": "OL"}\n'
SETTINGS = (
    b"[input.sensitivity]\nType: RW ENUM\nValue: low\nOption: low\nOption: high\n\n"
    b"[ups.delay]\nType: RW RANGE NUMBER\nValue: 5\nRange: 0..9\nRange: 20..30\n\n"
    b"[ups.id]\nType: RW STRING:16\nValue: x\n\n"
)
COMMANDS = b"load.off - Turn off the load\nload.on - Turn on the load\n"
OUTPUT_FAILED = b"Error: output failed\n"
# what stands below the line of a command line that is no combination
USAGES = {
    "upsc": b"Usage: upsc [-j] NAME [VAR]\n       upsc -l | -L [HOST[:PORT]]\n       upsc -c NAME\n",
    "upsrw": b"Usage: upsrw NAME\n       upsrw [-w] -s VAR=VALUE -u USER -p PASS NAME\n",
    "upscmd": b"Usage: upscmd -l NAME\n       upscmd [-w] -u USER -p PASS NAME CMD [PARAM]\n",
}
# what stands below the line of a name that isn't valid, and of words that don't combine
NAME_FORM = "expected UPS[@HOST[:PORT]], HOST a name or an IPv4 address (an IPv6 address needs a name in /etc/hosts)"
JSON_OF_A_LIST = "-j does not combine with -l, -L or -c"
# how much stack a tool asks for, in KiB
STACK = 256
ADMIN = ["-u", "admin", "-p", "pw"]
LOGIN = [b"USERNAME admin", b"PASSWORD pw"]
TRACKED = [*LOGIN, b"SET TRACKING ON"]

# what some of them ask
ASKED_SETTINGS = [b"LIST RW su700", b"GET TYPE su700 input.sensitivity", b"LIST ENUM su700 input.sensitivity", b"GET TYPE su700 ups.delay"]
ASKED_SETTINGS += [b"LIST RANGE su700 ups.delay", b"GET TYPE su700 ups.id"]
SET_AND_ASKED = [*TRACKED, b'SET VAR su700 ups.id "seven"', b"GET TRACKING 7"]

# the tool, its arguments (AT is replaced by the server's host and port), its queries, and its output
GOOD = [
    ("upsc", ["su700@AT"], [b"LIST VAR su700"], VARIABLES),
    ("upsc", ["su700@AT", "ups.status"], [b"GET VAR su700 ups.status"], b"OL\n"),
    ("upsc", ["-l", "AT"], [b"LIST UPS"], b"su700\nb\n"),
    ("upsc", ["-L", "AT"], [b"LIST UPS"], b"su700: Server room\nb: \n"),
    ("upsc", ["-c", "su700@AT"], [b"LIST CLIENT su700"], b"::1\n10.0.0.1\n"),
    ("upsc", ["none@AT"], [b"LIST VAR none"], b""),
    ("upsc", ["-j", "su700@AT"], [b"LIST VAR su700"], OBJECT),
    ("upsc", ["-j", "none@AT"], [b"LIST VAR none"], b"{}\n"),
    ("upsc", ["-j", "su700@AT", "ups.mfr"], [b"GET VAR su700 ups.mfr"], b'{"ups.mfr": "a \\"b\\" \\\\c"}\n'),
    ("upsrw", ["su700@AT"], ASKED_SETTINGS, SETTINGS),
    ("upsrw", ["-s", "ups.id=y", *ADMIN, "su700@AT"], [*LOGIN, b'SET VAR su700 ups.id "y"'], b"OK\n"),
    ("upsrw", ["-s", 'ups.id=a=b "c"', *ADMIN, "su700@AT"], [*LOGIN, b'SET VAR su700 ups.id "a=b \\"c\\""'], b"OK\n"),
    ("upscmd", ["-l", "su700@AT"], [b"LIST CMD su700", b"GET CMDDESC su700 load.off", b"GET CMDDESC su700 load.on"], COMMANDS),
    ("upscmd", [*ADMIN, "su700@AT", "load.off"], [*LOGIN, b"INSTCMD su700 load.off"], b"OK\n"),
    ("upsrw", ["-w", "-s", "ups.id=seven", *ADMIN, "su700@AT"], SET_AND_ASKED, b"SUCCESS\n"),
    ("upscmd", ["-w", *ADMIN, "su700@AT", "load.off"], [*TRACKED, b"INSTCMD su700 load.off", b"GET TRACKING 1"], b"SUCCESS\n"),
]

# the tool, its arguments, its queries, the message, and the status
BAD = [
    ("upsc", ["stale@AT"], [b"LIST VAR stale"], b"DATA-STALE", 1),
    ("upsc", ["nobody@AT"], [b"LIST VAR nobody"], b"UNKNOWN-COMMAND", 1),
    ("upsc", ["wrong@AT"], [b"LIST VAR wrong"], b"bad answer", 1),
    ("upsc", ["quoted@AT"], [b"LIST VAR quoted"], b"bad answer", 1),
    ("upsc", ["long@AT"], [b"LIST VAR long"], b"bad answer", 1),
    ("upsc", ["su700@AT", "\u00e9"], [], b"bad query", 1),
    ("upsc", ["su700@AT", "v" * LINE_MAX], [], b"bad query", 1),
    ("upsrw", ["-s", "ups.mfr=y", *ADMIN, "su700@AT"], [*LOGIN, b'SET VAR su700 ups.mfr "y"'], b"READONLY", 1),
    ("upsrw", ["-s", "ups.id=y", "-u", "x", "-p", "pw", "su700@AT"], [b"USERNAME x"], b"UNKNOWN-COMMAND", 1),
    ("upscmd", [*ADMIN, "su700@AT", "beep"], [*LOGIN, b"INSTCMD su700 beep"], b"CMD-NOT-SUPPORTED", 1),
    ("upscmd", ["-w", *ADMIN, "su700@AT", "beep"], [*TRACKED, b"INSTCMD su700 beep"], b"CMD-NOT-SUPPORTED", 1),
    ("upscmd", ["-w", *ADMIN, "su700@AT", "fails"], [*TRACKED, b"INSTCMD su700 fails", b"GET TRACKING 2"], b"FAILED", 1),
    ("upscmd", ["-w", *ADMIN, "su700@AT", "is.forgotten"], [*TRACKED, b"INSTCMD su700 is.forgotten", b"GET TRACKING 3"], b"UNKNOWN", 1),
    ("upscmd", ["-w", *ADMIN, "su700@AT", "odd"], [*TRACKED, b"INSTCMD su700 odd", b"GET TRACKING 4"], b"bad answer", 1),
    ("upscmd", ["-w", *ADMIN, "su700@AT", "nameless"], [*TRACKED, b"INSTCMD su700 nameless", b"GET TRACKING 5"], b"bad answer", 1),
    ("upsrw", ["-w", "-s", "ups.id=y", *ADMIN, "su700@AT"], [*TRACKED, b'SET VAR su700 ups.id "y"'], b"not tracked", 1),
    ("upsrw", ["-w", "-s", "ups.id=by name", *ADMIN, "su700@AT"], [*TRACKED, b'SET VAR su700 ups.id "by name"'], b"not tracked", 1),
    *(("upsc", words, None, b"bad UPS name", 1) for words in (["a@"], ["a b@AT"], ["-l", "127.0.0.1:0"], ["su700@[::1]"], ["-l", "::1"])),
    ("upsrw", ["su700@::1"], None, b"bad UPS name", 1),
    ("upsrw", ["-s", "ups.id=y", *ADMIN, "su700@[::1]:3493"], None, b"bad UPS name", 1),
    ("upscmd", [*ADMIN, "su700@fe80::1", "load.off"], None, b"bad UPS name", 1),
    ("upsc", ["-j", "stale@AT"], [b"LIST VAR stale"], b"DATA-STALE", 1),
    ("upsc", ["-j", "long@AT"], [b"LIST VAR long"], b"bad answer", 1),
    ("upsc", ["-j", "past@AT"], [b"LIST VAR past"], b"bad answer", 1),
    *(("upsc", words, None, b"bad arguments", 2) for words in ([], ["-l", "-L"], ["-j"], ["-jl", "AT", "ups.status"])),
    *(("upsc", words, None, b"bad arguments", 2) for words in (["-j", "-c", "su700@AT"], ["-jl", "AT"])),
    ("upsrw", ["-s", "ups.id", *ADMIN, "su700@AT"], None, b"bad arguments", 2),
    *(("upsrw", words, None, b"bad arguments", 2) for words in (["-u", "admin", "su700@AT"], ["-w", "su700@AT"])),
    ("upscmd", [*ADMIN, "su700@AT"], None, b"bad arguments", 2),
    *(("upscmd", words, None, b"bad arguments", 2) for words in (["-lw", "su700@AT"], ["-w", "su700@AT", "load.off"])),
]


class Server:
    """A listener on loopback that answers one client after the other. `queries` are the lines of the last client; `ready` is
    called with what is to be sent and returns the pieces, in which None closes the connection."""

    def __init__(self):
        self.listener = socket.create_server(("127.0.0.1", 0))
        self.at = "127.0.0.1:%d" % self.listener.getsockname()[1]
        self.whole()
        self.queries = []
        self.left = threading.Event()
        threading.Thread(target=self.serve, daemon=True).start()

    def whole(self):
        self.pieces = lambda sent, reply: [reply]

    def byte_by_byte(self):
        self.pieces = lambda sent, reply: [reply[i : i + 1] for i in range(len(reply))]

    def cut_at(self, place):
        self.pieces = lambda sent, reply: [reply[: max(0, place - sent)], reply[max(0, place - sent) :]]

    def ends_at(self, place):
        def pieces(sent, reply):
            left = place - sent
            return [reply] if len(reply) < left else [reply[:left], None]

        self.pieces = pieces

    def serve(self):
        while True:
            client, _ = self.listener.accept()
            client.setsockopt(socket.IPPROTO_TCP, socket.TCP_NODELAY, 1)
            self.queries = []
            with client, contextlib.suppress(OSError):
                self.answer(client)
            self.left.set()

    def answer(self, client):
        sent = 0
        for line in client.makefile("rb"):
            query = line.rstrip(b"\n")
            self.queries.append(query)
            reply = ANSWERS.get(query, b"ERR UNKNOWN-COMMAND\n")
            if isinstance(reply, list):
                reply = reply[self.queries.count(query) - 1]
            for piece in self.pieces(sent, reply):
                if piece is None:
                    return
                if piece:
                    client.sendall(piece)
                    if len(piece) < len(reply):
                        time.sleep(0.0005)
            sent += len(reply)


class Teller:
    """A listener on loopback that sends these pieces to each client, with a pause after each, and then nothing. It reads nothing
    and leaves each connection open."""

    def __init__(self, pieces, pause=0):
        self.pieces, self.pause = pieces, pause
        self.clients = []
        self.listener = socket.create_server(("127.0.0.1", 0))
        self.at = "127.0.0.1:%d" % self.listener.getsockname()[1]
        threading.Thread(target=self.serve, daemon=True).start()

    def serve(self):
        while True:
            client, _ = self.listener.accept()
            self.clients.append(client)
            threading.Thread(target=self.tell, args=(client,), daemon=True).start()

    def tell(self, client):
        # a client may leave before all is sent
        with contextlib.suppress(OSError):
            for piece in self.pieces:
                client.sendall(piece)
                time.sleep(self.pause)


class Crowded:
    """A listener on loopback that accepts nobody and whose queue is full, so that no further connection is made."""

    def __init__(self):
        self.listener = socket.socket()
        self.listener.bind(("127.0.0.1", 0))
        self.listener.listen(0)
        self.at = "127.0.0.1:%d" % self.listener.getsockname()[1]
        self.waiting = []
        if all(self.has_room() for _ in range(64)):
            raise Failed("the queue of a listener doesn't fill")

    def has_room(self):
        """Whether one more client could connect. It stays."""
        client = socket.socket()
        self.waiting.append(client)
        client.settimeout(0.5)
        try:
            client.connect(self.listener.getsockname())
        except TimeoutError:
            return False
        return True


class Tests(Shimmed):
    def __init__(self, upsc, upsrw, upscmd, folder):
        self.tools = {"upsc": upsc, "upsrw": upsrw, "upscmd": upscmd}
        self.folder = folder
        self.server = Server()

    def run(self, tool, arguments, env=None, **streams):
        """Runs a tool. Returns its status, its output, its error text, and the queries that the server heard."""
        words = [word.replace("AT", self.server.at) if isinstance(word, str) else word for word in arguments]
        self.server.queries = []
        self.server.left.clear()
        return ended_in_bytes([self.tools[tool], *words], env={**os.environ, **(env or {})}, **streams)

    def heard(self):
        """Returns the queries of the client that has just left."""
        self.server.left.wait(10)
        return self.server.queries

    def test_answers_whole_and_byte_by_byte(self):
        for mode in (self.server.whole, self.server.byte_by_byte):
            mode()
            for tool, arguments, queries, output in GOOD:
                what = f"{tool} {' '.join(arguments)}"
                expect(self.run(tool, arguments), (0, output, b""), what)
                expect(self.heard(), queries, f"the queries of {what}")

    def test_requests_that_take_time(self):
        """A tool asks once a second, and eleven times at most."""
        self.server.whole()
        for command, question, asked, end, least, most in (
            ("takes.time", b"GET TRACKING 999999999", 3, (0, b"SUCCESS\n", b""), 2, 5),
            ("never.ends", b"GET TRACKING 6", 11, (1, b"", b"Error: PENDING\n"), 10, 15),
        ):
            started = time.monotonic()
            expect(self.run("upscmd", ["-w", *ADMIN, "su700@AT", command]), end, command)
            expect(self.heard(), [*TRACKED, b"INSTCMD su700 " + command.encode(), *[question] * asked], f"what {command} asks")
            took = time.monotonic() - started
            ensure(least <= took < most, f"{command} took {took:.1f} s")

    def timed(self, case):
        """Runs a tool with the server at a place. Returns what it did, as `run` does, and for how many seconds it ran."""
        tool, arguments, at = case
        started = time.monotonic()
        found = ended_in_bytes([self.tools[tool], *(word.replace("AT", at) for word in arguments)])
        return found, time.monotonic() - started

    def test_servers_that_take_too_long(self):
        lost = (1, b"", b"Error: connection lost\n")
        silent, halting, crowded = Teller([]), Teller([b"a" * LINE_MAX]), Crowded()
        # each byte comes in time, and their line doesn't
        dripping = Teller(itertools.repeat(b"a"), pause=4)
        asks = (("upsc", ["su700@AT"]), ("upsrw", ["su700@AT"]), ("upscmd", ["-l", "su700@AT"]))
        cases = [(*ask, place.at) for place in (silent, halting, dripping, crowded) for ask in asks]
        # the whole takes longer than a tool waits, and no pause does
        answer = ANSWERS[b"LIST VAR su700"]
        slow = Teller([answer[:9], answer[9:40], answer[40:80], answer[80:]], pause=4)
        cases.append(("upsc", ["su700@AT"], slow.at))
        with futures.ThreadPoolExecutor(len(cases)) as pool:
            found = list(pool.map(self.timed, cases))
        failed = [(1, b"", f"Error: connection failed\n{tool}: {crowded.at}: connection timed out\n".encode()) for tool, _ in asks]
        wanted = [lost] * 9 + failed + [(0, VARIABLES, b"")]
        for (tool, _, at), (end, seconds), want in zip(cases, found, wanted):
            what = f"{tool} with the server at {at}"
            expect(end, want, what)
            ensure(5 < seconds < (20 if want == lost else 60), f"{what} took {seconds:.1f} seconds")

    def test_lines_without_an_end(self):
        """A line is a bad answer at its byte 2,049, whether more follows or not, and whatever came before it."""
        overlong = b"a" * (LINE_MAX + 1)
        list_of_variables, deed = ("upsc", ["su700@AT"]), ("upscmd", [*ADMIN, "su700@AT", "load.off"])
        asks = (list_of_variables, ("upsrw", ["su700@AT"]), ("upscmd", ["-l", "su700@AT"]), deed)
        cases = [(*ask, place.at) for place in (Teller([overlong]), Teller(itertools.repeat(b"a"))) for ask in asks]
        cases.append((*list_of_variables, Teller([b"BEGIN LIST VAR su700\nVAR su700 a 1\n" + overlong]).at))
        cases.append((*deed, Teller([b"OK\n", overlong]).at))
        for case in cases:
            end, seconds = self.timed(case)
            expect(end, (1, b"", b"Error: bad answer\n"), f"{case}")
            ensure(seconds < 5, f"{case} took {seconds:.1f} seconds")

    def test_object_is_what_a_reader_of_json_takes(self):
        self.server.whole()
        values = {"battery.charge": "100", "ups.mfr": 'a "b" \\c', "ups.status": "OL"}
        for ups, variables in (("su700", values), ("none", {}), ("every", {"a": EVERY.decode()})):
            status, output, text = self.run("upsc", ["-j", f"{ups}@AT"])
            expect((status, text, output.count(b"\n"), json.loads(output)), (0, b"", 1, variables), ups)

    def test_failures(self):
        self.server.whole()
        for tool, arguments, queries, text, status in BAD:
            what = f"{tool} {' '.join(arguments)}"
            more = f"{tool}: {NAME_FORM}\n" if text == b"bad UPS name" else ""
            if status == 2:
                is_list = "-j" in arguments[0:1] and "-c" in arguments or "-jl" in arguments
                more = (f"{tool}: {JSON_OF_A_LIST}\n" if is_list else "") + USAGES[tool].decode()
            expect(self.run(tool, arguments), (status, b"", b"Error: " + text + b"\n" + more.encode()), what)
            if queries is not None:
                expect(self.heard(), queries, f"the queries of {what}")

    def test_cut_and_ended_at_every_place(self):
        for tool, arguments, queries, output in GOOD:
            if tool == "upsc" and output not in (VARIABLES, OBJECT):
                continue
            length = sum(len(ANSWERS[query]) for query in queries)
            what = f"{tool} {' '.join(arguments)}"
            for place in range(1, length):
                self.server.cut_at(place)
                expect(self.run(tool, arguments), (0, output, b""), f"{what}, cut at {place}")
                self.server.ends_at(place)
                lost = (1, b"", b"Error: connection lost\n")
                expect(self.run(tool, arguments), lost, f"{what}, ended at {place}")
            self.server.ends_at(length)
            expect(self.run(tool, arguments), (0, output, b""), f"{what}, ended behind the last answer")

    def test_nobody_listens(self):
        port = free_port()
        refused, unknown = "Connection refused (os error 111)\n", "failed to lookup address information: "
        for host, why in (("127.0.0.1", refused), ("localhost", refused), ("nowhere.invalid", unknown)):
            for tool, words in (("upsc", []), ("upsrw", []), ("upscmd", ["-l"])):
                status, output, text = self.run(tool, [*words, f"su700@{host}:{port}"])
                expect((status, output, text.count(b"\n")), (1, b"", 2), f"{tool} with {host}")
                wanted = f"Error: connection failed\n{tool}: {host}:{port}: {why}"
                ensure(text.decode().startswith(wanted), f"{tool} with {host}: {text!r}")

    def test_output_that_fails(self):
        self.server.whole()
        with open("/dev/full", "wb") as full:
            for tool, arguments, _, output in GOOD:
                if output:
                    expect(self.run(tool, arguments, stdout=full), (1, None, OUTPUT_FAILED), f"{tool} to /dev/full")
            for option in ("--help", "--version"):
                expect(self.run("upsc", [option], stdout=full), (1, None, OUTPUT_FAILED), f"upsc {option} to /dev/full")
            expect(self.run("upsc", ["su700@AT"], stdout=full, stderr=full), (1, None, None), "output and errors to /dev/full")
            expect(self.run("upsc", ["stale@AT"], stderr=full), (1, b"", None), "errors to /dev/full")

    def test_output_that_takes_10_bytes(self):
        self.server.whole()
        path = os.path.join(self.folder, "output")
        limits = {"preexec_fn": lambda: resource.setrlimit(resource.RLIMIT_FSIZE, (10, 10)), "restore_signals": False}
        with open(path, "wb") as output:
            expect(self.run("upsc", ["su700@AT"], stdout=output, **limits), (1, None, OUTPUT_FAILED), "an output with room for 10 bytes")
        with open(path, "rb") as output:
            expect(output.read(), VARIABLES[:10], "what it took")

    def test_streams_that_are_closed(self):
        """The connection takes the place of none of them, so that the server is sent nothing but queries."""
        self.server.whole()
        for tool, arguments, queries, output in GOOD:
            what = f"{tool} {' '.join(arguments)}"
            failed = (1, b"", OUTPUT_FAILED) if output else (0, b"", b"")
            good = (0, output, b"")
            for closed, end in (((0,), good), ((1,), failed), ((2,), good), ((0, 1), failed), ((0, 1, 2), (failed[0], b"", b""))):
                found = self.run(tool, arguments, preexec_fn=lambda closed=closed: [os.close(it) for it in closed])
                expect(found, end, f"{what} without the streams {closed}")
                expect(self.heard(), queries, f"the queries of {what} without the streams {closed}")
        for closed in ((2,), (0, 2), (0, 1, 2)):
            found = self.run("upsc", ["stale@AT"], preexec_fn=lambda closed=closed: [os.close(it) for it in closed])
            expect((found, self.heard()), ((1, b"", b""), [b"LIST VAR stale"]), f"a refusal without the streams {closed}")

    def test_passwords_of_standard_input(self):
        """`-p -` is a line of standard input, however it is written and whatever the password begins with."""
        self.server.whole()
        deed = ["su700@AT", "load.off"]
        # only standard input can give this one
        expect(self.run("upscmd", ["-u", "admin", "-p", "-", *deed], input=b"-\n")[0], 1, "the password -")
        expect(self.heard(), [b"USERNAME admin", b"PASSWORD -"], "the password -")
        for password in ("pw", "--", "-x", "=", "=-x", " a b ", '"q\\', "-p", "x" * 128):
            written = self.run("upscmd", ["-u", "admin", f"-p={password}", *deed]), self.heard()
            expect(len(written[1]) - (password == "pw"), 2, f"the queries with {password!r}: {written[1]}")
            for words in (["-p", "-"], ["-p-"], ["-p=-"]):
                for line in (f"{password}\n", password, f"{password}\nmore\n"):
                    read = self.run("upscmd", ["-u", "admin", *words, *deed], input=line.encode()), self.heard()
                    expect(read, written, f"upscmd {' '.join(words)} with {line!r}")
        for tool, words, queries in (
            ("upscmd", ["-wp", "-", "-u", "admin", *deed], [*TRACKED, b"INSTCMD su700 load.off", b"GET TRACKING 1"]),
            ("upsrw", ["-s", "ups.id=seven", "-u", "admin", "-wp", "-", "su700@AT"], SET_AND_ASKED),
        ):
            expect(self.run(tool, words, input=b"pw\n"), (0, b"SUCCESS\n", b""), words)
            expect(self.heard(), queries, words)
        # a dash elsewhere is one
        expect(self.run("upscmd", ["-u", "-", "-p", "pw", "su700@AT", "load.off", "-"], input=b"x\n")[0], 1, "a user of that name")
        expect(self.heard(), [b"USERNAME -"], "a user of that name")

    def test_passwords_that_are_missing(self):
        self.server.whole()
        for tool, words in (("upsrw", ["-s", "ups.id=y"]), ("upscmd", [])):
            arguments = [*words, "-u", "admin", "-p", "-", "su700@AT", *(["load.off"] if tool == "upscmd" else [])]
            missing = (1, b"", f"{tool}: no password on standard input\n".encode())
            for text in (b"", b"\n", b"\npw\n", b"\xff\n"):
                expect(self.run(tool, arguments, input=text), missing, f"{tool} with {text!r}")
            expect(self.run(tool, arguments, preexec_fn=lambda: os.close(0)), missing, f"{tool} without standard input")
            long = self.run(tool, arguments, input=b"x" * 1_000_000)
            expect(long, (1, b"", b"Error: bad query\n"), f"{tool} with a password that no query has")
        # nothing is read for a command line that is refused
        reader, writer = os.pipe()
        for words, status in ((["-p", "-"], 2), (["-p", "-", "--none"], 2), (["-p", "-", "--help"], 0)):
            expect(self.run("upscmd", [*words, "su700@AT"], stdin=reader)[0], status, words)
        os.close(reader)
        os.close(writer)

    def refused(self, tool, word):
        """What a tool writes of a word that it doesn't know."""
        head = f"error: unexpected argument '{word}' found\n\n"
        return head.encode() + USAGES[tool] + b"\nFor more information, try '--help'.\n" + NUTS_OPTIONS.format(tool).encode()

    def test_options_that_are_not_there(self):
        for tool, option in (("upsc", "-W"), ("upsrw", "-t"), ("upsrw", "-l"), ("upscmd", "-t")):
            expect(self.run(tool, [option, "su700@AT"]), (2, b"", self.refused(tool, option)), f"{tool} {option}")
        expect(self.run("upsc", ["su700@AT", "a", "b"]), (2, b"", self.refused("upsc", "b")), "a word more")
        for tool in ("upsc", "upsrw", "upscmd"):
            expect(self.run(tool, [b"su700\xff"]), (2, b"", b"Error: bad arguments\n"), f"{tool} with a word that is no text")
            expect(self.run(tool, ["--version"]), (0, f"{tool} {VERSION_SHOWN}\n".encode(), b""), f"{tool} --version")
            status, output, text = self.run(tool, ["--help"])
            expect((status, tool.encode() in output, text), (0, True, b""), f"{tool} --help")

    def test_stack_that_is_too_small(self):
        """A tool says how much it needs. With that much it serves, also the longest list that this server has."""
        self.server.whole()

        def limit(kibibytes):
            return lambda: resource.setrlimit(resource.RLIMIT_STACK, (kibibytes * 1024, kibibytes * 1024))

        for tool, arguments, _, output in GOOD:
            low = f"{tool}: the stack is limited to {STACK - 1} KiB; {STACK} are needed\n".encode()
            expect(self.run(tool, arguments, preexec_fn=limit(STACK - 1)), (1, b"", low), f"{tool} with too little")
            # a build without proof takes more
            if not built_without_proof():
                expect(self.run(tool, arguments, preexec_fn=limit(STACK)), (0, output, b""), f"{tool} {' '.join(arguments)} with enough")

    def test_refused_memory(self):
        self.server.whole()
        for tool, arguments, _, output in GOOD:
            what = f"{tool} {' '.join(arguments)}"
            for at, env, is_reached in refusals(self.shim):
                found = self.run(tool, arguments, env)
                if not is_reached():
                    expect(found, (0, output, b""), f"{what}, allocation {at}, which isn't reached")
                    break
                # the C library can do without some memory, for example when it flushes a stream without a buffer
                is_undialled = found[:2] == (1, b"") and found[2].startswith(b"Error: connection failed\n")
                if found not in [(1, b"", b"Error: out of memory\n"), (0, output, b"")] and not is_undialled:
                    raise Failed(f"{what}, allocation {at}: found {found!r}")
            if at < 3:
                raise Failed(f"{what}: {at - 1} allocations were seen")


if __name__ == "__main__":
    sys.exit(play(Tests, 3))
