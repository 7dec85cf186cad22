"""The forms of requests, lines that have none, and what a link makes of the answers to queries. The queries are those of
docs/protocol.md, with the examples there."""

import os
import re

from tests.support.harness import ROOT, read
from tests.support.model import words_of

# what stands in a form for the names of docs/protocol.md
NAMES = {"u": "Su700", "v": "ups.Status", "k": "load.Off"}


class Query:
    """A query, and the answer to an example of it, or a row of that if it is a LIST."""

    def __init__(self, form, example):
        self.form = form
        self.example = example.encode()
        command, *words = form.split()
        # an answer repeats the words behind the command
        spelled = words_of(self.example)
        self.repeated, self.said = b" ".join(spelled[: len(words)]), spelled[len(words) :]
        self.is_list = command == "LIST"
        self.line = command.encode() + b" " + self.repeated

    def forms(self):
        """Returns a row of FORMS."""
        command, subject, *names = self.form.split()
        names = [NAMES[it] for it in names]
        whole = " ".join([command, subject, *names])
        return " ".join([command.title(), subject.title(), *names]).encode(), whole.encode(), whole.rpartition(" ")[0].encode()

    def link_row(self):
        """Returns a row of LINK_ROWS."""
        said = "".join(f"{it.decode()}|" for it in self.said)
        if not self.is_list:
            return self.line, self.example + b"\n", f"said {said}", None
        answer = b"BEGIN LIST %b\n%b\nEND LIST %b\n" % (self.repeated, self.example, self.repeated)
        return self.line, answer, f"list {said};", None


def queries():
    page = read(os.path.join(ROOT, "docs", "protocol.md"))
    tables = re.search(r"^## Asking$.*?(?=^## Who you are$)", page, re.MULTILINE | re.DOTALL)[0]
    # the example of a GET is in its last cell, that of a LIST in the next
    found = re.findall(r"^\| `(GET [^`]+)` \| .* \| `([^`]+)` \|$", tables, re.MULTILINE)
    return [Query(*it) for it in found + re.findall(r"^\| `(LIST [^`]+)` \| `([^`]+)`", tables, re.MULTILINE)]


QUERIES = queries()

# a form with its commands in mixed case, as it is written, and without its last word, unless nothing is left then
FORMS = [
    *(it.forms() for it in QUERIES),
    (b"set var Su700 ups.id X", b'SET VAR Su700 ups.id "X"', b"SET VAR Su700 ups.id"),
    (b"instcmd Su700 load.Off X", b'INSTCMD Su700 load.Off "X"', b"INSTCMD Su700"),
    (b"get tracking 7", b"GET TRACKING 7", b"GET"),
    (b"Set Tracking oN", b"SET TRACKING ON", b"SET TRACKING"),
    (b"userName Admin", b"USERNAME Admin", b"USERNAME"),
    (b"password Secret", b"PASSWORD Secret", b"PASSWORD"),
    (b"Login Su700", b"LOGIN Su700", b"LOGIN"),
    (b"primary Su700", b"PRIMARY Su700", b"PRIMARY"),
    (b"fsd Su700", b"FSD Su700", b"FSD"),
    (b"LogOut", b"LOGOUT", None),
    (b"ver", b"VER", None),
    (b"NetVer", b"NETVER", None),
    (b"hElP", b"HELP", None),
    (b"StartTls", b"STARTTLS", None),
]

# the forms to which a word may be added
SHORTER_FORMS = [(b"instcmd Su700 load.Off", b"INSTCMD Su700 load.Off"), (b"get tracking", b"GET TRACKING")]

# lines of no form, and the refusal of each
NO_FORMS = [
    *((line, "INVALID-ARGUMENT") for line in (b"LIST LOG", b"GET ENUM u v", b"LIST DESC u v", b"SET RW u v x", b"SET")),
    *((line, "INVALID-ARGUMENT") for line in (b"SET TRACKING YES", b"GET TRACKING 0", b"GET TRACKING 01")),
    *((line, "INVALID-ARGUMENT") for line in (b"GET TRACKING 1234567890", b"GET TRACKING x")),
    *((line, "UNKNOWN-COMMAND") for line in (b"FOO", b'"" GET', b"NUMLOGINS u", b"GETS u", b"MASTER u")),
]


def failing(fault, query, *answers):
    """Returns a row for each of these answers to a query, all of which fail the link."""
    return [(query, answer, "none", fault) for answer in answers]


# worked rows of a link: a query as it is typed, the lines that its server sends, the answer that is taken out then, and the
# fault, if a line fails the link; words of an answer are followed by `|`, and rows of a list by `;`
LINK_ROWS = [
    *(it.link_row() for it in QUERIES),
    (b"get var su700 ups.mfr", b'VAR su700 ups.mfr "a \\"b\\" \\\\c"\r\n', 'said a "b" \\c|', None),
    *failing(
        "NotMine", b"GET VAR su700 ups.status",
        b'VAR su700 ups.status "OL" x\n', b"VAR su700 ups.status\n", b'VAR su700 ups.Status "OL"\n',
        b'var su700 ups.status "OL"\n', b"OK\n",
    ),
    (b"GET VAR su700 ups.status", b"ERR DATA-STALE x\n", "refused DATA-STALE", None),
    *failing("NotMine", b"GET VAR su700 ups.status", b"ERR\n"),
    *failing("BadLine", b"GET VAR su700 ups.status", b"\n", b'VAR su700 "ups.status\n'),
    *failing("NotMine", b"GET NUMLOGINS su700", b"NUMLOGINS su700 1234567890\n", b"NUMLOGINS su700 -1\n"),
    *failing("NotMine", b"GET TYPE su700 ups.id", b"TYPE su700 ups.id\n"),
    (b"LIST VAR u", b'BEGIN LIST VAR u\nVAR u a "1"\nVAR u b "2"\nEND LIST VAR u\n', "list a|1|;b|2|;", None),
    (b"LIST VAR u", b"BEGIN LIST VAR u\nEND LIST VAR u\n", "list ", None),
    (b"LIST VAR u", b'BEGIN LIST VAR u\nVAR u a "1"\n', "none", None),
    *failing(
        "NotMine", b"LIST VAR u",
        b'BEGIN LIST VAR u\nVAR v a "1"\n', b"BEGIN LIST VAR u\nVAR u a\n", b"BEGIN LIST VAR u\nERR DATA-STALE\n",
        b"BEGIN LIST VAR u\nEND LIST VAR v\n", b"BEGIN LIST RW u\n", b'VAR u a "1"\n',
    ),
    (b"LIST VAR u", b"ERR UNKNOWN-UPS\n", "refused UNKNOWN-UPS", None),
    (b"LOGIN su700", b"OK\n", "done", None),
    (b"FSD su700", b"OK FSD-SET\n", "done", None),
    (b"LOGOUT", b"OK Goodbye\n", "done", None),
    (b'SET VAR u v "x y"', b"OK\n", "done", None),
    (b"INSTCMD u k", b"ERR CMD-NOT-SUPPORTED\n", "refused CMD-NOT-SUPPORTED", None),
    (b'SET VAR u v "x y"', b"OK TRACKING 7\n", "said 7|", None),
    (b"INSTCMD u k", b"OK TRACKING 999999999\n", "said 999999999|", None),
    (b'INSTCMD u k "x"', b"OK TRACKING 1\n", "said 1|", None),
    (b"INSTCMD u k", b"OK TRACKING 1bd31808-cb49-4aec-9d75-d056e6f018d2\n", "done", None),
    (b"LOGIN su700", b"OK TRACKING 7\n", "done", None),
    (b"USERNAME a", b'VAR u v "x"\n', "none", "NotMine"),
    (b"VER", b"Network UPS Tools upsd profile 1.3\n", "said Network|UPS|Tools|upsd|profile|1.3|", None),
    (b"NETVER", b"1.3\n", "said 1.3|", None),
    # words that are no command of an answer, of which VER takes any
    (b"VER", b"ok\n", "said ok|", None),
    (b"VER", b"OKAY x\n", "said OKAY|x|", None),
    (b"VER", b"ERR\n", "said ERR|", None),
    (b"VER", b"BEGIN VAR\n", "said BEGIN|VAR|", None),
    (b"VER", b"END\n", "said END|", None),
    (b"VER", b"end LIST UPS\n", "said end|LIST|UPS|", None),
    *failing("NotMine", b"VER", b"BEGIN LIST\n", b"END LIST CMD u\n"),
    *failing("BadLine", b"VER", b" \t# OK\n", b"\xff\n"),
    (b"STARTTLS", b"ERR FEATURE-NOT-CONFIGURED\n", "refused FEATURE-NOT-CONFIGURED", None),
    (b"STARTTLS", b"OK\n", "none", "NotMine"),
    (b"LOGIN su700", b"OK\nOK\n", "done", "OutOfOrder"),
    (b"LOGIN su700", b'OK\n"\n', "done", "BadLine"),
]
