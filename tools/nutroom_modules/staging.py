"""The files with which nutsim plays a room of several servers, with other clients, or with machines that come back.

nutsim has one server. It plays several by one that has all their UPSes, and nobody can tell: what a server answers depends on
the connection, on the UPS and its driver, and on the user's rights, which were checked before. UPSes of two servers may have
the same name, so each is played under one of its own: u0, u1 and so on."""

import os

from nutroom_modules.faults import Fault
from nutroom_modules.files import read_text, words_of
from nutroom_modules.rooms import Line, Rules


ROLES = ("primary", "secondary")
# A client that isn't a machine needs no UPS, and no user has its name: its LOGIN is refused.
CLIENT = "client"
CLIENT_CONF = "MONITOR\nMINSUPPLIES 0\n"


def client_rules(ups):
    return Rules((Line(ups, 0, False, CLIENT, "x"),), 0, 5, 15, 15, 5)


def stage(room, folder):
    """Writes the files of a room into a folder, which is made if it isn't there."""
    write(folder, "ups.conf", "".join(f"[u{ups}]\n" for ups in range(len(room.upses))))
    write(folder, "upsd.users", "".join(f"[{role}]\npassword = x\nupsmon {role}\n" for role in ROLES))
    write(folder, "upsd.conf", f"MAXCONN {sum(len(it.rules.lines) for it in room.monitors)}\n")
    for number, host in enumerate(room.monitors):
        write(folder, f"{number}.conf", conf_of(host))


def conf_of(host):
    """Returns the upsmon.conf of a machine or a client, with the lines MONITOR that it is played with."""
    rows, lines = (CLIENT_CONF if host.is_client else read_text(host.conf)).split("\n"), iter(host.rules.lines)
    return "\n".join(monitor_row(next(lines), host) if (words_of(row) or [])[:1] == ["MONITOR"] else row for row in rows)


def monitor_row(line, host):
    role = ROLES[not line.is_primary]
    return f"MONITOR u{line.ups}@localhost {line.power} {CLIENT if host.is_client else role} x {role}"


def write(folder, name, text):
    path = os.path.join(folder, name)
    try:
        os.makedirs(folder, exist_ok=True)
        with open(path, "w", encoding="latin-1") as file:
            file.write(text)
    except OSError as error:
        raise Fault(f"{path}: cannot write: {error.strerror}") from None
