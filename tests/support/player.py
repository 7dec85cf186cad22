"""Schedules of arrivals: their lines, as the program `rehearse` reads them, and what it has to print for each, by the plain
model in model.py."""

import re

from tests.support import model
from tests.support.harness import built_without_proof


def escaped(data):
    return re.sub(rb"[\x00-\x1f%\x7f-\xff]", lambda byte: b"%%%02X" % byte[0][0], data)


def line_of(step):
    """Returns a step as the program reads it. The configuration of a reload is that of the texts before it."""
    verb, *words = step
    parts = (escaped(it) if isinstance(it, bytes) else str(it).encode() for it in words if not isinstance(it, model.Config))
    return b" ".join([verb.encode(), *parts]) + b"\n"


def places(piece):
    """Returns the places at which a piece is cut within its lines: all, or each tenth on a build without proof."""
    return [at for at in range(1, len(piece)) if piece[at - 1 : at] != b"\n"][:: 10 if built_without_proof() else 1]


class Player:
    """The model, and what the program has to print for each step."""

    def __init__(self, config):
        self.model = model.Server(config)

    def play(self, step, lost=None):
        """With `lost`, an allocation is refused behind this many lines of the step's piece."""
        verb, *words = step
        return (getattr(self, verb.replace("-", "_"))(*words, *([] if lost is None else [lost])) + "\n").encode("latin-1")

    def may_lack(self, step):
        """Returns the lines of a step's piece, as their numbers from 0, at which memory may be lacking."""
        if step[0] == "bytes":
            return self.model.may_lack(*step[1:])
        if step[0] == "driver":
            return self.model.driver_may_lack(*step[1:])
        if step[0] == "reload" and len(step[1].upses) > self.model.places:
            return {0}
        return set()

    def ups(self, text):
        """Answers a step that sets a text. The configurations that the texts make are handed to the model as such."""
        return "ok"

    def server(self):
        return "ok"

    users = upsd = ups

    def of_connection(self, answer, c):
        it = self.model
        reads, leaves = (str(said).lower() for said in (it.may_read(c), it.leaves(c)))
        return f"{answer or 'ok'} waits={len(it.waits(c))} kept={it.kept(c)} reads={reads} leaves={leaves}"

    def of_driver(self, answer, u):
        connected = str(self.model.connected(u) is not None).lower()
        return f"{answer or 'ok'} waits={len(self.model.waits_for_driver(u))} connected={connected}"

    def of_number(self, u):
        ups = self.model.numbered(u)
        return self.of_driver("-" if ups is None else ups.name.decode(), u)

    def reload(self, config, lost=None):
        """With `lost`, an allocation for new UPSes is refused."""
        drivers, connections = self.model.ended_by(config)
        answer = self.model.reload(config) if lost is None else "Memory(NewUpses)"
        upses = (self.of_number(u) for u in range(self.model.places))
        return "; ".join([answer or "ok", *upses, f"drivers {drivers} connections {connections}"])

    def moment(self, at):
        answer = self.model.moment(at)
        return " ".join([answer or "ok", *(str(len(self.model.waits_for_driver(u))) for u in range(self.model.places))])

    def open(self, address):
        answer = self.model.open(address)
        return f"{answer or 'ok'} opened={self.model.opened}"

    def bytes(self, c, piece, lost=None):
        answer = self.model.bytes(c, piece, lost)
        return self.of_connection(answer if lost is None else f"Memory(Line({c}, {lost}))", c)

    def took(self, c, count):
        return self.of_connection(self.model.took(c, count), c)

    def close(self, c):
        return self.of_connection(self.model.close(c), c)

    fail = close

    def up(self, u):
        return self.of_driver(self.model.driver_up(u), u)

    def driver(self, u, piece, lost=None):
        answer = self.model.driver_bytes(u, piece, lost)
        return self.of_driver(answer if lost is None else f"Memory(Report({u}, {lost}))", u)

    def driver_took(self, u, count):
        return self.of_driver(self.model.driver_took(u, count), u)

    def down(self, u):
        return self.of_driver(self.model.driver_down(u), u)

    def take(self, c, most=None):
        taken = self.model.waits(c)[:most]
        if taken:
            self.model.took(c, len(taken))
        return escaped(taken).decode()

    def driver_take(self, u, most=None):
        taken = self.model.waits_for_driver(u)[:most]
        if taken:
            self.model.driver_took(u, len(taken))
        return escaped(taken).decode()

    def next(self, least):
        found = [c for c in self.model.connections if c >= least and (self.model.waits(c) or self.model.leaves(c))]
        return f"connection {min(found)}" if found else "none"

    def next_driver(self, least):
        found = [ups.number for ups in self.model.upses if ups.number >= least and ups.asks]
        return f"driver {min(found)}" if found else "none"


def text_steps(config):
    """Returns the steps that set the texts of this configuration."""
    ups, users = [], []
    for name, description in config.upses:
        ups.append(b"[%s]\ndesc = %s\n" % (name, model.quoted(description)))
        if name in config.drivers:
            ups.append(b"driver = %s\n" % config.drivers[name])
    for name, user in config.users.items():
        users.append(b"[%s]\n" % name)
        if user.password is not None:
            users.append(b"password = %s\n" % model.quoted(user.password))
        users += [b"actions = %s\n" % action.encode() for action in user.actions]
        users += [b"instcmds = %s\n" % command for command in user.commands]
        if user.upsmon is not None:
            users.append(b"upsmon %s\n" % user.upsmon.encode())
    upsd = b"MAXAGE %d\nMAXCONN %d\n" % (config.max_age, config.max_conn)
    return [("ups", b"".join(ups)), ("users", b"".join(users)), ("upsd", upsd)]


def conf_steps(config):
    """Returns the steps that make a server with this configuration."""
    return [*text_steps(config), ("server",)]


def reload_steps(config):
    """Returns the steps that put this configuration in force."""
    return [*text_steps(config), ("reload", config)]
