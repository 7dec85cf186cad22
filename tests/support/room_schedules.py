"""Random rooms, and random schedules for them."""

import random

from tests.support.model import Config, User, quoted
from tests.support.room_model import Room, Rules, Watched

UPSES = [(b"su700", b"Server room"), (b"rack.1_x-Y", b""), (b"b", b'a "b" # = c')]
USERS = {
    b"mon": User(b"m1", (), (), "primary"),
    b"sec": User(b'm "2" #', (), (), "secondary"),
    b"idle": User(b"x"),
}
STATUSES = [
    b"OL", b"OL", b"OL CHRG", b"OB", b"OB DISCHRG", b"OB LB", b"OB LB", b"OB LB CAL", b"LB", b"OL LB", b"RB OL", b"OB LB RB", b"FSD OL",
    b"", b"  OB   LB ", b"BYPASS", b"OFF",
]
OTHER_LINES = [b"PONG", b"DATASTALE", b"DATAOK", b"DUMPDONE", b"DELINFO ups.status", b"SETINFO ups.mfr x", b"ups.status", b'SETINFO "', b""]


class RoomMaker:
    """Makes a room and schedules for it. It plays each step on the model, to know what makes sense, and sometimes makes a
    step that makes none."""

    def __init__(self, seed):
        self.random = random.Random(seed)
        self.config = Config(UPSES[: self.random.randrange(1, 4)], USERS, self.random.choice([1, 5, 15, 15]), self.random.choice([1, 3, 256, 256]))
        self.rules = [self.rule() for _ in range(self.random.randrange(1, 4))]

    def pick(self, *items):
        return self.random.choice(items)

    def rule(self):
        lines = [self.watched(host) for host in range(self.random.randrange(1, 4))]
        supply = sum(it.power for it in lines)
        return Rules(
            lines,
            MINSUPPLIES=self.random.randrange(min(supply, 3) + 1),
            POLLFREQ=self.pick(1, 2, 5),
            DEADTIME=self.pick(1, 5, 15),
            HOSTSYNC=self.pick(0, 3, 15),
            FINALDELAY=self.pick(0, 1, 5),
            RBWARNTIME=self.pick(1, 20, 43200),
            NOCOMMWARNTIME=self.pick(1, 20, 300),
        )

    def watched(self, host):
        ups = self.pick(*[name for name, _ in UPSES], *[name for name, _ in self.config.upses])
        user, password = self.pick((b"mon", b"m1"), (b"mon", b"m1"), (b"sec", b'm "2" #'), (b"mon", b"wrong"), (b"idle", b"x"), (b"nobody", b"y"))
        return Watched(ups, self.pick("primary", "primary", "secondary"), self.pick(0, 1, 1, 2), user, password, b"host%d" % host)

    def schedule(self, least):
        """Returns a schedule of at least this many steps, and what each tells."""
        room = Room(self.config, self.rules)
        steps, due = [], []
        while len(steps) < least:
            for step in self.scene(room) if steps else self.opening(room):
                steps.append(step)
                due.append(room.play(step))
        return steps, due

    def opening(self, room):
        """Returns the first steps: most drivers connect, and most links are made."""
        steps = [("server", 0)]
        for u in range(len(self.config.upses)):
            steps += self.connects(room, 0, 0, u) if self.random.random() < 0.9 else []
        for m, rules in enumerate(self.rules):
            for i in range(len(rules.lines)):
                if self.random.random() < 0.9:
                    steps += [("link", m, i), *((word, m, i, 512) for _ in range(5) for word in ("out", "reach", "back", "land"))]
        return steps

    def scene(self, room):
        """Returns the next steps: some that belong together, or a single one."""
        m = self.random.randrange(len(self.rules))
        i = self.random.randrange(len(self.rules[m].lines))
        u = self.random.randrange(len(self.config.upses))
        scenes = [
            (8, self.rounds),
            (2, self.moves),
            (4, self.clocks),
            (3, self.tells),
            (0.3, self.connects),
            (0.3, self.cuts),
            (0.1, self.ends),
        ]
        if not room.is_linked(m, i) and not room.is_open(m, i):
            scenes.append((20, lambda room, m, i, u: [("link", m, i)]))
        if not room.server.upses[u].is_dumped:
            scenes.append((3, self.connects))
        weights, makers = zip(*scenes)
        return self.random.choices(makers, weights)[0](room, m, i, u)

    def rounds(self, room, m, i, u):
        """Returns steps that move queries to the server, and their answers back."""
        count = self.pick(1, 1, 2, 3)
        return [(word, m, i, 512) for _ in range(count) for word in ("out", "reach", "back", "land")]

    def moves(self, room, m, i, u):
        """Returns steps that move some bytes in one direction or in both."""
        words = self.pick(("out",), ("reach",), ("back",), ("land",), ("out", "reach", "back", "land"))
        return [(word, m, i, self.pick(0, 1, 7, 30, 512, 513, 999_999_999)) for word in words]

    def clocks(self, room, m, i, u):
        clock = room.monitors[m].now
        later = clock + self.pick(0, 1, 1, 2, 5, 5, 16, 40)
        steps = [("monitor", m, later)]
        if self.random.random() < 0.6:
            steps = [("server", max(later, room.server.now)), *steps]
        if self.random.random() < 0.5:
            steps += [("driver", u, b"PONG")]
        return steps if self.random.random() < 0.95 else [("monitor", m, max(clock - 3, 0)), ("server", 0)]

    def tells(self, room, m, i, u):
        line = b"SETINFO ups.status " + quoted(self.pick(*STATUSES)) if self.random.random() < 0.85 else self.pick(*OTHER_LINES)
        return [("driver", u, line)]

    def connects(self, room, m, i, u):
        return [("up", u), ("driver", u, b"SETINFO ups.status " + self.pick(b"OL", b"OB", b'"OB LB"')), ("driver", u, b"DATAOK"), ("driver", u, b"DUMPDONE")]

    def cuts(self, room, m, i, u):
        cuts = [("cut-server", m, i), ("cut-monitor", m, i)]
        return self.pick(cuts, cuts[:1], cuts[1:], [*cuts, ("link", m, i)], [*reversed(cuts)])

    def ends(self, room, m, i, u):
        return [self.pick(("down", u), ("link", m, i), ("driver", u, b"x" * self.pick(0, 300)))]
