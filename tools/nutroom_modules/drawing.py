"""The picture of a run."""

import math

from nutroom_modules.bounds import is_forced, is_low
from nutroom_modules.network import HALTED, WATCHING
from nutroom_modules.picture import BREAK, GAP, LEAST_NAME, MOST_NAME, WIDTH, Axis, Label, Picture, fitted, in_rows, width_of
from nutroom_modules.summary import empty_times
from nutroom_modules.times import seconds, short_seconds


class Drawing:
    """The time line of a run: the UPSes at the top, and a lane for each machine."""

    BAR, ROW = 22, 16

    def __init__(self, room, title, plan, stories):
        self.room, self.title, self.plan, self.stories = room, title, plan, stories
        # what is drawn, and the texts above that
        self.picture, self.texts = Picture(), Picture()
        self.empty = empty_times(room)
        times = {change.time for change in room.changes} | set(self.empty.values()) | set(plan.forced.values())
        for story, bound in zip(stories, room.bounds):
            times |= {it[0] for it in (*story.notices, *story.phases, *story.marks)}
            times |= {story.end(bound)} - {None}
        names = [*room.upses, *(it.name for it in room.machines)]
        self.left = GAP + 8 + min(max(LEAST_NAME, *(1.1 * width_of(it) for it in names)), MOST_NAME)
        self.axis = Axis(times, self.left)
        self.end = max(end for _, end, _ in self.axis.starts())

    def draw(self):
        batteries = in_rows([self.label(self.axis.x(time), f"battery of {self.room.upses[ups]} empty at {short_seconds(time)}") for ups, time in self.empty.items()])
        top = 44 + self.ROW * len(batteries)
        bottom = top
        for u in range(len(self.room.upses)):
            bottom = self.ups_lane(u, bottom)
        for m in range(len(self.room.machines)):
            bottom = self.machine_lane(m, bottom)
        self.breaks(top, bottom)
        places = [(label, top - 6 - self.ROW * up) for up, row in enumerate(batteries) for label in row]
        for label, base in places:
            self.texts.label(label.left + 4, base, label.text)
        self.picture.parts += self.texts.labelled()
        end = self.legend(bottom + 44)
        # what is behind the lanes is known once they are drawn
        lanes, self.picture.parts = self.picture.parts, []
        self.picture.box(0, 0, WIDTH, end, **{"class": "bare"})
        self.picture.text(self.left, 26, fitted(self.title, (WIDTH - self.left) / 1.4), font_size=16, font_weight="bold")
        self.grid(top, bottom, places)
        self.picture.parts += lanes
        return self.picture.whole(end, self.title)

    # The axis.

    def grid(self, top, bottom, batteries):
        """Draws what is behind the lanes: the seconds, and when batteries are empty, by their labels and places."""
        ticks = {time: self.axis.x(time) for time in self.axis.ticks()}
        self.picture.lines([(x, top, x, bottom + 5) for x in ticks.values()], **{"class": "grid"})
        for time, x in ticks.items():
            self.picture.text(x, bottom + 19, short_seconds(time), text_anchor="middle")
        self.name("seconds", bottom + 19)
        for label, base in batteries:
            self.picture.line(label.x, base - 9, label.x, bottom, 2, stroke_dasharray="2 3")

    def breaks(self, top, bottom):
        """Marks where time was left out."""
        for _, end in self.axis.pieces[:-1]:
            x = self.axis.x(end)
            self.picture.box(x + 1, top - 4, BREAK - 2, bottom - top + 12, **{"class": "bare"})
            for at in (x + 8, x + 15):
                self.picture.line(at - 3, bottom + 10, at + 5, bottom - 6, 1.2)
                self.picture.line(at - 3, top + 12, at + 5, top - 4, 1.2)

    # The lanes.

    def name(self, text, y, **more):
        self.picture.text(self.left - GAP, y, fitted(text, MOST_NAME / 1.1), text_anchor="end", **more)

    def ups_lane(self, u, y):
        self.name(self.room.upses[u], y + 17, font_weight="bold")
        shown = [(-math.inf, "OL")] + [(it.time, it.status) for it in self.room.changes if it.ups == u]
        forced = self.plan.forced.get(u)
        if forced is not None:
            before = self.room.last_status(u, forced)
            shown = [it if it[0] < forced else (it[0], f"FSD {it[1]}") for it in shown] + [(forced, f"FSD {before}")]
            shown.sort(key=lambda it: it[0])
        for at, (time, status) in enumerate(shown):
            x, end = self.axis.x(time), self.axis.x(shown[at + 1][0] if at + 1 < len(shown) else self.end)
            self.picture.box(x, y, end - x, self.BAR, self.fill_of(status))
            if end - x > width_of(status) + 14:
                self.texts.label(x + 8, y + 16, status)
        return y + self.BAR + 12

    @staticmethod
    def fill_of(status):
        if is_forced(status):
            return "url(#forced)"
        return "url(#low)" if is_low(status) else "url(#battery)" if "OB" in status.split() else "#fff"

    def machine_lane(self, m, y):
        machine, story, bound = self.room.machines[m], self.stories[m], self.room.bounds[m]
        rows = in_rows(self.labels(machine, story, bound))
        bar = y + self.ROW * max(1, len(rows)) + 4
        for up, row in enumerate(rows):
            base = bar - 6 - self.ROW * up
            for label in row:
                dashes = {"class": "bound"} if label.is_bound else {}
                self.picture.line(label.x, base - 9, label.x, bar + self.BAR * label.is_bound, **dashes)
                self.texts.label(label.left + 4, base, label.text)
        self.name(machine.name, bar + 9, font_weight="bold")
        self.name(machine.role, bar + 23, font_size=12)
        self.bar(story, bar)
        self.network(story, bar + self.BAR + 5)
        return bar + self.BAR + 16

    def labels(self, machine, story, bound):
        """Returns the labels above a bar. What happens at the same place has one label. UPSes are named if a machine has
        several."""
        groups = []
        marks = [it for it in story.marks if it[1] in ("cut", "back")]
        for time, text, ups in sorted((*story.notices, *marks), key=lambda it: it[0]):
            x = self.axis.x(time)
            if not groups or x - groups[-1][0] >= 3:
                named, groups = None, [*groups, (x, [])]
            if ups not in (None, named) and len(machine.rules.lines) > 1:
                groups[-1][1].append(f"{self.room.upses[ups]}:")
                named = ups
            if text not in groups[-1][1] or named is not None:
                groups[-1][1].append(text)
        found = [self.label(x, " ".join(texts)) for x, texts in groups]
        end = story.end(bound)
        if end is not None:
            found.append(self.label(self.axis.x(end), f"by {short_seconds(end)}", is_bound=True))
        return found

    def label(self, x, text, is_bound=False):
        """Returns a label right of its place, or left of it if only so it stays within its piece of the axis, or the
        picture."""
        width = width_of(text) + 8
        begin, end = next(((begin, self.axis.x(end)) for _, end, begin in self.axis.starts() if begin <= x <= self.axis.x(end)), (self.left, WIDTH))
        is_left = x + width > WIDTH or x + width > end and x - width >= begin
        return Label(x, x - width if is_left else x, width, text, is_bound)

    def bar(self, story, y):
        """Draws the phases of a machine."""
        times = [(-math.inf, WATCHING), *story.phases, (self.end, None)]
        for (time, phase), (until, _) in zip(times, times[1:]):
            x, end = self.axis.x(time), self.axis.x(until)
            if phase == HALTED:
                self.picture.box(x - 2, y - 3, 4, self.BAR + 6, "#000")
                self.texts.label(x + 8, y + 16, f"halted {seconds(time)}")
            else:
                self.picture.box(x, y, end - x, self.BAR, "#fff" if phase == WATCHING else f"url(#{phase})")

    def network(self, story, y):
        """Draws a line for as long as a link is up, with a cross where it is cut or lost, and a ring where it is back."""
        at, lacks = self.left, set()
        for time, what, ups in sorted(story.marks, key=lambda it: it[0]):
            x, was_up = self.axis.x(time), not lacks
            if what in ("cut", "link lost"):
                lacks.add((what, ups))
                self.cross(x, y)
                if was_up:
                    self.picture.line(at, y, x - 4, y, 2)
            else:
                lacks.discard(({"back": "cut", "link back": "link lost"}[what], ups))
                if not lacks:
                    at = x + 4
                    self.ring(x, y)
        if not lacks:
            end = self.axis.x(self.end if story.halted is None else story.halted)
            self.picture.line(at, y, max(end, at), y, 2)

    def cross(self, x, y):
        self.picture.line(x - 4, y - 4, x + 4, y + 4, 2)
        self.picture.line(x - 4, y + 4, x + 4, y - 4, 2)

    def ring(self, x, y):
        self.picture.put("circle", cx=round(x), cy=round(y), r=4, fill="#fff", stroke="#000", stroke_width=1.6)

    def legend(self, y):
        rows = [
            [("#fff", "watches"), ("url(#Forcing)", "waits for the others"), ("url(#Final)", "about to halt"), ("#000", "halted")],
            [("#fff", "on line (OL)"), ("url(#battery)", "on battery (OB)"), ("url(#low)", "low battery (OB LB)"), ("url(#forced)", "forced (FSD)")],
        ]
        for name, row in zip(("machines", "UPSes"), rows):
            x = self.left
            self.name(name, y + 13)
            for fill, text in row:
                width = 5 if fill == "#000" else 26
                self.picture.box(x, y, width, 17, fill)
                self.picture.text(x + width + 7, y + 13, text)
                x += width + 7 + width_of(text) + 22
            y += 26
        x = self.left
        self.name("links", y + 13)
        samples = [
            (26, "there", lambda x: self.picture.line(x, y + 9, x + 26, y + 9, 2)),
            (8, "cut or lost", lambda x: self.cross(x + 4, y + 9)),
            (8, "back", lambda x: self.ring(x + 4, y + 9)),
            (2, "bound of the theorem", lambda x: self.picture.line(x, y, x, y + 17, **{"class": "bound"})),
        ]
        for width, text, draw in samples:
            draw(x)
            self.picture.text(x + width + 7, y + 13, text)
            x += width + 7 + width_of(text) + 22
        return y + 30
