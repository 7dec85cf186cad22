"""The parts of a picture: its axis, its shapes and its labels."""

import dataclasses
import math
import xml.sax.saxutils

from nutroom_modules.times import SECOND


WIDTH, RIGHT = 900, 24
# for the names of lanes: the least and the greatest width, and the distance to their lanes
LEAST_NAME, MOST_NAME, GAP = 80, 200, 12
FONT, LETTER = 13, 7.6
# for each piece of the axis: the space before its first time, after its last one, and to the next piece
BEFORE, BEHIND, BREAK = 26, 90, 26
LONG_GAP = 20 * SECOND


class Axis:
    """The places of times in the picture, from `left` on. Long times in which nothing happens are left out."""

    def __init__(self, times, left):
        self.left = left
        times = sorted(times)
        gaps = sorted((later - time, later) for time, later in zip(times, times[1:]) if later - time > LONG_GAP)
        while True:
            cuts = {later for _, later in gaps}
            firsts = [times[0], *sorted(cuts)]
            lasts = [time for time, later in zip(times, times[1:]) if later in cuts] + [times[-1]]
            room = WIDTH - left - RIGHT - BREAK * len(gaps) - (BEFORE + BEHIND) * len(firsts)
            self.scale = room / max(sum(lasts) - sum(firsts), SECOND)
            # a gap that is no wider than the mark that would replace it stays
            if not gaps or room > 0 and gaps[0][0] * self.scale > BEFORE + BEHIND + BREAK:
                break
            gaps.pop(0)
        self.pieces = [(first - BEFORE / self.scale, last + BEHIND / self.scale) for first, last in zip(firsts, lasts)]

    def starts(self):
        """Yields each piece of the axis: the times at which it begins and ends, and its place."""
        x = self.left
        for begin, end in self.pieces:
            yield begin, end, x
            x += (end - begin) * self.scale + BREAK

    def x(self, time):
        """Returns the place of a time: for one that is left out, the middle of the gap, and for one outside, the edge."""
        at = self.left
        for begin, end, x in self.starts():
            if time < begin:
                return at if at == self.left else at + BREAK / 2
            if time <= end:
                return x + (time - begin) * self.scale
            at = x + (end - begin) * self.scale
        return at

    def ticks(self):
        step = next(it * SECOND for it in (1, 2, 5, 10, 20, 30, 60, 120, 300, 600, 1800, 3600, 7200, 86_400) if it * SECOND * self.scale >= 44 or it == 86_400)
        for begin, end, _ in self.starts():
            yield from range(math.ceil(max(begin, 0) / step) * step, math.floor(end) + 1, step)


def path_of(x1, y1, x2, y2):
    """Returns the path of a line."""
    end = f"V{y2}" if x1 == x2 else f"H{x2}" if y1 == y2 else f"L{x2},{y2}"
    return f"M{x1},{y1}{end}"


def in_tenths(number):
    """Returns a number as a picture has it."""
    return f"{number:.1f}".removesuffix(".0")


class Picture:
    """An SVG that can be read without colours."""

    # what most shapes have, so that they needn't say it
    FILL, THIN = "#fff", 0.8
    STYLE = "text,pattern{fill:#000}rect{stroke-width:1}rect,path{stroke:#000}.grid{stroke:#bbb}.bare{stroke:none}.bound{stroke-width:1.6;stroke-dasharray:4 3}"

    PATTERNS = {
        "battery": '<path d="M-2,2 l4,-4 M0,10 l10,-10 M8,12 l4,-4"/>',
        "low": '<path d="M-2,2 l4,-4 M-1,6 l7,-7 M0,10 l10,-10 M4,11 l7,-7 M8,12 l4,-4" stroke-width="1.5"/>',
        "forced": '<path d="M0,0 L10,10 M10,0 L0,10 M-1,9 l2,2 M9,-1 l2,2 M-1,1 l2,-2 M9,11 l2,-2" stroke-width="1.5"/>',
        "Forcing": '<path d="M0,2.5 h10 M0,7.5 h10" stroke-width="1.2"/>',
        "Final": '<circle cx="2.5" cy="2.5" r="1.3"/><circle cx="7.5" cy="7.5" r="1.3"/>',
    }

    def __init__(self):
        self.parts, self.plates = [], []

    def put(self, kind, text=None, **attributes):
        words = "".join(f' {name.replace("_", "-")}={xml.sax.saxutils.quoteattr(in_tenths(it) if isinstance(it, float) else str(it))}' for name, it in attributes.items())
        self.parts.append(f"<{kind}{words}/>" if text is None else f"<{kind}{words}>{xml.sax.saxutils.escape(text)}</{kind}>")

    def line(self, x1, y1, x2, y2, width=THIN, **more):
        self.lines([(x1, y1, x2, y2)], width, **more)

    def lines(self, ends, width=THIN, **more):
        """Draws lines that look the same."""
        thick = {} if width == self.THIN else {"stroke_width": float(width)}
        self.put("path", d="".join(path_of(*map(round, it)) for it in ends), **thick, **more)

    def box(self, x, y, width, height, fill=FILL, **more):
        filled = {} if fill == self.FILL else {"fill": fill}
        left, right = round(x), round(x + max(width, 0))
        self.put("rect", x=left, y=round(y), width=right - left, height=round(height), **filled, **more)

    def text(self, x, y, text, **more):
        self.put("text", text, x=round(x), y=round(y), **more)

    def label(self, x, y, text):
        """Draws a text on a white plate."""
        width = round(width_of(text) + 6)
        self.plates.append(f"M{round(x - 3)},{round(y) - FONT + 1}h{width}v{FONT + 4}h-{width}z")
        self.text(x, y, text)

    def labelled(self):
        """Returns its parts behind the plates of its labels."""
        plates = Picture()
        if self.plates:
            plates.put("path", d="".join(self.plates), **{"class": "bare"})
        return plates.parts + self.parts

    def whole(self, height, title):
        patterns = "".join(f'<pattern id="{name}" width="10" height="10" patternUnits="userSpaceOnUse">{shape}</pattern>' for name, shape in self.PATTERNS.items())
        return (f'<svg xmlns="http://www.w3.org/2000/svg" viewBox="0 0 {WIDTH} {height:.0f}" width="{WIDTH}" height="{height:.0f}" '
                f'font-family="Verdana, DejaVu Sans, sans-serif" font-size="{FONT}" fill="{self.FILL}" stroke-width="{self.THIN}">\n'
                f"<title>{xml.sax.saxutils.escape(title)}</title>\n<style>{self.STYLE}</style>\n<defs>{patterns}</defs>\n" + "\n".join(self.parts) + "\n</svg>\n")


def width_of(text):
    """Returns the approximate width of a text."""
    return sum(LETTER * (1.17 if it.isupper() else 0.55 if it in " .,:" else 1) for it in text)


def fitted(text, room):
    """Returns a text that is no wider than this."""
    if width_of(text) <= room:
        return text
    while width_of(text + "..") > room:
        text = text[:-1]
    return text + ".."


@dataclasses.dataclass(frozen=True)
class Label:
    """A text at a place x, which takes this much space from `left` on."""

    x: float
    left: float
    width: float
    text: str
    is_bound: bool

    def covers(self, other):
        """Whether it covers another label of its row."""
        return self.left < other.left + other.width and other.left < self.left + self.width


def in_rows(labels):
    """Returns labels in rows, the lowest first, so that none covers another."""
    rows = []
    for label in sorted(labels, key=lambda it: it.left, reverse=True):
        row = next((it for it in rows if not any(label.covers(other) for other in it)), None)
        if row is None:
            rows.append([label])
        else:
            row.append(label)
    return rows
