#!/usr/bin/env python3
"""Counts the instructions of one GET VAR as a room grows, and draws them: by UPSes, by the variables of a UPS, and by other clients
that are connected. It needs valgrind (see instructions.py).

    bench/sizes.py UPSD [PICTURE]

PICTURE (bench/sizes.svg if it isn't given) is an SVG. A cost that grows with the work alone is a flat line."""

import os
import shutil
import sys
import tempfile

from instructions import FEW, MANY, NUT_UPSD, STATUS, Upsd

# what grows, and how far
SIZES = [
    ("UPSes", "upses", (1, 8, 32)),
    ("variables of a UPS", "variables", (1, 8, 64, 500)),
    ("other clients", "clients", (1, 16, 64, 255)),
]
ASKED = ("GET VAR", [STATUS], 1, 1)
PANEL, HEIGHT, LEFT, TOP, GAP = 230, 220, 70, 40, 60


def measure(server, folder, what, size):
    """Returns the instructions of one GET VAR in a room of this size."""
    few, many = (server.answers(folder, ASKED, count, **{what: size}) for count in (FEW, MANY))
    return (many - few) / (MANY - FEW)


def text(x, y, words, anchor="middle"):
    return f'<text x="{x:.0f}" y="{y:.0f}" text-anchor="{anchor}" font-size="13" font-family="sans-serif">{words}</text>'


def line(points, dashes):
    at = " ".join(f"{x:.1f},{y:.1f}" for x, y in points)
    return f'<polyline points="{at}" fill="none" stroke="black" stroke-width="2"{dashes}/>'


def panel(number, name, sizes, found, most):
    """Returns one part of the picture: a line for each server, over places of equal distance for the sizes."""
    left = LEFT + number * (PANEL + GAP)
    place = [left + PANEL * (it + 0.5) / len(sizes) for it in range(len(sizes))]
    height = [[TOP + HEIGHT * (1 - it / most) for it in row] for row in found]
    parts = [f'<rect x="{left}" y="{TOP}" width="{PANEL}" height="{HEIGHT}" fill="none" stroke="gray"/>']
    parts += [text(x, TOP + HEIGHT + 18, size) for x, size in zip(place, sizes)]
    parts += [text(left + PANEL / 2, TOP + HEIGHT + 40, name)]
    for row, values, dashes in zip(height, found, ("", ' stroke-dasharray="6 4"')):
        parts += [line(list(zip(place, row)), dashes)]
        parts += [text(x, y - 7, f"{value:,.0f}") for x, y, value in zip(place, row, values)]
    return parts


def picture(rows):
    """Returns the picture of the rows: what grows, its sizes, and what each server takes at each."""
    most = 1.25 * max(max(map(max, found)) for _, _, found in rows)
    width, height = LEFT + len(rows) * (PANEL + GAP), TOP + HEIGHT + 60
    parts = [f'<svg xmlns="http://www.w3.org/2000/svg" width="{width}" height="{height}" viewBox="0 0 {width} {height}">']
    parts += ['<rect width="100%" height="100%" fill="white"/>', text(LEFT, 22, "Instructions of one GET VAR: upsd (whole line), NUT's upsd (dashed)", "start")]
    for number, (name, sizes, found) in enumerate(rows):
        parts += panel(number, name, sizes, found, most)
    return "\n".join([*parts, "</svg>", ""])


def main():
    upsd = os.path.abspath(sys.argv[1])
    path = sys.argv[2] if len(sys.argv) > 2 else os.path.join(os.path.dirname(os.path.abspath(__file__)), "sizes.svg")
    if shutil.which("valgrind") is None:
        sys.exit("valgrind is missing")
    servers = [Upsd(upsd, False), *([Upsd(NUT_UPSD, True)] if os.access(NUT_UPSD, os.X_OK) else [])]
    rows = []
    with tempfile.TemporaryDirectory() as folder:
        for name, what, sizes in SIZES:
            found = [[measure(it, folder, what, size) for size in sizes] for it in servers]
            for at, size in enumerate(sizes):
                print(f"{size:4} {name:20}", *(f"{row[at]:8,.0f}" for row in found), flush=True)
            rows.append((name, sizes, found))
    with open(path, "w") as out:
        out.write(picture(rows))


if __name__ == "__main__":
    main()
