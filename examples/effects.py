#!/usr/bin/env python3
"""Writes examples/effects.json, each effect on the same picture, and its picture docs/effects.png: effects.py [--project]

With the word --project it only prints the project. The tiles stand four in a row: the picture as it is, and then the effects in
the order of their kinds. The picture is a composition of solids in three panels, a lighthouse, a sun and a boat, with nothing
between them. Another composition, which is not seen, is the map of Displace: its bands are more and less red, and where they are
redder the picture is taken from further to the right.
"""

import math
import sys

sys.dont_write_bytecode = True

from drawn import composition, run

SIZE = (128, 88)
HORIZON = 56
COLUMNS, ROWS = 4, 3
PITCH, GAP = (156, 116), 28
WIDTH, HEIGHT = COLUMNS * PITCH[0] + GAP, ROWS * PITCH[1] + GAP
MAP = COLUMNS * ROWS
EFFECTS = [
    ("Invert", [0], {}),
    ("Threshold", [4500], {}),
    ("ChannelShift", [1, 2, 0], {}),
    ("ScaleOffset", [18000, -2500], {}),
    ("Tint", [1200, 600, 200, 10000, 9200, 7500, 9000], {}),
    ("PaletteMap", [], {"sequence": "1a1c2c5d275db13e53ef7d57ffcd75f4f4f4"}),
    ("Offset", [44, 24], {}),
    ("BoxBlur", [6], {}),
    ("Mosaic", [8], {}),
    ("DropShadow", [10, 10, 6500, 500, 500, 2000], {}),
    ("Displace", [7, 0], {"layers": [MAP]}),
]


def layer(source, x=0, y=0, **more):
    return {"source": source, "x": x, "y": y, **more}


def solid(x, y, width, height, red, green, blue, **more):
    """An opaque solid."""
    return layer({"solid": [width, height, 255, red, green, blue]}, x, y, **more)


def cuts():
    """Silhouettes take away what is between the panels, above the outer ones and below the middle one."""
    places = [(40, 0, 6, 88), (82, 0, 6, 88), (0, 0, 40, 8), (88, 0, 40, 8), (46, 80, 36, 8)]
    return [solid(*place, 255, 255, 255, mode="SilhouetteAlpha") for place in places]


def lighthouse():
    bands = [solid(13, 28 + 8 * k, 10, 8, *((208, 52, 44) if k % 2 else (238, 232, 222))) for k in range(5)]
    top = [solid(14, 20, 8, 8, 255, 226, 120), solid(12, 16, 12, 4, 72, 32, 40)]
    beam = [solid(22, 20 - k, 6 * k, 8 + 2 * k, 255, 214, 120, mode="Screen", opacity=1600) for k in (3, 2, 1)]
    return [*top, *bands, *beam, solid(4, 64, 30, 8, 44, 40, 52)]


def sun():
    """A disc of rows, and what the sea reflects of it."""
    radius = 13
    halves = [(row, round(math.sqrt(radius**2 - (row + 0.5) ** 2))) for row in range(-radius, radius)]
    rows = [solid(64 - half, 34 + row, 2 * half, 1, 255, 196 - 3 * row, 84) for row, half in halves]
    glints = [solid(64 - half, HORIZON + 3 * k, 2 * half, 2, 120, 72, 24, mode="Add") for k, half in enumerate((14, 9, 11, 6, 8, 3, 5))]
    return rows + glints


def boat():
    sail = [solid(109, 28 + 4 * k, 1 + 2 * k, 4, 244, 238, 228) for k in range(7)]
    jib = [solid(105 - k, 34 + 4 * k, 1 + k, 4, 226, 84, 60) for k in range(6)]
    return [*sail, *jib, solid(107, 26, 1, 34, 60, 36, 32), solid(96, 60, 26, 3, 112, 52, 40), solid(99, 63, 20, 3, 84, 36, 36)]


def sky():
    """From blue above to orange at the horizon."""
    glows = [solid(0, 8 * k, 128, HORIZON - 8 * k, 30, 13, 0, mode="Add") for k in range(1, 7)]
    return [*glows, solid(0, 0, 128, HORIZON, 62, 84, 150)]


def sea():
    waves = [solid(8 * (5 * k % 7) - 4, HORIZON + 4 * k, 30 + 6 * k, 1, 40, 52, 60, mode="Screen") for k in range(1, 8)]
    return [*waves, solid(0, HORIZON, 128, 88 - HORIZON, 22, 70, 104)]


def bands():
    """Of the map: as red as a wave is high, and half green."""
    return [solid(0, 2 * k, 128, 2, round(127.5 + 127.5 * math.sin(math.tau * k / 16)), 128, 0) for k in range(SIZE[1] // 2)]


def tiles():
    """The picture as it is, and behind each effect; then the map, which ends before it begins."""
    uses = [[], *[[{"effect": name, "params": params, **more}] for name, params, more in EFFECTS]]
    found = []
    for number, effects in enumerate(uses):
        x, y = GAP + number % COLUMNS * PITCH[0], GAP + number // COLUMNS * PITCH[1]
        found.append(layer({"comp": 0}, x, y, **({"effects": effects} if effects else {})))
    return [*found, layer({"comp": 1}, out=[0, 1])]


def project():
    """The topmost layer first."""
    picture = [*cuts(), *lighthouse(), *sun(), *boat(), *sky(), *sea()]
    ground = solid(0, 0, WIDTH, HEIGHT, 236, 232, 224)
    comps = [composition(*SIZE, picture), composition(*SIZE, bands()), composition(WIDTH, HEIGHT, [*tiles(), ground])]
    return {"version": 1, "depth": 8, "root": 2, "comps": comps}


if __name__ == "__main__":
    run("effects", project())
