#!/usr/bin/env python3
"""Writes examples/time.json, the effects of time and analysis on moving pictures, and its picture docs/time.png: time.py [--project]

With the word --project it only prints the project. Each strip is four frames of one composition, every third one. On the left a ball
jumps past hills: the picture as it is, and then the effects of time on it. Echo is on the ball alone, since what it draws lies below
the frame itself. On the right the same with little contrast, and what AutoLevels and Equalize make of it; and the same with a light
that changes from frame to frame, and what Deflicker makes of that.
"""

import math
import sys

sys.dont_write_bytecode = True

from drawn import composition, run
from letters import words_of

FRAMES = 24
SIZE = (144, 80)
GROUND = 54
SHOWN = (6, 9, 12, 15)
RADIUS, STEP, JUMP, TALL = 8, 6, 12, 44
EDGE = 32

TILE_GAP, STRIP = 4, 124
MARGIN, BLOCK = 24, 4 * SIZE[0] + 3 * 4
WIDTH, HEIGHT = 3 * MARGIN + 2 * BLOCK, 5 * STRIP + MARGIN
LABEL = 20

SKY, FAR, NEAR, MEADOW, LAND, BALL, JUMPING, PICTURE = range(8)

# What the light of a frame is, in 1/10000.
FLICKER = [7000, 9600, 5200, 8800, 9800, 7400, 5000, 9000, 6200, 9900, 7600, 5600]


def use(effect, *params):
    return {"effect": effect, "params": list(params)}


def moving(width, height, layers):
    return composition(width, height, layers, FRAMES)


def solid(x, y, width, height, colour, alpha=255):
    return {"source": {"solid": [width, height, alpha, *colour]}, "x": x, "y": y}


def mixed(above, below, part):
    return [round(a + (b - a) * part) for a, b in zip(above, below)]


def sky():
    """Bands from blue to the last light, wider than the frame, since they are blurred."""
    colours = [(30, 48, 104), (70, 88, 148), (156, 136, 168), (244, 178, 136), (255, 220, 150)]
    bands = []
    for k in range(16):
        below = k * 4 // 16
        colour = mixed(colours[below], colours[below + 1], k / 4 - below)
        bands.append(solid(0, 4 * k, SIZE[0] + 2 * EDGE, 4, colour))
    return moving(SIZE[0] + 2 * EDGE, 64, bands)


def meadow():
    bands = [solid(0, 4 * k, SIZE[0] + 2 * EDGE, 4, mixed((116, 124, 70), (30, 48, 34), k / 15)) for k in range(16)]
    return moving(SIZE[0] + 2 * EDGE, 64, bands)


def hills(colour, tops):
    """A ridge of columns, two points wide, down to the ground."""
    width = SIZE[0] + 8
    columns = [solid(x, round(tops(x)), 2, SIZE[1] - round(tops(x)), colour) for x in range(0, width, 2)]
    return moving(width, SIZE[1], columns)


def ridge(x):
    """Of the far hills: peaks."""
    return 38 - 11 * abs(math.sin(x / 23 + 0.4)) - 5 * abs(math.sin(x / 9))


def slope(x):
    """Of the near ones: woods."""
    return 48 + 4 * math.sin(x / 31 + 2) - 3 * abs(math.sin(x / 2.6)) - 1.5 * math.sin(x / 11)


def disc(radius, colours):
    """Of three discs in each other, the innermost first: light above on the left, dark below on the right."""
    parts = zip(colours, (0.62, 0.84, 1), (0.72, 0.86, 1), (2, 1, 0))
    rows = []
    for colour, size, middle, left in parts:
        for y in range(2 * radius):
            half = round(math.sqrt(max(0, (size * radius) ** 2 - (y + 0.5 - middle * radius) ** 2)))
            rows += [solid(radius - left - half, y, 2 * half, 1, colour)] if half else []
    return moving(2 * radius, 2 * radius, rows)


def jumping():
    """The ball and its shadow on the ground, with nothing round them."""
    heights = [TALL * (1 - (2 * (n % JUMP) / JUMP - 1) ** 2) for n in range(FRAMES)]
    x = [[0, [0, 1], "linear"], [STEP * (FRAMES - 1), [FRAMES - 1, 24], "hold"]]
    y = [[round(72 - 2 * RADIUS - high), [n, 24], "hold"] for n, high in enumerate(heights)]
    dark = [[round(7000 - 100 * high), [n, 24], "hold"] for n, high in enumerate(heights)]
    shadow = [solid(RADIUS - half, 70 + k, 2 * half, 1, (0, 0, 0), 200) for k, half in enumerate((5, 7, 5))]
    moved = [{**layer, "x": [[layer["x"] + value, *rest] for value, *rest in x], "opacity": dark} for layer in shadow]
    return moving(*SIZE, [{"source": {"comp": BALL}, "x": x, "y": y}, *moved])


def land():
    parts = [(MEADOW, -EDGE, GROUND, 4), (NEAR, -4, 0, 1), (FAR, -4, 0, 1), (SKY, -EDGE, -10, 6)]
    return moving(*SIZE, [{"source": {"comp": it}, "x": x, "y": y, "effects": [use("BoxBlur", radius)]} for it, x, y, radius in parts])


def pictures():
    """The compositions that are numbered first."""
    return [
        sky(),
        hills((98, 104, 146), ridge),
        hills((44, 62, 66), slope),
        meadow(),
        land(),
        disc(RADIUS, ((255, 190, 120), (236, 82, 52), (150, 30, 40))),
        jumping(),
        moving(*SIZE, [{"source": {"comp": JUMPING}}, {"source": {"comp": LAND}}]),
    ]


def shown(*effects):
    """The picture behind effects."""
    return [{"source": {"comp": PICTURE}, "effects": list(effects)}]


def strips():
    """The strips with their names, from the top: first the left ones."""
    faint = use("ScaleOffset", 4200, 2900)
    flicker = use("ScaleOffset", [[light, [n, 24], "hold"] for n, light in enumerate(FLICKER * 2)], 0)
    return [
        ("As it is", shown()),
        ("Echo", [{"source": {"comp": JUMPING}, "effects": [use("Echo", 5, 1, 7000)]}, {"source": {"comp": LAND}}]),
        ("PosterizeTime", shown(use("PosterizeTime", 6))),
        ("FrameDifference", shown(use("FrameDifference", 2))),
        ("TimeMean", shown(use("TimeMean", 2))),
        ("Faint", shown(faint)),
        ("AutoLevels", shown(faint, use("AutoLevels", 50))),
        ("Equalize", shown(faint, use("Equalize"))),
        ("Flicker", shown(flicker)),
        ("Deflicker", shown(flicker, use("Deflicker", 4))),
    ]


def tiles(first):
    """The four frames of each strip, whose compositions have the number `first` and those after it."""
    found = []
    for number in range(10):
        left, top = MARGIN + number // 5 * (BLOCK + MARGIN), MARGIN + number % 5 * STRIP + LABEL
        for place, frame in enumerate(SHOWN):
            x = left + place * (SIZE[0] + TILE_GAP)
            found.append({"source": {"comp": first + number}, "start": [-frame, 24], "x": x, "y": top})
    return found


def labels(first):
    return [
        {"source": {"comp": first + k}, "x": MARGIN + k // 5 * (BLOCK + MARGIN), "y": MARGIN + k % 5 * STRIP} for k in range(10)
    ]


def project():
    names, layers = zip(*strips())
    drawn = [*pictures(), *[moving(*SIZE, it) for it in layers]]
    words = words_of(names, len(drawn), (64, 58, 52))
    comps = [*drawn, *words]
    ground = solid(0, 0, WIDTH, HEIGHT, (236, 232, 224))
    root = [*tiles(len(pictures())), *labels(len(comps) - len(names)), ground]
    return {"version": 1, "depth": 8, "root": len(comps), "comps": [*comps, composition(WIDTH, HEIGHT, root)]}


if __name__ == "__main__":
    run("time", project())
