#!/usr/bin/env python3
"""Writes examples/modes.json, all 21 transfer modes side by side, and its picture docs/modes.png: modes.py [--project]

With the word --project it only prints the project. The tiles stand in the order of the modes, seven in a row. In each,
the same upright bars lie over the same level bands: three opaque bars and a half transparent one, over five opaque bands
and a half transparent one. Over the bands the bars are seen alone, left of the bars the bands.

A bar in a stencil mode would take away all that lies below it outside of that bar, the other tiles too. So in the two
tiles of stencils what acts is a white solid over the whole frame, which leaves all as it is. From it a matte cuts, bar
for bar, what the bar would take away: as an inverted matte, a bar of what the bar leaves to white.
"""

import sys

sys.dont_write_bytecode = True

from drawn import composition, run

MODES = [
    *["Normal", "Multiply", "Screen", "Darken", "Lighten", "Difference", "Exclusion"],
    *["Add", "Subtract", "LinearBurn", "HardLight", "Overlay", "LinearLight", "PinLight"],
    *["HardMix", "ColorDodge", "ColorBurn", "StencilAlpha", "SilhouetteAlpha", "StencilLuma", "SilhouetteLuma"],
]
COLUMNS = 7
PITCH, GAP = 104, 12
ROWS = len(MODES) // COLUMNS
WIDTH, HEIGHT = COLUMNS * PITCH + GAP, ROWS * PITCH + GAP

# The first band or bar of a tile begins so far from its corner, and each is so wide.
MARGIN, BAND, BAR = 16, 12, 19
BANDS = [
    (255, 206, 112, 4),
    (255, 232, 142, 132),
    (255, 255, 255, 120),
    (255, 100, 208, 128),
    (128, 0, 128, 20),
    (255, 0, 120, 116),
]
BARS = [
    (255, 204, 192, 136),
    (255, 204, 128, 180),
    (128, 56, 12, 92),
    (255, 80, 132, 64),
]
WHITE = (255, 255, 255, 255)


def solid(width, height, colour, x, y, **more):
    return {"source": {"solid": [width, height, *colour]}, "x": x, "y": y, **more}


def corner(number):
    """Where the tile of a mode begins."""
    return GAP + number % COLUMNS * PITCH, GAP + number // COLUMNS * PITCH


def bar_places(number):
    """The colour of each bar of a tile, and its left side."""
    left, _ = corner(number)
    return [(colour, left + MARGIN + k * BAR) for k, colour in enumerate(BARS)]


def tile_height():
    return MARGIN + len(BANDS) * BAND


def bars(number, mode):
    """The bars of a tile, each in its mode."""
    _, top = corner(number)
    return [solid(BAR, tile_height(), colour, x, top, mode=mode) for colour, x in bar_places(number)]


def bands(row):
    """The bands of a row of tiles, over its whole width."""
    top = GAP + row * PITCH + MARGIN
    return [solid(WIDTH - 2 * GAP, BAND, colour, GAP, top + k * BAND) for k, colour in enumerate(BANDS)]


def gaps():
    """Opaque silhouettes between the columns: they take away what is below."""
    across = [corner(column)[0] - GAP for column in range(COLUMNS + 1)]
    return [solid(GAP, HEIGHT, WHITE, x, 0, mode="SilhouetteAlpha") for x in across]


def left_over(mode, colour):
    """What a bar leaves to white, as a stencil of this mode sees it."""
    alpha, *colours = colour
    return (255 - alpha, 0, 0, 0) if mode == "StencilAlpha" else (255, *(255 - it for it in colours))


def cut(mode, colour, width, x, top):
    """The white solid over the whole frame in a stencil's mode, and its matte, which cuts what a bar would take away."""
    matte = solid(width, tile_height(), colour, x, top)
    kind = "AlphaInverted" if mode == "StencilAlpha" else "LumaInverted"
    return [matte, solid(WIDTH, HEIGHT, WHITE, 0, 0, mode=mode, matte=kind)]


def stencil(number, mode):
    """The bars of a tile in a stencil's mode, and the margin beside them, where no bar is."""
    left, top = corner(number)
    cuts = [cut(mode, left_over(mode, colour), BAR, x, top) for colour, x in bar_places(number)]
    return [layer for pair in [*cuts, cut(mode, WHITE, MARGIN, left, top)] for layer in pair]


def project():
    """The topmost layer first."""
    tiles = list(enumerate(MODES))
    layers = gaps()
    for number, mode in tiles:
        if not mode.startswith("Stencil"):
            layers += bars(number, mode)
    for number, mode in tiles:
        if mode.startswith("Stencil"):
            layers += stencil(number, mode)
    for row in range(ROWS):
        layers += bands(row)
    return {"version": 1, "depth": 8, "root": 0, "comps": [composition(WIDTH, HEIGHT, layers)]}


if __name__ == "__main__":
    run("modes", project())
