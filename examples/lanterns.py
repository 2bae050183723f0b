#!/usr/bin/env python3
"""Makes the clips of examples/lanterns.json in the folder clips below the current one: lanterns.py [--picture]

The project lays a string of lanterns over a clip of a sea at night, and once more, dimmed, as its reflection. The string is a
composition of its own: the same clip of a lantern three times, each beginning at another time. The sea has 16 bits a channel, the
lantern 8 and an alpha channel.

With the word --picture it makes docs/lanterns.png too, from what the program writes.
"""

import math
import struct
import subprocess
import sys
from pathlib import Path

TOP = Path(__file__).resolve().parent.parent
PROJECT = TOP / "examples" / "lanterns.json"
PICTURE = TOP / "docs" / "lanterns.png"

FRAMES, SCALE = 24, 24
SEA = (320, 180)
LANTERN = (48, 72)


def header(size, depth):
    return b"AFR1" + struct.pack(">IIBIIII", *size, depth, 1, SCALE, 0, FRAMES)


def turn(frame):
    """The part of a whole turn at a frame: the last frame goes on to the first."""
    return 2 * math.pi * frame / FRAMES


def sea_colour(x, y, frame):
    """The sky above, dark blue to violet, and below it water with bright ridges, as parts of white."""
    width, height = SEA
    shore = height * 11 // 20
    if y < shore:
        depth = y / shore
        return (0.04 + 0.22 * depth, 0.05 + 0.10 * depth, 0.16 + 0.22 * depth)
    depth = (y - shore) / (height - shore)
    ridge = math.sin(0.9 * y / (0.3 + depth) + 0.02 * x + turn(frame)) * math.sin(0.05 * x - 0.11 * y + 2 * turn(frame))
    light = max(0.0, ridge) ** 4 * (1.0 - 0.6 * depth)
    return (0.05 + 0.42 * light, 0.09 + 0.34 * light, 0.17 + 0.38 * light)


def sea_frame(frame):
    """A frame of 16 bits a channel, opaque."""
    width, height = SEA
    pixel = struct.Struct(">4H")
    return b"".join(
        pixel.pack(32768, *(round(32768 * part) for part in sea_colour(x, y, frame)))
        for y in range(height)
        for x in range(width)
    )


def lantern_pixel(x, y, frame):
    """Alpha and colours of a paper lantern with a halo, as parts of the whole; the colours are premultiplied."""
    width, height = LANTERN
    across, down = (x + 0.5 - width / 2) / (width / 2), (y + 0.5 - height / 2) / (height / 2)
    flicker = 0.82 + 0.12 * math.sin(turn(frame)) + 0.06 * math.sin(3 * turn(frame))
    body = (across / 0.52) ** 2 + (down / 0.62) ** 2
    if body < 1.0:
        rib = 0.86 + 0.14 * math.cos(10 * down)
        light = flicker * rib * (1.0 - 0.55 * body)
        return (1.0, min(1.0, 0.35 + light), min(1.0, 0.10 + 0.62 * light), 0.05 + 0.22 * light)
    halo = 0.55 * flicker * max(0.0, 1.0 - math.hypot(across, down)) ** 1.5
    return (halo, halo, 0.55 * halo, 0.18 * halo)


def lantern_frame(frame):
    """A frame of 8 bits a channel."""
    width, height = LANTERN
    frame_bytes = bytearray()
    for y in range(height):
        for x in range(width):
            alpha, *colours = (round(255 * part) for part in lantern_pixel(x, y, frame))
            frame_bytes += bytes([alpha, *(min(colour, alpha) for colour in colours)])
    return bytes(frame_bytes)


def write_clip(path, size, depth, frame_of):
    with open(path, "wb") as clip:
        clip.write(header(size, depth))
        for frame in range(FRAMES):
            clip.write(frame_of(frame))
    print(path)


def write_clips():
    folder = Path("clips")
    folder.mkdir(exist_ok=True)
    write_clip(folder / "sea.afr", SEA, 16, sea_frame)
    write_clip(folder / "lantern.afr", LANTERN, 8, lantern_frame)


def write_picture():
    frames = subprocess.run([TOP / "afhost"], input=PROJECT.read_bytes(), stdout=subprocess.PIPE, check=True).stdout
    sheet = [TOP / "tools" / "afr", "sheet", "-", "--tiles", "8", "--width", "200", "--out", PICTURE]
    subprocess.run(sheet, input=frames, check=True)


def main():
    words = sys.argv[1:]
    if words not in ([], ["--picture"]):
        sys.exit("lanterns.py: the one word is --picture")
    write_clips()
    if words:
        write_picture()


if __name__ == "__main__":
    main()
