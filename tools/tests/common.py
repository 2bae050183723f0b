"""What the tests of the tools share: calls, small files and a folder for each test."""

import contextlib
import shutil
import struct
import subprocess
import tempfile
import unittest
import zlib
from pathlib import Path


TOP = Path(__file__).resolve().parent.parent.parent
AFR = TOP / "tools" / "afr"
EXAMPLES = sorted((TOP / "examples").glob("*.json"))
BARE = {"PATH": "/usr/bin:/bin"}


def ran(*words, given=b"", **named):
    """A call that has ended: its status and the bytes that it wrote. What is given is its standard input."""
    return subprocess.run([str(it) for it in words], input=given, capture_output=True, **named)


def is_there(name):
    """Whether a program is there. Another program than GNU's is called parallel too."""
    return shutil.which(name) and (name != "parallel" or ran(name, "--version").stdout.startswith(b"GNU parallel"))


def needs(*names):
    missing = [name for name in names if not is_there(name)]
    return unittest.skipIf(missing, f"missing here: {', '.join(missing)}")


def afr(width, height, pictures, depth=8, first=0, frame=(1, 24)):
    """The bytes of an AFR file."""
    return struct.pack(">4sIIBIIII", b"AFR1", width, height, depth, *frame, first, len(pictures)) + b"".join(pictures)


def pixels(*channels, depth=8):
    return struct.pack(f">{len(channels)}{'B' if depth == 8 else 'H'}", *channels)


# Three frames of 2 by 1, each pixel alpha, red, green, blue.
FRAMES = [
    pixels(255, 10, 20, 30, 255, 200, 100, 0),
    pixels(128, 128, 64, 1, 0, 0, 0, 0),
    pixels(255, 0, 0, 0, 3, 3, 2, 1),
]
SMALL = afr(2, 1, FRAMES)


def host():
    """The host's program, or None where none is built and no release fits."""
    found = ran(TOP / "tools" / "program", "--ready")
    return found.stdout.decode().strip() if found.returncode == 0 else None


class Case(unittest.TestCase):
    """A test with a folder of its own, in which the calls run."""

    maxDiff = None

    def setUp(self):
        self.folder = Path(self.enterContext(tempfile.TemporaryDirectory(prefix="afr-test-")))
        self.enterContext(contextlib.chdir(self.folder))

    def file(self, name, data):
        path = self.folder / name
        path.parent.mkdir(parents=True, exist_ok=True)
        path.write_bytes(data)
        return path

    def well(self, *words, **named):
        """What a call wrote that ends well."""
        done = ran(*words, **named)
        self.assertEqual(done.returncode, 0, done.stderr.decode())
        return done.stdout

    def refused(self, *words, why="", status=2, **named):
        """A call that is refused with one line."""
        done = ran(*words, **named)
        self.assertEqual(done.returncode, status, done)
        lines = done.stderr.decode().splitlines()
        self.assertEqual(len(lines), 1, lines)
        self.assertIn(why, lines[0])
        return done


def pixels_of_png(data):
    """Width, height, bits and the bytes of the pixels of a PNG picture with alpha whose rows are as they stand."""
    place, packed, head = 8, b"", b""
    while place < len(data):
        size, kind = struct.unpack(">I4s", data[place : place + 8])
        body = data[place + 8 : place + 8 + size]
        assert zlib.crc32(kind + body) == int.from_bytes(data[place + 8 + size : place + 12 + size])
        head, packed = (body, packed) if kind == b"IHDR" else (head, packed + (body if kind == b"IDAT" else b""))
        place += 12 + size
    width, height, depth, kind, *_ = struct.unpack(">IIBBBBB", head)
    assert kind == 6
    lines, row = zlib.decompress(packed), 1 + width * depth // 2
    assert all(lines[at] == 0 for at in range(0, len(lines), row))
    return width, height, depth, b"".join(lines[at + 1 : at + row] for at in range(0, len(lines), row))
