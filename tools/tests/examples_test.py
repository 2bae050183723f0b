"""The pictures of examples: that scripts write what examples need, the program the pictures, and that modes and effects can be told."""

import itertools
import json
import struct
from pathlib import Path

from common import AFR, TOP, Case, host, pixels_of_png

# How far apart the points of a tile are that count.
STEP = 4


def tiles(name, corners, width, height):
    """Points all over each tile of a picture, whose left top corners these are."""
    across, _, _, data = pixels_of_png((TOP / "docs" / f"{name}.png").read_bytes())
    pixels = [data[place : place + 4] for place in range(0, len(data), 4)]
    return [
        [pixels[y * across + x] for y in range(top, top + height, STEP) for x in range(left, left + width, STEP)]
        for left, top in corners
    ]


class Gallery:
    """A picture of tiles that a script makes, of the example that it writes. One of so many points differs between two tiles at least."""

    differing = 10

    def test_the_script_writes_the_example(self):
        script, example = TOP / "examples" / f"{self.name}.py", TOP / "examples" / f"{self.name}.json"
        self.assertEqual(self.well(script, "--project"), example.read_bytes())

    def test_the_picture_is_what_the_program_writes(self):
        if not host():
            self.skipTest("no program is built, and no release fits")
        data = self.well(TOP / "afhost", given=(TOP / "examples" / f"{self.name}.json").read_bytes())
        picture = (TOP / "docs" / f"{self.name}.png").read_bytes()
        self.assertEqual(pixels_of_png(self.well(AFR, "png", "-", given=data)), pixels_of_png(picture))

    def test_each_tile_can_be_told_from_the_others(self):
        for one, other in itertools.combinations(self.tiles(), 2):
            # By a sixth of white in some channel.
            differing = sum(max(abs(a - b) for a, b in zip(*pair)) >= 43 for pair in zip(one, other))
            self.assertGreaterEqual(self.differing * differing, len(one))

    def test_the_picture_is_small(self):
        self.assertLess((TOP / "docs" / f"{self.name}.png").stat().st_size, 100_000)


class Modes(Gallery, Case):
    name = "modes"

    def tiles(self):
        return tiles(self.name, [(12 + column * 104, 12 + row * 104) for row in range(3) for column in range(7)], 92, 92)


class Effects(Gallery, Case):
    name = "effects"

    def tiles(self):
        """Each with half of the gaps round it, in which blur and shadow lie."""
        return tiles(self.name, [(14 + column * 156, 14 + row * 116) for row in range(3) for column in range(4)], 156, 116)


class Time(Gallery, Case):
    name = "time"
    # What moves is small.
    differing = 100

    def tiles(self):
        """The strips."""
        return tiles(self.name, [(24 + block * 612, 44 + row * 124) for block in range(2) for row in range(5)], 588, 80)


class Lanterns(Case):
    def test_the_script_makes_the_clips_that_the_project_declares(self):
        self.well(TOP / "examples" / "lanterns.py")
        for clip in json.loads((TOP / "examples" / "lanterns.json").read_bytes())["clips"]:
            data = Path("clips", clip["name"]).read_bytes()
            want = struct.pack(">IIBIIII", clip["width"], clip["height"], clip["depth"], *clip["frame"], 0, clip["frames"])
            self.assertEqual(data[:29], b"AFR1" + want)
            self.assertEqual(len(data), 29 + clip["frames"] * clip["width"] * clip["height"] * clip["depth"] // 2)

    def test_the_program_draws_them(self):
        if not host():
            self.skipTest("no program is built, and no release fits")
        given = (TOP / "examples" / "lanterns.json").read_bytes()
        done = self.refused(TOP / "afhost", given=given, status=4)
        self.assertEqual(done.stderr.decode(), "afhost: clip sea.afr: missing\n")
        self.well(TOP / "examples" / "lanterns.py")
        data = self.well(TOP / "afhost", given=given)
        self.assertEqual(len(data), 29 + 24 * 320 * 180 * 4)
        # The sea is opaque everywhere, and the picture of the first lantern's middle is not the sea's.
        self.assertEqual(set(data[29::4]), {255})
        lit, dark = (data[29 + 4 * (60 * 320 + x) : 29 + 4 * (60 * 320 + x) + 4] for x in (96, 136))
        self.assertGreater(lit[1], 200)
        self.assertLess(dark[1], 80)


class ClipFaults(Case):
    """What a folder gives for clips, by the real program."""

    def project(self, name="a.afr"):
        clip = {"name": name, "width": 1, "height": 1, "depth": 8, "frame": [1, 24], "frames": 1}
        comp = {"width": 1, "height": 1, "frame": [1, 24], "frames": 1, "layers": [{"source": {"clip": 0}}]}
        return json.dumps({"version": 1, "depth": 8, "root": 0, "clips": [clip], "comps": [comp]}).encode()

    def test_a_folder_is_a_fault_and_no_folder_is_missing(self):
        if not host():
            self.skipTest("no program is built, and no release fits")
        done = self.refused(TOP / "afhost", given=self.project(), status=4)
        self.assertEqual(done.stderr.decode(), "afhost: clip a.afr: missing\n")
        Path("clips", "a.afr").mkdir(parents=True)
        done = self.refused(TOP / "afhost", given=self.project(), status=8)
        self.assertEqual(done.stderr.decode(), "afhost: clip a.afr: fault\n")
        done = self.refused(TOP / "afhost", given=self.project("../a.afr"), status=3)
        self.assertEqual(done.stderr.decode(), "afhost: project rule 17\n")

    def test_a_clip_is_read(self):
        if not host():
            self.skipTest("no program is built, and no release fits")
        Path("clips").mkdir()
        header = b"AFR1" + struct.pack(">IIBIIII", 1, 1, 8, 1, 24, 7, 1)
        Path("clips", "a.afr").write_bytes(header + bytes([128, 1, 2, 128]))
        data = self.well(TOP / "afhost", given=self.project())
        self.assertEqual(data[29:], bytes([128, 1, 2, 128]))
