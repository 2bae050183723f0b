"""tools/afr between its own files and those of ffmpeg."""

import json
import struct
from pathlib import Path

from common import AFR, FRAMES, Case, afr, needs, pixels, ran


@needs("ffmpeg", "ffprobe")
class Footage(Case):
    def made(self, path, *words):
        """Has ffmpeg make a file."""
        self.well("ffmpeg", "-v", "error", "-nostdin", *words, "-y", path)
        return path

    def raw(self, path, kind):
        """The pixels of a video's frames, as ffmpeg reads them."""
        return self.well("ffmpeg", "-v", "error", "-nostdin", "-i", path, "-f", "rawvideo", "-pix_fmt", kind, "-")

    def test_a_test_pattern_comes_back(self):
        self.made("pattern.mkv", "-f", "lavfi", "-i", "testsrc2=size=64x48:rate=30000/1001:duration=1", "-c:v", "ffv1", "-pix_fmt", "bgra")
        line = json.loads(self.well(AFR, "clip", "pattern.mkv", "--frames", "7"))
        self.assertEqual(line, {"name": "pattern.afr", "width": 64, "height": 48, "depth": 8, "frame": [1001, 30000], "frames": 7})
        self.well(AFR, "video", "clips/pattern.afr", "back.mkv", "--", "-c:v", "ffv1")
        self.assertEqual(self.raw("back.mkv", "rgb24"), self.raw("pattern.mkv", "rgb24")[: 7 * 64 * 48 * 3])
        told = self.well("ffprobe", "-v", "error", "-show_entries", "stream=r_frame_rate", "-of", "csv=p=0", "back.mkv")
        self.assertEqual(told.strip(), b"30000/1001")
        piped = self.well(AFR, "video", "-", "-", "--", "-f", "rawvideo", given=Path("clips/pattern.afr").read_bytes())
        self.assertEqual(piped, self.raw("back.mkv", "rgb24"))
        self.refused(AFR, "clip", "pattern.mkv", "back.mkv", why="other files beside it")

    def test_alpha_comes_back_to_within_premultiplication(self):
        shape = "format=rgba,geq=r='4*X':g='5*Y':b='X+Y':a='4*X+Y'"
        self.made("pattern.mkv", "-f", "lavfi", "-i", f"nullsrc=size=48x32:duration=0.1,{shape}", "-c:v", "ffv1", "-pix_fmt", "bgra")
        self.well(AFR, "clip", "pattern.mkv", "--out", "a.afr")
        self.well(AFR, "video", "--alpha", "a.afr", "back.mkv", "--", "-c:v", "ffv1", "-pix_fmt", "bgra")
        one, other = self.raw("pattern.mkv", "rgba"), self.raw("back.mkv", "rgba")
        self.assertEqual(one[3::4], other[3::4])
        for colour in range(3):
            for before, after, alpha in zip(one[colour::4], other[colour::4], one[3::4]):
                # A step of a premultiplied colour is 255/alpha straight ones; each way may miss by half a step.
                self.assertLessEqual(2 * alpha * abs(before - after), 255 + alpha)
        self.well(AFR, "clip", "back.mkv", "--out", "b.afr")
        self.well(AFR, "compare", "a.afr", "b.afr")

    def test_every_pixel_goes_through_pictures_and_back(self):
        triangle = [pixels(alpha, colour, 0, alpha) for alpha in range(256) for colour in range(alpha + 1)]
        rows = {8: triangle, 16: [deep_pixel(at) for at in range(32_896)]}
        for depth, every in rows.items():
            with self.subTest(depth):
                whole = afr(257, 128, [b"".join(every)], depth=depth)
                self.file("a.png", self.well(AFR, "png", self.file("a.afr", whole)))
                self.well(AFR, "clip", "a.png", "--depth", depth, "--out", "b.afr")
                self.assertEqual(Path("b.afr").read_bytes(), whole)

    def test_16_bits_go_through_a_video_and_back(self):
        frames = [b"".join(pixels(32768, at, 32768 - at, at ^ 5, depth=16) for at in range(part, part + 64)) for part in (0, 32_600)]
        self.file("a.afr", afr(8, 8, frames, depth=16))
        self.well(AFR, "video", "a.afr", "a.mkv", "--", "-c:v", "ffv1")
        self.well(AFR, "clip", "a.mkv", "--depth", "16", "--out", "b.afr")
        self.well(AFR, "compare", "a.afr", "b.afr")

    def test_pictures_make_a_clip(self):
        data = afr(2, 1, FRAMES, frame=(1, 30))
        for number in range(3):
            self.file(f"{number}.png", self.well(AFR, "png", self.file("a.afr", data), number))
        done = ran(AFR, "clip", "0.png", "1.png", "2.png", "--rate", "30", "--out", "-")
        self.assertEqual(done.stdout, data)
        self.assertEqual(json.loads(done.stderr)["frames"], 3)
        self.file("other.png", self.well(AFR, "png", self.file("b.afr", afr(1, 1, [FRAMES[0][:4]]))))
        self.refused(AFR, "clip", "0.png", "other.png", why="picture 2 is 1 by 1")
        line = json.loads(self.well(AFR, "clip", "0.png", "other.png", "--size", "6x4", "--depth", "16"))
        self.assertEqual(line, {"name": "0.afr", "width": 6, "height": 4, "depth": 16, "frame": [1, 24], "frames": 2})
        self.well(AFR, "info", "clips/0.afr")

    def test_a_sheet_shows_the_frames(self):
        frames = [pixels(255, 40 * at, 0, 0) * 64 for at in range(6)]
        self.file("a.afr", afr(8, 8, frames))
        self.well(AFR, "sheet", "a.afr", "--columns", "3", "--out", "a.png")
        self.assertEqual(struct.unpack(">II", Path("a.png").read_bytes()[16:24]), (3 * 8 + 4 * 4, 2 * 8 + 3 * 4))
        shown = self.raw("a.png", "rgb24")
        reds = [shown[3 * (40 * (8 + 12 * row) + 8 + 12 * column)] for row in range(2) for column in range(3)]
        self.assertEqual(reds, [0, 40, 80, 120, 160, 200])

    def test_a_player_shows_an_mp4(self):
        if b" libx264 " not in self.well("ffmpeg", "-v", "error", "-encoders"):
            self.skipTest("missing here: libx264")
        self.file("a.afr", afr(16, 16, [pixels(255, 9, 9, 9) * 256] * 3))
        self.well(AFR, "video", "a.afr", "a.mp4")
        told = self.well("ffprobe", "-v", "error", "-show_entries", "stream=pix_fmt,nb_frames", "-of", "csv=p=0", "a.mp4")
        self.assertEqual(told.strip(), b"yuv420p,3")


def deep_pixel(at):
    """One of many pixels of 16 bits, spread over the alphas and the colours up to each."""
    alpha = 32_768 if at < 128 else at * 40_503 % 32_769
    return pixels(alpha, at * 48_271 % (alpha + 1), alpha, at % (alpha + 1), depth=16)
