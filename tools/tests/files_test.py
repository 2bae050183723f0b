"""tools/afr on files that are there: what it shows, and what it refuses."""

import os
import pty
import struct
import subprocess
import sys
from pathlib import Path

from common import AFR, FRAMES, SMALL, Case, afr, needs, pixels, pixels_of_png, ran


class Files(Case):
    def test_info_tells_what_a_file_holds(self):
        text = self.well(AFR, "info", self.file("a.afr", afr(2, 1, FRAMES, first=5, frame=(1001, 30000)))).decode()
        for part in ("2 by 1", "8 bit", "3, 5 to 7", "1001/30000 seconds", "29.97 a second", "0.1001 seconds", "53"):
            self.assertIn(part, text)

    def test_png_is_straight(self):
        path = self.file("a.afr", SMALL)
        self.assertEqual(pixels_of_png(self.well(AFR, "png", path, "1")), (2, 1, 8, pixels(255, 128, 2, 128, 0, 0, 0, 0)))
        first = pixels(10, 20, 30, 255, 200, 100, 0, 255)
        self.assertEqual(pixels_of_png(self.well(AFR, "png", "-", given=SMALL)), (2, 1, 8, first))

    def test_png_of_16_bits_keeps_each_value(self):
        frame = pixels(32768, 32768, 16384, 1, 16384, 16384, 8192, 0, depth=16)
        data = self.well(AFR, "png", self.file("a.afr", afr(2, 1, [frame], depth=16)))
        wanted = pixels(65535, 32768, 2, 65535, 65535, 32768, 0, 32768, depth=16)
        self.assertEqual(pixels_of_png(data), (2, 1, 16, wanted))

    def test_join_of_parts_is_the_whole(self):
        whole = afr(2, 1, FRAMES, first=9)
        one, two = self.file("1.afr", afr(2, 1, FRAMES[:2], first=9)), self.file("2.afr", afr(2, 1, FRAMES[2:], first=11))
        self.assertEqual(self.well(AFR, "join", one, two), whole)
        self.assertEqual(self.well(AFR, "join", two, "-", given=one.read_bytes()), whole)
        self.well(AFR, "join", two, one, "--out", "whole.afr")
        self.assertEqual(Path("whole.afr").read_bytes(), whole)

    def test_join_refuses_what_does_not_fit(self):
        one = self.file("1.afr", afr(2, 1, FRAMES[:2]))
        last = FRAMES[2:]
        others = {
            "begins with frame 3": afr(2, 1, last, first=3),
            "begins with frame 1": afr(2, 1, last, first=1),
            "width": afr(1, 2, last, first=2),
            "depth": afr(1, 1, last, depth=16, first=2),
            "scale": afr(2, 1, last, first=2, frame=(1, 25)),
        }
        for why, data in others.items():
            with self.subTest(why):
                self.refused(AFR, "join", one, self.file("2.afr", data), "--out", "whole.afr")
                self.assertFalse(Path("whole.afr").exists())

    def test_compare_tells_the_first_difference(self):
        one = self.file("1.afr", SMALL)
        rows = {
            b"": SMALL,
            b"frame 1, point 1,0, blue: 0 and 7\n": SMALL[:44] + b"\x07" + SMALL[45:-1] + b"\x00",
            b"count: 3 and 2\n": afr(2, 1, FRAMES[:2]),
            b"scale: 24 and 25\n": afr(2, 1, FRAMES, frame=(1, 25)),
        }
        for wanted, data in rows.items():
            with self.subTest(wanted):
                done = ran(AFR, "compare", one, self.file("2.afr", data))
                self.assertEqual((done.returncode, done.stdout, done.stderr), (1 if wanted else 0, wanted, b""))

    def test_progress_hands_on_and_is_quiet_without_a_terminal(self):
        done = ran(AFR, "progress", given=SMALL)
        self.assertEqual((done.returncode, done.stdout, done.stderr), (0, SMALL, b""))

    def test_progress_shows_the_frames_on_a_terminal(self):
        near, far = pty.openpty()
        done = subprocess.run([AFR, "progress"], input=SMALL, stdout=subprocess.PIPE, stderr=far)
        os.close(far)
        shown = os.read(near, 1 << 16).decode()
        os.close(near)
        self.assertEqual((done.returncode, done.stdout), (0, SMALL))
        self.assertIn("3 of 3 frames", shown)
        self.assertIn("0 s left", shown)

    def test_many_frames_need_no_more_memory_than_one(self):
        frame = bytes(1024)
        one, many = afr(16, 16, [frame]), afr(16, 16, [frame] * 65_536)
        half = len(frame) * 32_768
        lower, upper = (struct.pack(">4sIIBIIII", b"AFR1", 16, 16, 8, 1, 24, at, 32_768) + bytes(half) for at in (0, 32_768))
        self.file("one.afr", one), self.file("many.afr", many), self.file("1.afr", lower), self.file("2.afr", upper)
        rows = [
            (["info", "-"], ["info", "-"]),
            (["progress"], ["progress"]),
            (["png", "-", "0", "--out", "a.png"], ["png", "-", "65535", "--out", "a.png"]),
            (["compare", "-", "one.afr"], ["compare", "-", "many.afr"]),
            (["join", "-", "--out", "a.afr"], ["join", "1.afr", "2.afr", "--out", "a.afr"]),
        ]
        for small, large in rows:
            with self.subTest(small[0]):
                least, most = self.peak(one, small), self.peak(many, large)
                self.assertLess(most, least + (6 << 20), (least, most))
        self.assertEqual(Path("a.afr").read_bytes(), many)

    def peak(self, given, words):
        """The most memory that a call holds, in bytes."""
        text = "import resource, subprocess, sys\nstatus = subprocess.run(sys.argv[1:], stdout=subprocess.DEVNULL).returncode\n"
        text += "print(status, resource.getrusage(resource.RUSAGE_CHILDREN).ru_maxrss, file=sys.stderr)"
        status, peak = ran(sys.executable, "-c", text, AFR, *words, given=given).stderr.split()
        self.assertEqual(status, b"0")
        return int(peak) * 1024


class Refusals(Case):
    """Every command refuses a file that is not whole, from a file and from a pipe, and leaves no file of its own."""

    FAULTY = {
        "short: 0 of 29": b"",
        "short: 28 of 29": SMALL[:28],
        "short: 52 of 53": SMALL[:-1],
        "not an AFR file": b"RIFF" + SMALL[4:],
        "trailing": SMALL + b"\0",
        "width 0": afr(0, 1, []),
        "depth 9": SMALL[:12] + b"\x09" + SMALL[13:],
        "count 0": afr(2, 1, []),
    }

    def hold(self, calls, given=False):
        for why, data in self.FAULTY.items():
            for words in calls:
                with self.subTest(why, words=words[0]):
                    before = {path.name for path in [self.file("bad.afr", data), self.file("good.afr", SMALL)]}
                    self.refused(AFR, *words, why=why, given=data if given else b"")
                    self.assertEqual({path.name for path in self.folder.iterdir()}, before)

    def test_files(self):
        calls = [["info", "bad.afr"], ["png", "bad.afr", "--out", "a.png"], ["join", "bad.afr", "--out", "a.afr"]]
        self.hold([*calls, ["compare", "bad.afr", "good.afr"], ["compare", "good.afr", "bad.afr"]])

    def test_pipes(self):
        calls = [["info", "-"], ["png", "-", "--out", "a.png"], ["join", "-", "--out", "a.afr"], ["progress"]]
        self.hold([*calls, ["compare", "-", "good.afr"]], given=True)

    @needs("ffmpeg")
    def test_what_calls_ffmpeg(self):
        self.hold([["sheet", "bad.afr", "--out", "a.png"], ["video", "bad.afr", "a.mkv"]])
        self.hold([["sheet", "-", "--out", "a.png"], ["video", "-", "a.mkv"]], given=True)

    @needs("ffmpeg", "ffprobe")
    def test_clip_refuses_what_is_no_picture(self):
        self.refused(AFR, "clip", self.file("bad.mkv", b"no video"), why="ffprobe: ")
        self.refused(AFR, "clip", "none.mkv", why="ffprobe: ")
        self.refused(AFR, "clip", "-", given=SMALL, why="give --rate")
        self.refused(AFR, "clip", "-", "--rate", "24", given=SMALL, why="ffmpeg: ")
        self.refused(AFR, "clip", "bad.mkv", "--out", ".hidden", why="a clip's name")
        self.assertEqual([*self.folder.glob("**/*.afr")], [])

    def test_a_frame_past_the_end(self):
        path = self.file("a.afr", SMALL)
        self.refused(AFR, "png", path, "3", why="no frame 3: it has 3")
        self.refused(AFR, "png", "-", "3", given=SMALL, why="no frame 3: it has 3")
        self.refused(AFR, "png", path, "-1", why="--help")

    def test_a_pixel_that_is_not_premultiplied(self):
        path = self.file("a.afr", afr(1, 1, [pixels(1, 0, 0, 0), pixels(1, 0, 2, 0)]))
        self.refused(AFR, "png", path, "1", why="frame 1 is not premultiplied")
        path = self.file("b.afr", afr(1, 1, [pixels(32769, 0, 0, 0, depth=16)], depth=16))
        self.refused(AFR, "png", path, why="frame 0 is not premultiplied")

    def test_words(self):
        for words in ([], ["blur"], ["info"], ["info", "none.afr"], ["png", "a.afr", "x"], ["join"], ["clip", "a", "--depth", "9"]):
            with self.subTest(words):
                self.refused(AFR, *words)

    def test_what_is_missing_is_named(self):
        path = self.file("a.afr", SMALL)
        for words in (["video", path, "a.mkv"], ["sheet", path, "--out", "a.png"], ["clip", "a.mkv"]):
            with self.subTest(words[0]):
                env = {"PATH": str(self.folder)}
                self.refused(sys.executable, AFR, *words, env=env, why="is missing: install ffmpeg")
