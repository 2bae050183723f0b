"""Which program ./afhost runs, the release, and that the tools show what the program writes."""

import json
import os
import shutil
import time

from common import AFR, BARE, EXAMPLES, TOP, Case, host, is_there, pixels_of_png, ran

TWO_PIXELS = "4146523100000002000000010800000001000000180000000000000001ff0a141eff0a141e"


class Host(Case):
    """The program itself, as ./afhost runs it."""

    def setUp(self):
        super().setUp()
        if not host():
            self.skipTest("no program is built, and no release fits")

    def test_two_pixels(self):
        given = (TOP / "examples" / "two_pixels.json").read_bytes()
        self.assertEqual(self.well(TOP / "afhost", given=given).hex(), TWO_PIXELS)

    def test_the_tools_show_what_it_writes(self):
        for project in EXAMPLES:
            with self.subTest(project.name):
                value = json.loads(project.read_bytes())
                comp = value["comps"][value["root"]]
                if "clips" in value:
                    self.well(TOP / "examples" / f"{project.stem}.py")
                data = self.well(TOP / "afhost", given=project.read_bytes())
                self.assertIn(f"{comp['width']} by {comp['height']}".encode(), self.well(AFR, "info", "-", given=data))
                size = pixels_of_png(self.well(AFR, "png", "-", comp["frames"] - 1, given=data))[:3]
                self.assertEqual(size, (comp["width"], comp["height"], value["depth"]))

    def test_the_first_picture_of_the_readme_is_what_it_writes(self):
        data = self.well(TOP / "afhost", given=(TOP / "examples" / "panes.json").read_bytes())
        shown = (TOP / "docs" / "panes.png").read_bytes()
        self.assertEqual(pixels_of_png(self.well(AFR, "png", "-", given=data)), pixels_of_png(shown))

    def test_a_bare_machine_answers_within_a_second(self):
        clone = self.folder / "clone"
        if not is_there("git") or ran("git", "clone", "-q", TOP, clone).returncode:
            shutil.copytree(TOP, clone, ignore=shutil.ignore_patterns("out", ".git"))
        if not (clone / "release").is_dir():
            self.skipTest("no release is committed")
        given, best = (clone / "examples" / "two_pixels.json").read_bytes(), 60.0
        for _ in range(3):
            started = time.monotonic()
            self.assertEqual(self.well(clone / "afhost", given=given, env=BARE).hex(), TWO_PIXELS)
            best = min(best, time.monotonic() - started)
        self.assertLess(best, 1.0)


# In place of the kit: it notes its words, and builds a program that says so.
FAKE_RT = """#!/bin/sh
echo "$PWD: $*" >> "$LOG"
case $1 in
version) echo 'kit 1' ;;
all) echo '== afhost'; echo '== summary'; exit "${FAILS:-0}" ;;
run) mkdir -p out; printf '#!/bin/sh\\necho built "$@"\\n' > out/afhost; chmod +x out/afhost; exit 2 ;;
esac
"""


class Program(Case):
    """Which program is run, over a small tree with a kit that only notes its words."""

    def setUp(self):
        super().setUp()
        self.tree = self.folder / "tree"
        shutil.copytree(TOP / "tools", self.tree / "tools", ignore=shutil.ignore_patterns("__pycache__"))
        shutil.copy(TOP / "afhost", self.tree / "afhost")
        self.file("tree/crates.txt", b"# a tree of one crate\nafhost:\n")
        self.source = self.file("tree/crates/afhost/src/main.rt", b"fn main\n")
        self.log = self.folder / "log"
        self.kit = {"PATH": f"{self.folder}/kit:{BARE['PATH']}", "LOG": str(self.log)}
        self.executable("kit/rt", FAKE_RT)
        self.release = self.tree / "release" / "afhost-x86_64-linux-gnu"

    def executable(self, name, text):
        path = self.file(name, text.encode())
        path.chmod(0o755)
        return path

    def built(self, text="#!/bin/sh\necho gate \"$@\"\n"):
        """A program that is newer than every source, and older than what is changed from now on."""
        now = time.time()
        for path in [self.tree / "crates.txt", *self.source.parent.iterdir(), self.source.parent]:
            os.utime(path, (now - 60, now - 60))
        path = self.executable("tree/crates/afhost/out/afhost", text)
        os.utime(path, (now - 30, now - 30))
        return path

    def released(self):
        """A release of the gate's program, which is then gone."""
        built = self.built()
        self.well(self.tree / "tools" / "release", env=self.kit)
        built.unlink()

    def check(self, why=None, env=None):
        if why is None:
            return self.well(self.tree / "tools" / "check-release", env=env or self.kit).decode()
        return self.refused(self.tree / "tools" / "check-release", env=env or self.kit, why=why, status=1)

    def said(self, env):
        return ran(self.tree / "afhost", "a b", "--from=1", env=env, cwd=self.folder)

    def test_the_built_program_comes_first(self):
        self.released()
        self.built()
        self.assertEqual(self.said(BARE).stdout, b"gate a b --from=1\n")

    def test_an_old_program_is_not_run(self):
        more = self.file("tree/crates/afhost/src/more.rt", b"")
        changes = [lambda: self.source.write_bytes(b"fn other\n"), more.unlink, lambda: self.file("tree/crates.txt", b"afhost:\n")]
        for change in changes:
            self.built()
            self.assertEqual(self.said(BARE).stdout, b"gate a b --from=1\n")
            change()
            self.assertEqual((self.said(BARE).returncode, self.said(BARE).stdout), (1, b""))

    def test_the_release_is_run_where_its_sources_fit(self):
        self.released()
        done = self.said(BARE)
        self.assertEqual((done.stdout, done.stderr), (b"gate a b --from=1\n", b""))
        self.assertNotIn("all", self.log.read_text())

    def test_a_changed_source_is_proved_with_all_processors(self):
        changes = [lambda: self.source.write_bytes(b"fn other\n"), lambda: self.file("tree/crates/afhost/src/more.rt", b"")]
        changes += [lambda: self.file("tree/crates.txt", b"afhost: thiserror\n"), self.release_damaged]
        for change in changes:
            self.released()
            change()
            self.log.unlink()
            done = self.said(self.kit)
            self.assertEqual((done.returncode, done.stdout), (0, b"built a b --from=1\n"))
            self.assertIn(b"1 of 1 crates: afhost", done.stderr)
            jobs = len(os.sched_getaffinity(0))
            calls = [f"{self.tree}: all check --jobs {jobs}", f"{self.tree}/crates/afhost: run -- --build"]
            self.assertEqual(self.log.read_text().splitlines(), calls)
            self.source.write_bytes(b"fn main\n")
            (self.tree / "crates/afhost/src/more.rt").unlink(missing_ok=True)

    def release_damaged(self):
        self.release.write_bytes(self.release.read_bytes() + b"\n")

    def test_a_failed_proof_is_no_program(self):
        done = self.said({**self.kit, "FAILS": "1"})
        self.assertEqual((done.returncode, done.stdout), (1, b""))
        self.assertIn(b"the program was not built", done.stderr)

    def test_without_a_kit_one_line_says_what_is_missing(self):
        self.released()
        self.source.write_bytes(b"fn other\n")
        self.refused(self.tree / "afhost", env=BARE, status=1, why="rt, which builds one, is not on the PATH")

    def test_a_release_that_fits_is_passed(self):
        self.released()
        self.built()
        self.assertEqual(self.check(), "check-release: ok\n")
        self.assertIn("skipped: rt is missing", self.check(env=BARE))
        self.executable("kit/rt", FAKE_RT.replace("kit 1", "kit 2"))
        self.built("another program")
        self.assertIn("skipped: the kit is kit 2", self.check())

    def test_a_release_that_does_not_fit_is_red(self):
        self.check("there is no release: run rt ci, then tools/release")
        self.released()
        self.check("is not there, or older than a source")
        self.built("#!/bin/sh\necho gates \"$@\"\n")
        self.check("the program that the gate has built differs")
        self.released()
        self.built()
        self.check()
        whole = self.release.read_bytes()
        self.release.write_bytes(whole[:-2] + b"?" + whole[-1:])
        self.check("is not the program that its text names")
        self.release.write_bytes(whole)
        self.release.chmod(0o644)
        self.check("is not executable")
        self.release.chmod(0o755)
        self.source.write_bytes(b"fn other\n")
        self.check("the release was made of other sources")

    def test_no_release_is_made_of_an_old_program(self):
        self.released()
        self.refused(self.tree / "tools" / "release", env=self.kit, status=1, why="run rt ci first")

    def test_the_sum_is_over_the_sources_in_the_order_of_their_paths(self):
        self.file("tree/crates/afhost_a/src/lib.rt", b"a")
        self.file("tree/crates/afhost/specs/Other.antt", b"no source")
        names = ["crates.txt", "crates/afhost/src/main.rt", "crates/afhost_a/src/lib.rt"]
        wanted = self.well("sha256sum", *names, cwd=self.tree)
        self.assertEqual(self.well(self.tree / "tools" / "sources-sum"), self.well("sha256sum", given=wanted)[:64] + b"\n")
