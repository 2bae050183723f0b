"""tools/farm: parts of a span, joined."""

import os
import shutil
import sys
from pathlib import Path

from common import BARE, TOP, Case, host, needs, ran

FARM = TOP / "tools" / "farm"


# In place of a login on another machine: another home folder on this one. A login names its shell, which parallel runs.
FAKE_SSH = """#!/bin/bash
while [ $# -gt 0 ]; do case $1 in -[lpoiSMO]) shift 2 ;; -*) shift ;; *) break ;; esac; done
shift
[ "${1-}" = -- ] && shift
export HOME="$REMOTE" SHELL=/bin/sh
cd "$HOME" && exec sh -c "$*"
"""


class Farm(Case):
    """A span in parts, joined."""

    def setUp(self):
        super().setUp()
        self.host = host()
        if not self.host:
            self.skipTest("no program is built, and no release fits")
        self.project = TOP / "examples" / "skyline.json"
        self.whole = self.well(self.host, "--from", "3", "--to", "20", given=self.project.read_bytes())

    def farmed(self, *words, **named):
        self.well(FARM, self.project, "out.afr", "--from", "3", "--to", "20", "--jobs", "2", *words, **named)
        self.assertEqual(Path("out.afr").read_bytes(), self.whole)
        self.assertEqual([path for path in self.folder.iterdir() if path.name.startswith(".farm")], [])

    @needs("parallel")
    def test_parts_are_the_whole(self):
        self.farmed("--parts", "5")
        self.farmed("--parts", "100")

    @needs("parallel")
    def test_a_part_that_fails_is_tried_again(self):
        tree = self.folder / "tree"
        shutil.copytree(TOP / "tools", tree / "tools", ignore=shutil.ignore_patterns("__pycache__"))
        self.file("tree/crates.txt", b""), self.file("tree/crates/afhost/src/main.rt", b"")
        flaky = f'#!/bin/sh\nmkdir "{self.folder}/tried-$2" 2>/dev/null && printf half && exit 6\nexec {self.host} "$@"\n'
        self.file("tree/crates/afhost/out/afhost", flaky.encode()).chmod(0o755)
        self.well(tree / "tools" / "farm", self.project, "out.afr", "--from", "3", "--to", "20", "--parts", "3", "--jobs", "1")
        self.assertEqual(Path("out.afr").read_bytes(), self.whole)
        self.assertEqual(len([*self.folder.glob("tried-*")]), 3)

    @needs("parallel", "rsync")
    def test_other_machines_render_parts(self):
        self.file("bin/ssh", FAKE_SSH.encode()).chmod(0o755)
        (self.folder / "remote").mkdir()
        env = {name: value for name, value in os.environ.items() if name != "SHELL"}
        env |= {"PATH": f"{self.folder}/bin:{os.environ['PATH']}", "REMOTE": f"{self.folder}/remote"}
        self.farmed("--parts", "3", "--sshlogin", "there", env=env)
        self.farmed("--parts", "4", "--sshlogin", "there", "--sshlogin", ":", env=env)
        self.assertEqual([path for path in (self.folder / "remote").iterdir() if path.name.startswith(".farm")], [])

    def test_a_missing_program_is_named(self):
        env = {**BARE, "PATH": str(self.folder)}
        self.refused(sys.executable, FARM, self.project, "out.afr", "--parts", "2", env=env, why="GNU parallel is missing")

    def test_a_job_array_renders_the_parts(self):
        text = self.well(FARM, self.project, "out.afr", "--from", "3", "--to", "20", "--parts", "4", "--slurm")
        self.assertIn(b"#SBATCH --array=0-3\n", text)
        for number in (2, 0, 3, 1):
            self.well("bash", self.file("array.sh", text), env={**BARE, "SLURM_ARRAY_TASK_ID": str(number)})
        join = next(line for line in text.decode().splitlines() if "join" in line).lstrip("# ")
        self.well("bash", "-c", join)
        self.assertEqual(Path("out.afr").read_bytes(), self.whole)

    @needs("parallel")
    def test_refusals(self):
        self.refused(FARM, self.project, "out.afr", "--parts", "2", "--to", "72", why="span 0 to 72 of 72 frames")
        self.refused(FARM, self.project, "out.afr", "--parts", "2", "--from", "9", "--to", "8", why="span 9 to 8")
        self.refused(FARM, self.file("a.json", b"[]"), "out.afr", "--parts", "2", why="not a project")
        self.refused(FARM, "none.json", "out.afr", "--parts", "2", why="none.json: No such file")
        broken = self.file("b.json", b'{"root":0,"comps":[{"frames":2}]}')
        done = ran(FARM, broken, "out.afr", "--parts", "2", "--jobs", "1")
        self.assertEqual(done.returncode, 2)
        self.assertIn(b"afhost: project rule 3", done.stderr)
        self.assertFalse(Path("out.afr").exists())
