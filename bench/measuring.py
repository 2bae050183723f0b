"""What the measurements of whole runs share: the host's program, plain programs, and what a run used."""

import filecmp
import shutil
import subprocess
import sys
import tempfile
from pathlib import Path
from typing import NamedTuple

BENCH = Path(__file__).resolve().parent
TOP = BENCH.parent
PROGRAM = TOP / "tools" / "program"

RUNS = 3

# The plain programs are on one thread, and so the host is measured on one.
ONE_WORKER = ["--workers", "1"]


class Use(NamedTuple):
    """What a run used: nanoseconds of a processor, and bytes of memory at its peak."""

    time: int
    peak: int


def host_program():
    """The host's program, proved and built first where it is not there. The runs start it without its wrapper."""
    return subprocess.run([PROGRAM], stdout=subprocess.PIPE, text=True, check=True).stdout.strip()


def build_rust(name, folder):
    program = folder / name
    options = ["-C", "opt-level=3", "-C", "target-cpu=x86-64-v2", "--edition", "2021"]
    subprocess.run(["rustc", *options, BENCH / f"{name}.rs", "-o", program], check=True)
    return program


def write_file(command, project, path, folder):
    with open(project, "rb") as text, open(path, "wb") as out:
        subprocess.run(command, stdin=text, stdout=out, cwd=folder, check=True)


def are_files_equal(commands, project, folder):
    """Whether all commands write what the first one does."""
    first, other = folder / "first.afr", folder / "other.afr"
    write_file(commands[0], project, first, folder)
    equal = True
    for command in commands[1:]:
        write_file(command, project, other, folder)
        equal = equal and filecmp.cmp(first, other, shallow=False)
    for path in (first, other):
        path.unlink()
    return equal


def run_once(measure, command, project, folder):
    answer = subprocess.run([measure, project, *command], stdout=subprocess.PIPE, cwd=folder, check=True)
    microseconds, kibibytes = map(int, answer.stdout.split())
    return Use(1000 * microseconds, 1024 * kibibytes)


def best(uses):
    """The least time, and the highest peak."""
    return Use(min(use.time for use in uses), max(use.peak for use in uses))


def measured(measure, commands, project, folder):
    """What each command uses: they run in turn."""
    rounds = [[run_once(measure, command, project, folder) for command in commands] for _ in range(RUNS)]
    return [best(uses) for uses in zip(*rounds)]


def run(name, bench):
    """Calls bench with a folder of its own, where the tools are there, and answers the status to end with."""
    is_ready = subprocess.run([PROGRAM, "--ready"], stdout=subprocess.DEVNULL).returncode == 0
    missing = [tool for tool in ("rustc", "rt") if shutil.which(tool) is None and not (tool == "rt" and is_ready)]
    if missing:
        print(f"{name}: skipped, for want of {' and '.join(missing)}")
        return 0
    with tempfile.TemporaryDirectory() as folder:
        try:
            return bench(Path(folder))
        except subprocess.CalledProcessError as error:
            print(f"{name}: {error.cmd[0]} ended with status {error.returncode}", file=sys.stderr)
        except OSError as error:
            print(f"{name}: {error}", file=sys.stderr)
        return 1
