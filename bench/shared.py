"""What bench/run, bench/instructions and bench/stack have in common.

Where things lie, the two programs, the runs that are put to them, and how such
a command ends.
"""

import argparse
import filecmp
import os
import subprocess
import sys
from pathlib import Path

import runs

HERE = Path(__file__).resolve().parent
ROOT = HERE.parent
PROVED = ROOT / "crates" / "bandtrace" / "out" / "bandtrace"
WORK = ROOT / "target" / "bench"
QUEUES = (1, 6, 40, 64)
SEED = 1


class Stopped(Exception):
    """There is nothing to be measured, or the outputs differ."""


def build(source, program):
    """Optimized, for any x86-64 machine, so that both stand on the same ground."""
    subprocess.run(["rustc", "-O", "-C", "target-cpu=x86-64", "--edition", "2021",
                    "-o", str(program), str(source)], check=True)
    return program


def find_programs(proved, folder):
    """The proved program as given and the plain one, built in the folder."""
    if not proved.is_file():
        raise Stopped(f"there is no program {os.path.relpath(proved)}")
    folder.mkdir(parents=True, exist_ok=True)
    return {"proved": proved.resolve(),
            "plain": build(HERE / "plain" / "main.rs", folder / "plain")}


def make_run(queues, count, path):
    path.write_bytes(runs.make_run(queues, count, SEED))
    return path


def check_equal(run, outputs):
    """Two files, what the two programs printed; they are kept if they differ."""
    if not filecmp.cmp(*outputs, shallow=False):
        kept = [path.replace(WORK / path.name) for path in outputs]
        files = " and ".join(str(path.relative_to(ROOT)) for path in kept)
        raise Stopped(f"the outputs for {run.name} differ, see {files}")


def options(description, lines):
    found = argparse.ArgumentParser(description=description)
    found.add_argument("--program", type=Path, default=PROVED,
                       help="the proved program (default: crates/bandtrace/out/bandtrace)")
    found.add_argument("--lines", type=int, default=lines)
    return found


def status_of(task, chosen):
    """Does the task; 0, or 1 if there was a problem, which is then told."""
    try:
        task(chosen)
    except (Stopped, subprocess.CalledProcessError) as problem:
        print(f"bench: {problem}", file=sys.stderr)
        return 1
    return 0
