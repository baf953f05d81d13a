#!/usr/bin/env python3
"""Does a must-fail edit of code change what bandtrace prints?

Each edit of src/ in the crates that bandtrace is made of is applied to a copy of the repository, and the program is built without proof and run on the
gate's input (`rt try`). An edit that prints the same is of code that this run does not reach; docs/DECISIONS.md names those. A run that `rt try` stops at
a fault (a sum that does not fit, a call that breaks a `requires`) counts as something else.

    python3 oracle/edits.py              all of them, some half a minute each
    python3 oracle/edits.py share/NAME   one
"""
import pathlib
import shutil
import subprocess
import sys
import tempfile

ROOT = pathlib.Path(__file__).resolve().parent.parent
CRATES = ("rows", "head", "share", "lines")
RUN = ROOT / "crates" / "bandtrace" / "stdin"
STORED = ROOT / "crates" / "bandtrace" / "stdout"


def replacements(edit):
    """The file, old and new text of each change that an edit makes."""
    name = old = None
    for line in edit.read_text(encoding="utf-8").splitlines():
        if line.startswith("file: "):
            name = line[len("file: "):]
        elif line.startswith("old: "):
            old = line[len("old: "):]
        elif line.startswith("new:"):
            yield name, old, line[len("new: "):]


def prints(edit, crate):
    """What an edited copy prints beside the stored output."""
    changes = list(replacements(edit))
    if not all(name.startswith("src/") for name, _, _ in changes):
        return None
    with tempfile.TemporaryDirectory() as folder:
        copy = pathlib.Path(folder) / "copy"
        shutil.copytree(ROOT, copy, ignore=shutil.ignore_patterns("target", "out", ".git"))
        for name, old, new in changes:
            file = copy / "crates" / crate / name
            text = file.read_text(encoding="utf-8")
            if text.count(old) != 1:
                return "the old text is not there once"
            file.write_text(text.replace(old, new), encoding="utf-8")
        with open(RUN, "rb") as lines:
            run = subprocess.run(["rt", "try"], cwd=copy / "crates" / "bandtrace", stdin=lines, capture_output=True)
        if b"run=fault" in run.stderr:
            return "something else"
        if not run.stdout and run.returncode != 0:
            return "was not built"
        return "the same" if run.stdout == STORED.read_bytes() else "something else"


def main(wanted):
    for crate in CRATES:
        for edit in sorted((ROOT / "crates" / crate / "must-fail").glob("*.edit")):
            label = f"{crate}/{edit.stem}"
            if wanted and label not in wanted:
                continue
            said = prints(edit, crate)
            if said is not None:
                print(f"{label}: {said}", flush=True)


main(sys.argv[1:])
