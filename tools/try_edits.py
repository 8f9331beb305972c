#!/usr/bin/env python3
"""Tries wrong bodies that are not tried in every run: those of tools/edits/CRATE, each of which the prover has to refuse.

    tools/try_edits.py CRATE

Three to eight edits a crate are tried in every run of the tests. Further ones stand here. They are tried in a copy of the
repository, where they take the place of the crate's own; the program ends with the status of `rt must-fail CRATE` there.
"""
import pathlib
import shutil
import subprocess
import sys
import tempfile

TOP = pathlib.Path(__file__).resolve().parent.parent


def tried(crate):
    """The status of the crate's further edits, tried in a copy."""
    edits = TOP / "tools" / "edits" / crate
    if not edits.is_dir():
        print(f"try_edits: {crate} has no further edits", file=sys.stderr)
        return 2
    with tempfile.TemporaryDirectory() as folder:
        copy = pathlib.Path(folder) / "copy"
        shutil.copytree(TOP, copy, ignore=shutil.ignore_patterns(".git", "out"))
        own = copy / "crates" / crate / "must-fail"
        shutil.rmtree(own)
        shutil.copytree(edits, own)
        return subprocess.run(["rt", "must-fail", crate], cwd=copy).returncode


if __name__ == "__main__":
    if len(sys.argv) != 2:
        sys.exit(__doc__)
    sys.exit(tried(sys.argv[1]))
