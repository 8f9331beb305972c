"""A small program of a benchmark, beside the crates of a commit.

The program is no part of the repository: it is written into a copy of the commit's files, in a folder of its own.
"""
import contextlib
import os
import subprocess
import sys
import tempfile

NAME = "bench_trial"


@contextlib.contextmanager
def laid(commit, uses, program, proofs=None):
    """The folder of the program's crate in a copy of the commit's files; `uses` are the libraries that it uses.

    `proofs` are the texts of its other files, by their names in the crate's folder."""
    with tempfile.TemporaryDirectory() as folder:
        files = subprocess.run(["git", "archive", commit], capture_output=True, check=True).stdout
        subprocess.run(["tar", "-x", "-C", folder], input=files, check=True)
        crate = os.path.join(folder, "crates", NAME)
        os.makedirs(os.path.join(crate, "src"))
        with open(os.path.join(folder, "crates.txt"), "a", encoding="utf-8") as crates:
            crates.write("%s: %s\n" % (NAME, uses))
        with open(os.path.join(crate, "src/main.rt"), "w", encoding="utf-8") as main:
            main.write(program)
        for name, text in (proofs or {}).items():
            path = os.path.join(crate, name)
            os.makedirs(os.path.dirname(path), exist_ok=True)
            with open(path, "w", encoding="utf-8") as file:
                file.write(text)
        yield crate


def output(crate, *command):
    """The lines that the command writes in the crate's folder. The script ends where it fails."""
    done = subprocess.run(command, cwd=crate, capture_output=True, text=True, check=False)
    if done.returncode != 0:
        sys.exit(done.stdout + done.stderr)
    return done.stdout.splitlines()
