#!/usr/bin/env python3
"""Runs the built program's command `make` over archives whose summary lines were worked out apart from it.

Each is made twice by one worker, and once by two and by eight, and all lines have to be the one that is written here: the numbers come of the generator's definition,
by a program that draws pair after pair and searches lists of postings. The second archive has 20,000 documents, and is
searched through a cache of 256 KiB, less than a tenth of it.

usage: tools/test_make.py PROGRAM
"""
import subprocess
import sys

LINES = [
    (["seed=7", "docs=200", "terms=500"], "made docs 200 terms 500 postings 6232 total 812 sum 35859\n"),
    (
        ["seed=3", "docs=20000", "terms=100", "regions=4", "region=65536", "range=4096"],
        "made docs 20000 terms 100 postings 124906 total 77823 sum 287803\n",
    ),
]


def main():
    program = sys.argv[1]
    for words, line in LINES:
        for workers in (1, 1, 2, 8):
            done = subprocess.run(
                [program, "x", "-", "make", *words, f"workers={workers}"], stdin=subprocess.DEVNULL, capture_output=True, text=True, timeout=120
            )
            if done.returncode != 0 or done.stdout != line:
                print(f"test_make: {' '.join(words)}: status {done.returncode}, {done.stdout!r}", file=sys.stderr)
                return 1
    print("test_make: OK")
    return 0


if __name__ == "__main__":
    sys.exit(main())
