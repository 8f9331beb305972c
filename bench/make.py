#!/usr/bin/env python3
"""Times the built program's command `make` at its largest: 4,000,000 pairs of a term and a document.

For each of three shapes it prints the line that was written, and of RUNS runs the least seconds by the clock, the least
processor seconds and the greatest memory (at least that of this script, which starts the program), the whole process each.
Then an archive of 20,000 documents is made twice and searched through a cache of 256 KiB, less than a tenth of it.
It ends with status 1 where the least seconds by the clock of a shape are above 5, or where a line through that cache is
not the one that was worked out apart from the program.

The script `mount_tool` at the top of the repository builds the program, and the runs start what it built, or the program
that is named.

usage: bench/make.py [RUNS [PROGRAM]]
"""
import os
import resource
import subprocess
import sys
import tempfile
import time

MOST_SECONDS = 5
SHAPES = [(100_000, 40), (2_000, 2_000), (40, 100_000)]
SMALL_CACHE = ["seed=3", "docs=20000", "terms=100", "regions=4", "region=65536", "range=4096"]
SMALL_CACHE_LINE = "made docs 20000 terms 100 postings 124906 total 77823 sum 287803\n"


def used():
    usage = resource.getrusage(resource.RUSAGE_CHILDREN)
    return usage.ru_utime + usage.ru_stime


def measured(words, runs):
    """What the program wrote, its least seconds by the clock, its least processor seconds, its greatest memory in KiB."""
    written, clock, processor = "", [], []
    for _ in range(runs):
        before, began = used(), time.monotonic()
        done = subprocess.run(words, stdin=subprocess.DEVNULL, capture_output=True, text=True, check=False)
        clock.append(time.monotonic() - began)
        processor.append(used() - before)
        if done.returncode != 0:
            sys.exit("%s: status %d" % (" ".join(words), done.returncode))
        written = done.stdout
    return written, min(clock), min(processor), resource.getrusage(resource.RUSAGE_CHILDREN).ru_maxrss


def main():
    runs = int(sys.argv[1]) if len(sys.argv) > 1 else 3
    top = os.path.dirname(os.path.dirname(os.path.abspath(__file__)))
    program = os.path.join(top, "crates", "mount_tool", "out", "mount_tool")
    if len(sys.argv) > 2:
        program = sys.argv[2]
    else:
        subprocess.run([os.path.join(top, "mount_tool")], capture_output=True, check=False)
    slow = False
    with tempfile.TemporaryDirectory() as folder:
        for docs, terms in SHAPES:
            words = [program, folder, "-", "make", "seed=3", "docs=%d" % docs, "terms=%d" % terms]
            written, clock, processor, memory = measured(words, runs)
            print(written, end="")
            print("  %.2f s by the clock, %.2f s of a processor, %d KiB" % (clock, processor, memory))
            slow = slow or clock > MOST_SECONDS
        wrong = False
        for _ in range(2):
            written, clock, processor, _memory = measured([program, folder, "-", "make"] + SMALL_CACHE, 1)
            print(written, end="")
            print("  %.2f s by the clock, %.2f s of a processor, through a small cache" % (clock, processor))
            wrong = wrong or written != SMALL_CACHE_LINE
    sys.exit(1 if slow or wrong else 0)


if __name__ == "__main__":
    main()
