#!/usr/bin/env python3
"""Times the built program on scripts that one worker runs over a folder.

Prints the processor seconds and the greatest memory (at least that of this script, which starts the program) of

- 64 searches in one block over a postings text of 10 million bytes, which the cache holds, beside 64 times the command
  `term` over the same text, which opens it once each;
- 6,000 reads of 4 KiB that all hit, and the microseconds of each: the seconds of the same script without the reads are
  taken off;
- 256 MiB that are read in order, 1 MiB a read, without a hit, and the million bytes a second.

Each read is a block of its own, since the replies of a block are kept until it ends.

Every run is made RUNS times, and the least is printed. The script `mount_tool` at the top of the repository builds the
program, and the runs start what it built, or the program that is named.

usage: bench/runs.py [RUNS [PROGRAM]]
"""
import json
import os
import resource
import subprocess
import sys
import tempfile

import postings

MIB = 1024 * 1024


def measured(words, script, runs):
    """The least processor seconds of the program over a script, and its greatest memory in KiB."""
    least, memory = None, 0
    for _ in range(runs):
        before = resource.getrusage(resource.RUSAGE_CHILDREN)
        done = subprocess.run(words, input=script, stdout=subprocess.DEVNULL, check=False)
        after = resource.getrusage(resource.RUSAGE_CHILDREN)
        if done.returncode != 0:
            sys.exit("%s: status %d" % (" ".join(words), done.returncode))
        seconds = after.ru_utime + after.ru_stime - before.ru_utime - before.ru_stime
        least = seconds if least is None else min(least, seconds)
        memory = max(memory, after.ru_maxrss)
    return least, memory


def searches(program, runs):
    with tempfile.TemporaryDirectory() as folder:
        length, terms = postings.write_archive(folder, 10_000_000, 0, postings.term_lines)
        lines = ["search logs 10 {\"term\":{\"body\":\"t%07d\"}}" % (i % terms) for i in range(64)]
        script = ("mount logs mount-bench\n" + "\n".join(lines) + "\n").encode()
        run, memory = measured([program, folder, "-", "run"], script, runs)
        one, _ = measured([program, folder, "-", "term", "mount-bench", "body", "t%07d" % (terms // 2)], b"", runs)
        print("64 searches over %d bytes: %.3f s, %d KiB; 64 times `term`: %.3f s" % (length, run, memory, 64 * one))


def write_file(folder, name, size):
    with open(os.path.join(folder, "__b"), "wb") as blob:
        for _ in range(size // MIB):
            blob.write(bytes(range(256)) * 4096)
    manifest = {"version": 1, "files": [{"name": "__b", "physical_name": name, "length": size}], "segments": []}
    with open(os.path.join(folder, "mount-bench"), "w") as blob:
        json.dump(manifest, blob)


def hits(program, runs):
    with tempfile.TemporaryDirectory() as folder:
        write_file(folder, "f", 16 * MIB)
        warm = "mount y mount-bench\n" + "".join("read y f %d 1048576\n--\n" % (i * MIB) for i in range(16))
        reads = "".join("read y f %d 4096\n--\n" % (i * 4096 % (16 * MIB)) for i in range(6000))
        words = [program, folder, "-", "run"]
        before, _ = measured(words, warm.encode(), runs)
        after, memory = measured(words, (warm + reads).encode(), runs)
        print("6,000 reads of 4 KiB that hit: %.1f microseconds each, %d KiB" % ((after - before) / 6000 * 1e6, memory))


def misses(program, runs):
    with tempfile.TemporaryDirectory() as folder:
        write_file(folder, "f", 256 * MIB)
        script = "mount y mount-bench\n" + "".join("read y f %d 1048576\n--\n" % (i * MIB) for i in range(256))
        words = [program, folder, "-", "run", "regions=2", "region=1048576"]
        seconds, memory = measured(words, script.encode(), runs)
        print("256 MiB in order without a hit: %.0f MB/s, %d KiB" % (256 * MIB / seconds / 1e6, memory))


def main():
    runs = int(sys.argv[1]) if len(sys.argv) > 1 else 3
    top = os.path.dirname(os.path.dirname(os.path.abspath(__file__)))
    program = os.path.join(top, "crates", "mount_tool", "out", "mount_tool")
    if len(sys.argv) > 2:
        program = sys.argv[2]
    else:
        subprocess.run([os.path.join(top, "mount_tool")], capture_output=True, check=False)
    searches(program, runs)
    hits(program, runs)
    misses(program, runs)


if __name__ == "__main__":
    main()
