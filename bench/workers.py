#!/usr/bin/env python3
"""Times the built program on scripts that 1, 2, 4 and 8 workers run over a folder, through one cache that they share.

Prints the seconds on the clock and the processor seconds of

- 64 searches in one block over a postings text of 10 million bytes, which the cache holds, for a term each, and for any of
  100 terms each;
- 6,000 reads of 4 KiB in one block that all hit.

Of each script the same without these lines, mounts and a first pass that fills the cache, is timed too; quotients are those of
what the lines take more. Every run is made RUNS times, in turns, and the least of each is printed, and the quotient of the
least and that in the middle of the runs, with the load of the machine before the first run.

usage: bench/workers.py [RUNS [PROGRAM]]
"""
import os
import resource
import statistics
import subprocess
import sys
import tempfile
import time

import postings
from runs import MIB, write_file

WORKERS = (1, 2, 4, 8)


def once(words, script):
    """The seconds on the clock, and the processor seconds."""
    before = resource.getrusage(resource.RUSAGE_CHILDREN)
    start = time.monotonic()
    done = subprocess.run(words, input=script, stdout=subprocess.DEVNULL, check=False)
    clock = time.monotonic() - start
    after = resource.getrusage(resource.RUSAGE_CHILDREN)
    if done.returncode != 0:
        sys.exit("%s: status %d" % (" ".join(words), done.returncode))
    return clock, after.ru_utime + after.ru_stime - before.ru_utime - before.ru_stime


def compared(name, words, first, lines, runs):
    """A line for each number of workers: the script without these lines, and with them."""
    bare, whole = ({workers: [] for workers in WORKERS} for _ in range(2))
    for _ in range(runs):
        # in turns, since the speed of a processor changes from second to second
        for workers in WORKERS:
            words_now = [*words, "workers=%d" % workers]
            bare[workers].append(once(words_now, first.encode()))
            whole[workers].append(once(words_now, (first + lines).encode()))
    more = {workers: [w[0] - b[0] for w, b in zip(whole[workers], bare[workers])] for workers in WORKERS}
    for workers in WORKERS:
        clock, processor = (min(run[part] for run in whole[workers]) for part in range(2))
        without = min(run[0] for run in bare[workers])
        alone = min(run[0] for run in whole[1]) - min(run[0] for run in bare[1])
        # below ten milliseconds a difference says nothing
        times = ""
        if alone >= 0.01:
            middle = statistics.median(now / one for now, one in zip(more[workers], more[1]))
            times = ", %.2f times the clock of one (in the middle of the runs %.2f)" % ((clock - without) / alone, middle)
        print("%s, workers=%d: %.3f s, without these lines %.3f s, %.3f processor s%s" % (name, workers, clock, without, processor, times))


def search_for_any(numbers, terms):
    """A line that searches for the documents that have any of these terms."""
    clauses = ['{"term":{"body":"t%07d"}}' % (n % terms) for n in numbers]
    return 'search logs 10 {"bool":{"should":[%s]}}\n' % ",".join(clauses)


def main():
    runs = int(sys.argv[1]) if len(sys.argv) > 1 else 3
    top = os.path.dirname(os.path.dirname(os.path.abspath(__file__)))
    program = os.path.join(top, "crates", "mount_tool", "out", "mount_tool")
    if len(sys.argv) > 2:
        program = sys.argv[2]
    else:
        subprocess.run([os.path.join(top, "mount_tool")], capture_output=True, check=False)
    print("%d processors, load %.2f" % (os.cpu_count(), os.getloadavg()[0]))
    with tempfile.TemporaryDirectory() as folder:
        length, terms = postings.write_archive(folder, 10_000_000, 0, postings.term_lines)
        lines = "".join("search logs 10 {\"term\":{\"body\":\"t%07d\"}}\n" % (i % terms) for i in range(64))
        first = "mount logs mount-bench\nsearch logs 10 {\"term\":{\"body\":\"t0000000\"}}\n--\n"
        compared("64 searches for a term", [program, folder, "-", "run"], first, lines, runs)
        lines = "".join(search_for_any(range(37 * i, 37 * i + 300, 3), terms) for i in range(64))
        compared("64 searches for any of 100 terms", [program, folder, "-", "run"], first, lines, runs)
    with tempfile.TemporaryDirectory() as folder:
        write_file(folder, "f", 16 * MIB)
        first = "mount y mount-bench\n" + "".join("read y f %d 1048576\n--\n" % (i * MIB) for i in range(16))
        lines = "".join("read y f %d 4096\n" % (i * 4096 % (16 * MIB)) for i in range(6000))
        compared("6,000 reads of 4 KiB that hit", [program, folder, "-", "run"], first, lines, runs)


if __name__ == "__main__":
    main()
