#!/usr/bin/env python3
"""Times the built program on two large postings files.

Writes archives of one segment, as blobs into a new folder, and runs `term` on each: one whose postings text has about
MEGABYTES million bytes, and one whose text has TERMS terms of one document each. Prints how many bytes and terms the
text has, and for each run the processor seconds and the seconds by the clock, the million bytes a second and the
greatest memory of the process (at least that of this script, some 12,000 KiB, which starts it); then the least processor
seconds of all runs. The script `mount_tool` at the top of the repository builds the program, and the runs start what it
built.

usage: bench/postings.py [MEGABYTES [RUNS [TERMS]]]
"""
import json
import os
import subprocess
import sys
import tempfile
import time

DOCS = 1_000_000
PART = 16 * 1024 * 1024


def term_lines(number):
    """The lines of a term: 1,000 documents of one to three positions each."""
    lines = ["  term t%07d\n" % number]
    for i in range(1000):
        count = (number + i) % 3 + 1
        lines.append("    doc %d\n      freq %d\n" % (i * 997 + number % 997, count))
        for k in range(count):
            lines.append("      pos %d\n" % (i % 50 + 7 * k))
    return "".join(lines).encode()


def short_term_lines(number):
    """The lines of a term of one document."""
    return b"  term t%07d\n    doc %d\n" % (number, number % DOCS)


class Parts:
    """A file that is cut into part blobs in a folder."""

    def __init__(self, folder):
        self.folder = folder
        self.blob = None
        self.length = 0
        self.count = 0

    def write(self, piece):
        while piece:
            room = -self.length % PART
            if room == 0:
                self.begin_part()
                room = PART
            self.blob.write(piece[:room])
            self.length += len(piece[:room])
            piece = piece[room:]

    def begin_part(self):
        if self.blob is not None:
            self.blob.close()
        self.blob = open(os.path.join(self.folder, "__p.part%d" % self.count), "wb")
        self.count += 1

    def close(self):
        self.blob.close()
        if self.count == 1:
            os.rename(os.path.join(self.folder, "__p.part0"), os.path.join(self.folder, "__p"))


def write_archive(folder, size, least_terms, lines):
    """An archive whose postings text has at least so many bytes and terms, each of these lines: its length, and how many
    terms it has."""
    parts = Parts(folder)
    parts.write(b"field body\n")
    terms = 0
    while parts.length < size or terms < least_terms:
        parts.write(lines(terms))
        terms += 1
    parts.write(b"END\nchecksum 00000000000000000000\n")
    parts.close()
    manifest = {
        "version": 1,
        "files": [{"name": "__p", "physical_name": "_0.pst", "length": parts.length, "part_size": PART}],
        "segments": [{"name": "_0", "docs": DOCS, "postings": "_0.pst"}],
    }
    with open(os.path.join(folder, "mount-bench"), "w") as blob:
        json.dump(manifest, blob)
    return parts.length, terms


def run(words):
    """What the program writes, its processor seconds, its seconds by the clock, and its greatest memory in KiB."""
    begun = time.perf_counter()
    with subprocess.Popen(words, stdout=subprocess.PIPE, stderr=subprocess.DEVNULL) as program:
        text = program.stdout.read()
        _, _, used = os.wait4(program.pid, 0)
        program.returncode = 0
    return text, used.ru_utime + used.ru_stime, time.perf_counter() - begun, used.ru_maxrss


def time_term(program, runs, size, least_terms, lines):
    with tempfile.TemporaryDirectory() as folder:
        length, terms = write_archive(folder, size, least_terms, lines)
        print("%d bytes, %d terms" % (length, terms))
        least = None
        for _ in range(runs):
            term = "t%07d" % (terms // 2)
            text, processor, seconds, memory = run([program, folder, "-", "term", "mount-bench", "body", term])
            least = processor if least is None else min(least, processor)
            line = text[:40].decode(errors="replace").strip()
            rate = length / seconds / 1e6
            print("%.3f s of processor, %.3f s, %.0f MB/s, %d KiB: %s" % (processor, seconds, rate, memory, line))
        print("least: %.3f s of processor" % least)


def main():
    megabytes = int(sys.argv[1]) if len(sys.argv) > 1 else 100
    runs = int(sys.argv[2]) if len(sys.argv) > 2 else 5
    terms = int(sys.argv[3]) if len(sys.argv) > 3 else 1_000_000
    top = os.path.dirname(os.path.dirname(os.path.abspath(__file__)))
    subprocess.run([os.path.join(top, "mount_tool")], capture_output=True, check=False)
    program = os.path.join(top, "crates", "mount_tool", "out", "mount_tool")
    time_term(program, runs, megabytes * 1_000_000, 0, term_lines)
    time_term(program, runs, 0, terms, short_term_lines)


if __name__ == "__main__":
    main()
