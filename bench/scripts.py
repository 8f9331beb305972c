#!/usr/bin/env python3
"""Times the reading of scripts of 262,144 and of 1,048,576 bytes, and tells the memory that they take.

Builds a small program that reads a script out of a file and prints how many blocks it has, and what the kernel tells of
the process's memory. For each kind of script and each length it is started RUNS times: printed are the least processor
seconds of the whole process, and by how many KiB its greatest memory is above that of an empty script.

usage: bench/scripts.py [COMMIT [RUNS]]
"""
import os
import subprocess
import sys
import tempfile

import trial

USES = "byte_text mount_script memchr hex base64 itoa thiserror anyhow"

PROGRAM = r'''// Reads the script of a file.
#![tactic(auto)]

use mount_script::Script;
use std::{env, fs};

fn main(rt: HostRuntime) -> anyhow::Result<()> {
    for path in env::args(&rt)?.skip(1) {
        let text = fs::read_to_string(&rt, path.as_str())?;
        let script = Script::read(rt.alloc(), text.as_bytes());
        let blocks = match &script {
            Ok(script) => script.blocks_len(),
            Err(_) => 0,
        };
        println!(rt; "{blocks}")?;
        let status = fs::read_to_string(&rt, "/proc/self/status")?;
        println!(rt; "{}", status.as_str())?;
    }
    Ok(())
}
'''

# A script has at most 65,535 lines, so that these have 17 bytes at least.
LINES = [
    ("unmount", b"unmount aaaaaaaa\n"),
    ("read", b"read logs _0.pst 00000000000000000000 7\n"),
    ("search", b"search logs 10 " + b"x" * 4000 + b"\n"),
    ("mount", b"mount logs mount-x\n"),
]


def start(program, path):
    """The processor seconds of the process, its greatest memory in KiB, and the number of blocks."""
    child = subprocess.Popen([program, path], stdout=subprocess.PIPE, text=True)
    lines = child.stdout.read().splitlines()
    _, status, usage = os.wait4(child.pid, 0)
    if status != 0:
        sys.exit("it failed")
    memory = [int(line.split()[1]) for line in lines if line.startswith("VmHWM")][0]
    return usage.ru_utime + usage.ru_stime, memory, int(lines[0])


def measure(program, script, runs):
    """The least processor seconds, the greatest memory in KiB, and the number of blocks."""
    with tempfile.NamedTemporaryFile() as file:
        file.write(script)
        file.flush()
        told = [start(program, file.name) for _ in range(runs)]
    return min(t[0] for t in told), max(t[1] for t in told), told[0][2]


def main():
    commit = sys.argv[1] if len(sys.argv) > 1 else "HEAD"
    runs = int(sys.argv[2]) if len(sys.argv) > 2 else 5
    with trial.laid(commit, USES, PROGRAM) as crate:
        trial.output(crate, "rt", "run")
        program = os.path.join(crate, "out", trial.NAME)
        least = measure(program, b"", runs)[1]
        for name, line in LINES:
            for size in (262_144, 1_048_576):
                script = line * (size // len(line))
                seconds, memory, blocks = measure(program, script, runs)
                told = (name, len(script), blocks, seconds, memory - least, 1024 * (memory - least) / len(script))
                print("%-8s %8d bytes, %5d blocks: %.3f s, %6d KiB, %.1f bytes a byte" % told)


main()
