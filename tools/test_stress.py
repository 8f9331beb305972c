#!/usr/bin/env python3
"""Runs drawn scripts by eight workers, and holds each reply against the one that one worker gives.

    tools/test_stress.py PROGRAM [SCRIPTS]

Each script mounts the sample archive's four manifests and then has blocks of searches, fetches, reads, decays, clears and
at times an unmount, through a cache of two regions of 4,096 bytes, so that nearly every line has to drive out what another
one reads. In the script that one worker runs, each unmount stands alone behind its block: so the reply of each other line is
the one that whole files give. With eight workers a line has just this reply, or `gone` where an unmount of its name stands
in its block; the status is 1 exactly where a line is `gone`.
"""
import os
import random
import subprocess
import sys

WORKERS = 8
SETTINGS = ["regions=2", "region=4096", "range=4096"]
MOUNTS = {"w": "mount-w", "x": "mount-x", "y": "mount-y", "z": "mount-z"}
QUERIES = [
    '{"term":{"body":"fox"}}',
    '{"term":{"body":"red"}}',
    '{"term":{"body":"none"}}',
    '{"bool":{"must_not":{"term":{"body":"red"}}}}',
    '{"bool":{"must":[{"term":{"body":"red"}},{"term":{"body":"fox"}}]}}',
    '{"bool":{}}',
]


def drawn_line(draw):
    """A line of a block that neither mounts nor unmounts."""
    kind = draw.randrange(10)
    name = draw.choice(list(MOUNTS))
    if kind < 3:
        return f"search {name} {draw.choice([0, 1, 10])} {draw.choice(QUERIES)}"
    if kind < 5:
        return f"fetch {draw.choice('xz')} _0 {draw.randrange(5)}"
    if kind < 8:
        at = draw.randrange(10_002)
        return f"read y big.bin {at} {draw.choice([0, 1, 100, 3000])}"
    if kind < 9:
        return "decay"
    return f"clear {name}"


def drawn_blocks(draw):
    """Blocks of lines. A name that was unmounted is mounted again in a block of its own."""
    blocks = [[f"mount {name} {manifest}"] for name, manifest in MOUNTS.items()]
    for _ in range(6):
        block = [drawn_line(draw) for _ in range(draw.randrange(8, 25))]
        gone = draw.choice(list(MOUNTS)) if draw.randrange(2) else None
        if gone:
            block.insert(draw.randrange(len(block) + 1), f"unmount {gone}")
        blocks.append(block)
        if gone:
            blocks.append([f"mount {gone} {MOUNTS[gone]}"])
    return blocks


def text_of(blocks):
    return "".join("".join(line + "\n" for line in block) + "--\n" for block in blocks)


def replies_of(done):
    """The replies in order, without the numbers of their lines."""
    return [line.split(" ", 1)[1] for line in done.stdout.splitlines()]


def run(program, workers, blocks):
    words = [program, "x", "-", "run", f"workers={workers}", *SETTINGS]
    return subprocess.run(words, input=text_of(blocks), capture_output=True, text=True, timeout=120)


def plain_replies(program, blocks):
    """What whole files give, line by line: one worker, and each unmount behind its block."""
    apart = []
    order = []
    for k, block in enumerate(blocks):
        alone = [i for i, line in enumerate(block) if line.startswith("unmount ")]
        rest = [i for i in range(len(block)) if i not in alone]
        for part in (rest, alone):
            if part:
                apart.append([block[i] for i in part])
                order += [(k, i) for i in part]
    done = run(program, 1, apart)
    assert done.returncode == 0, (done.returncode, done.stderr)
    return dict(zip(order, replies_of(done), strict=True))


def is_lawful(block, line, reply, plain):
    if reply == plain:
        return True
    words = line.split(" ")
    return reply == "gone" and words[0] in ("search", "fetch", "read") and f"unmount {words[1]}" in block


def main():
    program = sys.argv[1]
    count = int(sys.argv[2]) if len(sys.argv) > 2 else 100
    marks = 0
    for seed in range(count):
        blocks = drawn_blocks(random.Random(seed))
        plain = plain_replies(program, blocks)
        done = run(program, WORKERS, blocks)
        replies = replies_of(done)
        lines = [(k, i) for k, block in enumerate(blocks) for i in range(len(block))]
        if len(replies) != len(lines) or done.returncode != ("gone" in replies):
            print(f"test_stress: script {seed}: status {done.returncode}, {len(replies)} replies", file=sys.stderr)
            return 1
        for (k, i), reply in zip(lines, replies):
            if not is_lawful(blocks[k], blocks[k][i], reply, plain[k, i]):
                print(f"test_stress: script {seed}: {blocks[k][i]!r}: {reply!r}, not {plain[k, i]!r}", file=sys.stderr)
                return 1
        marks += replies.count("gone")
    print(f"test_stress: {count} scripts, {marks} lines beside an unmount were gone: OK")
    return 0


if __name__ == "__main__":
    sys.exit(main())
