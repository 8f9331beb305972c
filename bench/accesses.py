#!/usr/bin/env python3
"""Times an access through the core that hits, with 512 regions mapped, at two commits.

At each commit a small program maps 512 regions, stores the bytes of the last one, and then enters its region, copies four
bytes and leaves, again and again. What it prints is its own processor time before the first access and behind the last
one. It is run by `rt try`, which needs no proof of it and builds no fast program: one access takes some 50 times as long
as in a program that is built, before and after alike, so that the quotient is what tells.

usage: bench/accesses.py BEFORE [AFTER [ACCESSES]]
"""
import sys

import trial

USES = (
    "byte_text region_ranges freq_lists sparse_tracker cache_policy cache_outside cache_frame mount_manifest"
    " directory_input blob_parts region_cell cache_door serde_json thiserror anyhow"
)

PROGRAM = r'''// Maps 512 regions, and reads the bytes of one again and again.
#![tactic(auto)]

use blob_parts::{fetch, load, resolve};
use byte_text::{Blobs, Name, Text};
use cache_door::{CacheDoor, Core, Want};
use cache_frame::MemFrame;
use cache_outside::{MemSource, Untold};
use region_ranges::{ByteRange, Config, RegionKey};
use std::fs;

const CONFIG: Config = Config { regions: 512, region: 4096, range: 4096, max_freq: 100, min_delta: 0 };

const MANIFEST: &[u8] =
    b"{\"version\":1,\"files\":[{\"name\":\"__b\",\"physical_name\":\"b\",\"length\":2097152}],\"segments\":[]}";

fn want(region: u32) -> Want {
    Want {
        key: RegionKey { manifest: 0, file: 0, region },
        len: 4096,
        sub: ByteRange { start: 0, end: 4 },
    }
}

fn main(rt: HostRuntime) -> anyhow::Result<()> {
    let alloc = rt.alloc();
    let mut bytes = Text::new(alloc);
    for i in 0..2_097_152_u32 {
        bytes.push((i % 251) as u8)?;
    }
    let mut blobs = Blobs::new(alloc);
    if let Some(name) = Name::read(alloc, b"__b")? {
        blobs.push((name, bytes))?;
    }
    if let Some(name) = Name::read(alloc, b"mount-y")? {
        blobs.push((name, Text::of(alloc, MANIFEST)?))?;
    }
    let mut source = MemSource::<Untold>::new(alloc, blobs, 65_536, Vec::new(alloc));
    let mut frames = Vec::new(alloc);
    for _ in 0..512 {
        frames.push(MemFrame::new(alloc, 4096)?)?;
    }
    let mut core = Core::<Untold, MemFrame>::new(alloc, &CONFIG, frames, 2)?;
    for region in 0..512 {
        let _ = core.door(0).enter(0, &want(region), 0)?;
        if region < 511 {
            core.door(0).fail();
        } else if let Ok((number, manifest)) = load::<Untold, MemSource<Untold>>(alloc, &mut source, "mount-y") {
            if let Ok(table) = resolve::<Untold, MemSource<Untold>>(alloc, &mut source, number, &manifest) {
                if let Ok(piece) = fetch(alloc, &mut source, &table, 0, 511 * 4096, 4096) {
                    let _ = core.door(0).store(&piece);
                }
            }
        }
        core.door(0).leave();
    }
    let mut out = [0; 4];
    let mut sum: u64 = 0;
    let begun = fs::read_to_string(&rt, "/proc/self/schedstat")?;
    for i in 0..SETTING_u64 {
        let _ = core.door(0).enter(0, &want(511), i)?;
        let _ = core.door(0).take_bytes(&mut out);
        core.door(0).leave();
        sum += out[0] as u64 + out[3] as u64;
    }
    let ended = fs::read_to_string(&rt, "/proc/self/schedstat")?;
    println!(rt; "{}", begun.as_str().trim())?;
    println!(rt; "{}", ended.as_str().trim())?;
    println!(rt; "{sum}")?;
    Ok(())
}
'''


def nanoseconds(line):
    """The processor time of the process in a line of /proc/self/schedstat."""
    return int(line.split()[0])


def access(commit, accesses):
    """The nanoseconds of one access at the commit."""
    with trial.laid(commit, USES, PROGRAM.replace("SETTING", str(accesses))) as crate:
        begun, ended, total = trial.output(crate, "rt", "try")[:3]
    # the byte at 511 * 4096 and the one 3 behind it, each its place modulo 251
    if int(total) != accesses * ((511 * 4096) % 251 + (511 * 4096 + 3) % 251):
        sys.exit("other bytes")
    return (nanoseconds(ended) - nanoseconds(begun)) / accesses


def main():
    if len(sys.argv) < 2:
        sys.exit(__doc__)
    accesses = int(sys.argv[3]) if len(sys.argv) > 3 else 5_000
    before = access(sys.argv[1], accesses)
    after = access(sys.argv[2] if len(sys.argv) > 2 else "HEAD", accesses)
    print("before %.0f ns an access" % before)
    print("after  %.0f ns an access" % after)
    print("after is %.2f of before" % (after / before))


main()
