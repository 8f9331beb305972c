#!/usr/bin/env python3
"""Times hits through the core and through the cache between threads.

Builds a small program whose readers find all their bytes in a cache of 32 regions of 64 KiB, in ranges of SIZE bytes
(4,096 unless given; a divisor of 65,536), a whole range at each read, and runs it RUNS times with ROUNDS reads a thread.
Printed are, of each run and of the least times of all runs,

- the nanoseconds of a hit of one hot range by one thread, through the core and through the table, and their quotient:
  once each read has a reader of its own, which enters, copies and leaves ("entries"), and once all go through one
  reader, which looks at the region of its last read and finds it as it was ("looks");
- how many times as fast four threads are as one, each with a pass of its own over the ranges of a region of its own.
  The words of the four regions stand side by side ("near"), or 64 bytes apart ("apart"). An entry takes the cache's
  turn, which only one thread has at a time; a look takes its region's turn alone.

The times are by the clock, and of the processors in brackets. What else runs makes the first worse: the load is printed
before and after each run. A quotient in brackets counts no time in which a thread waited or was not run, so with four
threads it is what they would come to on processors of their own if none ever waited for another. With few reads a
thread and many runs the least times come from runs that were not cut short by what else ran.

usage: bench/table.py [RUNS [ROUNDS [COMMIT [SIZE]]]]
"""
import os
import subprocess
import sys

import trial

USES = (
    "byte_text region_ranges freq_lists sparse_tracker cache_policy cache_outside cache_frame mount_manifest"
    " directory_input blob_parts region_cell cache_door cache_reader cache_table serde_json thiserror atomic_table anyhow"
)

PROGRAM = r'''// Reads hot bytes through the core and through the cache between threads, and writes how long that took.
#![tactic(auto)]
ghost use Rattle.std.specs.Prelude.{◌≡◌, ◌<◌, ◌≤◌, ◌-◌, IfOk, All, length};
ghost use Rattle.region_ranges.specs.Keys.{IsConfig};
ghost use Rattle.cache_frame.specs.Makers.{frame_of};
ghost use Rattle.cache_door.specs.Doors.{nothing};
ghost use Rattle.directory_input.specs.Files.{GoesOn};
ghost use Rattle.bench_trial.specs.Jobs.{IsIdle, HasIdle};

use blob_parts::{PartTable, load, resolve};
use byte_text::{Blobs, Name, Text};
use cache_door::{CacheDoor, Core};
use cache_frame::MemFrame;
use cache_outside::{MemSource, Untold, manifests_in};
use cache_reader::Reader;
use cache_table::{Pass, SharedCache, TableDoor};
use directory_input::FileBytes;
use region_ranges::Config;
use std::alloc::{AllocError, Global};
use std::sync::Wait;
use std::thread;
use std::thread::Threads;
use std::time::{Clock, CpuClock, Duration, Instant};
use std::{env, io};

const CONFIG: Config = Config { regions: 32, region: 65_536, range: @SIZE@, max_freq: 100, min_delta: 60_000 };

const MANIFEST: &[u8] =
    b"{\"version\":1,\"files\":[{\"name\":\"__b\",\"physical_name\":\"b\",\"length\":2097152}],\"segments\":[]}";

type Cache = SharedCache<Untold, MemFrame>;

/// Which bytes are read, how often, and whether each read has a reader of its own.
#[derive(Clone, Copy)]
pub struct Plan {
    first: u64,
    ranges: u64,
    rounds: u64,
    anew: bool,
}

/// A worker's source and pass, and what it reads; how many bytes came out of the cache.
#[derive(Drop)]
pub struct Job {
    source: MemSource<Untold>,
    pass: Option<Pass<Untold>>,
    plan: Plan,
    hit: u64,
}

// One manifest of one file of 2 MiB.
fn source(alloc: Global) -> Result<Option<MemSource<Untold>>, AllocError> {
    let mut bytes = Text::new(alloc);
    for i in 0..2_097_152_u32 {
        bytes.push((i % 251) as u8)?;
    }
    let mut blobs = Blobs::new(alloc);
    if let Some(name) = Name::read(alloc, b"__b")? {
        blobs.push((name, bytes))?;
    }
    if let Some(name) = Name::read(alloc, b"mount-y")? {
        blobs.push((name, Text::of(alloc, MANIFEST)?))?;
    }
    Ok(if manifests_in(&blobs) <= 65_536 {
        Some(MemSource::<Untold>::new(alloc, blobs, 65_536, Vec::new(alloc)))
    } else {
        None
    })
}

fn table(alloc: Global, source: &mut MemSource<Untold>) -> Option<PartTable<Untold>> {
    let Ok((number, manifest)) = load::<Untold, MemSource<Untold>>(alloc, source, "mount-y") else {
        return None;
    };
    resolve::<Untold, MemSource<Untold>>(alloc, source, number, &manifest).ok()
}

fn frame(alloc: Global, size: u32) -> Result<MemFrame, AllocError>
    ensures { IfOk result (λ f. (frame_of f).size ≡ size) }
{
    MemFrame::new(alloc, size)
}

fn frames(alloc: Global, config: &Config) -> Result<Vec<MemFrame>, AllocError>
    ensures count { IfOk result (λ fs. length fs.items ≡ config.now.regions) }
    ensures sizes { IfOk result (λ fs. All (λ f. (frame_of f).size ≡ config.now.region) fs.items) }
{
    let mut frames = Vec::new(alloc);
    for _made in 0..config.regions {
        frames.push(frame(alloc, config.region)?)?;
    }
    Ok(frames)
}

// The bytes of one read.
type Room = [u8; @SIZE@];

// Whether they were read.
fn read_once<B: FileBytes>(bytes: &mut B, at: u64, room: &mut Room) -> bool
    requires file { 0 < (B.view bytes.old).count }
    ensures goes { GoesOn B.goes_by bytes.old bytes.new }
{
    let length = bytes.len(0);
    if length < @SIZE@ || at > length - @SIZE@ {
        return false;
    }
    bytes.read(0, at, room).is_ok()
}

// Reads a range again and again, one after the other.
fn read_all<B: FileBytes>(bytes: &mut B, room: &mut Room, plan: Plan)
    requires file { 0 < (B.view bytes.old).count }
    ensures goes { GoesOn B.goes_by bytes.old bytes.new }
{
    if plan.ranges == 0 {
        return;
    }
    for round in 0..plan.rounds {
        let at = plan.first.saturating_add((round % plan.ranges).saturating_mul(@SIZE@));
        if !read_once(bytes, at, room) {
            return;
        }
    }
}

// The same through one reader: the bytes that came out of the cache.
fn by_one<D: CacheDoor<Untold>>(
    alloc: Global,
    door: &mut D,
    source: &mut MemSource<Untold>,
    table: &PartTable<Untold>,
    config: &Config,
    room: &mut Room,
    plan: Plan,
) -> u64
    requires free { (D.view door.old).hold ≡ nothing }
    requires setting { (D.view door.old).config ≡ config.now }
    requires limits { IsConfig config.now }
    ensures stays { D.stays door.old door.new }
    ensures hold { (D.view door.new).hold ≡ nothing }
    ensures config { (D.view door.new).config ≡ config.now }
{
    if table.files() == 0 {
        return 0;
    }
    let mut reader = Reader::new(alloc, door, source, table, 0, config, 0);
    read_all(&mut reader, room, plan);
    reader.total().hit
}

// The same, each read through a reader of its own.
fn anew<D: CacheDoor<Untold>>(
    alloc: Global,
    door: &mut D,
    source: &mut MemSource<Untold>,
    table: &PartTable<Untold>,
    config: &Config,
    room: &mut Room,
    plan: Plan,
) -> u64
    requires free { (D.view door.old).hold ≡ nothing }
    requires setting { (D.view door.old).config ≡ config.now }
    requires limits { IsConfig config.now }
    ensures stays { D.stays door.old door.new }
    ensures hold { (D.view door.new).hold ≡ nothing }
    ensures config { (D.view door.new).config ≡ config.now }
{
    let mut hit: u64 = 0;
    if plan.ranges == 0 {
        return hit;
    }
    for round in 0..plan.rounds {
        let first = plan.first.saturating_add((round % plan.ranges).saturating_mul(@SIZE@));
        let one = Plan { first, ranges: 1, rounds: 1, anew: false };
        hit = hit.saturating_add(by_one(alloc, door, source, table, config, room, one));
    }
    hit
}

fn reads<D: CacheDoor<Untold>>(
    alloc: Global,
    door: &mut D,
    source: &mut MemSource<Untold>,
    table: &PartTable<Untold>,
    config: &Config,
    room: &mut Room,
    plan: Plan,
) -> u64
    requires free { (D.view door.old).hold ≡ nothing }
    requires setting { (D.view door.old).config ≡ config.now }
    requires limits { IsConfig config.now }
    ensures stays { D.stays door.old door.new }
    ensures hold { (D.view door.new).hold ≡ nothing }
    ensures config { (D.view door.new).config ≡ config.now }
{
    if plan.anew {
        anew(alloc, door, source, table, config, room, plan)
    } else {
        by_one(alloc, door, source, table, config, room, plan)
    }
}

fn work<R: Wait>(
    rt: &R,
    alloc: Global,
    cache: &Cache,
    table: &PartTable<Untold>,
    config: &Config,
    job: &mut Job,
)
    requires idle { HasIdle cache.now job.old.pass }
    requires setting { cache.now.about.config ≡ config.now }
    requires limits { IsConfig config.now }
    ensures idle { HasIdle cache.now job.new.pass }
{
    let Some(pass) = job.pass.take() else {
        return;
    };
    let mut door = TableDoor::new(rt, cache, pass);
    let mut room = [0; @SIZE@];
    job.hit = reads(alloc, &mut door, &mut job.source, table, config, &mut room, job.plan);
    job.pass = Some(door.into_pass());
}

fn run<R: Threads + Wait + Sync>(
    rt: &R,
    alloc: Global,
    cache: &Cache,
    table: &PartTable<Untold>,
    config: &Config,
    jobs: &mut [Job],
)
    requires idle { All (λ j. HasIdle cache.now j.pass) jobs.old }
    requires setting { cache.now.about.config ≡ config.now }
    requires limits { IsConfig config.now }
    ensures idle { All (λ j. HasIdle cache.now j.pass) jobs.new }
{
    let workers = jobs.len();
    if workers > 0 {
        thread::for_each_mut(rt, jobs, workers, &|_, job| { work(rt, alloc, cache, table, config, job) });
    }
}

// A pass and a source for each worker, which reads in a region of its own.
fn deal(
    alloc: Global,
    cache: &Cache,
    pass: &mut Pass<Untold>,
    workers: u64,
    apart: u64,
    plan: Plan,
) -> Result<Vec<Job>, AllocError>
    requires idle { IsIdle cache.now pass.old }
    ensures idle { IsIdle cache.now pass.new }
    ensures jobs { IfOk result (λ v. All (λ j. HasIdle cache.now j.pass) v.items) }
{
    let mut jobs = Vec::new(alloc);
    for number in 0..workers {
        let Some(source) = source(alloc)? else {
            return Ok(jobs);
        };
        if pass.shares() < 2 {
            return Ok(jobs);
        }
        let first = number.saturating_mul(apart).saturating_mul(65_536);
        jobs.push(Job { source, pass: Some(cache.split(pass)), plan: Plan { first, ..plan }, hit: 0 })?;
    }
    Ok(jobs)
}

// How many bytes came out of the cache.
fn jobs_hit(jobs: &[Job]) -> u64 {
    let mut hit: u64 = 0;
    for job in jobs {
        hit = hit.saturating_add(job.hit);
    }
    hit
}

// The passes are joined.
fn gather(cache: &Cache, pass: &mut Pass<Untold>, jobs: Vec<Job>)
    requires idle { IsIdle cache.now pass.old }
    requires jobs { All (λ j. HasIdle cache.now j.pass) jobs.items }
    ensures idle { IsIdle cache.now pass.new }
{
    for job in jobs {
        let Job { source: _, pass: own, plan: _, hit: _ } = job;
        if let Some(own) = own {
            cache.join(pass, own);
        }
    }
}

/// The time by the clock and that of the processors.
#[derive(Clone, Copy)]
struct Times {
    begun: Instant,
    used: Duration,
}

fn begin<R: Clock + CpuClock>(rt: &R) -> io::Result<Times> {
    Ok(Times { begun: Instant::now(rt)?, used: rt.process_cpu_time()? })
}

// Writes what was read, how many bytes came out of the cache, and the nanoseconds of clock and processors since.
fn end<R: Clock + CpuClock + Print>(
    rt: &R,
    times: &Times,
    name: &str,
    workers: u64,
    apart: u64,
    hit: u64,
) -> io::Result<()> {
    let used = rt.process_cpu_time()?;
    let passed = times.begun.elapsed(rt)?;
    let used = used.checked_sub(times.used).unwrap_or(passed);
    println!(rt; "{name} {workers} {apart} {hit}")?;
    println!(rt; "{} {}", passed.as_secs(), passed.subsec_nanos())?;
    println!(rt; "{} {}", used.as_secs(), used.subsec_nanos())
}

// Reads by the plan through one door, and writes what that took.
fn timed<R: Clock + CpuClock + Print, D: CacheDoor<Untold>>(
    rt: &R,
    alloc: Global,
    door: &mut D,
    source: &mut MemSource<Untold>,
    table: &PartTable<Untold>,
    config: &Config,
    room: &mut Room,
    plan: Plan,
    name: &str,
) -> io::Result<()>
    requires free { (D.view door.old).hold ≡ nothing }
    requires setting { (D.view door.old).config ≡ config.now }
    requires limits { IsConfig config.now }
    ensures stays { D.stays door.old door.new }
    ensures hold { (D.view door.new).hold ≡ nothing }
    ensures config { (D.view door.new).config ≡ config.now }
{
    let times = begin(rt)?;
    let hit = reads(alloc, door, source, table, config, room, plan);
    end(rt, &times, name, 1, 0, hit)
}

// Reads all ranges once, then one range again and again, each time by a reader of its own and by one reader.
fn by_door<R: Clock + CpuClock + Print, D: CacheDoor<Untold>>(
    rt: &R,
    alloc: Global,
    door: &mut D,
    source: &mut MemSource<Untold>,
    table: &PartTable<Untold>,
    config: &Config,
    rounds: u64,
    names: (&str, &str),
) -> io::Result<()>
    requires free { (D.view door.old).hold ≡ nothing }
    requires setting { (D.view door.old).config ≡ config.now }
    requires limits { IsConfig config.now }
    ensures stays { D.stays door.old door.new }
    ensures hold { (D.view door.new).hold ≡ nothing }
    ensures config { (D.view door.new).config ≡ config.now }
{
    let all = Plan { first: 0, ranges: 2_097_152 / @SIZE@, rounds: 2_097_152 / @SIZE@, anew: true };
    let mut room = [0; @SIZE@];
    reads(alloc, door, source, table, config, &mut room, all);
    let entries = Plan { first: 0, ranges: 1, rounds, anew: true };
    timed(rt, alloc, door, source, table, config, &mut room, entries, names.0)?;
    let looks = Plan { first: 0, ranges: 1, rounds, anew: false };
    timed(rt, alloc, door, source, table, config, &mut room, looks, names.1)
}

// Reads by the plan through a pass for each worker, and writes what that took.
fn among<R: Clock + CpuClock + Print + Threads + Wait + Sync>(
    rt: &R,
    alloc: Global,
    cache: &Cache,
    pass: &mut Pass<Untold>,
    table: &PartTable<Untold>,
    workers: u64,
    apart: u64,
    plan: Plan,
    name: &str,
) -> anyhow::Result<()>
    requires setting { cache.now.about.config ≡ CONFIG }
    requires idle { IsIdle cache.now pass.old }
    ensures idle { IsIdle cache.now pass.new }
{
    let mut jobs = deal(alloc, cache, pass, workers, apart, plan)?;
    let times = begin(rt)?;
    run(rt, alloc, cache, table, &CONFIG, jobs.as_mut_slice());
    let hit = jobs_hit(&jobs);
    end(rt, &times, name, workers, apart, hit)?;
    gather(cache, pass, jobs);
    Ok(())
}

fn over_core<R: Clock + CpuClock + Print>(rt: &R, alloc: Global, rounds: u64) -> anyhow::Result<()> {
    let Some(mut source) = source(alloc)? else {
        return Ok(());
    };
    let Some(table) = table(alloc, &mut source) else {
        return Ok(());
    };
    let mut core = Core::<Untold, MemFrame>::new(alloc, &CONFIG, frames(alloc, &CONFIG)?, 1)?;
    let mut door = core.door(0);
    by_door(rt, alloc, &mut door, &mut source, &table, &CONFIG, rounds, ("core_entries", "core_looks"))?;
    Ok(())
}

fn over_table<R: Clock + CpuClock + Print + Threads + Wait + Sync>(rt: &R, alloc: Global, rounds: u64) -> anyhow::Result<()> {
    let Some(mut source) = source(alloc)? else {
        return Ok(());
    };
    let Some(table) = table(alloc, &mut source) else {
        return Ok(());
    };
    let (cache, pass) = SharedCache::<Untold, MemFrame>::open(alloc, &CONFIG, frames(alloc, &CONFIG)?)?;
    let mut door = TableDoor::new(rt, &cache, pass);
    by_door(rt, alloc, &mut door, &mut source, &table, &CONFIG, rounds, ("table_entries", "table_looks"))?;
    let mut pass = door.into_pass();
    let looks = Plan { first: 0, ranges: 65_536 / @SIZE@, rounds, anew: false };
    among(rt, alloc, &cache, &mut pass, &table, 1, 1, looks, "looks")?;
    among(rt, alloc, &cache, &mut pass, &table, 4, 1, looks, "looks")?;
    among(rt, alloc, &cache, &mut pass, &table, 4, 8, looks, "looks")?;
    let entries = Plan { anew: true, ..looks };
    among(rt, alloc, &cache, &mut pass, &table, 1, 1, entries, "entries")?;
    among(rt, alloc, &cache, &mut pass, &table, 4, 1, entries, "entries")?;
    among(rt, alloc, &cache, &mut pass, &table, 4, 8, entries, "entries")?;
    Ok(())
}

fn main(rt: HostRuntime) -> anyhow::Result<()> {
    let rounds = match env::args(&rt)?.nth(1) {
        Some(word) => word.as_str().parse::<u64>().unwrap_or(1),
        None => 1,
    };
    over_core(&rt, rt.alloc(), rounds)?;
    over_table(&rt, rt.alloc(), rounds)
}
'''

# What a worker's job keeps, and what its loops keep.
PROOFS = {
    "specs/Lib.antt": "pub mod Jobs\n",
    "specs/Jobs.antt": r'''-- What a worker's job keeps.
use Rattle.std.specs.Prelude.{◌≡◌, List, Option, Some, None, All}
use Rattle.cache_door.specs.Doors.{hold_view, nothing}
use Rattle.cache_table.specs.Views.{CacheView, PassView, IsOf}

-- a pass of this cache that holds nothing
abbrev pub IsIdle : CacheView → PassView → Type 0
IsIdle c p = IsOf c p × (hold_view p.view.hold ≡ nothing)

-- such a pass, or none
abbrev pub HasIdle : CacheView → Option PassView → Type 0
HasIdle c None = Unit {0}
HasIdle c (Some p) = IsIdle c p

-- each job has such a pass, or none
abbrev pub AllIdle : {J : Type 0} → List J → (J → Option PassView) → CacheView → Type 0
AllIdle jobs pass c = All (λ j. HasIdle c (pass j)) jobs
''',
    "proofs/read_all/Invariants.antt": r'''use Rattle.std.proofs.Common.{◌<◌}
use Rattle.directory_input.specs.Files.{GoesOn}
use Rattle.bench_trial.proofs.read_all.Given as goal

abbrev pub invariant-loop-round : goal.invariant-loop-round
invariant-loop-round g l = record {
  goes : GoesOn g.B.FileBytes.goes_by l.fn.bytes l.bytes;
  some : 0 < (g.B.FileBytes.view l.bytes).count;
}
''',
    "proofs/read_all/Answers.antt": r'''use Rattle.directory_input.proofs.Later.{going_join}
use Rattle.bench_trial.proofs.read_all.Goals as goal

pub returns-then-not-read_once : goal.returns-then-not-read_once
returns-then-not-read_once g c = record {
  goes = going_join g.met.B.FileBytes.by_more c.loop-round.invariant.goes c.read_once.ensures.goes;
}

pub loop-round-preserved : goal.loop-round-preserved
loop-round-preserved g c =
    let once = c.read_once.ensures.goes in
    record {
      goes = going_join g.met.B.FileBytes.by_more c.loop-round.invariant.goes once;
      some = rw (g.met.B.FileBytes.later once.reads _ _ once.by).count c.loop-round.invariant.some;
    }
''',
    "proofs/anew/Invariants.antt": r'''use Rattle.std.proofs.Common.{◌≡◌}
use Rattle.cache_door.specs.Doors.{nothing}
use Rattle.bench_trial.proofs.anew.Given as goal

abbrev pub invariant-loop-round : goal.invariant-loop-round
invariant-loop-round g l = record {
  stays : g.D.CacheDoor.stays l.initial.door l.door;
  free : (g.D.CacheDoor.view l.door).hold ≡ nothing;
  setting : (g.D.CacheDoor.view l.door).config ≡ l.config;
}
''',
    "proofs/frames/Invariants.antt": r'''use Rattle.std.proofs.Common.{◌≡◌, length}
use Rattle.std.specs.List.{All}
use Rattle.cache_frame.specs.Makers.{frame_of}
use Rattle.bench_trial.proofs.frames.Given as goal

abbrev pub invariant-loop-made : goal.invariant-loop-made
invariant-loop-made l = record {
  count : length l.frames.items ≡ l._made;
  sizes : All (λ f. (frame_of f).size ≡ l.config.region) l.frames.items;
}
''',
    "proofs/deal/Invariants.antt": r'''use Rattle.bench_trial.specs.Jobs.{IsIdle, AllIdle}
use Rattle.bench_trial.proofs.deal.Given as goal

abbrev pub invariant-loop-number : goal.invariant-loop-number
invariant-loop-number l = IsIdle l.cache l.pass × AllIdle l.jobs.items (λ j. j.pass) l.cache
''',
    "proofs/gather/Invariants.antt": r'''use Rattle.bench_trial.specs.Jobs.{IsIdle}
use Rattle.bench_trial.proofs.gather.Given as goal

abbrev pub invariant-loop-job : goal.invariant-loop-job
invariant-loop-job l = IsIdle l.cache l.pass
''',
}


def run(program, rounds, size):
    """The seconds by the clock and of the processors, by name, number of threads and distance of the regions."""
    done = subprocess.run([program, str(rounds)], capture_output=True, text=True, check=False)
    if done.returncode != 0:
        sys.exit(done.stdout + done.stderr)
    lines = done.stdout.splitlines()
    times = {}
    for told, passed, used in zip(lines[0::3], lines[1::3], lines[2::3]):
        name, threads, apart, hit = told.split()
        if int(hit) != int(threads) * rounds * size:
            sys.exit("not all of %s hit: %s" % (name, hit))
        times[name, int(threads), int(apart)] = [float(s) + float(n) / 1e9 for s, n in (passed.split(), used.split())]
    return times


def tell(times, rounds):
    """Prints the quotients of times."""
    for kind in ("entries", "looks"):
        core, table = (times[name + kind, 1, 0] for name in ("core_", "table_"))
        told = (kind, *(s / rounds * 1e9 for s in core + table), table[0] / core[0], table[1] / core[1])
        print("%-7s  core %.0f ns (%.0f), table %.0f ns (%.0f): %.2f times (%.2f)" % told)
    for kind in ("looks", "entries"):
        for name, apart in (("near", 1), ("apart", 8)):
            one, four = times[kind, 1, 1], times[kind, 4, apart]
            told = [kind, name, *(s / rounds * 1e9 for s in one), four[0] / rounds * 1e9, four[1] / rounds / 4 * 1e9]
            told += [4 * f / s for f, s in zip(one, (four[0], four[1] / 4))]
            print("%-7s  %-5s one %.0f ns (%.0f), each of four %.0f ns (%.0f): %.2f times as fast (%.2f)" % tuple(told))


def load():
    with open("/proc/loadavg", encoding="utf-8") as file:
        return file.read().strip()


def main():
    runs = int(sys.argv[1]) if len(sys.argv) > 1 else 3
    rounds = int(sys.argv[2]) if len(sys.argv) > 2 else 2_000_000
    commit = sys.argv[3] if len(sys.argv) > 3 else "HEAD"
    size = int(sys.argv[4]) if len(sys.argv) > 4 else 4096
    with trial.laid(commit, USES, PROGRAM.replace("@SIZE@", str(size)), PROOFS) as crate:
        trial.output(crate, "rt", "run")
        program = os.path.join(crate, "out", trial.NAME)
        print("%d processors; %d reads of %d bytes a thread" % (os.cpu_count(), rounds, size))
        least = {}
        for number in range(runs):
            before = load()
            times = run(program, rounds, size)
            print("run %d, load %s, then %s" % (number + 1, before, load()))
            tell(times, rounds)
            for key, value in times.items():
                least[key] = [min(pair) for pair in zip(value, least.get(key, value))]
        print("the least of all runs")
        tell(least, rounds)


main()
