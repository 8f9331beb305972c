#!/usr/bin/env python3
"""Times sets and tallies, which go by eight words at once, beside plain loops that do the same.

Lays a small program beside the crates of a commit, builds it with `rt run`, and runs it RUNS times. The program makes
sets of 1,000,000 documents, one of every third document and one of every second, and makes each call ROUNDS times; then
it does the same with words that are taken one at a time, and with counts of 4 bytes a document. Both are built by the
same compiler. Prints for each call the least time of one round in microseconds, by lanes and plain, and the quotient.
The first build proves what `rt check` has not kept on this machine.

usage: bench/lanes.py [COMMIT [ROUNDS [RUNS]]]
"""
import os
import subprocess
import sys

import trial

CALLS = ["and", "or", "and_not", "count", "add", "at_least"]

PROGRAM = r'''// Times each call by lanes and plain.
#![tactic(auto)]

ghost use Rattle.std.specs.Prelude.{◌≡◌, ◌+◌, ◌/◌, ◌<◌, length, vec_len, IfOk};

use doc_bits::{DocBits, Tally};
use std::alloc::{AllocError, Global};
use std::io;
use std::time::Instant;

const DOCS: u32 = 1_000_000;

const ROUNDS: u32 = SETTING;

// ---- plain

fn plain_and(words: &mut [u64], others: &[u64]) {
    for (word, other) in words.iter_mut().zip(others) {
        *word &= *other;
    }
}

fn plain_or(words: &mut [u64], others: &[u64]) {
    for (word, other) in words.iter_mut().zip(others) {
        *word |= *other;
    }
}

fn plain_and_not(words: &mut [u64], others: &[u64]) {
    for (word, other) in words.iter_mut().zip(others) {
        *word &= !*other;
    }
}

fn plain_count(words: &[u64]) -> u64 {
    let mut count = 0u64;
    for word in words {
        count = count.wrapping_add(u64::from(word.count_ones()));
    }
    count
}

// so that each round counts another set
fn plain_set(words: &mut [u64], place: u32) {
    let k = (place / 64) as usize;
    if k < words.len() {
        words[k] |= 1 << (place % 64);
    }
}

fn plain_add(counts: &mut [u32], bits: &DocBits) {
    for place in bits.iter() {
        let place = place as usize;
        if place < counts.len() {
            counts[place] = counts[place].wrapping_add(1);
        }
    }
}

fn plain_at_least(words: &mut [u64], counts: &[u32], m: u64) {
    for k in 0..words.len() {
        let mut word = 0;
        for bit in 0..64usize {
            let place = k.wrapping_mul(64).wrapping_add(bit);
            if place < counts.len() && u64::from(counts[place]) >= m {
                word |= 1 << bit;
            }
        }
        words[k] = word;
    }
}

// ---- by lanes

fn lanes_and(bits: &mut DocBits, other: &DocBits) {
    if bits.len() == other.len() {
        bits.and(other);
    }
}

fn lanes_or(bits: &mut DocBits, other: &DocBits) {
    if bits.len() == other.len() {
        bits.or(other);
    }
}

fn lanes_and_not(bits: &mut DocBits, other: &DocBits) {
    if bits.len() == other.len() {
        bits.and_not(other);
    }
}

fn lanes_set(bits: &mut DocBits, place: u32) {
    if place < bits.len() {
        bits.set(place);
    }
}

fn say(rt: &HostRuntime, call: &str, how: &str, start: &Instant) -> io::Result<()> {
    println!(rt; "{call} {how} {}", start.elapsed(rt)?.as_nanos())
}

fn multiples(alloc: Global, docs: u32, step: u32) -> Result<DocBits, AllocError>
    requires { 0 < step }
    ensures { IfOk result (λ bits. length bits ≡ docs) }
{
    let mut bits = DocBits::zeros(alloc, docs)?;
    for i in 0..docs {
        if i % step == 0 {
            bits.set(i);
        }
    }
    Ok(bits)
}

fn words_of(alloc: Global, docs: u32, step: u32) -> Result<Vec<u64>, AllocError>
    requires { 0 < step }
{
    let mut words = Vec::new(alloc);
    for _ in 0..docs.div_ceil(64) {
        words.push(0u64)?;
    }
    for i in 0..docs {
        if i % step == 0 {
            plain_set(&mut words, i);
        }
    }
    Ok(words)
}

fn counts_of(alloc: Global, docs: u32) -> Result<Vec<u32>, AllocError> {
    let mut counts = Vec::new(alloc);
    for _ in 0..docs {
        counts.push(0u32)?;
    }
    Ok(counts)
}

fn lanes_get(bits: &DocBits, place: u32) -> bool {
    place < bits.len() && bits.get(place)
}

fn plain_get(words: &[u64], place: u32) -> bool {
    match words.first() {
        Some(word) => (word >> (place % 64)) & 1 == 1,
        None => false,
    }
}

fn time_lanes(rt: &HostRuntime, docs: u32) -> io::Result<u64> {
    let mut bits = multiples(rt.alloc(), docs, 3)?;
    let other = multiples(rt.alloc(), docs, 2)?;
    let start = Instant::now(rt)?;
    for _ in 0..ROUNDS {
        lanes_or(&mut bits, &other);
    }
    say(rt, "or", "lanes", &start)?;
    let start = Instant::now(rt)?;
    for _ in 0..ROUNDS {
        lanes_and(&mut bits, &other);
    }
    say(rt, "and", "lanes", &start)?;
    let start = Instant::now(rt)?;
    let mut sum = 0u64;
    for round in 0..ROUNDS {
        lanes_set(&mut bits, round);
        sum = sum.wrapping_add(u64::from(bits.count()));
    }
    say(rt, "count", "lanes", &start)?;
    let start = Instant::now(rt)?;
    for _ in 0..ROUNDS {
        lanes_and_not(&mut bits, &other);
    }
    say(rt, "and_not", "lanes", &start)?;
    Ok(sum.wrapping_add(u64::from(bits.count())))
}

fn time_plain(rt: &HostRuntime, docs: u32) -> io::Result<u64> {
    let mut words = words_of(rt.alloc(), docs, 3)?;
    let others = words_of(rt.alloc(), docs, 2)?;
    let start = Instant::now(rt)?;
    for _ in 0..ROUNDS {
        plain_or(&mut words, &others);
    }
    say(rt, "or", "plain", &start)?;
    let start = Instant::now(rt)?;
    for _ in 0..ROUNDS {
        plain_and(&mut words, &others);
    }
    say(rt, "and", "plain", &start)?;
    let start = Instant::now(rt)?;
    let mut sum = 0u64;
    for round in 0..ROUNDS {
        plain_set(&mut words, round);
        sum = sum.wrapping_add(plain_count(&words));
    }
    say(rt, "count", "plain", &start)?;
    let start = Instant::now(rt)?;
    for _ in 0..ROUNDS {
        plain_and_not(&mut words, &others);
    }
    say(rt, "and_not", "plain", &start)?;
    Ok(sum.wrapping_add(plain_count(&words)))
}

fn tally_lanes(rt: &HostRuntime, docs: u32) -> io::Result<u64> {
    let bits = multiples(rt.alloc(), docs, 3)?;
    let mut out = multiples(rt.alloc(), docs, 2)?;
    let mut tally = Tally::new(rt.alloc(), docs)?;
    let start = Instant::now(rt)?;
    for round in 0..ROUNDS {
        tally.add(&bits);
    }
    say(rt, "add", "lanes", &start)?;
    let start = Instant::now(rt)?;
    let mut sum = 0u64;
    for m in 0..ROUNDS {
        tally.at_least(u64::from(m), &mut out);
        sum = sum.wrapping_add(u64::from(lanes_get(&out, 3)));
    }
    say(rt, "at_least", "lanes", &start)?;
    Ok(sum)
}

fn tally_plain(rt: &HostRuntime, docs: u32) -> io::Result<u64> {
    let bits = multiples(rt.alloc(), docs, 3)?;
    let mut out = words_of(rt.alloc(), docs, 2)?;
    let mut counts = counts_of(rt.alloc(), docs)?;
    let start = Instant::now(rt)?;
    for _ in 0..ROUNDS {
        plain_add(&mut counts, &bits);
    }
    say(rt, "add", "plain", &start)?;
    let start = Instant::now(rt)?;
    let mut sum = 0u64;
    for m in 0..ROUNDS {
        plain_at_least(&mut out, &counts, u64::from(m));
        sum = sum.wrapping_add(u64::from(plain_get(&out, 3)));
    }
    say(rt, "at_least", "plain", &start)?;
    Ok(sum)
}

fn main(rt: HostRuntime) -> io::Result<()> {
    let lanes = time_lanes(&rt, DOCS)?.wrapping_add(tally_lanes(&rt, DOCS)?);
    let plain = time_plain(&rt, DOCS)?.wrapping_add(tally_plain(&rt, DOCS)?);
    println!(rt; "sums {lanes} {plain}")
}
'''

PROOFS = {
    "multiples/Invariants.antt": '''use Rattle.std.proofs.Common.{◌≡◌, length}
use Rattle.bench_trial.proofs.multiples.Given as goal

abbrev pub invariant-loop-i : goal.invariant-loop-i
invariant-loop-i l = length l.bits ≡ l.docs
''',
    "tally_lanes/Invariants.antt": '''use Rattle.std.proofs.Common.{◌≡◌, length}
use Rattle.bench_trial.proofs.tally_lanes.Given as goal

abbrev pub invariant-loop-round : goal.invariant-loop-round
invariant-loop-round l = (length l.tally.counts ≡ l.docs) × (l.tally.added ≡ l.round)

abbrev pub invariant-loop-m : goal.invariant-loop-m
invariant-loop-m l = length l.out ≡ l.docs
''',
}


def write_proofs(crate):
    """The loops' invariants of the program."""
    for name, text in PROOFS.items():
        path = os.path.join(crate, "proofs", name)
        os.makedirs(os.path.dirname(path))
        with open(path, "w", encoding="utf-8") as file:
            file.write(text)


def times_of(lines):
    """The nanoseconds of each call, by lanes and plain, as the program writes them; its sums have to be alike."""
    times = {}
    for call, how, number in (line.split() for line in lines):
        if call == "sums":
            if how != number:
                sys.exit("other sums")
        else:
            times[call, how] = int(number)
    return times


def main():
    commit = sys.argv[1] if len(sys.argv) > 1 else "HEAD"
    rounds = int(sys.argv[2]) if len(sys.argv) > 2 else 200
    runs = int(sys.argv[3]) if len(sys.argv) > 3 else 5
    with trial.laid(commit, "doc_bits", PROGRAM.replace("SETTING", str(rounds))) as crate:
        write_proofs(crate)
        trial.output(os.path.join(os.path.dirname(crate), "doc_bits"), "rt", "lib")
        trial.output(crate, "rt", "run")
        program = os.path.join(crate, "out", trial.NAME)
        least = {}
        for _ in range(runs):
            lines = subprocess.run([program], capture_output=True, text=True, check=True).stdout.splitlines()
            for key, number in times_of(lines).items():
                least[key] = min(number, least.get(key, number))
    for call in CALLS:
        lanes, plain = (least[call, how] / rounds / 1000 for how in ("lanes", "plain"))
        print("%-8s %9.1f us by lanes %9.1f us plain, %.1f times" % (call, lanes, plain, plain / lanes))


main()
