#!/usr/bin/env python3
"""Times searches of one postings text with a shelf that is kept, beside the same with a new shelf each.

A small program makes a postings text of about KILOBYTES thousand bytes in memory, and searches it SEARCHES times with one
shelf, each time for another term. Then it makes two of the searches again with a new shelf each. What it prints is its own
processor time between. It is run by `rt try`, which needs no proof of it and builds no fast program: each step takes some
50 times as long as in a program that is built, with both kinds of shelf alike, so that the quotient is what tells.

usage: bench/shelves.py [COMMIT [KILOBYTES [SEARCHES]]]
"""
import sys

import trial

USES = (
    "byte_text directory_input doc_bits text_lines mount_manifest simpletext_postings simpletext_stored query_lang"
    " shard_search serde_json thiserror anyhow"
)

# a term has ten documents of one position each
TERM_BYTES = 13 + 10 * (10 + 13 + 12)

PROGRAM = r'''// Searches a postings text again and again.
#![tactic(auto)]

use directory_input::MemBytes;
use mount_manifest::Manifest;
use query_lang::Query;
use shard_search::{Shelf, search};
use std::alloc::Global;
use std::fs;

fn postings(alloc: Global) -> anyhow::Result<Vec<u8>> {
    let mut text = Vec::new(alloc);
    text.extend_from_slice(b"field body\n")?;
    for term in 0..TERMS_u32 {
        let line = format!(in alloc; "  term {:06}\n", term)?;
        text.extend_from_slice(line.as_bytes())?;
        for doc in 0..10_u32 {
            let lines = format!(in alloc; "    doc {doc}\n      freq 1\n      pos {doc}\n")?;
            text.extend_from_slice(lines.as_bytes())?;
        }
    }
    text.extend_from_slice(b"END\nchecksum 00000000000000000000\n")?;
    Ok(text)
}

fn query(alloc: Global, term: u32) -> anyhow::Result<Query> {
    let text = format!(in alloc; "{{\"term\":{{\"body\":\"{:06}\"}}}}", term)?;
    Ok(Query::read(alloc, text.as_bytes())?)
}

fn main(rt: HostRuntime) -> anyhow::Result<()> {
    let alloc = rt.alloc();
    let text = postings(alloc)?;
    let manifest = format!(in alloc;
        "{{\"version\":1,\"files\":[{{\"name\":\"__p\",\"physical_name\":\"_0.pst\",\"length\":{}}}],\"segments\":[{{\"name\":\"_0\",\"docs\":10,\"postings\":\"_0.pst\"}}]}}",
        text.len()
    )?;
    let shard = Manifest::read(alloc, manifest.as_bytes())?;
    let mut bytes = MemBytes::new(alloc);
    bytes.add(text)?;
    let mut total = 0;
    let begun = fs::read_to_string(&rt, "/proc/self/schedstat")?;
    let mut shelf = Shelf::new(alloc);
    for i in 0..SEARCHES_u32 {
        let query = query(alloc, i * 7919 % TERMS)?;
        if let Ok(hits) = search(alloc, &mut bytes, &mut shelf, &shard, &query, 10) {
            total += hits.total;
        }
    }
    let kept = fs::read_to_string(&rt, "/proc/self/schedstat")?;
    for i in 0..2_u32 {
        let query = query(alloc, i * 7919 % TERMS)?;
        if let Ok(hits) = search(alloc, &mut bytes, &mut Shelf::new(alloc), &shard, &query, 10) {
            total += hits.total;
        }
    }
    let ended = fs::read_to_string(&rt, "/proc/self/schedstat")?;
    println!(rt; "{}", begun.as_str().trim())?;
    println!(rt; "{}", kept.as_str().trim())?;
    println!(rt; "{}", ended.as_str().trim())?;
    println!(rt; "{total}")?;
    Ok(())
}
'''


def nanoseconds(line):
    """The processor time of the process in a line of /proc/self/schedstat."""
    return int(line.split()[0])


def main():
    commit = sys.argv[1] if len(sys.argv) > 1 else "HEAD"
    terms = max(1, int(sys.argv[2] if len(sys.argv) > 2 else "100") * 1000 // TERM_BYTES)
    searches = int(sys.argv[3]) if len(sys.argv) > 3 else 64
    program = PROGRAM.replace("SEARCHES", str(searches)).replace("TERMS", str(terms))
    with trial.laid(commit, USES, program) as crate:
        begun, kept, ended, total = trial.output(crate, "rt", "try")[:4]
    # each term has ten documents
    if int(total) != 10 * (searches + 2):
        sys.exit("other documents")
    one = (nanoseconds(kept) - nanoseconds(begun)) / 1e9
    new = (nanoseconds(ended) - nanoseconds(kept)) / 2e9
    print("%d searches with one shelf  %.2f s" % (searches, one))
    print("one search with a new shelf  %.2f s" % new)
    print("%d with a new shelf each take %.1f times as long" % (searches, searches * new / one))


main()
