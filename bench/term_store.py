#!/usr/bin/env python3
"""Times the term store: numerals put into a new store, put again, and released, at several counts.

    bench/term_store.py [COUNT..]

It makes a repository of its own in a temporary folder, with copies of the store's crate and of those below it and a
small program over them, and runs the program by `rt try`, which needs no proof. That is far slower than the built
program, so the figures show how the time grows and not how long it is. A line tells the milliseconds at a count: they
double along with it where the time is linear. The folder is deleted at the end. It is no part of the gate.
"""
import sys

import proved_program

COUNTS = [125_000, 250_000, 500_000, 1_000_000]
CRATES = ["mbqi_values", "mbqi_terms"]
SECONDS = 600
STEPS = 10**12

PROGRAM_LINE = "store_bench: mbqi_values mbqi_terms sqlite_items"

PROGRAM = """//! Interns numerals and tells the time.
#![tactic(auto)]

use mbqi_terms::{ArrayPairs, Arrays, Functions, Head, Node, SkolemSorts, TermIds, TermStore};
use sqlite_items::Items;
use std::alloc::{AllocError, Global};
use std::io;
use std::time::Instant;

fn empty_store(alloc: Global) -> TermStore {
    let arrays = Arrays {
        terms: Items::new(alloc),
        atoms: ArrayPairs::new(alloc),
        defaults: Items::new(alloc),
    };
    TermStore::new(alloc, Functions::new(alloc), SkolemSorts::new(alloc), arrays)
}

fn intern_all(store: &mut TermStore, alloc: Global, count: u32) -> Result<(), AllocError> {
    for n in 0..count {
        let node = Node {
            head: Head::Zero,
            args: TermIds::new(alloc),
            plus: n as i128,
        };
        store.intern(alloc, node)?;
    }
    Ok(())
}

fn main(rt: HostRuntime) -> Result<(), io::Error> {
    let alloc = rt.alloc();
    for count in [COUNTS] {
        let mut store = empty_store(alloc);
        let start = Instant::now(&rt)?;
        let fresh = intern_all(&mut store, alloc, count);
        let interned = start.elapsed(&rt)?.as_millis();
        let again = intern_all(&mut store, alloc, count);
        let found = start.elapsed(&rt)?.as_millis();
        assert!(rt; fresh.is_ok() && again.is_ok() && store.len() == count as usize);
        store.release(0);
        let released = start.elapsed(&rt)?.as_millis();
        println!(rt; "{count:>10} {interned:>8} {:>8} {:>8}", found - interned, released - found)?;
    }
    Ok(())
}
"""


def main():
    counts = [int(word) for word in sys.argv[1:]] or COUNTS
    print(f"{'count':>10} {'interned':>8} {'found':>8} {'released':>8}", flush=True)
    source = PROGRAM.replace("COUNTS", ", ".join(str(count) for count in counts))
    command = ("rt", "try", "--seconds", str(SECONDS), "--steps", str(STEPS))
    sys.exit(proved_program.run(PROGRAM_LINE, CRATES, source, command=command))


main()
