#!/usr/bin/env python3
"""Times classes of nodes: joined in a chain, in a balanced tree and at random, paths between the ends, and all taken back, at several counts.

    bench/classes.py [COUNT..]

It makes a repository of its own in a temporary folder, with copies of the crates that it needs and a small program over them, which `rt run` proves and
runs. A line tells a way of joining, a count, and the milliseconds that joining, ten paths and taking back took: they double along with the count where the time
is linear. The folder is deleted at the end. It is no part of the gate.
"""
import sys

import proved_program

COUNTS = [25_000, 50_000, 100_000]
CRATES = ["index_lists", "class_forest"]

PROGRAM_LINE = "classes_bench: class_forest"

PROGRAM = """//! Joins classes and takes them apart, and tells the time.
#![tactic(auto)]

ghost use Rattle.std.specs.Prelude.{◌≡◌, ◌<◌, ◌^◌};

use class_forest::ClassForest;
use std::io;
use std::time::Instant;

#[derive(Clone, Copy)]
enum Way {
    Chain,
    Tree,
    Random,
}

/// Joins the classes of two nodes, if they are apart.
fn join(forest: &mut ClassForest, left: usize, right: usize)
    requires left { left < forest.old.nodes }
    requires right { right < forest.old.nodes }
    ensures { forest.new.nodes ≡ forest.old.nodes }
{
    if forest.class(left) != forest.class(right) {
        forest.merge(left, right, 0);
    }
}

fn join_chain(forest: &mut ClassForest, count: usize)
    requires { forest.old.nodes ≡ count }
    ensures { forest.new.nodes ≡ count }
{
    for node in 1..count {
        join(forest, node - 1, node);
    }
}

/// Joins the classes of so many nodes, each with that of the one so many places further on.
fn join_level(forest: &mut ClassForest, count: usize, width: usize, step: usize)
    requires { forest.old.nodes ≡ count }
    ensures { forest.new.nodes ≡ count }
{
    for node in 0..count {
        if node.checked_rem(step) == Some(0) {
            if let Some(right) = node.checked_add(width) {
                if right < count {
                    join(forest, node, right);
                }
            }
        }
    }
}

fn join_tree(forest: &mut ClassForest, count: usize)
    requires { forest.old.nodes ≡ count }
    ensures { forest.new.nodes ≡ count }
{
    for level in 0..20u32 {
        join_level(forest, count, 1usize << level, 2usize << level);
    }
}

fn join_random(forest: &mut ClassForest, count: usize)
    requires some { 0 < count }
    requires nodes { forest.old.nodes ≡ count }
    ensures { forest.new.nodes ≡ count }
{
    let mut seed = 1u64;
    for _ in 0..count {
        let left = seed.wrapping_mul(6364136223846793005).wrapping_add(1442695040888963407);
        seed = left.wrapping_mul(6364136223846793005).wrapping_add(1442695040888963407);
        join(forest, (left >> 33) as usize % count, (seed >> 33) as usize % count);
    }
}

/// Marks ten ways between nodes that lie far apart in the order.
fn mark_paths(forest: &mut ClassForest, count: usize) -> usize
    requires { forest.old.nodes ≡ count }
    ensures { forest.new.nodes ≡ count }
{
    for node in 0..10usize {
        if node < count {
            let other = count - 1 - node;
            if forest.class(node) == forest.class(other) {
                forest.mark_path(node, other);
            }
        }
    }
    let marks = forest.marked().len();
    forest.unmark_all();
    marks
}

fn part_all(forest: &mut ClassForest) {
    for _ in 0..forest.merges() {
        if forest.merges() > 0 {
            forest.undo();
        }
    }
}

fn measure(rt: HostRuntime, name: &str, way: Way, count: usize) -> Result<(), io::Error>
    requires { 0 < count }
{
    let forest = ClassForest::new(rt.alloc(), count);
    if let Ok(mut forest) = forest {
        let start = Instant::now(&rt)?;
        match way {
            Way::Chain => join_chain(&mut forest, count),
            Way::Tree => join_tree(&mut forest, count),
            Way::Random => join_random(&mut forest, count),
        }
        let joined = start.elapsed(&rt)?.as_millis();
        let marks = mark_paths(&mut forest, count);
        let marked = start.elapsed(&rt)?.as_millis();
        part_all(&mut forest);
        let parted = start.elapsed(&rt)?.as_millis();
        let paths = marked.saturating_sub(joined);
        let back = parted.saturating_sub(marked);
        println!(rt; "{name:>8} {count:>10} {joined:>8} {marks:>8} {paths:>8} {back:>8}")?;
    }
    Ok(())
}

fn main(rt: HostRuntime) -> Result<(), io::Error> {
    for count in [COUNTS] {
        if count > 0 {
            measure(rt, "chain", Way::Chain, count)?;
            measure(rt, "tree", Way::Tree, count)?;
            measure(rt, "random", Way::Random, count)?;
        }
    }
    Ok(())
}
"""

# The functions with a loop, and its name.
LOOPS = {"join_chain": "loop-node", "join_level": "loop-node", "join_tree": "loop-level", "join_random": "loop", "mark_paths": "loop-node"}

INVARIANT = """use Rattle.std.proofs.Common.{◌≡◌}
use Rattle.classes_bench.proofs.FUNCTION.Given as goal

abbrev pub invariant-LOOP : goal.invariant-LOOP
invariant-LOOP l = l.forest.nodes ≡ l.count
"""


def main():
    counts = [int(word) for word in sys.argv[1:]] or COUNTS
    print(f"{'way':>8} {'count':>10} {'joined':>8} {'marks':>8} {'paths':>8} {'back':>8}", flush=True)
    source = PROGRAM.replace("COUNTS", ", ".join(f"{count}usize" for count in counts))
    proofs = {f"{function}/Invariants.antt": INVARIANT.replace("FUNCTION", function).replace("LOOP", loop) for function, loop in LOOPS.items()}
    sys.exit(proved_program.run(PROGRAM_LINE, CRATES, source, proofs))


main()
