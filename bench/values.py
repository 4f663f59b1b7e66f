#!/usr/bin/env python3
"""Times look-ups in tables: by halves, and by the scan beside them, with tables of several counts of rows and one to three arguments.

    bench/values.py [COUNT..]

It makes a repository of its own in a temporary folder, with copies of the crates that it needs and a small program over them, which `rt run` proves and
runs. A table has so many rows at the knots 0, 2, 4 and so on of each argument, as many of each, and the arguments that are looked up lie at random among
the knots and between them. A line tells the arguments, the rows, the milliseconds of a million look-ups by halves, and those of a thousand scans: the first
grow with the logarithm of the rows, the others along with them. The folder is deleted at the end. It is no part of the gate.
"""
import sys

import proved_program

COUNTS = [10, 1_000, 100_000]
CRATES = ["mbqi_values", "mbqi_terms", "function_model"]

PROGRAM_LINE = "values_bench: mbqi_values function_model"

PROGRAM = """//! Looks values up in tables and tells the time.
#![tactic(auto)]

ghost use Rattle.std.specs.Prelude.{◌<◌};
ghost use Rattle.function_model.specs.Sound.{IsSoundTable};

use function_model::{Row, Rows, Table, TableName, ValueLists};
use mbqi_values::{Value, Values};
use std::alloc::{AllocError, Global};
use std::io;
use std::time::Instant;

const BY_HALVES: usize = 1_000_000;
const BY_SCAN: usize = 1_000;

/// The knots 0, 2, 4 and so on.
fn knots(alloc: Global, count: usize) -> Result<Values, AllocError> {
    let mut all = Values::new(alloc);
    for knot in 0..count {
        all.push(Value::Num(2 * knot as i128))?;
    }
    Ok(all)
}

/// The digit of a number that has so many behind it.
fn digit(number: usize, base: usize, behind: usize) -> usize
    requires { 0 < base }
{
    let mut rest = number;
    for _ in 0..behind {
        rest /= base;
    }
    rest % base
}

/// A row at the knots of its number's digits.
fn row(alloc: Global, number: usize, base: usize, args: usize) -> Result<Row, AllocError>
    requires { 0 < base }
{
    let mut places = Values::new(alloc);
    for place in 0..args {
        let knot = digit(number, base, args - 1 - place);
        places.push(Value::Num(2 * knot as i128))?;
    }
    Ok(Row {
        places,
        value: Value::Num(number as i128),
    })
}

/// How many knots each argument has.
fn base_of(rows: usize, args: usize) -> usize {
    for base in 1..rows {
        let square = base.saturating_mul(base);
        let size = match args {
            1 => base,
            2 => square,
            _ => square.saturating_mul(base),
        };
        if size >= rows {
            return base;
        }
    }
    rows
}

fn table(alloc: Global, rows: usize, base: usize, args: usize) -> Result<Table, AllocError>
    requires { 0 < base }
{
    let mut all_knots = ValueLists::new(alloc);
    for _ in 0..args {
        all_knots.push(knots(alloc, base)?)?;
    }
    let mut all_rows = Rows::new(alloc);
    for number in 0..rows {
        all_rows.push(row(alloc, number, base, args)?)?;
    }
    Ok(Table {
        name: TableName::Declared(0),
        knots: all_knots,
        rows: all_rows,
        default: Value::Num(-1),
    })
}

/// The next of random numbers.
fn next(seed: u64) -> u64 {
    seed.wrapping_mul(6364136223846793005)
        .wrapping_add(1442695040888963407)
}

/// A number from 0 to one past the last knot.
fn argument(seed: u64, base: usize) -> Value
    requires { 0 < base }
{
    let number = (seed >> 32) as i128;
    Value::Num(number % (2 * base as i128))
}

fn is_default(value: Value) -> u64 {
    match value {
        Value::Num(-1) => 1,
        _ => 0,
    }
}

/// How many of so many look-ups come to the default.
fn look_up(table: &Table, base: usize, args: usize, many: usize) -> u64
    requires sound { IsSoundTable table.now }
    requires base { 0 < base }
{
    let mut found = 0;
    let mut seed = 1;
    for _ in 0..many {
        let first = argument(seed, base);
        seed = next(seed);
        let second = argument(seed, base);
        seed = next(seed);
        let third = argument(seed, base);
        seed = next(seed);
        let value = match args {
            1 => table.look_up_by_halves(&[first]),
            2 => table.look_up_by_halves(&[first, second]),
            _ => table.look_up_by_halves(&[first, second, third]),
        };
        found ^= is_default(value);
    }
    found
}

fn scan(table: &Table, base: usize, args: usize, many: usize) -> u64
    requires { 0 < base }
{
    let mut found = 0;
    let mut seed = 1;
    for _ in 0..many {
        let first = argument(seed, base);
        seed = next(seed);
        let second = argument(seed, base);
        seed = next(seed);
        let third = argument(seed, base);
        seed = next(seed);
        let value = match args {
            1 => table.look_up(&[first]),
            2 => table.look_up(&[first, second]),
            _ => table.look_up(&[first, second, third]),
        };
        found ^= is_default(value);
    }
    found
}

fn measure(rt: HostRuntime, args: usize, rows: usize) -> Result<(), io::Error>
    requires { 0 < rows }
{
    let base = base_of(rows, args);
    if base == 0 {
        return Ok(());
    }
    let made = table(rt.alloc(), rows, base, args);
    if let Ok(table) = made {
        if table.is_sound() {
            let start = Instant::now(&rt)?;
            let found = look_up(&table, base, args, BY_HALVES);
            let halves = start.elapsed(&rt)?.as_millis();
            let scanned = scan(&table, base, args, BY_SCAN);
            let scans = start.elapsed(&rt)?.as_millis().saturating_sub(halves);
            println!(rt; "{args:>4} {rows:>10} {halves:>10} {scans:>10} {found:>2}{scanned:>2}")?;
        }
    }
    Ok(())
}

fn main(rt: HostRuntime) -> Result<(), io::Error> {
    for rows in [COUNTS] {
        if rows > 0 {
            for args in [1usize, 2, 3] {
                measure(rt, args, rows)?;
            }
        }
    }
    Ok(())
}
"""


def main():
    counts = [int(word) for word in sys.argv[1:]] or COUNTS
    print(f"{'args':>4} {'rows':>10} {'by halves':>10} {'scans':>10}", flush=True)
    source = PROGRAM.replace("COUNTS", ", ".join(f"{count}usize" for count in counts))
    sys.exit(proved_program.run(PROGRAM_LINE, CRATES, source))


main()
