#!/usr/bin/env python3
"""Times a set that is filled and emptied: 50,000 ids are added one by one, and removed by one call.

  bench/sets.py [--keep]

`add` and `remove_all` take turns with `rows`, which adds the 4,096 odd powers of as many short ids to as many sums and
does nothing else: what the sums of a set cost at least. All short ids differ, so each change costs a row. All of it over
both fields of 2^32 elements: the plain one, and the one by lanes that the program uses. A row of what is printed has the
best of several rounds in milliseconds, and the time over that of `rows`.

The calls are timed by a program of its own, which is laid out beside copies of the crates in a temporary folder, proved
and built there (some minutes the first time), and run.
"""
import sys

sys.dont_write_bytecode = True
from timed import is_kept, lines_of

USES = ["base_types", "clmul_lanes", "field_core", "pool_rules", "recon_set"]
ROUNDS = 3

PROGRAM = r'''//! Times a set that is filled and emptied.
#![tactic(auto)]

ghost use Rattle.std.specs.Prelude.{◌≡◌};

use base_types::Hash32;
use clmul_lanes::Lane32;
use field_core::{Field, Gf32};
use pool_rules::POOL_LIMIT;
use recon_set::ReconSet;
use std::alloc::{AllocError, Global};
use std::io;
use std::rt::Clock;
use std::time::Instant;

/// 50,000 ids, each of its number.
fn numbered(alloc: Global) -> Result<Vec<Hash32>, AllocError> {
    let mut ids = Vec::with_capacity(alloc, 50_000)?;
    for i in 0..50_000u32 {
        let mut bytes = [0; 32];
        for (byte, of_number) in bytes.iter_mut().zip(i.to_le_bytes()) {
            *byte = of_number;
        }
        ids.push(Hash32(bytes))?;
    }
    Ok(ids)
}

/// Adds each id that isn't there, under a short id of its own.
fn fill<F: Field>(set: &mut ReconSet<F>, ids: &[Hash32]) {
    let mut short = 1u32;
    for id in ids {
        short = short.wrapping_add(0x9e37_79b9);
        if 0 < short && set.len() < POOL_LIMIT && !set.contains(id) {
            let _ = set.add(*id, short);
        }
    }
}

/// Adds as many rows of odd powers to the sums.
fn add_rows<F: Field>(sums: &mut [F], count: usize)
    requires { F.BITS ≡ 32 }
{
    let mut short = 1u32;
    for _ in 0..count {
        short = short.wrapping_add(0x9e37_79b9);
        F::odd_powers_into(sums, F::from_bits(u64::from(short)));
    }
}

fn nanoseconds(rt: &impl Clock, start: Instant) -> io::Result<u128> {
    Ok(start.elapsed(rt)?.as_nanos())
}

/// The times of the three, and how many ids the set has behind them.
fn print_round<F: Field>(rt: &HostRuntime, field: &str, ids: &[Hash32]) -> io::Result<()>
    requires { F.BITS ≡ 32 }
{
    let mut set = ReconSet::<F>::empty(rt.alloc());
    let mut sums = vec![in rt.alloc(); F::ZERO; 4096]?;
    let start = Instant::now(rt)?;
    fill(&mut set, ids);
    println!(rt; "{field} add {} {}", nanoseconds(rt, start)?, set.len())?;
    let start = Instant::now(rt)?;
    set.remove_all(ids);
    println!(rt; "{field} remove_all {} {}", nanoseconds(rt, start)?, set.len())?;
    let start = Instant::now(rt)?;
    add_rows(sums.as_mut_slice(), ids.len());
    println!(rt; "{field} rows {} {}", nanoseconds(rt, start)?, sums.len())?;
    Ok(())
}

fn main(rt: HostRuntime) -> io::Result<()> {
    let alloc = rt.alloc();
    let ids = numbered(alloc)?;
    for _ in 0..[ROUNDS] {
        print_round::<Gf32>(&rt, "plain", ids.as_slice())?;
        print_round::<Lane32>(&rt, "lanes", ids.as_slice())?;
    }
    Ok(())
}
'''

LEFT = {"add": "50000", "remove_all": "0", "rows": "4096"}


def main():
    best = {}
    for line in lines_of(PROGRAM.replace("[ROUNDS]", str(ROUNDS)), USES, is_kept(__doc__)):
        field, name, time, left = line.split()
        if left != LEFT[name]:
            sys.exit(f"{name} leaves {left}")
        best[field, name] = min(int(time), best.get((field, name), int(time)))
    for field in ["plain", "lanes"]:
        rows = best[field, "rows"]
        for name in ["add", "remove_all"]:
            time = best[field, name]
            print(f"{field} {name:10} {time / 1e6:9.1f} ms  rows {rows / 1e6:9.1f} ms  {time / rows:5.2f}")


main()
