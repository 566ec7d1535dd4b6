#!/usr/bin/env python3
"""Times the search for the shortest recurrence of 64, 1,024 and 4,096 random sums.

  bench/recurrence.py [--keep]

The calls are timed by a program of its own, which is laid out beside copies of the crates in a
temporary folder, proved and built there (some minutes the first time), and run. It prints a line a
length: the best of several rounds in milliseconds, the length that was found, and the nanoseconds
for each of the products that a search takes at most. Random sums take nearly as many.
"""
import sys

sys.dont_write_bytecode = True
from timed import is_kept, lines_of

USES = ["base_types", "field_core", "bm_solver"]
ROUNDS = {64: 200, 1024: 7, 4096: 5}

PROGRAM = r'''//! Times the search for the shortest recurrence.
#![tactic(auto)]

use bm_solver::shortest;
use field_core::Gf32;
use std::alloc::{AllocError, Global};
use std::io;
use std::rt::Clock;
use std::time::Instant;

/// `len` elements by a linear congruence, whose carries no short recurrence foretells.
fn elements(alloc: Global, len: usize) -> Result<Vec<Gf32>, AllocError> {
    let mut items = Vec::new(alloc);
    let mut bits: u32 = 0x1234_5679;
    for _ in 0..len {
        bits = bits.wrapping_mul(1_664_525).wrapping_add(1_013_904_223);
        items.push(Gf32::new(bits ^ (bits >> 15)))?;
    }
    Ok(items)
}

fn nanoseconds(rt: &impl Clock, start: Instant) -> io::Result<u128> {
    Ok(start.elapsed(rt)?.as_nanos())
}

fn main(rt: HostRuntime) -> io::Result<()> {
    let alloc = rt.alloc();
    for (len, rounds) in [SIZES] {
        let sums = elements(alloc, len)?;
        for _ in 0..rounds {
            let start = Instant::now(&rt)?;
            let found = shortest(alloc, sums.as_slice());
            let time = nanoseconds(&rt, start)?;
            if let Ok(locator) = found {
                println!(rt; "{len} {time} {}", locator.length())?;
            }
        }
    }
    Ok(())
}
'''


def main():
    sizes = ", ".join(f"({n}, {rounds})" for n, rounds in ROUNDS.items())
    best, length = {}, {}
    for line in lines_of(PROGRAM.replace("[SIZES]", f"[{sizes}]"), USES, is_kept(__doc__)):
        n, time, found = map(int, line.split())
        best[n], length[n] = min(time, best.get(n, time)), found
    for n in ROUNDS:
        products = n * (n + 1) // 2 + 2 * n
        print(f"{n:5} sums  {best[n] / 1e6:9.3f} ms  length {length[n]:5}  {best[n] / products:6.2f} ns a product")


main()
