#!/usr/bin/env python3
"""Counts how often a sketch gets a false answer: a set of more elements than its capacity, and still an answer.

  bench/false_answers.py [--seed N] [--keep]

For each capacity from 1 to 8, and for 1, 2 and 3 elements more than that, sketches are made of random sets of so many
elements and decoded. What is found has no more elements than the capacity, so whatever is found is false. A row has
the tries, the false answers, their share, and beside it 1/c!, the share of random polynomials of degree c that have c
distinct roots in a large field.

The calls are made by a program of its own, which is laid out beside copies of the crates in a temporary folder, proved
and built there (some minutes the first time), and run.
"""
import math, sys

sys.dont_write_bytecode = True
from timed import lines_of, words_of

USES = ["base_types", "field_core", "sketch_core", "trace_roots"]
TRIES = {1: 2_000, 2: 10_000, 3: 10_000, 4: 20_000, 5: 50_000, 6: 100_000, 7: 200_000, 8: 400_000}

PROGRAM = r'''//! Counts the answers to sketches of sets that are larger than the capacity.
#![tactic(auto)]

ghost use Rattle.std.specs.Prelude.{◌≢◌, IsTrue};

use base_types::OutOfMemory;
use field_core::{Field, Gf32};
use sketch_core::{Decoded, Sketch};
use std::alloc::Global;
use std::io;

/// The generator splitmix64 of Steele, Lea and Flood, Fast Splittable Pseudorandom Number Generators (2014).
#[derive(Drop)]
struct Random {
    state: u64,
}

impl Random {
    fn next(&mut self) -> u32 {
        self.state = self.state.wrapping_add(0x9e37_79b9_7f4a_7c15);
        let mut word = self.state;
        word = (word ^ (word >> 30)).wrapping_mul(0xbf58_476d_1ce4_e5b9);
        word = (word ^ (word >> 27)).wrapping_mul(0x94d0_49bb_1331_11eb);
        u32::try_from((word ^ (word >> 31)) >> 32).unwrap_or(0)
    }
}

/// Whether it is not 0.
fn is_nonzero<F: Field>(e: F) -> bool
    ensures { IsTrue result → e ≢ F.ops.zero }
{
    e != F::ZERO
}

/// The sketch of the capacity of a random set of so many elements. Where 0 or a number that the set has is drawn, another
/// one is; after twice as many draws as elements there is no sketch.
fn sketch_of(
    alloc: Global,
    random: &mut Random,
    count: usize,
    capacity: usize,
) -> Result<Option<Sketch<Gf32>>, OutOfMemory> {
    let Ok(mut sketch) = Sketch::empty(alloc, capacity) else {
        return Err(OutOfMemory);
    };
    let mut set = Vec::with_capacity(alloc, count)?;
    for _ in 0..2 * count {
        let element = Gf32::new(random.next());
        if set.len() < count && !set.contains(&element) && is_nonzero(element) {
            sketch.toggle(element);
            set.push(element)?;
        }
    }
    Ok((set.len() == count).then_some(sketch))
}

/// How many of so many sketches of random sets have an answer, and how many sketches there were.
fn answers(
    alloc: Global,
    random: &mut Random,
    count: usize,
    capacity: usize,
    tries: u64,
) -> Result<(u64, u64), OutOfMemory> {
    let mut found = 0u64;
    let mut all = 0u64;
    for _ in 0..tries {
        if let Some(sketch) = sketch_of(alloc, random, count, capacity)? {
            all = all.saturating_add(1);
            if let Decoded::Found(_) = trace_roots::decode(alloc, &sketch)? {
                found = found.saturating_add(1);
            }
        }
    }
    Ok((found, all))
}

fn main(rt: HostRuntime) -> io::Result<()> {
    let mut random = Random { state: [SEED] };
    for (capacity, tries) in [TRIES] {
        for more in 1..=3 {
            if let Ok((found, all)) = answers(rt.alloc(), &mut random, capacity + more, capacity, tries) {
                println!(rt; "{capacity} {more} {found} {all}")?;
            }
        }
    }
    Ok(())
}
'''


def main():
    words = words_of(__doc__)
    words.add_argument("--seed", type=int, default=1)
    words = words.parse_args()
    tries = ", ".join(f"({capacity}usize, {count}u64)" for capacity, count in TRIES.items())
    program = PROGRAM.replace("[TRIES]", f"[{tries}]").replace("[SEED]", str(words.seed))
    print("capacity more tries false share 1/c!")
    for line in lines_of(program, USES, words.keep):
        capacity, more, found, all_ = map(int, line.split())
        print(capacity, more, all_, found, f"{found / all_:.6f}", f"{1 / math.factorial(capacity):.6f}", flush=True)


main()
