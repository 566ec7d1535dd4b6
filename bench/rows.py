#!/usr/bin/env python3
"""Times a fixed list's multiples (`ListMultiples`) against `axpy`, at lists of 32, 128 and 1,024 items.

  bench/rows.py [--keep]

The calls are timed by a program of its own, which is laid out beside copies of the crates in a
temporary folder, proved and built there (some minutes the first time), and run. It prints a line a
length: the best of several rounds, in nanoseconds an item for a multiple that is added, by rows and
by `axpy`, and in microseconds for the rows' making.
"""
import sys

sys.dont_write_bytecode = True
from timed import is_kept, lines_of

USES = ["base_types", "field_core", "list_multiples", "clmul_lanes"]
LENGTHS = (32, 128, 1024)
CALLS = 256

PROGRAM = r'''//! Times a fixed list's multiples.
#![tactic(auto)]

use clmul_lanes::Lane32;
use field_core::Field;
use list_multiples::ListMultiples;
use std::alloc::{AllocError, Global};
use std::io;
use std::rt::Clock;
use std::time::Instant;

/// `len` elements that differ and aren't zero.
fn elements(alloc: Global, len: u32) -> Result<Vec<Lane32>, AllocError> {
    let mut items = Vec::new(alloc);
    let mut bits: u32 = 0x1234_5679;
    for _ in 0..len {
        bits ^= bits << 13;
        bits ^= bits >> 17;
        bits ^= bits << 5;
        items.push(Lane32::new(bits))?;
    }
    Ok(items)
}

fn nanoseconds(rt: &impl Clock, start: Instant) -> io::Result<u128> {
    Ok(start.elapsed(rt)?.as_nanos())
}

fn main(rt: HostRuntime) -> io::Result<()> {
    let alloc = rt.alloc();
    let factors = elements(alloc, CALLS)?;
    let lengths: [u32; 3] = [LENGTHS];
    for len in lengths {
        let list = elements(alloc, len)?;
        let mut acc = elements(alloc, len)?;
        for _ in 0..25 {
            let start = Instant::now(&rt)?;
            let made = ListMultiples::of(alloc, list.as_slice());
            let time = nanoseconds(&rt, start)?;
            println!(rt; "made {len} {time}")?;
            if let Ok(multiples) = made {
                let start = Instant::now(&rt)?;
                for k in factors.as_slice() {
                    if acc.len() == multiples.len() {
                        multiples.add_multiple(acc.as_mut_slice(), *k);
                    }
                }
                let time = nanoseconds(&rt, start)?;
                println!(rt; "rows {len} {time}")?;
            }
            let start = Instant::now(&rt)?;
            for k in factors.as_slice() {
                if acc.len() == list.len() {
                    Lane32::axpy(acc.as_mut_slice(), *k, list.as_slice());
                }
            }
            let time = nanoseconds(&rt, start)?;
            println!(rt; "axpy {len} {time}")?;
        }
    }
    Ok(())
}
'''


def main():
    best = {}
    program = PROGRAM.replace("CALLS", str(CALLS)).replace("[LENGTHS]", str(list(LENGTHS)))
    for line in lines_of(program, USES, is_kept(__doc__)):
        name, length, time = line.split()
        key = name, int(length)
        best[key] = min(int(time), best.get(key, int(time)))
    for n in LENGTHS:
        rows, axpy = (best[name, n] / CALLS / n for name in ("rows", "axpy"))
        print(f"{n:5} items  by rows {rows:6.2f} ns an item  by axpy {axpy:6.2f}  rows made in {best['made', n] / 1e3:8.1f} microseconds")


main()
