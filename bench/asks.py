#!/usr/bin/env python3
"""Times the accepter's answer to a difference: as many short ids are asked for as its snapshot has members.

  bench/asks.py [--keep]

A row of what is printed has how many there are, the best of many runs in milliseconds of processor time, and the time over
that of half as many. Each run is a process of its own, so that every set lies in fresh memory. The asks come in the opposite
order of the members, all are found, and all ids are announced. The script fails where twice as many take more than 2.5 times
as long.

The calls are timed by a program of its own, which is laid out beside copies of the crates in a temporary folder, proved
and built there (some minutes the first time), and run.
"""
import sys

sys.dont_write_bytecode = True
from timed import is_kept, lines_of

USES = ["base_types", "clmul_lanes", "wire_rules", "pool_rules", "recon_set", "responder"]
COUNTS = [3125, 6250, 12500, 25000, 50000]
RUNS = 25

PROGRAM = r'''//! Times the accepter's answer to a difference.
#![tactic(auto)]

use base_types::{Hash32, OutOfMemory, Shorts};
use clmul_lanes::Lane32;
use pool_rules::POOL_LIMIT;
use recon_set::ReconSet;
use responder::{Responder, ResponderFault};
use std::alloc::{AllocError, Global};
use std::io;
use std::time::CpuClock;
use wire_rules::{Message, Outs};

/// A short id for each number. All differ, and none is 0 below 2^32 - 1.
fn short_of(number: u32) -> u32 {
    number.wrapping_add(1).wrapping_mul(0x9e37_79b9)
}

/// A set of so many ids, each of its number.
fn set_of(alloc: Global, count: u32) -> Result<ReconSet<Lane32>, OutOfMemory> {
    let mut set = ReconSet::empty(alloc);
    for i in 0..count {
        let mut bytes = [0; 32];
        for (byte, of_number) in bytes.iter_mut().zip(i.to_le_bytes()) {
            *byte = of_number;
        }
        let id = Hash32(bytes);
        let short = short_of(i);
        if 0 < short && set.len() < POOL_LIMIT && !set.contains(&id) {
            set.add(id, short)?;
        }
    }
    Ok(set)
}

/// Asks for all of them, in the opposite order.
fn asks_of(alloc: Global, count: u32) -> Result<Shorts, AllocError> {
    let mut asks = Vec::with_capacity(alloc, count as usize)?;
    for i in 0..count {
        asks.push(short_of(count - 1 - i))?;
    }
    Ok(Shorts::from_vec(asks))
}

/// How many ids are announced.
fn announced(outs: Result<Outs, ResponderFault>) -> usize {
    let Ok(outs) = outs else {
        return 0;
    };
    match outs.as_slice().first() {
        Some(Message::Inv(entries)) => entries.as_slice().len(),
        _ => 0,
    }
}

/// The processor time before and behind an answer, and how many ids it announces.
fn print_answer(rt: &HostRuntime, count: u32) -> io::Result<()> {
    let alloc = rt.alloc();
    let (Ok(mut set), Ok(asks)) = (set_of(alloc, count), asks_of(alloc, count)) else {
        return println!(rt; "memory");
    };
    let mut responder = Responder::new(alloc, 2);
    let _ = responder.on_reqrecon(0, 0, &mut set);
    let start = rt.thread_cpu_time()?.as_nanos();
    let outs = responder.on_reconcildiff(true, &asks);
    let end = rt.thread_cpu_time()?.as_nanos();
    println!(rt; "{count} {start} {end} {}", announced(outs))
}

fn main(rt: HostRuntime) -> io::Result<()> {
    for count in [[COUNTS]] {
        print_answer(&rt, count)?;
    }
    Ok(())
}
'''


def main():
    program = PROGRAM.replace("[COUNTS]", ", ".join(map(str, COUNTS)))
    best = {}
    for line in lines_of(program, USES, is_kept(__doc__), RUNS):
        count, start, end, announced = map(int, line.split())
        if announced != count:
            sys.exit(f"{announced} ids are announced where {count} are asked for")
        best[count] = min(end - start, best.get(count, end - start))
    for half, count in [(None, COUNTS[0])] + list(zip(COUNTS, COUNTS[1:])):
        ratio = best[count] / best[half] if half else None
        print(f"{count:6} asks and members {best[count] / 1e6:8.2f} ms" + (f"  {ratio:5.2f}" if ratio else ""))
        if ratio and ratio > 2.5:
            sys.exit("more than 2.5 times as long")


main()
