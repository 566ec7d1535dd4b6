#!/usr/bin/env python3
"""Times a feeder over streams of 67,108,864 bytes, of small frames and of frames of 4,000,000 bytes.

  bench/frames.py [--keep]

The calls are timed by a program of its own, which is laid out beside copies of the crates in a
temporary folder, proved and built there (some minutes the first time), and run. For each stream and
size of the pieces it prints the milliseconds (the best of two rounds, so that the program ends within the time that `rt run` gives it) of `next` to the end, of
`front` and `skip` to the end, and of hashing each payload twice and copying the stream once in the
same run, and how many times the last the others take. The last lines are of a mebibyte that comes
one byte at a time, with an answer asked for behind each: in nanoseconds a byte.
"""
import sys

sys.dont_write_bytecode = True
from timed import is_kept, lines_of

USES = ["base_types", "wire_rules", "p2p_frame", "sha2"]

PROGRAM = r'''//! Times a feeder.
#![tactic(auto)]

ghost use Rattle.std.specs.Prelude.{◌<◌, ◌≤◌, length};

use p2p_frame::Feeder;
use sha2::{Digest, Sha256};
use std::alloc::{AllocError, Global};
use std::io;
use std::rt::Clock;
use std::time::Instant;

const MAIN: [u8; 4] = [0xF9, 0xBE, 0xB4, 0xD9];

/// So many copies of a frame with a payload of these bytes.
fn stream(alloc: Global, payload: usize, len: usize) -> Result<Vec<u8>, AllocError> {
    let mut frame = Vec::new(alloc);
    frame.extend_from_slice(&MAIN)?;
    frame.extend_from_slice(b"tx\0\0\0\0\0\0\0\0\0\0")?;
    frame.extend_from_slice(&(payload as u64).to_le_bytes()[..4])?;
    let bytes = vec![in alloc; 7u8; payload]?;
    let sum = Sha256::digest(Sha256::digest(bytes.as_slice()));
    frame.extend_from_slice(&sum[..4])?;
    frame.extend_from_slice(bytes.as_slice())?;
    let mut all = Vec::new(alloc);
    for _ in 0..len {
        if len.saturating_sub(all.len()) < frame.len() {
            break;
        }
        all.extend_from_slice(frame.as_slice())?;
    }
    Ok(all)
}

/// The bytes of the payloads that `next` answers.
fn taken(alloc: Global, stream: &[u8], size: usize) -> u64
    requires { 0 < size }
{
    let mut feeder = Feeder::new(alloc, MAIN);
    let mut count: u64 = 0;
    for piece in stream.chunks(size) {
        if feeder.push(piece).is_err() {
            return 0;
        }
        for _ in 0..u64::MAX {
            let Ok(Some(frame)) = feeder.next() else {
                break;
            };
            count = count.saturating_add(frame.payload.as_slice().len() as u64);
        }
    }
    count
}

/// How many bytes the payload in front has. The frame is skipped.
fn skipped(feeder: &mut Feeder) -> Option<u64> {
    let size = match feeder.front() {
        Ok(Some(frame)) => frame.payload.len() as u64,
        Ok(None) => return None,
        Err(_fault) => return None,
    };
    feeder.skip();
    Some(size)
}

/// The bytes of the payloads that `front` answers.
fn lent(alloc: Global, stream: &[u8], size: usize) -> u64
    requires { 0 < size }
{
    let mut feeder = Feeder::new(alloc, MAIN);
    let mut count: u64 = 0;
    for piece in stream.chunks(size) {
        if feeder.push(piece).is_err() {
            return 0;
        }
        for _ in 0..u64::MAX {
            let Some(payload) = skipped(&mut feeder) else {
                break;
            };
            count = count.saturating_add(payload);
        }
    }
    count
}

/// Hashes each payload twice, and copies the stream once.
fn hashed(alloc: Global, stream: &[u8], frame: usize, size: usize) -> Result<u64, AllocError>
    requires frame { 24 ≤ frame }
    requires size { 0 < size }
{
    let mut seen: u64 = 0;
    let mut copy = Vec::new(alloc);
    for piece in stream.chunks(size) {
        copy.clear();
        copy.extend_from_slice(piece)?;
        seen = seen.saturating_add(copy.len() as u64);
    }
    for bytes in stream.chunks(frame) {
        let payload = bytes.split_at(bytes.len().min(24)).1;
        let sum = Sha256::digest(Sha256::digest(payload));
        seen = seen.saturating_add(sum[0] as u64);
    }
    Ok(seen)
}

fn nanoseconds(rt: &impl Clock, start: Instant) -> io::Result<u128> {
    Ok(start.elapsed(rt)?.as_nanos())
}

fn main(rt: HostRuntime) -> io::Result<()> {
    let alloc = rt.alloc();
    for payload in [100, 4_000_000] {
        let bytes = stream(alloc, payload, 67_108_864)?;
        let bytes = bytes.as_slice();
        for size in [1000, 65_536, 67_108_864] {
            for _ in 0..2 {
                let start = Instant::now(&rt)?;
                let count = taken(alloc, bytes, size);
                let time = nanoseconds(&rt, start)?;
                println!(rt; "next {payload} {size} {time} {count}")?;
                let start = Instant::now(&rt)?;
                let count = lent(alloc, bytes, size);
                let time = nanoseconds(&rt, start)?;
                println!(rt; "front {payload} {size} {time} {count}")?;
                let start = Instant::now(&rt)?;
                let count = hashed(alloc, bytes, 24 + payload, size)?;
                let time = nanoseconds(&rt, start)?;
                println!(rt; "hash {payload} {size} {time} {count}")?;
            }
        }
    }
    for payload in [100, 1_000_000] {
        let bytes = stream(alloc, payload, 1_048_576)?;
        for _ in 0..2 {
            let start = Instant::now(&rt)?;
            let count = lent(alloc, bytes.as_slice(), 1);
            let time = nanoseconds(&rt, start)?;
            println!(rt; "bytes {payload} 1 {time} {count}")?;
        }
    }
    Ok(())
}
'''


def main():
    best = {}
    for line in lines_of(PROGRAM, USES, is_kept(__doc__)):
        name, payload, size, time = line.split()[:4]
        key = (name, int(payload), int(size))
        best[key] = min(int(time), best.get(key, int(time)))
    print("payload        piece     next    front  hashing   next / hashing  front / hashing")
    for (name, payload, size), hashing in best.items():
        if name == "hash":
            taken, lent = best["next", payload, size], best["front", payload, size]
            print(f"{payload:9,} {size:12,} {taken / 1e6:8.1f} {lent / 1e6:8.1f} {hashing / 1e6:8.1f}"
                  f" {taken / hashing:16.2f} {lent / hashing:16.2f}")
    for (name, payload, size), time in best.items():
        if name == "bytes":
            print(f"one byte at a time, payloads of {payload:,}: {time / 1_048_576:.0f} ns a byte")


main()
