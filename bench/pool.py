#!/usr/bin/env python3
"""Times the reading and the writing of a full pool file: 50,000 transactions of 134,217,728 bytes together.

  bench/pool.py [--keep]

`load` and `save_text` take turns with plain loops of the same work on the same lines: `read` decodes the digits of each
line with the crate hex, hashes the transaction and keeps a copy of it; `write` encodes each transaction and copies the
digits behind one text. Both sides are Rattle, and hash by the same crate. A row has the best of several rounds in
milliseconds, and the time over that of the plain loop. The memory of a call is how far it raised the process's peak, and
beside it stands what it hands out: the bytes of all transactions, or of the text.

The calls are timed by a program of its own, which is laid out beside copies of the crates in a temporary folder, proved
and built there (some minutes the first time), and run.
"""
import sys

sys.dont_write_bytecode = True
from timed import is_kept, lines_of

USES = ["base_types", "id_rules", "line_text", "short_ids", "tx_pool", "hex"]
ROUNDS = 5

PROGRAM = r'''//! Times the reading and the writing of a full pool file.
#![tactic(auto)]

use base_types::Bytes;
use id_rules::TX_LIMIT;
use line_text::TextLines;
use short_ids::wtxid;
use std::alloc::{AllocError, Global};
use std::io;
use std::rt::Clock;
use std::time::Instant;
use tx_pool::Pool;

/// The lines of 50,000 transactions, each of its number and bytes by a linear congruence, behind their heading.
fn file(alloc: Global) -> Result<Vec<u8>, AllocError> {
    let mut text = Vec::with_capacity(alloc, 271_735_469)?;
    text.extend_from_slice(b"pool 2 50000\n")?;
    let mut bits = 0x1234_5679u32;
    for i in 0..50_000u64 {
        let mut tx = Vec::from_slice(alloc, &i.to_le_bytes())?;
        let len = if i < 17_728 { 2_677 } else { 2_676 };
        for _ in 0..len {
            bits = bits.wrapping_mul(1_664_525).wrapping_add(1_013_904_223);
            tx.push((bits >> 24) as u8)?;
        }
        text.extend_from_slice(hex::encode(alloc, &wtxid(&tx).0)?.as_bytes())?;
        text.push(b' ')?;
        text.extend_from_slice(hex::encode(alloc, &tx)?.as_bytes())?;
        text.push(b'\n')?;
    }
    Ok(text)
}

/// The transactions of the lines that are as long as such lines are, in plain loops.
fn read(alloc: Global, text: &[u8]) -> Result<Vec<Vec<u8>>, AllocError> {
    let mut kept = Vec::new(alloc);
    for line in TextLines::of(text) {
        let Some((id, behind)) = line.bytes.split_at_checked(64) else {
            continue;
        };
        let Some((_, digits)) = behind.split_at_checked(1) else {
            continue;
        };
        let (Ok(id), Ok(tx)) = (hex::decode(alloc, id), hex::decode(alloc, digits)) else {
            continue;
        };
        if wtxid(&tx).0.as_slice() == id.as_slice() {
            kept.push(Vec::from_slice(alloc, &tx)?)?;
        }
    }
    Ok(kept)
}

/// The digits of the transactions, behind one another.
fn write(alloc: Global, transactions: &[Vec<u8>]) -> Result<Vec<u8>, AllocError> {
    let mut text = Vec::with_capacity(alloc, 271_735_469)?;
    for tx in transactions {
        text.extend_from_slice(hex::encode(alloc, tx)?.as_bytes())?;
    }
    Ok(text)
}

/// What the pool, which is at both limits, answers to a new transaction of one byte, and to the first of its own.
fn print_answers(rt: &HostRuntime, pool: &mut Pool) -> io::Result<()> {
    let alloc = rt.alloc();
    let Ok(ids) = pool.ids() else {
        return Ok(());
    };
    for id in ids.as_slice().iter().take(1) {
        let own = match pool.get(id) {
            Some(tx) => Vec::from_slice(alloc, tx)?,
            None => Vec::new(alloc),
        };
        for tx in [Vec::from_slice(alloc, b"x")?, own] {
            if !tx.is_empty() && tx.len() <= TX_LIMIT {
                if let Ok(inserted) = pool.insert(Bytes::from_vec(tx)) {
                    println!(rt; "answer {inserted:?}")?;
                }
            }
        }
    }
    Ok(())
}

/// The peak of the process's memory, as the system tells it.
fn print_peak(rt: &HostRuntime, name: &str) -> io::Result<()> {
    let status = std::fs::read_to_string(rt, "/proc/self/status")?;
    for line in status.lines() {
        if line.starts_with("VmHWM:") {
            println!(rt; "peak {name} {line}")?;
        }
    }
    Ok(())
}

fn nanoseconds(rt: &impl Clock, start: Instant) -> io::Result<u128> {
    Ok(start.elapsed(rt)?.as_nanos())
}

/// The times of the four, and how much each gave.
fn print_round(rt: &HostRuntime, text: &[u8]) -> io::Result<()> {
    let alloc = rt.alloc();
    let start = Instant::now(rt)?;
    let Ok(pool) = Pool::load(alloc, text) else {
        return Ok(());
    };
    println!(rt; "time load {} {}", nanoseconds(rt, start)?, pool.len())?;
    let start = Instant::now(rt)?;
    let saved = pool.save_text();
    println!(rt; "time save_text {} {}", nanoseconds(rt, start)?, saved.is_ok() as usize)?;
    let start = Instant::now(rt)?;
    let Ok(kept) = read(alloc, text) else {
        return Ok(());
    };
    println!(rt; "time read {} {}", nanoseconds(rt, start)?, kept.len())?;
    let start = Instant::now(rt)?;
    let written = write(alloc, kept.as_slice());
    println!(rt; "time write {} {}", nanoseconds(rt, start)?, written.is_ok() as usize)?;
    Ok(())
}

fn main(rt: HostRuntime) -> io::Result<()> {
    let alloc = rt.alloc();
    let Ok(text) = file(alloc) else {
        return Ok(());
    };
    print_peak(&rt, "file")?;
    if let Ok(mut pool) = Pool::load(alloc, &text) {
        print_peak(&rt, "load")?;
        if let Ok(saved) = pool.save_text() {
            print_peak(&rt, "save_text")?;
            println!(rt; "same {} {}", (saved.as_slice() == text.as_slice()) as usize, pool.byte_len())?;
        }
        print_answers(&rt, &mut pool)?;
    }
    for _ in 0..[ROUNDS] {
        print_round(&rt, &text)?;
    }
    Ok(())
}
'''

HELD = {"load": 134_217_728, "save_text": 271_735_469}
PLAIN = {"load": "read", "save_text": "write"}


def main():
    best, peak, before, answers = {}, {}, None, []
    for line in lines_of(PROGRAM.replace("[ROUNDS]", str(ROUNDS)), USES, is_kept(__doc__)):
        words = line.split()
        if words[0] == "time":
            best[words[1]] = min(int(words[2]), best.get(words[1], int(words[2])))
        elif words[0] == "peak":
            now = int(words[3]) * 1024
            peak[words[1]] = now - (now if before is None else before)
            before = now
        elif words[0] == "answer":
            answers.append(words[1])
        elif words[1:] != ["1", "134217728"]:
            sys.exit("what was saved is not what was loaded")
    if answers != ["Full", "Present"]:
        sys.exit("a full pool takes a transaction")
    for name, plain in PLAIN.items():
        print(f"{name:9} {best[name] / 1e6:9.1f} ms  {plain:5} {best[plain] / 1e6:9.1f} ms  {best[name] / best[plain]:5.2f}"
              f"  memory {peak[name] / 1e6:6.1f} MB  handed out {HELD[name] / 1e6:6.1f} MB  {peak[name] / HELD[name]:5.2f}")


main()
