#!/usr/bin/env python3
"""Times the short ids of a full input: 1,032,444 ids in lines of 65 bytes, which are all that the limit of 64 MB leaves room for.

  bench/ids.py [--keep]

`ids` takes turns with `plain`, a plain loop of the same work on the same lines: it decodes the digits of each line with the
crate hex, hashes the id, and encodes both again behind one text. Both sides are Rattle, and hash by the same crate. The row
has the best of several rounds in milliseconds, and the time over that of the plain loop. The memory is how far the first
call raised the process's peak, and beside it stands what it hands out: the bytes of the rows.

The calls are timed by a program of its own, which is laid out beside copies of the crates in a temporary folder, proved
and built there (some minutes the first time), and run.
"""
import sys

sys.dont_write_bytecode = True
from timed import is_kept, lines_of

USES = ["base_types", "id_text", "line_text", "short_ids", "hex"]
ROUNDS = 7
ROWS = 1_032_444 * 74

PROGRAM = r'''//! Times the short ids of a full input.
#![tactic(auto)]

use base_types::Hash32;
use id_text::ids_lines;
use line_text::TextLines;
use short_ids::{Keys, short_id, wtxid};
use std::alloc::{AllocError, Global};
use std::io;
use std::rt::Clock;
use std::time::Instant;

/// The lines of 1,032,444 ids, each the hash of its number.
fn input(alloc: Global) -> Result<Vec<u8>, AllocError> {
    let mut text = Vec::with_capacity(alloc, 67_108_864)?;
    for i in 0..1_032_444u64 {
        text.extend_from_slice(hex::encode(alloc, &wtxid(&i.to_le_bytes()).0)?.as_bytes())?;
        text.push(b'\n')?;
    }
    Ok(text)
}

/// The rows of the lines, in a plain loop.
fn plain(alloc: Global, text: &[u8]) -> Result<Vec<u8>, AllocError> {
    let keys = Keys::from_salts(1, 2);
    let mut rows = Vec::with_capacity(alloc, 76_400_856)?;
    for line in TextLines::of(text) {
        let mut bytes = [0; 32];
        if hex::decode_to_slice(line.bytes, &mut bytes).is_err() {
            continue;
        }
        let mut digits = [0; 64];
        let _ = hex::encode_to_slice(bytes, &mut digits);
        let mut short = [0; 8];
        let _ = hex::encode_to_slice(short_id(&keys, &Hash32(bytes)).to_be_bytes(), &mut short);
        rows.extend_from_slice(&digits)?;
        rows.push(b' ')?;
        rows.extend_from_slice(&short)?;
        rows.push(b'\n')?;
    }
    Ok(rows)
}

/// The peak of the process's memory, as the system tells it.
fn print_peak(rt: &HostRuntime, name: &str) -> io::Result<()> {
    let status = std::fs::read_to_string(rt, "/proc/self/status")?;
    for line in status.lines() {
        if line.starts_with("VmHWM:") {
            println!(rt; "peak {name} {line}")?;
        }
    }
    Ok(())
}

fn nanoseconds(rt: &impl Clock, start: Instant) -> io::Result<u128> {
    Ok(start.elapsed(rt)?.as_nanos())
}

/// The times of both, and whether they gave the same.
fn print_round(rt: &HostRuntime, text: &[u8]) -> io::Result<()> {
    let alloc = rt.alloc();
    let start = Instant::now(rt)?;
    let Ok(rows) = ids_lines(alloc, 1, 2, text) else {
        return Ok(());
    };
    println!(rt; "time ids {} {}", nanoseconds(rt, start)?, rows.len())?;
    let start = Instant::now(rt)?;
    let Ok(wanted) = plain(alloc, text) else {
        return Ok(());
    };
    println!(rt; "time plain {} {}", nanoseconds(rt, start)?, wanted.len())?;
    println!(rt; "same {}", (rows.as_slice() == wanted.as_slice()) as usize)?;
    Ok(())
}

fn main(rt: HostRuntime) -> io::Result<()> {
    let alloc = rt.alloc();
    let Ok(text) = input(alloc) else {
        return Ok(());
    };
    print_peak(&rt, "input")?;
    if let Ok(rows) = ids_lines(alloc, 1, 2, &text) {
        print_peak(&rt, "ids")?;
        println!(rt; "first {}", rows.len())?;
    }
    for _ in 0..[ROUNDS] {
        print_round(&rt, &text)?;
    }
    Ok(())
}
'''


def main():
    best, peak = {}, {}
    for line in lines_of(PROGRAM.replace("[ROUNDS]", str(ROUNDS)), USES, is_kept(__doc__)):
        words = line.split()
        if words[0] == "time":
            best[words[1]] = min(int(words[2]), best.get(words[1], int(words[2])))
        elif words[0] == "peak":
            peak[words[1]] = int(words[3]) * 1024
        elif line not in ["same 1", f"first {ROWS}"]:
            sys.exit("the rows differ")
    memory = peak["ids"] - peak["input"]
    print(f"ids {best['ids'] / 1e6:9.1f} ms  plain {best['plain'] / 1e6:9.1f} ms  {best['ids'] / best['plain']:5.2f}"
          f"  memory {memory / 1e6:6.1f} MB  handed out {ROWS / 1e6:6.1f} MB  {memory / ROWS:5.2f}")


main()
