#!/usr/bin/env python3
"""Times `show` and `pack` over streams of 67,108,864 bytes, of small frames and of frames of 4,000,000 bytes.

  bench/messages.py [--keep]

`shown_text` makes the lines of a stream, and `packed_frames` the stream of these lines again. They take turns with
plain loops of the same work on the same payloads: each is hashed twice, its digits are written and read by the crate
hex, and digits and bytes are copied behind those before. All is Rattle, and hashes by the same crate. A row has the best
of several rounds in milliseconds, and the time over that of the plain loops. Beside them stands how far the process's
peak memory was raised, over the bytes of the stream and of its lines.

The calls are timed by a program of its own, which is laid out beside copies of the crates in a temporary folder, proved
and built there (some minutes the first time), and run.
"""
import sys

sys.dont_write_bytecode = True
from timed import is_kept, lines_of

USES = ["line_text", "stream_text", "hex", "sha2"]
ROUNDS = 3

PROGRAM = r'''//! Times the lines of a stream, and the stream of lines.
#![tactic(auto)]

ghost use Rattle.std.specs.Prelude.{◌<◌};

use sha2::{Digest, Sha256};
use std::alloc::{AllocError, Global};
use std::io;
use std::rt::Clock;
use std::time::Instant;
use stream_text::{packed_frames, shown_text};

/// Copies of a frame with a payload of so many bytes, and how many bytes a frame has.
fn stream(alloc: Global, payload: usize, len: usize) -> Result<Vec<u8>, AllocError> {
    let mut frame = Vec::new(alloc);
    frame.extend_from_slice(b"\xf9\xbe\xb4\xd9tx\0\0\0\0\0\0\0\0\0\0")?;
    frame.extend_from_slice(&(payload as u64).to_le_bytes()[..4])?;
    let mut bytes = Vec::with_capacity(alloc, payload)?;
    let mut bits = 0x1234_5679u32;
    for _ in 0..payload {
        bits = bits.wrapping_mul(1_664_525).wrapping_add(1_013_904_223);
        bytes.push((bits >> 24) as u8)?;
    }
    let sum = Sha256::digest(Sha256::digest(bytes.as_slice()));
    frame.extend_from_slice(&sum[..4])?;
    frame.extend_from_slice(bytes.as_slice())?;
    let mut all = Vec::new(alloc);
    for _ in 0..len {
        if len.saturating_sub(all.len()) < frame.len() {
            break;
        }
        all.extend_from_slice(frame.as_slice())?;
    }
    Ok(all)
}

/// Hashes each payload twice, writes and reads its digits, and copies both.
fn plain(alloc: Global, stream: &[u8], frame: usize) -> Result<usize, AllocError>
    requires { 0 < frame }
{
    let mut text = Vec::new(alloc);
    let mut back = Vec::new(alloc);
    for bytes in stream.chunks(frame) {
        let (header, payload) = bytes.split_at(bytes.len().min(24));
        let sum = Sha256::digest(Sha256::digest(payload));
        let digits = hex::encode(alloc, payload)?;
        text.extend_from_slice(digits.as_bytes())?;
        text.push(sum[0])?;
        let Ok(read) = hex::decode(alloc, digits.as_bytes()) else {
            return Err(AllocError);
        };
        back.extend_from_slice(header)?;
        back.extend_from_slice(read.as_slice())?;
    }
    Ok(text.len().saturating_add(back.len()))
}

/// The peak of the process's memory, as the system tells it.
fn print_peak(rt: &HostRuntime, name: &str, payload: usize) -> io::Result<()> {
    let status = std::fs::read_to_string(rt, "/proc/self/status")?;
    for line in status.lines() {
        if line.starts_with("VmHWM:") {
            println!(rt; "peak {name} {payload} {line}")?;
        }
    }
    Ok(())
}

fn nanoseconds(rt: &impl Clock, start: Instant) -> io::Result<u128> {
    Ok(start.elapsed(rt)?.as_nanos())
}

/// The times of the three over one stream.
fn print_round(rt: &HostRuntime, bytes: &[u8], payload: usize) -> io::Result<()> {
    let alloc = rt.alloc();
    let start = Instant::now(rt)?;
    let Ok(text) = shown_text(alloc, bytes) else {
        return println!(rt; "no lines");
    };
    println!(rt; "time show {payload} {} {}", nanoseconds(rt, start)?, text.len())?;
    print_peak(rt, "show", payload)?;
    let start = Instant::now(rt)?;
    let Ok(frames) = packed_frames(alloc, &text) else {
        return println!(rt; "no frames");
    };
    println!(rt; "time pack {payload} {} {}", nanoseconds(rt, start)?, frames.len())?;
    print_peak(rt, "pack", payload)?;
    println!(rt; "same {payload} {}", frames.as_slice() == bytes)?;
    Ok(())
}

fn main(rt: HostRuntime) -> io::Result<()> {
    let alloc = rt.alloc();
    for payload in [8usize, 100, 4_000_000] {
        let bytes = stream(alloc, payload, 67_108_864)?;
        println!(rt; "bytes {payload} {}", bytes.len())?;
        for _ in 0..ROUNDS {
            print_round(&rt, &bytes, payload)?;
            let start = Instant::now(&rt)?;
            let count = plain(alloc, &bytes, 24 + payload)?;
            println!(rt; "time plain {payload} {} {count}", nanoseconds(&rt, start)?)?;
        }
    }
    Ok(())
}
'''


def main():
    best, size, peak = {}, {}, {}
    for line in lines_of(PROGRAM.replace("ROUNDS", str(ROUNDS)), USES, is_kept(__doc__)):
        kind, *words = line.split()
        if kind == "time":
            name, payload, time, count = words[:4]
            key = name, int(payload)
            best[key] = min(int(time), best.get(key, int(time)))
            size[key] = int(count)
        elif kind == "peak":
            peak.setdefault((words[0], int(words[1])), int(words[3]))
        elif kind == "bytes":
            size["bytes", int(words[0])] = int(words[1])
        else:
            print(line)
    print("payload         stream        lines   show, ms   pack, ms  plain, ms  show / plain  pack / plain")
    for name, payload in [key for key in best if key[0] == "plain"]:
        show, pack, plain = (best[call, payload] for call in ("show", "pack", "plain"))
        print(f"{payload:9,} {size['bytes', payload]:12,} {size['show', payload]:12,} {show / 1e6:10.0f} {pack / 1e6:10.0f}"
              f" {plain / 1e6:10.0f} {show / plain:13.2f} {pack / plain:13.2f}")
    for (name, payload), kilobytes in peak.items():
        print(f"peak behind the first {name} at payloads of {payload:,}: {kilobytes / 1000:.0f} MB")


main()
