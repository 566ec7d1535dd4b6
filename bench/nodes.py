#!/usr/bin/env python3
"""Times a node and two nodes.

  bench/nodes.py [--keep]

- `gen 10000` of the program beside the sum of its parts, which take turns: ids and short ids of what is added, three hashes
  of each transaction that is sent (the checksum of its frame at its sender and at its reader, and its id there), the power
  sums of both sets, and the decodes at capacity 1,024 and 2,048. The sums are rows of 4,096 odd powers; beside them stand
  two sets that are filled, with their maps. The script fails where the program takes more than 1.3 times the sum.
- A node that takes 269 frames of 4,000,000 bytes, whole and in pieces of 65,536 bytes, beside hashing the same bytes once.
- The handshake and a round of two nodes with 10,000 transactions of 250 bytes each, of which 1,000 differ.
- The peak memory of a node with a full pool, 50,000 transactions of 2,684 bytes, as it stands and behind its handshake. The
  script fails where it is more than twice the bytes that the pool holds.

Processor times, the best of several runs, each of a process of its own. The calls are timed by programs that are laid out
beside copies of the crates in a temporary folder, proved and built there (some minutes the first time), and run.
"""
import os, shutil, subprocess, sys, tempfile

sys.dont_write_bytecode = True
from commands import PROGRAM, build, run
from timed import is_kept, lay_out

RUNS = 5

CONFIG = r'''const MAGIC: [u8; 4] = [0xF9, 0xBE, 0xB4, 0xD9];

/// What a node of the main network is made for.
fn config_of(role: Role, salt: u64) -> Config
    ensures { IsConfig result }
{
    Config {
        magic: MAGIC,
        role,
        salt,
        nonce: 0,
        time: 0,
        top: 2,
    }
}

/// A new node with this pool.
fn node_of(alloc: Global, role: Role, salt: u64, pool: Pool) -> Result<Node, OutOfMemory> {
    Node::new(alloc, config_of(role, salt), pool)
}'''

CLOCK = r'''/// The processor time of this thread in nanoseconds.
fn now(rt: &HostRuntime) -> io::Result<u128> {
    Ok(rt.thread_cpu_time()?.as_nanos())
}

/// The processor time since then.
fn since(rt: &HostRuntime, start: u128) -> io::Result<u128> {
    Ok(now(rt)?.saturating_sub(start))
}'''

POOLS = r'''/// The transaction of a number, which these bytes follow.
fn tx_of(rt: &impl Abort, alloc: Global, number: u64, filler: &[u8]) -> Bytes
    ensures { IsTrue (is_tx_length (length result)) }
{
    let mut tx = number.to_le_bytes().to_vec(alloc).expect(rt, "memory");
    tx.extend_from_slice(filler).expect(rt, "memory");
    assert!(rt; !tx.is_empty() && tx.len() <= TX_LIMIT);
    Bytes::from_vec(tx)
}

/// The transactions of the numbers of a range. Each has these bytes behind its number.
#[derive(Drop)]
struct Numbers<'a> {
    from: u64,
    to: u64,
    filler: &'a [u8],
}

/// The pool of these transactions.
fn pool_of(rt: &impl Abort, alloc: Global, numbers: &Numbers<'_>) -> Pool {
    let mut pool = Pool::empty(alloc);
    for number in numbers.from..numbers.to {
        pool.insert(tx_of(rt, alloc, number, numbers.filler)).expect(rt, "memory");
    }
    pool
}

/// Moves what a node has to send into the other, and answers how many bytes that was.
fn pass(rt: &impl Abort, sender: &mut Node, reader: &mut Node) -> usize {
    let waiting = sender.outbox();
    let len = waiting.len();
    reader.take(waiting).expect(rt, "no end");
    sender.drain(len);
    len
}

/// Moves all that both have to send, and answers how many bytes that was.
fn settle(rt: &impl Abort, a: &mut Node, b: &mut Node) -> usize {
    let mut total: usize = 0;
    for _ in 0..16 {
        total = total.saturating_add(pass(rt, a, b));
        total = total.saturating_add(pass(rt, b, a));
    }
    total
}'''

PARTS = r'''//! Times the parts of a generated simulation.
#![tactic(auto)]

use base_types::Hash32;
use clmul_lanes::Lane32;
use field_core::Field;
use pair_rules::Event;
use pool_rules::POOL_LIMIT;
use recon_set::ReconSet;
use script_text::generated_script;
use short_ids::{Keys, short_id, wtxid};
use sketch_core::{Decoded, Sketch};
use sketch_rules::MAX_CAPACITY;
use std::alloc::{AllocError, Global};
use std::io;
use std::time::CpuClock;
use trace_roots::decode;

/// The transaction that an event adds.
fn tx_of(event: &Event) -> &[u8] {
    match event {
        Event::AddA(tx) | Event::AddB(tx) => tx.as_slice(),
        _ => &[],
    }
}

/// Whether an event adds to the opener's pool.
fn is_of_a(event: &Event) -> bool {
    matches!(event, Event::AddA(_))
}

/// The id and the short id of each transaction that is added to one side.
fn pairs_of(alloc: Global, events: &[Event], of_a: bool) -> Result<Vec<(Hash32, u32)>, AllocError> {
    let keys = Keys::from_salts(1, 2);
    let mut pairs = Vec::new(alloc);
    for event in events {
        let tx = tx_of(event);
        if !tx.is_empty() && is_of_a(event) == of_a {
            let id = wtxid(tx);
            pairs.push((id, short_id(&keys, &id)))?;
        }
    }
    Ok(pairs)
}

/// Hashes so many of the transactions three times each, as their sender and their reader do.
fn hashes(events: &[Event], count: usize) -> u64 {
    let mut seen: u64 = 0;
    for event in events.iter().take(count) {
        for _ in 0..3 {
            seen = seen.saturating_add(u64::from(wtxid(tx_of(event)).0[0]));
        }
    }
    seen
}

/// Adds a row of odd powers to the sums for each short id.
fn add_rows(sums: &mut [Lane32], pairs: &[(Hash32, u32)]) {
    for (_, short) in pairs {
        Lane32::odd_powers_into(sums, Lane32::from_bits(u64::from(*short)));
    }
}

/// How many ids a set has to which these are added.
fn filled(alloc: Global, pairs: &[(Hash32, u32)]) -> usize {
    let mut set = ReconSet::<Lane32>::empty(alloc);
    for (id, short) in pairs {
        if 0 < *short && set.len() < POOL_LIMIT && !set.contains(id) {
            let _ = set.add(*id, *short);
        }
    }
    set.len()
}

/// The sketch of these sums.
fn sketch_of(alloc: Global, sums: &[Lane32]) -> Option<Sketch<Lane32>> {
    let items = sums.to_vec(alloc).ok()?;
    if items.len() < 1 || MAX_CAPACITY < items.len() {
        return None;
    }
    Some(Sketch::from_sums(items))
}

/// How many elements the sums at this capacity are decoded to.
fn decoded(alloc: Global, sums: &[Lane32], capacity: usize) -> usize {
    let Some(front) = sums.get(..capacity) else {
        return 0;
    };
    let Some(sketch) = sketch_of(alloc, front) else {
        return 0;
    };
    match decode(alloc, &sketch) {
        Ok(Decoded::Found(elements)) => elements.as_slice().len(),
        _ => 0,
    }
}

[CLOCK]

/// The times of both decodes.
fn print_decodes(rt: &HostRuntime, sums: &[Lane32]) -> io::Result<()> {
    for capacity in [1024, 2048] {
        let start = now(rt)?;
        let count = decoded(rt.alloc(), sums, capacity);
        println!(rt; "decode_{capacity} {} {count}", since(rt, start)?)?;
    }
    Ok(())
}

/// The times of the sums, as rows alone and as those of sets.
fn print_sums(rt: &HostRuntime, a: &[(Hash32, u32)], b: &[(Hash32, u32)]) -> io::Result<()> {
    let mut sums = vec![in rt.alloc(); Lane32::ZERO; 4096]?;
    let start = now(rt)?;
    add_rows(sums.as_mut_slice(), a);
    add_rows(sums.as_mut_slice(), b);
    println!(rt; "rows {} {}", since(rt, start)?, a.len().saturating_add(b.len()))?;
    let start = now(rt)?;
    let count = filled(rt.alloc(), a).saturating_add(filled(rt.alloc(), b));
    println!(rt; "sets {} {count}", since(rt, start)?)?;
    print_decodes(rt, sums.as_slice())
}

/// The time of all hashes of the transactions that are sent.
fn print_hashes(rt: &HostRuntime, events: &[Event]) -> io::Result<()> {
    let start = now(rt)?;
    let seen = hashes(events, 1_250);
    println!(rt; "hashes {} {seen}", since(rt, start)?)
}

fn main(rt: HostRuntime) -> io::Result<()> {
    let Ok(events) = generated_script(rt.alloc(), 10_000) else {
        return Ok(());
    };
    let start = now(&rt)?;
    let a = pairs_of(rt.alloc(), events.as_slice(), true)?;
    let b = pairs_of(rt.alloc(), events.as_slice(), false)?;
    println!(rt; "ids {} {}", since(&rt, start)?, a.len().saturating_add(b.len()))?;
    print_hashes(&rt, events.as_slice())?;
    print_sums(&rt, a.as_slice(), b.as_slice())
}
'''

FRAMES = r'''//! Times a node that takes frames of another command.
#![tactic(auto)]

ghost use Rattle.std.specs.Prelude.{◌<◌};
ghost use Rattle.node_rules.specs.Invariant.{IsConfig};

use base_types::OutOfMemory;
use node_rules::{Config, Role};
use relay_node::Node;
use short_ids::wtxid;
use std::alloc::{AllocError, Global};
use std::io;
use std::time::CpuClock;
use tx_pool::Pool;

[CONFIG]

[CLOCK]

/// A frame with this payload.
fn frame_of(alloc: Global, payload: &[u8]) -> Result<Vec<u8>, AllocError> {
    let mut frame = Vec::new(alloc);
    frame.extend_from_slice(&MAGIC)?;
    frame.extend_from_slice(b"feefilter\0\0\0")?;
    frame.extend_from_slice(&(payload.len() as u64).to_le_bytes()[..4])?;
    frame.extend_from_slice(&wtxid(payload).0[..4])?;
    frame.extend_from_slice(payload)?;
    Ok(frame)
}

/// How many copies of a frame the node takes, in pieces of at most so many bytes.
fn taken(node: &mut Node, frame: &[u8], size: usize) -> usize
    requires { 0 < size }
{
    let mut count: usize = 0;
    for _ in 0..269 {
        for piece in frame.chunks(size) {
            if node.take(piece).is_err() {
                return count;
            }
        }
        count = count.saturating_add(1);
    }
    count
}

/// Hashes a payload as often.
fn hashed(payload: &[u8]) -> u64 {
    let mut seen: u64 = 0;
    for _ in 0..269 {
        seen = seen.saturating_add(u64::from(wtxid(payload).0[0]));
    }
    seen
}

/// The time of the hashes.
fn print_hashes(rt: &HostRuntime, payload: &[u8]) -> io::Result<()> {
    let start = now(rt)?;
    let seen = hashed(payload);
    println!(rt; "hash {} {seen}", since(rt, start)?)
}

/// The time of the frames at a new node, in pieces of at most so many bytes.
fn print_frames(rt: &HostRuntime, frame: &[u8], size: usize) -> io::Result<()>
    requires { 0 < size }
{
    let Ok(mut node) = node_of(rt.alloc(), Role::Accepter, 2, Pool::empty(rt.alloc())) else {
        return Ok(());
    };
    let start = now(rt)?;
    let count = taken(&mut node, frame, size);
    println!(rt; "take_{size} {} {count}", since(rt, start)?)
}

fn main(rt: HostRuntime) -> io::Result<()> {
    let payload = vec![in rt.alloc(); 7u8; 4_000_000]?;
    let frame = frame_of(rt.alloc(), payload.as_slice())?;
    print_hashes(&rt, payload.as_slice())?;
    print_frames(&rt, frame.as_slice(), 4_000_024)?;
    print_frames(&rt, frame.as_slice(), 65_536)
}
'''

ROUND = r'''//! Times a round of two nodes.
#![tactic(auto)]

ghost use Rattle.std.specs.Prelude.{length, IsTrue};
ghost use Rattle.id_rules.specs.Bytes.{is_tx_length};
ghost use Rattle.node_rules.specs.Invariant.{IsConfig};

use base_types::{Bytes, OutOfMemory};
use id_rules::TX_LIMIT;
use node_rules::{Config, Role};
use relay_node::Node;
use std::alloc::Global;
use std::io;
use std::process::Abort;
use std::time::CpuClock;
use tx_pool::Pool;

[CONFIG]

[CLOCK]

[POOLS]

/// The time of the handshake, and how many bytes are sent in it.
fn print_handshake(rt: &HostRuntime, stop: &impl Abort, a: &mut Node, b: &mut Node) -> io::Result<()> {
    let start = now(rt)?;
    let bytes = settle(stop, a, b);
    println!(rt; "handshake {} {bytes}", since(rt, start)?)
}

/// The time of a round, and how many bytes are sent in it.
fn print_round(rt: &HostRuntime, stop: &impl Abort, a: &mut Node, b: &mut Node) -> io::Result<()> {
    let start = now(rt)?;
    let begun = a.begin_round().expect(stop, "memory");
    let bytes = settle(stop, a, b);
    println!(rt; "round {} {bytes}", since(rt, start)?)?;
    println!(rt; "begun {} 0", begun as usize)
}

/// How many transactions a node has, and how many short ids its last round differed in.
fn print_end(rt: &HostRuntime, node: &Node) -> io::Result<()> {
    for report in node.reports() {
        println!(rt; "answered {} {}", report.capacity, report.answered.as_slice().len())?;
    }
    println!(rt; "pool {} 0", node.pool().len())
}

/// The times of both, and what they have behind the round.
fn print_times(rt: &HostRuntime, stop: &impl Abort, a: &mut Node, b: &mut Node) -> io::Result<()> {
    print_handshake(rt, stop, a, b)?;
    print_round(rt, stop, a, b)?;
    print_end(rt, a)?;
    print_end(rt, b)
}

/// A node with 10,000 transactions of so many bytes and 8, from a number on.
fn node_from(rt: &impl Abort, alloc: Global, role: Role, from: u64, len: usize) -> Node {
    let filler = vec![in alloc; 7u8; len].expect(rt, "memory");
    let numbers = Numbers {
        from,
        to: from.saturating_add(10_000),
        filler: filler.as_slice(),
    };
    let pool = pool_of(rt, alloc, &numbers);
    node_of(alloc, role, from, pool).expect(rt, "memory")
}

fn main(rt: HostRuntime) -> io::Result<()> {
    let mut a = node_from(&rt, rt.alloc(), Role::Opener, 0, 242);
    let mut b = node_from(&rt, rt.alloc(), Role::Accepter, 500, 242);
    print_times(&rt, &rt, &mut a, &mut b)
}
'''

POOL = r'''//! Tells the memory of a node with a full pool.
#![tactic(auto)]

ghost use Rattle.std.specs.Prelude.{length, IsTrue};
ghost use Rattle.id_rules.specs.Bytes.{is_tx_length};
ghost use Rattle.node_rules.specs.Invariant.{IsConfig};

use base_types::{Bytes, OutOfMemory};
use id_rules::TX_LIMIT;
use node_rules::{Config, Role};
use relay_node::Node;
use std::alloc::Global;
use std::io;
use std::process::Abort;
use tx_pool::Pool;

[CONFIG]

[POOLS]

/// The peak of the process's memory, as the system tells it.
fn print_peak(rt: &HostRuntime, name: &str) -> io::Result<()> {
    let status = std::fs::read_to_string(rt, "/proc/self/status")?;
    for line in status.lines() {
        if line.starts_with("VmHWM:") {
            println!(rt; "peak {name} {line}")?;
        }
    }
    Ok(())
}

/// The memory behind the handshake with a node that has no transaction, and how many bytes are sent in it.
fn print_handshake(rt: &HostRuntime, stop: &impl Abort, a: &mut Node, b: &mut Node) -> io::Result<()> {
    let bytes = settle(stop, a, b);
    print_peak(rt, "handshake")?;
    println!(rt; "sent {bytes} {}", a.pool().byte_len())
}

/// The memory of the first node, before the handshake and behind it.
fn print_memory(rt: &HostRuntime, stop: &impl Abort, a: &mut Node, b: &mut Node) -> io::Result<()> {
    print_peak(rt, "node")?;
    print_handshake(rt, stop, a, b)
}

/// A node with so many transactions of so many bytes and 8.
fn node_with(rt: &impl Abort, alloc: Global, role: Role, count: u64, len: usize) -> Node {
    let filler = vec![in alloc; 7u8; len].expect(rt, "memory");
    let numbers = Numbers {
        from: 0,
        to: count,
        filler: filler.as_slice(),
    };
    let pool = pool_of(rt, alloc, &numbers);
    node_of(alloc, role, count, pool).expect(rt, "memory")
}

fn main(rt: HostRuntime) -> io::Result<()> {
    print_peak(&rt, "start")?;
    let mut a = node_with(&rt, rt.alloc(), Role::Opener, 50_000, 2_676);
    let mut b = node_with(&rt, rt.alloc(), Role::Accepter, 0, 0);
    print_memory(&rt, &rt, &mut a, &mut b)
}
'''

USES = {
    "parts": ["base_types", "clmul_lanes", "field_core", "sketch_rules", "sketch_core", "trace_roots", "pair_rules",
              "pool_rules", "recon_set", "script_text", "short_ids"],
    "frames": ["base_types", "node_rules", "relay_node", "short_ids", "tx_pool"],
    "round": ["base_types", "id_rules", "node_rules", "pool_rules", "relay_node", "tx_pool"],
    "pool": ["base_types", "id_rules", "node_rules", "relay_node", "tx_pool"],
}
PROGRAMS = {"parts": PARTS, "frames": FRAMES, "round": ROUND, "pool": POOL}


def filled(program):
    """The program with the pieces that several have."""
    for name, text in [("[CONFIG]", CONFIG), ("[CLOCK]", CLOCK), ("[POOLS]", POOLS)]:
        program = program.replace(name, text)
    return program


def command(folder, name):
    """Proves and builds a program, and answers the command that runs it."""
    crate = os.path.join(folder, "crates", name)
    ran = subprocess.run(["rt", "run"], cwd=crate, stdin=subprocess.DEVNULL, stdout=subprocess.PIPE,
                         stderr=subprocess.PIPE, text=True)
    if ran.returncode != 0:
        sys.exit(ran.stdout + ran.stderr)
    return [os.path.join(crate, "out", name)]


def rows_of(command):
    """What a program writes: by its first word the numbers of its last line with it."""
    rows = {}
    for line in run(command, os.devnull)[1].decode().splitlines():
        rows[line.split()[0]] = line.split()[1:]
    return rows


def best_of(command, best):
    """The least times so far, and all rows of this run."""
    rows = rows_of(command)
    for name, words in rows.items():
        best[name] = min(int(words[0]), best.get(name, int(words[0])))
    return rows


def print_parts(parts):
    best = {}
    for _ in range(RUNS):
        seconds, _ = run([PROGRAM, "gen", "10000"], os.devnull)
        best["gen"] = min(int(seconds * 1e9), best.get("gen", int(seconds * 1e9)))
        rows = best_of(parts, best)
    if rows["decode_1024"][1] != "0" or rows["decode_2048"][1] == "0":
        sys.exit("the decodes are not those of the round")
    names = ["ids", "hashes", "rows", "decode_1024", "decode_2048"]
    total = sum(best[name] for name in names)
    for name in names + ["sets"]:
        print(f"{name:12} {best[name] / 1e6:9.1f} ms  of {rows[name][1]}")
    print(f"gen 10000    {best['gen'] / 1e6:9.1f} ms  parts {total / 1e6:9.1f} ms  {best['gen'] / total:5.2f}"
          f"  with filled sets {(total - best['rows'] + best['sets']) / 1e6:9.1f} ms")
    if best["gen"] > 1.3 * total:
        sys.exit("more than 1.3 times the sum of the parts")


def print_frames(frames):
    best = {}
    for _ in range(RUNS):
        rows = best_of(frames, best)
    for name in ["take_4000024", "take_65536"]:
        if rows[name][1] != "269":
            sys.exit(f"the node took {rows[name][1]} frames")
        print(f"{name:12} {best[name] / 1e6:9.1f} ms  hashing {best['hash'] / 1e6:9.1f} ms  {best[name] / best['hash']:5.2f}")


def print_round(rounds):
    best = {}
    for _ in range(RUNS):
        rows = best_of(rounds, best)
    if rows["begun"][0] != "1" or rows["pool"][0] != "10500" or rows["answered"][1] == "0":
        sys.exit("the round was not what it is to be")
    for name in ["handshake", "round"]:
        print(f"{name:12} {best[name] / 1e6:9.1f} ms  {rows[name][1]} bytes")


def print_pool(pool):
    lines = run(pool, os.devnull)[1].decode().splitlines()
    peaks = {line.split()[1]: int(line.split()[3]) * 1024 for line in lines if line.startswith("peak")}
    held = int(next(line for line in lines if line.startswith("sent")).split()[2])
    for name in ["node", "handshake"]:
        memory = peaks[name] - peaks["start"]
        print(f"{name:12} memory {memory / 1e6:6.1f} MB  transactions {held / 1e6:6.1f} MB  {memory / held:5.2f}")
        if memory > 2 * held:
            sys.exit("more than twice what the pool holds")


def main():
    keep = is_kept(__doc__)
    build()
    folder = tempfile.mkdtemp(prefix="erlay-bench-")
    try:
        lay_out(folder, {name: (filled(program), USES[name]) for name, program in PROGRAMS.items()})
        commands = {name: command(folder, name) for name in PROGRAMS}
        print_parts(commands["parts"])
        print_frames(commands["frames"])
        print_round(commands["round"])
        print_pool(commands["pool"])
    finally:
        if keep:
            print(folder)
        else:
            shutil.rmtree(folder)


main()
