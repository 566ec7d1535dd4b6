#!/usr/bin/env python3
"""Makes one rule or promise of the protocol wrong at a time, and shows that a law of two nodes no longer has a proof.

  bench/wrong_rules.py [--only WORD] [--promises] [--keep]

Each row changes one definition in a copy of the crates in a temporary folder, where worked examples are left out, so that
laws alone judge: a rule of `node_rules`, or a promise of `pair_rules`, which then says what isn't so. Then the crates of
laws are checked, lowest first, up to the first one that fails. A row has the rule or promise as it is made wrong, the crate
whose proofs fail first, and the first lemma that does. A row that no crate refuses is marked, and the script ends with 1.

It takes about a minute a row, and is no part of the gate: the gate's edits change a crate's own files alone.
"""
import os, re, shutil, subprocess, sys, tempfile

TOP = os.path.dirname(os.path.dirname(os.path.abspath(__file__)))
LAWS = ["node_laws", "invariant_laws", "pair_invariant_laws", "headline_laws", "pair_end_laws", "pair_bound_laws"]
# proofs that are worked examples, by crate
EXAMPLES = {
    "node_rules": ["HandshakeExamples", "RoundExamples", "WantExamples"],
    "pair_rules": ["RoundExample", "TwoRounds"],
    "headline_laws": ["Examples"],
    "pair_bound_laws": ["Examples"],
}

# what is wrong, the file of node_rules/specs, what stands there, and what stands there instead
RULES = [
    ("the accepter keeps its set when a round takes it", "Steps",
     "name.ReqRecon s [] (accepter_reqrecon", "name.ReqRecon s s.set (accepter_reqrecon"),
    ("the opener keeps its set when a round takes it", "Opener",
     "remaining_set zero set = []", "remaining_set zero set = set"),
    ("what is wanted stays wanted at the pong", "Barrier",
     "record s.wants { wanted = []; asked", "record s.wants { wanted = s.wants.wanted; asked"),
    ("what is set aside isn't announced", "Outcomes",
     "filter (λ m. not (is_single snapshot m.short) || is_in shorts m.short) snapshot",
     "filter (λ m. is_in shorts m.short) snapshot"),
    ("a round that fell back is reported as answered", "Opener",
     "report_of r ending.Fallback []", "report_of r ending.First []"),
    ("the second extension is sent for the first", "Accepter",
     "snapshot_sums r.snapshot (capacity_after r.capacity n) (capacity_after r.capacity n)",
     "snapshot_sums r.snapshot (capacity_after r.capacity (suc n)) (capacity_after r.capacity n)"),
    ("a served id is served again", "Inventory",
     "serving_by (is_tx_entry e && not (is_listed v.served e.id))", "serving_by (is_tx_entry e)"),
    ("an addition that is asked for goes into the set", "Additions",
     "after_addition_by true past plain s id = unchanged s",
     "after_addition_by true past plain s id = unchanged (with_member s id)"),
    ("PoolFull is judged one late", "Inventory",
     "nat_lt POOL_LIMIT (taken_room s + length", "nat_lt (POOL_LIMIT + 1) (taken_room s + length"),
    ("an announcement that is known is asked for again", "Inventory",
     "unknown_ids s es = new_ids (is_known s) (wtxids_of es)",
     "unknown_ids s es = new_ids (is_in_pool s.pool) (wtxids_of es)"),
    ("the pong has another number", "Steps",
     "turn_with s (message.Pong n ∷ [])", "turn_with s (message.Pong (suc n) ∷ [])"),
    ("the level is a node's own highest", "Handshake",
     "level_of top (Some offer) = min top offer.version", "level_of top (Some offer) = top"),
    ("one extension more than the level allows is asked for", "Opener",
     "nat_lt n (extensions_allowed m)", "nat_le n (extensions_allowed m)"),
    ("fetching ends with the first transaction", "Inventory",
     "phase = phase_after_fetch asked s.machine.phase", "phase = phase_after_fetch [] s.machine.phase"),
    ("an accepter keeps what is announced until a pong", "Inventory",
     "turn_with (with_asked s set (s.wants.asked ++ ids)) (getdata_of ids)",
     "unchanged (with_wanted s set (s.wants.wanted ++ ids))"),
    ("the accepter reports what it wasn't asked for", "Accepter",
     "report_of m.round (ending_of success n) asks", "report_of m.round (ending_of success n) []"),
    ("the opener announces before it tells the difference", "Opener",
     "out = message.ReconcilDiff false [] ∷ (inv_of (ids_of r.snapshot) ++ message.Ping i.requests.begun ∷ []);",
     "out = inv_of (ids_of r.snapshot) ++ message.ReconcilDiff false [] ∷ message.Ping i.requests.begun ∷ [];"),
    ("no ping stands behind a round that fell back", "Opener",
     "out = message.ReconcilDiff false [] ∷ (inv_of (ids_of r.snapshot) ++ message.Ping i.requests.begun ∷ []);",
     "out = message.ReconcilDiff false [] ∷ inv_of (ids_of r.snapshot);"),
]

# the same for promises, in pair_rules/specs: at least one of each law
PROMISES = [
    ("a difference fits that only the last sketch of a round could hold", "Rounds",
     "capacity_by (Some n) c = capacity_after c n", "capacity_by (Some n) c = capacity_after c 2"),
    ("what a pool gained was added at the other node, or is in its pool", "Gains",
     "(additions_to_a script) new.b.pool", "(additions_to_b script) new.b.pool"),
    ("an accepter ends for want of room alone", "Ends",
     "(e ≡ end.PoolFull) ⊎ ((short : ℕ) × (e ≡ end.UnknownShortId short) × HasWrongAnswer a b)", "e ≡ end.PoolFull"),
    ("a side announces nothing of a round that fell back", "Rounds",
     "announced_by None keys r = r.snapshot", "announced_by None keys r = []"),
    ("an accepter has made its report as soon as the opener has", "Reports",
     "few : length coming ≤ 1", "few : length coming ≤ 0"),
    ("a round takes at most 8 messages, and two for each extension", "Messages",
     "round_messages level = 9 + 2 * level", "round_messages level = 8 + 2 * level"),
    ("15 pairs of whole deliveries leave nothing on the way", "Deliveries",
     "script).world 16", "script).world 15"),
]


def names_of(crate, folder):
    """The crates that a crate stands on, and those that these stand on."""
    stands = dict(line.split(":", 1) for line in open(os.path.join(folder, "crates.txt")) if ":" in line and not line.startswith("#"))
    found, open_ones = set(), [crate]
    while open_ones:
        name = open_ones.pop()
        if name in stands and name not in found:
            found.add(name)
            open_ones += stands[name].split()
    return found


def copy_of(folder):
    """The crates that the laws stand on, without worked examples and without what is built."""
    needed = set().union(*(names_of(crate, TOP) for crate in LAWS))
    for name in needed:
        shutil.copytree(os.path.join(TOP, "crates", name), os.path.join(folder, "crates", name), ignore=shutil.ignore_patterns("must-fail"))
    lines = [line for line in open(os.path.join(TOP, "crates.txt")) if line.startswith("#") or line.split(":")[0] in needed]
    open(os.path.join(folder, "crates.txt"), "w").writelines(lines)
    for crate, modules in EXAMPLES.items():
        proofs = os.path.join(folder, "crates", crate, "proofs")
        for module in modules:
            os.remove(os.path.join(proofs, module + ".antt"))
        lib = os.path.join(proofs, "Lib.antt")
        kept = [line for line in open(lib) if line.split()[-1] not in modules]
        open(lib, "w").writelines(kept)


def first_failure(folder):
    """The first crate of laws whose check fails, and the first lemma that it names."""
    for crate in LAWS:
        run = subprocess.run(["rt", "check"], cwd=os.path.join(folder, "crates", crate), capture_output=True, text=True)
        said = run.stdout + run.stderr
        if "logic=proved" not in said.splitlines()[-1]:
            lemma = re.search(r"proofs/(\S+)\.antt:\d+:\d+: error: `([^`]+)`", said)
            return crate, f"{lemma.group(1)}.{lemma.group(2)}" if lemma else "?"
    return None


def main():
    only = sys.argv[sys.argv.index("--only") + 1] if "--only" in sys.argv else ""
    folder = tempfile.mkdtemp(prefix="wrong_rules_")
    refused = True
    copy_of(folder)
    if first_failure(folder):
        sys.exit("the laws aren't proved as they are")
    rows = [] if "--promises" in sys.argv else [("node_rules", *row) for row in RULES]
    rows += [("pair_rules", *row) for row in PROMISES]
    for crate, what, module, old, new in rows:
        if only not in what:
            continue
        path = os.path.join(folder, "crates", crate, "specs", module + ".antt")
        text = open(path).read()
        if text.count(old) != 1:
            sys.exit(f"{what}: what is to be changed stands {text.count(old)} times in {module}")
        open(path, "w").write(text.replace(old, new))
        failure = first_failure(folder)
        open(path, "w").write(text)
        refused = refused and failure is not None
        print(f"{what} | {failure[0] if failure else 'NOT REFUSED'} | {failure[1] if failure else ''}", flush=True)
    if "--keep" in sys.argv:
        print(folder)
    else:
        shutil.rmtree(folder)
    sys.exit(0 if refused else 1)


main()
