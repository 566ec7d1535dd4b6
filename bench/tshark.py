#!/usr/bin/env python3
"""Compares `erlay show` with tshark's dissector of the Bitcoin protocol.

  bench/tshark.py [--messages N] [--seed N]

Messages of the kinds that tshark knows (version, verack, ping, pong, inv, getdata, notfound, tx) are made with random
fields and written as frames by this script. `erlay show` tells them as lines; text2pcap makes a capture of them, a
segment each, which tshark reads. Each field of a line has to be what tshark tells of its frame. It needs tshark and
text2pcap, and is no part of the gate. The last line says how many messages and fields were compared.
"""
import argparse, hashlib, json, os, random, struct, subprocess, sys, tempfile

TOP = os.path.dirname(os.path.dirname(os.path.abspath(__file__)))


def frame(command, payload):
    checksum = hashlib.sha256(hashlib.sha256(payload).digest()).digest()[:4]
    return b"\xf9\xbe\xb4\xd9" + command.ljust(12, b"\0") + struct.pack("<I", len(payload)) + checksum + payload


def inventory(random):
    count = random.randrange(1, 9)
    return bytes([count]) + b"".join(struct.pack("<I", random.choice([1, 2, 5, 0x40000001])) + random.randbytes(32) for _ in range(count))


def transaction(random):
    def script():
        size = random.randrange(1, 40)
        return bytes([size]) + random.randbytes(size)
    inputs, outputs = random.randrange(1, 4), random.randrange(1, 4)
    return (struct.pack("<I", random.choice([1, 2])) + bytes([inputs])
            + b"".join(random.randbytes(36) + script() + random.randbytes(4) for _ in range(inputs))
            + bytes([outputs]) + b"".join(struct.pack("<Q", random.randrange(2 ** 51)) + script() for _ in range(outputs))
            + random.randbytes(4))


def version(random):
    agent = b"/erlay:%d/" % random.randrange(1000)
    return (struct.pack("<IQQ", random.randrange(70001, 2 ** 31), random.randrange(2 ** 64), random.randrange(1, 2 ** 31)) + random.randbytes(52)
            + struct.pack("<Q", random.randrange(2 ** 64)) + bytes([len(agent)]) + agent + struct.pack("<I", random.randrange(2 ** 31)) + bytes([random.randrange(2)]))


def number(random):
    return random.randbytes(8)


KINDS = {b"version": version, b"verack": lambda random: b"", b"ping": number, b"pong": number, b"inv": inventory,
         b"getdata": inventory, b"notfound": inventory, b"tx": transaction}


def told_by_tshark(frames, folder):
    """For each frame the fields that tshark tells, as pairs of a name and a value, and their bytes."""
    dump, capture = os.path.join(folder, "dump"), os.path.join(folder, "capture")
    with open(dump, "w") as file:
        for bytes_ in frames:
            for at in range(0, len(bytes_), 16):
                file.write(f"{at:06x} " + " ".join(f"{b:02x}" for b in bytes_[at:at + 16]) + "\n")
            file.write("\n")
    subprocess.run(["text2pcap", "-q", "-T", "8333,8333", dump, capture], check=True, stderr=subprocess.DEVNULL)
    text = subprocess.run(["tshark", "-r", capture, "-T", "json", "-x"], check=True, stdout=subprocess.PIPE, stderr=subprocess.DEVNULL).stdout

    def flat(pairs):
        out = []
        for name, value in pairs:
            if isinstance(value, list) and value and isinstance(value[0], tuple):
                out.append((name, None))
                out += value
            else:
                out.append((name, value))
        return out
    return json.loads(text, object_pairs_hook=flat)


def values(fields, name):
    return [value for key, value in fields if key == name]


def raw(fields, name):
    return [value[0] for key, value in fields if key == name + "_raw"]


def seconds(fields):
    """The time of a version message, by its bytes: tshark tells it as a date."""
    return [str(int.from_bytes(bytes.fromhex(value), "little")) for value in raw(fields, "bitcoin.version.timestamp")]


def words_of(fields):
    """The line that the fields of a frame make."""
    command = values(fields, "bitcoin.command")[0]
    one = lambda name: [str(int(value, 0)) for value in values(fields, name)]
    if command == "version":
        agent = raw(fields, "bitcoin.version.user_agent")[0][2:]
        return ([command] + one("bitcoin.version.version") + one("bitcoin.version.services") + seconds(fields)
                + raw(fields, "bitcoin.version.addr_you") + raw(fields, "bitcoin.version.addr_me") + one("bitcoin.version.nonce")
                + [agent] + one("bitcoin.version.start_height") + one("bitcoin.version.relay"))
    if command in ("ping", "pong"):
        return [command] + one(f"bitcoin.{command}.nonce")
    if command in ("inv", "getdata", "notfound"):
        kinds, ids = one(f"bitcoin.{command}.type"), raw(fields, f"bitcoin.{command}.hash")
        return [command] + [f"{kind}:{id_}" for kind, id_ in zip(kinds, ids, strict=True)]
    if command == "tx":
        return [command] + raw(fields, "bitcoin.tx")
    return [command]


def main():
    words = argparse.ArgumentParser(description=__doc__, formatter_class=argparse.RawDescriptionHelpFormatter)
    words.add_argument("--messages", type=int, default=2000)
    words.add_argument("--seed", type=int, default=1)
    words = words.parse_args()
    chosen = random.Random(words.seed)
    kinds = [chosen.choice(list(KINDS)) for _ in range(words.messages)]
    frames = [frame(kind, KINDS[kind](chosen)) for kind in kinds]
    shown = subprocess.run([os.path.join(TOP, "erlay"), "show"], input=b"".join(frames), stdout=subprocess.PIPE, check=True).stdout.decode().splitlines()
    with tempfile.TemporaryDirectory(prefix="erlay-bench-") as folder:
        told = told_by_tshark(frames, folder)
    fields = 0
    for line, packet in zip(shown, told, strict=True):
        want = words_of(packet)
        if line.split(" ") != want:
            sys.exit(f"show:   {line}\ntshark: {' '.join(want)}")
        fields += len(want)
    counts = ", ".join(f"{kinds.count(kind)} {kind.decode()}" for kind in KINDS)
    print(f"{len(shown)} messages alike, {fields} fields: {counts}")


main()
