#!/usr/bin/env python3
"""Two processes of the program, `erlay serve` and `erlay sync`, reconcile two pools over loopback.

  bench/sync.py [--program FILE] [--rounds N] [--only WORDS]

The transactions are random bytes, 200 to 300 of them. For each pair of pools both processes have to end with status 0 and save
the same ids, all of both pools, and where no short id of a pool is of two transactions, to tell the ending, the capacity and the
counts that the rules give. Two tables are printed, in Markdown.

The first has the bytes on the wire, counted by a proxy between the two processes in a run of its own. Beside them stands what
announcing everything would take: 36 bytes for each id of each pool, and the same transactions.

The second has times, of runs without the proxy. Elapsed is from the start of `serve`, which reads its pool before `sync` is
started, to the end of both; processor time is user and system of both. Both are the best of N rounds, in turns with a plain C++
program that reads both pool files, hashes each transaction twice, compares its id, keeps it, and writes the files again: what any
program has to do beside talking. It is compiled here, and takes SHA-256 from OpenSSL where that is there. The memory is the peak
of each process, in the run with the proxy.

Needs python3, g++ and the package time.
"""
import argparse, os, random, socket, subprocess, sys, tempfile, threading, time

sys.dont_write_bytecode = True
from peer_node import MAGIC, capacity_for, first_message, key_of, pool_of, pool_text, short_id

TOP = os.path.dirname(os.path.dirname(os.path.abspath(__file__)))
PATIENCE = 600  # seconds
PAIRS = [  # common, only of `sync`, only of `serve`
    (1_975, 25, 35), (2_000, 5, 5), (2_000, 50, 50), (2_000, 500, 500),
    (48_000, 5, 5), (48_000, 50, 50), (48_000, 500, 500), (49_000, 500, 500), (0, 25_000, 25_000),
]

PLAIN = r'''// Reads pool files, hashes each transaction twice, compares its id, keeps it, and writes the files again.
#include <cstdio>
#include <cstdlib>
#include <cstring>
#include <string>
#include <vector>
#ifdef WITH_OPENSSL
#include <openssl/sha.h>
static void sha256(const unsigned char *bytes, size_t len, unsigned char *out) { SHA256(bytes, len, out); }
#else
#include <cstdint>
static const uint32_t K[64] = {
    0x428a2f98, 0x71374491, 0xb5c0fbcf, 0xe9b5dba5, 0x3956c25b, 0x59f111f1, 0x923f82a4, 0xab1c5ed5, 0xd807aa98, 0x12835b01, 0x243185be,
    0x550c7dc3, 0x72be5d74, 0x80deb1fe, 0x9bdc06a7, 0xc19bf174, 0xe49b69c1, 0xefbe4786, 0x0fc19dc6, 0x240ca1cc, 0x2de92c6f, 0x4a7484aa,
    0x5cb0a9dc, 0x76f988da, 0x983e5152, 0xa831c66d, 0xb00327c8, 0xbf597fc7, 0xc6e00bf3, 0xd5a79147, 0x06ca6351, 0x14292967, 0x27b70a85,
    0x2e1b2138, 0x4d2c6dfc, 0x53380d13, 0x650a7354, 0x766a0abb, 0x81c2c92e, 0x92722c85, 0xa2bfe8a1, 0xa81a664b, 0xc24b8b70, 0xc76c51a3,
    0xd192e819, 0xd6990624, 0xf40e3585, 0x106aa070, 0x19a4c116, 0x1e376c08, 0x2748774c, 0x34b0bcb5, 0x391c0cb3, 0x4ed8aa4a, 0x5b9cca4f,
    0x682e6ff3, 0x748f82ee, 0x78a5636f, 0x84c87814, 0x8cc70208, 0x90befffa, 0xa4506ceb, 0xbef9a3f7, 0xc67178f2};
static uint32_t turned(uint32_t x, int n) { return x >> n | x << (32 - n); }
static void block(uint32_t *state, const unsigned char *bytes) {
    uint32_t w[64], v[8];
    for (int i = 0; i < 16; i++)
        w[i] = (uint32_t)bytes[4 * i] << 24 | bytes[4 * i + 1] << 16 | bytes[4 * i + 2] << 8 | bytes[4 * i + 3];
    for (int i = 16; i < 64; i++)
        w[i] = w[i - 16] + w[i - 7] + (turned(w[i - 15], 7) ^ turned(w[i - 15], 18) ^ w[i - 15] >> 3)
            + (turned(w[i - 2], 17) ^ turned(w[i - 2], 19) ^ w[i - 2] >> 10);
    memcpy(v, state, 32);
    for (int i = 0; i < 64; i++) {
        uint32_t a = v[7] + (turned(v[4], 6) ^ turned(v[4], 11) ^ turned(v[4], 25)) + ((v[4] & v[5]) ^ (~v[4] & v[6])) + K[i] + w[i];
        uint32_t b = (turned(v[0], 2) ^ turned(v[0], 13) ^ turned(v[0], 22)) + ((v[0] & v[1]) ^ (v[0] & v[2]) ^ (v[1] & v[2]));
        memmove(v + 1, v, 28);
        v[4] += a;
        v[0] = a + b;
    }
    for (int i = 0; i < 8; i++) state[i] += v[i];
}
static void sha256(const unsigned char *bytes, size_t len, unsigned char *out) {
    uint32_t state[8] = {0x6a09e667, 0xbb67ae85, 0x3c6ef372, 0xa54ff53a, 0x510e527f, 0x9b05688c, 0x1f83d9ab, 0x5be0cd19};
    unsigned char last[128] = {0};
    size_t whole = len / 64 * 64, rest = len - whole, end = rest < 56 ? 64 : 128;
    for (size_t i = 0; i < whole; i += 64) block(state, bytes + i);
    memcpy(last, bytes + whole, rest);
    last[rest] = 0x80;
    for (int i = 0; i < 8; i++) last[end - 1 - i] = (unsigned char)((uint64_t)len * 8 >> (8 * i));
    for (size_t i = 0; i < end; i += 64) block(state, last + i);
    for (int i = 0; i < 32; i++) out[i] = (unsigned char)(state[i / 4] >> (24 - 8 * (i % 4)));
}
#endif

static unsigned char value[256];

static void decode(const char *digits, size_t count, unsigned char *out) {
    for (size_t i = 0; i < count; i++)
        out[i] = value[(unsigned char)digits[2 * i]] << 4 | value[(unsigned char)digits[2 * i + 1]];
}

static void encode(const unsigned char *bytes, size_t count, std::string &out) {
    for (size_t i = 0; i < count; i++) {
        out += "0123456789abcdef"[bytes[i] >> 4];
        out += "0123456789abcdef"[bytes[i] & 15];
    }
}

static void work(const char *from, const char *to) {
    FILE *file = fopen(from, "rb");
    if (!file) exit(1);
    fseek(file, 0, SEEK_END);
    std::string text(ftell(file), 0), out;
    rewind(file);
    if (fread(&text[0], 1, text.size(), file) != text.size()) exit(1);
    fclose(file);
    std::vector<std::pair<std::string, std::vector<unsigned char>>> kept;
    size_t at = text.find('\n') + 1;
    for (size_t end; at < text.size(); at = end + 1) {
        end = text.find('\n', at);
        std::vector<unsigned char> tx((end - at - 65) / 2);
        unsigned char id[32], once[32], twice[32];
        decode(&text[at], 32, id);
        decode(&text[at + 65], tx.size(), tx.data());
        sha256(tx.data(), tx.size(), once);
        sha256(once, 32, twice);
        if (memcmp(id, twice, 32)) exit(2);
        kept.emplace_back(std::string((char *)id, 32), std::move(tx));
    }
    out.reserve(text.size());
    out = "pool 2 " + std::to_string(kept.size()) + "\n";
    for (auto &entry : kept) {
        encode((const unsigned char *)entry.first.data(), 32, out);
        out += ' ';
        encode(entry.second.data(), entry.second.size(), out);
        out += '\n';
    }
    file = fopen(to, "wb");
    if (!file || fwrite(out.data(), 1, out.size(), file) != out.size() || fclose(file)) exit(3);
}

int main(int count, char **words) {
    for (int i = 0; i < 10; i++) value['0' + i] = i;
    for (int i = 0; i < 6; i++) value['a' + i] = value['A' + i] = 10 + i;
    for (int i = 1; i + 1 < count; i += 2) work(words[i], words[i + 1]);
}
'''


def plain_program(folder):
    """The plain program, and whose SHA-256 it has."""
    source, built = os.path.join(folder, "plain.cpp"), os.path.join(folder, "plain")
    with open(source, "w") as file:
        file.write(PLAIN)
    compiler = ["g++", "-O2", "-o", built, source]
    if subprocess.run(compiler + ["-DWITH_OPENSSL", "-lcrypto"], stderr=subprocess.DEVNULL).returncode == 0:
        return built, "OpenSSL's"
    subprocess.run(compiler, check=True)
    return built, "its own"


# ---- the two processes

def free_port():
    with socket.create_server(("127.0.0.1", 0)) as listener:
        return listener.getsockname()[1]


class Proxy:
    """Forwards one connection to a port, and keeps what each side sent."""

    def __init__(self, port):
        self.listener = socket.create_server(("127.0.0.1", 0))
        self.port, self.onward, self.streams = self.listener.getsockname()[1], port, (bytearray(), bytearray())
        self.thread = threading.Thread(target=self.run, daemon=True)
        self.thread.start()

    def run(self):
        opener = self.listener.accept()[0]
        accepter = socket.create_connection(("127.0.0.1", self.onward))
        for sock in (opener, accepter):
            sock.setsockopt(socket.IPPROTO_TCP, socket.TCP_NODELAY, 1)
        threads = [threading.Thread(target=forward, args=words, daemon=True)
                   for words in ((opener, accepter, self.streams[0]), (accepter, opener, self.streams[1]))]
        for thread in threads:
            thread.start()
        for thread in threads:
            thread.join()

    def ended(self):
        self.thread.join(PATIENCE)
        return self.streams


def forward(source, sink, stream):
    try:
        while piece := source.recv(65536):
            stream += piece
            sink.sendall(piece)
        sink.shutdown(socket.SHUT_WR)
    except OSError:
        pass


def ended(process, what, wanted=0):
    """The text of a process, and the processor time that it and its children took."""
    text = process.stdout.read().decode() if process.stdout else ""
    _, status, usage = os.wait4(process.pid, 0)
    process.returncode = os.waitstatus_to_exitcode(status)
    if process.returncode != wanted:
        sys.exit(f"{what} ended with {process.returncode}: {text}")
    return text, usage.ru_utime + usage.ru_stime


def started(words):
    return subprocess.Popen(words, stdin=subprocess.DEVNULL, stdout=subprocess.PIPE)


def pair_run(program, paths, front=lambda name: [], proxied=False):
    """Both processes over their pool files: their texts, elapsed and processor time, and the proxy."""
    port = free_port()
    begun = time.monotonic()
    serve = started(front("serve") + [program, "serve", f"127.0.0.1:{port}", paths["serve"], paths["serve"] + ".after"])
    if serve.stdout.readline() != b"listening\n":
        sys.exit("serve doesn't listen")
    proxy = Proxy(port) if proxied else None
    sync = started(front("sync") + [program, "sync", f"127.0.0.1:{proxy.port if proxy else port}", paths["sync"], paths["sync"] + ".after"])
    watch = threading.Timer(PATIENCE, lambda: [process.kill() for process in (serve, sync)])
    watch.start()
    texts, spent = {}, 0
    for name, process in (("sync", sync), ("serve", serve)):
        texts[name], seconds = ended(process, name)
        spent += seconds
    elapsed = time.monotonic() - begun
    watch.cancel()
    return texts, elapsed, spent, proxy


def plain_run(program, paths):
    begun = time.monotonic()
    words = [word for path in paths.values() for word in (path, path + ".plain")]
    seconds = ended(started([program] + words), "the plain program")[1]
    return time.monotonic() - begun, seconds


# ---- what has to come of it

def pools(common, ours, theirs, seed):
    """The pools of both, in different orders."""
    source = random.Random(seed)
    all_ = [source.randbytes(source.randrange(200, 301)) for _ in range(common + ours + theirs)]
    sync, serve = all_[:common + ours], all_[:common] + all_[common + ours:]
    source.shuffle(serve)
    return {"sync": pool_of(sync), "serve": pool_of(serve)}


def saved_ids(path):
    with open(path) as file:
        heading, *lines = file.read().splitlines()
    if heading != f"pool 2 {len(lines)}":
        sys.exit(f"{path} begins with {heading}")
    return {bytes.fromhex(line[:64]) for line in lines}


def salt_in(stream):
    """The salt of the side that sent this stream."""
    at = 0
    while (first := first_message(stream[at:at + 4096], at)) is not None:
        if first[0][0] == "sendtxrcncl":
            return first[0][2]
        at += first[1]


def transaction_bytes(stream):
    """The bytes of all frames of transactions."""
    at = count = 0
    while at < len(stream):
        if stream[at:at + 4] != MAGIC:
            sys.exit(f"no frame at {at}")
        length = 24 + int.from_bytes(stream[at + 16:at + 20], "little")
        count += length if stream[at + 4:at + 16].rstrip(b"\0") == b"tx" else 0
        at += length
    return count


def told_round(held, streams):
    """What `sync` has to tell of its round, where no short id of a pool is of two transactions; else None."""
    key = key_of(*map(salt_in, streams))
    shorts = {name: {short_id(key, id_) for id_ in pool} for name, pool in held.items()}
    if any(len(shorts[name]) < len(held[name]) for name in held):
        return None
    capacity = capacity_for(len(held["sync"]), len(held["serve"]), 8192)
    difference = len(shorts["sync"] ^ shorts["serve"])
    endings = [name for name, times in (("first", 1), ("extension", 2), ("extension2", 4)) if difference <= times * capacity]
    return f"round 1 {endings[0]} {capacity} {len(held['sync'])} {difference}" if endings else f"round 1 fallback {capacity} {len(held['sync'])} 0"


def check(held, paths, texts, streams):
    """Compares what came of a run with what has to; the line of the round."""
    union = set(held["sync"]) | set(held["serve"])
    for name, path in paths.items():
        if saved_ids(path + ".after") != union:
            sys.exit(f"{name} saved other ids")
        if texts[name].splitlines()[-1] != f"pool {len(union)}":
            sys.exit(f"{name} wrote {texts[name]}")
    line = texts["sync"].splitlines()[0]
    if (wanted := told_round(held, streams)) not in (None, line):
        sys.exit(f"sync wrote {line}, and not {wanted}")
    return line if wanted else line + " (short ids that are equal)"


# ---- the tables

def number(value, digits=0):
    return f"{value:,.{digits}f}"


def measured(program, plain, sizes, rounds, folder):
    """The rows of one pair of pools in both tables."""
    common, ours, theirs = sizes
    held = pools(*sizes, seed=common + ours)
    paths = {name: os.path.join(folder, name) for name in held}
    for name, pool in held.items():
        with open(paths[name], "w") as file:
            file.write(pool_text(pool))
    peak = lambda name: ["time", "-f", "%M", "-o", paths[name] + ".peak"]
    texts, _, _, proxy = pair_run(program, paths, peak, True)
    streams = proxy.ended()
    line = check(held, paths, texts, streams)
    peaks = [int(open(paths[name] + ".peak").read().split()[-1]) / 1000 for name in ("sync", "serve")]
    best = [min(column) for column in zip(*((*pair_run(program, paths)[1:3], *plain_run(plain, paths)) for _ in range(rounds)))]
    sent, moved = [len(stream) for stream in streams], sum(map(transaction_bytes, streams))
    announcing = 36 * sum(map(len, held.values()))
    head = f"| {common:,} | {ours + theirs:,} |"
    wire = f"{head} {line} | {sent[0]:,} | {sent[1]:,} | {moved:,} | {sum(sent) - moved:,} | {announcing:,} | {(sum(sent) - moved) / announcing:.4f} | {sum(sent) / (announcing + moved):.3f} |"
    files = sum(map(os.path.getsize, paths.values())) / 1e6
    times = (f"{head} {files:.1f} | {best[0]:.3f} | {best[1]:.3f} | {best[2]:.3f} | {best[3]:.3f} | {best[0] / best[2]:.2f} | {best[1] / best[3]:.2f} |"
             f" {peaks[0]:.1f} | {peaks[1]:.1f} |")
    return wire, times


WIRE = ("| common | differ | what `sync` told | bytes from `sync` | from `serve` | of both, transactions | all else | announcing everything, without transactions | all else over it | all over all |",
        "|--:|--:|---|--:|--:|--:|--:|--:|--:|--:|")
TIMES = ("| common | differ | both pool files, MB | elapsed, s | processor, s | plain, elapsed, s | plain, processor, s | elapsed over plain | processor over plain | peak of `sync`, MB | of `serve`, MB |",
         "|--:|--:|--:|--:|--:|--:|--:|--:|--:|--:|--:|")


def main():
    words = argparse.ArgumentParser(description=__doc__, formatter_class=argparse.RawDescriptionHelpFormatter)
    words.add_argument("--program", default=os.path.join(TOP, "crates/erlay/out/erlay"))
    words.add_argument("--rounds", type=int, default=5)
    words.add_argument("--only", type=int, help="the pairs with so many common transactions")
    words = words.parse_args()
    rows = []
    with tempfile.TemporaryDirectory(prefix="erlay-bench-") as folder:
        plain, whose = plain_program(folder)
        print(f"the plain program hashes by {whose} SHA-256; load {os.getloadavg()[0]:.1f}", flush=True)
        for sizes in PAIRS:
            if words.only in (None, sizes[0]):
                rows.append(measured(os.path.abspath(words.program), plain, sizes, words.rounds, folder))
                print(*rows[-1], sep="\n", flush=True)
    for heading, place in ((WIRE, 0), (TIMES, 1)):
        print("", *heading, *(row[place] for row in rows), sep="\n")


main()
