#!/usr/bin/env python3
"""A peer of another make against `erlay sync` and `erlay serve`, over 127.0.0.1.

  bench/peer.py [--program FILE] [--only WORDS] [--seed N] [--long]
  bench/peer.py --self [--only WORDS] [--seed N]
  bench/peer.py --transcript [--program FILE | --self]

The peer is bench/peer_node.py, which was written from docs/PROTOCOL.md and docs/FORMATS.md alone. Here it is the accepter of `sync` and the
opener of `serve`: of level 1 and 2, without reconciliation, with extensions and fallbacks, in pieces of any size, closing behind
each byte of a short session, and with faults of every kind that the rules name. A second node of peer_node.py is the program's
mirror: it has the program's salt, nonce and time, is handed the same bytes, and tells what the program has to send, byte for byte,
how it has to end, with what text, and which pool it has to save. What is refused has its text written out beside the case, too.

A line a case is printed, and then how many there were; the status is 1 where one fails. With --self the program's place is taken
by the same Python node at the other end of a socket pair, which tries the script; the cases of files and addresses are left out.
With --long each command is sent bytes up to the limit of a session, too, which is 1 GiB.
--transcript prints one session of the example pools, as lines of `show` in the order in which the messages were sent.
"""
import argparse, os, random, select, socket, struct, subprocess, sys, tempfile, threading, time

sys.dont_write_bytecode = True
import peer_node
from peer_node import Node, first_message, frame, frame_of, is_done, line_of, outcome_of, pool_in, pool_of, pool_text

TOP = os.path.dirname(os.path.dirname(os.path.abspath(__file__)))
PATIENCE = 30  # seconds
ROLES = {"sync": "opener", "serve": "accepter"}
OTHER = {"sync": "accepter", "serve": "opener"}


# ---- the program, and what stands in its place

class Program:
    """Runs of the program, with pools in files of a folder."""

    def __init__(self, file, folder):
        self.file, self.folder, self.runs, self.out = os.path.abspath(file), folder, 0, os.path.join(folder, "out")

    def words(self, command, address, pool):
        self.runs += 1
        self.out = os.path.join(self.folder, f"{self.runs}.after")
        path = os.path.join(self.folder, f"{self.runs}.pool")
        with open(path, "w") as file:
            file.write(pool if isinstance(pool, str) else pool_text(pool))
        return [self.file, command, address, path, self.out]

    def start(self, words):
        return subprocess.Popen(words, stdin=subprocess.DEVNULL, stdout=subprocess.PIPE)

    def connected(self, command, pool, host="127.0.0.1"):
        """A socket to the program in the midst of a run, and the run."""
        if command == "sync":
            with socket.create_server(("127.0.0.1", 0)) as listener:
                process = self.start(self.words("sync", f"{host}:{listener.getsockname()[1]}", pool))
                listener.settimeout(PATIENCE)
                return listener.accept()[0], process
        port = free_port()
        process = self.start(self.words("serve", f"{host}:{port}", pool))
        if (line := process.stdout.readline()) != b"listening\n":
            raise Failure(f"wrote {line} and not that it listens, and ended with {self.ended(process)}")
        return socket.create_connection((host, port), PATIENCE), process

    def ended(self, process):
        """The status and the text of the run, and what it saved."""
        try:
            text = process.communicate(timeout=PATIENCE)[0].decode()
        except subprocess.TimeoutExpired:
            process.kill()
            process.communicate()
            raise Failure("the program didn't end") from None
        return process.returncode, text, read_if_there(self.out)


class Stand:
    """The same node in the program's place, at the other end of a socket pair."""

    def __init__(self, told):
        self.told = told

    def connected(self, command, pool):
        ours, theirs = socket.socketpair()
        node = Node(ROLES[command], pool, 2, random.getrandbits(64), random.getrandbits(64), int(time.time()), b"/erlay:1/", self.told)
        kept = {}
        thread = threading.Thread(target=session, args=(theirs, node, int(command == "sync"), kept), daemon=True)
        thread.start()
        return ours, (thread, kept)

    def ended(self, run):
        thread, kept = run
        thread.join(PATIENCE)
        if "status" not in kept:
            raise Failure("the session didn't end")
        return kept["status"], kept["text"], kept["saved"]


def session(sock, node, rounds, kept):
    """A session as docs/PROTOCOL.md has it, "A session over a wire"."""
    while True:
        sock.sendall(node.out)
        node.out.clear()
        if is_done(node, rounds, False):
            break
        piece = sock.recv(65536)
        node.take(piece)
        if not piece or node.end is not None:
            break
        if node.role == "opener" and node.phase == "idle" and rounds:
            node.begin()
            rounds -= 1
    status, text = outcome_of(node, rounds)
    kept.update(status=status, text=text, saved=pool_text(node.pool) if status == 0 else None)
    sock.close()


class Failure(Exception):
    """Why a case fails."""


def read_if_there(path):
    if not os.path.exists(path):
        return None
    with open(path) as file:
        return file.read()


def free_port():
    with socket.create_server(("127.0.0.1", 0)) as listener:
        return listener.getsockname()[1]


# ---- the peer at its socket

class Plan:
    """What the peer does besides answering: rounds, transactions before each but the first, and how it cuts its bytes."""

    def __init__(self, rounds=1, additions=(), cut=None, most=None, chatty=False):
        self.rounds, self.additions, self.cut, self.most, self.chatty = rounds, list(additions), cut, most, chatty

    def go_on(self, node):
        """Begins a round where the peer is an opener between rounds; whether it has no more to do."""
        if node.role == "accepter" or node.phase != "idle":
            return node.end is not None
        if self.rounds == 0:
            return True
        if node.rounds > 0 and self.additions:
            node.add(self.additions.pop(0))
        self.rounds -= 1
        node.begin()
        return False

    def piece(self, pending, sent):
        length = len(pending) if self.cut is None else self.cut()
        return bytes(pending[:length if self.most is None else min(length, self.most - sent)])


class Talk:
    """All bytes of a conversation: in order, and those of each side."""

    def __init__(self):
        self.log, self.sent, self.received = [], bytearray(), bytearray()

    def note(self, is_ours, piece):
        self.log.append((is_ours, bytes(piece)))
        (self.sent if is_ours else self.received).extend(piece)


def converse(sock, node, plan):
    """Lets the peer talk until the other side has closed. It reads while it sends, and closes its own direction once it is done."""
    talk, pending, is_shut = Talk(), bytearray(), False
    until = time.monotonic() + PATIENCE
    while True:
        is_over = plan.go_on(node)
        pending += node.out
        node.out.clear()
        is_full = plan.most is not None and len(talk.sent) >= plan.most
        if not is_shut and (is_full or is_over and not pending):
            shut(sock)
            is_shut = True
        can_read, can_send, _ = select.select([sock], [sock] if pending and not is_shut else [], [], 1)
        if time.monotonic() > until:
            raise Failure("the other side neither sends nor closes")
        if can_send:
            piece = plan.piece(pending, len(talk.sent))
            count = send(sock, piece)
            talk.note(True, piece[:count])
            del pending[:count if count else len(pending)]
        if can_read:
            piece = receive(sock)
            if not piece:
                return talk
            talk.note(False, piece)
            node.take(piece)
            if plan.chatty:
                pending += frame(b"feefilter", bytes(8))


def shut(sock):
    try:
        sock.shutdown(socket.SHUT_WR)
    except OSError:
        pass


def send(sock, piece):
    """How many bytes the socket took: none where the other side has gone."""
    try:
        return sock.send(piece)
    except ConnectionError:
        return 0


def receive(sock):
    try:
        return sock.recv(65536)
    except ConnectionError:
        return b""


# ---- what the program has to do

def frames_in(stream):
    """The stream cut behind each frame, and what is left behind the last whole one, or from the first that is none on."""
    at, parts = 0, []
    while len(stream) - at >= 24 and stream[at:at + 4] == peer_node.MAGIC:
        end = at + 24 + int.from_bytes(stream[at + 16:at + 20], "little")
        if end > len(stream):
            break
        parts.append(bytes(stream[at:end]))
        at = end
    return parts + ([bytes(stream[at:])] if at < len(stream) else [])


def own_numbers(stream):
    """The salt, the nonce and the time that a program has told of itself, as far as it has."""
    told = {}
    for part in frames_in(stream)[:4]:
        first = first_message(part, 0)
        if first and first[0][0] == "version":
            told.update(time=first[0][3], nonce=first[0][6])
        elif first and first[0][0] == "sendtxrcncl":
            told.update(salt=first[0][2])
    return told


def mirror(command, pool, talk, told):
    """A node that was handed what the program received, what it gave to be sent, and how many rounds it has left."""
    node = Node(ROLES[command], pool, agent=b"/erlay:1/", told=told, **own_numbers(talk.received))
    rounds, pieces = int(command == "sync"), frames_in(talk.sent)
    while pieces and node.end is None and not is_done(node, rounds, False):
        node.take(pieces.pop(0))
        if node.role == "opener" and node.phase == "idle" and node.end is None and rounds:
            node.begin()
            rounds -= 1
    return node, rounds


def judge(command, pool, talk, got, told):
    """Compares a run with its mirror; its text."""
    node, rounds = mirror(command, pool, talk, told)
    status, text = outcome_of(node, rounds)
    saved = pool_text(node.pool) if status == 0 else None
    given = bytes(node.out)
    if status != 4 and given != talk.received or not given.startswith(talk.received):
        raise Failure(f"sent\n{lines_in(talk.received)}\nand not\n{lines_in(given)}")
    if got[:2] != (status, text):
        raise Failure(f"ended with {got[0]} {got[1]!r}, and not {status} {text!r}")
    if got[2] != saved:
        raise Failure("saved another pool")
    return text


def lines_in(stream):
    """The messages of a stream as lines, shortened."""
    lines = []
    for part in frames_in(stream):
        try:
            first = first_message(part, 0)
            lines.append(line_of(first[0])[:200] if first else f"{len(part)} bytes more")
        except peer_node.Refused as refused:
            lines.append(f"({refused})")
    return "\n".join(lines)


# ---- cases

def transactions(word, count):
    return [f"{word} {i}".encode() for i in range(count)]


class Cases:
    """Runs cases and counts them."""

    def __init__(self, subject, only, seed):
        self.subject, self.only, self.count, self.failed = subject, only, 0, 0
        self.random = random.Random(seed)

    def case(self, name, run):
        """Runs a case, and prints a line for it."""
        if self.only and self.only not in name:
            return
        self.count += 1
        try:
            told = "ok    " + name + ": " + run()
        except (Failure, OSError, peer_node.Refused) as failure:
            self.failed += 1
            told = f"FAILS {name}: {failure}"
        print(told, flush=True)

    def talk(self, command, ours, theirs, plan=None, instead=(), offered=2, refuses=None):
        """One session: `ours` is the program's transactions and `theirs` the peer's. The program's text in one line."""
        pool, plan = pool_of(ours), plan or Plan()
        told = list(pool_of(ours + theirs + plan.additions))
        if isinstance(self.subject, Stand):
            self.subject.told = told
        sock, run = self.subject.connected(command, pool)
        node = Node(OTHER[command], pool_of(theirs), offered, self.random.getrandbits(64), 7, int(time.time()), told=told, instead=instead)
        try:
            with sock:
                if sock.family != socket.AF_UNIX:
                    sock.setsockopt(socket.IPPROTO_TCP, socket.TCP_NODELAY, 1)
                talk = converse(sock, node, plan)
        finally:
            got = self.subject.ended(run)
        text = judge(command, pool, talk, got, told)
        if refuses is not None and not text.startswith("refused " + refuses):
            raise Failure(f"{text!r}, and not refused {refuses}")
        if refuses is None and node.end is not None:
            raise Failure(f"the peer refuses: {node.end}")
        self.last = node, talk
        return " · ".join(text.splitlines())

    def closing(self, command, ours, theirs, offered):
        """The peer closes behind each byte of a session."""
        self.talk(command, ours, theirs, offered=offered)
        length, ends = len(self.last[1].sent), {}
        for most in range(length + 1):
            text = self.talk(command, ours, theirs, Plan(most=most), offered=offered)
            text = text if text.startswith("truncated") else "done"
            ends[text] = ends.get(text, 0) + 1
        return f"{length + 1} sessions, " + ", ".join(f"{text} {count}" for text, count in ends.items())


COMMON, OURS, THEIRS = transactions("common", 9), transactions("ours", 2), transactions("theirs", 3)
SPREADS = [  # how many transactions only one side has, on each side
    ("of one common transaction and one of each side", 1, 1),
    ("that needs an extension", 6, 6),
    ("that needs a second extension, or falls back", 10, 9),
    ("that falls back", 20, 19),
]


def rounds(cases, command):
    """Rounds that end in each way, at both levels."""
    def case(name, ours=COMMON + OURS, theirs=THEIRS + COMMON, **options):
        cases.case(f"{command}, {name}", lambda: cases.talk(command, ours, theirs, **options))
    for offered in (1, 2):
        for name, ours, theirs in SPREADS:
            case(f"level {offered}, a round {name}", COMMON[:1] + transactions("ours", ours), transactions("theirs", theirs) + COMMON[:1], offered=offered)
    case("version 3 counts as 2", COMMON[:1] + transactions("ours", 10), transactions("theirs", 9), offered=3)
    case("no sendtxrcncl", offered=None)
    case("no sendtxrcncl, the same pools", COMMON, COMMON, offered=None)
    case("no sendtxrcncl, empty pools", [], [], offered=None)
    case("empty pools", [], [])
    case("the program's pool is empty", [], THEIRS)
    case("the peer's pool is empty", OURS, [])
    case("the same pools", COMMON, COMMON[::-1])
    case("the peer sends byte by byte", plan=Plan(cut=lambda: 1))
    case("the peer sends pieces of 1 to 40 bytes", plan=Plan(cut=lambda: cases.random.randrange(1, 41)))
    case("without sendtxrcncl, byte by byte", offered=None, plan=Plan(cut=lambda: 1))
    case("the peer sends other commands in between", plan=Plan(chatty=True))
    case("the peer says a frame of another command before its version", instead={"version": lambda node: frame(b"hello", b"?") + frame_of(node.version())})
    case("wtxidrelay twice", instead={"wtxidrelay": frame(b"wtxidrelay", b"") * 2})
    case("sendtxrcncl before wtxidrelay", instead={"wtxidrelay": lambda node: frame_of(("sendtxrcncl", 2, node.salt)), "sendtxrcncl": frame(b"wtxidrelay", b"")})
    case("a version without relay byte", instead={"version": frame_of(("version", 70016, 9, 0, bytes(26), bytes(26), 1, b"", -1, None))})
    case("a transaction that wasn't asked for", instead={"verack": frame(b"verack", b"") + frame(b"tx", b"unasked")})
    if command == "sync":
        case("a first sketch that is empty", instead={"sketch": frame(b"sketch", b"\0")})
        case("the peer has none of what it announced", instead={"tx": lambda node: frame_of(("notfound", [(5, id_) for id_ in pool_of(THEIRS)]))}, theirs=THEIRS[:1] + COMMON)
    else:
        added = transactions("added", 2)
        case("three rounds, with a new transaction before each", plan=Plan(rounds=3, additions=added))
        case("three rounds without sendtxrcncl, with a new transaction before each", offered=None, plan=Plan(rounds=3, additions=added))
        case("no round", plan=Plan(rounds=0))


def changed_checksum(name):
    bytes_ = bytearray(frame(name, b""))
    bytes_[20] ^= 1
    return bytes(bytes_)


def version_of(version, relay):
    return frame_of(("version", version, 0, 0, bytes(26), bytes(26), 1, b"/peer:1/", 0, relay))


HANDSHAKES = [  # what the peer sends in place of its first message of that name, and what the program says to it
    ("version", b"GET / HTTP/1.1\r\nHost: localhost\r\n\r\n", "bad magic at 0"),
    ("version", bytes(24), "bad magic at 0"),
    ("version", frame(b"\x07", b""), "bad command at 0"),
    ("version", peer_node.MAGIC + b"version".ljust(12, b"\0") + struct.pack("<II", 4_000_001, 0), "too long at 0: 4000001"),
    ("version", frame(b"version", bytes(84)), "payload of version at 84: short"),
    ("version", frame(b"version", bytes(80) + b"\xfd\x01\x01" + bytes(262)), "payload of version at 80: too many"),
    ("version", version_of(70015, 1), "old peer 70015"),
    ("version", version_of(-1, 0), "old peer -1"),
    ("version", version_of(70016, 0), "peer no relay"),
    ("version", frame(b"wtxidrelay", b""), "handshake wtxidrelay"),
    ("version", version_of(70016, 1) * 2, "handshake version"),
    ("wtxidrelay", b"", "no wtxidrelay"),
    ("wtxidrelay", frame(b"wtxidrelay", b"\0"), "payload of wtxidrelay at 0: trailing"),
    ("sendtxrcncl", frame_of(("sendtxrcncl", 0, 1)), "zero version"),
    ("sendtxrcncl", frame_of(("sendtxrcncl", 2, 1)) * 2, "handshake sendtxrcncl"),
    ("sendtxrcncl", frame(b"sendtxrcncl", bytes(11)), "payload of sendtxrcncl at 11: short"),
    ("verack", changed_checksum(b"verack"), "bad checksum at "),
    ("verack", frame(b"verack", b"") * 2, "handshake verack"),
    ("verack", frame_of(("inv", [])), "handshake inv"),
    ("verack", frame(b"verack", b"") + frame(b"inv", b"\xfd\x01\x00"), "payload of inv at 0: not minimal"),
    ("verack", frame(b"verack", b"") + frame(b"inv", b"\x02" + bytes(71)), "payload of inv at 72: short"),
    ("verack", frame(b"verack", b"") + frame(b"tx", b""), "payload of tx at 0: short"),
    ("verack", frame(b"verack", b"") + frame_of(("inv", [(5, i.to_bytes(32, "big")) for i in range(50_000)])), "pool full"),
]

FALSE_ACCEPTERS = [
    ("sketch", frame_of(("reqrecon", 1, 8192)), "misplaced reqrecon in waiting"),
    ("sketch", frame(b"reqsketchext", b""), "misplaced reqsketchext in waiting"),
    ("sketch", frame_of(("sketch", bytes(35))), "sketch length 35 wanted 0"),
    ("sketch", frame_of(("sketch", bytes(4100))), "sketch length 4100 wanted 0"),
    ("sketch", frame(b"sketch", b"\x04" + bytes(3)), "payload of sketch at 4: short"),
    ("pong", frame_of(("sketch", bytes(32))), "misplaced sketch in barrier"),
    ("pong", frame_of(("pong", 2)) + frame_of(("reconcildiff", 1, [])), "misplaced reconcildiff in barrier"),
]

FALSE_OPENERS = [
    ("reqrecon", frame_of(("sketch", bytes(32))), "misplaced sketch in idle"),
    ("reqrecon", frame(b"reqsketchext", b""), "misplaced reqsketchext in idle"),
    ("reqrecon", frame_of(("reqrecon", 1, 1)) * 2, "misplaced reqrecon in sent"),
    ("reqrecon", frame(b"reqrecon", bytes(5)), "payload of reqrecon at 4: trailing"),
    ("reconcildiff", frame(b"reconcildiff", b"\x02\0"), "payload of reconcildiff at 0: bad flag"),
    ("reconcildiff", frame_of(("reconcildiff", 0, [7, 8])), "asks on failure 2"),
    ("reconcildiff", frame_of(("reconcildiff", 1, [0])), "unknown short id 00000000"),
    ("reconcildiff", lambda node: frame_of(("reconcildiff", 1, 2 * asked_by(node))), "ask repeated "),
]


def asked_by(node):
    """A short id that the program has sketched."""
    return [peer_node.short_id(node.key, id_) for id_ in pool_of(OURS[:1])]


def refusals(cases, command):
    for name, instead, text in HANDSHAKES + (FALSE_ACCEPTERS if command == "sync" else FALSE_OPENERS):
        cases.case(f"{command}, refused in place of {name}: {text}",
                   lambda: cases.talk(command, COMMON + OURS, THEIRS + COMMON, instead={name: instead}, refuses=text))
    far = transactions("ours", 20), transactions("theirs", 20)
    if command == "sync":
        cases.case("sync, refused: an extension of another length",
                   lambda: cases.talk(command, *far, instead={"sketch": false_sketches}, refuses="sketch length 36 wanted 32"))
        return
    for offered, text in ((1, "misplaced reqsketchext in sent-ext"), (2, "misplaced reqsketchext in sent-ext2")):
        cases.case(f"serve, level {offered}, refused: one extension too many",
                   lambda: cases.talk(command, *far, instead={"reconcildiff": frame(b"reqsketchext", b"")}, offered=offered, refuses=text))


def false_sketches(node):
    """The first sums as they are; the next sketch is a sum too long."""
    node.instead["sketch"] = frame_of(("sketch", bytes(36)))
    return frame_of(("sketch", struct.pack("<8I", *peer_node.sums_of(node.sketched, 8))))


def closings(cases, command):
    short = COMMON[:1] + OURS[:1], THEIRS[:1] + COMMON[:1]
    cases.case(f"{command}, the peer says nothing and closes", lambda: cases.talk(command, *short, Plan(most=0)))
    for offered, words in ((2, ""), (None, ", without sendtxrcncl")):
        cases.case(f"{command}, the peer closes behind each byte{words}", lambda: cases.closing(command, *short, offered))


# ---- cases of files, addresses and the rest of the outside, for the program alone

def ran(program, words, status, text, stdout=subprocess.PIPE):
    """A run that needs no peer ends so."""
    process = subprocess.Popen(words, stdin=subprocess.DEVNULL, stdout=stdout)
    if stdout != subprocess.PIPE:
        got = process.wait(PATIENCE), ""
    else:
        got = program.ended(process)[:2]
    if got != (status, text):
        raise Failure(f"ended with {got}, and not {(status, text)}")
    return f"{status} {text.strip()}"


def addresses(cases, program):
    pool = pool_of(OURS)
    cases.case("sync, nobody listens", lambda: ran(program, program.words("sync", f"127.0.0.1:{free_port()}", pool), 7, "link fault\n"))
    for command in ("sync", "serve"):
        for address in ("127.0.0.1", "", ":", "127.0.0.1:", "127.0.0.1:65536", "127.0.0.1:http", "256.256.256.256:8333", "no-such-host.invalid:8333"):
            cases.case(f"{command}, the address {address!r}", lambda: ran(program, program.words(command, address, pool), 7, "link fault\n"))
        cases.case(f"{command} with two words", lambda: ran(program, [program.file, command, "127.0.0.1:1", "pool"], 1, "usage\n"))
        cases.case(f"{command}, localhost", lambda: named_host(cases, command, "localhost"))
        cases.case(f"{command}, the peer resets the connection", lambda: reset(program, command))
    cases.case("serve, an address that isn't ours", lambda: ran(program, program.words("serve", "192.0.2.1:8333", pool), 7, "link fault\n"))
    cases.case("serve, a port in use", lambda: port_in_use(program))


def named_host(cases, command, host):
    """A session at a host's name."""
    connected = cases.subject.connected
    cases.subject.connected = lambda *words: connected(*words, host=host)
    try:
        return cases.talk(command, COMMON + OURS, THEIRS + COMMON)
    finally:
        cases.subject.connected = connected


def reset(program, command):
    sock, process = program.connected(command, pool_of(OURS))
    sock.setsockopt(socket.SOL_SOCKET, socket.SO_LINGER, struct.pack("ii", 1, 0))
    sock.close()
    got = program.ended(process)
    if got != (7, "link fault\n", None):
        raise Failure(f"ended with {got}")
    return "7 link fault"


def port_in_use(program):
    with socket.create_server(("127.0.0.1", 0)) as listener:
        return ran(program, program.words("serve", f"127.0.0.1:{listener.getsockname()[1]}", pool_of(OURS)), 7, "link fault\n")


GOOD = pool_text(pool_of([b"hello"]))
LINE = GOOD.split("\n")[1]
BAD_POOLS = [
    ("pool 2 2\n" + LINE + "\n", "1: line count"),
    ("pool 3 1\n" + LINE + "\n", "1: form"),
    ("pool 2 01\n" + LINE + "\n", "1: form"),
    ("pool 2 50001\n", "1: form"),
    (GOOD[:-2] + "\n", "2: odd digits"),
    (GOOD[:-2] + "g\n", "2: bad digit"),
    (GOOD[:-1] + "00\n", "2: id " + LINE[:64] + " not "),
    ("pool 2 2\n" + LINE + "\n\n" + LINE.upper() + "\n", "4: repeated"),
    ("x\n", "1: form"),
]
GOOD_POOLS = [
    ("form 1", "".join(line + "\n" for line in GOOD.split("\n")[1:2])),
    ("capital digits, CR and LF, empty lines, and no end of the last line", "\r\n\npool 2 1\r\n\n" + LINE.upper()),
    ("an empty file", ""),
]


def files(cases, program):
    for command in ("sync", "serve"):
        address = lambda: f"127.0.0.1:{free_port()}"
        for text, fault in BAD_POOLS:
            cases.case(f"{command}, a pool file with a fault, {fault}", lambda: bad_pool(program, command, address(), text, fault))
        for name, text in GOOD_POOLS:
            cases.case(f"{command}, a pool file: {name}", lambda: good_pool(cases, command, text))
        cases.case(f"{command}, a pool file that is missing",
                   lambda: ran(program, [program.file, command, address(), program.folder + "/none", program.folder + "/out"], 8, "shelf fault\n"))
        cases.case(f"{command}, a folder for a pool file",
                   lambda: ran(program, [program.file, command, address(), program.folder, program.folder + "/out"], 8, "shelf fault\n"))
        for out in ("/no such folder/out", "/dev/full", program.folder):
            cases.case(f"{command}, the pool can't be saved as {out if out[:5] != '/tmp/' else 'a folder'}", lambda: unsaved(cases, program, command, out))
        cases.case(f"{command}, a pool file that is too long", lambda: long_file(program, command, address()))
    cases.case("sync, one file for both pools", lambda: one_file(cases, program))
    with open("/dev/full", "w") as full:
        cases.case("serve, a full standard output", lambda: ran(program, program.words("serve", address(), pool_of(OURS)), 6, "", full))


def bad_pool(program, command, address, text, fault):
    status, got, saved = program.ended(program.start(program.words(command, address, text)))
    wanted = "bad input " + fault
    if status != 2 or saved is not None or not (got == wanted + "\n" or fault.endswith(" not ") and got.startswith(wanted)):
        raise Failure(f"ended with {status} {got!r}, and not 2 {wanted!r}")
    return f"{status} {got.strip()}"


def good_pool(cases, command, text):
    """A session with a pool file of another form than the one that is written."""
    connected = cases.subject.connected
    cases.subject.connected = lambda command, pool: connected(command, text)
    try:
        return cases.talk(command, [b"hello"] if text else [], THEIRS)
    finally:
        cases.subject.connected = connected


def unsaved(cases, program, command, out):
    """A session that is done, but whose pool can't be saved."""
    words = program.words
    program.words = lambda *given: words(*given)[:-1] + [out]
    try:
        cases.talk(command, COMMON + OURS, THEIRS)
    except Failure as failure:
        if "ended with 8 'shelf fault\\n'" in str(failure):
            return "8 shelf fault"
        raise
    finally:
        program.words = words
    raise Failure("the pool was saved")


def long_file(program, command, address):
    words = program.words(command, address, "")
    os.truncate(words[3], 272_000_001)
    try:
        return ran(program, words, 10, "too long 272000000\n")
    finally:
        os.remove(words[3])


def one_file(cases, program):
    """The file that was read is the one that is saved."""
    words = program.words

    def same(*given):
        command = words(*given)
        program.out = command[3]
        return command[:-1] + [command[3]]
    program.words = same
    try:
        return cases.talk("sync", COMMON + OURS, THEIRS)
    finally:
        program.words = words


def limits(cases, program):
    """A peer that sends other commands without end."""
    for command in ("sync", "serve"):
        cases.case(f"{command}, the peer sends without end", lambda: endless(program, command))


def endless(program, command):
    sock, process = program.connected(command, pool_of(OURS))
    block, sent = frame(b"filler", bytes(4_000_000)), 0
    with sock:
        sock.settimeout(PATIENCE)
        try:
            while sent < 1 << 31:
                sock.sendall(block)
                sent += len(block)
        except ConnectionError:
            pass
    got = program.ended(process)
    if got != (10, f"too long {1 << 30}\n", None):
        raise Failure(f"ended with {got}")
    return f"10 too long {1 << 30}, and {sent:,} bytes were taken"


# ---- the transcript

def transcript(subject, program):
    """One session of the example pools: the peer is the opener, and the program serves."""
    ours, theirs = (list(pool_in(os.path.join(TOP, "examples", name)).values()) for name in ("ours.pool", "theirs.pool"))
    cases = Cases(subject, "", 1)
    cases.random.getrandbits = lambda bits: 1
    text = cases.talk("serve", theirs, ours)
    node, talk = cases.last
    rest = {True: bytearray(), False: bytearray()}
    for is_ours, piece in talk.log:
        rest[is_ours] += piece
        while (first := first_message(rest[is_ours], 0)) is not None:
            part = bytes(rest[is_ours][:first[1]])
            del rest[is_ours][:first[1]]
            line = line_of(first[0])
            if program and line + "\n" != shown(program, part):
                raise Failure(f"show writes another line than {line}")
            print("opener  " if is_ours else "accepter", line)
    print("serve:", text)


def shown(program, part):
    return subprocess.run([program, "show"], input=part, stdout=subprocess.PIPE, check=True).stdout.decode()


def main():
    words = argparse.ArgumentParser(description=__doc__, formatter_class=argparse.RawDescriptionHelpFormatter)
    words.add_argument("--program", default=os.path.join(TOP, "crates/erlay/out/erlay"))
    words.add_argument("--self", action="store_true", dest="is_alone")
    words.add_argument("--transcript", action="store_true")
    words.add_argument("--only", default="", help="the cases whose names have these words")
    words.add_argument("--seed", type=int, default=1)
    words.add_argument("--long", action="store_true")
    words = words.parse_args()
    random.seed(words.seed)
    with tempfile.TemporaryDirectory(prefix="erlay-bench-", dir="/tmp") as folder:
        subject = Stand([]) if words.is_alone else Program(words.program, folder)
        if words.transcript:
            return transcript(subject, None if words.is_alone else words.program)
        cases = Cases(subject, words.only, words.seed)
        for command in ("sync", "serve"):
            rounds(cases, command)
            refusals(cases, command)
            closings(cases, command)
        if not words.is_alone:
            addresses(cases, subject)
            files(cases, subject)
        if words.long and not words.is_alone:
            limits(cases, subject)
    print(f"{cases.count} cases, {cases.failed} failed")
    sys.exit(1 if cases.failed else 0)


main()
