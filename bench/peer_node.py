"""A node of another make, for bench/peer.py: the rules of docs/PROTOCOL.md in plain Python.

It was written from that page, and from the pool files and texts of docs/FORMATS.md, and shares nothing with the crates. It takes
bytes and gives bytes, and knows no sockets. Its decoder finds the shortest recurrence of the sums, after Berlekamp and Massey,
and then doesn't search for roots: it tries the short ids of the transactions that it is told of, since a test knows both pools.
"""
import collections, hashlib, struct

MAGIC = b"\xf9\xbe\xb4\xd9"
PAYLOAD_LIMIT, LIST_LIMIT, AGENT_LIMIT, TX_LIMIT = 4_000_000, 50_000, 256, 4_000_000
POOL_LIMIT, POOL_BYTES_LIMIT = 50_000, 134_217_728
EMPTY = ("verack", "wtxidrelay", "reqsketchext")
LISTS = ("inv", "getdata", "notfound")
KNOWN = EMPTY + LISTS + ("version", "sendtxrcncl", "reqrecon", "sketch", "reconcildiff", "tx", "ping", "pong")


# ---- ids

def double_sha(bytes_):
    return hashlib.sha256(hashlib.sha256(bytes_).digest()).digest()


def key_of(salt, other):
    tag = hashlib.sha256(b"Tx Relay Salting").digest()
    digest = hashlib.sha256(tag + tag + struct.pack("<QQ", min(salt, other), max(salt, other))).digest()
    return struct.unpack("<QQ", digest[:16])


def sip_hash(key, bytes_):
    """SipHash-2-4, section 2 of its paper."""
    mask = (1 << 64) - 1
    v0, v1, v2, v3 = (k ^ word for k, word in zip(key * 2, (0x736F6D6570736575, 0x646F72616E646F6D, 0x6C7967656E657261, 0x7465646279746573)))

    def rounds(count):
        nonlocal v0, v1, v2, v3
        turned = lambda v, bits: (v << bits | v >> (64 - bits)) & mask
        for _ in range(count):
            v0, v2 = (v0 + v1) & mask, (v2 + v3) & mask
            v1, v3 = turned(v1, 13) ^ v0, turned(v3, 16) ^ v2
            v0 = turned(v0, 32)
            v2, v0 = (v2 + v1) & mask, (v0 + v3) & mask
            v1, v3 = turned(v1, 17) ^ v2, turned(v3, 21) ^ v0
            v2 = turned(v2, 32)

    whole = len(bytes_) // 8 * 8
    last = bytes_[whole:].ljust(7, b"\0") + bytes([len(bytes_) & 255])
    for (word,) in struct.iter_unpack("<Q", bytes_[:whole] + last):
        v3 ^= word
        rounds(2)
        v0 ^= word
    v2 ^= 0xFF
    rounds(4)
    return v0 ^ v1 ^ v2 ^ v3


def short_id(key, id_):
    return 1 + sip_hash(key, id_) % 0xFFFFFFFF


# ---- sketches

def times(a, b):
    """A product of the field: polynomials modulo x^32 + x^7 + x^3 + x^2 + 1."""
    product = 0
    while b:
        if b & 1:
            product ^= a
        a <<= 1
        if a >> 32:
            a ^= 0x1_0000_008D
        b >>= 1
    return product


def inverse(a):
    power = 1
    for _ in range(31):
        a = times(a, a)
        power = times(power, a)
    return power


def sums_of(elements, capacity):
    """The odd power sums of the elements, the first ones of that number."""
    sums = [0] * capacity
    for element in elements:
        square, power = times(element, element), element
        for place in range(capacity):
            sums[place] ^= power
            power = times(power, square)
    return sums


def recurrence_of(terms):
    """The shortest recurrence of the terms, as its coefficients from 1 on, and its length (Berlekamp and Massey)."""
    current, before, length, gap, scale = [1], [1], 0, 1, 1
    for place, term in enumerate(terms):
        for i in range(1, min(length, len(current) - 1) + 1):
            term ^= times(current[i], terms[place - i])
        if term == 0:
            gap += 1
            continue
        factor, old = times(term, inverse(scale)), current
        current = current + [0] * (len(before) + gap - len(current))
        for i, coefficient in enumerate(before):
            current[i + gap] ^= times(factor, coefficient)
        if 2 * length <= place:
            length, before, scale, gap = place + 1 - length, old, term, 1
        else:
            gap += 1
    return current + [0] * (length + 1 - len(current)), length


def set_of(sums, candidates):
    """The set of candidates that has these sums, no more than there are sums; or None."""
    terms = [0] * (2 * len(sums))
    for k in range(1, 2 * len(sums) + 1):  # the sum of the powers by 2k is the square of that by k
        terms[k - 1] = sums[k // 2] if k % 2 else times(terms[k // 2 - 1], terms[k // 2 - 1])
    coefficients, length = recurrence_of(terms)
    if length > len(sums):
        return None
    found = []
    for element in candidates:
        value = 0
        for coefficient in coefficients:
            value = times(value, element) ^ coefficient
        if value == 0:
            found.append(element)
    return found if len(found) == length and sums_of(found, len(sums)) == sums else None


def capacity_for(size, length, coefficient):
    return min(1024, max(8, abs(size - length) + coefficient * min(size, length) // 32767 + 1))


# ---- messages: a tuple of the name and the fields

class Refused(Exception):
    """The message ends the node; the text names the cause."""


def compact(number):
    for limit, first, layout in ((0xFD, b"", "<B"), (1 << 16, b"\xfd", "<H"), (1 << 32, b"\xfe", "<I")):
        if number < limit:
            return first + struct.pack(layout, number)
    return b"\xff" + struct.pack("<Q", number)


def payload_of(message):
    name, *fields = message
    if name == "version":
        version, services, time, receiver, sender, nonce, agent, height, relay = fields
        return (struct.pack("<iQq", version, services, time) + receiver + sender + struct.pack("<Q", nonce) + compact(len(agent)) + agent
                + struct.pack("<i", height) + (b"" if relay is None else bytes([relay])))
    if name == "sketch":
        return compact(len(fields[0])) + fields[0]
    if name == "reconcildiff":
        return bytes([fields[0]]) + compact(len(fields[1])) + b"".join(struct.pack("<I", short) for short in fields[1])
    if name in LISTS:
        return compact(len(fields[0])) + b"".join(struct.pack("<I", kind) + id_ for kind, id_ in fields[0])
    layout = {"sendtxrcncl": "<IQ", "reqrecon": "<HH", "ping": "<Q", "pong": "<Q"}.get(name)
    return struct.pack(layout, *fields) if layout else fields[-1] if fields else b""


def frame(command, payload):
    return MAGIC + command.ljust(12, b"\0") + struct.pack("<I", len(payload)) + double_sha(payload)[:4] + payload


def frame_of(message):
    return frame(message[1].rstrip(b"\0") if message[0] == "other" else message[0].encode(), payload_of(message))


class Payload:
    """A payload that is read from the left."""

    def __init__(self, command, bytes_):
        self.command, self.bytes_, self.at = command, bytes_, 0

    def fault(self, kind, at):
        return Refused(f"payload of {self.command} at {at}: {kind}")

    def take(self, count):
        if len(self.bytes_) - self.at < count:
            raise self.fault("short", len(self.bytes_))
        self.at += count
        return self.bytes_[self.at - count:self.at]

    def numbers(self, layout):
        return struct.unpack(layout, self.take(struct.calcsize(layout)))

    def count(self, limit):
        start = self.at
        (number,) = self.numbers("<B")
        if number >= 0xFD:
            layout, least = {0xFD: ("<H", 0xFD), 0xFE: ("<I", 1 << 16), 0xFF: ("<Q", 1 << 32)}[number]
            (number,) = self.numbers(layout)
            if number < least:
                raise self.fault("not minimal", start)
        if number > limit:
            raise self.fault("too many", start)
        return number

    def version(self):
        head = self.numbers("<iQq") + (self.take(26), self.take(26)) + self.numbers("<Q")
        agent = self.take(self.count(AGENT_LIMIT))
        (height,) = self.numbers("<i")
        relay = self.take(1)[0] if self.at < len(self.bytes_) else None
        return head + (agent, height, relay)

    def difference(self):
        (flag,) = self.numbers("<B")
        if flag > 1:
            raise self.fault("bad flag", 0)
        count = self.count(LIST_LIMIT)
        return flag, list(self.numbers(f"<{count}I"))

    def entries(self):
        count = self.count(LIST_LIMIT)
        return [self.numbers("<I") + (self.take(32),) for _ in range(count)]

    def fields(self):
        name = self.command
        if name == "version":
            return self.version()
        if name == "reconcildiff":
            return self.difference()
        if name in LISTS:
            return (self.entries(),)
        if name == "sketch":
            return (self.take(self.count(LIST_LIMIT)),)
        if name == "tx":
            return (self.take(max(1, len(self.bytes_))),)
        return self.numbers({"sendtxrcncl": "<IQ", "reqrecon": "<HH", "ping": "<Q", "pong": "<Q"}.get(name, "<"))


def message_of(field, bytes_):
    """The message of a command's 12 bytes and a payload."""
    name = field.rstrip(b"\0").decode()
    if name not in KNOWN:
        return "other", field, bytes_
    payload = Payload(name, bytes_)
    fields = payload.fields()
    if payload.at < len(bytes_):
        raise payload.fault("trailing", payload.at)
    return (name, *fields)


def is_command(field):
    name = field.rstrip(b"\0")
    return len(name) > 0 and all(0x20 <= byte <= 0x7E for byte in name)


def first_message(bytes_, at):
    """The message at the front of the bytes, and its frame's length; None where the frame is unfinished. It stands at `at`."""
    if len(bytes_) < 24:
        return None
    magic, field, length, stands = struct.unpack("<4s12sI4s", bytes_[:24])
    if magic != MAGIC:
        raise Refused(f"bad magic at {at}")
    if not is_command(field):
        raise Refused(f"bad command at {at}")
    if length > PAYLOAD_LIMIT:
        raise Refused(f"too long at {at}: {length}")
    if len(bytes_) < 24 + length:
        return None
    payload = bytes(bytes_[24:24 + length])
    computed = double_sha(payload)[:4]
    if stands != computed:
        raise Refused(f"bad checksum at {at}: {stands.hex()} not {computed.hex()}")
    return message_of(field, payload), 24 + length


# ---- pools, as id and transaction in order

def pool_of(transactions):
    return {double_sha(tx): tx for tx in transactions}


def pool_text(pool):
    return "".join([f"pool 2 {len(pool)}\n"] + [f"{id_.hex()} {tx.hex()}\n" for id_, tx in pool.items()])


def pool_in(path):
    with open(path) as file:
        lines = file.read().split("\n")
    return pool_of(bytes.fromhex(line.split(" ")[1]) for line in lines[1:] if line)


# ---- a node

class Node:
    """One side of a connection. It is `offered` the version of its `sendtxrcncl`, or None where it sends none."""

    def __init__(self, role, pool, offered=2, salt=1, nonce=0, time=0, agent=b"/peer:1/", told=(), instead=()):
        self.role, self.pool, self.offered = role, dict(pool), offered
        self.salt, self.nonce, self.time, self.agent = salt, nonce, time, agent
        self.told = list(told)  # ids that the decoder tries
        self.set, self.wanted, self.asked, self.served = {}, {}, set(), set()
        self.level, self.plain, self.key = None, False, None
        self.wtxidrelay, self.theirs = False, None
        self.phase, self.end = "greeting", None
        self.coefficient, self.rounds, self.reports = 8192, 0, []
        self.unread, self.at, self.out = bytearray(), 0, bytearray()
        self.instead = dict(instead)  # bytes, or what makes them, to be sent in place of the first message of a name
        if role == "opener":
            self.send(self.version())

    def send(self, *message):
        message = message[0] if isinstance(message[0], tuple) else message
        other = self.instead.pop(message[0], None)
        self.out += frame_of(message) if other is None else other(self) if callable(other) else other

    def version(self):
        return "version", 70016, 0, self.time, bytes(26), bytes(26), self.nonce, self.agent, 0, 1

    def announce(self, name, ids):
        if ids:
            self.send(name, [(5, id_) for id_ in ids])

    def take(self, piece):
        """Handles the messages that are whole with this piece."""
        if self.end is not None:
            return
        self.unread += piece
        try:
            while (first := first_message(self.unread, self.at)) is not None:
                self.handle(first[0])
                del self.unread[:first[1]]
                self.at += first[1]
        except Refused as refused:
            self.end = str(refused)
            self.unread.clear()

    def handle(self, message):
        name, *fields = message
        if self.phase in ("greeting", "greeted"):
            self.greet(name, fields)
        elif name in ("version", "verack", "wtxidrelay", "sendtxrcncl"):
            raise Refused(f"handshake {name}")
        elif name != "other":
            getattr(self, f"on_{name}")(*fields)

    # ---- the handshake

    def greet(self, name, fields):
        if name in ("ping", "pong", "other"):
            return
        if (self.phase, name) == ("greeting", "version"):
            self.on_version(fields[0], fields[-1])
        elif (self.phase, name) == ("greeted", "wtxidrelay"):
            self.wtxidrelay = True
        elif (self.phase, name) == ("greeted", "sendtxrcncl"):
            self.on_sendtxrcncl(*fields)
        elif (self.phase, name) == ("greeted", "verack"):
            self.on_verack()
        else:
            raise Refused(f"handshake {name}")

    def on_version(self, version, relay):
        if version < 70016:
            raise Refused(f"old peer {version}")
        if relay == 0:
            raise Refused("peer no relay")
        if self.role == "accepter":
            self.send(self.version())
        self.send("wtxidrelay")
        if self.offered is not None:
            self.send("sendtxrcncl", self.offered, self.salt)
        self.send("verack")
        self.phase = "greeted"

    def on_sendtxrcncl(self, version, salt):
        if version == 0:
            raise Refused("zero version")
        if self.theirs is not None:
            raise Refused("handshake sendtxrcncl")
        self.theirs = version, salt

    def on_verack(self):
        if not self.wtxidrelay:
            raise Refused("no wtxidrelay")
        self.phase = "idle"
        if self.theirs is None or self.offered is None:
            self.plain, self.level = True, 1
            self.announce("inv", list(self.pool))
        else:
            self.level = min(self.offered, self.theirs[0])
            self.key = key_of(self.salt, self.theirs[1])
            self.set = dict.fromkeys(self.pool)

    # ---- announcements, requests, transactions

    def open_wants(self):
        return set(self.wanted) | self.asked

    def on_inv(self, entries):
        new = {}
        for kind, id_ in entries:
            if kind == 5 and id_ not in self.pool and id_ not in self.wanted and id_ not in self.asked:
                new[id_] = None
        lacked = sum(1 for id_ in self.open_wants() if id_ not in self.pool)
        if len(new) + len(self.pool) + lacked > POOL_LIMIT:
            raise Refused("pool full")
        for kind, id_ in entries:
            if kind == 5 and id_ in self.pool:
                self.set.pop(id_, None)
        if self.role == "opener":
            self.wanted.update(new)
        else:
            self.asked.update(new)
            self.announce("getdata", list(new))

    def on_getdata(self, entries):
        lacking = []
        for kind, id_ in entries:
            if kind == 5 and id_ in self.pool and id_ not in self.served:
                self.served.add(id_)
                self.send("tx", self.pool[id_])
            else:
                lacking.append((kind, id_))
        if lacking:
            self.send("notfound", lacking)

    def on_tx(self, tx):
        id_ = double_sha(tx)
        if id_ not in self.asked:
            return
        if id_ not in self.pool:
            if sum(map(len, self.pool.values())) + len(tx) > POOL_BYTES_LIMIT:
                raise Refused("pool full")
            self.pool[id_] = tx
        self.asked.discard(id_)
        self.fetched()

    def on_notfound(self, entries):
        self.asked.difference_update(id_ for kind, id_ in entries if kind == 5)
        self.fetched()

    def fetched(self):
        if self.phase == "fetching" and not self.asked:
            self.phase = "idle"

    def on_ping(self, number):
        self.send("pong", number)

    def add(self, tx):
        """A transaction of this side's own; the room in the pool isn't tested here."""
        id_ = double_sha(tx)
        if id_ in self.pool:
            return
        is_open = id_ in self.open_wants()
        self.pool[id_] = tx
        self.wanted.pop(id_, None)
        if not is_open and self.level is not None:
            if self.plain:
                self.announce("inv", [id_])
            else:
                self.set[id_] = None

    # ---- a round

    def snap(self):
        """The set becomes the snapshot."""
        self.snapshot, self.set = list(self.set), {}
        self.short = {id_: short_id(self.key, id_) for id_ in self.snapshot}
        counts = collections.Counter(self.short.values())
        self.sketched = {short: id_ for id_, short in self.short.items() if counts[short] == 1}

    def chosen(self, shorts):
        """The ids of the snapshot that are aside, or whose sketched short id is among these."""
        return [id_ for id_ in self.snapshot if self.short[id_] not in self.sketched or self.short[id_] in shorts]

    def misplaced(self, name):
        return Refused(f"misplaced {name} in {self.phase}")

    def begin(self):
        """An opener in Idle begins a round."""
        self.rounds = (self.rounds + 1) % (1 << 64)
        if self.plain:
            self.send("ping", self.rounds)
            self.phase = "barrier"
        else:
            self.send("reqrecon", len(self.set), self.coefficient)
            self.phase = "waiting"

    def on_sketch(self, bytes_):
        stage = {"waiting": 0, "waiting-ext": 1, "waiting-ext2": 2}.get(self.phase)
        if stage is None:
            raise self.misplaced("sketch")
        wanted = 0 if stage == 0 else 4 * self.capacity * stage
        if (len(bytes_) % 4 or len(bytes_) > 4096) if stage == 0 else len(bytes_) != wanted:
            raise Refused(f"sketch length {len(bytes_)} wanted {wanted}")
        if stage == 0:
            self.capacity, self.sums = len(bytes_) // 4, []
            self.snap()
        self.sums += [sum_ for (sum_,) in struct.iter_unpack("<I", bytes_)]
        own = sums_of(self.sketched, len(self.sums))
        candidates = {short_id(self.key, id_) for id_ in self.told} | set(self.sketched)
        found = set_of([a ^ b for a, b in zip(own, self.sums)], candidates) if self.capacity else None
        if found is not None:
            self.answer(("first", "extension", "extension2")[stage], found)
        elif self.capacity and stage < self.level:
            self.send("reqsketchext")
            self.phase = ("waiting-ext", "waiting-ext2")[stage]
        else:
            self.fall_back()

    def answer(self, ending, found):
        asks = sorted(short for short in found if short not in self.sketched)
        mine = len(found) - len(asks)
        own = len(self.sketched)
        least = min(own, own - mine + len(asks))
        self.coefficient = -(-2 * min(mine, len(asks)) * 32767 // least) if least else 0
        self.close_round((ending, self.capacity, len(self.snapshot), len(found)), 1, asks, self.chosen(found))

    def fall_back(self):
        self.coefficient = min(65534, 2 * self.coefficient + 1)
        self.close_round(("fallback", self.capacity, len(self.snapshot), 0), 0, [], self.snapshot)

    def close_round(self, report, flag, asks, announced):
        self.reports.append(report)
        self.send("reconcildiff", flag, asks)
        self.announce("inv", announced)
        self.send("ping", self.rounds)
        self.phase = "barrier"

    def on_pong(self, number):
        if self.phase == "barrier" and number == self.rounds:
            self.announce("getdata", list(self.wanted))
            self.asked.update(self.wanted)
            self.phase = "fetching" if self.wanted else "idle"
            self.wanted = {}

    def on_reqrecon(self, size, coefficient):
        if self.role == "opener" or self.plain or self.phase != "idle":
            raise self.misplaced("reqrecon")
        self.snap()
        self.capacity = capacity_for(size, len(self.snapshot), coefficient)
        self.send_sums(0, self.capacity)
        self.phase = "sent"

    def on_reqsketchext(self):
        if self.phase == "sent":
            self.send_sums(self.capacity, 2 * self.capacity)
            self.phase = "sent-ext"
        elif self.phase == "sent-ext" and self.level >= 2:
            self.send_sums(2 * self.capacity, 4 * self.capacity)
            self.phase = "sent-ext2"
        else:
            raise self.misplaced("reqsketchext")

    def send_sums(self, start, end):
        self.send("sketch", struct.pack(f"<{end - start}I", *sums_of(self.sketched, end)[start:]))

    def on_reconcildiff(self, flag, asks):
        ending = {"sent": "first", "sent-ext": "extension", "sent-ext2": "extension2"}.get(self.phase)
        if ending is None:
            raise self.misplaced("reconcildiff")
        if flag == 0 and asks:
            raise Refused(f"asks on failure {len(asks)}")
        seen = set()
        for short in asks:
            if short not in self.sketched:
                raise Refused(f"unknown short id {short:08x}")
            if short in seen:
                raise Refused(f"ask repeated {short:08x}")
            seen.add(short)
        self.announce("inv", self.chosen(seen) if flag else self.snapshot)
        self.reports.append((ending if flag else "fallback", self.capacity, len(self.snapshot), len(asks)))
        self.phase = "idle"


# ---- a session over a wire

def is_done(node, rounds_left, is_over):
    """Whether a session is done, by whether the input is over."""
    if node.end is not None or node.phase != "idle":
        return False
    return rounds_left == 0 if node.role == "opener" else is_over and not node.unread and not node.open_wants()


def outcome_of(node, rounds_left):
    """The status and the text of a session whose input is over."""
    if node.end is not None:
        return 4, f"refused {node.end}\n"
    if not is_done(node, rounds_left, True):
        return 9, f"truncated {node.phase}\n"
    lines = [f"round {i + 1} {' '.join(map(str, report))}\n" for i, report in enumerate(node.reports)]
    return 0, "".join(lines) + f"pool {len(node.pool)}\n"


# ---- messages as lines

def line_of(message):
    name, *fields = message
    if name == "version":
        version, services, time, receiver, sender, nonce, agent, height, relay = fields
        fields = [version, services, time, receiver.hex(), sender.hex(), nonce, agent.hex() or "-", height, "none" if relay is None else relay]
    elif name == "sendtxrcncl":
        fields = [fields[0], f"{fields[1]:016x}"]
    elif name == "reconcildiff":
        fields = [fields[0]] + [f"{short:08x}" for short in fields[1]]
    elif name in LISTS:
        fields = [f"{kind}:{id_.hex()}" for kind, id_ in fields[0]]
    else:
        fields = [field.hex() or "-" if isinstance(field, (bytes, bytearray)) else field for field in fields]
    return " ".join(map(str, [name] + fields))
