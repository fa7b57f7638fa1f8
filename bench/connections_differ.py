"""Writes random calls on one list of connections, each with what the plain model's list answers. Behind each call stands what that
list says then of the tuples that the call names, with their entries, and behind each 50th what it says of all tuples that a call may
name. The words are the folder of the model, a seed, how many calls there are, and maybe `full`: then the list is all but full at first."""

import random
import sys

model, seed, count = sys.argv[1], int(sys.argv[2]), int(sys.argv[3])
sys.path.insert(0, model)
from ovnb.conntrack import INVALID, NEW, CommitRefused, ConnList, Tuple, translate
from ovnb.packet import Fragment, Icmp, Ip4, Other, OtherIp, Packet, Tcp, Udp, decode, encode, ones_sum

NUMBERS = {"tcp": 0, "udp": 1, "echo-request": 2, "echo-reply": 3}
LIMITS = {"tcp": 300, "udp": 60}
MOST = 65_536


def words_of(key):
    kind = NUMBERS[key.protocol] if isinstance(key.protocol, str) else 4 + key.protocol
    return f"{kind} {key.src} {key.src_port} {key.dst} {key.dst_port}"


def part_of(key, draw):
    """A protocol number and a transport part of the tuple, any sum in it."""
    total = draw.choice([0, 0xFFFF, draw.getrandbits(16)])
    if key.protocol == "tcp":
        return 6, Tcp(key.src_port, key.dst_port, b"\0" * 12, total, 0)
    if key.protocol == "udp":
        return 17, Udp(key.src_port, key.dst_port, 8, total)
    if isinstance(key.protocol, str):
        return 1, Icmp(8 if key.protocol == "echo-request" else 0, 0, total, key.src_port, b"\0\1")
    return key.protocol, OtherIp()


def packet_of(key, draw):
    """A packet of the tuple."""
    proto, part = part_of(key, draw)
    tail = draw.randbytes(draw.choice([0, 1, 5, 6]))
    body = Ip4(draw.getrandbits(8), 0, draw.getrandbits(16), draw.choice([0, 0x4000]), draw.getrandbits(8), proto, 0,
               key.src, key.dst, draw.choice([b"", b"\1\1\1\0"]), part)
    packet = Packet(draw.getrandbits(48), draw.getrandbits(48), body, tail)
    body.total = len(encode(packet)) - 14
    header = encode(packet)[14:34 + len(body.options)]
    body.sum = ~ones_sum(header) & 0xFFFF
    packet.tail += draw.randbytes(draw.choice([0, 0, 3]))
    return packet


def strange_packet(key, draw):
    """A packet without a tuple."""
    packet = packet_of(key, draw)
    kind = draw.randrange(3)
    if kind == 0:
        return Packet(packet.dst, packet.src, Other(0x88B5), packet.tail)
    if kind == 1:
        packet = packet_of(key._replace(protocol="echo-request"), draw)
        packet.body.part.kind = draw.choice([3, 8])
        packet.body.part.code = 1
        return packet
    header = packet.body
    header.frag, header.sum, header.part = draw.choice([1, 0x2000]), 0, Fragment()
    header.total = 20 + len(header.options) + len(packet.tail)
    header.sum = ~ones_sum(encode(packet)[14:34 + len(header.options)]) & 0xFFFF
    return packet


class Calls:
    """The calls of one seed, and what the model says of each of them."""

    def __init__(self, seed, is_full):
        self.draw = random.Random(seed)
        self.is_full = is_full
        self.list = ConnList()
        self.kinds = {}
        self.now = 0
        self.packets = {}
        self.keys = self.few_keys()

    def few_keys(self):
        ends = self.draw.sample([0x0A000001, 0x0A000002, 0xC0000209, 0, 0xFFFFFFFF], 2)
        ports = self.draw.sample([0, 53, 1024, 40000, 65535], 2)
        pairs = [(a, b) for a in ends for b in ends]
        keys = [Tuple(kind, a, p, b, q) for kind in ("tcp", "udp") for a, b in pairs for p in ports for q in ports]
        keys += [Tuple(kind, a, p, b, p) for kind in ("echo-request", "echo-reply") for a, b in pairs for p in ports]
        return keys + [Tuple(kind, a, 0, b, 0) for kind in (47, 6, 17) for a, b in pairs]

    def seen(self, key):
        if key not in self.packets:
            self.packets[key] = packet_of(key, self.draw)
        return self.list.seen(self.packets[key])

    def state(self, seen):
        state, entry = seen
        if entry is None:
            return f" {state}"
        return f" {state} {words_of(entry.forward)} {words_of(entry.reply)} {int(entry.blocked)} {entry.used}"

    def add(self, line, answer, *named):
        kind = " ".join([line.split()[0], *answer.split()[:1]])
        self.kinds[kind] = self.kinds.get(kind, 0) + 1
        print(f"{line}\t{answer}")
        for key in named:
            self.show(key)

    def show(self, key):
        print(f"find {words_of(key)}\t{self.state(self.seen(key))}")

    def show_all(self):
        for key in self.keys:
            self.show(key)

    def fill(self, entries):
        """Begins so many connections that none of the calls names."""
        for port in range(entries):
            key = Tuple("tcp", 0xC6336401, port, 0xC6336402, 443)
            self.list.commit(key, key.reverse(), 0)
            self.add(f"commit {words_of(key)} {words_of(key.reverse())} 0", " added")

    def time(self):
        """Mostly a little later than the last time; in a full list so early that it stays full."""
        if self.is_full:
            return self.draw.randrange(LIMITS["tcp"])
        if self.draw.random() < 0.05:
            return self.draw.choice([0, 29, 30, 2**64 - 1, 2**64 - 31, self.draw.getrandbits(64)])
        self.now += self.draw.choice([0, 0, 1, 1, 2, 10, 29])
        return self.now

    def end_of(self, key):
        """Just before or at the end of the connection of the tuple, where it has one."""
        entry = self.seen(key)[1]
        if entry is None or self.is_full:
            return self.time()
        return max(0, min(2**64 - 1, entry.used + LIMITS.get(entry.forward.protocol, 30) + self.draw.choice([-1, 0])))

    def commit(self, key):
        now = self.time()
        alike = [other for other in self.keys if other.protocol == key.reverse().protocol]
        reply = key.reverse() if self.draw.random() < 0.5 else self.draw.choice(alike)
        if key.protocol == "echo-reply":
            answer = "no-pair"
        elif self.seen(key)[0] != NEW:
            answer = "not-new"
        else:
            try:
                self.list.commit(key, reply, now)
                answer = "added"
            except CommitRefused as refused:
                answer = refused.cause
        self.add(f"commit {words_of(key)} {words_of(reply)} {now}", f" {answer}", key, reply)

    def translate(self, key):
        packet = (packet_of if self.draw.random() < 0.8 else strange_packet)(key, self.draw)
        frame = encode(packet)
        packet = decode(frame)
        seen = self.list.seen(packet)
        answer = self.state(seen)
        if seen[1] is not None:
            translate(*seen, packet)
        self.add("translate " + " ".join(map(str, frame)), f"{answer} {list(encode(packet))}", key)

    def call(self):
        held = [key for key in self.keys if not self.list.is_free(key)]
        key = self.draw.choice(held if held and self.draw.random() < 0.4 else self.keys)
        kind = self.draw.choices(["find", "free", "commit", "touch", "block", "expire", "translate", "clear", "none"],
                                 [5, 5, 35, 10, 10, 0.5 if self.is_full else 6, 25, 0 if self.is_full else 0.2, 1])[0]
        entry = self.seen(key)[1]
        if kind == "find":
            self.add(f"find {words_of(key)}", self.state(self.seen(key)))
        elif kind == "none":
            self.add("find", self.state((INVALID, None)))
        elif kind == "free":
            self.add(f"free {words_of(key)}", f" {str(self.list.is_free(key)).lower()}", key)
        elif kind == "commit":
            self.commit(key)
        elif kind == "translate":
            self.translate(key)
        elif kind == "touch":
            now = self.time()
            if entry:
                entry.used = now
            self.add(f"touch {words_of(key)} {now}", "", key)
        elif kind == "block":
            on = self.draw.randrange(2)
            if entry:
                entry.blocked = bool(on)
            self.add(f"block {words_of(key)} {on}", "", key)
        elif kind == "clear":
            self.list = ConnList()
            self.add("clear", "", key)
        else:
            now = self.end_of(key)
            self.list.expire(now)
            self.add(f"expire {now}", "", key)


calls = Calls(seed, sys.argv[4:] == ["full"])
if calls.is_full:
    calls.fill(MOST - 8)
for at in range(count):
    calls.call()
    if at % 50 == 49:
        calls.show_all()
print(f"seed {seed}: " + ", ".join(f"{kind} {number}" for kind, number in sorted(calls.kinds.items())), file=sys.stderr)
