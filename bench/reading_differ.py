"""Writes lines, each as its bytes in hexadecimal digits and behind a tab what the plain model's reader gives: a fault with its field or
place, or the event in a text of fields. A third are lines of the model's generator, half of them of faults and half of matches; the
others are good lines of all its profiles, each changed once or more. The words are the folder of the model, a seed, and how many lines
there are. Tiers, which the model has and the reader does not, are taken out of the model's table; and a number without a digit behind its
point is no JSON, as it is for the toolchain's `serde_json`, which is a later one than the model's."""

import copy
import json
import random
import sys

model, seed, count = sys.argv[1], int(sys.argv[2]), int(sys.argv[3])
sys.path[:0] = [model, f"{model}/fuzz"]
sys.setrecursionlimit(20_000)
import gen
from ovnb import addresses, events, match, strictjson
from ovnb.faults import Refused

GOOD = ("switch", "acl", "router", "nat", "lb", "frames", "mixed", "wild")


# --- What the model says ---


def without_tiers():
    """The table of fields with no `tier` and without the action `pass`."""
    actions = [action for action in events.ACTIONS if action != "pass"]
    rows = [row for row in events.FIELDS["acl"] if row.name != "tier"]
    events.FIELDS["acl"] = [row._replace(read=events.one_of(*actions)) if row.name == "action" else row for row in rows]


def decimals(reader, significand, exponent):
    """Behind the point of a number, where there is at least one digit."""
    reader.at += 1
    if not reader.is_digit():
        raise strictjson.BadJson("no digit after the point")
    while reader.is_digit():
        digit = reader.peek() - 48
        if significand * 10 + digit > 2**64 - 1:
            while reader.is_digit():
                reader.at += 1
            break
        reader.at += 1
        significand = significand * 10 + digit
        exponent -= 1
    return reader.after_decimals(significand, exponent)


def list_text(items, text):
    return "[" + ",".join(text(item) for item in items) + "]"


def port_address_text(entry):
    if isinstance(entry, str):
        return entry
    return addresses.show_mac(entry.mac) + list_text(entry.ips, addresses.show_ip4)


def security_text(entry):
    return addresses.show_mac(entry.mac) + list_text(entry.ips, addresses.show_prefix)


def set_entry_text(entry):
    return addresses.show_mac(entry) if isinstance(entry, int) else addresses.show_prefix(entry)


def vip_text(vip):
    return addresses.show_backend(vip[0]) + list_text(vip[1], addresses.show_backend)


def flag_text(flag):
    return "true" if flag else "false"


def names_text(names):
    return list_text(names, str)


TEXTS = {
    "mac": addresses.show_mac, "networks": lambda value: list_text(value, addresses.show_prefix),
    "port_security": lambda value: list_text(value, security_text), "enabled": flag_text, "ports": names_text,
    "match": match.show, "prefix": addresses.show_prefix, "nexthop": addresses.show_ip4,
    "external_ip": addresses.show_ip4, "logical_ip": addresses.show_prefix, "ip": addresses.show_ip4,
    "vips": lambda value: list_text(sorted(value), vip_text), "switches": names_text, "routers": names_text,
    "backend": addresses.show_backend, "online": flag_text, "frame": lambda frame: frame.hex(),
}


def value_text(kind, name, value):
    if value is None:
        return "-"
    if name == "addresses":
        return list_text(value, set_entry_text if kind == "address_set" else port_address_text)
    if name == "frame" and isinstance(value, int) or name == "ports" and kind == "keys":
        return str(value)
    return TEXTS.get(name, str)(value)


def op_text(op):
    known = [row.name for row in events.FIELDS[op.kind] if op.verb == "add" or op.verb == "set" and row.settable]
    fields = "".join(f" {name}={value_text(op.kind, name, op.fields.get(name))}" for name in known)
    return f" {op.verb} {op.kind} {op.name}{fields}"


def event_text(event):
    if event.what == "edit":
        return "edit" + list_text(event.fields["ops"], op_text)
    return event.what + "".join(f" {name}={value_text(event.what, name, value)}" for name, value in event.fields.items())


def fault_text(words):
    if words[0] == "BadMatch":
        return " ".join(map(str, words))
    if len(words) == 1:
        return words[0]
    plain = b"abcdefghijklmnopqrstuvwxyzABCDEFGHIJKLMNOPQRSTUVWXYZ0123456789_.:-"
    return words[0] + " " + "".join(chr(byte) if byte in plain else f"%{byte:02x}" for byte in words[1].encode())


def answer(line):
    try:
        return event_text(events.read_event(line))
    except Refused as refused:
        return fault_text(refused.words)


# --- Lines that are changed ---


class Raw(str):
    """A value as it is to be written."""


class Object(list):
    """The members of an object, of which two may have one name."""


NUMBERS = [Raw(text) for text in (
    "0", "-0", "1", "-1", "0.0", "1.0", "1e0", "1E2", "10e-1", "1e400", "-1e400", "1e-400", "0e400", "1.5", "16", "17", "64", "65", "32767",
    "32768", "65535", "65536", "1000000", "1000001", "16777215", "16777216", "4294967295", "4294967296", "9223372036854775807",
    "9223372036854775808", "-9223372036854775808", "-9223372036854775809", "18446744073709551615", "18446744073709551616",
    "18446744073709551615.0", "340282366920938463463374607431768211456", "01", "-01", "00", "+1", "1.", ".5", "-", "1e", "1e+", "0x10", "1_0",
    "1.7976931348623157e308", "1.7976931348623159e308", "1e99999999999", "1e-99999999999", "NaN", "Infinity", "1 2")]
KINDS = [True, False, None, Raw("5"), Raw("-5"), Raw("1.5"), "", "x", [], [[]], ["a"], [None], Object(), Object([("a", "b")]),
         Object([("10.0.0.1:80", "10.0.0.2:80")]), Raw("tru"), Raw("nul"), Raw("'x'"), Raw("[1,]"), Raw('{"a":1,}'), Raw("[1 2]")]
TEXT = ["", " ", "router", "unknown", "snat", "dnat", "dnat_and_snat", "tcp", "udp", "from-lport", "to-lport", "allow", "allow-related",
        "allow-stateless", "drop", "reject", "pass", "p1", "s0", "a b", "\u00e9", "\U0001d11e", "\0", "n" * 63, "n" * 64, "n" * 65,
        "\u00e9" * 32, "_.:-", "10.0.0.1", "10.0.0.1/24", "10.0.0.1/0", "10.0.0.1/32", "10.0.0.1/33", "10.0.0.1/024", "10.0.0.1/",
        "10.0.0.01", "10.0.0.256", "10.0.0", "10.0.0.1.2", "255.255.255.255", "10.0.0.1:80", "10.0.0.1:0", "10.0.0.1:080", "10.0.0.1:65535",
        "10.0.0.1:65536", "10.0.0.1:", ":80", "10.0.0.1:80,10.0.0.2:80", "10.0.0.1:80, 10.0.0.2:80", "10.0.0.1:80,", ",",
        "0a:00:00:00:00:01", "0A:0b:00:00:00:FF", "0a:00:00:00:00:1", "0a-00-00-00-00-01", "0a:00:00:00:00:01 10.0.0.1",
        "0a:00:00:00:00:01 10.0.0.1 10.0.0.2", "0a:00:00:00:00:01  10.0.0.1", "0a:00:00:00:00:01 ", " 0a:00:00:00:00:01",
        "0a:00:00:00:00:01 10.0.0.0/8", "ip4", "1", 'outport == "p1"', 'inport == "p1"', "ip4 && tcp || udp", "tcp.dst == 80 && foo",
        "(" * 64 + "1" + ")" * 64, "(" * 65 + "1" + ")" * 65, "!" * 65 + "1", "00", "0", "0g", "aAbBcC", "00" * 9216, "switch", "acl"]
NAMES = ["add", "set", "remove", "name", "zz", "aa", "a b", "", "\u00e9", "A", "~", "switch", "port_group", "router", "router_port", "type", "tier",
         "chassis", "peer", "protocol", "priority", "direction", "match", "action", "enabled", "addresses", "networks", "frame", "port", "n" * 65]


def members_of(value):
    """The value with objects as lists of members."""
    if isinstance(value, dict):
        return Object((name, members_of(inner)) for name, inner in value.items())
    if isinstance(value, list):
        return [members_of(inner) for inner in value]
    return value


class Writer:
    """Writes values, some of them with blanks and escapes."""

    def __init__(self, draw, is_plain):
        self.draw, self.is_plain = draw, is_plain

    def blank(self):
        return "" if self.is_plain or self.draw.random() < 0.8 else self.draw.choice([" ", "\t", "\r", "\n", "  ", "\v", "\f"])

    def text(self, text):
        if self.is_plain or self.draw.random() < 0.7:
            return json.dumps(text, ensure_ascii=self.draw.random() < 0.5)
        return '"' + "".join(json.dumps(c)[1:-1] if self.draw.random() < 0.8 or ord(c) > 0xFFFF else f"\\u{ord(c):04X}" for c in text) + '"'

    def value(self, value):
        if isinstance(value, Raw):
            return str(value)
        if isinstance(value, str):
            return self.text(value)
        if isinstance(value, Object):
            return "{" + ",".join(f"{self.blank()}{self.text(k)}{self.blank()}:{self.blank()}{self.value(v)}" for k, v in value) + "}"
        if isinstance(value, list):
            return "[" + ",".join(self.blank() + self.value(inner) + self.blank() for inner in value) + "]"
        return json.dumps(value)


class Changes:
    """Changes of one line's value, and of its bytes."""

    def __init__(self, draw):
        self.draw = draw
        self.kinds = {}

    def places(self, value, found):
        """Each object and array in the value that has something in it."""
        if isinstance(value, list) and value:
            found.append(value)
            for inner in value:
                self.places(inner[1] if isinstance(value, Object) else inner, found)
        return found

    def nested(self):
        depth = self.draw.choice([1, 2, 60, 119, 120, 121, 122, 123, 124, 125, 126, 127, 128, 129, 200])
        if self.draw.random() < 0.5:
            return Raw("[" * depth + "]" * depth)
        return Raw('{"a":' * depth + "1" + "}" * depth)

    def value(self):
        draw = self.draw.random()
        if draw < 0.3:
            return self.draw.choice(NUMBERS)
        if draw < 0.75:
            return self.draw.choice(TEXT)
        if draw < 0.8:
            return self.nested()
        if draw < 0.9:
            return copy.deepcopy([self.draw.choice(TEXT + KINDS) for _ in range(self.draw.choice([1, 1, 2, 16, 17]))])
        return copy.deepcopy(self.draw.choice(KINDS))

    def member(self, members):
        """One change of an object's members."""
        at = self.draw.randrange(len(members))
        name, value = members[at]
        kind = self.draw.choices(["twice", "again", "gone", "other", "more", "named", "moved"], [2, 2, 3, 7, 3, 2, 1])[0]
        if kind == "twice":
            members.insert(self.draw.randrange(len(members) + 1), (name, copy.deepcopy(value)))
        elif kind == "again":
            members.insert(self.draw.randrange(len(members) + 1), (name, self.value()))
        elif kind == "gone":
            del members[at]
        elif kind == "other":
            members[at] = (name, self.value())
        elif kind == "more":
            members.insert(self.draw.randrange(len(members) + 1), (self.draw.choice(NAMES), self.value()))
        elif kind == "named":
            members[at] = (self.draw.choice(NAMES), value)
        else:
            members.insert(self.draw.randrange(len(members)), members.pop(at))
        return kind

    def element(self, items):
        """One change of an array's elements."""
        at = self.draw.randrange(len(items))
        kind = self.draw.choices(["twice", "gone", "other", "many"], [2, 2, 5, 1])[0]
        if kind == "twice":
            items.insert(at, copy.deepcopy(items[at]))
        elif kind == "gone":
            del items[at]
        elif kind == "other":
            items[at] = self.value()
        else:
            number = self.draw.choice([16, 17, 64, 65])
            items[:] = [copy.deepcopy(items[at % len(items)]) for at in range(number)]
        return f"array-{kind}"

    def bytes(self, line):
        """One change of the line's bytes."""
        line = bytearray(line)
        at = self.draw.randrange(len(line))
        kind = self.draw.choice(["byte", "byte-gone", "byte-more", "cut", "text", "behind"])
        if kind == "byte":
            line[at] = self.draw.choice([self.draw.randrange(256), line[at] ^ 1 << self.draw.randrange(8), *b'"\\{}[],: 0'])
        elif kind == "byte-gone":
            del line[at]
        elif kind == "byte-more":
            line.insert(at, self.draw.choice([self.draw.randrange(256), *b'"\\{}[],: 0']))
        elif kind == "cut":
            del line[at:]
        elif kind == "text":
            line[at:at] = self.draw.choice([b"\\ud834\\udd1e", b"\\ud834", b"\\udd1e", b"\\u12", b"\\x", b"\xc3\xa9", b"\xed\xa0\x80", b"\xf4\x90\x80\x80",
                                            b"\\/", b"\\b", b"\xef\xbb\xbf", b"//", b"\x7f", b"\x1f"])
        else:
            line += self.draw.choice([b" ", b"\t\r\n", b"x", b"{}", b",", b"\0", b"\x0b"])
        self.kinds[kind] = self.kinds.get(kind, 0) + 1
        return bytes(line)

    def changed(self, line):
        if self.draw.random() < 0.15:
            return self.bytes(line)
        value = members_of(json.loads(line))
        for _ in range(self.draw.choice([1, 1, 1, 2, 2, 3])):
            place = self.draw.choice(self.places(value, []) or [value])
            if not place:
                continue
            kind = self.member(place) if isinstance(place, Object) else self.element(place)
            self.kinds[kind] = self.kinds.get(kind, 0) + 1
        line = Writer(self.draw, self.draw.random() < 0.7).value(value).encode()
        return self.bytes(line) if self.draw.random() < 0.05 else line


def good_lines(profile, number):
    """Lines of the profile, mostly edits, since other events have few fields."""
    draw = random.Random(f"good-{profile}-{seed}")
    lines = [line for line in gen.generate(seed, number, profile) if line.strip(b" \t\r")]
    return [line for line in lines if line.startswith(b'{"edit"') or draw.random() < 0.3]


def lines_of_seed():
    for profile in ("faults", "match"):
        yield from gen.generate(seed, count // 6, profile)[:count // 6]
    good = {profile: good_lines(profile, 600) for profile in GOOD}
    without_tiers()
    strictjson._Reader.decimals = decimals
    draw = random.Random(f"reading-{seed}")
    changes = Changes(draw)
    for _ in range(count - 2 * (count // 6)):
        line = draw.choice(good[draw.choice(GOOD)])
        try:
            json.loads(line)
        except ValueError:
            continue
        yield changes.changed(line)
    print(f"seed {seed} changes: " + ", ".join(f"{kind} {number}" for kind, number in sorted(changes.kinds.items())), file=sys.stderr)


lines = list(lines_of_seed())
answers = {}
for line in lines:
    # a feed in a quoted name of a match would end the line of the answer
    said = answer(line).replace("\n", "\\n")
    word = said.split()[0] if said else said
    answers[word] = answers.get(word, 0) + 1
    print(f"{line.hex()}\t{said}")
print(f"seed {seed} answers: " + ", ".join(f"{word} {number}" for word, number in sorted(answers.items())), file=sys.stderr)
