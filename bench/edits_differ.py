"""Writes random edits over random networks, each with what the plain model makes of it. The words are the folder of the model, a
seed, and how many edits there are at least.

The networks and most edits are those of the model's generator. Between them stand edits that are mixed from operations that came
before: with other names, other values, and records that go and come in one edit. A line is a word, an event and an answer, with tabs
between them: `do` makes the edit, `try` only plans it, `show` asks for all records."""

import json
import random
import sys

model, seed, count = sys.argv[1], int(sys.argv[2]), int(sys.argv[3])
sys.path[:0] = [model, model + "/fuzz"]
from gen import generate
from ovnb import edits, match
from ovnb.addresses import Prefix
from ovnb.events import FIELDS, read_event
from ovnb.faults import Refused
from ovnb.records import KINDS, Net

PROFILES = ["mixed", "router", "nat", "lb", "acl", "frames", "switch", "match"]
draw = random.Random(f"edits {seed}")

# Values that a rule may refuse, by field.
ODD = {
    "mac": ["01:00:5e:00:00:01", "00:00:00:00:00:00", "0a:00:00:00:00:01", "ff:ff:ff:ff:ff:ff"],
    "networks": [["127.0.0.1/8"], ["10.1.0.254/24", "10.1.0.253/24"], ["10.1.0.254/24", "10.1.0.254/16"], ["0.0.0.1/32"],
                 ["224.0.0.1/4"], ["10.1.0.254/24", "10.2.0.254/24"], ["172.16.0.254/24"], ["10.0.0.0/0"], ["223.1.1.1/31"]],
    "addresses": [["unknown"], ["router"], ["unknown", "router"], ["0a:00:00:00:01:01 10.1.0.1"], ["0a:00:00:00:01:01 10.1.0.254"],
                  ["0a:00:00:00:01:fe"], ["01:00:00:00:00:01"], ["10.1.0.0/24", "0a:00:00:00:00:01"], ["10.1.0.1/24"], [],
                  ["0a:00:00:00:02:02 10.1.0.2 10.1.0.3", "0a:00:00:00:02:01 10.1.0.3 172.16.0.1"], ["10.0.0.1", "10.0.0.2"]],
    "port_security": [["0a:00:00:00:01:01 10.1.0.1/24"], ["0a:00:00:00:01:01 10.1.0.0/24"], ["03:00:00:00:00:00"], []],
    "prefix": ["10.1.0.1/16", "10.1.0.0/16", "0.0.0.0/0", "128.0.0.0/0", "10.1.0.7/32"],
    "nexthop": ["10.1.0.1", "10.9.9.9", "172.16.0.1", "100.64.0.2"],
    "logical_ip": ["10.1.0.0/24", "10.1.0.1/24", "10.1.0.1", "10.1.0.1/32", "0.0.0.0/0"],
    "external_ip": ["172.16.0.254", "172.16.0.100", "10.1.0.1"],
    "match": ["ip4.src != {10.0.0.1, 10.0.0.2, 10.0.0.3} && tcp.dst >= 1024", "tcp.src != {1, 2} && tcp.dst != {1, 2}", "0", "1",
              'outport == "p1" || tcp', "eth.src != {" + ", ".join(map(str, range(1, 24))) + "}", "ip4.src != {1, 2, 3} && tcp",
              "tcp.dst != {1, 2, 3} && udp", "!(tcp.dst > 5 && ip4.src == {1, 2})"],
    "vips": [{}, {"172.16.0.50:80": "10.1.0.1:80"}, {"10.1.0.1:53": "", "10.1.0.50:80": "10.1.0.2:8080,10.1.0.2:8080"}],
    "type": ["", "router", "snat", "dnat", "dnat_and_snat"],
    "protocol": ["tcp", "udp"],
    "chassis": ["h1", "h2"],
    "direction": ["from-lport", "to-lport"],
    "enabled": [True, False],
}


def verb_of(op):
    return next(verb for verb in ("add", "set", "remove") if verb in op)


def generated():
    """Edits and marks of the generator, without what the records of the first requests don't have."""
    for line in generate(seed, 10 * count, PROFILES[seed % len(PROFILES)]):
        try:
            event = json.loads(line)
        except (ValueError, RecursionError):
            continue
        if not isinstance(event, dict):
            continue
        if "health" in event:
            yield "health", event
        ops = event.get("edit")
        if isinstance(ops, list) and all(isinstance(op, dict) for op in ops):
            ops = [op for op in ops if "tier" not in op and op.get("action") != "pass"]
            if ops:
                yield "edit", ops


class Edits:
    def __init__(self):
        self.net = Net()
        self.number = 0
        self.pool = []
        self.counts = {}

    # ---- mixed operations

    def a_name(self, kind):
        """A name of a record of the kind, mostly."""
        kinds = [kind] if draw.random() < 0.93 else list(KINDS)
        names = [name for some in kinds for name in sorted(self.net.by_kind[some])]
        return draw.choice(names) if names and draw.random() < 0.97 else "none"

    def value(self, field, old):
        """Another value of the field: an odd one, or one that an operation had."""
        if field in ("switch", "router", "router_port", "port_group"):
            return self.a_name(field)
        if field in ("peer", "port"):
            return self.a_name("router_port")
        if field in ("switches", "routers"):
            return [self.a_name(field[:-2] if field == "switches" else "router") for _ in range(draw.randrange(3))]
        if field == "match" and draw.random() < 0.3:
            sets, group = self.a_name("address_set"), self.a_name("port_group")
            return draw.choice([f"ip4.src == ${sets}", f"ip4.src != ${sets} || ip4.dst == ${sets}", f"inport == @{group} && tcp",
                                f"!(inport == @{group} && ip4.src != ${sets})", f"eth.src == ${sets}"])
        if field == "ports":
            return [self.a_name("switch_port") for _ in range(draw.randrange(4))]
        had = [op[field] for op in self.pool if field in op and field not in ("add", "set", "remove", "name")]
        values = (ODD.get(field, []) if draw.random() < 0.6 else []) or had or [old]
        return draw.choice(values)

    def changed(self, op):
        op = dict(op)
        kind = op[verb_of(op)]
        if not isinstance(kind, str) or kind not in KINDS:
            return op
        for field in [field.name for field in FIELDS[kind]]:
            given = field in op
            if field != "tier" and draw.random() < (0.3 if given else 0.04):
                op[field] = self.value(field, op.get(field, ""))
        if draw.random() < 0.35:
            op["name"] = draw.choice([self.a_name(kind), "a0", "n1", "zz"])
        return op

    def kinds(self):
        """The kinds of which there are records, or all."""
        return [kind for kind in KINDS if self.net.by_kind[kind]] or list(KINDS)

    def fitting(self, op):
        """The operation, mostly with a name that is free where it adds, and there where it doesn't."""
        verb = verb_of(op)
        kind = op[verb]
        if draw.random() < 0.2 or not isinstance(kind, str) or kind not in KINDS:
            return op
        is_there = op.get("name") in self.net.by_kind[kind]
        if verb == "add" and is_there:
            return dict(op, name=f"x{draw.randrange(9)}")
        if verb != "add" and not is_there:
            return dict(op, name=self.a_name(kind))
        return op

    def removal(self):
        kind = draw.choice(self.kinds())
        return {"remove": kind, "name": self.a_name(kind)}

    def setting(self):
        """New values for a record that is there, mostly."""
        kind = draw.choice([kind for kind in self.kinds() if FIELDS[kind]] or ["acl"])
        op = {"set": kind, "name": self.a_name(kind)}
        for field in FIELDS[kind]:
            if field.settable and field.name != "tier" and draw.random() < 0.5:
                op[field.name] = self.value(field.name, "")
        return op

    def mixed(self):
        ops = []
        for _ in range(draw.choice([1, 1, 1, 2, 2, 3, 5])):
            kind = draw.random()
            if kind < 0.12:
                ops.append(self.removal())
            elif kind < 0.3:
                ops.append(self.setting())
            elif kind < 0.5:
                added = [op for op in self.pool if "add" in op and op.get("name") in self.net.by_kind.get(op["add"], ())]
                if added:
                    again = draw.choice(added)
                    ops += [{"remove": again["add"], "name": again["name"]}, draw.choice([again, self.changed(again)])]
            elif self.pool:
                op = self.fitting(draw.choice(self.pool))
                ops.append(op if draw.random() < 0.4 else self.changed(op))
        return [{key: value for key, value in op.items() if value != ""} for op in ops] or [self.removal()]

    # ---- what the model says

    def owners(self, net):
        rows = [row for kind in KINDS[:2] for row in net.rows(kind)]
        ports = [row for kind in KINDS[2:4] for row in net.rows(kind)]
        return [f"{row.name}@{row.birth}" for row in rows] + [f"{row.datapath}/{row.name}@{row.birth}" for row in ports]

    def answer(self, line, is_made):
        self.number += 1
        try:
            ops = read_event(line.encode()).fields["ops"]
        except Refused:
            return "unread"
        try:
            after = edits.accept(self.net, ops, self.number)
        except Refused as fault:
            return fault.text()
        before, then = self.owners(self.net), self.owners(after)
        gone, come = set(before) - set(then), set(then) - set(before)
        if is_made:
            self.net = after
        return " ".join(["ok"] + ["+" + o for o in then if o in come] + ["-" + o for o in before if o in gone])

    def edit(self, word, ops):
        line = json.dumps({"edit": ops}, separators=(",", ":"))
        answer = self.answer(line, word == "do")
        kind = answer.split(" ")[0]
        self.counts[kind] = self.counts.get(kind, 0) + 1
        print(f"{word}\t{line}\t{answer}")
        if answer != "unread":
            self.pool += ops
            del self.pool[:-400]

    def health(self, event):
        """Marks a backend, where it is there."""
        line = json.dumps(event, separators=(",", ":"))
        try:
            mark = read_event(line.encode()).fields
        except Refused:
            return
        row = self.net.get("load_balancer", mark["balancer"])
        if row is None or not row.lists(mark["backend"]):
            return
        self.number += 1
        one = frozenset({(mark["balancer"], mark["backend"])})
        draft = self.net.draft()
        draft.offline = self.net.offline - one if mark["online"] else self.net.offline | one
        self.net = draft
        print(f"do\t{line}\tok")

    # ---- all records in words

    def show(self):
        shown = [" ".join(map(str, words(row))) for kind in KINDS for row in self.net.rows(kind)]
        marks = sorted((name, backend.ip, backend.port) for name, backend in self.net.offline)
        shown += [f"offline {name} {ip}:{port}" for name, ip, port in marks]
        print("show\t\t" + "".join("|" + text for text in shown))


def given(value):
    return "-" if value is None else value


def prefixes(values):
    return ",".join(f"{value.addr}/{value.len}" if isinstance(value, Prefix) else str(value) for value in values)


def entry(value):
    if isinstance(value, str):
        return value
    ips = ",".join(map(str, value.ips))
    return f"{value.mac}={ips}"


def words(row):
    head = [row.kind, row.name, row.birth]
    if row.kind == "switch":
        return head
    if row.kind == "router":
        return head + [given(row.chassis)]
    if row.kind == "router_port":
        return head + [row.router, row.mac, prefixes(row.networks), given(row.peer)]
    if row.kind == "switch_port":
        security = ";".join(f"{one.mac}={prefixes(one.ips)}" for one in row.port_security)
        entries = ";".join(map(entry, row.addresses))
        return head + [row.switch, int(row.is_virtual), given(row.router_port), entries, security, int(row.enabled)]
    if row.kind == "address_set":
        return head + [prefixes(row.addresses)]
    if row.kind == "port_group":
        return head + [",".join(row.ports)]
    if row.kind == "acl":
        return head + [given(row.switch), given(row.port_group), row.direction, row.priority, match.show(row.match), row.action]
    if row.kind == "route":
        return head + [row.router, prefixes([row.prefix]), row.nexthop]
    if row.kind == "nat":
        return head + [row.router, row.type, row.external_ip, prefixes([row.logical_ip])]
    if row.kind == "load_balancer":
        vips = sorted((vip.ip, vip.port, ",".join(f"{one.ip}:{one.port}" for one in backends)) for vip, backends in row.vips)
        texts = ";".join(f"{ip}:{port}={backends}" for ip, port, backends in vips)
        return head + [row.protocol, texts, ",".join(row.switches), ",".join(row.routers)]
    return head + [row.port, row.ip, row.mac]


run = Edits()
made = 0
for word, what in generated():
    if word == "health":
        run.health(what)
        continue
    run.edit("do", what)
    made += 1
    for _ in range(draw.randrange(5)):
        run.edit(draw.choices(["try", "do"], [5, 1])[0], run.mixed())
        made += 1
    if draw.random() < 0.2:
        run.show()
    if made >= count:
        break
run.show()
print(f"seed {seed}: " + ", ".join(f"{kind} {number}" for kind, number in sorted(run.counts.items())), file=sys.stderr)
