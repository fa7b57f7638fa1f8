"""Writes edits that make a random network, and now and then all rows of its datapaths, compiled here from the tables of stages alone. The
words are the folder of the model, a seed, and how many edits there are, or a few more.

Most edits are those of the model's generator; between them stand ports, rules, groups, balancers and translations that it makes
seldom. Only edits without a fault are written. A line is a word and what belongs to it, with tabs between them: `do` has an edit, `mark`
says that a backend is offline or online, and `flows` has all rows in order of their bytes.

A row is written as a logical flow of one datapath, behind the unit that has it: a port, a rule on a switch, a switch, a router, a route,
a neighbour of a router's port, a row of NAT, or a balancer on a switch or router. The rows of a unit are a set: entries of a port that
repeat an address make one row. Equal rows of two units, as of two equal rules, are two lines here, since their units differ; in the
program they are one flow."""

import json
import random
import sys
from collections import Counter

model, seed, count = sys.argv[1], int(sys.argv[2]), int(sys.argv[3])
sys.path[:0] = [model, f"{model}/fuzz"]
from gen import generate
from ovnb import edits, match
from ovnb.events import read_event
from ovnb.faults import Refused
from ovnb.records import Net, PortAddress

PROFILES = ["mixed", "acl", "switch", "wild", "lb", "router", "match", "nat"]
draw = random.Random(f"flows {seed}")


# ---- addresses and matches in words


def ip_text(number):
    return ".".join(str(byte) for byte in number.to_bytes(4, "big"))


def ether_text(number):
    return number.to_bytes(6, "big").hex(":")


def prefix_text(address, length):
    return ip_text(address) if length == 32 else f"{ip_text(address)}/{length}"


def number_text(bits, number, mask):
    """A number of so many bits, with its mask where this hasn't all of them."""
    if bits == 32:
        length = mask.bit_count()
        if mask == (1 << 32) - (1 << 32 - length):
            return prefix_text(number, length)
    write = {32: ip_text, 48: ether_text}.get(bits, str)
    return write(number) if mask == (1 << bits) - 1 else f"{write(number)}/{write(mask)}"


def bits_of(field):
    layer, part = field.split(".")
    if layer == "eth" and part != "type" or part in ("sha", "tha"):
        return 48
    if layer == "ip4" or part in ("spa", "tpa"):
        return 32
    return 8 if layer in ("ip", "icmp4") else 16


def value_text(field, value):
    if isinstance(value, match.Port):
        return f'"{value.name}"'
    if isinstance(value, match.SetName):
        return "$" + value.name
    if isinstance(value, match.GroupName):
        return "@" + value.name
    return number_text(bits_of(field), value.bits, value.mask)


def is_joined(expr):
    return isinstance(expr, (match.All, match.Any))


def term_text(expr):
    return f"({expr_text(expr)})" if is_joined(expr) else expr_text(expr)


def expr_text(expr):
    if isinstance(expr, match.Const):
        return "1" if expr.value else "0"
    if isinstance(expr, match.Is):
        return expr.predicate
    if isinstance(expr, match.Not):
        return "!" + term_text(expr.term)
    if is_joined(expr):
        sign = " && " if isinstance(expr, match.All) else " || "
        return sign.join(map(term_text, expr.terms))
    values = [value_text(expr.field, value) for value in expr.values]
    return f"{expr.field} {expr.rel} " + (values[0] if len(values) == 1 else "{" + ", ".join(values) + "}")


def matching_text(expr):
    """The match of a row without registers, where only alternatives stand in parentheses."""
    return f"({expr_text(expr)})" if isinstance(expr, match.Any) else expr_text(expr)


# ---- rows

# Of each stage its pipeline, and the table at which a packet that passes it goes on.
STAGES = {
    "s_admit": ("ingress", 9), "s_port_sec": ("ingress", 10), "s_track": ("ingress", 11), "s_acl_in": ("ingress", 12),
    "s_state_in": ("ingress", 13), "s_arp": ("ingress", 14), "s_lookup": ("ingress", None),
    "s_track_out": ("egress", 41), "s_acl_out": ("egress", 42), "s_state_out": ("egress", 43), "s_sec_out": ("egress", 64),
    "r_admit": ("ingress", 9), "r_input": ("ingress", 10), "r_undo": ("ingress", 11), "r_dnat": ("ingress", 12),
    "r_own": ("ingress", 13), "r_route": ("ingress", 14), "r_neighbour": ("ingress", None), "r_find": ("egress", 41),
    "r_snat": ("egress", 64),
}
REGISTERS = ["next", "state", "verdict", "tracked", "blocked", "own"]
VERDICTS = {"allow": 1, "allow-related": 2, "allow-stateless": 3, "reject": 4, "drop": 5}
RANKS = {"drop": 6, "reject": 5, "allow-stateless": 4, "allow-related": 3, "allow": 2}
DELIVER = "go 32"
FLOOD_GROUP, UNKNOWN_GROUP = 32768, 32769
GROUP_SENDER = "eth.src == 01:00:00:00:00:00/01:00:00:00:00:00"
ADDRESS_REQUEST = "ip4.src == 0.0.0.0 && ip4.dst == 255.255.255.255 && udp.src == 68 && udp.dst == 67"
FAR_TARGETS = "ip4.dst == {224.0.0.0/4, 255.255.255.255}"
NOT_ROUTED = "{0.0.0.0/8, 127.0.0.0/8, 224.0.0.0/4, 255.255.255.255}"


class Unit:
    """The rows of a unit on a switch or router, each as a line."""

    def __init__(self, name, datapath):
        self.name, self.datapath, self.lines = name, datapath, set()

    def put(self, stage, priority, terms, actions, registers=None, rank=0):
        """Puts a row whose match is all of the terms and registers; the action `pass` goes on at the next table."""
        pipeline, next_table = STAGES[stage]
        held = [f"{register} == {registers[register]}" for register in REGISTERS if register in (registers or {})]
        whole = " && ".join(held + terms) or "1"
        done = ";".join(f"go {next_table}" if action == "pass" else action for action in actions)
        place = f"{self.name}: {pipeline} {stage} priority={priority} rank={rank} datapaths={self.datapath}"
        self.lines.add(f"{place} match={whole} actions={done}")


# ---- what rows read of the records


def rules_on(net, switch):
    """The rules of the switch, and of each group with a port of it."""
    ports, groups = net.by_kind["switch_port"], net.by_kind["port_group"]
    for rule in net.rows("acl"):
        members = groups[rule.port_group].ports if rule.port_group else []
        if rule.switch == switch or any(ports[name].switch == switch for name in members):
            yield rule


def is_stateful(net, switch):
    return any(rule.action == "allow-related" for rule in rules_on(net, switch))


def has_balancer(net, switch):
    return any(switch in balancer.switches for balancer in net.rows("load_balancer"))


def has_unknown(net, switch):
    return any(port.switch == switch and port.enabled and "unknown" in port.addresses for port in net.rows("switch_port"))


def ethers(net, port):
    """Its Ethernet addresses; the word `router` stands for its partner's."""
    for entry in port.addresses:
        if isinstance(entry, PortAddress):
            yield entry.mac
        elif entry == "router":
            yield partner(net, port).mac


def pairs(port):
    """Each IP of the port with the Ethernet address of the first entry that has it."""
    found = {}
    for entry in port.addresses:
        if isinstance(entry, PortAddress):
            for ip in entry.ips:
                found.setdefault(ip, entry.mac)
    return found.items()


def holds(prefix, ip):
    return ip >> 32 - prefix.len == prefix.addr >> 32 - prefix.len


def answered(net, port):
    """The IPs for which a router's port answers: its own, and those of its router's translations and balancers that are near."""
    outer = {row.external_ip for row in net.rows("nat") if row.router == port.router}
    for balancer in net.rows("load_balancer"):
        if port.router in balancer.routers:
            outer |= {vip.ip for vip, _backends in balancer.vips}
    near = {ip for ip in outer for network in port.networks if holds(network, ip)}
    return near | {network.addr for network in port.networks}


def partner(net, port):
    """The router's port behind a port of a switch."""
    return net.by_kind["router_port"][port.router_port]


def is_translating(net, router):
    """A gateway with a translation or a balancer."""
    translations = any(row.router == router.name for row in net.rows("nat"))
    return router.chassis is not None and (translations or any(router.name in row.routers for row in net.rows("load_balancer")))


def exit_of(net, route):
    """The port with the longest network that holds the route's next hop."""
    near = [(network.len, port) for port in net.rows("router_port") if port.router == route.router
            for network in port.networks if holds(network, route.nexthop)]
    return max(near, key=lambda one: one[0], default=(0, None))[1]


def on_switch(net, port, switch, ip):
    """The Ethernet address of a port of the switch that has the IP, a virtual one first, or of another router's port that answers there."""
    enabled = [one for one in net.rows("switch_port") if one.switch == switch and one.enabled]
    found = [dict(pairs(one))[ip] for one in enabled if one.is_virtual and ip in dict(pairs(one))]
    routers = [partner(net, one) for one in enabled if not one.is_virtual]
    found += [one.mac for one in routers if one.name != port.name and ip in answered(net, one)]
    return found[0] if found else None


def neighbour(net, port, ip):
    """The Ethernet address at which the router's port reaches the IP."""
    for row in net.rows("static_mac"):
        if (row.port, row.ip) == (port.name, ip):
            return row.mac
    for one in net.rows("switch_port"):
        if one.router_port == port.name:
            return on_switch(net, port, one.switch, ip)
    for one in net.rows("router_port"):
        if port.peer == one.name or one.peer == port.name:
            return one.mac if ip in answered(net, one) else None
    return None


# ---- rows of a port


def security_in(unit, entry, here):
    sender = [here, f"eth.src == {ether_text(entry.mac)}"]
    own_request = f"arp.sha == {ether_text(entry.mac)}"
    if not entry.ips:
        unit.put("s_port_sec", 90, sender + ["ip4"], ["pass"])
        unit.put("s_port_sec", 90, sender + [own_request], ["pass"])
    for address, length in entry.ips:
        ip = prefix_text(address, length)
        unit.put("s_port_sec", 90, sender + [f"ip4.src == {ip}"], ["pass"])
        unit.put("s_port_sec", 90, sender + [own_request, f"arp.spa == {ip}"], ["pass"])
    if entry.ips:
        unit.put("s_port_sec", 90, sender + [ADDRESS_REQUEST], ["pass"])
    unit.put("s_port_sec", 85, sender + ["(ip4 || arp)"], ["drop port-security"])
    unit.put("s_port_sec", 80, sender, ["pass"])


def security_out(unit, entry, here):
    receiver = [here, f"eth.dst == {ether_text(entry.mac)}"]
    unit.put("s_sec_out", 90, [here, "eth.mcast"], ["pass"])
    if not entry.ips:
        unit.put("s_sec_out", 80, receiver, ["pass"])
    for address, length in entry.ips:
        unit.put("s_sec_out", 80, receiver + [f"ip4.dst == {prefix_text(address, length)}"], ["pass"])
    if entry.ips:
        unit.put("s_sec_out", 80, receiver + [FAR_TARGETS], ["pass"])
    unit.put("s_sec_out", 75, receiver + ["ip4"], ["drop port-security"])
    unit.put("s_sec_out", 70, receiver, ["pass"])
    unit.put("s_sec_out", 60, [here], ["drop port-security"])


def requests(unit, port, comes):
    """Requests for the port's IPs are answered, but for its own."""
    for ip, ether in pairs(port):
        asked = ["arp.op == 1", f"arp.tpa == {ip_text(ip)}"]
        unit.put("s_arp", 100, [comes] + asked, ["pass"])
        answer = f"arp_reply {ether_text(ether)} {ip_text(ip)}"
        unit.put("s_arp", 50, asked, [answer, "set out=in", "set loopback=1", DELIVER])


def targets(net, unit, port):
    """What is for the port goes to it."""
    if not port.is_virtual:
        for ip in answered(net, partner(net, port)):
            asked = ["eth.mcast", "arp.op == 1", f"arp.tpa == {ip_text(ip)}"]
            unit.put("s_lookup", 80, asked, [f"set out={port.name}", DELIVER])
    for ether in ethers(net, port):
        unit.put("s_lookup", 50, [f"eth.dst == {ether_text(ether)}"], [f"set out={port.name}", DELIVER])


def port_unit(net, port):
    unit = Unit(f"port {port.name}", port.switch)
    comes, leaves = f'inport == "{port.name}"', f'outport == "{port.name}"'
    if not port.enabled:
        unit.put("s_admit", 120, [comes], ["drop disabled"])
        unit.put("s_track_out", 120, [leaves], ["drop disabled"])
    for entry in port.port_security:
        security_in(unit, entry, comes)
        security_out(unit, entry, leaves)
    if port.port_security:
        unit.put("s_port_sec", 70, [comes], ["drop port-security"])
    if port.is_virtual and (is_stateful(net, port.switch) or has_balancer(net, port.switch)):
        unit.put("s_track", 100, [comes, "ip4", "!eth.mcast"], ["find in", "set tracked=1", "pass"])
        unit.put("s_track_out", 100, [leaves, "ip4", "!eth.mcast"], ["find out", "set tracked=1", "pass"])
    if port.enabled:
        if port.is_virtual:
            requests(unit, port, comes)
        targets(net, unit, port)
    return unit


# ---- rows of a rule on a switch, and of a switch


def rule_unit(rule, switch):
    unit = Unit(f"rule {rule.name}", switch)
    stage = "s_acl_in" if rule.direction == "from-lport" else "s_acl_out"
    actions = [f"set verdict={VERDICTS[rule.action]}", "pass"]
    unit.put(stage, 1000 + rule.priority, [matching_text(rule.match)], actions, rank=RANKS[rule.action])
    return unit


def state_rows(unit, stage, zone, stateful):
    """What becomes of a packet by its connection and the verdict of the rules."""
    def put(priority, actions, **registers):
        unit.put(stage, priority, [], actions, registers)

    known = ["touch", "translate", "pass"]
    put(90, ["pass"], tracked=0)
    put(90, ["pass"], tracked=1, verdict=VERDICTS["allow-stateless"])
    if stateful:
        put(80, ["drop invalid"], state=4)
    for action, cause in (("drop", "acl"), ("reject", "reject")):
        refused = VERDICTS[action]
        put(100, [f"drop {cause}"], tracked=0, verdict=refused)
        if not stateful:
            put(80, [f"drop {cause}"], state=4, verdict=refused)
        put(60, ["block", f"drop {cause}"], state=2, verdict=refused)
        put(60, [f"drop {cause}"], state=1, verdict=refused)
    put(70, ["drop blocked"], state=3, blocked=1)
    put(70, known, state=3, blocked=0)
    put(50, ["unblock"] + known, state=2)
    put(50, [f"commit {zone}", "pass"], state=1)
    put(0, ["pass"])


def switch_unit(net, switch):
    unit = Unit(f"switch {switch}", switch)
    unit.put("s_admit", 110, [GROUP_SENDER], ["drop bad-source"])
    unit.put("s_admit", 100, ["eth.type == 33024"], ["drop vlan"])
    for stage in ("s_admit", "s_port_sec", "s_track", "s_acl_in", "s_arp", "s_track_out", "s_acl_out", "s_sec_out"):
        unit.put(stage, 0, [], ["pass"])
    stateful = is_stateful(net, switch)
    state_rows(unit, "s_state_in", "in", stateful)
    state_rows(unit, "s_state_out", "out", stateful)
    unit.put("s_lookup", 70, ["eth.mcast"], [f"set out={FLOOD_GROUP}", DELIVER])
    to_unknown = [f"set out={UNKNOWN_GROUP}", DELIVER]
    unit.put("s_lookup", 0, [], to_unknown if has_unknown(net, switch) else ["drop unknown-address"])
    return unit


# ---- rows of a router's port, of a route and a neighbour, and of a router


def leaving(port, hop):
    return ["dec_ttl", hop, f"set out={port.name}", f"eth_src {ether_text(port.mac)}", "set loopback=1", "pass"]


def masked_text(prefix):
    return prefix_text(prefix.addr >> 32 - prefix.len << 32 - prefix.len, prefix.len)


def router_port_unit(net, port):
    unit = Unit(f"port {port.name}", port.router)
    here, ether = f'inport == "{port.name}"', ether_text(port.mac)
    unit.put("r_admit", 50, [here, f"eth.dst == {ether}"], ["pass"])
    unit.put("r_admit", 50, [here, "eth.mcast", "arp"], ["pass"])
    for ip in answered(net, port):
        answer = [f"arp_reply {ether} {ip_text(ip)}", "set out=in", "set loopback=1", DELIVER]
        unit.put("r_input", 100, [here, "arp.op == 1", f"arp.tpa == {ip_text(ip)}"], answer)
    for network in port.networks:
        to_it = f"ip4.dst == {ip_text(network.addr)}"
        unit.put("r_input", 70, [to_it, "icmp4.type == 8", "icmp4.code == 0"], ["echo_reply", "set own=1", "go 13"])
        unit.put("r_own", 100, [to_it], ["drop for-router"])
        unit.put("r_route", 100 + 2 * network.len + 1, [f"ip4.dst == {masked_text(network)}"], leaving(port, "next_dst"))
    return unit


def route_unit(net, route):
    unit = Unit(f"route {route.name}", route.router)
    leaves = leaving(exit_of(net, route), f"set next={route.nexthop}")
    unit.put("r_route", 100 + 2 * route.prefix.len, [f"ip4.dst == {masked_text(route.prefix)}"], leaves)
    return unit


def known_ips(net):
    """All IPs that a record could make a neighbour."""
    found = {row.ip for row in net.rows("static_mac")}
    found |= {ip for port in net.rows("switch_port") for ip, _ether in pairs(port)}
    return sorted(found.union(*(answered(net, port) for port in net.rows("router_port"))))


def neighbour_units(net, port):
    for ip in known_ips(net):
        ether = neighbour(net, port, ip)
        if ether is not None:
            unit = Unit(f"neighbour {port.name} {ip_text(ip)}", port.router)
            unit.put("r_neighbour", 100, [f'outport == "{port.name}"'], [f"eth_dst {ether_text(ether)}", DELIVER], {"next": ip})
            yield unit


def router_unit(net, router):
    unit = Unit(f"router {router.name}", router.name)
    known = ["touch", "translate", "pass"]
    unit.put("r_admit", 0, [], ["drop not-for-router"])
    unit.put("r_input", 90, ["arp"], ["drop arp"])
    unit.put("r_input", 80, [f"(ip4.src == {NOT_ROUTED} || ip4.dst == {NOT_ROUTED})"], ["drop bad-ip"])
    unit.put("r_input", 60, ["ip.ttl == {0, 1}"], ["drop ttl"])
    unit.put("r_input", 50, ["ip4"], ["pass"])
    unit.put("r_input", 0, [], ["drop not-ip4"])
    unit.put("r_dnat", 100, [], known, {"state": 2})
    unit.put("r_dnat", 100, [], known, {"state": 3})
    unit.put("r_route", 0, [], ["drop no-route"])
    unit.put("r_neighbour", 0, [], ["drop no-neighbour"])
    unit.put("r_snat", 200, [], known, {"state": 2})
    for stage in ("r_undo", "r_dnat", "r_own", "r_find", "r_snat"):
        unit.put(stage, 0, [], ["pass"])
    if is_translating(net, router):
        unit.put("r_undo", 100, ["ip4"], ["undo", "find dnat", "pass"])
        unit.put("r_find", 100, ["ip4"], ["find snat", "pass"], {"own": 0})
    return unit


# ---- rows of a row of NAT, and of a balancer on a switch or router


def nat_unit(row):
    unit = Unit(f"nat {row.name}", row.router)
    external = ip_text(row.external_ip)
    if row.type in ("dnat", "dnat_and_snat"):
        unit.put("r_dnat", 80, [f"ip4.dst == {external}"], [f"dnat dnat {ip_text(row.logical_ip.addr)}", "pass"], {"state": 1})
    if row.type in ("snat", "dnat_and_snat"):
        priority, inside = 100 + row.logical_ip.len, [f"ip4.src == {masked_text(row.logical_ip)}"]
        unit.put("r_snat", priority, inside, [f"snat snat {external}", "pass"], {"state": 1})
        unit.put("r_snat", priority, inside, ["drop invalid"], {"state": 4})
    return unit


def backend_text(backend):
    return f"{ip_text(backend.ip)}:{backend.port}"


def balancer_unit(net, balancer, datapath):
    unit = Unit(f"balancer {balancer.name} {datapath}", datapath)
    for vip, backends in balancer.vips:
        to_it = [balancer.protocol, f"ip4.dst == {ip_text(vip.ip)}", f"{balancer.protocol}.dst == {vip.port}"]
        online = ",".join(backend_text(backend) for backend in backends if (balancer.name, backend) not in net.offline)
        choice = f"{backend_text(vip)} [{online}]"
        if datapath in balancer.switches:
            unit.put("s_state_in", 55, to_it, [f"balance in {choice}", "pass"], {"tracked": 1, "state": 1})
        if datapath in balancer.routers:
            unit.put("r_dnat", 90, to_it, [f"balance dnat {choice}", "pass"], {"state": 1})
    return unit


def translating_units(net):
    yield from (nat_unit(row) for row in net.rows("nat"))
    for balancer in net.rows("load_balancer"):
        yield from (balancer_unit(net, balancer, datapath) for datapath in {*balancer.switches, *balancer.routers})


def router_units(net):
    for port in net.rows("router_port"):
        yield router_port_unit(net, port)
        yield from neighbour_units(net, port)
    yield from (route_unit(net, route) for route in net.rows("route"))
    yield from (router_unit(net, router) for router in net.rows("router"))


def rows(net):
    units = [port_unit(net, port) for port in net.rows("switch_port")] + list(router_units(net)) + list(translating_units(net))
    for switch in net.rows("switch"):
        units.append(switch_unit(net, switch.name))
        units += [rule_unit(rule, switch.name) for rule in rules_on(net, switch.name)]
    return sorted((line for unit in units for line in unit.lines), key=str.encode)


# ---- edits


def generated():
    """Edits of the generator, without the tiers and the action that the records here don't have."""
    for line in generate(seed, 8 * count, PROFILES[seed % len(PROFILES)]):
        try:
            event = json.loads(line)
        except (ValueError, RecursionError):
            continue
        ops = event.get("edit") if isinstance(event, dict) else None
        if isinstance(ops, list) and all(isinstance(op, dict) for op in ops):
            ops = [{key: value for key, value in op.items() if key != "tier"} for op in ops if op.get("action") != "pass"]
            if ops:
                yield ops


class Seldom:
    """Edits that the generator makes seldom, on the records that are there."""

    PORTS = ["q0", "q1", "q2", "q3", "in", "32768", "Q:a.b-c_d", "q" * 64]
    MATCHES = ["1", "0", "ip4", "arp || tcp", "!(arp || tcp)", "ip4.src == 10.0.0.0/8 && (tcp || udp.dst != {53, 67})", "(icmp4)",
               "!!eth.mcast", '!inport == "q0"', 'inport != {"q0", "in"}', "eth.dst == 0a:00:00:00:00:00/ff:00:00:00:00:ff",
               "eth.type >= 0x800", "ip4.dst == 10.0.0.1/255.0.0.255", "ip4.dst == {10.0.0.1 10.0.0.0/24}", "arp.tpa == {10.0.0.1}",
               "ip.ttl < 3 || ip.proto == 0x2f"]
    ACTIONS = list(VERDICTS)

    def __init__(self, net):
        self.net = net

    def a_name(self, kind):
        return draw.choice(sorted(self.net.by_kind[kind]) or ["none"])

    def put(self, kind, name, fixed, **fields):
        """Adds the record, or gives it the fields if it is there."""
        if name in self.net.by_kind[kind]:
            return {"set": kind, "name": name, **fields}
        return {"add": kind, "name": name, **fixed, **fields}

    def an_ip(self, net_number):
        return f"10.{net_number}.0.{draw.randrange(1, 40)}"

    def security(self, ether, ips):
        near = ips[0].rsplit(".", 1)[0] + ".0/24"
        some = [draw.choice([ip, f"{ip}/32", near, "0.0.0.0/0", "128.0.0.0/1"]) for ip in draw.sample(ips, draw.randrange(4))]
        return " ".join([ether] + some)

    def port(self):
        """A port with any number of entries, of which some repeat addresses."""
        net_number = draw.randrange(4)
        made = [f"0a:00:00:00:0{net_number}:{draw.randrange(16, 64):02x}" for _ in range(3)]
        ips = [self.an_ip(net_number) for _ in range(3)]
        entries = [" ".join([ether] + draw.sample(ips, draw.randrange(4))) for ether in made[:draw.randrange(4)]]
        if draw.random() < 0.25:
            entries.insert(draw.randrange(len(entries) + 1), "unknown")
        secured = [self.security(draw.choice(made), ips) for _ in range(draw.choice([0, 0, 1, 2, 3]))]
        fixed = {"switch": self.a_name("switch")}
        fields = {"addresses": entries, "port_security": secured}
        return [self.put("switch_port", draw.choice(self.PORTS), fixed, **fields, enabled=draw.random() < 0.7)]

    def enabling(self):
        return [{"set": "switch_port", "name": self.a_name("switch_port"), "enabled": draw.random() < 0.5}]

    def router(self):
        """A router on a switch, by a port with any entries."""
        name = draw.choice(["r8", "g8"])
        number = draw.randrange(3)
        home = {"chassis": "h1"} if name == "g8" else {}
        ops = [] if name in self.net.by_kind["router"] else [{"add": "router", "name": name, **home}]
        port, ethers = f"{name}.{number}", [f"0a:00:00:08:0{number}:{end}" for end in ("fe", "fd", "fc")]
        networks = draw.choice([[f"10.{number}.0.25{number}/24"], ["172.16.8.1/16", "10.9.0.9/30"], ["10.9.0.7/32"], ["192.0.2.1/0"]])
        ops.append(self.put("router_port", port, {"router": name}, mac=ethers[0], networks=networks))
        entries = [entry for entry in ["router", ethers[1], ethers[2], ethers[2], "router"] if draw.random() < 0.5]
        fixed = {"switch": self.a_name("switch"), "type": "router", "router_port": port}
        return ops + [self.put("switch_port", f"on-{port}", fixed, addresses=entries, enabled=draw.random() < 0.7)]

    def rule(self):
        """A rule on a switch or a group, now and then one that another rule is too."""
        direction = draw.choice(["from-lport", "to-lport"])
        on = draw.choice([{"switch": self.a_name("switch")}, {"port_group": self.a_name("port_group")}])
        leaving = ['outport == "in"', f"outport != @{self.a_name('port_group')}"] if direction == "to-lport" else []
        text = draw.choice(self.MATCHES + leaving)
        if draw.random() < 0.3:
            text = draw.choice([f"ip4.src == ${self.a_name('address_set')}", f"inport == @{self.a_name('port_group')} && ip4"])
        fixed = {**on, "direction": direction}
        number = draw.choice([0, 1, 7, 7, 32767])
        rules = [self.put("acl", f"e{draw.randrange(12)}", fixed, priority=number, match=text, action=draw.choice(self.ACTIONS))]
        if draw.random() < 0.3 and "add" in rules[0]:
            rules.append(dict(rules[0], name=f"f{draw.randrange(4)}"))
        return rules

    def group(self):
        names = sorted(self.net.by_kind["switch_port"])
        return [self.put("port_group", f"pg{draw.randrange(3)}", {}, ports=draw.sample(names, min(len(names), draw.randrange(4))))]

    def balancer(self):
        """One with virtual addresses inside and outside the networks of routers, or with none."""
        there = ["10.0.0.200:80", "172.16.8.2:80", "10.9.0.7:443", "10.9.0.10:53", "10.9.0.10:65535"]
        some = ["10.0.0.1:80", "10.0.0.1:8080", "10.0.0.2:80", "10.9.0.7:443"]
        vips = {vip: ",".join(draw.choices(some, k=draw.randrange(5))) for vip in there if draw.random() < 0.4}
        switches = [self.a_name("switch") for _ in range(draw.choice([0, 1, 1, 2]))]
        routers = ["g8"] if draw.random() < 0.5 else []
        fixed = {"protocol": draw.choice(["tcp", "udp"])}
        return [self.put("load_balancer", f"lx{draw.randrange(3)}", fixed, vips=vips, switches=switches, routers=routers)]

    def translation(self):
        fixed = {"router": "g8", "type": draw.choice(["snat", "dnat", "dnat_and_snat"])}
        external = draw.choice(["10.0.0.201", "172.16.8.1", "172.16.9.9", "10.9.0.8", "9.9.9.9"])
        inside = draw.choice([self.an_ip(0), self.an_ip(0), "10.0.0.0/24", "10.0.0.0/9", "128.0.0.0/1", "0.0.0.0/0"])
        return [self.put("nat", f"x{draw.randrange(3)}", fixed, external_ip=external, logical_ip=inside)]

    def route(self):
        """A route of a router, with a next hop that one or several of its networks hold, or none."""
        port = draw.choice(list(self.net.rows("router_port")) or [None])
        if port is None:
            return []
        network = draw.choice(port.networks)
        nexthop = network.addr ^ draw.choice([1, 2, 3, 64, 128])
        prefix = draw.choice(["0.0.0.0/0", "10.0.0.0/8", "10.9.0.0/30", "128.0.0.0/1", "192.0.2.7/32"])
        return [self.put("route", f"y{draw.randrange(6)}", {"router": port.router}, prefix=prefix, nexthop=ip_text(nexthop))]

    def binding(self):
        """A static binding of an address that others may have too."""
        addresses = [ip for port in self.net.rows("switch_port") for ip, _ether in pairs(port)] + [0x0A090001]
        fixed = {"port": self.a_name("router_port")}
        return [self.put("static_mac", f"z{draw.randrange(6)}", fixed, ip=ip_text(draw.choice(addresses)), mac=f"0a:00:00:00:09:0{draw.randrange(9)}")]

    def joint(self):
        """A router's port that names another as its peer, or one more network of it."""
        fields = draw.choice([{"peer": self.a_name("router_port")}, {"networks": ["10.1.0.129/25", "10.1.0.254/24"]}])
        return [{"set": "router_port", "name": self.a_name("router_port"), **fields}]

    def removal(self):
        kind = draw.choice(["acl", "acl", "switch_port", "load_balancer", "nat", "route", "static_mac"])
        return [{"remove": kind, "name": self.a_name(kind)}]

    def ops(self):
        makers = [self.port, self.enabling, self.router, self.rule, self.group, self.balancer, self.translation, self.removal,
                  self.route, self.binding, self.joint]
        return draw.choices(makers, [6, 2, 3, 5, 2, 2, 2, 1, 2, 2, 1])[0]()


# ---- lines


def is_plain(net):
    """No quoted name of a match has a byte that would end a line or a row."""
    return all(expr_text(rule.match).isprintable() for rule in net.rows("acl"))


class Lines:
    def __init__(self):
        self.net, self.made, self.shown = Net(), 0, Counter()

    def edit(self, ops):
        line = json.dumps({"edit": ops}, separators=(",", ":"))
        try:
            after = edits.accept(self.net, read_event(line.encode()).fields["ops"], self.made + 1)
        except Refused:
            return
        if is_plain(after):
            self.net = after
            self.made += 1
            print(f"do\t{line}")

    def health(self):
        """Marks a backend of a balancer, most often offline."""
        listed = [(row.name, backend) for row in self.net.rows("load_balancer") for _vip, backends in row.vips for backend in backends]
        if not listed:
            return
        mark, online = draw.choice(listed), draw.random() < 0.3
        self.net = self.net.draft()
        self.net.offline = self.net.offline - {mark} if online else self.net.offline | {mark}
        event = {"balancer": mark[0], "backend": backend_text(mark[1]), "online": online}
        print("mark\t" + json.dumps({"health": event}, separators=(",", ":")))

    def flows(self):
        found = rows(self.net)
        self.shown.update(line.split(": ", 1)[1].split(" ")[1] for line in found)
        print("\t".join(["flows"] + found))


lines = Lines()
for ops in generated():
    lines.edit(ops)
    for _ in range(draw.randrange(4)):
        lines.edit(Seldom(lines.net).ops())
    if draw.random() < 0.3:
        lines.health()
    if draw.random() < 8 / count:
        lines.flows()
    if lines.made >= count:
        break
lines.flows()
counts = ", ".join(f"{stage} {number}" for stage, number in sorted(lines.shown.items()))
print(f"seed {seed}: {lines.made} edits, {counts}", file=sys.stderr)
