"""Times the program on packets under rules: those that begin connections and those of connections that are known, and one changed
priority; and the plain model on fewer packets.

The network is that of the tunnels, 8 switches of 16 ports on four chassis, with 15 rules each that let UDP to a port of theirs begin
connections."""

import sys

from tunnels import counts, mac, model, network, program, run

switches, ports, rules = 8, 16, 15


def acls():
    """The rules of each switch: allow-related, each for one port of UDP."""
    for switch in range(switches):
        for rule in range(rules):
            yield {"edit": [{"add": "acl", "name": f"s{switch}-r{rule}", "switch": f"s{switch}", "direction": "from-lport", "priority": 1000 + rule,
                             "match": f"ip4.src == 10.0.{switch}.0/24 && udp.dst == {5000 + rule}", "action": "allow-related"}]}


def frame(switch, port, other, source):
    """A UDP packet from one port of the switch to another, with a right sum in its IPv4 header and none of its own."""
    header = bytes.fromhex(f"4500001c00010000401100000a00{switch:02x}{port + 1:02x}0a00{switch:02x}{other + 1:02x}")
    total = sum(int.from_bytes(header[at : at + 2], "big") for at in range(0, 20, 2))
    while total >> 16:
        total = (total & 0xFFFF) + (total >> 16)
    header = header[:10] + (total ^ 0xFFFF).to_bytes(2, "big") + header[12:]
    return f"{mac(switch, other)}{mac(switch, port)}0800{header.hex()}{source:04x}{5000 + source % rules:04x}00080000"


def packets(count, connections):
    """Packets from port to port, of so many connections in turn."""
    for at in range(count):
        number = at % connections
        switch, port = number % switches, number // switches % ports
        yield {"packet": {"port": f"s{switch}-p{port}", "frame": frame(switch, port, (port + 1) % ports, 1024 + number // (switches * ports))}}


def changes(count):
    """The priority of a rule is changed, switch by switch."""
    for at in range(count):
        yield {"edit": [{"set": "acl", "name": f"s{at % switches}-r0", "priority": 900 + at % 50}]}


def measure(name, command, what, traffic):
    """The time of an event, behind the set-up."""
    setup = [*network(switches, ports), *acls()]
    before, seconds, lines = run(command, setup, traffic)
    print(f"{name}: {len(setup)} events of set-up in {before:.2f} s, {len(traffic)} {what} in {seconds:.3f} s,", end=" ")
    print(f"{len(traffic) / seconds:.0f} a second, {seconds / len(traffic) * 1e6:.1f} us each: {counts(lines, len(setup))}", flush=True)


few = switches * ports
measure("ovnsim", program, "packets of new connections", list(packets(20_000, 20_000)))
measure("ovnsim", program, "packets of known connections", list(packets(20_000, few)))
measure("ovnsim", program, "changed priorities", list(changes(50)))
measure("model", [sys.executable, "-u", model, "replay"], "packets of new connections", list(packets(1_000, 1_000)))
measure("model", [sys.executable, "-u", model, "replay"], "packets of known connections", list(packets(1_000, few)))
measure("model", [sys.executable, "-u", model, "replay"], "changed priorities", list(changes(20)))
