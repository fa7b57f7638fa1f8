"""Times the program on packets over one distributed router, on routes that change and ports that are bound elsewhere, and the plain
model on fewer of each.

The network is that of the tunnels, 8 switches of 16 ports on four chassis, with a router that has a port on each switch. Each packet goes
from a port of one switch to a port of another, both by the next word of SplitMix64 of the seed 1."""

import os
import sys

from tunnels import counts, mac, model, moves, network, program, run, words

switches, ports = 8, 16
last = 253  # the router's addresses end where a port of this number would have its own


def with_colons(address):
    return ":".join(address[at : at + 2] for at in range(0, 12, 2))


def router():
    """The events that add the router, its port on each switch, and a route by a port of the first switch."""
    yield {"edit": [{"add": "router", "name": "r"}]}
    for switch in range(switches):
        port = {"add": "router_port", "name": f"r-s{switch}", "router": "r", "mac": with_colons(mac(switch, last)),
                "networks": [f"10.0.{switch}.{last + 1}/24"]}
        behind = {"add": "switch_port", "name": f"s{switch}-r", "switch": f"s{switch}", "type": "router", "router_port": f"r-s{switch}",
                  "addresses": ["router"]}
        yield {"edit": [port, behind]}
    yield {"edit": [{"add": "route", "name": "far", "router": "r", "prefix": "192.0.2.0/24", "nexthop": "10.0.0.1"}]}


def frame(switch, port, other_switch, other, word):
    """A UDP packet from a port to a port of another switch, by the router, with a right sum in its IPv4 header and none of its own."""
    header = bytes.fromhex(f"450000240001000040110000" f"0a00{switch:02x}{port + 1:02x}0a00{other_switch:02x}{other + 1:02x}")
    total = sum(int.from_bytes(header[at : at + 2], "big") for at in range(0, 20, 2))
    while total >> 16:
        total = (total & 0xFFFF) + (total >> 16)
    header = header[:10] + (total ^ 0xFFFF).to_bytes(2, "big") + header[12:]
    return f"{mac(switch, last)}{mac(switch, port)}0800{header.hex()}1388138900100000{word:016x}"


def packets(count):
    """A packet for each of the first words, from a port of a switch to a port of another."""
    source = words(1)
    for _ in range(count):
        word = next(source)
        switch, port, other = word % switches, word // switches % ports, word // switches // ports % ports
        other_switch = (switch + 1 + word // switches // ports // ports % (switches - 1)) % switches
        yield {"packet": {"port": f"s{switch}-p{port}", "frame": frame(switch, port, other_switch, other, word)}}


def changes(count):
    """The route is given to another port of the first switch each time."""
    for at in range(count):
        yield {"edit": [{"set": "route", "name": "far", "nexthop": f"10.0.0.{at % ports + 1}"}]}


def measure(name, command, what, traffic, runs):
    """The time of an event behind the set-up: the best of the runs."""
    setup = [*network(switches, ports), *router()]
    before, seconds, lines = min((run(command, setup, traffic) for _ in range(runs)), key=lambda one: one[1])
    print(f"{name}: {len(setup)} events of set-up in {before:.3f} s, {len(traffic)} {what} in {seconds:.3f} s,", end=" ")
    print(f"{len(traffic) / seconds:.0f} a second, {seconds / len(traffic) * 1e6:.1f} us each: {counts(lines, len(setup))}", flush=True)


if __name__ == "__main__":
    measure("ovnsim", program, "routed packets", list(packets(20_000)), 3)
    measure("ovnsim", program, "changed routes", list(changes(200)), 1)
    measure("ovnsim", program, "binds", list(moves(switches, ports, 1_000)), 1)
    if os.path.exists(model):
        python = [sys.executable, "-u", model, "replay"]
        measure("model", python, "routed packets", list(packets(1_000)), 1)
        measure("model", python, "changed routes", list(changes(50)), 1)
