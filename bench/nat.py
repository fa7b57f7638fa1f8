"""Times the program on packets that leave through a gateway router which translates their sources: those of known connections, those
that begin connections, and those for which another port is picked; and the plain model on fewer of them.

A machine on one chassis sends UDP to servers behind a gateway router on another, which has a row of NAT for all machines. Before the
packets that are timed its SNAT list gets so many connections, each to a server of its own, or all of them to one server."""

import os
import sys

from tunnels import counts, model, program, run

inside, outside, machine, far = "0a0000000001", "0a0000000002", "0a0000000003", "0a0000000004"
first = 1_024  # the least port that may be picked
servers = 1_000  # to so many of them go the connections that begin


def with_colons(address):
    return ":".join(address[at : at + 2] for at in range(0, 12, 2))


def network():
    """The events that make two chassis, a switch with a machine, and a gateway router to a switch with the next hop of all else."""
    for name in ("c0", "c1"):
        yield {"chassis": {"add": name}}
    switches = [{"add": "switch", "name": name} for name in ("office", "net")]
    router = [{"add": "router", "name": "edge", "chassis": "c1"},
              {"add": "nat", "name": "hide", "router": "edge", "type": "snat", "external_ip": "172.16.0.254", "logical_ip": "10.0.0.0/24"},
              {"add": "route", "name": "all", "router": "edge", "prefix": "0.0.0.0/0", "nexthop": "172.16.0.9"}]
    ports = []
    for switch, mac, prefix in (("office", inside, "10.0.0.254/24"), ("net", outside, "172.16.0.254/24")):
        ports.append({"add": "router_port", "name": f"edge-{switch}", "router": "edge", "mac": with_colons(mac), "networks": [prefix]})
        ports.append({"add": "switch_port", "name": f"{switch}-edge", "switch": switch, "type": "router", "router_port": f"edge-{switch}",
                      "addresses": ["router"]})
    for name, switch, mac, ip in (("pc", "office", machine, "10.0.0.1"), ("far", "net", far, "172.16.0.9")):
        ports.append({"add": "switch_port", "name": name, "switch": switch, "addresses": [f"{with_colons(mac)} {ip}"]})
    yield {"edit": [*switches, *router, *ports]}
    yield {"bind": {"port": "pc", "chassis": "c0"}}
    yield {"bind": {"port": "far", "chassis": "c1"}}


def packet(address, port, server):
    """A UDP packet of the machine from its address of this number, with a right sum in its IPv4 header and none of its own."""
    header = bytes.fromhex(f"4500001c0001000040110000" f"0a0000{address:02x}c612{server:04x}")
    total = sum(int.from_bytes(header[at : at + 2], "big") for at in range(0, 20, 2))
    while total >> 16:
        total = (total & 0xFFFF) + (total >> 16)
    header = header[:10] + (total ^ 0xFFFF).to_bytes(2, "big") + header[12:]
    return {"packet": {"port": "pc", "frame": f"{inside}{machine}0800{header.hex()}{port:04x}003500080000"}}


def to_each(entries):
    """Connections from one port, each to a server of its own."""
    return [packet(1, 5_000, server) for server in range(entries)]


def to_one(entries):
    """Connections from the first ports to one server, which hold these ports, and a first one for which a port behind them is picked."""
    return [*(packet(1, first + at, 0) for at in range(entries)), packet(250, first, 0)]


def known(entries, count):
    """Packets of the connections to servers of their own, out of order."""
    return [packet(1, 5_000, at * 7_919 % entries) for at in range(count)]


def begun(count):
    """Packets that begin connections to the first servers, and keep their port."""
    return [packet(1, 5_001 + at // servers, at % servers) for at in range(count)]


def picked(count):
    """Packets that begin connections to the first servers from a port which another to the same server holds: one of the first four ports is picked."""
    return [packet(2 + at // servers, 5_000, at % servers) for at in range(count)]


def picked_behind(entries, count):
    """The same, where the connections to one server hold the first ports: the port behind them is picked."""
    return [packet(2 + at // entries, first + at % entries, 0) for at in range(count)]


def measure(name, command, entries, filled, what, traffic, picks, runs):
    """The time of a packet, with so many connections in the list before: the best of the runs."""
    setup = [*network(), *filled]
    before, seconds, lines = min((run(command, setup, traffic) for _ in range(runs)), key=lambda one: one[1])
    told = sum(b" pick port edge " in line for line in lines)
    if told != picks:
        sys.exit(f"{name}: {told} picks, and not {picks}")
    print(f"{name}, {entries} connections in the list: {len(setup)} events of set-up in {before:.2f} s, {len(traffic)} {what}", end=" ")
    print(f"in {seconds:.3f} s, {len(traffic) / seconds:.0f} a second, {seconds / len(traffic) * 1e6:.1f} us each:", end=" ")
    print(f"{told} picks, {counts(lines, len(setup))}", flush=True)


def measure_all(name, command, entries, count, behind, runs):
    """So many packets of each kind, and others in number where the connections to one server hold the first ports."""
    each, one = to_each(entries), to_one(entries)
    measure(name, command, entries, each, "packets of known connections", known(entries, count), 0, runs)
    measure(name, command, entries, each, "packets of new connections that keep their port", begun(count), 0, runs)
    measure(name, command, entries, each, "packets for which one of the first four ports is picked", picked(count), count, runs)
    measure(name, command, entries, one, f"packets for which the port behind {entries} of one server is picked", picked_behind(entries, behind), behind + 1, runs)


if __name__ == "__main__":
    measure_all("ovnsim", program, 1_000, 4_000, 4_000, 5)
    measure_all("ovnsim", program, 60_000, 4_000, 4_000, 5)
    if os.path.exists(model):
        measure_all("model", [sys.executable, "-u", model, "replay"], 1_000, 200, 20, 1)
