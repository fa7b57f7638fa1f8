"""Times the program on random packets through many switches on four chassis, and the plain model on fewer of them.

The packets are those of the generated workload: switches, ports, chassis and bindings have its names and addresses, and each
packet is made from the next word of SplitMix64 of the seed 1. Each port is added by an edit of its own."""

import itertools
import json
import os
import statistics
import subprocess
import sys
import tempfile
import threading
import time

top, model = sys.argv[1], sys.argv[2]
chassis = 4
# How many switches, and how many ports of each.
SIZES = (8, 16), (32, 64)
most = (1 << 64) - 1


def words(state):
    """The words of SplitMix64 from the state."""
    while True:
        state = (state + 0x9E3779B97F4A7C15) & most
        word = state
        word = (word ^ word >> 30) * 0xBF58476D1CE4E5B9 & most
        word = (word ^ word >> 27) * 0x94D049BB133111EB & most
        yield word ^ word >> 31


def mac(switch, port):
    return f"0a000000{switch:02x}{port + 1:02x}"


def network(switches, ports):
    """The events that make the chassis, the switches and the ports, and bind them."""
    for at in range(chassis):
        yield {"chassis": {"add": f"c{at}"}}
    for switch in range(switches):
        yield {"edit": [{"add": "switch", "name": f"s{switch}"}]}
        for port in range(ports):
            address = ":".join(mac(switch, port)[at : at + 2] for at in range(0, 12, 2))
            name, ip = f"s{switch}-p{port}", f"10.0.{switch}.{port + 1}"
            yield {"edit": [{"add": "switch_port", "name": name, "switch": f"s{switch}", "addresses": [f"{address} {ip}"]}]}
    for switch in range(switches):
        for port in range(ports):
            yield {"bind": {"port": f"s{switch}-p{port}", "chassis": f"c{(switch + port) % chassis}"}}


def packets(switches, ports, count):
    """A packet for each of the first words, from a port of a switch to a port of the same switch."""
    source = words(1)
    for _ in range(count):
        word = next(source)
        switch, port, other = word % switches, word // switches % ports, word // switches // ports % ports
        frame = f"{mac(switch, other)}{mac(switch, port)}88b5{word:016x}"
        yield {"packet": {"port": f"s{switch}-p{port}", "frame": frame}}


def moves(switches, ports, count):
    """A port of each switch in turn is bound elsewhere, and then back."""
    for at in range(count):
        switch, turn = at % switches, at // switches % 2
        yield {"bind": {"port": f"s{switch}-p0", "chassis": f"c{(switch + 1 - turn) % chassis}"}}


class Run:
    """The program with a network: it takes events when they are given, and tells for how long it computed on them."""

    def __init__(self, command, setup):
        self.command, self.given, self.lines = command, 0, []
        self.child = subprocess.Popen(command, stdin=subprocess.PIPE, stdout=subprocess.PIPE, bufsize=0)
        # All on one processor: others may be slower, by what else their machine does.
        os.sched_setaffinity(self.child.pid, {max(os.sched_getaffinity(0))})
        self.rest = b""
        self.setup_time = self.give(setup)
        self.setup = self.given

    def computed(self):
        """The processor time so far, in seconds, without what else the machine did in the meantime."""
        with open(f"/proc/{self.child.pid}/schedstat") as told:
            return int(told.read().split()[0]) / 1e9

    def put(self, text):
        left = memoryview(text)
        while left:
            left = left[os.write(self.child.stdin.fileno(), left[: 1 << 16]) :]

    def give(self, events):
        """The seconds of processor time that the events take, until the last line of the last of them comes."""
        text = b"".join(json.dumps(event, separators=(",", ":")).encode() + b"\n" for event in events)
        self.given += len(events)
        last = f"{self.given} ok ".encode()
        before = self.computed()
        writer = threading.Thread(target=self.put, args=(text,))
        writer.start()
        while True:
            piece = os.read(self.child.stdout.fileno(), 1 << 20)
            if not piece:
                sys.exit(f"{self.command}: it ended early")
            *lines, self.rest = (self.rest + piece).split(b"\n")
            self.lines += lines
            if lines and lines[-1].startswith(last) and not self.rest:
                break
        writer.join()
        return self.computed() - before

    def end(self):
        """The lines, behind the last of which the program ends as it should."""
        self.child.stdin.close()
        said = (self.rest + self.child.stdout.read()).decode().split("\n")
        status = self.child.wait()
        if status != 0 or said != [f"end events={self.given} accepted={self.given} refused=0 waiting=0", ""]:
            sys.exit(f"{self.command}: status {status}, last lines {said!r}")
        return self.lines


def run(command, setup, traffic):
    """The seconds that the set-up and the traffic take, by the times at which their last lines come, and the lines: of the program, or of
    the model, which reads its whole input first."""
    with tempfile.TemporaryFile("w+") as events:
        for event in [*setup, *traffic]:
            events.write(json.dumps(event, separators=(",", ":")) + "\n")
        events.flush()
        events.seek(0)
        start = time.monotonic()
        child = subprocess.Popen(command, stdin=events, stdout=subprocess.PIPE)
        mark, lines = f"{len(setup)} ok ".encode(), []
        for line in child.stdout:
            if line.startswith(mark):
                begun = time.monotonic()
            lines.append(line)
        status, ended = child.wait(), time.monotonic()
    count = len(setup) + len(traffic)
    last = lines.pop().decode().rstrip()
    if status != 0 or last != f"end events={count} accepted={count} refused=0 waiting=0":
        sys.exit(f"{command}: status {status}, last line {last!r}")
    return begun - start, ended - begun, lines


def counts(lines, setup):
    """How many packets went out, through how many tunnels, how many were dropped, and how many flows were matched."""
    kinds, walks = {}, 0
    for line in lines:
        number, kind, rest = line.rstrip().split(b" ", 2)
        kinds[kind] = kinds.get(kind, 0) + 1
        matched = rest.removeprefix(b"walks=")
        if kind == b"ok" and int(number) > setup and matched.isdigit():
            walks += int(matched)
    out, tunnels, drops = (kinds.get(kind, 0) for kind in (b"out", b"tunnel", b"drop"))
    flows = f", {walks} flows matched" if walks else ""
    return f"{out} out, {tunnels} tunnels, {drops} drops{flows}"


def middle(numbers):
    """The median, and the quartiles around it."""
    low, median, high = statistics.quantiles(numbers, n=4)
    return f"{median:.2f} ({low:.2f} to {high:.2f})"


def measure(command, slices, each):
    """Packets through the two networks, slice by slice in turn, so that both meet the machine in the same state."""
    runs, traffic, took = [], [], []
    for switches, ports in SIZES:
        one = Run(command, list(network(switches, ports)))
        print(f"ovnsim, {switches} switches of {ports} ports: {one.setup} events of set-up in {one.setup_time:.3f} s", flush=True)
        runs.append(one)
        traffic.append(packets(switches, ports, (slices + 1) * each))
    for _ in range(slices + 1):
        took.append([one.give(list(itertools.islice(source, each))) / each * 1e6 for one, source in zip(runs, traffic)])
    # In the first slice much is met for the first time.
    first, *others = took
    for at, ((switches, ports), one) in enumerate(zip(SIZES, runs)):
        print(f"{switches} switches of {ports} ports: a packet takes {middle([slice[at] for slice in others])} us,", end=" ")
        print(f"one of the first {each} {first[at]:.2f} us: {counts(one.end(), one.setup)}", flush=True)
    print(f"the greater network takes {middle([many / few for few, many in others])} times as long, slice by slice,", end=" ")
    print(f"{first[1] / first[0]:.2f} times for the first {each} packets", flush=True)


def measure_model(command, switches, ports, count):
    """Packets through the plain model."""
    setup = list(network(switches, ports))
    before, seconds, lines = run(command, setup, list(packets(switches, ports, count)))
    print(f"model, {switches} switches of {ports} ports: {len(setup)} events of set-up in {before:.3f} s,", end=" ")
    print(f"{count} packets in {seconds:.3f} s, {seconds / count * 1e6:.1f} us each: {counts(lines, len(setup))}", flush=True)


def measure_moves(command, switches, ports, count):
    """The time of a bind, at the end of the set-up."""
    seconds = run(command, list(network(switches, ports)), list(moves(switches, ports, count)))[1]
    print(f"ovnsim, {switches} switches of {ports} ports: {count} binds in {seconds:.3f} s, {seconds / count * 1e6:.0f} us each", flush=True)


program = [*os.environ.get("OVNSIM", os.path.join(top, "ovnsim")).split(), "replay"]
if __name__ == "__main__":
    begun = subprocess.run(program, stdin=subprocess.DEVNULL, stdout=subprocess.DEVNULL, stderr=subprocess.PIPE, check=True)
    if begun.stderr:
        sys.exit(f"{begun.stderr.decode()}a program that is compiled anew for each run can't be timed: ./build first")
    measure(program, 20, 20_000)
    for size in SIZES:
        measure_moves(program, *size, 1_000)
    if os.path.exists(model):
        measure_model([sys.executable, "-u", model, "replay"], *SIZES[0], 2_000)
