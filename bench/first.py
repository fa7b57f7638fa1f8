"""Times the program on packets through one switch, and the plain model on fewer of them."""

import os
import subprocess
import sys
import tempfile
import time

top, model = sys.argv[1], sys.argv[2]
with open(os.path.join(top, "examples", "first.jsonl")) as lines:
    first = lines.read().splitlines()
setup, packet = first[:6], first[6]


def peak_memory(child):
    """The most memory that the process had, in KiB, read again and again until it ends."""
    peak = 0
    while child.poll() is None:
        try:
            with open(f"/proc/{child.pid}/status") as status:
                for line in status:
                    if line.startswith("VmHWM:"):
                        peak = max(peak, int(line.split()[1]))
        except (FileNotFoundError, ProcessLookupError):
            break
        time.sleep(0.002)
    return peak


def measure(command, count):
    """Seconds and peak memory, in KiB, of one run over the set-up and `count` packets."""
    with tempfile.TemporaryFile("w+") as events, tempfile.TemporaryFile("wb+") as text:
        for line in setup:
            events.write(line + "\n")
        for _ in range(count):
            events.write(packet + "\n")
        events.flush()
        events.seek(0)
        start = time.monotonic()
        child = subprocess.Popen(command, stdin=events, stdout=text)
        memory = peak_memory(child)
        status = child.wait()
        seconds = time.monotonic() - start
        text.seek(-100, os.SEEK_END)
        last = text.read().splitlines()[-1].decode()
    wanted = f"end events={count + 6} accepted={count + 6} refused=0 waiting=0"
    if status != 0 or last != wanted:
        sys.exit(f"{command}: status {status}, last line {last!r}")
    return seconds, memory


program = [os.path.join(top, "ovnsim"), "replay"]
subprocess.run(program, stdin=subprocess.DEVNULL, stdout=subprocess.DEVNULL, check=True)
rates = {}
for name, command, counts in (
    ("ovnsim", program, (1_000, 10_000, 100_000)),
    ("model", [sys.executable, model, "replay"], (5_000,)),
):
    for count in counts:
        seconds, memory = measure(command, count)
        rates[name] = count / seconds
        print(f"{name}: {count} packets in {seconds:.3f} s, {rates[name]:.0f} a second, peak {memory} KiB")
print(f"ovnsim takes {rates['ovnsim'] / rates['model']:.1f} times as many a second")
