#!/usr/bin/env bash
# How many unicast packets a second the program takes through 8 switches of 16 ports on 4 chassis, and through 32 switches of
# 64 ports, beside the plain model in Python. Not part of the gate. A packet matches at most 17 flows in both, and a chassis
# looks each up by masks, of which there are as many in both. The set-up of the greater network has 4,132 events. Both networks
# stand side by side and take 20,000 packets each in turn, 20 times, so that both meet the machine in the same state; what is told is
# processor time, its median and quartiles, and those of the ratio of each pair. The first 20,000, in which much is met for the first
# time, are told apart. It wants a proved build, which ./build makes.
# OVNSIM may name another build of the program.
set -euo pipefail
top=$(cd "$(dirname "$0")/.." && pwd)
exec python3 "$top/bench/tunnels.py" "$top" "${1:-$top/../shared/model/ovnsim.py}"
