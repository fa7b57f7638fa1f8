#!/usr/bin/env bash
# How many packets a second the program takes through a gateway router that translates their sources, of known connections, of new ones, and of
# those for which a port is picked, with 1,000 and with 60,000 connections in its SNAT list; beside the plain model in Python, where that is at
# hand. Not part of the gate. A packet matches 45 flows. OVNSIM may name another build.
set -euo pipefail
top=$(cd "$(dirname "$0")/.." && pwd)
exec python3 "$top/bench/nat.py" "$top" "${1:-$top/../shared/model/ovnsim.py}"
