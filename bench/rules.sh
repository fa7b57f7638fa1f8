#!/usr/bin/env bash
# How many packets a second the program takes through 8 switches of 16 ports with 15 stateful rules each, of new connections and of known
# ones, and how long a changed priority takes; beside the plain model in Python. Not part of the gate. OVNSIM may name another build.
set -euo pipefail
top=$(cd "$(dirname "$0")/.." && pwd)
exec python3 "$top/bench/rules.py" "$top" "${1:-$top/../shared/model/ovnsim.py}"
