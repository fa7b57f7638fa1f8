#!/usr/bin/env bash
# How many packets a second the program takes through one switch on one chassis, and how much memory it takes, beside the
# plain model in Python. Not part of the gate.
set -euo pipefail
top=$(cd "$(dirname "$0")/.." && pwd)
exec python3 "$top/bench/first.py" "$top" "${1:-$top/../shared/model/ovnsim.py}"
