#!/usr/bin/env bash
# How many packets a second the program takes over one distributed router among 8 switches of 16 ports on 4 chassis, how long the set-up of
# that network takes, and how long a route that is changed and a port that is bound elsewhere take; beside the plain model in Python, where
# that is at hand. Not part of the gate. A packet matches 45 flows where its port is on another chassis, and 44 where it isn't. OVNSIM may name another build.
set -euo pipefail
top=$(cd "$(dirname "$0")/.." && pwd)
exec python3 "$top/bench/routing.py" "$top" "${1:-$top/../shared/model/ovnsim.py}"
