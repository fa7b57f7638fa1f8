#!/usr/bin/env bash
# Tries the must-fail edits that the gate leaves out for its time (bench/must-fail/CRATE), each over a check of its crate:
#   bench/must_fail.sh [CRATE..]
# It works on a copy of the crates, in which these edits stand in place of those of the gate, and ends with the status of rt must-fail.
set -euo pipefail
cd "$(dirname "$0")/.."
crates=("$@")
((${#crates[@]})) || mapfile -t crates < <(ls bench/must-fail)
copy=$(mktemp -d)
trap 'rm -rf "$copy"' EXIT
cp -r crates crates.txt HANDLES "$copy"
rm -rf "$copy"/crates/*/must-fail
for crate in "${crates[@]}"; do
  cp -r "bench/must-fail/$crate" "$copy/crates/$crate/must-fail"
done
cd "$copy"
rt must-fail "${crates[@]}"
