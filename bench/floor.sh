#!/bin/sh
# Measures a floor of eight printers in memory beside eight single prints of the same lines, by the processor's time: 1,000 copies of a file
# of 50 lines (crates/floor_bench). Both take turns; the medians and the least of their rounds are compared. The program is the one that
# `scripts/build floor_bench` leaves.
# Usage: bench/floor.sh [ROUNDS], 9 if none are given
set -eu
cd "$(dirname "$0")/.."
[ -x crates/floor_bench/out/floor_bench ] || { echo "build the program first: scripts/build floor_bench" >&2; exit 1; }
exec python3 -B bench/floor.py "${1:-9}"
