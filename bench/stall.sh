#!/bin/sh
# Measures what other callers take from a print, and from a caller with a key: the lines a second of a print at the pace of 250,000 baud and
# its longest gap, alone and beside readers of a large file's data and of a list of 1,000 files, downloads, uploads with and without a key, and the
# slow peers of scripts/process/slow.py; the time of an answer beside connections that are silent or have sent a part of a head, and beside the
# slow peers; and how long a host takes to begin, with a full queue and at all its limits. The program is the one that `scripts/build octo` leaves.
# Usage: bench/stall.sh [ROUNDS [queue]], 3 rounds if none are given; with `queue` without the last of these
set -eu
cd "$(dirname "$0")/.."
[ -x crates/octo/out/octo ] || { echo "build the program first: scripts/build octo" >&2; exit 1; }
folder=$(mktemp -d)
trap 'rm -rf "$folder"' EXIT
cc -O2 -pthread -o "$folder/plain_load" bench/plain_load.c
python3 -B bench/stall.py "$folder" "${1:-3}" ${2:-}
