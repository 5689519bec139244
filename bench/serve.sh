#!/bin/sh
# Measures `octo serve` beside a plain C server with the same replies (bench/plain_serve.c): requests a second and their times at 8
# connections, one message each (bench/plain_load.c), where a worker answers alone, and at 8 and at 1 where the house is asked with the link down,
# and with a printer that is silent; what a print at the pace of 250,000 baud loses meanwhile; and the processor's time of an idle host, and of one
# whose callers wait for a house that strace slows down. Servers take turns. The program is the one that `scripts/build octo` leaves. Each round
# is printed, with the load of the machine.
# Usage: bench/serve.sh [SECONDS] [ROUNDS], 3 and 5 if none are given
set -eu
cd "$(dirname "$0")/.."
[ -x crates/octo/out/octo ] || { echo "build the program first: scripts/build octo" >&2; exit 1; }
folder=$(mktemp -d)
trap 'rm -rf "$folder"' EXIT
cc -O2 -pthread -o "$folder/plain_serve" bench/plain_serve.c
cc -O2 -pthread -o "$folder/plain_load" bench/plain_load.c
python3 -B bench/serve.py "$folder" "${1:-3}" "${2:-5}"
