#!/bin/sh
# Measures the reading of HTTP messages beside a plain C loop (plain_read.c) that takes the same bytes in pieces of the same size. Both
# read a file whole and take it from memory, so the figures hold for a connection in memory, and the reading of the file is in them.
# A line is a run: its seconds, its seconds of the processor, and the greatest memory in KiB. The messages: a body of 64 MiB by its
# length; one in chunks of 4,096 bytes; a form whose file is full of text that looks like its boundary; and a head of 16,384 bytes that
# comes at once and byte by byte. The program is the one that `scripts/build client_messages` leaves.
# Usage: bench/http.sh [MIB [RUNS]], for bodies of another size and more runs than three.
set -eu
cd "$(dirname "$0")/.."
program=crates/client_messages/out/client_messages
[ -x "$program" ] || { echo "build the program first: scripts/build client_messages" >&2; exit 1; }
folder=$(mktemp -d)
trap 'rm -rf "$folder"' EXIT
cc -O2 -o "$folder/plain_read" bench/plain_read.c
python3 bench/http.py "$program" "$folder" "${1:-64}" "${2:-3}"
