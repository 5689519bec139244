#!/bin/sh
# Measures `octo check` of two files of 64 MiB beside `wc -l` of the same file, and beside bench/plain_check.c, which does in C
# the least that such a check takes: one file of a slicer's lines, one of the shortest commands. `octo measure` of the first
# file is measured too. Each run prints its seconds, its seconds of the processor, and the greatest memory in KiB; below them stand the
# bounds that the program is to keep. The program is the one that `scripts/build octo` leaves in crates/octo/out/octo.
# Another program is measured in the same rounds if it is named, as one that a former commit gave: bench/check.sh OTHER
set -eu
other=${1:-}
[ -z "$other" ] || other=$(realpath "$other")
cd "$(dirname "$0")/.."
program=crates/octo/out/octo
[ -x "$program" ] || { echo "build the program first: scripts/build octo" >&2; exit 1; }
folder=$(mktemp -d)
trap 'rm -rf "$folder"' EXIT
python3 - "$folder" <<'P'
import sys
line = "G1 X%d.%03d Y%d.%03d E0.%05d ; wall\n"
size = 0
with open(sys.argv[1] + "/slicer", "w") as out:
    number = 0
    while size < 64 * 1024 * 1024 - 64:
        text = line % (number % 200, number % 1000, number % 180, number % 997, number % 99991)
        size += out.write(text)
        number += 1
with open(sys.argv[1] + "/shortest", "wb") as out:
    out.write(b"G\n" * (32 * 1024 * 1024))
P
cc -O2 -o "$folder/plain_check" bench/plain_check.c
measure() {
    python3 - "$@" <<'P'
import resource, subprocess, sys, time
began = time.time()
subprocess.run(sys.argv[1:], stdout=subprocess.DEVNULL, check=True)
taken = time.time() - began
used = resource.getrusage(resource.RUSAGE_CHILDREN)
print(f"{taken:.2f} s, {used.ru_utime + used.ru_stime:.2f} s of the processor, {used.ru_maxrss} KiB: {' '.join(sys.argv[1:])}")
P
}
for name in slicer shortest; do
    file=$folder/$name
    echo "$name: $(stat -c %s "$file") bytes, $(wc -l <"$file") commands; load $(cut -d ' ' -f 1 /proc/loadavg)"
    for turn in 1 2 3; do
        measure "$program" check "$file"
        [ -z "$other" ] || measure "$other" check "$file"
        measure "$folder/plain_check" "$file"
        measure wc -l "$file"
    done
    [ "$name" = shortest ] || measure "$program" measure "$file"
    python3 - "$file" <<'P'
import os, subprocess, sys, time
began = time.time()
count = int(subprocess.run(["wc", "-l", sys.argv[1]], capture_output=True, check=True).stdout.split()[0])
taken = time.time() - began
most = os.path.getsize(sys.argv[1]) * 5 // 4 + 8 * count + (16 << 20)
print(f"bounds: {min(1, 3 * taken + 0.3):.2f} s, {most // 1024} KiB")
P
done
