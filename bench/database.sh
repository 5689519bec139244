#!/bin/sh
# Measures the keeper's database with 100,000 print records beside the stock SQLite library (libsqlite3-dev): opening and loading it,
# and commits of one record each. Both make a commit durable by a sync of the write-ahead log. bench/plain_commits.c is the plain
# program; the other one is what `scripts/build keeper_tool` leaves in crates/keeper_tool/out/keeper_tool. The two take turns. Each
# round is printed, with the load of the machine. A folder on the disk to be measured may be named: bench/database.sh FOLDER
set -eu
place=${1:-}
[ -z "$place" ] || place=$(realpath "$place")
cd "$(dirname "$0")/.."
tool=$(pwd)/crates/keeper_tool/out/keeper_tool
[ -x "$tool" ] || { echo "build the program first: scripts/build keeper_tool" >&2; exit 1; }
folder=$(mktemp -d ${place:+-p "$place"})
trap 'rm -rf "$folder"' EXIT
cc -O2 -o "$folder/plain_commits" bench/plain_commits.c -lsqlite3
python3 - "$folder" "$tool" "$folder/plain_commits" <<'P'
import os, resource, shutil, statistics, subprocess, sys, time

folder, tool, plain = sys.argv[1:]
RECORDS, COMMITS, ROUNDS = 100_000, 500, 5


# Seconds by the clock, and of the processor.
def timed(*words):
    before = resource.getrusage(resource.RUSAGE_CHILDREN)
    began = time.perf_counter()
    subprocess.run(words, stdout=subprocess.DEVNULL, check=True)
    taken = time.perf_counter() - began
    after = resource.getrusage(resource.RUSAGE_CHILDREN)
    return taken, after.ru_utime + after.ru_stime - before.ru_utime - before.ru_stime


def ours(path, count):
    return timed(tool, path, "prints", str(count))


def stock(path, count):
    return timed(plain, path, str(count))


def syncs(*words):
    trace = os.path.join(folder, "trace")
    subprocess.run(["strace", "-f", "-e", "trace=fsync,fdatasync", "-o", trace, *words], stdout=subprocess.DEVNULL, check=True)
    return sum("sync(" in line for line in open(trace))


made = os.path.join(folder, "made.db")
subprocess.run([tool, made], stdout=subprocess.DEVNULL, check=True)
fill = f"""WITH RECURSIVE n(i) AS (SELECT 1 UNION ALL SELECT i + 1 FROM n WHERE i < {RECORDS})
INSERT INTO prints SELECT i, 'ana', 'hollow_box.gcode', 218, 1 FROM n;"""
subprocess.run(["sqlite3", made, fill], check=True)
print(f"{RECORDS} print records, {os.path.getsize(made)} bytes; load of the machine {open('/proc/loadavg').read().split()[0]}")

paths = {}
for name in ("ours", "stock"):
    paths[name] = os.path.join(folder, name + ".db")
    shutil.copy(made, paths[name])
opens = {"ours": [], "stock": []}
rates = {"ours": [], "stock": []}
costs = {"ours": [], "stock": []}
calls = {"ours": ours, "stock": stock}
for turn in range(ROUNDS):
    for name in ("ours", "stock") if turn % 2 == 0 else ("stock", "ours"):
        opened, used = calls[name](paths[name], 0)
        whole, used_whole = calls[name](paths[name], COMMITS)
        opens[name].append((opened, used))
        rates[name].append(COMMITS / (whole - opened))
        costs[name].append((used_whole - used) / COMMITS)
for name in ("ours", "stock"):
    print(f"{name}: start, open, load and end: {', '.join(f'{1000 * x:.0f} ({1000 * y:.0f} of the processor)' for x, y in opens[name])} ms")
    print(f"{name}: commits a second: {', '.join(f'{x:.0f}' for x in rates[name])}; median {statistics.median(rates[name]):.0f}")
    print(f"{name}: processor a commit: {', '.join(f'{1e6 * x:.0f}' for x in costs[name])} us")
print(f"ours / stock by medians: {statistics.median(rates['ours']) / statistics.median(rates['stock']):.2f}")
if shutil.which("strace"):
    for name, program in (("ours", (tool, paths["ours"], "prints")), ("stock", (plain, paths["stock"]))):
        print(f"{name}: syncs of {COMMITS} commits: {syncs(*program, str(COMMITS)) - syncs(*program, '0')}")
print(f"load of the machine {open('/proc/loadavg').read().split()[0]}")
P
