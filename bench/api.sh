#!/bin/sh
# Measures the making of replies of the REST API, and the reading of its requests: each answer and each message is made anew, and the
# reply made of it or the request read from it, again and again in one run of the program. A line is a kind with the microseconds a
# call of three runs, by the clock and by the processor: the time of a run without that of one with a single call, by its count.
# The making of the answer or the message is in it. The aim is 20 microseconds for a usual message, and a time that is linear in the
# rows or the bytes. The program is the one that `scripts/build api_bench` leaves.
# Usage: bench/api.sh [COUNT], for another count than 100,000; large ones are made less often.
set -eu
cd "$(dirname "$0")/.."
program=crates/api_bench/out/api_bench
[ -x "$program" ] || { echo "build the program first: scripts/build api_bench" >&2; exit 1; }
python3 - "$program" "${1:-100000}" <<'P'
import resource, subprocess, sys, time

PROGRAM, COUNT = sys.argv[1], int(sys.argv[2])
# By what the count is divided.
REPLIES = {"accepted": 1, "version": 1, "connection": 1, "printer": 1, "job": 1, "wrong_state": 1,
           "entries_10": 4, "files_10": 4, "files_100": 40, "files_1000": 400}
REQUESTS = {"get_job": 1, "download": 1, "no_route": 1, "pause": 1, "heat": 1, "put_entry": 1, "lines_2": 1,
            "lines_16": 2, "lines_256": 20, "upload_120": 2, "upload_1920": 20, "upload_30720": 320}


def run(*words):
    """The clock's and the processor's seconds of a run."""
    used = resource.getrusage(resource.RUSAGE_CHILDREN)
    before, began = used.ru_utime + used.ru_stime, time.time()
    subprocess.run([PROGRAM, *words], stdout=subprocess.DEVNULL, check=True)
    taken = time.time() - began
    used = resource.getrusage(resource.RUSAGE_CHILDREN)
    return taken, used.ru_utime + used.ru_stime - before


def measure(what, kind, count):
    """A line of three series."""
    series = []
    for _ in range(3):
        single, whole = run(what, kind, "1"), run(what, kind, str(count))
        clock, processor = [(b - a) / (count - 1) * 1e6 for a, b in zip(single, whole)]
        series.append(f"{clock:.2f} ({processor:.2f})")
    print(f"{what} {kind}: {', '.join(series)}", flush=True)


print("microseconds a call, clock (processor); load", open("/proc/loadavg").read().split()[0])
for kind, share in REPLIES.items():
    measure("reply", kind, max(COUNT // share, 2))
for kind, share in REQUESTS.items():
    measure("request", kind, max(COUNT // share, 2))
P
