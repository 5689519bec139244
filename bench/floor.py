"""Measures a floor beside single prints; see bench/floor.sh."""

import os
import statistics
import subprocess
import sys

PROGRAM = "crates/floor_bench/out/floor_bench"


def measure(kind):
    """What the program says, and the seconds of a processor that it takes. The system splits them into user and system time by samples, so
    only their sum is exact."""
    process = subprocess.Popen([PROGRAM, kind], stdout=subprocess.PIPE, text=True)
    text = process.stdout.read()
    _, status, usage = os.wait4(process.pid, 0)
    if status:
        raise SystemExit("floor_bench %s ended with %d" % (kind, status))
    return text.strip(), usage.ru_utime + usage.ru_stime


floors, singles, texts = [], [], set()
for number in range(int(sys.argv[1])):
    (said_floor, floor), (said_single, single) = measure("floor"), measure("single")
    texts |= {said_floor, said_single}
    floors.append(floor)
    singles.append(single)
    print("round %d: floor %.3f s, single prints %.3f s, ratio %.3f" % (number + 1, floor, single, floor / single), flush=True)
print("\n".join(sorted(texts)))
medians = statistics.median(floors), statistics.median(singles)
print("medians: floor %.3f s, single prints %.3f s, ratio %.3f" % (*medians, medians[0] / medians[1]))
# What else the machine does only adds to a round.
least = min(floors), min(singles)
print("the least: floor %.3f s, single prints %.3f s, ratio %.3f (aim 1.2)" % (*least, least[0] / least[1]))
