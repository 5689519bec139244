"""Measures `octo print` over a serial line beside the same print over TCP, each to marlin_sim.

    bench/serial.py [RUNS] [free]

The serial line is marlin_sim's pseudo-terminal. For windows of 1 and 3 lines: acknowledged lines per second and processor microseconds
a line of octo; medians of the runs, which alternate, with all processes pinned to one core unless `free` is given. The programs are
those that scripts/build leaves.
"""

import os
import statistics
import subprocess
import sys
import tempfile
import time

sys.path.insert(0, "scripts/lib")
from serving import OCTO, SIM, free_port, listens, write_moves  # noqa: E402

RUNS = int(sys.argv[1]) if len(sys.argv) > 1 else 5
CORE = {0}
LINES = 100000
SETTINGS = """[printer]
ports = ["127.0.0.1:7100"]
window = %d

[limits]

[admin]
name = "root"
key_sha256 = "470dc872b1b47dac8456c9f0800583d1176d1a2f194b626000379d1d7d7fc920"
"""


def measure(address, ready, port, arguments):
    """Lines a second and processor microseconds a line of a print."""
    sim = subprocess.Popen([SIM, address, "0", "4", "-", "-"], stdout=subprocess.DEVNULL)
    while not ready():
        time.sleep(0.01)
    began = time.monotonic()
    run = subprocess.Popen([OCTO, "print", port, *arguments], stdout=subprocess.PIPE)
    text = run.stdout.read()
    _, status, used = os.wait4(run.pid, 0)
    taken = time.monotonic() - began
    sim.terminate()
    sim.wait()
    if status or not text.startswith(b"done: %d commands" % LINES):
        sys.exit("a run failed: %r, %d" % (text, status))
    return LINES / taken, (used.ru_utime + used.ru_stime) * 1e6 / LINES


def over_tcp(folder, arguments):
    port = free_port()
    address = "127.0.0.1:%d" % port
    return measure(address, lambda: listens(port), address, arguments)


def over_device(folder, arguments):
    link = os.path.join(folder, "ttyPrinter")
    result = measure("pty:%s:0" % link, lambda: os.path.exists(link), "tty:%s:115200" % link, arguments)
    while os.path.lexists(link):
        time.sleep(0.01)
    return result


def compare(folder, path, window):
    settings = os.path.join(folder, "octo.toml")
    with open(settings, "w") as file:
        file.write(SETTINGS % window)
    rows = {over_tcp: [], over_device: []}
    for _ in range(RUNS):
        for way in rows:
            rows[way].append(way(folder, [path, "--settings", settings]))
    for way, name in ((over_tcp, "TCP"), (over_device, "device")):
        rates = ", ".join("%.0f" % rate for rate, _ in rows[way])
        cpus = ", ".join("%.2f" % cpu for _, cpu in rows[way])
        print("window %d, %s: %s lines/s; %s us CPU a line" % (window, name, rates, cpus))
    tcp, device = (statistics.median(cpu for _, cpu in rows[way]) for way in (over_tcp, over_device))
    rate = statistics.median(rate for rate, _ in rows[over_device])
    print("window %d: %.0f lines/s over the device; %.2f of the CPU a line over TCP" % (window, rate, device / tcp))


def main():
    if "free" not in sys.argv[2:]:
        os.sched_setaffinity(0, CORE)
    print("load %.1f %.1f %.1f" % os.getloadavg())
    with tempfile.TemporaryDirectory() as folder:
        path = os.path.join(folder, "moves.gcode")
        write_moves(path, lines=LINES)
        for window in (1, 3):
            compare(folder, path, window)
    print("load %.1f %.1f %.1f" % os.getloadavg())


main()
