"""Measures `octo print` over marlin_sim beside a plain C host over the same printer.

For files of about 1 and 5 MB and for windows of 1 and 4 lines: acknowledged lines per second, processor microseconds a line
and the greatest resident memory of each host; medians of the runs, which alternate, with all processes pinned to one core.
Then the processor's share of `octo print` while a printer that answered the hello is silent. The programs are those that
scripts/build leaves; the C host is compiled into a folder of its own.
"""

import os
import socket
import statistics
import subprocess
import sys
import tempfile
import time

sys.path.insert(0, "scripts/lib")
from serving import OCTO, SIM, free_port, listens, write_moves  # noqa: E402

RUNS = int(sys.argv[1]) if len(sys.argv) > 1 else 5
CORE = {0}
IDLE_SECONDS = 10
SETTINGS = """[printer]
ports = ["127.0.0.1:7100"]
window = %d

[limits]

[admin]
name = "root"
key_sha256 = "470dc872b1b47dac8456c9f0800583d1176d1a2f194b626000379d1d7d7fc920"
"""


def write_settings(folder, window):
    path = os.path.join(folder, "window_%d.toml" % window)
    with open(path, "w") as file:
        file.write(SETTINGS % window)
    return path


def peak(pid):
    with open("/proc/%d/status" % pid) as status:
        return next((int(row.split()[1]) for row in status if row.startswith("VmHWM")), 0)


def measure(host, port, lines):
    sim = subprocess.Popen([SIM, "127.0.0.1:%d" % port, "0", "4", "-", "-"], stdout=subprocess.DEVNULL)
    while not listens(port):
        time.sleep(0.01)
    began = time.monotonic()
    run = subprocess.Popen(host(port), stdout=subprocess.PIPE)
    memory = 0
    while True:
        # The peak is read until the process has ended, every 20 ms.
        pid, status, used = os.wait4(run.pid, os.WNOHANG)
        if pid:
            break
        try:
            memory = max(memory, peak(run.pid))
        except OSError:
            pass
        time.sleep(0.02)
    taken = time.monotonic() - began
    text = run.stdout.read()
    _, sim_status, sim_used = os.wait4(sim.pid, 0)
    if status or sim_status or not text.startswith(b"done: %d commands" % lines):
        sys.exit("a run failed: %r, %d, %d" % (text, status, sim_status))
    cpu = (used.ru_utime + used.ru_stime) * 1e6 / lines
    sim_cpu = (sim_used.ru_utime + sim_used.ru_stime) * 1e6 / lines
    return lines / taken, cpu, memory, sim_cpu


def compare(folder, plain, path, megabytes, lines, window):
    settings = write_settings(folder, window)
    hosts = {
        "octo": lambda port: [OCTO, "print", "127.0.0.1:%d" % port, path, "--settings", settings],
        "plain C": lambda port: [plain, "127.0.0.1", str(port), path, str(window)],
    }
    title = "%d MB, %d lines, window %d" % (megabytes, lines, window)
    rows = {name: [] for name in hosts}
    for _ in range(RUNS):
        for name, host in hosts.items():
            rows[name].append(measure(host, free_port(), lines))
    middle = {name: [statistics.median(column) for column in zip(*rows[name])] for name in hosts}
    for name, (rate, cpu, memory, sim_cpu) in middle.items():
        series = ", ".join("%.0f" % row[0] for row in rows[name])
        print("%s, %s: %.0f lines/s (%s), %.2f us CPU a line (printer %.2f), peak %d KiB"
              % (title, name, rate, series, cpu, sim_cpu, memory))
    beside = middle["octo"][2] - (os.path.getsize(path) + 8 * lines) / 1024
    print("%s, octo to plain C: %.2f of the lines/s, %.2f of the CPU a line; %.1f MB beside the file and its job"
          % (title, middle["octo"][0] / middle["plain C"][0], middle["octo"][1] / middle["plain C"][1], beside / 1024))


def used_seconds(pid):
    with open("/proc/%d/schedstat" % pid) as file:
        return int(file.read().split()[0]) / 1e9


def measure_idle(path):
    with socket.create_server(("127.0.0.1", 0)) as listener:
        run = subprocess.Popen([OCTO, "print", "127.0.0.1:%d" % listener.getsockname()[1], path], stdout=subprocess.DEVNULL)
        conn, _ = listener.accept()
        with conn:
            conn.recv(100)
            conn.sendall(b"ok\n")
            time.sleep(1)
            before = used_seconds(run.pid)
            time.sleep(IDLE_SECONDS)
            used = used_seconds(run.pid) - before
            run.terminate()
            run.wait()
    print("idle, a silent printer: %.2f %% of a core over %d s" % (100 * used / IDLE_SECONDS, IDLE_SECONDS))


def main():
    os.sched_setaffinity(0, CORE)
    print("load %.1f %.1f %.1f" % os.getloadavg())
    with tempfile.TemporaryDirectory() as folder:
        plain = os.path.join(folder, "plain_host")
        subprocess.run(["cc", "-O2", "-o", plain, "bench/plain_host.c"], check=True)
        path = os.path.join(folder, "moves.gcode")
        for megabytes in (1, 5):
            lines = write_moves(path, size=megabytes * 1_000_000)
            for window in (1, 4):
                compare(folder, plain, path, megabytes, lines, window)
        measure_idle(path)
    print("load %.1f %.1f %.1f" % os.getloadavg())


main()
