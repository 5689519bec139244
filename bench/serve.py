"""Runs the servers of bench/serve.sh by turns, and prints each round and the medians."""

import os
import socket
import statistics
import struct
import subprocess
import sys
import threading
import time

sys.path.insert(0, os.path.join(os.path.dirname(__file__), "..", "scripts", "lib"))
from serving import Host, free_port, listens, until  # noqa: E402

FOLDER, SECONDS, ROUNDS = sys.argv[1], float(sys.argv[2]), int(sys.argv[3])
CONNECTIONS = 8
# At 250,000 baud a byte takes ten bits.
BYTES_A_SECOND = 25_000
# A silent printer isn't asked anything for ten minutes, and none of its silence ends the session.
SLOW = "\n[serve]\npatience = 6000\n"


class Load:
    """Requests a second, wrong replies, and two percentiles in milliseconds."""

    def __init__(self, port, status, path, key="none", seconds=SECONDS, connections=None):
        words = [os.path.join(FOLDER, "plain_load"), str(port), str(connections or CONNECTIONS), str(seconds), status, path, key]
        self.rate, wrong, self.half, self.most = map(float, subprocess.run(words, capture_output=True, check=True).stdout.split())
        self.wrong = int(wrong)

    def __str__(self):
        return "%6.0f a second, p50 %.2f ms, p99 %.2f ms, %d wrong" % (self.rate, self.half, self.most, self.wrong)


# The kernel's stamps of when bytes came, in seconds and nanoseconds: Linux, SO_TIMESTAMPNS of socket(7).
STAMPS = 35


def received(conn):
    """The bytes that have come, and when the last of them did, by the kernel: not when this process was woken for them."""
    part, found, _, _ = conn.recvmsg(65536, socket.CMSG_SPACE(16))
    for level, kind, data in found:
        if (level, kind) == (socket.SOL_SOCKET, STAMPS):
            seconds, nanoseconds = struct.unpack("qq", data)
            return part, seconds + nanoseconds / 1e9
    return part, time.time()


class Peer:
    """A printer that says `ok` to the hello, and then to each line: never, or at the pace of the line.

    It keeps the line's time by itself, since a real one shares no processor with the host: a line takes its time from when it came, or from
    when the last one was through. An `ok` that leaves late, since this process is woken late, counts against the host all the same.
    """

    def __init__(self, answers):
        self.answers = answers
        self.lines = 0
        # When each line was through.
        self.moments = []
        self.listener = socket.create_server(("127.0.0.1", 0))
        self.port = self.listener.getsockname()[1]
        threading.Thread(target=self.serve, daemon=True).start()

    def serve(self):
        conn, _ = self.listener.accept()
        conn.setsockopt(socket.SOL_SOCKET, STAMPS, 1)
        conn.sendall(b"start\n")
        held, through = b"", time.time()
        while True:
            part, came = received(conn)
            if not part:
                return
            held += part
            while b"\n" in held:
                line, held = held.split(b"\n", 1)
                through = max(through, came) + (len(line) + 1) / BYTES_A_SECOND
                if self.lines == 0 or self.answers:
                    time.sleep(max(0, through - time.time()))
                    conn.sendall(b"ok\n")
                self.lines += 1
                self.moments.append(through)


class Plain:
    def __init__(self):
        self.port = free_port()
        self.process = subprocess.Popen([os.path.join(FOLDER, "plain_serve"), str(self.port)])
        until("the plain server listens", lambda: listens(self.port))

    def kill(self):
        self.process.kill()
        self.process.wait()


def host(name, port):
    folder = os.path.join(FOLDER, name)
    os.makedirs(folder)
    made = Host(folder, port, SLOW)
    made.errors = os.devnull
    text = open(made.settings).read().replace("limit_ms = 5000", "limit_ms = 600000").replace("poll_ms = 1000", "poll_ms = 600000")
    open(made.settings, "w").write(text)
    return made.start()


def processor(pid):
    """Seconds of the processor that a process has used."""
    words = open("/proc/%d/stat" % pid).read().rsplit(")", 1)[1].split()
    return (int(words[11]) + int(words[12])) / os.sysconf("SC_CLK_TCK")


def ticks():
    """The processors' time so far, and how much of it the machine's own host gave to others, where this machine is a virtual one."""
    words = [int(it) for it in open("/proc/stat").readline().split()[1:9]]
    return sum(words), words[7]


SEEN = [ticks()]


def load():
    """The load, and the share of the processors that was stolen since it was last asked for."""
    (all_before, stolen_before), (all_now, stolen) = SEEN[-1], ticks()
    SEEN.append((all_now, stolen))
    share = 100 * (stolen - stolen_before) / max(1, all_now - all_before)
    return "%s, %.0f %% stolen" % (open("/proc/loadavg").read().split()[0], share)


def median(loads, what):
    return statistics.median(getattr(l, what) for l in loads)


def beside_plain(octo):
    plain = Plain()
    print("a worker alone (404), by turns; load", load())
    rounds = []
    for _ in range(ROUNDS):
        pair = Load(octo.port, "404", "/api/nothing"), Load(plain.port, "404", "/api/nothing")
        print("  octo %s\n  C    %s" % pair, flush=True)
        rounds.append(pair)
    ours, theirs = ([pair[i] for pair in rounds] for i in (0, 1))
    ratio = median(ours, "rate") / median(theirs, "rate")
    print("octo / C by medians: %.2f (aim 0.7)" % ratio)
    plain.kill()


def asked(octo, what, connections, aim):
    print("%s, GET /api/version, connections: %d; load %s" % (what, connections, load()))
    loads = []
    for _ in range(ROUNDS):
        used = processor(octo.process.pid)
        loads.append(Load(octo.port, "200", "/api/version", octo.key, connections=connections))
        used = (processor(octo.process.pid) - used) / SECONDS
        print("  %s, %.2f of a core" % (loads[-1], used), flush=True)
    print("medians: %.0f a second, p99 %.2f ms (%s)" % (median(loads, "rate"), median(loads, "most"), aim))


def idle(octo, what):
    before = processor(octo.process.pid)
    time.sleep(10)
    used = (processor(octo.process.pid) - before) / 10
    print("idle for 10 s, %s: %.2f %% of a core (aim 1 %%); load %s" % (what, 100 * used, load()))


def waiting(octo):
    """The processor's time beside 8 callers that wait for the house: its thread, the process's first one, rests for 0.3 seconds before each poll."""
    words = ["strace", "-o", os.devnull, "-e", "trace=poll", "-e", "inject=poll:delay_enter=300000", "-p", str(octo.process.pid)]
    house = subprocess.Popen(words, stderr=subprocess.DEVNULL)
    status = "/proc/%d/task/%d/status" % (octo.process.pid, octo.process.pid)
    until("strace has the house", lambda: "TracerPid:\t%d\n" % house.pid in open(status).read())
    before, began = processor(octo.process.pid), time.monotonic()
    loads = Load(octo.port, "200", "/api/version", octo.key, 5)
    used = (processor(octo.process.pid) - before) / (time.monotonic() - began)
    house.terminate()
    house.wait()
    print("8 callers that wait for a house that rests: %s, %.3f of a core (aim 0.3); load %s" % (loads, used, load()))


def print_rate(octo, name):
    """Lines a second of a print of some seconds."""
    content = b"".join(b"G1 X%03d Y%03d E%d\n" % (n % 200, n * 7 % 200, n % 10) for n in range(6000))
    began = time.monotonic()
    if octo.upload(name, content, True).status != 201:
        raise SystemExit("the upload was refused")
    until("the print is over", lambda: octo.state() == "Operational", pause=0.05)
    return 6000 / (time.monotonic() - began)


def prints(octo):
    print("a print at the pace of 250,000 baud, by turns alone and beside %d connections; load %s" % (CONNECTIONS, load()))
    rates = {False: [], True: []}
    for number in range(ROUNDS):
        for beside in (False, True):
            asker = None
            if beside:
                asker = threading.Thread(target=lambda: Load(octo.port, "200", "/api/version", octo.key, 5))
                asker.start()
            rates[beside].append(print_rate(octo, "p%d%d.gcode" % (number, beside)))
            print("  %s %.0f lines a second" % ("beside" if beside else "alone ", rates[beside][-1]), flush=True)
            if asker:
                asker.join()
    alone, beside = (statistics.median(rates[kind]) for kind in (False, True))
    print("medians: alone %.0f, beside %.0f: %.1f %% lost (aim 5 %%)" % (alone, beside, 100 * (1 - beside / alone)))


def main():
    down = host("down", 9)
    silent = host("silent", Peer(False).port)
    paced = host("paced", Peer(True).port)
    try:
        beside_plain(down)
        asked(down, "the link down", 8, "aim 2,500 a second")
        asked(down, "the link down", 1, "aim 2,500 a second")
        idle(down, "the link down")
        silent.connect()
        asked(silent, "a silent printer", 8, "aims 8,000 a second and p99 5 ms")
        asked(silent, "a silent printer", 1, "aim 2,500 a second")
        idle(silent, "a silent printer")
        waiting(silent)
        paced.connect()
        prints(paced)
    finally:
        for each in (down, silent, paced):
            each.kill()


if __name__ == "__main__":
    main()
