"""`octo serve` beside slow peers: silent connections, messages that come byte by byte, and callers that hardly read their replies. A
caller is answered soon, also if others don't close, and who reads slowly gets all of it. With nobody there it seldom wakes. It takes a
minute at most."""

import os
import re
import socket
import sys
import tempfile
import threading
import time

sys.path.insert(0, __file__.rsplit("/", 2)[0] + "/lib")
from checking import build, check_that, end  # noqa: E402
from serving import Host, message  # noqa: E402

build("octo", "marlin_sim")

SILENT, BYTES = 60, 0.05
# How long an answer may take, in seconds, how many of a hundred may take longer on a busy machine, and how long these may.
SOON, LATER, LATEST = 0.05, 5, 5
LARGE = b"G1 X100 Y100 E1\n" * (1 << 20)
# How many callers read their reply and don't close, and within how many seconds all are answered: a worker waits for none of them.
STAYING, ALL_SOON = 100, 0.8
# How often the threads of an idle host wake in a second, at most: the house's a hundred times, and the workers' by turns.
MOST_WAKES = 250


def connect(host, small=False):
    conn = socket.socket()
    if small:
        conn.setsockopt(socket.SOL_SOCKET, socket.SO_RCVBUF, 4096)
    conn.settimeout(30)
    conn.connect(("127.0.0.1", host.port))
    return conn


def drips(key):
    """The beginnings of messages whose rest comes byte by byte: heads, short bodies, and long bodies with and without a key."""
    fields = b"POST /api/job HTTP/1.1\r\nHost: a\r\nX-Api-Key: %s\r\n"
    keyed = fields % key.encode()
    return [
        b"GET /api/version HTTP/1.1\r\nX-A: ",
        b"\r\n\r\n",
        b"GET /api/version HTTP/1.1\r\nX-A: " + b"a" * 9000,
        keyed + b"Content-Length: 4000\r\n\r\n",
        keyed + b"Content-Length: 60000000\r\n\r\n",
        keyed + b"Expect: 100-continue\r\nContent-Length: 400\r\n\r\n",
        keyed + b"Transfer-Encoding: chunked\r\n\r\nFFFF\r\n",
        fields % b"nobody0123456789" + b"Content-Length: 60000000\r\n\r\n",
    ]


class Slow:
    """Peers that go on slowly until they are ended, in a thread of their own."""

    def __init__(self, host):
        self.is_over = False
        self.silent = [connect(host) for _ in range(SILENT)]
        self.senders = []
        for start in drips(host.key) * 2:
            conn = connect(host)
            conn.sendall(start)
            self.senders.append(conn)
        self.readers = []
        for path in ["/downloads/files/local/large.gcode", "/api/files", "/api/files/local", "/"] * 2:
            conn = connect(host, small=True)
            conn.sendall(message("GET", path, host.key))
            self.readers.append(conn)
        self.thread = threading.Thread(target=self.go_on)
        self.thread.start()

    def go_on(self):
        while not self.is_over:
            for conn in self.senders:
                try:
                    conn.send(b"a")
                except OSError:
                    pass
            for conn in self.readers:
                try:
                    conn.recv(64)
                except OSError:
                    pass
            time.sleep(BYTES)

    def end(self):
        self.is_over = True
        self.thread.join()
        for conn in self.silent + self.senders + self.readers:
            conn.close()


def wakes(host):
    """How often the threads of a host have waited for something so far."""
    tasks = "/proc/%d/task" % host.process.pid
    texts = [open(os.path.join(tasks, it, "status")).read() for it in os.listdir(tasks)]
    return sum(int(re.search(r"\nvoluntary_ctxt_switches:\s+(\d+)", it)[1]) for it in texts)


def wakes_idle(host):
    """The same a second, while nobody asks."""
    time.sleep(0.5)
    before, began = wakes(host), time.monotonic()
    time.sleep(2)
    return (wakes(host) - before) / (time.monotonic() - began)


def times(host, count):
    """How long each of some requests took, in order, all of which were answered."""
    found = []
    for _ in range(count):
        began = time.monotonic()
        check_status = host.ask("GET", "/api/connection").status
        found.append(time.monotonic() - began if check_status == 200 else 99)
        time.sleep(0.01)
    return found


def staying(host):
    """How long it takes until all of some callers, one after the other, have the end of their reply. None of them closes."""
    began, held = time.monotonic(), []
    for _ in range(STAYING):
        held.append(connect(host))
        held[-1].sendall(message("GET", "/api/version", host.key))
        while held[-1].recv(1 << 16):
            pass
    took = time.monotonic() - began
    for conn in held:
        conn.close()
    return took


def files(host):
    """Many files, so that their list is long, and a large one."""
    for number in range(900):
        with open(os.path.join(host.files, "a-file-with-a-long-name-%04d.gcode" % number), "wb") as file:
            file.write(b"G28\n")
    with open(os.path.join(host.files, "large.gcode"), "wb") as file:
        file.write(LARGE)


def slow_peers(folder):
    host = Host(folder, 9)
    os.makedirs(host.files, exist_ok=True)
    files(host)
    host.start()
    try:
        idle = wakes_idle(host)
        check_that("an idle host wakes at most %d times a second" % MOST_WAKES, idle <= MOST_WAKES, idle)
        alone = sorted(times(host, 100))
        slow = Slow(host)
        try:
            found = times(host, 400)
        finally:
            slow.end()
        beside, late = sorted(found), sum(it > SOON for it in found)
        print("an answer alone: %.1f ms, at most %.1f ms; beside slow peers %.1f ms, 99 of 100 within %.1f ms, at most %.1f ms, the first in %.1f ms, "
              "%d of 400 above 50 ms" % (alone[50] * 1e3, alone[-1] * 1e3, beside[200] * 1e3, beside[396] * 1e3, beside[-1] * 1e3, found[0] * 1e3, late))
        took = min(staying(host) for _ in range(3))
        check_that("%d callers that don't close are answered within %.1f s" % (STAYING, ALL_SOON), took < ALL_SOON, took)
        check_that("a caller beside 60 silent peers, 16 drips and 8 slow readers", late <= 4 * LATER and beside[-1] < LATEST, (late, beside[-1]))
        # One that reads slowly, but not too slowly, has all of it.
        conn = connect(host)
        conn.sendall(message("GET", "/downloads/files/local/large.gcode", host.key))
        text = b""
        while part := conn.recv(1 << 16):
            text += part
            time.sleep(0.005)
        check_that("a whole download", text.endswith(LARGE) and len(text) < len(LARGE) + 1000, len(text))
        check_that("the end", host.shut_down()[0] == 0)
    finally:
        host.kill()


# bench/stall.py takes the peers alone.
if __name__ == "__main__":
    with tempfile.TemporaryDirectory() as made:
        slow_peers(made)
    end()
