"""A host whose printer stops reading in the middle of a print: it goes on answering its callers, and gives the printer up after 16 seconds.

The printer answers the hello. Then it reads nothing more, and goes on saying `ok` until the buffer between it and the host is full.
"""

import fcntl
import os
import socket
import struct
import sys
import tempfile
import termios
import time

sys.path.insert(0, __file__.rsplit("/", 2)[0] + "/lib")
from checking import build, check_that, end  # noqa: E402
from serving import LIMIT, Host  # noqa: E402

build("octo")

# How long an answer may take, in seconds, and how many of a hundred may take longer on a busy machine.
SOON, LATER = 0.05, 5


class Printer:
    """A printer at a Unix socket that reads the hello alone."""

    def __init__(self, path):
        self.listener = socket.socket(socket.AF_UNIX)
        self.listener.bind(path)
        self.listener.listen(1)

    def answer_hello(self):
        self.listener.settimeout(LIMIT)
        self.conn, _ = self.listener.accept()
        self.conn.settimeout(LIMIT)
        while self.conn.recv(1) != b"\n":
            pass
        self.conn.sendall(b"ok\n")

    def unread(self):
        """How many bytes wait for it in the kernel."""
        return struct.unpack("i", fcntl.ioctl(self.conn, termios.FIONREAD, bytes(4)))[0]

    def fill(self):
        """Says `ok` as long as the host then sends more. Returns how many bytes wait in the end; the host has more since the last `ok`."""
        for _ in range(100000):
            waiting = self.unread()
            self.conn.sendall(b"ok\n")
            self.asked = time.monotonic()
            while self.unread() == waiting and time.monotonic() < self.asked + 3:
                time.sleep(0.001)
            if self.unread() == waiting:
                return waiting
        return 0

    def end(self):
        self.conn.close()
        self.listener.close()


def times(host, count):
    """How long each of some requests took, all of which were answered."""
    found = []
    for _ in range(count):
        began = time.monotonic()
        status = host.ask("GET", "/api/connection").status
        found.append(time.monotonic() - began if status == 200 else 99)
        time.sleep(0.01)
    return sorted(found)


def stuck(folder):
    path = os.path.join(folder, "printer")
    printer = Printer(path)
    host = Host(folder, 9)
    with open(host.settings) as settings:
        text = settings.read()
    with open(host.settings, "w") as settings:
        settings.write(text.replace("127.0.0.1:9", "unix:" + path))
    host.errors = os.path.join(folder, "log")
    host.start()
    try:
        host.post("/api/connection", {"command": "connect"})
        printer.answer_hello()
        host.until_state("Operational")
        status = host.upload("long.gcode", b"".join(b"G1 X%d.12345 Y%d.12345 Z0.12345 E0.12345\n" % (at, at) for at in range(1, 100000)), True).status
        check_that("a print is begun", status == 201, status)
        full = printer.fill()
        check_that("the buffer is full, by %d bytes" % full, full > 1000, full)
        beside = times(host, 100)
        late = sum(it > SOON for it in beside)
        print("100 answers beside it: %.1f ms, at most %.1f ms" % (beside[50] * 1e3, beside[-1] * 1e3), flush=True)
        check_that("each caller is answered within 50 ms", late <= LATER and beside[-1] < 1, (late, beside[-1]))
        check_that("the host still prints", host.state() == "Printing", host.state())
        host.until_state("Error")
        seconds = time.monotonic() - printer.asked
        check_that("it gives up after 16 seconds", 15.9 < seconds < 18, seconds)
        check_that("the end", host.shut_down()[0] == 0)
    finally:
        host.kill()
        printer.end()
    with open(host.errors) as log:
        lines = log.read().split("\n")
    check_that("the log says why", "printer: the link failed: the printer doesn't read what is sent" in lines, lines)


if __name__ == "__main__":
    with tempfile.TemporaryDirectory() as made:
        stuck(made)
    end()
