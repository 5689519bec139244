"""A host that numbers its lines as Printrun's printcore does, over `marlin_sim`; and `octo print` over a printer whose replies are longer
than the 256 bytes that count."""

import os
import socket
import subprocess
import sys
import threading

sys.path.insert(0, __file__.rsplit("/", 2)[0] + "/lib")
from checking import build, check, end  # noqa: E402
from serving import LIMIT, OCTO, Printer, with_folder  # noqa: E402

build("octo", "marlin_sim")



def numbered(number, text):
    line = b"N%d %s" % (number, text)
    checksum = 0
    for byte in line:
        checksum ^= byte
    return b"%s*%d\n" % (line, checksum)


class Printcore:
    """It asks for temperatures until the printer answers. Then it sets the line number to -1, numbers the first command 0, and sends a
    line for each `ok` and each `Resend`."""

    def __init__(self, port):
        self.conn = socket.create_connection(("127.0.0.1", port), timeout=LIMIT)
        self.replies = self.conn.makefile("rb")

    def clear(self):
        """Waits until it may send; returns the number that a line was asked for again by, if one was."""
        while True:
            line = self.replies.readline()
            if not line:
                raise SystemExit("the printer closed")
            if line.startswith(b"Resend:"):
                return int(line[7:])
            if line.startswith((b"ok", b"start")):
                return None

    def print(self, commands):
        self.clear()
        self.conn.sendall(b"M105\n")
        self.clear()
        self.conn.sendall(numbered(-1, b"M110"))
        lines = [numbered(at, text) for at, text in enumerate(commands)]
        at, waiting = 0, 1
        while at < len(lines) or waiting:
            asked = self.clear()
            if asked is None:
                waiting -= 1
            else:
                at = asked
            if at < len(lines):
                self.conn.sendall(lines[at])
                at, waiting = at + 1, waiting + 1
        self.conn.close()


def printcore(folder):
    commands = [b"G28", b"G1 X10", b"G1 X20", b"M84"]
    executed = ["M105", "N0 M110", "G28", "N1 G1 X10", "N2 G1 X20", "N3 M84"]
    rows = [("-", "nothing is corrupted"), ("3", "the first command is corrupted"), ("4", "the second is"), ("3,4", "both are"), ("6", "the last is")]
    for garbled, name in rows:
        printer = Printer(folder, "4", "4", "-", garbled)
        try:
            Printcore(printer.port).print(commands)
            printer.process.wait(timeout=LIMIT)
            check("a host that begins with N-1: " + name, open(printer.executed).read().split("\n")[:-1], executed)
        finally:
            printer.kill()


def long_line(front, rest):
    """A reply of 300 bytes, of which `front` is in the first 256 and `rest` begins the others."""
    return front.ljust(256) + rest.ljust(44) + b"\n"


class LongReplies(threading.Thread):
    """A printer whose replies have 300 bytes. If more than 256 of them counted, or the others as a line, the print would end otherwise."""

    def __init__(self):
        super().__init__(daemon=True)
        self.listener = socket.create_server(("127.0.0.1", 0))
        self.port = self.listener.getsockname()[1]
        self.received = []
        self.early = None

    def run(self):
        conn = self.listener.accept()[0]
        conn.sendall(b"start\n")
        lines = conn.makefile("rb")
        answers = [b"ok\n", long_line(b"ok", b" N99"), long_line(b"ok", b"start"), b"ok\n"]
        for answer in answers:
            self.received.append(lines.readline())
            if len(self.received) == 2:
                conn.sendall(long_line(b"echo:" + b"a" * 251, b"ok"))
                conn.settimeout(1)
                try:
                    self.early = conn.recv(100)
                except TimeoutError:
                    pass
                conn.settimeout(LIMIT)
            conn.sendall(answer)
        lines.read()


def long_replies(folder):
    printer = LongReplies()
    printer.start()
    path = os.path.join(folder, "a.gcode")
    with open(path, "wb") as out:
        out.write(b"G28\nG1 X10\nG1 X20\n")
    run = subprocess.run([OCTO, "print", "127.0.0.1:%d" % printer.port, path], capture_output=True, timeout=LIMIT)
    check("replies of 300 bytes count as their first 256", (run.returncode, run.stdout, run.stderr), (0, b"done: 3 commands, 0 skipped\n", b""))
    check("each line was sent once", printer.received, [numbered(0, b"M110 N1"), numbered(2, b"G28"), numbered(3, b"G1 X10"), numbered(4, b"G1 X20")])
    check("nothing was sent before its ok", printer.early, None)


with_folder(printcore)
with_folder(long_replies)
end()
