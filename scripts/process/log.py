"""The log of a host: a print that is paused and resumed, a printer that falls silent, and one that is stopped."""

import os
import re
import socket
import sys
import tempfile
import threading

sys.path.insert(0, __file__.rsplit("/", 2)[0] + "/lib")
from checking import build, check, end  # noqa: E402
from serving import Host, until  # noqa: E402

build("octo")

# So long that a print isn't over before it is paused, stopped or left.
FILE = b"G1 X1 F3000\nG1 X2\n" * 50000


class ModelPrinter(threading.Thread):
    """Serves one connection after the other: acknowledges each line, and nothing while it is silent."""

    def __init__(self):
        super().__init__(daemon=True)
        self.listener = socket.create_server(("127.0.0.1", 0))
        self.port = self.listener.getsockname()[1]
        self.silent = False
        self.start()

    def run(self):
        while True:
            conn, _ = self.listener.accept()
            try:
                for _ in conn.makefile("rb"):
                    if not self.silent:
                        conn.sendall(b"ok\n")
            except OSError:
                pass
            conn.close()


def command(host, value):
    return host.post("/api/job", value).status


def evening(folder):
    printer = ModelPrinter()
    host = Host(folder, printer.port)
    host.errors = os.path.join(folder, "log")
    with open(host.settings) as settings:
        text = settings.read()
    with open(host.settings, "w") as settings:
        settings.write(text.replace("limit_ms = 5000", "limit_ms = 1000"))
    host.start()
    try:
        host.connect()
        check("an upload", host.upload("long.gcode", FILE, True).status, 201)
        check("a pause", command(host, {"command": "pause", "action": "pause"}), 204)
        check("another one", command(host, {"command": "pause", "action": "pause"}), 204)
        check("a toggle", command(host, {"command": "pause", "action": "toggle"}) in (204, 409), True)
        host.until_state("Paused", "Printing")
        if host.state() == "Paused":
            check("a resume", command(host, {"command": "pause", "action": "resume"}), 204)
        printer.silent = True
        host.until_state("Error")
        printer.silent = False
        host.connect()
        check("a print", host.post("/api/files/local/long.gcode", {"command": "select", "print": True}).status, 204)
        check("a stop", host.post("/api/printer/command", {"command": "M112"}).status, 204)
        host.until_state("Error")
        check("the end", host.shut_down()[0], 0)
    finally:
        host.kill()
    with open(host.errors) as log:
        story = log.read()
    tell(re.sub(r" after \d+ s\n", " after . s\n", story).split("\n")[:-1], host.port, printer.port)


def tell(lines, port, printer_port):
    connected = ["printer: connected to 127.0.0.1:%d" % printer_port, "printer: ready"]
    begun = "print %d: begun, long.gcode, 100000 commands, for root"
    wanted = ["serving at http://127.0.0.1:%d" % port, *connected, "file long.gcode: stored", begun % 1, "print: paused", "print: resumed",
              "printer: disconnected", "print 1: failed after . s", "session ended: no answer, 5 limits",
              *connected, begun % 2, "printer: stopped by M112", "printer: disconnected", "print 2: failed after . s", "stopped"]
    # A toggle while the print is being paused is refused.
    lines = [line for line in lines if not line.startswith("refused: 409 POST /api/job")]
    check("the lines of the log", lines, wanted)


if __name__ == "__main__":
    with tempfile.TemporaryDirectory() as work:
        evening(work)
    end()
