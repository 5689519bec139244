"""A newcomer's first evening: the example's settings, PrusaSlicer's "Upload and print", the printer switched off and on, and once more.

PrusaSlicer's message is one that it sent (scripts/process/messages). Its file has to be executed whole, both before and after the printer
was switched off and on, and the log has to tell that in 12 lines.
"""

import os
import re
import socket
import subprocess
import sys
import tempfile
import threading

sys.path.insert(0, __file__.rsplit("/", 2)[0] + "/lib")
from checking import build, check, end  # noqa: E402
from serving import OCTO, Printer, exchange, free_port, listens, message, until  # noqa: E402

build("octo", "marlin_sim")

MESSAGE = "scripts/process/messages/prusaslicer_upload_print.http"
EXAMPLE = "examples/octo.toml"
KEY = "rootxkeyx0000000"
MOST_LINES = 12


def commands(content):
    """A file's commands as the printer gets them."""
    texts = [re.split(rb"[;*]", line)[0].strip(b" \t\r") for line in content.split(b"\n")]
    return [text.decode() for text in texts if text]


def scripts_of(example):
    """The scripts of the example's settings by name."""
    lists = re.findall(r"^(\w+) = \[(.*)\]$", example, re.M)
    return {name: re.findall(r'"([^"]*)"', texts) for name, texts in lists}


class Outlet:
    """A printer that is switched on and off: a modelled one at a relay, which keeps the port. The model prints what it executed when its
    connection ends, as at a cut of the power."""

    def __init__(self, folder):
        self.folder = folder
        self.port = free_port()
        self.ends = []

    def switch_on(self):
        self.printer = Printer(self.folder)
        listener = socket.socket()
        listener.setsockopt(socket.SOL_SOCKET, socket.SO_REUSEADDR, 1)
        listener.bind(("127.0.0.1", self.port))
        listener.listen(1)
        self.ends = [listener]
        threading.Thread(target=self.relay, args=(listener,), daemon=True).start()

    def relay(self, listener):
        try:
            host, _ = listener.accept()
        except OSError:
            return
        printer = socket.create_connection(("127.0.0.1", self.printer.port))
        self.ends += [host, printer]
        threading.Thread(target=self.copy, args=(host, printer), daemon=True).start()
        self.copy(printer, host)

    def copy(self, source, sink):
        try:
            while True:
                data = source.recv(65536)
                if not data:
                    break
                sink.sendall(data)
        except OSError:
            pass

    def switch_off(self):
        """What the printer executed."""
        for end in self.ends:
            try:
                end.shutdown(socket.SHUT_RDWR)
            except OSError:
                pass
            end.close()
        return self.printer.end()


def upload_and_print(port, sent, number):
    """Sends the slicer's message, and waits until this print has ended and the host is ready again."""
    reply = exchange(port, sent)
    check("PrusaSlicer's upload", (reply.status, reply.json().get("effectivePrint"), "printRefused" in reply.json()), (201, True, False))
    until("the print has ended", lambda: [p["outcome"] for p in prints(port)].count("Done") == number)
    until("its scripts are done", lambda: ask(port, "/api/job")["state"] == "Operational")


def ask(port, path):
    return exchange(port, message("GET", path, KEY)).json()


def prints(port):
    return ask(port, "/api/prints")["prints"]


def until_ready(port):
    until("the printer is connected", lambda: ask(port, "/api/connection")["current"]["state"] == "Operational", pause=0.1)


def evening(folder):
    with open(MESSAGE, "rb") as recorded:
        sent = recorded.read()
    with open(EXAMPLE) as settings:
        example = settings.read()
    file = sent.split(b"application/octet-stream\r\n\r\n")[1].rsplit(b"\r\n--", 2)[0]
    scripts = scripts_of(example)
    wanted = scripts["afterPrinterConnected"] + scripts["beforePrintStarted"] + commands(file) + scripts["afterPrintDone"]

    outlet = Outlet(folder)
    outlet.switch_on()
    with open(os.path.join(folder, "octo.toml"), "w") as own:
        own.write(re.sub(r"(?m)^ports = .*", 'ports = ["127.0.0.1:%d"]' % outlet.port, example))
    os.mkdir(os.path.join(folder, "files"))
    port = free_port()
    words = [OCTO, "serve", "127.0.0.1:%d" % port, os.path.join(folder, "files"), os.path.join(folder, "octo.db"), "--settings",
             os.path.join(folder, "octo.toml")]
    log = os.path.join(folder, "log")
    started = [subprocess.Popen(words, stdout=subprocess.DEVNULL, stderr=open(log, "wb"))]
    try:
        until("the host listens", lambda: listens(port))
        until_ready(port)
        upload_and_print(port, sent, 1)
        check("what the printer executed before it was switched off", outlet.switch_off() == wanted, True)
        until("the host sees it", lambda: ask(port, "/api/connection")["current"]["state"] != "Operational", pause=0.1)
        outlet.switch_on()
        until_ready(port)
        upload_and_print(port, sent, 2)
        check("the prints", [(p["commands"], p["outcome"]) for p in prints(port)], [(len(commands(file)), "Done")] * 2)
        with open(log) as lines:
            story = lines.read()
        check("what the printer executed after it was switched on again", outlet.switch_off() == wanted, True)
    finally:
        for process in started:
            process.kill()
            process.wait()
        outlet.printer.kill()
    tell(story, port, outlet.port, len(commands(file)))


def tell(story, port, printer_port, count):
    """The log of the evening, with numbers of seconds left out."""
    link = ["printer: connected to 127.0.0.1:%d" % printer_port, "printer: ready"]
    parts = [["file my_box.gcode: stored", "print %d: begun, my_box.gcode, %d commands, for root" % (number, count),
              "print %d: done after . s" % number] for number in (1, 2)]
    wanted = ["serving at http://127.0.0.1:%d" % port, *link, *parts[0], "printer: the link failed: closed by the printer", *link, *parts[1]]
    lines = re.sub(r" after \d+ s\n", " after . s\n", story).split("\n")[:-1]
    check("the log of the evening", lines, wanted)
    check("its length", len(lines) <= MOST_LINES, True)
    check("no key in it", KEY in story, False)


if __name__ == "__main__":
    with tempfile.TemporaryDirectory() as work:
        evening(work)
    end()
