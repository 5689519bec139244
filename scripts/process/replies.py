"""Lost replies: prints of `octo sure` and of a served host at a printer whose `ok`s have numbers, with lost and corrupted lines too; and
the ends of a host whose printer has fallen silent.

Lines go to the modelled printer through a relay that counts them, so that the check also says how many lines a command costs.
"""

import os
import socket
import subprocess
import sys
import tempfile
import threading
import time

sys.path.insert(0, __file__.rsplit("/", 2)[0] + "/lib")
from checking import build, check, end  # noqa: E402
from serving import LIMIT, OCTO, Host, Printer, free_port, until  # noqa: E402

build("octo", "marlin_sim")

# The received lines that the printer loses, those that it receives with another digit, and its replies that are lost.
DROP, GARBLE, LOST = "5,31,90,171", "9,55,130", "4,5,17,29,41,42,43,77,101,140,188"
# After so many commands a printer falls silent.
SPOKEN = 12


def commands(name, count):
    return ["G1 X%d.%d F%d" % (at, at % 7, 1000 + ord(name)) for at in range(1, count + 1)]


def content(texts):
    return "".join(text + "\n" for text in texts).encode()


class Relay:
    """A port that passes on to a printer, once, and counts the lines of the host."""

    def __init__(self, target):
        self.target = target
        self.lines = 0
        self.listener = socket.create_server(("127.0.0.1", 0))
        self.port = self.listener.getsockname()[1]
        threading.Thread(target=self.run, daemon=True).start()

    def run(self):
        host, _ = self.listener.accept()
        printer = socket.create_connection(("127.0.0.1", self.target))
        for end in host, printer:
            end.setsockopt(socket.IPPROTO_TCP, socket.TCP_NODELAY, 1)
        threading.Thread(target=self.copy, args=(host, printer, True), daemon=True).start()
        self.copy(printer, host, False)

    def copy(self, source, sink, counting):
        try:
            while data := source.recv(65536):
                if counting:
                    self.lines += data.count(b"\n")
                sink.sendall(data)
            sink.shutdown(socket.SHUT_WR)
        except OSError:
            pass


class Silent(threading.Thread):
    """A printer that executes some commands, naming each in its `ok`, and then takes whatever comes and says nothing."""

    def __init__(self):
        super().__init__(daemon=True)
        self.listener = socket.create_server(("127.0.0.1", 0))
        self.port = self.listener.getsockname()[1]
        self.fell_silent = threading.Event()
        self.start()

    def run(self):
        conn, _ = self.listener.accept()
        spoken = 0
        try:
            for line in conn.makefile("rb"):
                if spoken > SPOKEN:
                    self.fell_silent.set()
                    continue
                number, _, text = line.partition(b" ")
                conn.sendall(b"ok T:20.0 /0.0\n" if text.startswith(b"M105") else b"ok " + number + b"\n")
                spoken += not text.startswith(b"M105")
        except OSError:
            pass


def printed(printer):
    """What a printer executed, without the probes."""
    return [text for text in printer.end() if text != "M400"]


# What is left of the settings after those of the printer.
SECTIONS = """[limits]

[admin]
name = "root"
key_sha256 = "470dc872b1b47dac8456c9f0800583d1176d1a2f194b626000379d1d7d7fc920"
"""


def sure(folder, settings):
    """`octo sure`, and `octo print` with the setting: every command once, and how many lines that takes."""
    texts = commands("a", 200)
    file = os.path.join(folder, "a.gcode")
    with open(file, "wb") as out:
        out.write(content(texts))
    for command, text in ("sure", settings), ("print", settings + "numbered_oks = true\n"):
        for plan in ("-", "-", LOST), (DROP, GARBLE, LOST):
            printer = Printer(folder, "0", "4", *plan)
            relay = Relay(printer.port)
            with open(os.path.join(folder, "short.toml"), "w") as out:
                out.write(text + SECTIONS)
            run = subprocess.run([OCTO, command, "127.0.0.1:%d" % relay.port, file, "--settings", os.path.join(folder, "short.toml")],
                                 capture_output=True, timeout=LIMIT)
            name = "octo %s, replies lost%s" % (command, "" if plan[0] == "-" else ", lines lost and corrupted")
            check(name + ": status and output", (run.returncode, run.stdout), (0, b"done: %d commands, 0 skipped\n" % len(texts)))
            check(name + ": executed", printed(printer), texts)
            print("%s: %.3f lines a command" % (name, relay.lines / len(texts)), flush=True)


def host_at(folder, port):
    host = Host(folder, port)
    with open(host.settings) as settings:
        text = settings.read()
    with open(host.settings, "w") as settings:
        settings.write(text.replace("limit_ms = 5000\npoll_ms = 1000\n", "limit_ms = 1000\npoll_ms = 1000\nnumbered_oks = true\n"))
    return host


def three_files(folder):
    """A served host prints three files whole, and ends as asked."""
    os.mkdir(folder)
    printer = Printer(folder, "0", "4", DROP, GARBLE, LOST)
    relay = Relay(printer.port)
    host = host_at(folder, relay.port).start()
    files = {name: commands(name, 60) for name in "xyz"}
    try:
        host.connect()
        for number, (name, texts) in enumerate(files.items(), 1):
            check("print %d is begun" % number, host.upload(name + ".gcode", content(texts), True).status, 201)
            until("print %d has ended" % number, lambda: outcomes(host).count("Active") == 0 and len(outcomes(host)) == number)
            host.until_state("Operational", "Error")
        check("the prints", outcomes(host), ["Done"] * 3)
        host.post("/api/connection", {"command": "disconnect"})
        host.until_state("Offline")
        check("the end", host.shut_down()[0], 0)
    finally:
        host.kill()
    wanted = [text for texts in files.values() for text in texts]
    check("the three files, executed", printed(printer), wanted)
    print("a served host, replies lost, lines lost and corrupted: %.3f lines a command" % (relay.lines / len(wanted)), flush=True)


def outcomes(host):
    return [row["outcome"] for row in host.ask("GET", "/api/prints").json()["prints"]]


def silent(folder):
    """A printer falls silent in a print: a cancel comes to an end after five limits, and a second disconnect at once."""
    for name, outcome in ("cancel", "Failed"), ("disconnect", "Cancelled"):
        printer = Silent()
        own = os.path.join(folder, name)
        host = host_at(own, printer.port).start()
        try:
            host.connect()
            host.upload("long.gcode", content(commands("l", 100)), True)
            check("the printer falls silent", printer.fell_silent.wait(LIMIT), True)
            began = time.monotonic()
            if name == "cancel":
                check("cancel", host.post("/api/job", {"command": "cancel"}).status, 204)
                check("the state after five limits", host.until_state("Error", "Offline", "Operational"), "Error")
            else:
                for _ in range(2):
                    check("disconnect", host.post("/api/connection", {"command": "disconnect"}).status, 204)
                check("the state at once", host.until_state("Offline", "Error"), "Offline")
                check("it took no limit", time.monotonic() - began < 1, True)
            check("the print", outcomes(host), [outcome])
            check("the end after a silent printer", host.shut_down()[0], 0)
        finally:
            host.kill()


def checks(folder):
    port = free_port()
    sure(folder, '[printer]\nports = ["127.0.0.1:%d"]\nlimit_ms = 1000\n' % port)
    three_files(os.path.join(folder, "host"))
    silent(folder)


if __name__ == "__main__":
    with tempfile.TemporaryDirectory() as made:
        checks(made)
    end()
