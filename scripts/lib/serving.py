"""A served host and its printer as processes, and requests to it: shared by the checks and the measurements of `octo serve`."""

import hashlib
import itertools
import json
import os
import secrets
import socket
import subprocess
import tempfile
import time

OCTO = "crates/octo/out/octo"
SIM = "crates/marlin_sim/out/marlin_sim"
# No wait is longer than this, in seconds.
LIMIT = 60


# The ports of free_port are below those that the system gives to outgoing connections, so that one that is free stays free. scripts/test
# gives each of the checks that it runs side by side a part of them: CHECK_PORTS is "the first one and how many".
FIRST_PORT, PORTS = map(int, os.environ.get("CHECK_PORTS", "20000 12000").split())
calls = itertools.count()


def free_port():
    """A port of the loopback address that is free now, and another one at each call."""
    while True:
        # The scripts in sh call this from one process after the other.
        port = FIRST_PORT + (os.getpid() * 8 + next(calls)) % PORTS
        with socket.socket() as listener:
            try:
                listener.bind(("127.0.0.1", port))
                return port
            except OSError:
                continue


def write_moves(path, lines=0, size=0):
    """A file of moves, of this number of lines, or of as many as it takes to this size; how many they are."""
    count = 0
    with open(path, "w") as file:
        while count < lines or file.tell() < size:
            file.write("G1 X%d.%03d Y%d.%03d E0.%05d\n" % (count % 200, count % 1000, count % 180, count % 997, count % 99991))
            count += 1
    return count


def until(what, test, seconds=LIMIT, pause=0.02):
    """What the test returns as soon as that is true."""
    end = time.monotonic() + seconds
    while True:
        found = test()
        if found:
            return found
        if time.monotonic() > end:
            raise SystemExit("not within %d seconds: %s" % (seconds, what))
        time.sleep(pause)


def listens(port):
    """Whether the kernel lists a listening socket at this port; to connect would use up a printer that serves one connection."""
    wanted = ":%04X" % port
    for path in ("/proc/net/tcp", "/proc/net/tcp6"):
        if os.path.exists(path):
            for line in open(path).read().split("\n")[1:]:
                words = line.split()
                if len(words) > 3 and words[1].endswith(wanted) and words[3] == "0A":
                    return True
    return False


class Reply:
    def __init__(self, data):
        head, _, self.body = data.partition(b"\r\n\r\n")
        # An interim reply comes before the last one.
        while head.startswith(b"HTTP/1.1 1"):
            head, _, self.body = self.body.partition(b"\r\n\r\n")
        words = head.split(None, 2)
        self.status = int(words[1]) if len(words) > 1 else 0
        self.head = head

    def json(self):
        return json.loads(self.body)


def exchange(port, data, seconds=LIMIT):
    """Sends a whole message on a connection of its own, and reads until the peer closes."""
    with socket.create_connection(("127.0.0.1", port), timeout=seconds) as conn:
        conn.sendall(data)
        parts = []
        while True:
            part = conn.recv(65536)
            if not part:
                return Reply(b"".join(parts))
            parts.append(part)


def message(method, path, key, body=None, kind=None, fields=()):
    lines = ["%s %s HTTP/1.1" % (method, path), "Host: 127.0.0.1", "X-Api-Key: " + key, *fields]
    if kind:
        lines.append("Content-Type: " + kind)
    if body is not None:
        lines.append("Content-Length: %d" % len(body))
    return ("\r\n".join(lines) + "\r\n\r\n").encode() + (body or b"")


def form(parts, boundary="----------------------------slicer0123456789"):
    """The body of a form and its type: parts are (name, filename or None, bytes)."""
    body = b""
    for name, filename, value in parts:
        line = 'Content-Disposition: form-data; name="%s"' % name
        if filename is not None:
            line += '; filename="%s"\r\nContent-Type: application/octet-stream' % filename
        body += ("--%s\r\n%s\r\n\r\n" % (boundary, line)).encode() + value + b"\r\n"
    return body + ("--%s--\r\n" % boundary).encode(), "multipart/form-data; boundary=" + boundary


class Printer:
    """A modelled printer, which serves one connection."""

    def __init__(self, folder, *plan):
        self.port = free_port()
        self.executed = os.path.join(folder, "executed-%d" % self.port)
        self.process = subprocess.Popen([SIM, "127.0.0.1:%d" % self.port, *(plan or ("0", "4", "-", "-"))], stdout=open(self.executed, "wb"))
        until("the printer listens", lambda: listens(self.port))

    def texts(self):
        """What it executed, without numbers, the hello and the questions for temperatures."""
        lines = open(self.executed).read().split("\n")[:-1]
        texts = [line.split(" ", 1)[1] for line in lines if line != "N1 M110 N1"]
        return [text for text in texts if text != "M105"]

    def end(self):
        """Waits until it has ended, and returns what it executed."""
        self.process.wait(timeout=LIMIT)
        return self.texts()

    def kill(self):
        if self.process.poll() is None:
            self.process.kill()
        self.process.wait()


class Host:
    """A host with a folder and a database in a folder of its own; the printer's port may be anyone's."""

    def __init__(self, folder, printer_port, extra="", program=OCTO):
        self.folder = folder
        self.program = program
        self.key = secrets.token_hex(16)
        self.files = os.path.join(folder, "files")
        self.database = os.path.join(folder, "octo.db")
        self.settings = os.path.join(folder, "octo.toml")
        self.output = os.path.join(folder, "octo")
        os.makedirs(self.files, exist_ok=True)
        self.process = None
        # The words of a program that starts the host, as strace.
        self.before = []
        # The path of a file for its standard error, which else is that of the check.
        self.errors = None
        self.extra = extra
        self.set_printer(printer_port)

    def set_printer(self, port):
        with open(self.settings, "w") as out:
            out.write('[printer]\nports = ["127.0.0.1:%d"]\nlimit_ms = 5000\npoll_ms = 1000\n' % port)
            out.write("[limits]\n[admin]\nname = \"root\"\nkey_sha256 = \"%s\"\n" % hashlib.sha256(self.key.encode()).hexdigest())
            out.write(self.extra)

    def start(self):
        self.port = free_port()
        words = [*self.before, self.program, "serve", "127.0.0.1:%d" % self.port, self.files, self.database, "--settings", self.settings]
        errors = open(self.errors, "wb") if self.errors else None
        self.process = subprocess.Popen(words, stdout=open(self.output, "wb"), stderr=errors)
        until("the host answers", lambda: self.answers() or self.process.poll() is not None)
        if self.process.poll() is not None:
            raise SystemExit("the host ended: status %d, %r" % (self.process.returncode, open(self.output, "rb").read()))
        return self

    def answers(self):
        """Whether it has begun: its address is bound before the database is opened. A path that doesn't exist is no call of the house."""
        try:
            return listens(self.port) and self.ask("GET", "/api/nothing").status == 404
        except OSError:
            return False

    def ask(self, method, path, body=None, kind=None, fields=(), seconds=LIMIT):
        return exchange(self.port, message(method, path, self.key, body, kind, fields), seconds)

    def post(self, path, value=None):
        if value is None:
            return self.ask("POST", path)
        return self.ask("POST", path, json.dumps(value).encode(), "application/json")

    def upload(self, name, content, printing=False):
        body, kind = form([("print", None, b"true" if printing else b"false"), ("path", None, b""), ("file", name, content)])
        return self.ask("POST", "/api/files/local", body, kind)

    def state(self):
        return self.ask("GET", "/api/job").json()["state"]

    def until_state(self, *states):
        return until("the host is %s" % " or ".join(states), lambda: self.state() in states and self.state())

    def connect(self):
        self.post("/api/connection", {"command": "connect"})
        self.until_state("Operational")

    def descriptors(self):
        return len(os.listdir("/proc/%d/fd" % self.process.pid))

    def shut_down(self):
        """Its status and its text."""
        reply = self.post("/api/system/commands/core/shutdown")
        if reply.status != 204:
            raise SystemExit("the shutdown was refused: %d %r" % (reply.status, reply.body))
        status = self.process.wait(timeout=LIMIT)
        return status, open(self.output, "rb").read()

    def kill(self):
        if self.process and self.process.poll() is None:
            self.process.kill()
            self.process.wait()


def with_folder(work):
    """Calls work with a folder that is gone afterwards, and whose processes are ended by their own ends."""
    with tempfile.TemporaryDirectory() as folder:
        return work(folder)
