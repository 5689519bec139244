"""`octo serve` over real sockets, a folder and a database: a slicer's upload, slow and vanishing peers, many requests, asks while the
printer is silent, a kill in mid-print, and the tables as the stock sqlite3 reads them."""

import os
import shutil
import socket
import subprocess
import sys
import tempfile
import threading
import time

sys.path.insert(0, __file__.rsplit("/", 2)[0] + "/lib")
from checking import build, check, end  # noqa: E402
from serving import LIMIT, Host, Printer, form, message, until  # noqa: E402

build("octo", "marlin_sim")

LAYER = b"".join(b"G1 X%d Y%d E%d.5 ; move\n" % (n % 200, n * 7 % 200, n) for n in range(200))


def commands(content):
    """A file's commands as the printer gets them."""
    texts = []
    for line in content.split(b"\n"):
        text = line.split(b";")[0].split(b"*")[0].strip(b" \t\r")
        if text:
            texts.append(text.decode())
    return texts


def slicer_upload(folder):
    """As PrusaSlicer sends it: the key as a field of the head, `print` and `path` before the file, the file with a type of its own."""
    printer = Printer(folder)
    host = Host(folder, printer.port).start()
    try:
        host.connect()
        body, kind = form([("print", None, b"true"), ("path", None, b""), ("file", "../slices/cube 1.gcode", LAYER)])
        reply = host.ask("POST", "/api/files/local", body, kind, ("User-Agent: PrusaSlicer/2.7", "Accept: */*", "Expect: 100-continue"))
        check("a slicer's upload", (reply.status, reply.json().get("effectivePrint")), (201, True))
        host.until_state("Operational")
        prints = host.ask("GET", "/api/prints").json()["prints"]
        check("its print", [(p["file"], p["outcome"], p["commands"]) for p in prints], [("cube_1.gcode", "Done", 200)])
        check("its file", open(os.path.join(host.files, "cube_1.gcode"), "rb").read() == LAYER, True)
        status, text = host.shut_down()
        check("the end of the host", (status, text.startswith(b"served ")), (0, True))
        check("what the printer executed", printer.end() == commands(LAYER), True)
    finally:
        host.kill()
        printer.kill()


def silent_peers(folder):
    """Connections that send nothing, or a part of a head, keep no worker: they wait at the door, 64 at most. A body that doesn't come
    keeps one until the host's patience ends."""
    host = Host(folder, 9, "[serve]\npatience = 100\n").start()
    silent = []
    try:
        for count in range(70):
            silent.append(socket.create_connection(("127.0.0.1", host.port), timeout=LIMIT))
            if count % 2:
                silent[-1].sendall(b"GET /api/version HTTP/1.1\r\n")
        time.sleep(0.5)
        began = time.monotonic()
        status = host.ask("GET", "/api/version").status
        check("a request beside 70 silent connections", (status, time.monotonic() - began < 1), (200, True))
        # The host has closed the oldest.
        silent[0].settimeout(5)
        check("the oldest of them", silent[0].recv(4096), b"")
        slow = socket.create_connection(("127.0.0.1", host.port), timeout=LIMIT)
        slow.sendall(b"POST /api/job HTTP/1.1\r\nHost: a\r\nContent-Length: 40\r\n\r\n{")
        began = time.monotonic()
        status = slow.recv(4096).split(b"\r\n")[0].split(b" ")[1:2]
        check("a body that doesn't come", (status, 0.9 < time.monotonic() - began < 5), ([b"408"], True))
        for conn in silent:
            conn.close()
        check("the end after them", host.shut_down()[0], 0)
    finally:
        host.kill()


def vanishing_peers(folder):
    """A peer that closes in mid-request, at once or by a reset, leaves the host as it was."""
    host = Host(folder, 9).start()
    try:
        body, kind = form([("file", "a.gcode", LAYER)])
        whole = message("POST", "/api/files/local", host.key, body, kind)
        for place in (0, 1, 20, whole.index(b"\r\n\r\n") + 2, whole.index(b"\r\n\r\n") + 4, len(whole) - 200, len(whole) - 1):
            for reset in (False, True):
                conn = socket.create_connection(("127.0.0.1", host.port), timeout=LIMIT)
                conn.sendall(whole[:place])
                if reset:
                    conn.setsockopt(socket.SOL_SOCKET, socket.SO_LINGER, b"\x01\0\0\0\0\0\0\0")
                conn.close()
        check("files after peers that vanished", host.ask("GET", "/api/files").json(), {"files": []})
        # Four at once: a peer that closes frees its worker.
        for _ in range(4):
            conn = socket.create_connection(("127.0.0.1", host.port), timeout=LIMIT)
            conn.sendall(whole[:30])
            conn.close()
        began = time.monotonic()
        status = host.ask("GET", "/api/version").status
        check("a request after them", (status, time.monotonic() - began < 1), (200, True))
        check("the end after them", host.shut_down()[0], 0)
    finally:
        host.kill()


def fewest_descriptors(host):
    """How many are open when no connection is: one is closed in order, which may take a moment after its reply."""
    fewest = host.descriptors()
    for _ in range(60):
        time.sleep(0.05)
        fewest = min(fewest, host.descriptors())
    return fewest


def many_requests(folder):
    """No descriptor is lost in 1,000 requests, a fifth of which are refused."""
    host = Host(folder, 9).start()
    try:
        kinds = [("GET", "/api/version", 200), ("GET", "/api/job", 200), ("GET", "/api/files/local/none.gcode", 404),
                 ("GET", "/api/connection", 200), ("GET", "/api/prints", 200)]
        for method, path, _ in kinds:
            host.ask(method, path)
        before = fewest_descriptors(host)
        wrong = 0
        for number in range(1000):
            method, path, status = kinds[number % len(kinds)]
            wrong += host.ask(method, path).status != status
        check("1,000 requests", wrong, 0)
        check("descriptors after them", fewest_descriptors(host), before)
        status, text = host.shut_down()
        check("the calls counted", (status, text), (0, b"served %d calls\n" % (1000 + len(kinds) + 1)))
    finally:
        host.kill()


def asks_in_a_wait(folder):
    """The host's thread waits for 10 milliseconds at a time, for the clock or for the printer, and an ask ends the wait."""
    printer = Printer(folder)
    host = Host(folder, printer.port).start()

    def median():
        times = []
        for _ in range(60):
            began = time.monotonic()
            host.ask("GET", "/api/version")
            times.append(time.monotonic() - began)
        return sorted(times)[30]

    try:
        check("asks with the link down don't wait for the clock", min(median() for _ in range(3)) < 0.004, True)
        host.connect()
        check("asks don't wait for a silent printer", min(median() for _ in range(3)) < 0.004, True)
        check("the end after them", host.shut_down()[0], 0)
    finally:
        host.kill()
        printer.kill()


def killed_print(folder, after):
    """Kills the host some time after a print began. A new start finds the tables and whole files. The print is Failed, or Done if it was
    over."""
    printer = Printer(folder)
    host = Host(folder, printer.port).start()
    long = LAYER * 200
    other = LAYER * 100
    try:
        host.connect()
        check("an upload before the kill", host.upload("long.gcode", long, True).status, 201)
        threading.Thread(target=lambda: quiet(lambda: host.upload("other.gcode", other)), daemon=True).start()
        time.sleep(after)
        host.kill()
        executed = printer.end()
        wanted = commands(long)
        check("what the printer executed of a print killed after %.2f s" % after, executed == wanted[:len(executed)], True)
        new = Printer(folder)
        host.set_printer(new.port)
        host.start()
        prints = host.ask("GET", "/api/prints").json()["prints"]
        outcomes = [p["outcome"] for p in prints]
        check("its record", outcomes == ["Failed"] or (outcomes == ["Done"] and executed == wanted), True)
        files = {f["name"]: f["size"] for f in host.ask("GET", "/api/files").json()["files"]}
        whole = {"long.gcode": len(long), "other.gcode": len(other)}
        check("the files' sizes", "long.gcode" in files and all(whole[name] == size for name, size in files.items()), True)
        for name, content in (("long.gcode", long), ("other.gcode", other)):
            if name in files:
                check("the whole file %s" % name, host.ask("GET", "/downloads/files/local/" + name).body == content, True)
        host.connect()
        small = LAYER
        check("an upload after it", host.upload("small.gcode", small, True).status, 201)
        host.until_state("Operational")
        check("the end after it", host.shut_down()[0], 0)
        stored = {"Done": "1\n", "Failed": "3\n"}.get("".join(outcomes))
        check_sqlite(host, "its record in the database", "SELECT outcome FROM prints WHERE number = 1;", stored)
        check("the next print", new.end() == commands(small), True)
        new.kill()
    finally:
        host.kill()
        printer.kill()


class SilentPrinter(threading.Thread):
    """Acknowledges the hello, if it greets, and nothing after it. Keeps each line with the moment at which it came, and the moment of the
    end."""

    def __init__(self, greets=True):
        super().__init__(daemon=True)
        self.greets = greets
        self.listener = socket.create_server(("127.0.0.1", 0))
        self.port = self.listener.getsockname()[1]
        self.lines = []
        self.closed = None
        self.start()

    def run(self):
        conn, _ = self.listener.accept()
        try:
            for line in conn.makefile("rb"):
                if self.greets and not self.lines:
                    conn.sendall(b"ok\n")
                self.lines.append((time.monotonic(), line))
        finally:
            self.closed = time.monotonic()


def stopped_print(folder):
    """M112 during a print whose printer is silent and whose window is full: it is the next line at the printer and the last one."""
    printer = SilentPrinter()
    host = Host(folder, printer.port).start()
    try:
        host.connect()
        check("an upload to stop", host.upload("long.gcode", LAYER, True).status, 201)
        until("a full window", lambda: len(printer.lines) > 1, pause=0.1)
        time.sleep(0.5)
        before = len(printer.lines)
        reply = host.ask("POST", "/api/printer/command", b'{"command":"M112"}', "application/json")
        answered = time.monotonic()
        check("the stop", reply.status, 204)
        until("the end of the link", lambda: printer.closed)
        moment, line = printer.lines[-1]
        check("the last line", (len(printer.lines), line.split(b" ", 1)[1].split(b"*")[0]), (before + 1, b"M112"))
        check("the stop at the printer within 100 ms", moment - answered < 0.1, True)
        host.until_state("Error")
        prints = host.ask("GET", "/api/prints").json()["prints"]
        check("its record", [p["outcome"] for p in prints], ["Failed"])
        check("the end after it", host.shut_down()[0], 0)
    finally:
        host.kill()


def stopped_connection(folder):
    """M112 while the printer hasn't acknowledged the hello: it is the next line at the printer and the last one."""
    printer = SilentPrinter(greets=False)
    host = Host(folder, printer.port).start()
    try:
        host.post("/api/connection", {"command": "connect"})
        until("the hello", lambda: printer.lines)
        check("the state before the hello's ok", host.state(), "Connecting")
        check("a stop while connecting", host.post("/api/printer/command", {"command": "M112"}).status, 204)
        until("the end of its link", lambda: printer.closed)
        check("what the printer got", [line for _, line in printer.lines], [b"N0 M110 N1*124\n", b"N2 M112*35\n"])
        host.until_state("Error")
        check("the end after that stop", host.shut_down()[0], 0)
    finally:
        host.kill()


def quiet(work):
    try:
        work()
    except OSError:
        pass  # the host was killed


def check_sqlite(host, name, statement, wanted):
    """What the stock sqlite3 prints over the host's database."""
    if not shutil.which("sqlite3"):
        print("skipped: %s: sqlite3 is missing" % name, flush=True)
        return
    run = subprocess.run(["sqlite3", host.database, statement], capture_output=True, timeout=LIMIT)
    check(name, run.stdout.decode(), wanted)


def tables(folder):
    """What the host kept, as the stock sqlite3 reads it, and while the host runs that it is locked."""
    printer = Printer(folder)
    host = Host(folder, printer.port).start()

    try:
        host.connect()
        ana = {"name": "ana", "key": "anakey0000000001", "groups": ["users"]}
        check("a user", host.post("/api/access/users", ana).status, 201)
        check("an upload", host.upload("a.gcode", LAYER, True).status, 201)
        host.until_state("Operational")
        check("an entry", host.post("/api/queue", {"name": "job-1", "file": "a.gcode", "priority": 5}).status, 201)
        check_sqlite(host, "sqlite3 while the host runs", "SELECT count(*) FROM prints;", "")
        check("the end", host.shut_down()[0], 0)
        printer.end()
        check_sqlite(host, "the database", "PRAGMA integrity_check; SELECT schema FROM meta;", "ok\n2\n")
        check_sqlite(host, "its users", "SELECT name, length(digest), groups, active FROM users;", "ana|32|users|1\n")
        check_sqlite(host, "its entries", "SELECT user, name, file, priority FROM entries;", "root|job-1|a.gcode|5\n")
        check_sqlite(host, "its prints", "SELECT number, user, file, commands, outcome FROM prints;", "1|root|a.gcode|200|1\n")
        host.start()
        check("the user again", [u["name"] for u in host.ask("GET", "/api/access/users").json()["users"]], ["ana"])
        words = [host.program, "serve", "127.0.0.1:9", host.files, host.database, "--settings", host.settings]
        run = subprocess.run(words, capture_output=True, timeout=LIMIT)
        check("a second host on the same database", (run.returncode, run.stdout), (9, b"keeper failed\n"))
        check("the end again", host.shut_down()[0], 0)
    finally:
        host.kill()
        printer.kill()


def refusals(folder):
    """What keeps a host from serving: its settings, its folder, its address. Standard error says why."""
    host = Host(folder, 9)
    taken_address = "127.0.0.1:%d" % free_and_taken().getsockname()[1]
    words = [host.program, "serve", taken_address, host.files, host.database, "--settings", host.settings]
    none = os.path.join(folder, "none")
    unserved = b"served 0 calls\ndoor failed\n"
    no_database = "it isn't a database of octo, is in use, or its folder is missing"

    def refused(name, words, status, text, said):
        run = subprocess.run(words, capture_output=True, timeout=LIMIT)
        check(name, (run.returncode, run.stdout, run.stderr.decode()), (status, text, said))

    refused("an address in use", words, 12, unserved, "octo: %s: address already in use\n" % taken_address)
    refused("an address without a host", words[:2] + [":5050"] + words[3:], 12, unserved, "octo: :5050 isn't HOST:PORT\n")
    refused("no such folder", words[:3] + [none] + words[4:], 9, b"shelf failed\n", "octo: %s: no such file or folder\n" % none)
    refused("a database that is none", words[:4] + [host.settings] + words[5:], 9, b"keeper failed\n", "octo: %s: %s\n" % (host.settings, no_database))
    refused("no such settings", words[:-1] + [none], 4, b"source failed\n", "octo: %s: no such file or folder\n" % none)
    with open(host.settings, "a") as out:
        out.write("[printer]\n")
    refused("settings that are refused", words, 7, b"settings: not toml\n", "")
    refused("serve without settings", words[:-2], 2, b"octo: bad words\n", "octo: the following required arguments were not provided:  --settings <settings>\n")


taken = []


def free_and_taken():
    """A listener, which keeps its port from others."""
    listener = socket.create_server(("127.0.0.1", 0))
    taken.append(listener)
    return listener


def main():
    checks = [slicer_upload, silent_peers, vanishing_peers, many_requests, asks_in_a_wait, stopped_print, stopped_connection, tables, refusals]
    checks += [lambda folder, after=after: killed_print(folder, after) for after in (0, 0.02, 0.1, 0.3, 0.7)]
    for work in checks:
        with tempfile.TemporaryDirectory() as folder:
            try:
                work(folder)
            except (OSError, KeyError, ValueError, subprocess.TimeoutExpired, SystemExit) as fault:
                check("a check without a fault of its own", repr(fault), "")
    end()


if __name__ == "__main__":
    main()
