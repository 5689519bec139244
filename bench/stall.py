"""Measures a host beside callers that ask much, or ask slowly, for bench/stall.sh, and prints each round."""

import hashlib
import os
import socket
import sqlite3
import statistics
import subprocess
import sys
import time

FOLDER, ROUNDS = sys.argv[1], int(sys.argv[2])
# The parts that are left out: "queue".
SKIPPED = sys.argv[3:]
# serve.py reads its own arguments as it is imported.
sys.argv = [sys.argv[0], FOLDER, "3", str(ROUNDS)]
sys.path.insert(0, os.path.dirname(__file__))
import serve  # noqa: E402
from serve import Load, Peer, host, load  # noqa: E402
from serving import until  # noqa: E402

# The limits of a host: users, entries of each, records of prints, files.
USERS, ENTRIES, PRINTS, FILES = 1_000, 64, 100_000, 1_000
LARGE = 64 * 1024 * 1024
LINE = b"G1 X100 Y100 E1\n"
# The lines of a print, and after how many seconds it is cancelled.
LINES, SECONDS = 6000, 15
SLOWLY = "60 silent connections, 16 messages that come byte by byte and 8 slow readers"


class Callers:
    """Processes that ask again and again, until they are ended. The printer is in this one."""

    def __init__(self, *commands):
        self.processes = [subprocess.Popen(words, stdout=subprocess.DEVNULL) for words in commands]

    def end(self):
        for process in self.processes:
            if process.poll() is not None:
                raise SystemExit("a caller has ended by itself: %r" % process.args)
            process.kill()
            process.wait()


def readers(octo, path, count):
    return Callers([os.path.join(FOLDER, "plain_load"), str(octo.port), str(count), "60", "200", path, octo.key])


# Stores a file of 64 MiB again and again. Words: the port, the key, the file.
UPLOADS = """
import socket, sys
sys.path.insert(0, "scripts/lib")
from serving import form, message
body, kind = form([("file", sys.argv[3], (b"G1 X100 Y100 E1\\n") * 4194304)])
text = message("POST", "/api/files/local", sys.argv[2], body, kind)
while True:
    with socket.create_connection(("127.0.0.1", int(sys.argv[1])), timeout=60) as conn:
        conn.sendall(text)
        reply = conn.recv(65536)
        assert reply.startswith(b"HTTP/1.1 201 "), reply[:200]
"""

# Begins to store such a file, with a key that names nobody, again and again, and looks for the refusal after each 64 KiB, as curl does. Word: the
# port.
STRANGERS = """
import select, socket, sys
sys.path.insert(0, "scripts/lib")
from serving import message
text = message("POST", "/api/files/local", "nobody0123456789", bytes(1 << 26), "multipart/form-data; boundary=a")
while True:
    with socket.create_connection(("127.0.0.1", int(sys.argv[1])), timeout=60) as conn:
        try:
            for at in range(0, len(text), 65536):
                conn.sendall(text[at:at + 65536])
                if select.select([conn], [], [], 0)[0]:
                    break
            reply = conn.recv(65536)
            assert reply.startswith(b"HTTP/1.1 403 "), reply[:200]
        except ConnectionError:
            pass
"""


def uploads(octo, _, count):
    return Callers(*[[sys.executable, "-c", UPLOADS, str(octo.port), octo.key, upload(number)] for number in range(count)])


def strangers(octo, _, count):
    return Callers(*[[sys.executable, "-c", STRANGERS, str(octo.port)]] * count)


def upload(number):
    return "upload-%d.gcode" % number


# The peers of scripts/process/slow.py. Words: the port, the key.
SLOW = """
import sys, types
sys.path.insert(0, "scripts/process")
from slow import Slow
Slow(types.SimpleNamespace(port=int(sys.argv[1]), key=sys.argv[2]))
"""


def slow_peers(octo, *_):
    found = Callers([sys.executable, "-c", SLOW, str(octo.port), octo.key])
    time.sleep(1)
    return found


def print_rate(octo, peer, begin):
    """Lines a second of a print, of its first seconds if it takes longer, from when these callers have begun, and the longest time between two of them in milliseconds."""
    content = b"".join(b"G1 X%03d Y%03d E%d\n" % (n % 200, n * 7 % 200, n % 10) for n in range(LINES))
    if octo.upload("print.gcode", content, True).status != 201:
        raise SystemExit("the upload was refused")
    callers = begin()
    first, end = peer.lines, time.monotonic() + SECONDS
    while octo.state() != "Operational" and time.monotonic() < end:
        time.sleep(0.05)
    moments = peer.moments[first:]
    octo.post("/api/job", {"command": "cancel"})
    callers.end()
    until("the print is over", lambda: octo.state() == "Operational", pause=0.05)
    return (len(moments) - 1) / (moments[-1] - moments[0]), 1000 * max(late - early for early, late in zip(moments, moments[1:]))


def prints_beside(octo, peer, what, count, kind=readers):
    """Lines a second of a print alone, and beside these callers, by turns, and the longest time between two lines."""
    found = {False: [], True: []}
    for _ in range(ROUNDS):
        found[False].append(print_rate(octo, peer, Callers))
        found[True].append(print_rate(octo, peer, lambda: kind(octo, what, count)))
    (alone, gap), (beside, gap_beside) = (map(statistics.median, zip(*found[one])) for one in (False, True))
    print(
        "a print beside %d x %s: %.0f of %.0f lines a second, %.1f %% lost; the longest gap %.0f and alone %.0f ms; load %s"
        % (count, what, beside, alone, 100 * (1 - beside / alone), gap_beside, gap, load()),
        flush=True,
    )


def answers_beside(octo, what, callers=None):
    """The times of answers to a caller with a key, in milliseconds, beside these callers."""
    times = []
    for _ in range(200):
        began = time.monotonic()
        if octo.ask("GET", "/api/version").status != 200:
            raise SystemExit("refused beside " + what)
        times.append(1000 * (time.monotonic() - began))
        time.sleep(0.002)
    times.sort()
    print("an answer beside %s: median %.2f ms, the longest of 200 %.2f ms; load %s" % (what, times[100], times[-1], load()), flush=True)
    if callers:
        callers.end()


class Opened:
    """This number of connections that have sent these bytes."""

    def __init__(self, octo, count, start):
        self.connections = [socket.create_connection(("127.0.0.1", octo.port), timeout=60) for _ in range(count)]
        for conn in self.connections:
            conn.sendall(start)
        time.sleep(0.5)

    def end(self):
        for conn in self.connections:
            conn.close()


def asked(octo, count):
    """Answers a second at this number of connections."""
    serve.CONNECTIONS = count
    return Load(octo.port, "200", "/api/version", octo.key)


def queue_of(octo):
    """Puts a full queue into the database of a host that has ended."""
    db = sqlite3.connect(octo.database)
    db.executemany(
        "INSERT INTO entries (user, name, file, priority, arrival, copies, remaining, material) VALUES (?, ?, 'a.gcode', ?, ?, 1, 1, 'any')",
        (("user-%d" % (n % USERS), "job-%d" % n, n * 7 % 101, n + 1) for n in range(USERS * ENTRIES)),
    )
    db.commit()
    db.close()


def all_else_of(octo):
    """Puts as many users, records and files as a host may have there too."""
    db = sqlite3.connect(octo.database)
    db.executemany("INSERT INTO users VALUES (?, ?, 'users', 1)", (("user-%d" % n, hashlib.sha256(b"%d" % n).digest()) for n in range(USERS)))
    db.executemany("INSERT INTO prints VALUES (?, ?, 'a.gcode', 100, 2)", ((n + 1, "user-%d" % (n % USERS)) for n in range(PRINTS)))
    db.commit()
    db.close()
    for number in range(FILES):
        open(os.path.join(octo.files, "file-%d.gcode" % number), "wb").write(LINE)


def begins():
    octo = host("queue", 9)
    octo.shut_down()
    for what, fill in (("nothing", None), ("a queue of %d entries" % (USERS * ENTRIES), queue_of), ("all limits together", all_else_of)):
        if fill:
            fill(octo)
        for _ in range(ROUNDS):
            began = time.monotonic()
            octo.start()
            print("a host begins with %s: after %.2f s; load %s" % (what, time.monotonic() - began, load()), flush=True)
            octo.kill()


def fill(octo):
    """As many files as a host may have: a large one, the print, those uploaded, and small ones."""
    names = ["large.gcode", "print.gcode", *map(upload, range(4))]
    names += ["small-%d.gcode" % number for number in range(FILES - len(names))]
    for name in names:
        with open(os.path.join(octo.files, name), "wb") as out:
            out.write(LINE * (LARGE // len(LINE) if name == "large.gcode" else 1))


def main():
    if "queue" not in SKIPPED:
        begins()
    peer = Peer(True)
    paced = host("paced", peer.port)
    try:
        fill(paced)
        paced.kill()
        paced.start()
        answers_beside(paced, "nothing")
        answers_beside(paced, "60 silent connections", Opened(paced, 60, b""))
        answers_beside(paced, "60 connections with a part of a head", Opened(paced, 60, b"GET / HTTP/1.1\r\n"))
        answers_beside(paced, SLOWLY, slow_peers(paced))
        for count in (1, 8):
            print("with the link down, %d connections: %s" % (count, asked(paced, count)), flush=True)
        paced.connect()
        prints_beside(paced, peer, "/api/files/local/large.gcode", 1)
        prints_beside(paced, peer, "/api/files/local/large.gcode", 4)
        prints_beside(paced, peer, "/api/files", 4)
        prints_beside(paced, peer, "/downloads/files/local/large.gcode", 1)
        prints_beside(paced, peer, "/downloads/files/local/large.gcode", 4)
        for count in (1, 4):
            prints_beside(paced, peer, "uploads of 64 MiB", count, uploads)
            prints_beside(paced, peer, "uploads of 64 MiB by a key that names nobody", count, strangers)
        prints_beside(paced, peer, SLOWLY, 1, slow_peers)
        if paced.ask("GET", "/api/files").body.count(b'"name":') != FILES:
            raise SystemExit("the list has another number of files")
    finally:
        paced.kill()


if __name__ == "__main__":
    main()
