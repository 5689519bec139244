"""Bad files, names and peers: octo's text and status, and its memory."""

import os
import random
import resource
import socket
import subprocess
import sys
import tempfile
import threading

sys.path.insert(0, __file__.rsplit("/", 2)[0] + "/lib")
from checking import build  # noqa: E402

build("octo")

OCTO = "crates/octo/out/octo"
# The least that the program needs is a few MiB; none of these cases may make it keep what a peer sends.
MEMORY = 12 * 1024 * 1024
SECONDS = 60


def bound_memory():
    resource.setrlimit(resource.RLIMIT_AS, (MEMORY, MEMORY))


def run_octo(*arguments):
    run = subprocess.run([OCTO, *arguments], capture_output=True, timeout=SECONDS, preexec_fn=bound_memory)
    return run.returncode, run.stdout, run.stderr


def octo(port, file):
    return run_octo("print", port, file, "--turns", "1000")


class Peer:
    """One peer on the loopback address, which does `act` with the connection that it accepts, and then closes it."""

    def __init__(self, act):
        self.listener = socket.create_server(("127.0.0.1", 0))
        self.port = "127.0.0.1:%d" % self.listener.getsockname()[1]
        self.thread = threading.Thread(target=self.serve, args=(act,), daemon=True)
        self.thread.start()

    def serve(self, act):
        conn, _ = self.listener.accept()
        try:
            act(conn)
        except OSError:
            pass  # octo has closed
        conn.close()
        self.listener.close()


def until_closed(conn):
    while conn.recv(4096):
        pass


def silence(conn):
    until_closed(conn)


def noise(conn):
    conn.sendall(random.Random(7).randbytes(200_000))
    until_closed(conn)


def half_a_line(conn):
    conn.sendall(b"o")
    conn.shutdown(socket.SHUT_WR)
    until_closed(conn)


def endless_line(conn):
    for _ in range(160):
        conn.sendall(b"x" * 65_536)
    until_closed(conn)


def nobody():
    with socket.socket() as free:
        free.bind(("127.0.0.1", 0))
        return "127.0.0.1:%d" % free.getsockname()[1]


def main():
    failed = False
    with tempfile.TemporaryDirectory() as folder:
        good = os.path.join(folder, "a.gcode")
        with open(good, "wb") as file:
            file.write(b"G28\n")
        used = b"turns used: 1000\n"
        missing = os.path.join(folder, "b.gcode")
        deaf = nobody()
        halved = Peer(half_a_line)
        # The status, the standard output, and the standard error.
        rows = [
            ("an argument that isn't UTF-8", lambda: run_octo("check", b"\xff"), 2, b"octo: bad words\n", b"octo: an argument isn't UTF-8\n"),
            ("an unknown command", lambda: run_octo("prnt", good), 2, b"octo: bad words\n", b"octo: unrecognized subcommand 'prnt'\n"),
            ("no such file", lambda: octo(nobody(), missing), 4, b"source failed\n", b"octo: %s: no such file or folder\n" % missing.encode()),
            ("a folder as the file", lambda: octo(nobody(), folder), 4, b"source failed\n", b"octo: %s: is a directory\n" % folder.encode()),
            ("a name that is no port", lambda: octo("printer", good), 5, b"port printer is not listed\n", b"octo: printer isn't HOST:PORT, unix:PATH or tty:PATH\n"),
            ("a port that is too large", lambda: octo("printer:65536", good), 5, b"port printer:65536 is not listed\n", b"octo: printer:65536 isn't HOST:PORT, unix:PATH or tty:PATH\n"),
            ("nobody listens", lambda: octo(deaf, good), 5, b"link failed\n", b"octo: %s: connection refused\n" % deaf.encode()),
            ("binary noise", lambda: octo(Peer(noise).port, good), 10, used, b""),
            ("a peer that closes in mid-line", lambda: octo(halved.port, good), 5, b"link failed\n", b"octo: %s: closed by the printer\n" % halved.port.encode()),
            ("10 MB without a line end", lambda: octo(Peer(endless_line).port, good), 10, used, b""),
            ("a peer that never answers", lambda: octo(Peer(silence).port, good), 10, used, b""),
        ]
        for name, run, code, text, said in rows:
            got = run()
            if got == (code, text, said):
                print("ok: %s" % name)
            else:
                print("failed: %s: %r" % (name, got))
                failed = True
    return 1 if failed else 0


sys.exit(main())
