"""A printer that acknowledges each command at once, but those that it holds back."""

import re
import socket
import threading

LINE = re.compile(rb"N(-?\d+) (.*)\*(\d+)$", re.S)


def text_of(line):
    """The command of a numbered line; None if its checksum is wrong."""
    found = LINE.match(line)
    if not found:
        return None
    total = 0
    for byte in line[:line.rindex(b"*")]:
        total ^= byte
    return found[2].decode() if total == int(found[3]) else None


class HeldPrinter:
    """Serves one connection after another. `executed` has the commands but the hello and the questions for temperatures."""

    def __init__(self, heat, holds):
        self.heat, self.holds = heat, holds
        self.executed = []
        self.questions = 0
        self.held = self.conn = None
        self.listener = socket.create_server(("127.0.0.1", 0))
        self.port = self.listener.getsockname()[1]
        threading.Thread(target=self.run, daemon=True).start()

    def run(self):
        try:
            while True:
                conn, _ = self.listener.accept()
                conn.setsockopt(socket.IPPROTO_TCP, socket.TCP_NODELAY, 1)
                self.serve(conn)
        except OSError:
            return

    def serve(self, conn):
        self.conn = conn
        with conn:
            try:
                for line in conn.makefile("rb"):
                    conn.sendall(self.answer(text_of(line.rstrip(b"\n")), conn))
            except OSError:
                return

    def answer(self, text, conn):
        if text is None:
            self.executed.append("a line that isn't numbered or has a wrong checksum")
            return b""
        if text == "M105":
            self.questions += 1
            return b"ok %s\n" % self.heat.encode()
        if not text.startswith("M110"):
            self.executed.append(text)
        if self.holds and text.startswith(self.holds):
            self.held = conn
            return b""
        return b"ok\n"

    def release(self):
        """Acknowledges what is held back, and holds back nothing more."""
        self.holds = None
        self.held.sendall(b"ok\n")

    def hang_up(self):
        self.conn.shutdown(socket.SHUT_RDWR)

    def end(self):
        self.listener.close()
