"""A shop as processes: printers that share a queue, and `octo floor` over them. Shared by scripts/floor_demo and the check of a floor."""

import os
import re
import signal
import socket
import subprocess
import threading

from serving import LIMIT, OCTO, Host

TOOL = "crates/keeper_tool/out/keeper_tool"
BEGAN = re.compile(r"printer (\d+) \((.*)\): began (\S+) of (\S+) \((\S+), copy (\d+) of (\d+)\)$")
CAME = re.compile(r"printer (\d+) \((.*)\): (done|lost|failed)(?:: (.*))?$")


def commands(content):
    """A file's commands as the printer gets them, but for its questions for temperatures, since the host asks them by itself too."""
    texts = [re.split(rb"[;*]", line)[0].strip(b" \t\r") for line in content.split(b"\n")]
    return [text.decode() for text in texts if text not in (b"", b"M105")]


class Relay:
    """A printer's port of its own, through which the host reaches it. With `held` nothing passes until `release` is called. With `cut_at` the
    connection is cut in front of the host's line of that number, counted from 1, as if the printer lost its power: a modelled printer then
    says what it executed. With `kills` it is killed instead. With `rests` the connection stays, and no more lines pass, until the host ends."""

    def __init__(self, printer, cut_at=0, held=False, kills=False, rests=False):
        self.printer, self.cut_at, self.kills, self.rests = printer, cut_at, kills, rests
        self.accepted, self.released, self.cut = threading.Event(), threading.Event(), threading.Event()
        if not held:
            self.release()
        self.listener = socket.create_server(("127.0.0.1", 0))
        self.port = self.listener.getsockname()[1]
        threading.Thread(target=self.serve, daemon=True).start()

    def release(self):
        self.released.set()

    def serve(self):
        host, _ = self.listener.accept()
        self.listener.close()
        self.accepted.set()
        self.released.wait(LIMIT)
        printer = socket.create_connection(("127.0.0.1", self.printer.port))
        threading.Thread(target=self.replies, args=(printer, host), daemon=True).start()
        try:
            self.lines(host, printer)
        except OSError:
            pass
        for end, how in ((host, socket.SHUT_RDWR), (printer, socket.SHUT_WR)):
            try:
                end.shutdown(how)
            except OSError:
                pass

    def replies(self, printer, host):
        """Passes the printer's lines on, until it closes. Those that the host doesn't take any more are read too, so that it ends as usual."""
        try:
            while data := printer.recv(65536):
                try:
                    host.sendall(data)
                except OSError:
                    pass
            host.shutdown(socket.SHUT_RDWR)
        except OSError:
            pass

    def lines(self, host, printer):
        """Passes the host's lines on, until it closes or the cut comes."""
        count = 0
        while data := host.recv(65536):
            parts = data.split(b"\n")
            count += len(parts) - 1
            if self.cut_at and count >= self.cut_at:
                kept = len(parts) - 1 - (count - self.cut_at + 1)
                printer.sendall(b"".join(part + b"\n" for part in parts[:kept]))
                self.cut.set()
                if self.kills:
                    self.printer.kill()
                while self.rests and host.recv(65536):
                    pass
                return
            printer.sendall(data)


class Silent:
    """A port whose printer is gone at the first line that it gets, and doesn't answer it."""

    def __init__(self):
        self.listener = socket.create_server(("127.0.0.1", 0))
        self.port = self.listener.getsockname()[1]
        threading.Thread(target=self.serve, daemon=True).start()

    def serve(self):
        host, _ = self.listener.accept()
        with host:
            host.recv(65536)


class Shop:
    """A folder, a database and settings in a folder of its own. `printers` are objects with a port, in the order of `materials`. If `numbered`,
    their `ok`s have numbers."""

    def __init__(self, folder, printers, materials, numbered=False):
        self.folder, self.printers, self.materials = folder, printers, materials
        lists = "[floor]\nports = [%s]\nmaterials = [%s]\n" % (
            ", ".join('"127.0.0.1:%d"' % printer.port for printer in printers),
            ", ".join('"%s"' % material for material in materials),
        )
        self.host = Host(folder, printers[0].port, lists)
        own = "limit_ms = 1000\nwindow = 3" + "\nnumbered_oks = true" * numbered
        text = open(self.host.settings).read().replace("limit_ms = 5000", own)
        open(self.host.settings, "w").write(text)
        # What `octo serve` says beside its text is nobody's.
        self.host.errors = os.path.join(folder, "log")

    def enter(self, files, entries):
        """Stores files, and puts entries into the queue: name, file, priority, copies, material. A host that is never connected does it."""
        self.host.start()
        for name, content in files.items():
            assert self.host.upload(name, content).status == 201, name
        for name, file, priority, copies, material in entries:
            entry = {"name": name, "file": file, "priority": priority, "copies": copies, "material": material}
            assert self.host.post("/api/queue", entry).status == 201, entry
        assert self.host.shut_down()[0] == 0

    def words(self, *more):
        return [OCTO, "floor", self.host.files, self.host.database, "--settings", self.host.settings, *more]

    def begin(self, *more):
        """`octo floor` as a process. A write beyond a limit that it is given fails, and doesn't end it."""
        words = self.words(*more)
        ignores = lambda: signal.signal(signal.SIGXFSZ, signal.SIG_IGN)  # noqa: E731
        return subprocess.Popen(words, stdout=subprocess.PIPE, stderr=subprocess.PIPE, text=True, preexec_fn=ignores)

    def end(self, process):
        """Its status, its text and its log."""
        text, log = process.communicate(timeout=LIMIT)
        return process.returncode, text, log

    def run(self, *more):
        return self.end(self.begin(*more))

    def tables(self):
        """What the database holds, as keeper_tool says it."""
        return subprocess.run([TOOL, self.host.database], capture_output=True, text=True, timeout=LIMIT).stdout.split("\n")[:-1]

    def kill(self):
        self.host.kill()
        for printer in self.printers:
            getattr(printer, "kill", lambda: None)()


class Story:
    """What a log says that each printer printed: (entry, file, copy, copies, how it ended) by its number."""

    def __init__(self, log, count):
        self.prints = [[] for _ in range(count)]
        self.lost = [False] * count
        self.other = []
        for line in log.split("\n")[:-1]:
            if began := BEGAN.match(line):
                self.prints[int(began[1])].append([began[3], began[5], int(began[6]), int(began[7]), "goes on"])
            elif came := CAME.match(line):
                if came[3] == "lost":
                    self.lost[int(came[1])] = True
                else:
                    self.prints[int(came[1])][-1][4] = came[3]
            else:
                self.other.append(line)

    def wanted(self, number, files):
        """The commands of what a printer printed, one print after another, and how many of them are those of prints that are done."""
        texts, sure = [], 0
        for _, file, _, _, end in self.prints[number]:
            texts += commands(files[file])
            sure = len(texts) if end == "done" else sure
        return texts, sure


def is_executed(executed, wanted, sure):
    """Whether a printer executed the commands that it got: all of those of prints that are done, and of one that failed the first ones."""
    return sure <= len(executed) <= len(wanted) and executed == wanted[: len(executed)]
