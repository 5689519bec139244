"""Requests to hosts in wanted states over real sockets, and their replies to the byte: the rows of the tables in scripts/process/api.
With names of tables, as `routes worker`, those alone. scripts/lib/api_tables.py says what a row has."""

import glob
import hashlib
import os
import resource
import shutil
import socket
import subprocess
import sys
import tempfile
import time

sys.path.insert(0, __file__.rsplit("/", 2)[0] + "/lib")
from api_tables import rows_of  # noqa: E402
from checking import build  # noqa: E402
from held_printer import HeldPrinter  # noqa: E402
from serving import LIMIT, OCTO, free_port, until  # noqa: E402

build("octo")

TABLES = "scripts/process/api"
STATES = "states"
# No wait for a state or a command is longer, in seconds.
LONGEST = 10
KEY = b"rootxkeyx0000000"
SETTINGS = """[printer]
ports = ["127.0.0.1:%d", "p"]
limit_ms = 600000
poll_ms = 1000
window = 1
[limits]
%s
[admin]
name = "root"
key_sha256 = "%s"
"""


class Failure(Exception):
    """What was asked, what was wanted, and what was found."""

    def __init__(self, asked, wanted, found):
        super().__init__(asked)
        self.asked, self.wanted, self.found = asked, wanted, found


class Stage:
    """A host and perhaps its printer, in the state that some rows set up."""

    def __init__(self, rows):
        self.folder = tempfile.mkdtemp()
        heats = [row.printer for row in rows if row.printer is not None]
        holds = [row.holds for row in rows if row.holds]
        self.printer = HeldPrinter(heats[-1], holds[-1] if holds else None) if heats else None
        self.printer_port = self.printer.port if self.printer else 9
        settings = os.path.join(self.folder, "octo.toml")
        with open(settings, "wb") as out:
            limits = "\n".join(row.limits for row in rows if row.limits)
            out.write((SETTINGS % (self.printer_port, limits, hashlib.sha256(KEY).hexdigest())).encode())
            out.write(b"".join(row.settings for row in rows))
        self.files = os.path.join(self.folder, "files")
        os.mkdir(self.files)
        self.database = os.path.join(self.folder, "octo.db")
        self.output = os.path.join(self.folder, "out")
        self.port = free_port()
        self.seen = 0
        words = [OCTO, "serve", "127.0.0.1:%d" % self.port, self.files, self.database, "--settings", settings]
        # A write beyond a limit fails, and ends nothing: Python ignores the signal, and so does what it starts.
        with open(self.output, "wb") as out:
            self.process = subprocess.Popen(words, stdout=out, stderr=subprocess.DEVNULL, restore_signals=False)
        until("the host answers", self.answers, pause=0.003)

    def answers(self):
        """Whether it has begun: the address is bound before the database is opened. A path that doesn't exist is no call."""
        if self.process.poll() is not None:
            raise SystemExit("the host ended: %d, %r" % (self.process.returncode, open(self.output, "rb").read()))
        try:
            return self.reply_to(b"GET /api/nothing HTTP/1.1\r\n\r\n", False).startswith(b"HTTP/1.1 404")
        except ConnectionRefusedError:
            return False

    def reply_to(self, data, closes):
        with socket.create_connection(("127.0.0.1", self.port), timeout=LIMIT) as conn:
            parts = []
            try:
                conn.sendall(data)
                if closes:
                    conn.shutdown(socket.SHUT_WR)
                while part := conn.recv(65536):
                    parts.append(part)
            except (ConnectionResetError, BrokenPipeError):
                # The host doesn't read what it refuses.
                pass
            return b"".join(parts)

    def filled(self, message):
        return message.replace(b"$KEY", KEY).replace(b"$PORT", b"%d" % self.printer_port).replace(b"$TAB", b"\t")

    def ask(self, ask):
        data = self.filled(ask.message())
        if ask.cuts is not None:
            self.ask_cut(ask, data)
            return
        found = self.reply_to(data, ask.closes)
        if not ask.fits(found, self.printer_port):
            raise Failure(data, ask.reply(self.printer_port), found)

    def ask_cut(self, ask, data):
        for end in range(ask.cuts, len(data)):
            found = self.reply_to(data[:end], True)
            if not ask.wanted[0].startswith(found):
                raise Failure(data[:end], ask.wanted[0], found)

    def state(self):
        body = self.reply_to(b"GET /api/job HTTP/1.1\r\nX-Api-Key: " + KEY + b"\r\n\r\n", False)
        return body.rpartition(b'"state":"')[2].partition(b'"')[0].decode()

    def wait_for(self, wanted, find, what):
        """Waits until what is found is wanted."""
        end = time.monotonic() + LONGEST
        while (found := find()) != wanted:
            if time.monotonic() > end:
                raise Failure(what, wanted, found)
            time.sleep(0.002)

    def executed(self):
        return self.printer.executed[self.seen:]

    def shut_down(self):
        self.reply_to(b"POST /api/system/commands/core/shutdown HTTP/1.1\r\nX-Api-Key: " + KEY + b"\r\nContent-Length: 0\r\n\r\n", False)

    def ended(self, wanted):
        status = self.process.wait(timeout=LIMIT)
        with open(self.output, "rb") as said:
            found = status, said.read()
        if found != (0, b"served %d calls\n" % wanted):
            raise Failure("the calls", wanted, found)

    def do(self, kind, what):
        if kind == "ask":
            self.ask(what)
        elif kind == "state":
            self.wait_for(what, self.state, "the state")
        elif kind == "executes":
            self.wait_for(what, self.executed, "what the printer executed")
            # A command more would come at once.
            time.sleep(0.02)
            self.wait_for(what, self.executed, "what the printer executed")
        elif kind == "calls":
            self.shut_down()
            self.ended(what)
        elif kind == "ended":
            self.ended(what)
        elif kind == "file limit":
            resource.prlimit(self.process.pid, resource.RLIMIT_FSIZE, (what, resource.RLIM_INFINITY))
        elif kind == "release":
            self.printer.release()
        elif kind == "reported":
            # The host has read what was answered before the question at hand.
            self.wait_for(True, lambda: self.printer.questions > 1, "two questions")
        elif kind == "hangs up":
            self.printer.hang_up()
        elif kind == "no folder":
            shutil.rmtree(self.files)
        elif kind == "no backup":
            os.makedirs(self.database + ".backup/in the way")
        else:
            self.wait_for(True, lambda: os.path.exists(self.database + ".backup"), "a backup")

    def run(self, row):
        self.seen = len(self.printer.executed) if self.printer else 0
        for kind, what in row.steps:
            self.do(kind, what)

    def end(self):
        if self.process.poll() is None:
            self.process.kill()
        self.process.wait()
        if self.printer:
            self.printer.end()
        shutil.rmtree(self.folder, ignore_errors=True)


def all_before(row, states):
    """The rows that set up a row's state, each after those that set up its own."""
    found = []
    for name in row.after:
        if name not in states:
            raise SystemExit("%s: no state %s" % (row.full_name(), name))
        found += [one for one in [*all_before(states[name], states), states[name]] if one not in found]
    return found


class Run:
    """Hosts that are in a state which rows need: one for each list of rows that sets one up, as long as rows leave it as it was."""

    def __init__(self, states):
        self.states = states
        self.stages = {}
        self.failures = self.hosts = 0

    def stage(self, key, before, row):
        if key not in self.stages:
            self.hosts += 1
            self.stages[key] = stage = Stage([*before, row])
            for one in before:
                stage.run(one)
        return self.stages[key]

    def row(self, row):
        before = all_before(row, self.states)
        key = (*[one.name for one in before], row.settings, row.printer, row.holds, row.limits, row.counts_calls() and row.full_name())
        is_kept = False
        try:
            self.stage(key, before, row).run(row)
            is_kept = row.is_safe()
        except Failure as it:
            self.fail(row, "asked:  %r\n  wanted: %r\n  found:  %r" % (it.asked, it.wanted, it.found))
        except OSError as it:
            self.fail(row, repr(it))
        if not is_kept and key in self.stages:
            self.stages.pop(key).end()

    def fail(self, row, why):
        self.failures += 1
        print("failed: %s (line %d)\n  %s" % (row.full_name(), row.line, why), flush=True)

    def end(self):
        for stage in self.stages.values():
            stage.end()


def main():
    names = sys.argv[1:] or sorted(os.path.basename(path)[:-4] for path in glob.glob(TABLES + "/*.txt") if STATES not in path)
    run = Run({row.name: row for row in rows_of("%s/%s.txt" % (TABLES, STATES))})
    count = 0
    try:
        for name in names:
            rows = rows_of("%s/%s.txt" % (TABLES, name))
            count += len(rows)
            for row in rows:
                run.row(row)
    finally:
        run.end()
    said = "failed" if run.failures else "ok"
    print("%s: %d rows of %d tables, %d failed, with %d hosts" % (said, count, len(names), run.failures, run.hosts))
    sys.exit(bool(run.failures))


if __name__ == "__main__":
    main()
