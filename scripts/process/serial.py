"""Prints over a serial line to marlin_sim's pseudo-terminal, as a board that restarts whenever its device is opened."""

import os
import pty
import select
import shutil
import subprocess
import sys
import tempfile
import threading
import time
import tty

sys.path.insert(0, __file__.rsplit("/", 2)[0] + "/lib")
from checking import build, check, end  # noqa: E402
from serving import LIMIT, OCTO, SIM, Host, form, until  # noqa: E402

for program in ("stty", "perl"):
    if not shutil.which(program):
        print("skipped: prints over a serial line: %s is missing" % program)
        sys.exit()
build("octo", "marlin_sim")

LOSES = "7,60,201"
GARBLES = "9,61,250"


def commands(count):
    return ["G1 X%d Y%d E%d.5" % (n % 200, n * 7 % 200, n) for n in range(count)]


def file_of(texts):
    return "".join(text + " ; move\n" for text in texts).encode()


FEW = commands(400)
# Their print takes some seconds.
MANY = commands(100000)


def arguments_of(process):
    try:
        with open("/proc/%s/cmdline" % process, "rb") as file:
            return file.read().split(b"\0")
    except OSError:
        return []


class Board:
    """A board that restarts whenever its device is opened, and loses and garbles lines."""

    def __init__(self, folder, boot_ms, name="executed"):
        self.link = os.path.join(folder, "ttyPrinter")
        self.executed = os.path.join(folder, name)
        address = "pty:%s:%d" % (self.link, boot_ms)
        with open(self.executed, "wb") as out:
            # At a pulled cable it says that its connection failed.
            self.process = subprocess.Popen([SIM, address, "0", "4", LOSES, GARBLES], stdout=out, stderr=subprocess.DEVNULL)
        until("the device is there", lambda: os.path.exists(self.link))

    def texts(self):
        """What it executed in each session, without numbers, the hello and the questions for temperatures."""
        sessions = open(self.executed).read().split("N1 M110 N1\n")[1:]
        texts = [[line.split(" ", 1)[1] for line in session.split("\n")[:-1]] for session in sessions]
        return [[text for text in session if text != "M105"] for session in texts]

    def once_ended(self, sessions):
        """What it executed, once the firmware of that many sessions has written it."""
        until("the printer wrote what it executed", lambda: len(self.texts()) >= sessions and not self.is_running())
        return self.texts()

    def is_running(self):
        """Whether a printer runs, which writes the rest of what it executed when it ends."""
        address = ("unix:%s.printer" % self.link).encode()
        return any(address in arguments_of(process) for process in os.listdir("/proc") if process.isdigit())

    def end(self):
        self.process.terminate()
        self.process.wait()
        until("the device is gone", lambda: not os.path.lexists(self.link))


class DebtorBoard(threading.Thread):
    """A board that doesn't restart, and owes replies to a former host: it sends these pieces, each after some seconds, and then answers each
    line by `ok`."""

    def __init__(self, folder, pieces):
        super().__init__(daemon=True)
        self.board, device = pty.openpty()
        tty.setraw(device)
        self.link = os.path.join(folder, "ttyPrinter")
        os.symlink(os.ttyname(device), self.link)
        os.close(device)
        self.pieces = pieces
        self.texts = []

    def is_hung_up(self):
        poll = select.poll()
        poll.register(self.board, select.POLLIN)
        return any(event & select.POLLHUP for _, event in poll.poll(0))

    def run(self):
        while self.is_hung_up():
            time.sleep(0.01)
        for seconds, piece in self.pieces:
            time.sleep(seconds)
            os.write(self.board, piece)
        data = b""
        while True:
            try:
                data += os.read(self.board, 4096)
            except OSError:
                return
            *lines, data = data.split(b"\n")
            for line in lines:
                self.texts.append(line.partition(b"*")[0].partition(b" ")[2].decode())
                os.write(self.board, b"ok\n")


def print_words(folder, port, texts=FEW, boot_ms=None, limit_ms=2000):
    """A print of a file at a port."""
    path = os.path.join(folder, "a.gcode")
    settings = os.path.join(folder, "print.toml")
    with open(path, "wb") as out:
        out.write(file_of(texts))
    with open(settings, "w") as out:
        out.write('[printer]\nports = ["p"]\nlimit_ms = %d\nwindow = 3\n' % limit_ms)
        if boot_ms is not None:
            out.write("boot_ms = %d\n" % boot_ms)
        out.write('[limits]\n[admin]\nname = "root"\nkey_sha256 = "%s"\n' % ("00" * 32))
    return [OCTO, "print", port, path, "--settings", settings]


def octo_print(folder, port, **settings):
    run = subprocess.run(print_words(folder, port, **settings), capture_output=True, timeout=LIMIT)
    return run.returncode, run.stderr


def two_prints(folder):
    """Two prints in a row to a board that takes 800 ms to start."""
    board = Board(folder, 800)
    try:
        for count in (1, 2):
            before = time.monotonic()
            check("print %d" % count, octo_print(folder, "tty:%s:115200" % board.link), (0, b""))
            check("it waited for the board", time.monotonic() - before > 0.8, True)
            check("what was executed", board.once_ended(count), [FEW] * count)
    finally:
        board.end()


def pulled_cable(folder):
    """The cable is pulled in mid-print, and plugged in again."""
    board = Board(folder, 100)
    words = print_words(folder, "tty:" + board.link, MANY)
    host = subprocess.Popen(words, stdout=subprocess.PIPE, stderr=subprocess.PIPE)
    # The printer writes what it executed once that is 16 KB.
    until("it prints", lambda: os.path.getsize(board.executed) > 0)
    check("it prints", host.poll(), None)
    before = time.monotonic()
    board.end()
    said, complaint = host.communicate(timeout=LIMIT)
    causes = [b"octo: tty:%s: %s\n" % (board.link.encode(), cause) for cause in (b"no such device", b"input/output error")]
    check("a pulled cable", (host.returncode, b"link failed" in said, complaint in causes), (5, True, True))
    check("within a second", time.monotonic() - before < 1, True)
    first = board.once_ended(1)[0]
    check("some commands were executed, in order", first == MANY[: len(first)] and 50 < len(first) < len(MANY), True)
    board = Board(folder, 100, "executed again")
    try:
        check("the next print", octo_print(folder, "tty:" + board.link), (0, b""))
        check("what it executed", board.once_ended(1), [FEW])
    finally:
        board.end()


def late_replies(folder):
    """What a board that doesn't restart still owes a former host isn't taken for a reply."""
    board = DebtorBoard(folder, [(0, b"ok\nbusy: processing\n"), (1, b"ok\nok T:2")])
    board.start()
    before = time.monotonic()
    check("after replies to a former host", octo_print(folder, "tty:" + board.link, boot_ms=0, limit_ms=30000), (0, b""))
    check("it waited for silence", time.monotonic() - before > 3.5, True)
    check("each line was sent once", board.texts, ["M110 N1"] + FEW)


def second_host(folder):
    """A second host at the same device is refused, and the first goes on."""
    board = Board(folder, 2000)
    try:
        first = subprocess.Popen(print_words(folder, "tty:" + board.link), stdout=subprocess.DEVNULL)
        time.sleep(1)
        status, said = octo_print(folder, "tty:%s:9600" % board.link)
        check("a second host", (status, b"another program uses the device" in said), (5, True))
        check("the first host", first.wait(timeout=LIMIT), 0)
        check("what it had executed", board.once_ended(1), [FEW])
    finally:
        board.end()


def bad_ports(folder):
    plain = os.path.join(folder, "plain")
    open(plain, "w").close()
    for name, port, cause in [
        ("a path that isn't there", "tty:/no/such/device", b"the device can't be opened: no such file or directory"),
        ("a regular file", "tty:" + plain, b"it is no serial device"),
        ("a folder", "tty:" + folder, b"the device can't be opened"),
        ("letters for a speed", "tty:/dev/ptmx:fast", b"the device can't be opened"),
        ("a speed that stty doesn't know", "tty:/dev/ptmx:250001", b"stty refused"),
    ]:
        status, said = octo_print(folder, port)
        check(name, (status, cause in said, b"docs/SERIAL.md" in said), (5, True, True))
    for name, port in [("speed 0", "tty:/dev/ptmx:0"), ("no path", "tty:")]:
        run = subprocess.run(print_words(folder, port), capture_output=True, timeout=LIMIT)
        found = run.returncode, b"is not listed" in run.stdout, b"a device is named" in run.stderr, b"docs/SERIAL.md" in run.stderr
        check(name, found, (5, True, True, True))


def no_permission(folder):
    """A device that this user may not open. Another user than root is needed to try it."""
    if os.geteuid() != 0 or not shutil.which("setpriv"):
        print("skipped: no permission: it needs root and setpriv", file=sys.stderr)
        return
    board, device = pty.openpty()
    os.chmod(os.ttyname(device), 0o600)
    with tempfile.TemporaryDirectory() as open_to_all:
        os.chmod(open_to_all, 0o755)
        octo, file = (os.path.join(open_to_all, name) for name in ("octo", "a.gcode"))
        shutil.copy(OCTO, octo)
        with open(file, "wb") as out:
            out.write(file_of(FEW))
        words = ["setpriv", "--reuid=65534", "--regid=65534", "--clear-groups", octo, "print", "tty:" + os.ttyname(device), file]
        run = subprocess.run(words, capture_output=True, timeout=LIMIT)
    os.close(device)
    os.close(board)
    found = run.returncode, b"the device can't be opened: permission denied" in run.stderr
    check("a device without permission", found, (5, True))


def host_at(folder, link, more=""):
    """A host whose printer is at a device, with more lines of its section of the settings."""
    host = Host(folder, 1)
    text = open(host.settings).read().replace('["127.0.0.1:1"]', '["tty:%s"]%s' % (link, more))
    with open(host.settings, "w") as out:
        out.write(text)
    return host.start()


def waiting_host(folder):
    """A host answers while it waits for a board that says nothing, and a disconnect ends the wait."""
    board = DebtorBoard(folder, [])
    host = host_at(folder, board.link, "\nboot_ms = 60000")
    try:
        check("a connect to a silent board", host.post("/api/connection", {"command": "connect"}).status, 204)
        until("it waits", lambda: host.state() == "Connecting")
        time.sleep(1)
        before = time.monotonic()
        check("it waits", host.state(), "Connecting")
        check("a disconnect", host.post("/api/connection", {"command": "disconnect"}).status, 204)
        host.until_state("Offline")
        check("within a second", time.monotonic() - before < 1, True)
        check("the end of the waiting host", host.shut_down()[0], 0)
    finally:
        host.kill()


def served(folder):
    """A host prints an upload over a serial line."""
    board = Board(folder, 800)
    host = host_at(folder, board.link)
    try:
        host.connect()
        body, kind = form([("print", None, b"true"), ("file", "cube.gcode", file_of(FEW))])
        reply = host.ask("POST", "/api/files/local", body, kind)
        check("an upload", reply.status, 201)
        host.until_state("Operational")
        prints = host.ask("GET", "/api/prints").json()["prints"]
        check("its print", [(p["outcome"], p["commands"]) for p in prints], [("Done", 400)])
        check("the end of the host", host.shut_down()[0], 0)
        check("what the printer executed for it", board.once_ended(1), [FEW])
    finally:
        host.kill()
        board.end()


def main(work):
    for part in (two_prints, pulled_cable, late_replies, second_host, bad_ports, no_permission, waiting_host, served):
        folder = os.path.join(work, part.__name__)
        os.mkdir(folder)
        part(folder)
        shutil.rmtree(folder, ignore_errors=True)


with tempfile.TemporaryDirectory() as made:
    main(made)
end()
