"""The progress of `octo print`: on a terminal, by tenths, and not shown."""

import os
import pty
import re
import subprocess
import sys
import tempfile

sys.path.insert(0, __file__.rsplit("/", 2)[0] + "/lib")
from checking import build, check, end  # noqa: E402
from serving import LIMIT, OCTO, Printer  # noqa: E402

build("octo", "marlin_sim")

COUNT = 1000
WORDS = r"(\d+)%, (\d+) of 1000 sent, (\d+) acknowledged, 0 again, \d+ s, \d+ s left"


def words_of(folder, printer, *more):
    return [OCTO, "print", "127.0.0.1:%d" % printer.port, os.path.join(folder, "part.gcode"), *more]


def said(folder, *more):
    """What a print that is well says on a standard error that is no terminal."""
    printer = Printer(folder)
    try:
        run = subprocess.run(words_of(folder, printer, *more), capture_output=True, timeout=LIMIT)
        check("the print", (run.returncode, run.stdout), (0, b"done: %d commands, 0 skipped\n" % COUNT))
        return run.stderr.decode()
    finally:
        printer.kill()


def shown(folder):
    """What it says on one."""
    printer = Printer(folder)
    ours, theirs = pty.openpty()
    try:
        process = subprocess.Popen(words_of(folder, printer), stdout=subprocess.DEVNULL, stderr=theirs)
        os.close(theirs)
        text = b""
        while True:
            try:
                data = os.read(ours, 65536)
            except OSError:  # the terminal's other end is closed
                break
            if not data:
                break
            text += data
        check("the print on a terminal", process.wait(timeout=LIMIT), 0)
        return text.decode()
    finally:
        os.close(ours)
        printer.kill()


def main(folder):
    with open(os.path.join(folder, "part.gcode"), "w") as out:
        out.write("G1 X1 F3000\n" * COUNT)
    check("no terminal", said(folder), "")
    tenths = [re.fullmatch(WORDS, line) for line in said(folder, "--progress").split("\n")[:-1]]
    check("lines by tenths", all(tenths), True)
    check("their parts", [int(tenth.group(1)) for tenth in tenths if tenth], list(range(10, 101, 10)))
    check("what is acknowledged then", [int(tenth.group(3)) for tenth in tenths if tenth], list(range(100, 1001, 100)))
    text = shown(folder)
    pieces = text.split("\r\x1b[?7l")
    check("nothing before the first words, and one line in all", (pieces[0], text.count("\n"), text[-1:]), ("", 1, "\n"))
    parts = [re.match(WORDS + r"[^\r\n]*\x1b\[K\x1b\[\?7h(\r\n)?\Z", piece) for piece in pieces[1:]]
    check("words in place", all(parts), True)
    check("the first and the last part", [part.group(1) for part in parts[:1] + parts[-1:] if part], ["0", "100"])


if __name__ == "__main__":
    with tempfile.TemporaryDirectory() as work:
        main(work)
    end()
