"""The system's calls of `octo print` over TCP: what is written goes out at once (TCP_NODELAY), and each address of a host is tried until a
peer accepts. strace shows the calls; a file mounted over /etc/hosts gives a name two addresses."""

import os
import re
import shutil
import subprocess
import sys
import tempfile

sys.path.insert(0, __file__.rsplit("/", 2)[0] + "/lib")
from checking import build, check, end  # noqa: E402
from serving import LIMIT, OCTO, SIM, free_port, listens, until  # noqa: E402

build("octo", "marlin_sim")

FILE = b"G28\nG1 X1\n"
DONE = b"done: 2 commands, 0 skipped\n"
HOSTS = "127.0.0.1 localhost\n127.0.0.2 printer.test\n127.0.0.3 printer.test\n"


def works(words):
    """Whether a program is here, and may do this here."""
    return bool(shutil.which(words[0])) and subprocess.run(words, capture_output=True).returncode == 0


def printed(folder, listened, host, before):
    """What `octo print` prints over a port of the host, if a printer listens at this address."""
    port = free_port()
    printer = subprocess.Popen([SIM, "%s:%d" % (listened, port), "0", "4", "-", "-"], stdout=subprocess.DEVNULL)
    try:
        until("the printer listens", lambda: listens(port))
        words = [*before, os.path.abspath(OCTO), "print", "%s:%d" % (host, port), os.path.join(folder, "a.gcode")]
        return subprocess.run(words, stdout=subprocess.PIPE, timeout=LIMIT).stdout
    finally:
        printer.kill()
        printer.wait()


def sends_at_once(folder):
    """The connection's setting comes before the first line that is written to it."""
    trace = os.path.join(folder, "trace")
    before = ["strace", "-f", "-o", trace, "-e", "trace=connect,setsockopt,write,sendto"]
    check("a print that is traced", printed(folder, "127.0.0.1", "127.0.0.1", before), DONE)
    calls = open(trace, errors="replace").read().split("\n")
    connects = [at for at, call in enumerate(calls) if "connect(" in call and "sin_port" in call]
    at_once = [at for at, call in enumerate(calls) if re.search(r"TCP_NODELAY, \[1\], \d+\) = 0", call)]
    writes = [at for at, call in enumerate(calls) if '"N0 M110 N1*124' in call]
    check("one connection, one setting", (len(connects), len(at_once)), (1, 1))
    check("connected, set and then written", bool(writes) and connects[:1] < at_once[:1] < writes[:1], True)


def each_address_is_tried(folder):
    """The printer listens at one of two addresses, whichever is tried first."""
    hosts = os.path.join(folder, "hosts")
    with open(hosts, "w") as out:
        out.write(HOSTS)
    before = ["unshare", "-rm", "sh", "-c", 'mount --bind "$0" /etc/hosts && exec "$@"', hosts]
    for address in ("127.0.0.2", "127.0.0.3"):
        check("a printer at " + address, printed(folder, address, "printer.test", before), DONE)


def main():
    with tempfile.TemporaryDirectory() as folder:
        with open(os.path.join(folder, "a.gcode"), "wb") as out:
            out.write(FILE)
        if works(["strace", "-o", os.devnull, "true"]):
            sends_at_once(folder)
        else:
            print("skipped: that a line goes out at once: strace is missing, or may not trace here", flush=True)
        if works(["unshare", "-rm", "mount", "--bind", "/etc/hostname", "/etc/hosts"]):
            each_address_is_tried(folder)
        else:
            print("skipped: a host with two addresses: unshare may not mount here", flush=True)


if __name__ == "__main__":
    main()
    end()
