"""A host whose printer can't be reached: it goes on answering its callers while it tries, and its log says why there is no link.

The printer's port is that of a listener whose queue is full: the kernel drops what would connect, as a network does if the printer is off.
"""

import os
import socket
import sys
import tempfile
import time

sys.path.insert(0, __file__.rsplit("/", 2)[0] + "/lib")
from checking import build, check, end  # noqa: E402
from serving import Host  # noqa: E402

build("octo")

# No caller waits longer than this while the host connects, in seconds: a turn takes 10 milliseconds, and the machine may be busy.
MOST = 0.25


def full_listener():
    """A listener, and the connections that fill its queue."""
    listener = socket.socket()
    listener.bind(("127.0.0.1", 0))
    listener.listen(0)
    held = []
    for _ in range(4):
        conn = socket.socket()
        conn.setblocking(False)
        conn.connect_ex(listener.getsockname())
        held.append(conn)
    return listener, held


def try_to_connect(host):
    """Asks for a connection, and until it has failed asks for the state. The longest of these calls, all states, and the time in all."""
    began = time.monotonic()
    status = host.post("/api/connection", {"command": "connect"}).status
    check("connecting", status, 204)
    longest, states = time.monotonic() - began, []
    while time.monotonic() - began < 20:
        asked = time.monotonic()
        state = host.ask("GET", "/api/connection").json()["current"]["state"]
        longest = max(longest, time.monotonic() - asked)
        if states[-1:] != [state]:
            states.append(state)
        if state == "Error":
            break
    return longest, states, time.monotonic() - began


def unreachable(folder):
    listener, held = full_listener()
    port = listener.getsockname()[1]
    host = Host(folder, port)
    host.errors = os.path.join(folder, "log")
    host.start()
    try:
        longest, states, seconds = try_to_connect(host)
        check("the states", states, ["Connecting", "Error"])
        check("it tried for 2 seconds", 1.5 < seconds < 4, True)
        check("no caller waited (%d ms)" % (longest * 1000), longest < MOST, True)
        for conn in held:
            conn.close()
        check("the end", host.shut_down()[0], 0)
    finally:
        host.kill()
        listener.close()
    with open(host.errors) as log:
        lines = log.read().split("\n")[:-1]
    wanted = ["serving at http://127.0.0.1:%d" % host.port, "printer: no link to 127.0.0.1:%d: connection timed out" % port, "stopped"]
    check("the lines of the log", lines, wanted)


if __name__ == "__main__":
    with tempfile.TemporaryDirectory() as work:
        unreachable(work)
    end()
