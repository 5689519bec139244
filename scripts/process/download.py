"""The system's calls of a download: the worker that writes the reply has opened and read the file, and no other thread reads it, the house's
least of all. strace shows the calls."""

import glob
import os
import re
import sys
import tempfile

sys.path.insert(0, __file__.rsplit("/", 2)[0] + "/lib")
from checking import build, check, end  # noqa: E402
from serving import Host, exchange, message, until  # noqa: E402
from upload import cannot_trace  # noqa: E402

build("octo")

CALLS = "open,openat,read,pread64,readv,mmap,sendto,sendmsg,write,writev,poll,ppoll"
CONTENT = b"G1 X100 Y100 E1\n" * 65536
# A rest of a connection, after much that it has sent: a poll of nothing, for one to ten milliseconds.
REST = re.compile(r"poll\([^,]*, 0, ([1-9]|10)\)")


def traced(folder, work):
    """The traces of the threads of a host that does this work, once it has ended."""
    trace = os.path.join(folder, "trace")
    host = Host(folder, 9)
    with open(os.path.join(host.files, "a.gcode"), "wb") as file:
        file.write(CONTENT)
    host.before = ["strace", "-D", "-ff", "-y", "-s", "16", "-o", trace, "-e", "trace=" + CALLS]
    host.start()
    try:
        work(host)
        check("the end of the host", host.shut_down()[0], 0)
    finally:
        host.kill()
    until("the trace is whole", lambda: all("+++ exited" in open(path, errors="replace").read() for path in glob.glob(trace + ".*")))
    return [open(path, errors="replace").read().splitlines() for path in glob.glob(trace + ".*")]


def reads(calls, path):
    """How many bytes of that file a thread has read."""
    return sum(int(call.rsplit("= ", 1)[1].split()[0]) for call in calls if call.startswith(("read", "pread")) and "<%s>" % path in call)


def downloads(host):
    reply = host.ask("GET", "/downloads/files/local/a.gcode")
    check("a download", (reply.status, reply.body == CONTENT), (200, True))
    check("one of a missing file", host.ask("GET", "/downloads/files/local/b.gcode").status, 404)
    stranger = exchange(host.port, message("GET", "/downloads/files/local/a.gcode", "nobody"))
    check("one by a key that names nobody, for which nothing is read", stranger.status, 403)


def main():
    why = cannot_trace()
    if why:
        print("skipped: the system's calls of a download: " + why, flush=True)
        return
    with tempfile.TemporaryDirectory() as folder:
        folder = os.path.realpath(folder)
        threads = traced(folder, downloads)
        path = os.path.join(folder, "files", "a.gcode")
    readers = [calls for calls in threads if reads(calls, path)]
    check("bytes that are read of the file, by each thread that reads it", [reads(calls, path) for calls in readers], [len(CONTENT)])
    check("the reader rests", [any(REST.match(call) for call in calls) for calls in readers], [True])
    check("the reader writes replies", ['"HTTP/1.1 20' in "\n".join(calls) for calls in readers], [True])


if __name__ == "__main__":
    main()
    end()
