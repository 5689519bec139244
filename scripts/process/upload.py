"""The system's calls of an upload: a worker writes the bytes to its part of the folder and syncs it, the house renames that file to NAME, and
the worker syncs the folder, in this order and before the reply. A part that was left is removed when the host begins. At a deletion the
house renames the file, and the worker syncs the folder and removes it. strace shows the calls."""

import glob
import os
import re
import shutil
import subprocess
import sys
import tempfile

sys.path.insert(0, __file__.rsplit("/", 2)[0] + "/lib")
from checking import build, check, end  # noqa: E402
from serving import Host, until  # noqa: E402

build("octo")

CALLS = "open,openat,creat,write,pwrite64,writev,sendto,sendmsg,fsync,fdatasync,link,linkat,rename,renameat,renameat2,unlink,unlinkat"
FIRST, SECOND = b"G28\nG1 X1\n", b"G28\nG1 X2\nG1 X3\n"
UPLOADED = ["create part", "write part", "sync part", "rename part to file", "sync folder", "reply"]
REPLACED = [*UPLOADED[:3], "keep former file", *UPLOADED[3:5], "remove former file", "reply"]
REMOVED = ["rename file to removed", "sync folder", "remove removed", "reply"]


def cannot_trace():
    """Why no call can be traced on this machine, or None."""
    if not shutil.which("strace"):
        return "strace is missing"
    run = subprocess.run(["strace", "-o", os.devnull, "true"], capture_output=True)
    return None if run.returncode == 0 else "strace may not trace here"


def step_of(call, folder, name):
    """What a line of the trace is to the file of that name, or to a worker's part, or None."""
    former = re.search(re.escape(folder) + r"/\.former-[0-3]\b", call)
    if former:
        # Of a missing one nothing is kept or removed.
        return None if not call.endswith(" = 0") else "keep former file" if call.startswith("link") else "remove former file"
    if '"%s/.removed"' % folder in call:
        if not call.endswith(" = 0"):
            return None
        return "rename file to removed" if call.startswith("rename") and '"%s/%s"' % (folder, name) in call else "remove removed"
    found = re.search(re.escape(folder) + r"/\.part-[0-3]\b", call)
    part, file = found.group() if found else folder + "/.part-", folder + "/" + name
    verb = call.split("(")[0]
    if call.startswith("unlink") and call.endswith(" = 0"):
        # A former part or the file itself. Of a missing one nothing is removed.
        return "remove part" if '"%s"' % part in call else "remove file" if '"%s"' % file in call else None
    if verb in ("open", "openat", "creat") and '"%s"' % part in call and ("O_CREAT" in call or verb == "creat"):
        return "create part"
    if verb in ("open", "openat", "creat") and '"%s"' % file in call and re.search("O_CREAT|O_WRONLY|O_RDWR|O_TRUNC", call):
        return "write over the file"
    if verb in ("write", "pwrite64", "writev"):
        return "write part" if "<%s>" % part in call else "write file" if "<%s>" % file in call else reply_of(call)
    if verb in ("sendto", "sendmsg"):
        return reply_of(call)
    # A sync, or a rename, that failed is none.
    if not call.endswith(" = 0"):
        return None
    if verb == "fsync":
        return next(("sync " + what for what, path in (("part", part), ("file", file), ("folder", folder)) if "<%s>" % path in call), None)
    if verb.startswith("rename") and '"%s"' % file in call:
        return "rename part to file" if '"%s"' % part in call else "rename another file to it"
    return None


def reply_of(call):
    return "reply" if '"HTTP/1.1 20' in call else None


def steps(trace, folder, name):
    """The steps of all threads by time; a write in several calls is one."""
    calls = []
    for path in glob.glob(trace + ".*"):
        for line in open(path, errors="replace"):
            time, _, call = line.rstrip("\n").partition(" ")
            calls.append((float(time), call))
    found = [step for step in (step_of(call, folder, name) for _, call in sorted(calls)) if step]
    return [step for at, step in enumerate(found) if at == 0 or step != found[at - 1] or not step.startswith("write")]


def traced(folder, work, left=None):
    """The steps to the file a.gcode that a host makes at this work, once it has ended. It begins with that part left by another one."""
    trace = os.path.join(folder, "trace")
    host = Host(folder, 9)
    if left:
        with open(os.path.join(host.files, left), "wb") as part:
            part.write(b"G2")
    host.before = ["strace", "-D", "-ff", "-y", "-ttt", "-s", "16", "-o", trace, "-e", "trace=" + CALLS]
    host.start()
    try:
        work(host)
        check("the end of the host", host.shut_down()[0], 0)
    finally:
        host.kill()
    until("the trace is whole", lambda: all("+++ exited" in open(path, errors="replace").read() for path in glob.glob(trace + ".*")))
    return steps(trace, os.path.realpath(host.files), "a.gcode")


def uploads(host):
    """An upload, and two more of that name."""
    check("an upload", host.upload("a.gcode", FIRST).status, 201)
    check("another one", host.upload("a.gcode", SECOND).status, 201)
    check("a third one", host.upload("a.gcode", FIRST).status, 201)
    check("all that is in the folder", os.listdir(host.files), ["a.gcode"])
    path = os.path.join(host.files, "a.gcode")
    check("the file", open(path, "rb").read(), FIRST)
    check("its mode, whatever the mask", oct(os.stat(path).st_mode & 0o777), "0o640")


def main():
    os.umask(0)
    why = cannot_trace()
    if why:
        print("skipped: the system's calls of an upload: " + why, flush=True)
        return
    with tempfile.TemporaryDirectory() as folder:
        found = traced(os.path.realpath(folder), uploads, ".part-2")
        # The reply to the shutdown is the last one.
        check("their calls of the system", found, ["remove part"] + UPLOADED + REPLACED * 2 + ["reply"])
    with tempfile.TemporaryDirectory() as folder:
        found = traced(os.path.realpath(folder), lambda host: (host.upload("a.gcode", FIRST), host.ask("DELETE", "/api/files/local/a.gcode")))
        check("those of a deletion", found, UPLOADED + REMOVED + ["reply"])


if __name__ == "__main__":
    main()
    end()
