"""The recorded messages of common clients, at once and byte by byte, and cut at each of their places."""

import glob
import os
import subprocess
import sys
import tempfile

sys.path.insert(0, __file__.rsplit("/", 2)[0] + "/lib")
from checking import build  # noqa: E402

build("client_messages")

CRATE = os.path.abspath("crates/client_messages")
PROGRAM = os.path.join(CRATE, "out", "client_messages")
ENDED = b"Error: message: the input ended\n"
SECONDS = 60


def run(*words):
    run = subprocess.run([PROGRAM, *words], capture_output=True, timeout=SECONDS, cwd=os.path.join(CRATE, "data"))
    return run.returncode, run.stdout, run.stderr


def reads_all():
    with open(os.path.join(CRATE, "stdout"), "rb") as stored:
        return run() == (0, stored.read(), b"")


def reads_bytes(name):
    """The line that is printed of a message doesn't depend on how its bytes come."""
    whole, slow = run(name), run(name, "bytes")
    return whole[0] == 0 and whole == slow


def first_other_cut(name, path):
    """The first place at which a cut message isn't reported as ended. The places are read at once and byte by byte in turn."""
    with open(os.path.join(CRATE, "data", name), "rb") as source:
        message = source.read()
    for end in range(len(message)):
        with open(path, "wb") as cut:
            cut.write(message[:end])
        if run(path, *["bytes"] * (end % 2)) != (1, b"", ENDED):
            return end
    return None


def main():
    names = sorted(os.path.basename(path) for path in glob.glob(os.path.join(CRATE, "data", "*.http")))
    failures = [] if names and reads_all() else ["the stored output"]
    failures += [name + " byte by byte" for name in names if not reads_bytes(name)]
    with tempfile.TemporaryDirectory() as folder:
        for name in names:
            end = first_other_cut(name, os.path.join(folder, "cut"))
            if end is not None:
                failures.append("%s cut at %d" % (name, end))
    for failure in failures:
        print("failed: " + failure)
    if not failures:
        print("ok: %d recorded messages" % len(names))
    sys.exit(bool(failures))


if __name__ == "__main__":
    main()
