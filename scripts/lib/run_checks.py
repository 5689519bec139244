"""Runs the checks of scripts/process: three at a time, and those alone afterwards that measure time or load the machine. The output of each
comes in one block at its end, and a line `failed: PATH` if it failed. The status is 1 if one did.

usage: scripts/lib/run_checks.py [NAME..]: those of these names, else all
"""

import glob
import os
import queue
import re
import subprocess
import sys
from concurrent.futures import ThreadPoolExecutor

# These measure time, load the machine, or prove.
ALONE = {"attacks", "backup", "browser", "slow", "stuck", "wrong"}
AT_A_TIME = 3
# The ports of scripts/lib/serving.py, a part for each of those that run at a time.
FIRST_PORT, PORTS = 20000, 12000
# The programs that a check makes.
PROGRAMS = re.compile(r"^scripts/build (.*) \|\| exit 1$|^build\((.*)\)$", re.M)

places = queue.Queue()


def name_of(path):
    return os.path.basename(path).split(".")[0]


def run(path):
    """Whether this check passes. Its output is printed in one piece."""
    place = places.get()
    words = ["python3", "-B", path] if path.endswith(".py") else ["sh", path]
    ports = "%d %d" % (FIRST_PORT + place * (PORTS // AT_A_TIME), PORTS // AT_A_TIME)
    ended = subprocess.run(words, stdin=subprocess.DEVNULL, stdout=subprocess.PIPE, stderr=subprocess.STDOUT, env={**os.environ, "CHECK_PORTS": ports})
    places.put(place)
    failed = "failed: %s\n" % path if ended.returncode else ""
    sys.stdout.buffer.write(("process check: %s\n" % path).encode() + ended.stdout + failed.encode())
    sys.stdout.flush()
    return not failed


def main():
    for place in range(AT_A_TIME):
        places.put(place)
    checks = sorted(glob.glob("scripts/process/*.sh") + glob.glob("scripts/process/*.py"))
    if len(sys.argv) > 1:
        checks = [path for path in checks if name_of(path) in sys.argv[1:]]
    alone = [path for path in checks if name_of(path) in ALONE]
    # They are made before, so that no two checks make one at the same time. If that fails, those say so that need it.
    made = {name for path in checks for words in PROGRAMS.findall(open(path).read()) for name in re.findall(r"\w+", "".join(words))}
    for name in sorted(made):
        subprocess.run(["scripts/build", name], stdout=subprocess.DEVNULL, stderr=subprocess.DEVNULL)
    with ThreadPoolExecutor(AT_A_TIME) as pool:
        passed = list(pool.map(run, [path for path in checks if path not in alone]))
    sys.exit(not all(passed + [run(path) for path in alone]))


main()
