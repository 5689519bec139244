"""`octo measure` of the examples against a plain count, and `octo rest` at each command of a layer."""

import glob
import os
import subprocess
import sys
import tempfile
from decimal import Decimal

sys.path.insert(0, __file__.rsplit("/", 2)[0] + "/lib")
from checking import build  # noqa: E402
from plain_measure import commands, measure

build("octo")

OCTO = "crates/octo/out/octo"
SECONDS = 60
SLICED = "examples/clip.gcode"
# The commands that set modes and positions at the head of a rest.
HEAD = 3


def octo(*arguments):
    run = subprocess.run([OCTO, *arguments], capture_output=True, timeout=SECONDS)
    return run.returncode, run.stdout.decode()


def as_text(lines):
    return "".join(line + "\n" for line in lines)


def totals(text):
    return {line.split()[0]: [Decimal(number) for number in line.split()[1:]] for line in text.splitlines()}


def layer(path, number):
    """The first command of a layer, counted from 0, and the first one after it."""
    marks = []
    count = 0
    for line in open(path, encoding="utf-8"):
        if line.startswith(";LAYER_CHANGE"):
            marks.append(count)
        elif line.split(";")[0].strip():
            count += 1
    return marks[number], marks[number + 1]


def rest_of(path, command, folder):
    status, text = octo("rest", path, str(command))
    if status != 0:
        return {}
    rest = os.path.join(folder, "rest.gcode")
    with open(rest, "w", encoding="utf-8", newline="\n") as file:
        file.write(text)
    status, measured = octo("measure", rest)
    return totals(measured) if status == 0 else {}


def goes_on(texts, path, command, folder):
    """Whether what comes before a command and the rest at it measure together what the whole file does."""
    whole = totals(as_text(measure(texts)))
    before = totals(as_text(measure(texts[:command])))
    rest = rest_of(path, command, folder)
    if not rest or rest["commands"] != [HEAD + len(texts) - command]:
        return False
    sums = all(before[key][0] + rest[key][0] == whole[key][0] for key in ("moves", "fed", "drawn"))
    extents = all(
        [min(before[axis][0], rest[axis][0]), max(before[axis][1], rest[axis][1])] == whole[axis] for axis in "XYZ"
    )
    return sums and extents


def main():
    failed = False
    for path in sorted(glob.glob("examples/*.gcode")):
        want = 0, as_text(measure(commands(path)))
        got = octo("measure", path)
        print("%s: measure of %s" % ("ok" if got == want else "failed", path))
        failed |= got != want
    texts = list(commands(SLICED))
    first, end = layer(SLICED, 1)
    with tempfile.TemporaryDirectory() as folder:
        wrong = [command for command in range(first, end) if not goes_on(texts, SLICED, command, folder)]
    print("%s: rest of %s at commands %d to %d %s" % ("failed" if wrong else "ok", SLICED, first, end - 1, wrong or ""))
    past = octo("rest", SLICED, str(len(texts) + 1)) == (3, "file: %d commands\n" % len(texts))
    print("%s: rest past the last command" % ("ok" if past else "failed"))
    return 1 if failed or wrong or not past else 0


sys.exit(main())
