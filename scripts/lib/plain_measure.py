"""Measures a G-code file by a plain count, to compare what `gcode_measure` says of it with.

It knows nothing of the host: a list of commands, a dictionary of positions, and decimal numbers.
"""

import re
import sys
from decimal import Decimal

AXES = "XYZE"
WORD = re.compile(r"([A-Za-z])([+-]?(?:\d+\.?\d*|\.\d+))?")


def commands(path):
    for line in open(path, encoding="utf-8", newline="\n"):
        text = re.split("[;*]", line, maxsplit=1)[0].strip(" \t\r\n")
        text = re.sub(r"^N\d+[ \t]*", "", text)
        if text and "M110" not in text:
            yield text


def measure(texts):
    at = dict.fromkeys(AXES, Decimal(0))
    relative = dict.fromkeys(AXES, False)
    count = moves = 0
    fed = drawn = Decimal(0)
    ends = []
    for text in texts:
        count += 1
        words = [(letter.upper(), number) for letter, number in WORD.findall(text)]
        code = words[0][0] + (str(int(Decimal(words[0][1]))) if words[0][1] else "")
        value = {}
        for letter, number in words:
            if letter in AXES and number and letter not in value:
                value[letter] = Decimal(number)
        if code in ("G90", "G91"):
            relative = dict.fromkeys(AXES, code == "G91")
        elif code in ("M82", "M83"):
            relative["E"] = code == "M83"
        elif code == "G92":
            at.update(value)
        elif code == "G28":
            named = [axis for axis in "XYZ" if axis in [letter for letter, _ in words]]
            at.update(dict.fromkeys(named or "XYZ", Decimal(0)))
        elif code in ("G0", "G1", "G2", "G3"):
            before = at["E"]
            for axis, number in value.items():
                at[axis] = at[axis] + number if relative[axis] else number
            moves += 1
            fed += max(at["E"] - before, 0)
            drawn += max(before - at["E"], 0)
            ends.append(dict(at))
    lines = ["commands %d" % count, "moves %d" % moves, "fed %.6f" % fed, "drawn %.6f" % drawn]
    for axis in "XYZ" if ends else "":
        lines.append("%s %.6f %.6f" % (axis, min(end[axis] for end in ends), max(end[axis] for end in ends)))
    return lines


if __name__ == "__main__":
    print("\n".join(measure(commands(sys.argv[1]))))
