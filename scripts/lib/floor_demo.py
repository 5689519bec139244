"""The demo of a floor; see scripts/floor_demo."""

import sys
import tempfile

from floors import Relay, Shop, Story, is_executed
from serving import Printer

# The lines of the host that each printer loses, and those that it corrupts, counted from 1.
HARMS = [("5,60", "9,200"), ("7,31,32", "90"), ("3,250", "12,400"), ("4,40", "17,80")]
MATERIALS = ["PLA", "PLA", "PETG", "PETG"]
# The last printer gets no line from this one on: it is in its first print.
CUT_AT = 120
FILES = {"clip.gcode": "examples/clip.gcode", "hollow_box.gcode": "examples/hollow_box.gcode"}
ENTRIES = [
    ("lids", "clip.gcode", 9, 3, "PLA"),
    ("boxes", "hollow_box.gcode", 8, 2, "PETG"),
    ("clips", "clip.gcode", 7, 2, "PETG"),
    ("trays", "hollow_box.gcode", 5, 1, "PLA"),
    ("hooks", "clip.gcode", 4, 1, "PLA"),
    ("spare", "hollow_box.gcode", 1, 1, "PETG"),
]


def watch(shop):
    """Runs the floor, and shows its log while it works. Its status, its text and its log."""
    process = shop.begin()
    log = []
    for line in process.stderr:
        print(line, end="", flush=True)
        log.append(line)
    status, text, _ = shop.end(process)
    print(text, end="")
    return status, text, "".join(log)


def run_demo(folder):
    files = {name: open(path, "rb").read() for name, path in FILES.items()}
    sims = [Printer(folder, "0", "4", *harm) for harm in HARMS]
    printers = [*sims[:3], Relay(sims[3], CUT_AT)]
    shop = Shop(folder, printers, MATERIALS)
    try:
        shop.enter(files, ENTRIES)
        print("Six entries of ten copies are in the queue, by priority:")
        print("\n".join("  " + line for line in shop.tables() if line.startswith("entry ")))
        print("Four printers listen; the last one loses its power in its first print.\n\n$ octo floor files octo.db --settings floor.toml")
        status, text, log = watch(shop)
        executed = [sim.end() for sim in sims]
    finally:
        shop.kill()
        for sim in sims:
            sim.kill()
    return shop, Story(log, len(sims)), files, status, text, executed


def show(shop, story, files, executed):
    """The table; whether each printer executed what it should."""
    right = True
    print("\nprinter  material  says the floor                                          commands  executed  the same")
    for number, material in enumerate(shop.materials):
        wanted, sure = story.wanted(number, files)
        same = is_executed(executed[number], wanted, sure) and (story.lost[number] or len(executed[number]) == len(wanted))
        right = right and same
        says = ", ".join("%s %d/%d%s" % (name, copy, copies, "" if end == "done" else " " + end) for name, _, copy, copies, end in story.prints[number])
        verdict = "no" if not same else "yes, till it was lost" if story.lost[number] else "yes"
        print("%-8d %-9s %-55s %8d  %8d  %s" % (number, material, says, len(wanted), len(executed[number]), verdict))
    return right


def main():
    with tempfile.TemporaryDirectory() as folder:
        shop, story, files, status, text, executed = run_demo(folder)
        right = show(shop, story, files, executed)
        records = [line for line in shop.tables() if line.startswith("print ")]
    done = sum(line.endswith(" done") for line in records)
    failed = sum(line.endswith(" failed") for line in records)
    print("\nThe database has %d records of prints: %d done, %d failed. The status is %d." % (len(records), done, failed, status))
    wanted = "floor: 10 prints, 9 done, 1 failed, 0 left\n"
    if not right or (status, text) != (13, wanted) or (len(records), done, failed) != (10, 9, 1) or story.lost != [False, False, False, True]:
        print("This isn't what was to come: %r with status 13, and a table of yes alone." % wanted)
        return 1
    print("Each printer executed what the floor says, in order and each command once.")
    return 0


sys.exit(main())
