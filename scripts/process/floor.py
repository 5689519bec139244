"""`octo floor` over modelled printers in processes of their own: the rows of docs/ROWS.md and their statuses, a printer that is killed in its
print, a floor that is killed, a second program at the same database, a database that can't be written, and scripts/floor_demo."""

import resource
import subprocess
import sys
import tempfile

sys.path.insert(0, __file__.rsplit("/", 2)[0] + "/lib")
from checking import build, check, end  # noqa: E402
from floors import Relay, Shop, Silent, Story, commands, is_executed  # noqa: E402
from serving import Printer  # noqa: E402

build("octo", "marlin_sim", "keeper_tool")

# Files of four and of sixty commands.
PART = b"G28\nG1 X10\nG1 X11\nG1 X12\n"
LONG = b"G28\n" + b"".join(b"G1 X%d\n" % (number % 100) for number in range(59))
FILES = {"a.gcode": PART, "b.gcode": LONG}
ENTRIES = [("job-1", "a.gcode", 5, 2, "PLA"), ("job-2", "b.gcode", 9, 1, "PETG")]
MATERIALS = ["PLA", "PETG"]
OVER = "floor: 3 prints, 3 done, 0 failed, 0 left\n"
NONE = "floor: 0 prints, 0 done, 0 failed, 3 left\n"


class Bench:
    """A shop with the queue of the rows. `relays` says what is special about the relay of each of its two printers. With `lost`, the printers'
    `ok`s have numbers, and those replies of them are lost."""

    def __init__(self, folder, relays=({}, {}), files=FILES, second=None, lost=None):
        self.sims = [Printer(folder, "0", "4", "-", "-", *([lost] if lost else [])) for _ in relays]
        self.relays = [Relay(sim, **special) for sim, special in zip(self.sims, relays)]
        self.shop = Shop(folder, [self.relays[0], second or self.relays[1]], MATERIALS, lost is not None)
        self.shop.enter(files, ENTRIES)

    def outcomes(self):
        """How the prints ended, by number, as the database has it."""
        return [line.split(" ")[-1] for line in self.shop.tables() if line.startswith("print ")]

    def release(self):
        for relay in self.relays:
            relay.release()

    def kill(self):
        self.shop.kill()
        for sim in self.sims:
            sim.kill()


def with_bench(work, *args, **words):
    """Calls work with a bench that is gone afterwards. The bench gets the words, and work the other arguments."""
    with tempfile.TemporaryDirectory() as folder:
        bench = Bench(folder, **words)
        try:
            work(bench, *args)
        finally:
            bench.kill()


def plain(bench):
    status, text, log = bench.shop.run()
    check("row 39: each material on its printer", (status, text), (0, OVER))
    check("row 39: what the first printer executed", bench.sims[0].end(), commands(PART) * 2)
    check("row 39: what the second printer executed", bench.sims[1].end(), commands(LONG))
    check("row 39: the records", bench.outcomes(), ["done"] * 3)
    story = Story(log, 2)
    check("row 39: the log", story.prints, [[["job-1", "a.gcode", copy, 2, "done"] for copy in (1, 2)], [["job-2", "b.gcode", 1, 1, "done"]]])


def numbered(bench):
    check("the row over printers that lose replies with numbers", bench.shop.run()[:2], (0, OVER))
    found = [sim.end() for sim in bench.sims]
    check("what they executed", [[text for text in texts if text != "M400"] for texts in found], [commands(PART) * 2, commands(LONG)])


def silent(bench):
    status, text, _ = bench.shop.run()
    check("row 40: a printer that is gone at its first line", (status, text), (13, "floor: 2 prints, 2 done, 0 failed, 1 left\n"))
    check("row 40: its entry is left", [line.split(" ")[2] for line in bench.shop.tables() if line.startswith("entry ")], ["job-2"])


def killed(bench):
    status, text, log = bench.shop.run()
    check("a printer that is killed in its print", (status, text), (13, "floor: 3 prints, 2 done, 1 failed, 0 left\n"))
    check("the other one went on", bench.sims[0].end(), commands(PART) * 2)
    check("the records", sorted(bench.outcomes()), ["done", "done", "failed"])
    said = [line.split(" (127.0.0.1:%d): " % bench.relays[1].port) for line in log.split("\n") if line.startswith("printer 1 ")]
    check("its lines", said, [["printer 1", "began job-2 of root (b.gcode, copy 1 of 1)"], ["printer 1", "failed: link failed"], ["printer 1", "lost"]])
    check("why its link failed", log.split("\n")[-2], "octo: printer 1: closed by the printer")


def cut(bench):
    _, _, log = bench.shop.run()
    wanted, sure = Story(log, 2).wanted(1, FILES)
    executed = bench.sims[1].end()
    check("a printer that loses its power executed the first commands", (is_executed(executed, wanted, sure), 0 < len(executed) < 60), (True, True))


def unwritten(bench):
    """The printers answer once nothing can be written any more, so the first commit is the first call of the database that fails."""
    process = bench.shop.begin()
    for relay in bench.relays:
        relay.accepted.wait(30)
    resource.prlimit(process.pid, resource.RLIMIT_FSIZE, (0, 0))
    bench.release()
    status, text, _ = bench.shop.end(process)
    check("row 41: the first commit fails", (status, text), (9, NONE + "keeper failed\n"))
    check("row 41: nothing was printed", ([sim.end() for sim in bench.sims], bench.outcomes()), ([[], []], []))


def second(bench):
    """The first one's printers don't answer until the others were tried."""
    process = bench.shop.begin()
    for relay in bench.relays:
        relay.accepted.wait(30)
    check("a second floor at the database of a first one", bench.shop.run()[:2], (9, "keeper failed\n"))
    try:
        bench.shop.host.start()
        found = "it serves"
    except SystemExit as ended:
        found = str(ended)
    check("octo serve at the database of a floor", found, "the host ended: status 9, %r" % b"keeper failed\n")
    bench.release()
    check("the first one goes on", bench.shop.end(process)[:2], (0, OVER))


def served(bench):
    bench.shop.host.start()
    check("a floor at the database of octo serve", bench.shop.run()[:2], (9, "keeper failed\n"))
    bench.shop.host.shut_down()
    check("the floor after octo serve was shut down", bench.shop.run()[:2], (0, OVER))


def floor_killed(bench, next_one, begin):
    """A floor that is killed in a print, and what the next program that begins on its database makes of that print's record."""
    process = bench.shop.begin()
    bench.relays[1].cut.wait(30)
    process.kill()
    bench.shop.end(process)
    check("a floor that is killed leaves its print's record", bench.outcomes().count("active") > 0, True)
    begin(bench.shop)
    check("%s records it as failed" % next_one, (bench.outcomes().count("active"), "failed" in bench.outcomes()), (0, True))


def serve(shop):
    shop.host.start()
    shop.host.shut_down()


def cut_off(bench):
    check("a floor whose rounds are used up", bench.shop.run("--turns", "5")[:2], (10, NONE + "turns used: 5\n"))
    check("its printers got no command", bench.outcomes(), [])


def hot(bench):
    status, text, log = bench.shop.run()
    check("a file that is too hot", (status, text), (0, "floor: 2 prints, 2 done, 0 failed, 1 left\n"))
    check("the log names it", [line for line in Story(log, 2).other if "job-2" in line][:1] != [], True)


def refused(bench):
    shop = bench.shop
    whole = open(shop.host.settings).read()
    ports = whole.split("[floor]\nports = ")[1].split("\n")[0]
    for name, lists, text in (
        ("no ports", "", "settings: floor.ports: missing\n"),
        ("one port", "[floor]\nports = [\"p\"]\nmaterials = [\"PLA\"]\n", "settings: floor.ports: out of range\n"),
        ("nine ports", "[floor]\nports = [%s]\nmaterials = [%s]\n" % (", ".join(['"p"'] * 9), ", ".join(['"PLA"'] * 9)), "settings: floor.ports: out of range\n"),
        ("one material more", "[floor]\nports = %s\nmaterials = [\"PLA\", \"PLA\", \"PLA\"]\n" % ports, "settings: floor.materials: out of range\n"),
    ):
        open(shop.host.settings, "w").write(whole.split("[floor]\n")[0] + lists)
        check("settings with " + name, shop.run()[:2], (7, text))


with_bench(plain)
with_bench(numbered, lost="3,5,6")
with_bench(silent, second=Silent())
with_bench(killed, relays=({}, {"cut_at": 30, "kills": True}))
with_bench(cut, relays=({}, {"cut_at": 30}))
with_bench(unwritten, relays=({"held": True}, {"held": True}))
with_bench(second, relays=({"held": True}, {"held": True}))
with_bench(served)
with_bench(floor_killed, "the next floor", lambda shop: shop.run(), relays=({}, {"cut_at": 30, "rests": True}))
with_bench(floor_killed, "octo serve", serve, relays=({}, {"cut_at": 30, "rests": True}))
with_bench(cut_off, relays=({"held": True}, {"held": True}))
with_bench(hot, files={"a.gcode": PART, "b.gcode": b"M104 S301\n"})
with_bench(refused)
demo = subprocess.run(["scripts/floor_demo"], stdout=subprocess.DEVNULL)
check("a floor of four printers with lines lost and corrupted, one of which loses its power", demo.returncode, 0)
end()
