"""What other programs send to `octo serve`, over real sockets: the recorded messages of scripts/process/messages, and the requests of
Cura's plugin, Home Assistant's client and octorest, each with what its program reads of the reply; moves by hand, as the printer
executes them; and pages of other origins."""

import glob
import os
import subprocess
import sys
import tempfile

sys.path.insert(0, __file__.rsplit("/", 2)[0] + "/lib")
from checking import build, check, end  # noqa: E402
from serving import Host, Printer, exchange, form  # noqa: E402

build("octo", "marlin_sim")

MESSAGES = "scripts/process/messages"
# The key in the recorded messages.
KEY = "rootxkeyx0000000"


def difference(found, wanted):
    """The first place at which two lists differ, and what is there; None if they are equal."""
    for place in range(max(len(found), len(wanted))):
        if found[place : place + 1] != wanted[place : place + 1]:
            return place, found[place : place + 3], wanted[place : place + 3]
    return None


def dig(value, path):
    """A member of JSON: names joined by points, `-` if there is none."""
    for name in path.split("."):
        if not isinstance(value, dict) or name not in value:
            return "-"
        value = value[name]
    return value


def field(reply, name):
    """The value of a field of a reply, `-` if there is none."""
    for line in reply.head.split(b"\r\n")[1:]:
        found, _, value = line.partition(b": ")
        if found.lower() == name.lower().encode():
            return value.decode()
    return "-"


def read(reply, names):
    """What a program reads of a reply: fields of its head, whose names end in a colon, and members of its JSON."""
    return {name: field(reply, name[:-1]) if name.endswith(":") else dig(reply.json(), name) for name in names}


def quiet_host(folder, printer_port, extra=""):
    """A host whose log goes to a file."""
    host = Host(folder, printer_port, extra)
    host.errors = os.path.join(folder, "log")
    return host


def known_host(folder, printer_port, extra=""):
    """The same, whose admin has the key of the recorded messages."""
    host = quiet_host(folder, printer_port, extra)
    host.key = KEY
    host.set_printer(printer_port)
    return host.start()


# The recorded messages, in the order in which they are sent: status, and what the program reads of the reply.
RECORDED = [
    # The text has to begin with `OctoPrint`, and `api` to exist.
    ("prusaslicer_test", 200, {"text": "OctoPrint profile-1", "api": "0.1"}),
    # Any status of success; a refusal's body is shown as it is.
    ("prusaslicer_upload_only", 201, {"files.local.name": "my_box.gcode", "effectivePrint": False}),
    ("prusaslicer_upload_print", 201, {"files.local.name": "my_box.gcode", "effectivePrint": True}),
    ("prusaslicer_upload_path_parts", 201, {"files.local.name": "parts_offline_box.gcode", "effectivePrint": True}),
    (
        "prusaslicer_upload_cyrillic_109_bytes",
        201,
        {
            "files.local.name": "________________________________________________________3__________________________0.-157c59fc.gcode",
            "effectivePrint": False,
        },
    ),
    # Any status of success.
    ("slic3r_list", 200, {}),
    ("slic3r_upload_print_1", 201, {"files.local.name": "box2.gcode", "effectivePrint": True}),
    # `api` and `server` are shown; a status of failure is, and no slicers are offered; a refusal is shown.
    ("openscad_version", 200, {"api": "0.1", "server": "profile-1"}),
    ("openscad_slicing", 404, {"error": "NoRoute"}),
    ("openscad_upload_stl", 415, {"reason": "`cube.stl` has no print ending (.gcode, .gco, .g)"}),
    # octorest takes a status from 200 to 209, and the JSON of what isn't 204.
    ("requests_version", 200, {"api": "0.1", "server": "profile-1"}),
    ("requests_files", 200, {}),
    ("requests_upload_print", 201, {"done": True, "files.local.name": "box.gcode", "effectivePrint": True}),
    ("requests_select", 204, {}),
    ("requests_jog", 204, {}),
    ("requests_gcode", 204, {}),
    ("requests_logout", 204, {}),
]


def recorded(name):
    with open(os.path.join(MESSAGES, name + ".http"), "rb") as source:
        return source.read()


def commands(data):
    """The commands of the file in an upload."""
    lines = data[data.index(b"filename=") :].split(b"\r\n\r\n", 1)[1].split(b"\r\n--", 1)[0].split(b"\n")
    texts = [line.split(b";", 1)[0].strip().decode() for line in lines]
    return [text for text in texts if text]


def messages(folder):
    """Each recorded message gets the reply that its program understands, and what is to be printed is printed."""
    printer = Printer(folder)
    host = known_host(folder, printer.port)
    wanted = []
    try:
        host.connect()
        for name, status, reads in RECORDED:
            data = recorded(name)
            reply = exchange(host.port, data)
            check(name, (reply.status, read(reply, reads)), (status, reads))
            if reads.get("effectivePrint"):
                wanted += commands(data)
                host.until_state("Operational")
        check_page(host.port)
        names = [one["name"] for one in host.ask("GET", "/api/files").json()["files"]]
        check("the files", sorted(names), sorted({reads["files.local.name"] for _, _, reads in RECORDED if "files.local.name" in reads}))
        host.post("/api/connection", {"command": "disconnect"})
        wanted += ["G91", "G1 X10 Y-0.5 F6000", "G90", "M104 S0", "M84"]
        check("what the printer executed", difference(printer.end(), wanted), None)
        check("the end of the host", host.shut_down()[0], 0)
    finally:
        host.kill()
        printer.kill()
    stored = {os.path.basename(path)[: -len(".http")] for path in glob.glob(os.path.join(MESSAGES, "*.http"))}
    check("each stored message was sent", stored, {"chromium_root"} | {name for name, _, _ in RECORDED})


def check_page(port):
    """What Chromium needs of the page: its type, and that it is a whole document."""
    reply = exchange(port, recorded("chromium_root"))
    is_page = reply.body.lower().startswith(b"<!doctype html>") and reply.body.endswith(b"</html>\n")
    check("chromium_root", (reply.status, field(reply, "Content-Type"), is_page), (200, "text/html; charset=utf-8", True))
    check("chromium_root: its length", field(reply, "Content-Length"), str(len(reply.body)))


# The requests of a program by its sources, in its order: method, path, body, status, and what it reads of the reply.
PROGRAMS = {
    "Cura's plugin": [
        (
            "GET",
            "/api/settings",
            None,
            200,
            {
                "webcam.webcamEnabled": False,
                "webcam.streamUrl": None,
                "webcam.flipH": False,
                "webcam.flipV": False,
                "webcam.rotate90": False,
                "plugins": {},
                "feature.sdSupport": False,
            },
        ),
        ("POST", "/api/login", {"passive": True}, 200, {"name": "root", "session": None}),
        ("GET", "/api/printerprofiles", None, 200, {"profiles._default.extruder.count": 1}),
        (
            "GET",
            "/api/printer",
            None,
            200,
            {
                "state.flags.operational": True,
                "state.flags.printing": False,
                "state.flags.paused": False,
                "state.flags.error": False,
                "state.flags.closedOrError": False,
                "state.text": "Operational",
            },
        ),
        ("GET", "/api/job", None, 200, {"state": "Operational", "progress.completion": None, "job.file.name": None}),
        ("POST", "/api/printer/command", {"command": "M105"}, 204, {}),
    ],
    "Home Assistant's client": [
        ("GET", "/api/server", None, 200, {"version": "profile-1", "safemode": None}),
        ("GET", "/api/printer", None, 200, {"state.flags.printing": False, "state.text": "Operational"}),
        ("GET", "/api/job", None, 200, {"state": "Operational", "job.file.name": None, "progress.completion": None}),
        ("GET", "/api/settings", None, 200, {"webcam.webcamEnabled": False, "webcam.streamUrl": None, "webcam.snapshotUrl": None}),
        ("POST", "/api/job", {"command": "pause", "action": "pause"}, 409, {"error": "WrongState"}),
        ("POST", "/api/job", {"command": "cancel"}, 409, {"error": "WrongState"}),
    ],
    "octorest": [
        ("GET", "/api/version", None, 200, {"api": "0.1"}),
        ("GET", "/api/files?recursive=true", None, 200, {"files": []}),
        ("GET", "/api/job", None, 200, {"state": "Operational"}),
        ("GET", "/api/printer?history=true&limit=2", None, 200, {"state.text": "Operational"}),
        ("GET", "/api/printer/tool", None, 200, {}),
        ("GET", "/api/printer/bed?history=true&limit=2", None, 200, {}),
        ("GET", "/api/connection", None, 200, {"current.state": "Operational"}),
        ("GET", "/api/printerprofiles", None, 200, {"profiles._default.id": "_default"}),
        ("GET", "/api/system/commands", None, 200, {"custom": []}),
        ("GET", "/api/currentuser", None, 200, {"name": "root"}),
        ("POST", "/api/login", {"user": "root", "pass": "secret"}, 403, {"error": "NoPassword"}),
        ("POST", "/api/logout", None, 204, {}),
        ("POST", "/api/printer/printhead", {"command": "jog", "x": 10, "y": -0.5}, 204, {}),
        ("POST", "/api/printer/printhead", {"command": "home", "axes": ["x", "y"]}, 204, {}),
        ("POST", "/api/printer/printhead", {"command": "feedrate", "factor": 1.05}, 204, {}),
        ("POST", "/api/printer/printhead", {"command": "jog", "x": "10"}, 400, {"error": "BadBody"}),
        ("POST", "/api/printer/tool", {"command": "target", "targets": {"tool0": 60}}, 204, {}),
        ("POST", "/api/printer/bed", {"command": "target", "target": 40}, 204, {}),
        ("POST", "/api/printer/tool", {"command": "select", "tool": "tool0"}, 204, {}),
        ("POST", "/api/printer/tool", {"command": "extrude", "amount": 5}, 204, {}),
        ("POST", "/api/printer/tool", {"command": "flowrate", "factor": 95}, 204, {}),
        ("POST", "/api/printer/command", {"commands": ["M106 S0"]}, 204, {}),
        ("GET", "/api/files/local/none.gcode", None, 404, {"error": "NoFile"}),
    ],
}

# What the printer executes of them, but for the question for temperatures.
EXECUTED = ["G91", "G1 X10 Y-0.5 F6000", "G90", "G28 X Y", "M220 S105", "M104 S60", "M140 S40", "T0"]
EXECUTED += ["G91", "G1 E5 F300", "G90", "M221 S95", "M106 S0"]


def programs(folder):
    """Each program's requests get what it reads, and the printer executes the moves."""
    printer = Printer(folder)
    host = quiet_host(folder, printer.port).start()
    try:
        host.connect()
        for name, rows in PROGRAMS.items():
            for method, path, body, status, reads in rows:
                reply = host.ask(method, path) if method == "GET" else host.post(path, body)
                check("%s: %s %s" % (name, method, path), (reply.status, read(reply, reads)), (status, reads))
        host.post("/api/connection", {"command": "disconnect"})
        check("what the printer executed of them", difference(printer.end(), EXECUTED), None)
        check("the end of that host", host.shut_down()[0], 0)
    finally:
        host.kill()
        printer.kill()


def cura_prints(folder):
    """Cura's plugin uploads, prints, and looks at the job and the printer while it prints; it reads the field Location."""
    printer = Printer(folder)
    host = quiet_host(folder, printer.port).start()
    try:
        host.connect()
        body, kind = form([("select", None, b"true"), ("print", None, b"true"), ("file", "cube.gcode", b"G4 P1\n" * 4000)])
        reply = host.ask("POST", "/api/files/local", body, kind)
        wanted = {"Location:": "/api/files/local/cube.gcode", "effectivePrint": True}
        check("Cura's plugin: an upload", (reply.status, read(reply, wanted)), (201, wanted))
        host.until_state("Printing")
        wanted = {"state": "Printing", "job.file.name": "cube.gcode", "job.file.size": 24000}
        reply = host.ask("GET", "/api/job")
        check("Cura's plugin: the job", (reply.status, read(reply, wanted)), (200, wanted))
        check("Cura's plugin: the progress", 0 <= dig(reply.json(), "progress.completion") <= 100, True)
        reply = host.ask("GET", "/api/printer")
        check("Cura's plugin: the printer", read(reply, ["state.flags.printing"]), {"state.flags.printing": True})
        reply = host.post("/api/job", {"command": "pause", "action": "pause"})
        check("Home Assistant: a pause", reply.status, 204)
        host.until_state("Paused")
        reply = host.ask("GET", "/api/printer")
        check("Cura's plugin: paused", read(reply, ["state.flags.paused"]), {"state.flags.paused": True})
        check("Home Assistant: a cancel", host.post("/api/job", {"command": "cancel"}).status, 204)
        host.until_state("Operational")
    finally:
        host.kill()
        printer.kill()


def without_a_key(folder):
    """Whoever has no key is a guest; the page's head and methods need none."""
    host = quiet_host(folder, 9).start()
    try:
        reply = exchange(host.port, b"GET /api/currentuser HTTP/1.1\r\n\r\n")
        check("a guest", (reply.status, reply.json()), (200, {"groups": ["guests"], "name": None}))
        reply = exchange(host.port, b"GET /api/settings HTTP/1.1\r\n\r\n")
        check("a guest's settings", (reply.status, reply.json().get("error")), (403, "Denied"))
        reply = exchange(host.port, b"HEAD / HTTP/1.1\r\n\r\n")
        check("the head of the page", (reply.status, reply.body), (200, b""))
        reply = exchange(host.port, b"OPTIONS /api/printer/printhead HTTP/1.1\r\nOrigin: http://a\r\n\r\n")
        check("OPTIONS", (reply.status, b"\r\nAllow: POST" in reply.head, b"Access-Control" in reply.head), (204, True, False))
    finally:
        host.kill()


# What a browser asks before it sends the key of a page of another origin.
PREFLIGHT = b"OPTIONS /api/files/local HTTP/1.1\r\nOrigin: %s\r\nAccess-Control-Request-Method: POST\r\n\
Access-Control-Request-Headers: x-api-key,content-type\r\n\r\n"


def other_origins(folder):
    """Pages of the origins that the settings list may read replies; others may not."""
    host = known_host(folder, 9, '[serve]\norigins = ["http://a:8080", "https://b"]\n')
    names = ["Access-Control-Allow-Origin:", "Vary:", "Access-Control-Allow-Methods:", "Access-Control-Allow-Headers:"]
    none = dict.fromkeys(names, "-")
    try:
        reply = exchange(host.port, PREFLIGHT % b"https://b")
        wanted = dict(zip(names, ["https://b", "Origin", "GET, HEAD, POST", "X-Api-Key, Content-Type"]))
        check("OPTIONS of a listed origin", (reply.status, read(reply, names)), (204, wanted))
        reply = exchange(host.port, PREFLIGHT % b"https://c")
        check("OPTIONS of another origin", (reply.status, read(reply, names)), (204, none))
        wanted = {**none, "Access-Control-Allow-Origin:": "http://a:8080", "Vary:": "Origin"}
        reply = host.ask("GET", "/api/version", fields=["Origin: http://a:8080"])
        check("a listed origin", (reply.status, read(reply, names)), (200, wanted))
        reply = exchange(host.port, b"GET /api/version HTTP/1.1\r\nOrigin: http://a:8080\r\n\r\n")
        check("a listed origin without a key", (reply.status, read(reply, names)), (403, wanted))
        reply = host.ask("GET", "/api/version", fields=["Origin: http://a"])
        check("another origin", (reply.status, read(reply, names)), (200, none))
        reply = host.ask("GET", "/api/version")
        check("no origin", (reply.status, read(reply, names)), (200, none))
    finally:
        host.kill()


def moves_while_printing(folder):
    """A move is refused while a print is active, and a rate is sent."""
    printer = Printer(folder)
    host = quiet_host(folder, printer.port, '[scripts]\nbeforePrintStarted = ["M400"]\n').start()
    try:
        host.connect()
        body, kind = form([("print", None, b"true"), ("file", "long.gcode", b"G4 P1\n" * 4000)])
        host.ask("POST", "/api/files/local", body, kind)
        host.until_state("Printing")
        reply = host.post("/api/printer/printhead", {"command": "home", "axes": ["z"]})
        check("a homing while printing", (reply.status, reply.json()), (409, {"error": "WrongState", "state": "Printing"}))
        reply = host.post("/api/printer/printhead", {"command": "feedrate", "factor": 90})
        check("a rate while printing", reply.status, 204)
        host.post("/api/job", {"command": "cancel"})
        host.until_state("Operational")
        host.post("/api/connection", {"command": "disconnect"})
        executed = printer.end()
        check("what of them the printer executed", ("G28 Z" in executed, "M220 S90" in executed), (False, True))
    finally:
        host.kill()
        printer.kill()


def main():
    for work in (messages, programs, cura_prints, without_a_key, other_origins, moves_while_printing):
        with tempfile.TemporaryDirectory() as folder:
            try:
                work(folder)
            except (OSError, KeyError, ValueError, subprocess.TimeoutExpired, SystemExit) as fault:
                check("a check without a fault of its own: " + work.__name__, repr(fault), "")
    end()


if __name__ == "__main__":
    main()
