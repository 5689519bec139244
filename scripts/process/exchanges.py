"""Messages to a new host over real sockets, and the bytes of its replies. scripts/process/exchanges.txt has both as a program wrote them
that was made from a description of the API alone; `NEWER` lists the replies that newer rules change."""

import ast
import json
import os
import socket
import sys
import tempfile

sys.path.insert(0, __file__.rsplit("/", 2)[0] + "/lib")
from checking import build  # noqa: E402
from serving import LIMIT, Host  # noqa: E402

build("octo")

CASES = "scripts/process/exchanges.txt"
SETTINGS = "scripts/process/exchanges.toml"
# The key of the settings' admin.
KEY = "rootxkeyx0000000"

EMPTY = b"HTTP/1.1 %s\r\nConnection: close\r\nContent-Length: 0\r\n\r\n"
NO_CONTENT = b"HTTP/1.1 204 No Content\r\nConnection: close\r\n"
NOT_FOUND = b"HTTP/1.1 404 Not Found\r\nConnection: close\r\nContent-Length: 18\r\nContent-Type: application/json\r\n\r\n"

# The cases to which a newer rule gives another reply, by their numbers: the rule, the reply's name, and its bytes.
NEWER = {
    13: ("a path with `//` is that with one slash", "BadMethod", b"HTTP/1.1 100 Continue\r\n\r\n" + EMPTY % b"405 Method Not Allowed"),
    33: ("OPTIONS", "Options", NO_CONTENT + b"Allow: GET, HEAD, POST, DELETE\r\n\r\n"),
    59: (
        "a path with `//` is that with one slash",
        "Denied",
        b"HTTP/1.1 403 Forbidden\r\nConnection: close\r\nContent-Length: 37\r\nContent-Type: application/json\r\n\r\n"
        b'{"error":"Denied","permission":"KEY"}',
    ),
    64: ("OPTIONS", "Options", NO_CONTENT + b"Allow: GET, HEAD\r\n\r\n"),
    # Case 27's upload is `TRUE_a.gcode`.
    66: ("a `path` is part of the name", "NoFile", NOT_FOUND + b'{"error":"NoFile"}'),
    77: ("the port `AUTO` is none", "Accepted", NO_CONTENT + b"\r\n"),
}


def cases():
    """The cases in their order: a name, whether the client closes its side, the messages, and the bytes of the reply to the last one."""
    found = []
    for line in open(CASES, encoding="ascii"):
        if line.startswith("== "):
            name, _, more = line[3:].strip().partition(" (")
            found.append((name, bool(more), [], []))
        else:
            found[-1][2 if line.startswith("> ") else 3].append(ast.literal_eval(line[2:]).encode("latin-1"))
    return found


def reply_to(port, data, closes):
    with socket.create_connection(("127.0.0.1", port), timeout=LIMIT) as conn:
        conn.sendall(data)
        if closes:
            conn.shutdown(socket.SHUT_WR)
        parts = []
        while True:
            part = conn.recv(65536)
            if not part:
                return b"".join(parts)
            parts.append(part)


def reason_in(body, name):
    """The reason in the body of a refusal of this name; None if it has none."""
    try:
        value = json.loads(body)
    except ValueError:
        return None
    if not isinstance(value, dict) or sorted(value) != ["error", "reason"] or value["error"] != name:
        return None
    return value["reason"]


def with_body(name, wanted, body, reason):
    """The reply to a refusal that had no body: the fields of this body with its reason, and the body."""
    fields = b"Content-Length: %d\r\nContent-Type: application/json\r\n" % len(body)
    if name == "BadMethod":
        fields += b"Allow: %s\r\n" % reason.removeprefix("this path takes ").removesuffix(" and no other method").encode()
    return wanted.replace(b"Content-Length: 0\r\n", fields) + body


def with_reason(name, wanted, found):
    """The same, with the body that was found, if it has a reason."""
    body = found.rpartition(b"\r\n\r\n")[2]
    reason = reason_in(body, name)
    return with_body(name, wanted, body, reason) if reason else wanted


def head_of_put(wanted):
    """The head alone of the reply to a HEAD of a path that takes PUT."""
    reason = "this path takes PUT and no other method"
    body = json.dumps({"error": "BadMethod", "reason": reason}, separators=(",", ":")).encode()
    return with_body("BadMethod", wanted, body, reason)[: -len(body)]


def with_location(wanted):
    """The reply to an upload, with the field that names the stored file."""
    head, end, body = wanted.rpartition(b"\r\n\r\n")
    name = json.loads(body)["files"]["local"]["name"]
    return head + b"\r\nLocation: /api/files/local/" + name.encode() + end + body


def with_folder(wanted):
    """The same, if the form had the folder `TRUE`: it is a part of the name."""
    head, end, body = wanted.rpartition(b"\r\n\r\n")
    longer = body.replace(b'"a.gcode"', b'"TRUE_a.gcode"')
    return head.replace(b"Content-Length: %d" % len(body), b"Content-Length: %d" % len(longer)) + end + longer


def wanted_reply(number, name, message, reply, found):
    """The bytes that a case's reply has by the newer rules."""
    if number in NEWER:
        _, name, reply = NEWER[number]
    # A list of files, after case 27's upload.
    if number in (27, 32, 35):
        reply = with_folder(reply)
    if name == "Uploaded":
        reply = with_location(reply)
    if b"Content-Length: 0\r\n" not in reply:
        return reply
    if message.startswith(b"HEAD /api/access/users/"):
        return head_of_put(reply)
    return with_reason(name, reply, found)


def check(host):
    """How many replies aren't those that are wanted."""
    failures = 0
    for number, (name, closes, messages, replies) in enumerate(cases(), 1):
        for data in messages[:-1]:
            reply_to(host.port, data, False)
        found = reply_to(host.port, messages[-1], closes)
        wanted = wanted_reply(number, name, messages[-1], replies[-1], found)
        if found != wanted:
            failures += 1
            print("failed: case %d, %s: %r\n  %r, wanted %r" % (number, name, messages[-1], found, wanted))
        if number == 77:
            # The port is nobody's; what follows begins without a connection.
            host.post("/api/connection", {"command": "disconnect"})
            host.until_state("Offline")
    return failures


def main():
    with tempfile.TemporaryDirectory() as folder:
        host = Host(folder, 9)
        host.settings = SETTINGS
        host.key = KEY
        host.errors = os.path.join(folder, "log")
        host.start()
        try:
            failures = check(host)
        finally:
            host.kill()
    if not failures:
        print("ok: %d replies to the byte, %d of them by newer rules" % (len(cases()), len(NEWER)))
    sys.exit(bool(failures))


if __name__ == "__main__":
    main()
