"""`octo serve` against hostile peers on this machine: a thousand hostile messages, half-closed and reset connections, 10,000
connections one after the other and 2,000 at the same time, 8 uploads by strangers. Each gets its refusal, and leaves descriptors, memory
and the count of calls as they were. It takes 60 seconds at most."""

import os
import re
import resource
import select
import socket
import struct
import subprocess
import sys
import threading
import time

sys.path.insert(0, __file__.rsplit("/", 2)[0] + "/lib")
from checking import build, check_that, end  # noqa: E402
from serving import Host, Printer, exchange, form, message, until, with_folder  # noqa: E402

build("octo", "marlin_sim")

# The longest head, and the most fields in one.
MOST_HEAD, MOST_FIELDS = 16384, 64
# How much the host's memory may grow over all attacks, in bytes: a worker keeps room for a body.
MOST_GROWTH = 32 << 20
# How long all attacks may take, in seconds.
MOST_SECONDS = 60
# A body of more bytes is read only if its key names somebody.
LONG = 4096
# A longer body is refused by its head alone.
MOST_BODY = 68_157_440
# The most resident memory that strangers' uploads may lead to, in bytes.
MOST_PEAK = 32 << 20
# The most refusals a second of a stranger who uploads again as soon as it is refused: a worker rests for what it drops.
MOST_REFUSALS = 250
# The errors of a call of accept that pass.
PASSING = """EMFILE ENFILE ENOBUFS ENOMEM ECONNABORTED EPERM EPROTO ENOPROTOOPT EOPNOTSUPP ENETDOWN ENETUNREACH EHOSTDOWN EHOSTUNREACH
ENONET""".split()
REFUSED = {400, 404, 405, 408, 411, 413, 415, 431}


def head(start, *fields, body=b"", key="k"):
    lines = [start, b"Host: x", b"X-Api-Key: " + key.encode(), *fields]
    return b"\r\n".join(lines) + b"\r\n\r\n" + body


def framing(key):
    """Messages whose length could be read in two ways."""
    post = b"POST /api/job HTTP/1.1"
    lengths = [b"+2", b"-2", b"0x2", b"2 2", b"2,3", b"2;", b"", b" ", b"2e0", b"99999999999999999999", b"\xb2"]
    codings = [b"identity", b"gzip", b"chunked, gzip", b"xchunked", b"chunked;q=1", b"chunke", b"\x0bchunked"]
    for it in lengths:
        yield head(post, b"Content-Length: " + it, body=b"{}", key=key)
    for it in codings:
        yield head(post, b"Transfer-Encoding: " + it, body=b"2\r\n{}\r\n0\r\n\r\n", key=key)
    for it in [b"chunked", b"identity"]:
        yield head(post, b"Content-Length: 2", b"Transfer-Encoding: " + it, body=b"2\r\n{}\r\n0\r\n\r\n", key=key)
        yield head(post, b"Transfer-Encoding: " + it, b"Content-Length: 2", body=b"2\r\n{}\r\n0\r\n\r\n", key=key)
    for it in [(b"2", b"3"), (b"3", b"2")]:
        yield head(post, *[b"Content-Length: " + n for n in it], body=b"{}", key=key)
    sizes = [b"FFFFFFFF", b"FFFFFFFFFFFFFFFFF", b"-1", b"0x2", b"+2", b" 2", b"G", b"", b"2" * 400]
    for it in sizes:
        yield head(post, b"Transfer-Encoding: chunked", body=it + b"\r\n{}\r\n0\r\n\r\n", key=key)
    for it in [b"2\n{}\r\n0\r\n\r\n", b"2\r\n{}0\r\n\r\n", b"2\r\n{}\r\n", b"2\r\n{}x\r\n0\r\n\r\n", b"1\r\n" * 3000]:
        yield head(post, b"Transfer-Encoding: chunked", body=it, key=key)


def control_bytes(key):
    """A control byte in each part of a head."""
    for byte in [*range(9), 11, 12, *range(14, 32), 127]:
        it = bytes([byte])
        yield head(b"GE" + it + b"T /api/job HTTP/1.1", key=key)
        yield head(b"GET /api/" + it + b"job HTTP/1.1", key=key)
        yield head(b"GET /api/job HTTP/1." + it, key=key)
        yield head(b"GET /api/job HTTP/1.1", b"X-A" + it + b": 1", key=key)
        yield head(b"GET /api/job HTTP/1.1", b"X-A: 1" + it + b"2", key=key)


def start_lines(key):
    """Lines that begin no message."""
    versions = [b"HTTP/0.9", b"HTTP/2.0", b"HTTP/1.10", b"http/1.1", b"HTTP/1.1 x", b"HTTP", b"", b"HTTPS/1.1"]
    targets = [b"api/job", b"*", b"\\api", b"/api/%", b"/api/%zz", b"/%00", b"/api/files/local/%2e%2e", b"/api/files/local/..%2f..%2fetc%2fpasswd"]
    targets += [b"/api/files/local/" + it for it in (b"%2e%2e", b".", b"%ff%fe", b"a%00b", b"%0d%0aX:1", b"%E2%80%AEedocg.exe", b"a" * 300)]
    for it in versions:
        yield head(b"GET /api/job " + it, key=key)
    for method in (b"GET", b"DELETE", b"POST"):
        for it in targets:
            yield head(method + b" " + it + b" HTTP/1.1", key=key)
    for it in (b"TRACE", b"CONNECT", b"get", b"G" * 200, b"PATCH", b"(", b"GET/"):
        yield head(it + b" /api/job HTTP/1.1", key=key)


def sizes(key):
    """Heads that are one byte or one field too long."""
    for over in (1, 2, 1000):
        start = head(b"GET /api/nothing HTTP/1.1", key=key)[:-2]
        yield start + b"X-Pad: " + b"a" * (MOST_HEAD + over - len(start) - 11) + b"\r\n\r\n"
        yield head(b"GET /api/nothing HTTP/1.1", *[b"X-A: 1"] * (MOST_FIELDS + over - 2), key=key)
    yield b"GET /" + b"a" * 70000
    yield b"\x16\x03\x01\x02\x00\x01\x00\x01\xfc\x03\x03" * 40


def bodies(key):
    """Bodies that are no request."""
    for it in (b"[" * 200, b'{"a":' * 200, b"[" * 60000, b'{"command":"\\ud800"}', b'{"command":"start","command":"cancel"', b"\xff\xfe{}", b"{}{}", b"nul", b"1e400", b'{"a":1,}'):
        yield head(b"POST /api/job HTTP/1.1", b"Content-Type: application/json", b"Content-Length: %d" % len(it), body=it, key=key)
    for lines in (257, 5000):
        it = b'{"commands":[' + b",".join([b'"M117 a"'] * lines) + b"]}"
        yield head(b"POST /api/printer/command HTTP/1.1", b"Content-Type: application/json", b"Content-Length: %d" % len(it), body=it, key=key)
    for it in (b"7", b"null", b"[]", b"{}"):
        yield command(it, key)


def command(value, key):
    body = b'{"command":' + value + b"}"
    return head(b"POST /api/printer/command HTTP/1.1", b"Content-Type: application/json", b"Content-Length: %d" % len(body), body=body, key=key)


def lines(key):
    """Commands that aren't one line for the printer. These alone are calls of the house, which refuses them."""
    for it in (b'"G28\\nM112"', b'"G28\\u0000"', b'"M110 N5"', b'"' + b"a" * 80 + b'"'):
        yield command(it, key)


def forms(key):
    """Forms that hold no file to store."""
    many, kind = form([("a", None, b"1")] * 3000)
    shapes = [(many, kind), (b"", kind), (b"--x", kind), (b"\r\n" * 5000, kind), (many, "multipart/form-data"), (many, "multipart/form-data; boundary=")]
    shapes += [(many, "multipart/form-data; boundary=" + "b" * 71), (many[:-20], kind)]
    names = ["../../etc/passwd", "a/../../b.exe", "\\..\\..\\c.stl", "", ".", "..", "/", "a" * 300 + ".gcode", "a.gcode.exe"]
    shapes += [form([("file", name, b"G28\n")]) for name in names]
    for body, it in shapes:
        yield message("POST", "/api/files/local", key, body, it)


def drawn(key):
    """Messages that are cut, doubled or have a byte changed, by a fixed rule, until there are enough."""
    whole = head(b"POST /api/job HTTP/1.1", b"Content-Type: application/json", b"Content-Length: 21", body=b'{"command":"cancel!"}', key=key)
    for at in range(len(whole)):
        yield whole[:at]
    body, kind = form([("print", None, b"maybe"), ("file", "a.exe", b"G28\n")])
    whole = message("POST", "/api/files/local", key, body, kind)
    for at in range(len(whole)):
        yield whole[:at] + bytes([whole[at] ^ 0x80]) + whole[at + 1:]
        if at % 4 == 0:
            yield whole[:at]


def send(port, data):
    """The status of the reply to what is sent on a connection that is then half closed, or 0 without a reply."""
    with socket.create_connection(("127.0.0.1", port), timeout=20) as conn:
        parts = []
        try:
            conn.sendall(data)
            conn.shutdown(socket.SHUT_WR)
        except OSError:
            pass
        try:
            while part := conn.recv(65536):
                parts.append(part)
        except ConnectionError:
            pass
        found = re.findall(rb"^HTTP/1\.1 ([2-5]\d\d) ", b"".join(parts), re.M)
        return int(found[-1]) if found else 0


def is_long(data):
    """Whether a head says that its body is long: the host then asks first whom the key names."""
    start, end, _ = data.partition(b"\r\n\r\n")
    fields = [line.split(b":", 1) for line in start.split(b"\r\n")[1:] if b":" in line]
    lengths = [value.strip() for name, value in fields if name.lower() == b"content-length"]
    codings = [value.strip() for name, value in fields if name.lower() == b"transfer-encoding"]
    if not end or len(start) + 4 > MOST_HEAD or len(fields) > MOST_FIELDS:
        return False
    if codings:
        return not lengths and codings == [b"chunked"]
    return len(set(lengths)) == 1 and re.fullmatch(rb"\d{1,18}", lengths[0]) is not None and LONG < int(lengths[0]) <= MOST_BODY


def hostile(host):
    """Each message is refused, or gets no reply as it isn't whole. Returns how many calls of the house they are."""
    groups = {it.__name__: list(it(host.key)) for it in (framing, control_bytes, start_lines, sizes, bodies, lines, forms, drawn)}
    count = 0
    for name, sent in groups.items():
        bad = [(data[-120:], found) for data in sent for found in [send(host.port, data)] if found not in REFUSED | {0}]
        count += len(sent)
        check_that("%d messages of the kind %s are refused" % (len(sent), name), not bad, bad[:3])
    check_that("there were a thousand", count >= 1000, count)
    return len(groups["lines"]) + sum(is_long(data) for sent in groups.values() for data in sent)


def named(host):
    """Messages whose status is the one that the worked cases name, and what they leave in the folder. Returns how many calls they are."""
    upload = lambda name: message("POST", "/api/files/local", host.key, *form([("file", name, b"G28\n")]))  # noqa: E731
    posted = lambda *fields, body=b"": head(b"POST /api/job HTTP/1.1", *fields, body=body, key=host.key)  # noqa: E731
    long_head = b"GET /api/job HTTP/1.1\r\nX-Pad: "
    brackets = b"[" * 200
    rows = [
        ("a head of 16,385 bytes without an end", long_head + b"a" * (MOST_HEAD + 1 - len(long_head)), 431),
        ("a head of 65 fields", head(b"GET /api/job HTTP/1.1", *[b"X-A: 1"] * (MOST_FIELDS - 1), key=host.key), 431),
        ("a body of 68,157,441 bytes", posted(b"Content-Length: 68157441", body=b"a" * 5000), 413),
        ("a chunk of FFFFFFFF bytes", posted(b"Transfer-Encoding: chunked", body=b"FFFFFFFF\r\n{}"), 413),
        ("a chunk whose size has 17 digits", posted(b"Transfer-Encoding: chunked", body=b"00000000000000002\r\n{}\r\n0\r\n\r\n"), 400),
        ("a length and chunks", posted(b"Content-Length: 2", b"Transfer-Encoding: chunked", body=b"2\r\n{}\r\n0\r\n\r\n"), 400),
        ("an ignored member of 1e400", posted(b"Content-Type: application/json", b"Content-Length: 30", body=b'{"command":"cancel","x":1e400}'), 400),
        ("200 brackets", posted(b"Content-Type: application/json", b"Content-Length: 200", body=brackets), 400),
        ("a name without a print ending", upload("../../etc/passwd"), 415),
        ("a path of two full stops", head(b"DELETE /api/files/local/%2e%2e HTTP/1.1", key=host.key), 404),
        ("a name of two full stops", upload("..gcode"), 201),
    ]
    for name, data, wanted in rows:
        found = send(host.port, data)
        check_that("%s: status %d" % (name, wanted), found == wanted, found)
    check_that("it is stored as _.gcode", os.listdir(host.files) == ["_.gcode"], os.listdir(host.files))
    check_that("and deleted", host.ask("DELETE", "/api/files/local/_.gcode").status == 204)
    return 1 + sum(is_long(data) for _, data, _ in rows)


def holders(folder, keys):
    """The files below a folder that hold one of the keys."""
    paths = [os.path.join(at, name) for at, _, names in os.walk(folder) for name in names]
    return [path for path in paths for data in [open(path, "rb").read()] if any(key in data for key in keys)]


def keys(folder):
    """No key, right or wrong, reaches a reply, an output or a file."""
    printer = Printer(folder)
    host = Host(folder, printer.port)
    host.errors = os.path.join(folder, "errors")
    host.start()
    wrong, user = "wrongkey0123456789", "anakey0123456789"
    try:
        host.connect()
        replies = [host.post("/api/access/users", {"name": "ana", "key": user, "groups": ["users"]})]
        shown = [host.key, user, wrong, wrong[:-1] + '"', "short"]
        paths = ["/api/job", "/api/files", "/api/access/users", "/api/nothing", "/api/system/commands/core/shutdown"]
        for key in shown:
            bearer = "Authorization: Bearer " + key
            for path in paths[:-1] if key == host.key else paths:
                method = "POST" if path == paths[-1] else "GET"
                replies += [exchange(host.port, message(method, path, key))]
                replies += [exchange(host.port, message(method, path + "?apikey=" + key.replace('"', "%22"), "", fields=[bearer]))]
                replies += [exchange(host.port, ("%s %s?apikey=%s HTTP/1.1\r\n\r\n" % (method, path, key)).encode())]
            body, kind = form([("file", key + ".gcode" if key == "short" else "a.stl", b"G28\n")])
            replies += [exchange(host.port, message("POST", "/api/files/local", key, body, kind))]
        replies += [host.ask("PUT", "/api/access/users/ana", b'{"key":"%s"}' % wrong.encode(), "application/json")]
        found = [key.encode() for key in shown[:3]]
        status, text = host.shut_down()
        check_that("a host that knew three keys ends as asked", status == 0, (status, text))
        told = [reply.head + reply.body for reply in replies if any(key in reply.head + reply.body for key in found)]
        check_that("no key is in any of %d replies" % len(replies), not told, told[:2])
        check_that("no key is in an output or a file", not holders(folder, found), holders(folder, found))
        printer.end()
    finally:
        host.kill()
        printer.kill()


class Counting(Host):
    """A host, and how many calls of its house the check itself made."""

    calls = 0

    def ask(self, *words, **options):
        reply = super().ask(*words, **options)
        self.calls += reply.status != 404
        return reply


def memory(host):
    found = re.search(r"VmRSS:\s+(\d+) kB", open("/proc/%d/status" % host.process.pid).read())
    return int(found[1]) * 1024


def peak(host):
    found = re.search(r"VmHWM:\s+(\d+) kB", open("/proc/%d/status" % host.process.pid).read())
    return int(found[1]) * 1024


def stranger(port, size):
    """The reply to an upload of this size whose key names nobody, and which is sent as far as the host takes it."""
    start = head(b"POST /api/files/local HTTP/1.1", b"Content-Length: %d" % size, key="nobody0123456789")
    piece = b"G1 X10 Y10\n" * 6000
    with socket.create_connection(("127.0.0.1", port), timeout=20) as conn:
        conn.sendall(start)
        try:
            while size > 0 and not select.select([conn], [], [], 0)[0]:
                size -= conn.send(piece[:size])
        except OSError:
            pass
        try:
            return conn.recv(65536)
        except OSError:
            return b""


def refusals(port):
    """How often a stranger who uploads again as soon as it is refused is refused within 2 seconds."""
    count, end = 0, time.monotonic() + 2
    while time.monotonic() < end:
        stranger(port, 64 << 20)
        count += 1
    return count


def strangers(folder):
    """Eight uploads of 64 MiB at once by keys that name nobody are refused before the body, and take no memory."""
    host = Host(folder, 1)
    host.errors = os.path.join(folder, "errors")
    host.start()
    try:
        replies = []
        threads = [threading.Thread(target=lambda: replies.append(stranger(host.port, 64 << 20))) for _ in range(8)]
        for it in threads:
            it.start()
        for it in threads:
            it.join()
        check_that("8 uploads of strangers are refused", all(it.startswith(b"HTTP/1.1 403 ") for it in replies), replies)
        waits = head(b"POST /api/files/local HTTP/1.1", b"Expect: 100-continue", b"Content-Length: %d" % (64 << 20), key="")
        check_that("without 100 Continue", send(host.port, waits) == 403)
        check_that("their bodies aren't kept", peak(host) < MOST_PEAK, peak(host))
        count = refusals(host.port)
        check_that("one that tries again at once is refused at most %d times a second" % MOST_REFUSALS, count <= 2 * MOST_REFUSALS, count)
        status, text = host.shut_down()
        check_that("each was one call", (status, text) == (0, b"served %d calls\n" % (10 + count)), (status, text))
    finally:
        host.kill()


def check_as_before(host, descriptors, before):
    settled = until("no descriptor is left", lambda: host.descriptors() <= descriptors, 10)
    check_that("no descriptor is left", settled)
    check_that("memory as before", memory(host) - before < MOST_GROWTH, memory(host) - before)


def check_log(host):
    """No peer puts a control byte, a byte beyond ASCII or a line of its own into the log."""
    lines = open(host.errors, "rb").read().split(b"\n")
    known = (b"serving at ", b"printer: ", b"refused: ", b"file _.gcode: ", b"stopped")
    odd = [line for line in lines if line and not (re.fullmatch(rb"[ -~]*", line) and line.startswith(known))]
    check_that("the log has its own lines alone", not odd, odd[:3])


def messages(folder):
    """Hostile messages to a host whose printer is connected."""
    printer = Printer(folder)
    host = Counting(folder, printer.port)
    host.errors = os.path.join(folder, "errors")
    host.start()
    try:
        host.connect()
        rows = host.ask("GET", "/api/files").body
        descriptors, before = host.descriptors(), memory(host)
        asked = hostile(host) + named(host)
        check_as_before(host, descriptors, before)
        check_that("nothing was stored", host.ask("GET", "/api/files").body == rows and os.listdir(host.files) == [], os.listdir(host.files))
        status, text = host.shut_down()
        check_that("the host ends as asked", status == 0, (status, text))
        check_that("no other message was a call", text == b"served %d calls\n" % (host.calls + asked), (text, host.calls, asked))
        check_that("nothing reached the printer", (found := printer.end()) == [], found)
        check_log(host)
    finally:
        host.kill()
        printer.kill()


def connect(host):
    return socket.create_connection(("127.0.0.1", host.port), timeout=20)


def answers(host):
    return host.ask("GET", "/api/version", seconds=20).status == 200


def reset(host):
    """Connections that are reset in a head, in a body and in a reply, and ones that are closed at once."""
    whole = message("GET", "/api/files", host.key)
    for data in [b"", whole[:20], whole, message("POST", "/api/job", host.key, b"x" * 5000)[:-10]] * 50:
        conn = connect(host)
        conn.setsockopt(socket.SOL_SOCKET, socket.SO_LINGER, struct.pack("ii", 1, 0))
        conn.sendall(data)
        conn.close()
    check_that("200 reset connections", answers(host))


def half_closed(host):
    """Connections whose peer sends no more in a head or a body, or takes no reply, and stays."""
    whole = message("GET", "/api/files", host.key)
    held = []
    for data in [b"", whole[:20], message("POST", "/api/job", host.key, b"x" * 5000)[:-10]] * 30:
        held.append(connect(host))
        held[-1].sendall(data)
        held[-1].shutdown(socket.SHUT_WR)
    ends = {conn.recv(100) for conn in held}
    check_that("90 half-closed connections have ended", ends == {b""}, ends)
    for _ in range(30):
        held.append(connect(host))
        held[-1].shutdown(socket.SHUT_RD)
        held[-1].sendall(whole)
    check_that("30 more that take no reply", answers(host))
    for conn in held:
        conn.close()


def many(host):
    """10,000 connections one after the other, and 2,000 at the same time, of which the door keeps few."""
    for _ in range(10000):
        connect(host).close()
    check_that("10,000 connections, one after the other", answers(host))
    # The process has a few more descriptors than these.
    most = resource.getrlimit(resource.RLIMIT_NOFILE)[0]
    held = [connect(host) for _ in range(min(2000, most - 50))]
    check_that("%d connections at the same time" % len(held), answers(host))
    kept = host.descriptors()
    check_that("most of them were closed", kept < 200, kept)
    for conn in held:
        conn.close()


def connections(folder):
    """Peers that vanish, and more of them than the door keeps."""
    soft, hard = resource.getrlimit(resource.RLIMIT_NOFILE)
    resource.setrlimit(resource.RLIMIT_NOFILE, (max(soft, min(hard, 4096)), hard))
    host = Host(folder, 1)
    host.errors = os.path.join(folder, "errors")
    host.start()
    try:
        descriptors, before = host.descriptors(), memory(host)
        for attack in (reset, half_closed, many):
            attack(host)
            check_as_before(host, descriptors, before)
        status, text = host.shut_down()
        check_that("the host ends as asked", status == 0, (status, text))
    finally:
        host.kill()


def threads(host, is_kept=lambda status: True):
    """The number of its threads, the house's and the workers', or of those whose status is as asked."""
    folder = "/proc/%d/task" % host.process.pid
    return sum(is_kept(open("%s/%s/status" % (folder, it)).read()) for it in os.listdir(folder))


def failing(host, error):
    """The status of a request while the first calls of accept of each thread fail by this error."""
    words = ["strace", "-f", "-o", os.devnull, "-e", "trace=accept4", "-e", "inject=accept4:error=%s:when=1..4" % error]
    strace = subprocess.Popen([*words, "-p", str(host.process.pid)], stderr=subprocess.DEVNULL)
    try:
        until("strace has all threads", lambda: threads(host, lambda status: "TracerPid:\t%d\n" % strace.pid in status) == 5, 10)
        return host.ask("GET", "/api/version", seconds=20).status
    finally:
        strace.terminate()
        strace.wait()


def accepts(folder):
    """A failing accept ends no worker if its error passes."""
    host = Host(folder, 1)
    host.errors = os.path.join(folder, "errors")
    host.start()
    try:
        for error in PASSING:
            found = failing(host, error), threads(host)
            check_that("four workers and a reply after " + error, found == (200, 5), found)
        status, text = host.shut_down()
        check_that("the host ends as asked", status == 0, (status, text))
    finally:
        host.kill()


began = time.monotonic()
with_folder(messages)
with_folder(connections)
with_folder(accepts)
with_folder(strangers)
with_folder(keys)
took = time.monotonic() - began
check_that("all of it within %d seconds" % MOST_SECONDS, took < MOST_SECONDS, took)
end()
