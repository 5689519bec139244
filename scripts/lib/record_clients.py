#!/usr/bin/env python3
"""Records the messages that common HTTP clients send, for client_messages.

Each client that is installed sends a few requests to a listener on this machine, which answers each connection with 200
and keeps what came: crates/client_messages/data/CLIENT_REQUEST.http. Usage: scripts/lib/record_clients.py
"""
import os
import shutil
import socket
import subprocess
import tempfile
import threading

HERE = os.path.dirname(os.path.abspath(__file__))
DATA = os.path.join(HERE, "..", "..", "crates", "client_messages", "data")
REPLY = b"HTTP/1.1 200 OK\r\nConnection: close\r\nContent-Length: 0\r\n\r\n"
KEY = "0123456789abcdef"
JOB = '{"command":"start"}'
GCODE = b"G28\nG1 X10\n"


def is_whole(data):
    """Whether a message has come: enough for these requests, which have a length, chunks or no body."""
    head, found, body = data.partition(b"\r\n\r\n")
    if not found:
        return False
    fields = head.lower()
    if b"transfer-encoding: chunked" in fields:
        return body.endswith(b"0\r\n\r\n")
    for line in fields.split(b"\r\n"):
        if line.startswith(b"content-length:"):
            return len(body) >= int(line.split(b":")[1])
    return True


def record(name, command):
    """Runs a client against a listener and keeps what it sends."""
    with socket.create_server(("127.0.0.1", 0)) as listener:
        port = listener.getsockname()[1]
        parts = []

        def serve():
            conn, _ = listener.accept()
            with conn:
                asked = False
                while not is_whole(b"".join(parts)):
                    piece = conn.recv(65536)
                    if not piece:
                        return
                    parts.append(piece)
                    if not asked and b"100-continue" in b"".join(parts).lower():
                        conn.sendall(b"HTTP/1.1 100 Continue\r\n\r\n")
                        asked = True
                conn.sendall(REPLY)

        thread = threading.Thread(target=serve, daemon=True)
        thread.start()
        command(port)
        thread.join()
    with open(os.path.join(DATA, name + ".http"), "wb") as out:
        out.write(b"".join(parts))
    print(name, sum(map(len, parts)), "bytes")


def run(*words):
    return lambda port: subprocess.run(
        [word.replace("PORT", str(port)) for word in words], check=True, timeout=60, capture_output=True)


def url(path):
    return "http://127.0.0.1:PORT" + path


def record_curl(path):
    record("curl_get", run("curl", "-s", "-H", "X-Api-Key: " + KEY, url("/api/job?history=1")))
    record("curl_post", run("curl", "-s", "-H", "Authorization: Bearer " + KEY, "--json", JOB, url("/api/job")))
    record("curl_upload", run("curl", "-s", "-H", "X-Api-Key: " + KEY, "-H", "Expect: 100-continue",
                              "-F", "file=@" + path, "-F", "print=true", url("/api/files/local")))
    record("curl_chunks", run("curl", "-s", "-H", "X-Api-Key: " + KEY, "-H", "Transfer-Encoding: chunked",
                              "-T", path, url("/api/files/local/a.gcode")))


def record_wget():
    record("wget_get", run("wget", "-q", "-O", "-", "--header=X-Api-Key: " + KEY, url("/api/version")))
    record("wget_post", run("wget", "-q", "-O", "-", "--header=Content-Type: application/json",
                            "--post-data=" + JOB, url("/api/job")))


def record_python():
    import http.client
    import urllib.request

    def client(port):
        conn = http.client.HTTPConnection("127.0.0.1", port, timeout=20)
        conn.request("POST", "/api/job", JOB, {"X-Api-Key": KEY, "Content-Type": "application/json"})
        conn.getresponse().read()

    def chunks(port):
        conn = http.client.HTTPConnection("127.0.0.1", port, timeout=20)
        conn.request("PUT", "/api/files/local/a.gcode", iter([GCODE[:4], GCODE[4:]]), {"X-Api-Key": KEY},
                     encode_chunked=True)
        conn.getresponse().read()

    def opener(port):
        request = urllib.request.Request(f"http://127.0.0.1:{port}/api/job", JOB.encode(),
                                         {"X-Api-Key": KEY, "Content-Type": "application/json"})
        urllib.request.urlopen(request, timeout=20).read()

    record("http_client_post", client)
    record("http_client_chunks", chunks)
    record("urllib_post", opener)


def record_node():
    fetch = "fetch('http://127.0.0.1:PORT%s', %s).then(r => r.text())"
    post = "{method: 'POST', headers: {'X-Api-Key': '" + KEY + "', 'Content-Type': 'application/json'}, body: '" + JOB + "'}"
    form = ("(() => { const f = new FormData(); f.append('print', 'true');"
            " f.append('file', new Blob(['G28\\n']), 'a.gcode');"
            " return {method: 'POST', headers: {'X-Api-Key': '" + KEY + "'}, body: f}; })()")
    record("fetch_post", run("node", "-e", fetch % ("/api/job", post)))
    record("fetch_upload", run("node", "-e", fetch % ("/api/files/local", form)))


def main():
    os.makedirs(DATA, exist_ok=True)
    with tempfile.TemporaryDirectory() as folder:
        path = os.path.join(folder, "a.gcode")
        with open(path, "wb") as out:
            out.write(GCODE)
        if shutil.which("curl"):
            record_curl(path)
    if shutil.which("wget"):
        record_wget()
    record_python()
    if shutil.which("node"):
        record_node()


if __name__ == "__main__":
    main()
