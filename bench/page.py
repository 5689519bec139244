"""Pages in a browser beside a print: what they cost the host, and what another caller and the printer notice of them.

bench/page.py [SECONDS] [ROUNDS] [--browser], 20 and 3 if none are given

The printer is marlin_sim at the pace of 250,000 baud. In each round the host prints without a page, and then with four. A page is a process
that asks what web/index.html asks, at its times; with --browser it is a window of headless Chromium (the packages: scripts/browser).
Another caller asks for the job twenty times a second. The program is the one that `scripts/build octo` leaves.
"""

import json
import multiprocessing
import os
import shutil
import socket
import statistics
import sys
import time

TOP = os.path.join(os.path.dirname(os.path.abspath(__file__)), "..")
os.chdir(TOP)
sys.path.insert(0, "scripts/lib")
from serving import Host, Printer, exchange, message, until, with_folder  # noqa: E402

NUMBERS = [word for word in sys.argv[1:] if word.isdigit()]
SECONDS = int(NUMBERS[0]) if NUMBERS else 20
ROUNDS = int(NUMBERS[1]) if NUMBERS[1:] else 3
BROWSER = "--browser" in sys.argv
PAGES = 4
# At 250,000 baud a byte takes ten bits.
BYTES_A_SECOND = 25_000
# As the page's EVERY has it, in seconds.
EVERY = {"/api/version": 600, "/api/connection": 15, "/api/files": 10, "/api/access/users": 20, "/api/queue": 5, "/api/prints": 10}
LONG = b"".join(b"G1 X%d Y%d E%d.5\n" % (n % 200, n * 7 % 200, n) for n in range(1500000))


def pace(listener, printer_port, lines, gap):
    """Hands each byte on at the line's pace, both ways, and notes the lines and the longest gap between two at the printer."""
    host, _ = listener.accept()
    printer = socket.create_connection(("127.0.0.1", printer_port))
    for conn in (host, printer):
        conn.setsockopt(socket.IPPROTO_TCP, socket.TCP_NODELAY, 1)
    multiprocessing.Process(target=hand_on, args=(printer, host, None, None), daemon=False).start()
    hand_on(host, printer, lines, gap)


def hand_on(source, target, lines, gap):
    held, due, last = b"", time.monotonic(), None
    while True:
        try:
            part = source.recv(65536)
        except ConnectionResetError:
            # The host was ended in its print.
            return
        if not part:
            return
        held += part
        while b"\n" in held:
            line, held = held.split(b"\n", 1)
            due = max(due, time.monotonic()) + (len(line) + 1) / BYTES_A_SECOND
            time.sleep(max(0, due - time.monotonic()))
            target.sendall(line + b"\n")
            if lines is not None:
                now = time.monotonic()
                lines.value += 1
                if last:
                    gap.value = max(gap.value, now - last)
                last = now


def page(port, key, end, asked):
    """Asks what a page in sight asks, one request after the other."""
    due = {}

    def ask(path):
        asked.value += 1
        return exchange(port, message("GET", path, key)).status

    ask("/")
    while not end.is_set():
        began = time.monotonic()
        for path in ("/api/job", "/api/printer"):
            ask(path)
        for path, seconds in EVERY.items():
            if due.get(path, 0) <= time.monotonic():
                due[path] = time.monotonic() + seconds
                ask(path)
        end.wait(max(0.2, 1 - (time.monotonic() - began)))


class Pages:
    """Four pages: processes, or windows of a browser."""

    def __init__(self, host):
        self.asked = multiprocessing.Value("i", 0)
        self.end = multiprocessing.Event()
        self.all = [multiprocessing.Process(target=page, args=(host.port, host.key, self.end, self.asked)) for _ in range(PAGES)]
        for one in self.all:
            one.start()

    def stop(self):
        self.end.set()
        for one in self.all:
            one.join()
        return "%d asks" % self.asked.value


class Windows:
    """Four windows of one headless Chromium, all in sight."""

    def __init__(self, host):
        from selenium import webdriver
        from selenium.webdriver.chrome.service import Service
        from selenium.webdriver.common.by import By
        options = webdriver.ChromeOptions()
        for word in ("--headless=new", "--no-sandbox", "--disable-gpu", "--disable-dev-shm-usage"):
            options.add_argument(word)
        self.web = webdriver.Chrome(options=options, service=Service(shutil.which("chromedriver")))
        for number in range(PAGES):
            if number:
                self.web.switch_to.new_window("window")
            self.web.get("http://127.0.0.1:%d/" % host.port)
            self.web.find_element(By.ID, "key").send_keys(host.key + "\n")
        time.sleep(3)

    def stop(self):
        seen = []
        for window in self.web.window_handles:
            self.web.switch_to.window(window)
            seen.append(self.web.execute_script("return [document.visibilityState, document.getElementById('percent').textContent,"
                                                " performance.getEntriesByType('resource').length]"))
        self.web.quit()
        return "shown, with the asks that each remembers: %r" % seen


def processor(pid):
    words = open("/proc/%d/stat" % pid).read().rsplit(")", 1)[1].split()
    return (int(words[11]) + int(words[12])) / os.sysconf("SC_CLK_TCK")


def watch(host, lines, gap):
    """Another caller's waits, and what the host and the printer do meanwhile."""
    waits = []
    cpu, began, count = processor(host.process.pid), time.monotonic(), lines.value
    gap.value = 0
    while time.monotonic() < began + SECONDS:
        asked = time.monotonic()
        assert host.ask("GET", "/api/job").status == 200
        waits.append(time.monotonic() - asked)
        time.sleep(max(0, 0.05 - waits[-1]))
    took = time.monotonic() - began
    waits.sort()
    return (
        100 * (processor(host.process.pid) - cpu) / took, (lines.value - count) / took, gap.value * 1000,
        statistics.median(waits) * 1000, waits[len(waits) * 99 // 100] * 1000, waits[-1] * 1000,
    )


def run(folder):
    printer = Printer(folder)
    listener = socket.create_server(("127.0.0.1", 0))
    lines, gap = multiprocessing.Value("i", 0), multiprocessing.Value("d", 0)
    multiprocessing.Process(target=pace, args=(listener, printer.port, lines, gap)).start()
    host = Host(folder, listener.getsockname()[1]).start()
    form = "%-11s %5.1f %% of a core, %4.0f lines a second, longest gap %4.0f ms; the other caller waits %.1f ms, p99 %.1f ms, most %.0f ms"
    rows = {"without": [], "with": []}
    try:
        host.connect()
        reply = host.upload("long.gcode", LONG, True)
        assert reply.json()["effectivePrint"], reply.body
        host.until_state("Printing")
        time.sleep(2)
        for _ in range(ROUNDS):
            rows["without"].append(watch(host, lines, gap))
            print(form % ("no page:", *rows["without"][-1]), flush=True)
            pages = Windows(host) if BROWSER else Pages(host)
            time.sleep(1)
            rows["with"].append(watch(host, lines, gap))
            print(form % ("four pages:", *rows["with"][-1]), pages.stop(), open("/proc/loadavg").read().split()[0], flush=True)
        for name, found in rows.items():
            print("median, " + form % (name + ":", *(statistics.median(column) for column in zip(*found))))
    finally:
        host.kill()
        printer.kill()


if __name__ == "__main__":
    multiprocessing.set_start_method("fork")
    with_folder(run)
