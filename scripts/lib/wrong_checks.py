"""Checks of crates by the kit's prover, and the libraries on which they stand, as scripts/wrong needs them."""
import collections
import concurrent.futures
import functools
import hashlib
import importlib.machinery
import importlib.util
import os
import re
import shutil
import signal
import subprocess
import sys
import tempfile
import threading

from wrong_edits import PARTS, text_of

# The memory that a check takes, in bytes.
CHECK = 2_500_000_000


class Stop(Exception):
    """Why nothing can be tried."""


def load_rt():
    """Loads the part of rt that knows the words of rattle's command for a crate."""
    try:
        page = subprocess.run(["rt", "doc"], capture_output=True, text=True, check=True).stdout.strip()
    except (OSError, subprocess.CalledProcessError):
        raise Stop("rt is missing: README.md says which kit this needs") from None
    file = os.path.join(os.path.dirname(page), "bin", "rtlib.py")
    sys.dont_write_bytecode = True
    loader = importlib.machinery.SourceFileLoader("rtlib", file)
    made = importlib.util.module_from_spec(importlib.util.spec_from_loader("rtlib", loader))
    sys.modules["rtlib"] = made
    loader.exec_module(made)
    # A library lies below many crates, and its files don't change meanwhile.
    made.Crate.stamp = functools.cache(made.Crate.stamp)
    made.Crate.below = functools.cache(made.Crate.below)
    return made


def room():
    """Makes the folder of this run's files, which goes when it ends, and removes those of runs that were killed."""
    top = tempfile.gettempdir()
    for it in os.listdir(top):
        of = re.match(r"wrong-(\d+)-", it)
        if of and not os.path.exists(f"/proc/{of[1]}"):
            shutil.rmtree(f"{top}/{it}", ignore_errors=True)
    return tempfile.TemporaryDirectory(prefix=f"wrong-{os.getpid()}-")


Ran = collections.namedtuple("Ran", "status lines seconds")


class Checks:
    """The checks, as many side by side as there are processors and memory for."""

    def __init__(self, rt, jobs, room):
        self.rt, self.room, self.turn, self.running = rt, room, threading.Condition(), 0
        self.pool = concurrent.futures.ThreadPoolExecutor(jobs)

    def __enter__(self):
        return self

    def __exit__(self, *_):
        self.pool.shutdown()

    def run(self, folder, words):
        """Runs rattle in a folder, once more if it was killed, and returns its status, lines and processor time."""
        guarded = getattr(self.rt, "guarded", list)()
        for again in (True, False):
            with self.turn:
                while self.running and free() < CHECK:
                    self.turn.wait(5)
                self.running += 1
            try:
                with tempfile.TemporaryFile("w+", errors="replace") as out:
                    how = {"cwd": folder, "stdin": subprocess.DEVNULL, "stdout": out, "stderr": subprocess.STDOUT}
                    started = subprocess.Popen([*guarded, self.rt.RATTLE, *words], **how)
                    _, ended, used = os.wait4(started.pid, 0)
                    started.returncode = os.waitstatus_to_exitcode(ended)
                    out.seek(0)
                    ran = Ran(started.returncode, out.read().rstrip("\n").split("\n"), used.ru_utime + used.ru_stime)
            finally:
                with self.turn:
                    self.running -= 1
                    self.turn.notify_all()
            if ran.status != -signal.SIGKILL or not again:
                return ran

    def check(self, crate, texts, kept=None):
        """Checks a copy of the crate with these texts in place of its own, over what earlier checks kept in a folder."""
        with tempfile.TemporaryDirectory(dir=self.room) as room:
            for part in PARTS:
                if os.path.isdir(f"{crate.folder}/{part}"):
                    shutil.copytree(f"{crate.folder}/{part}", f"{room}/{part}")
            for path, text in texts.items():
                with open(f"{room}/{path}", "w", encoding="utf-8") as it:
                    it.write(text)
            words = ["check", *crate.words(["--jobs", "1"]), *(["--incremental", kept] if kept else [])]
            return self.run(room, words)


def number_in(file, pattern):
    found = re.search(pattern, text_of(file))
    return int(found[1]) if found else None


def free():
    """Returns the free memory in bytes."""
    found = [1024 * (number_in("/proc/meminfo", r"MemAvailable:\s+(\d+)") or 0)]
    limit = number_in("/sys/fs/cgroup/memory.max", r"^(\d+)")
    held = number_in("/sys/fs/cgroup/memory.stat", r"(?m)^anon (\d+)")
    if limit and held is not None:
        found.append(limit - held)
    return min(found)


def made_after(path, crate):
    """Returns whether a file or folder was made after the last change of the crate's files."""
    made, files = os.stat(path).st_mtime, [f"{crate.folder}/../../crates.txt"]
    for part in PARTS:
        for at, _, names in os.walk(f"{crate.folder}/{part}"):
            files += [at, *[f"{at}/{name}" for name in names]]
    return all(os.stat(it).st_ctime < made for it in files)


def sum_of(file):
    with open(file, "rb") as it:
        return hashlib.sha256(it.read()).hexdigest()


class Libraries:
    """The libraries on which the checks stand: those in crates/*/out if they are of the present files, or else made here."""

    def __init__(self, checks):
        self.checks, self.asked, self.seconds = checks, {}, 0

    def fits(self, crate):
        """Returns whether the library in the crate's out/ is of the present files, over the libraries that are used below it."""
        folder = f"{crate.folder}/out/rlib"
        made = f"{folder}/{crate.name}.rlib"
        try:
            over = dict(re.findall(r"(?m)^over (\S+) (\S+)$", text_of(f"{made}/format")))
            if any(over[it.name] != sum_of(f"{it.rlib}/format") for it in crate.below() if it.name in over):
                return False
            stamp = text_of(f"{folder}/stamp")
            return os.path.isfile(f"{made}/format") and (stamp == crate.stamp() if stamp else made_after(made, crate))
        except OSError:
            return False

    def provide(self, crate):
        """Returns whether there is a library of the crate to stand on, once those below it are there."""
        if any(not self.asked[it.name].result() for it in crate.below()):
            return False
        if self.fits(crate):
            return True
        print(f"{crate.name}: building its library, as crates/*/out has none of these files", flush=True)
        made = f"{self.checks.room}/libraries/{crate.name}/{crate.name}.rlib"
        os.makedirs(os.path.dirname(made))
        ran = self.checks.run(crate.folder, ["build", *crate.words(["--jobs", "1"]), "--statements", "-o", made])
        self.seconds += ran.seconds
        if ran.status:
            print(f"{crate.name}: not proved: {ran.lines[-1]}", flush=True)
            return False
        crate.rlib = made
        return True

    def ask(self, crates):
        """Begins with all that the crates need, lowest first, so that none waits for one that begins later."""
        for it in [below for crate in crates for below in crate.below()]:
            if it.name not in self.asked:
                self.asked[it.name] = self.checks.pool.submit(self.provide, it)

    def are_there(self, crate):
        return all(self.asked[it.name].result() for it in crate.below())

    def is_proved(self, crate):
        """Returns whether what stands in the crate's out/ shows that the present files are proved."""
        if crate.is_program:
            made = f"{crate.folder}/out/{crate.name}"
            return os.path.isfile(made) and made_after(made, crate)
        return self.fits(crate)
