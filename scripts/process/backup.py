"""A backup of the database of a running host: a host over the copy has every change that was answered before. A host that is killed at any
call of a backup leaves its database as it was, and a copy that is whole, or none."""

import os
import shutil
import subprocess
import sys
import tempfile
import threading
import time

sys.path.insert(0, __file__.rsplit("/", 2)[0] + "/lib")
from checking import build, check, end  # noqa: E402
from serving import LIMIT, Host, exchange, free_port, message, until  # noqa: E402

build("octo", "keeper_tool")

TOOL = "crates/keeper_tool/out/keeper_tool"
PATH = "/api/system/commands/core/backup"
# The calls that open, change or sync files; strace passes over one that the system lacks.
CALLS = ("openat", "write", "pwrite64", "ftruncate", "fsync", "fdatasync", "?rename", "renameat", "renameat2", "?unlink", "unlinkat")
# How often a host is killed at one of them at most: a log is written by many.
MOST = 12
# How many records are added before a host is killed by time, so that its backup takes a while.
PRINTS = 5000


def add_user(host, number):
    """Adds a user without the permission SYSTEM, and returns the name if that is answered."""
    name = "user%03d" % number
    user = {"name": name, "key": "%016d" % number, "groups": ["users"]}
    return name if host.post("/api/access/users", user).status == 201 else None


class Users:
    """Users that are added one after the other. Each change of the list is in one of the replies."""

    def __init__(self, host):
        self.host, self.answered, self.ended = host, [], threading.Event()
        self.thread = threading.Thread(target=self.add_all, daemon=True)

    def add_all(self):
        while not self.ended.is_set():
            name = add_user(self.host, len(self.answered))
            if name:
                self.answered.append(name)

    def end(self):
        self.ended.set()
        self.thread.join()


def backup(host):
    return host.post(PATH).status


def users_of(host):
    return [user["name"] for user in host.ask("GET", "/api/access/users").json()["users"]]


def beside(host):
    """The endings of what is beside the database and its log."""
    name = os.path.basename(host.database)
    found = [other[len(name):] for other in os.listdir(host.folder) if other.startswith(name)]
    return sorted(ending for ending in found if ending not in ("", "-wal"))


def taken(host, folder, name):
    """The copy in a folder of its own, where no log is beside it."""
    place = os.path.join(folder, name)
    os.makedirs(place, exist_ok=True)
    return shutil.copy(host.database + ".backup", os.path.join(place, "octo.db"))


def users_in(folder, copy):
    """The users of a host over a copy, whose key is its own."""
    other = Host(os.path.join(folder, "other"), free_port())
    other.database = copy
    other.start()
    try:
        held = users_of(other)
        check("the end of a host over a copy", other.shut_down()[0], 0)
        return held
    finally:
        other.kill()


def is_sound(copy):
    return subprocess.run([TOOL, copy], capture_output=True, timeout=LIMIT).returncode == 0


def restores(folder, host):
    """Backups while users are added: each has those whose reply came before it, and perhaps the one of its moment."""
    users = Users(host)
    users.thread.start()
    until("some users", lambda: len(users.answered) > 3)
    for turn in range(3):
        before = list(users.answered)
        check("a backup while a host runs", backup(host), 204)
        after = len(users.answered)
        copy = taken(host, folder, "copy%d" % turn)
        check("what is beside the database", beside(host), [".backup"])
        check("its mode", oct(os.stat(host.database + ".backup").st_mode & 0o777), "0o600")
        held = users_in(folder, copy)
        whole = held == users.answered[:len(held)] and len(before) <= len(held) <= after + 1
        check("the users of a host over it", whole, True)
    users.end()
    check("the users of the host", users_of(host), users.answered)
    return users.answered


def refused(host):
    """A backup that isn't made leaves the former one as it is."""
    copy = host.database + ".backup"
    was = os.stat(copy)
    check("one by a user without the permission", exchange(host.port, message("POST", PATH, "%016d" % 0)).status, 403)
    check("one by nobody", exchange(host.port, message("POST", PATH, "")).status, 403)
    open(copy + "-wal", "w").close()
    check("one while a log is beside the copy", backup(host), 503)
    check("what is beside the database then", beside(host), [".backup", ".backup-wal"])
    os.remove(copy + "-wal")
    os.mkdir(copy + ".part")
    check("one that can't be written", backup(host), 503)
    os.rmdir(copy + ".part")
    now = os.stat(copy)
    check("the former copy", (now.st_ino, now.st_mtime_ns), (was.st_ino, was.st_mtime_ns))
    check("the next one", backup(host), 204)


def ask_and_lose(host):
    """Asks for a backup of a host that may be killed meanwhile: the status, or None."""
    try:
        return backup(host) or None
    except OSError:
        return None


def after_kill(folder, host, users):
    """Whether a host that was killed during a backup left its database and a whole copy or none; it is started again."""
    host.process.wait()
    left = beside(host)
    sound = ".backup" not in left or is_sound(taken(host, folder, "left"))
    host.start()
    return sound and ".backup-wal" not in left and users_of(host) == users


def cannot_trace():
    """Why no call can be traced on this machine, or None."""
    if not shutil.which("strace"):
        return "strace is missing"
    run = subprocess.run(["strace", "-o", os.devnull, "true"], capture_output=True)
    return None if run.returncode == 0 else "strace may not trace here"


def step_of(call, host):
    """What a traced call is to a backup, or None."""
    part, copy = host.database + ".backup.part", host.database + ".backup"
    if '"HTTP/1.1 204' in call:
        return "reply"
    if not call.endswith(" = 0"):
        return None
    if "sync(" in call:
        return "sync part" if "<%s>" % part in call else "sync folder" if "<%s>" % os.path.dirname(copy) in call else None
    return "rename" if '"%s"' % part in call and '"%s"' % copy in call else None


def syncs(folder, host):
    """The disk has the whole copy before the copy gets its name, and the name before the reply."""
    why = cannot_trace()
    if why:
        print("skipped: the syncs of a backup: " + why, flush=True)
        return
    said = os.path.join(folder, "calls")
    calls = "trace=fsync,fdatasync,?rename,renameat,renameat2,write,sendto,sendmsg"
    tracer = subprocess.Popen(["strace", "-f", "-y", "-s", "16", "-o", said, "-e", calls, "-p", str(host.process.pid)], stderr=subprocess.PIPE)
    # It says so once it is attached.
    tracer.stderr.readline()
    check("a backup whose calls are traced", backup(host), 204)
    tracer.terminate()
    tracer.wait()
    found = [step for step in (step_of(line.rstrip(), host) for line in open(said, errors="replace")) if step]
    check("its last steps", found[-4:], ["sync part", "rename", "sync folder", "reply"])


def killed_at(host, call, number):
    """Kills the host at such a call of this number on the copy, its parts or the folder; returns whether the backup had fewer."""
    paths = [host.database + ending for ending in (".backup", ".backup.part", ".backup.part-wal", ".backup-wal")]
    words = ["strace", "-f", "-o", os.devnull, "-e", "trace=" + call, "-e", "inject=%s:signal=KILL:when=%d" % (call, number)]
    for path in [host.folder, *paths]:
        words += ["-P", path]
    tracer = subprocess.Popen([*words, "-p", str(host.process.pid)], stderr=subprocess.PIPE)
    # It says so once it is attached.
    tracer.stderr.readline()
    status = ask_and_lose(host)
    if status is None:
        host.process.wait()
    else:
        tracer.terminate()
    tracer.wait()
    return status == 204


def kills_at(folder, host, users, call, keeps_copy):
    """Kills the host at each such call of a backup, over a former copy or without: how often, and whether all was as it has to be."""
    sound = True
    for number in range(1, MOST + 1):
        if not keeps_copy and ".backup" in beside(host):
            os.remove(host.database + ".backup")
        if killed_at(host, call, number):
            return number - 1, sound and beside(host) == [".backup"]
        sound = after_kill(folder, host, users) and sound and (not keeps_copy or ".backup" in beside(host))
    return MOST, sound


def killed_at_each_call(folder, host, users):
    """Kills at the calls of a backup, with and without a former copy."""
    why = cannot_trace()
    if why:
        print("skipped: kills at each call of a backup: " + why, flush=True)
        return
    for name, calls, keeps_copy in (("over a former copy", CALLS, True), ("without one", ("fsync", "?rename", "renameat", "renameat2"), False)):
        found = [kills_at(folder, host, users, call, keeps_copy) for call in calls]
        check("kills at %d calls of backups %s" % (sum(count for count, _ in found), name), all(sound for _, sound in found), True)
        check("there are such calls", sum(count for count, _ in found) > 5, True)


def killed_by_time(folder, host, users):
    """A kill at moments of a longer backup."""
    host.shut_down()
    if subprocess.run([TOOL, host.database, "prints", str(PRINTS)], capture_output=True).returncode != 0:
        raise SystemExit("no prints were added")
    host.start()
    begun = time.monotonic()
    check("a backup with %d prints" % PRINTS, backup(host), 204)
    whole = time.monotonic() - begun
    sound = True
    for turn in range(25):
        thread = threading.Thread(target=ask_and_lose, args=(host,))
        thread.start()
        time.sleep(whole * turn / 20)
        host.process.kill()
        thread.join()
        sound = after_kill(folder, host, users) and sound
    check("kills at 25 moments of a backup", sound, True)
    check("the next one", (backup(host), beside(host), is_sound(taken(host, folder, "next"))), (204, [".backup"], True))


def main():
    with tempfile.TemporaryDirectory() as folder:
        host = Host(os.path.join(folder, "host"), free_port()).start()
        try:
            users = restores(folder, host)
            refused(host)
            syncs(folder, host)
            killed_at_each_call(folder, host, users)
            killed_by_time(folder, host, users)
            check("the end of the host", host.shut_down()[0], 0)
        finally:
            host.kill()


if __name__ == "__main__":
    main()
    end()
