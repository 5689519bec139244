"""Makes the messages of bench/http.sh in a folder, and runs the two programs over them by turns."""

import os
import statistics
import sys
import time

PROGRAM, FOLDER, MIB, RUNS = sys.argv[1], sys.argv[2], int(sys.argv[3]), int(sys.argv[4])
PLAIN = os.path.join(FOLDER, "plain_read")
SIZE = MIB << 20
HEAD_RUNS = 20 * RUNS
LINE = b"POST /api/files/local HTTP/1.1\r\nX-Api-Key: 0123456789abcdef\r\n"


def moves(size):
    """Lines of a print, this many bytes in all."""
    lines = b"".join(b"G1 X%d.%03d Y%d.%03d E0.%05d\n" % (n % 200, n % 1000, n % 180, n % 997, n) for n in range(40000))
    return (lines * (size // len(lines) + 1))[:size]


def write(path, *parts):
    with open(path, "wb") as out:
        out.writelines(parts)


def by_length(path):
    write(path, LINE, b"Content-Length: %d\r\n\r\n" % SIZE, moves(SIZE))


def in_chunks(path):
    body = moves(SIZE)
    chunks = (b"1000\r\n" + body[at:at + 4096] + b"\r\n" for at in range(0, SIZE, 4096))
    write(path, LINE, b"Transfer-Encoding: chunked\r\n\r\n", *chunks, b"0\r\n\r\n")


def form(path):
    """A form whose file has, every 4,096 bytes, a line that begins as a delimiter and goes on otherwise."""
    near = b"\r\n--XYXYXYXYXYXYXYXYZ"
    piece = moves(4096 - len(near)) + near
    head = b'--XYXYXYXYXYXYXYXY\r\nContent-Disposition: form-data; name="file"; filename="a.gcode"\r\n\r\n'
    end = b"\r\n--XYXYXYXYXYXYXYXY--\r\n"
    body = head + (piece * (SIZE // 4096)) + end
    kind = b"Content-Type: multipart/form-data; boundary=XYXYXYXYXYXYXYXY\r\n"
    write(path, LINE, kind, b"Content-Length: %d\r\n\r\n" % len(body), body)


def dashes(path):
    """A form whose file is nothing but the beginning of a delimiter."""
    near = b"\r\n--XYXYXYXYXYXYXY"
    head = b'--XYXYXYXYXYXYXYXY\r\nContent-Disposition: form-data; name="file"; filename="a.gcode"\r\n\r\n'
    body = head + (near * (SIZE // len(near))) + b"\r\n--XYXYXYXYXYXYXYXY--\r\n"
    kind = b"Content-Type: multipart/form-data; boundary=XYXYXYXYXYXYXYXY\r\n"
    write(path, LINE, kind, b"Content-Length: %d\r\n\r\n" % len(body), body)


def long_head(path):
    """A message without a body whose head has 62 fields and 16,384 bytes."""
    fields = [b"X-%02d: %s\r\n" % (n, b"v" * 250) for n in range(60)]
    head = LINE + b"".join(fields)
    last = b"X-Last: " + b"v" * (16384 - len(head) - 12) + b"\r\n\r\n"
    write(path, head, last)


def made(make):
    """The file of a message. Another process makes it, since the memory of this one would count as that of the programs."""
    path = os.path.join(FOLDER, make.__name__)
    pid = os.fork()
    if pid == 0:
        make(path)
        os._exit(0)
    if os.waitpid(pid, 0)[1]:
        sys.exit("not made: " + path)
    return path


def run(*words):
    """Seconds of the clock and of the processor, and the greatest memory in KiB, of a program that writes to nowhere."""
    actions = [(os.POSIX_SPAWN_OPEN, 1, "/dev/null", os.O_WRONLY, 0)]
    began = time.perf_counter()
    pid = os.posix_spawn(words[0], words, os.environ, file_actions=actions)
    _, status, used = os.wait4(pid, 0)
    taken = time.perf_counter() - began
    if status:
        sys.exit("a run failed: %s" % " ".join(words))
    return taken, used.ru_utime + used.ru_stime, used.ru_maxrss


def shown(figures, words):
    taken, processor, memory = figures
    print("%8.4f s, %8.4f s of the processor, %7d KiB: %s" % (taken, processor, memory, " ".join(words)))


def in_turn(name, commands):
    """Each command once in a round."""
    print("%s; load %s" % (name, open("/proc/loadavg").read().split()[0]))
    for _ in range(RUNS):
        for words in commands:
            shown(run(*words), [os.path.basename(word) for word in words])


def medians(name, commands):
    """The medians of many rounds, of runs that are short."""
    print("%s, medians of %d; load %s" % (name, HEAD_RUNS, open("/proc/loadavg").read().split()[0]))
    figures = [[run(*words) for words in commands] for _ in range(HEAD_RUNS)]
    for words, column in zip(commands, zip(*figures)):
        shown([statistics.median(kind) for kind in zip(*column)], [os.path.basename(word) for word in words])


def main():
    for name, make, how in [
        ("a body by its length", by_length, []),
        ("a body in chunks", in_chunks, []),
        ("a form with text that looks like its boundary", form, ["parts"]),
        ("a form of nothing but the beginning of its boundary", dashes, ["parts"]),
    ]:
        path = made(make)
        in_turn(name, [[PROGRAM, path] + how, [PLAIN, path, "4096"]])
        os.remove(path)
    path = made(long_head)
    medians("a head of %d bytes at once" % os.path.getsize(path), [[PROGRAM, path], [PLAIN, path, "4096"]])
    medians("the same byte by byte", [[PROGRAM, path, "bytes"], [PLAIN, path, "1"]])
    print("aims: 0.3 s for each body of 64 MiB, 0.005 s for the head byte by byte")


if __name__ == "__main__":
    main()
