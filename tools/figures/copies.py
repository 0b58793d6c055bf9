"""Logs for the figures, and the same bytes written by other programs.

Logs have lines of 100 to 300 bytes with a stamp in front, and here and there a few lines without one after it.
Each block of them begins with its number, so that a block in a wrong place is seen.
"""
import os
import random
import sys

sys.path.insert(0, os.path.join(os.path.dirname(os.path.abspath(__file__)), "../lib"))

from running import MIB, Used

SEED = 7
BLOCK = 4 * MIB
STAMP = b"2010-11-08 09:00:00,001 "
LEVELS = [b"INFO", b"WARN", b"ERROR"]
# What each process of the program may hold, in bytes.
MEMORY_GOAL = 48_000_000
POST = 4_194_304
COMMITTED = """
import os, time
began = time.monotonic()
made, folder = os.open("copied", os.O_WRONLY | os.O_CREAT | os.O_TRUNC), os.open(".", os.O_RDONLY)
for name in sorted(os.listdir("logs")):
    log = os.open("logs/" + name, os.O_RDONLY)
    while os.sendfile(made, log, None, %d):
        os.fsync(made)
        mark = os.open("mark.tmp", os.O_WRONLY | os.O_CREAT | os.O_EXCL)
        os.write(mark, bytes(8))
        os.fsync(mark)
        os.close(mark)
        os.rename("mark.tmp", "mark")
        os.fsync(folder)
    os.close(log)
with open("took", "w") as file:
    file.write(str(time.monotonic() - began))
""" % POST
SENDFILE = """
import os, time
began = time.monotonic()
made = os.open("copied", os.O_WRONLY | os.O_CREAT | os.O_TRUNC)
for name in sorted(os.listdir("logs")):
    log = os.open("logs/" + name, os.O_RDONLY)
    while os.sendfile(made, log, None, 1 << 22):
        pass
    os.close(log)
os.fsync(made)
with open("took", "w") as file:
    file.write(str(time.monotonic() - began))
"""


def record_lines(chance):
    """A line with a stamp, and in one case of eight up to four lines that belong to it."""
    text = bytes(chance.choices(b"abcdefghijklmnopqrstuvwxyz 0123456789", k=chance.randrange(60, 260)))
    made = STAMP + chance.choice(LEVELS) + b" namenode: " + text + b"\n"
    if chance.randrange(8) == 0:
        made += b"\tat a.b.C.d(C.java:10) behind another call of that thread and no other\n" * chance.randrange(1, 5)
    return made


def block():
    """Lines of BLOCK bytes or a little more."""
    chance, made, size = random.Random(SEED), [], 0
    while size < BLOCK:
        made.append(record_lines(chance))
        size += len(made[-1])
    return b"".join(made)


def write_log(path, name, size, lines):
    """A log of so many bytes, which ends with a newline."""
    number = 0
    with open(path, "wb") as log:
        while size > 0:
            piece = STAMP + b"INFO block %012d of %s\n" % (number, name.encode()) + lines
            piece = piece if len(piece) <= size else piece[: size - 1] + b"\n"
            log.write(piece)
            size -= len(piece)
            number += 1


def log_paths(count):
    """Paths of so many logs, which stand in byte order."""
    width = max(2, len(str(count - 1)))
    return [f"logs/{number:0{width}}.log" for number in range(count)]


def write_logs(folder, size, count):
    """So many logs of so many bytes together, and their paths below the folder."""
    os.makedirs(f"{folder}/logs")
    lines, paths = block(), log_paths(count)
    for number, path in enumerate(paths):
        write_log(f"{folder}/{path}", path, size // count + (number < size % count), lines)
    return paths


def shell(folder, words):
    """What a line of the shell takes; it has to end with 0."""
    used = Used(["sh", "-c", words], folder).wait(3600)
    if used.status != 0:
        sys.exit(f"{words}: {used.status}")
    return used


def settled(folder, names):
    """The disk has all that was written, and the memory of the system these files."""
    shell(folder, f"sync -f . && cat {names} >/dev/null")


def removed(folder, *names):
    for name in names:
        os.remove(f"{folder}/{name}")


def timed(folder, loop, *made):
    """A loop in Python over the logs. Its seconds are without the start of Python."""
    used = Used([sys.executable, "-c", loop], folder).wait(3600)
    with open(f"{folder}/took", encoding="ascii") as file:
        used.seconds = float(file.read())
    removed(folder, "took", *made)
    return used


def sent(folder):
    """A loop of sendfile over the logs, and one fsync."""
    return timed(folder, SENDFILE, "copied")


def committed(folder):
    """The same, where each post's bytes are committed before the next ones are written: a sync of them, and a mark that is
    replaced and synced."""
    return timed(folder, COMMITTED, "copied", "mark")


def dumped(folder):
    """`cat` of the logs into `dd` with one fsync."""
    used = shell(folder, "cat logs/*.log | dd of=written bs=4M iflag=fullblock conv=fsync 2>/dev/null")
    removed(folder, "written")
    return used


def share(what, used, other, goal, *others, most=MEMORY_GOAL):
    """How fast it was beside another program, and how much memory it and others held, beside the goals."""
    part = 100 * other.seconds / used.seconds
    speed = "" if goal is None else f" (goal {goal} %: {'met' if part >= goal else 'missed'})"
    peaks = [each.peak * 1024 for each in (used, *others)]
    held = " and ".join(f"{peak / 1e6:.1f}" for peak in peaks)
    memory = f"goal below {most / 1e6:.0f}: {'met' if max(peaks) < most else 'missed'}"
    return f"{what}: {part:.0f} % of its MB/s{speed}; {held} MB held ({memory})"
