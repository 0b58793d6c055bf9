#!/usr/bin/env python3
"""Kills the writer of datagrams at random, tries `logger` and rsyslog as senders, and tells how many it takes a second.

usage: tools/try/datagrams.py [--count N] [--kills N] [--seed N] [--rate N] [--messages N] [--senders] [--figures] [--program FILE]

In a new folder below the current one, `udp` runs as a program on 127.0.0.1 while N numbered datagrams (20,000) come. It
is killed with SIGKILL N times (300) at random, and started again. At each kill, what is marked (the closed buffers, and
of the open one as much as its mark says) has to begin with what was marked at the kill before, and the numbers in it
have to rise: nothing that was marked is lost, doubled or in a wrong place. Meanwhile rounds take the closed buffers into
the archive as a log with rotated generations, through a FileTailingAdaptor that was added before the first datagram. At
the end the archive of that log has to be all that was marked. Then `logger --udp` and an rsyslogd of its own, where they
are there, send numbered lines, and each has to be marked once, in order; with --senders that is all that is tried. With
--figures it tells, in place of all that, at how many datagrams a second of 200 bytes none is lost, with 1 and with 64 a
commit, beside a C loop that takes, appends, syncs and renames in the same way. It ends with 1 where something is wrong.
Datagrams that the machine drops, as those that come while no writer runs, are only counted.
"""
import glob
import os
import random
import shutil
import socket
import subprocess
import sys
import tempfile
import time

sys.path.insert(0, os.path.join(os.path.dirname(os.path.abspath(__file__)), "../lib"))

from archive_reader import Archive
from running import TOP, Process, add_program, free_ports, load, parser_of, program_of, ran, taking

NAME = "u1"
LOG = f"wahead/{NAME}"
STREAM = ("h1", "Log", LOG)
SIZE = 200


def contents(name):
    try:
        with open(name, "rb") as file:
            return file.read()
    except FileNotFoundError:
        return None


def marked(folder):
    """What is marked: the closed buffers in order of their numbers, and the marked front of the open one."""
    closed = sorted(glob.glob(f"{folder}/{LOG}-*"))
    text = b"".join(contents(name) for name in closed)
    buffer, mark = contents(f"{folder}/{LOG}.buf"), contents(f"{folder}/{LOG}.mark")
    if buffer is None or mark is None:
        return text
    return text + buffer[: int.from_bytes(mark, "big")]


class Writer:
    """A run of `udp` that goes on beside the script."""

    def __init__(self, given, folder, port, *options):
        self.words = [given.program, "udp", *options, NAME, f"127.0.0.1:{port}"]
        self.folder, self.port = folder, port
        self.start()

    def start(self):
        self.run = Process("udp", self.words, self.folder)
        end = time.monotonic() + 20
        while not taking(self.port) and time.monotonic() < end:
            if self.run.status() is not None:
                raise RuntimeError(f"udp ended: {self.run.printed()}{self.run.error()}")
            time.sleep(0.002)

    def kill(self):
        if self.run.status() is not None:
            raise RuntimeError(f"udp ended: {self.run.printed()}{self.run.error()}")
        self.run.close()


def numbers(text):
    """The numbers of the lines; each line has to be a whole one."""
    found = []
    for line in text.split(b"\n")[:-1]:
        number, filler = line.split(b" ")
        if filler.strip(b"x"):
            raise ValueError(line)
        found.append(int(number))
    if text and not text.endswith(b"\n"):
        raise ValueError("the last line isn't whole")
    return found


def round_of(given, folder):
    status, printed, error = ran([given.program, "round", "--class", "FileTailingAdaptor", *STREAM], folder, 300)
    if status != 0:
        raise RuntimeError(f"round ended with {status}: {printed}{error}")


def kills(given, folder, chance):
    """Datagrams while the writer is killed; what went wrong, none where nothing did."""
    port = free_ports(1)[0]
    round_of(given, folder)
    sender = socket.socket(socket.AF_INET, socket.SOCK_DGRAM)
    writer = Writer(given, folder, port, "--rotate", "20000", "--messages", str(given.messages))
    moments = sorted(chance.randrange(given.count) for _ in range(given.kills))
    earlier, rounds, number = b"", 0, 0
    while number < given.count:
        while moments and moments[0] <= number:
            moments.pop(0)
            time.sleep(chance.random() * 0.01)
            writer.kill()
            now = marked(folder)
            if not now.startswith(earlier):
                return f"what was marked before {number} isn't there any more"
            earlier = now
            writer.start()
        try:
            sender.sendto(f"{number} {'x' * chance.randrange(1, 300)}\n".encode(), ("127.0.0.1", port))
        except ConnectionRefusedError:
            pass
        number += 1
        if chance.random() < 0.1:
            time.sleep(chance.random() * 20 / given.rate)
        if number % (given.count // 4) == 0:
            round_of(given, folder)
            rounds += 1
    writer.kill()
    status, printed, error = ran([given.program, "udp", "--turns", "1", NAME, f"127.0.0.1:{port}"], folder)
    if status != 0:
        return f"the last start ended with {status}: {printed}{error}"
    round_of(given, folder)
    text = marked(folder)
    if not text.startswith(earlier):
        return "what was marked before the last start isn't there any more"
    found = numbers(text)
    if any(a >= b for a, b in zip(found, found[1:])):
        return "a datagram is doubled or in a wrong place"
    stored = Archive(folder).bytes_of(STREAM)
    if stored != text:
        return f"the archive has {len(stored)} bytes, and {len(text)} are marked"
    sys.stdout.write(
        f"kills {given.kills}, datagrams {given.count}, marked {len(found)}, "
        f"buffers {len(glob.glob(f'{folder}/{LOG}-*'))}, rounds {rounds + 2}\n"
    )
    return None


LINES = [f"line {number} of a real sender" for number in range(50)]

# A rsyslogd of its own: it reads a file, and forwards each line in a datagram. The template ends the line, since a
# datagram is written as it comes, and the usual ones have no newline at their end.
RSYSLOG = """global(workDirectory="{folder}")
module(load="imfile")
template(name="line" type="string" string="<%pri%>%timestamp% %hostname% %syslogtag%%msg%\\n")
ruleset(name="forward") {{ action(type="omfwd" target="127.0.0.1" port="{port}" protocol="udp" template="line") }}
input(type="imfile" file="{folder}/lines" tag="lines: " ruleset="forward")
"""


def by_logger(port, folder):
    for line in LINES:
        subprocess.run(["logger", "--udp", "--server", "127.0.0.1", "--port", str(port), line], check=True)
    time.sleep(1.5)


def by_rsyslog(port, folder):
    with open(f"{folder}/lines", "w", encoding="ascii") as file:
        file.write("".join(f"{line}\n" for line in LINES))
    with open(f"{folder}/rsyslog.conf", "w", encoding="ascii") as file:
        file.write(RSYSLOG.format(folder=folder, port=port))
    words = ["rsyslogd", "-n", "-i", f"{folder}/rsyslog.pid", "-f", f"{folder}/rsyslog.conf"]
    daemon = Process("rsyslogd", words, folder)
    time.sleep(4)
    daemon.close()


def real_sender(given, folder, program, send):
    """Lines of this program; what went wrong, none where nothing did."""
    if not shutil.which(program):
        sys.stdout.write(f"{program} isn't here: skipped\n")
        return None
    port = free_ports(1)[0]
    writer = Writer(given, folder, port)
    send(port, folder)
    writer.kill()
    text = marked(folder).decode()
    places = [text.find(line) for line in LINES]
    if -1 in places or places != sorted(places) or text.count("of a real sender") != len(LINES):
        return f"a line of {program} is lost, doubled or in a wrong place"
    if program == "rsyslogd" and len(text.splitlines()) != len(LINES):
        return f"{program} sent {len(text.splitlines())} lines in place of {len(LINES)}"
    sys.stdout.write(f"{program}: {len(LINES)} lines, each marked once, in order; the first one: {text[:90]!r}\n")
    return None


def send_at(rate, seconds, port):
    """Sends datagrams at this rate for so long, and tells how many."""
    sender = socket.socket(socket.AF_INET, socket.SOCK_DGRAM)
    payload, began, sent = b"y" * (SIZE - 1) + b"\n", time.monotonic(), 0
    while (gone := time.monotonic() - began) < seconds:
        while sent < gone * rate:
            sender.sendto(payload, ("127.0.0.1", port))
            sent += 1
        time.sleep(0.0005)
    return sent


def loses(given, folder, rate, messages, loop):
    """Whether datagrams are lost at this rate, at each of two tries: a disk that stalls once tells nothing."""
    return all(loses_once(given, folder, rate, messages, loop) for _ in range(2))


def loses_once(given, folder, rate, messages, loop):
    port, below = free_ports(1)[0], tempfile.mkdtemp(dir=folder)
    if loop:
        run = Process("loop", [loop, str(port), str(messages), "4", below], below)
        time.sleep(0.3)
        sent = send_at(rate, 2, port)
        run.wait(20)
        taken = int(run.printed().split()[0])
        run.close()
    else:
        writer = Writer(given, below, port, "--messages", str(messages))
        sent = send_at(rate, 2, port)
        end, taken = time.monotonic() + 5, 0
        while taken < sent and time.monotonic() < end:
            time.sleep(0.2)
            taken = len(marked(below)) // SIZE
        writer.kill()
    shutil.rmtree(below)
    return taken < sent


def figures(given, folder):
    loop = f"{folder}/datagram_loop"
    subprocess.run(["cc", "-O2", "-o", loop, f"{TOP}/tools/figures/datagram_loop.c"], check=True)
    for messages in (1, 64):
        for what, program in (("udp", None), ("C loop", loop)):
            low, high = 0, 200
            while high <= 200_000 and not loses(given, folder, high, messages, program):
                low, high = high, high * 2
            for _ in range(4):
                middle = (low + high) // 2
                if loses(given, folder, middle, messages, program):
                    high = middle
                else:
                    low = middle
            sys.stdout.write(f"{what}, {messages} a commit: {low} datagrams a second of {SIZE} bytes without loss ({load()})\n")
            sys.stdout.flush()
    return None


def main():
    parser = parser_of(__doc__)
    parser.add_argument("--count", type=int, default=20_000, help="datagrams (20,000)")
    parser.add_argument("--kills", type=int, default=300, help="how often the writer is killed (300)")
    parser.add_argument("--seed", type=int, default=random.SystemRandom().randrange(1 << 32), help="of what is random")
    parser.add_argument("--rate", type=int, default=500, help="datagrams a second, in bursts of some ten (500)")
    parser.add_argument("--messages", type=int, default=1, help="datagrams a commit (1)")
    parser.add_argument("--senders", action="store_true", help="only the programs that send syslog")
    parser.add_argument("--figures", action="store_true", help="figures in place of tries")
    add_program(parser)
    given = parser.parse_args()
    given.program = program_of(given)
    folder = tempfile.mkdtemp(prefix="datagrams.", dir=".")
    folder = os.path.abspath(folder)
    sys.stdout.write(f"seed {given.seed}, {load()}\n")
    wrong = []
    try:
        if given.figures:
            figures(given, folder)
        else:
            parts = [
                lambda below: kills(given, below, random.Random(given.seed)),
                lambda below: real_sender(given, below, "logger", by_logger),
                lambda below: real_sender(given, below, "rsyslogd", by_rsyslog),
            ]
            for part in parts[1:] if given.senders else parts:
                below = tempfile.mkdtemp(dir=folder)
                why = part(below)
                if why:
                    wrong.append(why)
                    sys.stdout.write(f"wrong: {why}\n")
    finally:
        shutil.rmtree(folder, ignore_errors=True)
    return 1 if wrong else 0


if __name__ == "__main__":
    sys.exit(main())
