#!/usr/bin/env python3
"""Times logs through `drain` or `agent` and a `collector` over 127.0.0.1 into committed sinks, beside copies.

usage: tools/figures.py [--mb N] [--logs N]... [--only drain|agent] [--messages N] [--tenfold] [--loop] [--rounds N]
                        [--pause MS]... [--program FILE]

N megabytes (200) of lines of 100 to 300 bytes stand in logs in a new folder below the current one, which
needs four times the bytes. A `drain` of 1 log, and an `agent` with `--poll 200` over 64 logs, or each of
both over as many as `--logs` says, run beside a collector until all is committed: the drain to its end, the
agent until its checkpoint says so. Then the sinks are closed and archived, and each archive has to be its
log, byte for byte; another one, and another status than 0, ends the script with 1. Beside it `dd conv=fsync`
writes the same bytes from `cat`, a loop of `sendfile` copies them with one `fsync`, and another one with those syncs
that commit each post before the next one is taken, to tell what these cost.

A row has MB/s, seconds, processor seconds and the peak of the resident memory. Goals are told, and don't
change the status: a drain has half of sendfile's MB/s, and each process holds less than 48 MB. An agent
pauses 200 ms after each turn, in which it takes at most 131,072 bytes of a log and posts at most 4,194,304:
its row tells how much of that ceiling it has, and its logs have no more bytes than 15 seconds of it. `--pause MS`
is given to the agent, which then waits so long after a turn in which a log gave 131,072 bytes; there is a row for each.
`--tenfold` drains logs that are ten times as long too, to show that the memory is the same. `--messages N`
is given to the collector, so that one commit stands for up to N posts; where N isn't 1 the rows say so. With `--loop`,
which needs a C compiler `cc`, `tools/figures/post_loop.c` makes the calls on files and sockets of a drain of one log and its
collector too, and nothing else: it tells what these cost by themselves.
"""
import os
import signal
import subprocess
import sys
import tempfile
import time

sys.path.insert(0, os.path.join(os.path.dirname(os.path.abspath(__file__)), "../lib"))

import copies
from archive_reader import Comparison, checkpoint
from running import TOP, Used, add_program, free_ports, listening, load, parser_of, program_of, ran, row

PIECE = 131_072
# A chunk in a post has this and its data, where the path is `logs/00.log`.
CHUNK = 8 + 15 + len("h1" "Log" "logs/00.log")
PAUSE = 200
AGENT_SECONDS = 15
SHARE_GOAL = 50


def ceiling(count, pause):
    """How many bytes an agent may post in a second, which waits so many milliseconds behind a full piece."""
    return min(count, (copies.POST - 4) // (PIECE + CHUNK)) * PIECE * 1000 / pause if pause else float("inf")


class Delivery:
    """A collector that runs beside a drain or an agent over some logs, in one folder."""

    def __init__(self, asked, folder, paths):
        self.program, self.seconds, self.folder, self.paths = asked.program, asked.seconds, folder, paths
        self.options = [] if asked.messages == 1 else ["--messages", str(asked.messages)]
        self.pause = []
        self.size = sum(os.path.getsize(f"{folder}/{path}") for path in paths)
        self.door = f"127.0.0.1:{free_ports(1)[0]}"
        self.collector = self.sender = None
        with open(f"{folder}/add", "w", encoding="ascii") as file:
            file.write("".join(f"add FileTailingAdaptor Log {path} 0\n" for path in paths))

    def open(self):
        self.collector = Used([self.program, "collector", *self.options, "c1", self.door], self.folder)
        while not listening(int(self.door.rpartition(":")[2])):
            self.goes_on(self.collector.look())

    def goes_on(self, is_wrong):
        began = (self.sender or self.collector).began
        if is_wrong or time.monotonic() - began > self.seconds:
            ends = [each and each.status for each in (self.sender, self.collector)]
            sys.exit(f"of {self.size} bytes {self.committed()} were committed: statuses {ends}")
        time.sleep(0.005)

    def committed(self):
        return sum(line.offset for line in checkpoint(self.folder, "h1").values())

    def drain(self):
        words = [self.program, "drain", "--initial", "add", "h1", self.door]
        with open(f"{self.folder}/said", "wb") as said:
            self.sender = Used(words, self.folder, said)
        while not self.sender.look():
            self.goes_on(self.collector.look())
        with open(f"{self.folder}/said", encoding="utf-8") as said:
            printed = said.read()
        wanted = [f"stream h1 Log {path} {os.path.getsize(f'{self.folder}/{path}')}\n" for path in self.paths]
        if self.sender.status != 0 or printed != "".join(wanted):
            sys.exit(f"drain: status {self.sender.status} {printed}")

    def agent(self):
        words = [self.program, "agent", "--initial", "add", "--poll", "200", *self.pause, "h1", self.door]
        self.sender = Used(words, self.folder)
        while self.committed() < self.size:
            self.goes_on(self.sender.look() or self.collector.look())
        took = time.monotonic() - self.sender.began
        self.sender.end()
        self.sender.seconds = took

    def close(self):
        for each in (self.sender, self.collector):
            if each and each.status is None:
                each.end()

    def compare(self):
        """The sinks are closed and archived, and each archive is its log."""
        for words in (["collector", "--turns", "1", "c1", self.door], ["archive"]):
            status, out, error = ran([self.program, *words], self.folder, 600)
            if status != 0:
                sys.exit(f"{words[0]}: {status} {out} {error}")
        logs = {("h1", "Log", path): f"{self.folder}/{path}" for path in self.paths}
        if why := Comparison(self.folder, logs).difference():
            sys.exit(f"an archive isn't its log: {why}")


def delivered(asked, folder, paths, sender, pause=PAUSE):
    """What a delivery took, the sender first."""
    delivery = Delivery(asked, folder, paths)
    delivery.pause = [] if pause == PAUSE else ["--pause", str(pause)]
    try:
        delivery.open()
        sender(delivery)
    finally:
        delivery.close()
    delivery.collector.seconds = delivery.sender.seconds
    delivery.compare()
    return delivery.sender, delivery.collector


def copied(what, size, folder):
    copies.settled(folder, "logs/*.log")
    print(row(f"{what}: cat and dd conv=fsync", size, copies.dumped(folder)))
    sent = copies.sent(folder)
    print(row(f"{what}: sendfile and fsync", size, sent), flush=True)
    each = copies.committed(folder)
    print(row(f"{what}: sendfile, each post committed", size, each))
    print(f"{what}: each post committed: {100 * sent.seconds / each.seconds:.0f} % of sendfile's MB/s", flush=True)
    return sent


def looped(asked, folder, path):
    """What the calls of a drain and its collector take by themselves."""
    with open(f"{folder}/took", "wb") as took:
        used = Used([asked.loop, path, str(asked.messages)], folder, took).wait(3600)
    if used.status != 0:
        sys.exit(f"post_loop: status {used.status}")
    with open(f"{folder}/took", encoding="ascii") as took:
        used.seconds = float(took.read())
    copies.removed(folder, *(name for name in os.listdir(folder) if name.startswith("post_")), "took")
    return used


def sized(size, count):
    return f"{size / 1e6:.0f} MB in {count} log{'s' if count > 1 else ''}"


def served(asked):
    """What the rows of a delivery say of its collector."""
    return "" if asked.messages == 1 else f", {asked.messages} messages a commit"


def drained(asked, size, count):
    what = sized(size, count)
    with tempfile.TemporaryDirectory(dir=".", prefix="figures-") as folder:
        paths = copies.write_logs(folder, size, count)
        sent = copied(what, size, folder)
        loop = looped(asked, folder, paths[0]) if asked.loop and count == 1 else None
        drain, collector = delivered(asked, folder, paths, Delivery.drain)
    what += served(asked)
    if loop:
        print(row(f"{what}: loop of the calls", size, loop))
        print(f"{what}: loop of the calls: {100 * sent.seconds / loop.seconds:.0f} % of sendfile's MB/s")
    print(row(f"{what}: drain", size, drain))
    print(row(f"{what}: its collector", size, collector))
    print(copies.share(f"{what}: drain and sendfile", drain, sent, SHARE_GOAL, collector), flush=True)


def followed(asked, size, count, pause):
    size = min(size, int(min(size, AGENT_SECONDS * ceiling(count, pause))))
    what = sized(size, count)
    with tempfile.TemporaryDirectory(dir=".", prefix="figures-") as folder:
        paths = copies.write_logs(folder, size, count)
        sent = copied(what, size, folder)
        agent, collector = delivered(asked, folder, paths, Delivery.agent, pause)
    what += served(asked) + ("" if pause == PAUSE else f", --pause {pause}")
    print(row(f"{what}: agent", size, agent))
    print(row(f"{what}: its collector", size, collector))
    if pause:
        most = ceiling(count, pause)
        part = 100 * size / agent.seconds / most
        print(f"{what}: agent: {part:.0f} % of the ceiling of {most / 1e6:.1f} MB/s")
    print(copies.share(f"{what}: agent and sendfile", agent, sent, None, collector), flush=True)


def all_rows(asked):
    for count in (asked.logs or [1]) if asked.only != "agent" else []:
        drained(asked, asked.mb * 1_000_000, count)
        if asked.tenfold:
            drained(asked, asked.mb * 10_000_000, count)
    for count in (asked.logs or [64]) if asked.only != "drain" else []:
        for pause in asked.pause or [PAUSE]:
            followed(asked, asked.mb * 1_000_000, count, pause)


def main():
    parser = parser_of(__doc__)
    parser.add_argument("--mb", type=int, default=200, help="megabytes of lines (200)")
    parser.add_argument("--logs", type=int, action="append", help="numbers of logs (drain 1, agent 64)")
    parser.add_argument("--only", choices=["drain", "agent"], help="one of both alone")
    parser.add_argument("--messages", type=int, default=1, help="messages between two commits, up to 64 (1)")
    parser.add_argument("--pause", type=int, action="append", help="an agent's pauses behind full pieces, in ms (200)")
    parser.add_argument("--tenfold", action="store_true", help="a drain of ten times the bytes too")
    parser.add_argument("--loop", action="store_true", help="the same calls by a C loop beside a drain of one log")
    parser.add_argument("--rounds", type=int, default=1, help="runs of each row (1)")
    parser.add_argument("--seconds", type=int, default=200, help="what a delivery may take (200)")
    add_program(parser)
    asked = parser.parse_args()
    asked.program = program_of(asked)
    signal.signal(signal.SIGTERM, lambda *_: sys.exit(143))
    print(load())
    with tempfile.TemporaryDirectory() as made:
        if asked.loop:
            asked.loop = f"{made}/post_loop"
            subprocess.run(["cc", "-O2", "-o", asked.loop, f"{TOP}/tools/figures/post_loop.c"], check=True)
        for _ in range(asked.rounds):
            all_rows(asked)


if __name__ == "__main__":
    main()
