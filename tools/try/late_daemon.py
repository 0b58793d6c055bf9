#!/usr/bin/env python3
"""Rotates a log whose daemon follows late, through an agent, a collector and the job.

usage: tools/try/late_daemon.py [--program FILE] [--delays 0,0.3,1,2] [--rotations N] [--commit MS]

The daemon writes a line each few milliseconds. Each six seconds its log is renamed and a new file is made, as
logrotate does, and the daemon goes on writing into the renamed file until it opens the new one, so many
seconds later. For each delay the script prints how many lines of the log the archive hasn't, and ends with 1
where it isn't the log, byte for byte, or a record is in the sinks more than twice. With `--commit` each commit
of the collector takes so much longer, by `strace`.
"""
import collections
import os
import sys
import tempfile
import threading
import time

sys.path.insert(0, os.path.join(os.path.dirname(os.path.abspath(__file__)), "../lib"))

from archive_reader import Archive, chunks
from running import Process, add_program, free_ports, listening, parser_of, program_of, ran

BETWEEN = 6.0


class Daemon(threading.Thread):
    """It writes lines, and follows each rotation late."""

    def __init__(self, path, delay):
        super().__init__()
        self.path, self.delay, self.wrote, self.ends, self.turned = path, delay, b"", False, 0
        self.file = open(path, "ab", buffering=0)

    def run(self):
        count, follows = 0, None
        while not self.ends or follows is not None:
            line = b"%d of the lines of a daemon that follows late\n" % count
            self.file.write(line)
            self.wrote += line
            count += 1
            if self.turned and follows is None:
                follows, self.turned = time.monotonic() + self.delay, 0
            if follows is not None and time.monotonic() >= follows:
                self.file.close()
                self.file = open(self.path, "ab", buffering=0)
                follows = None
            time.sleep(0.002)
        self.file.close()

    def rotate(self, number):
        os.rename(self.path, f"{self.path}.{20_261_101 + number}")
        open(self.path, "ab").close()
        self.turned = 1


def slowed(words, commit):
    """The words, each of whose three syncs of a commit takes a third of so many milliseconds longer."""
    if not commit:
        return words
    inject = f"inject=fsync:delay_exit={commit * 1000 // 3}"
    return ["strace", "-f", "-o", "/dev/null", "-e", "trace=fsync", "-e", inject, *words]


def most_copies(sinks):
    """How often the record that is there most often is in the closed sinks, and how many are copies."""
    names = [name for name in sorted(os.listdir(sinks)) if name.endswith(".done")]
    found = collections.Counter((c.stream, c.first) for name in names for c in chunks(f"{sinks}/{name}"))
    return max(found.values(), default=0), sum(found.values()) - len(found)


def missing(program, folder, delay, rotations, commit):
    """The bytes of the log, how many of its lines aren't archived behind its end, and the copies in the sinks."""
    path, (port,) = f"{folder}/a.log", free_ports(1)
    daemon = Daemon(path, delay)
    daemon.start()
    words = slowed([program, "collector", "--rotate", "500", "c1", f"127.0.0.1:{port}"], commit)
    collector = Process("collector", words, folder)
    while not listening(port):
        time.sleep(0.05)
    with open(f"{folder}/add", "w", encoding="ascii") as file:
        file.write(f"add FileTailingAdaptor Log {path} 0\n")
    words = [program, "agent", "--initial", "add", "--poll", "300", "h1", f"127.0.0.1:{port}"]
    agent = Process("agent", words, folder)
    try:
        time.sleep(1)
        for number in range(rotations):
            daemon.rotate(number)
            time.sleep(max(BETWEEN, delay + 4))
        daemon.ends = True
        daemon.join()
        time.sleep(5)
        told = agent.notices()
        agent.kill()
        ran([program, "drain", "h1", f"127.0.0.1:{port}"], folder)
        collector.kill()
        ran([program, "collector", "--turns", "1", "c1", f"127.0.0.1:{port}"], folder)
        most, copies = most_copies(f"{folder}/sinks")
        ran([program, "archive"], folder)
        kept = Archive(folder).bytes_of(("h1", "Log", path))
        lost = len(set(daemon.wrote.split(b"\n")) - set(kept.split(b"\n")))
        print(f"{delay} s late: {lost} lines lost, {len(daemon.wrote)} bytes written, archive whole: "
              f"{kept == daemon.wrote}; {copies} records again in the sinks, one of them {most} times", flush=True)
        return kept == daemon.wrote and most <= 2, told
    finally:
        for each in (agent, collector):
            each.close()


def main():
    parser = parser_of(__doc__)
    parser.add_argument("--delays", default="0,0.3,1,2", help="the seconds after which it follows")
    parser.add_argument("--rotations", type=int, default=3)
    parser.add_argument("--commit", type=int, default=0, help="so many milliseconds longer a commit takes")
    add_program(parser)
    asked = parser.parse_args()
    program, whole = program_of(asked), True
    for delay in map(float, asked.delays.split(",")):
        with tempfile.TemporaryDirectory() as folder:
            good, told = missing(program, folder, delay, asked.rotations, asked.commit)
        whole &= good
        for line in told:
            print(f"  {line}")
    return 0 if whole else 1


if __name__ == "__main__":
    sys.exit(main())
