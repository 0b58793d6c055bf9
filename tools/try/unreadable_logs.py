#!/usr/bin/env python3
"""Logs that can't be read, in the life of an agent.

usage: tools/try/unreadable_logs.py [--program FILE]

A folder, a named pipe and a device at a log's path count as logs that aren't there: a good log beside them is
committed. A log of a rotating class that the agent's user may not read ends the agent before its checkpoint
names it, so that the next start goes on without it. One of the default class ends it at the first read,
behind the checkpoint; the line is taken out again while the log is away, by a control session. The script
prints what became of each, and ends with 1 where it isn't so. It needs root, and `setpriv`.
"""
import os
import shutil
import sys
import tempfile
import time

sys.path.insert(0, os.path.join(os.path.dirname(os.path.abspath(__file__)), "../lib"))

from archive_reader import checkpoint
from running import Process, add_program, asked_at, free_ports, listening, parser_of, program_of

NOBODY = ["setpriv", "--reuid=65534", "--regid=65534", "--clear-groups"]


def started(words, folder, port):
    """An agent whose control door is open, or that ended."""
    process = Process("agent", words, folder)
    end = time.monotonic() + 20
    while process.status() is None and not listening(port) and time.monotonic() < end:
        time.sleep(0.02)
    return process


class Agent:
    def __init__(self, program, folder):
        self.control, door = free_ports(2)
        self.folder, self.door = folder, f"127.0.0.1:{door}"
        self.collector = Process("collector", [*NOBODY, program, "collector", "c1", self.door], folder)
        while not listening(door):
            time.sleep(0.05)
        self.words = [*NOBODY, program, "agent", "--initial", "add", "--control", f"127.0.0.1:{self.control}"]
        self.words += ["--poll", "200", "h1", self.door]

    def add(self, *lines):
        with open(f"{self.folder}/add", "w", encoding="ascii") as file:
            file.write("".join(f"add {line} 0\n" for line in lines))

    def run(self, seconds, *asked):
        """Its status within so many seconds, what it answered, and the streams of its checkpoint."""
        process, said = started(self.words, self.folder, self.control), ""
        try:
            if asked and process.status() is None:
                said = asked_at(self.control, "".join(f"{line}\n" for line in asked))
            end = time.monotonic() + seconds
            while process.status() is None and time.monotonic() < end:
                time.sleep(0.05)
            status = process.status()
        finally:
            process.close()
        rows = checkpoint(self.folder, "h1")
        return status, said, {path: row.offset for path, row in rows.items()}


def tried(what, wanted, got):
    print(f"{what}: {'as it should be' if wanted == got else f'BAD, {got}'}", flush=True)
    return wanted == got


def main():
    parser = parser_of(__doc__)
    add_program(parser)
    program = program_of(parser.parse_args())
    if os.geteuid() != 0 or not shutil.which("setpriv"):
        sys.exit("it wants root and setpriv")
    with tempfile.TemporaryDirectory() as place:
        os.chmod(place, 0o777)
        program = shutil.copy(program, f"{place}/chukwa")
        os.chmod(program, 0o755)
        agent, good = Agent(program, place), True
        logs = [f"{place}/{name}.log" for name in ("good", "folder", "pipe", "closed")]
        for log in (logs[0], logs[3]):
            with open(log, "wb") as file:
                file.write(b"a line\n")
        os.mkdir(logs[1])
        os.mkfifo(logs[2])
        os.chmod(logs[3], 0o600)
        try:
            for kind in ("FileTailingAdaptor", "LWFTAdaptor"):
                agent.add(*(f"{kind} {kind} {log}" for log in [*logs[:3], "/dev/zero"]))
                status, _, held = agent.run(3)
                good &= tried(f"{kind}, no files", (None, 7, 0), (status, held.get(logs[0]), held.get(logs[1])))
            agent.add(f"FileTailingAdaptor Log {logs[3]}")
            status, _, held = agent.run(5)
            good &= tried("a rotating class, unreadable", (3, False), (status, logs[3] in held))
            agent.add()
            good &= tried("the next start", None, agent.run(2)[0])
            agent.add(f"closed = LWFTAdaptor Log {logs[3]}".replace("closed = ", "", 1))
            good &= tried("the default class, unreadable", 3, agent.run(5)[0])
            agent.add()
            good &= tried("the next start", 3, agent.run(5)[0])
            os.rename(logs[3], f"{logs[3]}.away")
            status, said, _ = agent.run(3, "list")
            name = [line.split(" ")[0] for line in said.splitlines() if logs[3] in line]
            good &= tried("a start while the log is away", (None, 1), (status, len(name)))
            status, said, held = agent.run(3, *(f"stop {each}" for each in name))
            good &= tried("its line is taken out", (None, "OK adaptor"), (status, said[:10]))
            os.rename(f"{logs[3]}.away", logs[3])
            good &= tried("the next start", None, agent.run(3)[0])
        finally:
            agent.collector.close()
    return 0 if good else 1


if __name__ == "__main__":
    sys.exit(main())
