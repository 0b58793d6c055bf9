#!/usr/bin/env python3
"""Tries a collector's door with busy senders on a slow disk, with a slow sender, and without descriptors.

usage: tools/figures.py door [--seconds N] [--half-close] [--program FILE] [CASE..]

Each case runs one collector in a new folder below the current one:

  busy         64 senders post short chunks, each again and again until it is answered within 2 s, while each
               commit takes 35 ms more (`strace` delays the syncs); `--senders` and `--delay` change both
  slow         five senders of short posts, without and beside one that sends 4 MB at 250 kB/s
  silent       five senders beside 100 peers that send nothing, where the collector has 64 descriptors
  stopped      five senders, while the collector is stopped for 50 ms and goes on, four times a second

A row has how many posts were answered in so many seconds (10; 40 for `busy`), the median and the longest wait for
an answer, and how many records of the sinks are copies, since their senders weren't answered in time. With
`--half-close` a sender ends its side after its post, as other senders do. The script ends with 1 where an answered
post isn't in the sinks, the collector ended, or five senders had fewer than 9 of 10 of the answers that they
have alone. `busy` needs `strace`.
"""
import asyncio
import os
import resource
import signal
import socket
import sys
import tempfile
import time

sys.path.insert(0, os.path.join(os.path.dirname(os.path.abspath(__file__)), "../lib"))

from archive_reader import chunks
from posts import HEAD, post
from running import Process, add_program, free_ports, listening, load, parser_of, program_of, ran

# How long an agent waits for an answer, in seconds.
PATIENCE = 2.0


class Senders:
    """Senders that post to one port until a moment, each its next chunk once the one before is answered."""

    def __init__(self, asked, port, seconds):
        self.half_close, self.port = asked.half_close, port
        self.until, self.waits, self.answered = time.monotonic() + seconds, [], set()

    async def answer(self, request):
        reader, writer = await asyncio.open_connection("127.0.0.1", self.port)
        try:
            writer.write(request)
            if self.half_close:
                writer.write_eof()
            return await asyncio.wait_for(reader.read(), PATIENCE)
        finally:
            writer.close()

    async def send(self, name):
        number = 0
        while time.monotonic() < self.until:
            began = time.monotonic()
            try:
                answer = await self.answer(post(name, number))
            except (OSError, asyncio.TimeoutError):
                await asyncio.sleep(0.02)
                continue
            if answer.startswith(b"HTTP/1.1 200 "):
                self.waits.append(time.monotonic() - began)
                self.answered.add((f"/{name}.log", number * 100))
                number += 1

    async def drip(self):
        """Sends a long post at 250 kB/s, again and again."""
        while time.monotonic() < self.until:
            try:
                _, writer = await asyncio.open_connection("127.0.0.1", self.port)
                writer.write(HEAD.format(4_000_000).encode())
                while time.monotonic() < self.until:
                    writer.write(b"x" * 25_000)
                    await writer.drain()
                    await asyncio.sleep(0.1)
                writer.close()
            except OSError:
                await asyncio.sleep(0.1)

    async def all(self, count, door, beside=None):
        work = [self.send(n) for n in range(count)] + ([beside(self, door)] if beside else [])
        await asyncio.gather(door.end(self.until), *work)


class Door:
    """A collector in a folder of its own."""

    def __init__(self, asked, tracer=(), descriptors=0):
        self.asked, self.descriptors = asked, descriptors
        self.room = tempfile.TemporaryDirectory(dir=".", prefix="door-")
        self.port = free_ports(1)[0]
        self.words = [asked.program, "collector", "c1", f"127.0.0.1:{self.port}"]
        self.process = Process("collector", [*tracer, *self.words], self.room.name)
        while not listening(self.port):
            if self.process.status() is not None:
                sys.exit(f"the collector ended: {self.process.error()}")
            time.sleep(0.01)
        if descriptors:
            limit = (descriptors, descriptors)
            resource.prlimit(self.process.child.pid, resource.RLIMIT_NOFILE, limit)

    async def end(self, until):
        """Kills the collector at that moment, so that it serves nobody who has gone behind it."""
        await asyncio.sleep(until - time.monotonic())
        ended = self.process.status()
        self.process.close()
        if ended is not None:
            sys.exit(f"the collector ended with {ended}")

    def stored(self):
        """The places of all records of the sinks, behind the collector's end."""
        words = [self.asked.program, "collector", "--turns", "1", *self.words[2:]]
        status, _, error = ran(words, self.room.name)
        if status != 0:
            sys.exit(f"collector: {status} {error}")
        sinks = f"{self.room.name}/sinks"
        found = [
            (chunk.stream[2], chunk.first)
            for name in sorted(os.listdir(sinks))
            if name.endswith(".done")
            for chunk in chunks(f"{sinks}/{name}")
        ]
        self.room.cleanup()
        return found


def shown(what, door, senders, seconds):
    """A row; it tells how many posts were answered a second."""
    found = door.stored()
    kept, waits = set(found), sorted(senders.waits) or [0]
    print(
        f"{what}: {len(senders.waits)} answers in {seconds:.0f} s, median {1000 * waits[len(waits) // 2]:.0f} ms, "
        f"longest {1000 * waits[-1]:.0f} ms, {len(found) - len(kept)} copies",
        flush=True,
    )
    # The last turn may be cut.
    if len(senders.answered - kept) > 1:
        sys.exit(f"{len(senders.answered - kept)} answered posts are not in the sinks")
    return len(senders.waits) / seconds


def run_senders(asked, what, door, count, seconds, beside=None):
    senders = Senders(asked, door.port, seconds)
    asyncio.run(senders.all(count, door, beside))
    return shown(what, door, senders, seconds)


def busy(asked):
    delay = int(asked.delay * 1000 / 3)
    tracer = ["strace", "-f", "--seccomp-bpf", "-qq", "-o", "/dev/null", "-e", "trace=fsync,fdatasync"]
    tracer += ["-e", f"inject=fsync,fdatasync:delay_enter={delay}"]
    what = f"busy, {asked.senders} senders, {asked.delay:.0f} ms a commit"
    run_senders(asked, what, Door(asked, tracer), asked.senders, asked.seconds or 40)


async def drips(senders, _door):
    await senders.drip()


async def stays_silent(senders, door):
    held = []
    for _ in range(100):
        peer = socket.socket()
        peer.setblocking(False)
        peer.connect_ex(("127.0.0.1", door.port))
        held.append(peer)
        await asyncio.sleep(0.01)
    await asyncio.sleep(max(0, senders.until - time.monotonic()))
    for peer in held:
        peer.close()


async def stops(senders, door):
    while time.monotonic() < senders.until - 0.3:
        os.kill(door.process.child.pid, signal.SIGSTOP)
        await asyncio.sleep(0.05)
        os.kill(door.process.child.pid, signal.SIGCONT)
        await asyncio.sleep(0.2)


def beside(asked, what, work, descriptors=0):
    seconds = asked.seconds or 10
    alone = run_senders(asked, "five senders alone", Door(asked), 5, seconds)
    both = run_senders(asked, what, Door(asked, descriptors=descriptors), 5, seconds, work)
    print(f"{what}: {100 * both / alone:.0f} % of the answers alone")
    return both / alone


CASES = {
    "busy": busy,
    "slow": lambda asked: beside(asked, "five senders beside a slow one", drips),
    "silent": lambda asked: beside(asked, "five senders beside 100 silent ones", stays_silent, 64),
    "stopped": lambda asked: beside(asked, "five senders of a stopped collector", stops),
}


def main():
    parser = parser_of(__doc__)
    parser.add_argument("--seconds", type=float, help="seconds of each row (10; 40 for busy)")
    parser.add_argument("--senders", type=int, default=64, help="senders of busy (64)")
    parser.add_argument("--delay", type=float, default=35, help="milliseconds a commit of busy (35)")
    parser.add_argument("--half-close", action="store_true", help="each sender ends its side behind its post")
    parser.add_argument("cases", nargs="*", metavar="CASE", help=", ".join(CASES))
    add_program(parser)
    asked = parser.parse_args()
    asked.program = program_of(asked)
    print(load())
    shares = {case: CASES[case](asked) for case in asked.cases or CASES}
    if shares.get("slow") is not None and shares["slow"] < 0.9:
        sys.exit("fewer than 9 of 10 answers beside a slow sender")


if __name__ == "__main__":
    main()
