#!/usr/bin/env python3
"""Counts the posts a second that many senders bring into one collector, by how many it takes between two commits.

usage: tools/figures.py senders [--senders N]... [--bytes N] [--seconds N] [--messages N]... [--program FILE]

For each number of senders (64, 8 and 1) and each number of messages (1 and 64), in a new folder below the
current one, a collector runs for some seconds (4), and each sender posts one chunk of so many bytes (1,000)
again and again, each time over a connection of its own and after the answer to the one before. A row has the
answered posts a second, and the median and the 99th percentile of the time until an answer. Beside them
stands how many commits a second the disk does by themselves, in a loop: an append and a sync of one file, and
the replacement of a small one by a sync, a renaming and a sync of the folder. All senders are in this one
script, which answers for some 2,000 to 3,000 posts a second at most. Then the collector is killed and its sink closed: but for
the last turn, which may be cut, each answered post has to be found in the sinks by `salvage`; else the script
ends with 1.
"""
import asyncio
import os
import sys
import tempfile
import time

sys.path.insert(0, os.path.join(os.path.dirname(os.path.abspath(__file__)), "../lib"))

from running import Used, add_program, free_ports, listening, load, parser_of, program_of, ran

HEAD = (
    "POST /chukwa HTTP/1.1\r\nHost: c1\r\nContent-Type: application/octet-stream\r\n"
    "Content-Length: {}\r\nConnection: close\r\n\r\n"
)


def text(word):
    return len(word).to_bytes(2, "big") + word.encode()


def post(sender, size):
    """The request to post the first bytes of the log of this sender."""
    key = b"\x01" + size.to_bytes(8, "big") + text("h1") + text("Log") + text(f"/{sender}.log")
    chunk = len(key).to_bytes(4, "big") + key + size.to_bytes(4, "big") + b"x" * size
    body = b"\0\0\0\x01" + chunk
    return HEAD.format(len(body)).encode() + body


class Posts:
    """Senders that post to one port until a moment."""

    def __init__(self, port, seconds):
        self.port, self.until, self.sent, self.waits = port, time.monotonic() + seconds, 0, []

    async def send(self, request):
        while time.monotonic() < self.until:
            began = time.monotonic()
            self.sent += 1
            try:
                reader, writer = await asyncio.open_connection("127.0.0.1", self.port)
                writer.write(request)
                answer = await asyncio.wait_for(reader.read(), 10)
                writer.close()
            except (OSError, asyncio.TimeoutError):
                continue
            if not answer.startswith(b"HTTP/1.1 200 "):
                sys.exit(f"answered {answer[:200]}")
            self.waits.append(time.monotonic() - began)

    async def all(self, senders, size):
        await asyncio.gather(*[self.send(post(n, size)) for n in range(senders)])


def commits(folder, size, seconds=1):
    """How many commits a second the disk does by themselves."""
    count, began = 0, time.monotonic()
    sink = os.open(f"{folder}/sink", os.O_CREAT | os.O_APPEND | os.O_WRONLY)
    place = os.open(folder, os.O_RDONLY)
    while time.monotonic() - began < seconds:
        os.write(sink, b"x" * size)
        os.fsync(sink)
        with open(f"{folder}/mark.tmp", "wb") as mark:
            mark.write(b"12345678")
            mark.flush()
            os.fsync(mark.fileno())
        os.rename(f"{folder}/mark.tmp", f"{folder}/mark")
        os.fsync(place)
        count += 1
    os.close(sink)
    os.close(place)
    return count / (time.monotonic() - began)


def entries(asked, folder):
    """How many chunks stand in the closed sinks."""
    found = 0
    for name in sorted(os.listdir(f"{folder}/sinks")):
        if name.endswith(".done"):
            status, out, error = ran([asked.program, "salvage", f"sinks/{name}"], folder)
            if status != 0:
                sys.exit(f"salvage: {status} {error}")
            found += out.count("entry ")
    return found


def measured(asked, senders, messages):
    with tempfile.TemporaryDirectory(dir=".", prefix="figures-") as folder:
        alone = commits(folder, asked.bytes)
        door = f"127.0.0.1:{free_ports(1)[0]}"
        words = [asked.program, "collector", "--messages", str(messages), "c1", door]
        collector = Used(words, folder)
        port = int(door.rpartition(":")[2])
        while not listening(port):
            if collector.look():
                sys.exit(f"the collector ended with {collector.status}")
            time.sleep(0.005)
        posts = Posts(port, asked.seconds)
        asyncio.run(posts.all(senders, asked.bytes))
        collector.end()
        status, _, error = ran([asked.program, "collector", "--turns", "1", "c1", door], folder)
        if status != 0:
            sys.exit(f"collector: {status} {error}")
        found = entries(asked, folder)
    waits = sorted(posts.waits)
    speed = len(waits) / asked.seconds
    print(
        f"{senders} sender{'s' if senders > 1 else ''} of {asked.bytes} bytes, {messages} a commit: {speed:.0f} posts/s, "
        f"median {1000 * waits[len(waits) // 2]:.1f} ms, 99 % {1000 * waits[len(waits) * 99 // 100]:.1f} ms, "
        f"processor {collector.processor:.2f} s, peak {collector.peak} KiB; {alone:.0f} commits/s by themselves",
        flush=True,
    )
    if not len(waits) - messages <= found <= posts.sent:
        sys.exit(f"of {len(waits)} answered and {posts.sent} sent posts {found} were found")


def main():
    parser = parser_of(__doc__)
    parser.add_argument("--senders", type=int, action="append", help="numbers of senders (64, 8, 1)")
    parser.add_argument("--bytes", type=int, default=1000, help="bytes of each chunk (1000)")
    parser.add_argument("--seconds", type=float, default=4, help="seconds of each row (4)")
    parser.add_argument("--messages", type=int, action="append", help="messages between two commits (1, 64)")
    add_program(parser)
    asked = parser.parse_args()
    asked.program = program_of(asked)
    print(load())
    for senders in asked.senders or [64, 8, 1]:
        for messages in asked.messages or [1, 64]:
            measured(asked, senders, messages)


if __name__ == "__main__":
    main()
