#!/usr/bin/env python3
"""Tries a collector's tee: what watchers print is what stands in the sinks.

usage: tools/try/watchers.py [--kills N] [--messages N] [--mib N] [--program FILE]

It has five parts, in new folders below the current one, at ports of 127.0.0.1 that were free. The chain: drains
of a growing log into a collector with two subscribers, one of all chunks and one of none, while the collector is
killed N times (20) and started again. Each line that the watcher printed has to be a record of a sink, at its
place and of its size, in rising order and once. A chunk is passed on after its answer, before it is committed,
and a start cuts a sink at what was committed; so a line may tell of a place past its sink's end, if it came
before a kill, and its bytes are sent again. The number of such lines is told, and that of chunks that no line
tells, which came near a kill.
The receivers: N messages (300) to each of three watchers, from a collector that may open 60 files, and a fourth
subscriber where nobody listens; each watcher has to print all of them. The strangers: a watcher beside a
subscriber where nobody listens and one that closes each message after its first byte has to print all, and each
post is answered. The pieces: a watcher is sent messages in pieces of 1, 2, 7 and 64 bytes and whole, one twice,
one cut and one that is none, and prints each chunk once. The figure: a drain of N MiB (200) without and with one
subscriber that takes all. It ends with 1 where something differed.
"""
import os
import resource
import socket
import sys
import tempfile
import threading
import time

sys.path.insert(0, os.path.join(os.path.dirname(os.path.abspath(__file__)), "../lib"))

from archive_reader import Damaged, contents, placed_records, read_chunk
from posts import post, text
from running import Process, Used, add_program, free_ports, listening, load, parser_of, program_of, ran

FILES = 60


class Differs(Exception):
    """What was wanted, and what came."""


def until(what, is_so, seconds=30):
    end = time.monotonic() + seconds
    while not is_so():
        if time.monotonic() > end:
            raise Differs(f"{what}: not within {seconds} seconds")
        time.sleep(0.02)


def at(port):
    return f"127.0.0.1:{port}"


def answered(port, request):
    """What the collector answers."""
    said = b""
    with socket.create_connection(("127.0.0.1", port), timeout=20) as door:
        door.sendall(request)
        while piece := door.recv(65_536):
            said += piece
    return said


class Room:
    """A folder, a collector there with its subscribers, and their watchers."""

    def __init__(self, program, folder, filters):
        self.program, self.folder, self.watchers, self.collector = program, folder, [], None
        self.port, *ports = free_ports(1 + len(filters))
        self.ports = ports
        rows = []
        for port, (shown, watched) in zip(ports, filters):
            rows.append(f"{at(port)} {shown}\n")
            if watched:
                self.watchers.append(Process("subscribe", [program, "subscribe", at(port)], folder))
                until("a watcher's door", lambda: listening(port))
        with open(f"{folder}/subscribers", "w", encoding="ascii") as file:
            file.writelines(rows)

    def start(self, *words, kind=Process):
        words = [self.program, "collector", *words, "--tee", "subscribers", "c1", at(self.port)]
        self.collector = kind("collector", words, self.folder)
        until("the collector's door", lambda: listening(self.port))

    def kill(self):
        self.collector.kill()
        self.collector.close()

    def close(self):
        self.kill()
        for watcher in self.watchers:
            watcher.close()


class Limited(Process):
    """A process that may open few files."""

    def __init__(self, name, words, folder):
        soft, hard = resource.getrlimit(resource.RLIMIT_NOFILE)
        resource.setrlimit(resource.RLIMIT_NOFILE, (FILES, hard))
        try:
            super().__init__(name, words, folder)
        finally:
            resource.setrlimit(resource.RLIMIT_NOFILE, (soft, hard))


def sinks(folder):
    """The records of all sinks: sink and end, with what a watcher's line says behind them; and their sizes."""
    found, sizes = {}, {}
    for name in os.listdir(f"{folder}/sinks"):
        stem, _, kind = name.rpartition(".")
        if kind not in ("done", "chukwa"):
            continue
        data = contents(f"{folder}/sinks/{name}")
        sizes[stem] = len(data)
        try:
            for key, value, end in placed_records(data, stem):
                chunk = read_chunk(key, value)
                found[stem, end] = f"{' '.join(chunk.stream)} {chunk.end} {len(value)}"
        except Damaged:
            if kind == "done":
                raise
    return found, sizes


def rising(stem, end):
    name, born, number = stem.rsplit(".", 2)
    return name, (int(born), int(number), end)


def compared(printed, stored, newest=None):
    """How many chunks were printed, each as it was written, once and in order, how many that were cut behind
    their answer, of sinks of earlier starts than the newest one, and how many weren't printed."""
    (written, sizes), last, seen, cut = stored, {}, set(), 0
    for line in printed.splitlines():
        what, stem, end, rest = line.split(" ", 3)
        if what != "chunk":
            raise Differs(f"another line: {line}")
        place = stem, int(end)
        name, mark = rising(*place)
        if mark <= last.get(name, (0, 0, 0)):
            raise Differs(f"printed behind a later one: {line}")
        last[name] = mark
        if newest is not None and mark[0] < newest and place[1] > sizes.get(stem, 0):
            cut += 1
            continue
        if place not in written:
            raise Differs(f"no sink has {line}")
        if written[place] != rest:
            raise Differs(f"{line}: the sink has {written[place]}")
        seen.add(place)
    return len(seen), cut, len(written) - len(seen)


def chain(program, folder, kills):
    room = Room(program, folder, [("all", True), ("host=h2", True)])
    try:
        for turn in range(kills + 1):
            room.start()
            with open(f"{folder}/a.log", "ab") as log:
                for n in range(200):
                    log.write(f"{turn} {n} {'x' * (n * 7)}\n".encode())
            with open(f"{folder}/initial", "w", encoding="ascii") as file:
                file.write("add LWFTAdaptor Log a.log 0\n")
            words = [program, "drain", "--initial", "initial", "h1", at(room.port)]
            if turn == kills:
                status, out, told = ran(words, folder)
                if status != 0:
                    raise Differs(f"the last drain: {status} {out} {told}")
            else:
                drain = Process("drain", words, folder)
                time.sleep(0.05 + 0.1 * (turn % 5))
                room.kill()
                drain.kill()
                drain.close()
        time.sleep(1)
        room.kill()
        printed, cut, unprinted = compared(room.watchers[0].printed(), sinks(folder), kills + 1)
        if room.watchers[1].printed():
            raise Differs("the other watcher printed something")
        print(f"chain: {kills} kills, {printed} chunks printed as they stand, {cut} cut since, {unprinted} not printed")
        if printed == 0:
            raise Differs("nothing was printed")
    finally:
        room.close()


def receivers(program, folder, messages):
    room = Room(program, folder, [("all", True)] * 3 + [("all", False)])
    try:
        room.start(kind=Limited)
        for n in range(messages):
            answer = answered(room.port, post(str(n), 0))
            if not answer.startswith(b"HTTP/1.1 200"):
                raise Differs(f"message {n}: {answer[:80]!r}")
        for watcher in room.watchers:
            until("a watcher's lines", lambda: watcher.printed().count("\n") >= messages)
            compared(watcher.printed(), sinks(folder))
        if room.collector.status() is not None:
            raise Differs(f"the collector ended: {room.collector.status()}")
        print(f"receivers: {messages} messages to each of 3, {FILES} files")
    finally:
        room.close()


class Closer(threading.Thread):
    """A subscriber that closes each message behind its first byte."""

    def __init__(self, port):
        super().__init__(daemon=True)
        self.taken, self.door = 0, socket.socket()
        self.door.setsockopt(socket.SOL_SOCKET, socket.SO_REUSEADDR, 1)
        self.door.setsockopt(socket.SOL_SOCKET, socket.SO_RCVBUF, 4096)
        self.door.bind(("127.0.0.1", port))
        self.door.listen()

    def run(self):
        while True:
            peer, _ = self.door.accept()
            peer.recv(1)
            peer.close()
            self.taken += 1


def strangers(program, folder, messages):
    room = Room(program, folder, [("all", True), ("all", False), ("all", False)])
    closer = Closer(room.ports[2])
    closer.start()
    try:
        room.start()
        for n in range(messages):
            answer = answered(room.port, post("a", n, 131_072))
            if not answer.startswith(b"HTTP/1.1 200"):
                raise Differs(f"message {n}: {answer[:80]!r}")
        until("the watcher's lines", lambda: room.watchers[0].printed().count("\n") >= messages)
        compared(room.watchers[0].printed(), sinks(folder))
        if room.collector.status() is not None:
            raise Differs(f"the collector ended: {room.collector.status()}")
        if closer.taken == 0:
            raise Differs("nothing was closed")
        print(f"strangers: {messages} messages, {closer.taken} closed behind their first byte")
    finally:
        room.close()


def teed(offset):
    """A message of one chunk that stands at this place of a sink."""
    key = b"\x01" + offset.to_bytes(8, "big") + text("h1") + text("Log") + text("/a.log")
    chunk = text("c1.1.1") + offset.to_bytes(8, "big") + len(key).to_bytes(4, "big") + key
    return b"CHKT\x01\0\0\0\x01" + chunk + b"\0\0\0\x05hello"


def sent(port, message, size):
    with socket.create_connection(("127.0.0.1", port), timeout=20) as door:
        door.setsockopt(socket.IPPROTO_TCP, socket.TCP_NODELAY, 1)
        for begin in range(0, len(message), size):
            door.sendall(message[begin : begin + size])
            time.sleep(0.001)


def pieces(program, folder):
    (port,) = free_ports(1)
    watcher = Process("subscribe", [program, "subscribe", "--turns", "10", at(port)], folder)
    try:
        until("the watcher's door", lambda: listening(port))
        sizes = [1, 2, 7, 64, 1000]
        for n, size in enumerate(sizes):
            sent(port, teed(100 + n), size)
        sent(port, teed(100), 1000)
        sent(port, teed(200)[:-1], 1000)
        sent(port, b"GET / HTTP/1.1\r\n\r\n", 1000)
        watcher.wait(30)
        lines = [f"chunk c1.1.1 {100 + n} h1 Log /a.log {100 + n} 5\n" for n in range(len(sizes))]
        wanted = "".join(lines) + f"subscribe chunks {len(sizes)} refused 2\n"
        if watcher.printed() != wanted:
            raise Differs(f"of pieces: {watcher.printed()}")
        print(f"pieces: {len(sizes)} chunks printed once, 2 messages refused")
    finally:
        watcher.close()


def drained(program, folder, mib, filters):
    """How long a drain of so many bytes takes."""
    room = Room(program, folder, filters)
    try:
        room.start("--messages", "8")
        with open(f"{folder}/a.log", "wb") as log:
            line = b"x" * 199 + b"\n"
            for _ in range(mib):
                log.write((line * 5243)[: 1 << 20])
        with open(f"{folder}/initial", "w", encoding="ascii") as file:
            file.write("add LWFTAdaptor Log a.log 0\n")
        used = Used([program, "drain", "--initial", "initial", "h1", at(room.port)], folder).wait()
        if used.status != 0:
            raise Differs(f"the drain: {used.status}")
        printed = [compared(watcher.printed(), sinks(folder))[0] for watcher in room.watchers]
        return used.seconds, printed
    finally:
        room.close()


def main():
    parser = parser_of(__doc__)
    parser.add_argument("--kills", type=int, default=20)
    parser.add_argument("--messages", type=int, default=300)
    parser.add_argument("--mib", type=int, default=200)
    add_program(parser)
    asked = parser.parse_args()
    program = program_of(asked)
    with tempfile.TemporaryDirectory(dir=".", prefix="watchers-") as top:
        folders = [os.path.abspath(f"{top}/{n}") for n in range(6)]
        for folder in folders:
            os.mkdir(folder)
        try:
            chain(program, folders[0], asked.kills)
            receivers(program, folders[1], asked.messages)
            strangers(program, folders[4], 20)
            pieces(program, folders[5])
            alone, _ = drained(program, folders[2], asked.mib, [])
            watched, printed = drained(program, folders[3], asked.mib, [("all", True)])
        except Differs as why:
            print(why)
            return 1
    for what, seconds in (("without a subscriber", alone), ("with one", watched)):
        print(f"drain of {asked.mib} MiB {what}: {seconds:.2f} s, {asked.mib / seconds:.0f} MiB/s")
    print(f"the watcher printed {printed[0]} chunks; {load()}")
    return 0


if __name__ == "__main__":
    sys.exit(main())
