#!/usr/bin/env python3
"""Kills an agent, a drain or a collector before each of its calls on files, makes each fail, and runs it again.

usage: tools/try/kill_servers.py [--every N] [--jobs N] [--error NAME]... [--program FILE] agent|drain|collector

It is `tools/try/kill_calls.py` for the commands that have peers. The `collector` starts over a sink that an
earlier start left and gets posts and polls on 127.0.0.1: what a poll said is committed has to be in a closed sink
after the next start, whatever was killed or failed. The `agent` reads a log with two rotated generations and
another one, and a stand-in takes its posts: its checkpoint has to stay readable, never passes what was
committed, and after a run without a fault both logs have arrived, byte for byte. The `drain` reads the same
logs; with 0 it has to have delivered them. JOBS tries (4) go on at a
time, since most of their time is pauses. It needs `strace`, and ends with 1 where something was wrong.
"""
import collections
import concurrent.futures
import os
import re
import shutil
import signal
import socket
import struct
import sys
import tempfile
import threading
import time

sys.path.insert(0, os.path.join(os.path.dirname(os.path.abspath(__file__)), "../lib"))

import archive_records as made
from archive_reader import Damaged, checkpoint, chunks, read_chunk
from kill_calls import NAMES, WRITING, points_of
from running import Process, add_program, free_ports, listening, load, parser_of, program_of
from scenes import Wrong, folders, lines, sequence_file

ONE, TWO = ("h1", "Log", "a.log"), ("h1", "Log", "b.log")
CLOSED = "Connection: close\r\n\r\n"


def received(peer):
    """A whole HTTP message: its head and its body."""
    data = b""
    while piece := peer.recv(65_536):
        data += piece
        head, found, body = data.partition(b"\r\n\r\n")
        length = re.search(rb"Content-Length: (\d+)", head)
        if found and len(body) >= int(length[1] if length else 0):
            return head.decode(), body
    raise ConnectionError("the peer went away")


def asked(port, head, body=b""):
    """The code and the lines of a reply."""
    with socket.create_connection(("127.0.0.1", port), timeout=10) as peer:
        peer.sendall(head.encode() + body)
        head, body = received(peer)
    return int(head.split()[1]), body.decode().splitlines()


def post(port, pieces):
    """Posts chunks, and tells the stem and the offset that each was answered."""
    body = struct.pack(">I", len(pieces))
    for stream, log, first, end in pieces:
        key = made.key(stream, end, 0, "none")
        body += struct.pack(">I", len(key)) + key + struct.pack(">I", end - first) + log[first:end]
    head = f"POST /chukwa HTTP/1.1\r\nHost: 127.0.0.1:{port}\r\nContent-Type: application/octet-stream\r\n"
    code, answers = asked(port, f"{head}Content-Length: {len(body)}\r\n{CLOSED}", body)
    return [line.split() for line in answers] if code == 200 else []


class CollectorScene:
    """A collector that finds a sink of an earlier start, and then gets posts and polls."""

    def __init__(self, folder):
        (self.port,) = free_ports(1)
        self.logs = {stream: lines(stream[2].encode(), 90) for stream in (ONE, TWO)}
        self.words = ["collector", "--turns", "9", "--rotate", "300", "c1", f"127.0.0.1:{self.port}"]
        self.folder, self.posted, self.kept = folder, [], []
        folders(folder)
        with open(f"{folder}/sinks/c1.born", "wb") as file:
            file.write(struct.pack(">Q", 1))
        size = sequence_file(f"{folder}/sinks/c1.1.1.chukwa", [(ONE, self.logs[ONE], 0, 70)])
        with open(f"{folder}/sinks/c1.1.1.mark", "wb") as file:
            file.write(struct.pack(">Q", size))
        with open(f"{folder}/sinks/c1.1.1.chukwa", "ab") as file:
            file.write(b"\0\0\0\x99half")
        self.kept.append((ONE, 0, 70, "c1.1.1", size))

    def drive(self, process):
        """Posts and polls until it goes away."""
        while process.status() is None and not listening(self.port):
            time.sleep(0.02)
        one, two = (lambda *at: (ONE, self.logs[ONE], *at)), (lambda *at: (TWO, self.logs[TWO], *at))
        for pieces in ([one(70, 600)], [two(0, 900), one(500, 1500)], [], [one(1500, 1600), two(900, 1800)]):
            if not pieces:
                time.sleep(0.4)
            try:
                self.put(pieces)
            except OSError:
                time.sleep(0.1)
            if process.status() is not None:
                return

    def put(self, pieces):
        if not pieces:
            return
        for piece, (stem, offset) in zip(pieces, post(self.port, pieces)):
            self.posted.append((piece[0], *piece[2:], stem, int(offset)))
        stems = sorted({each[3] for each in self.posted})
        if stems:
            head = f"GET /acks?{'&'.join(stems)} HTTP/1.1\r\nHost: 127.0.0.1:{self.port}\r\n{CLOSED}"
            code, answers = asked(self.port, head)
            ends = {stem: int(end) for stem, end in map(str.split, answers)} if code == 200 else {}
            self.kept += [each for each in self.posted if each[4] <= ends.get(each[3], 0) and each not in self.kept]

    def check(self, is_whole):
        """What was told to be committed is in its sink, at its place; a closed sink holds true chunks alone."""
        for name in sorted(os.listdir(f"{self.folder}/sinks")):
            if name.endswith(".done"):
                self.sink(name)
        if is_whole:
            left = [name for name in os.listdir(f"{self.folder}/sinks") if name.endswith((".chukwa", ".mark"))]
            if left:
                raise Wrong(f"sinks are left: {left}")
            for stream, first, end, stem, offset in self.kept:
                if (stream, first, end) not in self.sink(f"{stem}.done", offset):
                    raise Wrong(f"committed and not there: {stream} {first} {end} in {stem} at {offset}")

    def sink(self, name, most=None):
        place = f"{self.folder}/sinks/{name}"
        if not os.path.exists(place):
            raise Wrong(f"{name} isn't there")
        if most and os.path.getsize(place) < most:
            raise Wrong(f"{name} has {os.path.getsize(place)} bytes, and {most} were committed")
        found = list(chunks(place))
        for chunk in found:
            if self.logs[chunk.stream][chunk.first : chunk.end] != chunk.data:
                raise Wrong(f"{name}: false bytes of {chunk.stream} at {chunk.first}")
        return [(chunk.stream, chunk.first, chunk.end) for chunk in found]

    def ended(self, out):
        """It prints nothing where it ends with 0."""
        if out:
            raise Wrong(f"it printed {out!r}")

    def lines(self):
        return []

    def close(self):
        pass


class AgentScene:
    """An agent with a checkpoint in the first generation of a log, and a log that is added."""

    def __init__(self, folder):
        self.logs = {stream: lines(stream[2].encode(), 90) for stream in (ONE, TWO)}
        self.folder, self.committed, self.got, self.wrong = folder, {ONE: 70, TWO: 0}, [], None
        log = self.logs[ONE]
        for name, data in (("a.log.20101108", log[:500]), ("a.log.20101109", log[500:900]), ("a.log", log[900:])):
            self.write(name, data)
        self.write("b.log", self.logs[TWO])
        self.write("add", b"add CharFileTailingAdaptorUTF8 Log b.log 0\n")
        folders(folder)
        self.write("agents/h1.check", b"chukwa-checkpoint 1\nadd one = FileTailingAdaptor Log a.log 70 0 -\n")
        self.door = socket.create_server(("127.0.0.1", 0))
        threading.Thread(target=self.serve, daemon=True).start()
        address = f"127.0.0.1:{self.door.getsockname()[1]}"
        self.words = ["agent", "--initial", "add", "--turns", "7", "--poll", "200", "--expire", "700", "h1", address]

    def write(self, name, data):
        with open(f"{self.folder}/{name}", "wb") as file:
            file.write(data)

    def serve(self):
        """A collector that keeps all in one sink, and commits it at once."""
        while True:
            try:
                peer, _ = self.door.accept()
            except OSError:
                return
            with peer:
                try:
                    peer.settimeout(10)
                    peer.sendall(self.answer(*received(peer)))
                except OSError:
                    continue
                except (Wrong, Damaged, struct.error, KeyError) as why:
                    self.wrong = why

    def answer(self, head, body):
        if head.startswith("GET"):
            said = f"c1.1.1 {1_000 * len(self.got)}\n"
            self.commit()
        else:
            said = "".join(f"c1.1.1 {1_000 * number}\n" for number in self.take(body))
        return f"HTTP/1.1 200 OK\r\nContent-Length: {len(said)}\r\n{CLOSED}{said}".encode()

    def take(self, body):
        """Keeps the chunks of a post, each with true bytes."""
        at, numbers = 4, []
        for _ in range(struct.unpack_from(">I", body)[0]):
            (length,) = struct.unpack_from(">I", body, at)
            key = body[at + 4 : at + 4 + length]
            (size,) = struct.unpack_from(">I", body, at + 4 + length)
            chunk = read_chunk(key, body[at + 8 + length : at + 8 + length + size])
            at += 8 + length + size
            if self.logs[chunk.stream][chunk.first : chunk.end] != chunk.data:
                raise Wrong(f"a post has false bytes of {chunk.stream} at {chunk.first}")
            self.got.append(chunk)
            numbers.append(len(self.got))
        return numbers

    def commit(self):
        """What was got without a gap."""
        for chunk in sorted(self.got, key=lambda chunk: chunk.first):
            if chunk.first <= self.committed[chunk.stream]:
                self.committed[chunk.stream] = max(self.committed[chunk.stream], chunk.end)

    def drive(self, process):
        process.wait(60)

    def check(self, is_whole):
        if self.wrong:
            raise Wrong(self.wrong)
        rows = checkpoint(self.folder, "h1")
        for stream, log in self.logs.items():
            offset = rows[stream[2]].offset if stream[2] in rows else 0
            if offset > self.committed[stream]:
                raise Wrong(f"{stream}: the checkpoint is {offset}, and {self.committed[stream]} is committed")
            if offset < (70 if stream == ONE else 0):
                raise Wrong(f"{stream}: the checkpoint went back to {offset}")
            if is_whole and offset != len(log):
                raise Wrong(f"{stream}: of {len(log)} bytes {offset} are committed")

    def ended(self, out):
        """It prints nothing where it ends with 0."""
        if out:
            raise Wrong(f"it printed {out!r}")

    def lines(self):
        return []

    def close(self):
        self.door.close()


class DrainScene(AgentScene):
    """A drain over the logs and the checkpoint of the agent's scene."""

    def __init__(self, folder):
        super().__init__(folder)
        self.words = ["drain", "--initial", "add", "--polls", "5", "h1", self.words[-1]]

    def ended(self, out):
        """With 0 it has printed both logs and delivered them."""
        if out != "".join(self.lines()):
            raise Wrong(f"it printed {out!r}, not {self.lines()}")
        self.check(True)

    def lines(self):
        return [f"stream {' '.join(stream)} {len(log)}\n" for stream, log in self.logs.items()]


SCENES = {"agent": AgentScene, "drain": DrainScene, "collector": CollectorScene}


def run(program, scene, before=()):
    """Runs the program to its end, beside its peer: the status and what it told."""
    process = Process(scene.words[0], [*before, program, *scene.words], scene.folder)
    try:
        scene.drive(process)
        return process.wait(60), process.printed(), process.error()
    finally:
        process.close()


class Tries:
    def __init__(self, given):
        self.given, self.ended, self.wrong = given, collections.Counter(), 0

    def points(self):
        with tempfile.TemporaryDirectory(prefix="kill-servers-") as folder:
            scene = SCENES[self.given.command](folder)
            traced = ["strace", "-f", "-qq", "-o", f"{folder}/trace"]
            traced += ["-e", "trace=" + ",".join(f"?{name}" for name in NAMES)]
            said = run(self.given.program, scene, traced)
            scene.close()
            if said[0] != 0:
                sys.exit(f"without a fault: {said}")
            scene.ended(said[1])
            scene.check(True)
            return points_of(f"{folder}/trace")

    def one(self, point):
        name, number, what, fault = point
        with tempfile.TemporaryDirectory(prefix="kill-servers-") as folder:
            scene = SCENES[self.given.command](folder)
            try:
                inject = f"inject={name}:{fault}:when={number}"
                before = ["strace", "-f", "-qq", "-o", "/dev/null", "-e", f"trace={name}", "-e", inject]
                status, out, error = run(self.given.program, scene, before)
                if status not in (0, 3) and not (fault == "signal=KILL" and status == -signal.SIGKILL):
                    raise Wrong(f"ended with {status} {out} {error}")
                self.ended["killed" if status == -signal.SIGKILL else f"ended with {status}"] += 1
                scene.check(False)
                if status == 0:
                    scene.ended(out)
                again = run(self.given.program, scene)
                if again[0] != 0:
                    raise Wrong(f"without a fault: {again}")
                scene.ended(again[1])
                scene.check(True)
            except (Wrong, Damaged, OSError, struct.error) as why:
                self.wrong += 1
                sys.stdout.write(f"wrong: {name} {number} ({what[:60]}) {fault}: {why}\n")
            finally:
                scene.close()

    def all(self, points):
        tries = []
        for name, number, what in points[:: self.given.every]:
            tries.append((name, number, what, "signal=KILL"))
            for error in self.given.error or ["EIO", "ENOSPC"]:
                if error != "ENOSPC" or name in WRITING.split():
                    tries.append((name, number, what, f"error={error}"))
        with concurrent.futures.ThreadPoolExecutor(self.given.jobs) as pool:
            list(pool.map(self.one, tries))


def main():
    parser = parser_of(__doc__)
    parser.add_argument("command", choices=SCENES, help="the command that is killed")
    parser.add_argument("--every", type=int, default=1, help="try each N-th call alone (1)")
    parser.add_argument("--jobs", type=int, default=4, help="tries at a time (4)")
    parser.add_argument("--error", action="append", help="an error that calls answer (EIO and ENOSPC)")
    add_program(parser)
    given = parser.parse_args()
    given.program = program_of(given)
    if not shutil.which("strace"):
        sys.exit("strace isn't here")
    began, tries = time.monotonic(), Tries(given)
    print(load(), flush=True)
    points = tries.points()
    print(f"{given.command}: {len(points)} calls on files", flush=True)
    tries.all(points)
    ended = ", ".join(f"{n} {how}" for how, n in sorted(tries.ended.items()))
    print(f"{given.command}: points {sum(tries.ended.values())}: {ended}")
    wrong = f"{tries.wrong} BAD" if tries.wrong else "ok"
    print(f"{given.command}: seconds {time.monotonic() - began:.0f}: {wrong}")
    return 1 if tries.wrong else 0


if __name__ == "__main__":
    sys.exit(main())
