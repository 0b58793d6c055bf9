#!/usr/bin/env python3
"""Tries a collector with hostile peers on 127.0.0.1, beside senders that behave well.

usage: tools/try/hostile_peers.py [--messages N] [--times N] [--program FILE] [KIND..]

For each kind of hostile peer it runs one collector in a new folder, with so many turns, while three senders post one
short chunk after another. Once the hostile peers have done their work, the senders use up the turns that are left, so
that the collector ends by itself. The kinds:

  silent            peers that connect and send nothing
  slow              a post that comes byte by byte, and bytes that are no post
  reset             ten peers that reset their connection in the middle of a post
  deaf              peers that send on after their post and never read the answer
  bad               requests and posts that FORMATS refuses: each is answered with its status
  large             eight peers that each send a post of 4 MiB except for its last byte
  many_large        24 such peers, which is more than a listening address holds
  thousand          a thousand peers at once, each with a post of its own
  silent_thousand   a thousand peers at once that send nothing

A row has how many posts were answered beside the hostile peers, how many weren't, the longest wait for a connection and
for an answer, and the collector's memory. The script ends with 1 if a post of a sender wasn't answered with 200, or too
late; if the collector ended early, or not with 0; if an answered post isn't in the sinks exactly once, or a refused one
is in them; if a bad request wasn't answered with its status; or if the collector took three times the 33,685,504 bytes of
messages that a listening address may hold (DECISIONS 29), since their buffers grow by doubling. Of more than 256 peers
the collector may drop one whose first byte hasn't come yet (DECISIONS 30), so where a thousand come at once, a few
posts may stay unanswered. `--times` repeats each kind, and `--messages` is the collector's option. All kinds take two
to three minutes.
"""
import collections
import os
import socket
import struct
import sys
import tempfile
import threading
import time

sys.path.insert(0, os.path.join(os.path.dirname(os.path.abspath(__file__)), "../lib"))

from archive_reader import chunks
from posts import HEAD, post
from running import Process, add_program, free_ports, listening, load, parser_of, program_of, resident

SENDERS = 3
# A sender pauses so long between two posts while the hostile peers are at work, in seconds.
PAUSE = 0.05
# How long the hostile peers are at work at least: more than the 2 s of silence after which a peer has ended.
SECONDS = 4
# What a listening address holds of messages that aren't whole, in bytes (ROOM of chk_site_peers).
ROOM = 33_685_504
# How long a run may take after the hostile peers are done, in seconds.
LONGEST = 120
SIZE = 100


def connected(port, patience=40):
    return socket.create_connection(("127.0.0.1", port), timeout=patience)


def read_all(peer):
    answer = b""
    while piece := peer.recv(65_536):
        answer += piece
    return answer


def since(began):
    return 1000 * (time.monotonic() - began)


class Trial:
    """One collector, its senders, and what they saw."""

    def __init__(self, program, kind, messages, folder):
        self.folder = folder
        self.port = free_ports(1)[0]
        self.is_done, self.lock = threading.Event(), threading.Lock()
        # Posts by stream and number: answered with 200; sent without an answer that came.
        self.answered, self.unanswered = set(), set()
        self.opening, self.waits, self.missed, self.wrong = [0], [0], [], []
        words = [program, "collector", "--turns", str(kind.turns), "--messages", str(messages)]
        self.process = Process("collector", [*words, "c1", f"127.0.0.1:{self.port}"], folder)
        while not listening(self.port) and self.process.status() is None:
            time.sleep(0.01)
        self.idle = resident(self.process.child)
        self.peak = 0

    def note(self, wrong):
        with self.lock:
            self.wrong.append(wrong)

    def send(self, name, number):
        """Posts one chunk. The longest waits are those beside hostile peers."""
        is_beside, began, opened = not self.is_done.is_set(), time.monotonic(), 0
        answer = b""
        try:
            with connected(self.port) as peer:
                opened, began = since(began), time.monotonic()
                peer.sendall(post(name, number, SIZE))
                answer = read_all(peer)
        except OSError as why:
            answer = answer or str(why).encode()
        with self.lock:
            good = answer.startswith(b"HTTP/1.1 200 ")
            (self.answered if good else self.unanswered).add((f"/{name}.log", number * SIZE))
            if is_beside:
                self.opening.append(opened)
                self.waits.append(since(began))
                if not good:
                    self.missed.append(f"post {number} of {name}: {answer[:80]!r}")

    def sends(self, name):
        """Posts until the collector has ended."""
        number = 0
        while self.process.status() is None:
            self.send(name, number)
            number += 1
            self.is_done.wait(PAUSE)

    def watch(self):
        while self.process.status() is None:
            self.peak = max(self.peak, resident(self.process.child))
            time.sleep(0.01)

    def run(self, kind):
        workers = [threading.Thread(target=self.sends, args=(f"good{n}",), daemon=True) for n in range(SENDERS)]
        workers.append(threading.Thread(target=self.watch, daemon=True))
        for worker in workers:
            worker.start()
        began = time.monotonic()
        peers = kind.work(self)
        time.sleep(max(0, SECONDS - (time.monotonic() - began)))
        if self.process.status() is not None:
            self.note("it ended before the hostile peers were done")
        with self.lock:
            beside = len(self.waits) - 1 - len(self.missed)
            self.is_done.set()
        status = self.process.wait(LONGEST)
        for worker in workers:
            worker.join(60)
        for peer in peers:
            peer.close()
        if status != 0:
            self.note(f"status {status}, {self.process.error().strip()}")
        return beside

    def compare_sinks(self):
        """Each answered post is in the sinks once, each unanswered one at most once, and nothing else."""
        found = collections.Counter()
        for name in os.listdir(f"{self.folder}/sinks"):
            if name.endswith(".chukwa"):
                self.note(f"the sink {name} isn't closed")
            if name.endswith((".done", ".chukwa")):
                found.update((chunk.stream[2], chunk.first) for chunk in chunks(f"{self.folder}/sinks/{name}"))
        for what, wrong in [
            ("answered and not in the sinks", self.answered - set(found)),
            ("in the sinks and never posted", set(found) - self.answered - self.unanswered),
            ("in the sinks more than once", {place for place, count in found.items() if count > 1}),
        ]:
            if wrong:
                self.note(f"{len(wrong)} {what}, as {min(wrong)}")


def silent(trial):
    return [connected(trial.port) for _ in range(20)]


def drip(trial, head, body, status):
    """Sends the head, and of the body a byte each half second; its answer has this status, if it isn't 0."""
    try:
        with connected(trial.port) as peer:
            peer.sendall(head)
            for place in range(len(body)):
                time.sleep(0.5)
                peer.sendall(body[place : place + 1])
            answer = read_all(peer)
    except OSError as why:
        answer = str(why).encode()
    if status and not answer.startswith(b"HTTP/1.1 %d " % status):
        trial.note(f"a slow peer: {answer[:80]!r}")


def slow(trial):
    rows = [(HEAD.format(8).encode(), b"\0\0\0\x01\0\0\0\x05", 400), (b"", b"xxxxxxxx", 0)] * 3
    peers = [threading.Thread(target=drip, args=(trial, *row), daemon=True) for row in rows]
    for peer in peers:
        peer.start()
    for peer in peers:
        peer.join(40)
    return []


def reset(trial):
    """Half of them go as soon as they have sent, half after a while."""
    for place in range(10):
        peer = connected(trial.port)
        peer.setsockopt(socket.SOL_SOCKET, socket.SO_LINGER, struct.pack("ii", 1, 0))
        peer.sendall(post("reset", place, SIZE)[: 10 + 20 * place])
        if place % 2 == 1:
            time.sleep(0.3)
        peer.close()
    return []


def deaf(trial):
    peers = [connected(trial.port) for _ in range(5)]
    end = time.monotonic() + SECONDS
    for place, peer in enumerate(peers):
        trial.unanswered.add(("/deaf.log", place * SIZE))
        peer.sendall(post("deaf", place, SIZE))
        peer.setblocking(False)
    while time.monotonic() < end:
        for peer in peers:
            try:
                peer.send(b"x" * 65_536)
            except OSError:
                pass
        time.sleep(0.01)
    return peers


def changed(**parts):
    """A post of one chunk with these fields changed."""
    body = post("bad", 0, SIZE).partition(b"\r\n\r\n")[2]
    count, key, data = body[:4], body[8 : -SIZE - 4], body[-SIZE:]
    count, key, data = parts.get("count", count), parts.get("key", key), parts.get("data", data)
    body = count + len(key).to_bytes(4, "big") + key + len(data).to_bytes(4, "big") + data + parts.get("more", b"")
    return HEAD.format(len(body)).encode() + body


def bad_requests():
    """A name, the request, and the status and the first word of the answer's body ('' for any)."""
    whole = post("bad", 0, SIZE)
    head, _, body = whole.partition(b"\r\n\r\n")
    first, host, length = head.split(b"\r\n")
    key = changed().partition(b"\r\n\r\n")[2][8 : -SIZE - 4]

    def of(*lines):
        return b"\r\n".join(lines) + b"\r\n\r\n" + body

    return [
        ("no request", b"hello\r\n\r\n", 400, "BadHead"),
        ("a head that ends", head, 400, "NotYet"),
        ("a long head", of(first, host, b"X: " + b"x" * 16_384, length), 413, "TooLarge"),
        ("many header lines", of(first, *[b"X: x"] * 32, length), 413, "TooLarge"),
        ("another target", of(b"POST /chukwa/ HTTP/1.1", host, length), 404, "BadPath"),
        ("another method", of(b"GET /chukwa HTTP/1.1", host, length), 405, "BadMethod"),
        ("a posted poll", of(b"POST /acks?c1.1.1 HTTP/1.1", host, length), 405, "BadMethod"),
        ("an empty query", of(b"GET /acks? HTTP/1.1", host), 404, "BadPath"),
        ("no query", of(b"GET /acks HTTP/1.1", host), 400, "BadLine"),
        ("a wrong stem", of(b"GET /acks?c1.1.01 HTTP/1.1", host), 400, "BadLine"),
        ("65 stems", of(b"GET /acks?" + b"&".join([b"c1.1.1"] * 65) + b" HTTP/1.1", host), 400, "BadLine"),
        ("no length", of(first, host), 411, "NoLength"),
        ("a coding", of(first, host, b"Transfer-Encoding: chunked", length), 411, "NoLength"),
        ("two lengths", of(first, host, length, length), 400, "BadHead"),
        ("a wrong length", of(first, host, b"Content-Length: +137"), 400, "BadHead"),
        ("a large length", of(first, host, b"Content-Length: 4194305"), 413, "TooLarge"),
        ("a body that ends", whole[:-1], 400, "NotYet"),
        ("an empty body", HEAD.format(0).encode(), 400, ""),
        ("no chunk", changed(count=b"\0\0\0\0"), 400, ""),
        ("too many chunks", changed(count=b"\0\0\x03\xe9"), 400, ""),
        ("a further chunk", changed(count=b"\0\0\0\x02"), 400, ""),
        ("no data", changed(data=b""), 400, ""),
        ("much data", changed(data=b"x" * 131_073), 400, ""),
        ("another version", changed(key=b"\x03" + key[1:]), 400, ""),
        ("a small number", changed(key=key[:1] + (SIZE - 1).to_bytes(8, "big") + key[9:]), 400, ""),
        ("a space in a word", changed(key=key.replace(b"Log", b"L g")), 400, ""),
        ("more behind a key", changed(key=key + b"x"), 400, ""),
        ("more behind a post", changed(more=b"x"), 400, ""),
    ]


def bad(trial):
    for what, request, status, word in bad_requests():
        began = time.monotonic()
        try:
            with connected(trial.port) as peer:
                peer.sendall(request)
                peer.shutdown(socket.SHUT_WR)
                answer = read_all(peer)
        except OSError as why:
            answer = str(why).encode()
        if not answer.startswith(b"HTTP/1.1 %d " % status) or f"\r\n\r\n{word}".encode() not in answer:
            trial.note(f"{what}: {answer[:120]!r} in place of {status} {word}")
        if since(began) > 2000:
            trial.note(f"{what}: answered after {since(began):.0f} ms")
    return []


def large(trial, count=8):
    request = HEAD.format(1 << 22).encode() + b"\0\0\0\x01" + b"x" * ((1 << 22) - 5)

    def fill():
        try:
            with connected(trial.port) as peer:
                peer.sendall(request)
                read_all(peer)
        except OSError:
            pass

    peers = [threading.Thread(target=fill, daemon=True) for _ in range(count)]
    for peer in peers:
        peer.start()
    for peer in peers:
        peer.join(40)
    return []


def many_large(trial):
    return large(trial, 24)


def thousand(trial):
    """Each has a post of its own, which is answered."""
    peers = [threading.Thread(target=trial.send, args=("many", n), daemon=True) for n in range(1000)]
    for peer in peers:
        peer.start()
    for peer in peers:
        peer.join(40)
    return []


def silent_thousand(trial):
    """Those that the system refuses stay away."""
    peers = []
    for _ in range(1000):
        peer = socket.socket()
        peer.setblocking(False)
        peer.connect_ex(("127.0.0.1", trial.port))
        peers.append(peer)
    return peers


# What the hostile peers do, the collector's turns, how many posts beside them may stay unanswered, and how long a sender
# waits at most for a connection and for an answer, in milliseconds. Where a thousand come at once, the system may let a
# connection wait for its second or third try, after 1 and 3 s. Peers that fill the room for messages hold others for up
# to 36 s (DECISIONS 29).
Kind = collections.namedtuple("Kind", "work turns missed opening wait")
KINDS = {
    kind.work.__name__: kind
    for kind in [
        Kind(silent, 700, 0, 1000, 1000),
        Kind(slow, 800, 0, 1000, 1000),
        Kind(reset, 700, 0, 1000, 1000),
        Kind(deaf, 700, 0, 1000, 1000),
        Kind(bad, 800, 0, 1000, 1000),
        Kind(large, 700, 0, 1000, 2000),
        Kind(many_large, 800, 0, 1000, 36_000),
        Kind(thousand, 2000, 50, 8000, 36_000),
        Kind(silent_thousand, 2000, 3, 8000, 2000),
    ]
}


def tried(program, name, messages):
    kind = KINDS[name]
    with tempfile.TemporaryDirectory(prefix="hostile-") as folder:
        trial = Trial(program, kind, messages, folder)
        try:
            beside = trial.run(kind)
        finally:
            trial.process.close()
        trial.compare_sinks()
    opening, wait, held = max(trial.opening), max(trial.waits), trial.peak - trial.idle
    if len(trial.missed) > kind.missed:
        trial.note(f"{len(trial.missed)} posts weren't answered with 200, as {trial.missed[0]}")
    if opening > kind.opening or wait > kind.wait:
        trial.note(f"a connection may take {kind.opening} ms and an answer {kind.wait} ms")
    if held * 1024 > 3 * ROOM:
        trial.note(f"it may take {3 * ROOM // 1024} KiB more than an idle collector")
    print(f"{name}: beside {beside} answered, {len(trial.missed)} not, longest wait for a connection {opening:.0f} ms, for "
          f"an answer {wait:.0f} ms; {len(trial.answered)} posts in all; memory {trial.idle} + {held} KiB: "
          f"{'BAD' if trial.wrong else 'ok'}", flush=True)
    for wrong in trial.wrong[:8]:
        print(f"  {wrong}")
    return not trial.wrong


def main():
    parser = parser_of(__doc__)
    parser.add_argument("--messages", type=int, default=1, help="messages of a turn (1)")
    parser.add_argument("--times", type=int, default=1, help="how often each kind is tried (1)")
    parser.add_argument("kinds", nargs="*", metavar="KIND", help=", ".join(KINDS))
    add_program(parser)
    asked = parser.parse_args()
    if unknown := set(asked.kinds) - set(KINDS):
        parser.error(f"there is no kind {min(unknown)}")
    program = program_of(asked)
    print(load())
    kinds = [kind for kind in asked.kinds or KINDS for _ in range(asked.times)]
    return 0 if all([tried(program, kind, asked.messages) for kind in kinds]) else 1


if __name__ == "__main__":
    sys.exit(main())
