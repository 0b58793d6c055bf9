#!/usr/bin/env python3
"""Times `chukwa archive` over made sinks beside `cp` and `sync` of the same files.

usage: tools/figures.py archive [--mib N] [--rounds N] [--loop] [--program FILE]

It works in a new folder below the current one, so that the disk is the caller's, which needs three times
the bytes, and four times with `--loop`. N mebibytes of chunks (1024) stand in closed sinks of 64 MiB: chunks
of 131,072 bytes in one stream, of 4,096 bytes in 20 streams that take turns, and of 200 bytes in one stream and
in 20. For each, in each round (1), the sinks are read once, copied by `cp` to another folder with `sync` of it, the
copies are removed by `rm`, and the sinks are archived, which removes them too: that alone may take as long as the
copy, where a disk discards what it frees. So a run's share of `cp` is told, and its share of `cp`, `sync` and `rm`
together; and what share of `cp` both together have: about as much as the disk leaves to any program that writes
these bytes and removes the sinks. A row has MB/s of the chunks' bytes, seconds, processor seconds and the peak of
the resident memory. The printed lines, the segment and the book have to be those that docs/FORMATS.md asks for,
byte for byte, and the sinks to be gone: otherwise the script ends with 1. Whether it has half of the speed of `cp`,
and holds less than 64 MB besides 32 bytes a chunk, is told.

With `--loop`, which needs a C compiler `cc`, `tools/figures/segment_loop.c` makes the reads and writes of such a segment of
copies of the sinks, and removes them, and nothing else: it tells what these calls cost by themselves.
"""
import hashlib
import os
import subprocess
import sys
import tempfile

sys.path.insert(0, os.path.join(os.path.dirname(os.path.abspath(__file__)), "../lib"))

import archive_records as made
import copies
from archive_reader import contents
from running import MIB, TOP, Used, add_program, load, parser_of, program_of, row
from sequence_files import SequenceFile

SINK = 64 * MIB
LINE = b"2010-11-08 09:00:00,001 INFO namenode: block %012d was received from a peer\n"
SHAPES = [(131_072, 1), (4_096, 20), (200, 1), (200, 20)]
# What the job may hold, in bytes: for itself, and of each chunk.
ITSELF = 64_000_000
ROW = 32
# How fast it is to be, as a part of the speed of `cp`, in percent.
SPEED_GOAL = 50
# The most bytes between two records that the program reads at once.
GAP = 4_096


class Scene:
    """Chunks of one size, in streams that take turns."""

    def __init__(self, folder, size, chunk, count):
        self.folder, self.chunk, self.chunks = folder, chunk, size // chunk
        self.streams = [(f"h{number:02}", "Log", f"/var/log/app/{number}.log") for number in range(count)]
        self.tails = [made.stream(stream) for stream in self.streams]
        # Chunks of a stream begin at places that differ, so that one in a wrong place is seen.
        self.text = b"".join(LINE % number for number in range(20_000))
        self.sinks = 0

    def put(self, file, number):
        """The chunk of this number goes to a sink or segment; the place of its first byte there."""
        turn, stream = divmod(number, len(self.streams))
        at = 61 * number % (len(self.text) - self.chunk)
        return file.record((turn + 1) * self.chunk, self.tails[stream], self.text[at : at + self.chunk])

    def write(self):
        os.makedirs(f"{self.folder}/sinks")
        each = SINK // self.chunk
        for first in range(0, self.chunks, each):
            self.sinks += 1
            stem = f"c1.1.{self.sinks}"
            with open(f"{self.folder}/sinks/{stem}.done", "wb") as file:
                sink = SequenceFile(stem, file.write)
                for number in range(first, min(first + each, self.chunks)):
                    self.put(sink, number)

    def compare(self, out):
        hashed, count = hashlib.sha256(), len(self.streams)
        segment = SequenceFile("seg.1", hashed.update)
        for stream in range(count):
            for number in range(stream, self.chunks, count):
                self.put(segment, number)
        each = [len(range(stream, self.chunks, count)) for stream in range(count)]
        ends = [(names, number * self.chunk, 0) for names, number in zip(self.streams, each)]
        told = f"archive unclosed 0 taken {self.chunks * self.chunk} held 0 removed {self.sinks}\n"
        told += "".join(f"end {' '.join(names)} {end}\n" for names, end, _ in ends)
        book = made.book(2, [(1, segment.place)], ends)
        with open(f"{self.folder}/archive/seg.1", "rb") as file:
            is_same = hashlib.file_digest(file, "sha256").digest() == hashed.digest()
        is_same = is_same and contents(f"{self.folder}/archive/book") == book
        if not is_same or out != told or os.listdir(f"{self.folder}/sinks"):
            sys.exit(f"archive: its files are right: {is_same}; it printed {out}")


def archived(program, scene):
    with open(f"{scene.folder}/said", "wb") as said:
        used = Used([program, "archive"], scene.folder, said).wait(3600)
    out = contents(f"{scene.folder}/said").decode()
    if used.status != 0:
        sys.exit(f"archive: status {used.status} {out}")
    scene.compare(out)
    return used


def looped(asked, scene, what, copied):
    """The reads and writes of the segment and the removal of the sinks alone, beside the copy."""
    folder = scene.folder
    copies.shell(folder, "mkdir loop && cp sinks/*.done loop/")
    copies.settled(folder, "loop/*.done")
    with open(f"{folder}/took", "wb") as took:
        used = Used([asked.loop, str(GAP), "0", "loop"], folder, took).wait(3600)
    if used.status != 0:
        sys.exit(f"segment_loop: status {used.status}")
    removal = float(contents(f"{folder}/took"))
    copies.removed(folder, "segment", "took")
    os.rmdir(f"{folder}/loop")
    shares = [100 * copied.seconds / seconds for seconds in (used.seconds, used.seconds - removal)]
    return f"{what}: loop and cp: {shares[0]:.0f} % of its MB/s, {shares[1]:.0f} % without the removal"


def measured(asked, chunk, count):
    what = f"{asked.mib} MiB in chunks of {chunk} bytes, {count} stream{'s' if count > 1 else ''}"
    with tempfile.TemporaryDirectory(dir=".", prefix="figures-") as folder:
        scene = Scene(folder, asked.mib * MIB, chunk, count)
        scene.write()
        copies.settled(folder, "sinks/*.done")
        copied = copies.shell(folder, "mkdir copy && cp sinks/*.done copy/ && sync -f copy")
        removed = copies.shell(folder, "rm -r copy && sync -f .")
        if asked.loop:
            print(looped(asked, scene, what, copied))
        used = archived(asked.program, scene)
    size = scene.chunks * chunk
    print(row(f"{what}: cp and sync", size, copied))
    print(row(f"{what}: rm and sync of the copies", size, removed))
    print(row(f"{what}: archive", size, used))
    held = ITSELF + ROW * scene.chunks
    print(copies.share(f"{what}: archive and cp", used, copied, SPEED_GOAL, most=held))
    both = copied.seconds + removed.seconds
    print(f"{what}: cp with rm, and cp: {100 * copied.seconds / both:.0f} % of its MB/s")
    print(f"{what}: archive and cp with rm: {100 * both / used.seconds:.0f} % of its MB/s", flush=True)


def main():
    parser = parser_of(__doc__)
    parser.add_argument("--mib", type=int, default=1024, help="mebibytes of chunks (1024)")
    parser.add_argument("--rounds", type=int, default=1, help="runs of each row (1)")
    parser.add_argument("--loop", action="store_true", help="the same calls by a C loop beside it")
    add_program(parser)
    asked = parser.parse_args()
    asked.program = program_of(asked)
    print(load(), flush=True)
    with tempfile.TemporaryDirectory() as made:
        if asked.loop:
            asked.loop = f"{made}/segment_loop"
            subprocess.run(["cc", "-O2", "-o", asked.loop, f"{TOP}/tools/figures/segment_loop.c"], check=True)
        for chunk, count in SHAPES:
            for _ in range(asked.rounds):
                measured(asked, chunk, count)


if __name__ == "__main__":
    main()
