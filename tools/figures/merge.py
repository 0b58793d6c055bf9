#!/usr/bin/env python3
"""Times the `archive` run that merges segments beside `cat` of them into one file with a sync.

usage: tools/figures.py merge [--mib N] [--segments N] [--rounds N] [--program FILE]

It works in a new folder below the current one, so that the disk is the caller's, which needs three times
the bytes. A book names N segments (16, the number from which a run merges) of N mebibytes (16) each, of chunks
of 131,072 bytes in one stream, of 4,096 bytes in 20 streams that stand one after the other in each segment, and of
200 bytes in 20. For each, in each round (1), the segments are read once, joined by `cat` into one file with
`sync` of it, and then `archive` runs with no sink there. A row has MB/s of the segments' bytes, seconds,
processor seconds and the peak of the resident memory. The new segment has to hold each stream's records,
unchanged and in order, and the book to name it alone, byte for byte; the next run has to remove the old
segments: otherwise the script ends with 1. Whether it holds less than 48 MB, besides 64 bytes a chunk, is told.
"""
import hashlib
import os
import sys
import tempfile

sys.path.insert(0, os.path.join(os.path.dirname(os.path.abspath(__file__)), "../lib"))

import archive_records as made
import copies
from archive_reader import contents
from running import MIB, Used, add_program, load, parser_of, program_of, ran, row
from sequence_files import SequenceFile

SHAPES = [(131_072, 1), (4_096, 20), (200, 20)]
LINE = b"2010-11-08 09:00:00,001 INFO namenode: block %012d was received from a peer\n"
# What the job may hold of each chunk: 32 bytes in a list that doubles where it is full.
ROW = 64
NOTHING = "archive unclosed 0 taken 0 held 0 removed 0\n"


class Scene:
    """Segments of one size, in which each stream has as many chunks."""

    def __init__(self, folder, size, segments, chunk, count):
        self.folder, self.segments, self.chunk = folder, segments, chunk
        self.streams = [(f"h{number:02}", "Log", "/var/log/app.log") for number in range(count)]
        self.each = size // chunk // count
        self.ends = [(stream, self.each * segments * chunk, 0) for stream in self.streams]
        # Chunks of a stream begin at places that differ, so that one in a wrong place is seen.
        self.text = b"".join(LINE % number for number in range(20_000))

    def put(self, segment, stream, part):
        """The records that one segment has of a stream."""
        tail = made.stream(stream)
        for number in range(part * self.each, (part + 1) * self.each):
            at = 61 * number % (len(self.text) - self.chunk)
            segment.record((number + 1) * self.chunk, tail, self.text[at : at + self.chunk])

    def write(self):
        os.makedirs(f"{self.folder}/archive")
        held = []
        for part in range(self.segments):
            with open(f"{self.folder}/archive/seg.{part + 1}", "wb") as file:
                segment = SequenceFile(f"seg.{part + 1}", file.write)
                for stream in self.streams:
                    self.put(segment, stream, part)
            held.append((part + 1, segment.place))
        with open(f"{self.folder}/archive/book", "wb") as file:
            file.write(made.book(self.segments + 1, held, self.ends))
        return sum(length for _, length in held)

    def compare(self, out):
        """The merged segment, the book and the printed lines are those that are asked for."""
        number, hashed = self.segments + 1, hashlib.sha256()
        segment = SequenceFile(f"seg.{number}", hashed.update)
        for stream in self.streams:
            for part in range(self.segments):
                self.put(segment, stream, part)
        book = made.book(number + 1, [(number, segment.place)], self.ends)
        with open(f"{self.folder}/archive/seg.{number}", "rb") as file:
            is_same = hashlib.file_digest(file, "sha256").digest() == hashed.digest()
        ends = "".join(f"end {' '.join(stream)} {end}\n" for stream, end, _ in self.ends)
        if not is_same or contents(f"{self.folder}/archive/book") != book or out != NOTHING + ends:
            sys.exit(f"archive: its segment {is_same}, its book or what it printed: {out}")


def merged(program, scene):
    with open(f"{scene.folder}/said", "wb") as said:
        used = Used([program, "archive"], scene.folder, said).wait(3600)
    out = contents(f"{scene.folder}/said").decode()
    if used.status != 0:
        sys.exit(f"archive: status {used.status} {out}")
    scene.compare(out)
    again = ran([program, "archive"], scene.folder, 600)
    names = sorted(os.listdir(f"{scene.folder}/archive"))
    if again[0] != 0 or names != ["book", f"seg.{scene.segments + 1}"]:
        sys.exit(f"archive again: {again} {names}")
    scene.compare(again[1])
    return used


def measured(asked, chunk, count):
    what = f"{asked.segments} segments of {asked.mib} MiB, chunks of {chunk} bytes, {count} stream"
    what += "s" if count > 1 else ""
    with tempfile.TemporaryDirectory(dir=".", prefix="figures-") as folder:
        scene = Scene(folder, asked.mib * MIB, asked.segments, chunk, count)
        size = scene.write()
        copies.settled(folder, "archive/seg.*")
        joined = copies.shell(folder, "cat archive/seg.* >joined.bytes && sync joined.bytes")
        copies.removed(folder, "joined.bytes")
        used = merged(asked.program, scene)
    print(row(f"{what}: cat and sync", size, joined))
    print(row(f"{what}: merge", size, used))
    held = copies.MEMORY_GOAL + ROW * scene.each * asked.segments * count
    print(copies.share(f"{what}: merge and cat", used, joined, None, most=held), flush=True)


def main():
    parser = parser_of(__doc__)
    parser.add_argument("--mib", type=int, default=16, help="mebibytes of each segment (16)")
    parser.add_argument("--segments", type=int, default=16, help="segments, from 16 on (16)")
    parser.add_argument("--rounds", type=int, default=1, help="runs of each row (1)")
    add_program(parser)
    asked = parser.parse_args()
    asked.program = program_of(asked)
    print(load(), flush=True)
    for chunk, count in SHAPES:
        for _ in range(asked.rounds):
            measured(asked, chunk, count)


if __name__ == "__main__":
    main()
