#!/usr/bin/env python3
"""Times the join of two archives, of which one is a prefix of the other, beside `cmp` and `cp` with a sync.

usage: tools/figures.py join [--mib N] [--rounds N] [--program FILE]

It works in a new folder below the current one, so that the disk is the caller's, which needs five times the bytes.
Two archives have one segment each of N mebibytes (512), of chunks of 131,072 bytes in one stream, and of 4,096 and of
200 bytes in 20; the left one lacks the last chunk of each stream. For each, in each round (1), the segments are read
once, the right one is compared with a copy of itself by `cmp` and then copied by `cp` with `sync` of the copy, and then
`join` runs, with the one and then with the other first. A row has MB/s of the right segment's bytes, seconds, processor
seconds and the peak of the resident memory. The joined segment has to be as another writer makes it, and the book to
name it alone, byte for byte; otherwise the script ends with 1. Whether it holds less than 48 MB, besides 128 bytes a
chunk of both, is told.
"""
import hashlib
import os
import sys
import tempfile

sys.path.insert(0, os.path.join(os.path.dirname(os.path.abspath(__file__)), "../lib"))

import archive_records as made
import copies
from archive_reader import contents
from running import MIB, Used, add_program, load, parser_of, program_of, row
from sequence_files import SequenceFile

SHAPES = [(131_072, 1), (4_096, 20), (200, 20)]
LINE = b"2010-11-08 09:00:00,001 INFO namenode: block %012d was received from a peer\n"
# What a join may hold of each chunk of both archives: 32 bytes in a list that doubles where it is full, twice.
ROW = 128


class Scene:
    """Two archives, each one segment, in which each stream has as many chunks, on the left one fewer."""

    def __init__(self, folder, size, chunk, count):
        self.folder, self.chunk = folder, chunk
        self.streams = [(f"h{number:02}", "Log", "/var/log/app.log") for number in range(count)]
        self.each = size // chunk // count
        # Chunks of a stream begin at places that differ, so that one in a wrong place is seen.
        self.text = b"".join(LINE % number for number in range(20_000))

    def write(self, stem, write, each):
        segment = SequenceFile(stem, write)
        for stream in self.streams:
            tail = made.stream(stream)
            for number in range(each):
                at = 61 * number % (len(self.text) - self.chunk)
                segment.record((number + 1) * self.chunk, tail, self.text[at : at + self.chunk])
        return segment.place

    def book(self, number, size, each):
        return made.book(number + 1, [(number, size)], [(stream, each * self.chunk, 0) for stream in self.streams])

    def archive(self, name, each):
        os.makedirs(f"{self.folder}/{name}")
        with open(f"{self.folder}/{name}/seg.1", "wb") as file:
            size = self.write("seg.1", file.write, each)
        with open(f"{self.folder}/{name}/book", "wb") as file:
            file.write(self.book(1, size, each))
        return size

    def compare(self, number, out):
        """The joined segment, the book and the printed line are those that are asked for."""
        hashed = hashlib.sha256()
        size = self.write(f"seg.{number}", hashed.update, self.each)
        with open(f"{self.folder}/joined/seg.{number}", "rb") as file:
            is_same = hashlib.file_digest(file, "sha256").digest() == hashed.digest()
        is_book = contents(f"{self.folder}/joined/book") == self.book(number, size, self.each)
        line = f"join streams {len(self.streams)} bytes {self.each * self.chunk * len(self.streams)}\n"
        if not is_same or not is_book or out != line:
            sys.exit(f"join: its segment {is_same}, its book {is_book}, it printed: {out}")


def joined(program, scene, number, words):
    with open(f"{scene.folder}/said", "wb") as said:
        used = Used([program, "join", *words], scene.folder, said).wait(3600)
    out = contents(f"{scene.folder}/said").decode()
    if used.status != 0:
        sys.exit(f"join: status {used.status} {out}")
    scene.compare(number, out)
    return used


def measured(asked, chunk, count):
    what = f"{asked.mib} MiB, chunks of {chunk} bytes, {count} stream"
    what += "s" if count > 1 else ""
    with tempfile.TemporaryDirectory(dir=".", prefix="figures-") as folder:
        scene = Scene(folder, asked.mib * MIB, chunk, count)
        scene.archive("left", scene.each - 1)
        size = scene.archive("right", scene.each)
        copies.shell(folder, "cp right/seg.1 twin.bytes && sync twin.bytes")
        copies.settled(folder, "*/seg.* twin.bytes")
        copied = copies.shell(folder, "cmp right/seg.1 twin.bytes && cp right/seg.1 copy.bytes && sync copy.bytes")
        copies.removed(folder, "copy.bytes", "twin.bytes")
        one = joined(asked.program, scene, 1, ["left", "right"])
        other = joined(asked.program, scene, 2, ["right", "left"])
    print(row(f"{what}: cmp, cp and sync", size, copied))
    held = copies.MEMORY_GOAL + ROW * 2 * scene.each * count
    for words, used in (("left right", one), ("right left", other)):
        print(row(f"{what}: join {words}", size, used))
        print(copies.share(f"{what}: join {words}, cmp and cp", used, copied, 50, most=held), flush=True)


def main():
    parser = parser_of(__doc__)
    parser.add_argument("--mib", type=int, default=512, help="mebibytes of each archive (512)")
    parser.add_argument("--rounds", type=int, default=1, help="runs of each row (1)")
    add_program(parser)
    asked = parser.parse_args()
    asked.program = program_of(asked)
    print(load(), flush=True)
    for chunk, count in SHAPES:
        for _ in range(asked.rounds):
            measured(asked, chunk, count)


if __name__ == "__main__":
    main()
