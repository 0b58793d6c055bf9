#!/usr/bin/env python3
"""Times `chukwa demux` over a made archive beside `cp` and `wc -l` of the same bytes.

usage: tools/figures.py demux [--mib N] [--streams N] [--rounds N] [--program FILE]

It works in a new folder below the current one, so that the disk is the caller's, which needs four times the
bytes. N mebibytes (256) of lines of 100 to 300 bytes stand in an archive of one segment, in chunks of 131,072
bytes of one stream or of as many as `--streams` says. In each round (1) the segment is read once, copied by
`cp` with `sync` of the folder, read by `wc -l`, and then split into records twice, by lines and by time
stamps, each time in an empty folder `demux`. A row has MB/s of the archived bytes, seconds, processor seconds
and the peak of the resident memory. Each time the printed numbers, the new segment and the book have to be
those that docs/FORMATS.md asks for, byte for byte: otherwise the script ends with 1. Whether `demux` has half of
the speed of `cp` and holds less than 48 MB is told.
"""
import hashlib
import os
import shutil
import sys
import tempfile

sys.path.insert(0, os.path.join(os.path.dirname(os.path.abspath(__file__)), "../lib"))

import archive_records as made
import copies
from archive_reader import contents
from running import MIB, Used, add_program, load, parser_of, program_of, row
from sequence_files import SequenceFile

CHUNK = 131_072
KIND = "Log"
SPEED_GOAL = 50


def streams(count):
    return [("h1", KIND, path) for path in copies.log_paths(count)]


def write_archive(folder, count):
    """The archive of logs that are there, in one segment."""
    os.makedirs(f"{folder}/archive")
    ends = []
    with open(f"{folder}/archive/seg.1", "wb") as file:
        segment = SequenceFile("seg.1", file.write)
        for stream in streams(count):
            end, tail = 0, made.stream(stream)
            with open(f"{folder}/{stream[2]}", "rb") as log:
                while data := log.read(CHUNK):
                    end += len(data)
                    segment.record(end, tail, data)
            ends.append((stream, end, 0))
    with open(f"{folder}/archive/book", "wb") as file:
        file.write(made.book(2, [(1, segment.place)], ends))


def by_lines(log):
    """The complete records of a log: all of these lines are short and end with a newline."""
    yield from log


def by_stamps(log):
    """A line with a stamp begins a record, and the last record waits for the line behind it."""
    held = []
    for line in log:
        if held and line.startswith(copies.STAMP.rstrip()):
            yield b"".join(held)
            held = []
        held.append(line)


class Expected:
    """What a run leaves and prints: the digest of its segment, its book and its line."""

    def __init__(self, folder, count, split):
        self.hashed, self.entries, self.taken, size, ends = hashlib.sha256(), 0, 0, 0, []
        segment = SequenceFile("seg.1", self.hashed.update)
        for stream in streams(count):
            end, tail = 0, made.stream(stream)
            size += os.path.getsize(f"{folder}/{stream[2]}")
            with open(f"{folder}/{stream[2]}", "rb") as log:
                for record in split(log):
                    end += len(record)
                    self.entries += 1
                    segment.record(end, tail, record)
            self.taken += end
            ends.append((stream, end, 0))
        self.book = made.book(2, [(1, segment.place)], ends)
        self.line = f"demux taken {self.taken} entries {self.entries} left {size - self.taken}\n"

    def compare(self, folder):
        if contents(f"{folder}/demux/book") != self.book:
            sys.exit("demux: its book isn't as the formats say")
        with open(f"{folder}/demux/seg.1", "rb") as file:
            if hashlib.file_digest(file, "sha256").digest() != self.hashed.digest():
                sys.exit("demux: its segment isn't as the formats say")


def split(asked, folder, kinds, expected):
    shutil.rmtree(f"{folder}/demux", ignore_errors=True)
    with open(f"{folder}/said", "wb") as said:
        used = Used([asked.program, "demux", *kinds], folder, said).wait(3600)
    said = contents(f"{folder}/said").decode()
    if used.status != 0 or said != expected.line:
        sys.exit(f"demux: status {used.status} {said}, not {expected.line}")
    expected.compare(folder)
    return used


def measured(asked, folder, wanted):
    copies.settled(folder, "archive/seg.1")
    copied = copies.shell(folder, "mkdir copy && cp archive/seg.1 copy/ && sync -f copy")
    shutil.rmtree(f"{folder}/copy")
    counted = copies.shell(folder, "wc -l archive/seg.1 >/dev/null")
    what = f"{asked.mib} MiB in {asked.streams} stream{'s' if asked.streams > 1 else ''}"
    size = asked.mib * MIB
    print(row(f"{what}: cp and sync", size, copied))
    print(row(f"{what}: wc -l", size, counted))
    for name, kinds in (("lines", []), ("stamps", [KIND])):
        used = split(asked, folder, kinds, wanted[name])
        print(row(f"{what}: demux by {name}, {wanted[name].entries} records", size, used))
        print(copies.share(f"{what}: demux by {name} and cp", used, copied, SPEED_GOAL), flush=True)


def main():
    parser = parser_of(__doc__)
    parser.add_argument("--mib", type=int, default=256, help="mebibytes of lines (256)")
    parser.add_argument("--streams", type=int, default=1, help="numbers of streams (1)")
    parser.add_argument("--rounds", type=int, default=1, help="runs of each row (1)")
    add_program(parser)
    asked = parser.parse_args()
    asked.program = program_of(asked)
    print(load(), flush=True)
    with tempfile.TemporaryDirectory(dir=".", prefix="figures-") as folder:
        copies.write_logs(folder, asked.mib * MIB, asked.streams)
        write_archive(folder, asked.streams)
        wanted = {"lines": Expected(folder, asked.streams, by_lines)}
        wanted["stamps"] = Expected(folder, asked.streams, by_stamps)
        for _ in range(asked.rounds):
            measured(asked, folder, wanted)


if __name__ == "__main__":
    main()
