#!/usr/bin/env python3
"""Times `archive` and `demux` over a store that is fed day by day, beside another program.

usage: tools/figures.py growth [--days N] [--streams N] [--chunks N] [--every N] [--folder FOLDER]
                               [--before FILE] [--before-every N] [--program FILE]

It works in a new folder below FOLDER (the current one), which it removes. On each of N days (400) one closed sink
comes, with N chunks (300) of 200 to 4,000 bytes of each of N streams (15) that take turns; then `archive` runs, and
then `demux`. A row of a day has, of each run, its seconds, the bytes that it read (`rchar` of /proc/PID/io) and the
peak of its resident memory in KiB; `merged` stands behind it where `archive` merged segments. Every N-th day (1) has a
row, and each day of a merge. 400 days of the default sizes take up to 7.6 GB on the disk, at the last merge: the
records of a `demux` run are compared on a day with a row, and are always removed behind it, since no later run reads
them.

With `--before` the same is done by that program over a copy of the store, made of links, which is removed behind it: on
each N-th day (40), and on the first day of a merge from there on. So it goes from the state that this program has left,
and takes no room beside what it writes. It runs before this program does.

Each printed line, the book, and at the end the bytes of each stream in the archive have to be those that were fed:
otherwise the script ends with 1. The last rows tell the mean of the first and of the last ten days without a merge,
and whether seconds, bytes and memory of these stay below twice the first ones.
"""
import hashlib
import os
import shutil
import sys
import tempfile

sys.path.insert(0, os.path.join(os.path.dirname(os.path.abspath(__file__)), "../lib"))

import archive_records as made
from archive_reader import Archive, book_of, contents
from running import Used, add_program, load, parser_of, program_of, resident
from sequence_files import SequenceFile

LINE = b"2010-11-08 09:00:00,001 INFO namenode: block %08d was received from a peer\n"
LEAST, MOST = 200, 4_000
# So many segments are merged.
SEGMENTS = 16
# How many days the first and the last mean have, and how often more the last one may be.
DAYS, GROWTH = 10, 2
# What a mean leaves out, so that a run of a few milliseconds isn't compared: seconds, bytes, KiB.
SMALL = (0.05, 1_000_000, 4_000)
NAMES = ("seconds", "bytes read", "peak KiB")


class Run(Used):
    """A run with the bytes that it read."""

    read = 0

    def look(self):
        if os.waitid(os.P_PID, self.child.pid, os.WEXITED | os.WNOHANG | os.WNOWAIT) is None:
            self.peak = max(self.peak, resident(self.child))
            return False
        with open(f"/proc/{self.child.pid}/io", encoding="ascii") as told:
            self.read = int(told.readline().split()[1])
        return super().look()

    def figures(self):
        return self.seconds, self.read, self.peak


class Stream:
    """The bytes of a stream as they are fed: their number, their digest, and where its last whole line ends."""

    def __init__(self, number, text):
        self.names = (f"h{number:02}", "Log", f"/var/log/app/{number}.log")
        self.tail = made.stream(self.names)
        self.text, self.number = text, number
        self.end = self.split = self.lines = self.turn = 0
        self.digest, self.pending, self.fresh = hashlib.sha256(), [], []

    def chunk(self):
        """The next chunk; the lines of a stream follow one another, and are cut anywhere."""
        self.turn += 1
        size = LEAST + (1_103_515_245 * (self.turn + 1_000 * self.number) + 12_345) % (2**31) % (MOST - LEAST + 1)
        at = self.end % (len(self.text) - MOST)
        at -= at % len(LINE % 0)
        at += self.end % len(LINE % 0)
        data = self.text[at : at + size]
        self.end += len(data)
        self.digest.update(data)
        self.lines += data.count(b"\n")
        last = data.rfind(b"\n") + 1
        if last:
            self.split = self.end - len(data) + last
            self.fresh += [*self.pending, data[:last]]
            self.pending = []
        self.pending.append(data[last:])
        return data


class Store:
    """A folder and what a program that works in it has to print."""

    def __init__(self, what, program, folder):
        self.what, self.program, self.folder = what, program, folder
        self.taken = self.entries = 0

    def ran(self, command):
        with open(f"{self.folder}/said", "wb") as said:
            used = Run([self.program, command], self.folder, said).wait(3600)
        out = contents(f"{self.folder}/said").decode()
        if used.status != 0:
            sys.exit(f"{self.what}: {command}: status {used.status} {out}")
        return used.figures(), out

    def archive(self, streams, taken):
        segments = len(book_of(self.folder).segments)
        figures, out = self.ran("archive")
        told = f"archive unclosed 0 taken {taken} held 0 removed 1\n"
        told += "".join(f"end {' '.join(each.names)} {each.end}\n" for each in streams)
        left = len(book_of(self.folder).segments)
        if out != told or left != (2 if segments >= SEGMENTS else segments + 1) or os.listdir(f"{self.folder}/sinks"):
            sys.exit(f"{self.what}: {left} segments; it printed {out}")
        return figures

    def demux(self, streams):
        split, lines = sum(each.split for each in streams), sum(each.lines for each in streams)
        figures, out = self.ran("demux")
        left = sum(each.end for each in streams) - split
        told = f"demux taken {split - self.taken} entries {lines - self.entries} left {left}\n"
        if out != told:
            sys.exit(f"{self.what}: it printed {out}, and not {told}")
        self.taken, self.entries = split, lines
        return figures

    def compare_records(self, streams):
        """The newest segment of records has of each stream what is new."""
        number, length = book_of(self.folder, "demux").segments[-1]
        found = {each.names: [] for each in streams}
        for record in Archive.segment(f"{self.folder}/demux", number, length):
            found[record.stream].append(record.data)
        if any(b"".join(found[each.names]) != b"".join(each.fresh) for each in streams):
            sys.exit(f"{self.what}: demux/seg.{number} isn't what was fed")

    def remove_records(self):
        for name in os.listdir(f"{self.folder}/demux"):
            if name.startswith("seg."):
                os.remove(f"{self.folder}/demux/{name}")

    def compare(self, streams):
        """The archive has of each stream, in the order of its segments, what was fed."""
        found, ends = {each.names: hashlib.sha256() for each in streams}, {}
        for number, length in book_of(self.folder).segments:
            for chunk in Archive.segment(f"{self.folder}/archive", number, length):
                if chunk.first != ends.get(chunk.stream, 0):
                    sys.exit(f"{self.what}: {' '.join(chunk.stream)} has a gap at {chunk.first}")
                ends[chunk.stream] = chunk.end
                found[chunk.stream].update(chunk.data)
        if any(found[each.names].digest() != each.digest.digest() for each in streams):
            sys.exit(f"{self.what}: the archive isn't what was fed")

    def copy(self, what, program, folder):
        """The same store of another program, as a copy made of links: files are made anew or replaced, never changed."""
        shutil.copytree(self.folder, folder, copy_function=os.link, ignore=shutil.ignore_patterns("said"))
        other = Store(what, program, folder)
        other.taken, other.entries = self.taken, self.entries
        return other


def shown(figures):
    seconds, read, peak = figures
    return f"{seconds:.2f} s, {read:,} bytes read, {peak} KiB"


def row(day, store, archived, demuxed, is_merge):
    merged = " merged" if is_merge else ""
    return f"day {day}: {store.what}: archive {shown(archived)}{merged}; demux {shown(demuxed)}"


def feed(store, streams, day, chunks):
    """A closed sink; the bytes of its chunks."""
    stem, taken = f"c1.1.{day}", 0
    with open(f"{store.folder}/sinks/{stem}.done", "wb") as file:
        sink = SequenceFile(stem, file.write)
        for _ in range(chunks):
            for each in streams:
                data = each.chunk()
                taken += len(data)
                sink.record(each.end, each.tail, data)
    return taken


def growth(command, figures):
    """The first and the last days without a merge, and whether they differ by much."""
    first, last = figures[:DAYS], figures[-DAYS:]
    for at, name in enumerate(NAMES):
        old, new = (sum(each[at] for each in some) / max(1, len(some)) for some in (first, last))
        grown = "grown" if new > GROWTH * old + SMALL[at] else "level"
        print(f"{command}, {name}: first days {old:,.3f}, last days {new:,.3f}: {grown}")


class Before:
    """The other program, and on which days it runs."""

    def __init__(self, program, every, folder):
        self.program, self.every, self.folder = program, every, folder
        self.waits_for_merge = False

    def is_due(self, day, is_merge):
        due = day % self.every == 0
        self.waits_for_merge |= due
        if is_merge and self.waits_for_merge:
            self.waits_for_merge, due = False, True
        return due

    def run(self, store, day, streams, taken, is_merge):
        other = store.copy("before", self.program, self.folder)
        archived = other.archive(streams, taken)
        print(row(day, other, archived, other.demux(streams), is_merge), flush=True)
        shutil.rmtree(self.folder)


def main():
    parser = parser_of(__doc__)
    parser.add_argument("--days", type=int, default=400, help="days (400)")
    parser.add_argument("--streams", type=int, default=15, help="streams (15)")
    parser.add_argument("--chunks", type=int, default=300, help="chunks of each stream a day (300)")
    parser.add_argument("--every", type=int, default=1, help="days between two rows (1)")
    parser.add_argument("--folder", default=".", help="where it works (the current folder)")
    parser.add_argument("--before", help="another program, beside this one")
    parser.add_argument("--before-every", type=int, default=40, help="days between two runs of that program (40)")
    add_program(parser)
    asked = parser.parse_args()
    program, before = program_of(asked), os.path.abspath(asked.before) if asked.before else None
    print(load(), flush=True)
    text = b"".join(LINE % number for number in range(20_000))
    streams = [Stream(number, text) for number in range(asked.streams)]
    with tempfile.TemporaryDirectory(dir=asked.folder, prefix="figures-") as folder:
        store = Store("program", program, f"{folder}/program")
        os.makedirs(f"{store.folder}/sinks")
        beside = Before(before, asked.before_every, f"{folder}/before") if before else None
        plain = []
        for day in range(1, asked.days + 1):
            taken = feed(store, streams, day, asked.chunks)
            is_merge = len(book_of(store.folder).segments) >= SEGMENTS
            if beside and beside.is_due(day, is_merge):
                beside.run(store, day, streams, taken, is_merge)
            archived, demuxed = store.archive(streams, taken), store.demux(streams)
            if not is_merge:
                plain.append((archived, demuxed))
            if is_merge or day % asked.every == 0:
                print(row(day, store, archived, demuxed, is_merge), flush=True)
                store.compare_records(streams)
            store.remove_records()
            for each in streams:
                each.fresh = []
        store.compare(streams)
    growth("archive", [archived for archived, _ in plain])
    growth("demux", [demuxed for _, demuxed in plain])


if __name__ == "__main__":
    main()
