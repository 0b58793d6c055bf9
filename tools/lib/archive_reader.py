#!/usr/bin/env python3
"""Reads what the program leaves in a folder: sequence files, keys, books, checkpoints and archives.

usage: tools/lib/archive_reader.py FOLDER [SOURCE TYPE NAME]

It prints `stream <source> <type> <name> <start> <end>` for each archived stream of FOLDER; with SOURCE, TYPE and
NAME it writes that stream's archived bytes to standard output. It ends with 1 where a file isn't as
docs/FORMATS.md says, a stream's records don't follow one another, or there is no such stream. Let no job run
meanwhile. It shares no line with the program: other scripts compare by it what the program wrote with what
it was given.
"""
import collections
import hashlib
import mmap
import os
import struct
import sys

CLASS = b"\x22org.apache.hadoop.io.BytesWritable"
FRONT = b"SEQ\x06" + CLASS + CLASS + bytes(6)
HEADER = len(FRONT) + 16
SYNC_EVERY = 2000
ESCAPE = b"\xff\xff\xff\xff"
# Bytes of a chunk, and of a record of a line.
MOST_DATA = {"archive": 131_072, "joined": 131_072, "demux": 1_048_576}

# A chunk's `first` is the offset of its first byte, `end` that after its last one.
Chunk = collections.namedtuple("Chunk", "stream start first end data")
Book = collections.namedtuple("Book", "following segments streams aside")
Row = collections.namedtuple("Row", "is_live name kind stream_type path offset first after start")


class Damaged(Exception):
    """A file isn't as the formats say."""


def contents(name):
    with open(name, "rb") as file:
        return file.read()


def mapped(name):
    """The bytes of a file that nobody changes, each read where it is asked for."""
    with open(name, "rb") as file:
        if os.fstat(file.fileno()).st_size == 0:
            return b""
        return mmap.mmap(file.fileno(), 0, access=mmap.ACCESS_READ)


def word(data, at):
    """A word behind its length, and the place behind it."""
    (length,) = struct.unpack_from(">H", data, at)
    text = data[at + 2 : at + 2 + length]
    if not 1 <= length <= 4096 or len(text) < length or any(b <= 0x20 or b == 0x7F for b in text):
        raise Damaged(f"no word at {at}")
    return text.decode(), at + 2 + length


def words(data, at, count):
    found = []
    for _ in range(count):
        text, at = word(data, at)
        found.append(text)
    return found, at


def read_chunk(key, data, most=MOST_DATA["archive"]):
    """The chunk that a record has."""
    version, end = key[0], struct.unpack_from(">Q", key, 1)[0]
    if version not in (1, 2) or not 1 <= len(data) <= most:
        raise Damaged(f"key of version {version}, data of {len(data)} bytes")
    start = struct.unpack_from(">Q", key, 9)[0] if version == 2 else 0
    found, at = words(key, 17 if version == 2 else 9, 4 if version == 2 else 3)
    if at != len(key) or start + len(data) > end:
        raise Damaged(f"key {key!r}")
    return Chunk(tuple(found[:3]), start, end - len(data), end, data)


def part(data, at):
    """A part of a record behind its length, and the place behind it."""
    (length,) = struct.unpack_from(">I", data, at)
    return data[at + 4 : at + 4 + length], at + 4 + length


def placed_records(data, stem):
    """The keys and values of a whole sequence file, each with the place behind its record, and its sync
    entries where the formats want them."""
    marker = hashlib.md5(stem.encode()).digest()
    if data[:HEADER] != FRONT + marker:
        raise Damaged(f"{stem}: its header")
    at = synced = HEADER
    while at < len(data):
        if at - synced >= SYNC_EVERY:
            if data[at : at + 20] != ESCAPE + marker:
                raise Damaged(f"{stem}: no sync entry at {at}")
            at = synced = at + 20
        if at + 8 > len(data):
            raise Damaged(f"{stem}: cut at {at}")
        both, first = struct.unpack_from(">II", data, at)
        end = at + 8 + both
        if both >= 1 << 31 or end > len(data):
            raise Damaged(f"{stem}: no whole record at {at}")
        key, behind = part(data, at + 8)
        value, last = part(data, behind)
        if behind != at + 8 + first or last != end:
            raise Damaged(f"{stem}: the lengths of the record at {at}")
        yield key, value, end
        at = end


def records(data, stem):
    """The keys and values of a whole sequence file."""
    for key, value, _ in placed_records(data, stem):
        yield key, value


def chunks(name, most=MOST_DATA["archive"]):
    """The chunks of a whole sink or segment."""
    stem = os.path.basename(name)
    stem = stem.removesuffix(".done").removesuffix(".chukwa")
    for key, value in records(mapped(name), stem):
        yield read_chunk(key, value, most)


def read_book(data):
    if data[:4] != b"CHKB" or data[4] not in (1, 2, 3):
        raise Damaged("book: its head")
    version = data[4]
    following, count = struct.unpack_from(">QI", data, 5)
    segments = [struct.unpack_from(">QQ", data, 17 + 16 * n) for n in range(count)]
    at = 17 + 16 * count
    (count,) = struct.unpack_from(">I", data, at)
    at += 4
    streams = {}
    for _ in range(count):
        start = struct.unpack_from(">Q", data, at)[0] if version > 1 else 0
        at += 8 if version > 1 else 0
        (end,) = struct.unpack_from(">Q", data, at)
        stream, at = words(data, at + 8, 3)
        streams[tuple(stream)] = (start, end)
    aside = struct.unpack_from(">QQ", data, at) if version == 3 else None
    if at + (16 if aside else 0) != len(data):
        raise Damaged("book: bytes behind its end")
    return Book(following, segments, streams, aside)


def book_of(folder, below="archive"):
    """The book, an empty one where there is none yet."""
    name = f"{folder}/{below}/book"
    return read_book(contents(name)) if os.path.exists(name) else Book(1, [], {}, None)


class Archive:
    """The archive of each stream of a folder, or its records, and what they do wrong."""

    def __init__(self, folder, below="archive"):
        self.book = book_of(folder, below)
        self.lost = self.doubled = 0
        self.pieces = {stream: [] for stream in self.book.streams}
        self.ends = {stream: start for stream, (start, _) in self.book.streams.items()}
        self.held = []
        for number, length in self.book.segments:
            for chunk in self.segment(f"{folder}/{below}", number, length):
                self.take(chunk)
        if self.book.aside:
            self.held = list(self.segment(f"{folder}/{below}", *self.book.aside))
        for stream, (_, end) in self.book.streams.items():
            if self.ends[stream] != end:
                raise Damaged(f"{stream} ends at {self.ends[stream]}, the book says {end}")

    @staticmethod
    def segment(folder, number, length):
        name = f"{folder}/seg.{number}"
        if os.path.getsize(name) != length:
            raise Damaged(f"seg.{number} has {os.path.getsize(name)} bytes, not {length}")
        return chunks(name, MOST_DATA[os.path.basename(folder)])

    def take(self, chunk):
        end = self.ends.get(chunk.stream)
        if end is None:
            raise Damaged(f"the book doesn't name {chunk.stream}")
        self.lost += max(chunk.first - end, 0)
        self.doubled += max(end - chunk.first, 0)
        self.pieces[chunk.stream].append(chunk.data)
        self.ends[chunk.stream] = chunk.end

    def bytes_of(self, stream):
        return b"".join(self.pieces.get(stream, []))

    def differs(self, stream, log):
        """How many bytes of the archive aren't those of the log at their places."""
        held = self.bytes_of(stream)
        if log[: len(held)] == held:
            return 0
        return sum(a != b for a, b in zip(held, log)) + max(len(held) - len(log), 0)


class Comparison:
    """An archive beside its logs, each given as a file. One chunk is held at a time.

    `lost`, `doubled` and `misplaced` count bytes: those that a record leaves out behind the one before, those that
    are there twice, and those that aren't the log's at their places."""

    def __init__(self, folder, logs, below="archive"):
        self.book, self.lost, self.doubled, self.misplaced = book_of(folder, below), 0, 0, 0
        self.sizes = {stream: os.path.getsize(name) for stream, name in logs.items()}
        self.ends = {stream: start for stream, (start, _) in self.book.streams.items()}
        files = {stream: open(name, "rb") for stream, name in logs.items()}
        try:
            for number, length in self.book.segments:
                for chunk in Archive.segment(f"{folder}/{below}", number, length):
                    self.take(chunk, files)
        finally:
            for file in files.values():
                file.close()
        if self.ends != {stream: end for stream, (_, end) in self.book.streams.items()}:
            raise Damaged(f"the records end at {self.ends}, the book says {self.book.streams}")

    def take(self, chunk, files):
        if chunk.stream not in self.ends or chunk.stream not in files:
            raise Damaged(f"a record of {chunk.stream}, which the book or the caller doesn't name")
        end = self.ends[chunk.stream]
        self.lost += max(chunk.first - end, 0)
        self.doubled += max(end - chunk.first, 0)
        self.ends[chunk.stream] = chunk.end
        whole = os.pread(files[chunk.stream].fileno(), len(chunk.data), chunk.first)
        if whole != chunk.data:
            self.misplaced += sum(a != b for a, b in zip(whole, chunk.data)) + len(chunk.data) - len(whole)

    def difference(self):
        """What the archive has other than the whole logs, if anything."""
        if self.lost or self.doubled or self.misplaced:
            return f"bytes lost {self.lost} doubled {self.doubled} misplaced {self.misplaced}"
        missing = {stream: (self.ends.get(stream, 0), size) for stream, size in self.sizes.items()
                   if self.ends.get(stream, 0) != size}
        if missing or self.book.aside:
            return f"ends and sizes {missing}, aside {self.book.aside}"
        return None


def read_row(line):
    left, right = line.split(" = ")
    (state, name), found = left.split(" "), right.split(" ")
    kind, stream_type, path, offset, first, after = found[:6]
    start = int(found[6]) if len(found) == 7 else 0
    if state not in ("add", "past") or len(found) > 7:
        raise Damaged(f"checkpoint line {line}")
    return Row(state == "add", name, kind, stream_type, path, int(offset), int(first), after, start)


def checkpoint(folder, source):
    """The lines of an agent's checkpoint by path; none where there is none yet."""
    name = f"{folder}/agents/{source}.check"
    if not os.path.exists(name):
        return {}
    head, *lines = contents(name).decode().removesuffix("\n").split("\n")
    if head not in ("chukwa-checkpoint 1", "chukwa-checkpoint 2"):
        raise Damaged(f"{name}: its first line")
    return {row.path: row for row in map(read_row, lines)}


class Ends:
    """Where the streams of an archive end, and each stream's records one after the other."""

    def __init__(self, folder, wanted=None):
        self.folder, self.book, self.wanted = folder, book_of(folder), wanted
        self.ends = {stream: start for stream, (start, _) in self.book.streams.items()}

    def read(self):
        """Goes over the records, and writes those of the wanted stream."""
        for number, length in self.book.segments:
            for chunk in Archive.segment(f"{self.folder}/archive", number, length):
                if self.ends.get(chunk.stream) != chunk.first:
                    raise Damaged(f"seg.{number}: a record of {chunk.stream} from {chunk.first} on")
                self.ends[chunk.stream] = chunk.end
                if chunk.stream == self.wanted:
                    sys.stdout.buffer.write(chunk.data)
        if self.ends != {stream: end for stream, (_, end) in self.book.streams.items()}:
            raise Damaged(f"the records end at {self.ends}, the book says {self.book.streams}")


def main(folder, *stream):
    try:
        found = Ends(folder, stream)
        if stream and stream not in found.ends:
            sys.exit(f"the book doesn't name {stream}")
        found.read()
    except BrokenPipeError:
        os.dup2(os.open(os.devnull, os.O_WRONLY), sys.stdout.fileno())
        sys.exit(1)
    except (Damaged, OSError, struct.error, UnicodeDecodeError) as why:
        sys.exit(f"damaged: {why}")
    for each, (start, end) in sorted(found.book.streams.items()) if not stream else ():
        print("stream", *each, start, end)


if __name__ == "__main__":
    if len(sys.argv) not in (2, 5) or sys.argv[1].startswith("-"):
        sys.exit(__doc__)
    main(*sys.argv[1:])
