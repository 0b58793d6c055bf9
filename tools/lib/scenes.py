"""Folders in which the commands of the job and a round work, for scripts that stop or fail them.

A scene makes its folder, tells whether what is there is whole, and what further runs leave. The small scenes
have a few bytes each, and what their runs print and leave is known to the byte.
"""
import hashlib
import os
import struct

import archive_records as made
from archive_reader import ESCAPE, FRONT, SYNC_EVERY, Archive, checkpoint, contents
from running import ran


class Wrong(Exception):
    """What a run left that it may not leave."""


def lines(name, count):
    return b"".join(b"%d of %s %s\n" % (n, name, b"x" * (7 * n % 60)) for n in range(count))


def sequence_bytes(stem, chunks):
    """A whole sink or segment of chunks, each a stream and the bytes of its log from one place to another."""
    marker = hashlib.md5(stem.encode()).digest()
    data, since = [FRONT + marker], 0
    for stream, log, first, end in chunks:
        if since >= SYNC_EVERY:
            data.append(ESCAPE + marker)
            since = 0
        data.append(made.record(end, log[first:end], stream))
        since += len(data[-1])
    return b"".join(data)


def sequence_file(name, chunks):
    """Such a file under its name, and its size."""
    stem = os.path.basename(name).removesuffix(".done").removesuffix(".chukwa")
    data = sequence_bytes(stem, chunks)
    with open(name, "wb") as file:
        file.write(data)
    return len(data)


def folders(folder):
    for name in ("sinks", "agents", "archive", "demux", "joined", "wahead", "locks"):
        os.makedirs(f"{folder}/{name}", exist_ok=True)


def segments(folder, logs, count, most):
    """A book with so many segments, each with a piece of each log."""
    folders(folder)
    held = []
    for n in range(count):
        pieces = [(stream, log, most * n, most * (n + 1)) for stream, log in logs.items()]
        held.append((n + 1, sequence_file(f"{folder}/archive/seg.{n + 1}", pieces)))
    return held


def write_book(folder, below, following, held, ends, aside=None):
    rows = [(stream, end, 0) for stream, end in sorted(ends.items())]
    with open(f"{folder}/{below}/book", "wb") as file:
        file.write(made.book(following, held, rows, aside))


class ArchiveScene:
    """Sinks that overlap, one that closes a gap, one behind a new gap, one under writing, and what was before."""

    words = ["archive"]

    def __init__(self):
        streams = [("h1", "Log", "/a.log"), ("h2", "Log", "/b.log"), ("h3", "App", "/c.log")]
        self.logs = {stream: lines(stream[2].encode(), 200) for stream in streams}
        one, two, three = streams
        self.before = {one: 320, two: 320}
        # Of the second stream the end is missing: bytes lie after a gap.
        self.after = {one: len(self.logs[one]), two: 2_000, three: len(self.logs[three])}

    def make(self, folder):
        (one, a), (two, b), (three, c) = self.logs.items()
        held = segments(folder, {one: a, two: b}, 16, 20)
        aside = (17, sequence_file(f"{folder}/archive/seg.17", [(one, a, 1000, 1200), (two, b, 500, 800)]))
        sequence_file(f"{folder}/archive/seg.18", [(one, a, 0, 10)])
        write_book(folder, "archive", 18, held, self.before, aside)
        sinks = f"{folder}/sinks"
        sequence_file(f"{sinks}/c1.1.1.done", [(one, a, 100, 400), (three, c, 0, 900), (one, a, 400, 1100)])
        sequence_file(f"{sinks}/c1.1.2.done", [(three, c, 500, len(c)), (two, b, 300, 500), (one, a, 1150, len(a))])
        sequence_file(f"{sinks}/c2.1.1.done", [(two, b, 800, 2_000), (two, b, 3_000, len(b)), (one, a, 0, 50)])
        sequence_file(f"{sinks}/c2.1.2.chukwa", [(two, b, 2_000, 2_500)])

    def whole(self, folder):
        archive = prefixes(self, folder)
        if archive.ends != self.after:
            raise Wrong(f"ends {archive.ends}, not {self.after}")
        sinks = sorted(os.listdir(f"{folder}/sinks"))
        if sinks != ["c2.1.2.chukwa"]:
            raise Wrong(f"sinks {sinks}")

    def further(self, program, folder):
        """The chunk that was set aside is still there once the gap closes."""
        two = ("h2", "Log", "/b.log")
        sequence_file(f"{folder}/sinks/c2.1.2.done", [(two, self.logs[two], 2_000, 3_000)])
        os.remove(f"{folder}/sinks/c2.1.2.chukwa")
        again(program, self.words, folder)
        # A run removes the segments that the one before it left.
        again(program, self.words, folder)
        archive = prefixes(self, folder)
        if archive.ends != {stream: len(log) for stream, log in self.logs.items()}:
            raise Wrong("not whole after the gap closed")
        only_named(folder, archive, "archive")


class DemuxScene:
    """An archive in two segments; records of a part of it were made before."""

    words = ["demux"]

    def __init__(self):
        streams = [("h1", "Log", "/a.log"), ("h2", "Log", "/b.log")]
        self.logs = {stream: lines(stream[2].encode(), 60) for stream in streams}
        self.before = {stream: len(log) for stream, log in self.logs.items()}

    def make(self, folder):
        folders(folder)
        pieces = [(stream, log, 0, 777) for stream, log in self.logs.items()]
        held = [(1, sequence_file(f"{folder}/archive/seg.1", pieces))]
        pieces = [(stream, log, 777, len(log)) for stream, log in self.logs.items()]
        held.append((2, sequence_file(f"{folder}/archive/seg.2", pieces)))
        write_book(folder, "archive", 3, held, self.before)
        pieces, ends = [], {}
        for stream, log in self.logs.items():
            ends[stream] = log.index(b"\n", 500) + 1
            places = [0] + [place + 1 for place in range(ends[stream]) if log[place : place + 1] == b"\n"]
            pieces += [(stream, log, *line) for line in zip(places, places[1:])]
        held = [(1, sequence_file(f"{folder}/demux/seg.1", pieces))]
        write_book(folder, "demux", 2, held, ends)

    def whole(self, folder):
        prefixes(self, folder)
        records = Archive(folder, "demux")
        for stream, log in self.logs.items():
            if records.lost or records.doubled or records.pieces.get(stream) != log.splitlines(keepends=True):
                raise Wrong(f"the records of {stream} aren't its lines")

    def further(self, program, folder):
        again(program, self.words, folder)
        self.whole(folder)
        only_named(folder, Archive(folder, "demux"), "demux")


class RoundScene:
    """Two logs, of which one has more than one chunk."""

    words = ["round", "h1", "Log", "a.log", "b.log"]

    def __init__(self):
        names = {"a.log": lines(b"a", 3), "b.log": lines(b"b", 4_000)}
        self.logs = {("h1", "Log", name): log for name, log in names.items()}
        self.before = {}

    def make(self, folder):
        for stream, log in self.logs.items():
            with open(f"{folder}/{stream[2]}", "wb") as file:
                file.write(log)

    def whole(self, folder):
        archive = prefixes(self, folder)
        if archive.ends != {stream: len(log) for stream, log in self.logs.items()}:
            raise Wrong(f"ends {archive.ends}")
        left = [name for name in os.listdir(f"{folder}/sinks") if name.endswith((".done", ".chukwa", ".mark"))]
        if left:
            raise Wrong(f"sinks {left}")

    def further(self, program, folder):
        again(program, self.words, folder)
        self.whole(folder)


class SmallScene:
    """A run over a few bytes, all of whose files and lines are known."""

    before = {}

    def told(self, out):
        """A run that met no fault, or ended with 0 in spite of one, prints just its lines."""
        if out != self.lines:
            raise Wrong(f"it printed {out!r}, not {self.lines!r}")

    def fronts(self):
        """What a run may have printed before it ended early."""
        found = self.lines.splitlines(keepends=True)
        return ["".join(found[:count]) for count in range(len(found))]

    def exact(self, folder):
        """What a first run that ended with 0 leaves, byte for byte."""
        for name, data in self.left.items():
            if contents(f"{folder}/{name}") != data:
                raise Wrong(f"{name}: {contents(f'{folder}/{name}')!r}, not {data!r}")
        names = sorted(name for below in self.folders for name in listed(folder, below))
        if names != sorted(self.left):
            raise Wrong(f"there are {names}, not {sorted(self.left)}")

    def whole(self, folder):
        archive = prefixes(self, folder)
        if archive.ends != {stream: len(log) for stream, log in self.logs.items()}:
            raise Wrong(f"ends {archive.ends}")
        sinks = [name for name in listed(folder, "sinks") if not name.endswith((".born", ".tmp"))]
        if sinks:
            raise Wrong(f"sinks {sinks}")

    def further(self, program, folder):
        out = again(program, self.words, folder)
        self.whole(folder)
        if out != self.nothing:
            raise Wrong(f"a further run printed {out!r}, not {self.nothing!r}")


class SmallRound(SmallScene):
    """A round over a log of six bytes."""

    words = ["round", "h1", "Log", "a.log"]
    lines = "stream h1 Log a.log 6\narchive unclosed 0 taken 6 held 0 removed 1\n"
    nothing = "stream h1 Log a.log 6\narchive unclosed 0 taken 0 held 0 removed 0\n"
    folders = ["agents", "archive", "sinks"]

    def __init__(self):
        stream, log = ("h1", "Log", "a.log"), b"hello\n"
        self.logs = {stream: log}
        segment = sequence_bytes("seg.1", [(stream, log, 0, 6)])
        check = b"chukwa-checkpoint 1\nadd adaptor_1 = LWFTAdaptor Log a.log 6 0 -\n"
        self.left = {"archive/seg.1": segment, "archive/book": made.book(2, [(1, 143)], [(stream, 6, 0)])}
        self.left |= {"agents/h1.check": check, "sinks/c1.born": struct.pack(">Q", 1)}
        sized(self.left, {"archive/seg.1": 143, "archive/book": 61, "agents/h1.check": 64})

    def make(self, folder):
        for stream, log in self.logs.items():
            with open(f"{folder}/{stream[2]}", "wb") as file:
                file.write(log)

    def whole(self, folder):
        super().whole(folder)
        row = checkpoint(folder, "h1")["a.log"]
        if not row.is_live or row.offset != 6:
            raise Wrong(f"the checkpoint has {row}")


class SmallArchive(SmallScene):
    """An archive run over two closed sinks, whose chunks overlap by two bytes."""

    words = ["archive"]
    lines = "archive unclosed 0 taken 10 held 0 removed 2\nend h1 Log /a.log 10\n"
    nothing = "archive unclosed 0 taken 0 held 0 removed 0\nend h1 Log /a.log 10\n"
    folders = ["archive", "sinks"]

    def __init__(self):
        stream, log = ("h1", "Log", "/a.log"), b"hello\nworl"
        self.logs = {stream: log}
        segment = sequence_bytes("seg.1", [(stream, log, 0, 6), (stream, log, 6, 10)])
        self.left = {"archive/seg.1": segment, "archive/book": made.book(2, [(1, 190)], [(stream, 10, 0)])}
        sized(self.left, {"archive/seg.1": 190, "archive/book": 62})

    def make(self, folder):
        folders(folder)
        ((stream, log),) = self.logs.items()
        sequence_file(f"{folder}/sinks/c1.1.1.done", [(stream, log, 0, 6)])
        sequence_file(f"{folder}/sinks/c1.1.2.done", [(stream, log, 4, 10)])


class SmallDemux(SmallScene):
    """Records by time stamps of an archive of three machines' logs of a day."""

    words = ["demux", "HadoopLog"]
    lines = "demux taken 441 entries 6 left 141\n"
    nothing = "demux taken 0 entries 0 left 141\n"
    folders = ["archive", "demux"]
    records = [(0, 47), (47, 147)]

    def __init__(self):
        streams = [(host, "HadoopLog", "/var/log/hadoop/namenode.log") for host in ("h1", "h2", "h3")]
        self.logs = {stream: made.DAY for stream in streams}
        day = sequence_bytes("seg.1", [(stream, made.DAY, 0, 194) for stream in streams])
        split = sequence_bytes("seg.1", [(stream, made.DAY, *record) for stream in streams for record in self.records])
        self.left = {"archive/seg.1": day, "demux/seg.1": split}
        self.left["archive/book"] = made.book(2, [(1, 888)], [(stream, 194, 0) for stream in streams])
        self.left["demux/book"] = made.book(2, [(1, len(split))], [(stream, 147, 0) for stream in streams])
        # Six records of 70 bytes besides their data.
        sized(self.left, {"archive/seg.1": 888, "archive/book": 196, "demux/seg.1": 96 + 6 * 70 + 441})

    def make(self, folder):
        folders(folder)
        for name in ("seg.1", "book"):
            with open(f"{folder}/archive/{name}", "wb") as file:
                file.write(self.left[f"archive/{name}"])

    def whole(self, folder):
        super().whole(folder)
        records = Archive(folder, "demux")
        wanted = [made.DAY[first:end] for first, end in self.records]
        for stream in self.logs:
            if records.lost or records.doubled or records.pieces.get(stream) != wanted:
                raise Wrong(f"the records of {stream} are {records.pieces.get(stream)}")


class SmallJoin(SmallScene):
    """A join of two archives of a log, of which the right one has more of it."""

    words = ["join", "archive", "other"]
    lines = nothing = "join streams 1 bytes 12\n"
    folders = ["archive", "other", "joined"]

    def __init__(self):
        stream, log = ("h1", "Log", "/a.log"), b"hello\nworld\n"
        self.logs, self.before = {stream: log}, {stream: 6}
        pieces = [(stream, log, 0, 6), (stream, log, 6, 12)]
        self.left = {"archive/seg.1": sequence_bytes("seg.1", pieces[:1]), "other/seg.1": sequence_bytes("seg.1", pieces)}
        self.left["archive/book"] = made.book(2, [(1, 144)], [(stream, 6, 0)])
        self.left["other/book"] = made.book(2, [(1, 192)], [(stream, 12, 0)])
        self.left |= {"joined/seg.1": self.left["other/seg.1"], "joined/book": self.left["other/book"]}
        sized(self.left, {"archive/seg.1": 144, "other/seg.1": 192, "joined/book": 62})

    def make(self, folder):
        folders(folder)
        os.makedirs(f"{folder}/other")
        for name in ("archive/seg.1", "archive/book", "other/seg.1", "other/book"):
            with open(f"{folder}/{name}", "wb") as file:
                file.write(self.left[name])

    def whole(self, folder):
        prefixes(self, folder)
        for name in ("archive/seg.1", "archive/book", "other/seg.1", "other/book"):
            if contents(f"{folder}/{name}") != self.left[name]:
                raise Wrong(f"{name} has changed")
        joined = Archive(folder, "joined")
        ((stream, log),) = self.logs.items()
        if joined.lost or joined.doubled or joined.pieces.get(stream) != log.splitlines(keepends=True):
            raise Wrong(f"joined are {joined.pieces}")


def sized(files, sizes):
    """The sizes that the formats' text tells are those of the files that are wanted."""
    assert all(len(files[name]) == size for name, size in sizes.items()), {name: len(files[name]) for name in sizes}


def listed(folder, below):
    place = f"{folder}/{below}"
    return [f"{below}/{name}" for name in os.listdir(place)] if os.path.isdir(place) else []


def only_named(folder, archive, below):
    """No segment is there that the book doesn't name."""
    named = {number for number, _ in archive.book.segments} | {(archive.book.aside or [None])[0]}
    left = [name for name in os.listdir(f"{folder}/{below}") if name.startswith("seg.") and int(name[4:]) not in named]
    if left:
        raise Wrong(f"the book doesn't name {left}")


def prefixes(scene, folder):
    """The archive, each stream's a prefix of its log and no shorter than before."""
    archive = Archive(folder)
    if archive.lost or archive.doubled:
        raise Wrong(f"lost {archive.lost} doubled {archive.doubled}")
    for stream, log in scene.logs.items():
        if archive.differs(stream, log):
            raise Wrong(f"the archive of {stream} is no prefix of its log")
        if archive.ends.get(stream, 0) < scene.before.get(stream, 0):
            raise Wrong(f"the archive of {stream} went back to {archive.ends.get(stream, 0)}")
    return archive


def again(program, words, folder):
    """What a run without a fault prints; it has to end with 0."""
    status, out, error = ran([program, *words], folder)
    if status != 0:
        raise Wrong(f"without a fault: {status} {out} {error}")
    return out


SCENES = {"archive": ArchiveScene, "demux": DemuxScene, "round": RoundScene}
SMALL = {"small-round": SmallRound, "small-archive": SmallArchive, "small-demux": SmallDemux, "small-join": SmallJoin}
