#!/usr/bin/env python3
"""Makes the bytes of which the cases of archive runs and of joins put together sinks, segments and books.

usage: tools/lib/archive_records.py [check]

It writes its lines of `parts`, and the MD5 that `archive/turns.cases` asks for, both in
`crates/chk_test_cases/data`; with `check` it writes nothing, and ends with 1 where a line is missing or isn't as it
would write it. It follows docs/FORMATS.md and shares no line with the program, so that what the program writes is
compared with what another writer makes.
"""
import hashlib
import os
import sys

HERE = os.path.dirname(os.path.abspath(__file__))
DATA = os.path.join(HERE, "../../crates/chk_test_cases/data")

CLASS = b"\x22org.apache.hadoop.io.BytesWritable"
HEADER = b"SEQ\x06" + CLASS + CLASS + b"\0\0\0\0\0\0"
LOG = ("h1", "Log", "/a.log")
DAY = (b"2010-11-08 09:00:00,001 INFO namenode: started\n"
       b"2010-11-08 09:00:01,250 ERROR namenode: failed\n"
       b"java.io.IOException: no space\n"
       b"\tat a.b.C.d(C.java:10)\n"
       b"2010-11-08 09:00:02,000 INFO namenode: stopped\n")


def big_endian(number, width):
    return number.to_bytes(width, "big")


def word(text):
    return big_endian(len(text), 2) + text.encode()


def stream(of):
    return b"".join(word(text) for text in of)


def key(of, end, start, cluster, version=1):
    if start == 0 and cluster == "none" and version == 1:
        return b"\x01" + big_endian(end, 8) + stream(of)
    return b"\x02" + big_endian(end, 8) + big_endian(start, 8) + stream(of) + word(cluster)


def record(end, data, of=LOG, start=0, cluster="none", version=1):
    """The record of a chunk that ends there; with version 2 its key has that version also where 1 would do."""
    first = key(of, end, start, cluster, version)
    first = big_endian(len(first), 4) + first
    second = big_endian(len(data), 4) + data
    return big_endian(len(first) + len(second), 4) + big_endian(len(first), 4) + first + second


def book(following, segments, ends, aside=None):
    """Segments by number and length; ends by stream, end and start."""
    version = 3 if aside else 2 if any(start for of, end, start in ends) else 1
    made = b"CHKB" + bytes([version]) + big_endian(following, 8) + big_endian(len(segments), 4)
    for number, length in segments:
        made += big_endian(number, 8) + big_endian(length, 8)
    made += big_endian(len(ends), 4)
    for of, end, start in ends:
        made += (big_endian(start, 8) if version > 1 else b"") + big_endian(end, 8) + stream(of)
    return made + (big_endian(aside[0], 8) + big_endian(aside[1], 8) if aside else b"")


def headers():
    """The headers of sinks and segments, each with the marker of its stem behind it."""
    stems = ["c1.1.1", "c1.1.2", "c1.2.1", "c2.1.1", "c3.1.1", "seg.1", "seg.2", "seg.17", "seg.18"]
    named = [stem.upper().replace(".", "_").replace("SEG_", "SEGMENT_") for stem in stems]
    named = [name if name.startswith("SEGMENT") else "SINK_" + name for name in named]
    markers = [literal(hashlib.md5(stem.encode()).digest()) for stem in stems]
    return [(name, f'HEADER "{marker}"') for name, marker in zip(named, markers)]


def records():
    """Named by the data; behind that by what isn't the usual stream, start 0 and cluster none."""
    h2 = ("h2", "Log", "/a.log")
    day = [("DAY_" + host.upper(), record(194, DAY, (host, "HadoopLog", "/var/log/hadoop/namenode.log")))
           for host in ("h1", "h2", "h3")]
    lines = [(f"LINE_TO_{end}", record(end, b"a\n")) for end in range(2, 36, 2)]
    return [
        ("HELLO", record(6, b"hello\n")),
        ("HALF_HELLO", record(6, b"hello\n")[:-10]),
        ("HELLO_FROM_3", record(9, b"hello\n", LOG, 3)),
        ("HELLO_FROM_5", record(11, b"hello\n", LOG, 5)),
        ("HELLO_FROM_5_ALOUD", record(11, b"heLlo\n", LOG, 5)),
        ("HELLX", record(6, b"hellx\n")),
        ("SHORT_NAME", record(6, b"hello\n", ("h1", "Log", "a.log"))),
        ("MOVED", record(11, b"hello\n", LOG, 5, "demo")),
        ("HELLO_WORLD", record(12, b"hello\nworld\n")),
        ("O_WORL", record(10, b"o\nworl")),
        ("WORL_TO_9", record(9, b"worl")),
        ("WORL_TO_10", record(10, b"worl")),
        ("WORL_TO_11", record(11, b"worl")),
        ("WORL_FROM_6", record(10, b"worl", LOG, 6)),
        ("WORL_IN_FULL", record(10, b"worl", version=2)),
        ("WORLD", record(12, b"world\n")),
        ("WORLD_ALOUD", record(12, b"WORLD\n")),
        ("WORLD_FROM_5", record(12, b"world\n", LOG, 5)),
        ("WORLD_OF_WEST", record(12, b"world\n", cluster="west")),
        ("PAST", record(22, b"past")),
        ("PAST_FROM_5", record(22, b"past", LOG, 5)),
        ("X_OF_H2", record(2, b"x\n", h2)),
        ("X_OF_H2_ALOUD", record(2, b"X\n", h2)),
        ("ABCD_OF_EAST", record(104, b"abcd", h2, 100, "east")),
        ("EF_OF_WEST", record(106, b"ef", h2, 100, "west")),
        ("XYZ_OF_APP", record(3, b"xyz", ("h1", "App", "/b.log"))),
        ("ZZ_OF_A0", record(2, b"zz", ("a0", "Log", "/z.log"))),
        ("FALSE_LINE", record(2, b"b\n")),
    ] + day + lines


def size(*names):
    made = dict(records())
    return 96 + sum(len(made[name]) for name in names)


def books():
    streams = [(("a0", "Log", "/z.log"), 2, 0), (("h1", "App", "/b.log"), 3, 0), (LOG, 6, 0),
               (("h2", "Log", "/a.log"), 106, 100)]
    day = [((host, "HadoopLog", "/var/log/hadoop/namenode.log"), 194, 0) for host in ("h1", "h2", "h3")]
    return [
        ("BOOK_SIX", book(2, [(1, size("HELLO"))], [(LOG, 6, 0)])),
        ("BOOK_SHORT_NAME", book(2, [(1, size("SHORT_NAME"))], [(("h1", "Log", "a.log"), 6, 0)])),
        ("BOOK_MOVED", book(2, [(1, size("MOVED"))], [(LOG, 11, 5)])),
        ("BOOK_TEN", book(2, [(1, size("HELLO", "WORL_TO_10"))], [(LOG, 10, 0)])),
        ("BOOK_ASIDE", book(2, [], [], (1, size("WORLD")))),
        ("BOOK_TWO_ASIDE", book(2, [], [], (1, size("WORLD", "PAST")))),
        ("BOOK_NEXT_ASIDE", book(3, [], [], (2, size("WORLD", "PAST")))),
        ("BOOK_TWO_ALOUD", book(2, [], [], (1, size("WORLD", "WORLD_ALOUD")))),
        ("BOOK_CLOSED", book(3, [(2, size("HELLO", "WORLD"))], [(LOG, 12, 0)])),
        ("BOOK_TWELVE", book(3, [(1, size("HELLO")), (2, size("WORLD"))], [(LOG, 12, 0)])),
        ("BOOK_STREAMS", book(2, [(1, size("ZZ_OF_A0", "XYZ_OF_APP", "HELLO", "ABCD_OF_EAST", "EF_OF_WEST"))], streams)),
        ("BOOK_DAY", book(2, [(1, size("DAY_H1", "DAY_H2", "DAY_H3"))], day)),
    ]


def turns():
    """The segment of 20 streams, stream after stream, each of 1,100 records of 200 equal bytes."""
    made = bytearray(HEADER + hashlib.md5(b"seg.1").digest())
    sync = len(made)
    for host in range(20):
        for number in range(1100):
            if len(made) >= sync + 2000:
                made += b"\xff\xff\xff\xff" + hashlib.md5(b"seg.1").digest()
                sync = len(made)
            data = bytes([(host * 7 + number) % 251]) * 200
            made += record((number + 1) * 200, data, ("h%02d" % host, "Log", "/a.log"))
    return made


def literal(data):
    spelled = {0: "\\0", 9: "\\t", 10: "\\n", 34: "\\\"", 92: "\\\\"}
    return "".join(spelled.get(b) or (chr(b) if 32 <= b < 127 else "\\x%02x" % b) for b in data)


def pieces():
    """Parts of records: the size that one begins with, alone or too large; what is before the value of a record of
    200,000 bytes, with a sequence id below that, and with another size of the value."""
    long = record(200_000, b"x" * 200_000)[:42]
    return [
        ("RECORD_SIZE", record(6, b"hello\n")[:4]),
        ("TOO_LONG_SIZE", big_endian(0x40001, 4)),
        ("LONG_HEAD", long),
        ("EARLY_HEAD", record(199_999, b"x" * 200_000)[:42]),
        ("WRONG_HEAD", long[:-4] + big_endian(200_001, 4)),
    ]


def fields():
    """What a book begins with, by its version, and the texts of a stream."""
    heads = [(f"BOOK_{version}", b"CHKB" + bytes([version])) for version in (1, 2, 3)]
    texts = [("STREAM", LOG), ("STREAM_APP", ("h1", "App", "/a.log"))]
    texts += [("STREAM_" + host.upper(), (host, "Log", "/a.log")) for host in ("h0", "h2")]
    return heads + [(name, stream(of)) for name, of in texts]


def joined():
    """Names for several parts: the lines of a merged segment; the segments of a book, each of one line; and what a stop
    leaves of a merged segment and of a joined one in place of what wasn't synced."""
    def lines(first, last):
        return " ".join(f"LINE_TO_{end}" for end in range(first, last + 2, 2))

    segments = " ".join(f"eight:{number} eight:140" for number in range(2, 17))
    return [
        ("LINES_TO_30", lines(2, 30)),
        ("LINES_TO_32", "LINES_TO_30 LINE_TO_32"),
        ("FIFTEEN_SEGMENTS", segments),
        ("SIXTEEN_SEGMENTS", "four:16 eight:1 eight:140 FIFTEEN_SEGMENTS"),
        ("FALSE_SEGMENT", "SEGMENT_17 FALSE_LINE LINES_TO_30"),
        ("FALSE_SEGMENT_OF_TWO", "FALSE_SEGMENT ABCD_OF_EAST"),
        ("FALSE_JOINED", "SEGMENT_1 WORLD"),
    ]


def lines():
    """The lines of the file of parts, by their beginning."""
    made = [(name, f'"{literal(data)}"') for name, data in records() + pieces() + fields() + books()]
    made = [("HEADER", f'"{literal(HEADER)}"')] + headers() + made + joined()
    return [(f"{name} = ", words) for name, words in made]


def written(text, wanted):
    """The text with these lines in place of those of the same beginning, or behind the others."""
    held = text.splitlines()
    for begin, rest in wanted:
        at = [number for number, line in enumerate(held) if line.startswith(begin)]
        if at:
            held[at[0]] = begin + rest
        else:
            held.append(begin + rest)
    return "".join(line + "\n" for line in held)


def main(words):
    turned = [("md5 archive/seg.1 => ", hashlib.md5(turns()).hexdigest())]
    for name, wanted in (("parts", lines()), ("archive/turns.cases", turned)):
        path = os.path.join(DATA, name)
        with open(path) as file:
            text = file.read()
        made = written(text, wanted)
        if words == ["check"]:
            if made != text:
                sys.exit(1)
        else:
            with open(path, "w") as file:
                file.write(made)


if __name__ == "__main__":
    main(sys.argv[1:])
