#!/usr/bin/env python3
"""Gives `salvage` SequenceFiles of other makers and damaged ones, and compares what it prints with another reader.

usage: tools/try/damaged_files.py [--program FILE]

One good file is read whole, cut at 300 places, and with each of its first 200 bytes turned; 23 others are read
whole: compressed ones, other classes and versions, metadata, every spelling of a length, markers of another file.
Writer and reader follow docs/FORMATS.md and share no line with the program. It ends with 1 where the program's
lines or its status are others; all is over within half a minute.
"""
import hashlib
import os
import struct
import subprocess
import sys
import tempfile

sys.path.insert(0, os.path.join(os.path.dirname(os.path.abspath(__file__)), "../lib"))

from running import add_program, parser_of, program_of

BYTES_CLASS = b"org.apache.hadoop.io.BytesWritable"
TEXT_CLASS = b"org.apache.hadoop.io.Text"
STEM = "c1.1.1"
SYNC = b"\xff\xff\xff\xff"
SYNC_AFTER = 2000
CUTS = 300
TURNED = 200


# What is written.

def big_endian(number, width):
    return number.to_bytes(width, "big")


def short_text(text):
    """A word of a key: its length in two bytes, and the word."""
    return big_endian(len(text), 2) + text


def variable(number, size=None):
    """A variable-length integer, in its shortest spelling or with so many bytes behind the first."""
    if size is None:
        if number <= 127:
            return bytes([number])
        size = (number.bit_length() + 7) // 8
    if size == 0:
        return bytes([number])
    return bytes([256 - 112 - size]) + big_endian(number, size)


def chunk_key(seq):
    """A key of version 1."""
    return b"\x01" + big_endian(seq, 8) + short_text(b"h1") + short_text(b"Log") + short_text(b"/a.log")


def started_key(seq, start):
    """A key of version 2, with a start and a cluster."""
    numbers = big_endian(seq, 8) + big_endian(start, 8)
    return b"\x02" + numbers + short_text(b"h1") + short_text(b"Log") + short_text(b"/a.log") + short_text(b"east")


def marker(stem):
    return hashlib.md5(stem.encode()).digest()


def header(version=6, keys=BYTES_CLASS, values=BYTES_CLASS, size=None, packed=b"\0\0", meta=big_endian(0, 4)):
    """The header of the file of STEM, with other fields where they are given."""
    classes = b"".join(variable(len(name), size) + name for name in (keys, values))
    return b"SEQ" + bytes([version]) + classes + packed + meta + marker(STEM)


def record(key, value):
    key_part = big_endian(len(key), 4) + key
    value_part = big_endian(len(value), 4) + value
    return big_endian(len(key_part) + len(value_part), 4) + big_endian(len(key_part), 4) + key_part + value_part


def entries(pairs, begin=96):
    """The records of these keys and values, with sync entries as a sink has them."""
    out, last_sync = b"", begin
    for key, value in pairs:
        if begin + len(out) >= last_sync + SYNC_AFTER:
            out += SYNC + marker(STEM)
            last_sync = begin + len(out)
        out += record(key, value)
    return out


def hellos():
    """Three records of one line."""
    return b"".join(record(chunk_key(6 * n), b"hello\n") for n in (1, 2, 3))


def forty():
    """Forty records of growing and shrinking lengths, from 1 to 300 bytes."""
    seq, pairs = 0, []
    for n in range(40):
        value = bytes(32 + (n + 7 * i) % 90 for i in range(1 + 37 * n % 300))
        seq += len(value)
        pairs.append((chunk_key(seq), value))
    return header() + entries(pairs)


def with_pairs(pairs):
    """A count of metadata pairs, and the pairs."""
    return big_endian(len(pairs), 4) + b"".join(variable(len(text)) + text for pair in pairs for text in pair)


def files():
    """Each file's name and bytes, in the order in which they are told."""
    out = [("forty", forty())]
    out.append(("text_keys", header(keys=TEXT_CLASS) + hellos()))
    out.append(("text_values", header(values=TEXT_CLASS) + hellos()))
    out.append(("record_compressed", header(packed=b"\x01\x00") + hellos()))
    out.append(("block_compressed", header(packed=b"\x01\x01") + hellos()))
    out.append(("version_5", header(version=5) + hellos()))
    pairs = [(b"made.by", b"another"), (b"", b""), (b"long", b"x" * 200)]
    out.append(("three_pairs", header(meta=with_pairs(pairs)) + hellos()))
    for size in range(9):
        out.append(("class_length_%d" % size, header(size=size) + hellos()))
    out.append(("metadata_2_31", header(meta=big_endian(2 ** 31, 4)) + hellos()))
    out.append(("metadata_2_31_less_one", header(meta=big_endian(2 ** 31 - 1, 4)) + hellos()))
    out.append(("negative_text", header(meta=big_endian(1, 4) + b"\x87\x00") + hellos()))
    out.append(("not_a_seq", b"SEX\x06" + hellos()))
    out.append(("empty", b""))
    other_keys = [(b"any key", b"v" * 3000), (b"", b""), (started_key(9, 5), b"four")]
    out.append(("other_keys", header() + entries(other_keys)))
    other_marker = hellos() + SYNC + marker("c1.1.2") + hellos() + SYNC + marker(STEM) + hellos()
    out.append(("other_marker", header() + other_marker))
    return [(name + ".seq", data) for name, data in out]


# What is read.

class Refused(Exception):
    """Why a header is refused, as it is printed."""


def number_at(data, at, width):
    return int.from_bytes(data[at:at + width], "big")


def expect(data, at, wanted, fault):
    """The place behind these bytes. Other bytes are a fault, and too few of them are a short file."""
    have = data[at:at + len(wanted)]
    if have != wanted[:len(have)]:
        raise Refused(fault)
    if len(have) < len(wanted):
        raise Refused("short")
    return at + len(wanted)


def signed(byte):
    return byte - 256 if byte > 127 else byte


def variable_at(data, at):
    """A number's spelling at this place: (number, place behind it), or None where the file ends in it. A number that is
    negative or at least 2^31 is -1."""
    if at >= len(data):
        return None
    first = signed(data[at])
    if first >= -112:
        return (max(first, -1), at + 1)
    size = -112 - first if first >= -120 else -120 - first
    if len(data) < at + 1 + size:
        return None
    number = number_at(data, at + 1, size)
    sound = first >= -120 and number < 2 ** 31
    return (number if sound else -1, at + 1 + size)


def may_go_on(data, at, fits):
    """Whether the file ends in what may become a spelling of a number that fits."""
    if at >= len(data):
        return True
    first = signed(data[at])
    if first >= -112 or first < -120:
        return False
    size, have = -112 - first, data[at + 1:]
    least = int.from_bytes(have, "big") << (8 * (size - len(have)))
    most = least + (1 << (8 * (size - len(have)))) - 1
    return fits(least, most)


def class_at(data, at):
    """The place behind a class name, which has to be that of bytes."""
    wanted = len(BYTES_CLASS)
    found = variable_at(data, at)
    if found is None:
        goes_on = may_go_on(data, at, lambda least, most: least <= wanted <= most)
        raise Refused("short" if goes_on else "otherclass")
    if found[0] != wanted:
        raise Refused("otherclass")
    return expect(data, found[1], BYTES_CLASS, "otherclass")


def text_at(data, at):
    """The place behind a metadata text."""
    found = variable_at(data, at)
    if found is None:
        goes_on = may_go_on(data, at, lambda least, most: least < 2 ** 31)
        raise Refused("short" if goes_on else "badmeta %d" % at)
    if found[0] < 0:
        raise Refused("badmeta %d" % at)
    if len(data) < found[1] + found[0]:
        raise Refused("short")
    return found[1] + found[0]


def header_at(data):
    """The marker, and the place behind the header."""
    at = expect(data, 0, b"SEQ", "notseq")
    if len(data) > at and data[at] != 6:
        raise Refused("version %d" % data[at])
    at = expect(data, at, b"\x06", "version")
    at = class_at(data, class_at(data, at))
    at = expect(data, at, b"\0\0", "compressed")
    count = number_at(data, at, 4)
    if len(data) > at and data[at] > 127:
        raise Refused("badmeta %d" % at)
    if len(data) < at + 4:
        raise Refused("short")
    at += 4
    for _ in range(2 * count):
        at = text_at(data, at)
    if len(data) < at + 16:
        raise Refused("short")
    return data[at:at + 16], at + 16


def entry_at(data, at, mark):
    """What stands at this place: ("end", at), ("sync", place behind it), ("record", place behind it) or (why, at)."""
    left = len(data) - at
    if left == 0:
        return "end", at
    if left < 4:
        return "torn", at
    both = number_at(data, at, 4)
    if both == 2 ** 32 - 1:
        if left < 20:
            return "torn", at
        return ("sync", at + 20) if data[at + 4:at + 20] == mark else ("badmarker", at)
    if both >= 2 ** 31:
        return "badlength", at
    if left < 8:
        return "torn", at
    key = number_at(data, at + 4, 4)
    if key > both or key < 4 or both - key < 4:
        return "badlength", at
    if left < 8 + both:
        return "torn", at
    if number_at(data, at + 8, 4) != key - 4 or number_at(data, at + 8 + key, 4) != both - key - 4:
        return "badlength", at
    return "record", at + 8 + both


def word_at(data, at):
    """A word of a key and the place behind it, or None."""
    if len(data) < at + 2:
        return None
    end = at + 2 + number_at(data, at, 2)
    word = data[at + 2:end]
    sound = end <= len(data) and 0 < len(word) <= 4096 and all(byte > 32 and byte != 127 for byte in word)
    try:
        return (word.decode(), end) if sound else None
    except UnicodeDecodeError:
        return None


def chunk_at(data):
    """The sequence id and the three names of a key of a chunk, or None."""
    if data[:1] not in (b"\x01", b"\x02") or len(data) < 9:
        return None
    seq, = struct.unpack(">Q", data[1:9])
    at, start, words = 9, 0, 3
    if data[:1] == b"\x02":
        if len(data) < 17:
            return None
        start, at, words = number_at(data, 9, 8), 17, 4
    names = []
    for _ in range(words):
        found = word_at(data, at)
        if found is None:
            return None
        names.append(found[0])
        at = found[1]
    sound = at == len(data) and start < 2 ** 62 and start < seq < 2 ** 63
    return (seq, names[:3]) if sound else None


def record_line(data, at, end):
    key = number_at(data, at + 4, 4) - 4
    found = chunk_at(data[at + 12:at + 12 + key])
    value = end - (at + 16 + key)
    if found is None or not 0 < value <= found[0]:
        return f"other {at} {end}\n"
    return f"entry {at} {end} {' '.join(found[1])} {found[0]}\n"


def told(name, data):
    """The status and the lines that `salvage` owes of a file."""
    try:
        mark, at = header_at(data)
    except Refused:
        return 5, f"damaged {name} 0\n"
    lines = ""
    while True:
        what, behind = entry_at(data, at, mark)
        if what == "end":
            return 0, lines
        if what not in ("sync", "record"):
            found = data.find(SYNC + mark, at + 1)
            behind = len(data) if found < 0 else found
            lines += f"skipped {at} {behind}\n"
        elif what == "record":
            lines += record_line(data, at, behind)
        at = behind


def cases():
    """Each file's name and bytes."""
    made = files()
    name, good = made[0]
    yield name, good
    for cut in range(CUTS):
        at = min(cut * (len(good) // CUTS), len(good))
        yield f"cut.{at}", good[:at]
    for at in range(min(TURNED, len(good))):
        yield f"turned.{at}", good[:at] + bytes([255 - good[at]]) + good[at + 1:]
    yield from made[1:]


def main():
    parser = parser_of(__doc__)
    add_program(parser)
    program, count, wrong = program_of(parser.parse_args()), 0, 0
    with tempfile.TemporaryDirectory() as folder:
        for name, data in cases():
            with open(f"{folder}/{name}", "wb") as file:
                file.write(data)
            ran = subprocess.run([program, "salvage", name], cwd=folder, capture_output=True, timeout=20, check=False)
            got, count = (ran.returncode, ran.stdout.decode()), count + 1
            if got != told(name, data):
                wrong += 1
                print(f"{name}: wanted {told(name, data)!r}, got {got!r}")
    print(f"damaged files: {'ok' if wrong == 0 else 'DIFFERS'}, {count} read")
    sys.exit(1 if wrong else 0)


if __name__ == "__main__":
    main()
