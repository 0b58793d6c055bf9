"""Sinks and segments that are made record by record, as docs/FORMATS.md says."""
import hashlib
import struct

from archive_reader import ESCAPE, FRONT, HEADER, SYNC_EVERY


class SequenceFile:
    """A sink or segment of this stem: each piece of it is put, as into a file or a digest."""

    def __init__(self, stem, put):
        self.put, self.place, self.synced = put, HEADER, HEADER
        self.marker = hashlib.md5(stem.encode()).digest()
        put(FRONT + self.marker)

    def record(self, end, tail, data):
        """A record of a stream whose names stand so in keys, and that ends at this offset; the place of its first byte."""
        if self.place - self.synced >= SYNC_EVERY:
            self.put(ESCAPE + self.marker)
            self.place += 20
            self.synced = self.place
        key = 9 + len(tail)
        both = 8 + key + len(data)
        head = struct.pack(">IIIBQ", both, key + 4, key, 1, end)
        self.put(b"".join((head, tail, struct.pack(">I", len(data)), data)))
        self.place += 8 + both
        return self.place - 8 - both
