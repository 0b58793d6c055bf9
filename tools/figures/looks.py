#!/usr/bin/env python3
"""Times `chukwactl cat` and `sum` over a made archive beside `cat` and `sha256sum` of the same bytes.

usage: tools/figures.py looks [--mib N] [--rounds N] [--look FILE]

It works in a new folder below the current one. N mebibytes (256) of lines stand in an archive of one segment, as one
stream, in chunks of 131,072, of 4,096 and of 200 bytes. In each round (1) `cat` prints the segment and the log, which
come from the system's memory, into a pipe that `wc -c` reads, and `chukwactl cat` prints the stream so; then
`sha256sum` reads the log, and `chukwactl sum` the store. What `chukwactl` printed has to be the log's bytes and its
digest: otherwise the script ends with 1. Whether it has half of the speed of `cat` is told.
"""
import hashlib
import os
import subprocess
import sys
import tempfile

sys.path.insert(0, os.path.join(os.path.dirname(os.path.abspath(__file__)), "../lib"))

import archive_records as made
import copies
from running import MIB, Used, load, parser_of, row
from sequence_files import SequenceFile

TOP = os.path.dirname(os.path.dirname(os.path.dirname(os.path.abspath(__file__))))
LOOK = f"{TOP}/crates/chukwactl/out/chukwactl"
CHUNKS = (131_072, 4_096, 200)
SPEED_GOAL = 50


def write_store(folder, chunk, stream):
    """The archive of the log in chunks of so many bytes, in one segment."""
    os.makedirs(f"{folder}/archive", exist_ok=True)
    end, tail = 0, made.stream(stream)
    with open(f"{folder}/archive/seg.1", "wb") as file, open(f"{folder}/{stream[2]}", "rb") as log:
        segment = SequenceFile("seg.1", file.write)
        while data := log.read(chunk):
            end += len(data)
            segment.record(end, tail, data)
    with open(f"{folder}/archive/book", "wb") as file:
        file.write(made.book(2, [(1, segment.place)], [(stream, end, 0)]))


def same_bytes(look, folder, stream):
    """What is printed of the stream has the digest of its log."""
    hashed = hashlib.sha256()
    with subprocess.Popen([look, "cat", ".", *stream], cwd=folder, stdin=subprocess.DEVNULL, stdout=subprocess.PIPE) as child:
        while piece := child.stdout.read(MIB):
            hashed.update(piece)
    with open(f"{folder}/{stream[2]}", "rb") as log:
        digest = hashlib.file_digest(log, "sha256").hexdigest()
    told = subprocess.run([look, "sum", "."], cwd=folder, capture_output=True, text=True, check=True).stdout
    if child.returncode != 0 or hashed.hexdigest() != digest or told.split()[-1] != digest:
        sys.exit(f"chukwactl: what it printed isn't the log: {told}")


def measured(look, folder, size, chunk, stream):
    what, words = f"{size // MIB} MiB in chunks of {chunk}", " ".join(stream)
    raw = copies.shell(folder, "cat archive/seg.1 | wc -c >/dev/null")
    plain = copies.shell(folder, f"cat {stream[2]} | wc -c >/dev/null")
    ours = copies.shell(folder, f"{look} cat . {words} | wc -c >/dev/null")
    hashed = copies.shell(folder, f"sha256sum {stream[2]} >/dev/null")
    summed = copies.shell(folder, f"{look} sum . >/dev/null")
    for name, used in (("cat of the segment", raw), ("cat of the log", plain), ("chukwactl cat", ours),
                       ("sha256sum", hashed), ("chukwactl sum", summed)):
        print(row(f"{what}: {name}", size, used))
    print(copies.share(f"{what}: chukwactl cat and cat", ours, plain, SPEED_GOAL), flush=True)


def main():
    parser = parser_of(__doc__)
    parser.add_argument("--mib", type=int, default=256, help="mebibytes of lines (256)")
    parser.add_argument("--rounds", type=int, default=1, help="runs of each row (1)")
    parser.add_argument("--look", default=LOOK, help="the program that looks (default: the checkout's)")
    asked = parser.parse_args()
    look = os.path.abspath(asked.look)
    if not os.path.isfile(look):
        sys.exit(f"there is no program {asked.look}")
    print(load(), flush=True)
    with tempfile.TemporaryDirectory(dir=".", prefix="figures-") as folder:
        stream = ("h1", "Log", copies.log_paths(1)[0])
        copies.write_logs(folder, asked.mib * MIB, 1)
        for chunk in CHUNKS:
            write_store(folder, chunk, stream)
            same_bytes(look, folder, stream)
            for _ in range(asked.rounds):
                measured(look, folder, asked.mib * MIB, chunk, stream)


if __name__ == "__main__":
    main()
