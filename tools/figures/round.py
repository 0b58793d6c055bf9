#!/usr/bin/env python3
"""Times `chukwa round` over large logs beside `cp` of them with a sync.

usage: tools/figures.py round [--mib N] [--logs N]... [--rounds N] [--program FILE]

It works in a new folder below the current one, so that the disk is the caller's, which needs three times the
bytes. N mebibytes (1024) of lines stand in 1 log and then in 64, or in as many as `--logs` says. For each, in
each round (1), the logs are read once, copied by `cp` to another folder with `sync` of it, and then a round
takes them to the archive. A row has MB/s of the logs' bytes, seconds, processor seconds and the peak of the
resident memory; a round writes each byte twice, once in a sink and once in a segment. A round that ends with
another status than 0, another line than the logs ask for, or an archive that isn't the logs, byte for
byte, ends the script with 1. Whether it holds less than 48 MB is told.
"""
import os
import shutil
import sys
import tempfile

sys.path.insert(0, os.path.join(os.path.dirname(os.path.abspath(__file__)), "../lib"))

import copies
from archive_reader import Comparison
from running import MIB, Used, add_program, load, parser_of, program_of, row


def printed(folder, paths):
    """What a round over such logs prints."""
    sizes = [os.path.getsize(f"{folder}/{path}") for path in paths]
    streams = [f"stream h1 Log {path} {size}\n" for path, size in zip(paths, sizes)]
    return "".join(streams) + f"archive unclosed 0 taken {sum(sizes)} held 0 removed "


def rounded(program, folder, paths):
    with open(f"{folder}/said", "wb") as said:
        used = Used([program, "round", "h1", "Log", *paths], folder, said).wait(3600)
    with open(f"{folder}/said", encoding="utf-8") as said:
        out = said.read()
    if used.status != 0 or not out.startswith(printed(folder, paths)):
        sys.exit(f"round: status {used.status} {out}")
    logs = {("h1", "Log", path): f"{folder}/{path}" for path in paths}
    if why := Comparison(folder, logs).difference():
        sys.exit(f"an archive isn't its log: {why}")
    return used


def measured(asked, count):
    what = f"{asked.mib} MiB in {count} log{'s' if count > 1 else ''}"
    with tempfile.TemporaryDirectory(dir=".", prefix="figures-") as folder:
        paths = copies.write_logs(folder, asked.mib * MIB, count)
        copies.settled(folder, "logs/*.log")
        copied = copies.shell(folder, "mkdir copy && cp logs/*.log copy/ && sync -f copy")
        shutil.rmtree(f"{folder}/copy")
        used = rounded(asked.program, folder, paths)
    print(row(f"{what}: cp and sync", asked.mib * MIB, copied))
    print(row(f"{what}: round", asked.mib * MIB, used))
    print(copies.share(f"{what}: round and cp", used, copied, None), flush=True)


def main():
    parser = parser_of(__doc__)
    parser.add_argument("--mib", type=int, default=1024, help="mebibytes of logs (1024)")
    parser.add_argument("--logs", type=int, action="append", help="numbers of logs (1 and 64)")
    parser.add_argument("--rounds", type=int, default=1, help="runs of each row (1)")
    add_program(parser)
    asked = parser.parse_args()
    asked.program = program_of(asked)
    print(load())
    for count in asked.logs or [1, 64]:
        for _ in range(asked.rounds):
            measured(asked, count)


if __name__ == "__main__":
    main()
