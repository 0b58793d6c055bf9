#!/usr/bin/env python3
"""Kills a command before each of its calls on files, makes each of them fail, and runs it again.

usage: tools/try/kill_calls.py [--every N] [--jobs N] [--error NAME]... [--keep FOLDER] [--program FILE] COMMAND...

COMMAND is `archive` over made sinks, a book with sixteen segments, which the run merges, and chunks that were
set aside; `demux` over a made archive; `round` over two logs; or one of `small-archive`, `small-demux`,
`small-join` and `small-round` over a few bytes. It needs `strace`, of Debian's packages. One run tells the calls on files that
the command makes. For each of them, in an own folder, the command is killed by SIGKILL when it enters the
call, and in further runs the call answers EIO and, where that can be, ENOSPC, without being done. After each
the archive has to be readable, each stream's a prefix of its log and no shorter than before; a run that ended
with 0 has to be whole, another status than 3 is wrong. Then the command runs again with no fault: it has to
end with 0, and the archive to be whole; and a further run has nothing to do. It prints the points, the seconds
and what was wrong, and ends with 1 where something was. JOBS tries (2) go on at a time; `--every N` tries each
N-th call alone.
"""
import collections
import os
import concurrent.futures
import re
import shutil
import signal
import struct
import sys
import tempfile
import time

sys.path.insert(0, os.path.join(os.path.dirname(os.path.abspath(__file__)), "../lib"))

from archive_reader import Damaged
from running import add_program, load, parser_of, program_of, ran
from scenes import SCENES, SMALL, Wrong, again, prefixes

READING = "read pread64 readv lseek statx fstat stat newfstatat getdents64 close flock"
WRITING = "open openat creat write pwrite64 writev fsync fdatasync rename renameat renameat2 unlink unlinkat"
WRITING += " mkdir mkdirat ftruncate truncate fallocate copy_file_range sendfile"
NAMES = (READING + " " + WRITING).split()
# The folder that the program makes first: what comes before is its start by the system.
FIRST = "sinks"


def points_of(trace):
    """The calls of a trace, from the first one that the program's own code makes on, each with its number
    among those of its name."""
    found, counts, is_begun = [], collections.Counter(), False
    with open(trace, encoding="utf-8", errors="replace") as file:
        for line in file:
            match = re.match(r"\d+ +(\w+)\((.*)", line)
            if match:
                name = match[1]
                counts[name] += 1
                is_begun = is_begun or (name.startswith("mkdir") and f'"{FIRST}"' in match[2])
                if is_begun:
                    found.append((name, counts[name], match[2].strip()))
    return found


class Tries:
    def __init__(self, asked, scene):
        self.asked, self.scene = asked, scene
        self.ended, self.wrong = collections.Counter(), 0

    def points(self):
        """The calls on files of a run without a fault."""
        with tempfile.TemporaryDirectory(prefix="kill-calls-") as folder:
            self.scene.make(folder)
            trace = f"{folder}/trace"
            words = ["strace", "-f", "-qq", "-o", trace, "-e", "trace=" + ",".join(f"?{name}" for name in NAMES)]
            status, out, error = ran([*words, self.asked.program, *self.scene.words], folder)
            if status != 0:
                sys.exit(f"{' '.join(self.scene.words)} without a fault: {status} {out} {error}")
            self.scene.whole(folder)
            return points_of(trace)

    def faulted(self, folder, name, number, fault):
        """The status of a run whose call fails so, none where it was killed there."""
        inject = f"inject={name}:{fault}:when={number}"
        words = ["strace", "-f", "-qq", "-o", "/dev/null", "-e", f"trace={name}", "-e", inject]
        status, out, error = ran([*words, self.asked.program, *self.scene.words], folder)
        if fault.startswith("signal"):
            if status != -signal.SIGKILL:
                raise Wrong(f"wasn't killed there: {status} {out} {error}")
            return None
        if status not in (0, 3):
            raise Wrong(f"ended with {status} {out} {error}")
        return status

    def one(self, point):
        name, number, what, fault = point
        with tempfile.TemporaryDirectory(prefix="kill-calls-") as folder:
            try:
                self.scene.make(folder)
                status = self.faulted(folder, name, number, fault)
                self.ended[f"ended with {status}" if status is not None else "killed"] += 1
                prefixes(self.scene, folder)
                if status == 0:
                    self.scene.whole(folder)
                again(self.asked.program, self.scene.words, folder)
                self.scene.whole(folder)
                self.scene.further(self.asked.program, folder)
            except (Wrong, Damaged, OSError, struct.error) as why:
                self.wrong += 1
                print(f"wrong: {name} {number} ({what[:60]}) {fault}: {why}", flush=True)
                if self.asked.keep:
                    shutil.copytree(folder, f"{self.asked.keep}/{name}.{number}.{fault.replace('=', '.')}")

    def all(self, points):
        tries = []
        for name, number, what in points[:: self.asked.every]:
            tries.append((name, number, what, "signal=KILL"))
            for error in self.asked.error or ["EIO", "ENOSPC"]:
                if error != "ENOSPC" or name in WRITING.split():
                    tries.append((name, number, what, f"error={error}"))
        with concurrent.futures.ThreadPoolExecutor(self.asked.jobs) as pool:
            list(pool.map(self.one, tries))
        return len(tries)


def tried(asked, command):
    """Whether all was right with a command."""
    began, tries = time.monotonic(), Tries(asked, {**SCENES, **SMALL}[command]())
    points = tries.points()
    print(f"{command}: {len(points)} calls on files", flush=True)
    count = tries.all(points)
    print(f"{command}: points {count}: " + ", ".join(f"{n} {how}" for how, n in sorted(tries.ended.items())))
    wrong = f"{tries.wrong} BAD" if tries.wrong else "ok"
    print(f"{command}: seconds {time.monotonic() - began:.0f}: {wrong}", flush=True)
    return tries.wrong == 0


def main():
    parser = parser_of(__doc__)
    parser.add_argument("commands", choices=[*SCENES, *SMALL], nargs="+", metavar="COMMAND",
                        help=", ".join([*SCENES, *SMALL]))
    parser.add_argument("--every", type=int, default=1, help="try each N-th call alone (1)")
    parser.add_argument("--jobs", type=int, default=2, help="tries at a time (2)")
    parser.add_argument("--error", action="append", help="an error that calls answer (EIO and ENOSPC)")
    parser.add_argument("--keep", help="a folder for copies of what was wrong")
    add_program(parser)
    asked = parser.parse_args()
    asked.program = program_of(asked)
    if not shutil.which("strace"):
        sys.exit("strace isn't here")
    print(load(), flush=True)
    return 0 if all([tried(asked, command) for command in asked.commands]) else 1


if __name__ == "__main__":
    sys.exit(main())
