#!/usr/bin/env python3
"""Loses the power at each call of a command, as a disk may that keeps no more than was synced, and runs it again.

usage: tools/try/power_loss.py [--killed] [--every N] [--jobs N] [--keep FOLDER] [--program FILE] COMMAND...

COMMAND is one of those of tools/try/kill_calls.py, over the same files, or `collector`. It needs `strace`. One run
tells the calls that change files. Behind each of them the files are made, each in an own folder, that a loss of
power may leave: of each file what was synced, or all that was written, or false bytes in place of what wasn't
synced; of each folder the names at its last sync, or those that are there. In each the archive has to be
readable, each stream's a prefix of its log and no shorter than before the run; then the command runs again: it
has to end with 0, the archive to be whole, and a further run to have nothing to do. A collector gets posts and
polls: what its answers to polls said is committed has to be in a closed sink after the next start. With
`--killed` a run was killed before, after each call in turn that left something unsynced, and the power goes in
the run that follows it; a disk that writes changes of names in their order, as those of ext4 and xfs, loses
less. What has the same bytes is tried once. It prints the points and the seconds, and ends with 1 where
something was wrong. JOBS tries (2) go on at a time; `--every N` tries each N-th one alone.
"""
import concurrent.futures
import copy
import hashlib
import os
import re
import shutil
import struct
import sys
import tempfile
import time

sys.path.insert(0, os.path.join(os.path.dirname(os.path.abspath(__file__)), "../lib"))

from archive_reader import Damaged, chunks, contents
from kill_servers import CollectorScene, run
from running import add_program, free_ports, load, parser_of, program_of, ran
from scenes import SCENES, SMALL, Wrong, again, prefixes

CALLS = "openat write fsync fdatasync rename unlink mkdir ftruncate close".split()
# What a collector is asked, and what it answers.
MESSAGES = ["recvfrom", "sendto"]
# Calls that this script doesn't follow: a program that makes one has to be followed by more code.
OTHERS = "open creat pwrite64 writev renameat renameat2 unlinkat mkdirat truncate fallocate copy_file_range sendfile"
LINE = re.compile(r"\d+ +(\w+)\((.*)\) += (-?\d+)")
TEXT = re.compile(r'"((?:\\x[0-9a-f]{2})*)"')


class File:
    """The bytes of a file, and how they stood at its last sync."""

    def __init__(self, data):
        self.data = self.synced = data

    def false(self):
        """False bytes stand in place of those that weren't synced."""
        more = max(len(self.data) - len(self.synced), 0)
        return self.synced + b"\xa5" * more


def folder_of(name):
    return os.path.dirname(name) or "."


class Disk:
    """Files by name and folders, as they are seen and as they are on the disk."""

    def __init__(self, folder):
        self.open, self.files, self.folders = {}, {}, {"."}
        for place, below, names in os.walk(folder):
            for name in below:
                self.folders.add(os.path.relpath(f"{place}/{name}", folder))
            for name in names:
                at = os.path.relpath(f"{place}/{name}", folder)
                self.files[at] = File(contents(f"{folder}/{at}"))
        self.kept_files, self.kept_folders = dict(self.files), set(self.folders)

    def call(self, name, texts, words, answer):
        """One call of a trace, with its texts and its other words."""
        if answer >= 0:
            getattr(self, f"do_{name}")(texts, words, answer)

    def do_openat(self, texts, words, answer):
        name = os.path.normpath(texts[0].decode())
        if "O_CREAT" in words and name not in self.files:
            self.files[name] = File(b"")
            self.files[name].synced = b""
        self.open[answer] = self.files.get(name, name)
        if "O_TRUNC" in words and isinstance(self.open[answer], File):
            self.open[answer].data = b""

    def do_write(self, texts, words, answer):
        file = self.open.get(int(words.split(",")[0]))
        if isinstance(file, File):
            file.data += texts[0][:answer]

    def do_ftruncate(self, _, words, answer):
        at, length = words.split(",")
        self.open[int(at)].data = self.open[int(at)].data[: int(length)]

    def do_close(self, _, words, answer):
        self.open.pop(int(words), None)

    def do_fsync(self, _, words, answer):
        what = self.open[int(words)]
        if isinstance(what, File):
            what.synced = what.data
            return
        others = {name: file for name, file in self.kept_files.items() if folder_of(name) != what}
        self.kept_files = others | {name: file for name, file in self.files.items() if folder_of(name) == what}
        self.kept_folders |= {name for name in self.folders if folder_of(name) == what}

    do_fdatasync = do_fsync

    def do_rename(self, texts, words, answer):
        old, new = (os.path.normpath(text.decode()) for text in texts)
        self.files[new] = self.files.pop(old)

    def do_unlink(self, texts, words, answer):
        del self.files[os.path.normpath(texts[0].decode())]

    def do_mkdir(self, texts, words, answer):
        self.folders.add(os.path.normpath(texts[0].decode()))

    def key(self):
        """What is seen and what is synced."""
        seen = sorted((name, file.data) for name, file in self.files.items())
        return repr((sorted(self.folders), seen, self.synced()))

    def synced(self):
        return sorted(self.kept_folders), sorted((name, file.synced) for name, file in self.kept_files.items())

    def is_unsynced(self):
        return (sorted(self.folders), sorted((name, file.data) for name, file in self.files.items())) != self.synced()

    def states(self):
        """What a loss of power may leave: folders, and files by name."""
        for names, folders in ((self.files, self.folders), (self.kept_files, self.kept_folders)):
            for form in (lambda file: file.data, lambda file: file.synced, File.false):
                held = {name: form(file) for name, file in names.items()}
                yield folders, {name: data for name, data in held.items() if folder_of(name) in folders}


def followed(trace):
    """The calls of a trace that change files: their names, texts, other words and answers."""
    with open(trace, encoding="ascii") as file:
        for line in file:
            match = LINE.match(line)
            if match is None:
                continue
            name, rest, answer = match[1], match[2], int(match[3])
            if name not in CALLS + MESSAGES:
                raise Wrong(f"a call that isn't followed: {line[:100]}")
            texts = [bytes.fromhex(text.replace("\\x", "")) for text in TEXT.findall(rest)]
            yield name, texts, TEXT.sub("", rest), answer


def traced(trace, more):
    """Words that run a program and write its calls down, all their bytes too."""
    names = ",".join(f"?{name}" for name in CALLS + OTHERS.split() + more)
    return ["strace", "-f", "-qq", "-xx", "-s", "99999999", "-o", trace, "-e", f"trace={names}"]


def written(folder, folders, files):
    for name in sorted(folders):
        os.makedirs(f"{folder}/{name}", exist_ok=True)
    for name, data in files.items():
        with open(f"{folder}/{name}", "wb") as file:
            file.write(data)


class Losses:
    def __init__(self, asked, command):
        self.asked, self.scene = asked, {**SCENES, **SMALL}[command]()
        self.wrong, self.seen = 0, {}

    def states(self):
        """Each state that a loss of power may leave, told once, and behind which call it is there first."""
        with tempfile.TemporaryDirectory(prefix="power-loss-") as folder:
            self.scene.make(folder)
            disk, trace = Disk(folder), f"{folder}.trace"
            status, out, error = ran([*traced(trace, []), self.asked.program, *self.scene.words], folder)
            try:
                if status != 0:
                    raise Wrong(f"without a loss: {status} {out} {error}")
                self.follow(disk, trace)
            finally:
                os.remove(trace)
            self.same(folder, disk)

    def follow(self, disk, trace):
        for number, (name, texts, rest, answer) in enumerate(followed(trace)):
            disk.call(name, texts, rest, answer)
            for folders, files in disk.states():
                self.note(f"{number} {name}", folders, files)

    def killed(self):
        """The disks behind each call of a run that leaves something unsynced, and behind which call."""
        found = {}
        with tempfile.TemporaryDirectory(prefix="power-loss-") as folder:
            self.scene.make(folder)
            disk, trace = Disk(folder), f"{folder}.trace"
            ran([*traced(trace, []), self.asked.program, *self.scene.words], folder)
            for number, (name, texts, rest, answer) in enumerate(followed(trace)):
                disk.call(name, texts, rest, answer)
                if disk.is_unsynced() and name != "close":
                    found.setdefault(disk.key(), (f"{number} {name}", copy.deepcopy(disk)))
            os.remove(trace)
        return list(found.values())

    def second(self, what, disk):
        """The states that a loss of power may leave in a run behind one that was killed."""
        disk.open = {}
        with tempfile.TemporaryDirectory(prefix="power-loss-") as folder:
            written(folder, disk.folders, {name: file.data for name, file in disk.files.items()})
            trace = f"{folder}.trace"
            ran([*traced(trace, []), self.asked.program, *self.scene.words], folder)
            for number, (name, texts, rest, answer) in enumerate(followed(trace)):
                disk.call(name, texts, rest, answer)
                for folders, files in disk.states():
                    self.note(f"{number} {name} of a run after one that was killed behind {what}", folders, files)
            os.remove(trace)

    def same(self, folder, disk):
        """The files that were followed are those that the run left."""
        for name, file in disk.files.items():
            if not os.path.exists(f"{folder}/{name}") or contents(f"{folder}/{name}") != file.data:
                raise Wrong(f"{name} wasn't followed")

    def note(self, what, folders, files):
        digest = hashlib.sha256(repr((sorted(folders), sorted(files.items()))).encode()).digest()
        self.seen.setdefault(digest, (what, set(folders), files))

    def one(self, state):
        what, folders, files = state[:3]
        with tempfile.TemporaryDirectory(prefix="power-loss-") as folder:
            written(folder, folders, files)
            if self.asked.keep:
                shutil.copytree(folder, f"{self.asked.keep}/{what.replace(' ', '.')}.{id(state)}")
            try:
                self.check(folder, *state[3:])
            except (Wrong, Damaged, OSError, struct.error, KeyError) as why:
                self.wrong += 1
                print(f"wrong: behind {what}: {why}", flush=True)

    def check(self, folder):
        prefixes(self.scene, folder)
        again(self.asked.program, self.scene.words, folder)
        self.scene.whole(folder)
        self.scene.further(self.asked.program, folder)

    def all(self):
        states = list(self.seen.values())[:: self.asked.every]
        with concurrent.futures.ThreadPoolExecutor(self.asked.jobs) as pool:
            list(pool.map(self.one, states))
        return len(states)


class CollectorLosses(Losses):
    """A collector, and what it told of committed lengths."""

    def __init__(self, asked):
        self.asked, self.wrong, self.seen, self.told, self.polled = asked, 0, {}, {}, False

    def states(self):
        with tempfile.TemporaryDirectory(prefix="power-loss-") as folder:
            self.scene = CollectorScene(folder)
            disk, trace = Disk(folder), f"{folder}.trace"
            status, out, error = run(self.asked.program, self.scene, traced(trace, MESSAGES))
            try:
                if status != 0:
                    raise Wrong(f"without a loss: {status} {out} {error}")
                self.follow(disk, trace)
            finally:
                os.remove(trace)
            self.same(folder, disk)
        if not self.told:
            raise Wrong("no poll was answered")

    def follow(self, disk, trace):
        for number, (name, texts, rest, answer) in enumerate(followed(trace)):
            if name in MESSAGES:
                self.message(name, texts[0] if texts else b"")
                continue
            disk.call(name, texts, rest, answer)
            for folders, files in disk.states():
                self.note(f"{number} {name}", folders, files)

    def message(self, name, text):
        """What it is asked, and what its answer to a poll tells."""
        if name == "recvfrom":
            self.polled = text[:4] == b"GET " or self.polled and text[:4] != b"POST"
        elif self.polled:
            rows = [line.split() for line in text.partition(b"\r\n\r\n")[2].decode().splitlines()]
            self.told = self.told | {stem: int(end) for stem, end in rows}

    def note(self, what, folders, files):
        told = sorted(self.told.items())
        digest = hashlib.sha256(repr((sorted(folders), sorted(files.items()), told)).encode()).digest()
        self.seen.setdefault(digest, (what, set(folders), files, self.told))

    def check(self, folder, told):
        door = f"127.0.0.1:{free_ports(1)[0]}"
        again(self.asked.program, ["collector", "--turns", "1", "c1", door], folder)
        for name in os.listdir(f"{folder}/sinks"):
            if name.endswith(".done"):
                self.chunks(f"{folder}/sinks/{name}")
        for stem, end in told.items():
            if os.path.getsize(f"{folder}/sinks/{stem}.done") < end:
                raise Wrong(f"{stem}: {end} bytes were committed, and fewer are there")

    def chunks(self, name):
        for chunk in chunks(name):
            if self.scene.logs[chunk.stream][chunk.first : chunk.end] != chunk.data:
                raise Wrong(f"{name}: false bytes of {chunk.stream} from {chunk.first} on")


def lost(asked, command):
    """Whether all was right with a command."""
    began = time.monotonic()
    losses = CollectorLosses(asked) if command == "collector" else Losses(asked, command)
    if asked.killed:
        for what, disk in losses.killed():
            losses.second(what, disk)
    else:
        losses.states()
    count = losses.all()
    wrong = f"{losses.wrong} BAD" if losses.wrong else "ok"
    print(f"{command}: points {count}, seconds {time.monotonic() - began:.0f}: {wrong}", flush=True)
    return losses.wrong == 0


def main():
    parser = parser_of(__doc__)
    choices = [*SCENES, *SMALL, "collector"]
    parser.add_argument("commands", choices=choices, nargs="+", metavar="COMMAND", help=", ".join(choices))
    parser.add_argument("--killed", action="store_true", help="a run was killed before")
    parser.add_argument("--every", type=int, default=1, help="try each N-th state alone (1)")
    parser.add_argument("--jobs", type=int, default=2, help="tries at a time (2)")
    parser.add_argument("--keep", help="a folder for copies of all states")
    add_program(parser)
    asked = parser.parse_args()
    asked.program = program_of(asked)
    if asked.killed and "collector" in asked.commands:
        parser.error("--killed is for the commands of tools/try/kill_calls.py")
    if not shutil.which("strace"):
        sys.exit("strace isn't here")
    print(load(), flush=True)
    return 0 if all([lost(asked, command) for command in asked.commands]) else 1


if __name__ == "__main__":
    sys.exit(main())
