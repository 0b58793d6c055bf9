#!/usr/bin/env python3
"""Tries the pages of the runbook: makes the trouble, follows the page, and compares the archive with the log.

usage: tools/try/runbook.py [--program FILE] [PAGE...]

Each page, or each of those that are named, runs in a new folder, with ports of 127.0.0.1 that were free, and
prints `ok`, `skipped` and why, or what differed. It ends with 1 where a page differed.
"""
import os
import shutil
import signal
import subprocess
import sys
import tempfile
import time

sys.path.insert(0, os.path.join(os.path.dirname(os.path.abspath(__file__)), "../lib"))

import loopback
from archive_reader import Archive
from loopback import Differs, Room, Skipped, add_lines, address, archived, lines, opened, until, wanted
from running import add_program, free_ports, parser_of, program_of

APP = "Log"


def drained(room, source, where, *more, below="", status=0):
    got, out, error = room.run("drain", *more, source, *where, below=below)
    if got != status:
        raise Differs(f"drain {source}: {got} {out!r} {error!r}")
    return out


def sent(process, number):
    os.killpg(process.child.pid, number)


def ended(process, room, name, where, below="store"):
    """A collector is ended, and its last sink closed."""
    sent(process, signal.SIGTERM)
    until("the collector's end", 20, lambda: process.status() is not None)
    status, out, error = room.run("collector", "--turns", "1", name, where, below=below)
    if status != 0:
        raise Differs(f"the last turn of {name}: {status} {out!r} {error!r}")


def archive_of(room, stream, below="store"):
    archive = Archive(f"{room.folder}/{below}")
    return archive.bytes_of(stream) if stream in archive.book.streams else b""


def job(room, below="store", status=0):
    got, out, error = room.run("archive", below=below)
    if got != status:
        raise Differs(f"archive: {got} {out!r} {error!r}")
    return out


def folders(room, *names):
    for name in names:
        os.makedirs(f"{room.folder}/{name}")


def log_of(room, name="app.log"):
    return f"{room.folder}/logs/{name}"


def put(path, data):
    with open(path, "ab") as file:
        file.write(data)


def collector_hangs(room):
    """An agent goes on with the other collector; what the one that hung had committed is archived."""
    folders(room, "store", "web1")
    path, first, more = log_of(room), lines(b"1", 200), lines(b"2", 200)
    put(path, first)
    add_lines(room, "add", path)
    one, here = opened(room, "--rotate", "600000", name="c1", below="store")
    two, there = opened(room, "--rotate", "600000", name="c2", below="store")
    drained(room, "web1", [here, there], "--initial", "../add", below="web1")
    sent(one, signal.SIGSTOP)
    put(path, more)
    drained(room, "web1", [here, there], below="web1")
    sent(one, signal.SIGKILL)
    until("the end of the one that hung", 10, lambda: one.status() is not None)
    status, out, error = room.run("collector", "--turns", "1", "c1", here, below="store")
    wanted("its last turn", (0, ""), (status, out))
    ended(two, room, "c2", there)
    archived(room, {("web1", APP, path): first + more}, below="store")


def collector_lost(room):
    """The folder goes to another machine, and the same name is started there."""
    folders(room, "store", "web1")
    path, first, more = log_of(room), lines(b"1", 100), lines(b"2", 100)
    put(path, first)
    add_lines(room, "add", path)
    one, here = opened(room, name="c1", below="store")
    drained(room, "web1", [here], "--initial", "../add", below="web1")
    sent(one, signal.SIGKILL)
    until("its end", 10, lambda: one.status() is not None)
    os.rename(f"{room.folder}/store", f"{room.folder}/elsewhere")
    put(path, more)
    two, there = opened(room, name="c1", below="elsewhere")
    drained(room, "web1", [there], below="web1")
    ended(two, room, "c1", there, below="elsewhere")
    archived(room, {("web1", APP, path): first + more}, below="elsewhere")


def store_lost(room):
    """A new store, a new source, and the rotated files as logs of their own."""
    folders(room, "store", "web1", "web1-again")
    path, first, more = log_of(room), lines(b"1", 100), lines(b"2", 100)
    put(path, first)
    add_lines(room, "add", path)
    one, here = opened(room, name="c1", below="store")
    drained(room, "web1", [here], "--initial", "../add", below="web1")
    os.rename(path, path + "-20261101")
    put(path, more)
    drained(room, "web1", [here], below="web1")
    sent(one, signal.SIGKILL)
    until("its end", 10, lambda: one.status() is not None)
    shutil.rmtree(f"{room.folder}/store")
    folders(room, "store")
    room.write("again", f"add CharFileTailingAdaptorUTF8 Log {path} 0\nadd LWFTAdaptor Log {path}-20261101 0\n".encode())
    two, there = opened(room, name="c2", below="store")
    drained(room, "web1-again", [there], "--initial", "../again", below="web1-again")
    ended(two, room, "c2", there)
    archived(room, {("web1-again", APP, path): more, ("web1-again", APP, path + "-20261101"): first}, below="store")


def agent_lost(room):
    """A new source reads the log's present file and the rotated ones; the old stream stays."""
    folders(room, "store", "web1", "web2")
    path, first, more = log_of(room), lines(b"1", 100), lines(b"2", 100)
    put(path, first)
    add_lines(room, "add", path)
    one, here = opened(room, name="c1", below="store")
    drained(room, "web1", [here], "--initial", "../add", below="web1")
    os.rename(path, path + "-20261101")
    put(path, more)
    shutil.rmtree(f"{room.folder}/web1")
    room.write("again", f"add CharFileTailingAdaptorUTF8 Log {path} 0\nadd LWFTAdaptor Log {path}-20261101 0\n".encode())
    drained(room, "web2", [here], "--initial", "../again", below="web2")
    ended(one, room, "c1", here)
    archived(room, {("web1", APP, path): first, ("web2", APP, path): more, ("web2", APP, path + "-20261101"): first}, below="store")


def wrong_store(room):
    """What a second store set aside becomes a sink of the first."""
    folders(room, "store1", "store2", "web1")
    path, parts = log_of(room), [lines(b"%d" % n, 50) for n in range(4)]
    add_lines(room, "add", path)
    one, here = opened(room, name="c1", below="store1")
    two, there = opened(room, name="c2", below="store2")
    for part, where in zip(parts, (here, there, here, there)):
        put(path, part)
        drained(room, "web1", [where], "--initial", "../add", below="web1")
    ended(one, room, "c1", here, below="store1")
    ended(two, room, "c2", there, below="store2")
    for store in ("store1", "store2"):
        out = job(room, below=store)
        if " held 0 " in out:
            raise Differs(f"{store} holds nothing: {out!r}")
    aside = max(int(name[4:]) for name in os.listdir(f"{room.folder}/store2/archive") if name.startswith("seg."))
    shutil.copy(f"{room.folder}/store2/archive/seg.{aside}", f"{room.folder}/store1/sinks/rescue.1.1.done")
    out = job(room, below="store1")
    if " held 0 " not in out:
        raise Differs(f"store1 holds chunks still: {out!r}")
    archived(room, {("web1", APP, path): b"".join(parts)}, below="store1")


def segment_damaged(room):
    """A segment that was cut is told, and put back from the backup."""
    folders(room, "store", "web1", "backup")
    path, data = log_of(room), lines(b"1", 300)
    put(path, data)
    add_lines(room, "add", path)
    one, here = opened(room, name="c1", below="store")
    drained(room, "web1", [here], "--initial", "../add", below="web1")
    ended(one, room, "c1", here)
    job(room)
    shutil.copytree(f"{room.folder}/store/archive", f"{room.folder}/backup/archive")
    os.truncate(f"{room.folder}/store/archive/seg.1", 1_000)
    status, out, _ = room.run("demux", below="store")
    if status != 5 or not out.startswith("damaged archive/seg.1 "):
        raise Differs(f"demux over a cut segment: {status} {out!r}")
    shutil.copy(f"{room.folder}/backup/archive/seg.1", f"{room.folder}/store/archive/seg.1")
    status, out, error = room.run("demux", below="store")
    if status != 0:
        raise Differs(f"demux behind the restore: {status} {out!r} {error!r}")
    archived(room, {("web1", APP, path): data}, below="store")


def backup(room):
    """Checkpoints first, then the archive under the job's lock; both are put back."""
    if not shutil.which("flock"):
        raise Skipped("there is no flock")
    folders(room, "store", "web1", "backup")
    path, parts = log_of(room), [lines(b"%d" % n, 100) for n in range(3)]
    put(path, parts[0])
    add_lines(room, "add", path)
    one, here = opened(room, "--rotate", "200", name="c1", below="store")
    drained(room, "web1", [here], "--initial", "../add", below="web1")
    shutil.copytree(f"{room.folder}/web1/agents", f"{room.folder}/backup/agents")
    put(path, parts[1])
    drained(room, "web1", [here], below="web1")
    time.sleep(2.5)
    job(room)
    subprocess.run(["flock", "locks/job", "cp", "-a", "archive", "../backup/"], cwd=f"{room.folder}/store", check=True, timeout=20)
    put(path, parts[2])
    drained(room, "web1", [here], below="web1")
    time.sleep(2.5)
    job(room)
    wanted("the archive before", b"".join(parts), archive_of(room, ("web1", APP, path)))
    ended(one, room, "c1", here)
    for old, new in (("backup/archive", "store/archive"), ("backup/agents", "web1/agents")):
        shutil.rmtree(f"{room.folder}/{new}")
        shutil.copytree(f"{room.folder}/{old}", f"{room.folder}/{new}")
    wanted("the restored archive", b"".join(parts[:2]), archive_of(room, ("web1", APP, path)))
    two, there = opened(room, name="c1", below="store")
    drained(room, "web1", [there], below="web1")
    ended(two, room, "c1", there)
    archived(room, {("web1", APP, path): b"".join(parts)}, below="store")


def moved(room, old_store, new_store, source):
    """A log goes on in another agent's folder, and maybe in another store, with the old numbers."""
    path, first, more = log_of(room), lines(b"1", 120), lines(b"2", 120)
    put(path, first)
    add_lines(room, "add", path, kind="FileTailingAdaptor")
    one, here = opened(room, name="c1", below=old_store)
    out = drained(room, "web1", [here], "--initial", "../add", below="web1")
    wanted("the drained end", f"stream web1 Log {path} {len(first)}\n", out)
    os.rename(path, path + "-20261101")
    room.write("again", f"add FileTailingAdaptor Log {path} {len(first)}\n".encode())
    put(path, more)
    if new_store == old_store:
        two, there = one, here
    else:
        ended(one, room, "c1", here, below=old_store)
        two, there = opened(room, name="c2", below=new_store)
    out = drained(room, source, [there], "--initial", "../again", below="web2")
    wanted("the new end", f"stream {source} Log {path} {len(first + more)}\n", out)
    ended(two, room, "c1" if new_store == old_store else "c2", there, below=new_store)
    job(room, below=old_store)
    job(room, below=new_store)
    wanted("the old stream", first, archive_of(room, ("web1", APP, path), below=old_store))
    wanted("the new stream", more, archive_of(room, (source, APP, path), below=new_store))


def log_moves(room):
    folders(room, "store", "web1", "web2")
    moved(room, "store", "store", "web2")


def new_store(room):
    folders(room, "store", "store-2", "web1", "web2")
    moved(room, "store", "store-2", "web1")


def upgrade(room):
    """The program is replaced while collector and agent run, and they are restarted one after the other."""
    folders(room, "store", "web1")
    beside = f"{room.folder}/chukwa"
    shutil.copy(room.program, beside)
    path, first, more = log_of(room), lines(b"1", 100), lines(b"2", 100)
    put(path, first)
    add_lines(room, "add", path)
    one, here = opened(room, name="c1", below="store")
    agent = room.start("agent", "--initial", "../add", "--poll", "300", "web1", here, below="web1")
    until("the first lines are committed", 20, lambda: loopback.committed(room, "web1", path, below="web1") == len(first))
    room.program, older = beside, room.program
    sent(one, signal.SIGTERM)
    until("the collector's end", 20, lambda: one.status() is not None)
    again = room.start("collector", "c1", here, below="store")
    put(path, more)
    sent(agent, signal.SIGTERM)
    until("the agent's end", 20, lambda: agent.status() is not None)
    room.start("agent", "--poll", "300", "web1", here, below="web1")
    until("all is committed", 30, lambda: loopback.committed(room, "web1", path, below="web1") == len(first + more))
    ended(again, room, "c1", here)
    room.program = older
    archived(room, {("web1", APP, path): first + more}, below="store")


PAGES = {
    "disk-full": loopback.full_disk, "collector-hangs": collector_hangs, "collector-lost": collector_lost,
    "store-lost": store_lost, "agent-lost": agent_lost, "wrong-store": wrong_store,
    "segment-damaged": segment_damaged, "backup": backup, "log-moves": log_moves, "new-store": new_store,
    "upgrade": upgrade,
}


def tried(program, name):
    with tempfile.TemporaryDirectory() as folder:
        room = Room(program, folder)
        try:
            PAGES[name](room)
        except Skipped as why:
            return f"skipped: {why}"
        except Differs as what:
            return f"DIFFERS: {what}"
        finally:
            room.close()
    return "ok"


def main():
    parser = parser_of(__doc__)
    add_program(parser)
    parser.add_argument("pages", nargs="*", metavar="PAGE", help=", ".join(PAGES))
    asked = parser.parse_args()
    program, bad = program_of(asked), False
    for name in asked.pages or PAGES:
        if name not in PAGES:
            parser.error(f"there is no page {name}")
        told = tried(program, name)
        bad = bad or told.startswith("DIFFERS")
        print(f"{name}: {told}", flush=True)
    sys.exit(1 if bad else 0)


if __name__ == "__main__":
    main()
