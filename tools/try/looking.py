#!/usr/bin/env python3
"""Looks into stores that are made by hand, and into one beside a job that goes on.

usage: tools/try/looking.py [--program FILE] [--look FILE] [--seconds N] [--beside SECONDS]

Each command of `chukwactl` runs below `strace` in a folder that is made by docs/FORMATS.md: its status, its standard
output and its standard error have to be those that are written here, it may open no file but for reading (and
/dev/null in place of a descriptor), make, change, lock and sync none, and run none but `df`, which is a script of this one
that prints what is known before, and is traced too; metrics have to be in their grammar. Then a store
of 8 MB is followed: a look without news may read its book and nothing else, and one with news also what is new; and slow
looks at one of 24 MB have to tell how far they are, on a pseudo terminal and elsewhere. Then, where the program `chukwa`
is built too, rounds archive a growing log for N seconds (20 without the option), and on until one merged, while
`streams`, `verify`, `sum` and `cat` look at the store and `cat --follow` goes on beside them: no look may find damage, what
was printed is the log, and a digest is that of its front. It prints how many looks were made, and ends with 1 where one
went wrong. It wants strace. With `--beside`, it looks at a store beside `soak.py` for so many seconds instead of these
rounds: below the current folder, while agents, collectors and jobs are killed at random.
"""
import fcntl
import hashlib
import os
import pty
import re
import shutil
import signal
import socket
import subprocess
import sys
import tempfile
import threading
import time

sys.path.insert(0, os.path.join(os.path.dirname(os.path.abspath(__file__)), "../lib"))

from archive_records import CLASS, LOG, big_endian, book, record
from running import TOP, Process, add_program, parser_of, ran

LOOK = f"{TOP}/crates/chukwactl/out/chukwactl"
OTHER = ("h2", "Log", "/a.log")
# Calls that make, change, lock or sync a file, or send.
CHANGES = ("mkdir", "rename", "unlink", "link", "symlink", "rmdir", "truncate", "ftruncate", "fallocate", "chmod",
           "fchmod", "chown", "fchown", "mknod", "utime", "futime", "flock", "fsync", "fdatasync", "sync", "pwrite",
           "socket", "connect", "bind", "sendto", "creat")


def segment(number, *records):
    marker = hashlib.md5(f"seg.{number}".encode()).digest()
    return b"SEQ\x06" + CLASS + CLASS + b"\0\0" + big_endian(0, 4) + marker + b"".join(records)


HELLO, WORL, X = record(6, b"hello\n"), record(10, b"worl"), record(2, b"x\n", OTHER)
SOUND = {
    "archive/seg.1": segment(1, HELLO),
    "archive/seg.2": segment(2, X, WORL),
    "archive/book": book(3, [(1, 144), (2, 186)], [(LOG, 10, 0), (OTHER, 2, 0)]),
    "demux/seg.1": segment(1, HELLO),
    "demux/book": book(2, [(1, 144)], [(LOG, 6, 0)]),
}
FLIPPED = bytearray(SOUND["archive/seg.2"])
FLIPPED[99] ^= 1
CHANGED = bytearray(SOUND["archive/seg.2"])
CHANGED[-1] ^= 1
UNSOUND = "chukwactl: files are damaged\n"
COLLECTED = {
    "agents/h1.check": b"chukwa-checkpoint 1\nadd adaptor_1 = LWFTAdaptor Log /a.log 6 0 -\n",
    "sinks/c.born": big_endian(1, 8),
    "sinks/c.1.1.done": segment(1, HELLO),
    "sinks/c.1.2.chukwa": segment(1, HELLO) + b"\0",
    "sinks/c.1.2.mark": big_endian(144, 8),
}
STREAM = "stream {} Log /a.log start 0 end {} demuxed {}\n"


def summed(host, content):
    digest = hashlib.sha256(content).hexdigest()
    return f"stream {host} Log /a.log start 0 end {len(content)} sha256 {digest}\n"


# What `df` answers in each folder, in blocks of 1,024 bytes, where a row says nothing else of it, and the bytes that
# are free by that; and an answer in which names have spaces.
DF = """\
Filesystem     1024-blocks     Used Available Capacity Mounted on
/dev/sda1         82045336 12345678  65000000      16% /
"""
FREE = 65000000 * 1024
SPACED = "Filesystem 1024-blocks Used Available Capacity Mounted on\n//host/a share 9 1 8 12% /mnt/5% of it\n"

# A store with a sink under writing that grew last long ago, and one with a sink that grew just now.
SINKS = {**SOUND, "sinks/c1.1.3.chukwa": SOUND["archive/seg.1"], "sinks/c1.1.3.mark": big_endian(96, 8),
         "sinks/c1.1.2.done": SOUND["archive/seg.1"]}
STATUS = f"""\
store @
       ARCHIVED         DEMUXED  STREAM
             10               6  h1 Log /a.log
              2               0  h2 Log /a.log
        WRITTEN       COMMITTED           QUIET  SINK
            144              96               {{}}  c1.1.3
       UNCLOSED          CLOSED            HELD
              1               1               0
           FREE
{FREE:>15}
            PID  LOCK
"""
UNKNOWN = "OK - @: unclosed 1 closed 1 held 0 quiet 0 free -\n"
NO_STORE = "store @\n  no store: it has no folder sinks\n"
# The same with locks, of which this script holds that of the job.
LOCKED = {**SINKS, "locks/collector.c1": b"", "locks/job": b"", "held": "locks/job"}
LOCKS = f"              -  collector.c1\n{os.getpid():>15}  job\n"
EMPTY = {"sinks/c1.born": big_endian(1, 8)}
EMPTY_LINE = f"OK - {{}}: unclosed 0 closed 0 held 0 quiet 0 free {FREE}\n"

# What the control door at each letter's port answers.
LIST = "a LWFTAdaptor Log /a.log 6 6 live\nb FileTailingAdaptor Log /b.log 9 4 shrank\n"
DOORS = {"D": LIST.encode() + b"OK 2 adaptors\n", "E": LIST.encode() + b"OK 3 adaptors\n", "F": b"\x1b[2J\nOK 1 adaptors\n"}

WAITING = {
    "archive/seg.1": segment(1, HELLO),
    "archive/seg.2": segment(2, record(11, b"worl")),
    "archive/book": b"CHKB\x03" + big_endian(3, 8) + big_endian(1, 4) + big_endian(1, 8) + big_endian(144, 8)
    + big_endian(1, 4) + big_endian(0, 8) + big_endian(6, 8) + b"\0\x02h1\0\x03Log\0\x06/a.log"
    + big_endian(2, 8) + big_endian(142, 8),
}
TWO = {**{f"s1/{name}": content for name, content in WAITING.items()},
       **{f"s2/{name}": content for name, content in SOUND.items()}}
FOUND_IN = "store S/s1\n{}found h1 Log /a.log from 6 to 7 archived in S/s2\nstore S/s2\n"
HELD = "held h1 Log /a.log archived 6 missing 6 to 7 waits 7 to 11 chunks 1\n"

PASSED = {
    "agents/h1.check": b"chukwa-checkpoint 1\nadd a = FileTailingAdaptor Log a.log 4 4 .2010-11-08\n",
    "a.log.2010-11-08": b"one\n",
    "a.log": b"two\n",
}
BEHIND = {**PASSED, "agents/h1.check": b"chukwa-checkpoint 1\nadd a = FileTailingAdaptor Log a.log 3 0 -\n"}

# A folder of two agents: a log that was rotated twice behind the checkpoint, and one that is gone.
LOGS = {
    "agents/h1.check": b"chukwa-checkpoint 1\nadd a = FileTailingAdaptor Log a.log 4 4 .2010-11-08\n",
    "agents/h2.check": b"chukwa-checkpoint 1\nadd b = LWFTAdaptor Log b.log 7 0 -\n",
    "a.log.2010-11-08": b"one\n",
    "a.log.2010-11-09": b"two\n",
    "a.log": b"three\n",
}
AGENTS = """\
agent {}
            LOG       COMMITTED        ARCHIVED             LAG             AGE  STREAM
             14               4               {}              {}               0  h1 Log a.log
              0               7               {}               -               0  h2 Log b.log
            PID  LOCK
"""
# The same with the lock of an agent, which this script holds, and beside a store that has six bytes of the first log.
AGENT = {**LOGS, "locks/agent.h1": b"", "held": "locks/agent.h1"}
SIX = book(2, [(1, 144)], [(("h1", "Log", "a.log"), 6, 0)])
BESIDE = {**{f"a/{name}": content for name, content in LOGS.items()},
          "s/archive/book": SIX, "s/demux/book": SIX, "s/sinks/c.born": big_endian(1, 8)}
STORE = f"""\
store S/s
       ARCHIVED         DEMUXED  STREAM
              6               6  h1 Log a.log
        WRITTEN       COMMITTED           QUIET  SINK
       UNCLOSED          CLOSED            HELD
              0               0               0
           FREE
{FREE:>15}
            PID  LOCK
"""
# An archive beside its log, which has two generations and more than is archived.
OWN = ("h1", "Log", "a.log")
FIRST, SECOND = segment(1, record(6, b"hello\n", OWN)), segment(2, record(10, b"worl", OWN))
AUDITED = {
    "archive/seg.1": FIRST,
    "archive/seg.2": SECOND,
    "archive/book": book(3, [(1, len(FIRST)), (2, len(SECOND))], [(OWN, 10, 0)]),
    "agents/h1.check": b"chukwa-checkpoint 1\nadd a = FileTailingAdaptor Log a.log 6 6 .2010-11-08\n",
    "a.log.2010-11-08": b"hello\n",
    "a.log": b"world\n",
}
OTHERS = "chukwactl: a log hasn't all that the archive has\n"


def audited(found, tail):
    return f"{found} h1 Log a.log start 0 end 10 {tail}\n"


def digest(content):
    return hashlib.sha256(content).hexdigest()


SAME = audited("same", "sha256 " + digest(b"hello\nworl"))
PART = audited("PART", "log begins at 6 sha256 " + digest(b"worl"))


def differing(at, archive, log):
    return audited(f"DIFFERS at {at}", f"log begins at 0 archive {digest(archive)} log {digest(log)}")


FILE = {"f": b"add LWFTAdaptor Log $S/a.log 0\nadd FileTailing Log $S/a.log 0\n", "a.log": b"x"}
FOUND = "line 2 BadClass\n"

# The files ($S in them is the folder; `held` is the one that this script locks; `df` is what that program prints,
# None where it ends with 1, a number where it goes on for so many seconds, False where there is none), the words (S is the folder, P a port at which somebody listens, D, E
# and F those of control doors), the status, the standard output (None: metrics, in their grammar) and the standard error (` S/` in them is the folder).
ROWS = [
    (SOUND, "streams S", 0, STREAM.format("h1", 10, 6) + STREAM.format("h2", 2, 0), ""),
    (SOUND, "cat S h1 Log /a.log", 0, "hello\nworl", ""),
    (SOUND, "cat --begin 4 S h1 Log /a.log", 0, "o\nworl", ""),
    (SOUND, "cat --records S h1 Log /a.log", 0, "hello\n", ""),
    (SOUND, "cat S h3 Log /a.log", 1, "", "chukwactl: no such stream\n"),
    (SOUND, "verify S", 0, "ok archive 3 demux 1\n", ""),
    ({**SOUND, "archive/seg.2": bytes(FLIPPED)}, "verify S", 1, "damaged archive/seg.2 96\n", UNSOUND),
    ({**SOUND, "archive/seg.1": None}, "verify S", 1, "damaged archive/seg.1 0\n", UNSOUND),
    ({**SOUND, **COLLECTED}, "verify S", 0, "ok archive 3 demux 1\n", ""),
    ({**SOUND, **COLLECTED, "sinks/c.1.1.done": COLLECTED["sinks/c.1.1.done"] + b"\0", "sinks/c.1.2.mark": big_endian(200, 8),
      "agents/h1.check": b"chukwa-checkpoint 1"}, "verify S", 1,
     "damaged agents/h1.check 0\ndamaged sinks/c.1.1.done 144\ndamaged sinks/c.1.2.chukwa 144\n"
     "damaged sinks/c.1.2.mark 0\n", UNSOUND),
    ({**SOUND, "archive/seg.2": None}, "cat S h1 Log /a.log", 3, "hello\n", "chukwactl: archive/seg.2 isn't there\n"),
    (SOUND, "sum S", 0, summed("h1", b"hello\nworl") + summed("h2", b"x\n"), ""),
    ({**SOUND, "archive/seg.2": bytes(CHANGED)}, "sum S", 0,
     summed("h1", b"hello\nworm") + summed("h2", b"x\n"), ""),
    ({**SOUND, "archive/seg.2": bytes(FLIPPED)}, "sum S", 1, "", "chukwactl: damaged archive/seg.2 96\n"),
    (SOUND, "held S", 0, "", ""),
    (WAITING, "held S", 1, HELD, "chukwactl: chunks wait for bytes that aren't archived\n"),
    ({**WAITING, "archive/seg.2": None}, "held S", 1, "", "chukwactl: damaged archive/seg.2 0\n"),
    (TWO, "held S/s1 S/s2", 1, FOUND_IN.format(HELD), "chukwactl: chunks wait for bytes that aren't archived\n"),
    ({**TWO, "s2/archive/book": None}, "held S/s1 S/s2", 1, "", "chukwactl: there is no S/s2/archive/book\n"),
    (PASSED, "passed --agent S a.log", 0, "", ""),
    (BEHIND, "passed --agent S a.log", 1, "", "chukwactl: the oldest generation isn't read to its end\n"),
    (PASSED, "passed --agent S b.log", 1, "", "chukwactl: no such stream\n"),
    (AUDITED, "audit --agent S --store S", 0, SAME, ""),
    (AUDITED, "audit --agent store --store store", 0, SAME, ""),
    ({**AUDITED, "archive/seg.2": SECOND[:-1] + b"m"}, "audit --agent S --store S", 1,
     differing(9, b"hello\nworm", b"hello\nworl"), OTHERS),
    ({**AUDITED, "a.log": b"a log that was cut off and grew again\n"}, "audit --agent S --store S", 1,
     differing(6, b"hello\nworl", b"hello\na lo"), OTHERS),
    ({**AUDITED, "a.log": b"w"}, "audit --agent S --store S", 1,
     audited("DIFFERS at 7", "log begins at 0 log ends at 7"), OTHERS),
    ({**AUDITED, "a.log": b"m"}, "audit --agent S --store S", 1,
     audited("DIFFERS at 6", "log begins at 0 log ends at 7"), OTHERS),
    ({**AUDITED, "a.log.2010-11-08": None}, "audit --agent S --store S", 1,
     PART, OTHERS),
    ({**AUDITED, "agents/h1.check": None}, "audit --agent S --store S", 1, "", "chukwactl: no such stream\n"),
    ({**AUDITED, "archive/book": None}, "audit --agent S --store S", 1, "", "chukwactl: there is no S/archive/book\n"),
    (AUDITED, "audit --agent S/none --store S", 3, "", None),
    ({}, "audit --agent S", 2, "", "usage: chukwactl audit --agent DIR --store DIR\n"),
    (SINKS, "status --store S", 0, STATUS.format(0), ""),
    (SINKS, "status -q --store S", 0, f"OK - @: unclosed 1 closed 1 held 0 quiet 0 free {FREE}\n", ""),
    ({**SINKS, "quiet": 700}, "status -q --store S", 1,
     f"WARNING - @: unclosed 1 closed 1 held 0 quiet 700 free {FREE}\n", ""),
    ({**SINKS, "df": SPACED}, "status -q --store S", 0, "OK - @: unclosed 1 closed 1 held 0 quiet 0 free 8192\n", ""),
    ({**SINKS, "df": DF[:-1]}, "status -q --store S", 0, UNKNOWN, ""),
    ({**SINKS, "df": DF * 40}, "status -q --store S", 0, UNKNOWN, ""),
    ({**SINKS, "df": DF * 800}, "status -q --store S", 0, UNKNOWN, ""),
    ({**SINKS, "df": "/dev/sda1 is full\n"}, "status -q --store S", 0, UNKNOWN, ""),
    ({**SINKS, "df": 100}, "status -q --store S", 0, UNKNOWN, ""),
    ({**SINKS, "df": False}, "status -q --store S", 0, UNKNOWN, ""),
    ({**SINKS, "df": None}, "status --store S", 0, STATUS.format(0).replace(f"{FREE:>15}", f"{'-':>15}"), ""),
    (SOUND, "status --store S", 1, NO_STORE, ""),
    (SOUND, "status -q --store S", 1, "WARNING - @: no store\n", ""),
    (EMPTY, "status -q --store S", 0, EMPTY_LINE.format("@"), ""),
    ({}, "status --store S/none", 3, "", None),
    ({"s/sinks/c1.born": EMPTY["sinks/c1.born"], "t/a.log": b""}, "status -q --store S/s --store S/t", 1,
     "WARNING - @/t: no store\n" + EMPTY_LINE.format("@/s"), ""),
    (LOCKED, "status --store S", 0, STATUS.format(0) + LOCKS, ""),
    ({}, "status --control h1=127.0.0.1:D", 0, "control h1 at 127.0.0.1:D: 2 streams\n" + LIST, ""),
    ({}, "status -q --control h1=127.0.0.1:D", 0, "OK - control h1 at 127.0.0.1:D: 2 streams\n", ""),
    ({}, "status -q --control h1=127.0.0.1:E --control h2=127.0.0.1:F", 1,
     "WARNING - control h1 at 127.0.0.1:E: no list\nWARNING - control h2 at 127.0.0.1:F: no list\n", ""),
    ({}, "status --control h1=127.0.0.1:1", 1, "control h1 at 127.0.0.1:1: no answer\n", None),
    (SINKS, "status --metrics --store S", 0, None, ""),
    ({**SINKS, "df": None}, "status --metrics --store S", 0, None, ""),
    (BESIDE, "status --metrics --agent S/a --store S/s --control h1=127.0.0.1:D", 0, None, ""),
    (AGENT, "status --metrics --agent S --store S", 1, None, ""),
    ({"s/sinks/c1.born": EMPTY["sinks/c1.born"], "t/a.log": b""}, "status --metrics --store S/s --store S/t", 1, None, ""),
    ({**SINKS, "archive/book": SOUND["archive/book"][:17]}, "status --store S", 1, "", "chukwactl: damaged archive/book 17\n"),
    (AGENT, "status --agent S", 0, AGENTS.format("@", "-", "10", "-") + f"{os.getpid():>15}  agent.h1\n", ""),
    (AGENT, "status -q --agent S", 0, "OK - @: agents 2 lag 10\nOK - @: locks 1 held 1\n", ""),
    (BESIDE, "status --agent S/a --store S/s", 0, AGENTS.format("S/a", "6", " 8", "0") + STORE, ""),
    (BESIDE, "status -q --agent S/a --store S/s", 0,
     f"OK - S/s: unclosed 0 closed 0 held 0 quiet 0 free {FREE}\nOK - S/a: agents 2 lag 8\n"
     "OK - S/a: locks 0 held 0\n", ""),
    ({**LOGS, "agents/h1.check": b"chukwa-checkpoint 1"}, "status --agent S", 1, "", "chukwactl: damaged agents/h1.check 0\n"),
    (SOUND, "status --agent S", 1, "agent @\n  no agent: it has no checkpoint\n            PID  LOCK\n", ""),
    (SOUND, "status -q --agent S", 1, "WARNING - @: no agent\nOK - @: locks 0 held 0\n", ""),
    ({}, "status --agent S/none", 3, "", None),
    ({}, "status --help", 0, "usage: chukwactl status [--agent DIR].. [--store DIR].. [--control NAME=ADDRESS].. [-q|--metrics] [--watch S]\n", ""),
    ({**SOUND, "demux/book": None}, "verify S", 0, "ok archive 3 demux none\n", ""),
    ({**SOUND, "archive/book": None}, "verify S", 1, "", "chukwactl: there is no archive/book\n"),
    ({"archive/seg.1": SOUND["archive/seg.1"]}, "streams S", 1, "", "chukwactl: there is no archive/book\n"),
    ({}, "streams S", 1, "", "chukwactl: there is no archive/book\n"),
    ({}, "streams S/none", 3, "", None),
    ({"f": FILE["f"].split(b"\n")[0], "a.log": b"x"}, "check --initial S/f 127.0.0.1:P", 0, "", ""),
    (FILE, "check --initial S/f 127.0.0.1:P", 1, FOUND, "chukwactl: a start would refuse or skip some of it\n"),
    (FILE, "check --initial S/f 127.0.0.1:1", 1, FOUND + "collector 127.0.0.1:1 NoAnswer\n", None),
    ({}, "check --initial S/f 127.0.0.1:P", 3, "", "chukwactl: the initial file isn't there\n"),
    ({}, "cat", 2, "", "usage: chukwactl cat [--begin N] [--follow] [--records] STORE SOURCE TYPE NAME\n"),
    ({}, "verify --help", 0, "usage: chukwactl verify [--progress] STORE\n", ""),
]


def made(folder, files):
    for name, content in files.items():
        if name in ("held", "df"):
            continue
        if name == "quiet":
            then = time.time() - content
            os.utime(f"{folder}/sinks/c1.1.3.chukwa", (then, then))
        elif content is not None:
            os.makedirs(os.path.dirname(f"{folder}/{name}"), exist_ok=True)
            with open(f"{folder}/{name}", "wb") as file:
                file.write(content.replace(b"$S", folder.encode()))


def made_df(folder, answer):
    """The PATH whose `df`, to the words `-P -k .` alone, does what a row says of it."""
    os.mkdir(folder)
    if answer is False:
        return folder
    with open(f"{folder}/answer", "w", encoding="utf-8") as file:
        file.write(answer if isinstance(answer, str) else "")
    does = f"exec sleep {answer}" if isinstance(answer, int) else f"cat {folder}/answer; exit {int(answer is None)}"
    with open(f"{folder}/df", "w", encoding="utf-8") as file:
        file.write(f'#!/bin/sh\n[ "$*" = "-P -k ." ] || exit 2\n{does}\n')
    os.chmod(f"{folder}/df", 0o755)
    return f"{folder}:{os.environ['PATH']}"


class Answering(threading.Thread):
    """A control door: what came at it, up to the end or the first newline, and the answer to each message."""

    def __init__(self, answer):
        super().__init__(daemon=True)
        self.door, self.answer, self.came = socket.create_server(("127.0.0.1", 0)), answer, []
        self.port = str(self.door.getsockname()[1])
        self.start()

    def run(self):
        while True:
            stream, _ = self.door.accept()
            with stream:
                stream.settimeout(5)
                came = b""
                while not came.endswith(b"\n") and (more := stream.recv(4096)):
                    came += more
                self.came.append(came)
                stream.sendall(self.answer)


LABELS = r'[a-z_]+="(?:[^"\\\n]|\\["\\n])*"'
SAMPLE = re.compile(rf"([a-z_]+)\{{({LABELS}(?:,{LABELS})*)\}} (\d+)")


def faults_of_metrics(text):
    """What of a text isn't as OpenMetrics 1.0.0 has it: each family once, its type and its help before its samples."""
    lines = text.split("\n")
    if lines[-2:] != ["# EOF", ""]:
        yield "no # EOF at the end"
    families, helped, samples, family = {}, set(), set(), None
    for line in lines[:-2]:
        words = line.split(" ", 3)
        if words[:2] == ["#", "TYPE"]:
            family = words[2]
            if family in families or words[3] not in ("gauge", "counter"):
                yield f"the type of {line}"
            families[family] = words[3]
        elif words[:2] == ["#", "HELP"]:
            if words[2] != family or family in helped or not words[3:]:
                yield f"the help of {line}"
            helped.add(family)
        elif not (sample := SAMPLE.fullmatch(line)):
            yield f"no sample: {line}"
        else:
            suffix = "_total" if families.get(family) == "counter" else ""
            if family not in helped or sample[1] != family + suffix or (sample[1], sample[2]) in samples:
                yield f"the sample {line}"
            samples.add((sample[1], sample[2]))
    if families.keys() != helped or not samples:
        yield "families without help, or no sample"


def faults_by_promtool(text):
    """What Prometheus' own tool says of a text, where it is there."""
    if shutil.which("promtool"):
        checked = subprocess.run(["promtool", "check", "metrics"], input=text, capture_output=True, text=True, timeout=60)
        if checked.returncode:
            yield checked.stdout + checked.stderr


def changing(trace, asks, lists):
    """The calls of a trace that do more than read and print, open connections where that is asked for, send `list`, and
    run `df -P -k .`, and that one `cat` or `sleep`."""
    runs = 0
    with open(trace, encoding="utf-8", errors="replace") as file:
        for line in file:
            call = re.match(r"(?:\d+ +)?([a-z0-9_]+)\((.*)", line)
            if not call:
                continue
            name, words = call[1], call[2]
            runs += name == "execve"
            starts = name == "execve" and runs > 1 and not re.match(r'"[^"]*/(df", \["df", "-P", "-k", "\."\]|cat", \["cat"|sleep", \["sleep")', words)
            opens = name in ("open", "openat") and re.search(r"O_(WRONLY|RDWR|CREAT|TRUNC|APPEND)", words)
            writes = name in ("write", "writev") and not re.match(r"[12],", words)
            locks = name == "fcntl" and "F_SETLK" in words
            if (asks or lists) and name in ("socket", "connect"):
                continue
            if lists and name in ("sendto", "write") and re.match(r'\d+, "list\\n", 5', words):
                continue
            if opens and '"/dev/null"' not in words or writes or locks or starts or name.startswith(CHANGES):
                yield line.strip()


def is_as(text, wanted, folder):
    """The text is what is wanted of a store in this folder, where it is said at once and where within three seconds."""
    wanted = wanted.replace("@", folder)
    return text in [re.sub(" 0  (c1|h. Log [ab])", rf" {late}  \1", wanted).replace("quiet 700", f"quiet {700 + late}")
                    for late in range(4)]


def with_ports(text, ports):
    return re.sub(r"(?<=127\.0\.0\.1:)([A-Z])\b", lambda found: ports[found[1]], text)


def wrong_rows(look):
    wrong, strace = 0, shutil.which("strace")
    door = socket.create_server(("127.0.0.1", 0))
    ports = {"P": str(door.getsockname()[1])}
    doors = {letter: Answering(answer) for letter, answer in DOORS.items()}
    ports.update({letter: answering.port for letter, answering in doors.items()})
    for number, (files, words, status, out, error) in enumerate(ROWS):
        with tempfile.TemporaryDirectory() as place:
            folder, trace = f"{place}/store", f"{place}/trace"
            os.mkdir(folder)
            made(folder, files)
            held = open(f"{folder}/{files['held']}", "w") if "held" in files else None
            if held:
                fcntl.flock(held, fcntl.LOCK_EX)
            environment = {**os.environ, "PATH": made_df(f"{place}/bin", files.get("df", DF))}
            words = [folder + word[1:] if re.match("S(/|$)", word) else with_ports(word, ports) for word in words.split()]
            out, error = (text and with_ports(text.replace(" S/", f" {folder}/"), ports) for text in (out, error))
            done = subprocess.run([strace, "-f", "-qq", "-o", trace, look, *words], cwd=place, capture_output=True,
                                  text=True, timeout=60, stdin=subprocess.DEVNULL, env=environment)
            found = (done.returncode, done.stdout, done.stderr if error is not None else None)
            same = found[::2] == (status, error) and (out is None or is_as(done.stdout, out, folder))
            told = [] if same else [f"{found} in place of {(status, out, error)}"]
            told += [*faults_of_metrics(done.stdout), *faults_by_promtool(done.stdout)] if out is None else []
            told += [f"it calls {line}" for line in changing(trace, words[0] == "check", "--control" in words)]
            told += [f"{came} came at a control door" for answering in doors.values() for came in answering.came if came != b"list\n"]
            if held:
                held.close()
            for line in told:
                print(f"row {number + 1}, {' '.join(words)}: {line}")
            wrong += bool(told)
    print(f"{wrong} of {len(ROWS)} looks at folders made by hand went wrong")
    return wrong


def bytes_read(child):
    """How many bytes the process has read so far."""
    with open(f"/proc/{child.pid}/io", encoding="ascii") as counts:
        return int(counts.readline().split()[1])


def published(folder, numbers, made, end):
    """A job's next book, of segments whose bytes are kept by number; its length."""
    content = book(max(numbers) + 1, [(number, len(made[number])) for number in numbers], [(LOG, end, 0)])
    with open(f"{folder}/book.tmp", "wb") as file:
        file.write(content)
    os.rename(f"{folder}/book.tmp", f"{folder}/book")
    return len(content)


def added(folder, made, number, end):
    """A segment of ten records behind this offset; where it ends."""
    ends = [end + 100_000 * (place + 1) for place in range(10)]
    made[number] = segment(number, *[record(each, b"%099d\n" % (each // 100) * 1_000) for each in ends])
    with open(f"{folder}/seg.{number}", "wb") as file:
        file.write(made[number])
    return ends[-1]


def came(process, size):
    """Whether the process prints so many bytes within 20 seconds, and has read how many then."""
    until = time.monotonic() + 20
    while time.monotonic() < until and os.fstat(process.out.fileno()).st_size < size:
        time.sleep(0.1)
    time.sleep(0.3)
    return os.fstat(process.out.fileno()).st_size == size, bytes_read(process.child)


def wrong_follows(look):
    """Follows a stream while segments come and are merged; how many looks read or printed what they shouldn't."""
    with tempfile.TemporaryDirectory() as place:
        folder, made, end = f"{place}/archive", {}, 0
        os.mkdir(folder)
        for number in range(1, 9):
            end = added(folder, made, number, end)
        small = published(folder, range(1, 9), made, end)
        follow = Process("cat", [look, "cat", "--follow", place, *LOG], place)
        first, before = came(follow, end)
        time.sleep(11)
        idle = bytes_read(follow.child) - before
        end = added(folder, made, 9, end)
        small = max(small, published(folder, range(1, 10), made, end))
        second, after = came(follow, end)
        news = after - before - idle
        marked = b"".join(made[number][len(segment(number)):] for number in range(1, 10))
        made[10] = segment(10) + marked
        with open(f"{folder}/seg.10", "wb") as file:
            file.write(made[10])
        published(folder, [10], made, end)
        end = added(folder, made, 11, end)
        published(folder, [10, 11], made, end)
        third, merged = came(follow, end)
        error = follow.error()
        follow.close()
    told = [
        (first and second and third and not error, f"printed {(first, second, third)} {error}"),
        (idle <= 3 * small, f"two looks without news read {idle} bytes, with a book of {small}"),
        (news <= len(made[9]) + 3 * small, f"a look with {len(made[9])} new bytes read {news}"),
        (merged - after <= len(made[10]) + len(made[11]) + 4 * small, f"a look after a merge read {merged - after}"),
    ]
    wrong = [what for good, what in told if not good]
    for what in wrong:
        print(f"cat --follow: {what}")
    print(f"a followed stream: {idle} bytes read by two looks without news, {news} by one with {len(made[9])}")
    return len(wrong)


COURSE = re.compile(r"(\d+) of (\d+) bytes, (\d+) bytes/s, (\d+) s left")


def is_course(line, least):
    """The line tells how far a look at no fewer bytes is, by numbers that agree for some count of seconds."""
    found = COURSE.fullmatch(line)
    if not found:
        return False
    gone, whole, rate, left = (int(number) for number in found.groups())
    return (gone <= whole and whole >= least and left == (whole - gone) // max(rate, 1)
            and any(rate == gone // seconds for seconds in range(1, 60)))


def told_on_terminal(words):
    """What a look prints that nobody takes for a second, and what it tells on a terminal."""
    ours, theirs = pty.openpty()
    with subprocess.Popen(words, stdin=subprocess.DEVNULL, stdout=subprocess.PIPE, stderr=theirs) as child:
        os.close(theirs)
        time.sleep(1.3)
        printed, told = child.stdout.read(), b""
        try:
            while piece := os.read(ours, 65_536):
                told += piece
        except OSError:
            pass  # the terminal has no other end any more
    os.close(ours)
    return printed, told.decode()


def told_elsewhere(words):
    """What a look prints and tells of which one read takes more than ten seconds."""
    slow = ["strace", "-qq", "-o", "/dev/null", "-e", "trace=pread64", "-e", "inject=pread64:delay_enter=10500000:when=30"]
    done = subprocess.run([*slow, *words], stdin=subprocess.DEVNULL, capture_output=True, text=True, timeout=120)
    return done.stdout, done.stderr


def wrong_courses(look):
    """Looks at a store of 24 MB slowly; how many don't tell how far they are as the manual says."""
    with tempfile.TemporaryDirectory() as place:
        folder, made, end = f"{place}/archive", {}, 0
        os.mkdir(folder)
        for number in range(1, 25):
            end = added(folder, made, number, end)
        whole = published(folder, range(1, 25), made, end) + sum(len(content) for content in made.values())
        printed, told = told_on_terminal([look, "cat", place, *LOG])
        lines = re.findall(r"\r([^\r\x1b]+)\x1b\[K", told)
        good = (len(printed) == end and lines and all(is_course(line, whole) for line in lines)
                and re.fullmatch(r"(\r[^\r\x1b]*\x1b\[K)+", told) and told.endswith("\r\x1b[K"))
        out, error = told_elsewhere([look, "verify", "--progress", place])
        also = (out == "ok archive 240 demux none\n" and error != ""
                and all(is_course(line, whole) for line in error.splitlines()))
    if not good:
        print(f"cat beside a terminal printed {len(printed)} bytes and told {told!r}")
    if not also:
        print(f"verify --progress printed {out!r} and told {error!r}")
    print(f"how far cat and verify are is told in {len(lines)} and {len(error.splitlines())} lines")
    return (not good) + (not also)


def wrong_goings(look):
    """Has a mark go between the look at its length and its opening; 1 where `verify` doesn't say what it says without it."""
    mark, told = "sinks/c.1.2.mark", []
    for late in (True, False):
        with tempfile.TemporaryDirectory() as place:
            made(place, {**COLLECTED, **SOUND})
            slow = ["strace", "-qq", "-o", "/dev/null", "-P", mark, "-e", "inject=openat:delay_enter=2000000"] if late else []
            if not late:
                os.remove(f"{place}/{mark}")
            with subprocess.Popen([*slow, look, "verify", "."], cwd=place, stdin=subprocess.DEVNULL, stdout=subprocess.PIPE,
                                  stderr=subprocess.PIPE, text=True) as child:
                if late:
                    time.sleep(1)
                    os.remove(f"{place}/{mark}")
                out, error = child.communicate(timeout=60)
            told.append((child.returncode, out, [line for line in error.splitlines() if not line.startswith("strace: ")]))
    wrong = told[0] != told[1] or told[0][0] != 0
    print(f"verify says {told[0]} where a mark goes in between, and {told[1]} without it" if wrong
          else "a mark that goes between two calls of a look is as one that isn't there")
    return wrong


def is_true(command, out, log):
    """What `cat` and `sum` print of the only stream is of a front of its log."""
    if command == "cat":
        return log.startswith(out.encode())
    if command == "sum":
        words = out.split()
        return words[-1] == hashlib.sha256(log[:int(words[-3])]).hexdigest()
    return True


def named_segments(place):
    """How many segments the archive's book names."""
    with open(f"{place}/archive/book", "rb") as file:
        return int.from_bytes(file.read(17)[13:], "big")


def beside(look, program, seconds):
    """Looks at a store while rounds archive a log, and on until one merged, for two minutes more at most; how many looks went
    wrong."""
    wrong, looks, log, merges, named = 0, 0, b"", 0, 1
    with tempfile.TemporaryDirectory() as place:
        path, end = f"{place}/a.log", time.monotonic() + seconds
        stream = [place, "h1", "Log", path]
        round_of = [program, "round", "h1", "Log", path]

        def grow():
            nonlocal log
            more = b"".join(b"%d a line of this log\n" % number for number in range(len(log), len(log) + 3_000))
            log += more
            with open(path, "ab") as file:
                file.write(more)

        grow()
        if (given := ran(round_of, place))[0] != 0:
            sys.exit(f"round: {given}")
        follow = Process("cat", [look, "cat", "--follow", *stream], place)
        while time.monotonic() < end or not merges and time.monotonic() < end + 120:
            grow()
            job = Process("round", round_of, place)
            while job.status() is None:
                for words in (["streams", place], ["verify", place], ["sum", place], ["cat", *stream]):
                    status, out, error = ran([look, *words], place)
                    looks += 1
                    if status != 0 or error or not is_true(words[0], out, log):
                        print(f"{words[0]}: {status} {out[:200]!r} {error!r}")
                        wrong += 1
            if job.status() != 0:
                sys.exit(f"round: {job.status()} {job.error()}")
            job.close()
            merges += named_segments(place) < named
            named = named_segments(place)
        whole = ran([look, "cat", *stream], place)[1].encode() == log
        time.sleep(7)
        same = follow.printed().encode() == log and follow.status() is None and follow.error() == ""
        follow.close()
    print(f"{wrong} of {looks} looks beside a job that merged {merges} times went wrong; cat has {'all' if whole else 'NOT all'} of the log, "
          f"and cat --follow {'too' if same else 'NOT'}")
    return wrong + (not whole) + (not same) + (not merges)


def beside_soak(look, program, seconds):
    """Looks at a store beside a soak; whether something went wrong."""
    words = [sys.executable, f"{TOP}/tools/try/soak.py", "--seconds", str(seconds), "--program", program, "--look", look]
    sys.stdout.flush()
    return subprocess.run(words, stdin=subprocess.DEVNULL).returncode != 0


def main():
    parser = parser_of(__doc__)
    add_program(parser)
    parser.add_argument("--look", default=LOOK, help="the program that looks (default: the checkout's)")
    parser.add_argument("--seconds", type=float, default=20, help="how long rounds are run (20)")
    parser.add_argument("--beside", type=float, help="how long a soak is run in place of rounds")
    asked = parser.parse_args()
    if not shutil.which("strace"):
        sys.exit("strace isn't here")
    if not os.path.isfile(asked.look):
        sys.exit(f"there is no program {asked.look}")
    look = os.path.abspath(asked.look)
    wrong = wrong_rows(look) + wrong_follows(look) + wrong_courses(look) + wrong_goings(look)
    if asked.beside:
        wrong += beside_soak(look, os.path.abspath(asked.program), asked.beside)
    elif os.path.isfile(asked.program):
        wrong += beside(look, os.path.abspath(asked.program), asked.seconds)
    return 1 if wrong else 0


if __name__ == "__main__":
    sys.exit(main())
