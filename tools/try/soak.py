#!/usr/bin/env python3
"""Kills agents, collectors and jobs at random while logs grow, and compares each log with its archive.

usage: tools/try/soak.py [--seconds N] [--seed N] [--kb N] [--late N] [--commit MS] [--program FILE] [--look FILE]

Two agents, two collectors and the jobs `archive` and `demux` run as programs on 127.0.0.1, in a new folder
below the current one. The collector c1 commits each message by itself, c2 up to eight at a time. Logs of each
reader's class grow and are rotated, and generations that the checkpoint has passed are deleted. Each process is
killed with SIGKILL at random and started again. All along, the archive of each log has to be a prefix of it,
and the records of `demux` its lines from the first one on. After N seconds (60) nothing is killed any more: the
agents run until all is committed, the collectors close their sinks, the jobs run, and the archives have to be
the logs, and the records their lines. At most five minutes later the script is over. All logs together grow by
N kilobytes a second (400), and the folder takes about six times their bytes; a slow machine wants fewer, since
an agent whose collector takes two seconds for a post sends it again. A line each minute, and at the end, tells
the kills of each process, the rotations and the deleted generations, the runs of jobs and the comparisons. It
ends with 1 where a byte is lost, doubled or in a wrong place, where a process ended by itself, or where not all
was committed in time. The seed of what is done at random is told; the same seed doesn't give the same moments.
With `--late` a log's daemon goes on writing into the renamed file for so many seconds; no agent is killed then,
since one that begins after a rotation sees it at once. With `--commit` each commit takes so many milliseconds
longer, by `strace`. With `--look`, the program `chukwactl`, its `streams`, `verify`, `held`, `sum` and `status` look
at the folder all along, one after the other, and none may find damage; `cat --follow` of each log goes on beside them,
and has to print the whole log.
"""
import os
import random
import re
import signal
import sys
import tempfile
import time

sys.path.insert(0, os.path.join(os.path.dirname(os.path.abspath(__file__)), "../lib"))

from archive_reader import Comparison, Damaged, checkpoint, contents
from late_daemon import slowed
from running import Process, add_program, asked_at, free_ports, load, parser_of, program_of, ran

CLASSES = ["FileTailingAdaptor", "CharFileTailingAdaptorUTF8", "LWFTAdaptor"]
FINISH = 150
# So many seconds `cat --follow` has to come to the end of a log that doesn't grow.
FOLLOWED = 30
# What a look says before the first archive run.
NO_BOOK = ["chukwactl: there is no archive/book\n", "chukwactl: there is no ./archive/book\n"]
# How often it tells what was done, in seconds.
TELLING = 60
# Kilobytes that all logs grow in a second, at the sizes below.
GROWTH = 400
# So many seconds an agent runs before a log of it is rotated whose daemon follows late: it has seen the log then.
SEEN = 4.0
# How often a second each happens, to each of those that it can happen to.
KILLS = 0.4
ROTATIONS = 0.3
JOBS = 1.5
BURSTS = 2.0
LARGE = 0.05


class Log:
    """A log that grows, and a copy of all of it."""

    def __init__(self, folder, source, kind, late):
        self.late, self.follows, self.passed = late, 0, None
        self.path = f"logs/{source}.{kind}.log"
        self.stream = (source, "Log", self.path)
        self.is_rotated = kind != "LWFTAdaptor"
        self.base, self.copy = f"{folder}/{self.path}", f"{folder}/copies/{source}.{kind}"
        self.folder, self.source = folder, source
        self.lines = self.rotations = self.deleted = 0
        self.line = f"add {kind}.{source} = {kind} Log {self.path} 0\n"

    def grow(self, chance, size):
        made = []
        while size > 0:
            filler = "x" * chance.randrange(1, 300)
            made.append(f"{self.lines} {self.stream[0]} {filler}\n".encode())
            size -= len(made[-1])
            self.lines += 1
        for name in (self.copy, self.passed if self.is_late() else self.base):
            with open(name, "ab") as file:
                file.write(b"".join(made))

    def is_late(self):
        """Its daemon writes into the renamed file."""
        return time.monotonic() < self.follows

    def rotate(self):
        if not os.path.exists(self.base) or self.is_late():
            return
        self.rotations += 1
        suffix = f".{20_000_101 + self.rotations // 1000:08}-{self.rotations % 1000:03}"
        os.rename(self.base, self.base + suffix)
        if self.late:
            open(self.base, "ab").close()
            self.passed, self.follows = self.base + suffix, time.monotonic() + self.late

    def generations(self):
        """The suffixes of the generations that are there, in order."""
        name = os.path.basename(self.base)
        return sorted(each[len(name) :] for each in os.listdir(f"{self.folder}/logs") if each.startswith(name + "."))

    def delete_passed(self):
        """Deletes the generations that the checkpoint has passed."""
        line = checkpoint(self.folder, self.source).get(self.path)
        for suffix in self.generations():
            if line and line.after != "-" and suffix <= line.after:
                os.remove(self.base + suffix)
                self.deleted += 1

    def is_committed(self):
        line = checkpoint(self.folder, self.source).get(self.path)
        return line is not None and line.offset == os.path.getsize(self.copy)


class Server:
    """An agent or a collector, which is started again after each kill."""

    def __init__(self, soak, name, words):
        self.soak, self.name, self.words = soak, name, words
        self.kills, self.again, self.since = 0, 0, 0
        self.process = None
        self.start()

    def start(self):
        self.process, self.since = Process(self.name, self.words, self.soak.folder), time.monotonic()

    def has_seen(self):
        """It has run for so long that it knows its logs."""
        return self.process is not None and time.monotonic() - self.since > SEEN

    def kill(self):
        self.process.kill()
        self.process.close()
        self.process = None
        self.kills += 1

    def tend(self, now, chance, step):
        """Kills it, or starts it again a while later."""
        self.look(now)
        if self.process is None:
            if now >= self.again:
                self.start()
        elif chance.random() < KILLS * step and not self.soak.is_late(self.name):
            self.kill()
            self.again = now + chance.uniform(0, 0.6)

    def look(self, now):
        """It doesn't end by itself; where it does, it is started again a second later."""
        if self.process and self.process.status() is not None:
            self.soak.wrong(f"{self.name} ended by itself: {self.process.status()} {self.process.error()}")
            self.process.close()
            self.process, self.again = None, now + 1


class Job:
    """Runs of `archive`, and one in four of `demux`, one at a time, some of which are killed."""

    def __init__(self, soak):
        self.soak, self.process, self.until = soak, None, None
        self.kills = self.runs = 0

    def tend(self, now, chance, step, may_kill=True):
        if self.process is None:
            if chance.random() < JOBS * step:
                command = chance.choice(["archive", "archive", "archive", "demux"])
                self.process = Process(command, [self.soak.program, command], self.soak.folder)
                self.until = now + FINISH
                if may_kill and chance.random() < 0.5:
                    self.until = now + chance.uniform(0, 0.06)
                self.runs += 1
            return
        if self.process.status() is None and now < self.until:
            return
        if self.process.status() is None:
            self.process.kill()
            self.kills += 1
        elif self.process.status() not in (0, -9):
            process = self.process
            self.soak.wrong(f"{process.name}: {process.status()} {process.printed()} {process.error()}")
        self.process.close()
        self.process = None


class Looks:
    """Looks at the folder, one at a time, and `cat --follow` of each log."""

    # Each look's words, and what it may say on standard error where it ends with 1.
    WORDS = [
        (["streams", "."], NO_BOOK),
        (["verify", "."], NO_BOOK),
        (["held", "."], ["chukwactl: chunks wait for bytes that aren't archived\n", *NO_BOOK]),
        (["sum", "."], NO_BOOK),
        (["status", "--store", "."], []),
    ]

    def __init__(self, soak, look):
        self.soak, self.look = soak, look
        self.process, self.follows = None, {}
        self.count = 0

    def tend(self):
        for log in self.soak.logs:
            if log.stream not in self.follows and self.soak.ends["archive"].get(log.stream, 0) > 0:
                words = [self.look, "cat", "--follow", ".", *log.stream]
                self.follows[log.stream] = Process("cat", words, self.soak.folder)
        if self.process is None:
            words, self.may = self.WORDS[self.count % len(self.WORDS)]
            self.process = Process(words[0], [self.look, *words], self.soak.folder)
        elif self.process.status() is not None:
            self.judge()

    def judge(self):
        """The look found no damage."""
        process, self.process = self.process, None
        self.count += 1
        status, error = process.status(), process.error()
        # Beside kills chunks wait past a gap until an agent sends again what lies in it; `status` says so, and ends with 1.
        waits = process.name == "status" and re.search(r"HELD\n +\d+ +\d+ +[1-9]", process.printed())
        if not (status == 0 and error == "" or status == 1 and error in ([""] if waits else self.may)):
            self.soak.wrong(f"chukwactl {process.name}: {status} {process.printed()[:400]} {error}")
        process.close()

    def finish(self):
        """What is followed comes to the log's end within some seconds."""
        if self.process:
            self.process.wait(FINISH)
            self.judge()
        until, size = time.monotonic() + FOLLOWED, 0
        for log in self.soak.logs:
            follow, whole = self.follows.get(log.stream), contents(log.copy).decode()
            while follow and follow.printed() != whole and time.monotonic() < until:
                time.sleep(0.5)
            if follow is None or follow.printed() != whole or follow.status() is not None:
                self.soak.wrong(f"cat --follow of {log.stream}: {follow and (follow.status(), follow.error())}")
            size += len(whole)
        print(f"looks {self.count}; cat --follow of {len(self.soak.logs)} logs beside them over {size} bytes")

    def close(self):
        for each in (self.process, *self.follows.values()):
            if each:
                each.close()


class Lines(Comparison):
    """The records of `demux`, each of which has to be a line of its log."""

    def take(self, chunk, files):
        super().take(chunk, files)
        if chunk.data.find(b"\n") != len(chunk.data) - 1:
            raise Damaged(f"the record of {chunk.stream} from {chunk.first} on isn't a line")


class Soak:
    def __init__(self, asked, program, folder, chance):
        self.program, self.folder, self.chance, self.growth = program, folder, chance, asked.kb / GROWTH
        self.commit, self.look, self.looks = asked.commit, asked.look and os.path.abspath(asked.look), None
        self.faults, self.checks, self.servers = [], 0, []
        for name in ("logs", "copies"):
            os.mkdir(f"{folder}/{name}")
        self.logs = [Log(folder, source, kind, asked.late) for source in ("h1", "h2") for kind in CLASSES]
        self.ends = {"archive": {}, "demux": {}}
        ports = free_ports(4)
        self.doors = {"h1": ports[0], "h2": ports[1]}
        self.addresses = [f"127.0.0.1:{port}" for port in ports[2:]]

    def wrong(self, what):
        """It is told once."""
        if what not in self.faults:
            print(f"wrong: {what.strip()}", flush=True)
        self.faults.append(what)

    def start(self):
        for number, address in enumerate(self.addresses, 1):
            messages = ["--messages", "8"] if number == 2 else []
            words = [self.program, "collector", "--rotate", "900", *messages, f"c{number}", address]
            self.servers.append(Server(self, f"c{number}", slowed(words, self.commit)))
        for source in ("h1", "h2"):
            with open(f"{self.folder}/{source}.add", "w", encoding="ascii") as file:
                file.write("".join(log.line for log in self.logs if log.source == source))
            words = [self.program, "agent", "--initial", f"{source}.add", "--poll", "300", "--expire", "3000"]
            words += ["--control", f"127.0.0.1:{self.doors[source]}", source]
            self.servers.append(Server(self, source, words + self.addresses))
        self.job = Job(self)
        if self.look:
            self.looks = Looks(self, self.look)

    def write(self, step):
        for log in self.logs:
            if self.chance.random() < BURSTS * step:
                log.grow(self.chance, self.chance.randrange(1, 40_000) * self.growth)
            if self.chance.random() < LARGE * step:
                log.grow(self.chance, self.chance.randrange(1, 1_000_000) * self.growth)
            if log.is_rotated and self.chance.random() < ROTATIONS * step and self.may_rotate(log):
                log.rotate()

    def is_late(self, name):
        """A daemon of that agent's logs writes into a renamed file."""
        return any(log.source == name and log.is_late() for log in self.logs)

    def may_rotate(self, log):
        """Where daemons follow late, the agent has to know the log before."""
        if not log.late:
            return True
        is_calm = time.monotonic() > log.follows + SEEN
        return is_calm and all(server.has_seen() for server in self.servers if server.name == log.source)

    def check(self):
        """Each archive is a prefix of its log and no shorter than before, and so are the records of its lines."""
        logs = {log.stream: log.copy for log in self.logs if os.path.exists(log.copy)}
        archive, records = Comparison(self.folder, logs), Lines(self.folder, logs, "demux")
        self.checks += 1
        for what, found in (("archive", archive), ("demux", records)):
            if found.lost or found.doubled or found.misplaced:
                self.wrong(f"{what}: lost {found.lost} doubled {found.doubled} out of order {found.misplaced}")
            for log in self.logs:
                end = found.ends.get(log.stream, 0)
                if end < self.ends[what].get(log.stream, 0):
                    self.wrong(f"{log.path}: {what} went from {self.ends[what][log.stream]} to {end}")
            self.ends[what] = found.ends
        return archive, records

    def run(self, seconds):
        """Kills and writes until the time is over."""
        began = last = time.monotonic()
        looked = checked = told = began
        while last - began < seconds:
            time.sleep(0.02)
            now = time.monotonic()
            step, last = now - last, now
            self.write(step)
            for each in (*self.servers, self.job):
                each.tend(now, self.chance, step)
            if self.looks:
                self.looks.tend()
            if now - looked > 1:
                looked = now
                for log in self.logs:
                    log.delete_passed()
            if now >= checked and self.job.process is None:
                archive, _ = self.check()
                checked = time.monotonic() + max(2, 9 * (time.monotonic() - now))
                if now - told > TELLING:
                    told = now
                    print(f"after {now - began:.0f} s {sum(archive.ends.values())} bytes are archived")
                    self.tell()

    def rest(self):
        """Nothing is killed any more, until all is committed."""
        for log in self.logs:
            log.grow(self.chance, 1)
        until = time.monotonic() + FINISH
        while not all(log.is_committed() for log in self.logs):
            if time.monotonic() > until:
                self.wrong("not all was committed in time")
                break
            for server in self.servers:
                server.tend(time.monotonic(), self.chance, 0)
            self.job.tend(time.monotonic(), self.chance, 0.1, may_kill=False)
            time.sleep(0.1)
        if self.job.process:
            self.job.process.wait(FINISH)
            self.job.process.close()
            self.job.process = None

    def finish(self):
        """The agents are told to stop, the collectors close their sinks, and the job runs twice."""
        for server in self.servers:
            if server.process is None:
                continue
            if server.name in self.doors:
                said = asked_at(self.doors[server.name], "list\nstopagent\n")
                if not said.endswith("OK 3 adaptors\nOK agent stops\n") or server.process.wait(20) != 0:
                    self.wrong(f"{server.name}: {said} {server.process.status()} {server.process.error()}")
            server.process.close()
        for server in self.servers[:2]:
            words = [self.program, "collector", "--turns", "1", *server.words[-2:]]
            self.done(server.name, words, "")
        self.done("job", [self.program, "archive"], "archive unclosed 0 ")
        self.done("job", [self.program, "archive"], "archive unclosed 0 taken 0 held 0 removed 0\n")
        self.done("job", [self.program, "demux"], "demux taken ")
        self.done("job", [self.program, "demux"], "demux taken 0 entries 0 left 0\n")
        left = [name for name in os.listdir(f"{self.folder}/sinks") if name.endswith((".done", ".chukwa", ".mark"))]
        if left:
            self.wrong(f"sinks are left: {left}")
        if self.looks:
            self.looks.finish()

    def done(self, name, words, printed):
        status, out, error = ran(words, self.folder)
        if status != 0 or not out.startswith(printed):
            self.wrong(f"{name}: {status} {out} {error}")

    def report(self):
        archive, records = self.check()
        for what, found in (("archives", archive), ("records", records)):
            if why := found.difference():
                self.wrong(f"the {what} aren't the logs: {why}")
        size = sum(archive.sizes.values())
        lost = archive.lost + size - sum(archive.ends.values())
        print(f"bytes {size} lost {lost} doubled {archive.doubled} out of order {archive.misplaced}")
        self.tell()

    def tell(self):
        """What was done so far."""
        kills = {server.name: server.kills for server in self.servers} | {"job": self.job.kills}
        print(f"kills {sum(kills.values())}: " + ", ".join(f"{name} {count}" for name, count in kills.items()))
        rotations, deleted = (sum(getattr(log, what) for log in self.logs) for what in ("rotations", "deleted"))
        print(f"rotations {rotations} deleted {deleted} job runs {self.job.runs} comparisons {self.checks}", flush=True)

    def close(self):
        for each in (*self.servers, getattr(self, "job", None)):
            if each and each.process:
                each.process.close()
        if self.looks:
            self.looks.close()


def main():
    parser = parser_of(__doc__)
    parser.add_argument("--seconds", type=float, default=60, help="how long processes are killed (60)")
    parser.add_argument("--seed", type=int, default=1, help="of what is done at random (1)")
    parser.add_argument("--kb", type=float, default=GROWTH, help="kilobytes that the logs grow in a second (400)")
    parser.add_argument("--late", type=float, default=0, help="how late daemons follow a rotation, in seconds (0)")
    parser.add_argument("--commit", type=int, default=0, help="so many milliseconds longer a commit takes (0)")
    parser.add_argument("--look", help="the program chukwactl, which looks at the folder all along")
    add_program(parser)
    asked_for = parser.parse_args()
    program = program_of(asked_for)
    signal.signal(signal.SIGTERM, lambda *_: sys.exit(143))
    began = time.monotonic()
    print(load(), f"seed {asked_for.seed}", flush=True)
    with tempfile.TemporaryDirectory(dir=".", prefix="soak-") as folder:
        soak = Soak(asked_for, program, os.path.abspath(folder), random.Random(asked_for.seed))
        try:
            soak.start()
            soak.run(asked_for.seconds)
            soak.rest()
            soak.finish()
            soak.report()
        except Damaged as why:
            soak.wrong(f"damaged: {why}")
        finally:
            soak.close()
        wrong = f"{len(soak.faults)} BAD" if soak.faults else "ok"
        print(f"seconds {time.monotonic() - began:.0f}: {wrong}")
    return 1 if soak.faults else 0


if __name__ == "__main__":
    sys.exit(main())
