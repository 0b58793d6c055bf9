#!/usr/bin/env python3
"""Counts lines that rsyslog, syslog-ng and chukwa lose and double through kills, and times them beside `cat` and sync.

usage: tools/figures.py peers [--only NAME]... [--kills N] [--rate N] [--mb N] [--minutes N] [--seed N] [--packages FOLDER]
                              [--settings] [--program FILE]

Each pair of processes takes a log that is tailed over 127.0.0.1 to a file of the other end. Two runs each, in a new folder
below the current one, which needs four times the bytes:

- kills: numbered lines of about 200 bytes are appended, N a second (10,000). N times (20) the receiver and the sender are
  killed in turn with SIGKILL, up to a second after lines flow again, and restarted up to half a second later. Then
  everything is left alone until nothing arrives for 6 s, ended with SIGTERM and started once more, so that what the queues
  keep can arrive. The lines of the receiver's file are counted: missing numbers are lost, further copies doubled, numbers
  below an earlier one out of order; torn are lines that the log doesn't have. Lost lines at the end of the log, which may
  only be late, are shown.
- speed: a log of N megabytes (200) from the start of the sender until all is in the receiver's file and that is synced.
  chukwa's time includes its syncs and the archive run. Beside it `cat` of the log and a sync of the copy, just before.

rsyslog has two rows. With disk-assisted queues, the usual advice, both ends keep up to 1,000 lines in memory. Without
queues the log is the sender's queue, and the receiver acknowledges a line after it has written it. Neither these two nor
syslog-ng sync what they write, which a kill doesn't show. syslog-ng's network destination has no acknowledgement, so its
windows and socket buffers are small. `--settings` prints all configuration files.

Installed programs are taken from PATH, those of `--packages` from a folder into which Debian's packages are unpacked. If
there are none, `apt-get download` and `dpkg-deb` unpack them in the new folder; nothing is installed, since the packages
exclude each other. A program that can't be had is shown as not installed.

It takes at most N minutes (10). A speed that was cut off by that counts what had arrived, and a row says so. It ends with
1 if chukwa loses, doubles or misplaces a line.
"""
import glob
import os
import random
import re
import shutil
import signal
import string
import sys
import tempfile
import threading
import time

sys.path.insert(0, os.path.join(os.path.dirname(os.path.abspath(__file__)), "../lib"))

from archive_reader import Archive, checkpoint, contents
from running import TOP, Process, Used, add_program, free_ports, listening, load, parser_of, program_of, ran

PACKAGES = (
    "rsyslog rsyslog-relp libestr0 libfastjson4 liblognorm5 librelp0 "
    "syslog-ng-core libivykis0 libnet1 libwrap0 libpopt0"
).split()
STREAM = ("h1", "Log", "app.log")
QUIET = 6
# Of the text that lines are cut from, so that a line follows from its number.
POOL = 1 << 16
LINE = 200

RSYSLOG_SENDER = """\
global(workDirectory="$folder/sender" maxMessageSize="64k")
main_queue(queue.type="Direct")
module(load="imfile" mode="inotify")
module(load="omrelp")
template(name="line" type="string" string="%msg%")
input(type="imfile" file="$folder/app.log" tag="t:" ruleset="out" freshStartTail="off" persistStateInterval="$saved")
ruleset(name="out") {
  action(type="omrelp" target="127.0.0.1" port="$port" template="line" timeout="10" windowSize="$window"
    action.resumeRetryCount="-1" action.resumeInterval="1" $sender_queue)
}
"""
RSYSLOG_RECEIVER = """\
global(workDirectory="$folder/receiver" maxMessageSize="64k" parser.escapeControlCharactersOnReceive="off")
main_queue(queue.type="Direct")
module(load="imrelp" ruleset="in")
template(name="line" type="string" string="%rawmsg%\\n")
input(type="imrelp" address="127.0.0.1" port="$port")
ruleset(name="in" $receiver_queue) {
  action(type="omfile" file="$folder/out.log" template="line" flushOnTXEnd="on" asyncWriting="off")
}
"""
DIRECT = 'queue.type="Direct"'
DISK_ASSISTED = (
    'queue.type="LinkedList" queue.filename="kept" queue.spoolDirectory="{0}" queue.size="1000"'
    ' queue.dequeueBatchSize="128" queue.maxDiskSpace="2g" queue.checkpointInterval="1" queue.saveOnShutdown="on"'
    ' queue.workerThreads="1"'
)
SYSLOG_NG_SENDER = """\
@version: 3.38
options { stats-freq(0); time-reopen(1); };
source s {
  file("$folder/app.log" follow-freq(1) flags(no-parse) log-fetch-limit(100) log-iw-size(1000));
};
destination d {
  network("127.0.0.1" port($port) transport("tcp") template("$${MSG}\\n") flush-lines(1) so-sndbuf(4096)
    disk-buffer(reliable(yes) mem-buf-size(16777216) disk-buf-size(1073741824) dir("$folder/sender")));
};
log { source(s); destination(d); flags(flow-control); };
"""
SYSLOG_NG_RECEIVER = """\
@version: 3.38
options { stats-freq(0); };
source s {
  network(ip("127.0.0.1") port($port) transport("tcp") flags(no-parse) max-connections(1) log-fetch-limit(10)
    log-iw-size(100) so-rcvbuf(4096));
};
destination d { file("$folder/out.log" template("$${MSG}\\n") flush-lines(1)); };
log { source(s); destination(d); flags(flow-control); };
"""


def pool():
    chance = random.Random(7)
    return bytes(chance.choices(b"abcdefghijklmnopqrstuvwxyzABCDEFGHIJKLMNOPQRSTUVWXYZ0123456789=/.-_:", k=POOL + LINE))


TEXT = pool()


def line_of(number):
    """The log's line of that number, without its newline: 100 to 298 bytes."""
    size = LINE // 2 - 11 + number * 7919 % LINE
    start = number * 31 % POOL
    return b"%010d %s" % (number, TEXT[start : start + size])


class Ended(Exception):
    """A process that ended, or didn't start, so that a run can't be measured."""


class Packages:
    """Where the peers' programs are: installed, or in a folder into which their packages are unpacked."""

    def __init__(self, folder=None):
        self.folder = folder and os.path.abspath(folder)

    def below(self, pattern):
        return sorted(glob.glob(f"{self.folder}/{pattern}", recursive=True)) if self.folder else []

    def program(self, name):
        """The words that start it, none if it is missing or doesn't run."""
        found = f"{self.folder}/usr/sbin/{name}"
        if not self.folder:
            found = shutil.which(name, path=f"{os.environ.get('PATH', '')}:/usr/sbin:/sbin")
        if not found or not os.path.exists(found):
            return None
        libraries = ":".join(self.below("usr/lib/*-linux-gnu") + self.below("usr/lib/**/syslog-ng"))
        words = ["env", f"LD_LIBRARY_PATH={libraries}", found] if self.folder else [found]
        return words if ran([*words, "--version" if name == "syslog-ng" else "-v"], ".")[0] == 0 else None

    def modules(self, one):
        """The folder of a program's modules, of which it has this one; none if the program knows it itself."""
        return next((os.path.dirname(name) for name in self.below(f"usr/lib/**/{one}")), None)


def downloaded(folder):
    """The peers' packages, unpacked below a folder; those that can't be had are left out."""
    os.makedirs(f"{folder}/packages")
    if shutil.which("apt-get"):
        for package in PACKAGES:
            ran(["apt-get", "download", "-qq", package], f"{folder}/packages", 60)
    for name in sorted(os.listdir(f"{folder}/packages")):
        ran(["dpkg-deb", "-x", f"packages/{name}", "unpacked"], folder, 60)
    return Packages(f"{folder}/unpacked")


class Pair:
    """A sender and a receiver over one log in a folder, each of which may be killed and started again."""

    settings = ""
    files = {}
    # The daemon, and where it is; chukwa's program is an option of the script.
    program = None
    place = None

    def __init__(self, asked, folder):
        self.asked, self.folder, self.port = asked, os.path.abspath(folder), free_ports(1)[0]
        self.log, self.out = f"{folder}/app.log", f"{folder}/out.log"
        self.running = {"receiver": None, "sender": None}
        self.alone = 0
        for end in self.running:
            os.makedirs(f"{folder}/{end}", exist_ok=True)
        for name, made in self.files.items():
            with open(f"{folder}/{name}", "w", encoding="ascii") as file:
                file.write(self.filled(made, self.folder, self.port))

    @classmethod
    def filled(cls, made, folder, port):
        return string.Template(made).substitute(folder=folder, port=port)

    def words(self, end):
        raise NotImplementedError

    def start(self, end, seconds=20):
        self.running[end] = Process(end, self.words(end), self.folder)
        began = time.monotonic()
        while end == "receiver" and not listening(self.port):
            if self.running[end].status() is not None or time.monotonic() - began > seconds:
                raise Ended(f"the receiver doesn't listen: {self.running[end].error()[-300:]}")
            time.sleep(0.01)

    def revive(self):
        """Starts what ended by itself, which counts."""
        for end, process in self.running.items():
            if process.status() is not None:
                self.alone += 1
                process.close()
                self.start(end)

    def kill(self, end):
        self.running[end].close()

    def stop(self, seconds=20):
        """Ends both as a service manager does, the sender first."""
        for end in ("sender", "receiver"):
            process = self.running[end]
            if process and process.status() is None:
                process.child.terminate()
                process.wait(seconds)
            if process:
                process.close()
            self.running[end] = None

    def arrived(self):
        """How many bytes the other end has written, or committed."""
        return os.path.getsize(self.out) if os.path.exists(self.out) else 0

    def gather(self):
        """Brings all that has arrived into the file of the other end, and that onto the disk."""
        if os.path.exists(self.out):
            with open(self.out, "rb+") as file:
                os.fsync(file.fileno())

    def received(self):
        return contents(self.out) if os.path.exists(self.out) else b""


class Rsyslog(Pair):
    name = "rsyslog"
    program = "rsyslogd"
    files = {"sender.conf": RSYSLOG_SENDER, "receiver.conf": RSYSLOG_RECEIVER}
    settings = "imfile, RELP, no queues"
    # Lines that may be under way, and lines between two writes of the log's position.
    window, saved = 1, 1000
    queues = {"sender": DIRECT, "receiver": DIRECT}

    @classmethod
    def filled(cls, made, folder, port):
        queues = {f"{end}_queue": queue.format(f"{folder}/{end}") for end, queue in cls.queues.items()}
        values = {"folder": folder, "port": port, "window": cls.window, "saved": cls.saved, **queues}
        return string.Template(made).substitute(values)

    def words(self, end):
        # A killed process leaves its file of the process number, with which another one doesn't start.
        pid = f"{self.folder}/{end}/pid"
        if os.path.exists(pid):
            os.remove(pid)
        modules = self.place.modules("rsyslog/imfile.so")
        where = ["-M", modules] if modules else []
        return [*self.place.program(self.program), "-n", *where, "-f", f"{self.folder}/{end}.conf", "-i", pid]

    @staticmethod
    def version(words):
        return ran([*words, "-v"], ".")[1].split()[1]


class RsyslogQueues(Rsyslog):
    name = "rsyslog-queues"
    settings = "imfile, RELP, disk-assisted queues of 1,000 lines"
    # Above a batch of the queue: with less, each batch waits for a delayed acknowledgement.
    window, saved = 1000, 100
    queues = {"sender": DISK_ASSISTED, "receiver": DISK_ASSISTED}


class SyslogNg(Pair):
    name = "syslog-ng"
    program = "syslog-ng"
    files = {"sender.conf": SYSLOG_NG_SENDER, "receiver.conf": SYSLOG_NG_RECEIVER}
    settings = "file, TCP without acknowledgements, reliable disk buffer, flow control"

    def words(self, end):
        modules = self.place.modules("syslog-ng/*/libaffile.so")
        where = [f"--module-path={modules}"] if modules else []
        own = f"{self.folder}/{end}"
        kept = ["-R", f"{own}/persist", "-p", f"{own}/pid", "-c", f"{own}/ctl"]
        return [*self.place.program(self.program), "-F", "--no-caps", *where, "-f", f"{own}.conf", *kept]

    @staticmethod
    def version(words):
        return re.search(r"Installer-Version: (\S+)", ran([*words, "--version"], ".")[1]).group(1)


class Chukwa(Pair):
    name = "chukwa"
    files = {"add": "add FileTailingAdaptor Log app.log 0\n"}
    settings = "agent --pause 0 --poll 200 --expire 2000, collector, archive"

    def words(self, end):
        address = f"127.0.0.1:{self.port}"
        if end == "receiver":
            return [self.asked.program, "collector", "c1", address]
        options = ["--initial", "add", "--pause", "0", "--poll", "200", "--expire", "2000"]
        return [self.asked.program, "agent", *options, "h1", address]

    def arrived(self):
        return sum(row.offset for row in checkpoint(self.folder, "h1").values())

    def gather(self):
        self.stop()
        for words in (["collector", "--turns", "1", "c1", f"127.0.0.1:{self.port}"], ["archive"]):
            status, out, error = ran([self.asked.program, *words], self.folder, 600)
            if status != 0:
                raise Ended(f"{words[0]}: {status} {out} {error}")

    def received(self):
        return Archive(self.folder).bytes_of(STREAM)

    @staticmethod
    def version(_words):
        with open(f"{TOP}/CHANGELOG.md", encoding="utf-8") as changes:
            heads = [line[3:].split(" ")[0] for line in changes if line.startswith("## ")]
        return f"after {heads[1]}" if heads[0] == "Not" else heads[0]


class Writer:
    """Appends numbered lines to a log beside the script, so many a second."""

    def __init__(self, path, rate):
        self.path, self.rate, self.count = path, rate, 0
        self.ending = threading.Event()
        self.thread = threading.Thread(target=self.write, daemon=True)

    def write(self):
        began = time.monotonic()
        with open(self.path, "ab", buffering=0) as log:
            while not self.ending.wait(0.02):
                wanted = int((time.monotonic() - began) * self.rate)
                log.write(b"".join(line_of(number) + b"\n" for number in range(self.count, wanted)))
                self.count = wanted

    def stop(self):
        self.ending.set()
        self.thread.join()


class Counts:
    """What became of the lines of a log."""

    def __init__(self, data, count):
        self.count = count
        self.doubled = self.disordered = self.torn = 0
        seen, highest = bytearray(count), -1
        *lines, rest = data.split(b"\n")
        for line in lines:
            number = int(line[:10]) if line[:10].isdigit() and len(line) > 10 else count
            if number >= count or line != line_of(number):
                self.torn += 1
            elif seen[number]:
                self.doubled += 1
            else:
                self.disordered += number < highest
                seen[number], highest = 1, max(number, highest)
        self.torn += rest != b""
        self.lost = count - sum(seen)
        # Those behind the last one that arrived, which may only be late.
        self.late = count - 1 - highest

    def is_right(self):
        return not (self.lost or self.doubled or self.disordered or self.torn)


def settles(pair, until):
    """Waits until nothing has arrived for QUIET seconds; whether that happened in time."""
    last, since = pair.arrived(), time.monotonic()
    while time.monotonic() - since < QUIET:
        if time.monotonic() > until:
            return False
        time.sleep(0.1)
        if (now := pair.arrived()) != last:
            last, since = now, time.monotonic()
    return True


def flows(pair, until, seconds=15):
    """Waits until something arrives; whatever ended by itself is started again."""
    before, began = pair.arrived(), time.monotonic()
    while pair.arrived() == before and time.monotonic() < min(until, began + seconds):
        pair.revive()
        time.sleep(0.02)


def through_kills(kind, asked, folder, until):
    """The counts, the kills that were made, how often a process ended by itself, and whether all came to rest in time."""
    pair, chance = kind(asked, folder), random.Random(asked.seed)
    writer, kills = Writer(pair.log, asked.rate), 0
    open(pair.log, "wb").close()
    # A third of the time is for what is late.
    middle = until - (until - time.monotonic()) / 3
    try:
        pair.start("receiver")
        pair.start("sender")
        writer.thread.start()
        while kills < asked.kills and time.monotonic() < middle:
            flows(pair, until)
            time.sleep(chance.random())
            end = ("receiver", "sender")[kills % 2]
            pair.kill(end)
            kills += 1
            time.sleep(chance.random() / 2)
            pair.start(end)
        flows(pair, until)
        writer.stop()
        settles(pair, until)
        pair.stop()
        # What queues keep on the disk arrives after a restart.
        pair.start("receiver")
        pair.start("sender")
        rests = settles(pair, until)
        pair.stop()
        pair.gather()
    finally:
        if writer.thread.is_alive():
            writer.stop()
        pair.stop(5)
    return Counts(pair.received(), writer.count), kills, pair.alone, rests


def copied(folder):
    """The seconds of a copy and its sync."""
    used = Used(["sh", "-c", "cat app.log >copied && sync copied"], folder).wait(600)
    os.remove(f"{folder}/copied")
    return used.seconds


def timed(kind, asked, folder, until):
    """The bytes that arrived, of how many, in how many seconds, those of `cat` and sync, and whether they are the log's."""
    pair = kind(asked, folder)
    with open(pair.log, "wb") as log:
        size = number = 0
        while size < asked.mb * 1_000_000:
            size += log.write(line_of(number) + b"\n")
            number += 1
        os.fsync(log.fileno())
    beside = copied(folder)
    try:
        pair.start("receiver")
        began = time.monotonic()
        pair.start("sender")
        while pair.arrived() < size and time.monotonic() < until:
            if any(process.status() is not None for process in pair.running.values()):
                raise Ended("a process ended by itself")
            time.sleep(0.02)
        pair.gather()
        took = time.monotonic() - began
        pair.stop()
        data = pair.received()
    finally:
        pair.stop(5)
    return min(len(data), size), size, took, beside, contents(pair.log).startswith(data)


def measured(what, kind, asked, share):
    """One run in a new folder, which has its share of the time; what went wrong in words."""
    with tempfile.TemporaryDirectory(dir=".", prefix="figures-") as folder:
        try:
            return what(kind, asked, folder, time.monotonic() + share)
        except Ended as why:
            return str(why)


def cells(counted, speed):
    """A row's cells behind the program and its settings."""
    if isinstance(counted, str):
        yield from (counted, "", "", "", "")
    else:
        counts, kills, alone, rests = counted
        note = "" if rests else ", cut off"
        yield f"{kills}{note}" + (f", {alone} exits" if alone else "")
        yield f"{counts.lost:,} of {counts.count:,}" + (f", {counts.late:,} at the end" if counts.late else "")
        yield from (f"{each:,}" for each in (counts.doubled, counts.disordered, counts.torn))
    if isinstance(speed, str):
        yield from (speed, "")
    else:
        arrived, size, took, beside, same = speed
        part = "" if arrived == size else f", cut off at {arrived / 1e6:.0f} MB"
        yield f"{arrived / took / 1e6:.1f}{part}" + ("" if same else ", out of order")
        yield f"{size / beside / 1e6:.0f}"


def placed(kinds, asked, folder):
    """Finds the programs; what isn't installed is downloaded, if it can be had."""
    installed, made = Packages(asked.packages), None
    for kind in kinds:
        if kind.program and not installed.program(kind.program) and not asked.packages:
            made = made or downloaded(folder)
        kind.place = installed if not kind.program or installed.program(kind.program) else made
    return [kind for kind in kinds if not kind.program or kind.place and kind.place.program(kind.program)]


def all_rows(kinds, asked, folder):
    end = time.monotonic() + 60 * asked.minutes
    present, is_right = placed(kinds, asked, folder), True
    for kind in present if asked.settings else ():
        for name, made in kind.files.items():
            print(f"{kind.name}, {name}:\n\n{kind.filled(made, '.', 'PORT')}")
    print(f"{load()}; {asked.rate:,} lines a second, {asked.kills} kills; {asked.mb} MB\n")
    print("| program | settings | kills | lost | doubled | out of order | torn | MB/s | `cat` and sync |")
    print("|---|---|---|---|---|---|---|---|---|", flush=True)
    runs = 2 * len(present)
    for kind in kinds:
        if kind not in present:
            print(f"| {kind.name} | {kind.settings} | not installed |", flush=True)
            continue
        found = []
        for what in (through_kills, timed):
            found.append(measured(what, kind, asked, (end - time.monotonic()) / runs))
            runs -= 1
        title = f"{kind.name} {kind.version(kind.place.program(kind.program) if kind.program else None)}"
        print(f"| {' | '.join((title, kind.settings, *cells(*found)))} |", flush=True)
        is_right &= kind is not Chukwa or not isinstance(found[0], str) and found[0][0].is_right()
    print(f"\n{load()}")
    return 0 if is_right else 1


def main():
    kinds = {kind.name: kind for kind in (RsyslogQueues, Rsyslog, SyslogNg, Chukwa)}
    parser = parser_of(__doc__)
    parser.add_argument("--only", choices=list(kinds), action="append", help="some of the rows")
    parser.add_argument("--kills", type=int, default=20, help="kills of each pair (20)")
    parser.add_argument("--rate", type=int, default=10_000, help="lines a second while processes are killed (10,000)")
    parser.add_argument("--mb", type=int, default=200, help="megabytes of the log that is timed (200)")
    parser.add_argument("--minutes", type=float, default=10, help="what all may take (10)")
    parser.add_argument("--seed", type=int, default=1, help="of the moments of the kills (1)")
    parser.add_argument("--packages", help="a folder into which the peers' packages are unpacked")
    parser.add_argument("--settings", action="store_true", help="print the configuration files too")
    add_program(parser)
    asked = parser.parse_args()
    asked.program = program_of(asked)
    signal.signal(signal.SIGTERM, lambda *_: sys.exit(143))
    chosen = [kinds[name] for name in asked.only or kinds]
    with tempfile.TemporaryDirectory(dir=".", prefix="figures-") as folder:
        return all_rows(chosen, asked, os.path.abspath(folder))


if __name__ == "__main__":
    sys.exit(main())
