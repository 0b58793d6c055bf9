#!/usr/bin/env python3
"""Tries agents, collectors and the job as programs on 127.0.0.1.

usage: tools/try/loopback.py [--program FILE] [CASE...]

Each case, or each of those that are named, runs in a new folder, with ports that were free, and prints `ok`,
`skipped` and why, or what differed. The script ends with 1 where a case differed; each case is over
within a minute. A full disk wants a tmpfs that can be mounted, a missing permission root or none.
"""
import os
import shutil
import signal
import socket
import subprocess
import sys
import tempfile
import time

sys.path.insert(0, os.path.join(os.path.dirname(os.path.abspath(__file__)), "../lib"))

from archive_reader import Archive, Damaged, checkpoint, contents
from running import Process, add_program, asked_at, free_ports, listening, parser_of, program_of, ran, taking
from scenes import sequence_bytes, sequence_file

NOBODY = 65534
PIECE = 131_072
REFUSED = "Connection refused (os error 111)"
TAKEN = "Address already in use (os error 98)"


class Differs(Exception):
    """What a case wanted, and what came."""


class Skipped(Exception):
    """The machine doesn't allow this case."""


class Room:
    """A case's folder, and what runs in it."""

    def __init__(self, program, folder):
        self.program, self.folder, self.running = program, folder, []
        os.mkdir(f"{folder}/logs")

    def start(self, *words, below=""):
        process = Process(words[0], [self.program, *words], f"{self.folder}/{below}")
        self.running.append(process)
        return process

    def run(self, *words, below=""):
        return ran([self.program, *words], f"{self.folder}/{below}", 50)

    def write(self, name, data):
        with open(f"{self.folder}/{name}", "wb") as file:
            file.write(data)

    def close(self):
        for process in self.running:
            process.close()


def wanted(what, want, got):
    if want != got:
        raise Differs(f"{what}: wanted {want!r}, got {got!r}")


def holds(what, piece, got):
    if piece not in got:
        raise Differs(f"{what}: wanted {piece!r} in it, got {got!r}")


def until(what, seconds, is_so):
    end = time.monotonic() + seconds
    while not is_so():
        if time.monotonic() > end:
            raise Differs(f"{what}: not within {seconds} seconds")
        time.sleep(0.05)


def address(port):
    return f"127.0.0.1:{port}"


def opened(room, *words, name="c1", below=""):
    """A collector that listens, and its address. A port that was taken meanwhile is tried again."""
    for _ in range(5):
        (port,) = free_ports(1)
        process = room.start("collector", *words, name, address(port), below=below)
        until("the collector's door", 20, lambda: process.status() is not None or listening(port))
        if process.status() is None:
            return process, address(port)
        if TAKEN not in process.error():
            raise Differs(f"the collector ended: {process.status()} {process.printed()} {process.error()}")
    raise Skipped("no port is free")


def add_lines(room, name, *paths, kind="CharFileTailingAdaptorUTF8"):
    room.write(name, "".join(f"add {kind} Log {path} 0\n" for path in paths).encode())


def committed(room, source, path, below=""):
    row = checkpoint(f"{room.folder}/{below}", source).get(path)
    return row.offset if row else 0


def lines(first, count):
    return b"".join(b"%d of the lines of %s, %s\n" % (n, first, b"x" * (n % 200)) for n in range(count))


def archived(room, logs, below="", unclosed=0):
    """The job runs, and each log is its archive."""
    status, out, error = room.run("archive", below=below)
    if status != 0 or not out.startswith(f"archive unclosed {unclosed} "):
        raise Differs(f"archive: {status} {out!r} {error!r}")
    archive = Archive(f"{room.folder}/{below}")
    wanted("bytes lost and doubled", (0, 0), (archive.lost, archive.doubled))
    wanted("the streams", sorted(logs), sorted(archive.book.streams))
    for stream, data in logs.items():
        if archive.bytes_of(stream) != data:
            raise Differs(f"{stream}: {len(archive.bytes_of(stream))} bytes of {len(data)}, or others")


def refused_connection(room):
    """An agent whose collector isn't there goes on, tells the cause, and delivers once there is one."""
    log = lines(b"h1", 20)
    room.write("logs/a.log", log)
    add_lines(room, "add", "logs/a.log")
    (port,) = free_ports(1)
    words = ["--initial", "add", "--poll", "200", "--expire", "600", "h1", address(port)]
    status, out, error = room.run("agent", "--turns", "4", *words)
    wanted("the agent without a collector", (0, ""), (status, out))
    wanted("what it committed", 0, committed(room, "h1", "logs/a.log"))
    agent = room.start("agent", *words)
    time.sleep(1)
    wanted("the status of an agent that runs on", None, agent.status())
    room.start("collector", "--rotate", "200", "c1", address(port))
    until("all is committed", 30, lambda: committed(room, "h1", "logs/a.log") == len(log))
    holds("standard error of the agent without a collector", f"chukwa: send {address(port)}: {REFUSED}\n", error)


def port_in_use(room):
    """A collector whose port another program has ends, and makes no sink."""
    with socket.create_server(("127.0.0.1", 0)) as other:
        door = address(other.getsockname()[1])
        said = room.run("collector", "--turns", "1", "c1", door)
    wanted("the collector", (3, "outside take\n", f"chukwa: take {door}: {TAKEN}\n"), said)
    wanted("the sinks", ["c1.born"], os.listdir(f"{room.folder}/sinks"))


def held_name(room):
    """The second collector of a name ends, and the first goes on."""
    log = lines(b"h1", 20)
    room.write("logs/a.log", log)
    add_lines(room, "add", "logs/a.log")
    first, door = opened(room, "--rotate", "200")
    second = room.run("collector", "--turns", "1", "c1", address(free_ports(1)[0]))
    told = "chukwa: start locks/collector.c1: another process holds this lock\n"
    wanted("the second collector", (3, "outside start\n", told), second)
    wanted("the first one's status", None, first.status())
    status = room.run("agent", "--initial", "add", "--turns", "25", "--poll", "200", "h1", door)[0]
    wanted("the agent", 0, status)
    wanted("what it committed", len(log), committed(room, "h1", "logs/a.log"))
    wanted("the first one's status", None, first.status())


def held_source(room):
    """The second agent of a source ends, and the first goes on."""
    first = room.start("agent", "h1", address(free_ports(1)[0]))
    until("the lock", 20, lambda: os.path.exists(f"{room.folder}/locks/agent.h1"))
    time.sleep(0.5)
    second = room.run("agent", "--turns", "1", "h1", address(free_ports(1)[0]))
    told = "chukwa: start locks/agent.h1: another process holds this lock\n"
    wanted("the second agent", (3, "outside start\n", told), second)
    wanted("the first one's status", None, first.status())


def one_log(room):
    """A log of some lines reaches the archive."""
    log = lines(b"h1", 100)
    room.write("logs/a.log", log)
    add_lines(room, "add", "logs/a.log")
    collector, door = opened(room, "--turns", "10", "--rotate", "100")
    agent = room.run("agent", "--initial", "add", "--turns", "25", "--poll", "200", "h1", door)
    wanted("the agent", (0, "", ""), agent)
    wanted("the collector", (0, "", ""), (collector.wait(20), collector.printed(), collector.error()))
    wanted("what is committed", len(log), committed(room, "h1", "logs/a.log"))
    archived(room, {("h1", "Log", "logs/a.log"): log})


def pieces_of(stream, log):
    """A log in chunks that are as large as can be."""
    return [(stream, log, at, min(at + PIECE, len(log))) for at in range(0, len(log), PIECE)]


def ended(room, what, process, seconds=30):
    wanted(what, (0, "", ""), (process.wait(seconds), process.printed(), process.error()))


def drain_to_sink(room):
    """A drain takes logs to a collector that makes twenty turns: its one sink has them, and then the archive."""
    log, small = lines(b"h1", 3000), b"hello\n"
    room.write("logs/a.log", log)
    room.write("logs/b.log", small)
    add_lines(room, "add", "logs/a.log", "logs/b.log", "logs/none.log", kind="FileTailingAdaptor")
    collector, door = opened(room, "--turns", "20")
    ends = [("logs/a.log", len(log)), ("logs/b.log", 6), ("logs/none.log", 0)]
    told = "".join(f"stream h1 Log {path} {end}\n" for path, end in ends)
    wanted("the drain", (0, told, ""), room.run("drain", "--initial", "add", "h1", door))
    wanted("what is committed", [end for _, end in ends], [committed(room, "h1", path) for path, _ in ends])
    ended(room, "the collector", collector)
    wanted("the sinks", ["c1.1.1.done", "c1.born"], sorted(os.listdir(f"{room.folder}/sinks")))
    a, b = (("h1", "Log", path) for path, _ in ends[:2])
    sink = sequence_bytes("c1.1.1", pieces_of(a, log) + pieces_of(b, small))
    wanted("the sink's bytes", True, contents(f"{room.folder}/sinks/c1.1.1.done") == sink)
    archived(room, {a: log, b: small})


def agent_to_sink(room):
    """An agent of 25 turns and a collector of ten: the one sink has the log's six bytes, and the checkpoint says so."""
    room.write("logs/a.log", b"hello\n")
    add_lines(room, "add", "logs/a.log")
    collector, door = opened(room, "--turns", "10")
    agent = room.run("agent", "--initial", "add", "--turns", "25", "--poll", "200", "h1", door)
    wanted("the agent", (0, "", ""), agent)
    ended(room, "the collector", collector)
    stream = ("h1", "Log", "logs/a.log")
    sink = sequence_bytes("c1.1.1", [(stream, b"hello\n", 0, 6)])
    wanted("the sink's bytes", sink, contents(f"{room.folder}/sinks/c1.1.1.done"))
    check = "chukwa-checkpoint 1\nadd adaptor_1 = CharFileTailingAdaptorUTF8 Log logs/a.log 6 0 -\n"
    wanted("the checkpoint", check, contents(f"{room.folder}/agents/h1.check").decode())
    archived(room, {stream: b"hello\n"})


def datagram_to_archive(room):
    """A datagram goes into a buffer, which is closed, and which rounds read as a rotated file of a log."""
    stream = ("h1", "Log", "wahead/u1")
    words = ["round", "--class", "FileTailingAdaptor", *stream]
    told = "stream h1 Log wahead/u1 {0}\narchive unclosed 0 taken {0} held 0 removed {1}\n"
    wanted("the first round", (0, told.format(0, 0), ""), room.run(*words))
    (port,) = free_ports(1)
    writer = room.start("udp", "--turns", "2", "u1", address(port))
    until("the writer's door", 20, lambda: writer.status() is not None or taking(port))
    with socket.socket(socket.AF_INET, socket.SOCK_DGRAM) as sender:
        sender.sendto(b"ab\n", ("127.0.0.1", port))
    wanted("the writer", (0, "udp taken 1 bytes 3\n"), (writer.wait(20), writer.printed()))
    folder = f"{room.folder}/wahead"
    wanted("its files", ["u1-0000000000000000001", "u1.next"], sorted(os.listdir(folder)))
    wanted("the closed buffer", b"ab\n", contents(f"{folder}/u1-0000000000000000001"))
    wanted("its number", bytes(7) + b"\1", contents(f"{folder}/u1.next"))
    wanted("the second round", (0, told.format(3, 1), ""), room.run(*words))
    wanted("what is archived", b"ab\n", Archive(room.folder).bytes_of(stream))


class Growing:
    """A log that grows, and is rotated where its class goes over rotations."""

    def __init__(self, room, kind, name, path):
        self.room, self.kind, self.name, self.path = room, kind, name, path
        self.stream, self.log, self.days = ("h1", "Log", path), b"", 0

    def grow(self, count):
        more = lines(b"%s from %d on" % (self.path.encode(), len(self.log)), count)
        self.log += more
        with open(f"{self.room.folder}/{self.path}", "ab") as file:
            file.write(more)

    def rotate(self):
        self.days += 1
        base = f"{self.room.folder}/{self.path}"
        os.rename(base, f"{base}.{20_261_100 + self.days}")

    def line(self, name=""):
        return f"add {name}{self.kind} Log {self.path} 0\n"

    def listed(self):
        end = len(self.log)
        return f"{self.name} {self.kind} Log {self.path} {end} {end} live\n"

    def is_committed(self):
        return committed(self.room, "h1", self.path) == len(self.log)


def grown(logs, turns):
    """Some seconds in which logs grow and are rotated."""
    for turn in range(turns):
        for log in logs:
            log.grow(turn % 9)
            if turn % 7 == 3 and log.kind != "LWFTAdaptor":
                log.rotate()
                log.grow(turn % 3)
        time.sleep(0.1)


def control_session(room):
    """Logs that grow and are rotated, of an agent that gets them, loses one and stops by its control door."""
    a, b, c = logs = [Growing(room, "FileTailingAdaptor", "a", "logs/a.log"),
                      Growing(room, "CharFileTailingAdaptorUTF8", "adaptor_1", "logs/b.log"),
                      Growing(room, "LWFTAdaptor", "adaptor_2", "logs/c.log")]
    collector, door = opened(room, "--rotate", "400")
    (control,) = free_ports(1)
    agent = room.start("agent", "--control", address(control), "--poll", "200", "--expire", "2000", "h1", door)
    until("the control door", 20, lambda: agent.status() is not None or listening(control))
    said = asked_at(control, a.line("a = ") + b.line() + c.line() + "list\n")
    added = "".join(f"OK add completed; new ID is {log.name}\n" for log in logs)
    wanted("three logs", added + "".join(log.listed() for log in logs) + "OK 3 adaptors\n", said)
    wrong = "stop b\n lst \n\nadd x\nadd LWFTAdaptor Log logs/d.log -5\n"
    said = asked_at(control, c.line("a = ") + a.line() + wrong)
    refused = ["9 NameInUse", "10 StreamInUse", "12 NoAdaptor", "1 Unknown", "2 MissingWord", "3 BadOffset"]
    wanted("what is refused", "".join(f"BAD {why}\n" for why in refused), said)
    grown(logs, 40)
    until("all is committed", 30, lambda: all(log.is_committed() for log in logs))
    said = asked_at(control, "list\nstop a\nreloadcollectors\n")
    listed = "".join(log.listed() for log in logs) + "OK 3 adaptors\n"
    wanted("the list", listed + "OK adaptor a stopped\nOK 1 collectors\n", said)
    grown(logs, 10)
    until("the others are committed", 30, lambda: b.is_committed() and c.is_committed())
    wanted("what is committed of the stopped one", True, committed(room, "h1", a.path) < len(a.log))
    wanted("it is added again", "OK add completed; new ID is a\n", asked_at(control, a.line("a = ")))
    until("all is committed", 30, lambda: a.is_committed())
    wanted("the end", "".join(log.listed() for log in logs) + "OK 3 adaptors\nOK agent stops\n",
           asked_at(control, "list\nstopagent\nlist\n"))
    ended(room, "the agent", agent)
    collector.kill()
    wanted("the collector's end", 0, room.run("collector", "--turns", "1", "c1", door)[0])
    archived(room, {log.stream: log.log for log in logs})


class Pair:
    """Two agents, each in a folder of its own and with a log, and two collectors in one folder, with these options."""

    def __init__(self, room, count, *options):
        self.room, self.logs, self.doors, self.collectors, self.agents = room, {}, [], [], []
        self.options = ["--rotate", "500", *options]
        for name in ("h1", "h2", "store"):
            os.mkdir(f"{room.folder}/{name}")
        for name in ("c1", "c2"):
            collector, door = opened(room, *self.options, name=name, below="store")
            self.collectors.append(collector)
            self.doors.append(door)
        self.controls = dict(zip(("h1", "h2"), free_ports(2)))
        for source in self.controls:
            path = f"{room.folder}/logs/{source}.log"
            self.logs[(source, "Log", path)] = log = lines(source.encode(), count)
            room.write(f"logs/{source}.log", log)
            add_lines(room, f"{source}/add", path)

    def start_agents(self):
        for source, port in self.controls.items():
            words = ["--initial", "add", "--control", address(port), "--poll", "200", "--expire", "2000", source]
            self.agents.append(self.room.start("agent", *words, *self.doors, below=source))

    def committed(self):
        return [committed(self.room, source, path, below=source) for source, _, path in self.logs]

    def kill_and_start(self):
        """One of the collectors, once some bytes of each log are committed."""
        until("some of each is committed", 30, lambda: min(self.committed()) > 0)
        self.collectors[0].kill()
        time.sleep(0.5)
        self.collectors[0] = self.room.start("collector", *self.options, "c1", self.doors[0], below="store")

    def close(self):
        """The collectors end, close their sinks at a further start, and the job runs."""
        for process in self.collectors:
            process.kill()
        for name, door in zip(("c1", "c2"), self.doors):
            wanted(f"the end of {name}", 0, self.room.run("collector", "--turns", "1", name, door, below="store")[0])
        archived(self.room, self.logs, below="store")


def killed_collector(room):
    """Of two collectors that commit up to eight messages at once one is killed and begins again: all is delivered."""
    pair = Pair(room, 20_000, "--messages", "8")
    pair.start_agents()
    pair.kill_and_start()
    ends = [len(log) for log in pair.logs.values()]
    until("all is committed", 45, lambda: pair.committed() == ends)
    pair.close()


def killed_then_drained(room):
    """Of two collectors one is killed and started again, the agents stop in mid-work, and drains deliver the rest."""
    pair = Pair(room, 60_000)
    pair.start_agents()
    pair.kill_and_start()
    time.sleep(1)
    for source, agent in zip(pair.controls, pair.agents):
        wanted(f"the control door of {source}", "OK agent stops\n", asked_at(pair.controls[source], "stopagent\n"))
        wanted(f"the end of {source}", (0, ""), (agent.wait(30), agent.printed()))
    ends = [len(log) for log in pair.logs.values()]
    parts = [0 < part < end for part, end in zip(pair.committed(), ends)]
    wanted("whether parts of the logs are committed", [True, True], parts)
    for (source, kind, path), end in zip(pair.logs, ends):
        status, out, _ = room.run("drain", source, *pair.doors, below=source)
        wanted(f"the drain of {source}", (0, f"stream {source} {kind} {path} {end}\n"), (status, out))
    wanted("what is committed", ends, pair.committed())
    pair.close()


def stopped_close(room):
    """A collector that was stopped while it closed a sink, before it removed the mark, starts again."""
    os.mkdir(f"{room.folder}/sinks")
    chunk = (("h1", "Log", "/a.log"), lines(b"h1", 4), 0, 60)
    size = sequence_file(f"{room.folder}/sinks/c1.1.1.done", [chunk])
    room.write("sinks/c1.born", (1).to_bytes(8, "big"))
    room.write("sinks/c1.1.1.mark", size.to_bytes(8, "big"))
    room.write("sinks/c1.1.2.mark", size.to_bytes(8, "big"))
    said = room.run("collector", "--turns", "1", "c1", address(free_ports(1)[0]))
    wanted("the collector", (0, "", ""), said)
    wanted("the sinks", ["c1.1.1.done", "c1.born"], sorted(os.listdir(f"{room.folder}/sinks")))


def odd_logs(room):
    """Long lines, odd bytes, no bytes, a log that comes late, and thirty rotations while no agent runs."""
    odd = bytes(range(256)) * 700 + b"\r\n\n\0\n" + b"y" * 300_000 + b"\n"
    logs = {"odd": odd + b"no end", "empty": b"", "late": b"late\r\n", "turned": b""}
    paths = {name: f"logs/{name}.log" for name in logs} | {"late": "logs/below/late.log"}
    kinds = {"c": "CharFileTailingAdaptorUTF8", "f": "FileTailingAdaptor", "l": "LWFTAdaptor"}
    words = [f"add {kind} {kind[:4]} {path} 0\n" for kind in kinds.values() for path in paths.values()]
    room.write("add", "".join(words).encode())
    room.write(paths["odd"], logs["odd"])
    room.write(paths["empty"], b"")
    _, door = opened(room, "--rotate", "300")
    said = room.run("agent", "--initial", "add", "--turns", "12", "--poll", "300", "h1", door)
    wanted("the agent", (0, "", ""), said)
    os.mkdir(f"{room.folder}/logs/below")
    room.write(paths["late"], logs["late"])
    for day in range(30):
        base = lines(b"day", day % 7)
        logs["turned"] += base
        room.write(f"{paths['turned']}.{20_261_101 + day}", base)
    room.write(paths["turned"], b"last\n")
    said = room.run("agent", "--turns", "80", "--poll", "300", "h1", door)
    wanted("the agent that runs again", (0, "", ""), said)
    room.running[0].kill()
    wanted("the collector's end", 0, room.run("collector", "--turns", "1", "c1", door)[0])
    held = {}
    for kind in kinds.values():
        is_plain = kind.startswith("LWFT")
        held[("h1", kind[:4], paths["odd"])] = odd if kind.startswith("Char") else logs["odd"]
        held[("h1", kind[:4], paths["late"])] = logs["late"]
        held[("h1", kind[:4], paths["turned"])] = b"last\n" if is_plain else logs["turned"] + b"last\n"
    archived(room, held)


def no_file_for_log(room):
    """A folder and a named pipe in place of logs count as logs that aren't there."""
    os.mkdir(f"{room.folder}/logs/a.log")
    os.mkfifo(f"{room.folder}/logs/b.log")
    add_lines(room, "add", "logs/a.log", "logs/b.log", "/dev/null")
    agent = room.run("agent", "--initial", "add", "--turns", "5", "h1", address(free_ports(1)[0]))
    wanted("the agent", (0, "", ""), agent)


def as_nobody(room):
    """Words that run the program as another user than root, in a place that it can come to."""
    if os.geteuid() == 0 and not shutil.which("setpriv"):
        raise Skipped("setpriv isn't here")
    os.chmod(room.folder, 0o777)
    if os.geteuid() != 0:
        return []
    return ["setpriv", f"--reuid={NOBODY}", f"--regid={NOBODY}", "--clear-groups"]


def unreadable_log(room):
    room.write("logs/a.log", b"hello\n")
    os.chmod(f"{room.folder}/logs/a.log", 0)
    add_lines(room, "add", "logs/a.log")
    words = [room.program, "agent", "--initial", "add", "--turns", "5", "h1", address(free_ports(1)[0])]
    agent = ran([*as_nobody(room), *words], room.folder)
    told = "chukwa: lognewest logs/a.log: Permission denied (os error 13)\n"
    wanted("the agent", (3, "outside lognewest\n", told), agent)
    wanted("what the checkpoint has", 0, len(checkpoint(room.folder, "h1")))


def closed_folder(room):
    """No process can make its lock, and nothing is left behind."""
    nobody = as_nobody(room)
    os.chmod(room.folder, 0o555)
    for words in (["collector", "--turns", "1", "c1"], ["agent", "--turns", "1", "h1"], ["archive"]):
        lock = {"collector": "collector.c1", "agent": "agent.h1", "archive": "job"}[words[0]]
        door = [] if words == ["archive"] else [address(free_ports(1)[0])]
        told = f"chukwa: start locks/{lock}: Permission denied (os error 13)\n"
        got = ran([*nobody, room.program, *words, *door], room.folder)
        wanted(words[0], (3, "outside start\n", told), got)
    wanted("what is there", ["logs"], os.listdir(room.folder))


def mounted(folder, size):
    os.mkdir(folder)
    mount = ["mount", "-t", "tmpfs", "-o", f"size={size}", "tmpfs", folder]
    if os.geteuid() != 0 or not shutil.which("mount") or subprocess.run(mount, stderr=subprocess.DEVNULL).returncode:
        raise Skipped("no tmpfs can be mounted")


def full_disk(room):
    """The collectors' disk is full until a file on it goes; then all is delivered and archived."""
    store = f"{room.folder}/store"
    mounted(store, "1m")
    try:
        fill_and_free(room, store)
    finally:
        room.close()
        subprocess.run(["umount", store], check=False)


def fill_and_free(room, store):
    log = lines(b"h1", 2000)
    room.write("logs/a.log", log)
    add_lines(room, "add", "logs/a.log")
    collector, door = opened(room, "--rotate", "300", below="store")
    with open(f"{store}/filler", "wb", buffering=0) as filler:
        try:
            while filler.write(bytes(4096)):
                pass
        except OSError:
            pass
    agent = room.start("agent", "--initial", "add", "--poll", "200", "--expire", "1000", "h1", door)
    time.sleep(3)
    wanted("the agent's status while the disk is full", None, agent.status())
    if collector.status() is not None:
        holds("the collector", "No space left on device (os error 28)\n", collector.error())
        wanted("its status", 3, collector.status())
    wanted("what is committed", 0, committed(room, "h1", "logs/a.log"))
    os.remove(f"{store}/filler")
    if collector.status() is not None:
        collector = room.start("collector", "--rotate", "300", *collector.words[-2:], below="store")
    until("all is committed", 30, lambda: committed(room, "h1", "logs/a.log") == len(log))
    wanted("the collector's status", None, collector.status())
    collector.kill()
    wanted("its end", 0, room.run("collector", "--turns", "1", *collector.words[-2:], below="store")[0])
    full_archive(room, store, {("h1", "Log", "logs/a.log"): log})


def full_archive(room, store, logs):
    """A job on a full disk ends with 3, and the next one is whole once there is room."""
    with open(f"{store}/filler", "wb", buffering=0) as filler:
        try:
            while filler.write(bytes(4096)):
                pass
        except OSError:
            pass
    status, _, error = room.run("archive", below="store")
    wanted("the job on a full disk", 3, status)
    holds("its standard error", "No space left on device (os error 28)\n", error)
    os.remove(f"{store}/filler")
    archived(room, logs, below="store")


CASES = [drain_to_sink, agent_to_sink, control_session, killed_collector, killed_then_drained, one_log, odd_logs]
CASES += [refused_connection, port_in_use, held_name, held_source, stopped_close, no_file_for_log, unreadable_log]
CASES += [closed_folder, full_disk, datagram_to_archive]


def tried(program, case):
    """What differed, if anything."""
    folder = tempfile.mkdtemp(prefix="loopback-")
    room = Room(program, folder)
    began = time.monotonic()
    try:
        case(room)
        said = "ok"
    except Skipped as why:
        said = f"skipped, {why}"
    except (Differs, Damaged, OSError) as why:
        said = f"BAD\n  {why}"
    finally:
        room.close()
        os.chmod(folder, 0o755)
        shutil.rmtree(folder, ignore_errors=True)
    print(f"{case.__name__} ({time.monotonic() - began:.0f} s): {said}", flush=True)
    return not said.startswith("BAD")


def main():
    parser = parser_of(__doc__)
    parser.add_argument("cases", nargs="*", metavar="CASE", help=", ".join(case.__name__ for case in CASES))
    add_program(parser)
    asked = parser.parse_args()
    signal.signal(signal.SIGTERM, lambda *_: sys.exit(143))
    with tempfile.TemporaryDirectory() as place:
        # A copy that every user can run.
        os.chmod(place, 0o755)
        program = shutil.copy(program_of(asked), f"{place}/chukwa")
        os.chmod(program, 0o755)
        cases = [case for case in CASES if not asked.cases or case.__name__ in asked.cases]
        return 0 if all([tried(program, case) for case in cases]) else 1


if __name__ == "__main__":
    sys.exit(main())
