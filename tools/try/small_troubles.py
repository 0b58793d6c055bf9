#!/usr/bin/env python3
"""Closed descriptors, broken pipes, limits of files, signals, large folders that change, and requests of the web.

usage: tools/try/small_troubles.py [--program FILE] [CASE...]

- `closed`: `archive` is started with descriptors 0, 1 and 2 closed, each alone and all together. Its
  report isn't written into a file of its own.
- `pipe`: what reads its standard output is gone. It ends as where standard output can't be written.
- `limit`: a `round` whose sink would pass the limit of a file's size ends with a failed append, and one
  after it without the limit takes all.
- `signals`: a `round` that is stopped and goes on many times takes all.
- `waits`: a `drain` whose collector doesn't answer for 1.6 s is stopped for 50 ms and goes on, 16 times in
  that time. It delivers all.
- `web`: requests of the web come to a control door, with control lines as their bodies. None is followed.
- `refused`: a line of an initial file is no good `add`. It is told with its number and what is wrong with it.
- `folder`: a log in a folder of 5,000 others is rotated while an agent follows it. None of its bytes is lost.

Each prints its figure; the script ends with 1 where one isn't as it should be.
"""
import os
import resource
import signal
import subprocess
import sys
import tempfile
import threading
import time

sys.path.insert(0, os.path.join(os.path.dirname(os.path.abspath(__file__)), "../lib"))

from archive_reader import Archive
from running import Process, add_program, asked_at, free_ports, listening, parser_of, program_of, ran


def write(path, data):
    with open(path, "wb") as file:
        file.write(data)


def closed(program, folder):
    """How many of the runs wrote into a file of their own, or ended otherwise than with 0."""
    wrong = 0
    for each in ("<&-", ">&-", "2>&-", "<&- >&- 2>&-"):
        status = subprocess.run(["sh", "-c", f"exec \"$0\" archive {each}", program], cwd=folder,
                                stdout=subprocess.DEVNULL, stderr=subprocess.DEVNULL).returncode
        sizes = [os.path.getsize(f"{folder}/locks/{name}") for name in os.listdir(f"{folder}/locks")]
        wrong += status != 0 or sum(sizes) > 0
        for name in os.listdir(f"{folder}/locks"):
            os.truncate(f"{folder}/locks/{name}", 0)
    return wrong, "of 4 starts with closed descriptors went wrong"


def pipe(program, folder):
    """Whether a broken pipe ended it otherwise than with 3 and a line."""
    taken, given = os.pipe()
    os.close(taken)
    done = subprocess.run([program, "archive"], cwd=folder, stdout=given, stderr=subprocess.PIPE)
    os.close(given)
    return int(done.returncode != 3 or b"say: Broken pipe" not in done.stderr), "of 1 broken pipes ended it otherwise"


def limit(program, folder):
    """Whether the limit ended it otherwise, or bytes were lost behind it."""
    data = b"a line of the log\n" * 100_000
    write(f"{folder}/a.log", data)

    def few():
        resource.setrlimit(resource.RLIMIT_FSIZE, (600_000, 600_000))

    done = subprocess.run([program, "round", "h1", "Log", "a.log"], cwd=folder, capture_output=True, preexec_fn=few)
    print(f"  it ended with {done.returncode}: {done.stdout.decode()!r} {done.stderr.decode()!r}")
    behind = ran([program, "round", "h1", "Log", "a.log"], folder)
    kept = Archive(folder).bytes_of(("h1", "Log", "a.log"))
    return int(done.returncode != 3) + (behind[0] != 0 or kept != data), "of 2 rounds around a limit went wrong"


def signals(program, folder):
    """Whether stops and goes ended a round, or lost bytes."""
    data = b"a line of the log\n" * 1_000_000
    write(f"{folder}/a.log", data)
    process = Process("round", [program, "round", "h1", "Log", "a.log"], folder)
    count = 0
    while process.status() is None:
        os.killpg(process.child.pid, signal.SIGSTOP)
        time.sleep(0.002)
        os.killpg(process.child.pid, signal.SIGCONT)
        time.sleep(0.002)
        count += 1
    status, said = process.status(), process.error()
    process.close()
    print(f"  it was stopped {count} times, and ended with {status} {said!r}")
    return int(status != 0 or Archive(folder).bytes_of(("h1", "Log", "a.log")) != data), "of 1 stopped rounds went wrong"


def waits(program, folder):
    """Whether stops and goes ended a drain that waited for its collector, or lost bytes."""
    data = b"a line of the log\n" * 1_000
    write(f"{folder}/a.log", data)
    write(f"{folder}/add", b"add CharFileTailingAdaptorUTF8 Log a.log 0\n")
    (door,) = free_ports(1)
    collector = Process("collector", [program, "collector", "c1", f"127.0.0.1:{door}"], folder)
    try:
        while collector.status() is None and not listening(door):
            time.sleep(0.02)
        os.killpg(collector.child.pid, signal.SIGSTOP)
        drain = Process("drain", [program, "drain", "--initial", "add", "h1", f"127.0.0.1:{door}"], folder)
        for _ in range(16):
            os.killpg(drain.child.pid, signal.SIGSTOP)
            time.sleep(0.05)
            os.killpg(drain.child.pid, signal.SIGCONT)
            time.sleep(0.05)
        os.killpg(collector.child.pid, signal.SIGCONT)
        status, said = drain.wait(90), drain.error()
        drain.close()
    finally:
        collector.close()
    print(f"  it ended with {status} {said!r}")
    return int(status != 0), "of 1 waiting drains went wrong"


def web(program, folder):
    """How many requests of the web ended the agent."""
    (control,), wrong = free_ports(1), 0
    words = [program, "agent", "--control", f"127.0.0.1:{control}", "h1", "127.0.0.1:1"]
    for head in ("POST /", "PUT /a", "GET /?stopagent"):
        agent = Process("agent", words, folder)
        try:
            while agent.status() is None and not listening(control):
                time.sleep(0.02)
            asked_at(control, f"{head} HTTP/1.1\r\nHost: h\r\nContent-Length: 10\r\n\r\nstopagent\n")
            time.sleep(1)
            wrong += agent.status() is not None or not asked_at(control, "list\n").endswith("OK 0 adaptors\n")
        finally:
            agent.close()
    return wrong, "of 3 requests of the web were followed"


def refused(program, folder):
    """How many of the refused lines weren't told so."""
    write(f"{folder}/add", b"\nadd a = FileTailingAdaptor Log /x.log 0\nadd Filetailingadaptor Log /y.log 0\n")
    write(f"{folder}/stop", b"stop a\n")
    write(f"{folder}/bytes", b"add FileTailingAdaptor Log /x\xff 0\n")
    lines = {
        "add": "chukwa: add line 3: BadClass Filetailingadaptor",
        "stop": "chukwa: stop line 1: NoAdd stop a",
        "bytes": "chukwa: bytes line 1: NotUtf8 FileTailingAdaptor",
    }
    wrong = 0
    for command in (["agent", "--turns", "1"], ["drain"]):
        for name, line in lines.items():
            status, _, error = ran([program, *command, "--initial", name, "h1", "127.0.0.1:1"], folder)
            wrong += status != 5 or line not in error
    return wrong, "of 6 refused lines were not told"


def folder(program, folder):
    """How many lines are lost of a log that is rotated in a large folder."""
    logs = f"{folder}/logs"
    os.mkdir(logs)
    for number in range(5_000):
        write(f"{logs}/other.{number:05}.log.20261101", b"")
    path, (port,), wrote, ends = f"{logs}/m.log", free_ports(1), [], []

    def churn():
        number = 0
        while not ends:
            os.rename(f"{logs}/other.{number % 5_000:05}.log.20261101", f"{logs}/other.{number % 5_000:05}.log.20261102")
            os.rename(f"{logs}/other.{number % 5_000:05}.log.20261102", f"{logs}/other.{number % 5_000:05}.log.20261101")
            number += 1
            time.sleep(0.001)

    thread = threading.Thread(target=churn)
    thread.start()
    write(f"{folder}/add", f"add FileTailingAdaptor Log {path} 0\n".encode())
    words = ["--initial", "add", "--poll", "300", "h1", f"127.0.0.1:{port}"]
    collector = Process("collector", [program, "collector", "--rotate", "500", "c1", f"127.0.0.1:{port}"], folder)
    while not listening(port):
        time.sleep(0.05)
    agent = Process("agent", [program, "agent", *words], folder)
    try:
        for number in range(5):
            for line in range(100):
                with open(path, "ab") as file:
                    wrote.append(b"line %d of file %d\n" % (line, number))
                    file.write(wrote[-1])
                time.sleep(0.01)
            time.sleep(4)
            os.rename(path, f"{path}.{20_261_101 + number}")
        time.sleep(5)
        ended = agent.status()
        agent.kill()
        ends.append(True)
        thread.join()
        ran([program, "drain", "h1", f"127.0.0.1:{port}"], folder)
        collector.kill()
        ran([program, "collector", "--turns", "1", "c1", f"127.0.0.1:{port}"], folder)
        ran([program, "archive"], folder)
        kept = Archive(folder).bytes_of(("h1", "Log", path))
        print(f"  the agent ended: {ended}; whole: {kept == b''.join(wrote)}")
        return len(set(wrote) - set(kept.splitlines(keepends=True))), "of 500 lines in a large folder were lost"
    finally:
        ends.append(True)
        agent.close()
        collector.close()


CASES = [closed, pipe, limit, signals, waits, web, refused, folder]


def main():
    parser = parser_of(__doc__)
    parser.add_argument("cases", nargs="*", metavar="CASE", help=", ".join(case.__name__ for case in CASES))
    add_program(parser)
    asked = parser.parse_args()
    program, wrong = program_of(asked), 0
    for case in CASES:
        if not asked.cases or case.__name__ in asked.cases:
            with tempfile.TemporaryDirectory() as place:
                count, what = case(program, place)
            print(f"{case.__name__}: {count} {what}", flush=True)
            wrong += count
    return 1 if wrong else 0


if __name__ == "__main__":
    sys.exit(main())
