#!/usr/bin/env python3
"""Times what an agent looks up: streams and names among many adaptors.

usage: tools/figures.py agent [--program FILE] [--adaptors N] [--rounds N]

In a new folder below the current one it writes a checkpoint of N lines (10,000) whose logs aren't there, and runs
`agent` over it for one turn with a collector's address at which nobody listens: with no further words, with an
initial file whose N lines name the same streams, which are looked up and skipped, and with a control session of N
lines that each add such a stream again, which is refused, and stop the last one at the end. Nothing of it but that
one stop writes the checkpoint, so the differences to the first run are the look-ups alone. Each has the best and the
worst of so many rounds (3), in processor seconds. Then N streams are added anew, one after the other, by an initial
file in a folder without a checkpoint: that one has the checkpoint's replacement for each line too, which is all but
all of it (`--anew` says how many streams, by default a tenth of N).
"""
import os
import resource
import subprocess
import sys
import tempfile
import time

sys.path.insert(0, os.path.join(os.path.dirname(os.path.abspath(__file__)), "../lib"))

from idle import write_checkpoint
from running import add_program, asked_at, free_ports, listening, load, parser_of, program_of

# A control message has fewer bytes than 65,536.
MESSAGE = 60_000


def paths_of(count):
    return [f"/nowhere/{n}.log" for n in range(1, count + 1)]


def lines_of(paths):
    return "".join(f"add FileTailingAdaptor Log {path} 0\n" for path in paths)


def spent(work):
    """The processor seconds of the children that the work waits for."""
    before = resource.getrusage(resource.RUSAGE_CHILDREN)
    work()
    after = resource.getrusage(resource.RUSAGE_CHILDREN)
    return after.ru_utime + after.ru_stime - before.ru_utime - before.ru_stime


def run(program, words, seconds=600):
    done = subprocess.run([program, "agent", *words], capture_output=True, timeout=seconds, check=False)
    if done.returncode:
        sys.exit(f"agent {words}: {done.returncode} {done.stdout!r} {done.stderr!r}")


def messages_of(lines, last):
    """The lines as control messages, and the last one's in the last of them."""
    messages, size = [[]], 0
    for line in lines:
        if size + len(line) > MESSAGE:
            messages.append([])
            size = 0
        messages[-1].append(line)
        size += len(line)
    messages[-1] += last
    return ["".join(f"{line}\n" for line in message) for message in messages]


def session(program, door, collector, lines, count):
    """An agent whose control door is told all these lines, to stop the last adaptor, and to end."""
    agent = subprocess.Popen(
        [program, "agent", "--control", f"127.0.0.1:{door}", "idle", collector],
        stdout=subprocess.DEVNULL, stderr=subprocess.DEVNULL)
    try:
        while not listening(door):
            if agent.poll() is not None:
                sys.exit(f"agent: {agent.returncode}")
            time.sleep(0.01)
        told = ""
        for message in messages_of(lines, [f"stop adaptor_{count}", "stopagent"]):
            told += asked_at(door, message)
        if agent.wait(60) or told.count("BAD 10 ") != count or f"OK adaptor adaptor_{count} stopped" not in told:
            sys.exit(f"control session: {agent.returncode} {told[-200:]!r}")
    finally:
        if agent.poll() is None:
            agent.kill()
            agent.wait()


def told(what, seconds, less=0.0):
    seconds = [each - less for each in seconds]
    print(f"{what}: {min(seconds):.2f} to {max(seconds):.2f} processor seconds", flush=True)


def looked_up(asked, collector, door):
    """The runs over a checkpoint that has the streams already."""
    paths = paths_of(asked.adaptors)
    with open("add", "w", encoding="ascii") as file:
        file.write(lines_of(paths))
    starts, files, sessions = [], [], []
    for _ in range(asked.rounds):
        write_checkpoint(paths, 0)
        starts.append(spent(lambda: run(asked.program, ["--turns", "1", "idle", collector])))
        files.append(spent(lambda: run(asked.program, ["--turns", "1", "--initial", "add", "idle", collector])))
        lines = lines_of(paths).splitlines()
        sessions.append(spent(lambda: session(asked.program, door, collector, lines, asked.adaptors)))
    base = min(starts)
    told(f"start and one turn of {asked.adaptors} adaptors", starts)
    told(f"{asked.adaptors} lines of an initial file, all read already", files, base)
    told(f"{asked.adaptors} refused lines of a control session, and a stop of the last", sessions, base)


def added(asked, collector):
    os.remove("agents/idle.check")
    with open("add", "w", encoding="ascii") as file:
        file.write(lines_of(paths_of(asked.anew)))
    seconds = [spent(lambda: run(asked.program, ["--turns", "1", "--initial", "add", "idle", collector]))]
    told(f"{asked.anew} streams added anew, with {asked.anew} replacements of the checkpoint", seconds)


def main():
    parser = parser_of(__doc__)
    add_program(parser)
    parser.add_argument("--adaptors", type=int, default=10_000)
    parser.add_argument("--anew", type=int, help="streams that are added anew (a tenth of the adaptors)")
    parser.add_argument("--rounds", type=int, default=3)
    asked = parser.parse_args()
    asked.program = program_of(asked)
    asked.anew = asked.anew or max(1, asked.adaptors // 10)
    print(load())
    with tempfile.TemporaryDirectory(dir=".", prefix="agent-figures-") as folder:
        os.chdir(folder)
        try:
            door, silent = free_ports(2)
            looked_up(asked, f"127.0.0.1:{silent}", door)
            added(asked, f"127.0.0.1:{silent}")
        finally:
            os.chdir("..")


if __name__ == "__main__":
    main()
