#!/usr/bin/env python3
"""Times an agent's turns over many logs that don't grow.

usage: tools/figures.py idle [--program FILE] [--logs N] [--rounds N] [--minute]

In a new folder below the current one it writes a checkpoint of N lines (10,000) whose logs aren't there, then the
same with a log of one byte for each line, read before, in folders of a hundred and in one folder, and runs `agent`
over it for one turn and for several, with a collector's address at which nobody listens. A row has the best and the
worst of so many rounds (3): a turn is the difference of both runs except for its pause of 200 ms, by their number, in
milliseconds by the clock and of the processor.

With `--minute` it runs `agent` over the first of these checkpoints for 300 turns, so for a minute of pauses, and
prints the processor seconds of the whole run.
"""
import os
import resource
import shutil
import subprocess
import sys
import tempfile
import time

sys.path.insert(0, os.path.join(os.path.dirname(os.path.abspath(__file__)), "../lib"))

from running import add_program, free_ports, parser_of, program_of

PAUSE = 0.2


def write_checkpoint(paths, at):
    os.makedirs("agents", exist_ok=True)
    with open("agents/idle.check", "w", encoding="ascii") as check:
        check.write("chukwa-checkpoint 1\n")
        for n, path in enumerate(paths, 1):
            check.write(f"add adaptor_{n} = FileTailingAdaptor Log {path} {at} 0 -\n")


def run(program, count, where):
    """The seconds of a run of so many turns, by the clock and of the processor."""
    began, before = time.monotonic(), resource.getrusage(resource.RUSAGE_CHILDREN)
    done = subprocess.run([program, "agent", "--turns", str(count), "idle", where], capture_output=True, timeout=300, check=False)
    if done.returncode:
        sys.exit(f"agent: {done.returncode} {done.stdout!r} {done.stderr!r}")
    after = resource.getrusage(resource.RUSAGE_CHILDREN)
    return time.monotonic() - began, after.ru_utime + after.ru_stime - before.ru_utime - before.ru_stime


def turns(program, where, what, paths, at, rounds, more):
    write_checkpoint(paths, at)
    clock, processor = [], []
    for _ in range(rounds):
        one, many = run(program, 1, where), run(program, 1 + more, where)
        clock.append(((many[0] - one[0]) / more - PAUSE) * 1e3)
        processor.append((many[1] - one[1]) / more * 1e3)
    print(
        f"turn of {len(paths)} idle logs, {what}: {min(clock):.1f} to {max(clock):.1f} ms, "
        f"processor {min(processor):.1f} to {max(processor):.1f} ms", flush=True)


def minute(program, where, paths):
    write_checkpoint(paths, 0)
    clock, processor = run(program, 300, where)
    print(f"300 turns of {len(paths)} idle logs: {clock:.1f} s, {processor:.2f} processor seconds", flush=True)


def main():
    parser = parser_of(__doc__)
    add_program(parser)
    parser.add_argument("--logs", type=int, default=10_000)
    parser.add_argument("--rounds", type=int, default=3)
    parser.add_argument("--minute", action="store_true", help="a run of 300 turns in place of the rows")
    asked = parser.parse_args()
    program, where, home = program_of(asked), f"127.0.0.1:{free_ports(1)[0]}", os.getcwd()
    with tempfile.TemporaryDirectory(dir=".") as folder:
        os.chdir(folder)
        if asked.minute:
            minute(program, where, [f"idle.{n}.log" for n in range(asked.logs)])
            os.chdir(home)
            return
        turns(program, where, "none there", [f"idle.{n}.log" for n in range(asked.logs)], 0, asked.rounds, 10)
        apart = [f"idle/{n // 100}/{n}.log" for n in range(asked.logs)]
        together = [f"idle/all/{n}.log" for n in range(asked.logs)]
        for path in apart + together:
            os.makedirs(os.path.dirname(path), exist_ok=True)
            with open(path, "wb") as log:
                log.write(b"\n")
        time.sleep(4)  # Names are kept of a folder that wasn't changed for three seconds.
        turns(program, where, "a hundred in a folder", apart, 1, asked.rounds, 5)
        turns(program, where, "all in one folder", together, 1, asked.rounds, 5)
        shutil.rmtree("idle")
        os.chdir(home)


if __name__ == "__main__":
    main()
