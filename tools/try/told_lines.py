#!/usr/bin/env python3
"""The lines that the program writes on standard error when something happens.

usage: tools/try/told_lines.py [--program FILE]

An agent sends to an address at which nobody listens, until a collector comes there; it has a control door, a
log that grows, one that shrinks, and one whose place another file takes. For each of these the script prints how many lines
with a moment there were, and ends with 1 where there were none or more than one a minute.
"""
import os
import sys
import tempfile
import time

sys.path.insert(0, os.path.join(os.path.dirname(os.path.abspath(__file__)), "../lib"))

from running import Process, add_program, asked_at, free_ports, listening, parser_of, program_of


def write(path, data, how="wb"):
    with open(path, how) as file:
        file.write(data)


def main():
    parser = parser_of(__doc__)
    add_program(parser)
    program, good = program_of(parser.parse_args()), True
    with tempfile.TemporaryDirectory() as folder:
        control, door = free_ports(2)
        logs = [f"{folder}/{name}.log" for name in ("shrinks", "replaced", "calm")]
        for log in logs:
            write(log, b"a line\n" * 10)
        write(f"{folder}/add", "".join(f"add FileTailingAdaptor Log {log} 0\n" for log in logs).encode())
        words = [program, "agent", "--initial", "add", "--control", f"127.0.0.1:{control}", "--poll", "300", "h1"]
        agent, collector = Process("agent", [*words, f"127.0.0.1:{door}"], folder), None
        try:
            while agent.status() is None and not listening(control):
                time.sleep(0.02)
            asked_at(control, "list\n")
            time.sleep(1)
            write(logs[0], b"short\n")
            write(f"{folder}/other", b"another file\n" * 10)
            os.rename(f"{folder}/other", logs[1])
            time.sleep(5)
            collector = Process("collector", [program, "collector", "c1", f"127.0.0.1:{door}"], folder)
            for _ in range(64):
                write(logs[2], b"a further line\n", "ab")
                time.sleep(1)
            told = agent.notices()
        finally:
            agent.close()
            if collector:
                collector.close()
    for what, piece in {
        "a refused connection": f"send 127.0.0.1:{door}: Connection refused",
        "it is well again": f"send 127.0.0.1:{door}: well again after ",
        "a log that shrank": f"{logs[0]} shrank: ",
        "another file": f"{logs[1]} is another file",
        "the control door": f"control door 127.0.0.1:{control} is open",
    }.items():
        count = sum(piece in line for line in told)
        print(f"{what}: {count} lines", flush=True)
        good &= count == 1
    for line in told:
        print(f"  {line}")
    return 0 if good else 1


if __name__ == "__main__":
    sys.exit(main())
