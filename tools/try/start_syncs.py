#!/usr/bin/env python3
"""Starts of an archive run whose sync of a folder fails.

usage: tools/try/start_syncs.py [--program FILE]

An archive run is killed at each of its syncs after those of its start, so that its book may be renamed and
its folder not synced. The next run gets an error from one of the syncs with which it starts, in turn each.
None of them may end with 0 or remove a closed sink; the run after it, without an error, does all. The
script prints how many went on, and ends with 1 where one did. It wants strace.
"""
import os
import shutil
import subprocess
import sys
import tempfile

sys.path.insert(0, os.path.join(os.path.dirname(os.path.abspath(__file__)), "../lib"))

from running import add_program, parser_of, program_of, ran

STARTS = 6


def traced(program, folder, inject, *words):
    """Runs the program below strace, with an error at a call."""
    trace = ["strace", "-f", "-o", "/dev/null", "-e", "trace=fsync", "-e", f"inject=fsync:{inject}", program, *words]
    return subprocess.run(trace, cwd=folder, capture_output=True, timeout=60)


def closed_sinks(folder):
    return [name for name in os.listdir(f"{folder}/sinks") if name.endswith(".done")]


def scene(program, folder):
    """A folder with a closed sink and no archive."""
    with open(f"{folder}/a.log", "wb") as file:
        file.write(b"a line\n" * 1_000)
    status, out, error = ran([program, "round", "h1", "Log", "a.log"], folder)
    if status != 0:
        sys.exit(f"round: {status} {out} {error}")
    with open(f"{folder}/a.log", "ab") as file:
        file.write(b"a further line\n" * 1_000)
    # The archive run of a second round fails before it begins, so that its sink stays.
    os.rename(f"{folder}/archive", f"{folder}/archive.aside")
    with open(f"{folder}/archive", "wb"):
        pass
    ran([program, "round", "h1", "Log", "a.log"], folder)
    os.remove(f"{folder}/archive")
    os.rename(f"{folder}/archive.aside", f"{folder}/archive")
    if not closed_sinks(folder):
        sys.exit("no closed sink was left")


def syncs_of(program, folder):
    """How many syncs an archive run makes."""
    with tempfile.TemporaryDirectory() as place:
        shutil.copytree(folder, f"{place}/copy")
        words = ["strace", "-f", "-e", "trace=fsync", program, "archive"]
        done = subprocess.run(words, cwd=f"{place}/copy", capture_output=True, text=True, timeout=60)
    return done.stderr.count("fsync(")


def main():
    parser = parser_of(__doc__)
    add_program(parser)
    program = program_of(parser.parse_args())
    if not shutil.which("strace"):
        sys.exit("strace isn't here")
    with tempfile.TemporaryDirectory() as place:
        folder = f"{place}/scene"
        os.mkdir(folder)
        scene(program, folder)
        count, wrong = syncs_of(program, folder), 0
        for killed in range(STARTS + 1, count + 1):
            stopped = f"{place}/stopped"
            shutil.copytree(folder, stopped)
            traced(program, stopped, f"signal=KILL:when={killed}", "archive")
            left = len(closed_sinks(stopped))
            for failed in range(1, STARTS + 1):
                tried = f"{place}/tried"
                shutil.copytree(stopped, tried)
                done = traced(program, tried, f"error=EIO:when={failed}", "archive")
                if done.returncode == 0 or len(closed_sinks(tried)) < left:
                    wrong += 1
                elif failed == 1 and killed == STARTS + 1:
                    print(f"such a start ends with {done.returncode}: {done.stdout.decode()!r} {done.stderr.decode()!r}")
                behind = ran([program, "archive"], tried)
                if behind[0] != 0 or closed_sinks(tried):
                    print(f"the run behind it: {behind}")
                    wrong += 1
                shutil.rmtree(tried)
            shutil.rmtree(stopped)
    tries = (count - STARTS) * STARTS
    print(f"{wrong} of {tries} starts with a failed sync went on as if it hadn't failed")
    return 1 if wrong else 0


if __name__ == "__main__":
    sys.exit(main())
