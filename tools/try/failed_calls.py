#!/usr/bin/env python3
"""Makes calls of the program fail, each for a reason of its own, and shows what it tells.

usage: tools/try/failed_calls.py [--program FILE]

Each row runs the program in an empty folder, and compares its status, its standard output and its standard
error with what they are to be. A row that the machine doesn't allow is skipped, and says why: a full disk
wants a tmpfs, and a missing permission a user that isn't root. The script ends with 1 where a row differs.
"""
import fcntl
import os
import shutil
import subprocess
import sys
import tempfile

sys.path.insert(0, os.path.join(os.path.dirname(os.path.abspath(__file__)), "../lib"))

from running import add_program, parser_of, parted, program_of

NOBODY = 65534
ROUND = ["round", "h1", "Log"]


class Skipped(Exception):
    """The machine doesn't allow this row."""


def user():
    """What makes a child another user than root."""
    return {"user": NOBODY, "group": NOBODY, "extra_groups": []} if os.geteuid() == 0 else {}


def folder_for_log(room):
    os.mkdir(f"{room}/x.log")
    return [*ROUND, "./x.log"], {}


def log_below_file(room):
    write(f"{room}/x", b"")
    return [*ROUND, "./x/x.log"], {}


def unreadable_log(room):
    write(f"{room}/x.log", b"hello\n")
    os.chmod(f"{room}/x.log", 0)
    return [*ROUND, "./x.log"], user()


def closed_folder(room):
    write(f"{room}/x.log", b"hello\n")
    os.chmod(room, 0o555)
    return [*ROUND, "./x.log"], user()


def full_disk(room):
    """A tmpfs of one page, that the log fills. The log is a link out of it, so that it can be read."""
    mount = ["mount", "-t", "tmpfs", "-o", "size=4k,mode=777", "tmpfs", room]
    if os.geteuid() != 0 or not shutil.which("mount") or subprocess.run(mount, stderr=subprocess.DEVNULL).returncode:
        raise Skipped("no tmpfs can be mounted")
    write(f"{room}/x.log", b"x" * 4096)
    return [*ROUND, "./x.log"], {}


def held_lock(room):
    write(f"{room}/x.log", b"hello\n")
    os.mkdir(f"{room}/locks")
    write(f"{room}/locks/collector.c1", b"")
    held = open(f"{room}/locks/collector.c1", "wb")
    fcntl.flock(held, fcntl.LOCK_EX)
    return [*ROUND, "./x.log"], {"held": held}


def held_agent(room):
    words, held = held_lock(room)
    os.rename(f"{room}/locks/collector.c1", f"{room}/locks/agent.h1")
    return words, held


def closed_output(room):
    os.mkdir(f"{room}/sinks")
    return [*ROUND, "./x.log"], {"stdout": "/dev/full"}


def write(name, data):
    with open(name, "wb") as file:
        file.write(data)


# The row, the status, standard output and standard error.
ROWS = [
    (folder_for_log, 0, "stream h1 Log ./x.log 0\narchive unclosed 0 taken 0 held 0 removed 0\n", ""),
    (log_below_file, 3, "outside logread\n", "chukwa: logread ./x/x.log: Not a directory (os error 20)\n"),
    (unreadable_log, 3, "outside logread\n", "chukwa: logread ./x.log: Permission denied (os error 13)\n"),
    (closed_folder, 3, "outside start\n", "chukwa: start locks/collector.c1: Permission denied (os error 13)\n"),
    (full_disk, 3, "outside append\n", "chukwa: append sinks/c1.born.tmp: No space left on device (os error 28)\n"),
    (held_lock, 3, "outside start\n", "chukwa: start locks/collector.c1: another process holds this lock\n"),
    (held_agent, 3, "outside start\n", "chukwa: start locks/agent.h1: another process holds this lock\n"),
    (closed_output, 3, "", "chukwa: say: No space left on device (os error 28)\n"),
]


def ran(program, room, words, how):
    """The status and what was printed on standard output and standard error."""
    how = dict(how)
    held, output = how.pop("held", None), how.pop("stdout", None)
    with open(output, "wb") if output else tempfile.TemporaryFile() as out:
        done = subprocess.run(
            [program, *words], cwd=room, stdin=subprocess.DEVNULL, stdout=out, stderr=subprocess.PIPE, timeout=60, **how
        )
        said = b""
        if not output:
            out.seek(0)
            said = out.read()
    if held:
        held.close()
    return done.returncode, said.decode(), parted(done.stderr.decode())[0]


def shown(program, row):
    make, *wanted = row
    room = tempfile.mkdtemp()
    os.chmod(room, 0o777)
    try:
        words, how = make(room)
        given = ran(program, room, words, how)
    except Skipped as why:
        print(f"{make.__name__}: skipped, {why}")
        return True
    finally:
        if os.path.ismount(room):
            subprocess.run(["umount", room], check=False)
        os.chmod(room, 0o755)
        shutil.rmtree(room, ignore_errors=True)
    good = list(given) == wanted
    print(f"{make.__name__}: {given[2].strip() or given} {'ok' if good else 'BAD'}")
    if not good:
        print(f"  got    {given}\n  wanted {tuple(wanted)}")
    return good


def main():
    parser = parser_of(__doc__)
    add_program(parser)
    given = program_of(parser.parse_args())
    with tempfile.TemporaryDirectory() as place:
        # A copy that every user can run.
        os.chmod(place, 0o755)
        program = shutil.copy(given, f"{place}/chukwa")
        os.chmod(program, 0o755)
        return 0 if all([shown(program, row) for row in ROWS]) else 1


if __name__ == "__main__":
    sys.exit(main())
