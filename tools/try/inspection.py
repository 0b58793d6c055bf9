#!/usr/bin/env python3
"""Runs each command of `chukwactl` over folders that text files describe, and compares all that it prints.

usage: tools/try/inspection.py [--program FILE] [--traced] [--jobs N] [--list] [NAME..]

The cases stand in `tools/try/inspection/*.cases`, and `inspection/README.md` describes their format. Each case gets a
new folder below TMPDIR, its files are made there, and the program runs in it: the standard output, the standard
error and the status have to be those of the case, byte for byte, and no run may make, change or remove a file. A
failure names the file, the line, what was expected and what the program did instead. With NAME only those files of
cases run.

With `--traced` the cases of `inspection/traced/` run in their place, in which another process changes the store
between two calls of the program, or in which a call fails that no file can make fail. They stop the program by
ptrace(2), on Linux on x86-64.

The status is 1 if a case failed, and 2 if a file of cases can't be read or has no case.
"""
import concurrent.futures
import errno
import fcntl
import os
import re
import socket
import subprocess
import sys
import tempfile
import time

sys.path.insert(0, os.path.join(os.path.dirname(os.path.abspath(__file__)), "../lib"))

from running import MOMENT, TOP, parser_of, parted
from running import text as text_of
from tracing import traced

PROGRAM = f"{TOP}/crates/chukwactl/out/chukwactl"
CASES = os.path.join(os.path.dirname(os.path.abspath(__file__)), "inspection")
# In seconds: one run, and the time within which a followed stream is printed.
LIMIT, SOON = 60, 30
# The modification time of each file: in 2100, so that no age is known of it.
FUTURE = 4_102_444_800
PIECE = re.compile(r'"((?:[^"\\]|\\.)*)"|(\S+)')
ANSWER = re.compile(r"(\d+) \[(.*?)\](?: (.*))?")


class Failed(Exception):
    """A step that didn't go as the case says."""


class Skipped(Exception):
    """The machine lacks what the case needs."""


class Bad(Exception):
    """A file of cases that can't be read."""


def quoted(content):
    """The bytes of a quoted piece."""
    return content.encode("latin-1").decode("unicode_escape").encode("latin-1")


def made_of(pieces, parts):
    """The bytes of `PIECE PIECE ..`: quoted text, %N in two bytes, #N in four, N in eight, or the name of a part."""
    made = b""
    for content, name in PIECE.findall(pieces):
        if not name:
            made += quoted(content)
        elif name.isdecimal():
            made += int(name).to_bytes(8, "big")
        elif name[0] in "#%":
            made += int(name[1:]).to_bytes(4 if name[0] == "#" else 2, "big")
        elif name in parts:
            made += made_of(parts[name], parts)
        else:
            raise Failed(f"no part is named {name}")
    return made


def lines_of(text):
    return text.replace("|", "\n")


def explained(line):
    """The line with the system's text in place of the name of an error at its end."""
    front, _, name = line.rpartition(" ")
    number = getattr(errno, name, None) if name.isupper() else None
    return f"{front} {os.strerror(number)} (os error {number})" if number else line


def messages_of(message):
    """The lines of a message, in which they are parted by `|`, but for a usage line."""
    return [message] if message.startswith("usage: ") else message.split("|") if message else []


def error_of(message):
    """The standard error of a program that ends with this message."""
    lines = [line if line.startswith("usage: ") else "chukwactl: " + explained(line) for line in messages_of(message)]
    return "".join(line + "\n" for line in lines)


def failure_of(message):
    """The failed call that this message names, as a list."""
    return [explained(line) for line in messages_of(message) if explained(line) != line]


def state(folder):
    """What a folder has: of each file below it what changes when it is written."""
    found = {}
    for place, folders, files in os.walk(folder):
        for name in [".", *folders, *files]:
            path = os.path.join(place, name)
            seen = os.lstat(path)
            found[path] = (seen.st_mode, seen.st_ino, seen.st_size, seen.st_mtime_ns, seen.st_ctime_ns, seen.st_nlink)
    return found


class Step:
    """A line of a case: its verb, its text, and the status, output and message that it expects, if any."""

    def __init__(self, number, line):
        self.number = number
        line, _, answer = line.partition(" => ") if " => " in line else (line, "", "")
        self.verb, _, self.text = line.partition(" ")
        self.status, self.printed, self.message, self.notices = None, "", "", []
        if answer:
            found = ANSWER.fullmatch(answer)
            if not found:
                raise Bad(f"line {number}: no answer: {answer}")
            self.status, self.printed, self.message = int(found[1]), lines_of(found[2]), found[3] or ""

    def check(self, status, printed, error, folder):
        """The run ended as the step says: the lines that tell of a failed call at once have their moment in front."""
        error, notices = parted(error)
        notices = [MOMENT.sub("", line) for line in notices]
        wanted = (self.status, self.printed.replace("$D", folder), error_of(self.message).replace("$D", folder),
                  [line.replace("$D", folder) for line in self.notices + failure_of(self.message)])
        found = (status, printed, error, notices)
        if found != wanted:
            raise Failed(f"{self.text}: expected {wanted}, and it was {found}")


class Case:
    """A case, run in a folder of its own."""

    def __init__(self, file, number, name, parts):
        self.file, self.number, self.name, self.parts, self.steps = file, number, name, dict(parts), []

    def run(self, program):
        """None if all went as the case says, else a line that says what didn't."""
        at, wrong, more = 1, None, True
        while more and not wrong:
            wrong, calls = self.once(program, at)
            more = at < calls and any(step.verb == "before-each" for step in self.steps)
            at += 1
        return wrong

    def once(self, program, at):
        """The same of one run, in which `before-each` is before the call of that number, and how many calls it made."""
        with tempfile.TemporaryDirectory(prefix="inspection-") as place, Room(program, place, self.parts, at) as room:
            for step in self.steps:
                try:
                    room.do(step)
                except Skipped as why:
                    print(f"{self.file}:{step.number}: {self.name}: skipped: {why}")
                    break
                except (Failed, OSError, ValueError, subprocess.SubprocessError) as why:
                    return f"{self.file}:{step.number}: {self.name}: {step.verb} {why}", 0
            return None, len(room.calls)


class Room:
    """The folder of one case, and the program that runs there."""

    def __init__(self, program, place, parts, at):
        self.program, self.parts, self.at = program, dict(parts), at
        self.folder, self.bin = f"{place}/case", f"{place}/bin"
        os.mkdir(self.folder)
        os.mkdir(self.bin)
        self.held, self.output, self.going = [], None, None
        # What others do before calls of the next run, which calls of it fail, and the calls that it has made.
        self.plan, self.failing, self.calls, self.seen = [], {}, [], None

    def __enter__(self):
        # A port at which somebody listens, who never answers.
        self.listener = socket.create_server(("127.0.0.1", 0))
        self.port = str(self.listener.getsockname()[1])
        return self

    def __exit__(self, *_):
        self.listener.close()
        for file in self.held:
            file.close()
        if self.going:
            self.going.kill()
            self.going.wait()
            self.printed_to.close()
            self.told.close()

    def filled(self, text):
        return text.replace("$D", self.folder).replace("$P", self.port)

    def do(self, step):
        verb = getattr(self, "do_" + step.verb.replace("-", "_"), None)
        if not verb:
            raise Failed("is no verb")
        verb(step)

    def path(self, name):
        path = f"{self.folder}/{name}"
        os.makedirs(os.path.dirname(path), exist_ok=True)
        return path

    def write(self, name, content, mode="wb"):
        with open(self.path(name), mode) as file:
            file.write(content)
        os.utime(self.path(name), (FUTURE, FUTURE))

    # What is made and changed.

    def do_part(self, step):
        name, _, pieces = step.text.partition(" = ")
        self.parts[name] = pieces

    def do_put(self, step):
        name, _, pieces = step.text.partition(" ")
        self.write(name, made_of(pieces, self.parts))

    def do_text(self, step):
        name, _, text = step.text.partition(" ")
        self.write(name, lines_of(self.filled(text)).encode())

    def do_append(self, step):
        name, _, text = step.text.partition(" ")
        self.write(name, lines_of(text).encode(), "ab")

    def do_folder(self, step):
        os.makedirs(self.path(step.text), exist_ok=True)

    def do_loop(self, step):
        """A symbolic link to itself: whoever opens or lists it gets ELOOP."""
        path = self.path(step.text)
        if os.path.lexists(path):
            os.remove(path)
        os.symlink(os.path.basename(path), path)

    def do_rename(self, step):
        old, new = step.text.split(" ")
        os.rename(self.path(old), self.path(new))

    def do_remove(self, step):
        os.remove(self.path(step.text))

    def do_needs_device(self, _):
        """Of a file system without a device of its own the system's list of locks may name another one."""
        if os.major(os.stat(self.folder).st_dev) == 0:
            raise Skipped("the folder for temporary files is on no device")

    def do_lock(self, step):
        """The script itself holds the lock of this file."""
        self.held.append(open(self.path(step.text), "wb"))
        fcntl.flock(self.held[-1], fcntl.LOCK_EX)

    def do_df(self, step):
        """What the program `df` prints; without this step there is none."""
        with open(f"{self.bin}/answer", "w", encoding="utf-8") as file:
            file.write(lines_of(step.text))
        with open(f"{self.bin}/df", "w", encoding="utf-8") as file:
            file.write(f'#!/bin/sh\n[ "$*" = "-P -k ." ] || exit 2\nexec /bin/cat {self.bin}/answer\n')
        os.chmod(f"{self.bin}/df", 0o755)

    def do_output(self, step):
        """The standard output of the next run."""
        self.output = step.text

    # What is run.

    def words(self, step):
        return [self.program, *self.filled(step.text).split()]

    def environment(self):
        return {**os.environ, "PATH": self.bin}

    def do_run(self, step):
        self.seen = state(self.folder)
        with open(self.output, "wb") if self.output else tempfile.TemporaryFile() as out, tempfile.TemporaryFile() as told:
            self.output = None
            how = {"cwd": self.folder, "stdin": subprocess.DEVNULL, "stdout": out, "stderr": told, "env": self.environment()}
            if self.plan or self.failing:
                status = self.traced(step, how)
            else:
                status = subprocess.run(self.words(step), timeout=LIMIT, **how).returncode
            step.check(status, text_of(out) if out.readable() else "", text_of(told), self.folder)
        self.unchanged()

    def unchanged(self):
        now = state(self.folder)
        if now != self.seen:
            raise Failed(f"changed {sorted(set(now.items()) ^ set(self.seen.items()))}")

    # What happens between two calls of a run.

    def do_before(self, step):
        """`N CALL NAME ACT`: before the program makes this call of this file for the Nth time, that is done."""
        count, call, name, act = step.text.split(" ", 3)
        self.plan.append(((int(count), call, name), Step(step.number, act)))

    def do_before_each(self, step):
        """`ACT`: that is done before a call, in one run after the other before each of its calls."""
        self.plan.append((self.at, Step(step.number, step.text)))

    def do_fails(self, step):
        """`N CALL NAME ERROR`: the Nth such call ends so, and isn't made."""
        count, call, name, error = step.text.split(" ")
        self.failing[int(count), call, name] = getattr(errno, error)

    def traced(self, step, how):
        self.calls = []
        status = traced(self.words(step), self.comes, **how)
        made = [call for call, _ in self.plan if not isinstance(call, int) or call <= len(self.calls)] + [*self.failing]
        known = {*range(len(self.calls) + 1), *self.calls}
        if missing := [call for call in made if call not in known]:
            raise Failed(f"never made {missing}, but {self.calls}")
        self.plan, self.failing = [], {}
        return status

    def comes(self, name, path):
        """A call comes: what is planned is done before it. The error with which it fails, if it does."""
        path = os.path.relpath(path, self.folder)
        if path.startswith(".."):
            return None
        made = (1 + sum(call[1:] == (name, path) for call in self.calls), name, path)
        self.calls.append(made)
        for call, act in self.plan:
            if call in (made, len(self.calls)):
                self.unchanged()
                self.do(act)
                self.seen = state(self.folder)
        return self.failing.get(made)

    # A stream that is followed.

    def do_start(self, step):
        self.printed_to, self.told = tempfile.TemporaryFile(), tempfile.TemporaryFile()
        self.going = subprocess.Popen(self.words(step), cwd=self.folder, stdin=subprocess.DEVNULL, stdout=self.printed_to,
                                      stderr=self.told, env=self.environment())

    def printed(self):
        return os.pread(self.printed_to.fileno(), 1 << 20, 0).decode(errors="replace")

    def do_prints(self, step):
        """The program that continues has printed just this, at once or soon."""
        wanted, until = lines_of(step.text), time.monotonic() + SOON
        while self.printed() != wanted and self.going.poll() is None and time.monotonic() < until:
            time.sleep(0.02)
        self.same(wanted)

    def same(self, wanted):
        if self.printed() != wanted:
            raise Failed(f"expected {wanted!r}, and it was {self.printed()!r}")

    def do_rests(self, _):
        """It has done what it does in one look, and sleeps."""
        until = time.monotonic() + SOON
        while self.state() not in "SZ" and time.monotonic() < until:
            time.sleep(0.02)

    def state(self):
        with open(f"/proc/{self.going.pid}/stat", encoding="ascii", errors="replace") as file:
            return file.read().rpartition(") ")[2].split()[0]

    def do_idles(self, step):
        """For so many seconds it prints nothing, and goes on."""
        before = self.printed()
        time.sleep(float(step.text))
        self.same(before)
        if self.going.poll() is not None:
            raise Failed(f"ended with {self.going.returncode}: {text_of(self.told)}")

    def do_ends(self, step):
        status = self.going.wait(SOON)
        step.check(status, self.printed(), text_of(self.told), self.folder)

    def do_stop(self, step):
        """It goes on, without a word on standard error."""
        if self.going.poll() is not None or text_of(self.told):
            raise Failed(f"ended with {self.going.returncode}: {text_of(self.told)}")


def joined(file):
    """The lines of a file with their numbers; one that ends with a backslash goes on in the next, behind its spaces."""
    number, held = 0, ""
    for number, line in enumerate(file, 1):
        line = line.rstrip("\n")
        line = held + (line.lstrip() if held else line)
        held = line[:-1] if line.endswith("\\") else ""
        if not held and not line.startswith("#"):
            yield number, line
    if held:
        yield number, held


def read(path, parts):
    """The cases of a file. Its `part` lines before the first case are known to all of them."""
    cases, case, parts = [], None, dict(parts)
    with open(path, encoding="utf-8") as file:
        for number, line in joined(file):
            if not line:
                case = None
            elif line.startswith("> ") or line == ">":
                case.steps[-1].printed += line[2:] + "\n"
            elif line.startswith("! "):
                case.steps[-1].notices.append(explained(line[2:]))
            elif case:
                case.steps.append(Step(number, line))
            elif line.startswith("part "):
                name, _, pieces = line[5:].partition(" = ")
                parts[name] = pieces
            else:
                case = Case(os.path.relpath(path, TOP), number, line, parts)
                cases.append(case)
    return cases, parts


def files_of(folder, names):
    found = sorted(name[:-6] for name in os.listdir(folder) if name.endswith(".cases"))
    if unknown := sorted(set(names) - set(found)):
        sys.exit(f"no file of cases is named {' '.join(unknown)}; there are {' '.join(found)}")
    return [f"{folder}/{name}.cases" for name in found if not names or name in names]


def all_cases(folder, names):
    _, parts = read(f"{CASES}/parts", {})
    cases = []
    for path in files_of(folder, names):
        try:
            found, _ = read(path, parts)
        except (Bad, AttributeError, IndexError) as why:
            raise Bad(f"{path}: {why}") from why
        if not found or not all(case.steps for case in found):
            raise Bad(f"{path}: a file or a case of it is empty")
        cases += found
    return cases


def main():
    parser = parser_of(__doc__)
    parser.add_argument("--program", default=PROGRAM, help="the program (default: the checkout's)")
    parser.add_argument("--traced", action="store_true", help="the cases that stop the program between its calls")
    parser.add_argument("--jobs", type=int, default=16, help="cases at a time (16)")
    parser.add_argument("--list", action="store_true", help="prints the names of the cases, and runs none")
    parser.add_argument("names", nargs="*", metavar="NAME", help="files of cases")
    asked = parser.parse_args()
    try:
        cases = all_cases(f"{CASES}/traced" if asked.traced else CASES, asked.names)
    except Bad as why:
        print(f"inspection: {why}", file=sys.stderr)
        return 2
    if asked.list:
        for case in cases:
            print(f"{case.file}:{case.number}: {case.name}")
        return 0
    if not os.path.isfile(asked.program):
        sys.exit(f"there is no program {asked.program}; bin/build makes it")
    began, program = time.monotonic(), os.path.abspath(asked.program)
    with concurrent.futures.ThreadPoolExecutor(asked.jobs) as pool:
        wrong = [line for line in pool.map(lambda case: case.run(program), cases) if line]
    for line in wrong:
        print(line)
    print(f"{len(wrong)} of {len(cases)} cases of inspection failed, in {time.monotonic() - began:.0f} s")
    return 1 if wrong else 0


if __name__ == "__main__":
    sys.exit(main())
