#!/usr/bin/env python3
"""Refuses each allocation of a command in turn, and runs it again.

usage: tools/try/refuse_memory.py [--every N] [--jobs N] [--program FILE] COMMAND...
       tools/try/refuse_memory.py [--every N] tests CRATE
       tools/try/refuse_memory.py [--every N] cases FILE

COMMAND is one of those of tools/try/kill_calls.py and of tools/try/kill_servers.py, over the same files. It wants a C
compiler `cc`. For N from 1 until none is refused any more, in an own folder, the command's N-th allocation
gets no memory, and in a further run none from the N-th on. Each run has to end with 4 (`out of memory`), or with
0 and be whole: a small command's lines and files are then those of a run without a refusal, byte for byte.
Another status is wrong. The archive has to be a prefix of the logs, a run without a refusal to make it whole, and
a further one to have nothing to do. JOBS tries (2) go on at a time. It prints how the runs ended, the points and
the seconds, and ends with 1 where something was wrong.

With `tests` the allocations of each test of CRATE are refused one at a time; `rt test` in the crate's folder
leaves its program there. A test may pass, or fail with what it tells; a fault and a hang are wrong.
`tools/try/refuse_memory.sh` tries a crate's tests without a proof.

With `cases` they are refused one at a time while the program chk_test_cases plays the cases of FILE, as
`tee/passing`; `rt run` in its folder leaves the program there. A case may end for want of memory, by an error or by
the answer `no memory`; another answer is wrong, and so are a fault and a hang.
"""
import collections
import concurrent.futures
import os
import re
import struct
import subprocess
import sys
import tempfile
import time

sys.path.insert(0, os.path.join(os.path.dirname(os.path.abspath(__file__)), "../lib"))

from archive_reader import Damaged
from kill_servers import SCENES as PEERS, run
from running import TOP, add_program, load, parser_of, program_of, ran
from scenes import SCENES, SMALL, Wrong, again, listed, prefixes

MOST = 1_000_000
LAST = "out of memory\n"
# The status of a test that failed.
FAILED = 101
# How the program that plays cases ends for want of memory.
WANT = re.compile("error: .*(NoMemory|AllocError|AllocFailed|OutOfMemory)")


def built(folder):
    shim = f"{folder}/refuse_memory.so"
    subprocess.run(["cc", "-O2", "-shared", "-fPIC", "-o", shim, f"{TOP}/tools/try/refuse_memory.c"], check=True)
    return shim


class Refusals:
    def __init__(self, asked, shim, command):
        self.program, self.every, self.jobs, self.shim = asked.program, asked.every, asked.jobs, shim
        self.command, self.is_small = command, command in SMALL
        self.scene = {**SCENES, **SMALL}[command]()
        self.ended, self.wrong = collections.Counter(), 0

    def faulted(self, folder, number, is_all):
        """Whether an allocation was refused, the status and what was printed."""
        told = f"{folder}/told"
        words = ["env", f"LD_PRELOAD={self.shim}", f"REFUSE_AT={number}", f"REFUSE_TOLD={told}"]
        words += ["REFUSE_ALL=1"] if is_all else []
        status, out, error = ran([*words, self.program, *self.scene.words], folder)
        if status not in (0, 4):
            raise Wrong(f"ended with {status} {out} {error}")
        if status == 4:
            self.interrupted(folder, out, is_all)
        return os.path.exists(told), status, out

    def interrupted(self, folder, out, is_all):
        """A run that ends with 4 may have printed some of its lines before. Where no memory comes any more, its
        last line can't be printed either; and it prints nothing where it hasn't got its words."""
        rest, is_begun = out.removesuffix(LAST), bool(listed(folder, "locks"))
        if rest == out and not is_all and is_begun:
            raise Wrong(f"ended with 4 and {out!r}")
        if self.is_small and rest not in self.scene.fronts():
            raise Wrong(f"ended with 4 and {out!r}, of {self.scene.lines!r}")

    def after(self, folder, status, out):
        """What a run left is right, and so is what further runs make of it."""
        prefixes(self.scene, folder)
        if status == 0:
            self.scene.whole(folder)
        if status == 0 and self.is_small:
            self.scene.told(out)
            self.scene.exact(folder)
        again(self.program, self.scene.words, folder)
        self.scene.whole(folder)
        self.scene.further(self.program, folder)

    def whole(self):
        """A run without a refusal, and what comes behind it, are right."""
        with tempfile.TemporaryDirectory(prefix="refuse-memory-") as folder:
            self.scene.make(folder)
            self.after(folder, 0, again(self.program, self.scene.words, folder))

    def one(self, number, is_all):
        """Whether an allocation was refused."""
        with tempfile.TemporaryDirectory(prefix="refuse-memory-") as folder:
            try:
                self.scene.make(folder)
                was_refused, status, out = self.faulted(folder, number, is_all)
                if not was_refused:
                    return False
                self.ended[status] += 1
                self.after(folder, status, out)
            except (Wrong, Damaged, OSError, struct.error, KeyError) as why:
                self.wrong += 1
                print(f"wrong: {number} {'and all behind it' if is_all else 'alone'}: {why}", flush=True)
        return True

    def both(self, number):
        return self.one(number, False) and self.one(number, True)

    def all(self):
        """Goes on to the first number of which none is refused, and tells how many numbers were."""
        step = 16 * self.jobs
        with concurrent.futures.ThreadPoolExecutor(self.jobs) as pool:
            for first in range(1, MOST, step * self.every):
                numbers = range(first, first + step * self.every, self.every)
                refused = list(pool.map(self.both, numbers))
                if not all(refused):
                    return (first - 1) // self.every + sum(refused)
        raise AssertionError("the allocations have no end")


class PeerRefusals(Refusals):
    """The commands that have peers, over the scenes of tools/try/kill_servers.py."""

    def __init__(self, asked, shim, command):
        self.program, self.every, self.jobs, self.shim = asked.program, asked.every, asked.jobs, shim
        self.command, self.ended, self.wrong = command, collections.Counter(), 0

    def whole(self):
        with tempfile.TemporaryDirectory(prefix="refuse-memory-") as folder:
            scene = PEERS[self.command](folder)
            self.after(scene)
            scene.close()

    @staticmethod
    def is_front(scene, out):
        """Whether a run that ended early may have printed this much."""
        lines = scene.lines()
        return out in ["".join(lines[:count]) for count in range(len(lines) + 1)]

    def after(self, scene):
        """A run without a refusal is whole."""
        status, out, error = run(self.program, scene)
        if status != 0:
            raise Wrong(f"without a refusal: {status} {out} {error}")
        scene.ended(out)
        scene.check(True)

    def one(self, number, is_all):
        with tempfile.TemporaryDirectory(prefix="refuse-memory-") as folder:
            scene, told = PEERS[self.command](folder), f"{folder}/told"
            before = ["env", f"LD_PRELOAD={self.shim}", f"REFUSE_AT={number}", f"REFUSE_TOLD={told}"]
            before += ["REFUSE_ALL=1"] if is_all else []
            try:
                status, out, error = run(self.program, scene, before)
                if not os.path.exists(told):
                    return False
                self.ended[status] += 1
                if status not in (0, 4) or status == 4 and not self.is_front(scene, out.removesuffix(LAST)):
                    raise Wrong(f"ended with {status} {out} {error}")
                scene.check(False)
                if status == 0:
                    scene.ended(out)
                self.after(scene)
            except (Wrong, Damaged, OSError, struct.error, KeyError) as why:
                self.wrong += 1
                print(f"wrong: {number} {'and all behind it' if is_all else 'alone'}: {why}", flush=True)
            finally:
                scene.close()
        return True


def refused_command(asked, shim, command):
    """Whether all was right with a command."""
    began, tries = time.monotonic(), (PeerRefusals if command in PEERS else Refusals)(asked, shim, command)
    tries.whole()
    numbers = tries.all()
    ended = ", ".join(f"{count} ended with {status}" for status, count in sorted(tries.ended.items()))
    print(f"{command}: allocations {numbers}, points {2 * numbers}: {ended}")
    wrong = f"{tries.wrong} BAD" if tries.wrong else "ok"
    print(f"{command}: seconds {time.monotonic() - began:.0f}: {wrong}", flush=True)
    return tries.wrong == 0 and numbers > 0


def refused_tests(program, every, shim):
    """Whether no test of a crate ended by a fault or never where an allocation was refused."""
    ended, wrong = collections.Counter(), 0
    names = [line.removesuffix(": test") for line in ran([program, "--list"], ".")[1].splitlines()]
    for name in names:
        for number in range(1, MOST, every):
            with tempfile.TemporaryDirectory(prefix="refuse-memory-") as folder:
                told = f"{folder}/told"
                words = ["env", f"LD_PRELOAD={shim}", f"REFUSE_AT={number}", f"REFUSE_TOLD={told}", program, name]
                status, out, error = ran(words, folder)
                if not os.path.exists(told):
                    break
            said = [line for line in (out + error).splitlines() if line and not line.startswith("the test failed")]
            if status in (0, FAILED):
                ended["passed" if status == 0 else (said or ["failed"])[-1][:80]] += 1
            else:
                wrong += 1
                print(f"wrong: {name} {number}: status {status} {out} {error}", flush=True)
    for how, count in ended.most_common():
        print(f"{count}: {how}")
    print(f"tests {len(names)} runs {sum(ended.values()) + wrong}: {f'{wrong} BAD' if wrong else 'ok'}")
    return wrong == 0


def cases_folder(folder, file):
    """Has the folder name this file alone of the cases."""
    data = f"{TOP}/crates/chk_test_cases/data"
    for name in os.listdir(data):
        if name != "files":
            os.symlink(f"{data}/{name}", f"{folder}/{name}")
    with open(f"{folder}/files", "w", encoding="utf-8") as files:
        print(file, file=files)


def is_for_memory(out, error):
    """Whether cases that failed did so for want of memory."""
    lines = [line for line in out.splitlines() if not line.endswith(" cases")]
    return bool(WANT.search(error)) or all(line.endswith((": no memory", ": NoMemory")) for line in lines)


def refused_cases(program, file, every, shim):
    """Whether the cases of a file ended well, or for want of memory, where an allocation was refused."""
    ended, wrong = collections.Counter(), 0
    with tempfile.TemporaryDirectory(prefix="refuse-memory-") as folder:
        cases_folder(folder, file)
        told = f"{folder}/told"
        for number in range(1, MOST, every):
            words = ["env", f"LD_PRELOAD={shim}", f"REFUSE_AT={number}", f"REFUSE_TOLD={told}", program]
            status, out, error = ran(words, folder)
            if not os.path.exists(told):
                break
            os.remove(told)
            if status == 0 or status == 1 and is_for_memory(out, error):
                ended["well" if status == 0 else "for want of memory"] += 1
            else:
                wrong += 1
                print(f"wrong: {number}: status {status} {out} {error}", flush=True)
    for how, count in ended.most_common():
        print(f"{count} ended {how}")
    print(f"cases of {file}, runs {sum(ended.values()) + wrong}: {f'{wrong} BAD' if wrong else 'ok'}")
    return wrong == 0


def main():
    parser = parser_of(__doc__)
    choices = [*SCENES, *SMALL, *PEERS]
    parser.add_argument("words", nargs="+", metavar="COMMAND", help=", ".join(choices) + "; or tests CRATE, or cases FILE")
    parser.add_argument("--every", type=int, default=1, help="refuse each N-th allocation alone (1)")
    parser.add_argument("--jobs", type=int, default=2, help="tries at a time (2)")
    add_program(parser)
    asked = parser.parse_args()
    is_tests, is_cases = asked.words[0] == "tests", asked.words[0] == "cases"
    if (len(asked.words) != 2) if is_tests or is_cases else not set(asked.words) <= set(choices):
        parser.error("tests wants a crate, and cases a file; a command is one of " + ", ".join(choices))
    print(load(), flush=True)
    with tempfile.TemporaryDirectory() as place:
        shim = built(place)
        if is_tests:
            program = f"{TOP}/crates/{asked.words[1]}/out/{asked.words[1]}_tests"
            return 0 if refused_tests(program, asked.every, shim) else 1
        if is_cases:
            program = f"{TOP}/crates/chk_test_cases/out/chk_test_cases"
            return 0 if refused_cases(program, asked.words[1], asked.every, shim) else 1
        asked.program = program_of(asked)
        return 0 if all([refused_command(asked, shim, command) for command in asked.words]) else 1


if __name__ == "__main__":
    sys.exit(main())
