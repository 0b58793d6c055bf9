#!/usr/bin/env python3
"""Plays histories of an agent, two collectors and the job over a site in memory, in an order that a seed determines.

usage: tools/try/seeds.py [--seeds N] [--first N] [--only NAME] [--keep FOLDER]

The histories are tests of the crate `tools/seeds`, which isn't part of the repository's crates: what they show, that
the archive is a prefix of each log, is proved of every history (`law_prefix` of `chk_world`), and real processes are
killed at random by `soak.py`. So nothing proves this crate: the script copies the checkout's crates into a new folder,
adds this one, and runs `rt try --test` there. It needs the kit, and no built program.

  messages_go_astray   messages are lost, repeated and late, logs are rotated, processes start again
  one_fault            in addition, one call fails or is stopped, alone or with the whole machine
  two_faults           in addition, two are

After each stop and each run of the job the archive has to be a prefix of each log, and after a calm end the whole log.
Each test plays N seeds (25), from the first one (1) on; `--only` runs one test. A failure names the test, its seed and
its faults: `--first SEED --seeds 1 --only NAME` plays that history alone. `--keep` names the folder for the copy, which
then stays. The status is that of `rt try`. It takes three minutes, most of them to compile.
"""
import os
import re
import shutil
import subprocess
import sys
import tempfile

sys.path.insert(0, os.path.join(os.path.dirname(os.path.abspath(__file__)), "../lib"))

from contracts import TOP, crates, text_of
from running import parser_of

SEEDS = f"{TOP}/tools/seeds"
NAME = "chk_test_seeds"
TESTS = ["messages_go_astray", "one_fault", "two_faults"]
# Sources stand there under this ending: in the checkout the kit allows an .rt file in a listed crate alone.
ENDING = ".txt"


def copy_below(names, room):
    """Copies these crates, and those that they stand on, with their lines."""
    known, wanted, more = crates(), [], list(names)
    while more:
        name = more.pop()
        if name in known and name not in wanted:
            wanted.append(name)
            more += known[name][1]
    lines = []
    for name in sorted(wanted):
        ignored = shutil.ignore_patterns("out", "mutants", "must-fail")
        shutil.copytree(f"{TOP}/crates/{name}", f"{room}/crates/{name}", ignore=ignored)
        lines.append(f"{name}: {' '.join(known[name][1])}\n")
    shutil.copy(f"{TOP}/HANDLES", room)
    return lines


def copy_seeds(asked, room):
    """Copies the crate of the histories, with the seeds and the tests that are asked for."""
    folder = f"{room}/crates/{NAME}/src"
    os.makedirs(folder)
    for name in os.listdir(f"{SEEDS}/crates/{NAME}/src"):
        text = text_of(f"{SEEDS}/crates/{NAME}/src/{name}")
        if name.startswith("histories."):
            text = set_to(set_to(text, "FIRST", asked.first), "END", asked.first + asked.seeds)
            for test in TESTS if asked.only else []:
                if test != asked.only:
                    text = replaced(text, rf"#\[test\]\nfn {test}\b", f"fn {test}")
        with open(f"{folder}/{name.removesuffix(ENDING)}", "w", encoding="utf-8") as file:
            file.write(text)


def set_to(text, name, number):
    return replaced(text, rf"^const {name}: u64 = \d+;$", f"const {name}: u64 = {number};")


def replaced(text, what, by):
    text, count = re.subn(what, by, text, flags=re.M)
    if count != 1:
        sys.exit(f"the histories have {what} {count} times")
    return text


def run(asked, room):
    line = text_of(f"{SEEDS}/line.txt")
    lines = copy_below(line.partition(":")[2].split(), room)
    with open(f"{room}/crates.txt", "w", encoding="utf-8") as file:
        file.writelines([*lines, line])
    copy_seeds(asked, room)
    limit = str(max(120, 4 * asked.seeds))
    words = ["rt", "try", "--test", "--seconds", limit]
    return subprocess.run(words, cwd=f"{room}/crates/{NAME}", stdin=subprocess.DEVNULL, check=False).returncode


def main():
    parser = parser_of(__doc__)
    parser.add_argument("--seeds", type=int, default=25, metavar="N", help="how many seeds each test plays (25)")
    parser.add_argument("--first", type=int, default=1, metavar="N", help="the first seed (1)")
    parser.add_argument("--only", choices=TESTS, metavar="NAME", help=f"one test: {', '.join(TESTS)}")
    parser.add_argument("--keep", metavar="FOLDER", help="a new folder for the copy, which stays")
    asked = parser.parse_args()
    if not shutil.which("rt"):
        sys.exit("the kit's command rt is not in PATH")
    if asked.keep:
        os.makedirs(asked.keep)
        return run(asked, os.path.abspath(asked.keep))
    with tempfile.TemporaryDirectory(prefix="seeds-") as room:
        return run(asked, room)


if __name__ == "__main__":
    sys.exit(main())
