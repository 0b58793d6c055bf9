#!/usr/bin/env python3
"""Lists the functions of a crate whose proofs take the most processor time.

usage: tools/make/slow_functions.py [--most N] [--only PATH].. [--anew] [--to FILE] CRATE..

Runs `rt check --jobs 1` in the folder of each crate. The prover prints a line when it finishes a
function, so the processor time since the line before is that function's. Lemma files and definitions
that several functions cite count for the first of them. `start` is the front end, which reads the
sources and the libraries below. `end` is what follows the last function: mostly the verdict.

Only what changed since the last check is proved, and so timed. `--anew` removes the crate's
`out/incremental` first. Build the libraries below before, or their proofs count as `start`. `--to`
writes all rows, tab-separated: seconds, crate, function, lines, `?` exits, lines of its proof files.
"""
import argparse
import os
import re
import shutil
import subprocess
import sys

TOP = os.path.dirname(os.path.dirname(os.path.dirname(os.path.abspath(__file__))))
TICKS = os.sysconf("SC_CLK_TCK")
CHECKED = re.compile(r"^checked (\S+), \d+ of \d+$")
HEAD = re.compile(r"^(\s*)(?:pub(?:\([^)]*\))? )?(?:const )?(?:unsafe )?fn (\w+)", re.M)


def seconds_of(root):
    """The processor seconds of a process and of all below it, those that ended and were waited for too."""
    stats, total, left = {}, 0, [root]
    for pid in filter(str.isdigit, os.listdir("/proc")):
        try:
            with open(f"/proc/{pid}/stat", encoding="utf-8", errors="replace") as file:
                fields = file.read().rpartition(")")[2].split()
        except OSError:
            continue
        stats.setdefault(int(fields[1]), []).append(int(pid))
        stats[int(pid), "ticks"] = sum(map(int, fields[11:15]))
    while left:
        pid = left.pop()
        total += stats.get((pid, "ticks"), 0)
        left += stats.get(pid, [])
    return total / TICKS


def texts_of(folder):
    """The text of each function, by its name and by the module that it stands in."""
    found = {}
    for place, _, files in os.walk(f"{folder}/src"):
        for name in filter(lambda name: name.endswith(".rt"), files):
            module = os.path.relpath(f"{place}/{name}", f"{folder}/src")[:-3].replace("/", "::")
            module = re.sub(r"^(lib|main)$|(::)?\bmod$", "", module)
            with open(f"{place}/{name}", encoding="utf-8") as file:
                text = file.read()
            for head in HEAD.finditer(text):
                end = re.compile(rf"^{head[1]}\}}", re.M).search(text, head.end())
                body = text[head.start() : end.end() if end else len(text)].strip("\n")
                found.setdefault((module, head[2]), []).append(body)
    return found


def proof_lines(folder, function):
    """How many lines the proof files of a function have."""
    place = f"{folder}/proofs/{function.replace('::', '/')}"
    count = 0
    for name in os.listdir(place) if os.path.isdir(place) else ():
        if name.endswith(".antt"):
            with open(f"{place}/{name}", encoding="utf-8") as file:
                count += len(file.readlines())
    return count


def described(folder, texts, path):
    """Lines, `?` exits and lines of proof files of a function: of its longest namesake in the module."""
    function = path.partition("::")[2]
    parts = function.split("::")
    bodies = [""]
    for cut in range(len(parts)):
        bodies += texts.get(("::".join(parts[:cut]), parts[-1]), [])
    body = max(bodies, key=len)
    return body.count("\n") + bool(body), len(re.findall(r"\?[;.)\s,]", body)), proof_lines(folder, function)


def row_of(line, is_first):
    """The name of the row that ends with this printed line, if one does."""
    if is_first and line.startswith("so far: 0 of"):
        return "start"
    checked = CHECKED.match(line)
    return checked and checked[1]


def timed(crate, anew, only):
    """The exit status of a check, and its rows of seconds and names."""
    folder = f"{TOP}/crates/{crate}"
    if anew:
        shutil.rmtree(f"{folder}/out/incremental", ignore_errors=True)
    rows, before, last = [], 0.0, ""
    words = ["rt", "check", "--jobs", "1", *(word for path in only for word in ("--only", path))]
    pipes = {"stdout": subprocess.PIPE, "stderr": subprocess.STDOUT, "text": True, "errors": "replace"}
    with subprocess.Popen(words, cwd=folder, **pipes) as run:
        for last in run.stdout:
            name = row_of(last, not rows)
            if name:
                now = seconds_of(run.pid)
                rows.append((now - before, name))
                before = now
        _, status, used = os.wait4(run.pid, 0)
        run.returncode = os.waitstatus_to_exitcode(status)
    rows.append((used.ru_utime + used.ru_stime - before, "end"))
    if run.returncode:
        print(f"{crate}: the check ended with status {run.returncode}: {last.strip()}", file=sys.stderr)
    return run.returncode, rows


def main():
    parser = argparse.ArgumentParser(description=__doc__, formatter_class=argparse.RawTextHelpFormatter)
    parser.add_argument("crates", nargs="+", metavar="CRATE")
    parser.add_argument("--most", type=int, default=15, help="how many functions of each crate (15)")
    parser.add_argument("--only", action="append", default=[], metavar="PATH", help="these functions alone")
    parser.add_argument("--anew", action="store_true", help="prove each function, not only what changed")
    parser.add_argument("--to", help="a file for all rows")
    given = parser.parse_args()
    worst, lines = 0, []
    for crate in given.crates:
        folder = f"{TOP}/crates/{crate}"
        status, rows = timed(crate, given.anew, given.only)
        worst = max(worst, status)
        texts = texts_of(folder)
        functions = sum(name not in ("start", "end") for _, name in rows)
        print(f"{crate}: {sum(seconds for seconds, _ in rows):.1f} s in all, {functions} functions")
        print("  seconds  lines  exits  proof lines  function")
        rows = [(*row, *described(folder, texts, row[1])) for row in sorted(rows, reverse=True)]
        for seconds, name, length, exits, proof in rows[: given.most]:
            print(f"  {seconds:7.1f}  {length:5}  {exits:5}  {proof:11}  {name}", flush=True)
        lines += [f"{s:.2f}\t{crate}\t{n}\t{a}\t{b}\t{c}\n" for s, n, a, b, c in rows]
    if given.to:
        with open(given.to, "w", encoding="utf-8") as file:
            file.writelines(lines)
    return worst


if __name__ == "__main__":
    sys.exit(main())
