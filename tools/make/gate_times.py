#!/usr/bin/env python3
"""Measures one run of the gate, crate by crate, and prints it as a table.

usage: tools/make/gate_times.py [--to FILE] [COMMAND...]

Runs COMMAND at the top of the checkout, by default `bash .ci/run --anew`, which proves and tries everything from
nothing, and looks twice a second at the processes below it. Nothing but that run is in the table: a crate that the run
took from the cache has no row. Run it alone on the machine, because other work makes a proof's processor time grow by a
third to a half; `taskset -c 0,1 tools/make/gate_times.py` measures two processors. The time of a proof after its last
look is in the sums of the run alone, so the sums of the crates are a little less.

The head names the commit, the kit, the processors, the load, the processor minutes, the minutes by the clock, the memory
of the largest process, and of all processes at one moment (resident, in MiB). A row has a crate's processor seconds by
part (its own proof, the proof of its tests, its mutants), its largest process in MiB, and how many crates stand above
it, each of which is proved again if it changes. The status is the command's; a run that failed prints no table.
"""
import argparse
import collections
import os
import re
import resource
import subprocess
import sys
import time

TOP = os.path.dirname(os.path.dirname(os.path.dirname(os.path.abspath(__file__))))
TICKS = os.sysconf("SC_CLK_TCK")
PARTS = ("proof", "tests", "mutants")


class Task:
    """A prover at work: whose crate, which part of the gate, its seconds and its largest memory in KiB."""

    def __init__(self, crate, part):
        self.crate, self.part, self.seconds, self.memory = crate, part, 0.0, 0


class Watch:
    """What was seen of a run: its provers, and the most memory that its processes held at one moment, in KiB."""

    def __init__(self, root):
        self.root, self.tasks, self.peak = root, {}, 0

    def look(self):
        found, held = stats(), 0
        for pid in below(self.root, found):
            _, start, seconds = found[pid]
            try:
                status = read(pid, "status")
                held += kib_of(status, "VmRSS")
                if self.tasks.get((pid, start)) is None:
                    self.tasks[pid, start] = task_of(pid)
                task = self.tasks[pid, start]
                if task is not None:
                    task.seconds, task.memory = seconds, max(task.memory, kib_of(status, "VmHWM"))
            except OSError:
                continue
        self.peak = max(self.peak, held)


def read(pid, name):
    with open(f"/proc/{pid}/{name}", encoding="utf-8", errors="replace") as file:
        return file.read()


def kib_of(status, field):
    found = re.search(rf"^{field}:\s+(\d+)", status, re.M)
    return int(found[1]) if found else 0


def stats():
    """Parent, start and own processor seconds of each process."""
    found = {}
    for pid in filter(str.isdigit, os.listdir("/proc")):
        try:
            fields = read(pid, "stat").rpartition(")")[2].split()
        except OSError:
            continue
        found[int(pid)] = int(fields[1]), fields[19], (int(fields[11]) + int(fields[12])) / TICKS
    return found


def below(root, found):
    """The processes that a process started, and those that these started."""
    children = collections.defaultdict(list)
    for pid, (parent, _, _) in found.items():
        children[parent].append(pid)
    left, seen = [root], []
    while left:
        more = children[left.pop()]
        seen += more
        left += more
    return seen


def task_of(pid):
    """What a process proves, if it is a prover."""
    words = read(pid, "cmdline").split("\0")
    if len(words) < 2 or os.path.basename(words[0]) != "rattle" or words[1] not in ("build", "check"):
        return None
    if "--crate-name" not in words:
        return None
    of_mutants = os.path.basename(os.readlink(f"/proc/{pid}/cwd")).startswith("rt-edit-")
    part = "tests" if "--test" in words else "mutants" if of_mutants else "proof"
    return Task(words[words.index("--crate-name") + 1], part)


def deps_of(top):
    """The crates that each crate names, in the order of crates.txt."""
    found = {}
    with open(f"{top}/crates.txt", encoding="utf-8") as file:
        for line in file:
            name, colon, deps = line.partition(":")
            if colon and not line.startswith("#"):
                found[name.split()[0]] = deps.split()
    return {name: [dep for dep in deps if dep in found] for name, deps in found.items()}


def all_below(name, deps):
    left, seen = [name], set()
    while left:
        for dep in deps[left.pop()]:
            if dep not in seen:
                seen.add(dep)
                left.append(dep)
    return seen


def rows(tasks, deps):
    """A row for each crate that was at work, the most expensive first, and one for all."""
    seconds, memory = collections.Counter(), collections.Counter()
    for task in tasks:
        seconds[task.crate, task.part] += task.seconds
        memory[task.crate] = max(memory[task.crate], task.memory)
    above = collections.Counter(dep for name in deps for dep in all_below(name, deps))
    sums = {name: sum(seconds[name, part] for part in PARTS) for name in deps if name in memory}
    for name in sorted(sums, key=lambda name: -sums[name]):
        parts = " | ".join(f"{seconds[name, part]:.0f}" for part in PARTS)
        yield f"| `{name}` | {parts} | {memory[name] / 1024:.0f} | {above[name]} |"
    whole = " | ".join(f"{sum(seconds[name, part] for name in sums):.0f}" for part in PARTS)
    yield f"| all | {whole} | {max(memory.values(), default=0) / 1024:.0f} | |"


def printed_by(*words):
    return subprocess.run(words, cwd=TOP, stdout=subprocess.PIPE, text=True, check=False).stdout.strip()


def table(words, watch, clock, used):
    """The head and the rows of a run."""
    commit = printed_by("git", "rev-parse", "--short=8", "HEAD")
    changed = " with changes" if printed_by("git", "status", "--porcelain", "--untracked-files=no") else ""
    processor, largest = used.ru_utime + used.ru_stime, used.ru_maxrss
    yield f"`{' '.join(words)}` over {commit}{changed} with {printed_by('rt', 'version')}, {time.strftime('%Y-%m-%d')}, on"
    yield f"{len(os.sched_getaffinity(0))} processors, load {os.getloadavg()[2]:.1f} over the last quarter of an hour:"
    yield f"**{processor / 60:.0f} processor minutes, {clock / 60:.0f} minutes by the clock**, the largest process {largest / 1024:.0f} MiB,"
    yield f"all processes at most {watch.peak / 1024:.0f} MiB at one moment."
    yield ""
    yield "| crate | proof | tests | mutants | MiB | above |"
    yield "|---|---|---|---|---|---|"
    yield from rows(list(filter(None, watch.tasks.values())), deps_of(TOP))


def main():
    what, _, more = __doc__.split("\n\n", 2)
    parser = argparse.ArgumentParser(description=what, epilog=more, formatter_class=argparse.RawDescriptionHelpFormatter)
    parser.add_argument("--to", metavar="FILE", help="the file to write (default: standard output)")
    parser.add_argument("command", nargs=argparse.REMAINDER, metavar="COMMAND", help="what to run (default: bash .ci/run --anew)")
    asked = parser.parse_args()
    words = [word for word in asked.command if word != "--"] or ["bash", ".ci/run", "--anew"]
    began = time.monotonic()
    child = subprocess.Popen(words, cwd=TOP, stdin=subprocess.DEVNULL)
    watch = Watch(child.pid)
    try:
        while child.poll() is None:
            watch.look()
            time.sleep(0.5)
    except KeyboardInterrupt:
        child.terminate()
        child.wait()
        return 130
    clock, used = time.monotonic() - began, resource.getrusage(resource.RUSAGE_CHILDREN)
    if child.returncode == 0:
        text = "\n".join(table(words, watch, clock, used)) + "\n"
        if asked.to:
            with open(asked.to, "w", encoding="utf-8") as file:
                file.write(text)
        else:
            print(text, end="")
    return child.returncode


if __name__ == "__main__":
    sys.exit(main())
