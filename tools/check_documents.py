#!/usr/bin/env python3
"""Checks that the documents agree with the sources.

usage: tools/check_documents.py

It prints a line for each of these faults, and ends with 1 if there is one:

- a link, or a path in backquotes that begins with a folder of the repository or a crate, leads nowhere (CONTRIBUTING
  shortens two crates to `W/` and `R/`);
- a document cites a row of DECISIONS that is missing, or the rows don't have the numbers from 1 on, each once;
- a crate of crates.txt has no row in ARCHITECTURE, or a row names another crate or stands in another group;
- AUDIT names a law, a proof file, or a definition `NAME` of `FILE` that is missing, or a sentence of the guarantee that
  README lacks, or AUDIT or README states another size of the headline;
- OPERATING or packaging/bash-completion lacks an option of `chukwa` or a usage line of `chukwactl`, or the completion has
  an option that the programs don't take. Their own lists are in src/usage.rt of chk_cmd_line and chk_ctl_line.

It needs neither the kit nor a built program, and takes some seconds.
"""
import glob
import os
import re
import sys

sys.path.insert(0, os.path.join(os.path.dirname(os.path.abspath(__file__)), "lib"))

from contracts import TOP, Crate, Definitions, crates, text_of
from reading import headline_size

SHORT = {"W": "crates/chk_cmd_line", "R": "crates/chukwa_run"}
FOLDERS = ("crates", "tools", "docs", "packaging", "bin", *SHORT)


def document(name):
    return text_of(f"{TOP}/{name}")


def documents():
    names = ["README.md", "CONTRIBUTING.md", "CHANGELOG.md", "tools/README.md", *sorted(glob.glob("docs/*.md", root_dir=TOP))]
    return {name: document(name) for name in names}


def place_of(path):
    """Where a cited path stands in the checkout, none if it is no such path."""
    first, _, rest = path.partition("/")
    if not rest or re.search(r"[<>*{}]|\.\.|\bNAME\b", path):
        return None
    if first in SHORT:
        return f"{SHORT[first]}/{rest}"
    if first in FOLDERS:
        return path
    in_crate = re.match(r"ch(k_|ukwa)\w*$", first) and re.match(r"(src|specs|proofs|mutants|must-fail|data)(/|$)", rest)
    return f"crates/{path}" if in_crate else None


def paths():
    """Links and paths that lead nowhere."""
    for name, text in documents().items():
        for link in re.findall(r"\]\(([^)#]+?)(?:#[^)]*)?\)", text):
            if "://" not in link and not os.path.exists(os.path.join(TOP, os.path.dirname(name), link)):
                yield f"{name}: there is no {link}"
        # CHANGELOG names files as they were.
        for cited in re.findall(r"`([\w.-]+/[\w./<>*{}-]+)", text) if name != "CHANGELOG.md" else []:
            path = place_of(cited.rstrip("."))
            if path and "out/" not in path and not os.path.exists(f"{TOP}/{path}"):
                yield f"{name}: there is no {cited}"


def decisions():
    """Numbers of decisions that are missing."""
    found = [int(number) for number in re.findall(r"^(\d+)\. ", document("docs/DECISIONS.md"), re.M)]
    if sorted(found) != list(range(1, len(found) + 1)):
        yield "docs/DECISIONS.md: its rows don't have the numbers from 1 on, each once"
    for name, text in documents().items():
        for cited in re.findall(r"\bDECISIONS(?:\]\([^)]*\))? ((?:\d+(?:, | and )?)+)", text):
            yield from (f"{name}: DECISIONS has no row {number}" for number in re.findall(r"\d+", cited) if int(number) not in found)


def rows_of_crates():
    """Where the rows of crates in ARCHITECTURE differ from crates.txt."""
    wanted = {name: group.split(":")[0] for name, (group, _) in crates().items()}
    found, group = {}, ""
    for line in document("docs/ARCHITECTURE.md").partition("\n## Crates\n")[2].split("\n"):
        if title := re.match(r"\*\*(.+)\*\*$", line):
            group = title[1].lower()
        elif row := re.match(r"\| `(\w+)` \|", line):
            if row[1] in found:
                yield f"docs/ARCHITECTURE.md: there are two rows of {row[1]}"
            found[row[1]] = group
    for name in sorted(wanted.keys() - found.keys()):
        yield f"docs/ARCHITECTURE.md: there is no row of {name}"
    for name in sorted(found.keys() - wanted.keys()):
        yield f"docs/ARCHITECTURE.md: crates.txt has no {name}"
    for name in sorted(wanted.keys() & found.keys()):
        if wanted[name] != found[name]:
            yield f"docs/ARCHITECTURE.md: crates.txt has {name} in the group {wanted[name]}"


def audit():
    """What AUDIT names and the sources lack."""
    text, size = document("docs/AUDIT.md"), headline_size(Definitions())
    named = {function.name for function in Crate("chk_world").public_functions()}
    for row in re.findall(r"^\|[^|]*\|([^|]*)\|([^|]*)\|$", text.partition("## The laws")[2].partition("\n## ")[0], re.M):
        for law in re.findall(r"`(\w+)`", row[0]):
            if law not in named:
                yield f"docs/AUDIT.md: there is no law {law}"
        for proof in re.findall(r"`(\w+)`", row[1]):
            if not os.path.isfile(f"{TOP}/crates/chk_world/proofs/{proof}.antt"):
                yield f"docs/AUDIT.md: there is no proof file {proof}"
    for name, file in re.findall(r"`(\w+)` of `(\w+/specs/\w+\.antt)`", text):
        path = f"{TOP}/crates/{file}"
        if not os.path.isfile(path) or not re.search(rf"^(?:\w+ )+{name}\b", text_of(path), re.M):
            yield f"docs/AUDIT.md: there is no {name} in {file}"
    readme = document("README.md")
    for sentence in re.findall(r"^\| (.*\.) \| `\w+` of `Headline` \|$", text, re.M):
        if sentence not in readme:
            yield f"docs/AUDIT.md: README doesn't say: {sentence}"
    for name in ("README.md", "docs/AUDIT.md"):
        for said in re.findall(r"[\d,]+ lines of definitions in \d+ files", document(name)):
            if said != size:
                yield f"{name}: it says {said}, and the headline has {size}"


def options():
    """What differs of the options of `chukwa`."""
    manual, completion = document("docs/OPERATING.md"), document("packaging/bash-completion/chukwa")
    lists = re.findall(r"^static ([A-Z]+): \[&str; (\d+)\] = \[(.*?)\];", document("crates/chk_cmd_line/src/usage.rt"), re.M | re.S)
    taken = {name.lower(): re.findall(r'"([a-z-]+)"', names) for name, _, names in lists if name != "NONE"}
    for command, names in taken.items():
        section = re.search(rf"^### {command}\n(.*?)(?=^##)", manual, re.M | re.S)
        for option in names:
            if not (section and f"--{option}" in section.group(1)):
                yield f"OPERATING doesn't name --{option} of {command}"
        line = re.search(rf'^  {command}\) options="([^"]*)" ;;$', completion, re.M)
        completed = line.group(1).replace("--", "").split() if line else []
        if sorted(completed) != sorted(names):
            yield f"bash completes {command} to {' '.join(sorted(completed))}, and it takes {' '.join(sorted(names))}"


def inspection_options():
    """What differs of the options of `chukwactl`."""
    usage, manual = document("crates/chk_ctl_line/src/usage.rt"), document("docs/OPERATING.md")
    completion = document("packaging/bash-completion/chukwactl")
    lines = {name: line for line, name in re.findall(r'"usage: (chukwactl ([a-z]+) [^"]*)\\n"', usage)}
    named = re.search(r'compgen -W "([a-z ]*)', completion)[1].split()
    if sorted(named) != sorted(lines):
        yield f"bash completes the commands {' '.join(named)} of chukwactl, and it has {' '.join(sorted(lines))}"
    for command, line in lines.items():
        if f"    {line}\n" not in manual:
            yield f"OPERATING lacks the line: {line}"
        given = re.search(rf'!= {command} \] \|\| options="([^"]*)"', completion)
        names = set(given[1].split() if given else []) - {"--help"}
        wanted = set(re.findall(r"(?<![\w-])--?[a-z][a-z-]*", line))
        if names != wanted:
            yield f"bash completes chukwactl {command} to {' '.join(sorted(names))}, and it takes {' '.join(sorted(wanted))}"


def main():
    if sys.argv[1:]:
        print(__doc__.strip())
        return 0 if sys.argv[1:] in (["--help"], ["-h"]) else 2
    found = [line for check in (paths, decisions, rows_of_crates, audit, options, inspection_options) for line in check()]
    for line in found:
        print(line, file=sys.stderr)
    return 1 if found else 0


if __name__ == "__main__":
    sys.exit(main())
