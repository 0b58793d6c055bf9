#!/usr/bin/env python3
"""Tries the Debian package in a folder of its own.

usage: tools/try/package.py [--program FILE]

It makes the package, unpacks it, compares the usage lines of the manual with the program's, lets `man` and
`systemd-analyze` look at what is installed, where they are there, installs it by dpkg below the folder,
and removes it: nothing may stay. It ends with 1 where something isn't so.
"""
import glob
import os
import shutil
import subprocess
import sys
import tempfile

sys.path.insert(0, os.path.join(os.path.dirname(os.path.abspath(__file__)), "../lib"))

from running import TOP, add_program, parser_of, program_of

wrong = []


def said(what, is_so, more=""):
    print(("ok     " if is_so else "WRONG  ") + what + (f": {more}" if more else ""))
    if not is_so:
        wrong.append(what)


def ran(*words, **more):
    return subprocess.run(words, capture_output=True, text=True, timeout=120, check=False, **more)


def usages(program, room):
    """The usage lines of the manual, and those that the program prints."""
    manual = ran("python3", f"{TOP}/tools/make/man.py", "--usages").stdout.splitlines()
    printed = [ran(program, line.split()[2], "--none", cwd=room).stdout.strip() for line in manual]
    return manual, printed


def pages_made():
    """One for each command, chukwa and chukwactl, one of the formats, and one of the guarantee."""
    return len(ran("python3", f"{TOP}/tools/make/man.py", "--usages").stdout.splitlines()) + 4


def look(tree, room):
    pages = sorted(glob.glob(f"{tree}/usr/share/man/*/*.gz"))
    said("manual pages", len(pages) == pages_made(), f"{len(pages)}")
    if shutil.which("man"):
        for page in pages:
            told = ran("man", "--warnings", "-E", "UTF-8", "-l", "-Tutf8", "-Z", page, env={**os.environ, "LC_ALL": "C.UTF-8"})
            said(f"man {os.path.basename(page)}", told.returncode == 0 and not told.stderr, told.stderr[:200])
    if not shutil.which("systemd-analyze"):
        print("skipped  the units: there is no systemd-analyze")
        return
    units = f"{room}/units"
    shutil.copytree(f"{tree}/usr/lib/systemd/system", units)
    for name in os.listdir(units):
        text = open(f"{units}/{name}", encoding="utf-8").read().replace("/usr/bin/chukwa", f"{tree}/usr/bin/chukwa")
        text = text.replace("man:", "https://localhost/")
        open(f"{units}/{name}", "w", encoding="utf-8").write(text)
    for name, instance in (("chukwa-agent@", "web"), ("chukwa-collector@", "c1"), ("chukwa-archive", "")):
        unit = f"{units}/{name}{instance}.service"
        if instance:
            shutil.copy(f"{units}/{name}.service", unit)
        told = ran("systemd-analyze", "verify", unit)
        lines = [line for line in told.stderr.splitlines() if os.path.basename(unit) in line]
        said(f"verify {os.path.basename(unit)}", not lines, "; ".join(lines)[:300])
        level = ran("systemd-analyze", "security", "--offline=true", unit).stdout.strip().splitlines()
        number = float(level[-1].split(":")[1].split()[0]) if level else 10.0
        said(f"exposure of {os.path.basename(unit)} below 5", number < 5, str(number))


def completed(tree):
    """The words that bash completes to, for some lines."""
    script = (
        "source %s; COMP_WORDS=(%%s); COMP_CWORD=$((${#COMP_WORDS[@]} - 1)); _chukwa; echo ${COMPREPLY[*]}"
        % f"{tree}/usr/share/bash-completion/completions/chukwa")
    for line, want in (
        ("chukwa a", "agent archive"), ("chukwa agent --p", "--poll --pause"), ("chukwa collector --m", "--messages"),
        ("chukwa round --class L", "LWFTAdaptor"), ("chukwa drain --i", "--initial"),
    ):
        words = " ".join(f"'{word}'" for word in line.split(" "))
        got = ran("bash", "-c", script % words).stdout.strip()
        said(f"bash completes {line}", got == want, got)


def installed(package, room):
    """dpkg installs it below a root of its own, and removes it whole."""
    root = f"{room}/root"
    for folder in ("var/lib/dpkg/info", "var/lib/dpkg/updates", "usr/bin"):
        os.makedirs(f"{root}/{folder}")
    open(f"{root}/var/lib/dpkg/status", "w", encoding="ascii").close()
    options = ["dpkg", f"--root={root}", "--force-depends", "--force-script-chrootless", "--force-not-root", "--log=/dev/null"]
    told = ran(*options, "--install", package)
    said("dpkg installs it", told.returncode == 0, told.stderr[-300:] if told.returncode else "")
    said("the program stands there", os.access(f"{root}/usr/bin/chukwa", os.X_OK))
    told = ran(*options, "--purge", "chukwa")
    said("dpkg removes it", told.returncode == 0, told.stderr[-300:] if told.returncode else "")
    left = [name for name in glob.glob(f"{root}/**", recursive=True) if "chukwa" in name and "/var/lib/dpkg" not in name]
    said("nothing stays", not left, " ".join(left)[:300])


def main():
    parser = parser_of(__doc__)
    add_program(parser)
    program = program_of(parser.parse_args())
    with tempfile.TemporaryDirectory() as room:
        manual, printed = usages(program, room)
        said("usage lines are the program's", manual == printed, "" if manual == printed else f"{set(manual) ^ set(printed)}")
        made = ran(f"{TOP}/tools/make/package", "--program", program, room)
        said("the package is made", made.returncode == 0, made.stderr[-300:])
        if made.returncode == 0:
            package, tree = made.stdout.strip(), f"{room}/tree"
            ran("dpkg-deb", "--extract", package, tree)
            look(tree, room)
            completed(tree)
            installed(package, room)
    sys.exit(1 if wrong else 0)


if __name__ == "__main__":
    main()
