#!/usr/bin/env python3
"""Types the example of README and the manual's first run word for word, and compares what is printed with what they say.

usage: tools/try/newcomer.py [--program FILE] [--look FILE]

The example is README's first piece of code: each line after `$ ` is given to bash in an empty folder, and has to print
just the lines below it. The commands of the first run are those of docs/OPERATING.md, the section 'First run': one bash
in a new folder gets them, in which CHECKOUT is the repository. `chukwa` and `chukwactl` are the programs. It ends with 1
if something else is printed.
"""
import os
import re
import subprocess
import sys
import tempfile

sys.path.insert(0, os.path.join(os.path.dirname(os.path.abspath(__file__)), "../lib"))

from running import TOP, add_program, free_ports, parser_of, program_of

LOOK = f"{TOP}/crates/chukwactl/out/chukwactl"
WANTED = [
    r"^app FileTailingAdaptor Log \S+/logs/app\.log 11 11 live$", r"^OK 1 adaptors$", r"^OK close$",
    r"^app FileTailingAdaptor Log \S+/logs/app\.log 46 46 live$",
    r"^archive unclosed 0 taken \d+ held 0 removed \d+$", r"^end web1 Log \S+/logs/app\.log 46$",
    r"^demux taken 46 entries 4 left 0$", r"^the archive is the log$",
]


def text_of(name):
    with open(f"{TOP}/{name}", encoding="utf-8") as file:
        return file.read()


def section(text):
    return text.split("## First run\n", 1)[1].split("\n## ", 1)[0]


def blocks(text):
    """The pieces of code of a text, in order."""
    found, now = [], []
    for line in text.split("\n") + [""]:
        if line.startswith("    "):
            now.append(line[4:])
        elif now:
            found.append("\n".join(now))
            now = []
    return found


def example():
    """README's commands, each with what it prints."""
    commands = re.split(r"^\$ ", blocks(text_of("README.md"))[0] + "\n", flags=re.M)[1:]
    return [tuple(each.split("\n", 1)) for each in commands]


def script_of(port, door):
    """The whole session: the starts are typed again after the kill, as the text says."""
    first, control, killed, job, compared = blocks(section(text_of("docs/OPERATING.md")))
    starts = "\n".join(line for line in first.split("\n") if line.startswith("(cd "))
    compared = compared.replace("<the path>", "$(cd .. && pwd)/logs/app.log") + " && echo the archive is the log"
    text = "\n".join([
        first, "sleep 1", control, killed, starts, "sleep 5", "control list", job, compared,
        "control stopagent >/dev/null", "kill $collector; wait 2>/dev/null",
    ])
    return text.replace("9093", str(port)).replace("9094", str(door))


def typed(script, folder, place):
    """What bash prints in a new folder, in which the programs are found; standard error is part of it."""
    os.mkdir(f"{folder}/{place}")
    path = f"{folder}/bin:{os.environ['PATH']}"
    return subprocess.run(
        ["bash"], input=script, stdout=subprocess.PIPE, stderr=subprocess.STDOUT, text=True, timeout=90, check=False,
        cwd=f"{folder}/{place}", env={**os.environ, "PATH": path}, start_new_session=True).stdout


def said(what, is_so):
    print(("ok     " if is_so else "WRONG  ") + what)
    return is_so


def example_is_printed(folder):
    """Whether each command of README prints what stands below it."""
    commands = example()
    printed = typed("".join(f"{command}\necho =\n" for command, _ in commands), folder, "example").split("=\n")
    right = [said(f"README: {command}", out == wanted) for (command, wanted), out in zip(commands, printed)]
    if not all(right):
        print("=\n".join(printed))
    return bool(commands) and all(right)


def first_run_is_printed(folder):
    """Whether the first run prints the wanted lines in their order."""
    port, door = free_ports(2)
    printed = typed(script_of(port, door).replace("CHECKOUT", TOP), folder, "first")
    lines, right = printed.splitlines(), True
    for want in WANTED:
        found = next((at for at, line in enumerate(lines) if re.match(want, line)), None)
        right = said(want, found is not None) and right
        lines = lines[found + 1:] if found is not None else lines
    if not right:
        print(printed)
    return right


def main():
    parser = parser_of(__doc__)
    add_program(parser)
    parser.add_argument("--look", default=LOOK, help="the program chukwactl (default: the checkout's)")
    asked = parser.parse_args()
    program = program_of(asked)
    if not os.path.isfile(asked.look):
        sys.exit(f"there is no program {asked.look}; bin/build makes it")
    with tempfile.TemporaryDirectory() as folder:
        os.mkdir(f"{folder}/bin")
        os.symlink(program, f"{folder}/bin/chukwa")
        os.symlink(os.path.abspath(asked.look), f"{folder}/bin/chukwactl")
        right = [example_is_printed(folder), first_run_is_printed(folder)]
    sys.exit(0 if all(right) else 1)


if __name__ == "__main__":
    main()
