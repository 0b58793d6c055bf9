#!/usr/bin/env python3
"""Figures of the built program, each beside a yardstick of the same run.

usage: tools/figures.py WHAT [OPTION...]
       tools/figures.py --list

WHAT is one of those that `--list` prints, each with what it times; `tools/figures.py WHAT --help` has its options.
What it wrote is removed after it; it works below the current folder, so that the disk is the caller's.
"""
import ast
import os
import sys

TOOLS = os.path.dirname(os.path.abspath(__file__))
# Figures that a script of try/ has, since it makes the same traffic.
OTHERS = {"datagrams": ["try/datagrams.py", "--figures"]}
NO_FIGURES = {"copies"}


def whats():
    """Each name, with the script and the words before the caller's."""
    names = [name.removesuffix(".py") for name in os.listdir(f"{TOOLS}/figures") if name.endswith(".py")]
    here = {name: [f"figures/{name}.py"] for name in names if name not in NO_FIGURES}
    return dict(sorted({**here, **OTHERS}.items()))


def first_line(script):
    """What a script says of itself in the first sentence at its head."""
    with open(f"{TOOLS}/{script}", encoding="utf-8") as file:
        return ast.get_docstring(ast.parse(file.read())).split("\n\n")[0].replace("\n", " ")


def main():
    words, known = sys.argv[1:], whats()
    if words == ["--list"]:
        for name, found in known.items():
            print(f"{name:<10} {first_line(found[0])}")
        return 0
    if not words or words[0] not in known:
        asked = words in (["--help"], ["-h"])
        print(__doc__.strip(), file=sys.stdout if asked else sys.stderr)
        return 0 if asked else 2
    script, *before = known[words[0]]
    os.execv(sys.executable, [sys.executable, f"{TOOLS}/{script}", *before, *words[1:]])


if __name__ == "__main__":
    sys.exit(main())
