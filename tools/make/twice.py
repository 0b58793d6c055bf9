#!/usr/bin/env python3
"""Lists what stands twice in the repository, and what nothing cites.

usage: tools/make/twice.py [--tests] [WHAT...]

WHAT is one or more of these, by default all:

  definitions   definitions of specs/ with the same text except for their name, in two crates or more; names of plain
                numbers are left out, since two limits may be as large
  statements    statements of lemmas with the same text except for their name, in two crates or more; the answers
                to goals are left out
  functions     functions with the same signature and body, in two files or more
  uncited       definitions, and functions that are public in their file, which no text but their own names

Layout and comments make no difference; other names of variables do. So each row is one that stands twice, and there
are more that say the same in other words. A name that another item has too counts as cited. It writes nothing and
ends with 0: a list for whoever tidies up. Crates of tests and tools are left out without `--tests`.
"""
import os
import re
import sys

sys.path.insert(0, os.path.join(os.path.dirname(os.path.abspath(__file__)), "../lib"))

from contracts import TOP, Crate, Definitions, crates, one_line, sources, text_of

LEMMA = re.compile(r"^( *)(?:pub )?([^\s:(){}]+) : ")
# Files of the answers to goals, whose names the checker gives: they are no lemmas.
GOALS = {"Answers.antt", "Invariants.antt", "Proof.antt"}
# A definition that only names a number.
NUMBER = re.compile(r": ℕ _ = [\d ^-]+$")
KEYWORDS = {"use", "pub", "mod", "module", "abbrev", "record", "data", "unfoldable", "unfolding"}


def without_comments(text):
    return "\n".join(line.partition("--")[0] for line in text.split("\n"))


def grouped(found):
    """What has one text and stands in several places."""
    by = {}
    for text, place in found:
        by.setdefault(text, []).append(place)
    return sorted((places for places in by.values() if len({place[0] for place in places}) > 1), key=lambda each: (-len(each), each))


def definitions(names):
    for (place, name), item in Definitions().items.items():
        if item.crate in names:
            text = re.sub(rf"(?<![^\s(){{}},;]){re.escape(name)}(?![^\s(){{}},;])", "_", one_line(without_comments(item.text)))
            if NUMBER.search(text):
                continue
            yield text, (item.crate, f"{item.file}: {name}")


def statements(names):
    """Statements of lemmas: a name at the start of a line, or one step in, a colon, and its type up to its own name."""
    for crate in names:
        for path in sources(f"{TOP}/crates/{crate}/proofs", ".antt"):
            if os.path.basename(path) in GOALS:
                continue
            lines = without_comments(text_of(path)).split("\n")
            for at, line in enumerate(lines):
                found = LEMMA.match(line)
                if not found or found.group(2) in KEYWORDS or len(found.group(1)) > 2:
                    continue
                held, step = [line[found.end():]], found.group(1)
                for more in lines[at + 1:]:
                    if not more.startswith(step + "  "):
                        break
                    held.append(more)
                text = one_line(" ".join(held))
                if len(text) > 30:
                    yield text, (crate, f"{os.path.relpath(path, f'{TOP}/crates/{crate}')}: {found.group(2)}")


def functions(names):
    """Functions with their bodies; the place is the file, so that a crate's own doubles are found too."""
    for name in names:
        crate = Crate(name)
        texts = {file: text_of(f"{crate.folder}/{file}") for file in crate.uses}
        for function in crate.functions:
            if function.is_empty or not function.has_body:
                continue
            lines = texts[function.file].split("\n")
            first = function.line - 1
            indent = re.match(r" *", lines[first]).group()
            end = next((n for n in range(first, len(lines)) if lines[n] == indent + "}"), first)
            body = "\n".join(line.partition("//")[0] for line in lines[first:end + 1])
            if end - first > 2:
                yield one_line(re.sub(r"^ *(pub(\([^)]*\))? )?", "", body)), (f"{name}/{function.file}", function.label())


def uncited(names):
    """Definitions and public functions that no other text names."""
    count, own = {}, {}
    for crate in crates():
        for folder, end in (("src", ".rt"), ("specs", ".antt"), ("proofs", ".antt")):
            for path in sources(f"{TOP}/crates/{crate}/{folder}", end):
                lines = [line for line in text_of(path).split("\n") if not re.match(r"\s*(ghost |pub )?use ", line)]
                text = "\n".join(re.sub(r"//.*|--.*", "", line) for line in lines)
                for word in re.split(r"[^\w'◌≡-]+", text):
                    count[word] = count.get(word, 0) + 1
    for (_, name), item in Definitions().items.items():
        own[name] = own.get(name, 0) + len([word for word in re.split(r"[^\w'◌≡-]+", without_comments(item.text)) if word == name])
        # An operator is cited by its sign alone.
        if item.crate in names and "◌" not in name:
            yield item.crate, f"{item.file}: {name}", name, count, own
    for crate in names:
        for function in Crate(crate).functions:
            if function.visible and not function.is_empty and not function.is_test and function.name not in ("main",):
                own[function.name] = own.get(function.name, 0) + 1
                yield crate, f"{function.file}: {function.label()}", function.name, count, own


def main():
    words = sys.argv[1:]
    tests, words = "--tests" in words, [word for word in words if word != "--tests"]
    whats = {"definitions": definitions, "statements": statements, "functions": functions}
    if any(word not in (*whats, "uncited") for word in words):
        print(__doc__.strip())
        return 0 if words in (["--help"], ["-h"]) else 2
    names = [name for name in crates() if tests or not name.startswith("chk_test_")]
    for what, find in whats.items():
        if words and what not in words:
            continue
        groups = grouped(find(names))
        print(f"{what}: {len(groups)} stand twice or more")
        for places in groups:
            print("  " + "; ".join(f"{crate} {rest}" for crate, rest in places))
    if not words or "uncited" in words:
        rows = list(uncited(names))
        rows = [(crate, what) for crate, what, name, count, own in rows if count.get(name, 0) <= own.get(name, 0)]
        print(f"uncited: {len(rows)}")
        for crate, what in rows:
            print(f"  {crate} {what}")
    return 0


if __name__ == "__main__":
    sys.exit(main())
