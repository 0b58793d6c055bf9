#!/usr/bin/env python3
"""Compares all public clauses of two states of the repository, and lists what differs.

usage: tools/make/clauses.py [--tests] [--text] [--renamed OLD=NEW]... OLD NEW

OLD and NEW are commits, or folders of checkouts. Functions that are `pub` in a module of their crate's own count too. A line for each public function, clause, type and definition that differs:

  gone      a function, clause or definition that isn't there any more
  changed   another text of a clause, a signature or a definition, of what a type is seen as, or of its public fields
            or variants
  asked     a `requires` that is new or has another text: a caller owes something else
  moved     the same function or definition in another crate or file
  new       a function, an `ensures` or a definition that came

Behind a changed definition stands how many public functions have clauses that stand on it: their words are the same,
and may mean something else. `--text` prints both texts. Crates of tests and tools are left out without `--tests`; with
`--renamed` a crate counts as the same under its new name. Layout and comments inside clauses make no difference. The
status is 0 where everything stayed and something may have come, 1 where something is gone, changed or asked.
"""
import argparse
import os
import re
import subprocess
import sys
import tempfile

sys.path.insert(0, os.path.join(os.path.dirname(os.path.abspath(__file__)), "../lib"))

from contracts import BREAKS, TOP, Crate, Definitions, crates, one_line, text_of


def unpacked(state, room):
    """A folder with the crates of a commit or a checkout."""
    if os.path.isfile(f"{state}/crates.txt"):
        return os.path.abspath(state)
    folder = tempfile.mkdtemp(dir=room)
    packed = subprocess.run(["git", "-C", TOP, "archive", state, "crates", "crates.txt"], capture_output=True, check=False)
    if packed.returncode:
        sys.exit(f"{state} is neither a folder with a crates.txt nor a commit: {packed.stderr.decode().strip()}")
    subprocess.run(["tar", "-xf", "-", "-C", folder], input=packed.stdout, check=True)
    return folder


class State:
    """The public functions and the definitions of a checkout, by names under which the other one is asked."""

    def __init__(self, folder, tests, renamed):
        self.renamed = renamed
        names = [name for name in crates(folder) if tests or not name.startswith(("chk_test_", "chk_tool_"))]
        self.crates = {name: Crate(name, folder) for name in names}
        self.functions = {}
        for name, crate in self.crates.items():
            for function in crate.functions:
                if not crate.is_public(function) and (function.visible != "pub" or function.is_test):
                    continue
                key = self.now(name), function.owner, getattr(function, "trait", ""), function.name
                self.functions[key] = function
        self.types = {(self.now(name), each.name): self.text(shape(crate, each))
                      for name, crate in self.crates.items() for each in crate.public_types() if each.kind != "trait"}
        self.definitions = Definitions(folder)
        self.items = {(self.now(item.crate), item.file, item.name): item for item in self.definitions.items.values()
                      if item.crate in self.crates}
        self.items.update({(self.now(crate.name), item.file, item.name): item for crate in self.crates.values() for item in crate.models})

    def now(self, name):
        return self.renamed.get(name, name)

    def text(self, text):
        """A text in which renamed crates have their new names."""
        for old, new in self.renamed.items():
            text = re.sub(rf"\b{old}\b", new, text)
        return one_line(text)

    def code(self, item):
        return self.text("\n".join(line.partition("--")[0] for line in item.text.split("\n")))

    def above(self, changed):
        """The definitions that stand on one of these, by their places, themselves among them."""
        made, users = self.definitions, {}
        for (place, name), item in made.items.items():
            for each in item.names:
                there = made.uses[place].get(each, (place, each))
                there = made.variants.get(there, there)
                if there in made.items and there != (place, name):
                    users.setdefault(there, set()).add((place, name))
        found, more = set(changed), list(changed)
        while more:
            for user in users.get(more.pop(), ()):
                if user not in found:
                    found.add(user)
                    more.append(user)
        return found

    def standing_on(self, places):
        """The public functions with a clause that names one of these definitions."""
        found = set()
        for key, function in self.functions.items():
            uses = self.crates[function.crate].uses[function.file]
            for _, _, text in function.clauses:
                if any(uses.get(word) in places for word in BREAKS.split(text)):
                    found.add(key)
        return found


def shape(crate, each):
    """The text of a type that others see: of a struct its head and public fields, else all of it, without comments."""
    first, last = each.lines
    lines = [line for line in text_of(f"{crate.folder}/{each.file}").split("\n")[first - 1:last]
             if not re.match(r" *(//|#\[)", line)]
    if each.kind == "struct" and len(lines) > 1:
        lines = [line for line in lines if not line.startswith(" ") or line.lstrip().startswith("pub ")]
    return "\n".join(lines)


def types_that_differ(old, new):
    for key, before in old.types.items():
        after = new.types.get(key)
        if after is None:
            moved = [at for at, text in new.types.items() if at[1] == key[1] and text == before and at not in old.types]
            yield ("moved", f"{key[0]}: the type {key[1]} is in {moved[0][0]}", "", "") if moved \
                else ("gone", f"{key[0]}: the type {key[1]}", before, "")
        elif before != after:
            yield "changed", f"{key[0]}: the type {key[1]}", before, after
    for key, after in new.types.items():
        if key not in old.types:
            yield "new", f"{key[0]}: the type {key[1]}", "", after


def shown(key):
    crate, owner, trait, name = key
    return f"{crate}: " + (f"{owner}::" if owner else "") + name + (f" of {trait}" if trait else "")


def functions_that_differ(old, new):
    """What differs of functions: a kind, what it is, and both texts."""
    same = {}
    for key, function in new.functions.items():
        same.setdefault((key[1], key[3], function.head, tuple(function.clauses)), []).append(key)
    for key, before in old.functions.items():
        after = new.functions.get(key)
        if after is None:
            clauses = tuple((kind, name, old.text(text)) for kind, name, text in before.clauses)
            moved = [at for at in same.get((key[1], key[3], old.text(before.head), clauses), []) if at not in old.functions]
            yield ("moved", f"{shown(key)} is in {moved[0][0]}", "", "") if moved else ("gone", shown(key), before.head, "")
            continue
        if old.text(before.head) != new.text(after.head):
            yield "changed", f"{shown(key)}, signature", before.head, after.head
        yield from clauses_that_differ(shown(key), named(before, old), named(after, new))
    for key, after in new.functions.items():
        if key not in old.functions:
            yield "new", shown(key), "", after.head


def named(function, state):
    """The clauses by kind and name; unnamed ones are counted."""
    found, count = {}, {"requires": 0, "ensures": 0}
    for kind, name, text in function.clauses:
        if not name:
            count[kind] += 1
            name = f"unnamed {count[kind]}"
        found[kind, name] = state.text(text)
    return found


def clauses_that_differ(what, before, after):
    for (kind, name), text in before.items():
        if (kind, name) not in after:
            yield ("gone" if kind == "ensures" else "new"), f"{what}, {kind} {name}" + ("" if kind == "ensures" else " isn't asked any more"), text, ""
        elif after[kind, name] != text:
            yield ("changed" if kind == "ensures" else "asked"), f"{what}, {kind} {name}", text, after[kind, name]
    for (kind, name), text in after.items():
        if (kind, name) not in before:
            yield ("new" if kind == "ensures" else "asked"), f"{what}, {kind} {name}", "", text


def definitions_that_differ(old, new):
    texts = {}
    for key, item in new.items.items():
        texts.setdefault((item.name, new.code(item)), []).append(key)
    for key, before in old.items.items():
        after = new.items.get(key)
        if after is None:
            moved = [at for at in texts.get((before.name, old.code(before)), []) if at not in old.items]
            yield ("moved" if moved else "gone"), key, moved[0] if moved else None, before.text, ""
        elif old.code(before) != new.code(after):
            yield "changed", key, None, before.text, after.text
    for key, after in new.items.items():
        if key not in old.items:
            yield "new", key, None, "", after.text


def told(kind, what, before, after, with_text):
    print(f"{kind:<8} {what}")
    if with_text and (before or after) and kind not in ("moved",):
        for mark, text in (("-", before), ("+", after)):
            for line in text.splitlines() if text else []:
                print(f"           {mark} {line}")


def main():
    what, _, more = __doc__.split("\n\n", 2)
    parser = argparse.ArgumentParser(description=what, epilog=more.strip(), formatter_class=argparse.RawDescriptionHelpFormatter)
    parser.add_argument("--tests", action="store_true", help="crates of tests and tools too")
    parser.add_argument("--text", action="store_true", help="both texts of what differs")
    parser.add_argument("--renamed", action="append", default=[], metavar="OLD=NEW", help="a crate that has another name now")
    parser.add_argument("old", metavar="OLD")
    parser.add_argument("new", metavar="NEW")
    asked = parser.parse_args()
    renamed, count = dict(each.split("=", 1) for each in asked.renamed), {}
    with tempfile.TemporaryDirectory() as room:
        old = State(unpacked(asked.old, room), asked.tests, renamed)
        new = State(unpacked(asked.new, room), asked.tests, {})
        differ = [*functions_that_differ(old, new), *types_that_differ(old, new)]
        for kind, text, before, after in sorted(differ, key=lambda each: each[1]):
            count[kind] = count.get(kind, 0) + 1
            told(kind, text, before, after, asked.text)
        for kind, (crate, file, name), there, before, after in sorted(definitions_that_differ(old, new), key=lambda each: each[1]):
            count[kind] = count.get(kind, 0) + 1
            text = f"{crate}/{file}: {name}"
            if kind == "changed" and file.startswith("specs/"):
                module = file.removeprefix("specs/").removesuffix(".antt").replace("/", ".")
                above = len(new.standing_on(new.above({(f"Rattle.{crate}.specs.{module}", name)})))
                text += f", on which {above} public function{'s stand' if above != 1 else ' stands'}"
            elif kind == "moved":
                text += f" is in {there[0]}/{there[1]}"
            told(kind, text, before, after, asked.text)
        kinds = ", ".join(f"{number} {kind}" for kind, number in sorted(count.items())) or "nothing differs"
        print(f"{len(old.functions)} public functions and {len(old.items)} definitions, then {len(new.functions)} and {len(new.items)}: {kinds}")
    return 1 if any(kind in count for kind in ("gone", "changed", "asked")) else 0


if __name__ == "__main__":
    sys.exit(main())
