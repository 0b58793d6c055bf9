"""Reads the mutants, and the record of the runs that tried them, docs/mutants/*.csv.

`refused.csv` has a row for each mutant that a run refused: its crate and name, a hash of its text, and the commit over
which it was refused. A row counts only while the mutant has that text. `planted.csv` and `survivors.csv` are of the
bodies that `rt plant` wrote, `removed.csv` of mutants that were removed.
"""
import csv
import glob
import hashlib
import os
import re

from contracts import TOP, text_of

DATA = f"{TOP}/docs/mutants"
FOLDERS = ("mutants", "must-fail")


class Mutant:
    """A mutant's file."""

    def __init__(self, crate, path):
        self.crate, self.path, text = crate, path, text_of(path)
        self.name = os.path.basename(path).removesuffix(".edit")
        self.hash = hashlib.sha1(text.encode()).hexdigest()[:8]
        found = re.search(r"^file: (.*)\nold: (.*)$", text, re.M)
        self.file, self.old = found.groups() if found else ("", "")

    def function(self, crate):
        """The function that it changes, none if its text is not found; `crate` is the crate as it was read."""
        path = f"{crate.folder}/{self.file}"
        at = text_of(path).find(self.old) if self.file and os.path.isfile(path) else -1
        line = text_of(path)[:at].count("\n") + 1 if at >= 0 else 0
        before = [each for each in crate.functions if each.file == self.file and each.line <= line]
        return before[-1].label() if before else ""


def mutants_of(crate):
    """A crate's mutants."""
    return [Mutant(crate, path) for folder in FOLDERS for path in sorted(glob.glob(f"{TOP}/crates/{crate}/{folder}/*.edit"))]


def rows(name):
    with open(f"{DATA}/{name}.csv", encoding="utf-8", newline="") as file:
        return list(csv.DictReader(file))


def refusals():
    """The commit of the last known run that refused a mutant, by its crate, its name and the hash of its text."""
    return {(row["crate"], row["mutant"], row["hash"]): row["refused"] for row in rows("refused")}


def note(commit, names, known):
    """Records that a run over a commit refused all mutants of these crates; rows of mutants that changed are dropped."""
    noted = refusals()
    with open(f"{DATA}/refused.csv", "w", encoding="utf-8", newline="") as file:
        written = csv.writer(file, lineterminator="\n")
        written.writerow(["crate", "mutant", "hash", "refused"])
        for each in (each for name in known for each in mutants_of(name)):
            key = each.crate, each.name, each.hash
            if each.crate in names or key in noted:
                written.writerow([*key, commit if each.crate in names else noted[key]])
