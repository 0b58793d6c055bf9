#!/usr/bin/env python3
"""Makes a reference of all crates from their sources.

usage: tools/make/reference.py DIR
       tools/make/reference.py --of CRATE.MODULE.NAME

DIR, which is made if it is missing, gets `index.md` and these pages:

  crates/NAME.md   a crate: what it stands on, its public types, its calls and laws with their contracts, its definitions
  clauses.md       each public call and law with the names of its clauses
  refusals.md      each variant of each type of fault, with its comment and the clauses and definitions that name it
  definitions.md   each definition of specs/ with its comment
  mutants.md       each mutant with the commit over which it was last refused, and the bodies that `rt plant` wrote
  reading.md       what has to be read to believe the headline and the laws, with the number of lines
  crates.svg       the crates by layer

Files in DIR that aren't of the reference stay. With `--of` the script lists what one definition stands on, for example
`chukwa_run.Headline.Headline`: each definition with its file, line and number of lines. It needs neither the kit nor a
built program, and takes some seconds. Crates of tests and tools are left out.
"""
import os
import re
import sys

sys.path.insert(0, os.path.join(os.path.dirname(os.path.abspath(__file__)), "../lib"))

import mutant_runs
import reading
from contracts import BREAKS, TOP, Crate, Definitions, crates, doc_above, first_sentence, one_line, text_of
from picture import picture

VARIANT = re.compile(r"^    (\w+)\s*(?:[({,]|$)")


def table(head, rows):
    """The lines of a table, none without rows."""
    rows = [[one_line(str(cell)).replace("|", "\\|") for cell in row] for row in rows]
    if rows:
        yield "| " + " | ".join(head) + " |"
        yield "|" + "---|" * len(head)
        yield from ("| " + " | ".join(row) + " |" for row in rows)
        yield ""


def headed(rows):
    """A table of which the first row is the head."""
    head, *others = rows
    return table(head, others)


def names_of(function, kind):
    """The names of its clauses of one kind."""
    found = dict.fromkeys(name for each, name, _ in function.clauses if each == kind)
    return ", ".join(f"`{name}`" if name else "unnamed" for name in found)


class Source:
    """A crate with what the pages say of it."""

    def __init__(self, name, group, below, definitions):
        self.name, self.group, self.below, self.crate = name, group, below, Crate(name)
        public = self.crate.public_functions()
        self.laws = [each for each in public if each.is_empty and each.clauses]
        self.calls = [each for each in public if each not in self.laws]
        self.definitions = [item for item in definitions.items.values() if item.crate == name]
        self.mutants = mutant_runs.mutants_of(name)

    def head(self):
        """What the `//!` lines of its root say."""
        lines = re.findall(r"^//! ?(.*)$", text_of(self.crate.root), re.M) if self.crate.root else []
        return "\n".join(lines).strip()

    def faults(self):
        """The enums that say why a call is refused: those named so, and those that a `Result` has for its error."""
        errors = {found.group(1) for each in self.crate.functions
                  if (found := re.search(r"-> Result<.*?(\w+)(?:<[^<>]*>)?>(?: where .*)?$", each.head))}
        return [each for each in self.crate.types if each.kind == "enum" and each.visible == "pub"
                and (each.name.endswith("Fault") or each.name in errors)]

    def variants(self, enum):
        """The variants of an enum, each with its comment."""
        lines = text_of(f"{self.crate.folder}/{enum.file}").split("\n")
        for at in range(enum.lines[0], enum.lines[1] - 1):
            found = VARIANT.match(lines[at])
            if found:
                yield found.group(1), doc_above(lines, at)


def citing(sources, definitions):
    """The clauses and definitions that name a variant, by its crate, its type and its own name."""
    found = {}

    def cite(names, uses, said):
        for module, variant in {uses[name] for name in names if name in uses}:
            parts = module.split(".")
            if parts[-1] == "TheVariants":
                found.setdefault((parts[1], parts[-2], variant), {})[said] = None

    for source in sources:
        for function in source.calls:
            for _, name, text in function.clauses:
                cite(BREAKS.split(text), source.crate.uses[function.file], f"`{name or 'unnamed'}` of `{function.label()}`")
    for (module, name), item in definitions.items.items():
        cite(item.names, definitions.uses[module], f"`{name}`")
    return found


def comment_of(item):
    """The comment above a definition."""
    lines = item.text.split("\n")
    return " ".join(line.lstrip("- ") for line in lines[:next((n for n, line in enumerate(lines) if not line.startswith("--")), 0)])


def contract(function):
    """A call with its documentation and its clauses."""
    trait = getattr(function, "trait", "")
    yield f"### `{function.label()}`" + (f" of `{trait}`" if trait else "") + "\n"
    yield f"{function.file}:{function.line}\n"
    if function.doc:
        yield function.doc + "\n"
    yield "```"
    yield function.head
    for kind, name, text in function.clauses:
        yield f"    {kind}{' ' + name if name else ''} {{ {text} }}"
    yield "```\n"


def crate_page(source):
    yield f"# {source.name}\n"
    yield source.head() + "\n"
    yield f"Group: {source.group}. It stands on " + (", ".join(f"`{each}`" for each in source.below) or "no other crate") + "."
    lines = sum(len(text_of(f"{source.crate.folder}/{file}").splitlines()) for file in source.crate.uses)
    yield (f"Functions: {len(source.crate.functions)}; lines of code: {lines}; laws: {len(source.laws)}; "
           f"definitions: {len(source.definitions)}; mutants: {len(source.mutants)}.\n")
    types = list(table(["type", "kind", "says"], [
        [f"`{each.name}`", each.kind, first_sentence(each.doc).rstrip(":")] for each in source.crate.public_types()]))
    if types:
        yield "## Types\n"
        yield from types
    for title, functions in (("Calls", source.calls), ("Laws", source.laws)):
        if functions:
            yield f"## {title}\n"
            for each in functions:
                yield from contract(each)
    if source.definitions:
        yield "## Definitions\n"
        yield from definitions_table(source)


def definitions_table(source):
    return table(["definition", "kind", "at", "says"], [
        [f"`{each.name}`", each.kind.replace("pub", "").strip(), f"{each.file}:{each.first}", comment_of(each)]
        for each in source.definitions])


def clauses_page(sources):
    yield "# Clauses\n"
    yield "The names of the clauses of each public call and law; `crates/NAME.md` has their text.\n"
    for source in sources:
        rows = [[f"`{each.label()}`" + (f" of `{each.trait}`" if getattr(each, "trait", "") else ""), kind,
                 names_of(each, "requires"), names_of(each, "ensures"), first_sentence(each.doc)]
                for kind, functions in (("call", source.calls), ("law", source.laws)) for each in functions]
        if rows:
            yield f"## [{source.name}](crates/{source.name}.md)\n"
            yield from table(["name", "is a", "requires", "ensures", "says"], rows)


def refusals_page(sources, definitions):
    cited = citing(sources, definitions)
    yield "# Refusals\n"
    yield "The variants of each type of fault, with the clauses and definitions that name each, and the calls of its crate that answer the type.\n"
    for source in sources:
        faults = source.faults()
        if faults:
            yield f"## [{source.name}](crates/{source.name}.md)\n"
        for enum in faults:
            yield f"### `{enum.name}`\n"
            yield one_line(enum.doc) + "\n"
            calls = [f"`{each.label()}`" for each in source.calls if re.search(rf"->.*\b{enum.name}\b", each.head)]
            if calls:
                yield f"Answered by {', '.join(calls)}.\n"
            yield from table(["variant", "says", "named by"], [
                [f"`{name}`", doc, ", ".join(cited.get((source.name, enum.name, name), {}))] for name, doc in source.variants(enum)])


def definitions_page(sources):
    yield "# Definitions\n"
    yield "What the clauses speak of; the text of each stands in the crate's folder at the place named.\n"
    for source in sources:
        if source.definitions:
            yield f"## [{source.name}](crates/{source.name}.md)\n"
            yield from definitions_table(source)


def mutants_page(sources):
    refused, found = mutant_runs.refusals(), [(source, each) for source in sources for each in source.mutants]
    known = sum((each.crate, each.name, each.hash) in refused for _, each in found)
    yield "# Mutants\n"
    yield f"{len(found)} mutants of {len({each.crate for _, each in found})} crates. For {len(found) - known} no run over a known commit is recorded.\n"
    yield from table(["crate", "mutant", "changes", "last refused at"], [
        [f"`{each.crate}`", each.name.replace("_", " "), f"`{each.function(source.crate) or each.file}`",
         refused.get((each.crate, each.name, each.hash), "not known")] for source, each in found])
    yield "## Bodies that `rt plant` wrote\n"
    yield from table(["crate", "planted in", "refused", "proved", "not source", "not run", "untested", "at", "besides"], [
        [f"`{row['crate']}`", *[row[key] for key in ("planted_in", "refused", "proved", "not_source", "not_run", "untested")],
         row["commit"] or "not known", row["besides"]] for row in mutant_runs.rows("planted")])
    yield "## Survivors\n"
    yield "Bodies that were proved, and why the contract lets them through.\n"
    yield from table(["crate", "body", "why it stays"], [
        [", ".join(f"`{name}`" for name in row["crate"].split(" ")), row["body"], row["why"]] for row in mutant_runs.rows("survivors")])
    yield "## Removed mutants\n"
    yield "Each was refused over the commit named, and was removed later because a crate's first mutant costs a proof of the crate.\n"
    by = {}
    for row in mutant_runs.rows("removed"):
        by.setdefault((row["crate"], row["commit"], row["besides"]), []).append(row["mutant"])
    yield from table(["crate", "refused", "at", "besides"], [
        [f"`{crate}`", ", ".join(names), commit, besides] for (crate, commit, besides), names in by.items()])


def reading_page(definitions):
    yield "# What has to be read\n"
    yield "## The headline\n"
    yield "The clause `headline` of `run_with_hasher` (`crates/chukwa_run/src/runs.rt`), part by part:\n"
    yield from headed(reading.parts(definitions))
    yield "What holds at the end, file by file:\n"
    yield from headed(reading.files(definitions, reading.HEADLINE[0][0]))
    yield "## The laws of `chk_world`\n"
    yield from headed(reading.laws(definitions))
    yield "The rules, file by file:\n"
    yield from headed(reading.files(definitions, reading.RULES))
    yield "## All laws\n"
    yield "Public functions with an empty body, whose contracts are statements over definitions:\n"
    yield from headed(reading.bodiless())


def index_page(sources):
    yield "# Reference\n"
    yield "Made from the sources by `tools/make/reference.py`: [clauses](clauses.md), [refusals](refusals.md), [definitions](definitions.md), [mutants](mutants.md), [what has to be read](reading.md).\n"
    yield "![the crates by layer](crates.svg)\n"
    group = None
    for source in sources:
        if source.group != group:
            group = source.group
            yield f"\n## {group[:1].upper()}{group[1:]}\n"
        head = first_sentence(source.head()).rstrip(".:")
        yield f"- [{source.name}](crates/{source.name}.md): {head}"


def main():
    words = sys.argv[1:]
    of = len(words) == 2 and words[0] == "--of" and words[1].count(".") == 2
    if not of and (len(words) != 1 or words[0].startswith("-")):
        print(__doc__.strip())
        return 0 if words in (["--help"], ["-h"]) else 2
    definitions = Definitions()
    if of:
        if not reading.closed(definitions, words[1]):
            sys.exit(f"reference.py: there is no definition {words[1]}")
        print("\n".join(reading.listed(definitions, words[1])))
        return 0
    sources = [Source(name, group, below, definitions) for name, (group, below) in crates().items()
               if not name.startswith(("chk_test_", "chk_tool_"))]
    pages = {"index.md": index_page(sources), "clauses.md": clauses_page(sources), "refusals.md": refusals_page(sources, definitions),
             "definitions.md": definitions_page(sources), "mutants.md": mutants_page(sources),
             "reading.md": reading_page(definitions), "crates.svg": [picture().rstrip("\n")],
             **{f"crates/{source.name}.md": crate_page(source) for source in sources}}
    os.makedirs(f"{words[0]}/crates", exist_ok=True)
    for name, lines in pages.items():
        text = "\n".join(lines).rstrip("\n") + "\n"
        with open(f"{words[0]}/{name}", "w", encoding="utf-8") as file:
            file.write(text)
    return 0


if __name__ == "__main__":
    sys.exit(main())
