"""Counts what has to be read to believe the headline and the laws.

What counts is the text of a definition with the comment above it, without blank lines. The definitions of the kit's
libraries don't count.
"""
from contracts import TOP, Crate, crates, text_of

# The parts of the clause `headline` of `run`: what it says, and what it supposes.
HEADLINE = [
    ("chukwa_run.Headline.Headline", "what holds at the end"),
    ("chukwa_run.Processes.RunSide", "what is supposed of the steps of others: the rules of each role"),
    ("chukwa_run.Runs.Begins", "the history before the run is legal"),
    ("chukwa_run.Demuxing.SuitsTypes", "the types of a demux run are those that the rules split by stamps"),
    ("chk_cmd_line.Asked.asked", "which command line asks for which command"),
    ("chk_site.Runs.Leads", "what the steps lead to if those of others meet the supposition"),
    ("chk_site.Site.Adds", "what the site reports of the history"),
]
RULES = "chk_world.Rules.Legal"


def place(name):
    """The module and the name of a definition that is written CRATE.MODULE.NAME."""
    crate, module, item = name.split(".")
    return f"Rattle.{crate}.specs.{module}", item


def size(found):
    return sum(item.lines for item in found.values())


def by_file(found):
    by = {}
    for item in found.values():
        by.setdefault((item.crate, item.file), []).append(item)
    return dict(sorted(by.items()))


def closed(definitions, name):
    """The definitions that one stands on, itself among them; none if it is missing."""
    return definitions.closure([place(name)])[0]


def listed(definitions, name):
    """A line for each definition that one stands on, and one with the sums."""
    found = closed(definitions, name)
    for (crate, file), items in by_file(found).items():
        for item in sorted(items, key=lambda each: each.first):
            yield f"crates/{crate}/{file}:{item.first}: {item.name}, {item.lines} lines"
    yield f"{len(found)} definitions, {size(found)} lines"


def parts(definitions):
    """The parts of the headline, each with what the parts above it lack."""
    yield "part", "says", "definitions", "lines", "lines beyond the rows above"
    seen = {}
    for name, says in HEADLINE:
        found = closed(definitions, name)
        new = {key: item for key, item in found.items() if key not in seen}
        seen.update(found)
        crate, module, item = name.split(".")
        yield f"`{item}` of `{crate}/specs/{module}.antt`", says, len(found), size(found), size(new)
    yield "all", "", len(seen), size(seen), ""


def files(definitions, name):
    """The files of what one definition stands on, with how many of their lines have to be read."""
    yield "file", "definitions", "their lines", "lines of the file"
    found = closed(definitions, name)
    for (crate, file), items in by_file(found).items():
        whole = len(text_of(f"{TOP}/crates/{crate}/{file}").splitlines())
        yield f"`{crate}/{file}`", len(items), sum(item.lines for item in items), whole
    yield "all", len(found), size(found), ""


def laws(definitions):
    """The laws of the theory, each with what has to be read beyond the rules."""
    rules = closed(definitions, RULES)
    yield "law", "statement", "lines beyond the rules", "in the files"
    yield "the rules (`Legal`)", "`Rules.antt`", f"{size(rules)} in all", f"{len(by_file(rules))} files"
    crate = Crate("chk_world")
    for function in crate.public_functions():
        uses = crate.uses[function.file]
        stated = [(name, uses.get(text.split(" ")[0]) if "→" not in text else None) for _, name, text in function.clauses]
        found, _ = definitions.closure([at for _, at in stated if at])
        new = {key: item for key, item in found.items() if key not in rules}
        yield (f"`{function.name}`",
               ", ".join(f"`{at[1]}` of `{at[0].rpartition('.')[2]}.antt`" if at else f"`{name}`" for name, at in stated),
               size(new), ", ".join(f"`{file.split('/')[-1].removesuffix('.antt')}`" for _, file in by_file(new)))


def bodiless():
    """The public functions with an empty body, whose contracts are laws."""
    yield "crate", "laws"
    for name in crates():
        empty = [each.label() for each in Crate(name).public_functions() if each.is_empty and each.clauses]
        if empty:
            yield f"`{name}`", ", ".join(f"`{label}`" for label in empty)


def headline_size(definitions):
    found = closed(definitions, HEADLINE[0][0])
    return f"{size(found):,} lines of definitions in {len(by_file(found))} files"
