"""Reads crates: their public items, the clauses of their functions, and the definitions that clauses speak of.

It follows the layout that the formatter gives, and knows no more of the language than that: an item begins at the
start of a line, a clause is `ensures NAME { .. }` after a function's head.
"""
import os
import re

TOP = os.path.dirname(os.path.dirname(os.path.dirname(os.path.abspath(__file__))))
FN = re.compile(r"^( *)((?:pub(?:\([^)]*\))? )?)((?:const |unsafe )*)fn (\w+)")
TYPE = re.compile(r"^( *)((?:pub(?:\([^)]*\))? )?)(?:const |static |type |struct |enum |trait )(\w+)")
KIND = re.compile(r"\b(const|static|type|struct|enum|trait)\b")
CLAUSE = re.compile(r"(ensures|requires)\*?(?: (\w+))? \{")
ITEM = re.compile(r"^((?:(?:pub|abbrev|unfoldable|record|data) )+)(\S+)")
USE = re.compile(r"^ *(?:ghost |pub )?use ([\w.]+?)(?:\.\{([^}]*)\})?;?$", re.M)
# What divides the names of a text; names may have signs in them, as `◌≡◌`.
BREAKS = re.compile(r"[\s(){}\[\],;λ⟨⟩]+")


def text_of(path):
    with open(path, encoding="utf-8") as file:
        return file.read()


def crates(top=TOP):
    """The crates of crates.txt in its order: each name with its group and what its line names behind the colon."""
    found, group = {}, ""
    for line in text_of(f"{top}/crates.txt").splitlines():
        if line.startswith("#"):
            group = line.lstrip("# ").strip()
        elif ":" in line:
            head, _, below = line.partition(":")
            found[head.split()[0]] = (group, below.split())
    return found


def sources(folder, end):
    """The files below a folder whose names end so, in order."""
    found = []
    for at, folders, names in os.walk(folder):
        folders.sort()
        found += [f"{at}/{name}" for name in sorted(names) if name.endswith(end)]
    return found


def balanced(text, at):
    """The place behind the brace that closes the one at that place; braces in strings don't count."""
    depth = 0
    while at < len(text):
        sign = text[at]
        if sign == '"':
            at += 1
            while text[at] != '"':
                at += 2 if text[at] == "\\" else 1
        elif sign == "{":
            depth += 1
        elif sign == "}":
            depth -= 1
            if depth == 0:
                return at + 1
        at += 1
    return at


def one_line(text):
    return " ".join(text.split())


class Function:
    """A function: `owner` is its type or trait, `head` its signature, `clauses` are kind, name and text of each."""

    def __init__(self, crate, file, line, owner, found, text, at, doc):
        self.crate, self.file, self.line, self.owner, self.doc = crate, file, line, owner, doc
        self.name, self.visible = found.group(4), found.group(2).strip()
        self.clauses, self.is_empty, self.has_body, head = [], False, False, []
        depth, start = 0, at
        while at < len(text):
            sign = text[at]
            if text.startswith("//", at):
                head.append(text[start:at])
                at = start = text.index("\n", at)
                continue
            clause = CLAUSE.match(text, at) if depth == 0 and text[at - 1].isspace() else None
            if clause:
                head.append(text[start:at])
                end = balanced(text, clause.end() - 1)
                self.clauses.append((clause.group(1), clause.group(2) or "", one_line(text[clause.end():end - 1])))
                at = start = end
                continue
            if sign in "([":
                depth += 1
            elif sign in ")]":
                depth -= 1
            elif depth == 0 and sign in "{;":
                head.append(text[start:at])
                self.has_body = sign == "{"
                self.is_empty = re.match(r"\{\s*\}", text[at:at + 200]) is not None
                break
            at += 1
        self.head = one_line(re.sub(r"^ *(pub(\([^)]*\))? )?", "", " ".join(head)))
        self.end = at

    def key(self):
        return self.owner, self.name

    def label(self):
        return f"{self.owner}::{self.name}" if self.owner else self.name


class Type:
    """A type, a trait or a constant."""

    def __init__(self, file, line, found, kind, doc, lines):
        self.file, self.line, self.name, self.visible = file, line, found.group(3), found.group(2).strip()
        self.kind, self.doc, self.lines = kind, doc, lines


def doc_above(lines, at):
    """The text of the `///` lines above a line, attributes between them left out."""
    found = []
    while at > 0 and re.match(r" *(///|#\[)", lines[at - 1]):
        at -= 1
        if lines[at].lstrip().startswith("///"):
            found.insert(0, lines[at].lstrip()[3:].strip())
        elif found:
            break
    return "\n".join(found)


# Type parameters with their bounds, which may have type arguments of their own.
PARAMETERS = r"(?:<(?:->|[^<>]|<[^<>]*>)*>)"


def owner_of(line):
    """What an `impl` or a `trait` line that begins a block names: the type or trait, and the trait that is implemented."""
    found = re.match(r"(?:pub(?:\([^)]*\))? )?trait (\w+)", line)
    if found:
        return found.group(1), ""
    found = re.match(rf"impl{PARAMETERS}? (?:(.+?) for )?(?:&(?:mut )?)?(?:'\w+ )?([\w:]+)", line)
    if found:
        return found.group(2), re.sub(r"<.*", "", found.group(1) or "")
    return None


class Crate:
    """What the sources of a crate have."""

    def __init__(self, name, top=TOP):
        self.name, self.folder = name, f"{top}/crates/{name}"
        self.functions, self.types, self.models, self.uses = [], [], [], {}
        self.root = next((f"{self.folder}/src/{root}" for root in ("lib.rt", "main.rt")
                          if os.path.isfile(f"{self.folder}/src/{root}")), None)
        for path in sources(f"{self.folder}/src", ".rt"):
            self.read(path)
        self.exported = self.exports()

    def read(self, path):
        text = text_of(path)
        lines, file, place, owner, trait = text.split("\n"), os.path.relpath(path, self.folder), 0, "", ""
        self.uses[file] = imports(text, ";")
        until = 0
        for at, line in enumerate(lines):
            start, place = place, place + len(line) + 1
            if start < until:
                continue
            if line == "}":
                owner = trait = ""
            if line and not line[0].isspace():
                named = owner_of(line)
                if named and "{" in line or named and line.startswith("impl"):
                    owner, trait = named
                    if trait == "Model":
                        end = lines.index("}", at)
                        self.models.append(Item(self.name, file, f"what {owner} is seen as", "model", at + 1, lines[at:end + 1]))
            found = FN.match(line)
            if found:
                made = Function(self.name, file, at + 1, owner if found.group(1) else "", found, text, start, doc_above(lines, at))
                made.trait = trait if found.group(1) else ""
                made.is_test = any("#[test]" in each for each in lines[max(0, at - 3):at])
                self.functions.append(made)
                until = made.end
                continue
            found = TYPE.match(line)
            if found and not found.group(1):
                end = at
                while end < len(lines) and not (lines[end] == "}" or lines[end].rstrip().endswith(";") or lines[end].endswith("{}")):
                    end += 1
                kind = KIND.search(line).group(1)
                self.types.append(Type(file, at + 1, found, kind, doc_above(lines, at), (at + 1, end + 1)))

    def exports(self):
        """The names that the crate's root gives to others."""
        if self.root is None or self.root.endswith("main.rt"):
            return set()
        text, found = text_of(self.root), set()
        for use in re.findall(r"^pub use ([^;]+);", text, re.M | re.S):
            path, _, names = one_line(use).partition("{")
            if names:
                found.update(each.split(" as ")[-1].strip() for each in names.rstrip("} ").split(",") if each.strip())
            else:
                found.add(path.split(" as ")[-1].split("::")[-1].strip())
        root = os.path.relpath(self.root, self.folder)
        found.update(each.name for each in [*self.functions, *self.types] if each.file == root and each.visible == "pub"
                     and not getattr(each, "owner", ""))
        for module in re.findall(r"^pub mod (\w+);", text, re.M):
            found.update(each.name for each in [*self.functions, *self.types]
                         if each.file.startswith((f"src/{module}.rt", f"src/{module}/")) and each.visible == "pub")
        return found

    def public_types(self):
        return [each for each in self.types if each.visible == "pub" and each.name in self.exported]

    def is_public(self, function):
        if function.is_test:
            return False
        if not function.owner:
            return function.visible == "pub" and function.name in self.exported
        traits = {each.name for each in self.types if each.kind == "trait"}
        if function.owner in traits or function.trait:
            return function.owner in self.exported and (function.owner in traits or bool(function.clauses))
        return function.visible == "pub" and function.owner in self.exported

    def public_functions(self):
        return [each for each in self.functions if self.is_public(each)]


def imports(text, end=""):
    """The names that a file takes from others: each with the module and the name there."""
    found = {}
    for path, names in USE.findall(text):
        if not names:
            found[path.split(".")[-1]] = (path.rpartition(".")[0], path.split(".")[-1])
            continue
        for each in names.split(","):
            there, _, here = each.strip().partition(" as ")
            found[here or there] = (path, there)
    return found


class Item:
    """A definition: its lines are those of its text, with the comment above it."""

    def __init__(self, crate, file, name, kind, first, lines):
        self.crate, self.file, self.name, self.kind, self.first = crate, file, name, kind, first
        self.text = "\n".join(lines)
        self.lines = len([line for line in lines if line.strip()])
        code = "\n".join(line.partition("--")[0] for line in lines)
        self.names = {each for piece in BREAKS.split(code) for each in {piece, piece.split(".")[0], piece.rstrip(".")} if each}


class Definitions:
    """The definitions of all crates: those of specs/, and the types of src/ that these cite."""

    def __init__(self, top=TOP):
        self.top, self.items, self.uses, self.types, self.variants = top, {}, {}, {}, {}
        for crate in crates(top):
            for path in sources(f"{top}/crates/{crate}/specs", ".antt"):
                self.read(crate, path)

    def read(self, crate, path):
        text = text_of(path)
        module = os.path.relpath(path, f"{self.top}/crates/{crate}/specs").removesuffix(".antt").replace("/", ".")
        place = f"Rattle.{crate}.specs.{module}"
        self.uses[place] = imports(text)
        lines = text.split("\n")
        starts = [n for n, line in enumerate(lines) if (found := ITEM.match(line)) and found.group(2) not in ("use", "mod")]
        heads = []
        for start in starts:
            head = start
            while head > 0 and lines[head - 1].startswith("--"):
                head -= 1
            heads.append(head)
        for number, start in enumerate(starts):
            end = heads[number + 1] if number + 1 < len(starts) else len(lines)
            found = ITEM.match(lines[start])
            body = lines[heads[number]:end]
            while body and not body[-1].strip():
                body.pop()
            item = Item(crate, f"specs/{module.replace('.', '/')}.antt", found.group(2), found.group(1).strip(), start + 1, body)
            self.items[place, found.group(2)] = item
            if "data" in item.kind:
                for line in body:
                    variants = re.match(r"  ([^\s:{(]+(?: [^\s:{(]+)*) :", line)
                    for variant in variants.group(1).split() if variants else []:
                        self.variants[place, variant] = (place, found.group(2))

    def type_at(self, place, name):
        """A type of a crate's sources that definitions cite as declared, or that has a variant which they cite."""
        crate, _, path = place.removeprefix("Rattle.").partition(".specs.declared.")
        parts = path.split(".")
        wanted = parts[-2] if parts[-1] == "TheVariants" else parts[-1] if parts[-1][:1].isupper() else name
        modules = "/".join(part for part in parts if part[:1].islower()) or "lib"
        key = crate, modules, wanted
        if key not in self.types:
            self.types[key] = None
            for file in (f"src/{modules}.rt", f"src/{modules}/mod.rt"):
                if os.path.isfile(f"{self.top}/crates/{crate}/{file}"):
                    self.types[key] = self.declared(crate, file, wanted)
        return key, self.types[key]

    def declared(self, crate, file, wanted):
        """The lines of a type, with the comments in it."""
        lines = text_of(f"{self.top}/crates/{crate}/{file}").split("\n")
        for first, line in enumerate(lines):
            found = TYPE.match(line)
            if found and found.group(3) == wanted:
                last = first
                while lines[last] != "}" and not lines[last].rstrip().endswith((";", "{}")):
                    last += 1
                return Item(crate, file, wanted, "type", first + 1, lines[first:last + 1])
        return None

    def closure(self, roots):
        """All definitions that these stand on, themselves among them, and the names of the kit that they use.

        A root is a module and a name. A local variable of the same name as a definition counts as that definition, so
        it may be some more than is used, and never less.
        """
        found, kit, more = {}, set(), list(roots)
        while more:
            place, name = more.pop()
            if (place, name) in found:
                continue
            if not place.startswith("Rattle.") or place.split(".")[1] not in self.crates_known():
                kit.add((place, name))
                continue
            place, name = self.variants.get((place, name), (place, name))
            if (place, name) in found:
                continue
            item = self.items.get((place, name))
            if item is None and ".specs.declared." in place:
                key, item = self.type_at(place, name)
                if item is not None:
                    found[key[0], "/".join(key[1:])] = item
                    continue
            if item is None and (place.rpartition(".")[0], place.rpartition(".")[2]) in self.items:
                more.append((place.rpartition(".")[0], place.rpartition(".")[2]))
                continue
            if item is None:
                kit.add((place, name))
                continue
            found[place, name] = item
            uses = self.uses[place]
            for each in item.names:
                if each in uses:
                    more.append(uses[each])
                elif each != name and ((place, each) in self.items or (place, each) in self.variants):
                    more.append((place, each))
        return found, kit

    def crates_known(self):
        if not hasattr(self, "known"):
            self.known = set(crates(self.top))
        return self.known


def first_sentence(doc):
    """The first sentence of a doc comment, on one line."""
    text = one_line(doc.split("\n\n")[0].replace("\n", " ")) if doc else ""
    paragraph = []
    for line in doc.split("\n"):
        if not line.strip():
            break
        paragraph.append(line)
    text = one_line(" ".join(paragraph))
    found = re.match(r"(.*?[.:])(?: [A-Z`]|$)", text)
    return found.group(1) if found else text
