#!/usr/bin/env python3
"""Makes the manual pages from the manual.

usage: tools/make/man.py FOLDER        writes FOLDER/man1, man5 and man7
       tools/make/man.py --usages      prints the usage lines that the manual has, one a line

chukwa(1), chukwactl(1) and a page for each command come from OPERATING, the lines that each prints from FORMATS, the
causes of failed calls from RUNBOOK; chukwa-formats(5) comes from FORMATS, chukwa(7) from README's guarantee and
OPERATING's rules, locks and limits.
"""
import os
import re
import sys

TOP = os.path.join(os.path.dirname(os.path.abspath(__file__)), "../..")
COMMANDS = {
    "round": "collect and archive logs in one process",
    "agent": "follow logs and post them to collectors",
    "collector": "receive posts of chunks and append them to sinks",
    "drain": "send everything in an agent's logs, and end",
    "archive": "move closed sinks into the archive",
    "demux": "split the archive into records",
    "salvage": "print what is readable in a SequenceFile",
    "load": "generate logs for trials and archive them",
    "udp": "receive datagrams into synced buffers",
    "subscribe": "print the chunks that collectors send to subscribers",
    "join": "merge two archives of the same logs",
}


def text_of(name):
    with open(os.path.join(TOP, name), encoding="utf-8") as file:
        return file.read()


def sections(text, mark):
    """The titles at this mark, each with the lines below it up to the next one of this rank or above."""
    found, title, fenced = {}, None, False
    for line in text.split("\n"):
        head = re.match(r"(#+) (.*)", line)
        if head and len(head[1]) <= len(mark):
            title = head[2] if head[1] == mark else None
            if title is not None:
                found[title] = []
        elif title is not None:
            found[title].append(line)
    return {title: "\n".join(lines).strip("\n") for title, lines in found.items()}


def plain(text):
    """Text as roff has it: nothing of it is a request or an escape."""
    text = text.replace("\\", "\\e").replace("-", "\\-")
    return "\\&" + text if text[:1] in ".'" else text


def inline(text):
    """A line of Markdown with its code, bold words and links."""
    out = []
    for piece in re.split(r"(`[^`]*`|\*\*.*?\*\*|\[[^]]*\]\([^)]*\))", text):
        if piece.startswith("`") and piece.endswith("`") and len(piece) > 1:
            out.append("\\fB" + plain(piece[1:-1]) + "\\fR")
        elif piece.startswith("**") and len(piece) > 3:
            out.append("\\fB" + plain(piece[2:-2].replace("`", "")) + "\\fR")
        elif link := re.match(r"\[([^]]*)\]", piece):
            out.append(plain(link[1].replace("`", "")))
        else:
            out.append(plain(piece) if out == [] else plain(piece).removeprefix("\\&"))
    line = "".join(out)
    return "\\&" + line if line[:1] in ".'" else line


def cells(row):
    marked = row.strip().strip("|").replace("\\|", "\0")
    return [cell.strip().replace("\0", "|") for cell in marked.split("|")]


def table(rows):
    """A table as a list: of each row the first cell, and the others below it under their titles."""
    titles, out = cells(rows[0]), []
    for row in rows[2:]:
        first, *rest = cells(row)
        out += [".TP", inline(first) or "\\&"]
        said = [(title, cell) for title, cell in zip(titles[1:], rest) if cell]
        if titles[-1] == "description":
            what = [cell for title, cell in said if title == "description"]
            given = [f"{title}: {cell}" for title, cell in said if title == "default"]
            out.append(inline("; ".join(what + given) or "\\&"))
            continue
        out.append("; ".join(f"{inline(title)}: {inline(cell)}" if title else inline(cell) for title, cell in said) or "\\&")
    return out


def body(text):
    """A text of Markdown as roff: paragraphs, code, lists, tables and headings below the section's."""
    out, lines, at = [], text.split("\n"), 0
    while at < len(lines):
        line = lines[at]
        if not line.strip():
            at += 1
        elif line.startswith("    "):
            out += [".PP", ".RS 4", ".nf"]
            while at < len(lines) and (lines[at].startswith("    ") or (not lines[at].strip() and lines[at + 1:at + 2] and lines[at + 1].startswith("    "))):
                out.append(plain(lines[at][4:]) or "\\&")
                at += 1
            out += [".fi", ".RE"]
        elif line.startswith("```"):
            out += [".PP", ".RS 4", ".nf"]
            at += 1
            while at < len(lines) and not lines[at].startswith("```"):
                out.append(plain(lines[at]) or "\\&")
                at += 1
            out += [".fi", ".RE"]
            at += 1
        elif line.startswith("|"):
            rows = []
            while at < len(lines) and lines[at].startswith("|"):
                rows.append(lines[at])
                at += 1
            out += table(rows)
        elif item := re.match(r"(- |\d+\. )(.*)", line):
            mark = "\\(bu" if item[1] == "- " else item[1].strip()
            out += [f".IP {mark} 4", inline(item[2])]
            at += 1
        elif head := re.match(r"#+ (.*)", line):
            out += [".SS " + inline(head[1]).replace('"', "")]
            at += 1
        else:
            out += [".PP", inline(line)]
            at += 1
    return out


def page(name, section, what, parts):
    """A page of these titled parts."""
    out = [f'.TH {name.upper()} {section} "" chukwa "Chukwa manual"', ".SH NAME", f"{plain(name)} \\- {plain(what)}"]
    for title, lines in parts:
        out += [f".SH {title.upper()}", *lines]
    return "\n".join(out) + "\n"


def command_parts(manual):
    """Of each command its usage line and its text."""
    found = {}
    for name, text in sections(manual, "###").items():
        if name in COMMANDS:
            usage, rest = text.split("\n\n", 1)
            found[name] = (usage.strip(), rest)
    return found


def printed_by(name, lines):
    """The rows of the table of printed lines that name the command as where they come from."""
    rows = [line for line in lines.split("\n") if line.startswith("| `")]
    return [row for row in rows if f"`{name}`" in re.split(r"[,:]", row.split(" | ", 1)[1])[0]]


def pages():
    manual, readme = text_of("docs/OPERATING.md"), text_of("README.md")
    formats = sections(text_of("docs/FORMATS.md"), "##")
    whole, commands = sections(manual, "##"), command_parts(manual)
    also = [("See also", ["\\fBchukwa\\fR(1), \\fBchukwa\\fR(7), \\fBchukwa\\-formats\\fR(5)"])]
    made = {}
    for name, (usage, rest) in commands.items():
        extra = []
        if lines := printed_by(name, formats["Printed lines"]):
            extra.append(("Printed lines", table(["| line | |", "|---|---|"] + lines)))
        made[f"man1/chukwa-{name}.1"] = page(
            f"chukwa-{name}", 1, COMMANDS[name],
            [("Synopsis", [f"\\fB{plain(usage)}\\fR"]), ("Description", body(rest)), *extra, *also])
    listed = [line for name, what in COMMANDS.items() for line in (".TP", f"\\fBchukwa\\-{name}\\fR(1)", plain(what))]
    words = whole["Commands"].split("\n### ")[0]
    made["man1/chukwa.1"] = page(
        "chukwa", 1, "collect logs, each byte once",
        [("Synopsis", ["\\fBchukwa\\fR \\fIcommand\\fR [\\fIword\\fR...]"]), ("Description", body(whole["Overview"])),
         ("Commands", listed + body(words)), ("Monitoring", body(whole["Monitoring"])),
         ("Exit statuses", body(whole["Exit statuses"])),
         ("A call failed", body(sections(text_of("docs/RUNBOOK.md"), "##")["A call failed"])), *also])
    made["man1/chukwactl.1"] = page(
        "chukwactl", 1, "show what a store has",
        [("Synopsis", ["\\fBchukwactl\\fR \\fIcommand\\fR [\\fIword\\fR...]"]), ("Description", body(whole["Inspecting a store"])),
         ("Printed lines", body(formats["What `chukwactl` prints"])), *also])
    made["man7/chukwa.7"] = page(
        "chukwa", 7, "what chukwa guarantees and requires",
        [("The guarantee", body(sections(readme, "##")["The guarantee"])), ("Rules", body(whole["Rules that protect the data"])),
         ("Crashes and locks", body(whole["Crashes and locks"])), ("Known limits", body(whole["Known limits"])), *also])
    made["man5/chukwa-formats.5"] = page(
        "chukwa-formats", 5, "each byte that chukwa writes or reads", [(title, body(text)) for title, text in formats.items()] + also)
    return made


def main():
    if sys.argv[1:] == ["--usages"]:
        for usage, _ in command_parts(text_of("docs/OPERATING.md")).values():
            print("usage: " + usage)
        return
    if sys.argv[1:] in (["--help"], ["-h"]):
        print(__doc__.strip())
        return
    if len(sys.argv) != 2 or sys.argv[1].startswith("-"):
        sys.exit(__doc__)
    for name, text in pages().items():
        path = os.path.join(sys.argv[1], name)
        os.makedirs(os.path.dirname(path), exist_ok=True)
        with open(path, "w", encoding="utf-8") as file:
            file.write(text)


if __name__ == "__main__":
    main()
