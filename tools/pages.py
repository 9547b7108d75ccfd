#!/usr/bin/env python3
"""Makes the manual pages docs/man/nehumiro.1 and nehumiro.5 of docs/REFERENCE.md, so that no table is written twice.

`tools/pages.py` writes them; `tools/pages.py --check` ends with status 1 where they aren't what it would write.
"""
import os, re, sys

DOCS = os.path.join(os.path.dirname(os.path.dirname(os.path.abspath(__file__))), "docs")
SHORT = "physical backup of a database that is being written"
EXAMPLES = """.EX
nehumiro \\-B 0 a.db sun.0            # all of it
nehumiro \\-B 1 a.db mon.1            # what changed since
nehumiro \\-R b.db sun.0 mon.1        # restores the chain into a new database
nehumiro \\-L a.db; cp a.db copy.0; nehumiro \\-N a.db
.EE
.PP
The manual, MANUAL.md, has these and all other tasks, and what to do when one is refused or stopped.
"""
PAGES = {"1": ("program", ["Words of the command line", "Exit statuses", "Environment", "The standard error", "Progress"]),
         "5": ("scripts and files", ["Terms", "Scripts", "Names", "Refusals", "Facts of a check", "Limits", "Files", "Locks",
                                     "What is read and synced"])}


def text(words):
    """Words of Markdown in roff: code and bold are bold, and links are their words."""
    words = re.sub(r"\[([^]]*)\]\([^)]*\)", r"\1", words)
    words = words.replace("\\", "\\e").replace("-", "\\-").replace("'", "\\(aq")
    words = re.sub(r"`([^`]*)`|\*\*(.*?)\*\*", lambda found: "\\fB" + (found[1] or found[2]) + "\\fR", words)
    return ("\\&" if words[:1] in ".'" else "") + words


def sections(lines):
    """The lines under each heading of the second level."""
    found, name = {}, None
    for line in lines:
        if line.startswith("## "):
            name = line[3:]
            found[name] = []
        elif name:
            found[name].append(line)
    return found


def row(line, heads):
    """A row of a table: its first cell is the term, and the others follow it; where there are three, with headings, but for 'What it does'."""
    cells = [cell.strip() for cell in line.strip("|").split(" | ")]
    named = len(cells) > 2
    told = [text(f"{head}: {cell}" if named and not head.startswith("What") else cell) for head, cell in zip(heads[1:], cells[1:])]
    return [".TP", text(cells[0]), "\n.br\n".join(told)]


def roff(lines):
    """The lines of a section in the macros of man(7)."""
    out, heads, depth, fresh = [], None, 0, True
    for at, line in enumerate(lines):
        inner = line.lstrip(" ")
        indent = len(line) - len(inner)
        if not inner:
            fresh, heads = True, None
        elif inner.startswith("### "):
            out.append(".SS " + text(inner[4:]))
        elif inner.startswith("|"):
            if heads is None:
                heads = [cell.strip() for cell in inner.strip("|").split(" | ")]
            elif not inner.startswith("|---"):
                out += row(inner, heads)
        elif inner.startswith("- "):
            while depth > indent:
                out.append(".RE")
                depth -= 2
            while depth < indent:
                out.append(".RS")
                depth += 2
            out += [".IP \\(bu 2", text(inner[2:])]
        elif indent >= 4 + depth and (fresh or (out and out[-1] == ".EE")):
            if out and out[-1] == ".EE":
                out.pop()
            else:
                out += [".IP", ".EX"] if indent > 4 else [".PP", ".EX"]
            out += [text(inner), ".EE"]
            continue
        else:
            if fresh and indent == 0:
                out += [".RE"] * (depth // 2) + [".PP"]
                depth = 0
            out.append(text(inner))
        fresh = not inner
    return out + [".RE"] * (depth // 2)


def page(number, found):
    kind, names = PAGES[number]
    title = "nehumiro \\- " + (SHORT if number == "1" else "scripts, replies, refusals and files of nehumiro(1)")
    out = ['.\\" Made of docs/REFERENCE.md by tools/pages.py', f'.TH NEHUMIRO {number} "" "Nehumiro" "{kind}"', ".SH NAME", title]
    if number == "1":
        words = [line for line in found["Words of the command line"] if line.startswith("| `")]
        out += [".SH SYNOPSIS", ".nf"] + [text(line.strip("|").split(" | ")[0].strip()) for line in words] + [".fi"]
    for name in names:
        out += [".SH " + name.upper()] + roff(found[name])
    out += [".SH EXAMPLES", EXAMPLES.rstrip()] if number == "1" else []
    return "\n".join(out + [".SH SEE ALSO", f".BR nehumiro ({'5' if number == '1' else '1'})"]) + "\n"


def main():
    found = sections(open(os.path.join(DOCS, "REFERENCE.md")).read().split("\n"))
    wrong = 0
    for number in PAGES:
        path = os.path.join(DOCS, "man", "nehumiro." + number)
        made = page(number, found)
        if "--check" not in sys.argv:
            open(path, "w").write(made)
        elif not os.path.exists(path) or open(path).read() != made:
            wrong = 1
            print(f"{path} isn't what docs/REFERENCE.md says: run tools/pages.py")
    return wrong


sys.exit(main())
