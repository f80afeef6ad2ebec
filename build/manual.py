# SPDX-License-Identifier: MIT OR Apache-2.0
"""The man page of pcid-audit, made from docs/COMMANDS.md.

The page stays the source. What it says of the script ./pcid-audit and of this repository is left out, since
an installed program has neither.
"""
import re

# Of the repository's script, and not of the program.
SCRIPT = "./pcid-audit"
DOCUMENTS = "/usr/share/doc/pcid-audit"
FILES = [
    (f"{DOCUMENTS}/docs", "The pages that this one names by words in capitals: FORMAT, RECORDING, MODEL and others."),
    (f"{DOCUMENTS}/samples", "Records to try."),
    ("/usr/include/pcid_record.h", "The C header that writes records."),
    ("/usr/include/pcid_log.h", "The C header that writes logs of single processors."),
    ("/usr/include/pcid_tables.h", "The C header that records paging tables on demand."),
    ("/usr/include/pcid_seen.h", "The C header that says which accesses need no event."),
]


def plain(text):
    """Text as roff takes it: no escape of its own, and no request at the start of a line."""
    text = text.replace("\\", "\\e").replace("-", "\\-").replace("'", "\\(aq").replace("^", "\\(ha")
    return text.replace("`", "\\(ga").replace("~", "\\(ti")


def at_start(text):
    """A line that roff might read as a request gets a mark of no width before it."""
    return "\\&" + text if text[:1] in (".", "'") else text


def inline(text):
    """A paragraph's marks: code and strong in bold, emphasis in italics, a link or a picture as its text."""
    text = re.sub(r"!\[([^\]]*)\]\([^)]*\)", r"[Picture: \1.]", text)
    text = re.sub(r"(?<!!)\[([^\]]*)\]\([^)]*\)", r"\1", text).replace("\\|", "|")
    made = []
    for piece in re.findall(r"`[^`]*`|\*\*[^*]+\*\*|(?<![\w*])\*[^*\s][^*]*\*|[^`*]+|.", text):
        if piece.startswith("`") and len(piece) > 1:
            made.append(f"\\fB{plain(piece[1:-1].replace(SCRIPT, 'pcid-audit'))}\\fR")
        elif piece.startswith("**") and len(piece) > 4:
            made.append(f"\\fB{plain(piece[2:-2])}\\fR")
        elif piece.startswith("*") and len(piece) > 2:
            made.append(f"\\fI{plain(piece[1:-1])}\\fR")
        else:
            made.append(plain(piece))
    return at_start("".join(made).strip())


def cells_of(row):
    return [it.strip() for it in re.split(r"(?<!\\)\|", row.strip().strip("|"))]


def table(rows):
    """A table as a list: the first cell of a row, and the others below it, each with its column's name."""
    names, *rows = [cells_of(it) for it in rows if not re.fullmatch(r"[|\s:-]+", it)]
    made = []
    for tag, *others in rows:
        if f"`{SCRIPT}`" in (tag, *others[:1]) or f"`{SCRIPT}`" in others[-1]:
            continue
        made += [".TP", inline(tag) or "\\&"]
        if len(others) == 1:
            made.append(inline(others[0]) or "\\&")
            continue
        lines = [f"{plain(name)}: {inline(cell)}" for name, cell in zip(names[1:], others) if cell]
        made.append("\n.br\n".join(lines) or "\\&")
    return made + [".PP"]


def blocks(text):
    """The page in blocks: (kind, its lines)."""
    found, fenced = [], False
    for line in text.split("\n"):
        if line.startswith("```"):
            fenced = not fenced
            found.append(("code" if fenced else "end", []))
            continue
        if fenced:
            found[-1][1].append(line)
            continue
        kind = ("heading" if line.startswith("#") else "table" if line.startswith("|") else
                "code" if line.startswith("    ") else "item" if re.match(r"(-|\d+\.) ", line) else
                "end" if not line.strip() else "paragraph")
        same = bool(found) and found[-1][0] == kind and kind in ("table", "code", "paragraph")
        if not same:
            found.append((kind, []))
        found[-1][1].append(line[4:] if kind == "code" else line)
    return found


def body(kind, lines):
    if kind == "table":
        return table(lines)
    if kind == "code":
        rows = [at_start(plain(it.replace(SCRIPT, "pcid-audit"))) for it in lines]
        return [".PP", ".RS 4", ".EX", *rows, ".EE", ".RE"]
    if kind == "item":
        mark, _, text = lines[0].partition(" ")
        return [".IP " + ("\\(bu" if mark == "-" else mark) + " 4", inline(text)]
    text = inline(" ".join(lines))
    return [".PP", text] if text else []


def sections(page):
    """The page's sections: (heading, blocks), but for its title and those of the script."""
    made, heading, kept = [], None, []
    for kind, lines in blocks(page):
        if kind == "heading":
            level, _, title = lines[0].partition(" ")
            if heading:
                made.append((heading, kept))
            heading, kept = (title if len(level) > 1 else "Description"), []
        elif kind != "end":
            kept.append((kind, lines))
    return [*made, (heading, kept)] if heading else made


def manual(page, about, version, date):
    """The man page: roff for the macros of man(7)."""
    made = ['.\\" Made by build/package from docs/COMMANDS.md.',
            f'.TH PCID\\-AUDIT 1 "{date}" "pcid\\-audit {version}"',
            ".SH NAME", f"pcid\\-audit \\- {plain(about[:1].lower() + about[1:])}",
            ".SH SYNOPSIS", "\\fBpcid\\-audit\\fR \\fICOMMAND\\fR [\\fIOPTIONS\\fR] [\\fIFILE\\fR]"]
    for heading, kept in sections(page):
        if SCRIPT in heading:
            continue
        made.append(f'.SH "{plain(heading.replace("`", "").upper())}"')
        for kind, lines in kept:
            made += body(kind, lines)
    made.append(".SH FILES")
    for path, what in FILES:
        made += [".TP", f"\\fI{plain(path)}\\fR", what]
    return "\n".join(made) + "\n"
