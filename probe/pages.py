# SPDX-License-Identifier: MIT OR Apache-2.0
"""The page of what a hunt found: its causes, each with the record that is left of it, the commands
that repeat it, and what its control gave."""
import glob
import html
import os
import re
import shlex
import subprocess

from probe import auditor, hunting, image, keeping, spans
from records.events import has_spans


class Group:
    """All seeds of one cause."""

    def __init__(self, key, known):
        self.key, self.known, self.results = key, known, []

    def first(self):
        """The one that tells most."""
        return next((it for it in self.results if it.get("replay")),
                    next((it for it in self.results if it.get("small")), self.results[0]))


def collected(folder, known):
    """The results of a folder, and its causes, new ones first."""
    results = [hunting.result_of(folder, os.path.basename(place))
               for place in glob.glob(os.path.join(folder, "seeds", "*"))]
    results = sorted((it for it in results if it), key=lambda it: it["seed"])
    groups = {}
    for result in filter(lambda it: it["key"], results):
        name = known.name(result["key"])
        # What is known by one name is one cause.
        group = groups.setdefault(name or result["key"], Group(result["key"], name))
        group.results.append(result)
    return results, sorted(groups.values(), key=lambda it: (it.known is not None,
                                                            -len(it.results)))


def show(path):
    record, _ = keeping.read_kept(path)
    if has_spans(record.header.version):
        return "\n".join(spans.listed(record))
    done = subprocess.run([auditor.program(), "show", path], capture_output=True, text=True, check=False)
    return re.sub(r" moments [0-9 ]*$", "", done.stdout, flags=re.M).rstrip()


def page(folder, plan, results, groups):
    """The page, as pieces: a heading, a paragraph, a table or lines of text each."""
    new = [group for group in groups if group.known is None]
    yes = sum(it["key"] is None for it in results)
    yield "heading", f"A hunt on {plan.system}"
    yield "text", (f"{len(results)} seeds, {sum(it['events'] for it in results)} events: {yes} "
                   f"accepted, {len(results) - yes} not, by {len(groups)} causes, of which "
                   f"{len(new)} are new.")
    if groups:
        yield "table", [("Cause", "Known as", "Seeds", "First of them")] + [
            (group.key, group.known or "new", str(len(group.results)),
             ", ".join(str(it["seed"]) for it in group.results[:8])) for group in groups]
    for group in new:
        yield "heading", group.key
        yield "text", f"Seen in {len(group.results)} of {len(results)} seeds. Repeat it:"
        yield from told(folder, plan, group.first())


def told(folder, plan, first):
    """The commands of a cause, its control, and what is left of its record."""
    if not first.get("small"):
        yield "lines", [first["command"]]
        return
    small = os.path.join(folder, first["small"])
    if plan.at_once:
        yield "lines", [first["command"], plan.command(True, first["seed"])]
        yield "text", (f"The second, its control, was: {first['control']}. Runs of processors at "
                       f"once differ, so neither need say the same again. {small} has the events "
                       "that are left; `back` of one is how many of those before it had not ended "
                       "when it began:")
    else:
        yield "lines", [plan.command(path=small), plan.command(True, path=small),
                        first["command"]]
        yield "text", (f"The first is {first.get('replay', 'not a no: by the whole run alone')}"
                       f"; the second, its control, is: {first['control']}. The events that "
                       "are left:")
    yield "lines", show(small).splitlines()
    if not plan.at_once:
        yield "text", "A test of it that boots by itself:"
        yield "lines", [case_command(small)]


def case_command(path):
    """What makes a case of what is left of a record."""
    return f"probe/case {shlex.quote(path)} > case.elf"


def markdown(pieces):
    out = []
    for kind, what in pieces:
        if kind == "heading":
            out.append(("# " if not out else "## ") + what)
        elif kind == "text":
            out.append(what)
        elif kind == "lines":
            out.append("\n".join("    " + line for line in what))
        else:
            rows = ["| " + " | ".join(cell.replace("|", "\\|") for cell in row) + " |"
                    for row in what]
            out.append("\n".join([rows[0], "|---" * len(what[0]) + "|", *rows[1:]]))
    return "\n\n".join(out) + "\n"


def markup(pieces):
    out, names = [], {"heading": "h2", "text": "p", "lines": "pre"}
    for kind, what in pieces:
        if kind == "table":
            rows = ["".join(f"<td>{html.escape(cell)}</td>" for cell in row) for row in what]
            out.append("<table border=1>" + "".join(f"<tr>{row}</tr>\n" for row in rows) +
                       "</table>")
            continue
        text = html.escape("\n".join(what) if kind == "lines" else what)
        name = names[kind] if out or kind != "heading" else "h1"
        out.append(f"<{name}>{text}</{name}>")
    return ("<!doctype html>\n<meta charset=utf-8>\n<title>A hunt</title>\n" + "\n".join(out) +
            "\n")


def write_page(folder, plan, known):
    """Writes page.md and page.html; the status of what is new."""
    results, groups = collected(folder, known)
    pieces = list(page(folder, plan, results, groups))
    for name, text in (("page.md", markdown(pieces)), ("page.html", markup(pieces))):
        with open(os.path.join(folder, name), "w", encoding="utf-8") as file:
            file.write(text)
    new = [it["status"] for group in groups if group.known is None for it in group.results]
    return results, groups, image.greatest(0, *new)
