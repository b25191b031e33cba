#!/usr/bin/env python3
"""Writes a page of a program: its text with what is taken where, and the order of its lock classes.

    tools/page.py BIN FILE >page.html

BIN is the program `autolock`. The page is one file that needs no other one and no network. A line `take PATHS` stands ahead
of each statement before which `check` takes locks, with the section's name where the statement is a helper's. Locks have
the colour of their class. Of a program that is refused the fault stands below its line, with the notes where they belong,
and what can be done about it. The order is drawn by `dot`, where this command is there, and told in a table.

A BIN that writes other texts than docs/FORMATS.md has is told, with status 1.
"""
import argparse
import pathlib
import shutil
import subprocess
import sys
from dataclasses import dataclass
from typing import Dict, List, Optional

from markup import Painter, document, element, escaped
from source import Declarations, Source, declared
from told import Check, Explanation, Order, Strange, ask, read_check, read_explanation, read_listing, read_order

STYLE = """
body { margin: 0; background: var(--page); color: var(--ink); font: 15px/1.5 sans-serif; }
header { padding: 12px 16px; border-bottom: 1px solid var(--edge); background: var(--panel); }
h1 { font-size: 20px; margin: 0; overflow-wrap: anywhere; } h2 { font-size: 16px; margin: 18px 0 6px; }
p { margin: 2px 0; } a { color: var(--link); }
main { display: grid; grid-template-columns: minmax(0, 1fr) minmax(300px, 30%); gap: 16px; padding: 0 16px 16px; }
main > * { min-width: 0; } .code { padding: 10px 0; } .rows { width: max-content; min-width: 100%; }
.take { background: var(--panel); color: var(--faint); box-shadow: inset 3px 0 var(--edge); }
.refused { color: var(--bad); font-weight: 600; }
.caret { color: var(--bad); line-height: 1; min-height: 1em; }
mark { background: var(--lit); color: inherit; border-radius: 2px; }
.fault, .note { position: sticky; left: 0; font: 14px/1.45 sans-serif; white-space: normal; overflow-wrap: anywhere;
  width: min(640px, 100vw - 80px); box-sizing: border-box; margin: 2px 0 6px 4em; padding: 4px 10px;
  border-left: 3px solid var(--faint); background: var(--panel); }
.fault { border-color: var(--bad); }
.fault p:first-child { color: var(--bad); font-weight: 600; }
.line:target { background: var(--lit); }
table { border-collapse: collapse; width: 100%; } td, th { text-align: left; padding: 2px 8px 2px 0; vertical-align: top;
  border-bottom: 1px solid var(--edge); font-weight: normal; overflow-wrap: anywhere; }
th { color: var(--faint); white-space: nowrap; }
.picture { overflow-x: auto; } .picture svg { display: block; max-width: none; color: var(--ink); }
.picture text { fill: currentColor; } .picture path, .picture polygon { stroke: currentColor; }
.picture .edge polygon { fill: currentColor; } .picture .node polygon { stroke-width: 2; }
.picture .cycle { color: var(--bad); }
details { border-bottom: 1px solid var(--edge); } summary { cursor: pointer; overflow-wrap: anywhere; }
.listing { font: 12px/1.5 monospace; white-space: pre; overflow-x: auto; margin: 0 0 8px; }
@media (max-width: 900px) { main { grid-template-columns: minmax(0, 1fr); } }
@media (max-width: 600px) { body { font-size: 14px; } main { padding: 0 8px 12px; } header { padding: 10px 8px; }
  .code { font-size: 12px; } .line, .take { padding-left: 3.2em; padding-right: 4px; white-space: pre-wrap;
  overflow-wrap: anywhere; width: auto; } .line::before { width: 2.4em; }
  .caret { padding-left: 3.2em; } .gap { display: inline-block; max-width: 40%; overflow: hidden; vertical-align: top;
  white-space: pre; }
  .line.pointed { white-space: pre; } .rows { width: auto; }
  .fault, .note { margin-left: 0; width: calc(100vw - 20px); } }
"""
# In how far a column a `take` begins: what stands farther right would often not be seen.
FARTHEST = 72
# How many seconds `dot` has.
LONGEST = 20


@dataclass
class Facts:
    """What the commands say of a program."""

    name: str
    source: Source
    declarations: Declarations
    explanation: Explanation
    check: Optional[Check]
    order: Order
    listing: list

    def classes(self):
        """The lock classes: by rank where they have one, else as declared."""
        return self.order.classes or self.declarations.classes()


def facts_of(program, file):
    """What a program's commands say of a file."""
    source = Source(file.read_bytes())
    explanation = read_explanation(ask(program, "explain", "--json", file))
    check = read_check(ask(program, "check", file)) if explanation.accepted else None
    listing = read_listing(ask(program, "listing", "--places", file)) if explanation.accepted else []
    order = read_order(ask(program, "order", file))
    return Facts(file.name, source, declared(source), explanation, check, order, listing)


def link(place):
    """A link to a place's line."""
    return element("a", str(place), href=f"#L{place.line}")


def gap(source, place):
    """White space as wide as the line of a place is up to it."""
    line = source.lines[place.line - 1] if place.line <= len(source.lines) else ""
    return "".join(letter if letter == "\t" else " " for letter in line[: source.index(place)])


def take_row(facts, painter, take):
    """The line that says what a section takes before a statement."""
    line, found = take.place.line, facts.declarations
    here = found.routine_at(line)
    owner = "" if here and here.name == take.section else f"in {take.section}: "
    paths = [painter.lock(path, found.class_of(path, take.section, line)) for path in take.paths]
    space = element("span", gap(facts.source, take.place)[:FARTHEST], class_="gap")
    return element("div", space, escaped(owner), "take ", " ".join(paths), class_="take")


def caret_row(facts, place):
    """A caret below a place."""
    return element("div", gap(facts.source, place), "^", class_="caret")


def fault_box(told):
    """The fault of a refused program, the notes on no place, and what can be done about it."""
    loose = [f"note: {note.text}" for note in told.notes if not note.start]
    words = [f"{told.fault.start} {told.code} {told.fault.text}", *loose, f"help: {told.remedy}"]
    return element("div", *(element("p", escaped(text)) for text in words), class_="fault")


def fault_rows(facts):
    """What stands below each line that the fault of a refused program names: below a caret the fault or the notes."""
    told, boxes = facts.explanation, {}
    if told.accepted:
        return {}
    boxes[told.fault.start] = [fault_box(told)]
    for note in told.notes:
        if note.start:
            box = element("div", escaped(f"{note.start} note: {note.text}"), class_="note")
            boxes.setdefault(note.start, []).append(box)
    rows: Dict[int, List[str]] = {}
    for place, pieces in sorted(boxes.items()):
        rows.setdefault(place.line, []).extend([caret_row(facts, place), *pieces])
    return rows


def program(facts, painter):
    """The program's lines, with what is taken ahead of them, and faults below them."""
    takes: Dict[int, List[str]] = {}
    for take in facts.check.takes if facts.check else []:
        takes.setdefault(take.place.line, []).append(take_row(facts, painter, take))
    faults = fault_rows(facts)
    notes = [facts.explanation.fault, *facts.explanation.notes] if faults else []
    marks = [(note.start.line, facts.source.index(note.start)) for note in notes if note.start]
    lines = painter.lines(facts.source, marks)
    lines += [""] * (max(faults, default=0) - len(lines))
    out = []
    for number, line in enumerate(lines, 1):
        out += takes.get(number, [])
        pointed = "line pointed" if number in faults else "line"
        out.append(element("div", line, class_=pointed, id=f"L{number}", data_line=number))
        out += faults.get(number, [])
    return element("div", element("div", "\n".join(out), class_="rows"), class_="code")


def graph(order):
    """The order in the language of `dot`, with a class for each colour."""
    painter = Painter(Declarations(), order.classes)
    nodes = [f'"{name}" [class="{painter.color(name)}"];' for name in order.classes]
    kinds = ["cycle" if pair.is_of_cycle else "" for pair in order.pairs]
    edges = [
        f'"{pair.first}" -> "{pair.second}" [label=" {pair.section}:{pair.place}", class="{kind}"];'
        for pair, kind in zip(order.pairs, kinds)
    ]
    style = "bgcolor=transparent; node [shape=box, fontname=monospace]; edge [fontname=monospace, fontsize=10];"
    return "\n".join(["digraph lock_order {", style, *nodes, *edges, "}"])


def drawn(order):
    """The order as `dot` draws it; nothing where it has no pair, or where that command isn't there, fails or takes long."""
    if not order.pairs or not shutil.which("dot"):
        return ""
    try:
        ended = subprocess.run(["dot", "-Tsvg"], input=graph(order).encode(), capture_output=True, timeout=LONGEST)
    except subprocess.TimeoutExpired:
        return ""
    svg = ended.stdout.decode(errors="replace")
    return element("div", svg[svg.index("<svg") :], class_="picture") if ended.returncode == 0 and "<svg" in svg else ""


def ranks(facts, painter):
    """A table of the lock classes, with the rank of each where it has one."""
    ranked = facts.check is not None
    rows = [
        element("tr", *([element("td", str(rank))] if ranked else []), element("td", painter.lock(name, name)))
        for rank, name in enumerate(facts.classes())
    ]
    head = element("tr", *([element("th", "Rank")] if ranked else []), element("th", "Lock class"))
    return element("table", head, *rows)


def pairs(facts, painter):
    """A table of the pairs of classes of which one comes before the other, and what makes each."""
    if not facts.order.pairs:
        return element("p", "No lock class has to come before another one.") if facts.check else ""
    rows = []
    for pair in facts.order.pairs:
        where = element("td", escaped(pair.section), " ", link(pair.place), class_="refused" if pair.is_of_cycle else None)
        rows.append(element("tr", *(element("td", painter.lock(name, name)) for name in (pair.first, pair.second)), where))
    return element("table", element("tr", *(element("th", word) for word in ("First", "Then", "By section"))), *rows)


def reasons(facts):
    """What an accepted program's explanation says of each pair."""
    lines = [
        element("p", *([link(note.start), " "] if note.start else []), escaped(note.text))
        for note in facts.explanation.notes
        if not note.text.startswith("rank ")
    ]
    return element("details", element("summary", "Why"), *lines) if facts.check and lines else ""


def instructions(facts):
    """The instructions of each section, folded."""
    out = []
    for name, code in facts.listing:
        lines = [f"{it.number:>4} {link(it.place) + ' ' if it.place else ''}{escaped(it.text)}" for it in code]
        out.append(element("details", element("summary", escaped(name)), element("pre", "\n".join(lines), class_="listing")))
    return element("h2", "Instructions") + "".join(out) if out else ""


def counted(things, one, more):
    """How many there are, in words."""
    return f"{len(things)} {one if len(things) == 1 else more}"


def verdict(facts):
    """The answer in a line."""
    if facts.check:
        classes = counted(facts.check.ranks, "lock class", "lock classes")
        sections = counted(facts.check.sections, "section", "sections")
        return element("p", escaped(f"accepted: {classes}, {sections}"), class_="accepted")
    fault = facts.explanation.fault
    return element("p", "refused at ", link(fault.start), escaped(f": {facts.explanation.code} {fault.text}"), class_="refused")


def page(facts):
    """The page of a program."""
    painter = Painter(facts.declarations, facts.classes())
    head = element("header", element("h1", escaped(facts.name)), verdict(facts))
    classes = element("h2", "Lock classes") + ranks(facts, painter) if facts.classes() else ""
    order = element("h2", "Order") + drawn(facts.order) + pairs(facts, painter) + reasons(facts) if facts.order.classes else ""
    aside = element("aside", classes, order, instructions(facts))
    return document(facts.name, STYLE, [head, element("main", program(facts, painter), aside)])


def main():
    p = argparse.ArgumentParser(formatter_class=argparse.RawDescriptionHelpFormatter, description=__doc__)
    p.add_argument("program", metavar="BIN")
    p.add_argument("file", metavar="FILE", type=pathlib.Path)
    words = p.parse_args()
    try:
        text = page(facts_of(words.program, words.file))
    except (OSError, Strange) as fault:
        sys.exit(f"page.py: {fault}")
    sys.stdout.buffer.write(text.encode(errors="replace"))


if __name__ == "__main__":
    main()
