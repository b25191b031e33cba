"""Draws a trace as an SVG: a column for each thread, time running down.

A section is a box in its thread's column, from the step that began it to the one that ended it. A lock that is acquired, or
that another thread holds, is a line of text there, and from a wait an arrow points to the holder's column. Each lock that a
section holds is a bar beside the box, labelled by the lock, from its grant to the section's end.
"""
import re
from dataclasses import dataclass, field
from typing import List, Optional

from markup import DARK, element, escaped, shape
from told import Step

ROW, BOX, LANE, GAP, SIDE, LETTERS = 18, 214, 15, 20, 14, 28
LABEL_LETTER, LABELS_APART, TALL = 6.1, 420, 900
RED = "#b00020"


@dataclass
class Row:
    """A line of the chart: the step that it tells, and the numbers of all steps that it stands for."""

    step: Step
    numbers: List[int]


@dataclass
class Grant:
    """A lock that a section holds, from a row on."""

    lock: str
    row: int


@dataclass
class Section:
    """A section of a thread, from a row to another or, where it has not ended, to the end; and what it holds."""

    thread: int
    first: int
    last: Optional[int] = None
    grants: List[Grant] = field(default_factory=list)


def is_continued(row, step, is_last):
    """Whether a step goes on with what the last row of its thread tells."""
    before = row.step
    if before.event != step.event:
        return False
    if step.event == "waits":
        return (before.what, before.holder) == (step.what, step.holder)
    return step.event == "moved" and is_last and before.place == step.place


def rows_of(steps, is_each_move):
    """The steps but the idle ones as rows. Moves of one statement in a row are one, and so are waits of one thread with no
    other step of it between."""
    rows, last = [], {}
    for number, step in enumerate(steps):
        at = last.get(step.thread)
        if step.event == "idle":
            continue
        joins = at is not None and is_continued(rows[at], step, at == len(rows) - 1)
        if joins and not (is_each_move and step.event == "moved"):
            rows[at].numbers.append(number)
        else:
            last[step.thread] = len(rows)
            rows.append(Row(step, [number]))
    return rows


def sections_of(rows):
    """The sections that the rows tell, in the order in which they began."""
    sections, current = [], {}
    for number, row in enumerate(rows):
        thread, event = row.step.thread, row.step.event
        if event == "began" or thread not in current:
            current[thread] = Section(thread, number)
            sections.append(current[thread])
        if event == "got":
            current[thread].grants.append(Grant(row.step.what, number))
        elif event == "ended":
            current.pop(thread).last = number
    return sections


def broken(text, letters=LETTERS):
    """A text in lines of at most so many letters, those after the first indented; broken after a space, a comma or a
    parenthesis where there is one."""
    lines = [""]
    for piece in re.findall(rf"\(\d+ times\)|[^ ,(]{{1,{letters - 2}}}(?:, |\(| )?|[ ,(]", text):
        if lines[-1].strip() and len((lines[-1] + piece).rstrip()) > letters:
            lines.append("  ")
        lines[-1] += piece
    return [line.rstrip() for line in lines]


class Chart:
    """A chart of a trace. The names are those of its threads, as far as they are known."""

    def __init__(self, trace, names=(), is_each_move=False):
        self.rows = rows_of(trace.steps, is_each_move)
        self.sections = sections_of(self.rows)
        self.names = [names[at] if at < len(names) else f"thread {at}" for at in range(trace.threads)]
        self.is_named = len(names) >= trace.threads
        self.words = [broken(self.words_of(row)) for row in self.rows]
        self.tops = [0]
        for words in self.words:
            self.tops.append(self.tops[-1] + ROW * len(words))
        self.height = self.tops[-1] + ROW
        self.lefts, at = [], SIDE
        for thread in range(trace.threads):
            at += LANE * max([len(it.grants) for it in self.sections if it.thread == thread] + [1])
            self.lefts.append(at)
            at += BOX + GAP
        self.width = max(at - GAP + SIDE, 2 * SIDE + BOX)
        locks = [grant.lock for section in self.sections for grant in section.grants]
        self.colors = {lock: DARK[at % len(DARK)] for at, lock in enumerate(dict.fromkeys(locks))}

    def name(self, thread):
        """How a text calls a thread: by its name, or else by its number."""
        return self.names[thread] if self.is_named else str(thread)

    def words_of(self, row):
        """What is written of a row."""
        step, count = row.step, len(row.numbers)
        if step.event == "moved":
            place = f"{step.place} " if step.place else ""
            return f"{place}{count} instructions" if count > 1 else f"{place}{step.what}"
        if step.event == "waits":
            return f"waits {step.what} for {self.name(step.holder)}" + (f" ({count} times)" if count > 1 else "")
        return f"ended at {step.what}" if step.event == "ended" else f"{step.event} {step.what}"

    def middle(self, thread):
        """Where the middle of a thread's column is."""
        return self.lefts[thread] + BOX // 2

    def heads(self, top=0):
        """The threads' names below a height, and the height that they take."""
        names, out = [broken(name) for name in self.names], []
        for thread, words in enumerate(names):
            x = self.middle(thread)
            texts = [element("text", escaped(word.strip()), x=x, y=top + 20 + ROW * at) for at, word in enumerate(words)]
            out.append(element("g", *texts, class_="head", text_anchor="middle", font_weight="bold"))
        return out, 12 + ROW * max([len(name) for name in names] + [1])

    def column(self, thread):
        """A thread's column: its axis, its sections with their bars, and where it waits."""
        x = self.middle(thread)
        axis = shape("line", class_="axis", x1=x, y1=0, x2=x, y2=self.height, stroke="#bbb", stroke_dasharray="3 3")
        sections = [self.section(section) for section in self.sections if section.thread == thread]
        return element("g", axis, *sections, *self.waits(thread), class_="column", data_thread=thread)

    def section(self, section):
        """A section's box, and a bar for each lock that it holds."""
        top = self.tops[section.first] + 1
        bottom = self.height - 4 if section.last is None else self.tops[section.last + 1] - 1
        box = shape(
            "rect", class_="box", x=self.lefts[section.thread], y=top, width=BOX, height=bottom - top, rx=4, fill="#eef4fb",
            stroke="#5b7fa6", stroke_dasharray="5 3" if section.last is None else None,
        )
        return box + "".join(self.bar(section, lane, bottom) for lane in range(len(section.grants)))

    def bar(self, section, lane, bottom):
        """The bar of a lock that a section holds, and its labels, which run down in it."""
        grant = section.grants[lane]
        x, top = self.lefts[section.thread] - LANE * (lane + 1), self.tops[grant.row] + 1
        rect = shape("rect", x=x, y=top, width=LANE - 2, height=bottom - top, rx=2, fill=self.colors[grant.lock])
        labels = []
        for at in range(top, max(bottom - LABELS_APART // 2, top + 1), LABELS_APART):
            room = int((min(bottom, at + LABELS_APART) - at - 6) / LABEL_LETTER)
            words = grant.lock if len(grant.lock) <= room else grant.lock[: room - 2] + ".."
            if room >= min(len(grant.lock), 4):
                turn = f"translate({x + 3.5} {at + 4}) rotate(90)"
                labels.append(element("text", escaped(words), transform=turn, fill="white", font_size=10))
        title = element("title", escaped(f"{self.names[section.thread]} holds {grant.lock}"))
        return element("g", title, rect, *labels, class_="bar", data_lock=grant.lock)

    def waits(self, thread):
        """A red line beside each wait of a thread, to its next row."""
        own = [at for at, row in enumerate(self.rows) if row.step.thread == thread] + [len(self.rows)]
        for at, after in zip(own, own[1:]):
            if self.rows[at].step.event == "waits":
                top, bottom = self.tops[at] + 3, self.tops[after] - 1 if after < len(self.rows) else self.height - 6
                yield shape("rect", class_="waiting", x=self.lefts[thread] + 3, y=top, width=3, height=bottom - top, fill=RED)

    def row(self, number):
        """A row's text, and a wait's arrow to the column of the thread that holds the lock."""
        step, y = self.rows[number].step, self.tops[number]
        color = {"waits": RED, "began": "#222", "ended": "#222", "got": self.colors.get(step.what)}.get(step.event, "#666")
        weight = "bold" if step.event in ("began", "got") else None
        texts = [
            element("text", escaped(words), x=self.middle(step.thread), y=y + 13 + ROW * at)
            for at, words in enumerate(self.words[number])
        ]
        arrow = [self.arrow(number, step, y + 9)] if step.holder is not None else []
        style = {"text_anchor": "middle", "fill": color, "font_weight": weight}
        return element("g", *texts, *arrow, class_=f"row {step.event}", data_row=number, **style)

    def lane(self, thread, lock, number):
        """In which lane the bar of a lock is that a thread holds in a row."""
        open_then = [it for it in self.sections if it.thread == thread and it.first < number]
        locks = [grant.lock for grant in open_then[-1].grants] if open_then else []
        return locks.index(lock) if lock in locks else 0

    def arrow(self, number, step, y):
        """An arrow from the box of a thread that waits to the bar of the lock, or to the box of the thread that holds it."""
        if step.holder > step.thread:
            lane = self.lane(step.holder, step.what, number)
            start, end = self.lefts[step.thread] + BOX, self.lefts[step.holder] - LANE * (lane + 1)
        else:
            start, end = self.lefts[step.thread], self.lefts[step.holder] + BOX
        return shape("line", class_="arrow", x1=start, y1=y, x2=end, y2=y, stroke=RED, marker_end="url(#tip)")

    def body(self):
        """All that is below the heads."""
        tip = shape("path", class_="tip", d="M0,0 L8,4 L0,8 z", fill=RED)
        marker = element("marker", tip, id="tip", markerWidth=8, markerHeight=8, refX=7, refY=4, orient="auto")
        columns = [self.column(thread) for thread in range(len(self.names))]
        return [element("defs", marker), *columns, *map(self.row, range(len(self.rows)))]

    def frame(self, height, inner, **attributes):
        """An SVG of the chart's width with these elements in it."""
        size = {"width": self.width, "height": height, "viewBox": f"0 0 {self.width} {height}"}
        font = {"font_family": "monospace", "font_size": 12}
        return element("svg", "\n", "\n".join(inner), "\n", xmlns="http://www.w3.org/2000/svg", **size, **font, **attributes)

    def picture(self):
        """The whole chart as an SVG that stands alone. A tall one has the names at its foot too."""
        heads, top = self.heads()
        feet, foot = self.heads(top + self.height) if self.height > TALL else ([], 0)
        paper = shape("rect", width="100%", height="100%", fill="white")
        body = element("g", "\n", "\n".join(self.body()), "\n", transform=f"translate(0 {top})")
        return self.frame(top + self.height + foot, [paper, *heads, *feet, body])
