#!/usr/bin/env python3
"""Judges what `tools/msc.py` and `tools/page.py` make of programs by what the commands write of them.

    tests/pictures.py BIN [FILE ..]

FILE ..     programs, by default those of examples/ and some with hostile texts

A picture must be XML with a column for each thread, named as in the program, and a bar for each lock that was got, in the
column of its thread; made twice it must be the same. A page must be HTML whose elements are closed, with each line of the
program once, and no other file named; with a line ahead of each statement before which `check` takes locks, and the order
in tables; with the fault, its notes and its remedy below the line that each names, behind a caret. The page of a trace must
tell each step, with the program's line. A text that is no trace must be refused.

The last line is 'N passed, M failed'; the status is 1 where M is not 0.
"""
import json
import os
import pathlib
import random
import re
import subprocess
import sys
import tempfile
import unicodedata
import xml.etree.ElementTree as ElementTree
from html.parser import HTMLParser

TOP = pathlib.Path(__file__).resolve().parent.parent
SVG = "{http://www.w3.org/2000/svg}"
ROWS = ("line", "take", "caret", "fault", "note")
EMPTY = {"meta", "input"}
FARTHEST = 72
LONG = {letter: letter * 64 for letter in "GSlftu"}
# Hostile programs by the names of their files.
HOSTILE = {
    'a&"<b>\'.al': (
        "// </script><script>alert(1)</script> & <b>bold</b> \"q\" 'q' &amp; \u00e9 \u6f22\u5b57 ]]> <!-- -->\n"
        "lock {G};\nstruct {S} {{ lock {l}; int n protected_by({l}); }}\npool {S} p[2];\nglobal int m protected_by({G});\n"
        "atomic {f}(ref {S} a) {{ if (m < 1 && 2 > 1) {{ m = m + 1; a.n = 1; }} }}\n"
        "thread {t} {{ {f}(p[0]); }}\nthread {u} {{ {f}(p[1]); }}\n"
    ).format(**LONG).encode(),
    "bytes.al": b"// \xff\xfe \x00\x01\x7f \xe2\x80\xae turned \xe2\x80\xa8 \xed\xa0\x80\r\n"
    b"lock G;\r\n\tglobal int n protected_by(G);\r\natomic f() { n = n + 1; }\r\nthread t { f(); }\r\n//\xc3",
    "sign.al": b"lock G;\n\t</script><b> & \n",
    "byte.al": b"lock G; // \xc3\xa9\nlock \xff;\n",
    "zero.al": b"lock \x00;\n",
    "open.al": b"lock G;\natomic f() {\n",
    "unended.al": b"lock G",
    "empty.al": b"",
    "blank.al": b"\n\n",
    "helper.al": b"struct Bank { lock open; int fees protected_by(open); }\n"
    b"struct Acc { lock l; int v protected_by(l); final ref Bank bank; }\n"
    b"pool Acc acc[1]; pool Bank bank[1]; init acc[0].bank = bank[0];\n"
    b"call take(ref Acc from) : int { let here: ref Acc = from; here.v = 1; from.bank.fees = 1; return from.v; }\n"
    b"atomic f(ref Acc a, ref Acc b) : int { let x: int = call take(a); let y: int = call take(b); return x + y; }\n"
    b"atomic g(ref Acc a) { call take(a); }\nthread t { f(acc[0], acc[0]); }\nthread u { g(acc[0]); }\n",
}
# What makes a text no trace ahead of this end.
STRANGE = [b"0 moved \x01", b"0 moved \xff", b"0 flew", b"7 idle", b"0 waits G for 7", b"1 got G", b"0 moved", b"0  idle"]
END = b"\nsimulation 1\ncells\nthreads\n0 idle\nend\n"
# Steps with markup in them, of a thread that holds no lock to begin with.
MARKUP = ["0 began f(</script><b>&)", '0 moved 1:1 </script>"<!--', "0 got <b>&'\"", "0 ended at 0"]


class Wrong(Exception):
    """What is wrong with a picture or a page."""


def need(holds, words):
    if not holds:
        raise Wrong(words)


class Page(HTMLParser):
    """The parts of a page: its rows, with their kinds, the numbers of lines, and texts; its scripts; the cells of its tables;
    the classes of the locks that it colours. Each element must be closed."""

    def __init__(self, text):
        super().__init__()
        self.rows, self.scripts, self.cells, self.open, self.seen, self.locks = [], [], [], [], set(), set()
        self.outside = None
        self.feed(text)
        self.close()
        need(not self.open, f"not closed: {self.open}")

    def handle_starttag(self, tag, attributes):
        given = dict(attributes)
        kind = (given.get("class") or "").split(" ")[0]
        self.seen.add(tag)
        need("src" not in given and given.get("href", "#").startswith("#"), f"<{tag}> names another file")
        if tag in EMPTY:
            return
        self.open.append(tag)
        if tag == "div" and kind in ROWS:
            need(self.outside is None, f"a {kind} in another row")
            self.outside = len(self.open) - 1
            self.rows.append([kind, given.get("data-line"), ""])
        elif tag == "span" and kind == "lock":
            self.locks.add((given.get("title"), given["class"]))
        elif tag in ("script", "td"):
            (self.scripts if tag == "script" else self.cells).append("")

    def handle_startendtag(self, tag, attributes):
        self.seen.add(tag)

    def handle_endtag(self, tag):
        need(self.open and self.open.pop() == tag, f"</{tag}> closes another element")
        if len(self.open) == self.outside:
            self.outside = None

    def handle_data(self, text):
        if self.open and self.open[-1] == "script":
            self.scripts[-1] += text
        elif "td" in self.open:
            self.cells[-1] += text
        elif self.outside is not None:
            self.rows[-1][2] += text


def letters(data):
    """What a page shows of some bytes."""
    hidden = ("Cc", "Cf", "Zl", "Zp")
    text = data.decode(errors="replace")
    return "".join("\ufffd" if it != "\t" and unicodedata.category(it) in hidden else it for it in text)


def lines_of(data):
    """The lines of a program as a page shows them."""
    pieces = data.split(b"\n")
    return [letters(re.sub(rb"\r$", b"", piece)) for piece in (pieces if pieces[-1] else pieces[:-1])]


class Judge:
    """Makes pictures and pages of programs, in a room of its own, and says what is wrong with them."""

    def __init__(self, program, room):
        self.program, self.room = program, pathlib.Path(room)

    def made(self, *words, status=0, **given):
        """What a command writes, whose status must be this."""
        environment = {**os.environ, "LC_ALL": "C"}
        ended = subprocess.run(words, capture_output=True, timeout=120, env=environment, **given)
        need(ended.returncode == status, f"{words[0]} ends with {ended.returncode}: {ended.stderr.decode(errors='replace')}")
        return ended.stdout

    def said(self, *words):
        """What the program writes, accepted or not."""
        return subprocess.run([self.program, *words], capture_output=True, timeout=120).stdout.decode(errors="replace")

    def judge_page(self, file):
        """The page of a program."""
        data = file.read_bytes()
        page = Page(self.made(TOP / "tools/page.py", self.program, file).decode())
        need(not page.scripts and "b" not in page.seen, "an element of the program's text")
        judge_lines(page.rows, lines_of(data))
        judge_order(page, self.said("check", file), self.said("order", file))
        told = json.loads(self.said("explain", "--json", file))
        if told["accepted"]:
            judge_takes(page.rows, self.said("check", file), lines_of(data))
        else:
            judge_fault(page, told, data)

    def judge_trace(self, file, seed):
        """The picture and the page of a trace of a program by steps that a seed draws."""
        steps = self.room / "steps"
        steps.write_text("")
        idle = self.said("simulate", file, steps).splitlines()
        threads = len(idle) - 2 - idle.index("threads")
        choose = random.Random(seed)
        drawn = [f"{choose.randrange(threads)}*{choose.choice([1, 2, 5, 30])}" for _ in range(30)] if threads else []
        steps.write_text(" ".join(drawn))
        text = self.said("trace", *["--sections"][: seed % 2], *["--all"][: seed // 2 % 2], file, steps)
        trace = self.room / "trace"
        trace.write_text(text)
        lines = text[: text.index("simulation 1\n")].splitlines()
        names = re.findall(r"\bthread\s+(\w+)", re.sub(r"//.*", "", file.read_bytes().decode("latin-1")))
        need(len(names) == threads, "the test reads other threads")
        svg = self.made(TOP / "tools/msc.py", trace, file)
        need(svg == self.made(TOP / "tools/msc.py", "--program", file, input=text.encode()), "another picture the second time")
        judge_picture(svg, lines, names)
        judge_picture(self.made(TOP / "tools/msc.py", trace), lines, [f"thread {it}" for it in range(threads)])
        self.judge_steps_page(trace, file, lines, names)

    def judge_steps_page(self, trace, file, lines, names):
        """The page of a trace of a program, whose threads have these names."""
        page = Page(self.made(TOP / "tools/msc.py", "--html", trace, file).decode())
        judge_lines(page.rows, lines_of(file.read_bytes()))
        judge_steps(page, lines, names)

    def judge_markup(self):
        """The picture and the page of steps with markup in them."""
        trace, file = self.room / "trace", self.room / "file"
        trace.write_bytes("\n".join(MARKUP).encode() + END)
        file.write_bytes(b"thread t { }\n")
        judge_picture(self.made(TOP / "tools/msc.py", trace, file), MARKUP, ["t"])
        self.judge_steps_page(trace, file, MARKUP, ["t"])


def judge_lines(rows, lines):
    """Each line must stand once, in order; one more may stand where a fault is at the end of the text."""
    found = [(number, text) for kind, number, text in rows if kind == "line"]
    wanted = [(str(number), text) for number, text in enumerate(lines, 1)]
    if len(found) == len(wanted) + 1 and rows[-1][0] != "line":
        wanted.append((str(len(found)), ""))
    need(found == wanted, "other lines than the program has")


def judge_takes(rows, check, lines):
    """Ahead of each line must stand what `check` takes in it, below the columns of the statements, and nothing else."""
    wanted, section = {}, None
    for line in check.splitlines():
        at = re.fullmatch(r"at (\d+):(\d+) (take .*)", line)
        section = line[8:] if line.startswith("section ") else section
        if at:
            room = min(len(letters(lines[int(at[1]) - 1].encode()[: int(at[2]) - 1])), FARTHEST)
            wanted.setdefault(at[1], []).append((section, room, at[3]))
    ahead = []
    for kind, number, text in rows:
        if kind == "take":
            ahead.append(text)
            continue
        need(kind == "line", f"{kind}: the program is accepted")
        for text, (owner, room, take) in zip(ahead, wanted.get(number, [])):
            space = re.match(r"\s*", text)[0]
            need(len(space) == room, f"{number}: {text} begins at {len(space)} and not at {room}")
            need(text[len(space) :] in (take, f"in {owner}: {take}"), f"{number}: {text} and not {take}")
        need(len(ahead) == len(wanted.pop(number, [])), f"{number}: {len(ahead)} takes")
        ahead = []
    need(not wanted and not ahead, f"no line for {wanted}")


def judge_order(page, check, order):
    """The tables must tell the ranks, or the classes in order where there are none, and the pairs; each class has a colour."""
    named = [line.split('"')[1] for line in order.splitlines()[1:-1] if " -> " not in line]
    wanted = [word for line in check.splitlines() if line.startswith("rank ") for word in line.split(" ")[1:]] or list(named)
    for first, second, section, place in re.findall(r'"(\S+)" -> "(\S+)" \[label="(\w+):(\d+:\d+)"', order):
        wanted += [first, second, f"{section} {place}"]
    need(page.cells == wanted or not order, f"{page.cells} and not {wanted}")
    if order:
        need(page.locks == {(name, f"lock c{at % 8}") for at, name in enumerate(named)}, f"other classes: {page.locks}")


def judge_fault(page, told, data):
    """The fault, its notes and its remedy must stand below the lines that they name, below a caret, and nothing else."""
    place = (told["start"]["line"], told["start"]["column"])
    loose = [f"note: {note['text']}" for note in told["notes"] if "start" not in note]
    words = [f"{place[0]}:{place[1]} {told['code']} {told['text']}", *loose, f"help: {told['remedy']}"]
    wanted = [(place, "fault", "".join(words))]
    for note in told["notes"]:
        if "start" in note:
            at = (note["start"]["line"], note["start"]["column"])
            wanted.append((at, "note", f"{at[0]}:{at[1]} note: {note['text']}"))
    line, column, found = 0, 0, []
    for kind, number, text in page.rows:
        if kind == "line":
            line = int(number)
        elif kind == "caret":
            column = caret_column(text, data, line)
        else:
            found.append(((line, column), kind, text))
    need(sorted(found) == sorted(wanted), f"{sorted(found)} and not {sorted(wanted)}")


def caret_column(text, data, line):
    """The column, in bytes from 1, of a caret below a line."""
    before = text[: text.index("^")]
    piece = (data.split(b"\n") + [b""])[line - 1]
    for column in range(len(piece) + 2):
        room = letters(piece[:column])
        if len(room) == len(before) and [it == "\t" for it in room] == [it == "\t" for it in before]:
            return column + 1
    raise Wrong(f"{line}: a caret at no column")


def judge_picture(svg, lines, names):
    """A picture of the steps that these lines tell."""
    root = ElementTree.fromstring(svg)
    groups = [group for group in root.iter(f"{SVG}g") if group.get("class") == "head"]
    heads = ["".join(group.itertext()) for group in groups]
    need(heads in (names, names * 2), f"heads {heads}")
    columns = [group for group in root.iter(f"{SVG}g") if group.get("class") == "column"]
    need([column.get("data-thread") for column in columns] == [str(it) for it in range(len(names))], "other columns")
    for thread, column in enumerate(columns):
        got = [line.split(" ")[2] for line in lines if line.startswith(f"{thread} got ")]
        bars = [bar for bar in column.iter(f"{SVG}g") if bar.get("class") == "bar"]
        need([bar.get("data-lock") for bar in bars] == got, f"thread {thread}: other bars than {got}")
        need(all(float(bar.find(f"{SVG}rect").get("height")) > 0 for bar in bars), "a bar without height")
        boxes = [rect for rect in column.iter(f"{SVG}rect") if rect.get("class") == "box"]
        need(len(boxes) == sum(line.startswith(f"{thread} began ") for line in lines), f"thread {thread}: {len(boxes)} boxes")


def judge_steps(page, lines, names):
    """What a trace's page tells its script, of the steps that these lines tell."""
    need(len(page.scripts) == 2 and "b" not in page.seen, "an element of the program's text")
    told = json.loads(page.scripts[0])
    need(told["names"] == names and len(told["steps"]) == len(lines), "other names or steps")
    for (thread, row, line, text), wanted in zip(told["steps"], lines):
        thread_of, event = wanted.split(" ", 1)
        place = re.match(r"moved (\d+):", event)
        need(thread == int(thread_of), f"{wanted}: thread {thread}")
        need((row < 0) == (event == "idle"), f"{wanted}: row {row}")
        need(not place or line == int(place[1]), f"{wanted}: line {line}")
        if event.startswith("waits"):
            event = re.sub(r" for (\d+)$", lambda found: f" for {names[int(found[1])]}", event)
        need(text == event, f"{wanted}: {text}")


def tries(judge, files):
    """Each test: its words, and what makes and judges it."""
    for file in files:
        yield f"page.py {file.name}", lambda: judge.judge_page(file)
        if judge.said("check", file).startswith("accepted\n"):
            for seed in (1, 2):
                yield f"msc.py {file.name} {seed}", lambda: judge.judge_trace(file, seed)
    yield "msc.py of markup", judge.judge_markup
    for text in [b"", b"0 idle\n", *(line + END for line in STRANGE)]:
        yield f"msc.py of {text}", lambda: judge.made(TOP / "tools/msc.py", status=1, input=text)


def main():
    passed = failed = 0
    with tempfile.TemporaryDirectory() as room:
        judge = Judge(str(pathlib.Path(sys.argv[1]).resolve()), room)
        files = [pathlib.Path(name) for name in sys.argv[2:]]
        if not files:
            for name, text in HOSTILE.items():
                pathlib.Path(room, name).write_bytes(text)
            files = [*sorted((TOP / "examples").glob("*.al")), *(pathlib.Path(room, name) for name in HOSTILE)]
        for words, test in tries(judge, files):
            try:
                test()
                passed += 1
            except (Wrong, ValueError, KeyError, ElementTree.ParseError) as fault:
                failed += 1
                print(f"{words}: {fault}")
    print(f"{passed} passed, {failed} failed")
    return 1 if failed else 0


if __name__ == "__main__":
    sys.exit(main())
