#!/usr/bin/env python3
"""Compares what the editors' server tells of texts with what the commands tell: tests/lsp_texts.py BIN.

The texts are those of examples/, of tests/rows.json and of tests/explained/, some with other ends of lines, with comments in other
alphabets, and cut or changed by drawn edits. Of each:

- the diagnostics are those of `explain --json`: code, words, severity, range and related places;
- the actions at a fault are what the notes of `explain --json` propose; with one made, an unknown name or what lacks a lock is none any more;
- the edits that lay it out anew give what `format` writes, and there are none where that is the text;
- the inlay hints are the lists of `check`, at their places, also where a part of the lines is asked for;
- the declaration of each name, by a rule of its own: a name after no dot is the local of its section, else the name of the top
  level; the references of it are the names with the same declaration; a new name is put at just these;
- what is told of each name, members too, is its declaration with the class of its lock and the rank that `check` has
  (tests/declared_names.py); at a statement that begins with a keyword what `check` takes there is told.

The last line is `N texts, M answers compared`; the status is 1 where one is other than wanted."""
import functools
import json
import os
import pathlib
import random
import re
import subprocess
import sys
import tempfile

sys.dont_write_bytecode = True
TOP = pathlib.Path(__file__).resolve().parent.parent
sys.path.insert(0, str(TOP / "tests"))
from declared_names import KEYWORDS, hovers_wanted
from lsp import BEGIN, END, call, document, frame, frames_of, place

URI = "file:///a%20b.al"
CUTS = 40
FAULTY = [
    "lock G;\nstruct S { int x protected_by(G); }\npool S p[1];\nglobal ref S r protected_by(G);\natomic f() { r = nul; }\n",
    "lock G;\nglobal int a // one; = two\n [ // three\n 3];\n",
    "lock G;\nglobal ref S r = // one;\n p[0];\nstruct S { lock l; int x; }\npool S p[1];\n",
    "struct S { final ref S s; lock l; int x // = ;\n; }\n",
    ";lock G;\n",
    "lock Lo; global int n\rprotected_by(La);",
]
GAP = r"(?:\s|//[^\n]*)*"


def replies(program, bodies):
    """What the server answers, by id; and the diagnostics that it publishes."""
    done = subprocess.run([program, "lsp"], input=b"".join(map(frame, BEGIN + bodies + END)), capture_output=True, timeout=60)
    assert done.returncode == 0 and not done.stderr, (done.returncode, done.stderr)
    frames = frames_of(done.stdout)
    told = [one["params"] for one in frames if one.get("method") == "textDocument/publishDiagnostics"]
    return {one["id"]: one for one in frames if "id" in one}, told


def say(program, *words):
    done = subprocess.run([program, *words], capture_output=True, timeout=60)
    return done.returncode, done.stdout.decode()


def character(text, position):
    """The character at a line and a column in bytes, both from 1, of which lines end at LF alone."""
    lines = text.encode().split(b"\n")
    byte = sum(len(line) + 1 for line in lines[: position["line"] - 1]) + position["column"] - 1
    return sum(one & 0xC0 != 0x80 for one in text.encode()[:byte])


def at(text, position):
    """The protocol's position of it."""
    return place(text, character(text, position))


@functools.cache
def remedy_of(program, code):
    """What can be done about a fault of this code."""
    _, page = say(program, "explain", code)
    return next(line for line in page.splitlines() if line.startswith("help: ")).removeprefix("help: ")


def diagnostics_wanted(program, text, told):
    def span(one):
        return {"end": at(text, one["end"]), "start": at(text, one["start"])}

    if told["accepted"]:
        return [{"message": one["text"], "range": span(one), "severity": 2, "source": "autolock"} for one in told["warnings"]]
    words = [told["text"]] + [note["text"] for note in told["notes"] if "start" not in note] + [told["remedy"]]
    related = [{"location": {"range": span(note), "uri": URI}, "message": note["text"]} for note in told["notes"] if "start" in note]
    first = {"code": told["code"], "message": "\n".join(words), "range": span(told), "relatedInformation": related, "severity": 1,
             "source": "autolock"}
    return [first] + [{"code": one["code"], "message": f"{one['text']}\n{remedy_of(program, one['code'])}", "range": span(one), "severity": 1,
                       "source": "autolock"} for one in told["further"]]


def changes_wanted(text, told):
    """What the notes on a fault propose: a title, where what is replaced begins and ends, and what is written."""
    found = []
    for note in [] if told["accepted"] else told["notes"]:
        start, end = character(text, told["start"]), character(text, told["end"])
        name = re.fullmatch(r"(\w+) could be meant, and is declared here|`(null)` could be meant", note["text"])
        lock = re.fullmatch(r"(\w+) could protect it: (protected_by\(\1\))", note["text"])
        if told["code"] == "E06" and name:
            found.append((f"write {name[1] or name[2]}", start, end, name[1] or name[2]))
        elif told["code"] == "E10" and lock:
            length = re.match(rf"{GAP}\[{GAP}\d+{GAP}\]", text[end:])
            behind = end + (length.end() if length else 0)
            found.append((f"write {lock[2]}", behind, behind, f" {lock[2]}"))
        elif note["text"] == "a `;` may be missing after this":
            behind = character(text, note["end"])
            found.append(("write ;", behind, behind, ";"))
        elif note["text"] == "leave this `;` out":
            found.append(("leave it out", start, end, ""))
    return found


def actions_wanted(text, changes):
    found = []
    for title, start, end, new in changes:
        edit = {"newText": new, "range": {"end": place(text, end), "start": place(text, start)}}
        found.append({"edit": {"changes": {URI: [edit]}}, "kind": "quickfix", "title": title})
    return found


def edits_wanted(text, status, out):
    """No edit where the text is its own layout; else one of the whole text; `null` where it has none."""
    if status != 0:
        return None
    return [] if out == text else [{"newText": out, "range": {"end": place(text, len(text)), "start": place(text, 0)}}]


def hints_wanted(text, said):
    found = []
    for line in said.splitlines():
        it = re.match(r"at (\d+):(\d+) (take .*)", line)
        if it:
            found.append((at(text, {"line": int(it[1]), "column": int(it[2])}), it[3]))
    return sorted({(one["line"], one["character"], words) for one, words in found})


def names_wanted(text):
    """Each name that stands after no dot and no `where`, outside structs, with the place of its declaration."""
    plain = re.sub(r"//[^\n]*", lambda it: " " * len(it[0]), text)
    depth, start, pieces = 0, 0, []
    for at_, one in enumerate(plain):
        depth += (one == "{") - (one == "}")
        if depth == 0 and one in "};":
            pieces.append((start, at_ + 1))
            start = at_ + 1
    top, local = {}, {}
    for begin, end in pieces:
        piece = plain[begin:end]
        it = re.match(r"\s*(?:struct|atomic|call|thread|lock)\s+(\w+)|\s*global\s+(?:int|ref\s+\w+)\s+(\w+)|\s*pool\s+\w+\s+(\w+)", piece)
        if it:
            group = it.lastindex
            top.setdefault(it[group], begin + it.start(group))
        if re.match(r"\s*(atomic|call)\b", piece):
            head = piece[: piece.index("{")]
            for it in re.finditer(r"(?:\bint|\bref\s+\w+)\s+(\w+)\s*(?=[,)])", head):
                local[begin, it[1]] = begin + it.start(1)
            for it in re.finditer(r"\b(?:let|var)\s+(\w+)", piece):
                local[begin, it[1]] = begin + it.start(1)
    found = []
    for it in re.finditer(r"[A-Za-z_]\w*", plain):
        before = plain[: it.start()].rstrip()
        piece = next((begin for begin, end in pieces if begin <= it.start() < end), None)
        if it[0] in KEYWORDS or before.endswith(".") or re.search(r"\bwhere$", before) or re.search(r"\bprotected_by\s*\($", before):
            continue
        if piece is None or re.match(r"\s*struct\b", plain[piece:]):
            continue
        found.append((it[0], it.start(), local.get((piece, it[0]), top.get(it[0]))))
    return found


class Judge:
    def __init__(self, program):
        self.program, self.texts, self.compared, self.titles = program, 0, 0, set()
        self.room = tempfile.TemporaryDirectory()
        self.file = os.path.join(self.room.name, "a.al")

    def equal(self, what, text, got, want):
        self.compared += 1
        assert got == want, (what, "got", got, "wanted", want, text)

    def text(self, text, names=False):
        """Compares what is told of a text; of whole programs the names too."""
        self.texts += 1
        pathlib.Path(self.file).write_bytes(text.encode())
        told = json.loads(say(self.program, "explain", "--json", self.file)[1])
        bodies = [call("textDocument/didOpen", document(URI, text))]
        lines = len(re.split(r"\r\n|\n|\r", text))
        everything = {"start": {"line": 0, "character": 0}, "end": {"line": lines, "character": 0}}
        middle = {"start": {"line": lines // 3, "character": 0}, "end": {"line": 2 * lines // 3, "character": 0}}
        bodies += [call("textDocument/inlayHint", document(URI) | {"range": span}, whom) for span, whom in ((everything, 2), (middle, 3))]
        bodies.append(call("textDocument/formatting", document(URI) | {"options": {"tabSize": 8, "insertSpaces": False}}, 4))
        fault = at(text, told.get("start", {"line": 1, "column": 1}))
        for spot, whom in ((fault, 5), ({"line": 0, "character": 0}, 6)):
            asked = {"context": {"diagnostics": []}, "range": {"start": spot, "end": spot}}
            bodies.append(call("textDocument/codeAction", document(URI) | asked, whom))
        wanted = names_wanted(text) if names else []
        for number, (_, start, _) in enumerate(wanted):
            asked = document(URI) | {"position": place(text, start)}
            bodies.append(call("textDocument/definition", asked, f"d{number}"))
            bodies.append(call("textDocument/references", asked | {"context": {"includeDeclaration": True}}, f"r{number}"))
        hovered = self.hovered(text) if names else []
        for number, (start, _) in enumerate(hovered):
            bodies.append(call("textDocument/hover", document(URI) | {"position": place(text, start)}, f"h{number}"))
        got, published = replies(self.program, bodies)
        self.equal("diagnostics", text, published, [{"diagnostics": diagnostics_wanted(self.program, text, told), "uri": URI}])
        self.actions(text, told, got)
        self.equal("edits", text, got[4]["result"], edits_wanted(text, *say(self.program, "format", self.file)))
        self.hints(text, got, lines)
        self.names(text, wanted, got)
        for number, (start, judge) in enumerate(hovered):
            self.equal(f"what is told at {start}", text, *judge(got[f"h{number}"]["result"]))

    def hovered(self, text):
        """Where to ask what is told, and what to compare of the answer with what."""
        status, out = say(self.program, "check", self.file)
        ranks = {it[2]: it[1] for it in re.finditer(r"^rank (\d+) (.*)$", out, re.M)} if status == 0 else {}

        def name_judge(name, start, words):
            ends = {"end": place(text, start + len(name)), "start": place(text, start)}
            if words is None:
                return lambda told: ("markdown" in json.dumps(told), False)
            return lambda told: (told, {"contents": {"kind": "markdown", "value": words}, "range": ends})

        def statement_judge(taken):
            return lambda told: (told["contents"]["kind"] == "plaintext" and f", {taken}\n" in told["contents"]["value"], True)

        found = [(start, name_judge(name, start, words)) for name, start, words in hovers_wanted(text, ranks)]
        lines = text.split("\n")
        for it in re.finditer(r"^at (\d+):(\d+) (take .*)$", out, re.M):
            line, column = int(it[1]) - 1, int(it[2]) - 1
            if re.match(r"[a-z]*", lines[line][column:])[0] in KEYWORDS:
                found.append((sum(len(one) + 1 for one in lines[:line]) + column, statement_judge("takes" + it[3][4:])))
        return found

    def actions(self, text, told, got):
        changes = changes_wanted(text, told)
        wanted = actions_wanted(text, changes)
        self.equal("actions", text, got[5]["result"], wanted)
        is_first = not told["accepted"] and character(text, told["start"]) == 0
        self.equal("actions elsewhere", text, got[6]["result"], wanted if is_first else [])
        for title, start, end, new in changes:
            self.titles.add((told["code"], "write protected_by" if new.startswith(" ") else title if told["code"] == "E03" else new == "null"))
            if told["code"] in ("E06", "E10"):
                pathlib.Path(self.file).write_bytes((text[:start] + new + text[end:]).encode())
                mended = json.loads(say(self.program, "explain", "--json", self.file)[1])
                is_same = not mended["accepted"] and (mended["code"], mended["start"]) == (told["code"], told["start"])
                self.equal("the fault, mended", text, is_same, False)
                pathlib.Path(self.file).write_bytes(text.encode())

    def hints(self, text, got, lines):
        status, out = say(self.program, "check", self.file)
        want = hints_wanted(text, out) if status == 0 else []
        found = [(one["position"]["line"], one["position"]["character"], one["label"]) for one in got[2]["result"]]
        self.equal("hints", text, sorted(set(found)), want)
        self.equal("the order of hints", text, [one[:2] for one in found], sorted(one[:2] for one in found))
        part = [(one["position"]["line"], one["position"]["character"], one["label"]) for one in got[3]["result"]]
        self.equal("hints of lines", text, part, [one for one in found if lines // 3 <= one[0] <= 2 * lines // 3])

    def names(self, text, wanted, got):
        for number, (name, start, declared) in enumerate(wanted):
            found = got[f"d{number}"]["result"]
            want = None
            if declared is not None:
                want = {"range": {"end": place(text, declared + len(name)), "start": place(text, declared)}, "uri": URI}
            self.equal(f"definition of {name} at {start}", text, found, want)
            others = [place(text, other) for _, other, where in wanted if declared is not None and where == declared]
            places = [one["range"]["start"] for one in got[f"r{number}"]["result"]]
            self.equal(f"references of {name} at {start}", text, [one for one in others if one not in places], [])


def main():
    judge = Judge(os.path.realpath(sys.argv[1]))
    examples = [path.read_text() for path in sorted((TOP / "examples").glob("*.al"))]
    for text in examples:
        judge.text(text, names=True)
    for text in examples[:6]:
        judge.text(text.replace("\n", "\r\n"))
        judge.text("// \U0001f600 \u00e9\n" + text.replace("\n", " // \u4e16\u754c \U0001f512\n"))
    cases = json.loads((TOP / "tests" / "rows.json").read_text())
    for case in cases:
        judge.text(case["files"].get("F", ""))
    for path in sorted((TOP / "tests" / "explained").glob("*.al")):
        judge.text(path.read_text())
    for text in FAULTY:
        judge.text(text)
        judge.text(text.replace("\n", " // \u4e16\u754c \U0001f512\r\n"))
        judge.text("// \U0001f600\r\n" + text)
    chance = random.Random(1)
    for _ in range(CUTS):
        text = chance.choice(examples)
        start = chance.randrange(len(text))
        judge.text(text[:start] + chance.choice(["", "x", "}", " = ", "\u00e9", "let int"]) + text[start + chance.randrange(12) :])
    kinds = {("E03", "leave it out"), ("E03", "write ;"), ("E06", False), ("E06", True), ("E10", "write protected_by")}
    assert judge.titles == kinds, judge.titles
    print(f"{judge.texts} texts, {judge.compared} answers compared")


if __name__ == "__main__":
    main()
