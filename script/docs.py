#!/usr/bin/env python3
"""Writes what is a table of facts into the documents, each between its marks:

    <!-- NAME: made by script/docs.py -->
    ..
    <!-- end -->

    docs.py            writes the tables into the pages that have their marks, and docs/BELIEVED.md
    docs.py --check    writes nothing; prints each page that is not today's, and then ends with status 1

NAME is one of

    crates      the groups of crates.txt, and for each crate the first sentence of its head (`//!` of lib.rt or main.rt)
    commands    each command with its arguments and what it does, from script/help, which tests/words.sh compares with the
                program
    notes       the notes that `explain` writes on each code, from the definitions whose comments begin with codes, as `E05`
    figures_..  what the benches printed, by script/figures.py

docs/BELIEVED.md is made as a whole, by tests/believed.py.
"""
import pathlib
import re
import sys

TOP = pathlib.Path(__file__).resolve().parent.parent
PAGES = [TOP / "README.md", TOP / "CONTRIBUTING.md", *sorted((TOP / "docs").glob("*.md"))]
MARKED = re.compile(r"(<!-- (\w+): made by script/docs\.py -->\n).*?(<!-- end -->)", re.S)
BELIEVED = TOP / "docs" / "BELIEVED.md"
sys.path.insert(0, str(TOP / "tests"))
import believed  # noqa: E402
import figures  # noqa: E402


def first_sentence(crate):
    """The first sentence of the head of `crate`, without links."""
    paths = (TOP / "crates" / crate / "src" / f"{name}.rt" for name in ("lib", "main"))
    text = next(path.read_text() for path in paths if path.exists())
    head = " ".join(line[3:].strip() for line in re.search(r"^(?://! .*\n)+", text, re.M).group().splitlines())
    head = re.split(r"(?<=[^.]\.) (?=[A-Z`\[])", head)[0]
    return re.sub(r"\[(`[^`]+`)\]", r"\1", head)


def crates():
    """A heading and a table for each group of crates.txt, in its order."""
    lines = []
    for line in (TOP / "crates.txt").read_text().splitlines():
        group, crate = re.match(r"# (.*[^:])$", line), re.match(r"(\w+)[^:]*:", line)
        if group and "NAME:" not in line:
            lines += ["", f"### {group.group(1)}", "", "| Crate | What it is |", "|---|---|"]
        elif crate:
            lines.append(f"| `{crate.group(1)}` | {first_sentence(crate.group(1))} |")
    return "\n".join([*lines, "", ""])


def commands():
    """A row for each command, in the order of the program's help."""
    folder = TOP / "script" / "help"
    listed = (folder / "autolock.txt").read_text().split("Commands:\n")[1].split("\n\n")[0]
    rows = ["| Command | What it does |", "|---|---|"]
    for name in re.findall(r"^  (\w+)", listed, re.M):
        text = (folder / f"{name}.txt").read_text()
        usage = re.search(rf"^Usage: autolock ({name}.*)$", text, re.M).group(1)
        options = re.findall(r"^ +(?:-\w, )?(--\w[\w-]*(?: <\w+>)?)", text, re.M)
        options = "".join(f"[{it}] " for it in options if it != "--help")
        usage = usage.replace("[OPTIONS] ", options).replace("<", "").replace(">", "").replace("|", "\\|")
        rows.append(f"| `{usage.strip()}` | {text.splitlines()[0].rstrip('.')} |")
    return "\n".join([*rows, ""])


# The definitions of the words of notes; what stands for the terms in these words, by the function or the last field.
NOTES = [
    *(f"explanation_tokens/specs/{name}.antt" for name in ("Advice", "Expected")),
    *(f"explanation_faults/specs/{name}.antt" for name in ("TextNotes", "FaultNotes", "ReasonNotes", "VarNotes")),
    *(f"explanation_faults/specs/{name}.antt" for name in ("LimitsPassed", "AmountsPassed", "HelperLimits")),
]
STAND = {
    **dict.fromkeys(("type_words", "kind_words", "want_words"), ["TYPE"]),
    "referent_words": ["KIND"],
    "role_words": [", and KIND is expected", ", and keeps what it is"],
    **dict.fromkeys(("hint_words", "said_first", "[]"), [""]),
    **{"flat_map": ["ADVICE"], "candidate_text": ["W"], "candidate_texts": [", W, .."], "decimal": ["N"]},
    **{"i.field.text": ["FIELD"], "p.name.text": ["POOL"], "x.text": ["NAME"]},
}


def terms(text, between):
    """The parts of a term, cut at `between` where it is outside of brackets and strings."""
    parts, depth = [""], 0
    for piece in re.findall(rf'"(?:[^"\\]|\\.)*"|{re.escape(between)}|.', text):
        depth += (piece == "(") - (piece == ")")
        if piece == between and depth == 0:
            parts.append("")
        else:
            parts[-1] += piece
    return [part.strip() for part in parts if part.strip()]


def said(term, sides):
    """The texts that a term can be. `sides` has the right sides of each definition of words."""
    texts = [""]
    for part in terms(term, "++"):
        head, *given = terms(part, " ")
        if head == "codes":
            own = [given[0][1:-1]]
        elif head in ("name_note", "note_on", "note_of_all"):
            own = [("NAME" if head == "name_note" else "") + text for text in said(given[-1], sides)]
        elif head.startswith("("):
            own = said(head[1:-1], sides)
        else:
            own = STAND[head] if head in STAND else [text for side in sides[head] for text in said(side, sides)]
        texts = [text + more for text in texts for more in own]
    return [text for text in texts if text]


def notes():
    """A row for each definition of the words of a note, in the order of the codes."""
    sides, listed, rows = {}, [], []
    for block in "\n\n".join((TOP / "crates" / path).read_text() for path in NOTES).split("\n\n"):
        comment, text = re.match(r"((?:-- [^\n]*\n)*)(.*)", block, re.S).groups()
        name = re.match(r"(?:(?:abbrev|data|pub) )+(\w+)", text)
        if name:
            lines = re.sub(r"\n +", " ", text).splitlines()[1:]
            sides[name[1]] = [line.split(" = ", 1)[1] for line in lines if " = " in line] or re.findall(r'codes "[^"]*"', text)
            listed.append((re.match(r"(E\d\d)(?: and (E\d\d))?, (.*)", comment.replace("\n-- ", " ")[3:].strip()), name[1]))
    for marked, name in listed:
        if marked:
            codes = ", ".join(f"`{code}`" for code in marked.groups()[:2] if code)
            texts = [f"`` {text} ``" if "`" in text else f"`{text}`" for side in sides[name] for text in said(side, sides)]
            rows.append(f"| {codes} | {', '.join(texts)} | {marked[3]} |")
    return "\n".join(["| Code | `WORDS` | For what, and where |", "|---|---|---|", *sorted(rows, key=lambda row: row[:7]), ""])


TABLES = {"crates": crates, "commands": commands, "notes": notes, **figures.tables()}


def made(path):
    """The page at `path` as it has to be."""
    if path == BELIEVED:
        return believed.page()
    return MARKED.sub(lambda it: it.group(1) + TABLES[it.group(2)]() + it.group(3), path.read_text())


def main():
    stale = []
    for path in dict.fromkeys([*PAGES, BELIEVED]):
        text = made(path)
        if not path.exists() or path.read_text() != text:
            stale.append(path.relative_to(TOP))
            if sys.argv[1:] != ["--check"]:
                path.write_text(text)
    if sys.argv[1:] == ["--check"]:
        for path in stale:
            print(f"{path} is not today's: script/docs.py")
        print(f"{len(PAGES)} pages, {len(stale)} failed")
        return 1 if stale else 0
    print("\n".join(map(str, stale)) or "nothing to write")
    return 0


if __name__ == "__main__":
    sys.exit(main())
