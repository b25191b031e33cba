#!/usr/bin/env python3
"""Judges what `autolock explain --json` writes of programs by what `explain` writes of them.

    tests/explanations.py [--program BIN] [FILE..]

FILE..    programs, by default those of examples/, tests/explained/ and docs/LANGUAGE.md, some whose names and bytes need escapes, and some at limits of the
          language and past them, whose notes must say which limit that is

The line must be one JSON object. From it and the program's bytes the script makes the text of `explain`, which must be the
same byte for byte; where words end it finds by the rule of docs/FORMATS.md. The last line is 'N programs, M failed'; exit status 1 where M is
not 0.
"""
import argparse
import json
import pathlib
import re
import subprocess
import sys
import tempfile

TOP = pathlib.Path(__file__).resolve().parent.parent
POSITION = {"line", "column"}
FAULT = {"accepted", "code", "end", "file", "further", "more", "notes", "remedy", "start", "text"}
# Names of files and texts whose bytes a JSON string or a line of a terminal can't have as they are.
HARD = {
    'a "quoted".al': b"lock G;\nglobal int n;\n",
    "back\\slash.al": b"\tglobal int n;\n",
    "line\nfeed\x01.al": b"lock G; # \xc3\xa9 \x00\n",
    "h\u00e4tte \u20ac \U0001d11e.al": b"lock G;\nlock G;\n",
    "empty.al": b"",
    "long.al": b"lock " + b"a" * 70 + b";\n",
    "end.al": b"lock G",
    "mark.al": b"\xef\xbb\xbflock G;\n",
}
SOURCE = "a source has at most 1048576 bytes"
NAME = "a name has at most 64 bytes"
FINALS = "an annotation goes over at most 3 final references"
RING = b"struct Node { lock l; final ref Node up; int v protected_by(%s); }\npool Node ring[1];\ninit ring[0].up = ring[0];\nlock G;\n"
# Programs at a limit and past it, with what a note says of the limit, if one does.
LIMITED = {
    "source_of_most.al": (b"lock G;\n" + b" " * (1048576 - 8), None),
    "source_too_long.al": (b"lock G;\n" + b" " * (1048577 - 8), SOURCE),
    "source_too_long_with_name.al": (b"lock " + b"a" * 1048576, SOURCE),
    "name_of_most.al": (b"lock " + b"a" * 64 + b";\n", None),
    "name_too_long.al": (b"lock G;\nlock " + b"a" * 65 + b";\n", NAME),
    "name_too_long_behind.al": (b"lock G;\nlock #; lock " + b"a" * 65 + b";\n", None),
    "three_finals.al": (RING % b"up.up.up.l", None),
    "four_finals.al": (RING % b"up.up.up.up.l", FINALS),
    "five_finals.al": (RING % b"up.up.up.up.up.l", FINALS),
    "four_finals_of_global.al": (RING % b"l" + b"global int n protected_by(up.up.up.up.l);\n", None),
    "four_finals_of_array.al": (RING % b"l" + b"global int n[2] protected_by(up.up.up.up.l);\n", None),
    "three_finals_and_field.al": (RING % b"up.up.up.v.l", None),
}


def byte_of(text, position):
    """The byte that a line and a column name, from 0."""
    lines = text.split(b"\n")
    return sum(len(line) + 1 for line in lines[: position["line"] - 1]) + position["column"] - 1


def position_of(text, at):
    """The line and the column of a byte."""
    return {"line": text.count(b"\n", 0, at) + 1, "column": at - (text.rfind(b"\n", 0, at) + 1) + 1}


def end_of(text, at):
    """Behind the word that begins there, of which 64 bytes are looked at, or behind the one byte."""
    word = re.compile(rb"[A-Za-z0-9_]{1,64}").match(text, at)
    return word.end() if word else min(len(text), at + 1)


def shown_byte(byte):
    if byte == 9:
        return b" " * 8
    if byte == 13:
        return b""
    return bytes([byte]) if 32 <= byte <= 126 else b"<%02X>" % byte


def shown(part):
    return b"".join(shown_byte(byte) for byte in part)


def place_text(text, at):
    """The line of a place, and the caret below it."""
    before = text[text.rfind(b"\n", 0, at) + 1 : at]
    after = text[at:].split(b"\n", 1)[0]
    left = (b".." if len(before) > 60 else b"") + shown(before[-60:])
    right = shown(after[:60]) + (b".." if len(after) > 60 else b"")
    return b"  " + left + right + b"\n  " + b" " * len(left) + b"^\n"


def placed(text, name, told, words):
    """A line on a place, and the place; its start and its end must be those of one word."""
    start, end = told["start"], told["end"]
    assert set(start) == set(end) == POSITION, f"a position has {sorted(start)} and {sorted(end)}"
    at = byte_of(text, start)
    assert position_of(text, at) == start, f"{start} is no place of the text"
    assert position_of(text, end_of(text, at)) == end, f"what begins at {start} doesn't end at {end}"
    line = f"{name}:{start['line']}:{start['column']}: {words}\n"
    return line.encode() + place_text(text, at)


def text_of(text, name, told):
    """What `explain` writes, by the object."""
    notes = b""
    for note in told["notes"]:
        if set(note) == {"text"}:
            notes += f"note: {note['text']}\n".encode()
        else:
            assert set(note) == {"end", "start", "text"}, f"a note has {sorted(note)}"
            notes += placed(text, name, note, f"note: {note['text']}")
    if told["accepted"]:
        assert set(told) == {"accepted", "file", "notes", "warnings"}, f"an accepted program has {sorted(told)}"
        for warning in told["warnings"]:
            assert set(warning) == {"end", "start", "text"}, f"a warning has {sorted(warning)}"
            notes += placed(text, name, warning, f"warning: {warning['text']}")
        return b"accepted\n" + notes
    assert set(told) == FAULT, f"a fault has {sorted(told)}"
    head = placed(text, name, told, f"{told['code']} {told['text']}")
    further = b""
    for fault in told["further"]:
        assert set(fault) == {"code", "end", "start", "text"}, f"a further fault has {sorted(fault)}"
        further += placed(text, name, fault, f"{fault['code']} {fault['text']}")
    more = b"there are more faults\n" if told["more"] else b""
    return head + notes + f"help: {told['remedy']}\n".encode() + further + more


def judge(program, folder, name):
    text = (folder / name).read_bytes()
    plain = subprocess.run([program, "explain", "--", name], cwd=folder, capture_output=True, timeout=60)
    ended = subprocess.run([program, "explain", "--json", "--", name], cwd=folder, capture_output=True, timeout=60)
    assert ended.returncode == plain.returncode, f"status {ended.returncode}, without --json {plain.returncode}"
    assert not ended.stderr, "something is on standard error"
    assert ended.stdout.count(b"\n") == 1 and ended.stdout.endswith(b"\n"), "not one line"
    told = json.loads(ended.stdout.decode())
    assert told["file"] == name, f"the file is {told['file']!r}"
    assert told["accepted"] == (ended.returncode == 0), f"accepted is {told['accepted']}"
    assert text_of(text, name, told) == plain.stdout, "another text than explain's"
    if name in LIMITED:
        said = [note["text"] for note in told["notes"] if note["text"] in (SOURCE, NAME, FINALS)]
        assert said == [words for words in LIMITED[name][1:] if words], f"of limits {said} is said"


def programs_of(page):
    """The programs of the page."""
    return [block.encode() for block in re.findall(r"^```al\n(.*?)^```$", page.read_text(), re.M | re.S)]


def main():
    p = argparse.ArgumentParser()
    p.add_argument("--program", default=TOP / "autolock")
    p.add_argument("files", nargs="*", type=pathlib.Path)
    args = p.parse_args()
    program = pathlib.Path(args.program).resolve()
    with tempfile.TemporaryDirectory() as work:
        work = pathlib.Path(work)
        for name, text in HARD.items() if not args.files else ():
            (work / name).write_bytes(text)
        for name, (text, _) in LIMITED.items() if not args.files else ():
            (work / name).write_bytes(text)
        for i, text in enumerate(programs_of(TOP / "docs/LANGUAGE.md") if not args.files else ()):
            (work / f"language{i}.al").write_bytes(text)
        kept = sorted((TOP / "examples").glob("*.al")) + sorted((TOP / "tests/explained").glob("*.al"))
        files = args.files or kept + sorted(work.iterdir())
        failed = 0
        for file in files:
            try:
                judge(program, file.resolve().parent, file.name)
            except (AssertionError, KeyError, TypeError, ValueError) as wrong:
                failed += 1
                print(f"FAILED {file}: {wrong}")
    print(f"{len(files)} programs, {failed} failed")
    return 1 if failed or not files else 0


if __name__ == "__main__":
    sys.exit(main())
