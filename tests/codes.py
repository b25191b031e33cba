#!/usr/bin/env python3
"""Compares what `autolock explain CODE` writes with docs/LANGUAGE.md, over a built program.

    tests/codes.py BIN

The page of each code has to say, in this order, what the section of the code says under "Faults": its heading; the text before the
first program; that program, indented by four; behind `help: ` the remedy that `explain` tells of that program; and the first
remedy beyond that, if there is one. Words are compared, wherever their lines end. The program has to have a fault of that code. Any other
code is refused, and so is each spelling that is none: it is taken for a file.

The last line is 'N passed, M failed'; the status is 1 where M is not 0.
"""
import pathlib
import re
import subprocess
import sys
import tempfile

TOP = pathlib.Path(__file__).resolve().parent.parent
WIDTH = 80


def sections():
    """Of each code its heading, the text before its first program, that program, and the first remedy beyond `help`, if any."""
    page = (TOP / "docs" / "LANGUAGE.md").read_text()
    faults = page.split("\n## Faults\n")[1].split("\n## ")[0]
    for part in faults.split("\n### ")[1:]:
        heading, body = part.split("\n", 1)
        before, rest = body.split("```al\n", 1)
        remedy = re.search(r"^\*\*Remedy\.\*\* (.*)$", rest, re.M)
        yield heading, before, rest.split("```\n", 1)[0], remedy[1] if remedy else ""


def plain(text):
    """The words of a text, without links and stress."""
    text = re.sub(r"\[([^\]]*)\]\([^)]*\)", r"\1", text)
    return re.sub(r"\*([^*`]+)\*", r"\1", text).split()


class Judge:
    def __init__(self, program):
        self.program, self.passed, self.failed = program, 0, 0

    def judge(self, what, is_right):
        self.passed += is_right
        self.failed += not is_right
        if not is_right:
            print(f"FAILED {what}")

    def run(self, room, *words):
        done = subprocess.run([self.program, *words], cwd=room, capture_output=True, stdin=subprocess.DEVNULL, timeout=60)
        return done.returncode, done.stdout.decode(), done.stderr.decode()

    def page(self, room, heading, before, program, remedy):
        code = heading.split()[0]
        status, out, err = self.run(room, "explain", code)
        self.judge(f"{code}: status and messages", (status, err) == (0, ""))
        self.judge(f"{code}: with a small e", self.run(room, "explain", code.lower()) == (status, out, err))
        lines = [line for line in out.split("\n") if not line.startswith(("    ", "help: "))]
        self.judge(f"{code}: no line is too long", all(len(line) <= WIDTH for line in lines))
        (pathlib.Path(room) / "one.al").write_text(program)
        _, told, _ = self.run(room, "explain", "one.al")
        self.judge(f"{code}: its program has that fault", bool(re.match(rf"one\.al:\d+:\d+: {re.escape(heading)}\b", told)))
        help_line = next((line for line in told.split("\n") if line.startswith("help: ")), "")
        indented = "".join(f"    {line}\n" for line in program.rstrip("\n").split("\n"))
        parts = out.split("\n" + indented + "\n", 1)
        self.judge(f"{code}: the program", len(parts) == 2)
        head, tail = (parts + [""])[:2]
        self.judge(f"{code}: the words before it", head.split() == heading.split() + plain(before))
        self.judge(
            f"{code}: the words behind it",
            tail.split("\n")[0] == help_line and tail.split() == help_line.split() + plain(remedy) + ["More:", "docs/LANGUAGE.md"],
        )


def main(program):
    judge = Judge(str(pathlib.Path(program).resolve()))
    with tempfile.TemporaryDirectory() as room:
        all_of = list(sections())
        judge.judge("twenty codes", [it[0].split()[0] for it in all_of] == [f"E{n:02}" for n in range(1, 21)])
        for it in all_of:
            judge.page(room, *it)
        for code in ["E00", "E21", "e99"]:
            status, out, err = judge.run(room, "explain", code)
            judge.judge(f"{code}: refused", (status, out) == (2, "") and "no such code" in err)
        for word in ["E1", "E011", "F01", "E0x", "./E01"]:
            judge.judge(f"{word}: a file", judge.run(room, "explain", word) == (3, "", f"autolock: cannot read {word}\n"))
        judge.judge("--json takes a file", judge.run(room, "explain", "--json", "E01") == (3, "", "autolock: cannot read E01\n"))
        (pathlib.Path(room) / "E01").write_text("lock G;\n")
        judge.judge("a file named as a code", judge.run(room, "explain", "./E01")[1].startswith("accepted\n"))
    print(f"{judge.passed} passed, {judge.failed} failed")
    return 1 if judge.failed else 0


if __name__ == "__main__":
    sys.exit(main(*sys.argv[1:]))
