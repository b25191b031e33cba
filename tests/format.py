#!/usr/bin/env python3
"""Judges what `autolock format` writes, by a reader of texts of its own.

    format.py BIN [--count N] [--seed N] [FILE ..]

The programs are those of FILE .., else of examples/, tests/explained/ and docs/LANGUAGE.md, and
some that are drawn. Each is formatted as
it is, and N times (by default 20) with other white space and comments between its tokens. Of each:

- the tokens are the same, and the comments, but for blanks at their ends, in their places among the tokens;
- a comment that stood alone on its line still does, and no other does;
- no line is blank at the beginning or the end of the text, behind an opening brace, before a closing one, or behind another;
  no line ends in a blank, and the last one has an end; a line begins with two spaces for each block around it, and two more
  within a statement;
- a line has one statement or declaration, but for blocks on one line and what `init` begins;
- formatted again it stays as it is;
- `check` says the same of both, with the place of a fault at the same token.

Texts with a byte or a token changed are refused as `check` refuses them, where it does so for a fault of tokens or of
grammar; else they are formatted. The last line is `N passed, M failed`.
"""
import argparse
import pathlib
import random
import re
import subprocess
import sys
import tempfile

sys.dont_write_bytecode = True
TOP = pathlib.Path(__file__).resolve().parent.parent
sys.path.insert(0, str(TOP / "tests"))
import helper_programs

PIECE = re.compile(rb"(?P<feed>\n)|(?P<blank>[ \t\r]+)|(?P<comment>//[^\n]*)|(?P<token>[A-Za-z_]\w*|\d+|[=!<>]=|&&|\|\||.)", re.S)
# Faults of tokens and of grammar; E15 may be one of tokens, or of names and types.
OF_TEXT = {b"E01", b"E02", b"E03", b"E04", b"E18"}
BLANKS = [b" ", b"  ", b"\t", b"\r", b"\n", b"\n\n", b"\n\n\n", b"\r\n", b" \n \n"]
COMMENTS = [b"//\n", b"// words \t\n", b" // a; b {\n", b"\n//x\n", b"\n\n  // \xc3\xa9 // y\r\n\n"]
SPOILS = [b"(", b"}", b"{", b";", b"if", b"return 1;", b"&", b"$", b"99999999999999999999", b"/", b"a" * 65, b"else", b"-"]


def pieces(text):
    """Its tokens and comments: what, the bytes, where, and whether a comment stands alone on its line."""
    found, alone = [], True
    for match in PIECE.finditer(text):
        what = match.lastgroup
        if what == "feed":
            alone = True
        elif what != "blank":
            found.append((what, match.group().rstrip(b" \t\r"), match.start(), alone and what == "comment"))
            alone = False
    return found


def respaced(text, chance):
    """The same tokens with other gaps, and now and then a comment."""
    out, before = [], b""
    for what, piece, _, _ in pieces(text):
        if what == "comment":
            out += [chance.choice([b" ", b"\n", b""]), piece, b"\n"]
            before = b""
            continue
        gap = b"".join(chance.choice(BLANKS) for _ in range(chance.choice([0, 0, 1, 1, 2])))
        if chance.random() < 0.05:
            gap += chance.choice(COMMENTS)
        if not gap and touches(before, piece):
            gap = b" "
        out += [gap, piece]
        before = piece
    out.append(chance.choice([b"", b"\n", b"  ", b"\n\n\n", b"// end"]))
    return b"".join(out)


def touches(before, after):
    """Whether two tokens would be read otherwise with nothing between them."""
    return bool(before) and [piece[1] for piece in pieces(before + after)] != [before, after]


class Judge:
    def __init__(self, program, room):
        self.program = program
        self.file = f"{room}/a.al"
        self.passed = self.failed = 0

    def run(self, word, text):
        pathlib.Path(self.file).write_bytes(text)
        return subprocess.run([self.program, word, self.file], capture_output=True, timeout=60)

    def tell(self, text, wrong):
        if not wrong:
            self.passed += 1
            return
        self.failed += 1
        kept = pathlib.Path(tempfile.gettempdir()) / f"format-{self.failed}.al"
        kept.write_bytes(text)
        print(f"FAILED {kept}: {wrong}")

    def judge(self, text):
        """What is wrong with the layout of a text, if anything."""
        ran = self.run("format", text)
        checked = self.run("check", text)
        if ran.returncode == 1:
            return self.refused(ran, checked)
        if ran.returncode != 0 or ran.stderr:
            return f"status {ran.returncode}, {ran.stderr[:200]!r}"
        code = code_of(checked)
        if code in OF_TEXT:
            return f"formatted, though check says {code.decode()}"
        out = ran.stdout
        return compared(text, out) or laid_out(out) or self.twice(out) or self.same_fault(text, out, checked)

    def refused(self, ran, checked):
        if ran.stdout:
            return "refused, with a text"
        if ran.stderr != checked.stderr or checked.returncode != 1:
            return f"refused with {ran.stderr!r}, check: {checked.stderr!r}"
        if code_of(checked) not in OF_TEXT | {b"E15"}:
            return f"refused with {ran.stderr!r}, a fault of names or types"
        return ""

    def twice(self, out):
        again = self.run("format", out)
        return "" if (again.returncode, again.stdout) == (0, out) else "formatted again it changes"

    def same_fault(self, text, out, checked):
        other = self.run("check", out)
        if checked.returncode != other.returncode:
            return f"check: {checked.stderr!r}, then {other.stderr!r}"
        if checked.returncode == 0:
            return ""
        a, b = (place_of(run.stderr) for run in (checked, other))
        if a[1:] != b[1:] or token_at(text, a[0]) != token_at(out, b[0]):
            return f"check: {checked.stderr!r}, then {other.stderr!r}"
        return ""


def code_of(checked):
    found = re.match(rb"[^\n]*?:\d+:\d+: (E\d\d) ", checked.stderr)
    return found.group(1) if found and checked.returncode == 1 else b""


def place_of(line):
    found = re.match(rb"[^\n]*?:(\d+):(\d+): ([^\n]*)", line)
    return (int(found.group(1)), int(found.group(2))), found.group(3)


def token_at(text, place):
    """How many tokens begin before a line and column."""
    lines = text.split(b"\n")
    at = sum(len(line) + 1 for line in lines[: place[0] - 1]) + place[1] - 1
    return sum(what == "token" and start < at for what, _, start, _ in pieces(text))


def compared(text, out):
    a, b = pieces(text), pieces(out)
    for (what, piece, _, alone), (other_what, other, _, other_alone) in zip(a, b):
        if (what, piece) != (other_what, other):
            return f"{piece!r} became {other!r}"
        if alone != other_alone:
            return f"{piece!r} stands otherwise on its line"
    return "" if len(a) == len(b) else "a token or a comment more or less"


def laid_out(out):
    """What is wrong with the lines of a formatted text."""
    if not out:
        return ""
    if not out.endswith(b"\n"):
        return "the last line has no end"
    lines = out[:-1].split(b"\n")
    if not lines[0] or not lines[-1]:
        return "a blank line at the beginning or the end"
    # Of each open block, whether it stands on one line; the last token; whether the last line was blank, or ended in a comment.
    blocks, last, was_blank, had_comment = [], b";", False, False
    for number, line in enumerate(lines, 1):
        if not line:
            if was_blank or last == b"{" and not had_comment:
                return f"line {number} is blank"
            was_blank = True
            continue
        if line != line.rstrip(b" \t\r"):
            return f"line {number} ends in a blank"
        found = pieces(line)
        if was_blank and found[0][1] == b"}":
            return f"line {number - 1} is blank, at the end of a block"
        is_within = last not in (b";", b"{", b"}")
        wanted = 2 * (len(blocks) - (found[0][1] == b"}") + is_within)
        if found[0][2] != wanted:
            return f"line {number} begins at column {found[0][2] + 1}, not {wanted + 1}"
        for index, (what, piece, _, _) in enumerate(found):
            if what == "comment":
                continue
            if index and last in (b";", b"}") and not any(blocks) and piece not in (b"init", b"else"):
                return f"line {number} has two statements"
            if piece == b"{":
                has_more = found[index + 1 :] and found[index + 1][0] == "token"
                blocks.append(any(blocks) or bool(has_more))
            elif piece == b"}":
                blocks.pop()
            last = piece
        was_blank, had_comment = False, found[-1][0] == "comment"
    return ""


def spoiled(text, chance):
    found = [piece for piece in pieces(text) if piece[0] == "token"]
    if chance.random() < 0.3:
        at = chance.randrange(len(text))
        return text[:at] + chance.choice([b"\x00", b"(", b"/", b"\x80", b"0"]) + text[at + 1 :]
    _, piece, start, _ = chance.choice(found)
    other = chance.choice([b"", chance.choice(found)[1], chance.choice(SPOILS), piece + b" " + chance.choice(SPOILS)])
    return text[:start] + other + text[start + len(piece) :]


def programs(files):
    if files:
        return [pathlib.Path(file).read_bytes() for file in files]
    page = (TOP / "docs/LANGUAGE.md").read_bytes()
    paths = sorted((TOP / "examples").glob("*.al")) + sorted((TOP / "tests/explained").glob("*.al"))
    return [path.read_bytes() for path in paths] + re.findall(rb"```al\n(.*?)```", page, re.S)


def main():
    parser = argparse.ArgumentParser(description=__doc__, formatter_class=argparse.RawDescriptionHelpFormatter)
    parser.add_argument("program")
    parser.add_argument("--count", type=int, default=20)
    parser.add_argument("--seed", type=int, default=0)
    parser.add_argument("files", nargs="*")
    words = parser.parse_args()
    chance = random.Random(words.seed)
    texts = programs(words.files)
    if not words.files:
        texts += [("\n".join(helper_programs.drawn(words.seed + n)) + "\n").encode() for n in range(words.count)]
    with tempfile.TemporaryDirectory() as room:
        judge = Judge(words.program, room)
        for text in [b"", b" \n\t\n", b"//", b"// a\n\n\n//b", *texts]:
            judge.tell(text, judge.judge(text))
        for text in texts:
            for _ in range(words.count):
                other = respaced(text, chance)
                judge.tell(other, judge.judge(other))
                wrong = spoiled(other if chance.random() < 0.5 else text, chance)
                judge.tell(wrong, judge.judge(wrong))
    print(f"{judge.passed} passed, {judge.failed} failed")
    return 1 if judge.failed else 0


if __name__ == "__main__":
    sys.exit(main())
