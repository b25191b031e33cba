#!/usr/bin/env python3
"""Looks for the words and turns that the rule for English in CONTRIBUTING.md names, and for crowded paragraphs.

    tests/style.py              the pages; what crates and help texts have is only counted, by word: it will be rewritten later
    tests/style.py FILE ..      these files alone, of any kind

Pages are docs/*.md, docs/autolock.1, README.md, CONTRIBUTING.md, CHANGELOG.md, tests/*.md and script/*.md. Code, code spans and
what `explain CODE` writes (the sections of codes in docs/LANGUAGE.md) are not prose. Of crates the comments and the strings of
several words are read. The last line is 'N places'; the status is 1 where N, of the pages or of the files given, is not 0.
"""
import collections
import pathlib
import re
import sys

TOP = pathlib.Path(__file__).resolve().parent.parent
PAGES = "README.md CONTRIBUTING.md CHANGELOG.md docs/*.md docs/autolock.1 tests/*.md script/*.md"
COUNTED = "script/help/*.txt crates/*/src/**/*.rt crates/*/specs/**/*.antt"
WORDS = {
    "told": r"\b(told|tells)\b",
    "behind": r"\bbehind\b",
    "so many": r"\bso many\b",
    "is no": r"\b(is|are|was|were) no\b(?! (greater|more|longer|less|fewer|larger|later))",
    "dear": r"\bdear(er|est)?\b",
    "mend": r"\bmend(s|ed|ing)?\b",
    "that there isn't": r"\bthat there (is|are)n't\b",
    "Of which ..": r"(^|(?<=[.!?] ))(Of|By) (which|what)\b",
    "So ..": r"(^|(?<=[.!?] ))So\b",
    "There ..": r"(^|(?<=[.!?] ))There\b",
    "two semicolons": r"^[^;]*;[^;]*;",
}


def of_page(text):
    """The paragraphs, cells and list items of a page, each with its line."""
    text = re.sub(r"(?ms)^### E\d\d .*?(?=^##)", lambda it: "\n" * it[0].count("\n"), text)
    text = re.sub(r"(?ms)^```.*?^```$", lambda it: "\n" * it[0].count("\n"), text)
    text = re.sub(r"(``.+?``|`[^`\n]+`)", "X", re.sub(r"(?m)^(    |\t).*$", "", text))
    text = re.sub(r"\]\([^)]*\)", "]", text)
    for number, line in enumerate(text.split("\n"), 1):
        for piece in line.split(" | ") if line.startswith("|") else [line]:
            yield number, re.sub(r"[*|\[\]]", "", re.sub(r"^\s*(-|\d+\.|#+|\|)\s+", "", piece)).strip()


def of_manual(text):
    """The paragraphs of a manual page."""
    for number, line in enumerate(text.split("\n"), 1):
        yield number, re.sub(r"\\f.|\\", "", re.sub(r"^\.\w+.*", "", line))


def of_code(text, mark):
    """The comments of a source, a block as one paragraph, and its strings of several words."""
    block, begun = [], 0
    for number, line in enumerate(text.split("\n") + [""], 1):
        comment = re.match(rf"\s*{mark}(.*)", line)
        if comment and comment[1].strip():
            block, begun = block + [comment[1].strip()], begun or number
            continue
        if block:
            yield begun, re.sub(r"`[^`]*`", "X", " ".join(block))
        block, begun = [], 0
        for string in re.findall(r'"((?:[^"\\]|\\.)* (?:[^"\\]|\\.)*)"', line):
            # (semicolons of a string are those of C or of a sample program)
            yield number, string.replace(";", ",")


def places(path):
    """Each place of a file: its line, the word and what stands there."""
    text = path.read_text()
    pieces = {".md": of_page, ".1": of_manual, ".txt": of_page}.get(path.suffix)
    for number, piece in pieces(text) if pieces else of_code(text, "--" if path.suffix == ".antt" else "//[/!]?"):
        for word, form in WORDS.items():
            for it in re.finditer(form, piece):
                yield number, word, piece[max(0, it.start() - 30) : it.start() + 50]


def main(files):
    found = 0
    for path in [pathlib.Path(file) for file in files] or sorted(it for form in PAGES.split() for it in TOP.glob(form)):
        for number, word, piece in places(path):
            found += 1
            print(f"{path.relative_to(TOP) if path.is_relative_to(TOP) else path}:{number}: {word}: {piece}")
    if not files:
        counts = collections.Counter(word for form in COUNTED.split() for path in TOP.glob(form) for _, word, _ in places(path))
        print("crates and help texts: " + ", ".join(f"{word} {counts[word]}" for word in WORDS))
    print(f"{found} places")
    return 1 if found else 0


if __name__ == "__main__":
    sys.exit(main(sys.argv[1:]))
