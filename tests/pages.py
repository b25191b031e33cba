#!/usr/bin/env python3
"""The examples and notes of docs/FORMATS.md, over a built program; and the version, wherever it stands.

    tests/pages.py BIN

An example is an indented program, and an indented text after a line that ends in `it is`: what the command of the section
writes of the program, with the option that stands ahead of these words. A program that a page names a file for can be meant
again by that name. What the tables of notes and warnings have in code spans must stand in the strings of the crates that
write them, piece by piece between what stands for names and numbers.

The last line is 'N passed, M failed'; the status is 1 where M is not 0.
"""
import pathlib
import re
import subprocess
import sys
import tempfile

TOP = pathlib.Path(__file__).resolve().parent.parent
COMMANDS = {
    "Explanation text": ["explain"],
    "Explanation JSON": ["explain", "--json"],
    "Check text": ["check"],
    "Order text": ["order"],
    "Listing text": ["listing"],
    "Outcomes text": ["outcomes"],
}
# Where the version stands, and how.
VERSIONS = {
    "crates/driver_words/src/command.rt": 'const VERSION: &str = "{}";',
    "docs/autolock.1": '"autolock {}"',
    "docs/FORMATS.md": "`autolock {}`",
    "CHANGELOG.md": "## {} ",
}


def paragraphs(page):
    """The paragraphs of a page, an indented one without its four spaces, each with whether it is indented."""
    for text in page.split("\n\n"):
        lines = text.strip("\n").split("\n")
        is_code = all(line.startswith("    ") or not line for line in lines)
        yield is_code, "".join(f"{line[4:] if is_code else line}\n" for line in lines)


def examples(page):
    """The command, the file's name, the program and the answer of each example."""
    command, file, program, before, named = None, "F", "", "", {}
    for is_code, text in paragraphs(page):
        if not is_code:
            if text.startswith("## "):
                command, file = COMMANDS.get(text.splitlines()[0][3:]), "F"
            name = re.search(r"in a file `([a-z.]+)`", text)
            file = name[1] if name else file
            if name and file in named:
                program = named[file]
            elif name:
                named[file] = program
        elif before.rstrip().endswith("it is") and command:
            option = re.search(r"with `(--[a-z]+)` it is$", before.rstrip())
            yield command + ([option[1]] if option else []), file, program, text
        elif re.match(r"(lock|struct|global|pool|atomic) ", text):
            program = text
        before = "" if is_code else text


def pieces(page):
    """The fixed pieces of the notes and warnings that the tables of the page quote."""
    for row in re.findall(r"(?m)^\|.*$", page.split("\n## Explanation text\n")[1].split("\n## ")[0]):
        for double, single in re.findall(r"`` (.+?) ``|`([^`]+)`", row):
            for piece in re.split(r"\b(?:[A-Z]+\b(?:\[N\])?|[0-9]+)|\.\.", double or single):
                if len(piece.strip()) > 5:
                    yield piece.strip()


def strings():
    """All strings of the crates that write notes and warnings, one in a line."""
    files = [path for crate in ("explanation*", "source") for path in TOP.glob(f"crates/{crate}/src/*.rt")]
    return "\n".join(string for path in files for string in re.findall(r'"((?:[^"\\]|\\.)*)"', path.read_text()))


def main():
    program = str(pathlib.Path(sys.argv[1]).resolve())
    passed = failed = 0
    with tempfile.TemporaryDirectory() as room:
        for command, file, text, wanted in examples((TOP / "docs/FORMATS.md").read_text()):
            pathlib.Path(room, file).write_text(text)
            said = subprocess.run([program, *command, file], cwd=room, capture_output=True, text=True, timeout=60).stdout
            passed, failed = passed + (said == wanted), failed + (said != wanted)
            if said != wanted:
                print(f"docs/FORMATS.md: {' '.join(command)} {file} writes\n{said}and not\n{wanted}")
    written = strings()
    for piece in pieces((TOP / "docs/FORMATS.md").read_text()):
        passed, failed = passed + (piece in written), failed + (piece not in written)
        if piece not in written:
            print(f"docs/FORMATS.md: no note says: {piece}")
    version = (TOP / "VERSION").read_text().strip()
    for file, form in VERSIONS.items():
        stands = form.format(version) in (TOP / file).read_text()
        passed, failed = passed + stands, failed + (not stands)
        if not stands:
            print(f"{file} has not the version {version}")
    said = subprocess.run([program, "--version"], capture_output=True, text=True, timeout=60).stdout
    passed, failed = passed + (said == f"autolock {version}\n"), failed + (said != f"autolock {version}\n")
    print(f"{passed} passed, {failed} failed")
    return 1 if failed else 0


if __name__ == "__main__":
    sys.exit(main())
