#!/usr/bin/env python3
"""Runs docs/TUTORIAL.md: writes its files, runs its commands in order, and compares what they write with what the page says.

    tests/tutorial.py BIN

BIN is the built program. A block ```LANGUAGE NAME is a file of that name. In a block ```console each line behind `$ ` is a
command, which bash runs in the folder of the files with `autolock` in the path, and the lines behind it are what it writes;
`...` stands for any lines. In a block ```console any what is written isn't compared. The last line is 'N commands'; exit status
1 where one writes something else.
"""

import os
import pathlib
import re
import subprocess
import sys
import tempfile

PAGE = pathlib.Path(__file__).resolve().parent.parent / "docs" / "TUTORIAL.md"
BLOCK = re.compile(r"^```(\w+)(?: (\S+))?\n(.*?)^```$", re.M | re.S)


def commands_of(text):
    """Each command with the lines that it writes."""
    for part in re.split(r"(?m)^\$ ", text)[1:]:
        command, _, written = part.partition("\n")
        yield command, written


def is_as_said(written, said):
    pattern = "".join(".*" if line == "..." else re.escape(line) + r"\n" for line in said.splitlines())
    return re.fullmatch(pattern, written, re.S) is not None


def main():
    binary = os.path.realpath(sys.argv[1])
    count, failed = 0, 0
    with tempfile.TemporaryDirectory() as top:
        folder, tools = pathlib.Path(top, "files"), pathlib.Path(top, "tools")
        folder.mkdir()
        tools.mkdir()
        (tools / "autolock").symlink_to(binary)
        words = {**os.environ, "PATH": f"{tools}:{os.environ['PATH']}"}
        for language, name, text in BLOCK.findall(PAGE.read_text()):
            if language != "console":
                if name:
                    (folder / name).write_text(text)
                continue
            for command, said in commands_of(text):
                count += 1
                told = subprocess.STDOUT
                done = subprocess.run(
                    ["bash", "-c", command], cwd=folder, env=words, stdout=subprocess.PIPE, stderr=told, timeout=120, check=False
                )
                written = done.stdout.decode()
                if name != "any" and not is_as_said(written, said):
                    failed += 1
                    print(f"$ {command}\n{written}but the page says\n{said}")
    print(f"{count} commands, {failed} failed")
    return 1 if failed or count == 0 else 0


if __name__ == "__main__":
    sys.exit(main())
