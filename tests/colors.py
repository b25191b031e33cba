#!/usr/bin/env python3
"""Judges the colours of what `autolock explain` writes.

    colors.py PROGRAM

With `--color always` the text is the one without colours, but for escape sequences; each place, code, caret, `note:`, `help:` and
`warning:` is in its colour. Without the word there are colours where standard output is a terminal and NO_COLOR isn't set to
anything, and else none. JSON never has any. The texts are the examples, and the programs of docs/LANGUAGE.md and
tests/explained/. The last line is `N passed, M failed`.
"""
import glob
import os
import pty
import re
import subprocess
import sys
import tempfile

TOP = os.path.dirname(os.path.dirname(os.path.abspath(__file__)))
ESCAPES = re.compile(r"\x1b\[[0-9;]*m")
STYLES = {"bold": "1", "red": "1;31", "yellow": "1;33", "cyan": "1;36"}


def painted(style, text):
    return f"\x1b[{STYLES[style]}m{text}\x1b[0m"


def expected(line):
    """A line in its colours, by what it is."""
    if line.startswith("  "):
        return painted("red", line) if not line.strip(" ^") else line
    first, space, rest = line.partition(" ")
    if not first:
        return line
    second, more_space, more = rest.partition(" ")
    if re.fullmatch(r"E[0-9]{2}", second):
        second = painted("red", second)
    elif second in ("note:", "warning:"):
        second = painted("cyan" if second == "note:" else "yellow", second)
    head = painted("cyan" if first in ("note:", "help:") else "bold", first)
    return head + space + second + more_space + more


def explain(program, words, environment=None):
    ran = subprocess.run([program, "explain", *words], capture_output=True, timeout=60, env=environment)
    return ran.returncode, ran.stdout.decode()


def on_terminal(program, words, environment):
    """What a terminal gets."""
    ours, theirs = pty.openpty()
    ran = subprocess.Popen([program, "explain", *words], stdout=theirs, stderr=subprocess.DEVNULL, env=environment)
    os.close(theirs)
    said = b""
    while True:
        try:
            more = os.read(ours, 65536)
        except OSError:
            break
        if not more:
            break
        said += more
    os.close(ours)
    ran.wait()
    return said.decode().replace("\r\n", "\n")


def programs():
    """The programs of docs/LANGUAGE.md and of tests/explained/."""
    with open(f"{TOP}/docs/LANGUAGE.md", encoding="utf-8") as it:
        texts = re.findall(r"^```al\n(.*?)^```$", it.read(), re.M | re.S)
    for name in sorted(glob.glob(f"{TOP}/tests/explained/*.al")):
        with open(name, encoding="utf-8") as it:
            texts.append(it.read())
    return texts


def main():
    program = os.path.abspath(sys.argv[1])
    passed, failed = 0, 0

    def judge(fits, words):
        nonlocal passed, failed
        passed, failed = passed + fits, failed + (not fits)
        if not fits:
            print(f"FAILED {words}")

    plain = {name: value for name, value in os.environ.items() if name != "NO_COLOR"}
    with tempfile.TemporaryDirectory() as room:
        files = sorted(glob.glob(f"{TOP}/examples/*.al"))
        for number, text in enumerate(programs()):
            name = f"{room}/{number}.al"
            with open(name, "w", encoding="utf-8") as it:
                it.write(text)
            files.append(name)
        for name in files:
            status, text = explain(program, [name])
            lines = text.split("\n")
            judge("\x1b" not in text, f"{name}: colours where there is no terminal")
            other, colored = explain(program, ["--color", "always", name])
            judge(other == status and ESCAPES.sub("", colored) == text, f"{name}: another text with colours")
            judge(colored.split("\n") == [expected(line) for line in lines], f"{name}: other colours")
            judge(explain(program, ["--color", "never", name]) == (status, text), f"{name}: --color never")
            judge("\x1b" not in explain(program, ["--color", "always", "--json", name])[1], f"{name}: JSON in colours")
        for name in files[:3]:
            text, colored = explain(program, [name])[1], explain(program, ["--color", "always", name])[1]
            judge(on_terminal(program, [name], plain) == colored, f"{name}: no colours on a terminal")
            judge(on_terminal(program, [name], {**plain, "NO_COLOR": ""}) == colored, f"{name}: an empty NO_COLOR")
            judge(on_terminal(program, [name], {**plain, "NO_COLOR": "1"}) == text, f"{name}: NO_COLOR")
            judge(on_terminal(program, ["--color", "never", name], plain) == text, f"{name}: never on a terminal")
            judge(on_terminal(program, ["--color", "always", name], {**plain, "NO_COLOR": "1"}) == colored, f"{name}: always")
    print(f"{passed} passed, {failed} failed")
    return failed > 0 or passed < 100


if __name__ == "__main__":
    sys.exit(main())
