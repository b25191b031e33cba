#!/usr/bin/env python3
"""What `check --source` adds to `check`: the helper of each place, and the line of the source.

    tests/sources.py BIN [--seed N] [--count N]

BIN is the built program. Over each program of examples/, each with its white space and comments changed in some ways, and
over `--count` random programs with helpers (60 by default), from the seed that is printed: `check --source` has to write what
`check` writes, where each line `at L:C take ..` whose place lies between the braces of a helper has ` in HELPER` behind the
place, and the line of the source comes behind it, two spaces in front, with at most 60 bytes before the place and 60 from it
on. Of a program with a fault both have to say the same.

The last line is 'N passed, M failed'; the status is 1 where M is not 0.
"""

import argparse
import pathlib
import random
import re
import subprocess
import sys
import tempfile

sys.dont_write_bytecode = True
from helper_programs import drawn, laid_out
from written_out import tokens_of

TOP = pathlib.Path(__file__).resolve().parent.parent
TAKE = re.compile(r"at (\d+):(\d+)( take .*)")
SIDE = 60


def without_comments(text):
    """A text with a space in the place of each byte of a comment."""
    return re.sub(rb"//[^\n]*", lambda comment: b" " * len(comment[0]), text)


def bodies(text):
    """The helpers of a text: their names, and where their bodies begin and end."""
    text = without_comments(text)
    for head in re.finditer(rb"\bcall\s+(\w+)\s*\([^)]*\)\s*(?::[^{;]*)?\{", text):
        depth, at = 1, head.end()
        while depth:
            depth += {b"{": 1, b"}": -1}.get(text[at : at + 1], 0)
            at += 1
        yield head[1].decode(), head.end(), at


def shown(piece):
    """Bytes of a source as they are shown."""
    form = {9: " " * 8, 13: ""}
    return "".join(form.get(byte, chr(byte) if 32 <= byte < 127 else f"<{byte:02X}>") for byte in piece)


def line_at(text, at):
    """The line of the byte at a place."""
    before, after = text[:at].split(b"\n")[-1], text[at:].split(b"\n")[0]
    left = (".." if len(before) > SIDE else "") + shown(before[-SIDE:])
    return f"  {left}{shown(after[:SIDE])}" + (".." if len(after) > SIDE else "")


def wanted(text, plain):
    """What `check --source` has to write, by the text and what `check` writes."""
    starts = [0] + [found.end() for found in re.finditer(b"\n", text)]
    helpers = list(bodies(text))
    for line in plain.splitlines():
        place = TAKE.fullmatch(line)
        if not place:
            yield line
            continue
        at = starts[int(place[1]) - 1] + int(place[2]) - 1
        name = next((f" in {name}" for name, begin, end in helpers if begin <= at < end), "")
        yield f"at {place[1]}:{place[2]}{name}{place[3]}"
        yield line_at(text, at)


def variants(text):
    """A text, and others with the same tokens: in one line, with other ends of lines, with tabs, with comments of any bytes."""
    yield text
    yield re.sub(rb"\s+", b" ", without_comments(text))
    yield text.replace(b"\n", b"\r\n")
    yield without_comments(text).replace(b" ", b"\t")
    yield without_comments(text).replace(b"\n", b" // \xc3\xa9 \x1b[31m\x00\t } call\n")
    yield without_comments(text).replace(b"\n", b" " * 61 + b"\n" + b" " * 60)


def differs(binary, room, text):
    """How many places were told; where something is not as it has to be, that."""
    file = pathlib.Path(room, "F")
    file.write_bytes(text)
    ask = lambda *words: subprocess.run([binary, "check", *words, "F"], cwd=room, capture_output=True, timeout=60)
    plain, told = ask(), ask("--source")
    if (plain.returncode, plain.stderr) != (told.returncode, told.stderr):
        return 0, f"ends with {told.returncode}, and check with {plain.returncode}"
    lines = list(wanted(text, plain.stdout.decode("ascii")))
    if told.stdout.decode("ascii") != "".join(f"{line}\n" for line in lines):
        said = told.stdout.decode("ascii").split("\n")
        number = next(k for k, line in enumerate(lines + [None]) if line != (said[k] if k < len(said) else ""))
        return 0, f"line {number + 1} is {said[number]!r}, and not {lines[number] if number < len(lines) else None!r}"
    return len(TAKE.findall(plain.stdout.decode("ascii"))), None


def main():
    words = argparse.ArgumentParser(description=__doc__, formatter_class=argparse.RawDescriptionHelpFormatter)
    words.add_argument("binary")
    words.add_argument("--seed", type=int, default=random.randrange(10**9))
    words.add_argument("--count", type=int, default=60)
    asked = words.parse_args()
    binary = str(pathlib.Path(asked.binary).resolve())
    print(f"seed {asked.seed}")
    programs = [
        (f"{path.name}, {kind}", text)
        for path in sorted(TOP.glob("examples/*.al"))
        for kind, text in enumerate(variants(path.read_bytes()))
    ]
    for seed in range(asked.seed, asked.seed + asked.count):
        tokens = [word for declaration in drawn(seed) for word, _ in tokens_of(declaration)]
        programs.append((f"seed {seed}", laid_out(seed, tokens).encode("latin-1")))
    passed = failed = places = 0
    with tempfile.TemporaryDirectory() as room:
        for name, text in programs:
            found, wrong = differs(binary, room, text)
            passed, failed, places = passed + (not wrong), failed + bool(wrong), places + found
            if wrong:
                print(f"FAILED {name}: {wrong}")
    print(f"{places} places")
    print(f"{passed} passed, {failed} failed")
    return 1 if failed or not places else 0


if __name__ == "__main__":
    sys.exit(main())
