#!/usr/bin/env python3
"""The sign of life: what a command that takes longer than two seconds writes to a terminal.

    tests/life.py PROGRAM

PROGRAM is the built program. `serial` and `run` of a program that counts for some seconds, with standard error at a
pseudo-terminal: the line is there from the third second on and is taken away at the end, and standard output is what it is
without a terminal. With standard error at a pipe, and of what is quick, nothing is written. How long a count takes depends on
what else the machine does, so a program that ends in less than four seconds is tried again with more to count.

Exits with 1 where anything differs.
"""

import os
import pty
import re
import subprocess
import sys
import tempfile
import threading
import time

COUNTING = """lock G;
global int n protected_by(G);
atomic count() {{ var i: int = 0; while (i < 999999) {{ i = i + 1; }} n = i; }}
thread t {{ repeat {} {{ count(); }} }}
"""


def at_terminal(words):
    """Runs a command with standard error at a pseudo-terminal: its status, its output, what the terminal got."""
    master, slave = pty.openpty()
    said = bytearray()
    child = subprocess.Popen(words, stdout=subprocess.PIPE, stderr=slave)
    os.close(slave)

    def read():
        while True:
            try:
                piece = os.read(master, 4096)
            except OSError:
                return
            if not piece:
                return
            said.extend(piece)

    reader = threading.Thread(target=read)
    reader.start()
    out = child.stdout.read()
    status = child.wait()
    reader.join()
    os.close(master)
    return status, out, bytes(said)


def tried(words, write, times):
    """The same of a program that takes at least four seconds, and how many counts that takes."""
    while True:
        write(times)
        begun = time.monotonic()
        got = at_terminal(words)
        if time.monotonic() - begun >= 4:
            return times, got
        times *= 2


def is_whole(said):
    """Whether this is lines of a rising number of seconds, the first from 3 to 5, each in the place of the one before, and then none."""
    seconds = [int(it) for it in re.findall(rb"\rautolock: at work for (\d+) s", said)]
    lines = b"".join(b"\rautolock: at work for %d s" % it for it in seconds)
    return bool(seconds) and 3 <= seconds[0] <= 5 and seconds == sorted(set(seconds)) and said == lines + b"\r\x1b[K"


def main():
    program = sys.argv[1]
    failed = 0
    passed = 0
    with tempfile.TemporaryDirectory() as room:
        file = os.path.join(room, "counting.al")

        def write(times):
            with open(file, "w", encoding="ascii") as out:
                out.write(COUNTING.format(times))

        write(10)
        begun = time.monotonic()
        subprocess.run([program, "serial", file], check=True, stdout=subprocess.DEVNULL)
        each = (time.monotonic() - begun) / 10
        quick = at_terminal([program, "serial", file])
        times, first = tried([program, "serial", file], write, max(1, int(4.5 / each)))
        plain = subprocess.run([program, "serial", file], capture_output=True, check=False)
        tests = [("of what is quick", quick[2] == b"" or each * 10 > 2, quick[2])]
        tests.append(("with no terminal", plain.stderr == b"", plain.stderr))
        for command in ("serial", "run"):
            times, (status, out, said) = (times, first) if command == "serial" else tried([program, command, file], write, times)
            tests.append((f"{command}: the line", is_whole(said), said))
            tests.append((f"{command}: the status", status == 0, status))
            if command == "serial":
                tests.append(("serial: the output", out == plain.stdout, out[:200]))
        for name, is_right, got in tests:
            if is_right:
                passed += 1
            else:
                failed += 1
                print(f"{name}: {got!r}")
    print(f"{passed} passed, {failed} failed")
    return 1 if failed else 0


if __name__ == "__main__":
    sys.exit(main())
