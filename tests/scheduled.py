#!/usr/bin/env python3
"""Judges the steps files that `autolock schedule` writes.

    scheduled.py PROGRAM [--count N] [FILE ..]

Of each FILE, by default each example, N seeds (by default 5) are tried, and `--worst`. The file has as many lines as are asked for, each
an item of a thread by its name; `simulate` takes it, and the same words give the same file. With `--worst` there are at most so many, and
over all programs threads wait. The last line is `N passed, M failed`.
"""
import argparse
import glob
import os
import re
import subprocess
import sys
import tempfile

TOP = os.path.dirname(os.path.dirname(os.path.abspath(__file__)))
ITEM = re.compile(r"([A-Za-z_]\w*)(\*[0-9]+|!|\+)")


class Judge:
    def __init__(self, program, room):
        self.program, self.steps = program, f"{room}/s.steps"
        self.passed, self.failed, self.waits = 0, 0, 0

    def judge(self, fits, words):
        self.passed, self.failed = self.passed + fits, self.failed + (not fits)
        if not fits:
            print(f"FAILED {words}")

    def run(self, *words):
        ran = subprocess.run([self.program, *words], capture_output=True, text=True, timeout=120)
        return ran.returncode, ran.stdout, ran.stderr

    def schedule(self, file, *words):
        status, text, said = self.run("schedule", *words, file)
        name = f"{file} {' '.join(words)}"
        self.judge((status, said) == (0, ""), f"{name}: status {status}")
        self.judge(self.run("schedule", *words, file) == (status, text, said), f"{name}: another file")
        with open(self.steps, "w", encoding="utf-8") as it:
            it.write(text)
        self.judge(all(ITEM.fullmatch(line) for line in text.splitlines()), f"{name}: no items")
        self.judge(self.run("simulate", file, self.steps)[0] == 0, f"{name}: simulate refuses it")
        return text.splitlines()

    def program_of(self, file, count):
        with open(file, encoding="utf-8") as it:
            has_threads = re.search(r"^thread ", it.read(), re.M) is not None
        for seed in range(count):
            lines = self.schedule(file, "--seed", str(seed), "--length", str(7 * seed))
            self.judge(len(lines) == (7 * seed if has_threads else 0), f"{file}: {len(lines)} items with seed {seed}")
        self.judge(not has_threads or len(self.schedule(file)) == 100, f"{file}: not 100 items by default")
        lines = self.schedule(file, "--worst", "--length", "50")
        self.judge(len(lines) <= 50, f"{file}: {len(lines)} items of --worst")
        self.waits += len(re.findall(r"^\d+ waits .* for \d+$", self.run("trace", "--sections", file, self.steps)[1], re.M))


def main():
    words = argparse.ArgumentParser(add_help=False)
    words.add_argument("program")
    words.add_argument("files", nargs="*")
    words.add_argument("--count", type=int, default=5)
    given = words.parse_args()
    files = [file for file in given.files or sorted(glob.glob(f"{TOP}/examples/*.al"))]
    with tempfile.TemporaryDirectory() as room:
        judge = Judge(os.path.abspath(given.program), room)
        for file in files:
            if judge.run("check", file)[0] == 0:
                judge.program_of(file, given.count)
        judge.judge(given.files or judge.waits > 20, f"{judge.waits} waits with --worst over all")
    print(f"{judge.passed} passed, {judge.failed} failed")
    return judge.failed > 0


if __name__ == "__main__":
    sys.exit(main())
