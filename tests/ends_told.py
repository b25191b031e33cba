#!/usr/bin/env python3
"""What `--cells`, `--answers` and `--full` make of what `outcomes` tells.

    tests/ends_told.py PROGRAM [--seed N] [--count N]

PROGRAM is the built program. Over `--count` small programs that are drawn (60 by default), of 2 or 3 threads, from the
seed that is printed: what is told without options has to be that of `--full` where each line that an end leaves out is put
in from the first one. What is told with `--cells`, of some cells, arrays, objects or pools, has to be that of `--full` with
the other cells left out and the ends that are alike then put together: the same ends, each after as many orders as these
have together. Of the orders of `--answers`, run as one thread by `serial`, the calls have to end as is told. Without the
answers its ends have to be those of `--full`, no two of them may be alike, and where each order is an end of its own, none
may be missing. A name that no cell has is refused.

Writes `N passed, M failed`, and before that each program that failed, with what is wrong. Exits with 1 where any did.
"""

import argparse
import os
import random
import re
import subprocess
import sys
import tempfile

sys.dont_write_bytecode = True
from outcomes import CALL, FIRST, OUTCOME, Differs, drawn
from schedules import without_threads

CELLS = ("x", "y", "a[0]", "a[1]", "p[0].v", "p[0].w", "p[1].v", "p[1].w")
NAMES = {"x": ("x",), "y": ("y",), "a": ("a[0]", "a[1]"), "a[1]": ("a[1]",), "p": CELLS[4:], "p[0]": CELLS[4:6], "p[1].w": ("p[1].w",)}


def program(chance):
    """A small program of 2 or 3 threads, with a pool of two members."""
    while True:
        text = drawn(chance).replace("int v protected_by(l); } pool P p[1];", "int v protected_by(l); int w protected_by(l); } pool P p[2];")
        text = re.sub(r"atomic f(\d)\(int k, ref P q\) \{", r"atomic f\1(int k, ref P q) : int { q.w = q.w + x;", text)
        text = re.sub(r"(atomic f\d.*) \}\n", r"\1 return x; }\n", text)
        text = re.sub(r"p\[0\]\);", lambda _: f"p[{chance.randrange(2)}]);", text)
        if text.count("\nthread ") in (2, 3):
            return text


class Told:
    """What is told: the first lines, and of each end its count, its order, its cells and its calls, each in its place."""

    def __init__(self, out):
        lines = out.splitlines()
        self.head, at, self.ends = lines[:1], 1, []
        self.number, self.scope = FIRST.match(lines[0]).groups()
        if self.scope == "all":
            self.head, at = lines[:2], 2
        while at < len(lines):
            count, order = OUTCOME.match(lines[at]).groups()
            end = lines.index("end", at)
            body, calls = lines[at + 2 : end], None
            if lines[at + 1] != "cells":
                raise Differs(f"no line `cells` after {lines[at]}")
            if "answers" in body:
                place = body.index("answers")
                body, calls = body[:place], body[place + 1 :]
            cells = dict(line.split(" ", 1) for line in body)
            answers = None if calls is None else {tuple(c.split()[1:3]): c for c in calls}
            self.ends.append((int(count), tuple(map(int, order.split())), cells, answers))
            at = end + 1

    def whole(self):
        """The same with the lines of the first end put into the others."""
        if self.ends:
            first = self.ends[0]
            self.ends = [(n, o, {**first[2], **c}, None if a is None else {**first[3], **a}) for n, o, c, a in self.ends]
        return self


class Judge:
    def __init__(self, program, path, folder):
        self.program, self.path, self.folder = program, path, folder

    def run(self, *words, status=0):
        done = subprocess.run([self.program, *words], capture_output=True, timeout=120)
        if done.returncode != status:
            raise Differs(f"{words}: status {done.returncode}: {done.stderr.decode()}")
        return done.stdout.decode(), done.stderr.decode()

    def outcomes(self, *words):
        return Told(self.run("outcomes", "--turns", "50", "--count", "500", *words, self.path)[0])

    def judge_cells(self, full, names):
        wanted = {}
        kept = [cell for cell in CELLS if any(cell in NAMES[name] for name in names)]
        for count, _, cells, _ in full.ends:
            seen = tuple((cell, cells[cell]) for cell in kept)
            wanted[seen] = wanted.get(seen, 0) + count
        for words in (("--full",), ()):
            told = self.outcomes("--cells", ",".join(names), *words).whole()
            found = {tuple(cells.items()): count for count, _, cells, _ in told.ends}
            if found != wanted or len(found) != len(told.ends) or told.head != full.head:
                raise Differs(f"--cells {names} {words}: {found}, and not {wanted}")

    def judge_answers(self, full):
        told = self.outcomes("--answers").whole()
        again = self.outcomes("--answers", "--full")
        if told.ends != again.ends:
            raise Differs("--answers differs from --answers --full")
        seen = {(tuple(c.items()), tuple(a.items())) for _, _, c, a in told.ends}
        if len(seen) != len(told.ends):
            raise Differs("two ends with the same cells and answers")
        by_cells = {}
        for count, _, cells, _ in told.ends:
            by_cells[tuple(cells.items())] = by_cells.get(tuple(cells.items()), 0) + count
        if by_cells != {tuple(cells.items()): count for count, _, cells, _ in full.ends}:
            raise Differs("--answers has other ends of the cells")
        for _, order, cells, answers in told.ends:
            if self.serial(order, answers) != (cells, answers):
                raise Differs(f"after {order} {self.serial(order, answers)}, and not {cells} {answers}")

    def serial(self, order, answers):
        """The cells after an order, and how its calls end."""
        with open(self.path) as source:
            text, _ = without_threads(source.read())
        done, script, places = {}, [], []
        for thread in order:
            place = (str(thread), str(done.get(thread, 0)))
            done[thread] = done.get(thread, 0) + 1
            script.append(CALL.match(answers[place]).group(2))
            places.append(place)
        file = os.path.join(self.folder, "one.al")
        with open(file, "w") as out:
            out.write(text + "\nthread only_one { " + " ".join(call + ";" for call in script) + " }\n")
        lines = self.run("serial", "--turns", "50", file)[0].splitlines()
        ends = [CALL.match(line).group(3) for line in lines if line.startswith("call ")]
        found = {place: f"call {place[0]} {place[1]} {call} {end}" for place, call, end in zip(places, script, ends)}
        cells = dict(line.split(" ", 1) for line in lines[lines.index("cells") + 1 : -1])
        return cells, {place: found[place] for place in answers}

    def judge(self, chance):
        full = self.outcomes("--full")
        if full.scope != "all":
            raise Differs("not all orders")
        if self.outcomes().whole().ends != full.ends:
            raise Differs("without --full another end")
        for _ in range(3):
            self.judge_cells(full, chance.sample(sorted(NAMES), chance.randint(1, 3)))
        self.judge_answers(full)
        _, err = self.run("outcomes", "--cells", "x,q[0]", self.path, status=6)
        if err != "autolock: no cell is named q[0]\n":
            raise Differs(err)


def main():
    words = argparse.ArgumentParser(formatter_class=argparse.RawDescriptionHelpFormatter, description=__doc__)
    words.add_argument("program")
    words.add_argument("--seed", type=int, default=None)
    words.add_argument("--count", type=int, default=60)
    given = words.parse_args()
    seed = random.randrange(2**32) if given.seed is None else given.seed
    print(f"seed {seed}")
    chance = random.Random(seed)
    passed = failed = 0
    with tempfile.TemporaryDirectory() as folder:
        while passed + failed < given.count:
            path = os.path.join(folder, f"drawn-{passed + failed}.al")
            text = program(chance)
            with open(path, "w") as out:
                out.write(text)
            judge = Judge(os.path.abspath(given.program), path, folder)
            try:
                if subprocess.run([judge.program, "outcomes", "--turns", "50", "--count", "500", path], capture_output=True, timeout=120).returncode == 7:
                    continue
                judge.judge(chance)
                passed += 1
            except (Differs, KeyError, AttributeError, ValueError) as wrong:
                print(f"FAILED\n{text}\n{type(wrong).__name__}: {wrong}")
                failed += 1
    print(f"{passed} passed, {failed} failed")
    sys.exit(1 if failed else 0)


if __name__ == "__main__":
    main()
