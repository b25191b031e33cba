#!/usr/bin/env python3
"""Schedules of `simulate`, judged by `serial`.

    tests/schedules.py PROGRAM [--seed N] [--count N] [--all STEPS] FILE..

PROGRAM is the built program. Each FILE is a program that is accepted. `--count` schedules are drawn at random
for each of it (1,000 by default), from the seed that is printed; with `--all`, every schedule of up to so many
steps is taken in place of these. A FILE that `serial` doesn't run to its end, or without threads, is passed over.

After a schedule's steps, `simulate` tells which sections ended, and what the cells hold that no section holds.
The calls of these sections, in the order told, are made the one thread of the program in place of its own, and
`serial` has to tell the same ends, prints and cells of it. Then the schedule is followed by turns of all threads,
long enough for all calls of the program: all threads have to be idle in the end, and the same has to hold again.

Exits with 1 where anything differs, and prints the program, the steps and both texts.
"""

import argparse
import itertools
import os
import random
import re
import subprocess
import sys
import tempfile

COMMENT = re.compile(r"//[^\n]*")
THREAD = re.compile(r"\bthread\s+\w+\s*\{")
# Of the 10,000,000 that a steps file may have, those that follow a drawn schedule.
MOST_STEPS = 9_900_000
CALL = re.compile(r"call \d+ \d+ (.*\)) (ends|returns .*|traps \d+)$")


def without_threads(text):
    """The program without its threads, and how many these were."""
    text = COMMENT.sub("", text)
    count = 0
    while True:
        found = THREAD.search(text)
        if not found:
            return text, count
        depth, at = 1, found.end()
        while depth:
            depth += {"{": 1, "}": -1}.get(text[at], 0)
            at += 1
        text = text[: found.start()] + text[at:]
        count += 1


class Differs(Exception):
    pass


class Judge:
    def __init__(self, program, path):
        self.program = program
        with open(path, encoding="latin-1") as source:
            self.text, self.threads = without_threads(source.read())
        self.path = path
        self.folder = tempfile.mkdtemp()
        self.known = {}

    def run(self, *words):
        done = subprocess.run([self.program, *words], capture_output=True, timeout=120)
        if done.returncode != 0:
            raise Differs(f"{words}: status {done.returncode}: {done.stderr.decode('latin-1')}")
        return done.stdout.decode("latin-1").splitlines()

    def ends(self):
        done = subprocess.run([self.program, "serial", self.path], capture_output=True, timeout=120)
        return done.returncode == 0

    def simulate(self, steps):
        file = os.path.join(self.folder, "steps")
        with open(file, "w", encoding="latin-1") as out:
            out.write(steps)
        return self.run("simulate", self.path, file)

    def serial(self, calls):
        """What `serial` tells of these calls: the ends and prints, and the cells."""
        if calls not in self.known:
            file = os.path.join(self.folder, "serial.al")
            with open(file, "w", encoding="latin-1") as out:
                out.write(self.text + "\nthread only_one {\n" + "".join(f"  {c};\n" for c in calls) + "}\n")
            lines = self.run("serial", file)
            cells = lines.index("cells")
            self.known[calls] = (lines[1:cells], lines[cells + 1 : -1])
        return self.known[calls]

    def judge(self, steps):
        lines = self.simulate(steps)
        cells, threads = lines.index("cells"), lines.index("threads")
        history = lines[1:cells]
        calls = tuple(CALL.match(line).group(1) for line in history if line.startswith("call "))
        ends, values = self.serial(calls)
        bare = [re.sub(r"^call \d+ \d+ ", "call ", line) for line in history]
        if bare != [re.sub(r"^call \d+ \d+ ", "call ", line) for line in ends]:
            raise Differs("\n".join(lines) + "\nbut serial:\n" + "\n".join(ends))
        for told, value in zip(lines[cells + 1 : threads], values):
            if not told.endswith(" held") and told != value:
                raise Differs("\n".join(lines) + "\nbut serial:\n" + value)
        return lines[threads + 1 : -1]

    def judge_both(self, steps):
        self.judge(steps)
        rounds = self.threads + 1
        most = MOST_STEPS // (self.threads * rounds)
        for turn in (min(2_000, most), min(50_000, most), most):
            rest = " ".join(f"{t}*{turn}" for t in range(self.threads))
            last = self.judge(steps + " " + " ".join([rest] * rounds))
            if all(line.endswith(" idle") for line in last):
                return
        raise Differs("not all threads came to their end:\n" + "\n".join(last))


def drawn(chance, threads):
    """A schedule: mostly single steps, some longer turns."""
    items = []
    for _ in range(chance.randrange(1, 80)):
        thread = chance.randrange(threads)
        items.append(str(thread) if chance.random() < 0.7 else f"{thread}*{chance.randrange(40)}")
    return " ".join(items)


def main():
    words = argparse.ArgumentParser()
    words.add_argument("program")
    words.add_argument("files", nargs="+")
    words.add_argument("--seed", type=int, default=None)
    words.add_argument("--count", type=int, default=1000)
    words.add_argument("--all", type=int, default=None)
    given = words.parse_args()
    seed = random.randrange(2**32) if given.seed is None else given.seed
    print(f"seed {seed}")
    failed = False
    for path in given.files:
        chance = random.Random(f"{seed} {os.path.basename(path)}")
        judge = Judge(os.path.abspath(given.program), path)
        if judge.threads == 0 or not judge.ends():
            print(f"passed over {path}")
            continue
        if given.all is None:
            schedules = (drawn(chance, judge.threads) for _ in range(given.count))
        else:
            schedules = (
                " ".join(map(str, schedule))
                for steps in range(given.all + 1)
                for schedule in itertools.product(range(judge.threads), repeat=steps)
            )
        count, wrong = 0, False
        for steps in schedules:
            try:
                if given.all is None:
                    judge.judge_both(steps)
                else:
                    judge.judge(steps)
            except Differs as differs:
                print(f"FAILED {path}\nsteps {steps}\n{differs}")
                wrong = True
                break
            count += 1
        failed = failed or wrong
        print(f"{'FAILED' if wrong else 'ok'} {path}: {count} schedules", flush=True)
    sys.exit(1 if failed else 0)


if __name__ == "__main__":
    main()
