#!/usr/bin/env python3
"""Runs of `run`, each judged by `replay`.

    tests/runs.py PROGRAM [--times N] [--transfers N] [--many N] [FILE..]

PROGRAM is the built program. Each FILE, by default each of examples/ that `serial` runs to its end, is run N times, by
default 100. Besides, two threads that transfer between two accounts in opposite directions are run `--transfers` times, by
default 200, with 1,000 calls each; once 64 threads with 1,000 calls of a section on one lock each; and once two threads
with calls of sections that print 40 numbers without a loop. `replay` has to answer
`same` to every text, and `differs` at its line to one of which a returned value was raised by one.

Each FILE, and the two threads that transfer, with fewer calls, are also run with `--times N --seed 1`, by default 50 times, and
once with `--seed` alone: the numbers at the head fit the kinds of runs below, each kind is told once, by its order of calls and
the cells at its end, in the order of the numbers, and `replay` answers `same` to each history.

Exits with 1 where anything differs, and prints the program and what was answered.
"""

import argparse
import os
import pathlib
import re
import subprocess
import sys
import tempfile

TOP = pathlib.Path(__file__).resolve().parent.parent
TRANSFERS = """struct Acc { lock l; int bal protected_by(l); }
pool Acc p[2];
init p[0].bal = 10;
init p[1].bal = 20;
atomic transfer(ref Acc a, ref Acc b, int k) : int {
  a.bal = a.bal - k;
  b.bal = b.bal + k;
  return b.bal;
}
thread t { repeat 1000 { transfer(p[0], p[1], 5); } }
thread u { repeat 1000 { transfer(p[1], p[0], 7); } }
"""
MANY = "lock G;\nglobal int n protected_by(G);\natomic inc() { n = n + 1; }\n" + "".join(
    f"thread t{i} {{ repeat 1000 {{ inc(); }} }}\n" for i in range(64)
)

# (each thread makes few calls, so that a delay is what makes them change)
SHORT = TRANSFERS.replace("repeat 1000", "repeat 4")

PRINTS = f"""lock G;
global int n protected_by(G);
atomic tell(int k) {{{" print n + k;" * 40} n = n + k; }}
thread t {{ tell(1); tell(2); }}
thread u {{ tell(3); }}
"""


class Differs(Exception):
    pass


class Runs:
    def __init__(self, program, room):
        self.program = program
        self.history = os.path.join(room, "history")

    def done(self, *words):
        return subprocess.run([self.program, *words], capture_output=True, timeout=60)

    def replay(self, file, text, wanted):
        pathlib.Path(self.history).write_bytes(text)
        done = self.done("replay", file, self.history)
        told = (done.returncode, done.stdout.decode("latin-1"), done.stderr)
        if told != wanted:
            raise Differs(f"{file}: {told} where {wanted} was wanted, of\n{text.decode('latin-1')}")

    def run(self, file):
        done = self.done("run", file)
        if done.returncode or done.stderr:
            raise Differs(f"{file}: status {done.returncode}: {done.stderr!r}")
        self.replay(file, done.stdout, (0, "same\n", b""))
        return done.stdout

    def many(self, file, times, seed):
        """So many runs: how often the thread changes from one call to the next, at most, in one of them."""
        done = self.done("run", "--times", str(times), "--seed", str(seed), file)
        if done.returncode or done.stderr:
            raise Differs(f"{file}: status {done.returncode}: {done.stderr!r}")
        head, *kinds = re.split(rb"^order ", done.stdout, flags=re.M)
        numbers = re.fullmatch(rb"runs (\d+)\norders (\d+)\nends (\d+)\n", head)
        if not numbers:
            raise Differs(f"{file}: {head!r}")
        orders, ends, runs, changes = {}, {}, 0, 0
        for kind in kinds:
            line, text = kind.split(b"\n", 1)
            told = re.fullmatch(rb"(\d+) runs (\d+) end (\d+)", line)
            if not told or int(told[2]) < 1:
                raise Differs(f"{file}: {line!r}")
            runs += int(told[2])
            order = tuple(re.findall(rb"^call (\d+) (\d+) ", text, flags=re.M))
            end = text[text.index(b"\ncells\n") :]
            numbered = (orders.setdefault(order, len(orders) + 1), ends.setdefault(end, len(ends) + 1))
            if numbered != (int(told[1]), int(told[3])):
                raise Differs(f"{file}: {line!r} where the numbers are {numbered}")
            changes = max(changes, sum(one[0] != next[0] for one, next in zip(order, order[1:])))
            self.replay(file, text, (0, "same\n", b""))
        found = (runs, len(orders), len(ends))
        if found != tuple(map(int, numbers.groups())) or runs != times or len(kinds) != len(orders):
            raise Differs(f"{file}: {head!r}, {len(kinds)} kinds, where {times} runs make {found}")
        return changes

    def delayed(self, file, seed):
        done = self.done("run", "--seed", str(seed), file)
        if done.returncode or done.stderr:
            raise Differs(f"{file}: status {done.returncode}: {done.stderr!r}")
        self.replay(file, done.stdout, (0, "same\n", b""))

    def raised(self, file, text):
        """The text with one returned number raised by one."""
        lines = text.split(b"\n")
        at = next((n for n, line in enumerate(lines) if n > len(lines) // 3 and re.search(rb" returns -?\d+$", line)), None)
        if at is None:
            return
        head, number = lines[at].rsplit(b" ", 1)
        lines[at] = head + b" %d" % (int(number) + 1)
        self.replay(file, b"\n".join(lines), (5, f"differs at line {at + 1}\n", b""))


def ends(runs, file):
    return runs.done("serial", str(file)).returncode == 0


def main():
    words = argparse.ArgumentParser(description=__doc__, formatter_class=argparse.RawDescriptionHelpFormatter)
    words.add_argument("program")
    words.add_argument("files", nargs="*")
    words.add_argument("--times", type=int, default=100)
    words.add_argument("--transfers", type=int, default=200)
    words.add_argument("--many", type=int, default=50)
    given = words.parse_args()
    count = 0
    with tempfile.TemporaryDirectory() as room:
        runs = Runs(os.path.abspath(given.program), room)
        made = {name: os.path.join(room, name) for name in ("transfers.al", "many.al", "prints.al", "short.al")}
        pathlib.Path(made["transfers.al"]).write_text(TRANSFERS)
        pathlib.Path(made["many.al"]).write_text(MANY)
        pathlib.Path(made["prints.al"]).write_text(PRINTS)
        pathlib.Path(made["short.al"]).write_text(SHORT)
        files = given.files or [file for file in sorted((TOP / "examples").glob("*.al")) if ends(runs, file)]
        try:
            own = [(made["transfers.al"], given.transfers), (made["many.al"], 1), (made["prints.al"], 1)]
            for file, times in own + [(f, given.times) for f in files]:
                for _ in range(times):
                    text = runs.run(str(file))
                    count += 1
                runs.raised(str(file), text)
                lines = text.split(b"\n")
                if str(file) == made["transfers.al"] and lines[-4:] != [b"p[0].bal 2010", b"p[1].bal -1980", b"end", b""]:
                    raise Differs(f"{file}: {lines[-4:]}")
                if str(file) == made["many.al"] and (len(lines) != 64005 or lines[-3] != b"n 64000"):
                    raise Differs(f"{file}: {len(lines)} lines, {lines[-3]}")
                if str(file) == made["prints.al"] and (len(lines) != 128 or lines[-3] != b"n 6"):
                    raise Differs(f"{file}: {len(lines)} lines, {lines[-3]}")
            for file in [made["short.al"], made["prints.al"]] + files:
                runs.many(str(file), given.many, 1)
                runs.delayed(str(file), 1)
                count += given.many + 1
        except (Differs, subprocess.TimeoutExpired) as wrong:
            print(str(wrong)[:4000])
            print(f"{count} runs, then one that is wrong")
            sys.exit(1)
    print(f"{count} runs, 0 failed")


if __name__ == "__main__":
    main()
