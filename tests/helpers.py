#!/usr/bin/env python3
"""Programs with helpers, each compared with the same program with its helpers written out.

    tests/helpers.py BIN [--seed N] [--count N] [--jobs N] [--keep FOLDER] [FILE ..]

BIN is the built program. Of `--count` random programs (1,000 by default, those of the seeds from N on, 1 by default), and of
each FILE, by default those of examples/, the text without helpers is made here, as docs/LANGUAGE.md says (written_out.py).
Both are given to the program, and have to be answered alike:

check     accepts both, with the same text, where places are those of the first text and names those of the helpers; or
          refuses both, with the same code, at the place that is found here or is that of the same token
listing   writes the same, with the names of the helpers
serial    writes the same bytes, with 1,000 turns, which are those that the calls come to in whole_calls.py, where helpers
          are run as such; and simulate the same for a few random steps files
replay    says `same` of what serial and run wrote, of both programs; and `differs` at its line where one value is raised

A FILE without helpers, or with a fault for which nothing can be written out, is passed over. `--keep` writes the random
programs to a folder. A program of which something isn't alike is kept as helpers-NUMBER.al in the current folder, with the
other one as helpers-NUMBER-written.al. The last line is 'N runs, M failed'; exit status 1 where M is not 0.
"""

import argparse
import multiprocessing
import os
import pathlib
import random
import re
import subprocess
import sys
import tempfile

from helper_programs import drawn, laid_out
from schedules import drawn as drawn_steps
from whole_calls import Calls
from written_out import Bounds, CannotBeWritten, NoProgram, Program, Written, tokens_of, unstable

TOP = pathlib.Path(__file__).resolve().parent.parent
FAULT = re.compile(r"[^\n]*?:(\d+):(\d+): (E\d\d) ([^\n]*)\n")
AT = re.compile(r"^at (\d+):(\d+) ", re.M)
RAISED = re.compile(r"(.* returns |print |.* )(-?\d+)")
TURNS = ("--turns", "1000")
# Faults of the passes that judge what is written out, and of limits; each other fault is one of the first text alone.
OF_WRITTEN = ("E13", "E14", "E15")


class Differs(Exception):
    pass


class PassedOver(Exception):
    pass


class Pair:
    """A program with helpers, and the one with them written out, as files."""

    def __init__(self, binary, folder, text):
        self.binary, self.runs = binary, 0
        self.program = Program(text)
        self.written = Written(self.program)
        self.paths = [os.path.join(folder, name) for name in ("first.al", "written.al")]
        self.steps, self.history = (os.path.join(folder, name) for name in ("steps", "history"))
        for path, source in zip(self.paths, (text, self.written.text)):
            self.write(path, source)

    def write(self, path, text):
        with open(path, "w", encoding="latin-1", newline="") as file:
            file.write(text)

    def run(self, *words):
        self.runs += 1
        done = subprocess.run([self.binary, *words], capture_output=True, timeout=120)
        return done.returncode, done.stdout.decode("latin-1"), done.stderr.decode("latin-1")

    def both(self, command, *words, last=()):
        return [self.run(command, *words, path, *last) for path in self.paths]

    def alike(self, what, first, second):
        if first != second:
            raise Differs(f"{what}:\n{first}\nbut written out:\n{second}")

    def limit(self):
        """The least place of a limit that is passed, or nothing."""
        faults = Bounds(self.program).faults()
        return self.program.place(min(faults)) if faults else None

    def unstable(self):
        """The least place of an unstable base, or nothing."""
        program = Program(self.written.text)
        places = [self.written.origins[program.place(number)] for number in unstable(program)]
        return min(places, default=None)

    def is_accepted(self, is_drawn):
        """Whether both are accepted; they have to be accepted or refused alike."""
        first, second = self.both("check")
        faults = [FAULT.fullmatch(told[2]) for told in (first, second)]
        if first[0] == 1 and faults[0] and faults[0].group(3) not in OF_WRITTEN and not is_drawn:
            raise PassedOver
        limit = self.limit()
        if limit:
            self.alike("a limit", first[0::2], (1, f"{self.paths[0]}:{limit[0]}:{limit[1]}: E15 limit exceeded\n"))
        elif first[0] == 1 and second[0] == 1 and all(faults):
            self.refused(*faults)
        else:
            origins = self.written.origins
            text = AT.sub(lambda at: "at %d:%d " % origins.get((int(at.group(1)), int(at.group(2))), (0, 0)), second[1])
            self.alike("check", first, (0, self.written.original(text), ""))
        if first[0] == 1:
            for command in ("listing", "serial", "run"):
                self.alike(command, self.run(command, self.paths[0]), first)
        return first[0] == 0

    def refused(self, first, second):
        place, code = (int(first.group(1)), int(first.group(2))), first.group(3)
        mapped = self.written.origins.get((int(second.group(1)), int(second.group(2))))
        unstable_at = self.unstable()
        if code == "E15" or second.group(3) == "E15":
            if code not in ("E13", "E15") or place > (unstable_at or mapped):
                raise Differs(f"{first.group()} where {unstable_at} is unstable\nbut written out: {second.group()}")
        elif unstable_at:
            self.alike("unstable", (code, place), ("E13", unstable_at))
            self.alike("code", code, second.group(3))
        else:
            self.alike("fault", (place, code, first.group(4)), (mapped, *second.group(3, 4)))

    def compare(self, chance, is_drawn):
        if not self.is_accepted(is_drawn):
            return "refused"
        self.runs_alike(chance)
        return "accepted"

    def runs_alike(self, chance):
        listings = self.both("listing")
        self.alike("listing", listings[0], (0, self.written.original(listings[1][1]), ""))
        first, second = self.both("serial", *TURNS)
        self.alike("serial", first, second)
        wanted = Calls(self.program, int(TURNS[1])).serial()
        if first[1:] != (wanted, ""):
            raise Differs(f"serial:\n{first}\nwhere this was wanted:\n{wanted}")
        self.simulate(chance)
        if first[0] == 0:
            self.replay(chance, first[1])
            done = self.run("run", self.paths[0])
            self.alike("run", (done[0], done[2]), (0, ""))
            self.replay(chance, done[1])

    def simulate(self, chance):
        threads = sum(d.kind == "thread" for d in self.program.declarations)
        for number in range(4 if threads else 0):
            rest = "".join(f" {thread}*{chance.choice([40, 3000, 20000])}" for thread in range(threads))
            steps = drawn_steps(chance, threads) + (rest * 2 if number % 2 else "")
            self.write(self.steps, steps)
            self.alike("simulate " + steps, *self.both("simulate", last=(self.steps,)))

    def replay(self, chance, text):
        self.write(self.history, text)
        for told in self.both("replay", *TURNS, last=(self.history,)):
            self.alike("replay of\n" + text, told, (0, "same\n", ""))
        lines = text.split("\n")
        may = [n for n, line in enumerate(lines[:-1]) if n and RAISED.fullmatch(line) and not line.endswith("775807")]
        may = [n for n in may if " traps " not in lines[n]]
        if not may:
            return
        number = chance.choice(may)
        head, value = RAISED.fullmatch(lines[number]).groups()
        lines[number] = f"{head}{int(value) + 1}"
        self.write(self.history, "\n".join(lines))
        for told in self.both("replay", *TURNS, last=(self.history,)):
            self.alike("replay of\n" + "\n".join(lines), told, (5, f"differs at line {number + 1}\n", ""))


def try_one(part):
    """What became of a random program, which is given by its seed, or of a file; its runs; and its texts where it failed."""
    binary, what, keep = part
    is_drawn = isinstance(what, int)
    with tempfile.TemporaryDirectory(dir="/dev/shm" if os.access("/dev/shm", os.W_OK) else None) as folder:
        pair = None
        try:
            if is_drawn:
                text = laid_out(what, [word for declaration in drawn(what, lists=what % 2 == 1) for word, _ in tokens_of(declaration)])
            else:
                text = pathlib.Path(what).read_bytes().decode("latin-1")
            if is_drawn and keep:
                pathlib.Path(keep, f"{what}.al").write_bytes(text.encode("latin-1"))
            pair = Pair(binary, folder, text)
            if not pair.program.helpers:
                raise PassedOver
            return what, pair.compare(random.Random(f"{what} steps"), is_drawn), pair.runs, None
        except (NoProgram, CannotBeWritten, PassedOver) as reason:
            if is_drawn:
                return what, f"DIFFERS {reason!r}", 0, None
            return what, "passed over", pair.runs if pair else 0, None
        except (Differs, subprocess.TimeoutExpired) as differs:
            return what, f"DIFFERS {differs}", pair.runs, (text, pair.written.text)


def main():
    words = argparse.ArgumentParser(description=__doc__, formatter_class=argparse.RawDescriptionHelpFormatter)
    words.add_argument("program")
    words.add_argument("files", nargs="*")
    words.add_argument("--seed", type=int, default=1)
    words.add_argument("--count", type=int, default=1000)
    words.add_argument("--jobs", type=int, default=os.cpu_count())
    words.add_argument("--keep")
    given = words.parse_args()
    binary = os.path.abspath(given.program)
    files = given.files or sorted(map(str, (TOP / "examples").glob("*.al")))
    parts = [(binary, what, given.keep) for what in [*files, *range(given.seed, given.seed + given.count)]]
    kinds, runs, failed = {}, 0, 0
    with multiprocessing.Pool(given.jobs) as pool:
        for what, told, count, texts in pool.imap_unordered(try_one, parts, chunksize=4):
            runs += count
            kind = told.split(" ")[0]
            kinds[kind] = kinds.get(kind, 0) + 1
            if kind == "DIFFERS":
                for name, text in zip(("", "-written"), texts or ()):
                    pathlib.Path(f"helpers-{failed}{name}.al").write_bytes(text.encode("latin-1"))
                print(f"helpers-{failed}.al, {what}: {told[:3000]}", flush=True)
                failed += 1
            elif not isinstance(what, int) and told != "passed over":
                print(f"{what}: {told}")
    print(", ".join(f"{count} {kind}" for kind, count in sorted(kinds.items())))
    print(f"{runs} runs, {failed} failed")
    sys.exit(1 if failed else 0)


if __name__ == "__main__":
    main()
