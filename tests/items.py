#!/usr/bin/env python3
"""Gives `autolock simulate` and `trace` steps files with items of each form, and judges them by counted steps.

    tests/items.py [--program BIN] [--seed N] [--count N] [FILE..]

--seed N    the first seed of the items that are drawn, by default 1
--count N   so many steps files for each program, by default 20
FILE..      programs, by default those of examples/ that are accepted

Of items that are drawn, each thread by its number or its name, `trace --all` tells the steps. A file of these steps, one by
one by number, must give the same texts; and item by item the steps must end where the item says: `T!` behind a `waits` or
an `ended`, or where T is idle or waits ahead of them, and not before; `T+` so too, but for a wait that it asks again.
Besides, files of one faulty item each, and a section that spins for ever, must end with status 6 and the fault's line.
The last line is 'N runs, M failed'; exit status 1 where M is not 0.
"""
import argparse
import pathlib
import random
import re
import subprocess
import sys
import tempfile

TOP = pathlib.Path(__file__).resolve().parent.parent
SPINS = """lock l;
global int n protected_by(l);
atomic s() { while (0 == 0) { n = n + 1; } }
thread one { s(); }
thread two { s(); }
"""
# Items, the column of the first faulty one, and its fault.
FAULTS = [
    ("!", 1, "S1 bad item"),
    ("one!!", 1, "S1 bad item"),
    ("0 0+1", 3, "S1 bad item"),
    ("0 one*", 3, "S1 bad item"),
    ("0! 1!x", 4, "S1 bad item"),
    ("one two three", 9, "S1 bad item"),
    ("2!", 1, "S2 no such thread"),
    ("one 2*3", 5, "S2 no such thread"),
    ("1a", 1, "S1 bad item"),
    ("One", 1, "S1 bad item"),
    ("one*10000000 two", 14, "S3 too many steps"),
    ("0!", 1, "S3 too many steps"),
    ("one*9 one+ two", 7, "S3 too many steps"),
    ("two*2 one*10000000", 7, "S3 too many steps"),
]


class Program:
    """Runs commands of `autolock` on one program."""

    def __init__(self, binary, file, room):
        self.binary, self.file, self.steps = binary, file, pathlib.Path(room, "steps")

    def said(self, *words):
        """What a command writes of the program and the steps file, its messages and its status."""
        command = [self.binary, *words, str(self.file), str(self.steps)]
        ended = subprocess.run(command, capture_output=True, text=True, stdin=subprocess.DEVNULL)
        return ended.stdout, ended.stderr, ended.returncode

    def lines(self, items):
        """The threads and events of the steps of items, and the simulation text; or nothing, where there is a message."""
        self.steps.write_text(" ".join(items))
        out, err, status = self.said("trace", "--all")
        if err or status:
            return None, None
        steps, simulation = out.split("simulation 1\n")
        return [line.split(" ", 1) for line in steps.splitlines()], simulation


def stopped(thread, simulation):
    """Whether the thread waits or is idle in the world that the simulation text tells."""
    state = simulation.split("threads\n")[1].splitlines()[thread]
    return re.fullmatch(r"\d+ (idle|waits .*)", state)


def wrong_item(program, ahead, item, thread):
    """What is wrong with the steps of an item behind others, or nothing."""
    before, world = program.lines(ahead)
    after, end = program.lines([*ahead, item])
    if before is None or after is None or after[: len(before)] != before:
        return "the steps ahead of it are others"
    events = after[len(before) :]
    if any(number != str(thread) for number, _ in events):
        return "a step of another thread"
    words = [event.split(" ", 1)[0] for _, event in events]
    if not item.endswith(("!", "+")):
        return None if len(words) == int((item.split("*") + ["1"])[1]) else "another number of steps"
    if "ended" in words[:-1] or "idle" in words or "waits" in words[:-1]:
        return "it goes on behind its end"
    if not words:
        idle = re.search(rf"^{thread} idle$", world, re.MULTILINE)
        return None if idle or (item.endswith("!") and stopped(thread, world)) else "no step"
    if item.endswith("!") and stopped(thread, world):
        return "a step where the thread waits or is idle"
    return None if words[-1] in ("ended", "waits") else "it stops too early"


def wrong_items(program, names, choose):
    """What is wrong with some items that are drawn, or nothing."""
    items = []
    for _ in range(choose.randint(1, 12)):
        thread = choose.randrange(len(names))
        named = choose.choice([str(thread), names[thread]])
        item = named + choose.choice(["", "*0", "*3", "*17", "!", "+", "!", "+"])
        if wrong := wrong_item(program, items, item, thread):
            return f"{' '.join(items)} {item}: {wrong}"
        items.append(item)
    steps, simulation = program.lines(items)
    told = [program.said("simulate"), program.said("trace")]
    if program.lines([number for number, _ in steps]) != (steps, simulation):
        return f"{' '.join(items)}: its steps one by one have another trace"
    if [program.said("simulate"), program.said("trace")] != told:
        return f"{' '.join(items)}: its steps one by one have another text"
    return None


def wrong_faults(binary, room):
    """The files of FAULTS that are not answered with their fault."""
    file = pathlib.Path(room, "spins.al")
    file.write_text(SPINS)
    program = Program(binary, file, room)
    for items, column, fault in FAULTS:
        program.steps.write_text(items)
        for command in ("simulate", "trace"):
            wanted = ("", f"{program.steps}:1:{column}: {fault}\n", 6)
            if (said := program.said(command)) != wanted:
                yield f"{command} of {items}: {said}"


def main():
    p = argparse.ArgumentParser(formatter_class=argparse.RawDescriptionHelpFormatter, description=__doc__)
    p.add_argument("--program", default=str(TOP / "autolock"))
    p.add_argument("--seed", type=int, default=1)
    p.add_argument("--count", type=int, default=20)
    p.add_argument("files", nargs="*", type=pathlib.Path, metavar="FILE")
    a = p.parse_args()
    runs, failures = 2 * len(FAULTS), []
    with tempfile.TemporaryDirectory() as room:
        failures += wrong_faults(a.program, room)
        for file in a.files or sorted((TOP / "examples").glob("*.al")):
            names = re.findall(r"^thread\s+(\w+)", file.read_text(), re.MULTILINE)
            program = Program(a.program, file, room)
            program.steps.write_text("")
            if not names or program.said("simulate")[2]:
                continue
            for seed in range(a.seed, a.seed + a.count):
                runs += 1
                if wrong := wrong_items(program, names, random.Random(seed)):
                    failures.append(f"{file}: {wrong}")
    for failure in failures:
        print(failure)
    print(f"{runs} runs, {len(failures)} failed")
    sys.exit(1 if failures else 0)


if __name__ == "__main__":
    main()
