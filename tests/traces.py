#!/usr/bin/env python3
"""Judges what `autolock trace` writes of programs by what `check`, `listing` and `simulate` write of them.

    tests/traces.py [--program BIN] [--seed N] [--count N] [FILE..]

--seed N    the first seed of the steps that are drawn, by default 1
--count N   so many steps files for each program, by default 20
FILE..      programs, by default those of examples/ that are accepted

The text must end with what `simulate` writes, and with --all have a line for each step ahead of it. A thread must begin
its calls one after another and run, from the first instruction of the listing on, one that may come next; an `acquire`
must stand at a place where `check` takes these paths; a lock that is got must be held by no other thread, and one that is waited for by
the thread that is named; positions must rise by one. With --sections the same lines must come without those of `moved`,
and without --all without those of `idle`.
The last line is 'N runs, M failed'; exit status 1 where M is not 0.
"""
import argparse
import pathlib
import random
import re
import subprocess
import sys
import tempfile

TOP = pathlib.Path(__file__).resolve().parent.parent


def texts_of(listing, check):
    """For each section its instructions, and where it takes which paths."""
    code, takes = {}, {}
    for line in listing.splitlines():
        if line.startswith("section "):
            current = code.setdefault(line[8:], [])
        else:
            current.append(line.split(" ", 1)[1])
    for line in check.splitlines():
        if line.startswith("section "):
            current = takes.setdefault(line[8:], set())
        elif line.startswith("at "):
            current.add(tuple(line[3:].split(" take ", 1)))
    return code, takes


def nexts(places, text):
    """Where a thread may go on after an instruction at one of these places."""
    word, *operands = text.split()
    if word == "jump":
        return {int(operands[0])}
    return {place + 1 for place in places} | ({int(operands[0])} if word in ("jfalse", "jtrue") else set())


def wrong_lines(lines, code, takes):
    """What is wrong with the lines of steps, or nothing."""
    opened, holders, position = {}, {}, 0
    for line in lines:
        thread, event = line.split(" ", 1)
        word = event.split(" ", 1)[0]
        if word == "began":
            if thread in opened:
                return f"{line}: its section has not ended"
            opened[thread] = (re.match(r"began (\w+)\(", event)[1], {0})
        elif word == "moved":
            place, text = re.fullmatch(r"moved (?:(\d+:\d+) )?(.*)", event).groups()
            section, places = opened[thread]
            here = {at for at in places if at < len(code[section]) and code[section][at] == text}
            if not here:
                return f"{line}: none of the instructions {sorted(places)} of {section}"
            if text.startswith("acquire ") and (place, text[8:]) not in takes[section]:
                return f"{line}: check takes nothing of this there"
            opened[thread] = (section, nexts(here, text))
        elif word == "got":
            if holders.setdefault(event[4:], thread) != thread:
                return f"{line}: thread {holders[event[4:]]} holds it"
        elif word == "waits":
            lock, holder = re.fullmatch(r"waits (\S+) for (\d+)", event).groups()
            if holders.get(lock) != holder or holder == thread:
                return f"{line}: thread {holders.get(lock)} holds it"
        elif word == "ended":
            if event != f"ended at {position}":
                return f"{line}: position {position} is next"
            position += 1
            del opened[thread]
            holders = {lock: by for lock, by in holders.items() if by != thread}
        elif event != "idle" or thread in opened:
            return f"{line}: no such step"
    return None


# By the options: the words of the lines that are left out.
LEFT_OUT = {"--all": (), "--sections --all": ("moved",), "": ("idle",), "--sections": ("moved", "idle")}


def wrong_trace(count, traces, simulation, code, takes):
    """What is wrong with the texts of a steps file of so many steps, by their options, or nothing."""
    if not all(trace.endswith(simulation) for trace in traces.values()):
        return "the text does not end with the simulation text"
    told = {options: trace[: len(trace) - len(simulation)].splitlines() for options, trace in traces.items()}
    lines = told["--all"]
    if len(lines) != count:
        return f"{len(lines)} lines for {count} steps"
    for options, words in LEFT_OUT.items():
        if told[options] != [line for line in lines if line.split()[1] not in words]:
            return f"with '{options}' other lines are left out than those of {words}"
    return wrong_lines(lines, code, takes)


def drawn(choose, threads):
    """Some items of a steps file, and how many steps they are."""
    items = [(choose.randrange(threads), choose.choice([1, 2, 3, 5, 9, 40, 200])) for _ in range(choose.randint(1, 40))]
    return " ".join(f"{thread}*{count}" for thread, count in items), sum(count for _, count in items)


def main():
    p = argparse.ArgumentParser(formatter_class=argparse.RawDescriptionHelpFormatter, description=__doc__)
    p.add_argument("--program", default=str(TOP / "autolock"))
    p.add_argument("--seed", type=int, default=1)
    p.add_argument("--count", type=int, default=20)
    p.add_argument("files", nargs="*", type=pathlib.Path, metavar="FILE")
    a = p.parse_args()

    def said(*words):
        ended = subprocess.run([a.program, *map(str, words)], capture_output=True, text=True, stdin=subprocess.DEVNULL)
        return ended.stdout if ended.returncode == 0 and not ended.stderr else None

    runs = failed = 0
    with tempfile.TemporaryDirectory() as room:
        steps = pathlib.Path(room, "steps")
        steps.write_text("")
        for file in a.files or sorted((TOP / "examples").glob("*.al")):
            if (check := said("check", file)) is None:
                continue
            code, takes = texts_of(said("listing", file), check)
            idle = said("simulate", file, steps).splitlines()
            threads = len(idle) - 2 - idle.index("threads")
            for seed in range(a.seed, a.seed + a.count if threads else a.seed):
                text, count = drawn(random.Random(seed), threads)
                steps.write_text(text)
                traces = {options: said("trace", *options.split(), file, steps) for options in LEFT_OUT}
                simulation = said("simulate", file, steps)
                silent = None in (simulation, *traces.values())
                wrong = "a status or a message" if silent else wrong_trace(count, traces, simulation, code, takes)
                runs += 1
                if wrong:
                    failed += 1
                    print(f"{file} {text}: {wrong}")
            steps.write_text("")
    print(f"{runs} runs, {failed} failed")
    sys.exit(1 if failed else 0)


if __name__ == "__main__":
    main()
