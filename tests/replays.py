#!/usr/bin/env python3
"""Recorded histories given to `replay`, judged by `serial` and by the format's rules as this script has them.

    tests/replays.py PROGRAM [--seed N] [--count N] [--every N] FILE..

PROGRAM is the built program. Each FILE is a program that is accepted; one that `serial` doesn't run to its end, or
without threads, is passed over. Of each, `--count` orders of all its calls are drawn (20 by default), each thread's in
order; what `serial` tells of a program with these calls in one thread is their history, in both formats, with beginnings
drawn for the second. `replay` has to answer `same` to each. Then each history is changed: every beginning of it, each
byte replaced by each of a few, lines doubled, dropped and exchanged, at every N-th place (7 by default), and beginnings
that may not be. What `replay` has to answer is found here: the fault of a text that is no history; else the first line
that may not come. Of a line that differs `--why` has to name a line with which the first wrong line comes later, or the
next calls of all threads.

Exits with 1 where anything differs, and prints the program, the history and both answers.
"""

import argparse
import multiprocessing
import os
import random
import re
import subprocess
import sys

from schedules import CALL, Differs, Judge

KEYWORDS = set(
    "lock struct final ref int global protected_by pool init atomic let var if else while print return thread repeat null "
    "where call".split()
)
REPLACEMENTS = b"(0.9\x00\x80\n -"
COUNT = r"(?:0|[1-9][0-9]*)"
NAME = r"[A-Za-z_][A-Za-z0-9_]*"
VALUE = rf"(?:-?{COUNT}|null|{NAME}\[{COUNT}\])"
INVOKED = rf"{NAME}\((?:{VALUE}(?:, {VALUE})*)?\) (?:ends|returns {VALUE}|traps [1-6])"
LINES = {
    "history 1": re.compile(rf"call {COUNT} {COUNT} {INVOKED}"),
    "history 2": re.compile(rf"call {COUNT} {COUNT} {COUNT} {INVOKED}"),
}
PRINT = re.compile(rf"print -?{COUNT}")
CELL = re.compile(rf"(?:{NAME}|{NAME}\[{COUNT}\]|{NAME}\[{COUNT}\]\.{NAME}) {VALUE}")


def is_form(pattern, line):
    """Whether a line has this form, its names are no keywords, and its numbers are in range."""
    if not pattern.fullmatch(line) or re.search(r"(?<![0-9A-Za-z_])-0(?![0-9])", line):
        return False
    rest = line.partition(" ")[2]
    counted = line if pattern is CELL else rest
    for number in re.findall(r"(?<![A-Za-z0-9_])-?[0-9]+", counted):
        if not -(2**63) <= int(number) < 2**63:
            return False
    ends = set() if pattern is CELL else {"ends", "returns", "traps"}
    if re.search(r"(?<![A-Za-z0-9_])null[\[(.]", counted) or (pattern is CELL and line.startswith("null ")):
        return False
    words = set(re.findall(rf"(?<![A-Za-z0-9_]){NAME}", counted)) - ends - {"null"}
    return not words & KEYWORDS


def fault_of(text):
    """The line and the code of a text that is no history, or nothing."""
    pieces = text.decode("latin-1").split("\n")
    pattern, stage = None, "header"
    for number, line in enumerate(pieces, 1):
        is_last = number == len(pieces)
        if len(line) > 1024:
            return number, "H4 line too long"
        if is_last:
            return None if stage == "ended" and not line else (number, "H2 bad line" if stage == "ended" else "H3 missing end")
        if stage == "header":
            if line not in LINES:
                return number, "H1 bad header"
            pattern, stage = LINES[line], "opening"
        elif stage in ("opening", "called"):
            if line == "cells":
                stage = "cells"
            elif is_form(pattern, line) or (stage == "called" and is_form(PRINT, line)):
                stage = "called"
            else:
                return number, "H2 bad line"
        elif stage == "cells":
            if line == "end":
                stage = "ended"
            elif not is_form(CELL, line):
                return number, "H2 bad line"
        else:
            return number, "H2 bad line"
    raise AssertionError


class Replays:
    """A program, its scripts, and what becomes of calls in some order."""

    def __init__(self, program, path):
        self.judge = Judge(program, path)
        self.scripts = []
        for line in self.judge.run("serial", path):
            if line == "cells":
                break
            if line.startswith("call "):
                thread = int(line.split(" ")[1])
                self.scripts += [[] for _ in range(thread + 1 - len(self.scripts))]
                self.scripts[thread].append(CALL.match(line).group(1))
        self.file = os.path.join(self.judge.folder, "history")

    def told(self, order):
        """What is told of each call of an order, with its prints, and the cells after them."""
        ends, cells = self.judge.serial(tuple(self.scripts[t][k] for t, k in order))
        entries = []
        for line in ends:
            if line.startswith("call "):
                entries.append([line.split(" ", 3)[3]])
            else:
                entries[-1].append(line)
        return entries, cells

    def history(self, order, begun=None):
        entries, cells = self.told(order)
        lines = ["history 1" if begun is None else "history 2"]
        for position, ((thread, step), entry) in enumerate(zip(order, entries)):
            at = "" if begun is None else f"{begun[position]} "
            lines += [f"call {thread} {step} {at}{entry[0]}", *entry[1:]]
        return "".join(line + "\n" for line in [*lines, "cells", *cells, "end"]).encode("latin-1")

    def wanted(self, text):
        """What `replay` has to answer: its status and its line."""
        fault = fault_of(text)
        if fault:
            return 6, f"{self.file}:{fault[0]}: {fault[1]}\n"
        line = self.first_wrong(text.decode("latin-1").split("\n")[:-1])
        return (0, "same\n") if line is None else (5, f"differs at line {line}\n")

    def first_wrong(self, lines):
        in_order, calls, stop = [], [], None
        last = {}
        parts = 5 if lines[0] == "history 2" else 4
        for number, line in enumerate(lines, 1):
            if not line.startswith("call "):
                if line == "cells":
                    break
                continue
            words = line.split(" ", parts - 1)
            thread, step = int(words[1]), int(words[2])
            done = sum(1 for t, _ in in_order if t == thread)
            if thread >= len(self.scripts) or step != done or step >= len(self.scripts[thread]):
                stop = number
                break
            if not words[-1].startswith(self.scripts[thread][step] + " "):
                stop = number
                break
            if parts == 5:
                begun = int(words[3])
                if begun > len(in_order) or begun <= last.get(thread, -1):
                    stop = number
                    break
            last[thread] = len(in_order)
            in_order.append((thread, step))
            calls.append(number)
        entries, cells = self.told(in_order) if in_order else ([], self.judge.serial(())[1])
        for index, number in enumerate(calls):
            following = lines[number - 1 : number - 1 + len(entries[index])]
            told = [" ".join(following[0].split(" ")[parts - 1 :]), *following[1:]] if following else []
            for offset, want in enumerate(entries[index]):
                if offset >= len(told) or told[offset] != want:
                    return number + offset
            after = number + len(entries[index])
            ends = after == stop or (index + 1 < len(calls) and calls[index + 1] == after)
            if not ends and lines[after - 1] != "cells":
                return after
        if stop is not None:
            return stop
        at = lines.index("cells") + 1
        if len(in_order) != sum(map(len, self.scripts)):
            return at
        for offset, want in enumerate([*cells, "end"]):
            if lines[at + offset] != want:
                return at + offset + 1
        return None

    def try_one(self, text, wanted=None):
        with open(self.file, "wb") as file:
            file.write(text)
        words = [self.judge.program, "replay", self.judge.path, self.file]
        done = subprocess.run(words, capture_output=True, timeout=60)
        status, line = wanted or self.wanted(text)
        out, err = ("", line) if status == 6 else (line, "")
        if (done.returncode, done.stdout.decode("latin-1"), done.stderr.decode("latin-1")) != (status, out, err):
            raise Differs(f"{words} answers {done}\nwanted {status} {line}\nof\n{text.decode('latin-1')}")
        words.append("--why")
        told = subprocess.run(words, capture_output=True, timeout=60)
        rest = told.stdout[len(done.stdout) :].decode("latin-1")
        alike = told.returncode == status and told.stderr == done.stderr and told.stdout.startswith(done.stdout)
        if not alike or (rest != "" if status != 5 else not self.is_why(text, int(line.split(" ")[-1]), rest)):
            raise Differs(f"{words} answers {told}\nof\n{text.decode('latin-1')}")

    def is_why(self, text, number, told):
        """Whether this is what has to be told of a line that differs: that line; and one that may stand there, or the next
        call of each thread where the line is that of none."""
        lines = text.decode("latin-1").split("\n")[:-1]
        found = lines[number - 1]
        *wanted, last = told.removesuffix("\n").split("\n")
        if last != f"found: {found}" or not wanted or not all(line.startswith("expected: ") for line in wanted):
            return False
        wanted = [line.removeprefix("expected: ") for line in wanted]
        if not wanted[0].endswith(" .."):
            wrong = self.first_wrong([*lines[: number - 1], wanted[0], *["?"] * 5000])
            return len(wanted) == 1 and wanted[0] != found and (wrong is None or wrong > number)
        calls = [int(line.split(" ")[1]) for line in lines[: number - 1] if line.startswith("call ")]
        begun = f"{len(calls)} " if lines[0] == "history 2" else ""
        heads = []
        for thread, script in enumerate(self.scripts):
            step = calls.count(thread)
            if step < len(script):
                heads.append(f"call {thread} {step} {begun}{script[step]} ")
        return wanted == [f"{head}.." for head in heads] and not self.is_named(found, calls, lines[0])

    def is_named(self, line, calls, header):
        """Whether a line is up to its end that of a next call, as far as it says its begin."""
        parts = 5 if header == "history 2" else 4
        words = line.split(" ", parts - 1)
        if words[0] != "call" or len(words) < parts or int(words[1]) >= len(self.scripts):
            return False
        thread, step = int(words[1]), int(words[2])
        least = max([at + 1 for at, t in enumerate(calls) if t == thread], default=0)
        if step != calls.count(thread) or step >= len(self.scripts[thread]):
            return False
        if parts == 5 and not least <= int(words[3]) <= len(calls):
            return False
        return words[-1].startswith(self.scripts[thread][step] + " ")


def an_order(chance, scripts):
    left = [len(script) for script in scripts]
    order = []
    while any(left):
        thread = chance.choice([t for t, n in enumerate(left) if n])
        order.append((thread, len(scripts[thread]) - left[thread]))
        left[thread] -= 1
    return order


def beginnings(chance, order):
    """Of each call of an order how long the history may have been when it began."""
    last, begun = {}, []
    for position, (thread, _) in enumerate(order):
        begun.append(chance.randint(last.get(thread, -1) + 1, position))
        last[thread] = position
    return begun


def changed(chance, text, every):
    for end in range(0, len(text), every):
        yield text[:end]
    for place in range(0, len(text), every):
        for byte in REPLACEMENTS:
            yield text[:place] + bytes([byte]) + text[place + 1 :]
    lines = text.splitlines(True)
    for at in range(len(lines)):
        yield b"".join(lines[:at] + lines[at:][:1] + lines[at:])
        yield b"".join(lines[:at] + lines[at + 1 :])
        other = chance.randrange(len(lines))
        exchanged = list(lines)
        exchanged[at], exchanged[other] = exchanged[other], exchanged[at]
        yield b"".join(exchanged)
    yield text + b"\n"
    yield text + b" "


def try_program(part):
    program, path, seed, count, every = part
    chance = random.Random(f"{seed} {os.path.basename(path)}")
    try:
        if not Judge(program, path).ends():
            return f"passed over {path}"
        replays = Replays(program, path)
        if not replays.scripts or sum(map(len, replays.scripts)) > 2000:
            return f"passed over {path}"
        runs = 0
        for number in range(count):
            order = an_order(chance, replays.scripts)
            begun = beginnings(chance, order)
            for text in (replays.history(order), replays.history(order, begun)):
                replays.try_one(text, (0, "same\n"))
                runs += 1
                if number < 2:
                    for other in changed(chance, text, every):
                        replays.try_one(other)
                        runs += 1
            at = chance.randrange(len(order))
            before = [p for p in range(at) if order[p][0] == order[at][0]]
            wrong = [begun[:at] + [at + 1] + begun[at + 1 :]]
            wrong += [begun[:at] + [p] + begun[at + 1 :] for p in before[-1:]]
            for text in (replays.history(order, b) for b in wrong):
                replays.try_one(text)
                runs += 1
        return f"{path}: {runs} runs"
    except Differs as differs:
        return f"DIFFERS {path}: {differs}"


def main():
    words = argparse.ArgumentParser(description=__doc__, formatter_class=argparse.RawDescriptionHelpFormatter)
    words.add_argument("program")
    words.add_argument("files", nargs="+")
    words.add_argument("--seed", type=int, default=1)
    words.add_argument("--count", type=int, default=20)
    words.add_argument("--every", type=int, default=7)
    given = words.parse_args()
    program = os.path.abspath(given.program)
    parts = [(program, path, given.seed, given.count, given.every) for path in given.files]
    failed = False
    with multiprocessing.Pool() as pool:
        for told in pool.imap_unordered(try_program, parts):
            print(told)
            failed = failed or told.startswith("DIFFERS")
    sys.exit(1 if failed else 0)


if __name__ == "__main__":
    main()
