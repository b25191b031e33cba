#!/usr/bin/env python3
"""Gives hostile sources to `autolock` and looks at how each run ends: of `check`, `explain`, `explain --json`, `order`,
`listing`, `emit`, `format`, `serial --turns 1000`, `outcomes` of 10 orders, also with `--cells` and names drawn for each
source, `schedule`, also with `--worst`, with a steps file drawn for each source `simulate` and `trace`, and `replay --turns 1000`,
also with `--open`, of what `serial` wrote, as it is and with one byte changed.

    tests/hostile.py [--program BIN] [--commands NAMES] [--cuts] [--bytes] [--random COUNT] [--every N] [--seed N] [FILE..]

With no choice of kinds: --cuts --bytes --random 2000, each cut and byte at every 7th place, which takes two minutes.

--commands      which of them, joined by commas (`json` is `explain --json`, `cells` is `outcomes --cells`, `worst` is
                `schedule --worst`, `open` is `replay --open`); by default all
--cuts          every beginning of each program
--bytes         each program with one byte replaced by each of `(`, `}`, `0`, `.`, 0x00 and 0x80
--random COUNT  so many programs made from the given ones by a few random changes each, and a third of them by a helper and calls
--every N       only every N-th place of --cuts and --bytes
--beside BIN    another build of the program, which is to answer each run in the same way, byte for byte; sources with one of
                the words of --without are passed over
--without WORDS the words that the other build does not know, joined by commas; by default none
--kept FOLDER   where sources are kept that fail; by default a new folder beside the system's temporary files
FILE..          the programs to begin with; by default those of examples/

A run must end within 20 seconds with status 0 or 1, or of `serial` and `outcomes` with 7. With 0, standard output is a
whole text of the command and standard error is empty; with 1, standard error is one line, the same of each command, and
standard output is empty, and of `explain` the other way round: standard output begins with that line and shows its place,
or with --json is an object that tells it; with 7, the last line of standard output begins with `unsettled` and standard
error is empty. What `trace --all` writes has a line for each step, and ends with what `simulate` writes. These two end with 6
and the line of the steps file's first fault, as this script finds it, exactly where there is one, or of an item whose steps
only a run tells with S3. `replay` answers `same` to what `serial` wrote; of a changed text it answers one line with status 5 or 7, or tells the text's first fault with 6.
`format` has the tokens and comments of the source, laid out (tests/format.py), exactly where no command tells a fault of its text.
`outcomes --cells` has the ends of `outcomes --full`, as often, in the lines of these cells, or tells the first name of none with 6. What
`schedule` writes has no faulty item, and `simulate` takes what `--worst` does.
Of a cycle of lock classes `order` writes the graph too; another build may leave it out.
A source of which that doesn't hold is kept as hostile-NUMBER.al, with its steps. The last line is 'N runs, M failed';
exit status 1 where M is not 0.
"""
import argparse
import collections
import json
import multiprocessing
import os
import pathlib
import random
import re
import signal
import sys
import tempfile
import typing
import zlib

from format import OF_TEXT, compared, laid_out

TOP = pathlib.Path(__file__).resolve().parent.parent
REPLACEMENTS = [b"(", b"}", b"0", b".", b"\x00", b"\x80"]
WORDS = (
    b"lock struct final ref int global protected_by pool init atomic let var if else while print return thread "
    b"repeat null where call { } ( ) [ ] ; , : . = == != < <= > >= + - * / % && || ! 0 1 2 64 255 256 65536 65537 "
    b"262144 262145 100000 9223372036854775807 9223372036854775808 a b x n G S p // /"
).split()
STEP_ITEMS = (
    b"* 0* *1 0**1 1*1*1 -1 +1 0x1 00 000*0001 3 63 64 99999999999999999999 0*10000000 0*9999999 1*10000001 "
    b"0*99999999999999999999999 a \xff \x00 0,1 0; 0! 1! 0+ 1+ a! a*2 G+ _ 0!! 0+1 1!*2 !"
).split(b" ")
# A helper, of which `kind` is the type of parameter and result, and calls of it.
HELPERS = (
    b" call zz(%(kind)s k) : %(kind)s { let zy: %(kind)s = k; return zy; } ",
    b" call zz(%(kind)s k) : %(kind)s { %(body)s return k; } ",
    b" call zz(%(kind)s k) { %(body)s } ",
)
CALLS = (b" call zz(%(value)s); ", b" let zw: %(kind)s = call zz(%(value)s); ", b" { call zz(%(value)s); } ", b" call zz(call); ")
TOKEN = re.compile(rb"\s+|//[^\n]*|\w+|[=!<>]=|&&|\|\||.", re.S)


class Ended(typing.NamedTuple):
    """How a run ended, and what it wrote."""

    returncode: int
    stdout: bytes
    stderr: bytes


# Where a process of this script has its runs write: files in memory, which take half the time of pipes.
OUTPUTS = []


def begin_process():
    def stop(*_):
        raise TimeoutError

    OUTPUTS[:] = [os.memfd_create(name) for name in ("stdout", "stderr")]
    signal.signal(signal.SIGALRM, stop)


def run(words, given=os.devnull):
    """Runs a command for at most 20 seconds, with this file as its standard input."""
    for file in OUTPUTS:
        os.ftruncate(file, 0)
        os.lseek(file, 0, os.SEEK_SET)
    streams = [(os.POSIX_SPAWN_OPEN, 0, given, os.O_RDONLY, 0)]
    streams += [(os.POSIX_SPAWN_DUP2, file, to) for to, file in enumerate(OUTPUTS, 1)]
    child = os.posix_spawn(words[0], words, os.environ, file_actions=streams)
    signal.setitimer(signal.ITIMER_REAL, 20)
    try:
        status = os.waitpid(child, 0)[1]
    except TimeoutError:
        os.kill(child, signal.SIGKILL)
        os.waitpid(child, 0)
        raise
    finally:
        signal.setitimer(signal.ITIMER_REAL, 0)
    return Ended(os.waitstatus_to_exitcode(status), *(os.pread(file, os.fstat(file).st_size, 0) for file in OUTPUTS))


def cuts(programs, every):
    for text in programs:
        for end in range(0, len(text), every):
            yield text[:end]


def replaced(programs, every):
    for text in programs:
        for place in range(0, len(text), every):
            for byte in REPLACEMENTS:
                yield text[:place] + byte + text[place + 1 :]


def with_helper(choose, tokens):
    """A program with one helper more, mostly between two declarations, and a few calls of it, mostly between statements."""
    structs = [tokens[n + 2] for n, token in enumerate(tokens[:-2]) if token == b"struct"]
    kind = b"ref " + choose.choice(structs) if structs and choose.random() < 0.4 else b"int"
    start = choose.randrange(len(tokens) + 1)
    words = {
        b"kind": kind,
        b"value": choose.choice([b"1", b"7 / 2", b"n"] if kind == b"int" else [b"null", b"(null)", b"a"]),
        b"body": b"".join(tokens[start : start + choose.randint(0, 12)]) if choose.random() < 0.3 else b"print 1;",
    }
    outside, inside, depth = [0, len(tokens)], [], 0
    for at, token in enumerate(tokens, 1):
        depth += {b"{": 1, b"}": -1}.get(token, 0)
        if token in (b"{", b"}", b";"):
            (inside if depth > 0 else outside).append(at)
    places = [(choose.choice(inside or outside), choose.choice(CALLS)) for _ in range(choose.randint(1, 3))]
    for at, text in sorted([*places, (choose.choice(outside), choose.choice(HELPERS))], reverse=True):
        tokens[at:at] = TOKEN.findall(text % words)


def mutated(programs, seed):
    """A program with a few random changes, of tokens and of bytes."""
    choose = random.Random(seed)
    tokens = TOKEN.findall(choose.choice(programs))
    if choose.random() < 0.3:
        with_helper(choose, tokens)
    for _ in range(choose.choice([0, 0, 1, 3]) if b"zz" in tokens else choose.randint(1, 6)):
        at = choose.randrange(len(tokens) + 1)
        kind = choose.randrange(7)
        if kind == 0:
            tokens[at : at + choose.randint(1, 4)] = []
        elif kind == 1:
            tokens[at:at] = [choose.choice(WORDS)]
        elif kind == 2:
            tokens[at : at + 1] = [choose.choice(WORDS)]
        elif kind == 3:
            tokens[at:at] = tokens[at : at + choose.randint(1, 40)] * choose.randint(1, 3)
        elif kind == 4:
            other = TOKEN.findall(choose.choice(programs))
            start = choose.randrange(len(other) + 1)
            tokens[at:at] = other[start : start + choose.randint(1, 30)]
        elif kind == 5:
            tokens[at : at + 1] = [bytes(choose.randrange(256) for _ in range(choose.randint(1, 3)))]
        elif tokens and at < len(tokens):
            there = choose.randrange(len(tokens))
            tokens[at], tokens[there] = tokens[there], tokens[at]
    return b"".join(tokens)


def steps_for(text):
    """A steps file: mostly right items of few threads and few steps, some wrong ones."""
    choose = random.Random(zlib.crc32(text))
    items = []
    for _ in range(choose.randrange(30)):
        kind = choose.random()
        thread = choose.randrange(3)
        if kind < 0.5:
            items.append(b"%d" % thread)
        elif kind < 0.95:
            items.append(b"%d*%d" % (thread, choose.choice([0, 1, 2, 7, 40, 300, 20000])))
        else:
            items.append(choose.choice(STEP_ITEMS))
        items.append(choose.choice([b" ", b"\n", b"\t", b"\r\n", b"  "]))
    return b"".join(items)


def steps_fault(steps, threads):
    """The place and the words of the first faulty item of a program with threads of these names, or nothing."""
    before = 0
    for item in re.finditer(rb"[^ \t\r\n]+", steps):
        parts = re.fullmatch(rb"(?:([0-9]+)|([0-9A-Za-z_]+))(?:\*([0-9]+)|([!+]))?", item.group())
        if not parts or (parts[2] and parts[2] not in threads):
            fault = b"S1: bad item"
        elif parts[1] and int(parts[1]) >= len(threads):
            fault = b"S2: no such thread"
        elif before + (0 if parts[4] else int(parts[3] or 1)) > 10_000_000:
            fault = b"S3: too many steps"
        else:
            before += 0 if parts[4] else int(parts[3] or 1)
            continue
        start = item.start()
        line = steps.count(b"\n", 0, start) + 1
        return b"%d:%d: %s" % (line, start - steps.rfind(b"\n", 0, start), fault.replace(b":", b""))
    return None


ARGUMENTS = {
    "check": ["check"],
    "explain": ["explain"],
    "json": ["explain", "--json"],
    "order": ["order"],
    "listing": ["listing"],
    "serial": ["serial", "--turns", "1000"],
    "outcomes": ["outcomes", "--turns", "1000", "--count", "10"],
    "simulate": ["simulate"],
    "trace": ["trace", "--all"],
    "replay": ["replay", "--turns", "1000"],
    "open": ["replay", "--open", "--turns", "1000"],
    "emit": ["emit"],
    "format": ["format"],
    "cells": ["outcomes", "--turns", "1000", "--count", "10", "--full", "--cells"],
    "schedule": ["schedule", "--length", "20"],
    "worst": ["schedule", "--worst", "--length", "20"],
}
WITH_STEPS = ("simulate", "trace")
TITLES = {"serial": b"history 1\n", "simulate": b"simulation 1\n"}
PLACED = rb"[^\n]*:\d+:\d+: note: [ -~]*\n  [ -~]*\n   *\^\n"
EXPLAINED = re.compile(
    rb"[^\n]*:\d+:\d+: E\d\d [ -~]*\n  [ -~]*\n   *\^\n" rb"(%s|note: [ -~]*\n)*help: [ -~]*\n" % PLACED
)
ACCEPTED = re.compile(rb"accepted\n(note: rank \d+ [\w.]+\n)*(note: [\w.]+ comes before [\w.]+\n(%s){2})*" % PLACED)
GRAPH = re.compile(
    rb'digraph lock_order \{\n(  "[\w.]+" \[label="rank \d+ [\w.]+"\];\n)*'
    rb'(  "[\w.]+" -> "[\w.]+" \[label="\w+:\d+:\d+"\];\n)*\}\n'
)
CYCLIC = re.compile(
    rb'digraph lock_order \{\n(  "[\w.]+";\n)*(  "[\w.]+" -> "[\w.]+" \[label="\w+:\d+:\d+"(, color="red")?\];\n)*\}\n'
)
OUTCOMES = re.compile(
    rb"orders (reduced\nstates [1-9]\d*|\d+ (all\nstates [1-9]\d*|drawn))\n(outcome ([1-9]\d* )?after( \d+)*\ncells\n([\w.\[\]]+ ([\w\[\]]+|-\d+)\n)*end\n)*"
)
LINE = re.compile(rb"section \w+|\d+ [a-z][ -~]*")
LOCK = rb"[\w.\[\]]+"
STEP = re.compile(
    rb"\d+ (idle|began \w+\([\w\[\], -]*\)|got %s|waits %s for \d+|moved (\d+:\d+ )?[a-z][ -~]*|ended at \d+)" % (LOCK, LOCK)
)


ITEMS = re.compile(rb"([A-Za-z_]\w*(\*[1-9]\d*|[!+])\n)*", re.ASCII)
C_FILE = re.compile(rb"/\* Sections with their locks placed, by autolock\. \*/\n#ifndef alHeader\n.*\nint main\(.*\n#endif\n", re.S)
ENDS = re.compile(rb"outcome (\d*) ?after[ \d]*\ncells\n((?:[^\n]+\n)*?)end\n")


def object_in(out):
    """The JSON object that is the whole of an output, or nothing."""
    try:
        return json.loads(out) if out.count(b"\n") == 1 and out.endswith(b"\n") else {}
    except ValueError:
        return {}


def fault_line(command, ended):
    """The line of the fault that a run with status 1 tells."""
    if command == "explain":
        return ended.stdout.split(b"\n", 1)[0] + b"\n"
    if command == "json":
        told = object_in(ended.stdout)
        return "{file}:{start[line]}:{start[column]}: {code} {text}\n".format(**told).encode()
    return ended.stderr


def is_whole(command, out):
    """Whether that is a whole text of the command, as far as its shape goes."""
    if command in TITLES:
        return out.startswith(TITLES[command]) and out.endswith(b"\nend\n")
    if command == "explain":
        return bool(ACCEPTED.fullmatch(out))
    if command == "json":
        return object_in(out).get("accepted") is True
    if command == "order":
        return bool(GRAPH.fullmatch(out))
    if command in ("outcomes", "cells"):
        return bool(OUTCOMES.fullmatch(out))
    if command in ("schedule", "worst"):
        return bool(ITEMS.fullmatch(out)) and out.count(b"\n") <= 20
    if command == "emit":
        return bool(C_FILE.fullmatch(out))
    if command == "format":
        return not laid_out(out)
    if command == "check":
        return out.startswith(b"accepted\n") and out.endswith(b"\n")
    if command == "trace":
        lines, title, rest = out.partition(TITLES["simulate"])
        return is_whole("simulate", title + rest) and all(STEP.fullmatch(line) for line in lines.splitlines())
    return all(LINE.fullmatch(line) for line in out.splitlines()) and (not out or out.endswith(b"\n"))


def fault_of(command, ended):
    """What is wrong with the way a run ended, or nothing."""
    out, err = ended.stdout, ended.stderr
    if ended.returncode == 0:
        return None if is_whole(command, out) and not err else f"{command}: status 0 without a whole text alone"
    if ended.returncode == 1 and command == "explain":
        return None if EXPLAINED.fullmatch(out) and not err else "explain: status 1 without a text alone"
    if ended.returncode == 1 and command == "json":
        return None if object_in(out).get("accepted") is False and not err else "explain --json: status 1 without an object alone"
    if ended.returncode == 1 and command == "order" and b": E14 " in err:
        if not CYCLIC.fullmatch(out) or b'color="red"' not in out:
            return "order: a cycle without its graph"
        out = b""
    if ended.returncode == 1:
        one_line = err.count(b"\n") == 1 and err.endswith(b"\n")
        return None if one_line and not out else f"{command}: status 1 without one line alone"
    if ended.returncode == 6 and command in WITH_STEPS:
        return None if not out else "status 6 with a text"
    if ended.returncode == 6 and command == "cells":
        return None if re.fullmatch(rb"autolock: no cell is named [\w.\[\]]+\n", err) and not out else "cells: status 6 without its line alone"
    if ended.returncode == 7 and command in ("serial", "outcomes", "cells"):
        unsettled = out.rstrip(b"\n").rsplit(b"\n", 1)[-1].startswith(b"unsettled ")
        return None if unsettled and not err else "status 7 without an unsettled call"
    return f"{command}: status {ended.returncode}"


def steps_in(steps):
    """How many steps a steps file has that has neither a fault nor an item whose steps only a run tells; else nothing."""
    if b"!" in steps or b"+" in steps:
        return None
    return sum(int((item.split(b"*", 1) + [b"1"])[1]) for item in steps.split())


def wrong_trace(program, path, ended):
    """What is wrong with what `trace` wrote beside what `simulate` writes, or nothing."""
    world = run([program, "simulate", path, path + ".steps"]).stdout
    with open(path + ".steps", "rb") as file:
        count = steps_in(file.read())
    if not ended.stdout.endswith(world):
        return "trace: another world than simulate's"
    lines = ended.stdout[: len(ended.stdout) - len(world)].count(b"\n")
    return None if count in (None, lines) else "trace: not a line a step"


def wrong_steps(program, command, path, ended):
    """What is wrong with what a command says of the steps file of an accepted source, or nothing."""
    with open(path, "rb") as file:
        threads = re.findall(rb"\bthread\s+(\w+)", re.sub(rb"//[^\n]*", b"", file.read()), re.ASCII)
    with open(path + ".steps", "rb") as file:
        steps = file.read()
    fault = steps_fault(steps, threads)
    wanted = b"" if fault is None else b"%s.steps:%s\n" % (path.encode(), fault)
    too_many = re.escape(path.encode()) + rb"\.steps:\d+:\d+: S3 too many steps\n"
    if fault is None and steps_in(steps) is None and re.fullmatch(too_many, ended.stderr):
        return None
    if ended.stderr != wanted:
        return f"{command}: {ended.stderr} where it should tell {wanted}"
    return wrong_trace(program, path, ended) if command == "trace" and fault is None else None


def names_for(text):
    """Names of cells, mostly."""
    choose = random.Random(zlib.crc32(text))
    declared = re.findall(rb"\b(?:global\s+(?:int|ref\s+\w+)|pool\s+\w+)\s+([A-Za-z_]\w*)", text, re.ASCII) or [b"x"]
    fields = re.findall(rb"\b[A-Za-z_]\w*", text, re.ASCII)[:200] or [b"x"]
    names = []
    for _ in range(choose.randint(1, 2)):
        name = choose.choice(declared) if choose.random() < 0.95 else choose.choice(fields)
        if choose.random() < 0.3:
            name += b"[%d]" % choose.choice([0, 0, 1, 2, 9])
            name += b"." + choose.choice(fields) if choose.random() < 0.3 else b""
        names.append(name.decode())
    return ",".join(names)


def of_cells(out, names):
    """How often each end comes in an outcomes text, by its lines of these cells; and the first of the names that no line has."""
    found, missing = collections.Counter(), set(names)
    for count, lines in ENDS.findall(out):
        kept = []
        for line in lines.decode().splitlines():
            of = [name for name in names if re.match(re.escape(name) + r"[\[. ]", line)]
            missing -= set(of)
            kept += [line] if of else []
        found[tuple(kept)] += int(count or 1)
    reduced = out.startswith(b"orders reduced\n")
    return set(found) if reduced else found, next((name for name in names if name in missing), None)


def wrong_cells(program, path, ended):
    """What is wrong with what `outcomes --cells` says, beside what `outcomes --full` does, or nothing."""
    with open(path, "rb") as file:
        names = names_for(file.read()).split(",")
    whole = run([program, *ARGUMENTS["cells"][:-1], path])
    ends, missing = of_cells(whole.stdout, names)
    if whole.returncode not in (0, 7):
        return "cells: taken where all cells are refused"
    if whole.returncode == 7:
        return None if ended.returncode == 6 or ended == whole else "cells: another end than unsettled"
    if missing:
        return None if ended.stderr == f"autolock: no cell is named {missing}\n".encode() else f"cells: {missing} is none"
    return None if of_cells(ended.stdout, names)[0] == ends else f"cells: other ends, {','.join(names)}"


def wrong_items(program, command, path, ended):
    """What is wrong with a steps file that `schedule` wrote, or nothing."""
    with open(path, "rb") as file:
        threads = re.findall(rb"\bthread\s+(\w+)", re.sub(rb"//[^\n]*", b"", file.read()), re.ASCII)
    if steps_fault(ended.stdout, threads):
        return f"{command}: a faulty item"
    with open(path + ".items", "wb") as file:
        file.write(ended.stdout)
    # (of drawn items only a run tells whether they are too many steps)
    taken = command != "worst" or run([program, "simulate", path, path + ".items"]).returncode == 0
    return None if taken else "worst: simulate takes it not"


def wrong_format(path, out):
    """What is wrong with a formatted text beside its source, or nothing."""
    with open(path, "rb") as file:
        wrong = compared(file.read(), out)
    return f"format: {wrong}" if wrong else None


def wrong_beside(program, command, path, ended):
    """What is wrong with the answer of an accepted source, beside other files and commands, or nothing."""
    if command in WITH_STEPS:
        return wrong_steps(program, command, path, ended)
    if command == "cells":
        return wrong_cells(program, path, ended)
    if command in ("schedule", "worst"):
        return wrong_items(program, command, path, ended)
    return wrong_format(path, ended.stdout) if command == "format" else None


def changed(text):
    """A text with one byte changed, dropped or doubled."""
    choose = random.Random(zlib.crc32(text))
    at = choose.randrange(len(text))
    return text[:at] + choose.choice([b"", text[at : at + 1] * 2, b"%c" % choose.randrange(256)]) + text[at + 1 :]


def wrong_verdict(program, command, path, history):
    """What is wrong with what `replay` says of the history that `serial` wrote, or nothing."""
    words = [program, *ARGUMENTS[command], path, path + ".history"]
    with open(path + ".history", "wb") as file:
        file.write(history)
    if run(words) != Ended(0, b"same\n", b""):
        return f"{command}: what serial wrote is not the same"
    other = changed(history)
    with open(path + ".history", "wb") as file:
        file.write(other)
    code, out, err = run(words)
    verdict = {0: rb"same\n", 5: rb"differs at line \d+\n", 7: rb"unsettled at line \d+\n", 6: rb""}.get(code)
    if verdict is None or not re.fullmatch(verdict, out) or (code == 0) > (other == history):
        return f"{command}: status {code} of a changed history"
    return None if (code == 6) == bool(err) else f"{command}: another message than its status"


def are_alike(command, other, ended):
    """Whether two builds answer alike."""
    is_cycle = command == "order" and b": E14 " in ended.stderr and not other.stdout
    return other == (ended._replace(stdout=b"") if is_cycle else ended)


def words_of(command, path):
    """The words of a command, after the name of the program."""
    if command == "cells":
        with open(path, "rb") as file:
            return [*ARGUMENTS[command], names_for(file.read()), path]
    return [*ARGUMENTS[command], path, *([path + ".steps"] if command in WITH_STEPS else [])]


def try_one(program, commands, path, other):
    """What is wrong with the runs of these commands over a source, or nothing."""
    told, is_formatted = set(), False
    for command in commands:
        try:
            if command in ("replay", "open"):
                history = run([program, *ARGUMENTS["serial"], path])
                fault = wrong_verdict(program, command, path, history.stdout) if history.returncode == 0 else None
                if fault:
                    return fault
                continue
            words = words_of(command, path)
            ended = run([program, *words])
            if other and not are_alike(command, run([other, *words]), ended):
                return f"{command}: {other} answers otherwise"
            fault = fault_of(command, ended)
            if not fault and ended.returncode != 1:
                fault = wrong_beside(program, command, path, ended)
        except TimeoutError:
            return f"{command}: no end within 20 seconds"
        if fault:
            return fault
        is_formatted |= command == "format" and ended.returncode == 0
        if ended.returncode != 6 and (command, ended.returncode) != ("format", 0):
            told.add(fault_line(command, ended) if ended.returncode == 1 else ended.stderr)
    codes = {code for line in told for code in re.findall(rb"^[^\n]*?:\d+:\d+: (E\d\d) ", line)}
    if is_formatted and codes & OF_TEXT:
        return "format: a text that has a fault"
    # Where these two alone are asked and tell a fault of the steps file, no command tells one of the source.
    return None if len(told) < 2 else "the commands tell different faults"


def try_all(part):
    program, commands, programs, kind, seeds, every, scratch, other, without = part
    inputs = {
        "cuts": lambda: cuts(programs, every),
        "bytes": lambda: replaced(programs, every),
        "random": lambda: (mutated(programs, seed) for seed in seeds),
    }[kind]()
    path = os.path.join(scratch, f"source-{os.getpid()}")
    runs, failed = 0, []
    for text in inputs:
        if without and not without.isdisjoint(TOKEN.findall(text)):
            continue
        with open(path, "wb") as file:
            file.write(text)
        with open(path + ".steps", "wb") as file:
            file.write(steps_for(text))
        runs += len(commands)
        fault = try_one(program, commands, path, other)
        if fault:
            failed.append((fault, text))
    return runs, failed


def main():
    p = argparse.ArgumentParser(formatter_class=argparse.RawDescriptionHelpFormatter, description=__doc__)
    p.add_argument("--program", default=str(TOP / "autolock"))
    p.add_argument("--commands", default=",".join(ARGUMENTS))
    p.add_argument("--cuts", action="store_true")
    p.add_argument("--bytes", action="store_true")
    p.add_argument("--random", type=int, default=0, metavar="COUNT")
    p.add_argument("--every", type=int, default=0, metavar="N")
    p.add_argument("--seed", type=int, default=1, metavar="N")
    p.add_argument("--beside", metavar="BIN")
    p.add_argument("--without", default="", metavar="WORDS")
    p.add_argument("--kept", type=pathlib.Path, metavar="FOLDER")
    p.add_argument("--jobs", type=int, default=os.cpu_count())
    p.add_argument("files", nargs="*", type=pathlib.Path, metavar="FILE")
    a = p.parse_args()
    if not (a.cuts or a.bytes or a.random):
        a.cuts, a.bytes, a.random, a.every = True, True, 2000, a.every or 7
    every = a.every or 1
    program = str(pathlib.Path(a.program).resolve())
    commands = a.commands.split(",")
    last = (str(pathlib.Path(a.beside).resolve()) if a.beside else None, set(a.without.encode().split(b",")) - {b""})
    programs = [f.read_bytes() for f in a.files or sorted((TOP / "examples").glob("*.al"))]
    shm = "/dev/shm" if os.access("/dev/shm", os.W_OK) else None
    with tempfile.TemporaryDirectory(dir=shm) as scratch:
        parts = [(program, commands, [text], kind, (), every, scratch, *last) for kind in ("cuts", "bytes") if getattr(a, kind) for text in programs]
        step = 500
        parts += [
            (program, commands, programs, "random", range(first, min(first + step, a.seed + a.random)), every, scratch, *last)
            for first in range(a.seed, a.seed + a.random, step)
        ]
        runs, failed = 0, []
        with multiprocessing.Pool(a.jobs, begin_process) as pool:
            for count, wrong in pool.imap_unordered(try_all, parts):
                runs += count
                failed += wrong
    kept = a.kept or (failed and pathlib.Path(tempfile.mkdtemp(prefix="hostile-")))
    for number, (fault, text) in enumerate(failed[:20]):
        path = kept / f"hostile-{number}.al"
        path.write_bytes(text)
        path.with_suffix(".steps").write_bytes(steps_for(text))
        print(f"{path}: {fault}")
    print(f"{runs} runs, {len(failed)} failed")
    sys.exit(1 if failed else 0)


if __name__ == "__main__":
    main()
