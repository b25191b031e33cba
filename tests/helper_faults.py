#!/usr/bin/env python3
"""Random programs with helpers, of which one thing or two are broken: the fault that `check` tells, and where.

    tests/helper_faults.py BIN [--seed N] [--count N] [--jobs N] [--only NAME]

BIN is the built program. `--count` programs are drawn (2,000 by default, those of the seeds from N on, 1 by default), and
broken in one way or two of those below; with `--only` in this one. Which fault is the first, and where, is found here, by
the rules of docs/LANGUAGE.md (judged_names.py); `check` has to tell this line, and so have the other commands. Where there
is no fault of names and types, the program has to be answered like the one with its helpers written out, as in helpers.py.

at a call          unknown, count, argument, section_called, thread_called, let_type
between helpers    circle, deep
at a limit         locals_, points, functions_; also a little below it
around             value (a helper as one), twice (a name), result (another one), returned (more or less), name (any one)

A program that is answered otherwise is kept as faults-NUMBER.al in the current folder. The last line is 'N runs, M failed';
exit status 1 where M is not 0.
"""

import argparse
import multiprocessing
import os
import pathlib
import random
import subprocess
import sys
import tempfile

from helper_programs import drawn, laid_out
from helpers import Differs, Pair
from judged_names import TEXTS, Reached, first_fault
from written_out import NAME, Bounds, CannotBeWritten, Node, NoProgram, Program, calls_in, tokens_of, within

CONSTANTS = {"int": "1", "ref N": "q[0]", "ref O": "o[0]"}
WRONG = "1,null,1 == 1,q[0],o[0],nowhere,head,(null),q,h0,n0 + null,nowhere[1],1 < (null)".split(",")
COMMANDS = ("listing", "serial", "run", "simulate")


# faults of annotations, which a name that is declared twice can make: the judge knows none of them
UNJUDGED = ("E10", "E11", "E12", "E16")
KEYWORDS = set(
    "lock struct final ref int global protected_by pool init atomic let var if else while print return thread repeat null where call".split()
)


class Broken:
    """A program as words, and its reading; a way to break it answers False where the program has nothing for it."""

    def __init__(self, chance, words):
        self.chance, self.words = chance, words
        self.read()

    def read(self):
        self.program = Program(" ".join(self.words))
        self.functions, self.sections = self.program.functions, self.program.sections
        self.own = [f for f in self.functions if f.kind == "call"]
        self.calls = [call for function in self.functions for call in calls_in(function)]

    def word(self, number):
        return self.program.word(number)

    def splice(self, first, end, text):
        self.words[first:end] = [word for word, _ in tokens_of(text)]
        self.read()

    def declare(self, text):
        at = self.chance.choice([0, len(self.words), self.chance.choice(self.program.declarations).first])
        self.splice(at, at, text)

    def insert(self, function, text):
        """Puts a statement anywhere into a function, ahead of its last statement."""
        starts = [s.first for s in within(function.body)] or [function.body.last]
        self.splice(*[self.chance.choice(starts)] * 2, text)

    def call_of(self, helper):
        arguments = ", ".join(CONSTANTS.get(kind, "null") for kind, _, _ in helper.parameters)
        return f"call {self.word(helper.name)}({arguments});"

    def named(self, name):
        return next(f for f in self.functions if self.word(f.name) == name)

    def a_call(self):
        return self.chance.choice(self.calls) if self.calls else None

    def unknown(self):
        call = self.a_call()
        if not call:
            return False
        names = ["nowhere", "n0", "q", "N", "G", "t0", "arr", self.word(self.chance.choice(self.own).name)]
        self.splice(call.helper, call.helper + 1, self.chance.choice(names))

    def count(self):
        call = self.a_call()
        if not call:
            return False
        if call.arguments and self.chance.random() < 0.5:
            first = call.arguments[-1].first
            self.splice(first - (len(call.arguments) > 1), call.arguments[-1].end, "")
        else:
            at = call.helper + 2
            self.splice(at, at, self.chance.choice(WRONG) + (", " if call.arguments else ""))

    def argument(self):
        calls = [call for call in self.calls if call.arguments]
        if not calls:
            return False
        argument = self.chance.choice(self.chance.choice(calls).arguments)
        self.splice(argument.first, argument.end, self.chance.choice(WRONG))

    def section_called(self):
        call, section = self.a_call(), self.chance.choice(self.sections)
        if call and self.chance.random() < 0.5:
            self.splice(call.helper, call.helper + 1, self.word(section.name))
        else:
            self.insert(self.chance.choice(self.functions), self.call_of(section))

    def thread_called(self):
        threads = [d for d in self.program.declarations if d.kind == "thread"]
        thread, helper = self.chance.choice(threads), self.chance.choice(self.own)
        if thread.calls and self.chance.random() < 0.5:
            number = self.chance.choice(thread.calls)[0]
            self.splice(number, number + 1, self.word(helper.name))
        else:
            at = self.chance.choice([thread.name + 2, thread.end - 1])
            self.splice(at, at, self.call_of(helper).removeprefix("call"))

    def let_type(self):
        call = self.a_call()
        if not call:
            return False
        of = self.chance.choice(["int", "ref N", "ref O", "ref nothing", "ref q"])
        if call.name is None:
            self.splice(call.first, call.first, f"let made: {of} =")
        else:
            self.splice(call.name + 2, call.type[1] + 1, of)

    def circle(self):
        helper = self.chance.choice(self.own)
        name, reached = self.word(helper.name), Reached(self.program).of(self.word(helper.name))
        kind = self.chance.randrange(3)
        if kind == 0:
            self.insert(helper, self.call_of(helper))
        elif kind == 1 and reached:
            self.insert(self.named(self.chance.choice(sorted(reached))), self.call_of(helper))
        else:
            count = self.chance.randint(1, 2)
            self.insert(helper, "call circle0();")
            for number in range(count):
                last = self.call_of(self.named(name)) if number + 1 == count else f"call circle{number + 1}();"
                self.declare(f"call circle{number}() {{ {last} }}")

    def deep(self):
        helper = self.chance.choice(self.own)
        called, depth = self.call_of(helper), Bounds(self.program).brings(self.word(helper.name))[2]
        for number in range(self.chance.randint(8, 10) - depth):
            self.declare(f"call deep{number}() {{ {called} }}")
            called = f"call deep{number}();"
        if self.chance.random() < 0.5:
            self.insert(self.chance.choice(self.sections), called)

    def locals_(self):
        lets = "".join(f"let big{number}: int = {number}; " for number in range(self.chance.randint(12, 45)))
        result = self.chance.choice(["", ": int"])
        self.declare(f"call big(int k) {result} {{ {lets} {'return k;' if result else ''} }}")
        for number in range(self.chance.randint(1, 3)):
            let = f"let made{number}: int =" if result and self.chance.random() < 0.5 else ""
            self.insert(self.chance.choice(self.functions[1:] or self.functions), f"{let} call big({number});")
            if Reached(self.program).is_circular("big"):
                break

    def points(self):
        self.declare(f"call some() {{ {'print 1; ' * 256} }} call one(int k) : int {{ return k; }}")
        self.declare(f"call more() {{ {'call some(); ' * 16} }}")
        self.declare(f"call most() {{ {'call more(); ' * self.chance.randint(14, 16)} }}")
        section = self.word(self.chance.choice(self.sections).name)
        for text in ["call most();", "call more();", "call one(1);", "call some();", "call one(2);", "call more();"]:
            if self.chance.random() < 0.7:
                self.insert(self.named(section), text)

    def functions_(self):
        left = 256 - len(self.functions) + self.chance.randint(-1, 1)
        self.declare(" ".join(f"{self.chance.choice(['call', 'atomic'])} each{number}() {{ }}" for number in range(left)))

    def value(self):
        name = self.word(self.chance.choice(self.own).name)
        nodes = [n for n in self.nodes() if n.kind in ("name", "number")]
        if nodes and self.chance.random() < 0.5:
            node = self.chance.choice(nodes)
            return self.splice(node.first, node.end, name)
        texts = ["print %s;", "%s = 1;", "%s[0] = 1;", "print %s[0];", "%s.v = 1;", "print %s.v;", "n0 = %s;"]
        self.insert(self.chance.choice(self.functions), self.chance.choice([*texts, "while (%s) { }"]) % name)

    def nodes(self):
        def inside(node):
            yield node
            for part in node.parts:
                if isinstance(part, Node):
                    yield from inside(part)

        for statement in (s for f in self.functions for s in within(f.body)):
            whole = [getattr(statement, name, None) for name in ("left", "value")]
            for node in filter(None, [*whole, *getattr(statement, "arguments", [])]):
                yield from inside(node)

    def twice(self):
        helper = self.chance.choice(self.own)
        names = [d.name for d in self.program.declarations if d.kind != "init"]
        other = self.word(self.chance.choice(names))
        number = self.chance.choice([helper.name, *[p[2] for p in helper.parameters]])
        self.splice(number, number + 1, other)

    def result(self):
        helper = self.chance.choice(self.own)
        of = self.chance.choice([": int", ": ref N", ": ref O", "", ": ref nothing", ": ref h0"])
        at = helper.result[1] + 1 if helper.result else helper.body.first
        start = next(n for n in range(at, helper.first, -1) if self.word(n - 1) == ")")
        self.splice(start, at, of)

    def returned(self):
        function = self.chance.choice(self.functions)
        last = function.body.statements[-1:]
        if last and last[0].kind == "return" and self.chance.random() < 0.5:
            self.splice(last[0].first, last[0].value.end + 1, self.chance.choice(["", "return 1; return 2;", "print 1;"]))
        else:
            self.insert(function, self.chance.choice(["return 1;", "if (1 == 1) { return null; }", "return n0;"]))

    def name(self):
        function = self.chance.choice(self.functions)
        numbers = [n for n in range(function.first + 1, function.end) if NAME.fullmatch(self.word(n))]
        words = [self.word(n) for n in numbers if self.word(n) not in KEYWORDS] + ["n0", "arr", "q", "o", "head", "h0", "f0", "t0", "G", "N", "owner", "l"]
        number = self.chance.choice(numbers)
        self.splice(number, number + 1, self.chance.choice(words))


WAYS = {
    "unknown": 3, "count": 3, "argument": 4, "section_called": 2, "thread_called": 2, "let_type": 3, "circle": 5, "deep": 5,
    "locals_": 5, "points": 0.4, "functions_": 0.2, "value": 3, "twice": 3, "result": 3, "returned": 3, "name": 8,
}  # fmt: skip


def broken(seed, only):
    """The text of a broken program."""
    chance = random.Random(f"{seed} broken")
    words = [word for declaration in drawn(seed, lists=seed % 2 == 1) for word, _ in tokens_of(declaration)]
    names = []
    for _ in range(200):
        way = only or chance.choices(list(WAYS), list(WAYS.values()))[0]
        made = Broken(chance, list(words))
        try:
            if getattr(made, way)() is not False:
                words = made.words
                names.append(way)
        # (a helper that the first break took away has no depth)
        except (NoProgram, RecursionError, KeyError):
            continue
        if names and (len(names) == 2 or chance.random() < 0.7):
            break
    return " and ".join(names), laid_out(seed, words)


def judge(binary, folder, text):
    """How many runs it took; what is told has to be what is wanted."""
    path = os.path.join(folder, "program.al")
    pathlib.Path(path).write_bytes(text.encode("latin-1"))
    program = Program(text)
    fault = first_fault(program)
    if not fault:
        pair = Pair(binary, folder, text)
        pair.is_accepted(True)
        return pair.runs, "none"
    line, column = program.place(fault[0])
    wanted = (1, "", f"{path}:{line}:{column}: {fault[1]} {TEXTS[fault[1]]}\n")
    commands = ("check", *(COMMANDS if len(text) % 8 == 0 else ()))
    for command in commands:
        last = ["/dev/null"] if command == "simulate" else []
        done = subprocess.run([binary, command, path, *last], capture_output=True, timeout=60)
        told = (done.returncode, done.stdout.decode("latin-1"), done.stderr.decode("latin-1"))
        if any(f" {code} " in told[2] for code in UNJUDGED):
            return 1, "unjudged"
        if told != wanted:
            raise Differs(f"{command}: {told} where {wanted} was wanted")
    return len(commands), fault[1]


def try_one(part):
    binary, seed, only = part
    way, text = broken(seed, only)
    with tempfile.TemporaryDirectory(dir="/dev/shm" if os.access("/dev/shm", os.W_OK) else None) as folder:
        try:
            return seed, way, *judge(binary, folder, text), None, text
        except (Differs, CannotBeWritten, subprocess.TimeoutExpired) as differs:
            return seed, way, 1, "DIFFERS", repr(differs) if not differs.args else str(differs), text


def main():
    words = argparse.ArgumentParser(description=__doc__, formatter_class=argparse.RawDescriptionHelpFormatter)
    words.add_argument("program")
    words.add_argument("--seed", type=int, default=1)
    words.add_argument("--count", type=int, default=2000)
    words.add_argument("--jobs", type=int, default=os.cpu_count())
    words.add_argument("--only", choices=WAYS)
    given = words.parse_args()
    parts = [(os.path.abspath(given.program), seed, given.only) for seed in range(given.seed, given.seed + given.count)]
    kinds, runs, failed = {}, 0, 0
    with multiprocessing.Pool(given.jobs) as pool:
        for seed, way, count, kind, differs, text in pool.imap_unordered(try_one, parts, chunksize=4):
            runs += count
            kinds[kind] = kinds.get(kind, 0) + 1
            if differs is not None:
                pathlib.Path(f"faults-{failed}.al").write_bytes(text.encode("latin-1"))
                print(f"faults-{failed}.al, {seed}, {way}: {differs[:2000]}", flush=True)
                failed += 1
    print(", ".join(f"{count} {kind}" for kind, count in sorted(kinds.items())))
    print(f"{runs} runs, {failed} failed")
    sys.exit(1 if failed else 0)


if __name__ == "__main__":
    main()
