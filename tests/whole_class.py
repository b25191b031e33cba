#!/usr/bin/env python3
"""Sections that take a whole class, beside sections that take single locks of it.

    tests/whole_class.py PROGRAM [--times N] [--compiled N] [--members N]

PROGRAM is the built program. Three threads transfer between members of a pool, and a fourth sums all members in a loop, by a
section that lists the class. The program is run N times by `run` (`--times`, by default 1,000), and N times as emitted C,
compiled by gcc and by clang with ThreadSanitizer in turn (`--compiled`, by default 200). Each sum in
a history has to be that of the opening values, each history `same` by `replay`, and ThreadSanitizer silent. The last line is
'N passed, M failed'; the status is 1 where M is not 0.
"""

import argparse
import os
import pathlib
import re
import subprocess
import sys
import tempfile

SUM = re.compile(rb"^call [\d ]+ total\(\) returns (-?\d+)$", re.M)
COMPILERS = [["gcc", "-O2"], ["clang", "-O1", "-g", "-fsanitize=thread"]]
# (its detector of lock cycles ends a program that holds more than 64 locks)
SANITIZER = {**os.environ, "TSAN_OPTIONS": "detect_deadlocks=0"}


def program_text(members):
    """The program, and the sum of its opening values."""
    values = [7 * k % 50 + 100 for k in range(members)]
    lines = ["struct Acc { lock l; int bal protected_by(l); }", f"pool Acc acc[{members}];"]
    lines += [f"init acc[{k}].bal = {value};" for k, value in enumerate(values)]
    lines += ["atomic transfer(ref Acc a, ref Acc b, int k) { a.bal = a.bal - k;  b.bal = b.bal + k; }"]
    lines += ["atomic total() : int lock(Acc.l) {", "  var i: int = 0;", "  var s: int = 0;"]
    lines += [f"  while (i < {members}) {{", "    let a: ref Acc = acc[i];", "    s = s + a.bal;", "    i = i + 1;", "  }"]
    lines += ["  return s;", "}"]
    for thread in range(3):
        pairs = [((thread + 2 * k) % members, (thread * 5 + 3 * k + 1) % members) for k in range(8)]
        calls = " ".join(f"transfer(acc[{a}], acc[{b}], {thread + 1});" for a, b in pairs if a != b)
        lines += [f"thread mover{thread} {{ repeat 6 {{ {calls} }} }}"]
    lines += ["thread auditor { repeat 20 { total(); } }"]
    return "\n".join(lines) + "\n", sum(values)


class Judge:
    def __init__(self, program, source, expected):
        self.program, self.source, self.expected = program, source, expected
        self.passed = self.failed = 0

    def judge(self, name, ran):
        """Judges a run that wrote a history."""
        wrong = self.wrong_with(ran)
        self.passed += not wrong
        self.failed += bool(wrong)
        if wrong:
            print(f"FAILED {name}: {wrong}")

    def wrong_with(self, ran):
        if ran.returncode:
            return f"status {ran.returncode}, {ran.stderr.decode(errors='replace')[:400]}"
        sums = [int(it) for it in SUM.findall(ran.stdout)]
        if sums != [self.expected] * 20:
            return f"the sums are {sums}, expected {self.expected}"
        history = f"{self.source}.history"
        pathlib.Path(history).write_bytes(ran.stdout)
        answer = subprocess.run([self.program, "replay", self.source, history], capture_output=True)
        return "" if answer.stdout == b"same\n" and not answer.returncode else f"replay: {answer.stdout + answer.stderr}"


def compile_all(program, source, room):
    """The emitted C, compiled by each compiler."""
    with open(f"{room}/whole.c", "wb") as out:
        subprocess.run([program, "emit", source], stdout=out, check=True)
    words = ["-std=c11", "-pthread", "-DAL_MAIN", "-DAL_HISTORY", f"{room}/whole.c", "-o"]
    for number, compiler in enumerate(COMPILERS):
        subprocess.run([*compiler, *words, f"{room}/whole{number}"], check=True)
    return [f"{room}/whole{number}" for number in range(len(COMPILERS))]


def main():
    parser = argparse.ArgumentParser(description=__doc__, formatter_class=argparse.RawDescriptionHelpFormatter)
    parser.add_argument("program", type=os.path.abspath)
    parser.add_argument("--times", type=int, default=1000, metavar="N")
    parser.add_argument("--compiled", type=int, default=200, metavar="N")
    parser.add_argument("--members", type=int, default=12, metavar="N")
    told = parser.parse_args()
    with tempfile.TemporaryDirectory() as room:
        source = f"{room}/whole.al"
        text, expected = program_text(told.members)
        pathlib.Path(source).write_text(text, encoding="ascii")
        judge = Judge(told.program, source, expected)
        for number in range(told.times):
            judge.judge(f"run {number}", subprocess.run([told.program, "run", source], capture_output=True))
        compiled = compile_all(told.program, source, room) if told.compiled else []
        for number in range(told.compiled):
            binary = compiled[number % len(compiled)]
            judge.judge(f"compiled {number}", subprocess.run([binary], capture_output=True, env=SANITIZER))
    print(f"{judge.passed} passed, {judge.failed} failed")
    return 1 if judge.failed else 0


if __name__ == "__main__":
    sys.exit(main())
