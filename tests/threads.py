#!/usr/bin/env python3
"""Runs of `run` under random delays, each judged by `replay` and by what this script knows of its programs.

    tests/threads.py PROGRAM [--seed N] [--runs N]

PROGRAM is the built program. Forty small programs with 2 to 8 threads are drawn, four of each of ten kinds; each is run
N times, by default 25, by threads that sleep now and then where they ask for memory or wait (tests/threads/delays.c).
`replay` has to answer `same` to every text. Apart from it, each kind has its sections here as functions on a state: the
calls of a history, made in its order, have to answer what it tells, each thread's have to be those of its script, what a
call says of its begin has to be possible, and the cells have to be those of the state at the end.

Exits with 1 where anything differs, and prints the program and the history. The last line is 'N runs, M failed'.
"""

import argparse
import multiprocessing
import os
import pathlib
import random
import re
import subprocess
import sys
import tempfile

TOP = pathlib.Path(__file__).resolve().parent
CALL = re.compile(r"call (\d+) (\d+) (\d+) (\w+)\((.*?)\) (.*)")


class Trap(Exception):
    """A section's trap, by its number."""


class Kind:
    """A kind of program: its text without threads; its sections as methods, which answer what is returned, or None, and
    print by `self.say`; a state; which calls may be drawn; and its cells."""

    text = ""

    def __init__(self):
        self.said = []

    def say(self, number):
        self.said.append(number)

    def call(self, name, arguments):
        """How a call ends, and what it prints."""
        self.said = []
        try:
            answer = getattr(self, name)(*arguments)
            end = "ends" if answer is None else f"returns {answer}"
        except Trap as trap:
            end = f"traps {trap.args[0]}"
        return end, self.said


class Counters(Kind):
    text = """lock G; lock H;
global int x protected_by(G); global int y protected_by(H) = 5;
atomic up(int k) : int { x = x + k; return x; }
atomic down(int k) : int { y = y - k; return y; }
atomic both() : int { x = x + 1; y = y + 1; return x * 1000 + y; }
"""

    def __init__(self):
        super().__init__()
        self.x, self.y = 0, 5

    def up(self, k):
        self.x += int(k)
        return self.x

    def down(self, k):
        self.y -= int(k)
        return self.y

    def both(self):
        self.x, self.y = self.x + 1, self.y + 1
        return self.x * 1000 + self.y

    @staticmethod
    def draw(chance):
        return chance.choice([f"up({chance.randint(-9, 9)})", f"down({chance.randint(-9, 9)})", "both()"])

    def cells(self):
        return [f"x {self.x}", f"y {self.y}"]


class Accounts(Kind):
    text = """struct Acc { lock l; int bal protected_by(l); }
pool Acc p[4];
init p[0].bal = 40; init p[1].bal = 30; init p[3].bal = 7;
atomic transfer(ref Acc a, ref Acc b, int k) : int {
  var m: int = k;
  if (a.bal < m) { m = a.bal; }
  a.bal = a.bal - m;
  b.bal = b.bal + m;
  return m;
}
atomic sum(ref Acc a, ref Acc b, ref Acc c) : int { return a.bal + b.bal * 1000 + c.bal * 1000000; }
"""

    def __init__(self):
        super().__init__()
        self.bal = {"p[0]": 40, "p[1]": 30, "p[2]": 0, "p[3]": 7}

    def transfer(self, a, b, k):
        if "null" in (a, b):
            if a == "null":
                raise Trap(1)
        m = min(int(k), self.bal[a])
        self.bal[a] -= m
        if b == "null":
            raise Trap(1)
        self.bal[b] += m
        return m

    def sum(self, a, b, c):
        if "null" in (a, b, c):
            raise Trap(1)
        return self.bal[a] + self.bal[b] * 1000 + self.bal[c] * 1000000

    @staticmethod
    def draw(chance):
        names = ["p[0]", "p[1]", "p[2]", "p[3]"]
        if chance.random() < 0.1:
            names = ["null"]
        a, b, c = (chance.choice(names + ["p[0]"]) for _ in range(3))
        return chance.choice([f"transfer({a}, {b}, {chance.randint(0, 30)})", f"sum({a}, {b}, {c})"])

    def cells(self):
        return [f"{name}.bal {bal}" for name, bal in self.bal.items()]


class Prints(Kind):
    text = """lock G; lock H;
global int n protected_by(G) = 3; global int m protected_by(H);
atomic tell(int k) { print n; n = n * 2 + k; print n; if (n > 100000) { n = k; } }
atomic more(int k) { var i: int = 0; while (i < k) { print m; m = m + i; i = i + 1; } }
"""

    def __init__(self):
        super().__init__()
        self.n, self.m = 3, 0

    def tell(self, k):
        self.say(self.n)
        self.n = self.n * 2 + int(k)
        self.say(self.n)
        if self.n > 100000:
            self.n = int(k)

    def more(self, k):
        for i in range(int(k)):
            self.say(self.m)
            self.m += i

    @staticmethod
    def draw(chance):
        return chance.choice([f"tell({chance.randint(0, 9)})", f"more({chance.randint(0, 5)})"])

    def cells(self):
        return [f"n {self.n}", f"m {self.m}"]


class Traps(Kind):
    text = """lock G;
global int n protected_by(G);
atomic parts(int k) : int { n = n + 1; print n; return 100 / k; }
atomic rest(int k) { n = n + 2; n = n % k; }
"""

    def __init__(self):
        super().__init__()
        self.n = 0

    def parts(self, k):
        self.n += 1
        self.say(self.n)
        if k == "0":
            raise Trap(4)
        return 100 // int(k)

    def rest(self, k):
        self.n += 2
        if k == "0":
            raise Trap(4)
        self.n %= int(k)

    @staticmethod
    def draw(chance):
        return f"{chance.choice(['parts', 'rest'])}({chance.randint(0, 4)})"

    def cells(self):
        return [f"n {self.n}"]


class Stack(Kind):
    text = """lock G;
global int s[4] protected_by(G);
global int top protected_by(G);
atomic push(int k) : int { s[top] = k; top = top + 1; return top; }
atomic pop() : int { top = top - 1; if (top < 0) { top = 0; return_nothing = return_nothing + 1; } return s[top]; }
global int return_nothing protected_by(G);
"""

    def __init__(self):
        super().__init__()
        self.s, self.top, self.nothing = [0] * 4, 0, 0

    def push(self, k):
        if self.top >= 4:
            raise Trap(2)
        self.s[self.top] = int(k)
        self.top += 1
        return self.top

    def pop(self):
        self.top -= 1
        if self.top < 0:
            self.top, self.nothing = 0, self.nothing + 1
        return self.s[self.top]

    @staticmethod
    def draw(chance):
        return chance.choice([f"push({chance.randint(1, 99)})", "pop()"])

    def cells(self):
        return [*(f"s[{i}] {v}" for i, v in enumerate(self.s)), f"top {self.top}", f"return_nothing {self.nothing}"]


class Elements(Kind):
    text = """lock G; lock H;
global int a[5] protected_by(G); global int count protected_by(H);
atomic add(int i, int k) : int { a[i] = a[i] + k; return a[i]; }
atomic late(int i) { count = count + 1; a[i] = count; }
"""

    def __init__(self):
        super().__init__()
        self.a, self.count = [0] * 5, 0

    def at(self, i):
        if not 0 <= int(i) < 5:
            raise Trap(2)
        return int(i)

    def add(self, i, k):
        self.a[self.at(i)] += int(k)
        return self.a[int(i)]

    def late(self, i):
        self.count += 1
        self.a[self.at(i)] = self.count

    @staticmethod
    def draw(chance):
        i = chance.randint(-1, 5)
        return chance.choice([f"add({i}, {chance.randint(-5, 5)})", f"late({i})"])

    def cells(self):
        return [*(f"a[{i}] {v}" for i, v in enumerate(self.a)), f"count {self.count}"]


class Loops(Kind):
    text = """lock G; lock H;
global int x protected_by(G) = 1; global int y protected_by(H) = 1;
atomic sum(int k) : int {
  var i: int = 0;
  var s: int = 0;
  while (i < k) { s = s + i * x; i = i + 1; }
  x = x + 1;
  return s;
}
atomic swap(int k) { var i: int = 0; while (i < k) { let t: int = x; x = y; y = t + 1; i = i + 1; } }
"""

    def __init__(self):
        super().__init__()
        self.x, self.y = 1, 1

    def sum(self, k):
        answer = sum(i * self.x for i in range(int(k)))
        self.x += 1
        return answer

    def swap(self, k):
        for _ in range(int(k)):
            self.x, self.y = self.y, self.x + 1

    @staticmethod
    def draw(chance):
        return f"{chance.choice(['sum', 'swap'])}({chance.randint(0, 6)})"

    def cells(self):
        return [f"x {self.x}", f"y {self.y}"]


class Levels(Kind):
    text = """lock G;
global int n protected_by(G);
struct S { lock l; int v protected_by(l); }
pool S q[3];
atomic raise(ref S s) : int { s.v = s.v + n; n = n + 1; return s.v; }
atomic level(ref S s, ref S t) { if (s.v < t.v) { s.v = t.v; } else { n = n + s.v - t.v; } }
"""

    def __init__(self):
        super().__init__()
        self.n, self.v = 0, {f"q[{i}]": 0 for i in range(3)}

    def raise_(self, s):
        self.v[s] += self.n
        self.n += 1
        return self.v[s]

    def level(self, s, t):
        if self.v[s] < self.v[t]:
            self.v[s] = self.v[t]
        else:
            self.n += self.v[s] - self.v[t]

    @staticmethod
    def draw(chance):
        s, t = (f"q[{chance.randrange(3)}]" for _ in range(2))
        return chance.choice([f"raise({s})", f"level({s}, {t})"])

    def cells(self):
        return [f"n {self.n}", *(f"{name}.v {v}" for name, v in self.v.items())]


class References(Kind):
    text = """lock G; lock H;
struct S { int v protected_by(H); }
pool S q[3];
global ref S current protected_by(G);
atomic swap(ref S r) : ref S { let old: ref S = current; current = r; return old; }
atomic touch() : int { let r: ref S = current; r.v = r.v + 1; return r.v; }
atomic same(ref S r) : int { var k: int = 0; if (current == r) { k = 1; } return k; }
"""

    def __init__(self):
        super().__init__()
        self.current, self.v = "null", {f"q[{i}]": 0 for i in range(3)}

    def swap(self, r):
        old, self.current = self.current, r
        return old

    def touch(self):
        if self.current == "null":
            raise Trap(1)
        self.v[self.current] += 1
        return self.v[self.current]

    def same(self, r):
        return int(self.current == r)

    @staticmethod
    def draw(chance):
        r = chance.choice(["null", "q[0]", "q[1]", "q[2]"])
        return chance.choice([f"swap({r})", "touch()", f"same({r})"])

    def cells(self):
        return [*(f"{name}.v {v}" for name, v in self.v.items()), f"current {self.current}"]


class Greatest(Kind):
    text = """lock G; lock H; lock I;
global int most protected_by(G); global int least protected_by(H); global int seen protected_by(I);
atomic note(int k) : int {
  if (k > most) { most = k; }
  if (k < least) { least = k; }
  seen = seen + 1;
  return most - least;
}
atomic count() : int { return seen; }
"""

    def __init__(self):
        super().__init__()
        self.most = self.least = self.seen = 0

    def note(self, k):
        self.most, self.least, self.seen = max(self.most, int(k)), min(self.least, int(k)), self.seen + 1
        return self.most - self.least

    def count(self):
        return self.seen

    @staticmethod
    def draw(chance):
        return chance.choice([f"note({chance.randint(-50, 50)})", "count()"])

    def cells(self):
        return [f"most {self.most}", f"least {self.least}", f"seen {self.seen}"]


KINDS = [Counters, Accounts, Prints, Traps, Stack, Elements, Loops, Levels, References, Greatest]


def wrong(kind, scripts, text):
    """What is wrong with a history, or nothing."""
    state = kind()
    lines = text.split("\n")
    if lines[0] != "history 2" or lines[-1] != "":
        return "no history of the second format"
    at, position = 1, 0
    made, last = [0] * len(scripts), [-1] * len(scripts)
    while lines[at].startswith("call "):
        thread, step, begun, name, arguments, end = CALL.fullmatch(lines[at]).groups()
        thread, step, begun = int(thread), int(step), int(begun)
        if step != made[thread] or scripts[thread][step : step + 1] != [f"{name}({arguments})"]:
            return f"line {at + 1}: not the thread's next call"
        if not last[thread] < begun <= position:
            return f"line {at + 1}: it can't have begun then"
        wanted, said = state.call({"raise": "raise_"}.get(name, name), [a for a in arguments.split(", ") if a])
        if end != wanted or lines[at + 1 : at + 1 + len(said)] != [f"print {n}" for n in said]:
            return f"line {at + 1}: {wanted} {said}"
        at += 1 + len(said)
        made[thread] += 1
        last[thread] = position
        position += 1
    if made != [len(script) for script in scripts]:
        return "calls are missing"
    return None if lines[at:-1] == ["cells", *state.cells(), "end"] else f"line {at + 1}: {state.cells()}"


def try_program(part):
    program, library, number, seed, runs = part
    kind = KINDS[number % len(KINDS)]
    chance = random.Random(f"{seed} {number}")
    scripts = [[kind.draw(chance) for _ in range(chance.randint(1, 12))] for _ in range(chance.randint(2, 8))]
    text = kind.text + "".join(
        f"thread t{t} {{ {' '.join(call + ';' for call in script)} }}\n" for t, script in enumerate(scripts)
    )
    failed = []
    orders = set()
    with tempfile.TemporaryDirectory() as room:
        file, history = os.path.join(room, "program.al"), os.path.join(room, "history")
        pathlib.Path(file).write_text(text)
        for run in range(1, runs + 1):
            environment = {"LD_PRELOAD": library, "DELAYS_SEED": str(run)}
            done = subprocess.run([program, "run", file], env=environment, capture_output=True, timeout=120)
            told = done.stdout.decode()
            orders.add(tuple(line.split(" ", 3)[1] for line in told.split("\n") if line.startswith("call ")))
            why = f"status {done.returncode}: {done.stderr!r}" if done.returncode or done.stderr else wrong(kind, scripts, told)
            pathlib.Path(history).write_text(told)
            if not why:
                replayed = subprocess.run([program, "replay", file, history], capture_output=True, timeout=120)
                why = None if replayed.stdout == b"same\n" else f"replay: {replayed.stdout!r} {replayed.stderr!r}"
            if why:
                failed.append(f"run {run}: {why}\n{text}\n{told}")
    return number, kind.__name__, runs, len(orders), failed


def main():
    words = argparse.ArgumentParser(description=__doc__, formatter_class=argparse.RawDescriptionHelpFormatter)
    words.add_argument("program")
    words.add_argument("--seed", type=int, default=1)
    words.add_argument("--runs", type=int, default=25)
    given = words.parse_args()
    program = os.path.abspath(given.program)
    runs = failed = orders = 0
    with tempfile.TemporaryDirectory() as room, multiprocessing.Pool() as pool:
        library = os.path.join(room, "delays.so")
        source = TOP / "threads" / "delays.c"
        subprocess.run(["cc", "-O2", "-shared", "-fPIC", "-o", library, source, "-ldl"], check=True)
        parts = [(program, library, number, given.seed, given.runs) for number in range(40)]
        for number, kind, count, differing, wrongs in pool.imap_unordered(try_program, parts):
            for line in wrongs[:1]:
                print(f"program {number}, {kind}: {line}")
            runs, failed, orders = runs + count, failed + len(wrongs), orders + differing
    print(f"{orders} orders of calls")
    print(f"{runs} runs, {failed} failed")
    sys.exit(1 if failed else 0)


if __name__ == "__main__":
    main()
