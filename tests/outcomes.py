#!/usr/bin/env python3
"""What `outcomes` tells, judged by `serial`.

    tests/outcomes.py PROGRAM [--seed N] [--count N] [--most N] [FILE..]

PROGRAM is the built program. It is judged over each FILE, a program that is accepted, and over `--count` small programs
that are drawn (200 by default), from the seed that is printed: sections that write what they read, threads of a few
calls, some of which meet a loop past their turns.

The calls of each thread are what `serial` tells. An order of them is made the one thread of the program in place of its
own, and `serial` has to tell the cells that `outcomes` tells of it. Where the orders are at most `--most` (by default
300), all of them are run so, with each of their beginnings: `outcomes` has to say `all`, to tell how many states these come
by, and just the cells that they end in, each once, and of each after how many orders; and where some order meets a loop past its turns, the calls before that one and its place. Then it
is asked to look at fewer orders than there are: it has to say `drawn`, and of as many orders cells that some of them end in; or
`reduced`, and just the cells that all of them end in, by no more states than they have. Where there are more orders than that,
those that it tells are run.

Of each program comparisons are drawn too, sums of its cells and of numbers, some past 64 bits. What `--expect` says of them has to
be what the ends that are told say, by a reader of this script: that all ends meet it, or the first that doesn't, with its order
and its cells. A table has texts that are no comparison, with the byte up to which they can be read, and names that stand for
no sum.

Exits with 1 where anything differs, and prints the program and what is wrong.
"""

import argparse
import math
import os
import random
import re
import subprocess
import sys
import tempfile

from schedules import without_threads

CALL = re.compile(r"call (\d+) \d+ (.*\)) (ends|returns .*|traps \d+)$")
FIRST = re.compile(r"orders (?:(\d+) (all|drawn)|reduced)$")
STATES = re.compile(r"states (\d+)$")
OUTCOME = re.compile(r"outcome (?:(\d+) )?after((?: \d+)*)$")
TURNS = 50


class Differs(Exception):
    pass


def orders_of(left):
    """All orders in which threads with so many calls left can make them."""
    if not any(left):
        yield ()
    for thread, calls in enumerate(left):
        if calls:
            for order in orders_of(left[:thread] + (calls - 1,) + left[thread + 1 :]):
                yield (thread, *order)


def number_of_orders(lengths):
    whole = math.factorial(sum(lengths))
    for length in lengths:
        whole //= math.factorial(length)
    return whole


class Judge:
    reduced = 0

    def __init__(self, program, path, folder):
        self.program, self.path, self.folder = program, path, folder
        with open(path, encoding="latin-1") as source:
            self.text, threads = without_threads(source.read())
        self.scripts = [[] for _ in range(threads)]
        self.known = {}

    def run(self, *words):
        done = subprocess.run([self.program, *words], capture_output=True, timeout=120)
        if done.returncode not in (0, 7) or done.stderr:
            raise Differs(f"{words}: status {done.returncode}: {done.stderr.decode('latin-1')}")
        return done.returncode, done.stdout.decode("latin-1").splitlines()

    def read_scripts(self):
        """Reads the calls of each thread; whether `serial` runs them all."""
        status, lines = self.run("serial", "--turns", "1000000", self.path)
        for line in lines:
            call = CALL.match(line)
            if call:
                self.scripts[int(call.group(1))].append(call.group(2))
        return status == 0

    def calls_of(self, order):
        done = [0] * len(self.scripts)
        for thread in order:
            done[thread] += 1
            yield self.scripts[thread][done[thread] - 1]

    def serial(self, order):
        """How calls in this order end: the status, and what `serial` tells but for the numbers of threads and calls."""
        if order not in self.known:
            file = os.path.join(self.folder, "serial.al")
            with open(file, "w", encoding="latin-1") as out:
                out.write(self.text + "\nthread only_one {\n" + "".join(f"  {c};\n" for c in self.calls_of(order)) + "}\n")
            status, lines = self.run("serial", "--turns", str(TURNS), file)
            self.known[order] = status, lines
        return self.known[order]

    def cells(self, order):
        status, lines = self.serial(order)
        if status:
            raise Differs(f"after {order} a call is past its turns")
        return tuple(lines[lines.index("cells") :])

    def state(self, order):
        """How many calls of each thread are in the beginning of an order, and the cells after it."""
        return tuple(order.count(thread) for thread in range(len(self.scripts))), self.cells(order)

    def outcomes(self, count):
        return self.run("outcomes", "--full", "--turns", str(TURNS), "--count", str(count), "--seed", "3", self.path)

    def told(self, lines):
        """The first line's number and word, and of each outcome its count, its order and its cells."""
        number, scope = FIRST.match(lines[0]).groups()
        scope = scope or "reduced"
        ends, at, self.states = [], 1, None
        if scope != "drawn":
            at, self.states = 2, int(STATES.match(lines[1]).group(1))
        while at < len(lines):
            count, order = OUTCOME.match(lines[at]).groups()
            if (count is None) != (scope == "reduced"):
                raise Differs(f"{lines[at]} where orders are {scope}")
            end = lines.index("end", at) + 1
            ends.append((int(count or 1), tuple(map(int, order.split())), tuple(lines[at + 1 : end])))
            at = end
        return int(number or len(ends)), scope, ends

    def judge_ends(self, lines, scopes, number):
        """Whether what is told is true, as far as its own orders go; and what is told."""
        told_number, scope, ends = self.told(lines)
        if scope not in scopes or scope != "reduced" and told_number != number:
            raise Differs(f"{lines[0]}, and not {number} {scopes}")
        self.scope, number = scope, told_number
        lengths = [len(script) for script in self.scripts]
        for count, order, cells in ends:
            if count < 1 or [order.count(t) for t in range(len(lengths))] != lengths or len(order) != sum(lengths):
                raise Differs(f"no order: {count} {order}")
            if self.cells(order) != cells:
                raise Differs(f"after {order} {self.cells(order)}, and not {cells}")
        if sum(count for count, _, _ in ends) != number or len({cells for _, _, cells in ends}) != len(ends):
            raise Differs("counts that don't sum up, or an end that is told twice:\n" + "\n".join(lines))
        return {cells: count for count, _, cells in ends}

    def judge_stop(self, lines):
        """Whether the calls that are told lead to one past its turns."""
        thread, step = map(int, lines[-1].split()[1:])
        order = tuple(int(CALL.match(line).group(1)) for line in lines if line.startswith("call "))
        if order.count(thread) != step:
            raise Differs(lines[-1])
        status, wanted = self.serial((*order, thread))
        bare = [re.sub(r"^call \d+ \d+ ", "call ", line) for line in lines[:-1]]
        if status != 7 or bare != [re.sub(r"^call \d+ \d+ ", "call ", line) for line in wanted[:-1]]:
            raise Differs("\n".join(lines) + "\nbut serial:\n" + "\n".join(wanted))

    def judge_all(self, orders, number):
        stops = [order for order in orders if self.serial(order)[0] == 7]
        status, lines = self.outcomes(number)
        if stops:
            if status != 7:
                raise Differs(f"a call past its turns in {stops[0]}, and status {status}")
            return self.judge_stop(lines)
        if status:
            raise Differs(f"status {status}, and no call is past its turns")
        wanted = {}
        for order in orders:
            wanted[self.cells(order)] = wanted.get(self.cells(order), 0) + 1
        if self.judge_ends(lines, ("all",), number) != wanted:
            raise Differs("\n".join(lines) + f"\nbut all orders: {wanted}")
        states = {self.state(order[:length]) for order in orders for length in range(len(order) + 1)}
        if self.states != len(states):
            raise Differs(f"{self.states} states, and not {len(states)}")
        if number > 1:
            fewer = number - 1 if number < 5 else number // 2
            lines = self.outcomes(fewer)[1]
            some = self.judge_ends(lines, ("drawn", "reduced"), fewer)
            if not some.keys() <= wanted.keys():
                raise Differs("an end that no order has")
            if self.scope == "reduced":
                Judge.reduced += 1
                if some.keys() != wanted.keys() or self.states > len(states):
                    raise Differs("\n".join(lines) + f"\nbut all orders: {wanted}, by {len(states)} states")

    def judge(self, most):
        lengths = tuple(len(script) for script in self.scripts)
        number = number_of_orders(lengths)
        if number <= most:
            return self.judge_all(list(orders_of(lengths)), number)
        count = min(number, 2000)
        status, lines = self.outcomes(count)
        if status == 7:
            return self.judge_stop(lines)
        self.judge_ends(lines, ("all",) if number <= count else ("drawn", "reduced"), count)


NAMES = {"x": ("x",), "y": ("y",), "a": ("a[0]", "a[1]"), "a[1]": ("a[1]",), "p": ("p[0].v",), "p[0]": ("p[0].v",), "p[0].v": ("p[0].v",)}
RELATIONS = {
    "==": lambda a, b: a == b, "!=": lambda a, b: a != b, "<": lambda a, b: a < b,
    "<=": lambda a, b: a <= b, ">": lambda a, b: a > b, ">=": lambda a, b: a >= b,
}  # fmt: skip


class Comparison:
    """A drawn comparison: its text, the cells that it has, and whether cells meet it."""

    def __init__(self, chance):
        self.left, self.right = self.drawn_sum(chance), self.drawn_sum(chance)
        self.relation = chance.choice(list(RELATIONS))
        blank = lambda: chance.choice(("", " ", "\t", "  "))
        text = blank()
        for terms in (self.left, self.right):
            for at, (sign, item) in enumerate(terms):
                text += blank() + (sign if at or sign == "-" else "") + blank() + item
            text += blank() + (self.relation if terms is self.left else "") + blank()
        self.text = text
        self.cells = {cell for _, item in self.left + self.right for cell in NAMES.get(item, ())}

    @staticmethod
    def drawn_sum(chance):
        items = list(NAMES) * 2 + ["0", "1", "7", "007", "9223372036854775807"]
        return [(chance.choice("+-"), chance.choice(items)) for _ in range(chance.choice((1, 1, 2, 3, 4)))]

    def met_by(self, cells):
        def value(terms):
            sums = (sum(cells[cell] for cell in NAMES[item]) if item in NAMES else int(item) for _, item in terms)
            return sum(-each if sign == "-" else each for (sign, _), each in zip(terms, sums))

        return RELATIONS[self.relation](value(self.left), value(self.right))


def values(lines):
    return {name: int(value) for name, value in (line.split() for line in lines if line not in ("cells", "end"))}


def judge_comparison(program, path, comparison, count):
    """What `--expect` says of a drawn program that has been judged without it."""
    words = ["--full", "--turns", str(TURNS), "--count", str(count), f"--expect={comparison.text}", path]
    done = subprocess.run([program, "outcomes", *words], capture_output=True, timeout=120)
    lines = done.stdout.decode("latin-1").split("\n")[:-1]
    if done.returncode == 7:
        return
    scope = FIRST.match(lines[0]).group(2) or "reduced"
    at, breach = (1 if scope == "drawn" else 2), None
    while at < len(lines) and lines[at].startswith("outcome "):
        end = lines.index("end", at) + 1
        cells = values(lines[at + 1 : end])
        if set(cells) != comparison.cells:
            raise Differs(f"--expect {comparison.text!r}: cells {sorted(cells)}")
        if breach is None and not comparison.met_by(cells):
            breach = [f"expected {comparison.text} fails after{OUTCOME.match(lines[at]).group(2)}"] + lines[at + 1 : end]
        at = end
    want = breach or [f"expected {comparison.text} holds in {'the orders drawn' if scope == 'drawn' else 'all orders'}"]
    if lines[at:] != want or done.returncode != (9 if breach else 0) or done.stderr:
        raise Differs(f"--expect {comparison.text!r}: status {done.returncode}: {lines[at:]} for {want}")
    if scope != "drawn":
        whole = subprocess.run([program, "outcomes", *words[:5], path], capture_output=True, timeout=120).stdout.decode("latin-1").splitlines()
        starts = [place for place, line in enumerate(whole) if line.startswith("outcome ")]
        met = all(comparison.met_by(values(whole[start + 1 : whole.index("end", start) + 1])) for start in starts)
        if met != (breach is None):
            raise Differs(f"--expect {comparison.text!r}: of the cells of all ends {'none' if met else 'one'} breaks it")


# What is told of texts that are no comparison, and of names that stand for no sum.
FAULTY = {
    "": "not a comparison, at byte 0",
    "n": "not a comparison, at byte 1",
    "n ==": "not a comparison, at byte 4",
    "n == ": "not a comparison, at byte 5",
    "n = 1": "not a comparison, at byte 2",
    "n == 1 2": "not a comparison, at byte 7",
    "n == 1 == 1": "not a comparison, at byte 7",
    "n == --1": "not a comparison, at byte 6",
    "+n == 1": "not a comparison, at byte 0",
    "n + == 1": "not a comparison, at byte 4",
    "n == 1x": "not a comparison, at byte 5",
    "n == 9223372036854775808": "not a comparison, at byte 5",
    "n\n== 1": "not a comparison, at byte 1",
    "n == 1;": "not a comparison, at byte 6",
    "m == n": "no cell is named m",
    "n == 1 + n[0]": "no cell is named n[0]",
    "q == 0": "q holds no number",
    "n - q[0].next == 0": "q[0].next holds no number",
}


def judge_faulty(program, folder):
    """The faults of the table, and that there is no other one."""
    path = os.path.join(folder, "faulty.al")
    with open(path, "w", encoding="latin-1") as out:
        out.write("lock G; global int n protected_by(G);\nstruct P { lock l; int v protected_by(l); ref P next protected_by(l); } pool P q[1];\n")
        out.write("atomic f() { n = n + 1; }\nthread t { f(); }\n")
    failed = 0
    for text, want in FAULTY.items():
        done = subprocess.run([program, "outcomes", f"--expect={text}", path], capture_output=True, timeout=120)
        told = f"autolock: --expect: {text} is {want}\n" if want.startswith("not a comparison") else f"autolock: {want}\n"
        if (done.returncode, done.stdout, done.stderr.decode("latin-1")) != (6, b"", told):
            print(f"FAILED --expect {text!r}: status {done.returncode}: {done.stderr} for {told!r}")
            failed += 1
    for text in ("n == 1", "q[0].v==0", "\t0<n ", "-1 + n - n - 9223372036854775807 - 9223372036854775807 <= -9223372036854775807 - 9223372036854775807 - 1"):
        done = subprocess.run([program, "outcomes", f"--expect={text}", path], capture_output=True, timeout=120)
        if done.returncode or not done.stdout.endswith(f"expected {text} holds in all orders\n".encode()):
            print(f"FAILED --expect {text!r}: status {done.returncode}: {done.stdout}")
            failed += 1
    return failed


STATEMENTS = (
    "x = k;", "x = x + k;", "x = y;", "y = x + 1;", "y = x - y;", "x = a[0]; a[0] = k;", "a[1] = a[0] + k;",
    "if (x < y) { x = y; } else { y = k; }", "y = 12 / x;", "a[x] = k;", "p[0].v = x + k;", "x = p[0].v;", "print x; x = 0 - x;",
    "var i: int = 0; while (i < x) { y = y + 1; i = i + 1; }",
)


# Statements of sections that touch no cell in common.
APART = (
    ("x = k;", "x = x + k;", "print x; x = 0 - x;", "if (x == 1) { x = k; }"),
    ("y = y - k;", "y = 12 / y;", "if (0 < y) { y = k; } else { y = 0 - y; }", "var i: int = 0; while (i < y) { i = i + 1; y = y - k; }"),
    ("p[0].v = p[0].v * k;", "a[1] = p[0].v;", "a[k] = p[0].v + 1;", "p[0].v = a[0] + a[1];"),
)


def drawn_apart(chance, text):
    """A small program of threads whose sections mostly touch no cell in common."""
    for number in range(6):
        body = " ".join(chance.choice(APART[number % 3]).replace("p[0]", "q") for _ in range(chance.randint(1, 2)))
        text += f"atomic f{number}(int k, ref P q) {{ {one_var(body)} }}\n"
    for number, calls in enumerate(chance.choice([(1, 1, 1), (2, 1, 1), (2, 2, 1), (2, 3), (1, 1, 1, 1), (2, 0, 2)])):
        own = number % 3 if chance.random() < 0.9 else chance.randrange(3)
        script = " ".join(f"f{own + 3 * chance.randrange(2)}({chance.choice((0, 1, 2, -1, 70))}, p[0]);" for _ in range(calls))
        text += f"thread t{number} {{ {script} }}\n"
    return text


def one_var(body):
    """A body in which each loop has a variable of its own."""
    parts = body.split("var i: int")
    return parts[0] + "".join(f"var i{n}: int" + re.sub(r"\bi\b", f"i{n}", part) for n, part in enumerate(parts[1:]))


def drawn(chance):
    """A small program."""
    text = "lock G; lock H; global int x protected_by(G); global int y protected_by(H); global int a[2] protected_by(G);\n"
    text += "struct P { lock l; int v protected_by(l); } pool P p[1];\n"
    if chance.random() < 0.4:
        return drawn_apart(chance, text)
    for number in range(4):
        body = " ".join(chance.choice(STATEMENTS).replace("var i", f"var i{n}").replace("(i <", f"(i{n} <").replace("i = i + 1", f"i{n} = i{n} + 1")
                        for n in range(chance.randint(1, 2)))
        text += f"atomic f{number}(int k, ref P q) {{ {body.replace('p[0]', 'q')} }}\n"
    for number, calls in enumerate(chance.choice([(1, 1), (2, 1), (2, 2), (3, 2), (1, 1, 1), (2, 1, 1), (2, 2, 1), (0, 3), (4, 2), (3, 3)])):
        script = " ".join(f"f{chance.randrange(4)}({chance.choice((0, 1, 2, -1, 70))}, p[0]);" for _ in range(calls))
        text += f"thread t{number} {{ {script} }}\n"
    return text


def main():
    words = argparse.ArgumentParser(formatter_class=argparse.RawDescriptionHelpFormatter, description=__doc__)
    words.add_argument("program")
    words.add_argument("files", nargs="*")
    words.add_argument("--seed", type=int, default=None)
    words.add_argument("--count", type=int, default=200)
    words.add_argument("--most", type=int, default=300)
    given = words.parse_args()
    seed = random.randrange(2**32) if given.seed is None else given.seed
    print(f"seed {seed}")
    chance = random.Random(seed)
    judged = 0
    with tempfile.TemporaryDirectory() as folder:
        failed = judge_faulty(os.path.abspath(given.program), folder)
        small = set()
        for number in range(given.count):
            path = os.path.join(folder, f"drawn-{number}.al")
            with open(path, "w", encoding="latin-1") as out:
                out.write(drawn(chance))
            given.files.append(path)
            small.add(path)
        for path in given.files:
            judge = Judge(os.path.abspath(given.program), path, folder)
            try:
                if not judge.read_scripts():
                    print(f"passed over {path}")
                    continue
                judge.judge(given.most)
                for _ in range(4 if path in small else 0):
                    judge_comparison(judge.program, path, Comparison(chance), chance.choice((given.most, given.most, 2)))
                judged += 1
            except Differs as wrong:
                with open(path, encoding="latin-1") as source:
                    print(f"FAILED {path}\n{source.read()}\n{wrong}")
                failed += 1
    print(f"{judged} programs judged, {Judge.reduced} of orders that stand for all, {failed} failed")
    sys.exit(1 if failed else 0)


if __name__ == "__main__":
    main()
