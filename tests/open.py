#!/usr/bin/env python3
"""Histories of calls from outside given to `replay --open`, judged by a reader of this script's own.

    tests/open.py PROGRAM [--seed N] [--count N] FILE..

PROGRAM is the built program. Each FILE is a program that is accepted; one that `serial` doesn't run to its end, or with too
many calls, is passed over. What `serial` and `run` write of each is the first two histories. Of these others are made: with
other threads, of any numbers of 32 bits; with the calls in another order, and what they then answer; with some left out. Of
each such history one thing is changed. The reader here runs the sections itself, by a meaning of its own, and asks PROGRAM
nothing: it says at which line a history first differs, and what `--why` has to tell of an open call there.

Exits with 1 where anything differs, and prints the program, the history and both answers.
"""

import argparse
import os
import random
import re
import subprocess
import sys
import tempfile

TOKEN = re.compile(r"\s+|//[^\n]*|([A-Za-z_]\w*|\d+|==|!=|<=|>=|&&|\|\||[-+*/%<>=!(){}\[\];:,.])")
CALL = re.compile(r"call (\d+) (\d+) (?:(\d+) )?([A-Za-z_]\w*)\(([^)]*)\) (.*)")
MOST_CALLS = 60
MOST_TURNS = 20_000
THREADS = [0, 1, 2, 63, 64, 1000, 65535, 65536, 65537, 2**31, 2**32 - 2, 2**32 - 1]


class Trap(Exception):
    pass


class Unsettled(Exception):
    pass


class Returned(Exception):
    pass


class Parser:
    """A program's text as lists: the grammar of docs/LANGUAGE.md, without its checks."""

    def __init__(self, text):
        self.tokens = [word for word in (m.group(1) for m in TOKEN.finditer(text)) if word]
        self.at = 0

    def peek(self, ahead=0):
        return self.tokens[self.at + ahead] if self.at + ahead < len(self.tokens) else ""

    def take(self, word=None):
        found = self.tokens[self.at]
        assert word is None or found == word, (word, found, self.at)
        self.at += 1
        return found

    def took(self, word):
        if self.peek() == word:
            self.at += 1
            return True
        return False

    def type(self):
        return None if self.take() == "int" else self.take()

    def protection(self):
        if self.took("protected_by"):
            while self.take() != ")":
                pass

    def constant(self):
        if self.took("-"):
            return -int(self.take())
        word = self.take()
        if word.isdigit():
            return int(word)
        if word == "null":
            return None
        self.take("[")
        index = int(self.take())
        self.take("]")
        return word, index

    def program(self):
        p = Program()
        while self.peek():
            word = self.take()
            if word == "lock":
                self.take()
                self.take(";")
            elif word == "struct":
                self.structure(p)
            elif word == "global":
                self.global_(p)
            elif word == "pool":
                structure, name = self.take(), self.take()
                self.take("[")
                p.pools[name] = structure, int(self.take())
                p.order.append(("pool", name))
                self.take("]")
                self.take(";")
            elif word == "init":
                pool = self.take()
                self.take("[")
                index = int(self.take())
                self.take("]")
                self.take(".")
                field = self.take()
                self.take("=")
                p.inits[pool, index, field] = self.constant()
                self.take(";")
            elif word in ("atomic", "call"):
                name = self.take()
                (p.sections if word == "atomic" else p.helpers)[name] = self.section()
            else:
                self.take()
                self.skip()
        return p

    def skip(self):
        self.take("{")
        depth = 1
        while depth:
            depth += {"{": 1, "}": -1}.get(self.take(), 0)

    def structure(self, p):
        name = self.take()
        fields, finals = {}, set()
        self.take("{")
        while not self.took("}"):
            if self.took("lock"):
                self.take()
            else:
                final = self.took("final")
                of = self.type()
                field = self.take()
                fields[field] = of
                if final:
                    finals.add(field)
                self.protection()
            self.take(";")
        p.structs[name] = fields, finals

    def global_(self, p):
        of, name = self.type(), self.take()
        length = None
        if self.took("["):
            length = int(self.take())
            self.take("]")
        self.protection()
        opening = self.constant() if self.took("=") else (0 if of is None else None)
        self.take(";")
        p.globals[name] = of, length, opening
        p.order.append(("global", name))

    def section(self):
        parameters = []
        self.take("(")
        while not self.took(")"):
            if parameters:
                self.take(",")
            parameters.append((self.type(), self.take()))
        result = self.took(":")
        if result:
            self.type()
        self.classes()
        return parameters, result, self.block()

    def classes(self):
        """The lock classes that a head lists: what a section does is the same with and without them."""
        if not self.took("lock"):
            return
        self.take("(")
        while True:
            self.take()
            self.take(".")
            self.take()
            if self.took(")"):
                return
            self.take(",")

    def block(self):
        self.take("{")
        statements = []
        while not self.took("}"):
            statements.append(self.statement())
        return statements

    def arguments(self):
        found = []
        self.take("(")
        while not self.took(")"):
            if found:
                self.take(",")
            found.append(self.expression())
        return found

    def statement(self):
        word = self.peek()
        if word in ("let", "var"):
            self.take()
            name = self.take()
            self.take(":")
            self.type()
            self.take("=")
            if self.took("call"):
                found = "call", self.take(), self.arguments(), name
            else:
                found = "bind", name, self.expression(), None
                if self.took("where"):
                    field = self.take()
                    self.take("==")
                    found = "bind", name, found[2], (field, self.take())
        elif word == "if":
            self.take()
            self.take("(")
            test = self.expression()
            self.take(")")
            first = self.block()
            return "if", test, first, self.block() if self.took("else") else []
        elif word == "while":
            self.take()
            self.take("(")
            test = self.expression()
            self.take(")")
            return "while", test, self.block()
        elif word in ("print", "return"):
            found = self.take(), self.expression()
        elif word == "call":
            self.take()
            found = "call", self.take(), self.arguments(), None
        else:
            place = self.place()
            self.take("=")
            found = "set", place, self.expression()
        self.take(";")
        return found

    def place(self):
        name = self.take()
        if self.took("["):
            index = self.expression()
            self.take("]")
            return "element", name, index
        fields = []
        while self.took("."):
            fields.append(self.take())
        return "path", name, fields

    def expression(self, level=0):
        signs = [["||"], ["&&"], ["==", "!=", "<", "<=", ">", ">="], ["+", "-"], ["*", "/", "%"]]
        if level == 5:
            return self.unary()
        left = self.expression(level + 1)
        while self.peek() in signs[level]:
            sign = self.take()
            left = sign, left, self.expression(level + 1)
            if level == 2:
                break
        return left

    def unary(self):
        if self.peek() in ("-", "!"):
            return "prefix", self.take(), self.unary()
        word = self.peek()
        if word.isdigit():
            return "number", int(self.take())
        if self.took("null"):
            return "null", None
        if self.took("("):
            inner = self.expression()
            self.take(")")
            return inner
        return self.place()


class Program:
    def __init__(self):
        self.structs, self.globals, self.pools, self.inits = {}, {}, {}, {}
        self.sections, self.helpers, self.order = {}, {}, []

    def opening(self):
        """The cells in their order, and the values of final references."""
        cells, finals = {}, {}
        for kind, name in self.order:
            if kind == "global":
                of, length, value = self.globals[name]
                if length is None:
                    cells[name] = value
                else:
                    cells.update({(name, i): value for i in range(length)})
            else:
                structure, length = self.pools[name]
                fields, constant = self.structs[structure]
                for i in range(length):
                    for field, of in fields.items():
                        value = self.inits.get((name, i, field), 0 if of is None else None)
                        (finals if field in constant else cells)[name, i, field] = value
        return cells, finals

    def struct_of(self, value):
        return self.pools[value[0]][0]


def show(value):
    return "null" if value is None else f"{value[0]}[{value[1]}]" if isinstance(value, tuple) else str(value)


def cell_name(cell):
    return cell if isinstance(cell, str) else f"{cell[0]}[{cell[1]}]" + (f".{cell[2]}" if len(cell) == 3 else "")


def in_range(number):
    if not -(2**63) <= number < 2**63:
        raise Trap(3)
    return number


class Run:
    """One call, run whole on the cells."""

    def __init__(self, program, cells, finals):
        self.program, self.cells, self.finals, self.prints = program, cells, finals, []

    def call(self, name, arguments):
        parameters, result, block = self.program.sections[name]
        try:
            self.block(block, dict(zip((p for _, p in parameters), arguments)))
        except Returned as returned:
            return f"returns {show(returned.args[0])}"
        except Trap as trap:
            return f"traps {trap.args[0]}"
        return "ends"

    def block(self, statements, scope):
        inner = dict(scope)
        names = set(scope)
        for statement in statements:
            self.statement(statement, inner)
        for name in names:
            scope[name] = inner[name]

    def statement(self, s, scope):
        kind = s[0]
        if kind == "bind":
            value = self.value(s[2], scope)
            if s[3] and value is not None:
                owner = scope[s[3][1]]
                if owner is None or self.finals[(*value, s[3][0])] != owner:
                    raise Trap(5)
            scope[s[1]] = value
        elif kind == "set":
            self.assign(s[1], s[2], scope)
        elif kind == "if":
            self.block(s[2] if self.value(s[1], scope) else s[3], scope)
        elif kind == "while":
            turns = 0
            while self.value(s[1], scope):
                turns += 1
                if turns > MOST_TURNS:
                    raise Unsettled
                self.block(s[2], scope)
        elif kind == "print":
            value = self.value(s[1], scope)
            if len(self.prints) == 256:
                raise Trap(6)
            self.prints.append(value)
        elif kind == "return":
            raise Returned(self.value(s[1], scope))
        else:
            parameters, _, block = self.program.helpers[s[1]]
            own = dict(zip((p for _, p in parameters), [self.value(a, scope) for a in s[2]]))
            try:
                self.block(block, own)
            except Returned as returned:
                if s[3]:
                    scope[s[3]] = returned.args[0]

    def base(self, name, fields, scope):
        value = scope[name]
        for field in fields:
            value = self.field(value, field)
        return value

    def field(self, value, field):
        if value is None:
            raise Trap(1)
        cell = (*value, field)
        return self.cells[cell] if cell in self.cells else self.finals[cell]

    def element(self, name, index):
        length = self.program.globals[name][1] if name in self.program.globals else self.program.pools[name][1]
        if not 0 <= index < length:
            raise Trap(2)
        return name, index

    def assign(self, place, value, scope):
        kind, name, rest = place
        if kind == "element":
            cell = self.element(name, self.value(rest, scope))
            self.cells[cell] = self.value(value, scope)
        elif not rest:
            value = self.value(value, scope)
            (scope if name in scope else self.cells)[name] = value
        else:
            owner = self.base(name, rest[:-1], scope)
            if owner is None:
                raise Trap(1)
            self.cells[(*owner, rest[-1])] = self.value(value, scope)

    def value(self, e, scope):
        kind = e[0]
        if kind in ("number", "null"):
            return e[1]
        if kind == "element":
            cell = self.element(e[1], self.value(e[2], scope))
            return cell if e[1] in self.program.pools else self.cells[cell]
        if kind == "path":
            return self.base(e[1], e[2], scope) if e[1] in scope else self.cells[e[1]]
        if kind == "prefix":
            value = self.value(e[2], scope)
            return not value if e[1] == "!" else in_range(-value)
        left = self.value(e[1], scope)
        if kind in ("&&", "||"):
            return self.value(e[2], scope) if left == (kind == "&&") else left
        right = self.value(e[2], scope)
        if kind in ("==", "!="):
            return (left == right) == (kind == "==")
        if kind in ("/", "%"):
            if right == 0:
                raise Trap(4)
            quotient = in_range(abs(left) // abs(right) * (1 if (left < 0) == (right < 0) else -1))
            return quotient if kind == "/" else left - quotient * right
        if kind in ("+", "-", "*"):
            return in_range({"+": left + right, "-": left - right, "*": left * right}[kind])
        return {"<": left < right, "<=": left <= right, ">": left > right, ">=": left >= right}[kind]


class Reader:
    """Says of a history's lines what `replay --open --why` has to write."""

    def __init__(self, program, lines):
        self.program, self.lines, self.two = program, lines, lines[0] == "history 2"
        self.cells, self.finals = program.opening()
        self.calls, self.last, self.position, self.due = {}, {}, 0, []

    def judge(self):
        for number, line in enumerate(self.lines[1:], 2):
            if self.due:
                wanted = [self.due.pop(0)]
            elif line == "cells":
                tail = [f"{cell_name(c)} {show(v)}" for c, v in self.cells.items()] + ["end"]
                for at, wanted in enumerate(tail, number + 1):
                    if self.lines[at - 1] != wanted:
                        return self.differs(at, [wanted])
                return "same\n"
            else:
                wanted = self.call(line)
            if wanted and wanted != [line]:
                return self.differs(number, wanted)
        return None

    def differs(self, number, wanted):
        told = "".join(f"expected: {text}\n" for text in wanted)
        return f"differs at line {number}\n{told}found: {self.lines[number - 1]}\n"

    def argument(self, text):
        if text == "null":
            return None
        if "[" not in text:
            return int(text)
        pool, index = text[:-1].split("[")
        return (pool, int(index)) if pool in self.program.pools and int(index) < self.program.pools[pool][1] else False

    def fits(self, name, arguments):
        parameters = self.program.sections[name][0]
        if len(parameters) != len(arguments):
            return False
        for (of, _), value in zip(parameters, arguments):
            if value is False or (of is None) != isinstance(value, int):
                return False
            if isinstance(value, tuple) and self.program.struct_of(value) != of:
                return False
        return True

    def call(self, line):
        """What is wanted in place of a line where a call may come; nothing where it may."""
        found = CALL.fullmatch(line)
        if not found:
            return [f"call T K {'B ' if self.two else ''}NAME(ARGUMENTS) ..", "cells"]
        thread, step, begun, name, arguments, _ = found.groups()
        thread, step = int(thread), int(step)
        if thread >= 2**32:
            return ["T from 0 to 4294967295"]
        done, least = self.calls.get(thread, 0), self.last.get(thread, -1) + 1
        if step != done:
            return [f"K {done}"]
        if self.two and not least <= int(begun) <= self.position:
            return [f"B from {least} to {self.position}"]
        if name not in self.program.sections:
            return ["a section of the program"]
        values = [self.argument(text) for text in arguments.split(", ")] if arguments else []
        if not self.fits(name, values):
            return ["arguments that fit the section"]
        run = Run(self.program, self.cells, self.finals)
        end = run.call(name, values)
        self.due = [f"print {value}" for value in run.prints]
        self.calls[thread], self.last[thread] = done + 1, self.position
        self.position += 1
        return [line[: found.start(6)] + end]


class Maker:
    """Histories of a program, from those that it writes."""

    def __init__(self, program, calls, draw):
        self.program, self.calls, self.draw = program, calls, draw

    def history(self, calls, two):
        """The lines of calls (thread, section, arguments as texts) in this order."""
        reader = Reader(self.program, ["history 2" if two else "history 1"])
        lines = list(reader.lines)
        for thread, name, arguments in calls:
            least = reader.last.get(thread, -1) + 1
            begun = f"{self.draw.randint(least, reader.position)} " if two else ""
            head = f"call {thread} {reader.calls.get(thread, 0)} {begun}{name}({arguments}) "
            lines += reader.call(head + "ends") + reader.due
        cells = [f"{cell_name(c)} {show(v)}" for c, v in reader.cells.items()]
        return [*lines, "cells", *cells, "end"]

    def drawn(self):
        calls = list(self.calls)
        kind = self.draw.randrange(4)
        if kind >= 1:
            names = self.draw.sample(THREADS, len({t for t, _, _ in calls}) or 1)
            names = dict(zip(sorted({t for t, _, _ in calls}), names))
            calls = [(names[t], name, a) for t, name, a in calls]
        if kind >= 2:
            self.draw.shuffle(calls)
        if kind == 3:
            calls = [(self.draw.choice(THREADS), name, a) for _, name, a in calls if self.draw.random() < 0.7]
        return self.history(calls, self.draw.random() < 0.6)

    def changed(self, lines):
        lines = list(lines)
        places = [i for i, line in enumerate(lines) if i and line not in ("end",)]
        at = self.draw.choice(places)
        line = lines[at]
        found = CALL.fullmatch(line)
        kind = self.draw.randrange(9)
        if not found or kind == 0:
            if kind % 3 == 0 and not line.startswith("cells"):
                lines[at] = re.sub(r"-?\d+$", lambda m: str(int(m.group()) ^ 1), line)
            elif kind % 3 == 1:
                del lines[at]
            else:
                lines.insert(at, line)
            return lines
        words = {g: found.group(g) for g in range(1, 7)}
        number = 2 if kind < 3 or not words[3] else 3
        if kind in (1, 2, 3, 4):
            words[number] = str(max(0, int(words[number]) + self.draw.choice([-1, 1, 2, 2**40])))
        elif kind == 5:
            words[1] = str(self.draw.choice([*THREADS, 2**32, 2**32 + 1, 2**63 - 1]))
        elif kind == 6:
            words[4] = self.draw.choice([*self.program.sections, *self.program.helpers, "no_such", words[4] + "_"])
        elif kind == 7:
            values = words[5].split(", ") if words[5] else []
            pools = [f"{pool}[{self.draw.choice([0, 1, length])}]" for pool, (_, length) in self.program.pools.items()]
            other = self.draw.choice(["0", "7", "-9223372036854775808", "null", "no_such[0]", *pools])
            place = self.draw.randint(0, len(values))
            values[place : place + self.draw.randint(0, 1)] = [other][: self.draw.randint(0, 1) or place == len(values)]
            words[5] = ", ".join(values)
        else:
            words[6] = self.draw.choice(["ends", "returns 0", "returns null", "traps 1", "traps 4"])
        begun = f"{words[3]} " if words[3] is not None else ""
        lines[at] = f"call {words[1]} {words[2]} {begun}{words[4]}({words[5]}) {words[6]}"
        return lines


class Checker:
    def __init__(self, program):
        self.program, self.folder, self.passed = program, tempfile.mkdtemp(), 0

    def run(self, *words):
        return subprocess.run([self.program, *words], capture_output=True, text=True, timeout=60)

    def compare(self, path, tree, lines):
        wanted = Reader(tree, lines).judge()
        file = os.path.join(self.folder, "history")
        with open(file, "w") as out:
            out.write("".join(line + "\n" for line in lines))
        done = self.run("replay", "--open", "--why", path, file)
        if done.returncode == 6:
            return
        status = 0 if wanted == "same\n" else 5
        if (done.returncode, done.stdout, done.stderr) != (status, wanted, ""):
            print(f"{path}\n" + "\n".join(lines) + f"\nwanted {status}: {wanted}\nfound {done.returncode}: {done.stdout}{done.stderr}")
            sys.exit(1)
        self.passed += 1


def check_file(checker, path, draw, count):
    serial = checker.run("serial", path)
    if serial.returncode != 0:
        return
    lines = serial.stdout.splitlines()
    calls = [CALL.fullmatch(line) for line in lines if line.startswith("call ")]
    if len(calls) > MOST_CALLS:
        return
    with open(path) as source:
        tree = Parser(source.read()).program()
    try:
        checker.compare(path, tree, lines)
        checker.compare(path, tree, checker.run("run", path).stdout.splitlines())
        maker = Maker(tree, [(int(c.group(1)), c.group(4), c.group(5)) for c in calls], draw)
        for _ in range(count):
            history = maker.drawn()
            checker.compare(path, tree, history)
            checker.compare(path, tree, maker.changed(history))
    except Unsettled:
        return


def main():
    parser = argparse.ArgumentParser()
    parser.add_argument("program")
    parser.add_argument("--seed", type=int, default=1)
    parser.add_argument("--count", type=int, default=10)
    parser.add_argument("files", nargs="+")
    words = parser.parse_args()
    checker = Checker(os.path.abspath(words.program))
    for path in words.files:
        check_file(checker, path, random.Random(f"{words.seed} {os.path.basename(path)}"), words.count)
    print(f"{checker.passed} histories, seed {words.seed}: ok")


if __name__ == "__main__":
    main()
