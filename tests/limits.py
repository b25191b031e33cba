#!/usr/bin/env python3
"""Each limit of the language, and one past it, over a built program.

    tests/limits.py BIN

The limits are read from crates/source/src/limits.rt. Each needs a case here: files of any size, of which the program must take
those at the limit, and answer those one past it with a line about the limit. A limit without a case fails, and so does a case
that no limit has.

The last line is 'N passed, M failed'; the status is 1 where M is not 0.
"""
import pathlib
import re
import subprocess
import sys
import tempfile

TOP = pathlib.Path(__file__).resolve().parent.parent
LOCKED = "lock G; global int n protected_by(G);\n"
SECTION = LOCKED + "atomic f() { n = n + 1; }\n"
CALLED = SECTION + "thread t { f(); }\n"
TWO_LOCALS = "let y: int = 0; let z: int = 0;"


def padded(text, size):
    """A text of a size, by blanks at its end."""
    return text + " " * (size - len(text))


def lines(form, count):
    """A text with a line for each number."""
    return "".join(form.format(k) + "\n" for k in range(count))


def helpers_of_depth(depth):
    """Helpers each of which calls the one before it, and a section that calls the last."""
    deeper = (f"call h{k}() {{ call h{k - 1}(); }}\n" for k in range(2, depth + 1))
    return LOCKED + "call h1() { n = n + 1; }\n" + "".join(deeper) + f"atomic f() {{ call h{depth}(); }}\n"


def brought_locals(count):
    """A section with two locals of its own, and a helper that brings the others."""
    return LOCKED + f"call h() {{\n{lines('let x{}: int = 0;', count - 2)}n = 1; }}\natomic f() {{ {TWO_LOCALS} call h(); }}\n"


def brought_points(count):
    """Helpers each of which brings 16 times the points of the one before it, and a section that calls them."""
    helpers, calls, size, left = "call h0() { n = 1; }\n", [], 1, count
    for k in range(1, 5):
        size *= 16
        helpers += f"call h{k}() {{ {f'call h{k - 1}(); ' * 16}}}\n"
    for k in range(4, -1, -1):
        calls += [f"call h{k}();\n"] * (left // size)
        left, size = left % size, size // 16
    return LOCKED + helpers + "atomic f() {\n" + "".join(calls) + "}\n"


def lock_paths(count):
    """A section that uses that many lock paths, each by its own line."""
    fields = [f"f{k}" for k in range(9)]
    bases = ["a", *(f"a.{one}" for one in fields), *(f"a.{one}.{two}" for one in fields for two in fields)]
    members = " ".join(f"final ref N {field};" for field in fields)
    uses = "".join(f"{base}.x = 1;\n" for base in bases[:count])
    return f"struct N {{ lock l; int x protected_by(l); {members} }}\natomic f(ref N a) {{\n{uses}}}\n"


class Case:
    """A command line over files of a size, with what is written one past the limit."""

    def __init__(self, source, answer, command="check F", status=1, other=None):
        self.source, self.answer, self.command, self.status, self.other = source, answer, command, status, other

    def run(self, program, size):
        """What the program writes, both streams together, and its status."""
        with tempfile.TemporaryDirectory() as room:
            (pathlib.Path(room) / "F").write_text(self.source(size))
            if self.other:
                (pathlib.Path(room) / "T").write_text(self.other(size))
            done = subprocess.run([program, *self.command.split()], cwd=room, capture_output=True, text=True, timeout=300)
            return done.stdout + done.stderr, done.returncode


def refused(source, place):
    """A case of a fault with a place."""
    return Case(source, lambda size: f"F:{place(size) if callable(place) else place}: E15 limit exceeded\n")


def always(source):
    return lambda size: source


CASES = {
    "SOURCE_LIMIT": [refused(lambda n: padded(SECTION, n), "1:1")],
    "LINE_LIMIT": [
        Case(always(CALLED), lambda n: "T:2: H4 line too long\n", "replay F T", 6, lambda n: f"history 1\n{padded('x', n)}\n")
    ],
    "NAME_LIMIT": [refused(lambda n: f"lock {'x' * n};\n", "1:6")],
    "NESTING_LIMIT": [
        Case(
            lambda n: f"{LOCKED}atomic f() {{ n = {'(' * (n - 1)}1{')' * (n - 1)}; }}\n",
            lambda n: f"F:2:{n + 16}: E04 nested too deep\n",
        )
    ],
    "STRUCT_LIMIT": [refused(lambda n: lines("struct S{} {{ lock x; }}", n), lambda n: f"{n}:8")],
    "MEMBER_LIMIT": [refused(lambda n: f"struct S {{\n{lines('lock x{};', n)}}}\n", lambda n: f"{n + 1}:6")],
    "FINAL_LIMIT": [refused(lambda n: f"struct S {{ lock l; final ref S f; int x protected_by({'f.' * n}l); }}\n", "1:54")],
    "CLASS_LIMIT": [refused(lambda n: lines("lock x{};", n), lambda n: f"{n}:6")],
    "OBJECT_LIMIT": [refused(lambda n: f"struct S {{ lock l; }}\npool S p[{n - 1}];\npool S q[1];\n", "3:8")],
    "CELL_LIMIT": [refused(lambda n: f"{LOCKED}global int a[{n - 2}] protected_by(G);\nglobal int b protected_by(G);\n", "3:12")],
    "SECTION_LIMIT": [
        refused(lambda n: LOCKED + lines("atomic f{}() {{ n = 1; }}", n), lambda n: f"{n + 1}:8"),
        refused(lambda n: SECTION + lines("call f{}() {{ n = 1; }}", n - 1), lambda n: f"{n + 1}:6"),
    ],
    "THREAD_LIMIT": [refused(lambda n: SECTION + lines("thread t{} {{ f(); }}", n), lambda n: f"{n + 2}:8")],
    "CALL_LIMIT": [refused(lambda n: SECTION + f"thread t {{ repeat {n - 1} {{ f(); }} }}\nthread u {{ f(); }}\n", "4:8")],
    "PARAMETER_LIMIT": [
        refused(
            lambda n: LOCKED + "atomic f(" + ",\n".join(f"int x{k}" for k in range(n)) + ") { n = 1; }\n",
            lambda n: f"{n + 1}:5",
        )
    ],
    "LOCAL_LIMIT": [
        refused(lambda n: f"{LOCKED}atomic f() {{\n{lines('let x{}: int = 0;', n)}n = 1; }}\n", lambda n: f"{n + 2}:5"),
        refused(brought_locals, lambda n: f"{n + 2}:51"),
    ],
    "POINT_LIMIT": [refused(brought_points, lambda n: f"{brought_points(n).count(chr(10)) - 1}:6")],
    "DEPTH_LIMIT": [refused(helpers_of_depth, lambda n: f"{n + 1}:6")],
    "PATH_LIMIT": [refused(lock_paths, lambda n: f"{n + 2}:1")],
    "PRINT_LIMIT": [
        Case(
            lambda n: f"{LOCKED}atomic f() {{ var i: int = 0; while (i < {n}) {{ print i; i = i + 1; }} }}\nthread t {{ f(); }}\n",
            lambda n: "call 0 0 f() traps 6\n",
            "serial F",
            0,
        )
    ],
    "STEP_LIMIT": [Case(always(CALLED), lambda n: "T:1:1: S3 too many steps\n", "simulate F T", 6, lambda n: f"t*{n}\n")],
}


def failures(program, case, limit):
    """What is wrong with the answers at the limit and one past it."""
    at, _ = case.run(program, limit)
    text = case.answer(limit).split(": ")[-1]
    if text in at:
        yield f"{text!r} at the limit: {at[-200:]!r}"
    past, status = case.run(program, limit + 1)
    if case.answer(limit + 1) not in past or status != case.status:
        yield f"past the limit: status {status} and {past[-200:]!r}, not {case.answer(limit + 1)!r}"


def main():
    if len(sys.argv) != 2:
        print(__doc__)
        return 2
    program = pathlib.Path(sys.argv[1]).resolve()
    text = (TOP / "crates/source/src/limits.rt").read_text()
    limits = {name: int(size.replace("_", "")) for name, size in re.findall(r"pub const (\w+): \w+ = ([\d_]+);", text)}
    passed = failed = 0
    for name in sorted({*limits, *CASES}):
        if name not in limits or name not in CASES:
            found = ["no case" if name in limits else "no limit"]
        else:
            found = [why for case in CASES[name] for why in failures(program, case, limits[name])]
        passed, failed = passed + (not found), failed + bool(found)
        for why in found:
            print(f"FAILED {name}: {why}")
    print(f"{passed} passed, {failed} failed")
    return 1 if failed else 0


if __name__ == "__main__":
    sys.exit(main())
