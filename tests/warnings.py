#!/usr/bin/env python3
"""The warnings that `explain` gives of accepted programs: each kind with its place, programs that must have none, all examples, and
what a large program costs.

    warnings.py PROGRAM [EARLIER]    the program's path, and that of a program without warnings, to compare what `explain` costs
"""
import glob
import json
import os
import subprocess
import sys
import tempfile
import time

sys.dont_write_bytecode = True
TOP = os.path.dirname(os.path.dirname(os.path.abspath(__file__)))
STUCK = "nothing in this loop changes its condition: once entered, it ends only by a trap"

# a program, and its warnings: line, column and words of each
WARNED = [
    ("lock that protects nothing", "lock G;\nlock H;\nglobal int n protected_by(G);\n", [(2, 6, "H protects nothing")]),
    ("lock field that protects nothing", "struct S { lock l; lock m; int x protected_by(m); }\n", [(1, 17, "l protects nothing")]),
    ("lock field that another struct's field ends at",
     "struct A { lock l; lock m; }\nstruct B { final ref A a; int x protected_by(a.l); }\n", [(1, 25, "m protects nothing")]),
    ("lock fields of one name", "struct A { lock l; int x protected_by(l); }\nstruct B { lock l; }\n", [(2, 17, "l protects nothing")]),
    ("let", "atomic f() {\n  let x: int = 1;\n}\n", [(2, 7, "x is never used")]),
    ("var that is assigned alone", "atomic f() {\n  var x: int = 1;\n  x = 2;\n}\n", [(2, 7, "x is never used")]),
    ("let with where, not read itself",
     "struct O { lock l; }\nstruct S { final ref O o; int v protected_by(o.l); }\n"
     "atomic f(ref O b, ref S s) {\n  let n: ref S = s where o == b;\n}\n", [(4, 7, "n is never used")]),
    ("let of a call", "call h(): int { return 1; }\natomic f() {\n  let y: int = call h();\n}\n", [(3, 7, "y is never used")]),
    ("local with the name of a field that is read",
     "struct S { lock l; int v protected_by(l); }\natomic f(ref S s) {\n  let v: int = 1;\n  print s.v;\n}\n",
     [(3, 7, "v is never used")]),
    ("locals in blocks, in the order of the text",
     "atomic f(int k) {\n  if (k > 0) { let a: int = 1; } else { let b: int = 2; }\n  let c: int = 3;\n}\n",
     [(2, 20, "a is never used"), (2, 45, "b is never used"), (3, 7, "c is never used")]),
    ("helper that nothing calls", "call h(int k) { print k; }\natomic f() { }\n", [(1, 6, "h is never called")]),
    ("section that no thread calls", "atomic f() { }\natomic g() { }\nthread t { repeat 2 { f(); } }\n", [(2, 8, "g is called by no thread")]),
    ("sections and an empty thread", "atomic f() { }\nthread t { }\n", [(1, 8, "f is called by no thread")]),
    ("loop on a parameter", "atomic f(int k) {\n  while (k > 0) { print k; }\n}\n", [(2, 3, STUCK)]),
    ("loop on a cell that nothing in it writes",
     "lock G;\nglobal int n protected_by(G);\natomic f() {\n  while (n == 0) { }\n}\n", [(4, 3, STUCK)]),
    ("loop on locals that calls a helper",
     "lock G;\nglobal int n protected_by(G);\ncall h() { n = 1; }\natomic f(int k) {\n  while (k > 0) { call h(); }\n}\n", [(5, 3, STUCK)]),
    ("loop in a loop", "atomic f(int k) {\n  var i: int = 0;\n  while (i < 3) {\n    while (k > i) { print k; }\n    i = i + 1;\n  }\n}\n",
     [(4, 5, STUCK)]),
    ("loop that assigns another field",
     "struct S { lock l; int a protected_by(l); int b protected_by(l); }\n"
     "atomic f(ref S s, ref S t) {\n  while (s.a > 0) { t.b = 0; }\n}\n", [(3, 3, STUCK)]),
    ("class that nothing in the section needs",
     "struct S { lock l; int v protected_by(l); }\nstruct T { lock m; int w protected_by(m); }\n"
     "atomic f(ref S s) lock(T.m, S.l) {\n  print s.v;\n}\n",
     [(3, 24, "T.m is listed here, and no access of the section needs it")]),
    ("class that a section needs by a helper alone, and one that another section needs",
     "struct S { lock l; int v protected_by(l); }\ncall h(ref S s) { s.v = 1; }\natomic f(ref S s) lock(S.l) { call h(s); }\n"
     "atomic g(ref S s) lock(S.l) { print 1; }\natomic k(ref S s) { print s.v; }\n",
     [(4, 24, "S.l is listed here, and no access of the section needs it")]),
    ("all kinds, in the order of the text",
     "thread t { }\nlock G;\natomic f(int k) {\n  let x: int = 1;\n  while (k == 0) { }\n}\ncall h() { }\n",
     [(2, 6, "G protects nothing"), (3, 8, "f is called by no thread"), (4, 7, "x is never used"), (5, 3, STUCK), (7, 6, "h is never called")]),
]

UNWARNED = [
    ("nothing", ""),
    ("section for C", "lock G;\nglobal int n protected_by(G);\natomic f(int k) { n = k; }\n"),
    ("parameter that is not used", "atomic f(int k) { }\n"),
    ("local behind where", "struct O { lock l; }\nstruct S { final ref O o; int v protected_by(o.l); }\n"
     "atomic f(ref S s, ref S q) { let b: ref O = q.o; let n: ref S = s where o == b; n.v = 1; }\n"),
    ("local that is the base of an assignment", "struct S { lock l; int v protected_by(l); }\npool S p[1];\natomic f() { let s: ref S = p[0]; s.v = 1; }\n"),
    ("local in an index that is assigned at", "lock G;\nglobal int a[3] protected_by(G);\natomic f() { let i: int = 1; a[i] = 2; }\n"),
    ("local that is passed", "call h(int k) { print k; }\natomic f() { let x: int = 1; call h(x + 1); }\n"),
    ("loop that counts", "atomic f(int k) { var i: int = 0; while (i < k) { i = i + 1; } }\n"),
    ("loop that counts in a branch", "atomic f(int k) { var i: int = 0; while (i < k) { if (k > 3) { i = i + 2; } else { i = i + 1; } } }\n"),
    ("loop along a list", "struct N { lock l; int v protected_by(l); }\nlock G;\nglobal ref N n protected_by(G);\n"
     "atomic f() { while (n != null) { n = null; } }\n"),
    ("loop on a cell with a helper", "lock G;\nglobal int n protected_by(G);\ncall h() { n = 1; }\natomic f() { while (n == 0) { call h(); } }\n"),
    ("loop on an element", "lock G;\nglobal int a[3] protected_by(G);\natomic f() { while (a[0] < 3) { a[1] = 1; } }\n"),
    ("helper that a helper calls", "call g() { }\ncall h() { call g(); }\natomic f() { call h(); }\nthread t { f(); }\n"),
]

passed = failed = 0


def judge(is_right, name, found=""):
    global passed, failed
    if is_right:
        passed += 1
    else:
        failed += 1
        print(f"FAILED {name}: {found}")


def explain(program, path, *words):
    return subprocess.run([program, "explain", *words, path], capture_output=True, text=True)


def warnings_in_text(text):
    """Line, column and words of each warning, and the line of the source that is shown."""
    lines = text.splitlines()
    found = []
    for i, line in enumerate(lines):
        if ": warning: " in line:
            place, words = line.split(": warning: ", 1)
            _, row, column = place.rsplit(":", 2)
            shown = lines[i + 2] if i + 2 < len(lines) else ""
            found.append((int(row), int(column), words, shown.endswith("^")))
    return found


def judge_program(program, name, text, wanted, folder):
    path = os.path.join(folder, "p.al")
    with open(path, "w") as file:
        file.write(text)
    told = explain(program, path)
    found = warnings_in_text(told.stdout)
    judge(told.returncode == 0 and told.stdout.startswith("accepted\n"), name + ": accepted", told.stdout)
    judge([w[:3] for w in found] == wanted and all(w[3] for w in found), name, found)
    object_ = json.loads(explain(program, path, "--json").stdout)
    in_json = [(w["start"]["line"], w["start"]["column"], w["text"]) for w in object_["warnings"]]
    judge(in_json == wanted and list(object_) == sorted(object_), name + ": JSON", object_)


def large():
    """A program of about a MiB: 256 sections with 60 locals each, and loops in loops."""
    parts = ["lock G;\nglobal int n protected_by(G);\n"]
    for s in range(256):
        parts.append(f"atomic section_{s}(int k) {{\n")
        for v in range(60):
            parts.append(f"  let local_{s}_{v}: int = k + {v};\n")
        parts.append("  var i: int = 0;\n  while (i < k) {\n")
        parts.extend(f"    n = n + local_{s}_{v} * local_{s}_{v + 1};\n" for v in range(0, 50))
        parts.append("    i = i + 1;\n  }\n}\n")
    return "".join(parts)


def least_time(program, path):
    times = []
    for _ in range(3):
        begin = time.monotonic()
        explain(program, path)
        times.append(time.monotonic() - begin)
    return min(times)


def judge_cost(program, earlier, folder):
    path = os.path.join(folder, "large.al")
    text = large()
    with open(path, "w") as file:
        file.write(text)
    spent = least_time(program, path)
    print(f"a program of {len(text)} bytes: {spent:.2f} s")
    found = explain(program, path)
    judge(found.stdout.count("is never used") == 256 * 9, "large: locals", found.stdout.count("is never used"))
    if earlier:
        before = least_time(earlier, path)
        print(f"before: {before:.2f} s")
        judge(spent <= 1.3 * before, "large: cost", f"{spent:.2f} s against {before:.2f} s")


def judge_examples(program):
    for path in sorted(glob.glob(os.path.join(TOP, "examples", "*.al"))):
        told = explain(program, path)
        if told.returncode == 0:
            for row, column, words, _ in warnings_in_text(told.stdout):
                print(f"{os.path.basename(path)}:{row}:{column}: {words}")
        judge(told.returncode in (0, 1), path, told.returncode)


def main():
    program = os.path.abspath(sys.argv[1])
    earlier = os.path.abspath(sys.argv[2]) if len(sys.argv) > 2 else None
    with tempfile.TemporaryDirectory() as folder:
        for name, text, wanted in WARNED:
            judge_program(program, name, text, wanted, folder)
        for name, text in UNWARNED:
            judge_program(program, name, text, [], folder)
        judge_cost(program, earlier, folder)
    judge_examples(program)
    print(f"{passed} passed, {failed} failed")
    sys.exit(1 if failed else 0)


if __name__ == "__main__":
    main()
