#!/usr/bin/env python3
"""Judges what `autolock explain` advises on faulty programs as a new user writes them.

    advice.py PROGRAM

Each text of FAULTY stands in a program at the place that its kind says, and the words beside it must stand in a note. For
those of SILENT nothing may be advised: there is no note but the one that begins with `expected`. Of the whole texts of OTHERS the
code and the words of a note are beside them; None where there may be none. The last line is `N passed, M failed`.
"""
import os
import subprocess
import sys
import tempfile

HEAD = """lock G;
global int n protected_by(G);
global int xs[4] protected_by(G);
struct Acc { lock l; int balance protected_by(l); ref Acc next protected_by(l); }
pool Acc acc[3];
call h(int k) : int { return k + 1; }
"""

KINDS = {
    "body": HEAD + "atomic f(int i, ref Acc a) { TEXT }\nthread t { f(1, acc[0]); }\n",
    "result": HEAD + "atomic f(int i) : int { TEXT }\nthread t { f(1); }\n",
    "top": HEAD + "TEXT\natomic f(int i) { n = i; }\nthread t { f(1); }\n",
    "struct": HEAD + "struct S { lock l; TEXT }\nthread t { }\n",
    "thread": HEAD + "atomic f(int i) { n = i; }\nthread t { TEXT }\n",
    "all": "TEXT",
}

SEMICOLON = "a `;` may be missing after this"

FAULTY = [
    ("body", "do { n = 1; } while (n > 0);", "there is no `do`"),
    ("body", "switch (n) { }", "there is no `switch`"),
    ("top", "void g() { }", "a section is declared by `atomic g(..) { .. }`, a helper by `call g(..) { .. }`"),
    ("body", "if (n = 0) { n = 1; }", "two values are compared by `==`"),
    ("top", "atomic g() { n = 1; } }", "this `}` closes nothing"),
    ("body", "n = 1.5;", "numbers are whole"),
    ("top", "call g(ref Acc a) lock(Acc.l) { a.balance = 1; }", "a helper's locks are those of what calls it"),
    ("top", "call g() : int lock(Acc.l) { return 1; }", "a helper's locks are those of what calls it"),
    ("body", "n = 0x10;", "decimal digits alone"),
    ("top", "pool Acc more;", "a pool says how many objects it has: `pool Acc more[1];`"),
    ("body", "lock (a.l); n = 1;", "the compiler takes the locks"),
    ("body", "acc[i].balance = 1;", "bind the object first: `let m: ref S = acc[i];` with its struct for S, and then `m.balance`"),
    ("body", "acc[i + 1].balance = 1;", "bind the object first: `let m: ref S = ..;`"),
    ("body", "n = acc[1].balance;", "`let m: ref S = acc[1];`"),
    ("body", "n = (a).balance;", "bind the object first"),
    ("body", "h(1);", "a helper is called by `call h(..);`, or by `let y: int = call h(..);`"),
    ("body", "n = h(3);", "or by `let y: int = call h(..);`"),
    ("body", "for (n = 0; n < 3; n = n + 1) { }", "there is no `for`: write `while (..) { .. }`"),
    ("body", "while (n < 3) { break; }", "there is no `break`"),
    ("body", "while (n < 3) { continue; }", "there is no `continue`"),
    ("body", "n += 1;", "there is no `+=`: write `n = n + ..;`"),
    ("body", "n -= i;", "there is no `-=`: write `n = n - ..;`"),
    ("body", "n *= 2;", "there is no `*=`: write `n = n * ..;`"),
    ("body", "a.balance += 1;", "there is no `+=`: write `a.balance = a.balance + ..;`"),
    ("body", "xs[i] += 1;", "there is no `+=`: write the place on both sides of an `=`"),
    ("body", "n++;", "there is no `++`: write `n = n + 1;`"),
    ("body", "n--;", "there is no `--`: write `n = n - 1;`"),
    ("body", "a.balance++;", "there is no `++`: write `a.balance = a.balance + 1;`"),
    ("body", "xs[i]++;", "there is no `++`"),
    ("body", "++n;", "there is no `++`"),
    ("body", "let y: int = n++;", "there is no `++`: write `x = x + 1;`"),
    ("body", "let y: int = n--;", "there is no `--`: write `x = x - 1;`"),
    ("body", "if (n == 0) { n = 1; } else if (n == 1) { n = 2; }", "write `else { if (..) { .. } }`"),
    ("body", "if (n == 0) { n = 1; } else n = 2;", "what follows `else` is put between `{` and `}`"),
    ("body", "if (n == 0) n = 1;", "what an `if` or a `while` guards is put between `{` and `}`"),
    ("body", "while (n == 0) print n;", "what an `if` or a `while` guards is put between `{` and `}`"),
    ("body", "/* words */ n = 1;", "a comment begins with `//`, and goes to the end of the line"),
    ("body", "n = 1 /* one */;", "a comment begins with `//`"),
    ("top", "/* words */", "a comment begins with `//`"),
    ("body", "bool b = true;", "there is no `bool`"),
    ("body", "let b: bool = n == 1;", "there is no `bool`"),
    ("top", "global bool b protected_by(G);", "there is no `bool`"),
    ("top", "global int b protected_by(G) = true;", "there is no `true`: take an `int`, and write 1 for it"),
    ("top", "global int b protected_by(G) = false;", "there is no `false`: take an `int`, and write 0 for it"),
    ("body", "let x = 3;", "a local is declared with its type: `let x: int = ..;`"),
    ("body", "var x = 3;", "a local is declared with its type: `var x: int = ..;`"),
    ("body", "var x: int;", "a local begins with a value: `var x: int = 0;`"),
    ("body", "int x = 3;", "a local is declared by `let x: int = ..;`, or by `var x: int = ..;` if it is assigned to"),
    ("body", "let int x = 3;", "the name comes first: `let x: int = ..;`"),
    ("body", "ref Acc x = acc[0];", "a reference is bound by `let n: ref Acc = ..;`"),
    ("body", "Acc x = acc[0];", "a local is declared by `let x: int = ..;`, or `let x: ref Acc = ..;`"),
    ("body", "if n == 0 { n = 1; }", "a condition stands in parentheses: `if (..) { .. }`"),
    ("body", "while n { n = 1; }", "a condition stands in parentheses: `while (..) { .. }`"),
    ("body", "n = 1; return;", "leave it out: a section without a result ends where its body does"),
    ("top", "int g() { return 1; }", "a section is declared by `atomic g(..) : int { .. }`"),
    ("top", "atomic int g() { return 1; }", "the type of a result follows the parameters: `atomic f(..) : int { .. }`"),
    ("top", "call int g() { return 1; }", "the type of a result follows the parameters: `call f(..) : int { .. }`"),
    ("top", "atomic g(k: int) { n = k; }", "a parameter begins with its type: `int k`"),
    ("top", "atomic g(int j, k: int) { n = k; }", "a parameter begins with its type: `int k`"),
    ("top", "int x = 3;", "data by `global int x protected_by(..);`"),
    ("top", "global Acc b;", "objects are declared by a pool: `pool Acc b[1];`"),
    ("top", "lock ls[4];", "there are no arrays of locks"),
    ("struct", "int a[4] protected_by(l);", "a struct has no arrays"),
    ("struct", "lock ls[4];", "there are no arrays of locks"),
    ("body", "print n, i;", "`print` prints one value: write `print n;`"),
    ("body", "var x: int = 0; x = call h(1);", "bind the result first: `let y: int = call h(..);`"),
    ("body", "var x: int = call h(1);", "bind the result first"),
    ("body", "print call h(1);", "bind the result first: `let y: int = call h(..);`"),
    ("result", "return call h(1);", "bind the result first: `let y: int = call h(..);`"),
    ("body", "let x: ref Acc = new Acc;", "there is no `new`: the objects of Acc are those of its pools"),
    ("body", "a->balance = 1;", "write `a.` for `a->`"),
    ("body", "n = a->balance;", "write `a.` for `a->`"),
    ("body", "var x: ref Acc = a where next == i;", "only a `let` has a `where`"),
    ("body", "let x: ref Acc = a where next != i;", "a `where` has two names: `where next == ..`"),
    ("body", "let x: ref Acc = a where a.next == i;", "a `where` has two names"),
    ("body", "let x: ref Acc = a where next == a.next;", "bind `a.next` by a `let` first"),
    ("body", "if (i < n < 3) { n = 1; }", "comparisons are not chained: write `i < n && n < 3`"),
    ("body", "if (i == n == 1) { n = 1; }", "comparisons are not chained: write `i == n && n == 1`"),
    ("body", "if (!!(n == 1)) { n = 1; }", "write `!(!..)`"),
    ("body", "n = - - 1;", "write `-(-..)`"),
    ("body", "n = i << 1;", "there are no shifts: multiply by a power of two"),
    ("body", "n = i >> 1;", "there are no shifts: divide by a power of two"),
    ("body", "n = 1 let y: int = n;", SEMICOLON),
    ("body", "let y: int = n print y;", SEMICOLON),
    ("body", "n = xs[1] }", SEMICOLON),
    ("body", "n = 1\nn = 2;", SEMICOLON),
    ("body", "print n", SEMICOLON),
    ("body", "call h(1) n = 2;", SEMICOLON),
    ("top", "lock L", SEMICOLON),
    ("top", "global int m protected_by(G)", SEMICOLON),
    ("top", "pool Acc more[4]", SEMICOLON),
    ("struct", "int x protected_by(l) int y protected_by(l);", SEMICOLON),
    ("struct", "int x protected_by(l)", SEMICOLON),
    ("thread", "f(1) f(2);", SEMICOLON),
    ("thread", "f(1)", SEMICOLON),
    ("top", "struct S { lock l; };", "leave this `;` out"),
    ("body", "n = 1;;", "leave this `;` out"),
    ("body", "n;", "a name alone is not a statement: write `n = ..;`"),
    ("body", "if (n == 0) { n = 1;", "this `{` is not closed"),
    ("all", "lock G;\nglobal int n protected_by(G);\natomic f() {\n  n = 1;\natomic g() { n = 2; }\n", "this `{` is not closed"),
    ("all", "lock G;\natomic f() {\n  if (1 == 1) {\n", "this `{` is not closed"),
    ("all", "struct S {\n  lock l;\nthread t { }\n", "this `{` is not closed"),
    ("body", "n = (i + 1;", "this `(` is not closed"),
    ("body", "if (n == 0 { n = 1; }", "this `(` is not closed"),
    ("top", "atomc g() { n = 1; }", "`atomic` could be meant"),
    ("top", "thraed u { }", "`thread` could be meant"),
    ("top", "strcut S { lock l; }", "`struct` could be meant"),
    ("top", "globl int m protected_by(G);", "`global` could be meant"),
    ("top", "lokc L;", "`lock` could be meant"),
    ("top", "global int m protectd_by(G);", "`protected_by` could be meant"),
    ("top", "global itn m protected_by(G);", "`int` could be meant"),
    ("struct", "fnal ref Acc a;", "`final` could be meant"),
    ("struct", "rfe Acc a protected_by(l);", "`ref` could be meant"),
    ("body", "lte x: int = 3;", "`let` could be meant"),
    ("body", "vra x: int = 3;", "`var` could be meant"),
    ("body", "prnt n;", "`print` could be meant"),
    ("result", "retrun 1;", "`return` could be meant"),
    ("body", "whlie (n < 3) { n = 1; }", "`while` could be meant"),
    ("body", "fi (n < 3) { n = 1; }", "`if` could be meant"),
    ("body", "if (n < 3) { n = 1; } esle { n = 2; }", "`else` could be meant"),
    ("body", "clal h(1);", "`call` could be meant"),
    ("body", "let x: ref Acc = a wehre next == a;", "`where` could be meant"),
    ("thread", "repaet 3 { f(1); }", "`repeat` could be meant"),
    ("result", "retrun;", "`return` could be meant"),
    ("result", "retrun -1;", "`return` could be meant"),
    ("result", "return_ (i);", "`return` could be meant"),
    ("body", "printf(n);", "`print` could be meant"),
    ("body", "let y: int = cal h(3);", "`call` could be meant"),
    ("body", "let y: itn = 3;", "`int` could be meant"),
    ("top", "atomic g() : itn { return 1; }", "`int` could be meant"),
    ("top", "atomic g(ref Acc b) : rfe Acc { return b; }", "`ref` could be meant"),
    ("top", "global ref Acc m protected_by(G) = nul;", "`null` could be meant"),
    ("top", "init acc[0].next = nulll;", "`null` could be meant"),
    ("thread", "f(1, Null);", "`null` could be meant"),
]

SILENT = [
    ("body", "let x int = 3;"),
    ("body", "n = ;"),
    ("body", "n = 1 2;"),
    ("body", "n = * 2;"),
    ("body", "let : int = 3;"),
    ("body", "let x: int 3;"),
    ("body", "n = 1 + * 2;"),
    ("body", "if () { n = 1; }"),
    ("body", "xs[] = 1;"),
    ("body", "a. = 1;"),
    ("body", "print;"),
    ("body", "call (1);"),
    ("body", "n = i = 1;"),
    ("body", "n = i ! 1;"),
    ("top", "pool acc[3];"),
    ("top", "lock;"),
    ("top", "global int [3] protected_by(G);"),
    ("top", "atomic g { n = 1; }"),
    ("top", "thread { f(1); }"),
    ("struct", "int protected_by(l);"),
    ("thread", "f(n + 1);"),
    ("thread", "repeat { f(1); }"),
]


MARK = "the file begins with a byte order mark: save it as ASCII or UTF-8 without one"
TABLE = b"lock G;\nstruct Table { int x protected_by(G); }\nglobal ref %s t protected_by(G);\nthread t1 { }\n"
HEADED = b"lock G;\nstruct S { lock l; int x protected_by(l); }\nglobal ref S head protected_by(G);\natomic f(ref S a) { %s }\n"
LOCAL = b"lock G;\nglobal int n protected_by(G);\natomic f(int count) { n = %s; }\n"

# A walk, by a helper or by another that calls it.
WALKED = b"""struct Node { lock l; int v protected_by(l); ref Node next protected_by(l); }
pool Node node[4];
call walk(ref Node n) : int { let m: ref Node = n.next; return m.v; }
call twice(ref Node n) : int { let x: int = call walk(n); return x; }
call plain(ref Node n) : int { return n.v; }
atomic first(ref Node n) : int { %s return y; }
thread t { first(node[0]); }
"""

# By which calls of helpers a section gets to the edge of a cycle.
CALLS = [
    (b"let y: int = call walk(n);", ["that use comes by this call of walk", "that binding comes by this call of walk"]),
    (b"let y: int = call twice(n);", ["that use comes by this call of twice", "that binding comes by this call of twice"]),
    (b"let y: int = call plain(n); let z: int = call walk(n);", ["that use comes by this call of plain", "that binding comes by this call of walk"]),
    (b"let m: ref Node = n.next; let y: int = call plain(m);", []),
    (b"let m: ref Node = n.next; let y: int = m.v;", []),
]

OTHERS = [
    (b"\xef\xbb\xbflock G;\n", "E01", MARK),
    (b"\xfe\xff\x00l\x00o\x00c\x00k", "E01", MARK),
    (b"\xff\xfel\x00o\x00c\x00k\x00", "E01", MARK),
    (b"\xef\xbblock G;\n", "E01", None),
    (b"lock G;\n\xef\xbb\xbf", "E01", None),
    (b"", "accepted", None),
    (TABLE % b"Tabel", "E06", "Table could be meant, and is declared here"),
    (TABLE % b"Talbe", "E06", "Table could be meant, and is declared here"),
    (TABLE % b"Tab", "E06", None),
    (LOCAL % b"conut", "E06", "count could be meant, and is declared here"),
    (LOCAL % b"cnout", "E06", None),
    (LOCAL % b"m", "E06", None),
    (LOCAL % b"nn", "E06", "n could be meant, and is declared here"),
    (HEADED % b"head = nul;", "E06", "`null` could be meant"),
    (HEADED % b"if (head == Null) { head = a; }", "E06", "`null` could be meant"),
    (HEADED % b"let b: ref S = head; nul = b;", "E06", None),
    (HEADED % b"print nul.x;", "E06", None),
    (HEADED % b"print a.nul;", "E06", None),
    (HEADED % b"let b: ref nulll = head;", "E06", None),
    (HEADED % b"let nuil: ref S = head; head = nuill;", "E06", "nuil could be meant, and is declared here"),
    (HEADED % b"head = nil;", "E06", None),
]


def explained(program, folder, text):
    """The code of the fault of a text, and its notes."""
    with open(os.path.join(folder, "text.al"), "wb") as file:
        file.write(text)
    ended = subprocess.run([program, "explain", "text.al"], cwd=folder, capture_output=True, timeout=60, check=False)
    lines = ended.stdout.decode("ascii").splitlines()
    code = next((word for word in lines[0].split(" ") if word[0] == "E" or word == "accepted"), None) if lines else None
    return code, [line.split("note: ", 1)[1] for line in lines if "note: " in line]


def main():
    program = os.path.abspath(sys.argv[1])
    passed, failed = 0, 0
    with tempfile.TemporaryDirectory() as folder:
        for kind, text, words in [*FAULTY, *((kind, text, None) for kind, text in SILENT)]:
            code, notes = explained(program, folder, KINDS[kind].replace("TEXT", text).encode("ascii"))
            advice = [note for note in notes if not note.startswith("expected ")]
            if words is None:
                is_right = code == "E03" and not advice
            else:
                is_right = code == "E03" and len(advice) == 1 and notes[0] == advice[0] and words in advice[0]
            passed, failed = passed + is_right, failed + (not is_right)
            if not is_right:
                print(f"FAILED {kind}: {text!r}: {code}, advised {advice}, wanted {words!r}")
        for text, wanted, words in OTHERS:
            code, notes = explained(program, folder, text)
            is_right = code == wanted and (not notes if words is None else notes == [words])
            passed, failed = passed + is_right, failed + (not is_right)
            if not is_right:
                print(f"FAILED {text!r}: {code}, notes {notes}, wanted {wanted}, {words!r}")
        for text, calls in CALLS:
            code, notes = explained(program, folder, WALKED % text)
            told = [note.removeprefix("in first: ") for note in notes if "by this call of" in note]
            is_right = (code, told) == ("E14", calls)
            passed, failed = passed + is_right, failed + (not is_right)
            if not is_right:
                print(f"FAILED {text!r}: {code}, notes {notes}")
    print(f"{passed} passed, {failed} failed")
    return failed > 0


if __name__ == "__main__":
    sys.exit(main())
