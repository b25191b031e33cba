#!/usr/bin/env bash
# Compiles programs of about a MiB of several shapes, and prints for each the least time of five runs of `compile` alone, and the
# most memory that a run of one `compile` held, with its ratio to the source. Where clang is at hand, beside it the time and the memory of
# `clang -fsyntax-only`, process and all, on C of the same shape and size.
set -euo pipefail
here=$(cd "$(dirname "$0")" && pwd)
program=$("$here/../build.sh" compile)
texts=$(mktemp -d)
trap 'rm -rf "$texts"' EXIT
python3 - "$texts" <<'PYTHON'
import pathlib, sys
top = pathlib.Path(sys.argv[1])
SIZE = 1048000
def fill(head, line, tail):
    """As many lines as fit, each by its number."""
    lines, size, i = [], len(head) + len(tail), 0
    while size + len(line(i)) <= SIZE:
        lines.append(line(i)); size += len(lines[-1]); i += 1
    return head + "".join(lines) + tail
def write(name, text, c):
    assert len(text) <= 1048576 and len(c) <= 1200000, (name, len(text), len(c))
    (top / f"{name}.al").write_text(text); (top / f"{name}.c").write_text(c)
ONE = "lock G; global int n protected_by(G);\n"
C = "long long n;\n"
write("one_long_sum", fill(ONE + "atomic f() {\nn = n", lambda i: "+n", ";\n}\n"), fill(C + "void f(void) {\nn = n", lambda i: "+n", ";\n}\n"))
write("one_long_and", fill(ONE + "atomic f() {\nif (n > 0", lambda i: "&&n>0", ") { n = 1; }\n}\n"), fill(C + "void f(void) {\nif (n > 0", lambda i: "&&n>0", ") { n = 1; }\n}\n"))
write("one_long_or_of_ands", fill(ONE + "atomic f() {\nif (n > 0", lambda i: "||n>0&&n<9", ") { n = 1; }\n}\n"), fill(C + "void f(void) {\nif (n > 0", lambda i: "||n>0&&n<9", ") { n = 1; }\n}\n"))
write("assignments", fill(ONE + "atomic f() {\n", lambda i: "n=1;", "}\n"), fill(C + "void f(void) {\n", lambda i: "n=1;", "}\n"))
write("products", fill(ONE + "atomic f() {\n", lambda i: "n=n*n+n*n;", "}\n"), fill(C + "void f(void) {\n", lambda i: "n=n*n+n*n;", "}\n"))
write("parentheses_60_deep", fill(ONE + "atomic f() {\n", lambda i: "n=" + "(" * 60 + "n" + ")" * 60 + ";\n", "}\n"), fill(C + "void f(void) {\n", lambda i: "n=" + "(" * 60 + "n" + ")" * 60 + ";\n", "}\n"))
write("sums_of_products", fill(ONE + "atomic f(int a, int b) {\n", lambda i: "n = n + a * b - 2 * a;\n", "}\n"), fill(C + "void f(long long a, long long b) {\n", lambda i: "n = n + a * b - 2 * a;\n", "}\n"))
DEEP = "while (n > 0) { " * 60
write("blocks_60_deep", fill(ONE + "atomic f() {\n" + DEEP, lambda i: "n = n + 1;\n", "} " * 60 + "}\n"), fill(C + "void f(void) {\n" + DEEP, lambda i: "n = n + 1;\n", "} " * 60 + "}\n"))
write("branches", fill(ONE + "atomic f(int a) {\n", lambda i: "if (n > a) { n = 1; } else { n = 2; }\n", "}\n"), fill(C + "void f(long long a) {\n", lambda i: "if (n > a) { n = 1; } else { n = 2; }\n", "}\n"))
S = "struct S { lock l; int x protected_by(l); final ref S next; }\npool S p[2];\ninit p[0].next = p[1]; init p[1].next = p[0];\n"
CS = "struct S { long long x; struct S *next; };\n"
write("fields_along_finals", fill(S + "atomic f(ref S a) {\n", lambda i: "a.next.x = a.x + 1;\n", "}\n"), fill(CS + "void f(struct S *a) {\n", lambda i: "a->next->x = a->x + 1;\n", "}\n"))
G = "".join(f"lock G{i}; global int n{i} protected_by(G{i}); " for i in range(64)) + "\n"
CG = "".join(f"long long n{i}; " for i in range(64)) + "\n"
step = lambda i: f"n{i % 64} = n{i * 7 % 64} + 1;\n"
write("64_lock_paths", fill(G + "atomic f() {\n", step, "}\n"), fill(CG + "void f(void) {\n", step, "}\n"))
write("20_000_branches_of_64_lock_paths", fill(G + "atomic f() {\n", lambda i: f"if (n{i % 64} > 0) {{ n{i * 7 % 64} = 1; }}\n", "}\n"), fill(CG + "void f(void) {\n", lambda i: f"if (n{i % 64} > 0) {{ n{i * 7 % 64} = 1; }}\n", "}\n"))
H = "".join(f"lock H{i}; global int m{i} protected_by(H{i}); " for i in range(128)) + "\n"
CH = "".join(f"long long m{i}; " for i in range(128)) + "\n"
inner = lambda k: "".join(f"m{(k + i) % 64 + k % 65} = m{(k + i * 7) % 64 + k % 65} + 1;\n" for i in range(266))
write("128_classes_256_sections", H + "".join(f"atomic f{k}() {{\n{inner(k)}}}\n" for k in range(256)), CH + "".join(f"void f{k}(void) {{\n{inner(k)}}}\n" for k in range(256)))
write("names", fill("lock G;\n", lambda i: f"global int g{i} protected_by(G);\n", "atomic f() { g0 = 1; }\n"), fill("", lambda i: f"long long g{i}; /* protected by G */\n", "void f(void) { g0 = 1; }\n"))
write("inits", fill("struct S { lock l; int x protected_by(l); }\npool S p[65536];\n", lambda i: f"init p[{i}].x = {i};\n" if i < 65536 else " ", "atomic f(ref S a) { a.x = 1; }\n"), fill("struct S { long long x; } p[65536] = {\n", lambda i: f"[{i}] = {{ .x = {i} }},\n" if i < 65536 else " ", "};\n"))
write("100_000_calls", fill("atomic f(int k) { }\nthread t {\n", lambda i: "f(7);\n" if i < 100000 else " ", "}\n"), fill("void f(long long k) { }\nvoid t(void) {\n", lambda i: "f(7);\n" if i < 100000 else " ", "}\n"))
write("one_comment", ONE + "atomic f() { n = 1; }\n//" + "x" * 1040000 + "\n", C + "void f(void) { n = 1; }\n//" + "x" * 1040000 + "\n")
PYTHON
for text in $(ls -v "$texts" | sed -n 's/\.al$//p'); do
  printf '%-34s ' "$text"
  bytes=$(stat -c %s "$texts/$text.al")
  kib=$(/usr/bin/time -f '%M' "$program" "$texts/$text.al" once 2>&1 | tail -n 1)
  printf '%s, %s KiB, %s times the source' "$("$program" "$texts/$text.al")" "$kib" "$((kib * 1024 / bytes))"
  if command -v clang >/dev/null; then
    line=$(timeout 60 /usr/bin/time -f '; clang %e s, %M KiB' clang -w -fsyntax-only -fbracket-depth=100000 "$texts/$text.c" 2>&1 | tail -n 1 || true)
    case $line in "; clang"*) echo "$line" ;; *) echo "; clang: no answer within 60 s" ;; esac
  else
    echo
  fi
done
