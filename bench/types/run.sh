#!/usr/bin/env bash
# Judges the names and types of large programs of several kinds, and prints for each the least time of
# five runs of `check` alone, and the most memory that the program held (tokens, tree and all answers).
set -euo pipefail
here=$(cd "$(dirname "$0")" && pwd)
program=$("$here/../build.sh" types)
texts=$(mktemp -d)
trap 'rm -rf "$texts"' EXIT
python3 - "$texts" <<'PYTHON'
import pathlib, sys
top = pathlib.Path(sys.argv[1])
def write(name, *parts):
    (top / name).write_text("".join(parts))
def globals_of(count):
    return "lock G;\n" + "".join(f"global int g{i} protected_by(G);\n" for i in range(count))
def looked_up(names, times):
    sums = ("+".join(f"g{(line * 50 + i) * 7919 % names}" for i in range(50)) for line in range(times // 50))
    return "atomic f() {\n" + "".join(f"print {s};\n" for s in sums) + "}\n"
for names, times in ((2500, 25000), (5000, 50000), (10000, 100000)):
    write(f"{names}_names_{times}_uses", globals_of(names), looked_up(names, times))
for objects in (16384, 65536):
    write(f"{4 * objects}_cells_of_a_pool", "struct S { lock l; " + "".join(f"int {c} protected_by(l); " for c in "abcd") + "}\n" + f"pool S p[{objects}];\n")
write("262144_cells_of_an_array", "lock G;\nglobal int a[262144] protected_by(G);\n")
for calls in (25000, 100000):
    write(f"{calls}_calls_written", "atomic f(int k) { }\nthread t {\n", "f(7);\n" * calls, "}\n")
write("100000_calls_by_repeat", "atomic f(int k) { }\nthread t { repeat 100 { repeat 1000 { f(7); } } }\n")
for inits in (10000, 40000):
    write(f"{inits}_inits", "struct S { lock l; int x protected_by(l); }\n", f"pool S p[{inits}];\n", "".join(f"init p[{i}].x = {i};\n" for i in range(inits)))
write("32768_final_references", "struct S { lock l; final ref S next; }\npool S p[32768];\n", "".join(f"init p[{i}].next = p[{(i + 1) % 32768}];\n" for i in range(32768)))
write("64_structs_8000_pools", "".join(f"struct S{s} {{ lock l; " + "".join(f"int x{m} protected_by(l); " for m in range(31)) + "}\n" for s in range(64)), "".join(f"pool S{p % 64} p{p}[1];\n" for p in range(8000)))
for statements in (20000, 80000):
    write(f"{statements}_statements", "atomic f(int a) {\nvar x: int = 0;\n", "x = x + a;\n" * statements, "}\n")
PYTHON
for text in $(ls -v "$texts"); do
  printf '%-28s ' "$text"
  /usr/bin/time -f '%M KiB' "$program" "$texts/$text" 2>&1 | paste -sd' '
done
