#!/usr/bin/env bash
# Finds the lock paths, the points, the ranks and the lists of large programs of several kinds, and prints for each the
# least time of five runs of each pass alone, and the most memory that the program held (tokens, tree and all answers).
set -euo pipefail
here=$(cd "$(dirname "$0")" && pwd)
program=$("$here/../build.sh" analysis)
texts=$(mktemp -d)
trap 'rm -rf "$texts"' EXIT
python3 - "$texts" <<'PYTHON'
import pathlib, sys
top = pathlib.Path(sys.argv[1])
def write(name, *parts):
    (top / name).write_text("".join(parts))
GLOBALS = "".join(f"lock G{i}; global int n{i} protected_by(G{i}); " for i in range(64)) + "\n"
def steps(count):
    return "".join(f"n{i % 64} = n{i * 7 % 64} + 1;\n" for i in range(count))
write("50000_points_64_paths", GLOBALS, "atomic f() {\n", steps(50000), "}\n")
write("60_loops_1000_points_64_paths", GLOBALS, "atomic f() {\n", "while (n1 > 0) { " * 60, steps(1000), "} " * 60, "}\n")
write("20000_branches_64_paths", GLOBALS, "atomic f() {\n", "".join(f"if (n{i % 64} > 0) {{ n{i * 7 % 64} = 1; }}\n" for i in range(20000)), "}\n")
# Each `let` names an object of a struct of its own, so that the locks have an order.
STRUCTS = "lock G;\nstruct S { lock l; int x protected_by(l); }\npool S p[2];\n" + "".join(f"struct T{i} {{ lock m; int x protected_by(m); }} global ref T{i} r{i} protected_by(G);\n" for i in range(60))
write("60_lets_50000_points", STRUCTS, "atomic f(ref S a) {\n", "".join(f"if (a.x > 0) {{ let b{i}: ref T{i} = r{i}; b{i}.x = 1; }}\n" if i < 60 else "a.x = a.x + 1;\n" for i in range(50000)), "}\n")
write("256_sections_64_paths", GLOBALS, "".join(f"atomic f{k}() {{\n{steps(220)}}}\n" for k in range(256)))
# 128 classes, 256 sections with 64 paths each, about a MiB.
CLASSES = "".join(f"lock H{i}; global int m{i} protected_by(H{i}); " for i in range(128)) + "\n"
write("128_classes_256_sections_64_paths", CLASSES, "".join(f"atomic f{k}() {{\n" + "".join(f"m{(k + i) % 64 + k % 65} = m{(k + i * 7) % 64 + k % 65} + 1;\n" for i in range(266)) + "}\n" for k in range(256)))
PYTHON
for text in $(ls -v "$texts"); do
  printf '%-32s ' "$text"
  /usr/bin/time -f '%M KiB' "$program" "$texts/$text" 2>&1 | paste -sd' '
done
