#!/usr/bin/env bash
# Parses sources of 1 MiB of several kinds, and prints for each the least time of five runs and the
# most memory that the program held.
set -euo pipefail
here=$(cd "$(dirname "$0")" && pwd)
program=$("$here/../build.sh" parser)
texts=$(mktemp -d)
trap 'rm -rf "$texts"' EXIT
python3 - "$texts" <<'PYTHON'
import pathlib, sys
top = pathlib.Path(sys.argv[1])
SIZE = 1 << 20
def fill(name, head, piece, tail):
    count = (SIZE - len(head) - len(tail)) // len(piece)
    (top / name).write_text(head + piece * count + tail)
fill("one_long_sum", "atomic f() { print 1", " + 1", "; }\n")
fill("parentheses_60_deep", "atomic f() { ", "print " + "(" * 60 + "1" + ")" * 60 + "; ", "}\n")
fill("100000_statements", "atomic f() { ", "x = 1234; ", "}\n")
sections = []
for i in range(200):
    head, piece, tail = f"atomic f{i:03}(int a): int {{ ", "print a * 2 - 1; ", "return a; }\n"
    sections.append(head + piece * ((SIZE // 200 - len(head) - len(tail)) // len(piece)) + tail)
(top / "200_sections").write_text("".join(sections))
fill("300000_operands", "atomic f() { print a", "&&a", "; }\n")
(top / "10000_sections").write_text("".join(f"atomic f{i:05}(int a): int {{ print a; if (a == 1) {{ x[a] = a.b; }} var y: int = a * 2; return y; }}\n" for i in range(10000)))
fill("one_init_a_line", "", "init p[1].x = 7;\n", "")
deep = "while (a) { " * 62 + "} " * 62
fill("blocks_to_the_bound", "atomic f() { ", deep, "}\n")
fill("names_and_places", "atomic f() { ", "a[b] = c.d.e + f; ", "}\n")
PYTHON
for text in "$texts"/*; do
  printf '%-22s ' "$(basename "$text")"
  /usr/bin/time -f '%M KiB' "$program" "$text" 2>&1 | paste -sd' '
done
