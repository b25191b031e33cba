#!/usr/bin/env bash
# Loops of 5,000,000 turns by `autolock serial`, once with a helper called at each turn and once with its line written in
# its place: a helper that prints and writes nothing but a global, one with two arguments and a result, and one that calls
# another. And 100,000 calls of a section without a loop that calls a helper, beside the same with the line. Interleaved
# rounds; prints the least wall time of each in milliseconds and the ratio.
#
#     bench/helpers/run.sh [ROUNDS]
set -euo pipefail
rounds=${1:-7}
top=$(cd "$(dirname "$0")/../.." && pwd)
program=${AUTOLOCK:-}
if [ -z "$program" ]; then
  "$top/autolock" --build
  program=$top/crates/autolock/out/autolock
fi
python3 - "$program" "$rounds" <<'PYTHON'
import re, subprocess, sys, tempfile, time

program, rounds = sys.argv[1], int(sys.argv[2])
HEAD = """lock G;
global int n protected_by(G);
global int m protected_by(G);
call add(int k) { n = n + k; }
call step(int a, int b) : int { return a + b * 3; }
call outer(int k) : int { let r: int = call step(k, 1); return r + 1; }
"""
LOOP = """atomic run(int turns) : int {{
  var i: int = 0;
  var s: int = 0;
  while (i < turns) {{
    {line}
    i = i + 1;
  }}
  return s + n;
}}
thread t {{ run(5000000); }}
"""
CALLS = """atomic run(int k) {{ {line} }}
thread t {{ repeat 100000 {{ run(2); }} }}
"""
PAIRS = {
    "a write": (LOOP, "call add(i);", "n = n + i;"),
    "a result": (LOOP, "let r: int = call step(s, i); s = r;", "let r: int = s + i * 3; s = r;"),
    "two deep": (LOOP, "let r: int = call outer(s); s = r;", "let q: int = s + 1 * 3; let r: int = q + 1; s = r;"),
    "no loop": (CALLS, "call add(k);", "n = n + k;"),
}
with tempfile.TemporaryDirectory() as room:
    least, answers = {}, {}
    for number, (name, (form, called, written)) in enumerate(PAIRS.items()):
        for which, line in ("called", called), ("written", written):
            with open(f"{room}/{number}{which}.al", "w") as file:
                file.write(HEAD + form.format(line=line))
    for _ in range(rounds):
        for number, name in enumerate(PAIRS):
            for which in "called", "written":
                before = time.perf_counter()
                words = [program, "serial", "--turns", "1000000000", f"{room}/{number}{which}.al"]
                out = subprocess.run(words, capture_output=True, text=True, check=True).stdout
                took = time.perf_counter() - before
                least[name, which] = min(took, least.get((name, which), took))
                answers.setdefault(name, set()).add(out)
    for name in PAIRS:
        if len(answers[name]) != 1:
            sys.exit(f"{name}: different answers")
        a, b = least[name, "called"] * 1000, least[name, "written"] * 1000
        print(f"{name}: called {a:.0f} ms, written {b:.0f} ms, ratio {a / b:.2f}")
PYTHON
