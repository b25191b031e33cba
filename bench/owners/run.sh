#!/usr/bin/env bash
# A walk round a list of 1,000 nodes with an owner, 5,000,000 steps, by `autolock serial`: with `where owner == k` at each
# step and all under the owner's lock, and without it, under a global lock. Interleaved rounds; prints the least wall time
# of each in milliseconds and the ratio.
#
#     bench/owners/run.sh [ROUNDS]
set -euo pipefail
rounds=${1:-7}
top=$(cd "$(dirname "$0")/../.." && pwd)
program=${AUTOLOCK:-}
if [ -z "$program" ]; then
  "$top/autolock" --build
  program=$top/crates/autolock/out/autolock
fi
python3 - "$program" "$rounds" <<'PYTHON'
import os, re, subprocess, sys, tempfile, time

program, rounds = sys.argv[1], int(sys.argv[2])
WALK = """lock G;
struct Owner {{ lock l; }}
struct Node {{
  final ref Owner owner;
  int value protected_by({lock});
  ref Node next protected_by({lock});
}}
pool Owner all[1];
pool Node node[1000];
{owners}
atomic run(ref Owner k, int steps) : int {{
  var i: int = 0;
  var at: ref Node = node[0];
  while (i < 1000) {{
    let n: ref Node = node[i]{where};
    n.value = i;
    n.next = node[(i + 1) % 1000];
    i = i + 1;
  }}
  var s: int = 0;
  i = 0;
  while (i < steps) {{
    let m: ref Node = at{where};
    s = s + m.value;
    at = m.next;
    i = i + 1;
  }}
  return s;
}}
thread t {{ run(all[0], 5000000); }}
"""
OWNERS = "\n".join(f"init node[{i}].owner = all[0];" for i in range(1000))
least, answers = {}, set()
with tempfile.TemporaryDirectory() as room:
    for name, lock, where in ("with", "owner.l", " where owner == k"), ("without", "G", ""):
        with open(f"{room}/{name}.al", "w") as file:
            file.write(WALK.format(lock=lock, where=where, owners=OWNERS))
    for _ in range(rounds):
        for name in "with", "without":
            before = time.perf_counter()
            words = [program, "serial", "--turns", "1000000000", f"{room}/{name}.al"]
            out = subprocess.run(words, capture_output=True, text=True, check=True).stdout
            took = time.perf_counter() - before
            least[name] = min(took, least.get(name, took))
            answers.add(re.search(r"returns (\S+)", out).group(1))
if len(answers) != 1:
    sys.exit(f"different answers {answers}")
a, b = least["with"] * 1000, least["without"] * 1000
print(f"with {a:.0f} ms, without {b:.0f} ms, ratio {a / b:.2f}")
PYTHON
