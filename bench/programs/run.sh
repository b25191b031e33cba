#!/usr/bin/env bash
# Runs the programs of this folder by `autolock serial`, by Lua 5.4 and by CPython, each as a whole
# process, in interleaved rounds; prints the least wall time of each in milliseconds and the ratios.
# Each of the three must give the same number. Needs lua5.4 and python3.
#
#     bench/programs/run.sh [ROUNDS]
set -euo pipefail
rounds=${1:-7}
here=$(cd "$(dirname "$0")" && pwd)
top=$(cd "$here/../.." && pwd)
program=${AUTOLOCK:-}
if [ -z "$program" ]; then
  "$top/autolock" --help >/dev/null
  program=$top/crates/autolock/out/autolock
fi
python3 - "$program" "$here" "$rounds" <<'PYTHON'
import re, subprocess, sys, time
program, here, rounds = sys.argv[1], sys.argv[2], int(sys.argv[3])
NAMES = ["arithmetic", "sum", "sort", "walk", "sieve", "divisors", "tree", "ring", "matrix", "scan", "calls", "gcd", "hash", "queue"]
WORDS = {
    "serial": lambda name: [program, "serial", "--turns", "1000000000", f"{here}/{name}.al"],
    "lua": lambda name: ["lua5.4", f"{here}/{name}.lua"],
    "python": lambda name: ["python3", f"{here}/{name}.py"],
}
least = {}
for _ in range(rounds):
    for name in NAMES:
        given = set()
        for who, words in WORDS.items():
            before = time.perf_counter()
            out = subprocess.run(words(name), capture_output=True, text=True, check=True).stdout
            took = time.perf_counter() - before
            least[name, who] = min(took, least.get((name, who), took))
            given.add(re.findall(r"returns (\S+)", out)[-1] if who == "serial" else out.split()[-1])
        if len(given) != 1:
            sys.exit(f"{name}: different answers {given}")
print(f"{'':12} {'serial':>8} {'lua':>8} {'python':>8} {'of lua':>7} {'of python':>9}")
for name in NAMES:
    a, b, c = (least[name, who] * 1000 for who in WORDS)
    print(f"{name:12} {a:8.0f} {b:8.0f} {c:8.0f} {a / b:7.2f} {a / c:9.2f}  ms")
PYTHON
