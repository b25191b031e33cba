#!/usr/bin/env bash
# Runs loops of integer arithmetic, of array elements, of globals, of field walks and of references from a pool and an
# array, and calls of a one-line section on 10 and on 262,144 cells, beside the same in Lua 5.4 and CPython. Rounds are
# interleaved; the least time of each is printed, in milliseconds, and in nanoseconds a call. Needs lua5.4 and python3.
#
#     bench/meaning/run.sh [ROUNDS]
set -euo pipefail
rounds=${1:-7}
here=$(cd "$(dirname "$0")" && pwd)
program=${BENCH_MEANING:-$("$here/../build.sh" meaning)}
python3 - "$program" "$here" "$rounds" <<'PYTHON'
import subprocess, sys
program, here, rounds = sys.argv[1], sys.argv[2], int(sys.argv[3])
LOOPS = ["arith", "array", "globals", "fields", "references"]
CALLS = ["small", "large"]
COUNT = 2_000_000
def once(words):
    return int(subprocess.run(words, capture_output=True, text=True, check=True).stdout.split()[1])
times = {}
for _ in range(rounds):
    for name in LOOPS + CALLS:
        count = str(COUNT if name in CALLS else 1)
        for who, words in (("run_whole", [program]), ("lua", ["lua5.4", f"{here}/work.lua"]), ("python", ["python3", f"{here}/work.py"])):
            times.setdefault((name, who), []).append(once(words + [name, count]))
least = {key: min(all_of) for key, all_of in times.items()}
print(f"{'':10} {'run_whole':>10} {'lua':>8} {'python':>8} {'of lua':>7} {'of python':>9}")
for name in LOOPS + CALLS:
    a, b, c = (least[name, who] for who in ("run_whole", "lua", "python"))
    scale, unit = (1000 / COUNT, "ns a call") if name in CALLS else (1 / 1000, "ms")
    print(f"{name:10} {a * scale:10.1f} {b * scale:8.1f} {c * scale:8.1f} {a / b:7.2f} {a / c:9.2f}  {unit}")
PYTHON
