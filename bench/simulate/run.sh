#!/usr/bin/env bash
# Times `simulate` over 10,000,000 steps of 100,000 calls of a section that counts in a loop under one lock: all of
# one thread at once, and of two threads in turn; `serial` runs the same calls beside. Then the memory for 25,000 to
# 100,000 finished sections of one line, and 300 and 3,300 sections that write an element of an array, of 10 cells and of
# 262,144. Prints the least wall time of the rounds, and peak memory. Needs python3.
#
#     bench/simulate/run.sh [ROUNDS]
set -euo pipefail
rounds=${1:-5}
top=$(cd "$(dirname "$0")/../.." && pwd)
program=${AUTOLOCK:-}
if [ -z "$program" ]; then
  "$top/autolock" --help >/dev/null
  program=$top/crates/autolock/out/autolock
fi
work=$(mktemp -d)
trap 'rm -rf "$work"' EXIT
python3 - "$program" "$work" "$rounds" <<'PYTHON'
import os, subprocess, sys, time
program, work, rounds = sys.argv[1], sys.argv[2], int(sys.argv[3])

# A run's peak counts what this process had when it started it, so no large text is made here.
def write(name, text, times=1):
    with open(f"{work}/{name}", "w") as file:
        for _ in range(times):
            file.write(text)
    return f"{work}/{name}"

def run(words):
    least = peak = None
    for _ in range(rounds):
        with open(f"{work}/out", "wb") as out:
            before = time.perf_counter()
            child = subprocess.Popen([program, *words], stdout=out)
            _, status, usage = os.wait4(child.pid, 0)
            took = time.perf_counter() - before
        if status != 0:
            sys.exit(f"{words}: status {os.waitstatus_to_exitcode(status)}")
        least = took if least is None else min(least, took)
        peak = usage.ru_maxrss
    return least, peak / 1024

HEAD = "lock G; global int n protected_by(G);\n"
COUNT = "atomic count(int k) { var i: int = 0; while (i < k) { n = n + 1; i = i + 1; } }\n"
INC = "atomic inc() { n = n + 1; }\n"
one = write("one.al", HEAD + COUNT + "thread t { repeat 100000 { count(6); } }\n")
two = write("two.al", HEAD + COUNT + "thread t { repeat 50000 { count(6); } }\nthread u { repeat 50000 { count(6); } }\n")
at_once = write("at_once.steps", "0*10000000\n")
in_turn = write("in_turn.steps", "0 1\n" * 1000, 5000)
for name, words in [
    ("one thread, 0*10000000", ["simulate", one, at_once]),
    ("one thread, serial", ["serial", one]),
    ("two threads in turn, 0 1 0 1 ..", ["simulate", two, in_turn]),
    ("two threads, serial", ["serial", two]),
]:
    took, peak = run(words)
    print(f"{name:34} {took:7.3f} s {peak:8.1f} MiB")
for calls in (25000, 50000, 100000):
    source = write("inc.al", HEAD + INC + f"thread t {{ repeat {calls} {{ inc(); }} }}\n")
    took, peak = run(["simulate", source, at_once])
    print(f"{calls:7} finished sections {' ':10} {took:7.3f} s {peak:8.1f} MiB")
for cells in (10, 262144):
    for calls in (300, 3300):
        source = write("array.al", f"lock G; global int a[{cells}] protected_by(G);\n"
                       "atomic put(int i) { a[i] = 1; }\n" + f"thread t {{ repeat {calls} {{ put(1); }} }}\n")
        took, peak = run(["simulate", source, at_once])
        print(f"{calls:7} sections, {cells:7} cells {' ':6} {took:7.4f} s {peak:8.1f} MiB")
PYTHON
