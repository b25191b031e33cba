#!/usr/bin/env bash
# What seeing costs: transfers between two accounts by one thread, by `run_threads` and by the same calls without a log
# (main.rattle here). Prints the calls in a second of each, by the least of so many runs of each of ROUNDS rounds, beside
# C++ with a std::mutex round each account, locked in order, and a history; and how many bytes more a call takes at the
# peak, its call in the compiled program among them.
#
#     bench/unseen/run.sh [ROUNDS]
set -euo pipefail
rounds=${1:-3}
here=$(cd "$(dirname "$0")" && pwd)
seen=${BENCH_WORKERS:-$("$here/../build.sh" workers)}
unseen=${BENCH_UNSEEN:-$("$here/../build.sh" unseen)}
work=$(mktemp -d)
trap 'rm -rf "$work"' EXIT
"${CXX:-g++}" -O2 -pthread -o "$work/mutex" "$here/../workers/mutex.cpp"
python3 - "$seen" "$unseen" "$work" "$rounds" <<'PYTHON'
import os, pathlib, subprocess, sys
seen, unseen, work, rounds = sys.argv[1], sys.argv[2], pathlib.Path(sys.argv[3]), int(sys.argv[4])
CALLS, RUNS = 60000, 5
# The peak that is told of a process is at least that of this script, some 15 MB, so few calls would tell nothing.
FEW, MANY = 50000, 100000
def text(calls):
    return f"""struct Acc {{ lock l; int bal protected_by(l); }}
pool Acc p[2];
atomic transfer(ref Acc a, ref Acc b, int k) : int {{ a.bal = a.bal - k; b.bal = b.bal + k; return b.bal; }}
thread t {{ repeat {calls} {{ transfer(p[0], p[1], 1); }} }}
"""
def once(words):
    said = subprocess.run([str(word) for word in words], capture_output=True, text=True, check=True).stdout.split()
    assert said[0] == str(CALLS), said
    return int(said[0]) * 1e6 / int(said[2])
def peak(program, calls):
    path = work / f"{calls}.al"
    path.write_text(text(calls))
    process = subprocess.Popen([program, path, "1"], stdout=subprocess.DEVNULL)
    return os.wait4(process.pid, 0)[2].ru_maxrss * 1024
path = work / "all.al"
path.write_text(text(CALLS))
runs = {"seen": [seen, path, RUNS], "unseen": [unseen, path, RUNS], "ordered": [work / "mutex", "ordered", "same", 1, CALLS, RUNS]}
best = {}
for _ in range(rounds):
    for who, words in runs.items():
        best[who] = max(best.get(who, 0), once(words))
print(f"calls a second: {best['seen']:,.0f} with seeing, {best['unseen']:,.0f} without, {best['ordered']:,.0f} of ordered mutexes")
print(f"with seeing takes {best['unseen'] / best['seen']:.2f} of the time without; "
      f"of ordered mutexes' {best['ordered'] / best['seen']:.2f} and {best['ordered'] / best['unseen']:.2f}")
more = {who: (peak(program, MANY) - peak(program, FEW)) / (MANY - FEW) for who, program in (("seen", seen), ("unseen", unseen))}
print(f"bytes a call: {more['seen']:.0f} with seeing, {more['unseen']:.0f} without, {more['seen'] / more['unseen']:.2f} times")
PYTHON
