#!/usr/bin/env bash
# Transfers between two accounts by 1, 2 and 4 threads, on the same two accounts and on two for each thread: the scripts
# of a program by `run_threads`, and beside them C++ with a std::mutex round each account, locked in order, and with one
# round all; all keep a history. Prints for each the calls in a second, by the least of so many runs of each of ROUNDS
# rounds; and the growths of memory for each call of one thread in the long run, without those that compiling takes.
#
#     bench/workers/run.sh [ROUNDS]
set -euo pipefail
rounds=${1:-3}
here=$(cd "$(dirname "$0")" && pwd)
program=${BENCH_WORKERS:-$("$here/../build.sh" workers)}
work=$(mktemp -d)
trap 'rm -rf "$work"' EXIT
"${CXX:-g++}" -O2 -pthread -o "$work/mutex" "$here/mutex.cpp"
"${CC:-cc}" -O2 -shared -fPIC -o "$work/counting.so" "$here/../../tests/failing/failing.c" -ldl
python3 - "$program" "$work" "$rounds" <<'PYTHON'
import os, pathlib, subprocess, sys
program, work, rounds = sys.argv[1], pathlib.Path(sys.argv[2]), int(sys.argv[3])
CALLS, RUNS = 60000, 5
def text(threads, each, is_same):
    """As many threads, each with so many transfers between two accounts, every other one the other way."""
    said = f"""struct Acc {{ lock l; int bal protected_by(l); }}
pool Acc p[{2 if is_same else 2 * threads}];
atomic transfer(ref Acc a, ref Acc b, int k) : int {{ a.bal = a.bal - k; b.bal = b.bal + k; return b.bal; }}
"""
    for t in range(threads):
        base = 0 if is_same else 2 * t
        said += f"thread t{t} {{ repeat {each} {{ transfer(p[{base + t % 2}], p[{base + 1 - t % 2}], 1); }} }}\n"
    return said
def once(words, calls):
    said = subprocess.run([str(word) for word in words], capture_output=True, text=True, check=True).stdout.split()
    assert said[0] == str(calls), said
    return int(said[0]) * 1e6 / int(said[2])
SHAPES = [(1, True)] + [(threads, is_same) for threads in (2, 4) for is_same in (True, False)]
best = {}
for _ in range(rounds):
    for threads, is_same in SHAPES:
        path = work / f"{threads}_{is_same}.al"
        path.write_text(text(threads, CALLS // threads, is_same))
        where, each = "same" if is_same else "disjoint", CALLS // threads
        for who, words in (("workers", [program, path, RUNS]), ("ordered", [work / "mutex", "ordered", where, threads, each, RUNS]), ("global", [work / "mutex", "global", where, threads, each, RUNS])):
            best[threads, is_same, who] = max(best.get((threads, is_same, who), 0), once(words, CALLS))
print(f"{'calls a second':24} {'workers':>10} {'ordered mutexes':>16} {'one mutex':>12} {'of ordered':>11} {'of one':>7}")
for threads, is_same in SHAPES:
    mine, ordered, one = (best[threads, is_same, who] for who in ("workers", "ordered", "global"))
    name = f"{threads} thread{'s' * (threads > 1)}, {'the same locks' if is_same else 'disjoint locks'}"
    print(f"{name:24} {mine:10,.0f} {ordered:16,.0f} {one:12,.0f} {mine / ordered:11.2f} {mine / one:7.2f}")
def growths(calls, runs):
    path, counts = work / f"{calls}.al", work / "counts"
    path.write_text(text(1, calls, True))
    environment = dict(os.environ, LD_PRELOAD=str(work / "counting.so"), FAIL_COUNTS=str(counts))
    subprocess.run([program, path, str(runs)], env=environment, capture_output=True, check=True)
    return int(counts.read_text().split()[0])
# The program reads and compiles its file once, which takes a growth for each call of the script.
few, many = (growths(calls, 2) - growths(calls, 1) for calls in (10000, 20000))
print(f"growths of memory for each call: {(many - few) / 10000:.2f}")
PYTHON
