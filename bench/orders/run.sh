#!/usr/bin/env bash
# States and time of `outcomes` and of spin on the same models: threads whose calls each are one atomic step.
#
# - own: 12 threads of 3 deposits, each into an account of its own; spin once with the accounts as global variables, which its
#   partial-order reduction keeps apart from nothing, and once as variables of the processes.
# - pairs: 12 threads of 2 calls, each two of which have an account in common, where the order of their calls matters.
# - shared: 4 threads of 3 deposits into one account, where no order can be left out.
# - 4x4: 4 threads of 4 calls on 1, 2 and 4 accounts, where the order of most calls matters: 63,063,000 orders.
#
# Prints of each the states and the least time of the rounds, or of one run if it takes more than ten seconds; one that takes
# more than a minute is given up. spin's time is that of `pan`, which is made before. Needs python3, spin and gcc.
#
#     bench/orders/run.sh [ROUNDS]
set -euo pipefail
rounds=${1:-5}
top=$(cd "$(dirname "$0")/../.." && pwd)
program=${AUTOLOCK:-$top/crates/autolock/out/autolock}
work=$(mktemp -d)
trap 'rm -rf "$work"' EXIT
python3 - "$program" "$work" "$rounds" <<'PYTHON'
import os, re, subprocess, sys, time
program, work, rounds = sys.argv[1], sys.argv[2], int(sys.argv[3])
# The seconds after which a run is given up.
LIMIT = 60


def timed(words, folder):
    least = None
    for _ in range(rounds):
        before = time.perf_counter()
        try:
            done = subprocess.run(words, cwd=folder, capture_output=True, text=True, timeout=LIMIT)
        except subprocess.TimeoutExpired:
            return None, LIMIT
        took = time.perf_counter() - before
        if done.returncode:
            sys.exit(f"{words}: status {done.returncode}: {done.stderr}")
        least = took if least is None else min(least, took)
        if took > 10:
            break
    return done.stdout, least


def own_source(name, pool, threads):
    text = f"struct A {{ lock l; int v protected_by(l); }}\npool A acc[{pool}];\n"
    text += "atomic put(ref A a, int k) { a.v = a.v + k; }\natomic twice(ref A a, int k) { a.v = 2 * a.v + k; }\n"
    for number, calls in enumerate(threads):
        text += f"thread t{number} {{ {' '.join(f'{section}(acc[{account}], {k});' for section, account, k in calls)} }}\n"
    with open(f"{work}/{name}.al", "w") as file:
        file.write(text)
    return f"{work}/{name}.al"


def model(name, pool, threads, local=False):
    text = "" if local else "".join(f"int acc{account};\n" for account in range(pool))
    for number, calls in enumerate(threads):
        text += f"active proctype t{number}() {{\n"
        if local:
            text += f"  int acc{calls[0][1]};\n"
        for section, account, k in calls:
            before = "" if section == "put" else "2 * "
            text += f"  atomic {{ acc{account} = {before}acc{account} + {k} }};\n"
        text += "}\n"
    folder = f"{work}/{name}"
    os.mkdir(folder)
    with open(f"{folder}/model.pml", "w") as file:
        file.write(text)
    subprocess.run(["spin", "-a", "model.pml"], cwd=folder, check=True, capture_output=True)
    subprocess.run(["gcc", "-O2", "-DSAFETY", "-DMEMLIM=8192", "-o", "pan", "pan.c"], cwd=folder, check=True, capture_output=True)
    out, took = timed(["./pan", "-m100000"], folder)
    if out is None:
        return f"not ended after {LIMIT} s"
    states = re.search(r"(\d+) states, stored", out).group(1)
    return f"{states} states, {took * 1e3:.1f} ms"


def compare(name, pool, threads, local=False, most=100000):
    out, took = timed([program, "outcomes", "--count", str(most), own_source(name, pool, threads)], work)
    lines = out.splitlines()
    print(f"{name}: outcomes {lines[0]}, {lines[1]}, {sum(line.startswith('outcome ') for line in lines)} ends, {took * 1e3:.1f} ms")
    print(f"{name}: spin {model(name, pool, threads)}")
    if local:
        print(f"{name}: spin, variables of the processes, {model(f'{name}-local', pool, threads, True)}")


compare("own", 12, [[("put", t, k) for k in (1, 2, 3)] for t in range(12)], True)
compare("pairs", 6, [[("put" if t % 2 else "twice", t // 2, k) for k in (1, 2)] for t in range(12)])
compare("shared", 1, [[("put", 0, 1 + 4 * t + k) for k in range(3)] for t in range(4)])
calls = [[("twice" if (t + k) % 2 else "put", k, 1 + 4 * t + k) for k in range(4)] for t in range(4)]
for pool in (1, 2, 4):
    threads = [[(section, (t * account) % pool, k) for section, account, k in calls[t]] for t in range(4)]
    compare(f"4x4, accounts {pool}", pool, threads, most=100000000)
PYTHON
