#!/bin/sh
# Times `replay` of what `serial` wrote beside `serial` itself: 100,000 calls of a one-line section, and of a section with a
# loop and prints. Prints wall time and peak memory of both, of the best of five runs, and their ratios.
set -u

top=$(cd -- "$(dirname -- "$0")/../.." && pwd -P)
program=$(realpath -- "${1:-$top/crates/autolock/out/autolock}")
work=$(mktemp -d)
trap 'rm -rf "$work"' EXIT

{
    echo 'lock G; global int n protected_by(G);'
    echo 'atomic inc() { n = n + 1; }'
    echo 'thread t { repeat 100000 { inc(); } }'
} >"$work/calls.al"
{
    echo 'lock G; global int n protected_by(G);'
    echo 'atomic count(int k) : int { var i: int = 0; while (i < k) { i = i + 1; n = n + i; print n; } return n; }'
    echo 'thread t { repeat 20000 { count(10); } }'
} >"$work/prints.al"

for name in calls prints; do
    python3 - "$program" "$work/$name" <<'PYTHON'
import os, subprocess, sys, time

program, name = sys.argv[1:]


def best_of(words, out):
    best = None
    for _ in range(5):
        with open(out, "wb") as file:
            before = time.perf_counter()
            child = subprocess.Popen([program, *words], stdout=file)
            _, status, usage = os.wait4(child.pid, 0)
            wall = time.perf_counter() - before
        if status != 0:
            sys.exit(f"{words}: status {os.waitstatus_to_exitcode(status)}")
        if best is None or wall < best[0]:
            best = (wall, usage.ru_maxrss / 1024)
    return best


serial = best_of(["serial", f"{name}.al"], f"{name}.history")
replay = best_of(["replay", f"{name}.al", f"{name}.history"], f"{name}.verdict")
with open(f"{name}.verdict", encoding="ascii") as file:
    verdict = file.read().strip()
print(
    f"{os.path.basename(name)}: {os.path.getsize(name + '.history')} bytes of history, {verdict}: serial {serial[0]:.3f} s"
    f" {serial[1]:.1f} MiB, replay {replay[0]:.3f} s {replay[1]:.1f} MiB;"
    f" ratios {replay[0] / serial[0]:.2f} and {replay[1] / serial[1]:.2f}"
)
PYTHON
done
