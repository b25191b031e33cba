#!/bin/sh
# Times `serial` with its output in a file: 100,000 calls of a one-line section, and a source of
# nearly 1 MiB through the whole engine. Prints wall time, processor time and peak memory.
set -u

top=$(cd -- "$(dirname -- "$0")/../.." && pwd -P)
program=${AUTOLOCK:-}
if [ -z "$program" ]; then
  "$top/autolock" --build || exit 1
  program=$top/crates/autolock/out/autolock
fi
work=$(mktemp -d)
trap 'rm -rf "$work"' EXIT

{
    echo 'lock G; global int n protected_by(G);'
    echo 'atomic inc() { n = n + 1; }'
    echo 'thread t {'
    yes 'inc();' | head -n 100000
    echo '}'
} >"$work/calls.al"

awk 'BEGIN {
    print "lock G; global int n protected_by(G);"
    for (s = 0; s < 200; s++) {
        printf "atomic section_%d(int k) {\n", s
        for (i = 0; i < 140; i++) print "  n = (n + k * 3 - 7) / 2 % 1000003;"
        print "}"
    }
    print "thread t {"
    for (s = 0; s < 200; s++) printf "  section_%d(%d);\n", s, s
    print "}"
}' >"$work/source.al"

for name in calls source; do
    echo "$name: $(wc -c <"$work/$name.al") bytes of source"
    python3 - "$program" "$work/$name.al" "$work/$name.out" <<'PYTHON'
import os, resource, subprocess, sys, time

program, source, out = sys.argv[1:]
best = None
for _ in range(5):
    with open(out, "wb") as file:
        before = time.perf_counter()
        child = subprocess.Popen([program, "serial", source], stdout=file)
        _, status, usage = os.wait4(child.pid, 0)
        wall = time.perf_counter() - before
    if status != 0:
        sys.exit(f"status {os.waitstatus_to_exitcode(status)}")
    if best is None or wall < best[0]:
        best = (wall, usage.ru_utime + usage.ru_stime, usage.ru_maxrss)
wall, cpu, peak = best
print(f"  wall {wall:.3f} s, processor {cpu:.3f} s, peak {peak / 1024:.1f} MiB, output {os.path.getsize(out)} bytes")
PYTHON
done
