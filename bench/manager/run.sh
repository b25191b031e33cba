#!/usr/bin/env bash
# Sections on one thread by the lock manager: begin, two requests, two writes, release. Prints for programs of several
# sizes the least of five runs in nanoseconds a section, and sections a second; what the tests take that show that the
# calls may be made (each is made twice in a second round, and the difference counted); and beside them a round of two
# std::mutex in C++ with a write of a cell under each, over as many cells and mutexes.
#
#     bench/manager/run.sh [ROUNDS]
set -euo pipefail
rounds=${1:-5}
here=$(cd "$(dirname "$0")" && pwd)
program=${BENCH_MANAGER:-$("$here/../build.sh" manager)}
work=$(mktemp -d)
trap 'rm -rf "$work"' EXIT
"${CXX:-g++}" -O2 -pthread -o "$work/mutex" "$here/mutex.cpp"
python3 - "$program" "$work" "$rounds" <<'PYTHON'
import pathlib, subprocess, sys
program, work, rounds = sys.argv[1], pathlib.Path(sys.argv[2]), int(sys.argv[3])
def locks_of_one(objects, width):
    """As many objects, each with so many locks that have one cell each."""
    members = " ".join(f"lock l{i}; int x{i} protected_by(l{i});" for i in range(width))
    return f"struct S {{ {members} }}\npool S p[{objects}];\n"
def locks_of_1000(owners):
    """The cells of forty objects of 25 fields are under the lock of one owner."""
    fields = " ".join(f"int x{i} protected_by(owner.l);" for i in range(25))
    inits = "".join(f"init q[{i}].owner = b[{i // 40}];\n" for i in range(40 * owners))
    return f"struct B {{ lock l; }}\nstruct N {{ final ref B owner; {fields} }}\npool B b[{owners}];\npool N q[{40 * owners}];\n{inits}"
SIZES = [
    ("10 cells, 10 locks", locks_of_one(10, 1), 10, 10),
    ("10,000 cells, 10,000 locks", locks_of_one(10000, 1), 10000, 10000),
    ("262,144 cells, 262,144 locks", locks_of_one(65536, 4), 262144, 262144),
    ("10,000 cells, 10 locks", locks_of_1000(10), 10000, 10),
    ("262,000 cells, 262 locks", locks_of_1000(262), 262000, 262),
]
def once(words, cells, locks):
    said = subprocess.run([str(word) for word in words], capture_output=True, text=True, check=True).stdout.split()
    assert [said[0], said[2]] == [str(cells), str(locks)], said
    return int(said[6]) * 1000 / int(said[4])
times = {}
for _ in range(rounds):
    for name, text, cells, locks in SIZES:
        path = work / f"{cells}_{locks}.al"
        path.write_text(text)
        for who, words in (("once", [program, path]), ("twice", [program, path, "again"]), ("mutex", [work / "mutex", cells, locks])):
            times.setdefault((name, who), []).append(once(words, cells, locks))
print(f"{'':30} {'ns':>8} {'a second':>11} {'tests, ns':>10} {'mutexes, ns':>12} {'a second':>12}")
for name, *_ in SIZES:
    section, twice, mutex = (min(times[name, who]) for who in ("once", "twice", "mutex"))
    print(f"{name:30} {section:8.0f} {1e9 / section:11,.0f} {twice - section:10.0f} {mutex:12.1f} {1e9 / mutex:12,.0f}")
PYTHON
