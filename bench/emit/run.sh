#!/usr/bin/env bash
# The sections that `emit` writes beside what is written by hand.
#
#     bench/emit/run.sh BIN [ROUNDS] [CALLS]
#
# Transfers between two accounts on 1, 2 and 4 threads, beside C++ with two std::mutexes in order, std::scoped_lock, one global
# mutex and GCC's transactions; with a history, beside two std::mutexes in order with one; loops beside C with and without the same tests, by gcc and by clang: times of rounds in turn,
# and instructions by callgrind, where valgrind is there. Then the time of `emit` beside that of `listing`, and the lengths of
# both texts, over the shapes of bench/compile.
set -eu

cd -- "$(dirname -- "$0")"
program=$(realpath -- "$1")
rounds=${2:-15} calls=${3:-1000000}
work=$(mktemp -d)
trap 'rm -rf "$work"' EXIT
cp -- *.c *.cpp *.h "$work"
"$program" emit transfer.al >"$work/transfer.c"
"$program" emit loops.al >"$work/loops.c"
cd "$work"

optimize="-O2 -march=x86-64-v2"
renamed() { for name in alOpen alClose alSize al_p al_transfer; do printf ' -D%s=%s_%s' $name $name "$1"; done; }
# shellcheck disable=SC2046,SC2086
{
    gcc $optimize -std=c11 -DKIND=line $(renamed line) -c emitted.c -o line.o
    gcc $optimize -std=c11 -DKIND=packed -DAL_LINE=8 $(renamed packed) -c emitted.c -o packed.o
    gcc $optimize -std=c11 -DAL_HISTORY $(renamed recorded) -c recorded.c
    g++ $optimize -std=c++17 -c hand.cpp noted.cpp
    g++ $optimize -std=c++17 -fgnu-tm -c transaction.cpp
    g++ $optimize -std=c++17 transfers.cpp line.o packed.o recorded.o hand.o noted.o transaction.o -litm -pthread -o transfers
}
./transfers "$rounds" "$calls"
for compiler in gcc clang; do
    command -v $compiler >/dev/null || continue
    # shellcheck disable=SC2086
    {
        $compiler $optimize -std=gnu11 loops_rounds.c loops_emitted.c loops_hand.c -pthread -o loops-$compiler
        $compiler $optimize -std=gnu11 loops_once.c loops_emitted.c loops_hand.c -pthread -o once-$compiler
    }
    echo "loops, $compiler"
    ./loops-$compiler "$rounds"
    command -v valgrind >/dev/null || continue
    instructions() {
        valgrind --tool=callgrind --callgrind-out-file=/dev/null ./once-$compiler "$@" 2>&1 |
            sed -n 's/.*Collected : \([0-9]*\).*/\1/p'
    }
    for loop in "sieve 65536" "sum 100000" "matrix 64" "chase 100000"; do
        # shellcheck disable=SC2086
        set -- $loop
        for kind in e h c; do printf '%s ' "$(instructions "${kind}_$1" "$2")"; done |
            awk -v loop="$loop" '{ printf "%-14s emitted / without tests %.2f, / with them %.2f (instructions)\n", loop, $1 / $2, $1 / $3 }'
    done
done
python3 - "$program" <<'PYTHON'
"""A MiB of source of some shapes: the time of `emit` and of `listing`, the least of five, and how long the C is."""
import pathlib
import subprocess
import sys
import time

SIZE = 1048000
ONE = "lock G; global int n protected_by(G);\n"
MANY = "".join(f"lock G{i}; global int n{i} protected_by(G{i}); " for i in range(64)) + "\n"
FIELDS = (
    "struct S { lock l; int x protected_by(l); final ref S next; }\npool S p[2];\n"
    "init p[0].next = p[1]; init p[1].next = p[0];\n"
)
POOL = "struct S { lock l; int x protected_by(l); }\npool S p[65536];\n"


def filled(head, line, tail):
    lines, size, i = [], len(head) + len(tail), 0
    while size + len(line(i)) <= SIZE:
        lines.append(line(i))
        size += len(lines[-1])
        i += 1
    return head + "".join(lines) + tail


SHAPES = {
    "assignments": filled(ONE + "atomic f() {\n", lambda i: "n=1;", "}\n"),
    "products": filled(ONE + "atomic f() {\n", lambda i: "n=n*n+n*n;", "}\n"),
    "branches": filled(ONE + "atomic f(int a) {\n", lambda i: "if (n > a) { n = 1; } else { n = 2; }\n", "}\n"),
    "fields along finals": filled(FIELDS + "atomic f(ref S a) {\n", lambda i: "a.next.x = a.x + 1;\n", "}\n"),
    "64 lock paths": filled(MANY + "atomic f() {\n", lambda i: f"n{i % 64} = n{i * 7 % 64} + 1;\n", "}\n"),
    "sections": filled(ONE, lambda i: f"atomic f{i}(int a) {{ n = n + a; }}\n" if i < 256 else " ", ""),
    "names": filled("lock G;\n", lambda i: f"global int g{i} protected_by(G);\n", "atomic f() { g0 = 1; }\n"),
    "inits": filled(POOL, lambda i: f"init p[{i}].x = {i};\n" if i < 65536 else " ", "atomic f(ref S a) { a.x = 1; }\n"),
    "calls": filled("atomic f(int k) { }\nthread t {\n", lambda i: "f(7);\n" if i < 100000 else " ", "}\n"),
}


def least(words):
    times = []
    for _ in range(5):
        begun = time.monotonic()
        out = subprocess.run(words, capture_output=True, check=True).stdout
        times.append(time.monotonic() - begun)
    return min(times), len(out)


for name, text in SHAPES.items():
    path = pathlib.Path("shape.al")
    path.write_text(text)
    emitted, length = least([sys.argv[1], "emit", str(path)])
    listed, _ = least([sys.argv[1], "listing", str(path)])
    print(
        f"{name:22} emit {emitted:.3f} s, listing {listed:.3f} s, ratio {emitted / listed:.2f};"
        f" C {length / len(text):.2f} times the source"
    )
PYTHON
