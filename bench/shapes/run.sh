#!/usr/bin/env bash
# Times `check` of texts of shapes that were slow once, and `outcomes` of such programs, each beside a plain one of its size,
# and prints for each the least of several runs, process and all, and the most memory that one held. Of those with many
# pairs of lock classes it times `order` and `explain` too, which are to take at most twice the time of `check`. Sections that
# take a whole class are run beside calls that take its locks one by one.
#
#     bench/shapes/run.sh BIN [ROUNDS]
set -euo pipefail
here=$(cd "$(dirname "$0")" && pwd)
program=${1:?"usage: run.sh BIN [ROUNDS]"}
rounds=${2:-5}
texts=$(mktemp -d)
trap 'rm -rf "$texts"' EXIT
"${CC:-cc}" -O2 -o "$texts/collisions" "$here/collisions.c"
"$texts/collisions" 3641 > "$texts/alike.names"
python3 - "$texts" <<'PYTHON'
import pathlib, sys
top = pathlib.Path(sys.argv[1])
SIZE = 1048000


def write(name, text):
    assert len(text) <= 1048576, (name, len(text))
    (top / f"{name}.al").write_text(text)


def names_used(names):
    head = "lock G;\n" + "".join(f"global int {n} protected_by(G);\n" for n in names) + "atomic f() {\n"
    lines, size, i = [], len(head) + 2, 0
    while True:
        line = f"print {'+'.join(names[(i * 40 + k) * 7919 % len(names)] for k in range(40))};\n"
        if size + len(line) > SIZE:
            return head + "".join(lines) + "}\n"
        lines.append(line)
        size += len(line)
        i += 1


def nested(word, end, line, depth=60):
    head = "lock G;\nglobal int n protected_by(G);\natomic f() {\n" + word * depth
    tail = end * depth + "}\n"
    return head + line * ((SIZE - len(head) - len(tail)) // len(line)) + tail


def along(length, size):
    head = (
        "struct S { lock l; int x protected_by(l); final ref S n; }\npool S p[1];\ninit p[0].n = p[0];\n"
        f"atomic f(ref S a) {{\nlet m: ref S = a{'.n' * length};\n"
    )
    line = "m.x = m.x + 1;\n"
    return head + line * ((size - len(head) - 2) // len(line)) + "}\n"


def printed(length, size, branch):
    """A path of so many finals, taken in each of many branches."""
    head = (
        "struct S { lock l; int x protected_by(l); final ref S n; }\npool S p[1];\ninit p[0].n = p[0];\n"
        f"atomic f(ref S a, int k) {{\nlet m: ref S = a{'.n' * length};\n"
    )
    return head + branch * ((size - len(head) - 2) // len(branch)) + "}\n"


def aliases(length, size):
    head = (
        "struct S { lock l; int x protected_by(l); final ref S n; }\npool S p[1];\ninit p[0].n = p[0];\n"
        f"atomic f(ref S a) {{\nlet m: ref S = a{'.n' * length};\n" + "".join(f"let b{i}: ref S = m;\n" for i in range(62))
    )
    lines, left, i = [], size - len(head) - 2, 0
    while True:
        line = f"b{i % 62}.x = 1;\n"
        if len(line) > left:
            return head + "".join(lines) + "}\n"
        lines.append(line)
        left -= len(line)
        i += 1


def chained(chains, inside=("", "")):
    """Sections that go from class to class, each with a use of one ahead of the binding of the next; before that, lines in
    what is given."""
    links = sorted({pair for chain in chains for pair in zip(chain, chain[1:])})
    head = "lock G;\nglobal int n protected_by(G);\n"
    for k in sorted({k for chain in chains for k in chain}):
        refs = "".join(f" ref S{b} r{b} protected_by(l);" for a, b in links if a == k)
        head += f"struct S{k} {{ lock l; int x protected_by(l);{refs} }}\n"
    sections = []
    for number, chain in enumerate(chains):
        lines = [f"atomic f{number}(ref S{chain[0]} b0, int k) {{\n", *inside]
        for at, k in enumerate(chain[1:], 1):
            lines.append(f"b{at - 1}.x = 1;\nlet b{at}: ref S{k} = b{at - 1}.r{k};\n")
        sections.append([*lines, f"b{len(chain) - 1}.x = 1;\n}}\n"])
    left = SIZE - len(head) - sum(len(line) for lines in sections for line in lines)
    line = "b0.x = 1;\n"
    for lines in sections:
        lines[1] += line * (left // len(sections) // len(line))
    return head + "".join(line for lines in sections for line in lines)


alike = (top / "alike.names").read_text().split()
write("names_alike", names_used(alike))
write("names_plain", names_used([f"aaaa{i:04}" for i in range(len(alike))]))


def locals_named(names):
    head = "lock G;\nglobal int n protected_by(G);\natomic f() {\n" + "".join(f"let {n}: int = 1;\n" for n in names)
    line = f"n = {'+'.join(names[-40:])};\n"
    return head + line * ((SIZE - len(head) - 2) // len(line)) + "}\n"


def written(values, calls):
    """Two threads that write the elements of an array in turn, each its own value."""
    head = "lock G;\nglobal int a[32] protected_by(G);\nglobal int k protected_by(G);\n"
    head += "atomic put(int s) { a[k] = s; k = k + 1; }\n"
    return head + "".join(f"thread t{i} {{ repeat {calls} {{ put({v}); }} }}\n" for i, v in enumerate(values))


write("locals_alike", locals_named(alike))
write("locals_plain", locals_named([f"aaaa{i:04}" for i in range(len(alike))]))
repeat = "repeat 1 {" * 60 + "repeat 100000 { f(7); }" + "}" * 60
write("repeat_1_60_deep", f"atomic f(int k) {{ }}\nthread t {{ {repeat} }}\n")
write("repeat_once", "atomic f(int k) { }\nthread t { repeat 100000 { f(7); } }\n")
write("ifs_60_deep", nested("if (n > 0) {", "}", "n=1;"))
write("ifs_beside", nested("if (n > 0) { n = 1; }", "", "n=1;"))
for name, branch in (("taken_often", "if (k > 0) { m.x = 1; }\n"), ("taken_once", "if (m.x > 0) { k = 1; }\n")):
    write(f"chain_of_finals_{name}_128K", printed(32768, 131072, branch.replace("k = 1", "m.x = 1")))
for size in (262144, 524288, 1048000):
    write(f"chain_of_finals_{size // 1024}K", along(size // 8, size))
    write(f"chain_of_finals_by_62_names_{size // 1024}K", aliases(size // 8, size))
nest = ("while (k > 0) {\n" * 60, "}\n" * 60)
write("ordered_in_two_sections", chained([list(range(40)), list(range(21, 61))]))
chains = [sorted({(7 * number + stride * k) % 61 for k in range(9)}) for number, stride in enumerate([*range(1, 31)] * 2)]
write("ordered_in_60_sections", chained(chains))
write("ordered_behind_loops_60_deep", chained([list(range(56))], nest))
write("cycle_behind_loops_60_deep", chained([list(range(56)), [55, 0]], nest))


def of_a_class(members, whole):
    """One thread that sums all members of a pool: by a section that lists their class, or by a call for each."""
    head = f"struct Acc {{ lock l; int bal protected_by(l); }}\npool Acc acc[{members}];\n"
    if whole:
        body = f"var i: int = 0; var s: int = 0; while (i < {members}) {{ let a: ref Acc = acc[i]; s = s + a.bal; i = i + 1; }} return s;"
        return head + f"atomic total() : int lock(Acc.l) {{ {body} }}\nthread t {{ repeat 100 {{ total(); }} }}\n"
    calls = " ".join(f"one(acc[{i}]);" for i in range(members))
    return head + f"atomic one(ref Acc a) : int {{ return a.bal; }}\nthread t {{ repeat 100 {{ {calls} }} }}\n"


for members in (10, 100, 1000):
    write(f"class_of_{members}_whole", of_a_class(members, True))
    write(f"class_of_{members}_one_by_one", of_a_class(members, False))
for name, values in (("signs", (1, -1)), ("numbers", (1, 2)), ("powers", (1 << 32, 1 << 40)), ("halves", (-1 << 62, 1 << 62))):
    (top / f"outcomes_{name}.al").write_text(written(values, 9))
PYTHON
for text in $(ls -v "$texts"/*.al); do
  commands=(check)
  case $(basename "$text") in
    outcomes_*) commands=("outcomes --count 1000000") ;;
    ordered_*) commands=(check order explain) ;;
    class_of_*) commands=(run) ;;
  esac
  for command in "${commands[@]}"; do
    printf '%-35s %-8s ' "$(basename "$text" .al)" "${command%% *}"
    for _ in $(seq "$rounds"); do
      { /usr/bin/time -f "%e %M" "$program" $command "$text" 2>&1 > /dev/null || true; } | tail -n 1
    done | sort -n | head -n 1 | awk '{printf "%6.2f s %6.0f MiB\n", $1, $2 / 1024}'
  done
done
