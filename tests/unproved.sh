#!/usr/bin/env bash
# What ./autolock does in a fresh copy of the repository, where nothing is proved: it makes a program without any proof once,
# and keeps it; what is said and answered, what is installed, and what is done after a source has changed, after runs that
# were killed, and by two that begin together. No part of the gate: it takes some ten minutes.
#
#     tests/unproved.sh [KILLS]      so many runs are killed at some moment, by default 10
set -u

top=$(cd -- "$(dirname -- "$0")/.." && pwd -P)
kills=${1:-10}
work=$(mktemp -d)
trap 'rm -rf "$work"' EXIT
mkdir "$work/in" "$work/at" "$work/repository"
(cd "$top" && git ls-files -z | tar -c --null -T -) | tar -x -C "$work/repository"
autolock=$work/repository/autolock
cd "$work/at" || exit 1
cp "$top/examples/lost_update.al" ../in/right.al
cp "$top/examples/lost_update.steps" ../in/right.steps
printf 'lock G;\nglobal int n;\n' >'../in/wrong one.al'
printf 'lock G; global int n protected_by(G);\natomic f() { n = n + 1; }\nthread t { repeat 100000 { f(); } }\n' >../in/long.al
passed=0
failed=0

pass() {
    passed=$((passed + 1))
    echo "ok $1"
}

fail() {
    failed=$((failed + 1))
    echo "FAILED $1"
}

# A name, the status, the file with what is on standard output and the text on standard error, and the words.
run() {
    local name=$1 wanted=$2 wrote=$3 told=$4 status
    shift 4
    "$autolock" "$@" >out 2>err </dev/null
    status=$?
    sed -i -E 's/[0-9]+ min [0-9]+ s$/TIME/; s/, [0-9]+ s$/, TIME/' err
    if [ $status -eq "$wanted" ] && cmp -s out "$wrote" && [ "$(cat err)" = "$told" ]; then
        pass "$name"
    else
        fail "$name: status $status"
        head -n 20 out err
    fi
}

said='autolock: nothing is proved of this program (./autolock --build proves it)'
made="autolock: making the program without any proof: some two minutes, once; it is kept until a source changes
autolock: 1 of 2, its sources are read and compiled to one module, TIME
autolock: 2 of 2, the module is compiled and linked, TIME
autolock: made in TIME"

run "a file that is not there" 3 /dev/null "autolock: cannot read ../in/missing.al" serial ../in/missing.al
# Killed at some moment of the first two minutes; nothing may be left that is half made.
for ((i = 0; i < kills; i++)); do
    setsid "$autolock" check ../in/right.al >out 2>err </dev/null &
    process=$!
    sleep $((RANDOM % 120 + 1)).$((RANDOM % 10))
    kill -9 -- -$process 2>/dev/null
    wait $process 2>/dev/null
done
# Two that begin together: one makes the program, and both answer.
"$autolock" check ../in/right.al >first 2>first.err </dev/null &
"$autolock" check ../in/right.al >second 2>second.err </dev/null
wait
if cmp -s first "$top/examples/lost_update.check" && cmp -s second first &&
    [ "$(cat first.err second.err | grep -c 'compiled to one module')" -le 1 ]; then
    pass "two that begin together, after $kills that were killed"
else
    fail "two that begin together"
    cat first first.err second second.err
fi
[ -z "$(find "$work/repository/out/unproved" -name 'making-*')" ] && pass "nothing half made is left" || fail "making-* is left"
touch "$work/repository/crates/source/src/lib.rt"
run "after a change" 0 "$top/examples/lost_update.check" "$made
$said" check ../in/right.al
run "the second run" 1 /dev/null "$said
../in/wrong one.al:2:12: E10 neither final nor protected" check '../in/wrong one.al'
run "with the word" 0 "$top/examples/lost_update.simulation" "$said" --unproved simulate ../in/right.al ../in/right.steps
"$autolock" run ../in/right.al >../in/right.history 2>/dev/null
echo same >../in/same
run "a run of threads, replayed" 0 ../in/same "$said" replay ../in/right.al ../in/right.history
"$autolock" serial ../in/long.al 2>/dev/null | wc -c >size
[ "$(cat size)" -gt 2000000 ] && pass "more than a MiB" || fail "more than a MiB"
echo "autolock $(cat "$top/VERSION")" >../in/version
run "the version" 0 ../in/version "$said" --version
run "the proved one alone" 3 /dev/null \
    "autolock: there is no program that is proved of these sources: ./autolock --build proves and builds it" \
    --proved check ../in/right.al

# Installed, run from there, and removed.
"$autolock" --install ../prefix >out 2>err
if [ $? = 3 ] && [ ! -e ../prefix ]; then pass "what is not proved is not installed"; else fail "what is not proved is not installed"; fi
DESTDIR=$work/root "$autolock" --install --unproved /usr >out 2>err && [ -z "$(find ../root -name autolock -path '*/bin/*')" ] &&
    ../root/usr/bin/autolock-unproved check ../in/right.al 2>err | cmp -s - "$top/examples/lost_update.check" &&
    [ -e ../root/usr/share/man/man1/autolock.1 ] && pass "installed as autolock-unproved" || { fail "installed as autolock-unproved"; cat err; }
DESTDIR=$work/root "$autolock" --uninstall /usr >out 2>err
[ -z "$(find ../root -type f)" ] && pass "removed" || { fail "removed"; find ../root -type f; }

echo 'fn broken( {' >>"$work/repository/crates/source/src/lib.rt"
"$autolock" check ../in/right.al >out 2>err
if [ $? = 3 ] && [ ! -s out ] && grep -q 'lib.rt:.*error' err && [ "$(tail -n 1 err)" = "autolock: the program was not made" ]; then
    pass "a source that does not compile"
else
    fail "a source that does not compile"
    cat out err
fi
echo "$passed passed, $failed failed"
[ $failed = 0 ]
