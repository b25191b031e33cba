#!/bin/sh
# Runs the built `autolock` over a source of nearly 1 MiB under limits of address space: it must either answer in full,
# or exit with 4, tell `autolock: no memory` and write nothing else; and with more it may not do worse. A session of `lsp`
# about that source may also answer -32603 to what it lacks memory for, and write answers before it ends with 4.
#
#     tests/limited_memory.sh [BIN]
set -u

top=$(cd -- "$(dirname -- "$0")/.." && pwd -P)
program=${1:-$top/crates/autolock/out/autolock}
work=$(mktemp -d)
trap 'rm -rf "$work"' EXIT
failed=0
refusals=0

fail() {
    echo "FAILED $1"
    failed=1
}

{
    echo 'lock G; global int n protected_by(G);'
    echo 'atomic f() { n = n + 1; }'
    echo 'thread t {'
    yes 'f();' | head -n 100000
    echo '}'
} >"$work/large.al"
echo '0*10000000' >"$work/large.steps"

# Judges one run by its status and the limit; what it wrote and the answer in full lie in $work.
judge() {
    if [ "$2" = 0 ] && cmp -s "$work/whole" "$work/out"; then
        echo "ok $3, $1 kB: answered in full"
        answered=$1
    elif [ "$2" = 4 ] && [ ! -s "$work/out" ] &&
        [ "$(grep -c . "$work/err")" -eq 1 ] && grep -qx 'autolock: no memory' "$work/err"; then
        echo "ok $3, $1 kB: refused"
        refusals=$((refusals + 1))
        [ -z "$answered" ] || fail "$3, $1 kB: refused, and answered with $answered"
    else
        fail "$3, $1 kB: status $2"
        head -n 3 "$work/out" "$work/err"
    fi
}

# Runs the program with these words.
limit_memory() {
    answered=
    "$program" "$@" >"$work/whole" || exit 1
    for kilobytes in 8000 12000 16000 24000 32000 48000 64000 96000 128000 192000 256000 512000; do
        (ulimit -v $kilobytes && exec "$program" "$@") >"$work/out" 2>"$work/err" </dev/null
        judge $kilobytes $? "$1"
    done
    [ -n "$answered" ] || fail "$1: never answered"
}

# Runs a session of `lsp` about the source.
limit_session() {
    python3 -B - "$top/tests" "$work/large.al" >"$work/session" <<'END' || exit 1
import sys
sys.path.insert(0, sys.argv[1])
from lsp import BEGIN, END, call, document, frame
from lsp_hostile import METHODS
place = {"line": 0, "character": 5}
asked = document("a") | {"position": place, "range": {"start": place, "end": place}, "newName": "m"}
opened = call("textDocument/didOpen", document("a", open(sys.argv[2]).read()))
requests = [call(method, asked, number) for number, method in enumerate(METHODS, 1)]
sys.stdout.buffer.write(b"".join(map(frame, [*BEGIN, opened, *requests, *END])))
END
    "$program" lsp <"$work/session" >"$work/whole" || exit 1
    answered=
    for kilobytes in 8000 12000 16000 24000 32000 48000 64000 96000 128000 192000 256000 512000; do
        (ulimit -v $kilobytes && exec "$program" lsp) <"$work/session" >"$work/out" 2>"$work/err"
        status=$?
        length=$(wc -c <"$work/out")
        if [ $status = 0 ] && cmp -s "$work/whole" "$work/out"; then
            echo "ok lsp, $kilobytes kB: answered in full"
            answered=$kilobytes
        elif [ $status = 0 ] && grep -q '"code":-32603' "$work/out" && [ ! -s "$work/err" ]; then
            echo "ok lsp, $kilobytes kB: $(grep -o '"code":-32603' "$work/out" | wc -l) messages refused"
        elif [ $status = 4 ] && grep -qx 'autolock: no memory' "$work/err" &&
            { grep -q '"code":-32603' "$work/out" || head -c "$length" "$work/whole" | cmp -s - "$work/out"; }; then
            echo "ok lsp, $kilobytes kB: refused after $length bytes"
        else
            fail "lsp, $kilobytes kB: status $status"
        fi
    done
    [ -n "$answered" ] || fail "lsp: never answered"
}

limit_memory check "$work/large.al"
limit_memory explain "$work/large.al"
limit_memory format "$work/large.al"
limit_memory order "$work/large.al"
limit_memory listing "$work/large.al"
limit_memory emit "$work/large.al"
limit_memory serial "$work/large.al"
limit_memory outcomes "$work/large.al"
limit_memory outcomes --cells n "$work/large.al"
limit_memory schedule "$work/large.al"
limit_memory schedule --worst "$work/large.al"
limit_memory simulate "$work/large.al" "$work/large.steps"
echo '0*900000' >"$work/large.steps"
limit_memory trace "$work/large.al" "$work/large.steps"
"$program" serial "$work/large.al" >"$work/large.history" || exit 1
limit_memory replay "$work/large.al" "$work/large.history"
limit_memory replay --open "$work/large.al" "$work/large.history"
limit_session

[ "$refusals" -gt 0 ] || fail "no run was refused memory"
exit $failed
