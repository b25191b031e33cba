#!/usr/bin/env bash
# Every test that needs no proof: makes the program, `test_cases` and the programs of the tests without any proof, some side
# by side, and runs them and the scripts. It proves nothing: the gate is tests/all.sh.
#
#     tests/quick.sh [JOBS]      so many are made at once, of 2 GB each; by default as many as there are processors
#
# The last line is 'N passed, M failed, and nothing was proved'; the status is 1 where M is not 0.
set -u

cd -- "$(dirname -- "$0")/.." || exit 1
jobs=${1:-$(nproc)}
rt=$(command -v rt) || {
    echo "this needs the command rt of the Rattle toolchain in the path"
    exit 3
}
kit=$(dirname -- "$(dirname -- "$(readlink -f -- "$rt")")")
room=$(mktemp -d)
trap 'rm -rf "$room"' EXIT
passed=0
failed=0
made=$PWD/out/unproved

so_far() { echo "$((SECONDS / 60)) min $((SECONDS % 60)) s"; }

pass() {
    passed=$((passed + ${2:-1}))
    echo "ok $1"
}

fail() {
    failed=$((failed + ${2:-1}))
    echo "FAILED $1"
}

# Makes a program, the longest first. One that is there already is taken.
make_program() {
    local flag=
    [ -e "crates/$1/src/main.rt" ] || flag=--test
    # shellcheck disable=SC2086
    python3 script/unproved.py "$2" "crates/$1" "out/unproved/$1" $flag 2>&1
}
export -f make_program
echo "making four programs without any proof, $jobs at a time"
printf '%s\0' autolock test_cases test_workers test_units |
    xargs -0 -P "$jobs" -I{} bash -c 'make_program "$1" "$2" || echo "FAILED $1 was not made"' bash {} "$kit/bin" |
    tee "$room/making"
[ -z "$(grep '^FAILED' "$room/making")" ] || exit 1
echo "== made in $(so_far)"

# Tests of a crate, by the lines that the kit's runner writes.
for name in test_units test_workers; do
    "$kit/bin/rattle-test" --seconds 60 "$made/$name" >"$room/said" 2>&1
    status=$?
    count=$(grep -c '^test .* ok' "$room/said")
    [ "$count" = 0 ] || pass "$name: $count tests" "$count"
    [ $status = 0 ] || { fail "$name"; tail -n 20 "$room/said"; }
done
# shellcheck disable=SC2046
if (cd crates/test_cases/data && "$made/test_cases" $(cat ../args)) >"$room/cases" && cmp -s "$room/cases" crates/test_cases/stdout; then
    count=$(awk '{ sum += $2 } END { print sum }' "$room/cases")
    pass "test_cases: $count cases" "$count"
else
    fail test_cases
    diff "$room/cases" crates/test_cases/stdout
fi
echo "== the scripts of tests/all.sh, $(so_far)"
tests/all.sh "$made/autolock" >"$room/said"
head -n -1 "$room/said"
counts=$(tail -n 1 "$room/said")
[[ $counts =~ ^([0-9]+)\ passed,\ ([0-9]+)\ failed$ ]] || counts="0 passed, 1 failed"
[[ $counts =~ ^([0-9]+)\ passed,\ ([0-9]+)\ failed$ ]]
passed=$((passed + BASH_REMATCH[1])) failed=$((failed + BASH_REMATCH[2]))
echo "== $(so_far)"
echo "$passed passed, $failed failed, and nothing was proved"
[ $failed = 0 ]
