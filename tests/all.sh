#!/usr/bin/env bash
# The merge gate: tries what needs no program; proves every crate from nothing, tries its wrong bodies and runs its tests
# (`rt ci`); and then tries, over the program that this built, what no clause says. docs/TESTING.md has the tests that take
# longer.
#
#     tests/all.sh            the gate
#     tests/all.sh BIN        all but the proofs, over that program, with fewer random programs
#
# The last line is 'N passed, M failed'; the status is 1 where M is not 0. What the gate of a commit came to is kept in
# out/gate, for script/release.sh.
set -u

cd -- "$(dirname -- "$0")/.." || exit 1
room=$(mktemp -d)
trap 'rm -rf "$room"' EXIT
passed=0
failed=0
number=0
others=()

# Runs the test of this number, by its words. What it writes is told where it fails.
run_test() {
    local said=$room/said.$1 failure=$room/failed.$1 begun=$SECONDS
    shift
    if "$@" >"$said" 2>&1; then
        echo "ok ${*/#$program/BIN}, $((SECONDS - begun)) s: $(tail -n 1 "$said")"
    else
        : >"$failure"
        printf '%s\nFAILED %s\n' "$(grep -v '^ok ' "$said" | tail -n 30)" "${*/#$program/BIN}"
    fi
}

count() {
    if [ -e "$room/failed.$1" ]; then
        failed=$((failed + 1))
    else
        passed=$((passed + 1))
    fi
}

# A test.
try() {
    number=$((number + 1))
    run_test "$number" "$@"
    count "$number"
}

# A test beside others, as many at once as there are processors.
beside() {
    while [ "$(jobs -rp | wc -l)" -ge "$(nproc)" ]; do wait -n; done
    number=$((number + 1))
    others+=("$number")
    run_test "$number" "$@" &
}

# Waits for those.
gather() {
    local each
    wait
    for each in "${others[@]}"; do count "$each"; done
}

# (all this is told before the proofs, which take an hour)
for script in script/*.py tests/*.py tests/*.sh; do
    [ -x "$script" ] || ! head -n 1 "$script" | grep -q '^#!' || {
        echo "$script may not be run: chmod +x"
        exit 1
    }
done

if [ $# -gt 0 ]; then
    program=$(realpath -- "$1")
else
    program=$PWD/crates/autolock/out/autolock
    rm -f out/gate
fi
for script in heads believed promises editors style; do
    try "tests/$script.py"
done
try tests/layout.sh
try script/docs.py --check
try tests/edits.py --applies
if [ $# = 0 ]; then
    [ "$failed" = 0 ] || {
        echo "$passed passed, $failed failed"
        exit 1
    }
    mkdir -p out && touch out/begun
    script/ci.py | tee "$room/ci"
    counts=$(tail -n 1 "$room/ci")
    [[ $counts =~ ^([0-9]+)\ passed,\ ([0-9]+)\ failed ]] || {
        echo "script/ci.py did not end"
        exit 1
    }
    passed=$((passed + BASH_REMATCH[1])) failed=${BASH_REMATCH[2]}
    [ "$failed" = 0 ] || exit 1
    # What ./autolock runs from now on.
    top=$PWD proved=$program
    . script/build.sh
    mv out/begun "$program.built.new" && keep_list
    try tests/no_compile.sh
    try script/library.py
    try tests/library.py "$program"
fi
programs=300
[ $# = 0 ] || programs=60
tests/rows.py --write "$room"
# The longest first.
beside tests/emit.py "$program" --count "$programs"
beside tests/rows.py "$program" --cuts
beside tests/format.py "$program"
beside tests/pictures.py "$program"
beside tests/stress.py "$program"
for script in limited_memory examples language statuses words; do
    beside "tests/$script.sh" "$program"
done
for script in limits rows life advice codes colors warnings ends_told sources fans tutorial scheduled pages lsp lsp_texts nvim; do
    beside "tests/$script.py" "$program"
done
beside tests/open.py "$program" examples/*.al
beside tests/outcomes.py "$program" --count 40
beside tests/runs.py "$program" --times 5 --transfers 200
beside tests/whole_class.py "$program" --times 50 --compiled 10
beside tests/failing.py --program "$program" --commands run --every 7 \
    "$room"/{lost_update,transfer,null_reference,countdown,shared_owner}.al
beside tests/items.py --program "$program" --count 2
gather
if [ $# = 0 ] && [ "$failed" = 0 ] && [ -z "$(git status --porcelain 2>/dev/null)" ]; then
    { git rev-parse HEAD && rt version && grep '^rt: ok' "$room/ci" && echo "$passed passed, $failed failed"; } >out/gate
fi
echo "$passed passed, $failed failed"
[ "$failed" = 0 ]
