#!/bin/sh
# Runs each program of docs/LANGUAGE.md, README.md and tests/explained/ and compares what is written with what stands there.
# Its argument is the program to run, by default ./autolock at the top.
#
# A program is a block ```al. On the line after it begins its answer; after an answer may come
# another one. An answer is
#
# - a block ```text, which is what `serial` writes to standard output; words behind ```text come
#   between `serial` and the file;
# - a block ```text check, which is what `check` writes there;
# - a block ```text simulate ITEMS, which is what `simulate` writes there after the steps of these items;
# - a block ```text trace ITEMS, which is what `trace` writes there of these steps;
# - a block ```text outcomes, which is what `outcomes` writes there; words behind it come between `outcomes` and the file;
# - a block ```text explain, which is what `explain` writes there; FILE stands for the file's name;
# - or one line `FILE:..`, which both write to standard error; FILE stands for the file's name. A line `help: ..` after it has
#   to be in what `explain` writes.
#
# The other output has to be empty. The first program under a heading `### CODE` is also given to `explain`, which has to
# write tests/explained/CODE.explained. Each tests/explained/NAME.al is a program of its own, for NAME.explained.
set -u

top=$(cd -- "$(dirname -- "$0")/.." && pwd -P)
program=$(realpath -- "${1:-$top/autolock}")
"$program" --build >/dev/null 2>&1 # so that it is built before the first program
work=$(mktemp -d)
trap 'rm -rf "$work"' EXIT
cd "$work" || exit 1

# The program that begins on line N goes into N.al, of README.md into README-N.al. Its first run, N.1,
# has its words in N.1.words, the wanted outputs in N.1.out and N.1.err, and the exit status in
# N.1.status; so have further ones.
awk '
    function begin(words) {
        run = name "." ++runs
        print words >(run ".words")
        printf "" >(run ".out")
        printf "" >(run ".err")
    }
    function refuse(words, line) {
        begin(words)
        print line >(run ".err")
        print 1 >(run ".status")
    }
    block == "al" && /^```$/ { block = ""; answer = 1; next }
    block == "text" && /^```$/ { block = ""; answer = 1; print status >(run ".status"); next }
    block == "al" { print >(name ".al"); next }
    block == "text" {
        print >(run ".out")
        if (/^accepted$/) accepted = 1
        status = of == "explain" ? !accepted : /^unsettled / ? 7 : 0
        next
    }
    /^### E[0-9][0-9] / { code = $2 }
    /^## / { code = "" }
    /^```al$/ {
        block = "al"
        name = (FILENAME ~ /README/ ? "README-" : "") FNR
        runs = 0
        printf "" >(name ".al")
        if (code) { print code >(name ".code"); code = "" }
    }
    answer && /^```text/ {
        block = "text"
        accepted = 0
        of = substr($0, 9)
        begin(of == "check" || of == "explain" || of ~ /^outcomes( |$)/ ? of : /^```text simulate / ? "simulate" : /^```text trace / ? "trace" : "serial" substr($0, 8))
        if (/^```text simulate /) print substr($0, 18) >(run ".steps")
        if (/^```text trace /) print substr($0, 15) >(run ".steps")
    }
    answer && /^`FILE:.*`$/ {
        refuse("serial", substr($0, 2, length($0) - 2))
        refuse("check", substr($0, 2, length($0) - 2))
        next
    }
    answer && /^`help: .*`$/ { print substr($0, 2, length($0) - 2) >(name ".help"); next }
    { answer = 0 }
' "$top/docs/LANGUAGE.md" "$top/README.md"

# What `explain` writes: a program, the run, and the file that has it.
explained() {
    echo explain >"$1.$2.words"
    cp "$3" "$1.$2.out"
    : >"$1.$2.err"
    if head -n 1 "$3" | grep -qx accepted; then echo 0; else echo 1; fi >"$1.$2.status"
}

for file in *.code; do
    number=${file%.code}
    explained "$number" explain "$top/tests/explained/$(cat "$file").explained"
    if [ -e "$number.help" ] && ! grep -qxFf "$number.help" "$number.explain.out"; then
        echo "FAILED line $number: the help line is not in tests/explained/$(cat "$file").explained"
        touch wrong_help
    fi
done
for file in "$top"/tests/explained/*.al; do
    number=$(basename "$file" .al)
    cp "$file" .
    explained "$number" 1 "${file%.al}.explained"
done

# One run, by its name.
judge() {
    sed -i "s/FILE/${1%.*}.al/" "$1.err"
    [ "$(cat "$1.words")" != explain ] || sed -i "s/^FILE:/${1%.*}.al:/" "$1.out"
    # shellcheck disable=SC2046 # the words, one by one
    "$program" $(cat "$1.words") "${1%.*}.al" $(ls "$1.steps" 2>/dev/null) >out 2>err </dev/null
    status=$?
    if [ "$status" = "$(cat "$1.status")" ] && cmp -s "$1.out" out && cmp -s "$1.err" err; then
        echo "ok line ${1%.*}: $(cat "$1.words")"
    else
        echo "FAILED line ${1%.*}: $(cat "$1.words"): status $status"
        cat "$1.out" "$1.err" >wanted
        cat out err | diff wanted - | head -n 5
        return 1
    fi
}

failed=0
[ ! -e wrong_help ] || failed=1
count=0
for number in $(ls | sed -n 's/\.al$//p' | sort -n); do
    count=$((count + 1))
    if [ ! -e "$number.1.status" ]; then
        echo "FAILED line $number: no answer comes after the program"
        failed=1
        continue
    fi
    for words in "$number".*.words; do
        judge "${words%.words}" || failed=1
    done
done
echo "$count programs"
[ "$count" -gt 0 ] || failed=1
exit $failed
