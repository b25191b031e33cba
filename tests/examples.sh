#!/bin/sh
# Runs each program of examples/ through `serial` and `check`, and through `listing` where NAME.listing
# stands beside it, through `order`, `explain` and `outcomes` where NAME.order, NAME.explained and NAME.outcomes do, and through
# `simulate` with the steps of NAME.steps where this stands beside it, and with these through `trace` where NAME.trace does, and
# compares what they write with the files kept beside it, NAME.out, NAME.check, NAME.listing, NAME.order, NAME.explained,
# NAME.outcomes, NAME.simulation and NAME.trace. `outcomes` distinguishes ends by the cells that NAME.cells names. Where NAME.refused stands beside it, all have to refuse it with that line;
# `order` writes NAME.order then too, since these programs have a cycle of lock classes. Its
# argument is the program to run, by default ./autolock at the top.
set -u

top=$(cd -- "$(dirname -- "$0")/.." && pwd -P)
program=$(realpath -- "${1:-$top/autolock}")
"$program" --build >/dev/null 2>&1 # so that it is built before the first program
work=$(mktemp -d)
trap 'rm -rf "$work"' EXIT
cd "$top/examples" || exit 1
failed=0
count=0

# A command with its options, an example's name, the status, the files of what stands on standard output and on standard
# error, and, of `simulate` and `trace`, the steps file.
judge() {
    # shellcheck disable=SC2086
    "$program" $1 "$2.al" ${6:+"$6"} >"$work/out" 2>"$work/err" </dev/null
    status=$?
    if [ "$status" = "$3" ] && cmp -s "$4" "$work/out" && cmp -s "$5" "$work/err"; then
        echo "ok $1 $2"
    else
        echo "FAILED $1 $2: status $status"
        cat "$4" "$5" >"$work/wanted"
        cat "$work/out" "$work/err" | diff "$work/wanted" - | head -n 5
        failed=1
    fi
    count=$((count + 1))
}

for source in *.al; do
    name=${source%.al}
    if [ -e "$name.refused" ]; then
        judge serial "$name" 1 /dev/null "$name.refused"
        judge check "$name" 1 /dev/null "$name.refused"
        judge order "$name" 1 "$name.order" "$name.refused"
        judge listing "$name" 1 /dev/null "$name.refused"
        [ ! -e "$name.explained" ] || judge explain "$name" 1 "$name.explained" /dev/null
        judge outcomes "$name" 1 /dev/null "$name.refused"
    else
        judge serial "$name" 0 "$name.out" /dev/null
        judge check "$name" 0 "$name.check" /dev/null
        [ ! -e "$name.listing" ] || judge listing "$name" 0 "$name.listing" /dev/null
        [ ! -e "$name.order" ] || judge order "$name" 0 "$name.order" /dev/null
        [ ! -e "$name.explained" ] || judge explain "$name" 0 "$name.explained" /dev/null
        cells=
        [ ! -e "$name.cells" ] || cells=" --cells $(cat "$name.cells")"
        [ ! -e "$name.outcomes" ] || judge "outcomes$cells" "$name" 0 "$name.outcomes" /dev/null
        [ ! -e "$name.steps" ] || judge simulate "$name" 0 "$name.simulation" /dev/null "$name.steps"
        [ ! -e "$name.trace" ] || judge trace "$name" 0 "$name.trace" /dev/null "$name.steps"
    fi
done
if "$top/tools/msc.py" lost_update.trace lost_update.al 2>&1 | cmp -s - "$top/docs/trace.svg"; then
    echo "ok the picture of lost_update"
else
    echo "FAILED the picture of lost_update: docs/trace.svg is not what tools/msc.py draws of lost_update.trace"
    failed=1
fi
echo "$count runs"
exit $failed
