#!/bin/sh
# Runs the program on words, files and outputs that fail, and compares the exit status and the two
# outputs. Its argument is the program to run, by default ./autolock at the top.
set -u

top=$(cd -- "$(dirname -- "$0")/.." && pwd -P)
program=$(realpath -- "${1:-$top/autolock}")
"$program" --build >/dev/null 2>&1 # so that it is built before the first case
work=$(mktemp -d)
trap 'rm -rf "$work"' EXIT
cd "$work" || exit 1
failed=0
printf 'lock G;\nglobal int n protected_by(G);\natomic f() { n = 1; }\nthread t { f(); }\n' >right.al
printf 'lock G;\nglobal int n;\n' >wrong.al
cat >cycle.al <<'end'
struct Node { lock l; int v protected_by(l); ref Node next protected_by(l); }
atomic walk(ref Node a) {
  let b: ref Node = a.next;
  b.v = 1;
}
end
mkdir folder
: >none
echo 'wrong.al:2:12: E10 neither final nor protected' >fault
echo 'cycle.al:3:3: E14 lock order cycle: Node.l -> Node.l' >circle
printf 'accepted\nrank 0 G\nsection f\nat 3:14 take G\n' >checked
{ cat checked; echo '  atomic f() { n = 1; }'; } >sourced
printf 'digraph lock_order {\n  "G" [label="rank 0 G"];\n}\n' >ordered
printf 'digraph lock_order {\n  "Node.l";\n  "Node.l" -> "Node.l" [label="walk:3:3", color="red"];\n}\n' >cyclic_order
printf 'section f\n0 3:14 acquire G\n1 3:14 int 1\n2 3:14 store n\n3 3:14 end\n' >listed_places
printf 'section f\n0 acquire G\n1 int 1\n2 store n\n3 end\n' >listed
printf 'history 1\ncall 0 0 f() ends\ncells\nn 1\nend\n' >history
printf 'orders 1 all\nstates 2\noutcome 1 after 0\ncells\nn 1\nend\n' >outcomes
printf 'autolock: no cell is named m\n' >no_cell
printf 'autolock: --expect: n == is not a comparison, at byte 4\n' >no_comparison
{ cat outcomes; echo 'expected n == 1 holds in all orders'; } >expected
{ cat outcomes; printf 'expected n > 1 fails after 0\ncells\nn 1\nend\n'; } >unexpected
printf 'orders 0 drawn\n' >drawn
printf 'history 1\nunsettled 0 0\n' >unsettled_call
for name in missing.al folder; do echo "autolock: cannot read $name" >"no_$name"; done
printf 'accepted\nnote: rank 0 G\n' >accepted
echo '{"accepted":true,"file":"right.al","notes":[{"text":"rank 0 G"}],"warnings":[]}' >accepted_json
cat >explained <<'end'
wrong.al:2:12: E10 neither final nor protected
  global int n;
             ^
wrong.al:1:6: note: G could protect it: protected_by(G)
  lock G;
       ^
help: say which lock protects it: protected_by(LOCK)
end
printf '%s' '{"accepted":false,"code":"E10","end":{"column":13,"line":2},"file":"wrong.al","further":[],"more":false,"notes":[{"end":{"column":7,"line":1},"start":{"column":6,"line":1},"text":"G could protect it: protected_by(G)"}],' >explained_json
printf '%s\n' '"remedy":"say which lock protects it: protected_by(LOCK)","start":{"column":12,"line":2},"text":"neither final nor protected"}' >>explained_json
echo 'autolock: cannot write' >unwritten
printf '0\n\t9*1 x' >bad_steps
echo 'bad_steps:2:2: S2 no such thread' >steps_fault
printf 'simulation 1\ncells\nn 0\nthreads\n0 running\nend\n' >simulated
echo '0*2' >two_steps
{ printf '0 began f()\n0 moved 3:14 acquire G\n'; cat simulated; } >traced
{ printf '0 began f()\n'; cat simulated; } >traced_sections
printf 'history 2\ncall 0 0 0 f() ends\ncells\nn 1\nend\n' >history_2
printf 'history 1\ncall 0 0 f() ends\ncells\nn 2\nend\n' >other_history
printf 'history 1\ncall 4294967295 0 f() ends\ncall 7 0 f() ends\ncells\nn 1\nend\n' >open_history
printf 'history 1\ncall 7 0 f() ends\ncall 7 0 f() ends\ncells\nn 1\nend\n' >other_open_history
printf 'differs at line 3\nexpected: K 1\nfound: call 7 0 f() ends\n' >differs_open
printf 'history 1\ncall 0 0 f() ends\ncells\nn 01\nend\n' >bad_history
printf 'lock G;\nglobal int n protected_by(G);\natomic f() { while (n < 3) { n = n + 1; } }\nthread t { f(); }\n' >loop.al
printf 'history 1\ncall 0 0 f() ends\ncells\nn 3\nend\n' >loop_history
echo same >same
echo 'differs at line 4' >differs
echo 'unsettled at line 2' >unsettled
echo 'bad_history:4: H2 bad line' >history_fault
echo 'some text' >some
echo "autolock $(cat "$top/VERSION")" >version

# Whether an output is the wanted one, which `some` stands for where only some text is wanted.
is() { if [ "$2" = some ]; then [ -s "$1" ]; else cmp -s "$1" "$2"; fi; }

# A name, the status, and the files of what stands on standard output and on standard error.
judge() {
    name=$1 wanted=$2 status=$3
    if [ "$status" = "$wanted" ] && is out "$4" && is err "$5"; then
        echo "ok $name"
    else
        echo "FAILED $name: status $status"
        head -n 3 out err
        failed=1
    fi
}

# The same, of a run with the words that follow.
run() {
    name=$1 wanted=$2 wrote=$3 told=$4
    shift 4
    "$program" "$@" >out 2>err </dev/null
    judge "$name" "$wanted" $? "$wrote" "$told"
}

run "done" 0 history none serial right.al
run "turns" 0 history none serial --turns 0 right.al
run "outcomes" 0 outcomes none outcomes right.al
run "outcomes, of a cell" 0 outcomes none outcomes --cells n --full right.al
run "outcomes, of a cell that is not there" 6 none no_cell outcomes --cells n,m right.al
run "outcomes, as is expected" 0 expected none outcomes --expect 'n == 1' right.al
run "outcomes, not as is expected" 9 unexpected none outcomes --expect 'n > 1' right.al
run "outcomes, of a text that is no comparison" 6 none no_comparison outcomes --expect 'n ==' right.al
run "outcomes, where a cell is expected that is not there" 6 none no_cell outcomes --expect 'm == 1' right.al
run "outcomes, with more orders than are looked at" 0 drawn none outcomes --count 0 right.al
run "check" 0 checked none check right.al
run "check, with the source" 0 sourced none check --source right.al
run "explain" 0 accepted none explain right.al
run "explain, as JSON" 0 accepted_json none explain --json right.al
run "order" 0 ordered none order right.al
run "listing" 0 listed none listing right.al
run "listing, with places" 0 listed_places none listing --places right.al
run "simulate" 0 simulated none simulate right.al two_steps
run "trace" 0 traced none trace right.al two_steps
run "trace, of sections" 0 traced_sections none trace --sections right.al two_steps
run "run" 0 history_2 none run right.al
run "replay" 0 same none replay right.al history
run "replay, of the second format" 0 same none replay right.al history_2
run "replay, with turns enough" 0 same none replay --turns 3 loop.al loop_history
run "replay, of calls from outside" 0 same none replay --open right.al open_history
run "replay, of calls from outside that differ" 5 differs_open none replay --open --why right.al other_open_history
run "another history" 5 differs none replay right.al other_history
run "a fault of the history" 6 none history_fault replay right.al bad_history
run "a call past its turns" 7 unsettled none replay --turns 2 loop.al loop_history
run "a call past its turns, of outcomes" 7 unsettled_call none outcomes --turns 2 loop.al
run "a fault, of outcomes" 1 none fault outcomes wrong.al
run "a fault, of run" 1 none fault run wrong.al
run "a fault, of replay" 1 none fault replay wrong.al bad_history
run "a fault" 1 none fault serial wrong.al
run "a fault, of simulate" 1 none fault simulate wrong.al bad_steps
run "a fault of the steps" 6 none steps_fault simulate right.al bad_steps
run "a fault, of trace" 1 none fault trace wrong.al bad_steps
run "a fault of the steps, of trace" 6 none steps_fault trace right.al bad_steps
run "a fault, of check" 1 none fault check wrong.al
run "a fault, of explain" 1 explained none explain wrong.al
run "a fault, of explain, as JSON" 1 explained_json none explain --json wrong.al
run "a fault, of order" 1 none fault order wrong.al
run "a fault, of listing" 1 none fault listing wrong.al
run "a fault, of emit" 1 none fault emit wrong.al
run "a lock order cycle" 1 none circle serial cycle.al
run "a lock order cycle, of check" 1 none circle check cycle.al
run "a lock order cycle, of order" 1 cyclic_order circle order cycle.al
run "a lock order cycle, of outcomes" 1 none circle outcomes cycle.al
run "a lock order cycle, of listing" 1 none circle listing cycle.al
run "a lock order cycle, of emit" 1 none circle emit cycle.al
run "no words" 2 none some
run "another command" 2 none some walk right.al
run "no file" 2 none some serial
run "no file, of check" 2 none some check
run "no file, of explain" 2 none some explain
run "no file, of order" 2 none some order
run "no file, of listing" 2 none some listing
run "no file, of emit" 2 none some emit
run "a bad prefix, of emit" 2 none some emit --prefix a_b right.al
run "no file, of outcomes" 2 none some outcomes
run "no steps file" 2 none some simulate right.al
run "no steps file, of trace" 2 none some trace right.al
run "sections, of simulate" 2 none some simulate --sections right.al two_steps
run "no history file" 2 none some replay right.al
run "turns, of run" 2 none some run --turns 3 right.al
run "three files, of simulate" 2 none some simulate right.al two_steps two_steps
run "two files" 2 none some serial right.al wrong.al
run "two files, of check" 2 none some check right.al wrong.al
run "turns, of check" 2 none some check --turns 3 right.al
run "turns, of explain" 2 none some explain --turns 3 right.al
run "turns, of order" 2 none some order --turns 3 right.al
run "turns, of listing" 2 none some listing --turns 3 right.al
run "too many turns" 2 none some serial --turns 1000000001 right.al
run "too large a count" 2 none some outcomes --count 1000000001 right.al
run "too large a seed" 2 none some outcomes --seed 1000000001 right.al
run "a count, of serial" 2 none some serial --count 3 right.al
run "turns that are no number" 2 none some serial --turns many right.al
run "help" 0 some none --help
for command in check explain format order listing emit serial outcomes simulate trace run replay lsp; do
    if grep -q "^  $command  " out; then
        echo "ok help lists $command"
    else
        echo "FAILED help lists $command"
        failed=1
    fi
done
run "version" 0 version none --version
run "help on a command" 0 some none serial --help
run "help on check" 0 some none check --help
run "a file that is not there" 3 none no_missing.al serial missing.al
run "a file that is not there, of check" 3 none no_missing.al check missing.al
run "a file that is not there, of explain" 3 none no_missing.al explain missing.al
run "a file that is not there, of format" 3 none no_missing.al format missing.al
run "a file that is not there, of order" 3 none no_missing.al order missing.al
run "a file that is not there, of outcomes" 3 none no_missing.al outcomes missing.al
run "a file that is not there, of listing" 3 none no_missing.al listing missing.al
run "a file that is not there, of emit" 3 none no_missing.al emit missing.al
run "a file that is not there, of simulate" 3 none no_missing.al simulate missing.al two_steps
run "a steps file that is not there" 3 none no_missing.al simulate right.al missing.al
run "a steps file that is not there, and a fault" 3 none no_missing.al simulate wrong.al missing.al
run "a steps file that is not there, of trace" 3 none no_missing.al trace right.al missing.al
run "a folder for a steps file, of trace, and a fault" 3 none no_folder trace wrong.al folder
run "a folder" 3 none no_folder serial folder
run "a folder for a steps file" 3 none no_folder simulate right.al folder
run "a folder for a steps file, and a fault" 3 none no_folder simulate wrong.al folder
run "a folder for a history file, and a fault" 3 none no_folder replay wrong.al folder
run "a history file that is not there" 3 none no_missing.al replay right.al missing.al
run "a file that is not there, of run" 3 none no_missing.al run missing.al
run "a folder, and no steps file" 3 none no_folder simulate folder missing.al
run "a folder, of check" 3 none no_folder check folder
run "a folder, of format" 3 none no_folder format folder
run "a folder, of order" 3 none no_folder order folder
run "a folder, of explain" 3 none no_folder explain folder

# A program's file is read no further than a byte past what a program may have.
head -c 209715200 /dev/zero >long.al
for name in long.al /dev/zero; do echo "$name:1:1: E15 limit exceeded" >"too_long_${name##*/}"; done
most=$(ulimit -S -v)
ulimit -S -v 65536
for command in check order listing emit serial run; do
    run "a file of 200 MB, of $command" 1 none too_long_long.al $command long.al
    run "a file without an end, of $command" 1 none too_long_zero $command /dev/zero
done
{
    cat too_long_zero
    printf '  %s..\n' "$(printf '<00>%.0s' $(seq 60))"
    printf '  ^\nnote: a source has at most 1048576 bytes\nhelp: split what is too large; the limits are fixed\n'
} >zeros
run "a file without an end, of explain" 1 zeros none explain /dev/zero
run "a file without an end, of simulate" 1 none too_long_zero simulate /dev/zero two_steps
run "a file without an end, of trace" 1 none too_long_zero trace /dev/zero two_steps
ulimit -S -v "$most"
rm long.al

: >out
"$program" serial right.al >/dev/full 2>err </dev/null
judge "an output that is full" 3 $? none unwritten
"$program" check right.al >/dev/full 2>err </dev/null
judge "an output that is full, of check" 3 $? none unwritten
"$program" explain right.al >/dev/full 2>err </dev/null
judge "an output that is full, of explain" 3 $? none unwritten
"$program" explain wrong.al >/dev/full 2>err </dev/null
judge "an output that is full, of explain, and a fault" 3 $? none unwritten
"$program" order right.al >/dev/full 2>err </dev/null
judge "an output that is full, of order" 3 $? none unwritten
"$program" listing right.al >/dev/full 2>err </dev/null
judge "an output that is full, of listing" 3 $? none unwritten
"$program" simulate right.al two_steps >/dev/full 2>err </dev/null
judge "an output that is full, of simulate" 3 $? none unwritten
"$program" trace right.al two_steps >/dev/full 2>err </dev/null
judge "an output that is full, of trace" 3 $? none unwritten
"$program" run right.al >/dev/full 2>err </dev/null
judge "an output that is full, of run" 3 $? none unwritten
"$program" replay right.al history >/dev/full 2>err </dev/null
judge "an output that is full, of replay" 3 $? none unwritten
"$program" --help >/dev/full 2>err </dev/null
judge "help on an output that is full" 3 $? none unwritten
: >err
"$program" serial wrong.al >out 2>/dev/full </dev/null
judge "a standard error that is full" 1 $? none none
"$program" check wrong.al >out 2>/dev/full </dev/null
judge "a standard error that is full, of check" 1 $? none none

exit $failed
