#!/usr/bin/env bash
# Compares what ./autolock says of its words without the program (script/words.sh, script/help) with what the program
# says: the bytes of both outputs, and the status. Compares the files of completions/ and docs/autolock.1 with the help.
#
#     tests/words.sh [BIN]      by default the program that ./autolock --build leaves
set -u

top=$(cd -- "$(dirname -- "$0")/.." && pwd -P)
if [ $# -gt 0 ]; then
    program=$(realpath -- "$1")
else
    "$top/autolock" --build || exit 1
    program=$top/crates/autolock/out/autolock
fi
work=$(mktemp -d)
trap 'rm -rf "$work"' EXIT
mkdir "$work/bin" "$work/in"
cp -r "$top/autolock" "$top/script" "$top/VERSION" "$work"
: >"$work/crates.txt"
# Where the script asks for the toolchain, it has not judged the words.
printf '#!/bin/sh\necho "the toolchain was called"\n' >"$work/bin/rt"
chmod +x "$work/bin/rt"
PATH=$work/bin:$PATH
export LC_ALL=C.UTF-8
cd "$work/in" || exit 1
: >right.al
mkdir folder
failed=0
count=0

fail() {
    echo "FAILED $1"
    failed=1
}

# The words, said to both.
same() {
    local wanted status
    "$program" "$@" >../wanted.out 2>../wanted.err </dev/null
    wanted=$?
    timeout 20 ../autolock "$@" >../out 2>../err </dev/null
    status=$?
    count=$((count + 1))
    if [ $status -ne $wanted ] || ! cmp -s ../out ../wanted.out || ! cmp -s ../err ../wanted.err; then
        fail "'$*': status $status, and of the program $wanted"
        cat ../wanted.out ../wanted.err >../wanted
        cat ../out ../err | diff ../wanted - | head -n 10
    fi
}

# Help and the version.
same --help
same -h
same help
same --version
same -V
same -hV
same -Vh
same -hx
for command in check explain format order listing emit serial outcomes schedule simulate trace run replay lsp; do
    same help "$command"
    same "$command" --help
    same "$command" -h
    same "$command" -hx
    same "$command" right.al --help
    # (`lsp` alone needs the program)
    [ "$command" = lsp ] || same "$command"
    [ "$command" = lsp ] || same "$command" --
    same "$command" -x
    same "$command" --foo
    same "$command" --foo=3
    same "$command" --version
    same "$command" --help=x
    same "$command" --hel
    same "$command" right.al --foo
    same "$command" right.al -- --foo x
    same "$command" missing.al missing.al
    same "$command" a b c
    same "$command" --turns
    same help "$command" x
done
same help help
same help help help
same help help x
same help nothing
same help -x
same help --
same help ''
same help check check

# Other commands.
same
same ''
same -
same --
same -x
same -xh
same -v check right.al
same --foo
same --hlp
same --versoin
same --verbose
same --help=x
same --version=1
same --turns 3 serial right.al
same --turns 3 check right.al
same -- check right.al
same -- nothing
same -- chek
for word in chek Check CHECK checks c lis list listin lsiting seral seriall sim simulat simulation s hlep halp helper \
    rnu rum ordr oder orders replya repla expl explian foobar größe trcae traces tra prints seril stimulate outcome outcoms comes; do
    same "$word" right.al
done

# Options without a value, of commands that read one file.
while read -r command flag; do
    same "$command" "$flag"
    same "$command" "$flag" missing.al
    same "$command" missing.al "$flag"
    same "$command" "$flag" "$flag" right.al
    same "$command" "$flag=x" right.al
    same "$command" "${flag%?}" right.al
    same "$command" "$flag" right.al --foo
    same "$command" "$flag" --hel
    same "$command" "$flag" a b c
    same check "$flag" right.al
    same "$flag" "$command" right.al
done <<'END'
serial --changed
schedule --worst
trace --all
END

# Options with one.
while read -r command option good bad; do
    same "$command" "$option"
    same "$command" "$option" "$good"
    same "$command" "$option" "$good" missing.al
    same "$command" "$option=$good" missing.al
    same "$command" missing.al "$option" "$good"
    same "$command" "$option" "$bad" missing.al
    same "$command" "$option=$bad" missing.al
    same "$command" "$option=" missing.al
    same "$command" "$option" '' missing.al
    same "$command" "$option" "$good" "$option" "$good" right.al
    same "$command" "$option" -- right.al
    same "$command" "$option" -h right.al
    same "$command" "$option" -x right.al
    same "$command" "$option" --help right.al
    same "$command" "$option" "$option" right.al
    same "$command" "${option%?}" "$good" right.al
    same "$command" "$option" "$good" right.al --foo
    same "$command" "$option" "$good" a b c
    same check "$option" "$good" right.al
    same "$option" "$good" "$command" right.al
done <<'END'
explain --color always red
explain --color auto Always
outcomes --expect a==3 1000000001
schedule --seed 3 1000000001
schedule --length 3 x
run --seed 0 -1
run --times 1 0
run --times 1000000 1000001
END
same explain --json --color never missing.al
same explain --color red E14
same explain --color red E21
same explain --color red
same schedule --seed 3 --length 4 --worst missing.al
same schedule --worst --seed 3 --foo missing.al
same schedule --length 3 --worst
same run --seed 3 --times 4 missing.al
same run --times 4 --seed 3
same trace --all --sections missing.al missing.al
same trace --sections --all
same serial --changed --turns 3 missing.al
same serial --turns 3 --changed
same outcomes --full --expect a==3 --cells a missing.al

# Codes.
for word in E00 E21 e99 E1 E011 F01 E0x; do
    same explain "$word"
    same explain -- "$word"
    same explain --json "$word"
done
same check E21
same explain E21 x

# Arguments of `replay`.
same replay right.al
same replay --turns 3
same replay --turns 3 right.al
same replay --turns 3 right.al missing.al --foo
same replay right.al --turn
same replay --turns=3 right.al --foo
same replay --turns 3 --turns 4 right.al missing.al
same replay --turns 1000000001 right.al missing.al
same --turn 3 replay right.al
same replay --why
same replay --why right.al
same replay --why right.al missing.al
same replay --turns 3 --why right.al
same replay --why --turns 3 right.al
same replay --why --why right.al missing.al
same replay --why=x right.al missing.al
same replay --turns 3 --why=x right.al missing.al
same replay --wy right.al missing.al
same replay --turns 3 --wh right.al missing.al
same replay --why --turn right.al missing.al
same replay --why right.al --foo
same replay --why --hel
same replay --why a b c
same replay --open
same replay --open right.al
same replay --open right.al missing.al
same replay --turns 3 --open right.al
same replay --open --why right.al
same replay --why --open --turns 3 right.al
same replay --open --open right.al missing.al
same replay --open=x right.al missing.al
same replay --why --open=x right.al missing.al
same replay --open --why=x right.al missing.al
same replay --turns 3 --open=x right.al missing.al
same replay --turns 3 --why --open=x right.al missing.al
same replay --why --turns 3 --open=x right.al missing.al
same replay --turns 3 right.al --open=x missing.al
same replay --open --open=x right.al missing.al
same replay --open --why --foo right.al missing.al
same replay --opn right.al missing.al
same replay --turns 3 --op right.al missing.al
same replay --open right.al --foo
same replay --open a b c
same replay --turns --open right.al missing.al
same replay --turns --open=x right.al missing.al
same serial --open right.al
same --open replay right.al
same serial --why right.al
same explain --json
same explain --json right.al --foo
same explain --json --json right.al
same explain right.al --json missing.al
same explain --json=x right.al
same explain --jsn right.al
same explain --js right.al
same explain --json --hel
same explain --json a b
same explain --why right.al
same check --json right.al
same --json explain right.al
same --jso explain right.al
same explain --json missing.al
same check --source
same check --source missing.al
same check missing.al --source
same check --source --source right.al
same check --source=x right.al
same check --sourc right.al
same check --source right.al --foo
same check --source a b
same listing --source right.al
same --source check right.al
same listing --places
same listing --places missing.al
same listing missing.al --places
same listing --places --places right.al
same listing --places=x right.al
same listing --place right.al
same listing --places right.al --foo
same listing --places a b
same check --places right.al
same --places listing right.al
same emit --header
same emit --header missing.al
same emit missing.al --header
same emit --header --header right.al
same emit --header=x right.al
same emit --head right.al
same emit --header right.al --foo
same emit --header a b
same emit --lines
same emit --lines missing.al
same emit missing.al --lines --header
same emit --lines --lines right.al
same emit --lines=x right.al
same emit --line right.al
same emit --lines right.al --foo
same emit --prefix --lines right.al
same emit --prefix --lines=x right.al
same check --lines right.al
same --lines emit right.al
same emit --prefix
same emit --prefix x
same emit --prefix x missing.al
same emit --prefix=x missing.al
same emit --prefix x --prefix y right.al
same emit --prefix --header right.al
same emit --prefix --header=x right.al
same emit --prefix --headerx right.al
same emit --prefix --help right.al
same replay --turns --why right.al missing.al
same replay --turns --why=x right.al missing.al
same emit --prefix -- right.al
same emit --prefix -h right.al
same emit --prefix -x right.al
same emit --prefix= right.al
same emit --prefix '' right.al
same emit --prefix a_b right.al
same emit --prefix a-- right.al
same emit --prefix 1a right.al
same emit --prefix AL right.al
same emit --prefix autolock right.al
same emit --prefix abcdefghijklmnopqrstuvwxyzabcdef missing.al
same emit --prefix abcdefghijklmnopqrstuvwxyzabcdefg missing.al
same emit --prefix a_b
same emit --prefi x right.al
same emit --prefix x --foo right.al
same emit --prefix x a b
same check --header right.al
same check --prefix x right.al
same --header emit right.al
same --prefix x emit right.al
same trace --sections
same trace --sections right.al
same trace --sections right.al missing.al
same trace right.al --sections missing.al
same trace --sections --sections right.al missing.al
same trace --sections=x right.al missing.al
same trace --section right.al missing.al
same trace --why right.al missing.al
same trace --turns 3 right.al missing.al
same trace --sections right.al --foo
same trace --sections --hel
same trace --sections a b c
same simulate --sections right.al missing.al
same --sections trace right.al
same --section trace right.al
same trace missing.al nothing
same -- trace right.al
same -- run right.al
same -- replay right.al
same --why replay right.al

# Arguments of `serial`.
for turns in -1 --x -h --help -- - '' x 0x10 1_000 ' 5' +5 1000000001 01000000001 18446744073709551615 \
    18446744073709551616 99999999999999999999 3; do
    same serial --turns "$turns" missing.al
    same serial --turns="$turns" missing.al
done
same serial --turns 3
same serial --turns=3 --
same serial --turns 3 a b
same serial --turns 1 --turns 2 a
same serial --turns 1 --turns=2 a
same serial --turns x --turns 2 a
same serial a b --turns x
same serial --turns x a b
same serial a --turns
same serial --turn 3 a
same serial --tunrs a
same serial -t 3 a
same serial a --foo
same serial --turns 3 --foo
same serial --turns 3 a --foo
same serial --turns 3 a --hel
same serial a --hel
same serial --turns 3 --turn 4
same serial --turns 3 --help=x
same serial --turns 3 a -x

# Arguments of `outcomes`.
for option in count seed turns; do
    for number in -1 --x -h -- '' x +5 1000000001 18446744073709551616 --count --seed=3 3; do
        same outcomes --$option "$number" missing.al
        same outcomes --$option="$number" missing.al
    done
    same outcomes --$option
    same outcomes --$option 3
    same outcomes --$option 3 a b
    same outcomes --$option 3 --$option 4 a
    same outcomes --$option 3 --foo
    same outcomes --$option 3 a --foo
    same outcomes --$option 3 a -x
    same outcomes --$option 3 --hel
    same --$option 3 outcomes right.al
    same serial --$option 3
    same --${option%?} 3 outcomes right.al
    same outcomes --${option%?} 3 a
done
same outcomes --count 3 --seed 4 --turns 5 missing.al
same outcomes --turns 5 --seed 4 --count 3
same outcomes --turns 5 --seed 4 --coun 3
same outcomes --seed 4 --why right.al
same outcomes --cells n --answers --full missing.al
same outcomes --cells=n,m missing.al
same outcomes --cells
same outcomes --cells n
same outcomes --cells n --cells m right.al
same outcomes --cells --full right.al
same outcomes --cells -x right.al
same outcomes --cells= missing.al
same outcomes --cells '' missing.al
same outcomes --answers --answers right.al
same outcomes --full=x right.al
same outcomes --ful right.al
same outcomes --cell n right.al
same serial --cells n right.al
same serial --full right.al
same -- outcomes right.al

# Files that can't be read.
same check missing.al
same check folder
same check ''
same check -
same check -- -dash.al
same check -dash.al
same check right.al/
same explain missing.al
same order missing.al
same outcomes missing.al
same explain folder
same simulate missing.al nothing
same simulate right.al missing.al
same simulate folder missing.al
same simulate missing.al right.al
same serial --turns 3 missing.al

# The completions and the manual page name what the help names.
commands=$(sed -n '/^Commands:/,/^$/s/^  \([a-z]*\) .*/\1/p' "$top/script/help/autolock.txt")
options=$(sed -n 's/^ *\(-[a-zA-Z], \)\{0,1\}--\([a-z]*\).*/\2/p' "$top"/script/help/*.txt | sort -u)
[ "$(echo $commands)" = "check explain format order listing emit serial outcomes schedule simulate trace run replay lsp help" ] || fail "the commands of the help: $commands"
[ "$(echo $options)" = "all answers cells changed color count expect full header help json length lines open places prefix sections seed source times turns version why worst" ] || fail "the options of the help: $options"
for file in completions/autolock.bash completions/_autolock completions/autolock.fish docs/autolock.1; do
    for word in $commands $options; do
        sed 's/\\-/-/g' "$top/$file" | grep -qw -- "$word" || fail "$file lacks $word"
    done
done
for command in $commands; do
    about=$(sed -n "s/^  $command  *\(.*\)/\1/p" "$top/script/help/autolock.txt")
    for file in completions/_autolock completions/autolock.fish; do
        # (zsh wants a colon in a description as \:, and both have their ways to write ')
        sed "s/\\\\:/:/g; s/'\"'\"'/'/g; s/\\\\'/'/g" "$top/$file" | grep -qF -- "$about" || fail "$file says something else of $command"
    done
done

# What bash completes.
completes() {
    local wanted=$1
    shift
    COMP_WORDS=(autolock "$@")
    COMP_CWORD=$#
    COMPREPLY=()
    _autolock 2>/dev/null
    [ "$(printf '%s\n' "${COMPREPLY[@]}" | sort | xargs)" = "$wanted" ] ||
        fail "bash completes '$*' by '${COMPREPLY[*]}'"
}
. "$top/completions/autolock.bash"
: >x.steps
completes "check emit explain format help listing lsp order outcomes replay run schedule serial simulate trace" ''
completes "schedule serial simulate" s
completes "right.al" order r
completes "--build --help --install --proved --uninstall --unproved --version -V -h" -
completes "check emit explain format help listing lsp order outcomes replay run schedule serial simulate trace" --unproved ''
completes "--turns" serial --t
completes "--header" emit --hea
completes "--prefix" emit --p
completes "--lines" emit --l
completes "" emit --prefix ''
completes "--why" replay --w
completes "--source" check --s
completes "--json" explain --j
completes "--cells --count" outcomes --c
completes "--answers" outcomes --a
completes "--full" outcomes --f
completes "--seed" outcomes --s
completes "--expect" outcomes --e
completes "" outcomes --expect ''
completes "--changed" serial --ch
completes "--worst" schedule --w
completes "--times" run --ti
completes "--all" trace --a
completes "--color" explain --c
completes "always auto never" explain --color ''
completes "right.al" outcomes r
completes "folder right.al" outcomes --count 3 ''
completes "" outcomes --seed ''
completes "" outcomes --cells ''
completes "folder right.al" check ''
completes "right.al" check r
completes "folder x.steps" simulate right.al ''
completes "folder right.al" serial --turns 3 ''
completes "" serial --turns ''
completes "simulate" help si

echo "$count lists of words"
exit $failed
