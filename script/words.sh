# What `autolock` says of its words, said without the program: help, the version, and what is wrong with the words.
# ./autolock uses it where the program isn't built; tests/words.sh compares each answer with the program's.
#
#     judge_words WORDS..     answers and exits, or sets `command`, a variable for each option of `options_of` that is given (its
#                             value, of a number without zeros in front; 1 of one without a value), and `files`
#
# `top` is the folder of the repository.
# shellcheck disable=SC2154,SC2016

command=
commands=(check explain format order listing emit serial outcomes schedule simulate trace run replay lsp)
turns= count= seed= length= times= prefix= cells= color= expect=
json= source= places= header= lines= changed= answers= full= worst= sections= all= why= open=
has_prefix= has_cells= has_color= has_expect=
used=
settled=
files=()

no_code='there is no such code: they are E01 to E20; a file of that name is written ./NAME'
bad_prefix='--prefix takes a letter, then at most 31 letters and digits, and not AL or autolock'
bad_color='--color takes auto, always or never'

# Writes a text of script/help, and exits.
show_help() {
    cat "$top/script/help/$1.txt" 2>/dev/null || {
        say "cannot write"
        exit 3
    }
    exit 0
}

show_version() {
    echo "autolock $(cat "$top/VERSION")" 2>/dev/null || {
        say "cannot write"
        exit 3
    }
    exit 0
}

# What is wrong, how the words should look, and a tip; the last two may be left out.
refuse() {
    printf 'error: %s\n' "$1"
    [ -z "${3-}" ] || printf '\n  tip: %s\n' "$3"
    [ -z "${2-}" ] || printf '\nUsage: autolock %s\n' "$2"
    printf "\nFor more information, try '--help'.\n"
    exit 2
} >&2

# Of `explain` a word that is written as codes are is one, unless JSON is asked for, and no file is read.
judge_code() {
    case $1 in
        [Ee]0[1-9] | [Ee]1[0-9] | [Ee]20) files=() ;;
        [Ee][0-9][0-9]) refuse "$no_code" "$(usage_of '')" ;;
    esac
}

# What a command calls its second file, if it reads one.
other_of() {
    case $1 in
        simulate | trace) echo '<STEPS>' ;;
        replay) echo '<HISTORY>' ;;
    esac
}

names_of() {
    local other
    other=$(other_of "$1")
    echo "<FILE>${other:+ $other}"
}

# The options of a command, in the order of its help.
options_of() {
    case $1 in
        check) echo source ;;
        explain) echo json color ;;
        listing) echo places ;;
        emit) echo header prefix lines ;;
        serial) echo turns changed ;;
        outcomes) echo count seed turns cells answers full expect ;;
        schedule) echo seed length worst ;;
        trace) echo sections all ;;
        run) echo seed times ;;
        replay) echo turns why open ;;
    esac
}

takes_options() { [ -n "$(options_of "$command")" ]; }

takes_value() {
    case $1 in
        turns | count | seed | length | times | prefix | cells | color | expect) return 0 ;;
    esac
    return 1
}

# Those that have a value, and those that don't.
valued_of() {
    local option
    for option in $(options_of "$1"); do ! takes_value "$option" || echo "$option"; done
}

flags_of() {
    local option
    for option in $(options_of "$1"); do takes_value "$option" || echo "$option"; done
}

# One of these, with what its value is called.
with_value() {
    case $1 in
        prefix) echo '--prefix <NAME>' ;;
        cells) echo '--cells <NAMES>' ;;
        color) echo '--color <WHEN>' ;;
        expect) echo '--expect <COMPARISON>' ;;
        *) echo "--$1 <N>" ;;
    esac
}

# How the words of a command look; with a second word, where that option is among them.
usage_of() {
    local option=${2-}
    case $1 in
        format | order) echo "$1 ${option:+$option }<FILE>" ;;
        lsp) echo "$1${option:+ $option}" ;;
        check | serial | explain | listing | emit | outcomes | schedule | run) echo "$1 ${option:-[OPTIONS]} <FILE>" ;;
        replay) echo "replay ${option:-[OPTIONS]} <FILE> <HISTORY>" ;;
        trace) echo "trace ${option:-[OPTIONS]} <FILE> <STEPS>" ;;
        simulate) echo "simulate ${option:+$option }<FILE> <STEPS>" ;;
        *) echo "${option:+$option }<COMMAND>" ;;
    esac
}

# The options that were used with one more, in the order in which they came. `settled` are those before the last word or
# option with its value.
used_with() {
    case " $used " in
        *" $1 "*) echo "$used" ;;
        *) echo "${used:+$used }$1" ;;
    esac
}

# How alike two words are, from 0 to 1000000: Jaro's measure.
likeness() {
    local a=$1 b=$2 i j range kept='' taken='' matches=0 differing=0 found=''
    local -A used=()
    [ "$a" != "$b" ] || { echo 1000000; return; }
    range=$(((${#a} > ${#b} ? ${#a} : ${#b}) / 2 - 1))
    [ $range -ge 0 ] || range=0
    for ((i = 0; i < ${#a}; i++)); do
        for ((j = i > range ? i - range : 0; j <= i + range && j < ${#b}; j++)); do
            if [ "${a:i:1}" = "${b:j:1}" ] && [ -z "${used[$j]-}" ]; then
                used[$j]=1
                kept+=${a:i:1}
                break
            fi
        done
    done
    for ((j = 0; j < ${#b}; j++)); do [ -z "${used[$j]-}" ] || taken+=${b:j:1}; done
    matches=${#kept}
    [ "$matches" -gt 0 ] || { echo 0; return; }
    for ((i = 0; i < matches; i++)); do [ "${kept:i:1}" = "${taken:i:1}" ] || differing=$((differing + 1)); done
    found=$((matches - differing / 2))
    echo $(((matches * 1000000 / ${#a} + matches * 1000000 / ${#b} + found * 1000000 / matches) / 3))
}

# Of these words those that are like the first one, the one that is most like it last.
similar() {
    local word=$1 other
    shift
    for other in "$@"; do
        echo "$(likeness "$word" "$other") $other"
    done | awk '$1 > 700000' | sort -s -n -k1,1 | cut -d' ' -f2
}

refuse_command() {
    local names tip=
    mapfile -t names < <(similar "$1" "${commands[@]}" help)
    case ${#names[@]} in
        0) ;;
        1) tip="a similar subcommand exists: '${names[0]}'" ;;
        *)
            tip=$(printf "'%s', " "${names[@]}")
            tip="some similar subcommands exist: ${tip%, }"
            ;;
    esac
    refuse "unrecognized subcommand '$1'" "$(usage_of '')" "$tip"
}

# An option `--NAME` that the command doesn't have; the words after it follow.
refuse_long() {
    local name=$1 near='' options word used=$used
    shift
    read -ra options <<<"$(options_of "$command") help"
    [ -n "$command" ] || options=(help version)
    near=$(similar "$name" "${options[@]}" | tail -n 1)
    if takes_value "$near"; then
        used=$(used_with "$(with_value "$near")")
    elif [ -n "$near" ]; then
        used=$(used_with "--$near")
    fi
    if [ -n "$near" ]; then
        refuse "unexpected argument '--$name' found" "$(usage_of "$command" "$used")" \
            "a similar argument exists: '--$near'"
    elif takes_options && [ "$used${#files[@]}" != 0 ]; then
        refuse "unexpected argument '--$name' found" "$command ${used:+$used }$(names_of "$command")" \
            "to pass '--$name' as a value, use '-- --$name'"
    elif [ "$command" = lsp ]; then
        refuse "unexpected argument '--$name' found" "$(usage_of "$command")"
    elif [ -n "$command" ]; then
        refuse "unexpected argument '--$name' found" "$(usage_of "$command")" \
            "to pass '--$name' as a value, use '-- --$name'"
    fi
    for word in "$@"; do
        if is_command "$word"; then
            read -ra options <<<"$(options_of "$word") help"
            near=$(similar "$name" "${options[@]}" | tail -n 1)
        fi
        [ -z "$near" ] || refuse "unexpected argument '--$name' found" "$(usage_of '')" "'$word --$near' exists"
    done
    refuse "unexpected argument '--$name' found" "$(usage_of '')"
}

is_command() {
    local known
    for known in "${commands[@]}"; do
        [ "$1" != "$known" ] || return 0
    done
    return 1
}

# The words after `help`.
judge_help() {
    local name=${1-autolock}
    case $name in
        autolock) [ $# -eq 0 ] || refuse "unrecognized subcommand '$1'" "$(usage_of '')" ;;
        help) ;;
        *) is_command "$name" || refuse "unrecognized subcommand '$1'" "$(usage_of '')" ;;
    esac
    [ $# -gt 1 ] || show_help "$name"
    if [ "$name" = help ]; then
        printf "error: unrecognized subcommand '%s'\n\nUsage: autolock help [COMMAND]...\n" "$2" >&2
        exit 2
    fi
    refuse "unrecognized subcommand '$2'" "$(usage_of "$name")"
}

# The value of an option whose value is a number.
judge_number() {
    local name=$1 value=$2 digits=${2#+} least most=18446744073709551615 lowest=0 highest=1000000000
    [ "$name" != times ] || lowest=1 highest=1000000
    [ -n "$value" ] || refuse "invalid value '' for '--$name <N>': cannot parse integer from empty string"
    case $digits in
        '' | *[!0-9]*) refuse "invalid value '$value' for '--$name <N>': invalid digit found in string" ;;
    esac
    least=${digits#"${digits%%[!0]*}"}
    least=${least:-0}
    if [ ${#least} -gt 20 ] || { [ ${#least} -eq 20 ] && [[ $least > $most ]]; }; then
        refuse "invalid value '$value' for '--$name <N>': number too large to fit in target type"
    elif [ ${#least} -gt 10 ] || [ "$least" -gt $highest ] || [ "$least" -lt $lowest ]; then
        refuse "invalid value '$value' for '--$name <N>': $least is not in $lowest..=$highest"
    fi
    [ -z "${!name}" ] || refuse "the argument '--$name <N>' cannot be used multiple times" "$(usage_of "$command")"
    printf -v "$name" %s "$least"
    used=$(used_with "--$name <N>")
}

# Whether the command has this one, without or with a value.
is_flag() {
    local flag
    for flag in $(flags_of "$command"); do
        [ "$1" != "$flag" ] || return 0
    done
    return 1
}

is_valued() {
    local valued
    for valued in $(valued_of "$command"); do
        [ "$1" != "$valued" ] || return 0
    done
    return 1
}

judge_flag() {
    [ -z "${!1}" ] || refuse "the argument '--$1' cannot be used multiple times" "$(usage_of "$command")"
    printf -v "$1" 1
    used=$(used_with "--$1")
    settled=$used
}

# The value of an option whose value is a text. Whether it is one that may stand there is judged behind all words.
judge_text() {
    local name=$1 has=has_$1
    [ -z "${!has}" ] || refuse "the argument '$(with_value "$name")' cannot be used multiple times" "$(usage_of "$command")"
    printf -v "$has" 1
    printf -v "$name" %s "$2"
    used=$(used_with "$(with_value "$name")")
}

judge_value() {
    case $1 in
        prefix | cells | color | expect) judge_text "$@" ;;
        *) judge_number "$@" ;;
    esac
}

# The words from an option with a value on.
judge_valued() {
    local name=${1#--} valued none
    none="a value is required for '$(with_value "$name")' but none was supplied"
    [ $# -gt 1 ] || refuse "$none"
    for valued in $(valued_of "$command"); do
        case $2 in
            "--$valued"*) refuse "$none" ;;
        esac
    done
    for valued in $(flags_of "$command"); do
        [ "$2" != "--$valued" ] || refuse "$none"
    done
    case $2 in
        -- | -h* | --help) refuse "$none" ;;
        --?*) judge_long "${@:2}" ;;
        -?*) judge_short "$2" ;;
    esac
    judge_value "$name" "$2"
}

# An option `--NAME` or `--NAME=VALUE` of the command, and the words after it.
judge_long() {
    local word=${1#--} name
    shift
    name=${word%%=*}
    case $name in
        help | version)
            [ "$name" = help ] || [ -z "$command" ] || refuse_long "$name" "$@"
            [ "$name" = "$word" ] || refuse \
                "unexpected value '${word#*=}' for '--$name' found; no more were expected" \
                "$(usage_of "$command" "--$name")"
            [ "$name" = help ] || show_version
            show_help "${command:-autolock}"
            ;;
        *)
            is_flag "$name" || refuse_long "$name" "$@"
            used=$settled
            refuse "unexpected value '${word#*=}' for '--$name' found; no more were expected" \
                "$(usage_of "$command" "$(used_with "--$name")")"
            ;;
    esac
}

# Options `-ABC`.
judge_short() {
    local letter=${1:1:1}
    case $command$letter in
        *h) show_help "${command:-autolock}" ;;
        V) show_version ;;
    esac
    local tip="to pass '-$letter' as a value, use '-- -$letter'"
    case $command in
        '' | lsp) tip= ;;
    esac
    refuse "unexpected argument '-$letter' found" "$(usage_of "$command")" "$tip"
}

# Whether names of C may begin with it.
is_prefix() {
    case $1 in
        AL | autolock) return 1 ;;
    esac
    [[ ${#1} -le 32 && $1 =~ ^[A-Za-z][A-Za-z0-9]*$ ]]
}

# Whether it says when colours are wanted.
is_color() {
    case $1 in
        auto | always | never) return 0 ;;
    esac
    return 1
}

# The words after a command.
judge_arguments() {
    local most=1 is_last=0 missing other option
    other=$(other_of "$command")
    [ -z "$other" ] || most=2
    [ "$command" != lsp ] || most=0
    while [ $# -gt 0 ]; do
        if [ "$is_last" = 0 ] && [[ $1 = --* ]]; then
            option=${1#--}
            if [ -z "$option" ]; then
                is_last=1
                shift
                continue
            elif is_flag "$option"; then
                judge_flag "$option"
                shift
                continue
            elif is_valued "$option"; then
                judge_valued "$@"
                shift 2
                continue
            elif [[ $option = *=* ]] && is_valued "${option%%=*}"; then
                judge_value "${option%%=*}" "${option#*=}"
                shift
                continue
            fi
        fi
        case $is_last$1 in
            0--*) judge_long "$@" ;;
            0-?*) judge_short "$1" ;;
        esac
        [ ${#files[@]} -lt $most ] || refuse "unexpected argument '$1' found" "$(usage_of "$command")"
        files+=("$1")
        settled=$used
        shift
    done
    missing=
    [ ${#files[@]} -ge 1 ] || [ $most = 0 ] || missing+=$'\n  <FILE>'
    [ -z "$other" ] || [ ${#files[@]} -gt 1 ] || missing+=$'\n  '$other
    if [ -z "$missing" ]; then
        [ -z "$has_prefix" ] || is_prefix "$prefix" || refuse "$bad_prefix" "$(usage_of '')"
        [ -z "$has_color" ] || is_color "$color" || refuse "$bad_color" "$(usage_of '')"
        [ "$command" != explain ] || [ -n "$json" ] || judge_code "${files[0]}"
        return 0
    fi
    missing="the following required arguments were not provided:$missing"
    ! takes_options || [ -n "$used" ] || refuse "$missing" "$command $(names_of "$command")"
    refuse "$missing" "$(usage_of "$command" "$used")"
}

judge_words() {
    local is_last=0
    while [ $# -gt 0 ]; do
        if [ $is_last = 0 ] && is_command "$1"; then
            command=$1
            shift
            judge_arguments "$@"
            return
        elif [ $is_last = 1 ] && { [ "$1" = help ] || is_command "$1"; }; then
            refuse "unexpected argument '$1' found" "$(usage_of '')" \
                "subcommand '$1' exists; to use it, remove the '--' before it"
        fi
        case $is_last$1 in
            0help)
                shift
                judge_help "$@"
                ;;
            0--) is_last=1 ;;
            0--?*) judge_long "$@" ;;
            0-?*) judge_short "$1" ;;
            *) refuse_command "$1" ;;
        esac
        shift
    done
    refuse $'\'autolock\' requires a subcommand but one was not provided
  [subcommands: check, explain, format, order, listing, emit, serial, outcomes, schedule, simulate, trace, run, replay, lsp, help]' "$(usage_of '')"
}
