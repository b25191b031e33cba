# Completes the words of autolock in bash: `. completions/autolock.bash`, or copy this file to
# ~/.local/share/bash-completion/completions/autolock. tests/words.sh compares it with the program's help.

_autolock_files() {
    local word=$1 ending=$2 name
    COMPREPLY=()
    compopt -o filenames 2>/dev/null
    while IFS= read -r name; do
        [[ -d $name || $name == *$ending ]] && COMPREPLY+=("$name")
    done < <(compgen -f -- "$word")
}

_autolock() {
    local word=${COMP_WORDS[COMP_CWORD]} before=${COMP_WORDS[COMP_CWORD - 1]} command= i at=0
    local commands="check explain format order listing emit serial outcomes schedule simulate trace run replay lsp help"
    for ((i = 1; i < COMP_CWORD; i++)); do
        if [ -z "$command" ]; then
            case ${COMP_WORDS[i]} in
                -*) ;;
                *) command=${COMP_WORDS[i]} ;;
            esac
        else
            case ${COMP_WORDS[i]} in
                --turns | --count | --seed | --length | --times | --prefix | --cells | --color | --expect) i=$((i + 1)) ;;
                -*) ;;
                *) at=$((at + 1)) ;;
            esac
        fi
    done
    COMPREPLY=()
    case $command/$word in
        /-*) mapfile -t COMPREPLY < <(compgen -W "-h --help -V --version --unproved --proved --build --install --uninstall" -- "$word") ;;
        /*) mapfile -t COMPREPLY < <(compgen -W "$commands" -- "$word") ;;
        help/*) mapfile -t COMPREPLY < <(compgen -W "$commands" -- "$word") ;;
        serial/-*) mapfile -t COMPREPLY < <(compgen -W "--turns --changed -h --help" -- "$word") ;;
        outcomes/-*) mapfile -t COMPREPLY < <(compgen -W "--count --seed --turns --cells --answers --full --expect -h --help" -- "$word") ;;
        schedule/-*) mapfile -t COMPREPLY < <(compgen -W "--seed --length --worst -h --help" -- "$word") ;;
        run/-*) mapfile -t COMPREPLY < <(compgen -W "--seed --times -h --help" -- "$word") ;;
        replay/-*) mapfile -t COMPREPLY < <(compgen -W "--turns --why --open -h --help" -- "$word") ;;
        trace/-*) mapfile -t COMPREPLY < <(compgen -W "--sections --all -h --help" -- "$word") ;;
        explain/-*) mapfile -t COMPREPLY < <(compgen -W "--json --color -h --help" -- "$word") ;;
        emit/-*) mapfile -t COMPREPLY < <(compgen -W "--header --prefix --lines -h --help" -- "$word") ;;
        listing/-*) mapfile -t COMPREPLY < <(compgen -W "--places -h --help" -- "$word") ;;
        check/-*) mapfile -t COMPREPLY < <(compgen -W "--source -h --help" -- "$word") ;;
        format/-* | order/-* | simulate/-* | lsp/-*) mapfile -t COMPREPLY < <(compgen -W "-h --help" -- "$word") ;;
        simulate/* | trace/*) if [ $at -gt 0 ]; then _autolock_files "$word" .steps; else _autolock_files "$word" .al; fi ;;
        replay/*)
            if [ "$before" = --turns ]; then :; elif [ $at -gt 0 ]; then _autolock_files "$word" ''; else _autolock_files "$word" .al; fi
            ;;
        check/* | explain/* | format/* | order/* | listing/* | emit/* | serial/* | outcomes/* | schedule/* | run/*)
            case $before in
                --color) mapfile -t COMPREPLY < <(compgen -W "auto always never" -- "$word") ;;
                --turns | --count | --seed | --length | --times | --prefix | --cells | --expect) ;;
                *) _autolock_files "$word" .al ;;
            esac
            ;;
    esac
}

complete -F _autolock autolock ./autolock
