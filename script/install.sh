# Installs the program with its manual page, completions and editors' files, and removes them. ./autolock uses it.
# shellcheck disable=SC2154

# What is installed beside the program: a file of the repository, and where it goes below the prefix.
files_beside() {
    cat <<end
docs/autolock.1 share/man/man1/autolock.1
completions/autolock.bash share/bash-completion/completions/autolock
completions/_autolock share/zsh/site-functions/_autolock
completions/autolock.fish share/fish/vendor_completions.d/autolock.fish
end
    (cd -- "$top" && find editors -type f | sort | sed 's,.*,& share/autolock/&,')
}

# Sets `prefix`, with DESTDIR ahead, and `is_unproved`, from the words.
judge_prefix() {
    prefix= is_unproved=0
    local word
    for word in "$@"; do
        case $word in
            --unproved) is_unproved=1 ;;
            -*)
                say "--$action takes a PREFIX${asks:+ and $asks}, and not $word"
                exit 2
                ;;
            *)
                [ -z "$prefix" ] || {
                    say "--$action takes one PREFIX"
                    exit 2
                }
                prefix=$word
                ;;
        esac
    done
    prefix=${DESTDIR-}$(realpath -m -- "${prefix:-/usr/local}") || exit 3
}

install_program() {
    local action=install asks=--unproved prefix is_unproved from to name=autolock program=$proved
    judge_prefix "$@"
    if [ $is_unproved = 1 ]; then
        name=autolock-unproved program=$unproved
        is_unproved_current || make_unproved
    elif ! is_proved_current; then
        say "there is no program that is proved of these sources, so nothing is installed: ./autolock --build proves and builds it (--install --unproved installs one of which nothing is proved, as autolock-unproved)"
        exit 3
    fi
    put "$program" "$prefix/bin/$name" 755
    files_beside | while read -r from to; do
        put "$top/$from" "$prefix/$to" 644 || exit
    done || exit 3
    say "installed $prefix/bin/$name"
}

# Copies a file, with these rights. A file that is there is replaced as a whole.
put() {
    mkdir -p -- "${2%/*}" && cp -- "$1" "$2.new" && chmod "$3" -- "$2.new" && mv -f -- "$2.new" "$2" || {
        rm -f -- "$2.new"
        say "cannot write $2"
        exit 3
    }
}

uninstall_program() {
    local action=uninstall asks='' prefix is_unproved to
    judge_prefix "$@"
    { printf 'bin/%s\n' autolock autolock-unproved; files_beside | cut -d' ' -f2; } | while read -r to; do
        [ ! -e "$prefix/$to" ] || rm -- "$prefix/$to" || exit
    done || exit 3
    find "$prefix/share/autolock" -depth -type d -exec rmdir -- {} + 2>/dev/null
    say "removed what was installed under $prefix"
}
