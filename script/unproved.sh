# Makes the program without any proof, and keeps it. ./autolock uses it.
# shellcheck disable=SC2154

make_unproved() {
    need_rt
    local rt status
    rt=$(readlink -f -- "$(command -v rt)")
    SECONDS=0
    say "making the program without any proof: some two minutes, once; it is kept until a source changes"
    python3 "$top/script/unproved.py" "$(dirname -- "$rt")" "$top/crates/autolock" "$unproved" </dev/null
    status=$?
    if [ $status = 5 ]; then
        say "this version of the toolchain makes no program without proofs; ./autolock --build proves and builds it"
    fi
    [ $status = 0 ] || {
        say "the program was not made"
        exit 3
    }
    say "made in $(so_far)"
}
