# Proves and builds the program: the crates that it is made of side by side, as many as there are processors and memory
# for. ./autolock uses it.
# shellcheck disable=SC2154

# How many crates the program is made of, with its own.
count_crates() {
    awk -F: '
        /^[a-z]/ { split($1, words, " "); below[words[1]] = $2 }
        function visit(name,    names, count, i) {
            if (!(name in below) || name in seen) return
            seen[name] = 1
            found++
            count = split(below[name], names, " ")
            for (i = 1; i <= count; i++) visit(names[i])
        }
        END { visit("autolock"); print found }
    ' "$top/crates.txt"
}

# How many proofs may go on side by side: each takes up to 3 GB.
lanes() {
    local processors memory
    processors=$(nproc 2>/dev/null || echo 1)
    memory=$(awk '/^MemAvailable:/ { print int($2 / 3000000) }' /proc/meminfo 2>/dev/null)
    [ "${memory:-1}" -ge "$processors" ] || processors=${memory:-1}
    echo $((processors > 0 ? processors : 1))
}

so_far() { echo "$((SECONDS / 60)) min $((SECONDS % 60)) s"; }

# Both ways to run the program need it.
need_rt() {
    command -v rt >/dev/null 2>&1 || {
        say "this needs the command rt of the Rattle toolchain in the path"
        exit 3
    }
}

# Tells of each crate that is done, by the lines that build.py or rt writes of it, and keeps them all in the log.
tell_progress() {
    local line finished=0
    while IFS= read -r line; do
        printf '%s\n' "$line" >>"$log"
        case $line in
            "== summary") ;;
            "== "*" done, "*)
                say "${line#== }"
                ;;
            "== "*)
                finished=$((finished + 1))
                say "$finished of $count done, $((count - finished)) left, $(so_far): ${line#== }"
                ;;
        esac
    done
}

# Proves the libraries. Which go on side by side is one process's choice: two calls of rt would wait for each other where
# they share a crate.
prove_libraries() {
    local rt status
    rt=$(readlink -f -- "$(command -v rt)")
    python3 "$top/script/build.py" "$(dirname -- "$rt")" 2>&1 </dev/null
    status=$?
    [ $status = 5 ] || return $status
    rt all check --jobs "$most" 2>&1 </dev/null
}

# Notes when the build began, and which sources there are, with their folders, for is_proved_current of ./autolock.
keep_list() {
    find "$top/crates.txt" "$top/HANDLES" "$top"/crates/*/{src,specs} -print0 >"$proved.sources" 2>/dev/null
    mv -f -- "$proved.built.new" "$proved.built"
}

build() {
    need_rt
    local count most log
    count=$(count_crates)
    most=$(lanes)
    log=$(mktemp) || exit 3
    mkdir -p -- "${proved%/*}" && touch -- "$proved.built.new" || exit 3
    SECONDS=0
    say "proving and building the program: $count crates, $most at a time; one to two hours of processor time in all where none is proved yet"
    say "(./autolock WORDS.. runs one without any proof meanwhile, which takes two minutes to make)"
    set -o pipefail
    if ! (cd -- "$top/crates/autolock" && prove_libraries) | tell_progress ||
        ! (cd -- "$top/crates/autolock" && rt run --jobs "$most" -- --version) >>"$log" 2>&1 </dev/null; then
        grep -E 'not proved|error|stopped|^rt: ' "$log" | tail -n 20 >&2
        say "the program was not proved and built; the whole log is $log"
        exit 3
    fi
    set +o pipefail
    say "proved and built in $(so_far)"
    rm -f "$log"
    keep_list
}
