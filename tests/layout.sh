#!/usr/bin/env bash
# Whether each file of the crates is laid out as `rt fmt` does it. `rt ci` proves no crate that isn't, and says so an hour later.
#
#     tests/layout.sh
#
# Prints the files that aren't; the status is 1 where there is one, and 3 where the toolchain isn't in the path.
set -u

cd -- "$(dirname -- "$0")/.." || exit 1
rt=$(command -v rt) || {
    echo "this needs the command rt of the Rattle toolchain in the path"
    exit 3
}
mapfile -t files < <(find crates -name out -prune -o \( -name '*.rt' -o -name '*.antt' \) -print)
"$(dirname -- "$(readlink -f -- "$rt")")/rattle" fmt --check "${files[@]}" && echo "${#files[@]} files are in the layout"
