#!/usr/bin/env bash
# Builds the program bench/NAME over the crates of this repository, in a folder beside the system's
# temporary files, and prints where the built program lies.
#
#     bench/build.sh NAME               proves it first
#     bench/build.sh --unproved NAME    compiles it without any proof, into the folder $BENCH_BUILT
#
# If $BENCH_BUILT has the program already, it prints where.
#
# A program bench/NAME is main.rattle and crate.txt, the line "NAME: what it stands on", and FUNCTION.answers and
# FUNCTION.invariants for what the search doesn't prove of one of its functions (TYPE.FUNCTION of a method). The
# endings keep it out of the gate, which wants every .rt file and .antt file to be part of a crate of the repository.
set -euo pipefail
unproved=
if [ "$1" = --unproved ]; then
  unproved=yes
  shift
fi
name=$1
top=$(cd "$(dirname "$0")/.." && pwd)
if [ -z "$unproved" ] && [ -n "${BENCH_BUILT:-}" ] && [ -x "$BENCH_BUILT/bench_$name" ]; then
  echo "$BENCH_BUILT/bench_$name"
  exit
fi
work=${AUTOLOCK_BENCH:-${TMPDIR:-/tmp}/autolock-bench}
mkdir -p "$work/crates"
for crate in "$top"/crates/*/; do
  to="$work/crates/$(basename "$crate")"
  mkdir -p "$to"
  for part in src specs proofs; do
    [ -d "$crate$part" ] || continue
    rm -rf "${to:?}/$part"
    cp -r "$crate$part" "$to/$part"
  done
done
program="bench_$name"
mkdir -p "$work/crates/$program"
mkdir -p "$work/crates/$program/src"
cp "$top/bench/$name/main.rattle" "$work/crates/$program/src/main.rt"
for given in "$top/bench/$name"/*.answers "$top/bench/$name"/*.invariants; do
  [ -f "$given" ] || continue
  kind=${given##*.}
  function=$(basename "$given" ".$kind")
  to="$work/crates/$program/proofs/${function//./\/}"
  mkdir -p "$to"
  cp "$given" "$to/${kind^}.antt"
  : > "$work/crates/$program/proofs/Lib.antt"
done
cp "$top/HANDLES" "$work/HANDLES"
{ cat "$top/crates.txt"; sed "s/^$name\b/$program/" "$top/bench/$name/crate.txt"; } > "$work/crates.txt"
cd "$work/crates/$program"
if [ -n "$unproved" ]; then
  rt=$(dirname -- "$(readlink -f -- "$(command -v rt)")")
  "$top/script/unproved.py" "$rt" "$PWD" "$BENCH_BUILT/$program"
  echo "$BENCH_BUILT/$program"
  exit
fi
: > stdin
rm -f "out/$program"
# The program is run once without words, which it may refuse: only that it was built counts.
rt run > "$work/$program.log" 2>&1 || true
[ -x "out/$program" ] || { tail -n 20 "$work/$program.log" >&2; exit 1; }
echo "$PWD/out/$program"
