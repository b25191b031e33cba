#!/usr/bin/env bash
# Tries the programs of tests/no_compile, which break the rules of ownership: a grant given back twice, a grant let
# fall, a ticket used after its section has ended. Each must be refused with the one code that its second line names.
#
#     tests/no_compile.sh [NAME ..]
#
# No part of the gate. Each is made a crate of a copy of the repository, which has what earlier checks kept, so that
# only what they lack is proved first.
set -euo pipefail
cd "$(dirname "$0")/.."
[ $# -gt 0 ] || set -- $(cd tests/no_compile && ls -- *.rattle | sed 's/\.rattle$//')
# The manager and all that it stands on: crates.txt names the lower ones first, so it is read from its end.
declare -A wanted=([lock_manager]=yes)
while read -r crate needs; do
  [ -z "${wanted[${crate:-none}]:-}" ] || for need in $needs; do wanted[$need]=yes; done
done < <(tac crates.txt | sed 's/:/ /')
room=$(mktemp -d)
trap 'rm -rf "$room"' EXIT
mkdir "$room/crates"
cp HANDLES "$room"
below=
while IFS= read -r line; do
  crate=${line%%:*}
  [ -n "${wanted[${crate:-none}]:-}" ] || continue
  cp -a "crates/$crate" "$room/crates"
  echo "$line" >>"$room/crates.txt"
  below+=" $crate"
done <crates.txt
failed=0
for name in "$@"; do
  program=tests/no_compile/$name.rattle
  code=$(sed -n 's,^//! refused: ,,p' "$program")
  mkdir -p "$room/crates/$name/src"
  cp "$program" "$room/crates/$name/src/lib.rt"
  echo "$name:$below" >>"$room/crates.txt"
  if (cd "$room/crates/$name" && rt check) >"$room/log" 2>&1; then
    echo "FAILED $name: it compiles"
    failed=1
  elif [ "$(grep -o 'error\[[a-z0-9-]*\]' "$room/log")" = "error[$code]" ]; then
    echo "ok $name: $code"
  else
    echo "FAILED $name: refused, but not with $code alone"
    tail -n 20 "$room/log"
    failed=1
  fi
done
exit $failed
