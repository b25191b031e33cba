#!/usr/bin/env bash
# Runs all benchmarks, one after another, and keeps what they print in bench/results.txt, so that all figures are of one
# commit and one machine. What they run is built first, which takes some minutes. Each begins with a line of its name, the
# machine's load of the last minute (on a quiet machine about 1) and, at its end, a line of the seconds that it took. One
# that can't run here (no lua5.4, say) is reported, and the others go on. script/docs.py makes docs/FIGURES.md of the file.
#
#     bench/all.sh              over the proved program of this checkout, and benches that are proved too
#     bench/all.sh --unproved   over programs that are made without proofs, to try the benches: they are optimized less, so
#                               that their figures are kept in out/bench/results.txt and are none of the page's
set -uo pipefail
here=$(cd "$(dirname "$0")" && pwd)
top=$(dirname "$here")
results=$here/results.txt
programs="lexer parser types analysis compile manager meaning workers unseen"
kind=proved
if [ "${1:-}" = --unproved ]; then
  kind="without proofs"
  results=$top/out/bench/results.txt
  export AUTOLOCK=$top/out/unproved/autolock BENCH_BUILT=$top/out/bench
  rt=$(dirname -- "$(readlink -f -- "$(command -v rt)")")
  "$top/script/unproved.py" "$rt" "$top/crates/autolock" "$AUTOLOCK" || exit
  # (one that is there is used again: remove out/bench after a change)
  for name in $programs; do
    [ -x "$BENCH_BUILT/bench_$name" ] || "$here/build.sh" --unproved "$name" >/dev/null || echo "$name was not built"
  done
else
  export AUTOLOCK=$top/crates/autolock/out/autolock
  [ -x "$AUTOLOCK" ] || "$top/autolock" --build || exit
  for name in $programs; do
    "$here/build.sh" "$name" >/dev/null || echo "$name was not built"
  done
fi
failed=0
{
  echo "commit $(git -C "$top" rev-parse --short=8 HEAD)$(git -C "$top" diff --quiet HEAD -- crates bench || echo ', changed')"
  echo "programs $kind"
  echo "machine $(sed -n 's/^model name.*: //p' /proc/cpuinfo | head -n 1), $(nproc) processors"
  for script in "$here"/*/run.sh; do
    name=$(basename "$(dirname "$script")")
    echo "== $name, load $(cut -d ' ' -f 1 /proc/loadavg)"
    begun=$SECONDS
    case $name in
      replay | shapes | emit) "$script" "$AUTOLOCK" ;;
      *) "$script" ;;
    esac || { echo "$name ended with status $?"; failed=1; }
    echo "-- $((SECONDS - begun)) s"
  done
  exit $failed
} 2>&1 | tee "$results.new"
failed=${PIPESTATUS[0]}
mv "$results.new" "$results"
exit "$failed"
