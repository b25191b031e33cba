#!/usr/bin/env bash
# Refuses each growth of memory in turn to `autolock` (every command, the programs of examples/), to the tests of
# `test_units`, and, each N-th one, to `test_cases` over its files; then limits the address space of
# `autolock`. The programs are those that `rt ci` leaves in crates/NAME/out.
#
#     tests/refused_memory.sh [N]      by default every 500th growth of `test_cases`
set -euo pipefail
cd "$(dirname "$0")"
status=0
./failing.py || status=1
./failing.py --unit-tests || status=1
./failing.py --cases --every "${1:-500}" || status=1
./limited_memory.sh || status=1
exit "$status"
