#!/usr/bin/env bash
# Lexes sources of 1 MiB of several kinds, and prints the least time of five runs for each.
set -euo pipefail
here=$(cd "$(dirname "$0")" && pwd)
program=$("$here/../build.sh" lexer)
texts=$(mktemp -d)
trap 'rm -rf "$texts"' EXIT
python3 - "$texts" <<'PYTHON'
import itertools, pathlib, sys
top = pathlib.Path(sys.argv[1])
SIZE = 1 << 20
def fill(name, piece):
    (top / name).write_bytes((piece * (SIZE // len(piece) + 1))[:SIZE])
fill("one_name_a_line", b"counter\n")
fill("names_of_a_letter", b"x ")
fill("keywords", b"protected_by while lock ")
fill("numbers", b"1234567890 ")
fill("all_signs", b"{}()[];,:.===!=<<=>>=+-*/ %&&||!")
fill("white_space", b" \n")
fill("program_lines", b"atomic inc(int k) : int { n = n + k; return n; } // adds\n")
(top / "one_comment").write_bytes(b"//" + b"c" * (SIZE - 2))
(top / "one_run_of_zeros").write_bytes(b"0" * SIZE)
(top / "one_run_of_nines").write_bytes(b"9" * SIZE)
(top / "one_long_name").write_bytes(b"n" * SIZE)
(top / "bytes_past_the_limit").write_bytes(b"x" * (SIZE + 1))
PYTHON
for text in "$texts"/*; do
  printf '%-22s ' "$(basename "$text")"
  "$program" "$text" | uniq | paste -sd' '
done
