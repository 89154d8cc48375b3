#!/usr/bin/env bash
# Times the reading of tokens and logical lines (`lines` of crates/py_lines) beside `tokenize` of the Python of this machine, on the same
# bytes, which both have to cut into as many tokens and logical lines.
# Usage: bench/lexer.sh [RUNS]. It prints, for each text, the megabytes that nbserve and Python read in a second of a processor, and how
# many times as many nbserve reads. Its time is that of a process that reads the text again and again, less that of one which reads it
# once; Python's is that of `tokenize` alone. Both are medians of RUNS runs, by turns. The program that reads is bench/read_lines.txt, as a
# crate in a copy of those of the repository that it uses, which are proved and built first where they changed.
. "$(dirname "$0")/timing.sh"
. "$(dirname "$0")/crates.sh"

built "$top/crates/py_lines" lib
mkdir -p "$work/crates/read_lines/src"
lay py_lines
echo "read_lines: py_lines" >> "$work/crates.txt"
cp "$top/bench/read_lines.txt" "$work/crates/read_lines/src/main.rt"
built "$work/crates/read_lines" run
python3 "$top/bench/lexing.py" "$work/crates/read_lines/out/read_lines" "$top/crates/py_lines/src/tests.rt" "$work" "$runs"
