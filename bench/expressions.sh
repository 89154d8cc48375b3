#!/usr/bin/env bash
# Times the reading of expressions (`lines` of crates/py_lines and `expr` of crates/expr_parser) beside `ast.parse` of the Python of this
# machine, on the same bytes, an expression a line, of which both have to find as many.
# Usage: bench/expressions.sh [RUNS]. It prints, for each text, the megabytes that nbserve and Python read in a second of a processor, and how
# many times as many nbserve reads. Its time is that of a process that reads the text again and again, less that of one which reads it
# once; Python's is that of `ast.parse` alone. Both are medians of RUNS runs, by turns. The program that reads is bench/read_expressions.txt,
# as a crate in a copy of those of the repository that it uses, which are proved and built first where they changed.
. "$(dirname "$0")/timing.sh"
. "$(dirname "$0")/crates.sh"

built "$top/crates/py_lines" lib
built "$top/crates/expr_parser" lib
mkdir -p "$work/crates/read_expressions/src"
lay py_lines
lay expr_parser
echo "read_expressions: py_lines expr_parser py_tokens" >> "$work/crates.txt"
cp "$top/bench/read_expressions.txt" "$work/crates/read_expressions/src/main.rt"
built "$work/crates/read_expressions" run
python3 "$top/bench/parsing.py" "$work/crates/read_expressions/out/read_expressions" "$work" "$runs"
