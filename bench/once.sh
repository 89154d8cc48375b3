#!/usr/bin/env bash
# Times `nbserve once` on large notebooks beside the Python of this machine, which runs the same cells in the same order. Where the
# notebook is refused, Python parses the cells, looks for a name of two cells with a dictionary and for one cycle with graphlib.
# Usage: bench/once.sh [RUNS]. It prints, for each notebook, the median of the wall-clock times of nbserve and of Python in
# seconds and their ratio; nbserve's time includes the start of its process, and Python's that of the interpreter.
. "$(dirname "$0")/timing.sh"

python3 - "$work" <<'PY'
import sys
from notebooks import notebook
work = sys.argv[1]
LINES, TERMS = 1000, 32

def binding(name, *read):
    return f"{name} = " + " + ".join([*read] + ["1"] * (TERMS - len(read)))

lines = [binding("v0")] + [binding(f"v{place}", f"v{place // 2}") for place in range(1, LINES)]
# Cells of one line in the order in which they run, the same from the last to the first, and one cell of all lines.
shapes = {"cells": [[one] for one in lines], "backwards": [[one] for one in reversed(lines)], "one_cell": [lines]}
for name, cells in shapes.items():
    open(f"{work}/{name}.py", "w").write(notebook(cells))
# What Python runs: each cell as a piece of code of its own over one dictionary of names.
ordered = {"cells": shapes["cells"], "backwards": shapes["cells"], "one_cell": shapes["one_cell"]}
for name, cells in ordered.items():
    open(f"{work}/{name}.plain.py", "w").write(
        "names = {}\nfor cell in " + repr(["\n".join(cell) for cell in cells]) + ":\n    exec(compile(cell, '<cell>', 'exec'), names)\n")

# All cells in one cycle, and all cells with one name.
refused = {
    "cycle": [binding(f"v{place}", f"v{(place + 1) % LINES}") for place in range(LINES)],
    "one_name": [binding("v")] * LINES,
}
CHECK = """
import ast, graphlib
definers, reads = {}, []
for number, cell in enumerate(cells):
    names = [node for node in ast.walk(ast.parse(cell)) if isinstance(node, ast.Name)]
    for bound in (name.id for name in names if isinstance(name.ctx, ast.Store)):
        if definers.setdefault(bound, number) != number:
            raise SystemExit(f"{bound} is defined twice")
    reads.append({name.id for name in names if isinstance(name.ctx, ast.Load)})
parents = {number: {definers[name] for name in read if name in definers} for number, read in enumerate(reads)}
graphlib.TopologicalSorter(parents).prepare()
"""
for name, bodies in refused.items():
    open(f"{work}/{name}.py", "w").write(notebook([[body] for body in bodies]))
    open(f"{work}/{name}.plain.py", "w").write(f"cells = {bodies!r}\n{CHECK}")
PY

"$top/nbserve" once "$work/one_cell.py" > /dev/null

printf '%-10s %10s %10s %8s\n' notebook nbserve python ratio
for name in cells backwards one_cell cycle one_name; do
  case $name in cycle | one_name) status=1 ;; *) status=0 ;; esac
  ours=$(median "$status" "$top/crates/nbserve/out/nbserve" once "$work/$name.py")
  theirs=$(median "$status" python3 "$work/$name.plain.py")
  awk -v name="$name" -v ours="$ours" -v theirs="$theirs" \
    'BEGIN { printf "%-10s %10.4f %10.4f %8.2f\n", name, ours / 1e9, theirs / 1e9, ours / theirs }'
done
