#!/usr/bin/env bash
# Times `nbserve script` where a visitor sets a slider many times, on notebooks in which a set reruns 3 cells, or all but the import and
# the slider.
# Usage: bench/script.sh [RUNS]. It prints two tables, from the medians of wall-clock times:
# - Frames a second of 10,000 sets on notebooks of 100 cells, of nbserve and of the Python of this machine, and their ratio. Python reads
#   the same script and runs the same cells in the same order, each compiled once; it is told which cells a set reruns. Times include
#   the start of the process, or of the interpreter, and the opening.
# - The microseconds of the answer to one set on notebooks of 100 and of 1,000 cells, where it reruns 3 cells and where all, and their
#   ratio. It is the time of a script with sets less that of the opening alone, divided by the number of sets.
# Both tables want that nbserve and Python write the same bytes.
. "$(dirname "$0")/timing.sh"

python3 - "$work" <<'PY'
import sys
from notebooks import notebook
work = sys.argv[1]
TOP = 9

# So many cells, by turns one that binds a name and one that shows it. Each name reads an earlier one, and the first is bound to `first`.
def tree(name, first, count):
    cells = []
    for number in range((count + 1) // 2):
        value = f"{name}{number // 2} + 1" if number else first
        cells += [f"{name}{number} = {value}", f"{name}{number}"]
    return cells[:count]

# What Python runs: each cell as a piece of code of its own over one dictionary of names, with a slider that keeps its value.
PLAIN = """
import json, sys, types

class Slider:
    def __init__(self, low, high):
        self.low, self.high, self.value = low, high, low

sys.modules["marimo"] = types.ModuleType("marimo")
sys.modules["marimo"].ui = types.SimpleNamespace(slider=Slider)
codes = [compile(cell, "<cell>", "exec" if " " in cell else "eval") for cell in cells]
names = {}

def write(frame):
    print("1 " + json.dumps(frame, sort_keys=True, separators=(",", ":")))

def answer(numbers):
    for number in numbers:
        value = eval(codes[number], names)
        output = None if value is None else {"text": str(value), "type": "plain"}
        write({"cell": number, "console": [], "error": None, "output": output, "status": "ok"})
    write({"done": len(numbers)})

for line in open(sys.argv[1]):
    if line.startswith("send 1 "):
        message = json.loads(line.removeprefix("send 1 "))
        if "open" in message:
            answer(range(len(codes)))
        else:
            value = message["set"]["s"]
            assert names["s"].low <= value <= names["s"].high
            names["s"].value = value
            answer(again)
print("end runs 0 hits 0")
"""

for count in (100, 1000):
    for shape, reruns in ("three", 3), ("all", count - 2):
        rest = count - 2 - reruns
        cells = ["import marimo as mo", f"s = mo.ui.slider(0, {TOP})", *tree("v", "s.value + 1", reruns), *tree("w", "1", rest)]
        again = list(range(2, 2 + reruns))
        open(f"{work}/{shape}_{count}.py", "w").write(notebook([[cell] for cell in cells]))
        open(f"{work}/{shape}_{count}.plain.py", "w").write(f"cells = {cells!r}\nagain = {again!r}\n{PLAIN}")

for sets in (0, 1000, 10000):
    sent = ['{"open":{}}'] + [f'{{"set":{{"s":{number * 7 % (TOP + 1)}}}}}' for number in range(sets)]
    open(f"{work}/{sets}.script", "w").write("join 1\n" + "".join(f"send 1 {message}\n" for message in sent))
PY

"$top/nbserve" once "$work/three_100.py" > /dev/null

run_ours() {
  "$top/crates/nbserve/out/nbserve" script "$work/$1.py" "$work/$2.script"
}

run_theirs() {
  python3 "$work/$1.plain.py" "$work/$2.script"
}

# The number of frames that a script gives. Both have to write the same.
frames() {
  run_ours "$1" "$2" > "$work/ours"
  run_theirs "$1" "$2" > "$work/theirs"
  cmp "$work/ours" "$work/theirs" >&2
  echo $(($(wc -l < "$work/ours") - 1))
}

# The nanoseconds of the answer to one set, from a script with so many.
cost() {
  local opening whole
  frames "$1" "$2" > /dev/null
  opening=$(median 0 run_ours "$1" 0)
  whole=$(median 0 run_ours "$1" "$2")
  echo $(((whole - opening) / $2))
}

printf '%-10s %10s %12s %12s %8s\n' notebook frames nbserve python ratio
for name in three_100 all_100; do
  count=$(frames "$name" 10000)
  ours=$(median 0 run_ours "$name" 10000)
  theirs=$(median 0 run_theirs "$name" 10000)
  awk -v name="$name" -v count="$count" -v ours="$ours" -v theirs="$theirs" \
    'BEGIN { printf "%-10s %10d %12.0f %12.0f %8.2f\n", name, count, count * 1e9 / ours, count * 1e9 / theirs, theirs / ours }'
done

printf '\n%-10s %10s %12s %8s\n' cells three all ratio
for count in 100 1000; do
  three=$(cost "three_$count" 10000)
  all=$(cost "all_$count" 1000)
  awk -v count="$count" -v three="$three" -v all="$all" \
    'BEGIN { printf "%-10d %10.2f %12.2f %8.1f\n", count, three / 1e3, all / 1e3, all / three }'
done
