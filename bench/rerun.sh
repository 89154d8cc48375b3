#!/usr/bin/env bash
# Times the run of one large cell where nothing is read or compiled inside the measured time: nbserve runs it again for each value of the
# slider that it reads, and Python executes its compiled code again.
# Usage: bench/rerun.sh [RUNS]. It prints, for each cell, the microseconds of one run by nbserve and by the Python of this machine, and their
# ratio. nbserve's is the time of a script with 400 sets less that of the opening alone, divided by 400, from medians of wall-clock times;
# Python's is the median of as many series of 400 runs, by its own clock. Where the two come to another last value, the script ends with status 1.
. "$(dirname "$0")/timing.sh"
sets=400

python3 - "$work" "$sets" <<'PY'
import sys
from notebooks import notebook
work, sets = sys.argv[1], int(sys.argv[2])
TOP, TERMS = 9, 32

def sums(names, lines):
    """So many sums of 32 terms, each bound to the next of these names, by turns; the first term is the name before it."""
    read = ["s.value", *(names[place % len(names)] for place in range(lines - 1))]
    return [f"{names[place % len(names)]} = " + " + ".join([read[place]] + ["1"] * (TERMS - 1)) for place in range(lines)]

cells = {
    "four_names": sums(["a", "b", "c", "d"], 895),
    "own_names": sums([f"v{place}" for place in range(899)], 899),
    "one_more": ["t = s.value", *["t = t + 1"] * 990],
}
PLAIN = """
import sys, time, types
s = types.SimpleNamespace(value=0)
names = {"s": s}
code, shown, times = compile("\\n".join(lines), "<cell>", "exec"), compile(last, "<cell>", "eval"), []
for series in range(int(sys.argv[1])):
    start = time.perf_counter_ns()
    for number in range(SETS):
        s.value = number * 7 % 10
        exec(code, names)
        eval(shown, names)
    times.append((time.perf_counter_ns() - start) // SETS)
print(eval(shown, names), sorted(times)[len(times) // 2])
"""
for name, lines in cells.items():
    last = lines[-1].split(" = ")[0]
    bodies = [["import marimo as mo"], [f"s = mo.ui.slider(0, {TOP})"], [*lines, last]]
    open(f"{work}/{name}.py", "w").write(notebook(bodies))
    open(f"{work}/{name}.plain.py", "w").write(f"SETS = {sets}\nlines = {lines!r}\nlast = {last!r}\n{PLAIN}")
for count in (0, sets):
    sent = ['{"open":{}}'] + [f'{{"set":{{"s":{number * 7 % (TOP + 1)}}}}}' for number in range(count)]
    open(f"{work}/{count}.script", "w").write("join 1\n" + "".join(f"send 1 {message}\n" for message in sent))
PY

"$top/nbserve" once "$work/one_more.py" > /dev/null

run_ours() {
  "$top/crates/nbserve/out/nbserve" script "$work/$1.py" "$work/$2.script"
}

printf '%-12s %10s %10s %8s\n' cell nbserve python ratio
for name in four_names own_names one_more; do
  opening=$(median 0 run_ours "$name" 0)
  whole=$(median 0 run_ours "$name" "$sets")
  read -r value theirs < <(python3 "$work/$name.plain.py" "$runs")
  [[ $(run_ours "$name" "$sets" | grep '"text"' | tail -n 1) == *"\"text\":\"$value\""* ]]
  awk -v name="$name" -v ours="$(((whole - opening) / sets))" -v theirs="$theirs" \
    'BEGIN { printf "%-12s %10.1f %10.1f %8.2f\n", name, ours / 1e3, theirs / 1e3, ours / theirs }'
done
