"""What bench/expressions.sh measures: `parsing.py PROGRAM FOLDER RUNS`."""
import ast, os, pathlib, statistics, subprocess, sys, time

PROGRAM, FOLDER, RUNS = sys.argv[1], pathlib.Path(sys.argv[2]), int(sys.argv[3])
MIB = 1 << 20
FORMS = """\
price if stock > 0 else 'none' if late else -1
a or b and not c
0 <= low < high <= 100 != total
name not in known and other is not None
net + tax - paid * 2 // 3 % 7
-2 ** -x
rows[0].total(week, start=1, end=n,)[2:][:-1]
(1,)
()
[1, 2, three,]
{'a': 1, "b": [2], 'c': (3, 4)}
[item.price * count for item, count in cart if count > 0 if item]
{key: value + 1 for key, value in pairs}
f'{name!r} has {count:>5d} of {total:,}'
mo.ui.slider(start=0, stop=100, step=5, value=50)
"""
SUM = " + ".join(["price", "2"] * 8) + "\n"
CALLS = "table.rows(first, last)[index].column('name').total(year=2026)\n"
NESTED = "[" * 60 + "x" + "]" * 60 + "\n"
FIELDS = "f'" + "{a:>5d} {b} " * 20 + "'\n"


def filled(block):
    return (block * (MIB // len(block))).encode()


TEXTS = {"forms": filled(FORMS), "sums": filled(SUM), "calls": filled(CALLS), "nested": filled(NESTED), "fields": filled(FIELDS)}


def ours(path, times):
    """What the program says, and its processor seconds."""
    process = subprocess.Popen([PROGRAM, path, str(times)], stdout=subprocess.PIPE, text=True)
    said = process.stdout.read().strip()
    process.stdout.close()
    _, status, used = os.wait4(process.pid, 0)
    process.returncode = os.waitstatus_to_exitcode(status)
    if process.returncode:
        raise SystemExit(f"{path}: the program ended with status {process.returncode}")
    return said, used.ru_utime + used.ru_stime


def theirs(text):
    """The processor seconds of Python."""
    start = time.process_time()
    ast.parse(text)
    return time.process_time() - start


print(f"{'text':10} {'bytes':>9} {'lines':>9} {'nbserve':>9} {'python':>9} {'ratio':>7}")
for name, text in TEXTS.items():
    path = FOLDER / name
    path.write_bytes(text)
    count = sum(isinstance(line, ast.Expr) for line in ast.parse(text).body)
    more = 8
    rows = []
    for _ in range(RUNS):
        said, once = ours(path, 1)
        if said != f"{count} 0":
            raise SystemExit(f"{name}: nbserve comes to {said}, Python to {count}")
        rows.append(((ours(path, more + 1)[1] - once) / more, theirs(text)))
    here, there = (statistics.median(times) for times in zip(*rows))
    print(f"{name:10} {len(text):9} {count:9} {len(text) / here / 1e6:9.2f} {len(text) / there / 1e6:9.2f} {there / here:7.1f}", flush=True)
