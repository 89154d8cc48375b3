"""What bench/lexer.sh measures: `lexing.py PROGRAM TESTS FOLDER RUNS`. TESTS has the text of the test of a large file."""
import io, os, pathlib, re, statistics, subprocess, sys, time, tokenize

from notebooks import notebook

PROGRAM, TESTS, FOLDER, RUNS = sys.argv[1], pathlib.Path(sys.argv[2]).read_text(), pathlib.Path(sys.argv[3]), int(sys.argv[4])
MIB = 1 << 20


def constant(name):
    """The text of a constant of the test."""
    raw, plain = re.search(rf'const {name}: &str = (?:r##"(.*?)"##|"(.*?)");', TESTS, re.S).groups()
    return raw if raw is not None else plain.encode().decode("unicode_escape")


def filled(block, size):
    """The block again and again, and a comment up to this many bytes."""
    text = block * (size // len(block))
    return text + b"#" * (size - len(text))


BLOCK = "".join(map(constant, ("FILE", "MORE", "BLANKS"))).encode()
SUM = " + ".join(["price", "2"] * 8)
TEXTS = {
    "every_kind": filled(BLOCK, MIB),
    "an_eighth": filled(BLOCK, MIB // 8),
    "returns": filled(BLOCK.replace(b"\n", b"\r\n"), MIB),
    "sums": filled(notebook([[f"total = {SUM}"] * 10] * 10).encode(), MIB),
    "name": b"a" * MIB,
    "text": b"'" + b"a" * (MIB - 2) + b"'",
    "fields": b"f'" + b"{a:>5d} b " * ((MIB - 3) // 10) + b"'",
    "brackets": b"[" * (MIB // 2) + b"]" * (MIB // 2),
}


def ours(path, times):
    """What the program says, and its processor seconds."""
    process = subprocess.Popen([PROGRAM, path, str(times)], stdout=subprocess.PIPE, text=True)
    said = process.stdout.read().strip()
    process.stdout.close()
    _, status, used = os.wait4(process.pid, 0)
    process.returncode = os.waitstatus_to_exitcode(status)
    if process.returncode:
        raise SystemExit(f"{path}: the program ended with status {process.returncode}")
    return said, used.ru_utime + used.ru_stime


def read(text):
    return tokenize.tokenize(io.BytesIO(text).readline)


def theirs(text):
    """The processor seconds of Python."""
    start = time.process_time()
    for token in read(text):
        pass
    return time.process_time() - start


def counted(text):
    """Logical lines and tokens as Python counts them. Since 3.12 an f-text is several tokens, which count as one."""
    lines = tokens = depth = 0
    for token in read(text):
        kind = tokenize.tok_name[token.type]
        lines += kind == "NEWLINE"
        depth -= kind == "FSTRING_END"
        tokens += depth == 0 and kind in ("NAME", "NUMBER", "OP", "STRING", "FSTRING_START")
        depth += kind == "FSTRING_START"
    return f"{lines} {tokens}"


print(f"{'text':10} {'bytes':>9} {'lines tokens':>15} {'nbserve':>9} {'python':>9} {'ratio':>7}")
for name, text in TEXTS.items():
    path = FOLDER / name
    path.write_bytes(text)
    wanted, more = counted(text), 32 * MIB // len(text)
    rows = []
    for _ in range(RUNS):
        said, once = ours(path, 1)
        if said != wanted:
            raise SystemExit(f"{name}: nbserve comes to {said}, Python to {wanted}")
        rows.append(((ours(path, more + 1)[1] - once) / more, theirs(text)))
    here, there = (statistics.median(times) for times in zip(*rows))
    print(f"{name:10} {len(text):9} {wanted:>15} {len(text) / here / 1e6:9.2f} {len(text) / there / 1e6:9.2f} {there / here:7.1f}", flush=True)
