#!/usr/bin/env python3
"""Compares how `read_message` reads JSON with what Python and Node write: `bench/messages.py [SEED]`.

Of 10,000 random messages, or values that are nearly one, each is written by Python's `json` and by Node's `JSON.stringify`, with random
blanks. Both texts have to be read as the same message, which is the one that `reading` makes of each. Python and Node write
the same number differently where it is whole and a float, or past 2^53; such numbers aren't among these. As many other texts are compared with
`reading` alone: with numbers of every form, repeated names, bytes that are changed, lists in lists, and lengths about the limit. It
takes `rt` and `node`, and builds bench/message_lines.rt.txt in a copy of the crates that it stands on. Status 1: some text was read otherwise.
"""
import collections, json, math, pathlib, random, shutil, subprocess, sys, tempfile

TOP = pathlib.Path(__file__).resolve().parent.parent
COUNT, LIMIT, DEPTH, SAFE = 10_000, 65_536, 127, 2**53 - 1
PROGRAM, USES = "message_lines", ["py_value", "messages", "message_meaning", "message_json"]
NODE = r"""
const lines = require("fs").readFileSync(0, "utf8").split("\n");
const indents = [0, 1, "\t"];
console.log(lines.map((line, place) =>
  JSON.stringify(JSON.parse(line), null, indents[place % 3]).replaceAll("\n", "\r")).join("\n"));
"""


# What the bytes say, by the rules: Python's `json` gives the parts, and what follows from them is decided here.


class Number(str):
    """The text of a number."""


class Members(list):
    """The members of an object as the text has them, repeated ones too."""


def refuse(text):
    raise ValueError(text)


DECODER = json.JSONDecoder(object_pairs_hook=Members, parse_int=Number, parse_float=Number, parse_constant=refuse)


def sound(value, depth=0):
    """Whether no number is out of a float's range, no surrogate stands alone, and not too many lists and objects are open."""
    if isinstance(value, Number):
        return math.isfinite(float(value))
    if isinstance(value, str):
        return not any("\ud800" <= letter <= "\udfff" for letter in value)
    if isinstance(value, list):
        parts = [part for member in value for part in member] if isinstance(value, Members) else value
        return depth < DEPTH and all(sound(part, depth + 1) for part in parts)
    return True


def digits(text):
    return text.encode().hex()


def admissible(value):
    """The value as the program prints it, `?` where no element admits it."""
    if value is None or isinstance(value, bool):
        return {None: "null", True: "true", False: "false"}[value]
    if isinstance(value, Number):
        whole = value.removeprefix("-").isdigit() and value != "-0" and len(value) <= 20 and -(2**63) <= int(value) < 2**64
        return str(value) if whole else "?"
    if isinstance(value, str):
        return "text " + digits(value)
    if isinstance(value, list) and not isinstance(value, Members) and all(type(part) is str for part in value):
        return "texts" + "".join("," + digits(part) for part in value)
    return "?"


def reading(text):
    """The message that the bytes are, as the program prints it."""
    try:
        value = DECODER.decode(text.decode())
    except (ValueError, RecursionError):
        return "none"
    if len(text) > LIMIT or not sound(value) or not isinstance(value, Members):
        return "none"
    ((name, inner),) = dict(value).items() if len(dict(value)) == 1 else [("", None)]
    if not isinstance(inner, Members) or name not in ("open", "set", "close") or (name != "set" and inner):
        return "none"
    items = sorted(dict(inner).items(), key=lambda item: item[0].encode())
    return name + "".join(f"; {digits(key)} {admissible(item)}" for key, item in items)


# Random messages, and values that are nearly one.

LETTERS = "abzAZ09_ \"\\/\b\f\n\r\t\x00\x1f\x7f\x80é߿ࠀ€\u2028\uffff\U00010000😀\U0010ffff"


def some_text():
    text = "".join(random.choice(LETTERS) for _ in range(random.choice([0, 1, 1, 3, 12])))
    return text + random.choice(["\ud800", "\udfff", "\udc00\ud800"]) if random.random() < 0.01 else text


def some_value(depth=0):
    kind = random.randrange(12 if depth < 4 else 8)
    if kind < 2:
        return random.choice([None, True, False])
    if kind < 4:
        return random.choice([random.randint(-9, 99), random.randint(-SAFE, SAFE)])
    if kind == 4:
        return random.choice([random.uniform(-9, 9), random.uniform(1, 9) * 10.0 ** random.choice([-300, -30, -7, 22, 30, 300])])
    if kind < 7:
        return some_text()
    if kind < 9:
        return [some_text() for _ in range(random.randrange(4))]
    if kind < 11:
        return [some_value(depth + 1) for _ in range(random.randrange(4))]
    return some_members(depth + 1)


def some_members(depth=0):
    return {random.choice(["a", "items", "10", "9", "__proto__", some_text()]): some_value(depth) for _ in range(random.choice([0, 1, 1, 2, 5]))}


def some_message():
    kind = random.randrange(20)
    if kind < 14:
        return {"set": some_members()}
    if kind < 16:
        return {random.choice(["open", "close"]): {}}
    if kind < 18:
        return {random.choice(["open", "set", "close", "Open", "sets", ""]): some_value()}
    return some_members() if kind < 19 else some_value()


def python_spelling(value):
    indent = random.choice([None, None, 0, 1, "\t"])
    separators = random.choice([None, (",", ":"), (" , ", "\t:\t")])
    text = json.dumps(value, ensure_ascii=random.random() < 0.5, indent=indent, separators=separators, sort_keys=random.random() < 0.5)
    return text.replace("\n", "\r").encode("utf-8", "surrogatepass")


# Other texts.


def some_number():
    whole = random.choice(["0", "00", "", str(random.randint(0, 10 ** random.randrange(1, 30)))])
    near = str(random.choice([2**63, 2**64, 2**53]) + random.randint(-2, 2))
    point = random.choice(["", "", ".", "." + str(random.randrange(1000)), ".0"])
    power = random.choice(["", "", "e" + str(random.randrange(330)), "E+" + str(random.randrange(3)), "e-" + str(random.randrange(400)), "e"])
    return random.choice(["", "", "-", "+"]) + random.choice([whole + point + power, near, near + point])


def repeated(text):
    """The text with a further member, perhaps of a name that is there, at a place where members stand."""
    ends = [place for place, byte in enumerate(text) if byte == ord("}")]
    if not ends:
        return text
    end = random.choice(ends)
    comma = b"" if text[:end].rstrip().endswith(b"{") else b","
    return text[:end] + comma + random.choice([b'"a":', b'"\\u0061" : ', b'"set":', b'"open":']) + random.choice([b"1", b"{}", b'{"a":"b"}']) + text[end:]


def changed(text):
    place = random.randrange(len(text) + 1)
    put = random.choice([b"", bytes([random.choice([random.randrange(11, 256), *b'{}[]",:\\ue0-+. \t\r'])])])
    return text[:place] + put + text[place + random.choice([0, 1, 1]) :].replace(b"\n", b"")


def some_other():
    kind = random.randrange(10)
    if kind < 4:
        return f'{{"set":{{"a":{some_number()},"b":[{some_number()}]}}}}'.encode()
    if kind < 6:
        return repeated(python_spelling(some_message()))
    if kind < 9:
        return changed(python_spelling(some_message()))
    if random.random() < 0.5:
        lists = random.randint(120, 130)
        return b'{"set":{"a":' + b"[" * lists + b'{"b":1}' * random.randrange(2) + b"]" * lists + b"}}"
    return python_spelling(some_message()).ljust(LIMIT + random.randint(-1, 1)) if random.random() < 0.1 else changed(b'{"open":{}}')


# The comparison.


def program(work):
    """The program, proved and built in a copy of the crates that it stands on."""
    for name in USES:
        shutil.copytree(TOP / "crates" / name, work / "crates" / name, ignore=shutil.ignore_patterns("out"))
    folder = work / "crates" / PROGRAM
    (folder / "src").mkdir(parents=True)
    shutil.copy(TOP / "bench" / "message_lines.rt.txt", folder / "src" / "main.rt")
    lines = [line for line in (TOP / "crates.txt").read_text().splitlines() if line.partition(":")[0] in USES]
    (work / "crates.txt").write_text("\n".join([*lines, f"{PROGRAM}: {' '.join(USES)} serde_json"]) + "\n")
    built = subprocess.run(["rt", "run"], cwd=folder, stdin=subprocess.DEVNULL, capture_output=True, text=True)
    if built.returncode:
        raise SystemExit(built.stdout + built.stderr)
    return folder / "out" / PROGRAM


def through(command, lines):
    """What the command writes for these lines, a line for each."""
    given = subprocess.run(command, input=b"\n".join(lines), stdout=subprocess.PIPE, check=True).stdout
    return given.removesuffix(b"\n").split(b"\n")


def main():
    seed = int(sys.argv[1]) if len(sys.argv) > 1 else 1
    random.seed(seed)
    messages = [some_message() for _ in range(COUNT)]
    by_python = [python_spelling(message) for message in messages]
    by_node = through(["node", "-e", NODE], [json.dumps(message).encode() for message in messages])
    others = [some_other() for _ in range(COUNT)]
    texts = by_python + by_node + others
    with tempfile.TemporaryDirectory() as work:
        read = [line.decode() for line in through([program(pathlib.Path(work))], texts)]
    assert len(read) == len(texts)
    wrong = [(text, want, got) for text, got in zip(texts, read) if (want := reading(text)) != got]
    apart = [(ours, theirs, one) for ours, theirs, one, other in zip(by_python, by_node, read, read[COUNT:]) if one != other]
    for case in (wrong + apart)[:5]:
        print(*(str(part)[:300] for part in case), sep="\n  ")
    for title, part in {"messages": read[:COUNT], "others": read[2 * COUNT :]}.items():
        kinds = collections.Counter(line.partition(";")[0] for line in part)
        print(f"{title}: " + ", ".join(f"{kind} {kinds[kind]}" for kind in ("open", "set", "close", "none")), end="; ")
        print("values that no element admits", sum(line.count(" ?") for line in part))
    print(f"seed {seed}: {len(wrong)} of {len(texts)} texts read otherwise, {len(apart)} of {COUNT} messages read in two ways")
    raise SystemExit(1 if wrong or apart else 0)


if __name__ == "__main__":
    main()
