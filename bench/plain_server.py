"""The server beside which bench/serve.sh puts nbserve: Python's websockets over asyncio, in one process, with the cells of
examples/sliders.py. `plain_server.py PORT`. Each cell is compiled once, and the server is told which cells a set reruns.
"""
import asyncio, json, sys, types
import websockets

# The lines of each cell, and what it shows.
SOURCES = [
    ("total = net + shipping.value", "total"),
    ("net = items.value + items.value + 5", None),
    ("items = mo.ui.slider(2, 20)", None),
    ("shipping = mo.ui.slider(0, 15)", None),
    ("import marimo as mo", None),
]
CELLS = [(compile(lines, "<cell>", "exec"), show and compile(show, "<cell>", "eval")) for lines, show in SOURCES]
ALL, AGAIN = [4, 2, 1, 3, 0], {"items": [1, 0], "shipping": [0]}


class Slider:
    def __init__(self, low, high):
        self.low, self.high, self.value = low, high, low


def spelled(frame):
    return json.dumps(frame, sort_keys=True, separators=(",", ":"))


async def answer(link, names, numbers):
    for number in numbers:
        lines, show = CELLS[number]
        exec(lines, names)
        output = show and {"text": str(eval(show, names)), "type": "plain"}
        await link.send(spelled({"cell": number, "console": [], "error": None, "output": output, "status": "ok"}))
    await link.send(spelled({"done": len(numbers)}))


async def visit(link):
    names = {}
    async for text in link:
        message = json.loads(text)
        if "open" in message:
            await answer(link, names, ALL)
        else:
            [(name, value)] = message["set"].items()
            assert names[name].low <= value <= names[name].high
            names[name].value = value
            await answer(link, names, AGAIN[name])


async def serve(port):
    async with websockets.serve(visit, "127.0.0.1", port, compression=None, ping_interval=None):
        await asyncio.Future()


sys.modules["marimo"] = types.ModuleType("marimo")
sys.modules["marimo"].ui = types.SimpleNamespace(slider=Slider)
asyncio.run(serve(int(sys.argv[1])))
