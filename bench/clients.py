#!/usr/bin/env python3
"""Lets visitors of Python's `websockets` come to `nbserve run`, as cases/serve lets those of its own: `bench/clients.py PROGRAM`. What they
are to be sent is worked out in cases/visitor.py. The last line is `N passed, M failed`, and the status is 1 where one failed.
"""
import asyncio, http.client, json, pathlib, socket, sys

import websockets

sys.dont_write_bytecode = True
sys.path.insert(0, str(pathlib.Path(__file__).resolve().parent.parent / "cases"))
from visitor import Sliders, closing, opening, refused, same, serving, setting

SECONDS, REPORT = 10, "visitors {} closed {} links {} memory 0 many 0 doors {}\n"


def link(port):
    return websockets.connect(f"ws://127.0.0.1:{port}/", max_size=None, open_timeout=SECONDS)


async def texts(came):
    got = []
    while not got or not got[-1].startswith(b'{"done":'):
        got.append((await came.recv()).encode())
    return got


async def ask(came, message):
    await came.send(message.decode())
    return await texts(came)


async def visits(port, items=20, shipping=15):
    sliders = Sliders()
    async with link(port) as came:
        same(sliders.opened(), await ask(came, opening()))
        same(sliders.after("items", items), await ask(came, setting("items", items)))
        same(sliders.after("shipping", shipping), await ask(came, setting("shipping", shipping)))


async def one_of_four(port, place):
    """One of four at once, each of whom goes on as fast as answers come."""
    sliders = Sliders()
    async with link(port) as came:
        same(sliders.opened(), await ask(came, opening()))
        for turn in range(200):
            name = ("items", "shipping")[turn % 2]
            number = 2 + (5 * place + turn) % 14
            same(sliders.after(name, number), await ask(came, setting(name, number)))


async def ten_in_turn(port):
    for place in range(10):
        await visits(port, 2 + place, 15 - place)


async def four_at_once(port):
    await asyncio.gather(*(one_of_four(port, place) for place in range(4)))


async def spelled_by_json(port):
    """The messages of the README's visitor as Python's `json` spells them, and others with line ends and escapes."""
    sliders = Sliders()
    async with link(port) as came:
        await came.send(json.dumps({"open": {}}))
        same(sliders.opened(), await texts(came))
        await came.send(json.dumps({"set": {"items": 7}}))
        same(sliders.after("items", 7), await texts(came))
        await came.send(json.dumps({"set": {"shipping": 9, "items": 6}}, indent=1))
        same(sliders.after_both(6, 9), await texts(came))
        await came.send(json.dumps({"set": {"\u00e9": 1, "items": 3}}))
        same(refused("element", name="\u00e9"), await texts(came))


async def messages(port):
    """Texts, a binary message, fragments and pings over one link."""
    sliders = Sliders()
    async with link(port) as came:
        same(sliders.opened(), await ask(came, opening()))
        same(refused("message"), await ask(came, b"x" * 65537))
        same(refused("message"), await ask(came, b"x" * 1048576))
        await came.send(opening())
        same(refused("message"), await texts(came))
        await came.send(setting("items", 12).decode()[at : at + 4] for at in range(0, 18, 4))
        same(sliders.after("items", 12), await texts(came))
        await (await came.ping(b"is it there"))
        await came.pong(b"unasked")
        same(sliders.after("items", 13), await ask(came, setting("items", 13)))


async def closes(port):
    """A code is answered by the same, and a close message by a close frame without one, which the library gives as 1005."""
    came = await link(port)
    await came.close(3210, "why")
    same(3210, came.close_rcvd.code)
    came = await link(port)
    await came.send(closing().decode())
    await came.wait_closed()
    same(1005, came.close_code)


async def dropped(port):
    came = await link(port)
    await ask(came, opening())
    came.transport.abort()


async def too_long(port):
    came = await link(port)
    try:
        await came.send("x" * 1048577)
        got = await came.recv()
    except websockets.ConnectionClosed:
        return
    raise AssertionError(f"it was answered: {got}")


async def plain_get(port):
    try:
        where = http.client.HTTPConnection("127.0.0.1", port, timeout=SECONDS)
        where.request("GET", "/")
        got = where.getresponse().status
    except (http.client.RemoteDisconnected, ConnectionResetError):
        return
    raise AssertionError(f"it was answered: {got}")


async def garbage(port):
    with socket.create_connection(("127.0.0.1", port), SECONDS) as came:
        came.sendall(b"\x00\xff garbage\r\n\r\n")
        try:
            same(b"", came.recv(1))
        except ConnectionResetError:
            pass


# What it shows, the visitors who close, whose link fails, and who aren't let in.
CHECKS = [
    ("ten visitors in turn have each their own values", 10, 0, 0, ten_in_turn),
    ("four visitors at once have each their own values", 4, 0, 0, four_at_once),
    ("messages with blanks, as Python's `json` spells them, are answered", 1, 0, 0, spelled_by_json),
    ("texts, a binary message, fragments and pings are answered", 1, 0, 0, messages),
    ("a close frame and a close message end the link", 2, 0, 0, closes),
    ("a connection is dropped", 0, 1, 0, dropped),
    ("a message of 1,048,577 bytes ends the link", 0, 1, 0, too_long),
    ("a plain GET is closed upon", 0, 0, 1, plain_get),
    ("garbage bytes are closed upon", 0, 0, 1, garbage),
]


async def checked(name, port, *visitors):
    try:
        for it in visitors:
            await asyncio.wait_for(it(port), 3 * SECONDS)
    except Exception as error:
        print(f"FAILED: {name}: {type(error).__name__}: {error}")
        return False
    return True


async def all_checks(program):
    closed, links, doors = (sum(it[place] for it in CHECKS) for place in (1, 2, 3))
    closed += len(CHECKS)
    passed = []
    # Four workers take turns, and one after the other ends when it has had its share; the last visitors make up what is left.
    share = -(-(closed + links + doors) // 4)
    more = 4 * share - closed - links - doors
    with serving(program, "--workers=4", f"--visitors={share}") as server:
        for name, _, _, _, visit in CHECKS:
            passed.append(await checked(name, server.port, visit, visits))
        passed.append(await checked("more visitors", server.port, *[visits] * more))
        wanted = REPORT.format(closed + more + links, closed + more, links, doors).encode(), b"", 7
        try:
            same(wanted, server.report())
            passed.append(True)
        except Exception as error:
            print(f"FAILED: the report: {error}")
            passed.append(False)
    print(f"{passed.count(True)} passed, {passed.count(False)} failed")
    return all(passed)


if __name__ == "__main__":
    sys.exit(0 if asyncio.run(all_checks(sys.argv[1])) else 1)
