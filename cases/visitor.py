"""A visitor over a WebSocket (RFC 6455) by Python's standard library alone, the program that serves, and what a visitor of
examples/sliders.py is sent, worked out here and never taken from the program. Scripts of cases/ and bench/ share it; they write no
bytecode, since a folder in cases/ is a group of cases.
"""
import base64, contextlib, hashlib, json, os, pathlib, random, socket, struct, subprocess, time

TOP = pathlib.Path(__file__).resolve().parent.parent
SLIDERS = TOP / "examples/sliders.py"
SECONDS = 10
CONTINUED, TEXT, BINARY, CLOSE, PING, PONG = 0, 1, 2, 8, 9, 10


def spelled(frame):
    return json.dumps(frame, ensure_ascii=False, sort_keys=True, separators=(",", ":")).encode()


def cell(number, text=None):
    output = None if text is None else {"text": text, "type": "plain"}
    return spelled({"cell": number, "console": [], "error": None, "output": output, "status": "ok"})


def done(count):
    return spelled({"done": count})


def refused(why, **names):
    return [spelled({"refused": why, **names}), done(0)]


def opening():
    return spelled({"open": {}})


def setting(name, number):
    return spelled({"set": {name: number}})


def closing():
    return spelled({"close": {}})


class Sliders:
    """The values that a visitor of examples/sliders.py has set, and what is sent for messages."""

    LIMITS = {"items": (2, 20), "shipping": (0, 15)}

    def __init__(self):
        self.values = {name: low for name, (low, _) in self.LIMITS.items()}

    def total(self):
        net = self.values["items"] + self.values["items"] + 5
        return cell(0, str(net + self.values["shipping"]))

    def opened(self):
        return [cell(4), cell(2), cell(1), cell(3), self.total(), done(5)]

    def after(self, name, number):
        if name not in self.LIMITS:
            return refused("element", name=name)
        low, high = self.LIMITS[name]
        if not low <= number <= high:
            return refused("value", name=name)
        self.values[name] = number
        return [cell(1), self.total(), done(2)] if name == "items" else [self.total(), done(1)]

    def after_both(self, items, shipping):
        self.values = {"items": items, "shipping": shipping}
        return [cell(1), self.total(), done(2)]


def masked(payload, key):
    repeated = (key * (len(payload) // 4 + 1))[: len(payload)]
    return (int.from_bytes(payload, "big") ^ int.from_bytes(repeated, "big")).to_bytes(len(payload), "big")


def head(code, size, last=True, reserved=0, mask=True):
    """The first bytes of a frame, up to the mask's key (section 5.2)."""
    first, bit = last << 7 | reserved << 4 | code, mask << 7
    if size < 126:
        return struct.pack(">BB", first, bit | size)
    return struct.pack(">BBH", first, bit | 126, size) if size < 1 << 16 else struct.pack(">BBQ", first, bit | 127, size)


def frame(code, payload=b"", **how):
    """A visitor's frame, which is masked."""
    key = os.urandom(4)
    return head(code, len(payload), **how) + key + masked(payload, key)


def request(path="/", **fields):
    """The request of a handshake (section 4.1); a field of None is left out."""
    key = base64.b64encode(os.urandom(16)).decode()
    usual = {"Host": "127.0.0.1", "Upgrade": "websocket", "Connection": "Upgrade"}
    usual |= {"Sec-WebSocket-Key": key, "Sec-WebSocket-Version": "13"}
    lines = [f"{name}: {value}" for name, value in (usual | fields).items() if value is not None]
    return key, "\r\n".join([f"GET {path} HTTP/1.1", *lines, "", ""]).encode()


class Visitor:
    """One connection to the server, at first without a handshake."""

    def __init__(self, port):
        self.socket = socket.create_connection(("127.0.0.1", port), SECONDS)
        self.socket.setsockopt(socket.IPPROTO_TCP, socket.TCP_NODELAY, 1)
        self.left = b""

    def send(self, *pieces):
        self.socket.sendall(b"".join(pieces))

    def read(self, size):
        while len(self.left) < size:
            more = self.socket.recv(1 << 16)
            if not more:
                raise ConnectionError(f"the connection ended after {self.left[:80]!r}")
            self.left += more
        taken, self.left = self.left[:size], self.left[size:]
        return taken

    def greeted(self, key):
        """Reads the answer to the request of a handshake (section 4.2.2)."""
        lines = []
        while not lines or lines[-1]:
            line = b""
            while not line.endswith(b"\r\n"):
                line += self.read(1)
            lines.append(line[:-2].decode())
        fields = {name.lower(): value.strip() for name, _, value in (line.partition(":") for line in lines[1:-1])}
        wanted = base64.b64encode(hashlib.sha1((key + "258EAFA5-E914-47DA-95CA-C5AB0DC85B11").encode()).digest()).decode()
        same(True, lines[0].startswith("HTTP/1.1 101"))
        same("websocket", fields.get("upgrade", "").lower())
        same("upgrade", fields.get("connection", "").lower())
        same(wanted, fields.get("sec-websocket-accept"))
        return self

    def heard(self):
        """The code and the payload of the server's next frame, which is whole, isn't masked and has the shortest head."""
        start = self.read(2)
        rest = self.read({126: 2, 127: 8}.get(start[1], 0))
        code, size = start[0] & 15, int.from_bytes(rest or start[1:], "big")
        same(head(code, size, mask=False), start + rest)
        return code, self.read(size)

    def texts(self):
        """The texts of one answer."""
        texts = []
        while not texts or not texts[-1].startswith(b'{"done":'):
            code, payload = self.heard()
            same(TEXT, code)
            texts.append(payload)
        return texts

    def ask(self, message):
        self.send(frame(TEXT, message))
        return self.texts()

    def end(self):
        """Closes with a code, and wants it answered and the connection closed."""
        self.send(frame(CLOSE, struct.pack(">H", 1000)))
        same((CLOSE, struct.pack(">H", 1000)), self.heard())
        self.ended()

    def ended(self):
        """Wants that nothing more comes and the connection is closed."""
        try:
            same(b"", self.left or self.socket.recv(1))
        except ConnectionResetError:
            pass
        self.socket.close()

    def drop(self, reset=False):
        if reset:
            self.socket.setsockopt(socket.SOL_SOCKET, socket.SO_LINGER, struct.pack("ii", 1, 0))
        self.socket.close()


def visitor(port):
    """A visitor whose handshake is done."""
    key, bytes_of_it = request()
    came = Visitor(port)
    came.send(bytes_of_it)
    return came.greeted(key)


def same(wanted, got):
    if wanted != got:
        raise AssertionError(f"wanted {shortened(wanted)}, and got {shortened(got)}")


def shortened(it):
    return repr(it) if len(repr(it)) < 400 else repr(it)[:400] + " .."


def listening():
    """The addresses at which sockets listen, as pairs of the system's spelling and the port."""
    rows = [row.split() for name in ("tcp", "tcp6") for row in pathlib.Path("/proc/net", name).read_text().splitlines()[1:]]
    places = [row[1].split(":") for row in rows if row[3] == "0A"]
    return [(address, int(port, 16)) for address, port in places]


def free_port():
    """A port below those that the system gives to clients, at which nobody listens."""
    while True:
        port = random.randrange(15000, 32000)
        with socket.socket() as trial:
            with contextlib.suppress(OSError):
                trial.bind(("127.0.0.1", port))
                return port


class Server:
    """A program that serves at a port."""

    def __init__(self, words, port, out=subprocess.PIPE):
        self.port = port
        self.process = subprocess.Popen(words, stdin=subprocess.DEVNULL, stdout=out, stderr=subprocess.PIPE)

    def comes(self):
        """Whether it listens, before it ends."""
        start = time.monotonic()
        while time.monotonic() < start + SECONDS and self.process.poll() is None:
            if ("0100007F", self.port) in listening():
                return True
            time.sleep(0.01)
        return False

    def memory(self):
        """How much memory is resident, in KiB."""
        rows = pathlib.Path(f"/proc/{self.process.pid}/status").read_text().splitlines()
        return next(int(row.split()[1]) for row in rows if row.startswith("VmRSS:"))

    def report(self):
        """What it printed, what it said on the standard error, and its status, once it has ended."""
        out, said = self.process.communicate(timeout=SECONDS)
        return out, said, self.process.returncode

    def stop(self):
        self.process.kill()
        self.process.communicate()


@contextlib.contextmanager
def serving(program, *options, file=SLIDERS, out=subprocess.PIPE):
    """A server at a free port, killed at the end where it still runs. Another port is tried where someone was faster."""
    for _ in range(3):
        port = free_port()
        server = Server([program, "run", file, f"--port={port}", *options], port, out)
        if server.comes():
            break
        server.stop()
    else:
        raise AssertionError("it doesn't listen")
    try:
        yield server
    finally:
        server.stop()
