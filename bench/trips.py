"""A light visitor of examples/sliders.py: one send and one read for each answer, over cases/visitor.py."""
import pathlib, socket, struct, sys
from time import perf_counter_ns

sys.dont_write_bytecode = True
sys.path.insert(0, str(pathlib.Path(__file__).resolve().parent.parent / "cases"))
from visitor import SECONDS, TEXT, Sliders, frame, head, opening, same, setting, visitor


def framed(texts):
    """The bytes of a server's frames with these texts (RFC 6455, section 5.2)."""
    return b"".join(head(TEXT, len(text), mask=False) + text for text in texts)


class Trips:
    """A visitor who has opened the notebook. The numbers are those at which an answer has as many bytes as any other."""

    def __init__(self, port):
        self.came, sliders = visitor(port), Sliders()
        same(sliders.opened(), self.came.ask(opening()))
        self.pairs = [(frame(TEXT, setting("items", it)), framed(sliders.after("items", it))) for it in range(3, 21)]
        self.size = len(self.pairs[0][1])
        same([self.size] * len(self.pairs), [len(wanted) for _, wanted in self.pairs])
        # The system wakes the visitor once for each answer, when all of it is there.
        self.came.socket.setsockopt(socket.SOL_SOCKET, socket.SO_RCVLOWAT, self.size)
        self.came.socket.setsockopt(socket.SOL_SOCKET, socket.SO_RCVTIMEO, struct.pack("@ll", SECONDS, 0))
        self.came.socket.settimeout(None)
        self.buffer, self.place = bytearray(self.size), 0

    def set(self):
        """Sets a value, looks at each byte of the answer, and gives the nanoseconds from the sending to the whole answer."""
        asked, wanted = self.pairs[self.place % len(self.pairs)]
        self.place += 1
        send, receive, buffer = self.came.socket.send, self.came.socket.recv_into, self.buffer
        start = perf_counter_ns()
        send(asked)
        got = receive(buffer)
        end = perf_counter_ns()
        if got != self.size or buffer != wanted:
            raise AssertionError(f"wanted {wanted!r}, and got {bytes(buffer[:got])!r}")
        return end - start

    def sets(self, count):
        """Sets so many values one after the other."""
        for _ in range(count):
            self.set()

    def left(self):
        """The visitor behind the last answer, who reads as any other."""
        self.came.socket.setsockopt(socket.SOL_SOCKET, socket.SO_RCVLOWAT, 1)
        self.came.socket.settimeout(SECONDS)
        return self.came
