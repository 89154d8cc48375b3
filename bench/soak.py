#!/usr/bin/env python3
"""Lets four visitors at once set a slider 2,000,000 times together, and looks at each answer: `bench/soak.py PROGRAM [SETS]`.

A visitor comes again after a tenth of the sets that are the visitor's. It prints the memory that is resident at the start, in the middle
and at the end, and the report. Then one visitor sends messages until the server has answered 1,000,000 and parts. The status is 1 where an
answer, a report or a status isn't the one that was worked out here, or where the second half took more than GROWN KiB.
"""
import multiprocessing, sys, time

from trips import Trips
from visitor import CLOSE, same, serving

VISITORS, TIMES, CHUNK, MOST, GROWN = 4, 10, 1000, 1_000_000, 1024
REPORT = "visitors {} closed {} links 0 memory 0 many {} doors 0\n"


def visit(port, sets, done, place):
    for _ in range(TIMES):
        trips = Trips(port)
        for _ in range(sets // TIMES // CHUNK):
            trips.sets(CHUNK)
            done[place] += CHUNK
        trips.left().end()


def many_visitors(program, sets):
    with serving(program, f"--workers={VISITORS}", f"--visitors={TIMES}") as server:
        done, start, middle = multiprocessing.RawArray("Q", VISITORS), time.monotonic(), None
        print(f"{server.memory()} KiB at the start", flush=True)
        each = sets // VISITORS
        visits = [multiprocessing.Process(target=visit, args=(server.port, each, done, it), daemon=True) for it in range(VISITORS)]
        for it in visits:
            it.start()
        last = None
        while any(it.is_alive() for it in visits):
            if server.process.poll() is None:
                last = (server.memory() if sum(done) < sets else None) or last
            if middle is None and sum(done) >= sets // 2:
                middle = last
                print(f"{middle} KiB after {sum(done)} sets", flush=True)
            time.sleep(0.05)
        same(True, last <= middle + GROWN or (middle, last))
        print(f"{last} KiB at the end, after {sum(done)} sets in {time.monotonic() - start:.0f} seconds", flush=True)
        same([0] * VISITORS, [it.exitcode for it in visits])
        same(each // TIMES // CHUNK * CHUNK * TIMES * VISITORS, sum(done))
        same((REPORT.format(VISITORS * TIMES, VISITORS * TIMES, 0).encode(), b"", 0), server.report())


def one_visitor(program):
    """The opening and 999,999 sets are answered, and no more."""
    with serving(program, "--workers=1", "--visitors=1") as server:
        trips = Trips(server.port)
        trips.sets(MOST - 1)
        came = trips.left()
        same((CLOSE, b""), came.heard())
        came.ended()
        same((REPORT.format(1, 0, 1).encode(), b"", 0), server.report())
    print(f"a visitor is parted from after {MOST:,} messages")


if __name__ == "__main__":
    many_visitors(sys.argv[1], int(sys.argv[2]) if len(sys.argv) > 2 else 2_000_000)
    one_visitor(sys.argv[1])
