"""What bench/serve.sh measures: `serving.py PROGRAM RUNS SECONDS`. Each visitor is a process of its own, the same for both servers."""
import array, multiprocessing, os, pathlib, statistics, sys, time

from trips import Trips
from visitor import SLIDERS, Server, free_port

PROGRAM, RUNS, LENGTH = sys.argv[1], int(sys.argv[2]), float(sys.argv[3])
VISITORS, WARM = (1, 4, 16), 300


def visit(port, length, barrier, pipe):
    """Sets one value after the other for so long, and gives the nanoseconds of each answer and of all."""
    trips, times, clock = Trips(port), array.array("Q"), time.perf_counter_ns
    trips.sets(WARM)
    barrier.wait()
    start = clock()
    while clock() < start + length * 1e9:
        times.append(trips.set())
    pipe.send((times, clock() - start))
    trips.left().end()


def load(port, count, length):
    """The nanoseconds of the answers that so many visitors at once were given, and how many a second they were given together."""
    barrier, visits = multiprocessing.Barrier(count), []
    for _ in range(count):
        ours, theirs = multiprocessing.Pipe(False)
        process = multiprocessing.Process(target=visit, args=(port, length, barrier, theirs), daemon=True)
        process.start()
        theirs.close()
        visits.append((process, ours))
    times, rate = [], 0.0
    for process, ours in visits:
        if not ours.poll(length + 60):
            raise SystemExit("a visitor wasn't answered")
        some, whole = ours.recv()
        process.join()
        times += some
        rate += len(some) * 1e9 / whole
    return sorted(times), rate


def seconds_used(server):
    """The processor time of the server's process."""
    fields = pathlib.Path(f"/proc/{server.process.pid}/stat").read_text().rpartition(")")[2].split()
    return (int(fields[11]) + int(fields[12])) / os.sysconf("SC_CLK_TCK")


def started(name, count):
    port = free_port()
    ours = [PROGRAM, "run", SLIDERS, f"--port={port}", f"--workers={max(4, count)}", "--visitors=1000000000"]
    theirs = [sys.executable, pathlib.Path(__file__).with_name("plain_server.py"), str(port)]
    server = Server(ours if name == "nbserve" else theirs, port)
    if not server.comes():
        server.stop()
        raise SystemExit(f"{name} doesn't listen")
    return server


def measured(server, count):
    before = seconds_used(server)
    times, rate = load(server.port, count, LENGTH)
    used = (seconds_used(server) - before) / (len(times) + count * WARM)
    return times[len(times) // 2] / 1e3, times[len(times) * 99 // 100] / 1e3, rate, used * 1e6


rates = {}
heads = "median us", "p99 us", "answers/s", "processor us", "KiB start", "KiB end"
print(f"{'server':10} {'visitors':>8}", *(f"{it:>12}" for it in heads))
for count in VISITORS:
    servers = {name: started(name, count) for name in ("nbserve", "python")}
    try:
        starts = {name: server.memory() for name, server in servers.items()}
        rows = {name: [] for name in servers}
        for _ in range(RUNS):
            for name, server in servers.items():
                rows[name].append(measured(server, count))
        for name, server in servers.items():
            median, late, rate, used = map(statistics.median, zip(*rows[name]))
            rates[name, count] = median, rate
            row = f"{name:10} {count:8d} {median:12.1f} {late:12.1f} {rate:12.0f} {used:12.1f}"
            print(f"{row} {starts[name]:12d} {server.memory():12d}", flush=True)
    finally:
        for server in servers.values():
            server.stop()
for count in VISITORS:
    (ours, more), (theirs, fewer) = rates["nbserve", count], rates["python", count]
    print(f"{count} visitors: nbserve's median by Python's {ours / theirs:.3f}, its answers a second by Python's {more / fewer:.1f}")
for name in ("nbserve", "python"):
    print(f"{name}: answers a second of 4 visitors by those of one {rates[name, 4][1] / rates[name, 1][1]:.2f}")
