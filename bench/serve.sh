#!/usr/bin/env bash
# Times the answers of `nbserve run` to visitors who set a slider again and again, beside those of a server of Python's `websockets` over
# asyncio (bench/plain_server.py), which runs the same cells for the same visitors and sends the same bytes.
# Usage: bench/serve.sh [RUNS [SECONDS]]. Visitors are 1, 4 and 16 processes (bench/trips.py), each of which sends a value when the answer
# before has come, and looks at each byte; the servers take turns, RUNS times for SECONDS. It prints, from the medians of the runs: the
# median and the 99th percentile of the time from a value to the `done` of its answer, answers a second of all visitors, the processor
# time of the server for an answer, and the memory that is resident before the first visitor and after the last. nbserve has 16 workers
# for 16 visitors, else 4; Python has one process. Before that bench/clients.py lets visitors of Python's `websockets` come to nbserve.
# PROGRAM in the environment is a program that is built; else the repository's is built.
# It needs a Python with `websockets`; Debian's package python3-websockets has it for /usr/bin/python3.
. "$(dirname "$0")/timing.sh"

program=${PROGRAM:-$top/crates/nbserve/out/nbserve}
[ -n "${PROGRAM:-}" ] || "$top/nbserve" once "$top/examples/sliders.py" > /dev/null
for python in python3 /usr/bin/python3; do
  if "$python" -c 'import websockets' 2> /dev/null; then break; fi
done
"$python" "$top/bench/clients.py" "$program"
"$python" "$top/bench/serving.py" "$program" "$runs" "${2:-3}"
