#!/usr/bin/env python3
"""The calls from Python: 64 blocks of 4,096 lanes at n = 255, k = 120 in one thread and in two, and what the package adds to a call.

    bench/python.py [ROUNDS]

The ways run in turn, round after round, and the best time of each counts. Threads are timed by the clock: two need two idle cores.
"""
import os
import sys
import time
from concurrent.futures import ThreadPoolExecutor
from ctypes import c_uint8
from functools import partial
from pathlib import Path

sys.path.insert(0, str(Path(__file__).resolve().parents[1] / "bindings" / "python"))
import balanced
from balanced.calls import FUNCTIONS

BLOCKS, LANES = 64, 4096
PLAN = balanced.Plan([2, 2, 255, 120])
MESSAGE = os.urandom(PLAN.message_len(LANES))
SHARES = PLAN.encode(LANES, MESSAGE)
NODES = list(range(135, 255))
LEFT = b"".join(SHARES[255 * lane + 135:255 * lane + 255] for lane in range(LANES))
WORK = {
    "encode": lambda: PLAN.encode(LANES, MESSAGE),
    "recover": lambda: PLAN.recover(LANES, NODES, LEFT),
    "belongs": lambda: PLAN.belongs(LANES, SHARES),
}


def seconds(work):
    start = time.perf_counter()
    work()
    return time.perf_counter() - start


def best(rounds, ways):
    """The best time of each way, the ways in turn."""
    times = [[seconds(way) for way in ways] for _ in range(rounds)]
    return [min(column) for column in zip(*times)]


def all_blocks(pool, work):
    """The work for every block, in the threads of a pool; what it gives is dropped."""
    for _ in pool.map(lambda _: bool(work()), range(BLOCKS)):
        pass


def in_threads(rounds):
    """All blocks in one thread, then in two."""
    with ThreadPoolExecutor(1) as one, ThreadPoolExecutor(2) as two:
        for name, work in WORK.items():
            alone, shared = best(rounds, [partial(all_blocks, pool, work) for pool in (one, two)])
            print(f"python {name} 255 120 {LANES}, {BLOCKS} blocks: one thread {alone * 1e3:.1f} ms, two {shared * 1e3:.1f} ms, ratio {shared / alone:.2f}")


def added(rounds, lanes, times):
    """A call of the package beside the bare function on buffers that are ready."""
    plan = balanced.Plan([2, 11, 15, 10])
    message, into, ready = os.urandom(10 * lanes), bytearray(15 * lanes), (c_uint8 * (15 * lanes))()
    bare = FUNCTIONS["encode"]
    ways = [
        lambda: [plan.encode(lanes, message, into) for _ in range(times)],
        lambda: [bare(plan.record, 4, lanes, message, len(message), ready, len(ready)) for _ in range(times)],
    ]
    ours, alone = (1e6 * each / times for each in best(rounds, ways))
    print(f"python encode 15 10 {lanes}: {ours:.1f} us, the bare function {alone:.1f} us, added {ours - alone:.1f} us")


def main():
    rounds = int(sys.argv[1]) if len(sys.argv) > 1 else 15
    print(f"python {balanced.library_path()}")
    in_threads(rounds)
    for lanes in (1, 64, LANES):
        added(rounds, lanes, 200)


if __name__ == "__main__":
    main()
