#!/usr/bin/env python3
"""Prints how many turns a second threads take, under a turn and under a mutex, in one run.

Build the program first: `rt run` in crates/turn_bench.
"""

import subprocess
import sys
import time
from pathlib import Path

PROGRAM = Path(__file__).parent.parent / "crates/turn_bench/out/turn_bench"
ROUNDS = 3


def seconds(lock: str, threads: int, turns: int) -> float:
    """The least time of some rounds."""
    best = float("inf")
    for _ in range(ROUNDS):
        start = time.perf_counter()
        run = subprocess.run(
            [PROGRAM, lock, str(threads), str(turns)],
            check=True, capture_output=True, text=True,
        )
        best = min(best, time.perf_counter() - start)
        if run.stdout != f"{threads * turns}\n":
            sys.exit(f"{lock} with {threads} threads came to {run.stdout}")
    return best


def main() -> None:
    if not PROGRAM.exists():
        sys.exit(f"{PROGRAM} is not built")
    for threads, turns in [(1, 4_000_000), (2, 2_000_000), (16, 1_000_000)]:
        for lock in ["turn", "mutex"]:
            rate = threads * turns / seconds(lock, threads, turns)
            print(f"{lock:5} {threads:2} threads: {rate:12,.0f} turns a second")


if __name__ == "__main__":
    main()
