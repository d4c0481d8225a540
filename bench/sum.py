#!/usr/bin/env python3
"""Prints how many bytes a second the checksum of blocks takes, a copy of them, and `cksum` of as many bytes, over
16 MiB, each block touched once a round, all in one run. The best round of each counts. From the time of `cksum` that of
an empty file is taken off, which is its start.

Build the program first: `rt run -- 16 1` in crates/sum_bench.
"""

import subprocess
import sys
import tempfile
import time
from pathlib import Path

PROGRAM = Path(__file__).parent.parent / "crates/sum_bench/out/sum_bench"
BLOCKS = 4096
SIZE = BLOCKS * 4096
ROUNDS = 25


def fletch(words: int, word: int) -> int:
    """The checksum of so many equal words, counted here."""
    low = words * word % 2**32
    high = words * (words + 1) // 2 * word % 2**32
    return high << 32 | low


def cksum(content: bytes) -> float:
    """The least time of some rounds, in seconds."""
    with tempfile.NamedTemporaryFile() as file:
        file.write(content)
        file.flush()
        best = float("inf")
        for _ in range(ROUNDS):
            start = time.perf_counter()
            subprocess.run(["cksum", file.name], check=True, capture_output=True)
            best = min(best, time.perf_counter() - start)
        return best


def main() -> None:
    if not PROGRAM.exists():
        sys.exit(f"{PROGRAM} is not built")
    run = subprocess.run([PROGRAM, str(BLOCKS), str(ROUNDS), "times"], check=True, capture_output=True, text=True)
    rows = [[int(word) for word in line.split()] for line in run.stdout.splitlines()]
    wanted = fletch(SIZE // 4, 0x5A5A5A5A)
    if any(row[:2] != [wanted, wanted] for row in rows):
        sys.exit(f"the checksum is {wanted}, and the program says {rows[0]}")
    summing = min(row[2] for row in rows) / 1e9
    copying = min(row[3] for row in rows) / 1e9
    checking = cksum(bytes(SIZE)) - cksum(b"")
    for name, seconds in [("checksum", summing), ("copy", copying), ("cksum", checking)]:
        print(f"{name:10} {SIZE / seconds / 1e9:6.2f} GB a second, {copying / seconds:5.2f} of the rate of the copy")


if __name__ == "__main__":
    main()
