#!/usr/bin/env python3
"""Prints how a look grows from 1,024 names to 60,032, in a batch and in two maps of the standard library, one of whole
keys and one of bare names, and what a merge of 60,032 items in 64 levels costs beside a sort of as many keys, all in
one run. The best round of each counts. The batch compares whole keys, as the map of keys does.

Build the program first: `rt run -- 640 1` in crates/ranges_bench.
"""

import subprocess
import sys
from pathlib import Path

PROGRAM = Path(__file__).parent.parent / "crates/ranges_bench/out/ranges_bench"
# Both are multiples of the 64 levels.
SMALL = 1024
LARGE = 60_032
LOOKS = 1000
RUNS = 5
# A short round is disturbed more easily, and has more of them.
ROUNDS = {SMALL: 100, LARGE: 5}
# How many times what a look in a map grows one in the batch may grow.
MOST = 1.3


def rows(names: int, *more: str) -> list[list[int]]:
    run = subprocess.run([PROGRAM, str(names), str(ROUNDS[names]), *more], check=True, capture_output=True, text=True)
    return [[int(word) for word in line.split()] for line in run.stdout.splitlines()]


def best(rounds: list[list[int]]) -> list[int]:
    """The least of each column: looks in the batch, in the map of keys and in that of names, the merge, the sort."""
    return [min(column) for column in zip(*rounds)]


def main() -> None:
    if not PROGRAM.exists():
        sys.exit(f"{PROGRAM} is not built")
    for names in (SMALL, LARGE):
        wanted = [LOOKS, LOOKS, LOOKS, names]
        if any(row != wanted for row in rows(names)):
            sys.exit(f"not all was found: {wanted} is wanted")
    few, many = [], []
    for _ in range(RUNS):
        few += rows(SMALL, "times")
        many += rows(LARGE, "times")
    few, many = best(few), best(many)
    for names, (batch, in_keys, in_names, merge, sort) in (SMALL, few), (LARGE, many):
        print(f"a look in {names:6,} names: {batch / LOOKS:5.0f} ns in a batch, {in_keys / LOOKS:5.0f} ns in a map of keys,"
              f" {in_names / LOOKS:5.0f} ns in a map of names")
        print(f"a merge of {names:6,} items in 64 levels: {merge / names:5.0f} ns an item,"
              f" {merge / sort:.2f} times a sort of as many keys")
    grows, by_keys, by_names = (large / small for large, small in zip(many[:3], few[:3]))
    print(f"a look grows {grows:.2f} times in the batch: {grows / by_keys:.2f} times as much as in a map of keys,"
          f" {grows / by_names:.2f} times as much as in a map of names, wanted at most {MOST}")


if __name__ == "__main__":
    main()
