"""What it costs to make names, against what is there today, in one run.

- 3,000 creates in one shell on an image in a file, against as many empty files that `debugfs -w -f` writes into
  an ext4 image of the same size. The least time of five rounds counts for each.
- 3,000 creates with a sync behind each, against as many writes of 4,096 bytes with a data sync behind each, on a
  file beside the image. A ring of 1,024 blocks takes fewer than 3,000, and what a sync costs changes from second to
  second on some devices; so each is done in twelve rounds of 250, in turns, on a fresh image. The sums count,
  with the start of the program taken off, which one shell of 3,000 would have once: that of an empty script.
"""
import os
import statistics
import tempfile

import sides

CREATES = 3000
ROUNDS = 5
SYNC_ROUNDS = 12


def turns(one, other, rounds):
    """The seconds of each of the two, round by round, each of which goes first in every second round."""
    ones, others = [], []
    for number in range(rounds):
        for side, spent in [(one, ones), (other, others)][:: 1 if number % 2 else -1]:
            told = side()
            spent.append(told.seconds if told else None)
    return ones, others


def in_one_shell(folder):
    lines = sides.creates(CREATES)
    ours, theirs = turns(
        lambda: sides.fxfs(folder, lines), lambda: sides.debugfs_creates(folder, CREATES), ROUNDS
    )
    ours = min(ours)
    if None in theirs:
        print(f"{CREATES:,} creates in one shell take {ours * 1000:.0f} ms; there is no debugfs or mke2fs to compare with")
        return
    theirs = min(theirs)
    print(
        f"{CREATES:,} creates in one shell take {ours / theirs:.2f} times as long as debugfs on ext4"
        f" (at most 1 is wished): {ours * 1000:.0f} ms, {theirs * 1000:.0f} ms"
    )


def with_a_sync_each(folder):
    count = CREATES // SYNC_ROUNDS
    lines = sides.synced_creates(count)
    ours, theirs = turns(lambda: sides.fxfs(folder, lines), lambda: sides.bare_syncs(folder, count), SYNC_ROUNDS)
    start = statistics.median(sides.fxfs(folder, []).seconds for _ in range(SYNC_ROUNDS))
    middle = statistics.median((one - start) / other for one, other in zip(ours, theirs))
    ours, theirs = sum(ours), sum(theirs)
    print(
        f"{CREATES:,} creates with a sync each take {(ours - start * SYNC_ROUNDS) / theirs:.2f} times as long as bare writes"
        f" with a data sync each (at most 1.3 is wished): {ours:.2f} s with {SYNC_ROUNDS} starts of {start * 1000:.1f} ms,"
        f" {theirs:.2f} s; {middle:.2f} in the median round, {ours / theirs:.2f} with the starts"
    )


def main():
    sides.build()
    print(f"load of the machine: {os.getloadavg()[0]:.1f} on {os.cpu_count()} processors")
    with tempfile.TemporaryDirectory() as folder:
        in_one_shell(folder)
        with_a_sync_each(folder)


if __name__ == "__main__":
    main()
