"""A table of ratios, measured side by side in one run: names, reads and syncs against debugfs on ext4, sqlite3 with
a full sync at each commit, and bare calls on a file; how the time of a script and of a mount grows with the lines;
and the greatest memory.

What each side does: a file is an empty one of ext4, a row of a table with its path as key, and in the reads one with
100 bytes. debugfs and sqlite3 read from an image that was filled before, the program from what the same session has
written, since it keeps no contents yet. debugfs syncs at its end alone, so it is not among the syncs. "bare" is calls
on a file by this script: the blocks that the journal fills and one data sync, a read of a block each, and a write of
a block with a data sync each.

There are five rounds, with each side in every round. The median of the times counts, and that of the ratios of
each round. A time is that of the whole command, its start in it, which the first row tells; bare calls have no start.
But from that of the reads the time of the same script without them is taken off, and from that of a line the time of
an empty script.
"""
import os
import statistics
import tempfile

import sides

ROUNDS = 5
COUNT = 3000
SYNCS = 250
# How many blocks of the journal the creates fill.
CREATE_BLOCKS = 50
SIZES = [1000, 2000, 5000, 10000, 20000]


def rounds(folder, runs):
    """What each of the named sides took in each round."""
    spent = {name: [] for name in runs}
    for _ in range(ROUNDS):
        for name, run in runs.items():
            spent[name].append(run(folder))
    return spent


def seconds(all_of):
    return [spent.seconds for spent in all_of]


def row(title, ours, others):
    """A line of the table: the median of our times, and how many times that of each other side it is."""
    cells = [f"{title:<36}{statistics.median(ours) * 1000:>9.1f} ms"]
    for name, all_of in others.items():
        if None in all_of:
            cells.append(f"       - {name} (not here)")
        else:
            ratio = statistics.median(one / other for one, other in zip(ours, seconds(all_of)))
            cells.append(f"{ratio:>8.2f} x {name}")
    print("  ".join(cells), flush=True)


def starts(folder):
    spent = rounds(folder, {
        "fxfs": lambda f: sides.fxfs(f, []),
        "debugfs": lambda f: sides.debugfs_creates(f, 0),
        "sqlite3": lambda f: sides.sqlite_creates(f, 0),
    })
    row("no lines: a start, a mount, an end", seconds(spent.pop("fxfs")), spent)


def creates(folder):
    spent = rounds(folder, {
        "fxfs": lambda f: sides.fxfs(f, sides.creates(COUNT)),
        "debugfs": lambda f: sides.debugfs_creates(f, COUNT),
        "sqlite3": lambda f: sides.sqlite_creates(f, COUNT),
        "bare": lambda f: sides.bare_writes(f, CREATE_BLOCKS),
    })
    row(f"{COUNT:,} creates, one sync at the end", seconds(spent["fxfs"]), {n: spent[n] for n in spent if n != "fxfs"})
    peaks = {name: max(s.peak for s in all_of) for name, all_of in spent.items() if None not in all_of}
    cells = [f"{name} {peak / 1024:.1f} MiB" for name, peak in peaks.items() if peak]
    print(f"{'  their memory at most':<36}  " + ", ".join(cells), flush=True)


def reads(folder):
    before = sides.creates(COUNT) + sides.writes(COUNT)
    spent = rounds(folder, {
        "fxfs": lambda f: sides.fxfs(f, before + sides.reads(COUNT)),
        "before": lambda f: sides.fxfs(f, before),
        "debugfs": lambda f: sides.debugfs_reads(f, COUNT),
        "sqlite3": lambda f: sides.sqlite_reads(f, COUNT),
        "bare": lambda f: sides.bare_reads(f, COUNT),
    })
    start = statistics.median(seconds(spent.pop("before")))
    row(f"{COUNT:,} reads of 100 bytes, no start", [max(s - start, 0) for s in seconds(spent.pop("fxfs"))], spent)


def syncs(folder):
    spent = rounds(folder, {
        "fxfs": lambda f: sides.fxfs(f, sides.synced_creates(SYNCS)),
        "bare": lambda f: sides.bare_syncs(f, SYNCS),
        "sqlite3": lambda f: sides.sqlite_syncs(f, SYNCS, "delete"),
        "sqlite3 wal": lambda f: sides.sqlite_syncs(f, SYNCS, "wal"),
    })
    row(f"{SYNCS:,} creates with a sync each", seconds(spent.pop("fxfs")), spent)


def growth(folder):
    """The processor time of so many lines, what a line costs against one of the shortest script, the greatest memory,
    and the mount of what the lines have left."""
    runs = {}
    for size in [0, *SIZES]:
        lines = sides.creates(size - 1) if size else []
        runs[size] = lambda f, lines=lines: sides.fxfs(f, lines)
        runs[size, "again"] = sides.fxfs_again
    spent = rounds(folder, runs)
    times = {name: statistics.median(s.processor for s in all_of) * 1000 for name, all_of in spent.items()}
    first = (times[SIZES[0]] - times[0]) / SIZES[0]
    for size in [0, *SIZES]:
        peak = max(s.peak for s in spent[size]) / 1024
        told = f"{f'{size:,} lines, processor time':<36}{times[size]:>9.1f} ms  {peak:>6.1f} MiB at most, mounted again in {times[size, 'again']:.1f} ms"
        if size:
            each = (times[size] - times[0]) / size
            told += f"  {each * 1000:>6.1f} us a line, {each / first:.2f} x that of {SIZES[0]:,}"
        print(told, flush=True)


def load():
    return f"{os.getloadavg()[0]:.1f} on {os.cpu_count()} processors"


def main():
    sides.build()
    print(f"fxfs, and how many times that of each other side it is; load of the machine: {load()}")
    with tempfile.TemporaryDirectory() as folder:
        starts(folder)
        creates(folder)
        reads(folder)
        syncs(folder)
        growth(folder)
    print(f"load of the machine at the end: {load()}")


if __name__ == "__main__":
    main()
