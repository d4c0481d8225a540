"""Checks of the built program over images in files: what outlives a run, a kill, and an image that was damaged."""
import os
import random
import re
import resource
import subprocess
import tempfile
import time

from program import PROGRAM, build, check_all, run

BLOCK = 4096
# Each way in which a mount is refused, as the last line tells it.
REFUSED = re.compile(
    rb"stop 3 (nosuper|version \d+|disksize \d+|badlayer \d+|badrecord \d+|badtree \d+ \d+|cramped 0)\n"
)


class Image:
    """An image of zeros in a folder of its own, formatted where a number of ring blocks is given."""

    def __init__(self, blocks, ring=None):
        self.folder = tempfile.TemporaryDirectory()
        self.path = os.path.join(self.folder.name, "disk.img")
        with open(self.path, "wb") as file:
            file.truncate(blocks * BLOCK)
        if ring is not None:
            got = run([self.path, "mkfs", "--journal", str(ring)])
            assert got == (0, b"mkfs %d %d\n" % (blocks, ring), b""), got

    def __enter__(self):
        return self

    def __exit__(self, *_):
        self.folder.cleanup()

    def shell(self, *lines):
        """The status, standard output and standard error of a shell that does the lines."""
        return run([self.path, "shell"], "".join(f"{line}\n" for line in lines).encode())

    def bytes(self):
        with open(self.path, "rb") as file:
            return file.read()

    def put(self, image):
        """Makes the file these bytes."""
        with open(self.path, "wb") as file:
            file.write(image)


def text(*lines):
    return "".join(f"{line}\n" for line in lines).encode()


def names_outlive_a_run():
    """Contents do not yet: a mounted file is empty."""
    with Image(2048, 256) as image:
        got = [
            image.shell("mkdir /v", "create /v/b", "write /v/b 0 hi", "sync", "mkdir /v/a", "stat /v/b"),
            image.shell("list /", "list /v", "stat /v", "stat /v/a", "stat /v/b", "read /v/b 0 9", "create /v/a/c"),
            image.shell("list /v/a", "create /v/a/c"),
        ]
    return got, [
        (0, text("1 1 ok 1", "1 2 ok 2", "1 3 ok 3", "1 4 synced 3 4", "1 5 ok 4", "1 6 stat 4 file 2 1"), b""),
        (0, text("1 1 list 4 1 v", "1 2 list 4 2 a b", "1 3 stat 4 dir 2 0", "1 4 stat 4 dir 0 0",
                 "1 5 stat 4 file 0 0", "1 6 read 4 0", "1 7 ok 5"), b""),
        (0, text("1 1 list 5 1 c", "1 2 err 5 1 exists"), b""),
    ]


def checksum(start, block):
    low, high = start % 2**32, start // 2**32
    for at in range(0, len(block), 4):
        low = (low + int.from_bytes(block[at:at + 4], "little")) % 2**32
        high = (high + low) % 2**32
    return high * 2**32 + low


def full_ring():
    """A fresh ring of 256 blocks takes 254 blocks, and what is there can still be looked at."""
    with Image(1088, 256) as image:
        first = ["mkdir /v", "sync"] + [line for n in range(253) for line in (f"create /v/f{n}", "sync")]
        status, told, _ = image.shell(*first, "create /v/g", "stat /v")
        again = image.shell("create /v/g", "stat /v", "sync")
    got = [status, told.splitlines()[-3:], again]
    return got, [
        0,
        [b"1 508 synced 254 510", b"1 509 err 254 0 full", b"1 510 stat 254 dir 253 0"],
        (0, text("1 1 err 254 0 full", "1 2 stat 254 dir 253 0", "1 3 synced 254 3"), b""),
    ]


def cut_images():
    """A file that became shorter, or longer, is refused and left as it is."""
    got, want = [], []
    with Image(2048, 256) as image:
        image.shell("mkdir /v")
        whole = image.bytes()
        for blocks, line in [(2047, "disksize 2047"), (300, "disksize 300"), (2, "disksize 2"), (1, "nosuper"),
                             (0, "nosuper"), (2049, "disksize 2049")]:
            image.put(whole[:blocks * BLOCK].ljust(blocks * BLOCK, b"\0"))
            before = image.bytes()
            got.append((image.shell("mkdir /w"), image.bytes() == before))
            want.append(((3, f"stop 3 {line}\n".encode(), b""), True))
        image.put(whole + b"x" * (BLOCK - 1))
        got.append(image.shell("list /"))
        want.append((0, text("1 1 list 1 1 v"), b""))
    return got, want


def full_host():
    """A file that may not grow: the sync that needs one more block ends as a fault of the disk, and so does the end;
    what was synced before is there afterwards, and a format says that the disk failed."""
    with Image(1088, 256) as image:
        whole = image.bytes()
        with open(image.path, "wb") as file:
            file.write(whole[:4 * BLOCK])
            file.truncate(1088 * BLOCK)
        script = text("mkdir /v", "sync", "mkdir /w", "sync", "mkdir /x", "sync", "list /")
        got = [
            run([image.path, "shell"], script, **of_at_most(4 * BLOCK)),
            image.shell("list /", "mkdir /x", "sync"),
            run([image.path, "mkfs"], **of_at_most(4 * BLOCK)),
        ]
    return got, [
        (4, text("1 1 ok 1", "1 2 synced 1 4", "1 3 ok 2", "1 4 synced 2 6", "1 5 ok 3", "1 6 err 3 0 device",
                 "1 7 list 3 3 v w x", "stop 4 device"), b""),
        (0, text("1 1 list 2 2 v w", "1 2 ok 3", "1 3 synced 3 4"), b""),
        (4, text("stop 4 device"), b""),
    ]


def of_at_most(size):
    """A process that may write files up to this size, and whose writes past it fail."""
    def limit():
        resource.setrlimit(resource.RLIMIT_FSIZE, (size, resource.RLIM_INFINITY))

    return {"preexec_fn": limit, "restore_signals": False}


def fronts(names):
    """What `list /v` may tell of an image that has kept some of `mkdir /v` and the creates, in their order."""
    yield text("1 1 err 0 1 notfound")
    for kept in range(len(names) + 1):
        yield text(" ".join(["1 1 list", str(kept + 1), str(kept), *names[:kept]]))


def damaged_images():
    """Bytes changed at random places: each mount is refused with a named fault, or has kept a front."""
    names = [f"f{n:02}" for n in range(20)]
    rng = random.Random(1)
    wrong, ends = [], set()
    with Image(1088, 256) as image:
        image.shell("mkdir /v", *(line for name in names[:10] for line in (f"create /v/{name}", "sync")))
        image.shell(*(line for name in names[10:] for line in (f"create /v/{name}", "sync")))
        whole = image.bytes()
        told = set(fronts(names))
        for number in range(100):
            bytes_now = bytearray(whole)
            last = rng.choice([2, 3, 8, 24, 1088]) * BLOCK
            for _ in range(rng.choice([1, 1, 2, 8])):
                at = rng.randrange(last)
                # Half of the places lie where blocks have their fields.
                at = at - at % BLOCK + rng.randrange(96) if rng.random() < 0.5 else at
                bytes_now[at] ^= rng.randrange(1, 256)
            image.put(bytes_now)
            status, out, errors = image.shell("list /v")
            ends.add(status)
            good = errors == b"" and (out in told if status == 0 else status == 3 and REFUSED.fullmatch(out))
            if not good:
                wrong.append((number, status, out, errors))
    return (wrong, ends), ([], {0, 3})


def written_blocks(path, first):
    """How many blocks of the ring, from this one on, are not zeros without a gap."""
    with open(path, "rb") as file:
        file.seek((2 + first) * BLOCK)
        count = 0
        while any(file.read(BLOCK)[:24]):
            count += 1
        return count


def kill_in_mid_run(image, script, block, delay):
    """Kills a shell some time after it has written that block of the ring.

    Gives whether it had ended before, and how many blocks it had written by then.
    """
    with open(script, "rb") as source:
        shell = subprocess.Popen([PROGRAM, image.path, "shell"], stdin=source, stdout=subprocess.DEVNULL)
    try:
        limit = time.monotonic() + 20
        while shell.poll() is None and not written_blocks(image.path, block) and time.monotonic() < limit:
            time.sleep(0.0005)
        time.sleep(delay)
        written = written_blocks(image.path, 0)
        ended = shell.poll() is not None
    finally:
        shell.kill()
        shell.wait()
    return ended, written


def kills_in_mid_run():
    """A shell that is killed at random moments, with a sync behind each commit.

    The next mount has kept a front of the commits, and at least those whose blocks had been written before
    the kill, but for the last one, which may have been in the making.
    """
    names = [f"f{n:03}" for n in range(400)]
    script = text("mkdir /v", "sync", *(line for name in names for line in (f"create /v/{name}", "sync")))
    rng = random.Random(2)
    told = set(fronts(names))
    wrong, in_mid_run = [], 0
    with Image(4160, 1024) as image:
        lines = os.path.join(image.folder.name, "script")
        with open(lines, "wb") as file:
            file.write(script)
        fresh = image.bytes()
        for _ in range(10):
            image.put(fresh)
            ended, written = kill_in_mid_run(image, lines, rng.randrange(300), rng.random() / 200)
            in_mid_run += not ended
            status, out, errors = image.shell("list /v")
            kept = int(out.split()[3]) if status == 0 and out in told else -1
            if kept < written - 1 or errors:
                wrong.append((ended, written, status, out, errors))
    return (wrong, in_mid_run > 0), ([], True)


CHECKS = [names_outlive_a_run, full_ring, cut_images, damaged_images, full_host, kills_in_mid_run]


if __name__ == "__main__":
    build()
    check_all(CHECKS)
