"""The sides that the benches compare, each on a fresh image: the program on a file, debugfs on ext4, sqlite3,
and bare calls on a file. A side tells what it took, or None where its tool is missing.

Images lie in the folder for temporary files; TMPDIR has to name one on a real device for the syncs to cost
what they do there.
"""
import os
import shutil
import subprocess
import threading
import time
from typing import NamedTuple

TOP = os.path.dirname(os.path.dirname(os.path.abspath(__file__)))
LAUNCHER = os.path.join(TOP, "fxfs")
PROGRAM = os.path.join(TOP, "out", "fxfs")
PATH = os.pathsep.join([os.environ.get("PATH", ""), "/usr/sbin", "/sbin"])
BLOCK = 4096
BLOCKS = 8192
RING = 1024
TEXT = "x" * 100


class Spent(NamedTuple):
    """What a run took: its time, its processor time, and its greatest memory in KiB; the last two are 0 where it was
    no process of its own."""

    seconds: float
    processor: float
    peak: int


def build():
    """Builds the program where it is not built."""
    subprocess.run([LAUNCHER, "mem:2048", "shell"], stdin=subprocess.DEVNULL, stdout=subprocess.DEVNULL, check=True)


def tool(name):
    """The path of a tool, or None."""
    return shutil.which(name, path=PATH)


def watch(child, ended, peaks):
    """Notes the greatest memory of a process each millisecond, until it has ended.

    Its usage of resources would not do: that counts the memory of who started it.
    """
    while not ended.wait(0.001):
        with open(f"/proc/{child.pid}/status", encoding="ascii") as status:
            peaks += [int(line.split()[1]) for line in status if line.startswith("VmHWM:")]


def spend(words, script, out):
    """Runs the words with the script as input and the output in a file."""
    ended, peaks = threading.Event(), [0]
    with open(script, "rb") as source, open(out, "wb") as sink:
        start = time.perf_counter()
        child = subprocess.Popen(words, stdin=source, stdout=sink, stderr=subprocess.DEVNULL)
        watcher = threading.Thread(target=watch, args=(child, ended, peaks))
        watcher.start()
        # The process stays known until it is waited for below, so the watcher never asks for another one.
        os.waitid(os.P_PID, child.pid, os.WEXITED | os.WNOWAIT)
        seconds = time.perf_counter() - start
        ended.set()
        watcher.join()
    _, status, usage = os.wait4(child.pid, 0)
    child.returncode = os.waitstatus_to_exitcode(status)
    assert child.returncode == 0, (words, child.returncode)
    return Spent(seconds, usage.ru_utime + usage.ru_stime, max(peaks))


def file_of(folder, name, lines):
    path = os.path.join(folder, name)
    with open(path, "w", encoding="ascii") as file:
        file.writelines(f"{line}\n" for line in lines)
    return path


def blank(folder, name):
    """A file of as many blocks as each image has, of which none is written."""
    path = os.path.join(folder, name)
    with open(path, "wb") as file:
        file.truncate(BLOCKS * BLOCK)
    return path


# The lines of the program's scripts.
def creates(count):
    return ["mkdir /v", *(f"create /v/f{n}" for n in range(count))]


def synced_creates(count):
    return ["mkdir /v", *(line for n in range(count) for line in (f"create /v/f{n}", "sync"))]


def writes(count):
    return [f"write /v/f{n} 0 {TEXT}" for n in range(count)]


def reads(count):
    return [f"read /v/f{n} 0 100" for n in range(count)]


def fxfs(folder, lines):
    """A shell that does the lines, none of which is refused, on an image that was formatted before."""
    image = blank(folder, "fxfs.img")
    words = [PROGRAM, image, "mkfs", "--journal", str(RING)]
    subprocess.run(words, stdin=subprocess.DEVNULL, stdout=subprocess.DEVNULL, check=True)
    script, out = file_of(folder, "fxfs.in", lines), os.path.join(folder, "fxfs.out")
    spent = spend([PROGRAM, image, "shell"], script, out)
    with open(out, "rb") as told:
        results = told.read()
    assert results.count(b"\n") == len(lines) and b" err " not in results, results[-200:]
    return spent


def fxfs_again(folder):
    """A shell that does nothing on the image of the shell before: it mounts what that has left."""
    script = file_of(folder, "fxfs.in", [])
    return spend([PROGRAM, os.path.join(folder, "fxfs.img"), "shell"], script, os.path.join(folder, "fxfs.out"))


def ext4(folder, text):
    """An image with an ext4 file system, and a file with this text to be copied into it."""
    image = blank(folder, "ext4.img")
    subprocess.run([tool("mke2fs"), "-q", "-F", "-t", "ext4", image], stdin=subprocess.DEVNULL, check=True)
    one = os.path.join(folder, "one")
    with open(one, "w", encoding="ascii") as file:
        file.write(text)
    return image, one


def debugfs_run(folder, image, lines, count, mark):
    """debugfs does the lines, and prints the mark so many times."""
    script, out = file_of(folder, "debugfs.in", lines), os.path.join(folder, "debugfs.out")
    spent = spend([tool("debugfs"), "-w", "-f", script, image], os.devnull, out)
    with open(out, "rb") as told:
        assert told.read().count(mark) == count
    return spent


def debugfs_creates(folder, count):
    """As many empty files in a directory."""
    if not tool("debugfs") or not tool("mke2fs"):
        return None
    return debugfs_fill(folder, count, "")[1]


def debugfs_fill(folder, count, text):
    """An image with as many files with this text in a directory, and what it took to write them."""
    image, one = ext4(folder, text)
    lines = ["mkdir v", "cd v", *(f"write {one} f{n}" for n in range(count))]
    return image, debugfs_run(folder, image, lines, count, b"Allocated inode:")


def debugfs_reads(folder, count):
    """As many files of 100 bytes are printed."""
    if not tool("debugfs") or not tool("mke2fs"):
        return None
    image, _ = debugfs_fill(folder, count, TEXT)
    return debugfs_run(folder, image, ["cd v", *(f"cat f{n}" for n in range(count))], count, TEXT.encode())


def sqlite_run(folder, fresh, mode, lines):
    """sqlite3 with a full sync at each commit does the lines, on a new database or on the one before."""
    image = os.path.join(folder, "sqlite.db")
    head = [f"pragma journal_mode={mode};", "pragma synchronous=full;"]
    if fresh:
        for name in (image, image + "-wal", image + "-shm", image + "-journal"):
            if os.path.exists(name):
                os.remove(name)
        head.append("create table files (path text primary key, body text) without rowid;")
    script = file_of(folder, "sqlite.in", head + lines)
    return spend([tool("sqlite3"), "-bail", image], script, os.path.join(folder, "sqlite.out"))


def inserts(count, text):
    return [f"insert into files values ('/v/f{n}', '{text}');" for n in range(count)]


def sqlite_creates(folder, count, text=""):
    """As many rows in one transaction."""
    if not tool("sqlite3"):
        return None
    return sqlite_run(folder, True, "delete", ["begin;", *inserts(count, text), "commit;"])


def sqlite_syncs(folder, count, mode):
    """As many rows, each in a transaction of its own, with the journal in this mode."""
    if not tool("sqlite3"):
        return None
    return sqlite_run(folder, True, mode, inserts(count, ""))


def sqlite_reads(folder, count):
    """As many rows are printed."""
    if not tool("sqlite3"):
        return None
    sqlite_creates(folder, count, TEXT)
    return sqlite_run(folder, False, "delete", [f"select body from files where path = '/v/f{n}';" for n in range(count)])


def written(folder, count):
    """A file whose first blocks are written and synced, and its number."""
    number = os.open(os.path.join(folder, "bare"), os.O_RDWR | os.O_CREAT | os.O_TRUNC)
    os.ftruncate(number, BLOCKS * BLOCK)
    for at in range(count + 2):
        os.pwrite(number, bytes(BLOCK), at * BLOCK)
    os.fsync(number)
    return number


def bare(folder, count, call):
    """So many calls, each with the file's number and a place in it, of blocks that were written before."""
    number = written(folder, count)
    try:
        start = time.perf_counter()
        for at in range(2, count + 2):
            call(number, at * BLOCK)
        return Spent(time.perf_counter() - start, 0, 0)
    finally:
        os.close(number)


def bare_syncs(folder, count):
    """Writes of one block each, with a data sync behind each."""
    block = bytes(range(256)) * (BLOCK // 256)

    def call(number, place):
        os.pwrite(number, block, place)
        os.fdatasync(number)

    return bare(folder, count, call)


def bare_writes(folder, count):
    """Writes of one block each, and one data sync behind all."""
    block = bytes(range(256)) * (BLOCK // 256)
    last = (count + 1) * BLOCK

    def call(number, place):
        os.pwrite(number, block, place)
        if place == last:
            os.fdatasync(number)

    return bare(folder, count, call)


def bare_reads(folder, count):
    """Reads of one block each."""
    return bare(folder, count, lambda number, place: os.pread(number, BLOCK, place))
