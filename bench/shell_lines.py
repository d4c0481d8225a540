"""What a long script costs against one a tenth as long, in one run of each.

One directory, then as many creates, writes of 100 bytes and reads. Each run is on a fresh image in a file,
of 8,192 blocks with a journal of 1,024, which is formatted before its time is taken. The time is that of
the processor, in the program and in the kernel for it, since what a flush waits for differs from one disk
and from one moment to the next; the least of seven rounds counts for each. What the start and the mount
cost is measured by an empty script and taken off: a program whose lines cost the same at any length has
about 10.
"""
import os
import resource
import subprocess
import tempfile

TOP = os.path.dirname(os.path.dirname(os.path.abspath(__file__)))
LAUNCHER = os.path.join(TOP, "fxfs")
PROGRAM = os.path.join(TOP, "out", "fxfs")
BLOCK_BYTES = 4096
BLOCKS = 8192
JOURNAL_BLOCKS = 1024


def script(files):
    text = "x" * 100
    lines = ["mkdir /v"]
    lines += [f"create /v/f{i}" for i in range(files)]
    lines += [f"write /v/f{i} 0 {text}" for i in range(files)]
    lines += [f"read /v/f{i} 0 100" for i in range(files)]
    return ("\n".join(lines) + "\n").encode()


def formatted(image):
    with open(image, "wb") as file:
        file.truncate(BLOCKS * BLOCK_BYTES)
    words = [PROGRAM, image, "mkfs", "--journal", str(JOURNAL_BLOCKS)]
    subprocess.run(words, stdin=subprocess.DEVNULL, stdout=subprocess.DEVNULL, check=True)


def spent_by_children():
    spent = resource.getrusage(resource.RUSAGE_CHILDREN)
    return spent.ru_utime + spent.ru_stime


def seconds(folder, text):
    image = os.path.join(folder, "image")
    formatted(image)
    before = spent_by_children()
    done = subprocess.run([PROGRAM, image, "shell"], input=text, stdout=subprocess.PIPE, check=True)
    spent = spent_by_children() - before
    assert done.stdout.count(b"\n") == text.count(b"\n")
    return spent


def least(folder, text):
    return min(seconds(folder, text) for _ in range(7))


def main():
    # The launcher builds the program where it is not built.
    subprocess.run([LAUNCHER, "mem:2048", "shell"], stdin=subprocess.DEVNULL, check=True)
    short, long = script(2000), script(20000)
    with tempfile.TemporaryDirectory() as folder:
        seconds(folder, short)
        start, few, many = least(folder, b""), least(folder, short), least(folder, long)
    ratio = (many - start) / (few - start)
    print(f"60,001 lines take {ratio:.1f} times the processor time of 6,001 (10 is linear); {many / few:.1f} times with the start")


if __name__ == "__main__":
    main()
