"""What reading a script of 16 MiB costs against copying it, in one run of each.

The last line is wrong, so the script is read whole and nothing is run. The image is a file, which is
not read then, so that no disk lies in the program's memory. The time is that of the processor, in the
program and in the kernel for it; the least of nine rounds counts for each. The program's start is measured
by an empty script on an image that is not mounted, and taken off. Of reading, a good part is the kernel's:
the script is copied into memory that is touched for the first time.
"""
import os
import resource
import subprocess
import tempfile

TOP = os.path.dirname(os.path.dirname(os.path.abspath(__file__)))
LAUNCHER = os.path.join(TOP, "fxfs")
PROGRAM = os.path.join(TOP, "out", "fxfs")
LIMIT = 16777216
IMAGE_BYTES = 2048 * 4096
LINES = {
    "a name of 200 bytes and a text of 38": b"write /volume/" + b"n" * 200 + b" 0 " + b"t" * 38 + b"\n",
    "a text of 240 bytes": b"write /v/a 0 " + b"t" * 240 + b"\n",
}


def script(line):
    return line * (LIMIT // len(line) - 1) + b"wrong\n"


def spent_by_children():
    spent = resource.getrusage(resource.RUSAGE_CHILDREN)
    return spent.ru_utime + spent.ru_stime


def seconds(words, path, status):
    """The processor time of a run whose input is the file and which ends with this status."""
    before = spent_by_children()
    with open(path, "rb") as source:
        done = subprocess.run(words, stdin=source, stdout=subprocess.DEVNULL, check=False)
    assert done.returncode == status, done.returncode
    return spent_by_children() - before


def least(words, path, status):
    return min(seconds(words, path, status) for _ in range(9))


def main():
    # The launcher builds the program where it is not built.
    subprocess.run([LAUNCHER, "mem:2048", "shell"], stdin=subprocess.DEVNULL, check=True)
    with tempfile.TemporaryDirectory() as folder:
        full, empty, copy, image = (os.path.join(folder, name) for name in ("full", "empty", "copy", "image"))
        open(empty, "wb").close()
        with open(image, "wb") as file:
            file.truncate(IMAGE_BYTES)
        shell = [PROGRAM, image, "shell"]
        start = least(shell, empty, 3)
        for what, line in LINES.items():
            with open(full, "wb") as file:
                file.write(script(line))
            read = least(shell, full, 8) - start
            copied = least(["cp", full, copy], empty, 0)
            print(f"reading 16 MiB of lines, each with {what}, takes {read / copied:.1f} times the processor time of copying ({read * 1000:.0f} ms)")


if __name__ == "__main__":
    main()
