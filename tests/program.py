"""Checks of the built program: what it prints and the status that it ends with, on real streams."""
import fcntl
import os
import shutil
import subprocess
import sys
import tempfile
import time

TOP = os.path.dirname(os.path.dirname(os.path.abspath(__file__)))
LAUNCHER = os.path.join(TOP, "fxfs")
PROGRAM = os.path.join(TOP, "out", "fxfs")
MEMORY = ["mem:2048", "shell"]


def run(words, script=b"", **how):
    """The status, standard output and standard error of one run."""
    if "stdin" not in how:
        how["input"] = script
    how = {"stdout": subprocess.PIPE, "stderr": subprocess.PIPE, "timeout": 120, **how}
    done = subprocess.run([PROGRAM, *words], check=False, **how)
    return done.returncode, done.stdout, done.stderr


def example():
    with open(os.path.join(TOP, "examples", "first.fxfs"), "rb") as script:
        text = script.read()
    want = (
        b"1 1 ok 1\n1 2 ok 2\n1 3 ok 3\n1 4 read 3 15 The%20first%20line.\n"
        b"1 5 err 3 1 exists\n1 6 err 3 1 notfound\n"
    )
    return run(MEMORY, text), (0, want, b"")


def empty_script():
    return run(MEMORY), (0, b"", b"")


def last_line_without_a_line_feed():
    return run(MEMORY, b"mkdir /v"), (0, b"1 1 ok 1\n", b"")


def wrong_line_runs_nothing():
    return run(MEMORY, b"mkdir /v\nmkdirr /w\n"), (8, b"stop 8 badline 2 unknownword\n", b"")


def words_that_are_no_command():
    return run(["mem:2048", "shell", "extra"]), (2, b"stop 2 badwords\n", b"")


def no_command():
    return run(["mem:2048"]), (2, b"stop 2 badwords\n", b"")


def images_that_are_none():
    """Words that name none, and what is no file that can be read and written: a folder, a pipe, a running program."""
    with tempfile.TemporaryDirectory() as folder:
        pipe = os.path.join(folder, "pipe")
        os.mkfifo(pipe)
        images = ["mem:1087", "mem:02048", "mem:65537", "mem:", "", "/nowhere/disk.img", b"\xff", folder, pipe, PROGRAM]
        got = [run(words)[::2] for words in [[], *([image, "shell"] for image in images)]]
    return got, [(12, b"fxfs: image\n")] * 11


def on_file(size, *commands):
    """What each command, with its script, does on one file of zeros in a folder of its own."""
    with tempfile.TemporaryDirectory() as folder:
        image = os.path.join(folder, "disk.img")
        with open(image, "wb") as disk:
            disk.truncate(size)
        return [run([image, *words.split()], script) for words, script in commands]


def formatted_file():
    got = on_file(8 << 20, ("mkfs", b""), ("shell", b"mkdir /v\n"), ("shell", b"mkdir /v\n"))
    return got, [(0, b"mkfs 2048 256\n", b""), (0, b"1 1 ok 1\n", b""), (0, b"1 1 err 1 1 exists\n", b"")]


def ring_of_a_file():
    got = on_file(4160 * 4096 + 4095, ("mkfs --journal=1024", b""), ("mkfs --journal 1025", b""))
    return got, [(0, b"mkfs 4160 1024\n", b""), (2, b"stop 2 badwords\n", b"")]


def file_that_is_too_small():
    return on_file(1087 * 4096, ("mkfs", b"")), [(11, b"stop 11 size 1087\n", b"")]


def blank_file():
    return on_file(8 << 20, ("shell", b"mkdir /v\n")), [(3, b"stop 3 nosuper\n", b"")]


def superblocks_of_a_file():
    """The bytes of both superblocks after a format and a shell: a magic, version 1, and the two generations."""
    with tempfile.TemporaryDirectory() as folder:
        image = os.path.join(folder, "disk.img")
        with open(image, "wb") as disk:
            disk.truncate(1088 * 4096)
        run([image, "mkfs"])
        run([image, "shell"])
        with open(image, "rb") as disk:
            blocks = [disk.read(4096) for _ in range(2)]
    got = [(block[:8], block[8], block[12:16], block[16]) for block in blocks]
    return got, [(b"fxfs-own", 1, b"\x40\x04\0\0", 1), (b"fxfs-own", 1, b"\x40\x04\0\0", 2)]


def file_that_cannot_be_written():
    """Root may write to any file, so the program is run as nobody where this is run as root."""
    nobody = {"user": 65534, "group": 65534, "extra_groups": []} if os.geteuid() == 0 else {}
    with tempfile.TemporaryDirectory() as folder:
        os.chmod(folder, 0o755)
        image, program = os.path.join(folder, "disk.img"), os.path.join(folder, "fxfs")
        shutil.copy(PROGRAM, program)
        with open(image, "wb") as disk:
            disk.truncate(8 << 20)
        os.chmod(image, 0o444)
        done = subprocess.run(
            [program, image, "shell"], stdin=subprocess.DEVNULL, capture_output=True, timeout=120, check=False, **nobody
        )
        return (done.returncode, done.stdout, done.stderr), (12, b"", b"fxfs: image\n")


def image_that_is_held():
    """An image is refused while another open file holds it, and a running program holds its own to its end."""
    with tempfile.TemporaryDirectory() as folder:
        image = os.path.join(folder, "disk.img")
        with open(image, "w+b") as disk:
            disk.truncate(8 << 20)
            got = []
            for lock in (fcntl.LOCK_EX, fcntl.LOCK_SH, fcntl.LOCK_UN):
                fcntl.flock(disk, lock)
                got += [run([image, "mkfs"])]
            first = subprocess.Popen([PROGRAM, image, "shell"], stdin=subprocess.PIPE, stdout=subprocess.PIPE)
            while is_free(disk):
                time.sleep(0.01)
            got += [run([image, "shell"], b"mkdir /b\n")]
            got += [first.communicate(b"mkdir /a\n", timeout=120)[0], first.returncode]
        got += [run([image, "shell"], b"mkdir /a\n")]
    refused = (12, b"", b"fxfs: image\n")
    want = [refused, refused, (0, b"mkfs 2048 256\n", b""), refused, b"1 1 ok 1\n", 0, (0, b"1 1 err 1 1 exists\n", b"")]
    return got, want


def is_free(file):
    """Whether no other open file holds it."""
    try:
        fcntl.flock(file, fcntl.LOCK_SH | fcntl.LOCK_NB)
    except BlockingIOError:
        return False
    fcntl.flock(file, fcntl.LOCK_UN)
    return True


def standard_error_that_fails():
    with open("/dev/full", "wb") as full:
        return run(["/nowhere/disk.img", "shell"], stderr=full)[0], 12


def smallest_and_greatest_image():
    return [run([f"mem:{n}", "shell"])[0] for n in (1088, 65536)], [0, 0]


def standard_input_that_fails():
    with tempfile.TemporaryDirectory() as folder:
        directory = os.open(folder, os.O_RDONLY)
        try:
            return run(MEMORY, stdin=directory), (5, b"stop 5 read\n", b"")
        finally:
            os.close(directory)


def standard_output_that_fails():
    with open("/dev/full", "wb") as full:
        return run(MEMORY, b"mkdir /v\n", stdout=full)[::2], (6, b"")


def streams_that_are_closed():
    """A stream that is closed fails by the launcher. By the program alone standard output fails and standard input is
    at its end. No image takes its place: the image has the same length, and what was done is there."""
    got = []
    with tempfile.TemporaryDirectory() as folder:
        image = os.path.join(folder, "disk.img")
        with open(image, "wb") as disk:
            disk.truncate(8 << 20)
        run([image, "mkfs"])
        script = "mkdir /a\\ncreate /a/b\\n"
        for closed in (">&-", "<&-", "<&- >&- 2>&-", "2>&-"):
            words = f"printf '{script}' | {{ '{LAUNCHER}' '{image}' shell {closed}; }}"
            done = subprocess.run(
                ["sh", "-c", words], stdin=subprocess.DEVNULL, capture_output=True, timeout=120, check=False
            )
            got.append((done.returncode, done.stdout, done.stderr))
        alone = f"printf '{script}' | {{ '{PROGRAM}' '{image}' shell >&-; }}; echo $?; '{PROGRAM}' '{image}' shell <&- >&-; echo $?"
        got.append(subprocess.run(["sh", "-c", alone], capture_output=True, timeout=120, check=False).stdout)
        got += [os.path.getsize(image), run([image, "shell"], b"list /a\n")]
    again = b"1 1 err 2 1 exists\n1 2 err 2 1 exists\n"
    return got, [
        (6, b"", b""), (5, b"stop 5 read\n", b""), (5, b"", b""), (0, again, b""),
        b"6\n0\n", 8 << 20, (0, b"1 1 list 2 1 b\n", b""),
    ]


def reader_that_goes_away():
    """Where standard output is a pipe that nobody reads, what was done is in the image all the same."""
    with tempfile.TemporaryDirectory() as folder:
        image = os.path.join(folder, "disk.img")
        with open(image, "wb") as disk:
            disk.truncate(8 << 20)
        run([image, "mkfs"])
        end, out = os.pipe()
        os.close(end)
        try:
            status = run([image, "shell"], b"mkdir /a\n", stdout=out)[0]
        finally:
            os.close(out)
        return [status, run([image, "shell"], b"list /\n")], [6, (0, b"1 1 list 1 1 a\n", b"")]


def input_of_the_greatest_length_and_one_more():
    line = b"mkdir /" + b"n" * 255 + b"\n"
    text = line * (16777216 // len(line))
    text += b"mkdir /v".ljust(16777216 - len(text), b"v")
    status = run(MEMORY, text)[0]
    return [status, run(MEMORY, text + b"\n")], [0, (10, b"stop 10 input\n", b"")]


CHECKS = [
    example, empty_script, last_line_without_a_line_feed, wrong_line_runs_nothing, words_that_are_no_command,
    no_command, images_that_are_none, formatted_file, ring_of_a_file, file_that_is_too_small, blank_file,
    superblocks_of_a_file, file_that_cannot_be_written, image_that_is_held, standard_error_that_fails, smallest_and_greatest_image, standard_input_that_fails,
    standard_output_that_fails, streams_that_are_closed, reader_that_goes_away, input_of_the_greatest_length_and_one_more,
]


def build():
    """Builds the program where it is not built, which may take long."""
    subprocess.run([LAUNCHER, *MEMORY], stdin=subprocess.DEVNULL, stdout=subprocess.DEVNULL, check=True)


def check_all(checks):
    """Compares what each check got with what it wants, and ends with status 1 where one differs; -t prints times."""
    failed = 0
    for check in checks:
        start = time.monotonic()
        got, want = check()
        if got != want:
            failed += 1
            print(f"{check.__name__}: got {got!r:.2000}, wanted {want!r:.2000}")
        if "-t" in sys.argv:
            print(f"{check.__name__}: {time.monotonic() - start:.1f} s")
    print(f"{len(checks) - failed} passed, {failed} failed")
    sys.exit(1 if failed else 0)


if __name__ == "__main__":
    build()
    check_all(CHECKS)
