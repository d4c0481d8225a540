"""Checks of the launcher `fxfs`, in a folder of its own, with a toolchain that is played by a small script."""
import os
import shutil
import subprocess
import tempfile

from program import LAUNCHER, check_all

# It does what `rt run` does in the program's folder: it writes the program, and runs it. The program tells its words
# and its input, and ends with status 5. Each build adds a line to the file `built`.
TOOLCHAIN = """#!/bin/sh
[ "$*" = "run -- mem:1088 shell" ] && [ "${PWD##*/}" = fxfs_cli ] || exit 2
echo built >> "$BUILT"
sleep 0.2
if [ -e src/wrong ]; then echo "rt: a goal is open" >&2; exit 1; fi
mkdir -p out
cat > out/fxfs_cli <<'END'
#!/bin/sh
printf '<%s>' "$@"
cat
exit 5
END
chmod +x out/fxfs_cli
echo "rt: proved" >&2
echo "what the program prints"
"""


class Clone:
    """A clone whose folder has a space in its name, and a folder with the toolchain."""

    def __enter__(self):
        self.folder = tempfile.TemporaryDirectory()
        self.top = os.path.join(self.folder.name, "a clone")
        self.bin = os.path.join(self.folder.name, "bin")
        self.built = os.path.join(self.folder.name, "built")
        os.makedirs(os.path.join(self.top, "crates", "fxfs_cli", "src"))
        os.makedirs(self.bin)
        shutil.copy(LAUNCHER, os.path.join(self.top, "fxfs"))
        for name in ("crates.txt", "HANDLES", "crates/fxfs_cli/src/main.rt"):
            self.write(name)
        with open(os.path.join(self.bin, "rt"), "w", encoding="ascii") as file:
            file.write(TOOLCHAIN)
        os.chmod(os.path.join(self.bin, "rt"), 0o755)
        return self

    def __exit__(self, *_):
        self.folder.cleanup()

    def write(self, name):
        open(os.path.join(self.top, name), "w", encoding="ascii").close()

    def start(self, *words, called="./fxfs", cwd=None, toolchain=True):
        path = os.pathsep.join([self.bin, os.environ["PATH"]]) if toolchain else self.without_toolchain()
        return subprocess.Popen(
            [called, *words], cwd=cwd or self.top, env={"PATH": path, "BUILT": self.built},
            stdin=subprocess.PIPE, stdout=subprocess.PIPE, stderr=subprocess.PIPE,
        )

    def without_toolchain(self):
        """A PATH with the commands that the launcher calls, and no rt."""
        folder = os.path.join(self.folder.name, "tools")
        os.makedirs(folder, exist_ok=True)
        for name in ("sh", "readlink", "dirname", "find", "head", "mkdir", "cp", "touch", "mv", "rm", "tail", "cat"):
            if not os.path.lexists(os.path.join(folder, name)):
                os.symlink(shutil.which(name), os.path.join(folder, name))
        return folder

    def run(self, *words, script=b"", **how):
        """The status, standard output, and the lines of standard error."""
        started = self.start(*words, **how)
        out, errors = started.communicate(script, timeout=60)
        return started.returncode, out, errors.decode().splitlines()

    def builds(self):
        with open(self.built, encoding="ascii") as file:
            return len(file.readlines())

    def leftovers(self):
        return sorted(os.listdir(os.path.join(self.top, "out")))


def builds_once_and_says_so():
    with Clone() as clone:
        first = clone.run("mem:2048", "shell", script=b"a script\n")
        again = clone.run("mem:2048", "shell", script=b"a script\n")
        got = [first[:2], [line[:38] for line in first[2]], again, clone.builds(), clone.leftovers()]
    told = (5, b"<mem:2048><shell>a script\n")
    return got, [told, ["fxfs: proving and building the program"], (*told, []), 1, ["fxfs"]]


def words_go_through_as_they_are():
    words = ["a b", "", "-n", "--", "'", '"$HOME"', "*", "\\", "a\nb", "-"]
    with Clone() as clone:
        clone.run()
        got = clone.run(*words)
    return got, (5, "".join(f"<{word}>" for word in words).encode(), [])


def called_from_elsewhere():
    with Clone() as clone:
        clone.run()
        link = os.path.join(clone.bin, "fxfs")
        os.symlink("../a clone/fxfs", link)
        os.symlink("fxfs", os.path.join(clone.bin, "-fxfs"))
        got = [
            clone.run("a", called=os.path.join(clone.top, "fxfs"), cwd="/"),
            clone.run("a", called=link, cwd="/"),
            clone.run("a", called="fxfs", cwd="/"),
            clone.run("a", called="-fxfs", cwd="/"),
            clone.run("./fxfs", "a", called="sh"),
        ]
    return got, [(5, b"<a>", [])] * 5


def sources_that_are_younger():
    """The program is built again where a source or the list of crates is younger, and not for what a build leaves."""
    counts = []
    with Clone() as clone:
        for name in ("crates.txt", "crates/fxfs_cli/src/main.rt", "crates/fxfs_cli/out/kept"):
            clone.run()
            clone.write(name)
            clone.run()
            counts.append(clone.builds())
    return counts, [2, 3, 3]


def two_at_once():
    with Clone() as clone:
        both = [clone.start("a"), clone.start("a")]
        got = [(one.communicate(b"b", timeout=60)[0], one.returncode) for one in both]
        got += [clone.leftovers(), clone.run("c")[:2]]
    return got, [(b"<a>b", 5), (b"<a>b", 5), ["fxfs"], (5, b"<c>")]


def build_that_fails():
    with Clone() as clone:
        clone.run()
        clone.write("crates/fxfs_cli/src/wrong")
        status, out, errors = clone.run("a", script=b"b")
        got = [status, out, errors[1:2], errors[2][:33]]
        os.remove(os.path.join(clone.top, "crates/fxfs_cli/src/wrong"))
        got.append(clone.run("a", script=b"b")[:2])
    return got, [1, b"", ["rt: a goal is open"], "fxfs: the program was not built; ", (5, b"<a>b")]


def no_toolchain():
    with Clone() as clone:
        status, out, errors = clone.run("a", toolchain=False)
        got = [status, out, len(errors), "rt" in errors[0].split()]
        clone.run()
        got.append(clone.run("a", toolchain=False))
    return got, [1, b"", 1, True, (5, b"<a>", [])]


CHECKS = [
    builds_once_and_says_so, words_go_through_as_they_are, called_from_elsewhere, sources_that_are_younger,
    two_at_once, build_that_fails, no_toolchain,
]


if __name__ == "__main__":
    check_all(CHECKS)
