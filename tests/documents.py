"""Checks that the documents say what is so: sessions as they are shown, bytes of images, names of crates and files."""
import os
import re
import subprocess
import tempfile

from images import BLOCK, checksum
from program import TOP, build, check_all, run

CODE = (".rt", ".antt")


def text_of(name):
    with open(os.path.join(TOP, name), encoding="utf-8") as file:
        return file.read()


def fences(name, kind=""):
    """The texts between fences of that kind."""
    found = re.findall(r"^```(\w*)\n(.*?)^```$", text_of(name), flags=re.M | re.S)
    return [text for word, text in found if word == kind]


def sessions_of_the_readme():
    """Each command of its sessions, in one folder, prints what stands below it."""
    got, want = [], []
    with tempfile.TemporaryDirectory() as folder:
        for name in ("fxfs", "examples"):
            os.symlink(os.path.join(TOP, name), os.path.join(folder, name))
        for part in "".join(fences("README.md", "console")).split("$ ")[1:]:
            command, told = part.split("\n", 1)
            done = subprocess.run(
                ["sh", "-c", command], cwd=folder, stdin=subprocess.DEVNULL, stdout=subprocess.PIPE,
                stderr=subprocess.STDOUT, timeout=120, check=False,
            )
            got.append((command, done.stdout.decode()))
            want.append((command, told))
    return got, want


def on_image(blocks, *commands):
    """What the commands print, each with its script, and the blocks of the image at the end."""
    with tempfile.TemporaryDirectory() as folder:
        path = os.path.join(folder, "disk.img")
        with open(path, "wb") as file:
            file.truncate(blocks * BLOCK)
        told = [run([path, word], script.encode())[1].decode() for word, script in commands]
        with open(path, "rb") as file:
            return told, [file.read(BLOCK) for _ in range(blocks)]


def example_of_the_formats():
    """The two scripts, each with its results behind it, on one image."""
    first, results, second, more = [part for part in fences("docs/FORMAT.md") if re.match(r"mkdir|list|1 1 ", part)]
    told, _ = on_image(2048, ("mkfs", ""), ("shell", first), ("shell", second))
    examples = [text_of(f"examples/{name}.fxfs") for name in ("first", "second")]
    return [told[1:], examples], [[results, more], [first, second]]


def shown(dump):
    """The block of a dump: a place and bytes in each line, what follows three spaces being a remark."""
    block = bytearray(BLOCK)
    for line in dump.splitlines():
        place, text = line.split(None, 1)
        row = bytes.fromhex(text.split("   ")[0])
        block[int(place):int(place) + len(row)] = row
    return bytes(block)


def stated(block):
    return int.from_bytes(block[4088:], "little")


def blocks_of_the_formats():
    """The dumps of a superblock and of a journal block against images, and each checksum against its definition."""
    first, journal = [shown(part) for part in fences("docs/FORMAT.md") if part.startswith("   0  ")]
    _, fresh = on_image(2048, ("mkfs", ""))
    lines = "mkdir /v\ncreate /v/a\nwrite /v/a 0 hi\nsync\nmkdir /v/b\n"
    _, blocks = on_image(1088, ("mkfs", ""), ("shell", lines), ("shell", "mkdir /w\n"))
    two, three = blocks[2], blocks[3]
    chain = [checksum(0, bytes.fromhex("78000000")), checksum(0, first[:4088]), checksum(1, two[:4088])]
    chain.append(checksum(chain[2], three[:4088]))
    shown_all = text_of("docs/FORMAT.md")
    got = [
        fresh[0], any(b"".join(fresh[1:])), two, [stated(block) for block in (first, two, three)],
        [f"{number:,}" in shown_all for number in chain],
        three[24:83].hex(), any(three[83:4088]), blocks[4][:16].hex(), any(b"".join(blocks[5:])),
    ]
    fourth = ("3700000001040000000000000002000000" "040100000000000000000000000162" "04010000000200000000000000"
              "01010000000200000000000000" "01")
    want = [
        first, False, journal, chain[1:], [True] * 4, fourth, False, "02000000000000000300000000000000", False,
    ]
    return got, want


def each_crate_once():
    """Each crate of crates.txt has one entry in the architecture, and stands in its picture."""
    names = [line.split(":")[0].split()[0] for line in text_of("crates.txt").splitlines() if line]
    architecture = text_of("docs/ARCHITECTURE.md")
    entries = re.findall(r"^\*\*(\w+)\*\*", architecture, flags=re.M)
    picture = set(re.findall(r"\w+", fences("docs/ARCHITECTURE.md")[0]))
    return [sorted(entries), [name for name in names if name not in picture]], [sorted(names), []]


def code_files():
    for top in ("crates", "bench"):
        for at, folders, files in os.walk(os.path.join(TOP, top)):
            folders[:] = [folder for folder in folders if folder != "out"]
            yield from (os.path.join(at, file) for file in files if file.endswith((*CODE, ".py")))


def names_that_are_there():
    """Each file and each name of code between backquotes in the README, the architecture and the model is there."""
    files = list(code_files())
    words = set(os.listdir(os.path.join(TOP, "crates")))
    for file in files:
        words.update(re.findall(r"[A-Za-z_]\w*", text_of(file)))
        words.add(os.path.splitext(os.path.basename(file))[0])
    missing = []
    for document in ("README.md", "docs/ARCHITECTURE.md", "docs/MODEL.md"):
        text = re.sub(r"^```.*?^```$", "", text_of(document), flags=re.M | re.S)
        for quoted in re.findall(r"`([^`\n]+)`", text):
            if quoted.endswith(CODE):
                found = any(file.endswith(f"/{quoted}") for file in files)
            elif re.fullmatch(r"\w+(::\w+|\.\w+)*", quoted):
                found = all(word in words or word.isdigit() for word in re.split(r"::|\.", quoted))
            else:
                continue
            if not found and not os.path.exists(os.path.join(TOP, quoted)):
                missing.append((document, quoted))
    return missing, []


def picture_of_an_image():
    """The blocks of the picture in the architecture hold what it says."""
    lines = "mkdir /v\ncreate /v/a\nwrite /v/a 0 hi\nsync\nmkdir /v/b\n"
    _, blocks = on_image(1088, ("mkfs", ""), ("shell", lines))
    picture = next(part for part in fences("docs/ARCHITECTURE.md") if part.startswith("  block "))
    places = re.findall(r"\d+", picture.splitlines()[0])
    held = re.findall(r"(super|seq) (\d+)", picture)
    got = [
        [at for at, block in enumerate(blocks) if any(block)],
        [int.from_bytes(block[16:24], "little") for block in blocks[:2]],
        [int.from_bytes(block[:8], "little") for block in blocks[2:4]],
        places[4:],
    ]
    want = [
        [int(place) for place in places[:4]],
        [int(number) for word, number in held if word == "super"],
        [int(number) for word, number in held if word == "seq"],
        ["4", str(2 + 256 - 1), str(2 + 256), str(len(blocks) - 1)],
    ]
    return got, want


def squeezed(text):
    """The text with no white space: its layout does not count."""
    return re.sub(r"\s+", "", text)


def pages_of_the_crates():
    """Each crate has a page of at most 60 lines, and each line of code that a page shows stands in a test."""
    tests = squeezed("".join(
        text_of(file) for file in code_files() if file.endswith(".rt") and ("test" in file or "/mounts" in file)
    ))
    wrong = []
    for name in sorted(os.listdir(os.path.join(TOP, "crates"))):
        page = os.path.join("crates", name, "README.md")
        if not os.path.exists(os.path.join(TOP, page)):
            wrong.append((name, "has no page"))
            continue
        if len(text_of(page).splitlines()) > 60:
            wrong.append((name, "its page is too long"))
        lines = "".join(fences(page, "rust")).splitlines()
        wrong.extend((name, line) for line in lines if squeezed(line) not in tests)
    return wrong, []


CHECKS = [
    pages_of_the_crates, picture_of_an_image, sessions_of_the_readme, example_of_the_formats, blocks_of_the_formats, each_crate_once, names_that_are_there,
]


if __name__ == "__main__":
    build()
    check_all(CHECKS)
