"""A reader of images that is written from docs/FORMAT.md alone, against the program, on sessions drawn by chance."""
import random

from images import BLOCK, Image, checksum
from program import build, check_all


def number(data, at, size):
    return int.from_bytes(data[at:at + size], "little")


def is_super(block):
    return block[:8] == b"fxfs-own" and number(block, 4088, 8) == checksum(0, block[:4088]) and number(block, 8, 4) == 1


def chosen(blocks):
    """The superblock of the greater generation; of two with the same, the first."""
    return max((block for block in blocks[:2] if is_super(block)), key=lambda block: number(block, 16, 8))


def stream(blocks, sup):
    """The epoch and the record bytes of each block of the journal."""
    ring, generation = number(sup, 24, 4), number(sup, 16, 8)
    sequence, chain, floor = number(sup, 32, 8), number(sup, 40, 8), number(sup, 336, 8)
    found = []
    while len(found) < ring:
        block = blocks[2 + sequence % ring]
        epoch, length = number(block, 8, 8), number(block, 16, 2)
        chain = checksum(chain, block[:4088])
        if chain != number(block, 4088, 8) or number(block, 0, 8) != sequence or not floor <= epoch <= generation:
            break
        found.append((epoch, block[24:24 + length]))
        sequence, floor = sequence + 1, epoch
    return found


def texts(found):
    """The record bytes of neighbours of one epoch, joined."""
    joined = []
    for epoch, data in found:
        if joined and joined[-1][0] == epoch:
            joined[-1][1] += data
        else:
            joined.append([epoch, data])
    return [data for _, data in joined]


def item(data, at):
    """The key and the value of the item at this place, and the place after it."""
    key = (number(data, at + 1, 4), number(data, at + 5, 8), data[at])
    value = at + 13
    if data[at] == 4:
        value += 1 + data[at + 13]
        key += (data[at + 14:value],)
    sizes = {(1, 0): 1, (1, 1): 1, (1, 2): 5, (4, 0): 1, (4, 4): 13}
    after = value + sizes[data[at], data[value]]
    return key, data[value:after], after


def transactions(sup, found):
    """The items of each transaction. No record is a discard yet, and their numbers follow each other."""
    lists = []
    for data in texts(found):
        at = 0
        while at + 4 <= len(data) and at + 4 + number(data, at, 4) <= len(data):
            end = at + 4 + number(data, at, 4)
            assert (data[at + 4], number(data, at + 5, 8)) == (1, number(sup, 48, 8) + len(lists) + 1)
            items, place = [], at + 17
            for _ in range(number(data, at + 13, 4)):
                key, value, place = item(data, place)
                items.append((key, value))
            assert place == end and sorted(items) == items
            lists.append(items)
            at = end
    return lists


def tree(image):
    """What lies at each path: the names in a directory, None for a file."""
    blocks = [image[at:at + BLOCK] for at in range(0, len(image), BLOCK)]
    sup = chosen(blocks)
    last = {key: value for items in transactions(sup, stream(blocks, sup)) for key, value in items}
    found, waiting = {}, [("/", (0, 0))]
    while waiting:
        path, node = waiting.pop()
        if node != (0, 0) and last[(*node, 1)][0] == 2:
            found[path] = None
            continue
        children = [(key[3], value) for key, value in last.items() if key[:3] == (*node, 4)]
        found[path] = sorted(name for name, _ in children)
        for name, value in children:
            child = (number(value, 1, 4), number(value, 5, 8))
            waiting.append((f"{path.rstrip('/')}/{escaped(name)}", child))
    return found


def escaped(name):
    keep = b"ABCDEFGHIJKLMNOPQRSTUVWXYZabcdefghijklmnopqrstuvwxyz0123456789.-_~"
    return "".join(chr(byte) if byte in keep else f"%{byte:02X}" for byte in name)


def lines_by_chance(rng, paths):
    """Lines of one session, some of which are refused, on paths that may be there."""
    for _ in range(rng.randrange(60)):
        name = escaped(rng.choice([b"a", b"b b", "\u00fc".encode(), b"n" * 255, b"%", b"x%d" % rng.randrange(40)]))
        path = f"{rng.choice(paths).rstrip('/')}/{name}"
        word = rng.choice(["mkdir", "mkdir", "create", "create", "write", "sync"])
        if word != "sync":
            paths.append(path)
        yield {"sync": "sync", "write": f"write {path} {rng.randrange(9)} text"}.get(word, f"{word} {path}")


def sessions_by_chance():
    """After some sessions the program tells of each path what the reader finds in the image, and of nothing else."""
    rng = random.Random(3)
    got, want = [], []
    for _ in range(8):
        with Image(1088, 256) as image:
            paths = ["/"]
            for _ in range(rng.randrange(1, 6)):
                assert image.shell(*lines_by_chance(rng, paths))[0] == 0
            found = tree(image.bytes())
            asked = sorted(set(paths) | set(found))
            status, told, errors = image.shell(*(f"list {path}" for path in asked))
        results = [line.split()[2:] for line in told.decode().splitlines()]
        got.append((status, results, errors))
        want.append((0, [told_of(found, path, result[1]) for path, result in zip(asked, results)], b""))
    return got, want


def told_of(found, path, base):
    """The result of `list`, without the client and the number of the line."""
    if path not in found:
        above = path.rsplit("/", 1)[0] or "/"
        return ["err", base, "1", "notdir" if is_under_file(found, above) else "notfound"]
    if found[path] is None:
        return ["err", base, "1", "notdir"]
    return ["list", base, str(len(found[path])), *map(escaped, found[path])]


def is_under_file(found, path):
    """Whether the path, or one above it, is a file."""
    parts = path.split("/")[1:]
    return any(found.get("/" + "/".join(parts[:count]), ()) is None for count in range(1, len(parts) + 1))


CHECKS = [sessions_by_chance]


if __name__ == "__main__":
    build()
    check_all(CHECKS)
