#!/usr/bin/env python3
"""A name of a definition means one thing: none stands in two files of specs/, of any crates.

Looked at are the names that files of `specs/` give to functions, types, records and lemmas, public or
not, and to definitions in their modules.
"""

import collections
import pathlib
import re
import sys

ROOT = pathlib.Path(__file__).resolve().parent.parent
# Names that may stand twice, each with the reason.
EXCEPTIONS = {
    "◌>>=◌": "an operator: it goes on where a reader, or a step of a script, found something",
    "key_cmp": "the order of the keys of items, and that of lock keys: each is the order of its keys",
}
# Names that stand twice and are still to get names of their own.
TO_COME = {
    "bare",
}

DEFINES = re.compile(
    r"(?:(?:abbrev|unfoldable|pub|record|data)\s+)*([^\s(){}:]+)\s*(?:[({][^:]*:.*)?:(?!=)"
)

# A definition in a module, and no field of a record.
IN_MODULE = re.compile(r"\s+(abbrev|unfoldable|pub record|pub data) ")


def names_in(text):
    """The names that a file defines, at its left edge or in a module of it."""
    for line in text.split("\n"):
        if not line or line[0] in "-{" or line.startswith("use "):
            continue
        if line[0] == " " and not IN_MODULE.match(line):
            continue
        match = DEFINES.match(line.lstrip())
        if match:
            yield match.group(1)


def main():
    places = collections.defaultdict(set)
    for path in sorted((ROOT / "crates").glob("*/specs/**/*.antt")):
        for name in names_in(path.read_text()):
            places[name].add(str(path.relative_to(ROOT / "crates")))
    passed = failed = 0
    for name, paths in sorted(places.items()):
        if len(paths) == 1 or name in EXCEPTIONS or name in TO_COME:
            passed += 1
        else:
            print(f"{name}: {', '.join(sorted(paths))}")
            failed += 1
    for name in sorted(EXCEPTIONS.keys() | TO_COME):
        if len(places[name]) < 2:
            print(f"{name} stands once; take it out of this check")
    print(f"{passed} passed, {failed} failed")
    sys.exit(1 if failed else 0)


if __name__ == "__main__":
    main()
