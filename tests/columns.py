#!/usr/bin/env python3
"""No line of a contract or of a definition is longer than 100 columns.

Looked at are the clauses of crates/*/src (`requires`, `ensures`, and every `ghost` member or field,
but no import) and all of crates/*/specs (but imports and comments). Proofs are not read aloud, and
are not looked at.
"""

import pathlib
import re
import sys

ROOT = pathlib.Path(__file__).resolve().parent.parent
MOST = 100
# Crates whose lines are still to be broken.
TO_COME = set()

CLAUSE = re.compile(r"\s*(requires|ensures|ghost)\b")


def clause_lines(text):
    """The numbered lines of the clauses: each from its first word to the brace that closes it."""
    depth = 0
    inside = opened = False
    for number, line in enumerate(text.split("\n"), 1):
        if not inside and CLAUSE.match(line) and not re.match(r"\s*ghost use\b", line):
            inside, opened, depth = True, False, 0
        if inside:
            if not line.lstrip().startswith("//"):
                yield number, line
            opened = opened or "{" in line
            depth += line.count("{") - line.count("}")
            inside = not opened or depth > 0


def definition_lines(text):
    """The numbered lines of a file of definitions, without its imports and comments."""
    for number, line in enumerate(text.split("\n"), 1):
        if not line.startswith("use ") and not line.lstrip().startswith("--"):
            yield number, line


def long_lines(path, lines):
    for number, line in lines:
        if len(line) > MOST:
            yield f"{path.relative_to(ROOT)}:{number}: {len(line)} columns"


def found_in(crate):
    for path in sorted((crate / "src").rglob("*.rt")):
        yield from long_lines(path, clause_lines(path.read_text()))
    for path in sorted((crate / "specs").rglob("*.antt")):
        yield from long_lines(path, definition_lines(path.read_text()))


def main():
    passed = failed = 0
    for crate in sorted((ROOT / "crates").iterdir()):
        found = list(found_in(crate))
        if crate.name in TO_COME:
            if not found:
                print(f"{crate.name} is in order; take it out of this check")
            continue
        for line in found:
            print(line)
        if found:
            failed += 1
        else:
            passed += 1
    print(f"{passed} passed, {failed} failed")
    sys.exit(1 if failed else 0)


if __name__ == "__main__":
    main()
