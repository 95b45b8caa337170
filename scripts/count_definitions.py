#!/usr/bin/env python3
"""Compares the table of definitions in docs/PRESERVATION.md with the files that the promise rests on.

usage: count_definitions.py [--list]

It follows the imports of `Preserves` and `Covers` through specs/, but does not go on into the reader of instructions: what a step
finds is said by `Stands`, and `found_is_spelled` proves that the reader finds it. The table must name each file that it comes to and no
other, with about as many lines as it has. Prints each difference, and last 'N passed, M failed'; --list prints the files with their lines instead.
"""
import os, re, sys

TOP = os.path.dirname(os.path.dirname(os.path.abspath(__file__)))
HEADS = ["sim_laws/specs/Preserves.antt", "sim_laws/specs/Covers.antt", "ia_inst/specs/Stands.antt"]
READER = "ia_inst/specs/Instructions.antt"
NEAR = 25


def path(name):
    return os.path.join(TOP, "crates", name)


def imported(line):
    """The file of the repository's specs/ that a line imports, or None. A module's name may be followed by that of an item."""
    found = re.match(r"(?:pub )?use Rattle\.(\w+)\.specs((?:\.\w+)+)", line)
    parts = found[2].split(".")[1:] if found else []
    for count in range(len(parts), 0, -1):
        name = f"{found[1]}/specs/{'/'.join(parts[:count])}.antt"
        if os.path.exists(path(name)):
            return name
    return None


def reached():
    """From each file to its number of lines."""
    found, open_files = {}, list(HEADS)
    while open_files:
        name = open_files.pop()
        if name in found or name == READER:
            continue
        with open(path(name)) as f:
            lines = f.readlines()
        found[name] = len(lines)
        open_files += [other for other in map(imported, lines) if other]
    return found


def told():
    """What the table tells."""
    with open(os.path.join(TOP, "docs", "PRESERVATION.md")) as f:
        rows = re.findall(r"\| `(\w+/specs/\w+\.antt)` \| (\d+) \|$", f.read(), re.M)
    return {name: int(count) for name, count in rows}


def main():
    there = reached()
    if sys.argv[1:] == ["--list"]:
        for name in sorted(there):
            print(f"{there[name]:4} {name}")
        print(f"{sum(there.values()):4} in all")
        return 0
    page, failed = told(), 0
    for name in sorted(there.keys() | page.keys()):
        if name not in page or name not in there or abs(page[name] - there[name]) > NEAR:
            failed += 1
            print(f"FAIL docs/PRESERVATION.md: {name} has {there.get(name, 'no place below the promise,')} lines, the table has {page.get(name, 'no row')}")
    print(f"{len(there) - failed} passed, {failed} failed")
    return 1 if failed else 0


if __name__ == "__main__":
    sys.exit(main())
