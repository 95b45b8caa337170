#!/usr/bin/env python3
"""Reads byte strings as hexadecimal lines and prints for each the length of the instruction there, as `LENGTH ?`, or `none`, by `run`.

usage: decode_by_run.py PROGRAM [WORD..]     (the WORDs stand before the program's own words)

An instruction must lie wholly in its segment. So a string of which the segment holds the first k bytes spells no instruction
in the first step exactly where k is below the instruction's length. This takes five runs a string; `decode_by_show.py` is
faster and knows names, where the program has the command `show`.
"""
import os, shutil, struct, subprocess, sys, tempfile

START = 0x08048000


def executable(code):
    size = 84 + len(code)
    head = b"\x7fELF\1\1\1".ljust(16, b"\0")
    head += struct.pack("<HHIIIIIHHHHHH", 2, 3, 1, START + 84, 52, 0, 0, 52, 32, 1, 0, 0, 0)
    return head + struct.pack("<IIIIIIII", 1, 0, START, START, size, size, 5, 4096) + code


def spells(program, name, code):
    with open(name, "wb") as f:
        f.write(executable(code))
    done = subprocess.run([*program, "run", "--steps", "1", name], stdin=subprocess.DEVNULL, capture_output=True)
    last = done.stderr.decode(errors="replace").splitlines()[-1:]
    if done.returncode not in (0, 5, 6) or not last:
        sys.exit(f"run of {code.hex()} ended with {done.returncode}: {last}")
    return not last[0].startswith("fault illegal")


def length(program, name, string):
    """The least number of bytes that spell an instruction, or None."""
    if not spells(program, name, string):
        return None
    low, high = 1, len(string)
    while low < high:
        middle = (low + high) // 2
        if spells(program, name, string[:middle]):
            high = middle
        else:
            low = middle + 1
    return low


def main():
    program = sys.argv[1:]
    if not program:
        sys.exit(__doc__)
    program[0] = os.path.abspath(shutil.which(program[0]) or program[0])
    with tempfile.TemporaryDirectory() as folder:
        for line in sys.stdin:
            found = length(program, os.path.join(folder, "E"), bytes.fromhex(line))
            print(f"{found} ?" if found else "none")


if __name__ == "__main__":
    main()
