#!/usr/bin/env python3
"""Reads byte strings as hexadecimal lines and prints one decoding a line, `LENGTH MNEMONIC` or `none`, by the command `show`.

usage: decode_by_show.py PROGRAM [WORD..]     (the WORDs stand before the program's own words)

It makes an executable whose code is a RET and then each string in a place of its own, and a trace in which that RET went to
each place; so each place begins a block, and the first line of a block is the instruction there.
"""
import hashlib, os, shutil, struct, subprocess, sys, tempfile

START = 0x08048000
PLACE = 32
BATCH = 16000


def executable(strings):
    code = b"\xc3".ljust(PLACE - 20, b"\x90")
    code += b"".join(s.ljust(PLACE, b"\x90") for s in strings)
    size = 84 + len(code)
    head = b"\x7fELF\1\1\1".ljust(16, b"\0")
    head += struct.pack("<HHIIIIIHHHHHH", 2, 3, 1, START + 84, 52, 0, 0, 52, 32, 1, 0, 0, 0)
    return head + struct.pack("<IIIIIIII", 1, 0, START, START, size, size, 5, 4096) + code


def trace(file, count, version):
    places = [START + 96 + PLACE * k for k in range(count)]
    times = b"" if version == 1 else struct.pack("<Q", 1)
    pairs = b"".join(struct.pack("<II", START + 84, place) + times for place in places)
    return b"BRTRACE%d" % version + hashlib.sha256(file).digest() + struct.pack("<I", count) + pairs


def listing(program, file, count, folder):
    with open(os.path.join(folder, "E"), "wb") as f:
        f.write(file)
    for version in (1, 2):
        with open(os.path.join(folder, "T"), "wb") as f:
            f.write(trace(file, count, version))
        done = subprocess.run([*program, "show", "E", "T"], cwd=folder, capture_output=True, text=True)
        if done.returncode == 0:
            return done.stdout.splitlines()
    sys.exit(f"show ended with {done.returncode}: {done.stderr.strip()}")


def first_lines(lines):
    """From the start of each block that has an instruction to that instruction's line."""
    return {a[6:]: b for a, b in zip(lines, lines[1:]) if a.startswith("block ") and not b.startswith("  to ")}


def decoding(line):
    if line is None:
        return "none"
    _, spelling, *text = line.split()
    name = " ".join(text[:2]) if text[0] == "rep" else text[0]
    return f"{len(spelling) // 2} {name}"


def main():
    program = sys.argv[1:]
    if not program:
        sys.exit(__doc__)
    program[0] = shutil.which(program[0]) or program[0]
    program[0] = os.path.abspath(program[0])
    strings = [bytes.fromhex(line) for line in sys.stdin]
    with tempfile.TemporaryDirectory() as folder:
        for at in range(0, len(strings), BATCH):
            batch = strings[at:at + BATCH]
            found = first_lines(listing(program, executable(batch), len(batch), folder))
            for k in range(len(batch)):
                print(decoding(found.get(f"{START + 96 + PLACE * k:08x}")))


if __name__ == "__main__":
    main()
