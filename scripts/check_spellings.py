#!/usr/bin/env python3
"""Compares lengths and mnemonics of a decoder with those of objdump, on systematic and on random byte strings.

usage: check_spellings.py [--seed S] [--random N] [--sample N] COMMAND [WORD..]

COMMAND reads hexadecimal lines and prints `LENGTH MNEMONIC` or `none` for each, as `decode_by_show.py PROGRAM` does, or `LENGTH ?`
where it cannot tell the name, as `decode_by_run.py PROGRAM`. Each string is followed by NOPs. With --sample, N of all the
strings are compared, else all of them. Where objdump reads an instruction that the subset has, the decoder must read it with that length
and name; everywhere else it must answer `none`. What the subset has stands in `subset.py`, over the bytes and text of objdump.
Prints the first differences, and last 'N passed, M failed'; status 1 on a difference.
"""
import argparse, collections, random, shutil, subprocess, sys

from reading import shown as objdump
from subset import NAMES, PREFIXES, subset_name

# ---- The byte strings ----

MODRMS = [0x00, 0x04, 0x05, 0x0C, 0x14, 0x1D, 0x28, 0x31, 0x3A, 0x44, 0x4D, 0x55, 0x64, 0x6B, 0x72, 0x79, 0x80, 0x8C, 0x94, 0x9D, 0xA5, 0xB6, 0xBF,
          0xC0, 0xC9, 0xD2, 0xDB, 0xE4, 0xED, 0xF6, 0xFB, 0xFF]


def systematic():
    tail = bytes.fromhex("2511223344556677")
    for first in range(256):
        if first in PREFIXES or first == 0x0F:
            continue
        for before in ("", "66", "f3", "2e", "3e", "f366", "66f3", "6666", "67", "f2", "f0", "64"):
            for modrm in MODRMS if before in ("", "66") else MODRMS[::5]:
                yield bytes.fromhex(before) + bytes([first, modrm]) + tail
    for second in range(256):
        for before in ("", "66", "f3", "2e", "662e"):
            for modrm in MODRMS if before in ("", "66") else MODRMS[::5]:
                yield bytes.fromhex(before) + bytes([0x0F, second, modrm]) + tail
    for sib in range(256):
        for modrm in (0x04, 0x44, 0x84):
            yield bytes([0x8B, modrm, sib]) + tail
            yield bytes([0x8D, modrm, sib]) + b"\xff\xff\xff\xff"
    for opcode in (0xC0, 0xC1, 0xD0, 0xD1, 0xD2, 0xD3, 0xF6, 0xF7, 0xFE, 0xFF, 0x80, 0x81, 0x83, 0x8F, 0xC6, 0xC7):
        for modrm in range(256):
            yield bytes([opcode, modrm]) + tail
    for count in range(16):
        for rest in ("8db42600000000", "8d7600", "0f1f00", "0f1f8000000000", "90", "89c0", "a5", "c3"):
            for padding in (b"\x66" * count, b"\x2e" * count, b"\x66" * (count // 2) + b"\x2e" * (count - count // 2)):
                yield padding + bytes.fromhex(rest)
    for number in (0x00, 0x7F, 0x80, 0x81, 0xFF):
        yield bytes([0xCD, number])


def at_random(rng, count):
    likely = [0x00, 0x01, 0x29, 0x83, 0x89, 0x8B, 0x8D, 0x0F, 0xA5, 0xAB, 0xC1, 0xC7, 0xD3, 0xF7, 0xFF, 0x66, 0x2E, 0x3E, 0xF3]
    for _ in range(count):
        if rng.random() < 0.5:
            yield rng.randbytes(16)
        else:
            yield bytes(rng.choice(likely) for _ in range(rng.randrange(1, 4))) + rng.randbytes(10)


def main():
    p = argparse.ArgumentParser(description=__doc__, formatter_class=argparse.RawDescriptionHelpFormatter)
    p.add_argument("--seed", type=int, default=1)
    p.add_argument("--random", type=int, default=10000)
    p.add_argument("--sample", type=int)
    p.add_argument("command", nargs=argparse.REMAINDER)
    a = p.parse_args()
    if not a.command:
        p.error("no COMMAND")
    if not shutil.which("objdump"):
        print("skipped: check_spellings: no objdump")
        return 0
    rng = random.Random(a.seed)
    strings = [s[:16] for s in systematic()] + list(at_random(rng, a.random))
    if a.sample and a.sample < len(strings):
        strings = rng.sample(strings, a.sample)
    strings.insert(0, b"\x9f")
    padded = [s.ljust(16, b"\x90") for s in strings]
    done = subprocess.run(a.command, input="".join(s.hex() + "\n" for s in padded), capture_output=True, text=True)
    answers = done.stdout.splitlines()
    if done.returncode or len(answers) != len(strings):
        print(f"FAIL the decoder ended with {done.returncode} and {len(answers)} of {len(strings)} lines: {done.stderr[-300:]}")
        print("0 passed, 1 failed")
        return 1
    if answers[0].startswith("1 "):
        NAMES.add("lahf")
    names, failed = collections.Counter(), 0
    for string, answer, shown in zip(padded, answers, objdump(padded)):
        name = subset_name(*shown) if shown else None
        want = f"{len(shown[0])} {name}" if name else "none"
        if answer != want and not (name and answer == f"{len(shown[0])} ?"):
            failed += 1
            if failed <= 20:
                print(f"FAIL {string.hex()}: '{answer}', wanted '{want}'; objdump", f"'{shown[0].hex()} {shown[1]}'" if shown else "is out of step")
        names[name] += 1
    print(f"{len(names) - 1} names seen, {names[None]} strings outside the subset")
    print(f"{len(strings) - failed} passed, {failed} failed")
    return 1 if failed else 0


if __name__ == "__main__":
    sys.exit(main())
