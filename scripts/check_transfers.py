#!/usr/bin/env python3
"""Compares the transfers that `record` reads (transfers.py) with the program's own decoder, by what `show` lists.

usage: check_transfers.py [--seed S] PROGRAM [WORD..]     (the WORDs stand before the program's own words)

Random byte strings, most of which begin as a transfer does, and all ModRM bytes behind FF: whether a transfer stands there, how long it is, and
where a direct one goes. Prints how many agree; status 1 where one does not.
"""
import os, random, re, shutil, sys, tempfile

import decode_by_show
from transfers import transfer

BEGINNINGS = """0f 66 67ff f0ff f2ff 2eff f3ff ff ff 3eff 3eff 3e3eff e8 e9 eb 66e8 3ee8 2e75 3e75 c3 f3c3 f3f3c3 f2c3 66c3 3ec3 c2 f3c2 ca cb e3 e0""".split()
BEGINNINGS = [bytes.fromhex(b) for b in BEGINNINGS] + [bytes([0x70 + c]) for c in range(16)] + [bytes([0x0F, 0x80 + c]) for c in range(16)]


def strings(choice):
    some = [choice.choice(BEGINNINGS) + choice.randbytes(10) for _ in range(4000)] + [choice.randbytes(12) for _ in range(1000)]
    operands = [bytes([0xFF, mod, sib]) + choice.randbytes(8) for mod in range(256) for sib in (0x05, 0x25, 0x65, choice.randrange(256))]
    return some + operands


def listed(line):
    """What the program says of an instruction: the length and the targets of a transfer, or None."""
    if line is None:
        return None
    address, spelling, name, *operands = line.split()
    if name not in ("jmp", "call", "ret") and not name.startswith("j"):
        return None
    length = len(spelling) // 2
    told = re.fullmatch("0x([0-9a-f]{8})", operands[0]) if operands and name != "ret" else None
    targets = (int(told[1], 16),) if told else ()
    return length, targets + (((int(address, 16) + length) & 0xFFFFFFFF,) if name not in ("jmp", "call", "ret") else ())


def read_by_scripts(string, address):
    """The same by transfers.py: the length is the least front in which the transfer is whole."""
    fronts = (length for length in range(1, len(string) + 1) if transfer(string[:length], 0, address) is not None)
    length = next(fronts, None)
    return None if length is None else (length, tuple(transfer(string, 0, address)))


def main():
    words = sys.argv[1:]
    seed = int(words[1]) if words[:1] == ["--seed"] else 1
    program = words[2:] if words[:1] == ["--seed"] else words
    if not program:
        sys.exit(__doc__)
    program[0] = os.path.abspath(shutil.which(program[0]) or program[0])
    all_strings = strings(random.Random(seed))
    file = decode_by_show.executable(all_strings)
    with tempfile.TemporaryDirectory() as folder:
        lines = decode_by_show.first_lines(decode_by_show.listing(program, file, len(all_strings), folder))
    found = bad = 0
    for k, string in enumerate(all_strings):
        address = decode_by_show.START + 96 + decode_by_show.PLACE * k
        wanted, got = listed(lines.get(f"{address:08x}")), read_by_scripts(string, address)
        found += wanted is not None
        if wanted != got:
            bad += 1
            print(f"{string.hex()}: the program has {wanted}, the scripts {got}")
    print(f"{len(all_strings)} strings, {found} transfers, {bad} differ")
    return 1 if bad or found < 500 else 0


if __name__ == "__main__":
    sys.exit(main())
