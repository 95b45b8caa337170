#!/usr/bin/env python3
"""Compares the fast linear reading (`reading.py`) with objdump and with the program, on systematic and on random byte strings.

usage: check_lengths.py [--seed S] [--random N] PROGRAM [WORD..]

Each string is followed by NOPs. Where objdump shows an instruction, the reading must give it that length (prefixes alone are read one by one, and an
FWAIT apart from the instruction that waits for it); where the program reads one (`decode_by_show.py`), the reading must give it that length, and the example of its kind
must be in the subset, and nowhere else. Prints the first differences, and last 'N passed, M failed'; status 1 on a difference.
"""
import argparse, os, random, subprocess, sys

import reading
from check_spellings import at_random, systematic


def strings_of(rng, count):
    """Those of check_spellings, and more behind the bytes that lead to other maps of opcodes."""
    strings = [s[:16] for s in systematic()] + [s[:16] for s in at_random(rng, count)]
    for _ in range(count):
        first = rng.choice(("0f", "0f38", "0f3a", "660f", "f30f", "67", "6667", "c4", "c5", "62", "8f", "f7", "f6", "d9", "66"))
        strings.append(bytes.fromhex(first) + rng.randbytes(16 - len(first) // 2))
    return [s.ljust(16, b"\x90") for s in strings]


def read_one(string):
    """The kind that begins a string, and its length."""
    found = {}
    length = reading.read_code(string + b"\x90" * 16 + bytes(reading.LONGEST), 0, 1, found, 0)
    return next(iter(found)), length


def by_program(command, strings):
    """The lengths that the program reads, None where it reads no instruction."""
    here = os.path.dirname(os.path.abspath(__file__))
    done = subprocess.run([sys.executable, os.path.join(here, "decode_by_show.py"), *command], input="".join(s.hex() + "\n" for s in strings),
                          capture_output=True, text=True)
    answers = done.stdout.splitlines()
    if done.returncode or len(answers) != len(strings):
        sys.exit(f"FAIL the program ended with {done.returncode} and {len(answers)} of {len(strings)} lines: {done.stderr[-300:]}")
    return [None if answer == "none" else int(answer.split()[0]) for answer in answers]


def comparable(shown):
    """Whether objdump shows an instruction, and no prefixes alone, nor FWAIT with the instruction that waits for it."""
    return shown and "(bad)" not in shown[1] and shown[0].lstrip(bytes(reading.PREFIXES))[:1] not in (b"", b"\x9b")


def trouble(read, shown, named, length):
    """How a reading differs from objdump's, and from the program's length; None where it does not."""
    if comparable(shown) and read != len(shown[0]):
        return f"length {read}, and objdump shows {shown[0].hex()} {shown[1]}"
    if length not in (None, read):
        return f"length {read}, and the program reads {length}"
    if (length is not None) != named:
        return f"{'inside' if named else 'outside'} the subset, and not by the program"
    return None


def main():
    p = argparse.ArgumentParser(description=__doc__, formatter_class=argparse.RawDescriptionHelpFormatter)
    p.add_argument("--seed", type=int, default=1)
    p.add_argument("--random", type=int, default=10000)
    p.add_argument("command", nargs=argparse.REMAINDER)
    a = p.parse_args()
    if not a.command:
        p.error("no PROGRAM")
    strings = strings_of(random.Random(a.seed), a.random)
    reads = [read_one(s) for s in strings]
    # The example of a kind is the first string that begins with it, as in a file.
    firsts = {kind: s for s, (kind, _) in zip(reversed(strings), reversed(reads))}
    named = {kind: shown is not None and reading.subset_name(*shown) is not None for kind, shown in zip(firsts, reading.shown(list(firsts.values())))}
    failed = 0
    for string, (kind, read), shown, length in zip(strings, reads, reading.shown(strings), by_program(a.command, strings)):
        why = trouble(read, shown, named[kind], length)
        if why:
            failed += 1
            if failed <= 20:
                print(f"FAIL {string.hex()}: {why}")
    print(f"{len(strings) - failed} passed, {failed} failed")
    return 1 if failed else 0


if __name__ == "__main__":
    sys.exit(main())
