#!/usr/bin/env python3
"""Reads listings of real programs back: `show`, a source of what it lists, `asm`, and what was assembled.

usage: check_sources.py PROGRAM [WORD..]

For each executable of programs/bin: the traces of its cases, the listing of all their blocks, the source of that (listing.py --source), and
the file that `asm` makes of it. By objdump it has the same instructions one behind the other, with the same operands, and each direct jump or
call goes to where the instruction stands that was its target. Prints each difference, and last 'N passed, M failed'.
"""
import glob, os, re, subprocess, sys, tempfile

import executables
from listing import DIRECT, read_listing, source_lines

PROGRAMS = os.path.join(executables.TOP, "programs")
FIRST = 0x08048054


def content(*names):
    path = os.path.join(PROGRAMS, "cases", *names)
    if not os.path.exists(path):
        return b""
    with open(path, "rb") as f:
        return f.read()


def call(tool, words, given=b""):
    return subprocess.run([*tool, *words], input=given, capture_output=True)


def traces(tool, name):
    """A trace of each case of a program, under names of this folder."""
    found = []
    for case in sorted(glob.glob(os.path.join(PROGRAMS, "cases", f"{name}-*"))):
        case = os.path.basename(case)
        found.append(f"trace-{case}")
        words = content(case, "args").decode().splitlines()
        call(tool, ["trace", "--steps", "2000000000", found[-1], "E", *words], content(case, "stdin"))
    return found


def placed(blocks):
    """The instructions of the blocks one behind another, as pairs of address and text."""
    return [pair for block in blocks for pair in block.instructions]


def bytes_listed(listing):
    """The bytes of the instructions of a listing, one behind another."""
    parts = [line.split(" ") for line in listing.splitlines()]
    return b"".join(bytes.fromhex(p[3]) for p in parts if p[0] == "" and p[2] != "to")


# What objdump shows otherwise where the same instruction is spelled otherwise: an index of none, a displacement of 0, the short forms of eax.
SPELLED = [(r"\+eiz\*1", ""), (r"\+0x0\]", "]"), (r"^xchg   ax,ax$", "nop"),
           (r"^mov    (al|ax|eax),(?:DWORD|WORD|BYTE) PTR ds:", r"mov    \1,ds:"), (r"^mov    (?:DWORD|WORD|BYTE) PTR (ds:0x[0-9a-f]+,(?:al|ax|eax))$", r"mov    \1")]


def plain(text):
    """The text of an instruction by objdump, however it is spelled."""
    for pattern, to in SPELLED:
        text = re.sub(pattern, to, text)
    return text


def differences(listing, file):
    """What an assembled file has otherwise than the listing that it is of."""
    there = placed(read_listing(listing))
    before = list(executables.linear(0, bytes_listed(listing)))
    after = list(executables.linear(FIRST, file[84:]))
    if not len(there) == len(before) == len(after):
        yield f"{len(there)} instructions listed, {len(before)} of their bytes, {len(after)} assembled"
        return
    stands = {}
    for (address, _), new in zip(there, after):
        stands.setdefault(address, new.address)
    end = FIRST + len(file) - 84
    for (address, text), old, new in zip(there, before, after):
        direct = DIRECT.fullmatch(text)
        if direct:
            wanted = (old.text.split()[0], stands.get(int(direct[2], 16), end))
            found = (new.text.split()[0], int(new.text.split()[-1], 16))
        else:
            wanted, found = plain(old.text), plain(new.text)
        if wanted != found:
            yield f"{address:08x} {text}: {wanted} before, {found} assembled"


def check(tool, name):
    """How a program's listing is read back: lines that say what is wrong."""
    path = os.path.join(PROGRAMS, "bin", name)
    with open(path, "rb") as f, open("E", "wb") as copy:
        copy.write(f.read())
    shown = call(tool, ["show", "E", *traces(tool, name)])
    if shown.returncode or not shown.stdout:
        return [f"show ended with {shown.returncode}"]
    listing = shown.stdout.decode()
    with open("S", "w") as f:
        f.write("".join(line + "\n" for line in source_lines(read_listing(listing))))
    done = call(tool, ["asm", "N", "S"])
    if done.returncode:
        return [f"asm: {done.stderr.decode().strip()}"]
    with open("N", "rb") as f:
        return list(differences(listing, f.read()))


def main():
    tool = [os.path.abspath(sys.argv[1]), *sys.argv[2:]]
    passed = failed = 0
    with tempfile.TemporaryDirectory() as folder:
        os.chdir(folder)
        for name in sorted(os.listdir(os.path.join(PROGRAMS, "bin"))):
            wrong = check(tool, name)
            passed, failed = passed + (not wrong), failed + bool(wrong)
            for line in wrong[:5]:
                print(f"FAIL {name}: {line}")
    print(f"{passed} passed, {failed} failed")
    return 1 if failed else 0


if __name__ == "__main__":
    sys.exit(main())
