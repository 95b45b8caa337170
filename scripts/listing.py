#!/usr/bin/env python3
"""What `show` lists, as blocks (docs/LISTING.md), and as a source for `asm` (docs/ASSEMBLER.md).

usage: listing.py --source < LISTING > SOURCE

The source has the instructions of the blocks in their order. A direct jump or call goes to the label of its target, so that it is a form of
a source at any address; labels of targets that are not listed stand at the end. It says which instructions there are: it is no program that
does the same, since data and addresses of data are not in a listing.
"""
import collections, os, re, subprocess, sys

import output

# A way leads to a target, or with None anywhere; it is known where it leads to a block that the traces have seen.
Way = collections.namedtuple("Way", "target known")
Block = collections.namedtuple("Block", "start instructions ways")


def read_listing(text):
    """The blocks of a listing, with their instructions as pairs of address and text."""
    blocks = []
    for line in text.splitlines():
        words = line.split(" ", 4)
        if words[0] == "block":
            blocks.append(Block(int(words[1], 16), [], []))
        elif words[2] == "to":
            _, _, _, target, kind = words
            blocks[-1].ways.append(Way(None if target == "other" else int(target, 16), kind == "known"))
        else:
            blocks[-1].instructions.append((int(words[2], 16), words[4]))
    return blocks


# A jump or call whose text has its target.
DIRECT = re.compile(r"(j[a-z]+|call) 0x([0-9a-f]{8})")


def label(address):
    return f"at_{address:08x}"


def source_lines(blocks):
    """The lines of a source with the instructions of the blocks."""
    found = [DIRECT.fullmatch(text) for block in blocks for _, text in block.instructions]
    targets = {int(f[2], 16) for f in found if f}
    for block in blocks:
        for address, text in block.instructions:
            if address in targets:
                targets.remove(address)
                yield f"{label(address)}:"
            yield "  " + DIRECT.sub(lambda f: f"{f[1]} {label(int(f[2], 16))}", text)
    for address in sorted(targets):
        yield f"{label(address)}:"


def show(script, program, executable, traces):
    """The blocks of an executable that traces have seen. Where `show` does not end with 0, br says why and the script ends with its status."""
    front = os.path.join(os.path.dirname(os.path.abspath(__file__)), "br")
    done = subprocess.run([front, "show", executable, *traces], stdout=subprocess.PIPE, stderr=subprocess.PIPE, text=True,
                          env={**os.environ, "BINREC": program})
    if done.returncode != 0:
        sys.stderr.write(done.stderr)
        sys.stderr.write(f"{script}: show ended with status {done.returncode}\n")
        sys.exit(2)
    return read_listing(done.stdout)


def main():
    if sys.argv[1:] != ["--source"]:
        output.say("listing.py", "usage: listing.py --source < LISTING > SOURCE")
        return 2
    for line in source_lines(read_listing(sys.stdin.read())):
        print(line)
    return 0


if __name__ == "__main__":
    sys.exit(output.run("listing.py", 4, main))
