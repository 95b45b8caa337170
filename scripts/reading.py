"""A fast linear reading of code: where each instruction begins, one behind the other, and of which kind it is.

objdump takes minutes for 16 MB; this takes seconds, since it reads lengths alone and asks objdump for the text of one instruction of each kind.
A kind is what stands before displacement and constant: prefixes, opcode and ModRM byte, and the number of an `int`. Lengths are those of the
opcode maps (Intel SDM volume 2, appendix A) in 32-bit mode, with VEX, EVEX and XOP; `check_lengths.py` compares them with objdump and the program.
"""
import array, bisect, functools, subprocess, sys, tempfile

from executables import Instruction, linear
from subset import PREFIXES, subset_name

# A table leads from a byte to a further table, or to a leaf: how many bytes follow, and how many of those read are no part of the kind.
BAD = (0, 0)
LONGEST = 15
PLACE = 32
MARK = 1 << 20


def table(*rows):
    """A table from pairs of bytes and a node; all other bytes begin nothing."""
    nodes = [BAD] * 256
    for codes, node in rows:
        for code in codes:
            nodes[code] = node
    return nodes


@functools.cache
def modrm(constant, sixteen):
    """What a ModRM byte leads to, where a constant of so many bytes stands behind the operand."""
    return [operand(m >> 6, m & 7, constant, sixteen) for m in range(256)]


def operand(mod, rm, constant, sixteen):
    if mod == 3:
        return constant, 0
    if sixteen:
        return (2 if mod == 2 or (mod, rm) == (0, 6) else mod) + constant, 0
    behind = (0, 1, 4)[mod] + constant
    if rm == 4:
        return [(behind + 4 if mod == 0 and sib & 7 == 5 else behind, 1) for sib in range(256)]
    return behind + 4 if (mod, rm) == (0, 5) else behind, 0


def by_digit(constants, sixteen):
    """A ModRM byte whose field reg decides how many bytes the constant has."""
    return [modrm(constants[m >> 3 & 7], sixteen)[m] for m in range(256)]


@functools.cache
def map_0f(word, sixteen, vector):
    """The opcodes behind 0F, or those of the first map of vector prefixes."""
    nodes = [modrm(0, sixteen)] * 256
    for code in (0x70, 0x71, 0x72, 0x73, 0xA4, 0xAC, 0xBA, 0xC2, 0xC4, 0xC5, 0xC6, 0x0F):
        nodes[code] = modrm(1, sixteen)
    nodes[0x77] = (0, 0)
    if vector:
        return nodes
    for code in (*range(4, 13), 0x0E, *range(0x30, 0x38), 0xA0, 0xA1, 0xA2, 0xA8, 0xA9, 0xAA, *range(0xC8, 0xD0)):
        nodes[code] = (0, 0)
    for code in range(0x80, 0x90):
        nodes[code] = (word, 0)
    for code in range(0x20, 0x28):
        nodes[code] = table((range(256), (0, 0)))
    nodes[0x78] = modrm(2 if word == 2 else 0, sixteen)
    nodes[0x38], nodes[0x3A] = [modrm(0, sixteen)] * 256, [modrm(1, sixteen)] * 256
    return nodes


def vector_maps(sixteen, first, behind):
    """The byte that names the opcode map of a vector prefix, and so many further bytes of the prefix."""
    maps = {1: map_0f(0, sixteen, True), 2: [modrm(0, sixteen)] * 256, 3: [modrm(1, sixteen)] * 256, 5: [modrm(0, sixteen)] * 256,
            6: [modrm(0, sixteen)] * 256, 8: [modrm(1, sixteen)] * 256, 9: [modrm(0, sixteen)] * 256, 10: [modrm(4, sixteen)] * 256}
    for _ in range(behind):
        maps = {number: [node] * 256 for number, node in maps.items()}
    return [maps.get(byte & 31 if first != 0x62 else byte & 7, BAD) for byte in range(256)]


def with_vector(first, plain, sixteen):
    """An opcode that is a vector prefix where the byte behind it names two registers (C4, C5, 62), or has a digit (8F)."""
    if first == 0xC5:
        chosen = [map_0f(0, sixteen, True)] * 256
    else:
        chosen = vector_maps(sixteen, first, 2 if first == 0x62 else 1)
    if first == 0x8F:
        return [plain[b] if b & 0x1F < 8 else chosen[b] for b in range(256)]
    return [chosen[b] if b >= 0xC0 else plain[b] for b in range(256)]


def opcodes(narrow, sixteen):
    """The first opcode bytes, where 66 was among the prefixes (narrow) or 67 (sixteen)."""
    word, address, plain = 2 if narrow else 4, 2 if sixteen else 4, modrm(0, sixteen)
    rows = [8 * row for row in range(8)]
    number = table((range(256), (0, 0)))
    found = table(
        ([row + low for row in rows for low in range(4)], plain), ([row + 4 for row in rows], (1, 0)), ([row + 5 for row in rows], (word, 0)),
        ([row + low for row in rows for low in (6, 7)] + [*range(0x40, 0x62)], (0, 0)), ([0x63, *range(0x84, 0x90)], plain),
        ([0x68, 0xA9, *range(0xB8, 0xC0), 0xE8, 0xE9], (word, 0)), ([0x69, 0x81, 0xC7], modrm(word, sixteen)),
        ([0x6B, 0x80, 0x82, 0x83, 0xC0, 0xC1, 0xC6], modrm(1, sixteen)),
        ([0x6A, *range(0x70, 0x80), 0xA8, *range(0xB0, 0xB8), 0xD4, 0xD5, *range(0xE0, 0xE8), 0xEB], (1, 0)),
        ([*range(0x6C, 0x70), *range(0x90, 0x9A), *range(0x9B, 0xA0), *range(0xA4, 0xA8), *range(0xAA, 0xB0), 0xC3, 0xC9, 0xCB, 0xCC, 0xCE, 0xCF,
          0xD6, 0xD7, *range(0xEC, 0xF0), 0xF1, 0xF4, 0xF5, *range(0xF8, 0xFE)], (0, 0)),
        (range(0xA0, 0xA4), (address, 0)), ([0x9A, 0xEA], (word + 2, 0)), ([0xC2, 0xCA], (2, 0)), ([0xC8], (3, 0)), ([0xCD], number),
        ([*range(0xD0, 0xD4), *range(0xD8, 0xE0), 0xFE, 0xFF], plain),
        ([0xF6], by_digit([1, 1, 0, 0, 0, 0, 0, 0], sixteen)), ([0xF7], by_digit([word, word, 0, 0, 0, 0, 0, 0], sixteen)),
        ([0x0F], map_0f(word, sixteen, False)))
    for first in (0xC4, 0xC5, 0x62, 0x8F):
        found[first] = with_vector(first, plain, sixteen)
    return found


def instruction_tables():
    """The table at the start of an instruction. A prefix leads to the table of its width with one prefix less to come, and the last to none."""
    widths = [(narrow, sixteen) for narrow in (False, True) for sixteen in (False, True)]
    plain = {width: opcodes(*width) for width in widths}
    tables = plain
    for _ in range(LONGEST - 1):
        tables = {width: with_prefixes(plain[width], width, tables) for width in widths}
    return tables[False, False]


def with_prefixes(nodes, width, tables):
    narrow, sixteen = width
    nodes = list(nodes)
    for prefix in PREFIXES:
        nodes[prefix] = tables[narrow or prefix == 0x66, sixteen or prefix == 0x67]
    return nodes


START = instruction_tables()


def read_code(padded, at, until, found, start):
    """Reads from an offset on, up to another: notes each instruction's address under its kind. Answers where it came to."""
    while at < until:
        node, k = START, at
        while type(node) is list:
            node = node[padded[k]]
            k += 1
        behind, apart = node
        kind = padded[at:k - apart]
        k += behind
        if k - at > LONGEST or k > len(padded) - LONGEST:
            kind, k = padded[at:at + 1], at + 1
        places = found.get(kind)
        if places is None:
            places = found[kind] = array.array("I")
        places.append(start + at)
        at = k
    return at


def read(ranges, told=lambda done: None):
    """From kind to the addresses of its instructions, over pairs of start and bytes; `told` hears at times how many bytes are read.
    An instruction that passes the end or is longer than 15 bytes is read as one byte."""
    found, done = {}, 0
    for start, code in ranges:
        padded, at = code + bytes(LONGEST), 0
        while at < len(code):
            at = read_code(padded, at, min(len(code), at + MARK), found, start)
            told(done + at)
        done += len(code)
    return found


def shown(strings, place=PLACE):
    """What objdump shows at the start of each string of at most 16 bytes: the bytes of the instruction and its text; None where it is out of step."""
    with tempfile.NamedTemporaryFile() as f:
        f.write(b"".join(s.ljust(place, b"\x90") for s in strings))
        f.flush()
        words = ["objdump", "-D", "-z", "-w", "--insn-width=16", "-b", "binary", "-m", "i386", "-M", "intel", f.name]
        lines = subprocess.run(words, capture_output=True, text=True, check=True).stdout.splitlines()
    found = {}
    for line in lines:
        parts = line.split("\t")
        if len(parts) < 3 or not parts[0].endswith(":"):
            continue
        address = int(parts[0][:-1], 16)
        if address % place == 0:
            found[address // place] = bytes.fromhex(parts[1]), parts[2].strip()
    return [found.get(k) for k in range(len(strings))]




def piece(ranges, address, count):
    """At most so many bytes from an address on."""
    return next((code[address - start:address - start + count] for start, code in ranges if start <= address < start + len(code)), b"")


def examples(ranges, found):
    """From kind to its first instruction, with text and name."""
    firsts = [places[0] for places in found.values()]
    seen = shown([piece(ranges, address, 16) for address in firsts])
    whole = [(spelling_text or (kind, "(bad)")) for kind, spelling_text in zip(found, seen)]
    return {kind: Instruction(address, *pair, subset_name(*pair)) for kind, address, pair in zip(found, firsts, whole)}


def before(ranges, found, addresses, count=12):
    """For each address the texts of at most so many instructions that stand before it."""
    marks = [(start, code, starts_in(start, code, found)) for start, code in ranges] if addresses else []
    pieces = []
    for address in addresses:
        start, code, marked = next(m for m in marks if m[0] <= address < m[0] + len(m[1]))
        at = end = address - start
        for _ in range(count):
            at = max(marked.rfind(1, 0, at), 0)
        pieces.append(code[at:end])
    texts = texts_of(dict.fromkeys(pieces))
    return [texts[piece] for piece in pieces]


def texts_of(pieces):
    """From each piece of code to the texts of its instructions. NOPs stand between the pieces, so that none is read out of step."""
    gap, starts, at = b"\x90" * 16, [], 0
    for piece in pieces:
        starts.append(at)
        at += len(piece) + len(gap)
    found = {piece: [] for piece in pieces}
    names = list(pieces)
    for i in linear(0, gap.join(pieces)):
        k = bisect.bisect_right(starts, i.address) - 1
        if i.address < starts[k] + len(names[k]):
            found[names[k]].append(i.text)
    return found


def starts_in(start, code, found):
    """A byte for each byte of code, 1 where an instruction begins."""
    marked = bytearray(len(code))
    for places in found.values():
        for address in places[bisect.bisect_left(places, start):bisect.bisect_left(places, start + len(code))]:
            marked[address - start] = 1
    return marked
