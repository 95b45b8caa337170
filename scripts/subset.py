"""What the instruction subset has, stated over the bytes and the text (`-M intel`) that objdump shows of an instruction.

This is an account of its own, beside docs/INSTRUCTIONS.md and the definitions: `check_spellings.py` compares it with the program,
and `fits` names by it what an executable has that the subset has not.
"""
import re

PREFIXES = {0x26, 0x2E, 0x36, 0x3E, 0x64, 0x65, 0x66, 0x67, 0xF0, 0xF2, 0xF3}
CONDITIONS = "o no b ae e ne be a s ns p np l ge le g".split()

# Names that are read whatever the opcode, except as REFUSED says; lahf too, where the decoder knows it.
NAMES = set("""add or adc sbb and sub xor cmp test mov lea xchg inc dec not neg push pop mul imul div idiv shl shr sar rol ror
    cwde cdq movzx movsx jmp call ret leave movs stos cld std sahf int nop""".split())
NAMES |= {kind + c for kind in ("j", "set", "cmov") for c in CONDITIONS}

# Opcodes whose second width is chosen by one 66.
WIDE = {8 * k + low for k in range(8) for low in (1, 3, 5)} | set(range(0x40, 0x50)) | set(range(0x91, 0x98)) | set(range(0xB8, 0xC0))
WIDE |= {0x81, 0x83, 0x85, 0x87, 0x89, 0x8B, 0x8D, 0xA1, 0xA3, 0xA5, 0xA9, 0xAB, 0xC1, 0xC7, 0xD1, 0xD3, 0xF7, 0xFF, 0x0FB6, 0x0FBE}

# Opcodes with the name of an instruction of the subset that it leaves out: moves of segment, control, debug and test registers and their
# pushes and pops, far transfers, the second opcode 80, and hints other than 0F 1F.
REFUSED = {0x06, 0x07, 0x0E, 0x16, 0x17, 0x1E, 0x1F, 0x82, 0x8C, 0x8E, 0x9A, 0xEA, 0x0FA0, 0x0FA1, 0x0FA8, 0x0FA9, 0x0F0D}
REFUSED |= set(range(0x0F20, 0x0F27)) | set(range(0x0F18, 0x0F1F))


def digits_refused(opcode, digit, narrow16):
    """By the reg field: other spellings, far transfers, and widths that the subset leaves out."""
    if opcode in (0xC0, 0xD0, 0xD2):
        return digit not in (4, 5, 7)
    if opcode in (0xC1, 0xD1, 0xD3):
        return digit not in ((4, 5, 7) if narrow16 else (0, 1, 4, 5, 7))
    if opcode == 0xF6:
        return digit not in (0, 2, 3)
    if opcode == 0xF7:
        return digit not in ((0, 2, 3) if narrow16 else (0, 2, 3, 4, 5, 6, 7))
    if opcode == 0xFF:
        return digit not in ((0, 1) if narrow16 else (0, 1, 2, 4, 6))
    return opcode in (0x8F, 0xC6, 0xC7, 0x0F1F) and digit != 0


def prefixes_refused(prefixes, opcode, spelling, register):
    """Prefixes are read where they choose a width or a repeat, and leniently in the forms that assemblers and compilers write."""
    if not prefixes:
        return False
    if opcode in (0x8D, 0x0F1F):
        return not set(prefixes) <= {0x66, 0x2E}
    if prefixes == [0x66]:
        return opcode not in WIDE and opcode != 0x90
    if opcode in (0xA4, 0xAA):
        return prefixes != [0xF3]
    if opcode in (0xA5, 0xAB):
        return prefixes != [0xF3] and sorted(prefixes) != [0x66, 0xF3]
    if prefixes == [0xF3]:
        return opcode not in (0x90, 0xC3) and spelling != b"\xf3\x0f\x1e\xfb"
    return not (prefixes == [0x3E] and opcode == 0xFF and register in (2, 4))


def subset_name(spelling, text):
    """The name in the subset's words of what objdump shows, or None where the subset does not have it."""
    if spelling == b"\xf3\x0f\x1e\xfb":
        return "nop"
    at = 0
    while at < len(spelling) and spelling[at] in PREFIXES:
        at += 1
    prefixes, rest = list(spelling[:at]), spelling[at:]
    if not rest or "(bad)" in text:
        return None
    opcode = rest[0] if rest[0] != 0x0F or len(rest) < 2 else 0x0F00 | rest[1]
    after = rest[1 if opcode < 256 else 2:]
    digit = after[0] >> 3 & 7 if after else 0
    if opcode in REFUSED or digits_refused(opcode, digit, 0x66 in prefixes) or prefixes_refused(prefixes, opcode, spelling, digit):
        return None
    words = re.sub(r"^((data16|cs|ds|notrack|rep|repz) )+", "", text).split()
    name = {"pause": "nop"}.get(words[0], words[0])
    if opcode == 0x90:
        return "nop"
    if name not in NAMES or (name == "int" and spelling != b"\xcd\x80"):
        return None
    if name in ("movs", "stos"):
        width = "b" if opcode in (0xA4, 0xAA) else "w" if 0x66 in prefixes else "d"
        return ("rep " if 0xF3 in prefixes else "") + name + width
    return re.sub(r"^(j|set|cmov)(n?)e$", r"\1\2z", name)
