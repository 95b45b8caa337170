"""The transfers of the instruction subset, read from the bytes of an executable: rows 40 to 48 of docs/INSTRUCTIONS.md.

This is an account of its own, beside the program's decoder: `test_record.sh` compares what it gives with what `trace` stores.
"""
import struct

import executables

INDIRECT = ()


def operand_length(code, at):
    """How many bytes the operand takes whose ModRM byte stands at an offset: with its SIB byte and its displacement."""
    mode, low = code[at] >> 6, code[at] & 7
    if mode == 3:
        return 1
    base, length = low, 1
    if low == 4:
        base, length = code[at + 1] & 7 if at + 1 < len(code) else 0, 2
    return length + {0: 4 if base == 5 else 0, 1: 1, 2: 4}[mode]


def has(code, at, length):
    return at + length <= len(code)


def direct(address, code, at, length, form):
    """The target of a distance of that form behind an opcode that ends before `at`; `length` is the whole instruction's."""
    end = address + length
    distance, = struct.unpack_from(form, code, at)
    return (end + distance) & 0xFFFFFFFF, end & 0xFFFFFFFF


def transfer(code, at, address):
    """The targets of the transfer at an offset in some code: one or two of a direct transfer, INDIRECT (none) where memory or a register
    tells, and None where no transfer of the subset stands there."""
    first, second = code[at], code[at + 1] if at + 1 < len(code) else None
    if 0x70 <= first <= 0x7F and has(code, at, 2):
        return direct(address, code, at + 1, 2, "<b")
    if first == 0x0F and second is not None and 0x80 <= second <= 0x8F and has(code, at, 6):
        return direct(address, code, at + 2, 6, "<i")
    if first in (0xE8, 0xE9) and has(code, at, 5):
        return direct(address, code, at + 1, 5, "<i")[:1]
    if first == 0xEB and has(code, at, 2):
        return direct(address, code, at + 1, 2, "<b")[:1]
    if first == 0xC3 or (first == 0xF3 and second == 0xC3) or (first == 0xC2 and has(code, at, 3)):
        return INDIRECT
    begin = at + 1 if first == 0x3E else at
    if has(code, begin, 2) and code[begin] == 0xFF and code[begin + 1] >> 3 & 7 in (2, 4):
        return INDIRECT if has(code, begin + 1, operand_length(code, begin + 1)) else None
    return None


class Code:
    """The executable segments of an executable."""

    def __init__(self, data):
        self.parts = [(s.start, s.data.ljust(s.size, b"\0")[:s.size]) for s in executables.segments(data) if s.flags & executables.EXECUTE]

    def has(self, address):
        return any(start <= address < start + len(code) for start, code in self.parts)

    def transfer_at(self, address):
        """As `transfer`; None too where no code stands at the address."""
        for start, code in self.parts:
            if start <= address < start + len(code):
                return transfer(code, address - start, address)
        return None
