"""Executables as the scripts read them: program headers, symbols, and the code in a linear reading by objdump."""
import bisect, collections, hashlib, os, shutil, struct, subprocess, sys, tempfile

import output
from subset import subset_name

TOP = os.path.dirname(os.path.dirname(os.path.abspath(__file__)))
LOAD, EXECUTE = 1, 1
RECOVERED = 0x01000000

Segment = collections.namedtuple("Segment", "start data size flags offset")
# An instruction of a linear reading. `name` is its name in the subset, None where the subset does not have it.
Instruction = collections.namedtuple("Instruction", "address spelling text name")


def program():
    """The recompiler: $BINREC, or what the gate leaves, or `binrec` of the PATH; None where there is none."""
    built = os.path.join(TOP, "crates", "binrec", "out", "binrec")
    for name in [os.environ.get("BINREC"), built if os.access(built, os.X_OK) else None, "binrec"]:
        if name:
            return shutil.which(name)
    return None


def no_program():
    """Why there is no recompiler."""
    given = os.environ.get("BINREC")
    if not given:
        return "no program: build it (README.md), or set BINREC to it"
    if not os.path.exists(given):
        return f"BINREC names {given}, and there is no such file"
    return f"BINREC names {given}, which is no program that this user may run"


def needed_program(script):
    """The recompiler, or the end of the script with status 3."""
    found = program()
    if not found:
        output.say(script, no_program())
        sys.exit(3)
    return found


def needed_objdump(script):
    if not shutil.which("objdump"):
        output.say(script, "no objdump: install binutils")
        sys.exit(3)


def file_trouble(name, shown=None):
    """Why a file cannot be read, in words, or None. A pipe is not tried, since it can be read once. The name may be shown otherwise."""
    shown = shown or name
    try:
        if os.path.isdir(name):
            return f"{shown} is a folder"
        if not os.path.exists(name):
            return f"{shown} is a link to a file that is not there" if os.path.islink(name) else f"there is no file {shown}"
        if os.path.isfile(name):
            with open(name, "rb") as f:
                f.read(1)
    except PermissionError:
        return f"{shown} may not be read by this user (ls -l {shown})"
    except (OSError, ValueError) as e:
        return f"{shown} cannot be read: {getattr(e, 'strerror', None) or e}"
    return None


def read(name):
    with open(name, "rb") as f:
        return f.read()


def content(name):
    """The bytes of a regular file; None for anything else, as a pipe, which can be read once, and for what cannot be read."""
    try:
        return read(name) if os.path.isfile(name) else None
    except (OSError, ValueError):
        return None


def is_elf(data):
    return data[:7] == b"\x7fELF\1\1\1" and len(data) >= 52


def headers(data, at, size, entry, count_at):
    """The tables of an ELF header as tuples of words: program headers (8 words) or section headers (10)."""
    first, = struct.unpack_from("<I", data, at)
    each, count = struct.unpack_from("<HH", data, count_at)
    if each != size:
        return []
    places = [first + size * k for k in range(count)]
    return [struct.unpack_from(entry, data, place) for place in places if place + size <= len(data)]


def segments(data):
    """The loaded segments."""
    found = []
    for kind, offset, start, _, filed, size, flags, _ in headers(data, 28, 32, "<8I", 42):
        if kind == LOAD and size:
            found.append(Segment(start, data[offset:offset + filed], size, flags, offset))
    return found


def entry(data):
    return struct.unpack_from("<I", data, 24)[0]


def is_recompiled(data):
    """Whether BinRec wrote the file: its entry is recovered code at 01000000, with the private segment at 07000000 behind it."""
    starts = [s.start for s in segments(data)] if is_elf(data) else []
    return is_elf(data) and entry(data) == RECOVERED and starts[:2] == [RECOVERED, 0x07000000]


FLAT = bytes.fromhex("7f454c46010101000000000000000000 0200030001000000 54800408 34000000 00000000 00000000 3400 2000 0100 0000 0000 0000"
                     "01000000 00000000 00800408 00800408")


def is_assembled(data):
    """Whether the file is as `asm` writes one: its headers and one segment that is the whole file, from 08048000 on."""
    size = len(data).to_bytes(4, "little")
    return len(data) > 84 and data[:84] == FLAT + size + size + bytes.fromhex("05000000 00100000")


def is_written_from(data, original):
    """Whether a file that BinRec wrote has the segments of this original, behind its own two."""
    def told(segments):
        return [(s.start, s.data, s.size, s.flags) for s in segments]

    return is_elf(original) and told(segments(data)[2:]) == told(segments(original))


def sections(data):
    return headers(data, 32, 40, "<10I", 46)


def code_ranges(data):
    """Where code may stand, as pairs of start and bytes: the executable sections in the segments, or where there are none the
    executable segments without the file's own headers."""
    named = [(s[3], s[5]) for s in sections(data) if s[1] == 1 and s[2] & 6 == 6 and s[5]]
    table = struct.unpack_from("<I", data, 28)[0]
    behind = max(52, table + 32 * struct.unpack_from("<H", data, 44)[0])
    ranges = []
    for segment in segments(data):
        if not segment.flags & EXECUTE:
            continue
        inside = [(a, n) for a, n in named if segment.start <= a and a + n <= segment.start + len(segment.data)]
        if not inside:
            skipped = min(len(segment.data), max(0, behind - segment.offset) if segment.offset == 0 else 0)
            inside = [(segment.start + skipped, len(segment.data) - skipped)]
        ranges += [(a, segment.data[a - segment.start:a - segment.start + n]) for a, n in inside]
    return sorted(ranges)


def linear(start, code):
    """The instructions of some bytes, one behind the other."""
    with tempfile.NamedTemporaryFile() as f:
        f.write(code)
        f.flush()
        words = ["objdump", "-D", "-z", "-w", "--insn-width=16", "-b", "binary", "-m", "i386", "-M", "intel", f"--adjust-vma={start}", f.name]
        lines = subprocess.run(words, capture_output=True, text=True, check=True).stdout.splitlines()
    for line in lines:
        parts = line.split("\t")
        if len(parts) >= 2 and parts[0].endswith(":"):
            spelling = bytes.fromhex(parts[1])
            text = parts[2].strip() if len(parts) > 2 else "(bad)"
            yield Instruction(int(parts[0][:-1], 16), spelling, text, subset_name(spelling, text))


def instructions(data):
    """All instructions of the code of an executable, by address."""
    return [i for start, code in code_ranges(data) for i in linear(start, code)]


class Symbols:
    """The names of the functions of an executable, none where it was stripped."""

    def __init__(self, data):
        named = sections(data) if is_elf(data) else []
        found = {}
        for section in named:
            if section[1] == 2 and section[6] < len(named):
                names = data[named[section[6]][4]:][:named[section[6]][5]]
                found.update(symbol_table(data[section[4]:section[4] + section[5]], names))
        self.starts = sorted(found)
        self.names = [found[a] for a in self.starts]

    def at(self, address):
        """` (NAME+OFFSET)`, or nothing."""
        k = bisect.bisect_right(self.starts, address) - 1
        if k < 0:
            return ""
        past = address - self.starts[k]
        return f" ({self.names[k]}+0x{past:x})" if past else f" ({self.names[k]})"


def symbol_table(table, names):
    """From address to name, of functions and of names without a kind, as those of assembly."""
    found = {}
    for name, value, _, info, _, index in struct.iter_unpack("<IIIBBH", table[:len(table) // 16 * 16]):
        text = names[name:names.find(b"\0", name)].decode(errors="replace")
        if text and info & 15 in (0, 2) and 0 < index < 0xFF00:
            found[value] = text
    return found


def digest(data):
    return hashlib.sha256(data).digest()


def is_trace(data):
    """Whether the bytes are a trace of any version: the text, a digit, the digest of its executable, a count."""
    return data[:7] == b"BRTRACE" and len(data) >= 44
