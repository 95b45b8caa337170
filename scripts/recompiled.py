"""Files that BinRec wrote, read backwards: the original that one holds (docs/FILES.md, 'What is written'; docs/CODE.md, 'The file').

Behind the recovered code and the private segment a file has the original's segments at their addresses, each with the bytes that the original's file gives it. What lay outside of segments is not in it: sections, symbols and often the
headers. Where a segment begins with the headers, as linkers lay files out, these tell the entry and at which offset each segment stood.
"""
import struct

import executables

CAPTURE = 101
JUMP = 5


def shape(segment):
    return segment.start, segment.size, segment.flags, segment.data


def held(data):
    """The original's segments in a file that BinRec wrote."""
    return executables.segments(data)[2:]


def code(data):
    return executables.segments(data)[0].data


def is_made_of(data, original):
    """Whether a file that BinRec wrote holds just what an original has in its segments."""
    return [shape(s) for s in held(data)] == [shape(s) for s in executables.segments(original)]


def headers_of(segments):
    """The bytes of a segment that begins with ELF headers which describe these very segments, or None."""
    for segment in segments:
        if executables.is_elf(segment.data):
            named = [(h[2], h[5], h[6], h[4]) for h in executables.headers(segment.data, 28, 32, "<8I", 42) if h[0] == executables.LOAD and h[5]]
            if named == [(s.start, s.size, s.flags, len(s.data)) for s in segments]:
                return segment.data
    return None


def placed(segments, front):
    """The file in which each segment stands at the offset that the headers give it; None where that is not a file with these segments."""
    offsets = [h[1] for h in executables.headers(front, 28, 32, "<8I", 42) if h[0] == executables.LOAD and h[5]]
    length = max(at + len(s.data) for at, s in zip(offsets, segments) if s.data)
    file = bytearray(min(length, 1 << 24))
    for at, s in zip(offsets, segments):
        file[at:at + len(s.data)] = s.data
    same = [shape(s) for s in executables.segments(bytes(file))] == [shape(s) for s in segments]
    return bytes(file) if same and length <= 1 << 24 else None


def written(segments, entry):
    """A file with these segments and this entry, laid out as BinRec writes files."""
    head = b"\x7fELF\1\1\1".ljust(16, b"\0") + struct.pack("<HHIIIIIHHHHHH", 2, 3, 1, entry, 52, 0, 0, 52, 32, len(segments), 0, 0, 0)
    table, body, at = b"", b"", 52 + 32 * len(segments)
    for s in segments:
        gap = (s.start - at) % 4096 if s.data else 0
        offset = at + gap if s.data else s.start % 4096
        body += bytes(gap) + s.data
        at += gap + len(s.data)
        table += struct.pack("<8I", 1, offset, s.start, s.start, len(s.data), s.size, s.flags, 4096)
    return head + table + body


def first_way(data):
    """Where the code at the entry goes on: the target of its jump, and whether the state was captured before, as it is for a block."""
    found = code(data)
    for at in (0, CAPTURE):
        if found[at:at + 1] == b"\xe9":
            distance, = struct.unpack_from("<i", found, at + 1)
            return (executables.RECOVERED + at + JUMP + distance) % 2 ** 32, at > 0
    return None, False


def entry_of(data, front):
    """The original's entry, by its headers or by the jump at the start of the code; None where neither tells it."""
    if front is not None:
        return executables.entry(front)
    target, _ = first_way(data)
    known = target is not None and any(s.flags & executables.EXECUTE and s.start <= target < s.start + s.size for s in held(data))
    return target if known else None


def original_of(data):
    """The original that a file holds, as a file; None where its entry is not told."""
    segments = held(data)
    front = headers_of(segments)
    file = placed(segments, front) if front is not None else None
    if file is not None:
        return file
    entry = entry_of(data, None)
    return None if entry is None else written(segments, entry)


def is_whole(original):
    """Whether nothing that its headers name lay outside of the segments: then it is the file that was given, up to bytes that follow them."""
    table, = struct.unpack_from("<I", original, 32)
    return table == 0 or table + 40 * struct.unpack_from("<H", original, 48)[0] <= len(original)
