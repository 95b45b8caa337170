#!/usr/bin/env python3
"""Measures a BinRec program at growing sizes, beside the reference program in the same run where that can be built.

usage: bench.py [--repeat N] [--only WORD] [--reference "PROGRAM WORD.." | --alone] PROGRAM [WORD..]

Each line has the size, the processor time (the least of N runs, the programs in turn), the time for one unit of the size, the most memory
of the process (what is below that of this script, some 15 MiB, is not seen), and the ratios of time and memory to the reference: x0.5 is half of
what the reference takes, so lower is better. Time for one unit that stays the same down a table is growth in proportion to size. A table ends with
its ratio of times at the largest size beside its bar, and OVER where that is passed; no ratio is told of a time below 10 ms, as the
reference's is where memory is made and not used. The status is 1 where programs end otherwise than they should.
The reference is built with cargo from ../shared/oracle where that folder is there, and runs at the stage that this program has (STAGE).
"""
import argparse, collections, hashlib, os, shlex, shutil, struct, subprocess, sys, tempfile

TOP = os.path.dirname(os.path.dirname(os.path.abspath(__file__)))
STAGE = "R13"
LATER = "asm"  # what this program has besides
TOO_SHORT = 0.01
START = 0x08048000
EXIT = bytes.fromhex("b801000000 bb00000000 cd80")


def word(n):
    return struct.pack("<I", n % 2**32)


def executable(code, data=0, tail=0):
    """One segment with the headers, the code and `data` bytes after it; then one to write, with `tail` zero bytes."""
    base = 52 + 64
    size = base + len(code) + data
    head = b"\x7fELF\1\1\1".ljust(16, b"\0") + struct.pack("<HHIIIIIHHHHHH", 2, 3, 1, START + base, 52, 0, 0, 52, 32, 2, 0, 0, 0)
    room = (START + size + 4095) // 4096 * 4096
    first = struct.pack("<IIIIIIII", 1, 0, START, START, size, size, 5, 4096)
    second = struct.pack("<IIIIIIII", 1, 0, room, room, 0, tail, 6, 4096)
    return head + first + second + code + bytes(k * 7 % 256 for k in range(256)) * (data // 256) + bytes(data % 256), room


def counting_loop(turns):
    """mov ecx,turns; dec ecx; jnz back: two steps a turn."""
    return executable(b"\xb9" + word(turns) + bytes.fromhex("49 75fd") + EXIT)[0]


def memory_loop(turns):
    """add [room],ecx; mov eax,[room]; push eax; pop edx; dec ecx; jnz back: six steps a turn."""
    _, room = executable(b"", tail=4096)
    body = b"\x01\x0d" + word(room) + b"\xa1" + word(room) + bytes.fromhex("50 5a 49")
    return executable(b"\xb9" + word(turns) + body + b"\x75" + bytes([256 - len(body) - 2]) + EXIT, tail=4096)[0]


def repeated_store(length):
    """rep stosb over `length` bytes: a step a byte."""
    _, room = executable(b"", tail=length)
    return executable(b"\xb9" + word(length) + b"\xbf" + word(room) + bytes.fromhex("b041 f3aa") + EXIT, tail=length)[0]


def repeated_move(turns):
    """rep movsd of 1 KiB, again and again, in a segment of 64 MiB: what one access costs in a large memory."""
    _, room = executable(b"", tail=60 << 20)
    move = b"\xb9" + word(256) + b"\xbe" + word(room) + b"\xbf" + word(room + (59 << 20)) + bytes.fromhex("f3a5")
    code = b"\xba" + word(turns // 256) + move + b"\x4a\x75" + bytes([256 - len(move) - 3]) + EXIT
    return executable(code, tail=60 << 20)[0]


def large_file(size):
    return executable(EXIT, data=size - 52 - 64 - len(EXIT))[0]


def large_memory(size):
    return executable(EXIT, tail=size)[0]


def many_functions(count):
    """`count` calls of `count` short functions, each with a conditional jump: about four blocks a function."""
    bodies = b"".join(b"\x81\xc0" + word(0x9E3779B9 * (k + 1)) + bytes.fromhex("7802 f7d0 c3") for k in range(count))
    calls = b"".join(b"\xe8" + word(5 * (count - k - 1) + len(EXIT) + 11 * k) for k in range(count))
    return executable(calls + EXIT + bodies)[0]


def backward_chain(blocks):
    """A jump to the last of a row of jumps, each to the one before it, and a RET that faults: live registers go along the whole row."""
    jumps = b"\xc3" + b"\xeb\xfd" + b"\xeb\xfc" * (blocks - 3)
    return executable(b"\xe9" + word(len(jumps) - 2) + jumps)[0]


def held_loads(blocks):
    """Blocks that sum up 60 words, which only the way that no run takes still needs: all loads hold a place to the end of their block."""
    size = 5 + 60 * 6 + 6
    code_size = 5 + blocks * size + len(EXIT)
    room = (START + 52 + 64 + code_size + 4095) // 4096 * 4096
    block = b"\xb8" + word(0) + b"".join(b"\x03\x05" + word(room + 4 * k) for k in range(60)) + bytes.fromhex("85c9 7502 ebfe")
    return executable(b"\xb9" + word(1) + block * blocks + EXIT, tail=4096)[0]


def functions_file(folder):
    """The bytes of the file E of a folder, and where the conditional jump of its first function stands."""
    with open(os.path.join(folder, "E"), "rb") as f:
        file = f.read()
    at = file.index(bytes.fromhex("7802 f7d0 c3"))
    return file, START + at


def second_trace(folder):
    """A trace T2 with both ways of the first function's conditional jump, of which a run takes one."""
    file, jump = functions_file(folder)
    pairs = struct.pack("<IIII", jump, jump + 2, jump, jump + 4)
    with open(os.path.join(folder, "T2"), "wb") as f:
        f.write(b"BRTRACE1" + hashlib.sha256(file).digest() + word(2) + pairs)


# The scripts of a session, by the words that stand for them.
SCRIPTS = {"added": "add T\n", "once": "add T\nemit N\n", "again": "add T\nemit N\nadd T2\nemit N\n"}


# What is measured: its name, the unit, the sizes, how a size is made, the words, and the most time beside the reference's that is
# wanted at the largest size, where there is a bar. What the words need is made by the words before.
Table = collections.namedtuple("Table", "title unit sizes make words bar")
LARGE = ["run", "--steps", "1", "E"]
PAIRS_OF = [32000, 64000, 256000]  # functions of a trace that is measured by itself
BLOCKS_OF = [4000, 16000]  # 4 blocks a function, of at most 65536
TABLES = [
    Table("run, counting loop", "step", [500_000, 1_000_000, 2_000_000, 4_000_000], lambda n: counting_loop(n // 2), ["run", "E"], 1.0),
    Table("run, memory loop", "step", [300_000, 600_000, 1_200_000, 3_000_000], lambda n: memory_loop(n // 6), ["run", "E"], 1.0),
    Table("run, repeated store", "byte", [524288, 1048576, 4194304], repeated_store, ["run", "E"], 1.0),
    Table("run, moves in 64 MiB", "step", [524288, 2097152, 8388608], repeated_move, ["run", "E"], 1.5),
    Table("run, file read", "byte", [16 << 20, 64 << 20], large_file, LARGE, None),
    Table("run, memory made", "byte", [16 << 20, 64 << 20, 192 << 20], large_memory, LARGE, None),
    Table("build, file", "byte", [4 << 20, 16 << 20], large_file, ["build", "N", "E"], None),
    Table("build, memory", "byte", [16 << 20, 63 << 20], large_memory, ["build", "N", "E"], None),
    Table("trace, functions", "function", PAIRS_OF, many_functions, ["trace", "T", "E"], 1.0),
    Table("merge, functions", "function", PAIRS_OF, many_functions, ["merge", "M", "E", "T", "T", "T"], 1.0),
    Table("show, functions", "function", BLOCKS_OF, many_functions, ["show", "E", "T"], 1.0),
    Table("build, functions", "function", BLOCKS_OF, many_functions, ["build", "N", "E", "T"], 1.0),
    Table("build, held loads", "block", [400, 1600, 6400], held_loads, ["build", "N", "E", "T"], 1.2),
    Table("build, backward chain", "block", [16384, 65536], backward_chain, ["build", "N", "E", "T"], 1.0),
    Table("asm, instructions", "line", [699050, 2796202], lambda n: b"  nop\n" * n, ["asm", "N", "E"], 1.0),
    Table("asm, jumps", "line", [599186, 2396744], lambda n: b"a:\n" + b"  jo a\n" * n, ["asm", "N", "E"], 1.0),
    Table("session, one emit", "function", BLOCKS_OF, many_functions, ["session", "E", "<once"], 1.0),
    Table("session, a second emit with one edge more", "function", [4000, 16000], many_functions, ["session", "E", "<again"], None),
]
ROUNDS = 5  # of the sessions that a second emit is measured by
MOST_OF_FIRST = 0.25


def reference():
    """The reference program's words, or None."""
    source = os.path.join(TOP, "..", "shared", "oracle")
    if not os.path.isdir(source) or not shutil.which("cargo"):
        return None
    target = os.path.join(tempfile.gettempdir(), f"binrec-reference-{os.getuid()}")
    done = subprocess.run(["cargo", "build", "--release", "--offline", "-q", "--target-dir", target], cwd=source)
    return [os.path.join(target, "release", "oracle"), "--stage", STAGE, "--with", LATER] if done.returncode == 0 else None


def call(program, words, folder):
    """Seconds of the processor, the most memory in bytes, status and the last line of the report. A word `<NAME` is the input's script."""
    scripts = [SCRIPTS[w[1:]] for w in words if w.startswith("<")]
    words = [w for w in words if not w.startswith("<")]
    with open(os.path.join(folder, "report"), "w+b") as report, open(os.path.join(folder, "script"), "w+") as script:
        script.write("".join(scripts))
        script.seek(0)
        child = subprocess.Popen([*program, *words], cwd=folder, stdin=script, stdout=subprocess.DEVNULL, stderr=report)
        _, ended, used = os.wait4(child.pid, 0)
        seconds = used.ru_utime + used.ru_stime
        child.returncode = os.waitstatus_to_exitcode(ended)
        report.seek(0)
        last = report.read().decode(errors="replace").splitlines()[-1:]
    return seconds, used.ru_maxrss * 1024, child.returncode, last[0] if last else ""


def knows(program, command, folder):
    return call(program, [command], folder)[3] != "usage 0"


def takes(program, words, folder):
    """Whether the command is there, with the traces that it is given."""
    if words[0] == "build" and len(words) > 3 and call(program, words, folder)[3] == "usage 3":
        return False
    return knows(program, words[0], folder)


def knows_all_instructions(program, folder):
    with open(os.path.join(folder, "E"), "wb") as f:
        f.write(executable(b"\x21\xc0" + EXIT)[0])
    return call(program, ["run", "E"], folder)[3].startswith("exit 0 steps 4 ")


def measured(calls, repeat):
    """For each (program, words, folder) the least time of so many calls, made in turn, the most memory, the status and the last line."""
    rounds = [[call(*each) for each in calls] for _ in range(repeat)]
    return [(min(r[0] for r in runs), max(r[1] for r in runs), *runs[0][2:]) for runs in zip(*rounds)]


def write_file(names, make, size):
    """Writes the file in a process of its own, whose memory this one does not keep."""
    child = os.fork()
    if child == 0:
        file = make(size)
        for name in names:
            with open(name, "wb") as f:
                f.write(file)
        os._exit(0)
    if os.waitpid(child, 0)[1] != 0:
        sys.exit("no file could be made")


def compare(unit, size, sides, words, repeat):
    """One line of a table; answers whether all sides ended alike, and the ratio of times, or None."""
    found = measured([(program, words, folder) for program, folder in sides], repeat)
    seconds, memory, status, last = found[0]
    line = f"  {size:>10} {seconds:9.3f} s {seconds / size * 1e9:12.1f} ns/{unit} {memory / 2**20:8.1f} MiB"
    ratio = seconds / found[1][0] if len(found) > 1 and found[1][0] >= TOO_SHORT else None
    if len(found) > 1:
        line += f"   time {f'x{ratio:.2f}' if ratio else '(too short)'} memory x{memory / found[1][1]:.2f}"
    alike = all(f[2:] == found[0][2:] for f in found) or words[0] in ("trace", "build") and all(f[2] == status for f in found)
    if status not in (0, 6) or not alike:
        line += f"   ENDED WITH {' / '.join(f'{f[2]} {f[3]}' for f in found)}"
    print(line, flush=True)
    return alike and status in (0, 6), ratio


def second_emit(program, words, folder):
    """How the time of the second emit, with its trace, stands to that of the first."""
    calls = [(program, [*words[:-1], script], folder) for script in ("<added", "<once", "<again")]
    added, once, again = (found[0] for found in measured(calls, ROUNDS))
    share = (again - once) / (once - added)
    print(f"  {'':>10} the second emit takes x{share:.2f} of the first" + ("" if share <= MOST_OF_FIRST else f"   OVER {MOST_OF_FIRST}"), flush=True)


def table(entry, sides, repeat):
    print(f"{entry.title}: {' '.join(entry.words)}")
    good, ratio, again = True, None, entry.words[-1] == "<again"
    for size in entry.sizes:
        write_file([os.path.join(folder, "E") for _, folder in sides], entry.make, size)
        for program, folder in sides:
            if "T" in entry.words and entry.words[0] != "trace" or entry.words[0] == "session":
                call(program, ["trace", "T", "E"], folder)
            if again:
                second_trace(folder)
        alike, ratio = compare(entry.unit, size, sides, entry.words, repeat)
        good = good and alike
        if again:
            second_emit(sides[0][0], entry.words, sides[0][1])
    if ratio and entry.bar:
        print(f"  {'':>10} x{ratio:.2f} at the largest size, bar x{entry.bar:.1f}" + ("" if ratio <= entry.bar else "   OVER"), flush=True)
    return good


def main():
    p = argparse.ArgumentParser(description=__doc__, formatter_class=argparse.RawDescriptionHelpFormatter)
    p.add_argument("--repeat", type=int, default=2)
    p.add_argument("--only", default="")
    p.add_argument("--reference")
    p.add_argument("--alone", action="store_true")
    p.add_argument("program", nargs=argparse.REMAINDER)
    a = p.parse_args()
    if not a.program:
        p.error("no PROGRAM")
    program = [os.path.abspath(shutil.which(a.program[0]) or a.program[0]), *a.program[1:]]
    other = None if a.alone else shlex.split(a.reference) if a.reference else reference()
    if not other and not a.alone:
        print("skipped: the reference (no ../shared/oracle, no cargo, or it does not build)")
    good = True
    with tempfile.TemporaryDirectory(prefix="bench-") as top:
        sides = [(words, os.path.join(top, str(k))) for k, words in enumerate([program, other] if other else [program])]
        for _, folder in sides:
            os.mkdir(folder)
        for entry in TABLES:
            words = entry.words
            if a.only not in entry.title:
                continue
            if not all(takes(program, words, folder) for program, folder in sides):
                print(f"skipped: {entry.title}: no such command yet")
            elif words[0] != "build" and not knows_all_instructions(*sides[0]) and words != LARGE:
                print(f"skipped: {entry.title}: the program does not know the whole instruction table yet")
            else:
                good = table(entry, sides, a.repeat) and good
    return 0 if good else 1


if __name__ == "__main__":
    sys.exit(main())
