"""What a report of BinRec means, in words: the cause and the cure of each usage, refusal, limit, fault and `outside`."""
import os, re, resource, stat, subprocess

import executables

USAGE = {
    "build": "build N E T..                 N the file to write, E the executable, T its traces",
    "run": "run [--steps K] E WORD..      E the executable, the WORDs its arguments",
    "trace": "trace [--steps K] T E WORD..  T the trace to write, E the executable, the WORDs its arguments",
    "merge": "merge T E T..                 the first T the trace to write, E the executable, the later T the traces to join",
    "show": "show E T..                    E the executable, T its traces",
    "session": "session E                     E the executable; the lines of the input: add NAME, remove K, emit NAME",
    "demo": "demo K                        K the number of functions, 1 to 1000",
    "asm": "asm N TEXT                    N the file to write, TEXT its source",
}

# A report line. It is the end of standard error, behind a guest's own bytes there.
REPORT = ("exit [0-9]+ steps [0-9]+ undefined [0-9]+(?: edges [0-9]+)?|fault [a-z]+ [0-9a-f]{8} steps [0-9]+ undefined [0-9]+(?: edges [0-9]+)?|"
          "budget steps [0-9]+ undefined [0-9]+(?: edges [0-9]+)?|usage [0-9]+|refused (?:word|line) [0-9]+ [0-9]+ [0-9]+|"
          "outside [a-z]+|limit [a-z]+ [0-9]+|memory|built [0-9]+ [0-9]+ [0-9]+|merged [0-9]+|shown [0-9]+|lines [0-9]+|assembled [0-9]+")

# By number: the cause, and the cure.
REFUSALS = {
    1: ("the file has fewer than 52 bytes, so it is no executable", "it is empty or cut off: copy or link it again"),
    2: ("the file is no ELF file", "give an executable, not its source, a script or an archive"),
    3: ("the file is not 32-bit, little-endian ELF of version 1", "compile for i386, with -m32"),
    4: ("the file is not of type EXEC", "link with -static -no-pie"),
    5: ("the file is not for the i386", "compile for i386, with -m32"),
    6: ("the headers have wrong sizes, or pass the end of the file", "the file is damaged or cut off: build or copy it again"),
    7: ("the file is linked dynamically, or has storage for threads", "link with -static -nostdlib, and without thread-local variables"),
    8: ("a segment is both writable and executable", "do not link with -N, and have no section that is \"awx\""),
    9: ("a segment begins too low, ends above A0000000, or lies past the end of the file",
        "link at 08048000 or above (a file that BinRec wrote is no original); if the addresses are right, the file is cut off"),
    10: ("a segment begins before the end of the one before it", "mend the linker script: segments ascend, and none overlaps"),
    11: ("the entry lies in no executable segment", "name the entry to the linker, with -e or as _start"),
    12: ("a segment has more bytes in the file than in memory", "the file is damaged: build it again"),
    13: ("there are too many segments, or too many bytes of memory", "make .bss smaller, and get memory by brk"),
    21: ("the file is no trace of this version", "give a trace, or make it anew with `trace`"),
    22: ("the trace is of another executable, or of another build of this one", "trace this very executable"),
    23: ("the trace is cut off", "copy it again, or make it anew with `trace`"),
    24: ("the pairs of the trace are out of order", "the trace is damaged: make it anew with `trace`"),
    25: ("bytes follow the last pair of the trace", "the trace is damaged: make it anew with `trace`"),
    26: ("the trace has more than 2000000 pairs", "keep the pairs in several traces"),
    31: ("the line is none of `add NAME`, `remove K`, `emit NAME` and the empty line", "one space after the word, a name of 1 to 4096 bytes, a number of 1 to 9 digits"),
    32: ("no live trace has the number", "`added K` says which number a trace has; `remove` takes it away once"),
    41: ("the line has none of the forms of a source",
         "empty; `NAME:`; two spaces and `byte` with 1 to 64 bytes of two digits; two spaces and an instruction as `show` prints it, or a jump or call with a label"),
    42: ("the label stands for the second time", "each label stands once: rename one, and the lines that go to it"),
    43: ("the label that is used stands nowhere", "have a line `NAME:` before what it stands for, or mend the name"),
    44: ("the lines give no bytes", "an executable has at least one byte of code"),
}

LIMITS = {
    "file": "a file is larger than is read: an original, a trace or a source at most 16777216 bytes, an executable for `run` at most 268435456",
    "edges": "the traces have together more pairs than are joined: merge some of them first",
    "union": "there are more different edges than a trace may have: trace shorter runs, or give fewer traces",
    "blocks": "the traces lead to more than 65536 blocks: give fewer traces",
    "code": "the recovered code would be too large: give fewer traces",
    "traces": "4096 traces are live: remove some, or merge traces first",
    "lines": "a session has at most 1048576 lines: begin another one",
}


def positions(words):
    """What each word of a command is, by its position: `stored`, `original`, `guest`, `trace` or `word`."""
    command = words[0] if words else ""
    skipped = 2 if command in ("run", "trace") and words[1:2] == ["--steps"] else 0
    roles = {"build": ["stored", "original", "trace"], "run": ["guest", "word"], "trace": ["stored", "original", "word"],
             "merge": ["stored", "original", "trace"], "show": ["original", "trace"], "session": ["original"],
             "asm": ["stored", "source"]}.get(command, [])
    found = {}
    for at in range(1 + skipped, len(words)):
        found[at] = roles[min(at - 1 - skipped, len(roles) - 1)] if roles else "word"
    return found


def names_of(words, *roles):
    return [words[at] for at, role in positions(words).items() if role in roles]


def named_by(line, *commands):
    """The name behind one of these words in a line of a script, or None."""
    command, space, name = line.partition(b" ")
    return os.fsdecode(name) if space and command.decode(errors="replace") in commands else None


def names_in(script, command):
    """The names behind a word of the script, `add` or `emit`; none where the script is not at hand."""
    found = (named_by(line, command) for line in (script.lines if script else []))
    return [name for name in found if name is not None]


# ---- Usage ----

def wrong_word(words, at):
    """Why the word at a position is wrong."""
    word = words[at]
    length = len(os.fsencode(word))
    if at == 0:
        return f"there is no command `{word}`"
    if not is_text(word):
        return f"word {at} is not UTF-8"
    if at == 2 and words[1] == "--steps":
        return f"`{word}` is no number of steps: 1 to 18 decimal digits"
    if words[0] == "demo" and at == 1:
        return f"`{word}` is no number from 1 to 1000"
    if at == {"session": 2, "demo": 2, "asm": 3}.get(words[0]):
        return f"word {at} is one too many"
    if positions(words)[at] == "word":
        return f"word {at} is one too many: a guest has at most 256 words, and 65536 bytes with a zero byte each"
    if length == 0 or length > 4096:
        return f"word {at} has {length} bytes, and a name has 1 to 4096"
    return f"word {at}, `{word}`, is wrong"


def is_text(word):
    try:
        os.fsencode(word).decode()
        return True
    except UnicodeDecodeError:
        return False


def explain_usage(words, report):
    at = int(report.split()[1])
    cause = f"word {at} is missing" if at >= len(words) else wrong_word(words, at)
    shown = [USAGE[words[0]]] if at and words[0] in USAGE else USAGE.values()
    return [cause, *("usage: " + line for line in shown)]


# ---- Refusals ----

def finer(number, place, data):
    """What the bytes tell further of a refusal."""
    def half(at):
        return int.from_bytes(data[at:at + 2], "little")

    if number == 2 and data[:2] == b"#!":
        return "it is a script"
    if number in (1, 2) and data and all(9 <= b < 127 for b in data[:200]):
        return "it is a text"
    if number == 3 and data[4:5] == b"\2":
        return "it is a 64-bit file"
    if number == 4:
        return {1: "it is an object file, which is to be linked first", 3: "it is a position-independent executable or a shared library"}.get(half(16))
    if number == 7:
        return {2: "it has a dynamic section", 3: "it has an interpreter", 7: "it has thread-local storage"}.get(half(place))
    if number == 9 and executables.is_recompiled(data):
        return "it is a file that BinRec wrote: give the original"
    if number in (21, 22) and executables.is_elf(data):
        return "it is an executable"
    return None


def explain_refusal(words, report):
    _, _, at, number, place = report.split()
    if words[0] == "asm":
        return source_lines(words[int(at)], int(number), int(place))
    return refusal_lines(words[int(at)], int(number), place)


def source_lines(name, number, line):
    """The cause and the cure of a refusal of a source, with its line as far as the source is at hand."""
    cause, cure = REFUSALS[number]
    texts = (executables.content(name) or b"").split(b"\n")
    shown = f": {os.fsdecode(texts[line - 1])[:80]!r}" if 0 < line <= len(texts) else ""
    return [f"{name}{f', line {line}' if line else ''}: {cause}{shown} (number {number})", f"cure: {cure}"]


def explain_line(script, report):
    """What a refused line of a session's script asked, as far as the script is at hand."""
    _, _, at, number, place = report.split()
    line = script.lines[int(at) - 1] if script and int(at) <= len(script.lines) else b""
    name = named_by(line, "add") if int(number) < 31 else None
    shown = f"line {at}" if name is None else repr(name)
    return refusal_lines(name, int(number), place, shown)


def refusal_lines(name, number, place, shown=None):
    """The cause and the cure of a refusal of this number, of a file, or of a line that is shown otherwise."""
    cause, cure = REFUSALS.get(number, ("it is refused", "docs/USING.md has the numbers"))
    data = executables.content(name) if name is not None else None
    more = finer(number, int(place), data) if data is not None else None
    return [f"{shown or name}: {cause}{': ' + more if more else ''} (number {number}, at {place})", f"cure: {cure}"]


# ---- Files and streams that fail ----

def store_trouble(name, shown=None):
    """Why a name cannot be stored under, or None. It may be shown otherwise."""
    folder = os.path.dirname(name) or "."
    shown = shown or name
    if os.path.isdir(name):
        return f"{shown} is a folder"
    if not os.path.isdir(folder):
        return f"there is no folder {folder}"
    try:
        system = os.statvfs(folder)
    except OSError as e:
        return f"{folder}: {e.strerror}"
    if system.f_flag & os.ST_RDONLY:
        return f"{folder} lies on a file system that is read-only"
    if system.f_blocks == 0 and os.path.realpath(folder).startswith(("/proc", "/sys")):
        return f"{folder} is made by the kernel, and takes no new files"
    if system.f_blocks and system.f_bavail == 0 or system.f_files and system.f_favail == 0:
        return f"the file system of {folder} is full (df {folder})"
    if os.path.exists(name) and not os.access(name, os.W_OK):
        return f"{shown} may not be written by this user (ls -l {shown})"
    if not os.path.exists(name) and not os.access(folder, os.W_OK | os.X_OK):
        return f"{folder} may not be written by this user (ls -ld {folder})"
    if len(os.path.basename(name).encode(errors="replace")) > 255:
        return f"the last part of {name[:40]}.. has more than 255 bytes"
    most, _ = resource.getrlimit(resource.RLIMIT_FSIZE)
    if most != resource.RLIM_INFINITY:
        return f"a file may have at most {most} bytes here (ulimit -f), and {shown} would have more"
    return None


def told(troubles, names):
    """The troubles that were found, or that none was."""
    return [t for t in troubles if t] or [f"a file failed: {', '.join(names)}; nothing shows why now (a device, a disk that was full, a share that was away?)"]


def explain_shelf(words, script):
    if words[0] == "session":
        return explain_session_shelf(words, script)
    read, stored = names_of(words, "original", "guest", "trace", "source"), names_of(words, "stored")
    return told([executables.file_trouble(name) for name in read] + [store_trouble(name) for name in stored], read + stored)


def explain_session_shelf(words, script):
    """The file that failed is that of the line which ended the session, or the executable where no line was reached."""
    original = names_of(words, "original")
    line = ended_by(script)
    if line is None:
        return told(map(executables.file_trouble, original), original)
    read, stored = named_by(line, "add"), named_by(line, "emit")
    if read is not None:
        return told([executables.file_trouble(read, repr(read))], [repr(read)])
    return told([store_trouble(stored, repr(stored))], [repr(stored)]) if stored is not None else []


# ---- The line that ended a session ----

def ended_by(script):
    """The last line that the program came to, or None."""
    reached = script.reached() if script else 0
    return script.lines[reached - 1] if reached else None


def line_that_ended(script, report):
    """The number and the text of the line at which a session ended."""
    refused = re.fullmatch(r"refused line (\d+) \d+ \d+", report)
    number = int(refused[1]) if refused else script.reached() if script else 0
    if not script or not 0 < number <= len(script.lines):
        return [f"line {number}: (not at hand)"] if refused else []
    text = os.fsdecode(script.lines[number - 1])
    shown = repr(text[:80]) + (".." if len(text) > 80 else "")
    return [f"the session ended at line {number}: {shown}; files that lines before it stored stay"]


def carriage_returns(script):
    """What a CR at the end of a line does, where a line that was reached has one."""
    for at, line in enumerate(script.lines[:script.reached()] if script else []):
        if line.endswith(b"\r"):
            return [f"line {at + 1} ends with CR LF, as lines of Windows do: the CR belongs to the line, and so to its name; `tr -d '\\r'` takes it away"]
    return []


def descriptor_trouble(descriptor):
    try:
        mode = os.fstat(descriptor).st_mode
    except OSError:
        return "is closed"
    if stat.S_ISDIR(mode):
        return "is a folder"
    if stat.S_ISFIFO(mode) and descriptor == 1:
        return "is a pipe whose reader ended"
    if stat.S_ISREG(mode) and descriptor == 1:
        return "is a file that could not grow: the disk is full, or a limit (ulimit -f) is reached"
    if stat.S_ISCHR(mode):
        return "is a device that refused, as /dev/full does"
    return "failed"


def explain_outside(words, report, script):
    what = report.split()[1]
    if what == "shelf":
        return explain_shelf(words, script)
    if what == "input":
        return ["standard input " + descriptor_trouble(0), "cure: give an input, as `< FILE` or `< /dev/null`"]
    if what == "output":
        return ["standard output " + descriptor_trouble(1)]
    return ["standard error " + descriptor_trouble(2)]


# ---- Faults ----

def region_of(address, data):
    """Where an address lies, as far as the file tells."""
    if address < 4096:
        return "near address 0: a null pointer"
    for s in executables.segments(data):
        if s.start <= address < s.start + s.size:
            kept = "written, or executed," if s.flags & 3 == 0 else "executed" if s.flags & 2 else "written"
            return f"in the segment at {s.start:08x}, which may not be {kept} or the access passes its end"
    if 0xBFE00000 <= address < 0xBFF00000:
        return "below the stack of 1 MiB: a recursion without end, or large local arrays"
    if 0xBFF00000 <= address < 0xC0000000:
        return "in the stack, which may not be executed, or the access passes its end"
    return "in no segment of the file, not in the stack: past an array or the heap, or a pointer that was never set"


def instruction_at(address, data):
    """The instruction that stands at an address in the executable, with the name of its function."""
    for s in executables.segments(data):
        at = address - s.start
        if s.flags & 1 and 0 <= at < len(s.data):
            found = next(executables.linear(address, s.data[at:at + 16]), None)
            if found:
                return f"{found.spelling.hex()} {found.text}{executables.Symbols(data).at(address)}"
    return "no code"


def explain_fault(words, report):
    parts = report.split()
    kind, address = parts[1], int(parts[2], 16)
    data = executables.content(names_of(words, "guest", "original")[0])
    if data is None or not executables.is_elf(data):
        return []
    if kind == "access":
        return [f"an access at {address:08x}, {region_of(address, data)}", "`br --where` with the same words says which instruction it was"]
    stands = instruction_at(address, data)
    if kind == "divide":
        return [f"a division by 0, or with a quotient over 32 bits, at {address:08x}: {stands}"]
    return [f"no instruction of the subset at {address:08x}: {stands}", "`fits` lists what is outside, and docs/USING.md what to write instead"]


# ---- All of it ----

def undefined(words, report):
    """Of a file that BinRec wrote no word: its recovered code keeps flags that are undefined, and uses none."""
    found = re.search(r" undefined ([1-9]\d*)", report)
    name = (names_of(words, "guest", "original") or [""])[0]
    if not found or executables.is_recompiled(executables.content(name) or b""):
        return []
    return [f"{found[1]} steps read a flag that an instruction left undefined: the run is not well defined, and nothing is promised for it"]


def explain(words, status, report, script=None):
    """The lines that explain a status and its report line; of a session, with its script where that is at hand."""
    if words[:1] != ["session"] or len(words) != 2:
        return explain_report(words, status, report, script)
    before = line_that_ended(script, report) if status else []
    return [*before, *explain_report(words, status, report, script), *carriage_returns(script)]


def explain_report(words, status, report, script):
    if status == 0:
        return undefined(words, report)
    explainers = [
        (r"usage \d+", lambda: explain_usage(words, report)),
        (r"refused word \d+ \d+ \d+", lambda: explain_refusal(words, report)),
        (r"refused line \d+ \d+ \d+", lambda: explain_line(script, report)),
        (r"outside (shelf|input|output|report)", lambda: explain_outside(words, report, script)),
        (r"memory", lambda: ["no memory: the process may have too little (ulimit -v), or the machine has"]),
        (r"fault [a-z]+ [0-9a-f]{8}( .*)?", lambda: explain_fault(words, report) + undefined(words, report)),
        (r"budget .*", lambda: ["the steps were used up: give more by --steps K (100000000 without it)"] + undefined(words, report)),
        (r"limit [a-z]+ \d+", lambda: [LIMITS.get(report.split()[1], "a limit is passed")]),
    ]
    for pattern, lines in explainers:
        if re.fullmatch(pattern, report):
            return lines()
    return []


def verdict(program, name):
    """Asks the program whether a file is an original: the lines that say why it is refused, none where it is accepted."""
    trouble = executables.file_trouble(name)
    if trouble:
        return [trouble]
    done = subprocess.run([program, "show", name], stdin=subprocess.DEVNULL, capture_output=True, text=True)
    report = done.stderr.strip().split("\n")[-1]
    if done.returncode == 0:
        return []
    return explain(["show", name], done.returncode, report) or [f"the program ended with {done.returncode}: {report}"]
