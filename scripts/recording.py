"""`br record`: runs an executable for real, under qemu-i386, and stores the trace of what it did.

usage: br [--force] record [--merge | --replace] T E WORD.. [< INPUT]

E is run with the WORDs, the streams, the environment and the files of whoever calls, and may make any system call and run any instruction.
What is stored as T are its transfers by the instruction subset, as `trace` stores them: where `run` comes to an end, the same bytes. N that is
built with T recovers what is inside the subset, and stays in the original for the rest.

--merge    joins to the trace of E that stands under T, where there is one
--replace  replaces a trace of E

Standard error ends with `recorded P exit S` or `recorded P signal NAME`: the pairs that T has, and how E ended. Status: 0 T is stored, however E
ended, also where it was interrupted; 1 a word is wrong; 2 E is refused, or may not be executed; 3 a file failed; 7 the run has more than 2000000
pairs, or what T would hold has, and T is as it was; 8 T would be lost; 9 there is no qemu-i386, or it logs nothing; 10 E wrote into the log of its run, or closed
it, so no trace was stored; 127 there is no program.
"""
import fcntl, os, resource, select, shutil, signal, struct, subprocess, sys

import causes
import executables
import output
from execution_log import Edges
from transfers import Code

USAGE, REFUSED, FILE, LIMIT, LOST, NO_QEMU, DISTURBED, NO_PROGRAM = 1, 2, 3, 7, 8, 9, 10, 127
MOST = 2000000
LOG_DESCRIPTOR = 200
SIGNALS = (signal.SIGINT, signal.SIGTERM, signal.SIGHUP)
PIPE_ROOM = 1 << 20


class Trouble(Exception):
    """Why nothing is recorded: a status and lines."""

    def __init__(self, status, *lines):
        super().__init__(status)
        self.status, self.lines = status, lines


def say(text):
    output.say("br", text)


# ---- Before the run ----

def emulator():
    """qemu-i386, with the option by which it makes one instruction a block."""
    found = shutil.which("qemu-i386") or shutil.which("qemu-i386-static")
    if not found:
        raise Trouble(NO_QEMU, "no qemu-i386: install it (Debian's package qemu-user)", "without it `br trace` runs E in the machine of the program, as far as that goes")
    told = subprocess.run([found, "-h"], stdin=subprocess.DEVNULL, capture_output=True, text=True).stdout
    return [found, "-one-insn-per-tb" if "-one-insn-per-tb" in told else "-singlestep"]


def asked(program, *words):
    """The program with words that store nothing; its trouble where it does not accept them."""
    done = subprocess.run([program, *words], stdin=subprocess.DEVNULL, stdout=subprocess.DEVNULL, stderr=subprocess.PIPE, text=True)
    if done.returncode:
        report = done.stderr.strip().split("\n")[-1]
        why = causes.explain(list(words), done.returncode, report) if done.returncode > 0 else []
        raise Trouble(done.returncode if done.returncode > 0 else FILE, *(why or [f"the program ended with {done.returncode}: {report}"]))


def original(program, name):
    """The bytes of an executable that can be recorded."""
    trouble = executables.file_trouble(name)
    if trouble:
        raise Trouble(FILE, trouble)
    asked(program, "show", name)
    if not os.access(name, os.X_OK):
        raise Trouble(REFUSED, f"{name} may not be executed (chmod +x {name})")
    return executables.read(name)


def guard(program, chosen, target, name, data):
    """Refuses to lose what stands under the name of the trace. Answers whether the run is joined to it."""
    if os.path.isdir(target):
        raise Trouble(FILE, f"{target} is a folder")
    if os.path.exists(target) and os.path.samefile(target, name):
        raise Trouble(LOST, f"{target} is the executable itself; nothing was done")
    held = executables.read(target) if os.path.isfile(target) else b""
    if not held or chosen == "--force":
        return False
    advice = "; nothing was done (--force does it)"
    if not executables.is_trace(held):
        raise Trouble(LOST, f"{target} is no trace, and would be replaced" + advice)
    if held[8:40] != executables.digest(data):
        raise Trouble(LOST, f"{target} is a trace of another executable, and would be replaced" + advice)
    if not chosen:
        raise Trouble(LOST, f"{target} is a trace of {name}, and would be replaced; nothing was done", "--merge joins the run to it, --replace replaces it, or name another")
    if chosen == "--merge":
        asked(program, "show", name, target)
    return chosen == "--merge"


class Store:
    """A file that takes the place of another when it is whole. It is made before the run, so that a name under which nothing can be
    stored is told before E has done anything."""

    def __init__(self, target):
        self.target = os.path.realpath(target)
        self.part, self.file = None, None
        try:
            if os.path.exists(self.target) and not os.path.isfile(self.target):
                self.file = open(self.target, "wb")
                return
            self.part = f"{self.target}.part-{os.getpid()}"
            self.file = open(self.part, "xb")
        except OSError as e:
            raise Trouble(FILE, f"{target} cannot be stored: {e.strerror}") from e

    def write(self, data):
        try:
            with self.file:
                self.file.write(data)
                self.file.flush()
                if self.part:
                    os.fsync(self.file.fileno())
        except OSError as e:
            raise Trouble(FILE, f"{self.target} cannot be stored: {e.strerror}") from e

    def keep(self):
        """Gives what was written the name."""
        if not self.part:
            return
        try:
            if os.path.exists(self.target):
                shutil.copymode(self.target, self.part)
            os.replace(self.part, self.target)
        except OSError as e:
            raise Trouble(FILE, f"{self.target} cannot be stored: {e.strerror}") from e
        self.part = None

    def drop(self):
        self.file.close()
        if self.part:
            os.unlink(self.part)


# ---- The run ----

def first_free(taken):
    """The least descriptor that none of these is."""
    return next(d for d in range(len(taken) + 1) if d not in taken)


def inherited():
    """The descriptors that a program started by this one has."""
    found = set()
    for name in os.listdir("/proc/self/fd"):
        try:
            if os.get_inheritable(int(name)):
                found.add(int(name))
        except OSError:
            pass
    return found


def log_pipe():
    """The two ends of the log's pipe; the end to be written is inherited, under a number that programs do not use."""
    reader, low = os.pipe()
    try:
        fcntl.fcntl(low, fcntl.F_SETPIPE_SZ, PIPE_ROOM)
    except (OSError, AttributeError):
        pass
    writer = fcntl.fcntl(low, fcntl.F_DUPFD, LOG_DESCRIPTOR)
    os.close(low)
    return reader, writer


def descriptors_of(process, writer):
    """The descriptors of a process that are the log's, as far as it still tells."""
    found, log = set(), None
    try:
        log = os.readlink(f"/proc/{process}/fd/{writer}")
        for name in os.listdir(f"/proc/{process}/fd"):
            if os.readlink(f"/proc/{process}/fd/{name}") == log:
                found.add(int(name))
    except OSError:
        pass
    return found


def before_start(mask):
    signal.pthread_sigmask(signal.SIG_SETMASK, mask)
    _, most = resource.getrlimit(resource.RLIMIT_CORE)
    resource.setrlimit(resource.RLIMIT_CORE, (0, most))


def passed_on(child):
    """Hands on a signal that somebody sent to this process; one of the terminal has come to E too. Answers whether E has ended already, so
    that only what E left behind is waited for."""
    came = signal.sigtimedwait(SIGNALS, 0)
    if came is None:
        return False
    if child.poll() is not None:
        return True
    if came.si_code <= 0:
        child.send_signal(came.si_signo)
    return False


def follow(child, reader, writer, edges):
    """Takes the log to its end."""
    looked = False
    while True:
        ready, _, _ = select.select([reader], [], [], 0.2)
        if passed_on(child):
            return
        if not ready:
            continue
        if not looked:
            looked = True
            edges.descriptors |= descriptors_of(child.pid, writer)
        piece = os.read(reader, PIPE_ROOM)
        if not piece:
            return
        edges.take(piece)


def run(qemu, name, words, edges):
    """Runs the executable and takes the log. Answers how it ended."""
    path = "./" + name if name.startswith("-") else name
    reader, writer = log_pipe()
    # qemu opens the log once more, under the first descriptor that is free.
    edges.descriptors = {writer, first_free(inherited())}
    mask = signal.pthread_sigmask(signal.SIG_BLOCK, SIGNALS)
    try:
        child = subprocess.Popen([*qemu, "-d", "exec,nochain,strace", "-D", f"/dev/fd/{writer}", path, *words], close_fds=False,
                                 preexec_fn=lambda: before_start(mask))
    except OSError as e:
        raise Trouble(NO_QEMU, f"{qemu[0]} cannot be started: {e.strerror}") from e
    os.close(writer)
    follow(child, reader, writer, edges)
    edges.end()
    status = child.wait()
    os.close(reader)
    return status


# ---- After the run ----

def trace_of(data, pairs):
    records = b"".join(struct.pack("<II", *pair) for pair in sorted(pairs))
    return b"BRTRACE1" + executables.digest(data) + struct.pack("<I", len(pairs)) + records


def judge(edges, status):
    """Refuses a run that gave no trace."""
    if edges.disturbed:
        raise Trouble(DISTURBED, f"E used a descriptor of the log of its run ({edges.disturbed}), so the log is not whole; no trace was stored",
                      "the log stands at the first descriptor that is free when E begins: such a program cannot be recorded")
    if not edges.begun:
        raise Trouble(NO_QEMU, f"qemu-i386 ended with {status} and logged nothing; no trace was stored")
    if len(edges.pairs) > MOST:
        raise Trouble(LIMIT, f"the run has more than {MOST} pairs, which a trace may not have; no trace was stored", "record shorter runs")


def join(program, target, name, part):
    """The trace with the recorded pairs too; how many it has."""
    words = ["merge", target, name, target, part]
    done = subprocess.run([program, *words], stdin=subprocess.DEVNULL, stderr=subprocess.PIPE, text=True)
    report = done.stderr.strip().split("\n")[-1]
    if done.returncode:
        why = causes.explain(words, done.returncode, report) if done.returncode > 0 else []
        raise Trouble(done.returncode if done.returncode > 0 else FILE, *(why or [report]), f"the pairs of this run alone are in {part}")
    return int(report.split()[1])


def ending(status):
    """How E ended. qemu ends by the signal that ended E."""
    if status >= 0:
        return f"exit {status}"
    try:
        return f"signal {signal.Signals(-status).name}"
    except ValueError:
        return f"signal {-status}"


def recorded(program, qemu, words, data, target, joined):
    """Runs E and stores its trace; the line of the report."""
    edges, store = Edges(Code(data), MOST), Store(target)
    try:
        status = run(qemu, words[0], words[1:], edges)
        for warning in edges.warnings():
            say(f"{words[0]}: {warning}")
        judge(edges, status)
        store.write(trace_of(data, edges.pairs))
        count = len(edges.pairs)
        if joined:
            part, store.part = store.part, None
            count = join(program, target, words[0], part)
            store.part = part
            store.drop()
        else:
            store.keep()
    except BaseException:
        store.drop()
        raise
    return f"recorded {count} {ending(status)}"


def record(words, chosen):
    """Records a run; the line of the report."""
    if len(words) < 2 or not all(words[:2]):
        raise Trouble(USAGE, "record takes a trace to write and an executable", "usage: record [--merge | --replace] T E WORD..")
    program = executables.program()
    if not program:
        raise Trouble(NO_PROGRAM, "no program: build it (README.md), or set BINREC to it")
    target, name = words[:2]
    data = original(program, name)
    joined = guard(program, chosen, target, name, data)
    return recorded(program, emulator(), words[1:], data, target, joined)


def report(line):
    """Prints the report; the status."""
    try:
        sys.stderr.write(line + "\n")
        sys.stderr.flush()
    except (OSError, AttributeError):
        return FILE
    return 0


def main(words, given=()):
    """The command behind the word `record`, with the options that stand before it."""
    if words[:1] in (["--help"], ["-h"]):
        print(__doc__.strip())
        return 0
    chosen = next((option for option in ("--force", "--replace") if option in given), "")
    while words and words[0] in ("--merge", "--replace"):
        chosen = words.pop(0)
    try:
        return report(record(words, chosen))
    except Trouble as trouble:
        for text in trouble.lines:
            say(text)
        return trouble.status
    except KeyboardInterrupt:
        return 128 + signal.SIGINT
