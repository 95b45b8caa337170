"""The program as a child of br: its streams, the signals that are passed on to it, and its end, also where br itself is killed."""
import ctypes, os, re, signal, subprocess

import causes
from session_script import Feed

PASSED = (signal.SIGTERM, signal.SIGHUP, signal.SIGINT)
PR_SET_PDEATHSIG = 1
LIBC = ctypes.CDLL(None, use_errno=True)


class NotStarted(Exception):
    """The program could not be started, and why."""


# ---- Descriptors ----

def above_streams(make):
    """Descriptors that `make` makes, none of which is a standard stream, also where one of these is closed."""
    low = []
    while not low or low[-1] <= 2:
        low.append(os.open(os.devnull, os.O_RDONLY))
    try:
        return make()
    finally:
        for descriptor in low:
            os.close(descriptor)


def is_open(descriptor):
    try:
        os.fstat(descriptor)
        return True
    except OSError:
        return False


def forward(reader):
    """Passes standard error on as it comes. Answers its end, and whether all of it could be written."""
    tail, whole = b"", True
    while True:
        piece = os.read(reader, 65536)
        if not piece:
            return tail, whole
        tail = (tail + piece)[-4096:]
        while piece and whole:
            try:
                piece = piece[os.write(2, piece):]
            except OSError:
                whole = False


# ---- Signals ----

class PassedOn:
    """While it is entered, signals that would end br go to the child, and br waits for what comes of them. One that br ignores, the child
    ignores too."""

    def __init__(self):
        self.child = None
        self.early = []
        self.before = {}

    def __enter__(self):
        for number in PASSED:
            if signal.getsignal(number) != signal.SIG_IGN:
                self.before[number] = signal.signal(number, self.take)
        return self

    def take(self, number, _frame):
        if self.child is None:
            self.early.append(number)
        else:
            self.child.send_signal(number)

    def started(self, child):
        self.child = child
        for number in self.early:
            child.send_signal(number)

    def __exit__(self, *_):
        for number, handler in self.before.items():
            signal.signal(number, handler)


def end_with(parent):
    """In the child: the system kills it when its parent ends. A parent that has ended before that was asked is no longer the parent."""
    if LIBC.prctl(PR_SET_PDEATHSIG, signal.SIGKILL, 0, 0, 0) != 0 or os.getppid() != parent:
        os._exit(127)


# ---- The run ----

def start(program, words, source, errors):
    """The program with the words. It has all descriptors that the caller gave, so that a word may name one. Where a file may not grow, it
    says `outside shelf` and leaves no part behind, since it does not hear the signal."""
    parent = os.getpid()
    try:
        return subprocess.Popen([program, *words], stdin=source, stderr=errors, close_fds=False, restore_signals=False,
                                preexec_fn=lambda: end_with(parent))
    except (OSError, subprocess.SubprocessError) as e:
        raise NotStarted(getattr(e, "strerror", None) or str(e)) from e


def watched(program, words, source):
    """As `start`, until it has ended; its status and the end of its standard error. Where that is closed, the program finds it closed."""
    reader, writer = above_streams(os.pipe) if is_open(2) else (None, None)
    with PassedOn() as signals:
        try:
            child = start(program, words, source, writer)
        finally:
            if writer is not None:
                os.close(writer)
        signals.started(child)
        if isinstance(source, Fed):
            source.feed.start()
        tail, whole = forward(reader) if reader is not None else (b"", True)
        status = child.wait()
    return status if whole else 3, tail


class Fed:
    """The reading end of a feed."""

    def __init__(self, feed):
        self.feed = feed

    def fileno(self):
        return self.feed.reader


def run(program, words, source=None, script=None):
    """The program with the words and an input, its own, a file, or a script; its status and its report line."""
    if script is None:
        status, tail = watched(program, words, source)
    else:
        feed = Feed(script, above_streams(lambda: os.pipe2(os.O_CLOEXEC | os.O_DIRECT)))
        status, tail = watched(program, words, Fed(feed))
        feed.end()
    return status, report_of(tail)


def report_of(tail):
    """The report, which stands at the very end: a guest's last byte before it may be no line feed."""
    found = re.search(rb"(" + causes.REPORT.encode() + rb")\n\Z", tail)
    return found[1].decode() if found else ""
