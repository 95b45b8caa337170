"""How a script of this folder speaks and ends: a line for its user, and a status of its own where its output cannot be written."""
import os, signal, sys


class OutputFailed(Exception):
    """Standard output did not take what was written. It is no OSError, which a caller might take for that of another file."""


def say(script, text):
    """A line on standard error, as far as it goes there."""
    try:
        sys.stderr.write(f"{script}: {text}\n")
        sys.stderr.flush()
    except (OSError, AttributeError, ValueError):
        pass


class CheckedOutput:
    """A stream whose failures are OutputFailed."""

    def __init__(self, stream):
        self.stream = stream

    def write(self, text):
        try:
            return self.stream.write(text)
        except OSError as e:
            raise OutputFailed(e) from e

    def flush(self):
        try:
            self.stream.flush()
        except OSError as e:
            raise OutputFailed(e) from e

    @property
    def buffer(self):
        return CheckedOutput(self.stream.buffer)

    def __getattr__(self, name):
        return getattr(self.stream, name)


def mended(stream):
    """The stream, which writes what the locale cannot spell by its number."""
    if stream is not None:
        stream.reconfigure(errors="backslashreplace")
    return stream


def quiet_output():
    """Nothing more is written to standard output, also by Python at its end."""
    os.dup2(os.open(os.devnull, os.O_WRONLY), 1)


def status_of(main):
    """What `main` answers, or the status with which it ends the script, once all of its output is written."""
    try:
        status = main()
    except SystemExit as e:
        status = e.code
    if sys.stdout is not None:
        sys.stdout.flush()
    return status


def run(script, failed, main, needed=True):
    """The status of `main`; where standard output fails, a line that says so and the status `failed`, or 141 in silence where its
    reader has ended, as for any program in front of `head`. Without `needed`, a closed output is no failure by itself."""
    signal.signal(signal.SIGINT, signal.SIG_DFL if signal.getsignal(signal.SIGINT) == signal.default_int_handler else signal.SIG_IGN)
    mended(sys.stderr)
    if sys.stdout is None and needed:
        say(script, "standard output is closed")
        return failed
    sys.stdout = sys.stdout and CheckedOutput(mended(sys.stdout))
    try:
        return status_of(main)
    except OutputFailed as e:
        quiet_output()
        cause = e.args[0]
        if isinstance(cause, BrokenPipeError):
            return 141
        say(script, f"standard output cannot be written: {cause.strerror or cause}")
        return failed
