"""A front of the recompiler for daily use, which the script br starts.

usage: br [--replace] [--force] [--where] COMMAND WORD..      as the command of the program
       br record [--merge | --replace] T E WORD.. runs E for real and stores its trace (br record --help)
       br info FILE.. | br where N ADDRESS E T..  as the scripts of these names
       br --help | --version

Words and streams go to the program unchanged, and br ends with its status. Before that it refuses to replace a file that nobody can make
again: a name that is written must be free, empty, a trace that `merge` keeps, or a file that BinRec wrote from the same executable (build,
session). So it reads the script of a session to its end first, unless somebody types it. After that it says on standard error, behind the
program's report, what a status other than 0 means and what to do.

--replace  replaces what BinRec wrote: a trace, or a file from another executable.
--force    replaces whatever there is.
--where    after `fault` of run: the instruction that faulted, by gdb on the processor. The input is read to its end first.

TERM, HUP and INT go on to the program, and br waits for it; where br itself is killed, the program is killed too.

The program is $BINREC, or crates/binrec/out/binrec, or `binrec` of the PATH.
Statuses of br's own: 8 it refuses to replace a file, and nothing was done; 9 the input could not be taken whole, and the program was not
started, or br's own output failed; 127 there is no program, or it cannot be started; 128 and the number of the signal that ended it.
"""
import os, shutil, signal, subprocess, sys, tempfile

import causes
import child
import executables
import guard
import output
import session_script

REFUSED, FAILED, NO_PROGRAM = 8, 9, 127
# Scripts beside br, which it hands on to as if they were commands.
SCRIPTS = ("info", "where")


def say(text):
    output.say("br", text)


def explain(words, status, report, script=None):
    """Says what a status means; the status that br ends with."""
    if status < 0:
        say(f"the program was ended by {signal.Signals(-status).name}; a trace that was being made is lost, so choose --steps and get it in parts")
        status = 128 - status
        report = ""
    for line in causes.explain(words, status, report, script):
        say(line)
    return status


def take_file():
    """Standard input as a file without a name, read to its end."""
    try:
        kept = child.above_streams(tempfile.TemporaryFile)
        shutil.copyfileobj(os.fdopen(os.dup(0), "rb"), kept)
        kept.seek(0)
        return kept
    except OSError as e:
        raise session_script.NotTaken(e.strerror) from e


def run_where(program, words):
    """As `run`, with the place of a fault behind it."""
    import faults
    if not child.is_open(0):
        kept = source = None
    elif os.isatty(0):
        kept, source = None, subprocess.DEVNULL
    else:
        kept = source = take_file()
    status, report = child.run(program, words, source)
    status = explain(words, status, report)
    if status == 5:
        try:
            for line in faults.where(words, report, kept):
                say(line)
        except OSError as e:
            say(f"where it faulted is not known, since a file for gdb failed: {e.strerror}")
    return status


def version(program):
    try:
        commit = subprocess.run(["git", "-C", executables.TOP, "log", "-1", "--format=%h %cs"], capture_output=True, text=True).stdout.strip()
    except OSError:
        commit = ""
    data = executables.content(program)
    print(f"BinRec, sources of {commit or 'no known commit'}")
    print(f"program {program}, SHA-256 {executables.digest(data).hex() if data is not None else 'not known: it may not be read'}")


def options(words):
    """The options of br itself, which stand before the command."""
    chosen = set()
    while words and words[0] in ("--force", "--replace", "--where"):
        chosen.add(words.pop(0))
    return chosen


def take_input(word):
    """Standard input came as the descriptor with this number, or is closed."""
    if word == "-":
        os.close(0)
        return
    os.dup2(int(word), 0)
    os.close(int(word))


def main():
    words = sys.argv[2:]
    take_input(sys.argv[1])
    if words[:1] in (["--help"], ["-h"]):
        print(__doc__.strip(), *causes.USAGE.values(), sep="\n")
        return 0
    if words[:1] and words[0] in SCRIPTS:
        os.execv(os.path.join(os.path.dirname(os.path.abspath(__file__)), words[0]), words)
    chosen = options(words)
    if words[:1] == ["record"]:
        import recording
        return recording.main(words[1:], chosen)
    program = executables.program()
    if not program:
        say(executables.no_program())
        return NO_PROGRAM
    if words == ["--version"]:
        version(program)
        return 0
    return guarded(program, words, chosen)


def guarded(program, words, chosen):
    """Runs the command unless it would lose a file, and explains how it ended."""
    script = None
    try:
        if words[:1] == ["session"] and child.is_open(0) and not os.isatty(0):
            script = session_script.take_script()
        why = guard.refusal(words, script, chosen) if words else []
        for line in why:
            say(line)
        if why:
            return REFUSED
        if "--where" in chosen and words[:1] == ["run"]:
            return run_where(program, words)
        return explain(words, *child.run(program, words, script=script), script)
    except session_script.NotTaken as e:
        say(f"standard input cannot be taken whole: {e}; the program was not started")
        return FAILED
    except child.NotStarted as e:
        say(f"{program} cannot be started: {e}")
        return NO_PROGRAM


def is_own(words):
    """Whether the words ask for output of br's own."""
    asked = words[1:2] if words[:1] == ["record"] else words[:1]
    return asked in (["--help"], ["-h"], ["--version"])


if __name__ == "__main__":
    sys.exit(output.run("br", FAILED, main, needed=is_own(sys.argv[2:])))
