"""What a command of BinRec would lose under the names that it stores, so that br can refuse before anything is done."""
import collections, os, sys

import causes
import executables


def same_file(one, other):
    try:
        return os.path.samefile(one, other)
    except (OSError, ValueError):
        return False


# Why a file would be lost, what else can be done, and the option that replaces it all the same.
Loss = collections.namedtuple("Loss", "why advice option")


def other(why):
    """The loss of a file that BinRec cannot make again."""
    return Loss(why, None, "--force")


def ours(why, advice):
    """The loss of a file that BinRec wrote."""
    return Loss(why, advice, "--replace")


def trace_loss(name, held, words):
    """What would be lost where a trace is stored under a name, or None."""
    if not executables.is_trace(held):
        return other("is no trace")
    original = executables.content(causes.names_of(words, "original")[0])
    if original is not None and held[8:40] != executables.digest(original):
        return ours("is a trace of another executable", "name another file")
    if words[0] == "trace":
        return ours("is a trace of this executable already", "store under another name, and join the two with `br merge`")
    if not any(same_file(name, t) for t in causes.names_of(words, "trace")):
        return ours("is a trace whose pairs would not be kept", "name it again behind the executable")
    return None


def written_loss(held, words):
    """What would be lost where `build` or `emit` stores a file, or None."""
    if not executables.is_recompiled(held):
        return other("is no file that BinRec wrote")
    original = executables.content(causes.names_of(words, "original")[0])
    if original is None or executables.is_written_from(held, original):
        return None
    return ours("was written from another executable", "name another file")


def assembled_loss(held):
    """What would be lost where `asm` stores a file, or None."""
    return None if executables.is_assembled(held) else other("is no file as `asm` writes one")


def name_loss(name, words):
    """What would be lost under a name that is stored, or None."""
    held = executables.content(name)
    if held is None and os.path.isfile(name) and os.path.getsize(name):
        return other("may not be read, so nobody knows what it is")
    if not held:
        return None
    if words[0] == "asm":
        return other("is the source itself") if same_file(name, causes.names_of(words, "source")[0]) else assembled_loss(held)
    if same_file(name, causes.names_of(words, "original")[0]):
        return other("is the executable itself")
    return written_loss(held, words) if words[0] in ("build", "session") else trace_loss(name, held, words)


def losses(words, script):
    """Each name that is stored and would lose something, as it is shown, with its loss. Names of a script may have any character."""
    if not causes.names_of(words, "original", "source"):
        return
    stored = [(name, name) for name in causes.names_of(words, "stored")]
    stored += [(name, repr(name)) for name in dict.fromkeys(causes.names_in(script, "emit"))]
    for name, shown in stored:
        lost = name_loss(name, words)
        if lost:
            yield shown, lost


def agreed(question):
    """Asks where there is someone to ask."""
    if not (sys.stdin and sys.stdin.isatty() and sys.stderr and sys.stderr.isatty()):
        return False
    sys.stderr.write(f"br: {question} [y/N] ")
    sys.stderr.flush()
    return sys.stdin.readline().strip().lower() in ("y", "yes")


def refusal(words, script, allowed):
    """The lines that say why br does not run the command, none where it does. `allowed` has the options that were given."""
    if "--force" in allowed:
        return []
    for shown, lost in losses(words, script):
        if lost.option not in allowed:
            cure = [f"cure: {lost.advice}"] if lost.advice else []
            return [f"{shown} {lost.why}, and would be replaced; nothing was done ({lost.option} does it)", *cure]
    if words[0] == "merge" and len(words) == 3 and not agreed("merge of no traces stores an empty trace; go on?"):
        return ["merge of no traces would store an empty trace; nothing was done (--force does it)"]
    return []
