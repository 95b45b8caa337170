"""Where a run faulted, by gdb: the same steps on the processor, up to the one that faulted."""
import os, re, shlex, shutil, subprocess, tempfile

import causes
import executables

# gdb takes some ten thousand single steps a second; beyond this many the processor runs to its own signal.
SINGLE_STEPS = 300000


def steps_of(report):
    return int(re.search(r" steps (\d+)", report)[1])


def guest_words(words):
    """The executable of `run`, and the words of its guest."""
    at = min(k for k, role in causes.positions(words).items() if role == "guest")
    return words[at], words[at + 1:]


def commands(given, kept, steps):
    """What gdb does: to the state before the last step, and there the instruction and the registers."""
    line = " ".join(shlex.quote(w) for w in given)
    to_there = [f"stepi {steps - 1}"] if 1 < steps <= SINGLE_STEPS else ["continue"] if steps > 1 else []
    return ["set confirm off", "set pagination off", f"starti {line} < {shlex.quote(kept)} > /dev/null 2>&1", *to_there,
            'printf "FAULTED %08x\\n", $eip', "x/i $eip", "info registers eax ecx edx ebx esp ebp esi edi"]


def gdb(executable, given, kept, steps):
    """The lines from the fault on, none where the processor did not come there."""
    words = ["gdb", "-q", "-batch", "-nx"]
    for command in commands(given, kept, steps):
        words += ["-ex", command]
    done = subprocess.run([*words, executable], stdin=subprocess.DEVNULL, capture_output=True, text=True)
    lines = done.stdout.splitlines()
    at = next((k for k, line in enumerate(lines) if line.startswith("FAULTED")), len(lines))
    return lines[at:]


def where(words, report, kept):
    """Lines that say which instruction faulted, over the input that was kept, or over none."""
    if not shutil.which("gdb"):
        return ["no gdb, which would say which instruction faulted"]
    name, given = guest_words(words)
    data = executables.read(name)
    with tempfile.TemporaryDirectory() as folder:
        copied, held = os.path.join(folder, "guest"), os.path.join(folder, "input")
        shutil.copyfile(name, copied)
        os.chmod(copied, 0o700)
        with open(held, "wb") as f:
            if kept is not None:
                kept.seek(0)
                shutil.copyfileobj(kept, f)
        lines = gdb(copied, given, held, steps_of(report))
    if not lines:
        return ["gdb did not come to the fault: the processor may not run 32-bit executables, or goes another way"]
    address = int(lines[0].split()[1], 16)
    hint = [f"`br where {name} {address:08x} E T..` says which block of the original E this is"] if executables.is_recompiled(data) else []
    return [f"step {steps_of(report)} at {address:08x}: {causes.instruction_at(address, data)}", *hint, *lines[2:]]
