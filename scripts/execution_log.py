"""The edges of a run from the log that qemu-i386 writes of it, `-d exec,nochain,strace` with one instruction a block.

A line `Trace C: HOST [BASE/ADDRESS/..` says that the processor C, one for each thread, begins the instruction at ADDRESS. So two addresses
of one processor that follow each other are a site and where it went on. Between them stand the system calls, `PID NAME(..) = ..`, and the
signals, `--- SIGNAL {..} ---`: behind a signal the next address may be that of a handler, so it is no pair with the one before.
"""
import re

ADDRESSES = re.compile(rb"^Trace 0: 0x[0-9a-f]+ \[[0-9a-f]+/([0-9a-f]+)/", re.M)
OTHER = re.compile(rb"^(?!Trace 0: ).*\n?", re.M)
THREAD = re.compile(rb"Trace ([0-9]+): 0x[0-9a-f]+ \[[0-9a-f]+/([0-9a-f]+)/")
CALL = re.compile(rb"[0-9]+ ([a-z_0-9]+)\(([0-9]*)(?:,([0-9A-Z_]*))?")
FETCH = re.compile(rb"--- SIGSEGV \{.*si_addr=(NULL|0x[0-9a-f]+)")

HANDLERS = {b"sigaction", b"rt_sigaction", b"signal"}
THREADS = {b"vfork", b"clone", b"clone3"}
PROCESSES = b"fork"
WRITES = {b"write", b"writev", b"pwrite64", b"pwritev", b"pwritev2", b"sendfile", b"sendfile64", b"close"}
REMEMBERED = 4000000


class Edges:
    """The pairs of a run, as its log comes. `code` is that of the executable; more than `most` pairs are not kept, and counted as `most` + 1."""

    def __init__(self, code, most):
        self.code, self.most = code, most
        self.pairs, self.seen, self.last = set(), set(), {}
        self.rest, self.begun, self.calls, self.threads = b"", False, set(), False
        # The descriptors by which the log is written, and the call by which the program that ran used one of them.
        self.descriptors, self.disturbed = set(), None

    def take(self, piece):
        """The next bytes of the log."""
        whole, found, rest = (self.rest + piece).rpartition(b"\n")
        self.rest = rest
        self.take_lines(whole + found)

    def end(self):
        """The log has ended: its last line may be one without an end."""
        self.take_lines(self.rest)
        self.rest = b""

    def take_lines(self, lines):
        at = 0
        for other in OTHER.finditer(lines):
            self.follow(b"0", ADDRESSES.findall(lines, at, other.start()))
            if other.group():
                self.take_other(other.group())
            at = other.end()
        self.follow(b"0", ADDRESSES.findall(lines, at))

    def follow(self, processor, addresses):
        """The addresses at which one processor went on."""
        if not addresses:
            return
        before = self.last.get(processor)
        found = set(zip(addresses, addresses[1:]))
        if before is not None:
            found.add((before, addresses[0]))
        for site, target in found - self.seen:
            self.step(int(site, 16), int(target, 16))
        if len(self.seen) > REMEMBERED:
            self.seen.clear()
        self.seen |= found
        self.last[processor] = addresses[-1]
        if not self.begun:
            self.begun = True
            self.keep(0, int(addresses[0], 16))

    def step(self, site, target):
        """A step from an address to another: an edge where a transfer stands there, and a direct one goes there."""
        targets = self.code.transfer_at(site)
        if targets is not None and (not targets or target in targets):
            self.keep(site, target)

    def keep(self, site, target):
        if len(self.pairs) <= self.most:
            self.pairs.add((site, target))

    def take_other(self, line):
        """A line that is no address of the first thread."""
        if line.startswith(b"--- "):
            self.take_signal(line)
        elif line.startswith(b"Stopped execution"):
            # The instruction that was begun last is not done, and is begun once more.
            self.last.clear()
        else:
            self.take_call(line)
            # Threads write at the same time, so an address may stand behind the call of another.
            for processor, address in THREAD.findall(line):
                self.threads = self.threads or processor != b"0"
                self.follow(processor, [address])

    def take_signal(self, line):
        """Where one thread went to an address outside the code, the signal tells it; else nothing tells how the last step ended."""
        found = FETCH.match(line)
        if found and len(self.last) == 1:
            address = 0 if found[1] == b"NULL" else int(found[1], 16)
            if not self.code.has(address):
                for site in self.last.values():
                    self.step(int(site, 16), address)
        self.last.clear()

    def take_call(self, line):
        found = CALL.match(line)
        if not found:
            return
        name, first, second = found.groups()
        self.calls.add(PROCESSES if name == b"clone" and b"CLONE_VM" not in line else name)
        used = {b"dup2": second, b"dup3": second}.get(name, first if name in WRITES else b"")
        if name == b"fcntl" and second == b"F_SETFL":
            used = first
        if used and used.isdigit() and int(used) in self.descriptors:
            self.disturbed = self.disturbed or name.decode()
        if name == b"close_range" and first and any(int(first) <= d for d in self.descriptors):
            self.disturbed = self.disturbed or name.decode()

    def warnings(self):
        """What of the run N may not do as it did, in words."""
        handlers = sorted(n.decode() for n in self.calls & HANDLERS)
        if handlers:
            yield f"it asks for handlers of signals ({', '.join(handlers)}): N may go wrong where one comes in recovered code"
        if self.threads or self.calls & THREADS:
            yield "it makes threads, or processes in the same memory: N may go wrong in them, since recovered code keeps its state in one place"
        if PROCESSES in self.calls:
            yield "it makes processes, whose steps stand in one log: some pairs may be of steps that none took, which changes nothing that N shows"
