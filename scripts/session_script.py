"""The script of a session, which br takes whole before the program starts, and hands on line by line."""
import itertools, os, threading

# No script that makes sense is longer. The program itself takes at most 1048576 lines of 4200 bytes.
MOST = 1 << 28
# What one read of the program takes at most.
PIECE = 4096


class NotTaken(Exception):
    """Standard input was not taken whole, and why."""


class Script:
    """A whole script, and how much of it the program has taken, once it has ended."""

    def __init__(self, data):
        self.data = data
        self.lines = data.split(b"\n")
        if not self.lines[-1]:
            self.lines.pop()
        self.taken = 0

    def reached(self):
        """How many lines the program has come to: it takes one when it has none."""
        starts = itertools.accumulate((len(line) + 1 for line in self.lines), initial=0)
        return min(len(self.lines), sum(1 for start in starts if start < self.taken))


def take_script():
    """The script on standard input."""
    pieces, length = [], 0
    try:
        while piece := os.read(0, 1 << 20):
            pieces.append(piece)
            length += len(piece)
            if length > MOST:
                raise NotTaken(f"it has more than {MOST} bytes")
        return Script(b"".join(pieces))
    except OSError as e:
        raise NotTaken(e.strerror) from e
    except MemoryError as e:
        raise NotTaken("there is no memory for it") from e


def packets(data):
    """The bytes in pieces that end with a line, and are no longer than one read takes."""
    start = 0
    while start < len(data):
        end = data.find(b"\n", start) + 1 or len(data)
        for at in range(start, end, PIECE):
            yield data[at:min(end, at + PIECE)]
        start = end


class Feed:
    """A pipe that gives a script packet by packet, so that each read takes one line. What is left in it when the program has ended
    was not taken."""

    def __init__(self, script, pipe):
        self.script = script
        self.reader, self.writer = pipe
        self.thread = threading.Thread(target=self.write)

    def write(self):
        for packet in packets(self.script.data):
            os.write(self.writer, packet)
        os.close(self.writer)

    def start(self):
        self.thread.start()

    def end(self):
        """After the program has ended: notes how much it has taken."""
        left = 0
        while piece := os.read(self.reader, PIECE):
            left += len(piece)
        self.thread.join()
        os.close(self.reader)
        self.script.taken = len(self.script.data) - left
