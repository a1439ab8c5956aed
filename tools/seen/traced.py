"""The lines of the trace of a stream, as docs/TRACE.md has them: of the program."""

import json
import subprocess
import tempfile

from . import program

AT_ONCE = 1 << 18     # bytes that are read
DECODER = json.JSONDecoder()


def who(chosen=program.PROGRAM):
    """Who tells the lines."""
    return f"{program.who(chosen)}, by press trace"


class Texts:
    """The lines as they stand, one after another, of pieces of bytes."""

    def __init__(self, pieces):
        self.pieces, self.held, self.place = pieces, b"", 0

    def __iter__(self):
        return self

    def __next__(self):
        while not (end := self.held.find(b"\n", self.place) + 1):
            if not self.read():
                end = len(self.held)
                break
        if end == self.place:
            raise StopIteration
        text, self.place = self.held[self.place:end], end
        return text

    def read(self):
        """Reads on; False at the end."""
        piece = next(self.pieces, b"")
        self.held, self.place = self.held[self.place:] + piece, 0
        return bool(piece)

    def stretch(self, pattern):
        """The lines that come next and that a pattern of lines matches, of those that are read; empty where it matches none."""
        if self.held.find(b"\n", self.place) < 0:
            self.read()
        found = pattern.match(self.held, self.place)
        if found is None:
            return b""
        self.place = found.end()
        return found[0]

    def back(self, size):
        """So many bytes that were given last come again."""
        self.place -= size

    def close(self):
        self.pieces.close()


def texts(stream, chosen=program.PROGRAM, runs=False):
    """The lines of a stream; steps that do no more than count in runs, where that is asked for."""
    return Texts(pieces(stream, chosen, runs))


def pieces(stream, chosen, runs):
    """What the program says of a stream, as it comes."""
    chosen = program.answering(chosen)
    with tempfile.TemporaryFile() as given, tempfile.TemporaryFile() as said:
        given.write(stream)
        given.seek(0)
        with subprocess.Popen([chosen, "trace", *["--runs"][:runs], "-"], stdin=given, stdout=subprocess.PIPE, stderr=said, pipesize=AT_ONCE) as running:
            while piece := running.stdout.read(AT_ONCE):     # as many bytes, however few the program writes at once: work is done for what is read together
                yield piece
        if running.returncode:
            said.seek(0)
            raise OSError(f"press trace: {said.read().decode(errors='replace').strip()}")


def told(text):
    """What a line tells."""
    return DECODER.decode(text.decode())


def lines(stream, chosen=program.PROGRAM):
    """What each line tells."""
    return map(told, texts(stream, chosen))
