"""The lines of a trace in a file without a name: they come behind those who read, from any place and as often as they like."""

import os
import subprocess
import tempfile
import threading

from . import program, traced

AT_ONCE = traced.AT_ONCE   # bytes that are read
PIPE = 1 << 20             # that the program writes before it waits
MOST_AHEAD = 1 << 28       # bytes that are written to the file before somebody asks for them


class Opened:
    """A trace that the program has begun to tell; steps that do no more than count stand in runs."""

    def __init__(self, whole, chosen=program.PROGRAM):
        self.whole, self.who = whole, traced.who(chosen)
        self.told, self.said = tempfile.TemporaryFile(), tempfile.TemporaryFile()
        with tempfile.TemporaryFile() as given:
            given.write(whole)
            given.seek(0)
            self.running = subprocess.Popen([program.answering(chosen), "trace", "--runs", "-"], stdin=given, stdout=subprocess.PIPE, stderr=self.said,
                                            pipesize=PIPE)
        self.size = self.wanted = 0          # bytes that stand in the file, and up to which somebody has read
        self.is_over, self.grown = False, threading.Condition()
        threading.Thread(target=self.write, daemon=True).start()

    def write(self):
        """Writes what the program tells to the file, and waits where that is far ahead."""
        given = self.running.stdout
        while data := given.read(AT_ONCE):      # as many bytes, however few the program writes at once: work is done for what is read together
            os.pwrite(self.told.fileno(), data, self.size)
            with self.grown:
                self.size += len(data)
                self.grown.notify_all()
                self.grown.wait_for(lambda: self.size - self.wanted < MOST_AHEAD)
        given.close()
        self.running.wait()
        with self.grown:
            self.is_over = True
            self.grown.notify_all()

    def lines(self, place=0):
        """The lines from this byte on, which begins one, as they stand."""
        return traced.Texts(self.pieces(place))

    def pieces(self, place):
        while data := self.read(place):
            place += len(data)
            yield data
        if self.running.returncode:
            self.said.seek(0)
            raise OSError(f"press trace: {self.said.read().decode(errors='replace').strip()}")

    def read(self, place):
        """Bytes from this place on, as soon as there are some; none at the end."""
        with self.grown:
            if place > self.wanted:
                self.wanted = place
                self.grown.notify_all()
            self.grown.wait_for(lambda: self.size > place or self.is_over)
            end = min(self.size, place + AT_ONCE)
        return os.pread(self.told.fileno(), end - place, place)

    def between(self, place, end):
        """The lines that stand there, which were read before."""
        return os.pread(self.told.fileno(), end - place, place).splitlines(keepends=True)

    def stop(self):
        """Ends the program, where nobody asks for what follows."""
        self.running.kill()
        with self.grown:
            self.wanted = self.size + MOST_AHEAD
            self.grown.notify_all()
