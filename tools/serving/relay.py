"""The bytes of a connection on their way into the press, and its replies to PJL on their way back."""

import os
import select
import subprocess
import time
from typing import NamedTuple

TICK = 0.1          # seconds from one look at the bounds to the next
PIECE = 65536       # bytes that are read at once, and about as many replies that wait for a client


class Refused(Exception):
    """Why a job is not taken."""


class Bounds(NamedTuple):
    """The most of a job."""
    bytes: int
    sides: int
    idle: float     # seconds


class Relay:
    """What came of a connection, and how it ended. `first` came already; `front` stands before it, and came from nobody."""

    def __init__(self, connection, child, last_side, bounds, first, front):
        self.connection, self.child, self.last_side, self.bounds = connection, child, last_side, bounds
        self.stream, self.replies = bytearray(), bytearray()
        self.given, self.back = front, b""      # what the press has not taken yet, and what the client has not
        self.ended, self.hears, self.is_open = None, True, True
        self.asked = self.offered = time.monotonic()     # since when the client's bytes are awaited, and its replies wait
        self.take(first)

    def run(self):
        """Until the press has ended and its replies are gone."""
        for each in (self.connection, self.child.stdin, self.child.stdout):
            os.set_blocking(each.fileno(), False)
        while self.is_open or self.back:
            readable, writable, _ = select.select(self.readers(), self.writers(), [], TICK)
            if self.child.stdout in readable:
                self.read_press()
            if self.child.stdin in writable:
                self.write_press()
            if self.connection in writable:
                self.write_client()
            if self.connection in readable:
                self.read_client()
            self.look()

    def readers(self):
        return [self.child.stdout] * (self.is_open and len(self.back) < PIECE) + [self.connection] * self.waits()

    def writers(self):
        return [self.child.stdin] * bool(self.given) + [self.connection] * bool(self.back)

    def waits(self):
        """Whether it is the client's turn."""
        return self.ended is None and not self.given

    def take(self, some):
        self.stream += some
        self.given += some
        if len(self.stream) > self.bounds.bytes:
            raise Refused(f"it sends more than {self.bounds.bytes:,} bytes")

    def read_client(self):
        try:
            some = self.connection.recv(PIECE)
        except BlockingIOError:
            return
        except OSError:
            self.end("cut off by the client")
            self.hush()
            return
        if some:
            self.take(some)
        else:
            self.end("by the client")

    def write_client(self):
        try:
            self.back = self.back[self.connection.send(self.back):]
            self.offered = time.monotonic()
        except BlockingIOError:
            return
        except OSError:
            self.hush()

    def read_press(self):
        some = os.read(self.child.stdout.fileno(), PIECE)
        self.is_open = bool(some)
        self.replies += some
        if self.hears and some:
            self.offered = self.offered if self.back else time.monotonic()
            self.back += some

    def write_press(self):
        try:
            self.given = self.given[os.write(self.child.stdin.fileno(), self.given[:PIECE]):]
        except BlockingIOError:
            return
        except OSError:
            self.given = b""
            self.end("by the press")
        self.asked = time.monotonic()

    def end(self, how):
        """No byte of the client is read any more; what it ended by first counts."""
        self.ended = self.ended or how

    def hush(self):
        """The client gets no reply any more; its job goes on."""
        self.hears, self.back = False, b""

    def look(self):
        """At the bounds, and whether all that came has gone in."""
        now = time.monotonic()
        if self.waits() and now - self.asked > self.bounds.idle:
            self.end(f"nothing came for {self.bounds.idle:g} seconds")
        if self.back and now - self.offered > self.bounds.idle:
            self.hush()
        if self.last_side.exists():
            raise Refused(f"it prints more than {self.bounds.sides:,} sides")
        if self.ended and not self.given and not self.child.stdin.closed:
            self.child.stdin.close()


def start(program, words, folder, errors):
    """The press as a child with pipes."""
    return subprocess.Popen([program, *words], stdin=subprocess.PIPE, stdout=subprocess.PIPE, stderr=errors, cwd=folder, bufsize=0)
