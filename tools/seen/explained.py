"""The commands of a stream as lines of text: each is one row, and so are bytes of text, of another language or of HP-GL/2 that stand together."""

import array
import bisect
import itertools
import os
import tempfile
import threading
from typing import NamedTuple

from model.asm import digits_of, line_of_command
from model.commands import Broken, Foreign, Text, command_bytes

from reasons.untraced import Judge

from . import happenings, remarks
from .stretches import Stretch


class Row(NamedTuple):
    offset: int
    text: str           # a line of assembly text
    told: remarks.Remark   # where it stands, what it is and does
    happenings: list
    met: tuple          # the reason why it leaves no trace, or less of one than was meant, and its key; or None
    because: str        # what that reason says

    @property
    def remark(self):
        return self.told.text()


def run_of(happening, because):
    """What tells the happenings apart that stand in different runs; None where it stands alone."""
    if happening.how == "row":
        return None
    if happening.how == "HP-GL/2":
        return "HP-GL/2"
    if isinstance(happening.placed.command, (Text, Foreign)) and happening.how in ("no row", "recorded"):
        return type(happening.placed.command), happening.how, because
    return None


def bytes_of(placed, stream):
    """The bytes that spell a command by itself, or bytes that stand together."""
    return stream[placed.offset:placed.offset + placed.length] if placed.count() > 1 else command_bytes(placed.command)


def parts(run, judge=None, see=None):
    """The rows of a run, one after another, without the exit that is added at the end; of rows within raster graphics that mark the page one behind the other
    stretches. `see` is handed each happening with the reason that it met."""
    judge, some, key, because, met = judge or Judge(run), [], None, "", None
    for happening, each in judge.judged(in_order=True):
        if see:
            see(happening, each)
        plain = each is None and type(happening) is happenings.Row
        why = each[0].because(judge, happening) if each else ""
        own = None if plain else run_of(happening, why)
        if some and (own is None or own != key):
            yield row_of(run, some, because, met)
            some = []
        if plain:
            yield happening.stretch or row_of_transfer(happening)
        elif own is None:
            yield row_of(run, [happening], why, each)
        else:
            key, because, met = (key, because, met) if some else (own, why, each)
            some.append(happening)
    if some:
        yield row_of(run, some, because, met)


def row_of_transfer(row):
    """The row of a row within raster graphics of which nothing is to be said but what it does."""
    return Row(row.offset, f"par *b{row.field.decode()}W {digits_of(row.data)}".rstrip(), remarks.remark_of_row(row), [row], None, "")


def told_of_stretch(stretch, most=None):
    """Of each command of a stretch its text, with so many bytes of its data, its place, how it is spelled, what it is, and what it does."""
    return [(f"{word} {data[:most].hex().upper()}" if data else word, place, spelled, what, effect) for place, (spelled, what, word), data, effect
            in zip(stretch.offsets(), map(remarks.headed, stretch.heads), stretch.data, remarks.effects_of(stretch))]


def told(part):
    """Of each row of a part its place, its text, and its remark."""
    if type(part) is Row:
        return [(part.offset, part.text, part.remark)]
    return [(offset, text, f"at {offset}, {spelled}: {what}: {effect}") for text, offset, spelled, what, effect in told_of_stretch(part)]


def row_of(run, some, because, met):
    first = some[0]
    if len(some) > 1 or type(first) is not happenings.Row and first.placed.count() > 1:
        data = b"".join(bytes_of(happening.placed, run.stream) for happening in some)
        text, told = line_of_command(Broken(data)), remarks.of_run(some, data, because)
    else:
        text, told = line_of_command(first.placed.command), remarks.remark(first, first.before["pattern_id"], because)
    return Row(first.placed.offset, text, told, some, met, because)


END = "the end, where the press adds a universal exit"


def of_end(run):
    """The remark on the exit that the press adds."""
    return f"at {len(run.stream)}, {END}: {remarks.effect_of(run.end)}"


KEPT_TOGETHER = 1 << 16    # bytes of rows that are written at once
BEHIND = 500               # rows that are read behind the caller before it is looked whether he still wants more


class Read:
    """The rows of a run, which are read as far as one is looked at, or behind the caller. What `shows` makes of each stands in a file without a name; that
    of the end is the last. Rows within raster graphics are told by `film` when they are looked at, where there is one."""

    def __init__(self, run, shows, film=None):
        self.run, self.shows, self.film, self.reading = run, shows, film, parts(run)
        self.starts, self.ends, self.file, self.fresh = array.array("Q"), array.array("Q", [0]), tempfile.TemporaryFile(), []
        self.is_whole = self.is_over = False
        self.behind = None                      # the thread that reads
        self.written = 0                        # bytes that stand in the file
        self.fault, self.grown = None, threading.Condition()

    def go_on(self, most):
        """Reads so many rows and those that come with the last of them, or those that are left."""
        wanted = len(self.starts) + most
        while len(self.starts) < wanted and not self.is_whole:
            if (part := next(self.reading, None)) is None:
                self.keep([], [self.spelled("uel", of_end(self.run))])
                self.is_whole = True
            elif self.film is not None and type(part) is Stretch:
                self.keep(part.offsets(), [b""] * len(part))
            else:
                some = told(part)
                self.keep([offset for offset, _, _ in some], [self.spelled(text, remark) for _, text, remark in some])

    def spelled(self, text, remark):
        return self.shows(text, remark).encode(errors="surrogateescape")

    def keep(self, offsets, shown):
        """Keeps what is shown of rows that stand there, or of the end."""
        with self.grown:
            self.fresh += shown
            self.starts.extend(offsets)
            self.ends.extend(itertools.accumulate(map(len, shown[1:]), initial=self.ends[-1] + len(shown[0])))
            if self.ends[-1] - self.written > KEPT_TOGETHER:
                self.write()

    def write(self):
        data = b"".join(self.fresh)
        self.fresh.clear()
        os.pwrite(self.file.fileno(), data, self.written)
        self.written += len(data)

    def read_behind(self, then):
        """Reads on in a thread, and calls `then` at the end, with what went wrong, or None."""
        self.behind = threading.Thread(target=self.read_to_the_end, args=(then,), daemon=True)
        self.behind.start()

    def read_to_the_end(self, then):
        try:
            while not self.is_whole and not self.is_over:
                self.go_on(BEHIND)
                self.tell_those_who_wait()
        except (OSError, ValueError) as fault:
            self.fault = fault
            self.tell_those_who_wait()
        if not self.is_over:
            then(self.fault)

    def tell_those_who_wait(self):
        with self.grown:
            self.grown.notify_all()

    def stop(self):
        """Ends what reads behind, where nobody asks for what follows."""
        self.is_over = True
        if self.behind is not None:
            self.behind.join()

    def until(self, there):
        """Reads on, or waits, until something is there, or all is read."""
        while not self.is_whole and not there():
            if self.fault:
                raise self.fault
            if self.behind is None:
                self.go_on(1)
            else:
                with self.grown:
                    self.grown.wait_for(lambda: self.fault or self.is_whole or there())

    def has(self, number):
        """Whether there is a row of this number, from 0; the end is one."""
        self.until(lambda: len(self.ends) > number + 1)
        return number < len(self.ends) - 1

    def number(self, place):
        """The number of the row in which a byte of the stream stands; that of the end is behind the last."""
        if place >= len(self.run.stream):
            self.until(lambda: False)
            return len(self.starts)
        self.until(lambda: len(self.starts) and self.starts[-1] > place)
        return max(0, bisect.bisect_right(self.starts, place) - 1)

    def shown(self, number):
        """What is shown of a row."""
        if self.ends[number] == self.ends[number + 1]:
            happening = self.film.happening(self.starts[number])
            return self.shows(line_of_command(happening.placed.command), remarks.remark(happening).text())
        with self.grown:
            if self.ends[number + 1] > self.written:
                self.write()
        start, end = self.ends[number], self.ends[number + 1]
        return os.pread(self.file.fileno(), end - start, start).decode(errors="surrogateescape")

    def pieces(self):
        """All that is shown, in pieces."""
        with self.grown:
            self.write()
            end = self.written
        yield from (os.pread(self.file.fileno(), min(KEPT_TOGETHER, end - place), place) for place in range(0, end, KEPT_TOGETHER))
