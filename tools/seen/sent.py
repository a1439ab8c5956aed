"""What a row transfer or a fill sends, and how much of it falls beside the page: counted from the fields before it."""

import functools
import itertools
from typing import NamedTuple

from model import marks, pages, rows
from model.commands import Param
from model.values import POSITIONS_PER_INCH, dot_positions

from .fields import State

MOST_BASES = 500
WIDE_BYTES = 8192   # of a row that is decoded as it was sent, past the width that it has here


class Sent(NamedTuple):
    """Rows, and black dots: those of rows are raster dots, those of a fill dots of the page. Those of rows that marked the page, and of which
    none is lost, are not counted."""
    rows: int = 0
    black: int = 0
    right: int = 0    # of the black ones, past the right edge of the page or of the row
    below: int = 0    # of the others, past the lower edge
    late: int = 0     # rows behind the raster height
    again: int = 0    # black dots of rows of no bytes, which repeat the row above them

    def plus(self, other):
        return other if self is NOTHING else self if other is NOTHING else Sent(*map(sum, zip(self, other)))

    def lost(self):
        return self.right + self.below


NOTHING = Sent()
WHOLE_ROW = Sent(rows=1)
LATE_ROW = Sent(late=1)
SENDING = ("*bW", "*cP", "*bY")   # those that send, or change what a row is read against


LETTERS = {}   # those that were asked for, since most streams have few


def letters(command):
    """Character, group and end of a parameterized command; empty for any other."""
    if not isinstance(command, Param):
        return ""
    key = command.character, command.group, command.end
    if key not in LETTERS:
        LETTERS[key] = chr(command.character) + ("" if command.group is None else chr(command.group)) + chr(command.end)
    return LETTERS[key]


class Seed:
    """The seed row as wide as it was sent. Rows wait for their decoding until somebody asks for the dots; how many bytes one reaches to the right at
    most is known at once."""

    def __init__(self):
        self.clear()

    def clear(self):
        self.row, self.waiting, self.reach, self.replaced = WHITE, [], 0, 0

    def follow(self, method, data):
        """The next row."""
        reach = REACHES[method](data)
        if method != rows.DELTA_ROW:
            self.waiting, self.reach, self.replaced = [(method, data)], reach, 0
            return
        self.waiting.append((method, data))
        if reach > self.replaced:
            self.replaced = reach

    def follow_whole(self, method, some, marked, room, wants_bytes):
        """The next rows, up to one that may reach past so many bytes, has none where each that marks must have some, or is not surely white and marks nothing:
        how many there are. Whether each marks is told in their order, or None where each does."""
        reach_in, most, is_delta = REACHES[method], self.replaced, method == rows.DELTA_ROW
        if is_delta and not self.reach <= room >= most:
            return 0
        if marked is None and (all(some) or not wants_bytes) and (reach := max(map(reach_in, set(some)), default=0)) <= room:
            most, count = max(most, reach), len(some)
        else:
            most, count = self.follow_each(reach_in, some, itertools.repeat(True) if marked is None else marked, most, is_delta, room, wants_bytes)
        if is_delta:
            self.waiting += [(method, data) for data in some[:count] if data]
            self.replaced = most
        elif count:
            self.follow(method, some[count - 1])
        return count

    def follow_each(self, reach_in, some, marked, most, is_delta, room, wants_bytes):
        """The same, row by row: how far they reach, and how many there are."""
        count = 0
        for data, marks in zip(some, marked):
            reach = reach_in(data) if data else 0
            if reach > room or wants_bytes and marks and not data or not marks and (reach or is_delta and (most or self.reach)):
                break
            most, count = max(most, reach), count + 1
        return most, count

    def fits(self, room):
        """Whether no dot is lost of as many bytes as it may reach; of a row by itself these are counted where it could be too many."""
        if self.reach <= room >= self.replaced:
            return True
        self.decoded()
        return self.reach <= room >= self.replaced

    def is_white(self):
        return not self.reach and not self.replaced

    def count_black(self):
        return int.from_bytes(self.sent(), "big").bit_count()

    def sent(self):
        """The seed row as far as it may have a dot."""
        row = self.decoded()
        return row[:max(self.reach, self.replaced)]

    def decoded(self):
        for method, data in self.waiting:
            if method == rows.DELTA_ROW:
                self.row = rows.decode(method, data, self.row)
            else:
                self.row = by_itself(method, data)
                self.reach = len(self.row.rstrip(b"\0"))
        self.waiting = []
        return self.row


WHITE = bytes(WIDE_BYTES)


@functools.lru_cache(maxsize=16)     # drivers send the same white row again and again
def by_itself(method, data):
    return rows.decode(method, data, WHITE)


def reach_of(data):
    """How many bytes from the left a delta row replaces at most."""
    place = reach = 0
    try:
        while True:
            taken, behind = REPLACES[data[place]]
            reach += behind
            if taken:
                place += taken
                continue
            code, place = data[place], place + 1      # its offset goes on
            while data[place] == 255:
                reach, place = reach + 255, place + 1
            reach, place = reach + data[place], place + (code >> 5) + 2
    except IndexError:
        return reach


# Of a byte of a delta row that begins a replacement: how many bytes it takes with its own, 0 where its offset goes on, and how far to the right it reaches
# behind the one before.
REPLACES = [((code >> 5) + 2 if code & 31 != 31 else 0, (code & 31) + (code >> 5) + 1) for code in range(256)]


def reach_of_packed(data):
    """How many bytes a row of method 2 has."""
    place, reach, size = 0, 0, len(data)
    while place < size:
        code = data[place]
        if code < 128:
            reach, place = reach + code + 1, place + code + 2
        elif code == 128:
            place += 1
        else:
            reach, place = reach + 257 - code, place + 2
    return reach


REACHES = {0: lambda data: len(data.rstrip(b"\0")), 1: lambda data: sum(data[:len(data) // 2 * 2:2]) + len(data) // 2,
           2: reach_of_packed, rows.DELTA_ROW: reach_of}


class Watcher:
    """Counts what commands send."""

    def __init__(self):
        self.seed = Seed()
        self.strip, self.strips, self.of_base = None, {}, {}

    def of(self, now, command, marks):
        """What a command that is carried out sends; the fields are those before it, and `marks` says whether the page is changed."""
        key = letters(command)
        if key == "*bW":
            return self.of_rows(now, command.data, marks)
        if key == "*cP":
            return of_fill(State(now), command.value().whole())
        if key == "*bY" and now["raster_on"]:
            self.seed.clear()
        return NOTHING

    def of_rows(self, now, data, marks, counts_repeats=True):
        """What rows send, of rows of no bytes also how much they repeat, where that counts."""
        base, y, count = now.base, now.y, now.row_count
        if count == 0 or not base["raster_on"]:
            self.seed.clear()
        strip = self.strip
        if strip is None or strip.base is not base:
            strip = self.strip = self.strip_of(now)
        method = base["method"]
        if method != rows.ADAPTIVE:
            return self.of_row(strip, y, count, method, data, marks, counts_repeats)
        sent = NOTHING
        for method, each in rows_of(data):
            if method is None:
                self.seed.clear()
            else:
                sent = sent.plus(self.of_row(strip, y, count, method, each, marks))
                y, count = min(strip.lowest, y + strip.step), count + 1
        return sent

    def strip_of(self, now):
        """Most fields that change leave it as it is, as the method does."""
        base = now.base
        held, strip = self.of_base.get(id(base), (None, None))
        if held is not base:
            key = tuple([base[name] for name in STRIP])
            if key not in self.strips:
                self.strips[key] = Strip(now)
            if len(self.of_base) == MOST_BASES:
                self.of_base.clear()
            _, strip = self.of_base[id(base)] = base, self.strips[key]
        strip.base = base
        return strip

    def of_row(self, strip, y, count, method, data, marks, counts_repeats=True):
        """What a row sends that goes to this place; of one that marks the page, and loses none, its dots are not counted."""
        if strip.height is not None and count >= strip.height:
            return LATE_ROW
        seed, room = self.seed, strip.bytes
        seed.follow(method, data)
        if data and marks and seed.reach <= room >= seed.replaced and y < strip.end:
            return WHOLE_ROW
        again = seed.count_black() if counts_repeats and not data and method == rows.DELTA_ROW else 0
        if seed.is_white() or marks and y < strip.end and seed.fits(room):
            sent = WHOLE_ROW
        else:
            sent = strip.sent(y, seed.sent())
        return sent._replace(again=again) if again else sent

    def whole_rows(self, stretch, counts_repeats):
        """How many rows of a stretch, behind a row, come out whole as surely as that is seen at once."""
        now, count, marked = stretch.before, 0, None if stretch.all_mark() else iter(stretch.marked())
        strip = self.strip_of(now)
        if not now.row_count or stretch.lowest() >= strip.end or strip.height is not None and stretch.number() > strip.height:
            return 0
        for method, some in stretch.parts:
            if method == rows.ADAPTIVE:
                break
            taken = self.seed.follow_whole(method, some, marked, strip.bytes, counts_repeats or method != rows.DELTA_ROW)
            count += taken
            if taken < len(some):
                break
        return count


def rows_of(data):
    """Method and data of each row of adaptive data; a method of None where the seed becomes zero."""
    for block in rows.blocks(data):
        if block.rows == 0:
            yield None, b""
        yield from [(block.method, block.data)] * block.rows


# The fields that say where rows go.
STRIP = ("size", "orientation", "resolution", "raster_resolution", "raster_left", "source_width", "source_height", "top_margin")


class Strip:
    """Where rows go, as far as it stays from row to row."""

    def __init__(self, now):
        state = State(now)
        frame_width, frame_height = pages.frame(state.size, state.orientation)
        self.base, self.height = now.base, state.source_height
        self.step = POSITIONS_PER_INCH // state.raster_resolution
        self.end = frame_height * dot_positions(state.resolution) - state.top_margin    # from here on a row stands below the page
        self.lowest = state.logical_length() - state.top_margin
        wide, column = state.resolution // state.raster_resolution, marks.column_of(state, state.raster_left)
        self.room = min(marks.row_width(state), max(0, marks.ceiling(frame_width - column, wide)))
        self.bytes = self.room // 8     # of so many no dot is lost

    def sent(self, y, row):
        number = int.from_bytes(row, "big")
        black, inside = number.bit_count(), (number >> max(0, 8 * len(row) - self.room)).bit_count()
        below = inside if y >= self.end else 0
        return Sent(1, black, black - inside, below, 0)


def of_fill(state, which):
    """Of a rectangle; a white one loses nothing."""
    across, down = (marks.ceiling(size, dot_positions(state.resolution)) for size in (state.rectangle_width, state.rectangle_height))
    if which == 1:
        return NOTHING
    frame_width, frame_height = pages.frame(state.size, state.orientation)
    column, line = marks.frame_dot(state)
    inside = max(0, min(across, frame_width - column))
    lines = max(0, min(down, frame_height - line))
    return Sent(0, across * down, (across - inside) * down, inside * (down - lines), 0)
