"""What a stream suffered on its way: its rows are read by their lengths, and do not end where the next command begins.

A row transfer says how many bytes it has. What a conversion of texts puts in or takes away moves all that stands behind it, so a command is read
as a row, and rows as text. Each kind of damage is tried: it is named where the stream without it has whole rows again, or, where what was taken
away cannot be put back, where the next row begins within each wrong one, and no row has one kind of byte.
"""

import re
from typing import NamedTuple

from .finding import Finding, counted

TRANSFER = re.compile(rb"\x1b\*b(?:[0-9]+[a-z])*([0-9]{1,5})W")
BEHIND_A_ROW = {b"\x1b", b"\x0c", b"\r", b"\n", b""}   # what a driver puts behind a row, and the end
NEXT, ESC = b"\x1b*b", 0x1B
LEAST_WRONG = 2                         # rows
MENDS = 10                              # what is tried leaves at most one wrong row for so many
LEAST_SEEN = 4096                       # bytes of rows, of which none is above 127
LEAST_KINDS = 32                        # of these bytes
HIGHEST = (255,)                        # for all of those above 127
ENOUGH = {0x00, 0x0D, *HIGHEST}         # where these are among them, there is nothing to ask
HIGH = re.compile(rb"[\x80-\xff]")
REPLACED = "\ufffd".encode()
ADVICE = "Send it as it is: by a copy in binary mode, lp -o raw, or a file that no program for texts has opened"


class Rows(NamedTuple):
    """What the row transfers of a stream are like."""
    count: int
    wrong: int       # that do not end where a command begins
    early: int       # of these, how many have the next transfer begin within their data
    size: int        # bytes of their data
    kinds: set       # of these bytes, up to one above 127 where NUL and CR are among them

    @classmethod
    def of(cls, stream):
        count = wrong = early = place = size = 0
        kinds, long, enough = set(), len(stream), False
        while found := TRANSFER.search(stream, place):
            begins = place = found.end()
            end, count = begins + int(found[1]), count + 1
            if enough and end < long and stream[end] == ESC:     # as most are
                size, place = size + end - begins, end
                continue
            if end > long or stream[end:end + 1] not in BEHIND_A_ROW:
                wrong, early = wrong + 1, early + (0 <= stream.find(NEXT, begins, end + len(NEXT)) < end)
            else:
                place = end
            size += min(end, long) - begins
            if not enough:
                row = stream[begins:end]
                kinds.update(HIGHEST if HIGH.search(row) else (), row)
                enough = ENOUGH <= kinds
        return cls(count, wrong, early, size, kinds)


def found(shown, stream):
    """The finding on a stream that was damaged, or None."""
    rows = Rows.of(stream)
    told, place = undone(stream, rows) or (lost(rows) or seven_bits(rows), None)
    if told:
        sentence = f"{shown} was damaged on its way: {told}"
        wrong = f", so {rows.wrong:,} of {counted(rows.count, 'row')} end elsewhere than they say" if rows.wrong else ""
        return Finding(None, sentence + wrong, ADVICE, place=place)
    return None


def undone(stream, rows):
    """What was put in, and where first, where the stream without it has whole rows; or None."""
    if rows.wrong < LEAST_WRONG:
        return None
    if (place := stream.find(REPLACED)) >= 0:
        return f"bytes above 127 were replaced by EF BF BD, first at byte {place}", place
    for name, first, mended in ((LINE_FEEDS, stream.find(b"\r\n"), stream.replace(b"\r\n", b"\n")), (AS_TEXT, first_high(stream), as_latin(stream))):
        if first >= 0 and mended is not None and Rows.of(mended).wrong * MENDS <= rows.wrong:
            return f"{name}, first at byte {first}", first
    return None


LINE_FEEDS = "each line feed (0A) became CR LF (0D 0A)"
AS_TEXT = "each byte above 127 became two, as in UTF-8"


def first_high(stream):
    high = HIGH.search(stream)
    return high.start() if high else -1


def as_latin(stream):
    """The bytes whose characters UTF-8 spells, or None where it does not."""
    try:
        return stream.decode("utf-8").encode("latin-1")
    except UnicodeError:
        return None


def lost(rows):
    """What was taken away: the next row begins within each wrong one, but for one of so many, and one kind of byte stands in no row."""
    if rows.wrong < LEAST_WRONG or (rows.wrong - rows.early) * MENDS > rows.wrong or rows.size < LEAST_SEEN:
        return None
    missing = [name for byte, name in ((0x00, "NUL (00)"), (0x0D, "CR (0D)")) if byte not in rows.kinds]
    return f"each {missing[0]} was taken out of its rows" if missing else None


def seven_bits(rows):
    """Rows of many kinds of bytes, and none above 127."""
    if rows.size < LEAST_SEEN or len(rows.kinds) < LEAST_KINDS or max(rows.kinds) > 127:
        return None
    return f"none of the {rows.size:,} bytes of its rows is above 127, as where the eighth bit is dropped"
