"""P4 files: the grammar that is read, and the one spelling that is written."""

import re

WHITE = rb"[\t-\r ]"
COMMENT = rb"#[^\r\n]*[\r\n]"
GAP = rb"(?:" + WHITE + rb"|" + COMMENT + rb")+"
HEADER = re.compile(rb"P4" + GAP + rb"([0-9]+)" + GAP + rb"([0-9]+)" + WHITE)
LONGEST_HEADER = 65536
GREATEST_SIDE = 16384


class Refused(Exception):
    def __init__(self, number):
        super().__init__(number)
        self.number = number


NOT_PBM, BAD_SIZE, TRUNCATED = 111, 112, 113


def read(file):
    """Width, rows of text, and the bytes left unread."""
    header = HEADER.match(file[:LONGEST_HEADER])
    if header is None:
        raise Refused(TRUNCATED if begins_header(file) else NOT_PBM)
    width, height = map(int, header.groups())
    if not (1 <= width <= GREATEST_SIDE and 1 <= height <= GREATEST_SIDE):
        raise Refused(BAD_SIZE)
    row_bytes = (width + 7) // 8
    after = header.end() + height * row_bytes
    if len(file) < after:
        raise Refused(TRUNCATED)
    starts = range(header.end(), after, row_bytes)
    rows = [format(int.from_bytes(file[start:start + row_bytes], "big"), "0%db" % (8 * row_bytes))[:width] for start in starts]
    return width, rows, file[after:]


def begins_header(file):
    """Whether some header begins with the file: one shorter than the longest, ended too soon."""
    if len(file) >= LONGEST_HEADER:
        return False
    endings = [b"4 1 1 ", b" 1 1 ", b"1 1 ", b" 1 ", b"1 ", b" ",
               b"\n1 1 ", b"\n1 ", b"\n 1 1 ", b"\n 1 "]
    if file in (b"", b"P"):
        return True
    return any(HEADER.fullmatch(file + ending) and len(file + ending) <= LONGEST_HEADER
               for ending in endings)


def bytes_of_rows(rows):
    """The written spelling of rows of text."""
    width = len(rows[0])
    row_bytes = (width + 7) // 8
    packed = [int(row.ljust(row_bytes * 8, "0"), 2).to_bytes(row_bytes, "big") for row in rows]
    return b"P4\n%d %d\n" % (width, len(rows)) + b"".join(packed)


def bytes_of_side(side):
    """The same of a page."""
    width, height = side.width(), side.height()
    row_bytes = (width + 7) // 8
    marked = {}
    for x, y in side.black_dots():
        marked.setdefault(y, bytearray(row_bytes))[x // 8] |= 0x80 >> x % 8
    blank = bytes(row_bytes)
    return b"P4\n%d %d\n" % (width, height) + b"".join(marked.get(line, blank) for line in range(height))
