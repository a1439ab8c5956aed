"""Pages as the lines of a trace tell them: a white page, and patches that are laid over it."""

import collections
import json
import re
from binascii import unhexlify
from typing import NamedTuple

from .printable import printable


MOST_WAITING = 1 << 24  # bytes, as they are spelled, of patches of a page that wait to be laid over it
BETWEEN = b'","'       # what stands between the rows of a patch in a line


def rows_of(spelled):
    """The rows that stand in a line as they are spelled there."""
    return [unhexlify(row) for row in spelled.split(BETWEEN)]


class Laid:
    """Rows that are laid over a page, from a byte and a line on, as a line of the trace spells them, and those that they replaced, once they are laid."""

    __slots__ = "left", "top", "spelled", "made", "old"

    def __init__(self, left, top, spelled, old):
        self.left, self.top, self.spelled, self.made, self.old = left, top, spelled, None, old

    def rows(self):
        if self.made is None:
            self.made = rows_of(self.spelled)
        return self.made

    def count(self):
        """How many rows there are."""
        return self.spelled.count(b",") + 1

    def lay_on(self, laid):
        self.old = replaced(laid, self.left, self.top, self.rows())


class Patch:
    """Such rows, with their page where that is asked for those that they replaced. A page has the rows alone, so it goes with its last patch."""

    __slots__ = "page", "laid"

    def __init__(self, page, left, top, spelled):
        is_on_white, self.laid = top >= page.white_from, Laid(left, top, spelled, None)
        self.page = None if is_on_white else page
        if is_on_white:
            self.laid.old = [page.white] * self.laid.count()

    def whole(self):
        """Its byte and line, its rows, and those that they replaced."""
        laid = self.laid
        if laid.old is None:
            self.page.lay_waiting()
        return laid.left, laid.top, laid.rows(), laid.old

    def size(self):
        """Width and height of what it changes."""
        if self.page is None:
            return size_on_white(self.laid.spelled)
        left, _, rows, old = self.whole()
        return size_of(left, rows, old)


def box_of(left, top, rows, old):
    """The box of what a patch changes, which begins at a byte and a line, with its rows and the whole ones that were there; and how many dots."""
    end = 8 * (left + len(rows[0]))
    if len(rows) == 1:
        row = rows[0]
        dots = int.from_bytes(old[0][left:left + len(row)], "big") ^ int.from_bytes(row, "big")
        return end - dots.bit_length(), top, end - (dots & -dots).bit_length(), top, dots.bit_count()
    changed = [int.from_bytes(before[left:left + len(row)], "big") ^ int.from_bytes(row, "big") for row, before in zip(rows, old)]
    dots, lines = 0, [line for line, some in enumerate(changed, top) if some]
    for some in changed:
        dots |= some
    return end - dots.bit_length(), lines[0], end - (dots & -dots).bit_length(), lines[-1], sum(some.bit_count() for some in changed)


def size_on_white(spelled):
    """How wide and high what these rows mark on a white part of a page is; most that stand together are alike."""
    rows = spelled.split(BETWEEN)
    if len(set(rows)) > 1:
        rows = list(map(unhexlify, rows))
        return size_of(0, rows, [bytes(len(rows[0]))] * len(rows))
    dots = int(rows[0], 16)
    return dots.bit_length() - (dots & -dots).bit_length() + 1, len(rows)


def size_of(left, rows, old):
    """Width and height of that box."""
    if len(rows) == 1:
        dots = int.from_bytes(rows[0], "big") ^ int.from_bytes(old[0][left:left + len(rows[0])], "big")
        return dots.bit_length() - (dots & -dots).bit_length() + 1, 1
    left, top, right, bottom, _ = box_of(left, 0, rows, old)
    return right - left + 1, bottom - top + 1


PATCH = re.compile(rb'"page":\{"height":\d+,"rows":\["([^\]]*)"\],"width":\d+,"x":(\d+),"y":(\d+)\}')


class Lines(NamedTuple):
    """Lines of the trace, whose patches wait."""
    lines: bytes

    def lay_on(self, laid):
        for spelled, left, top in PATCH.findall(self.lines):
            left, line = int(left) // 8, int(top)
            for each in spelled.split(BETWEEN):
                new, row = unhexlify(each), laid[line]
                laid[line] = row[:left] + new + row[left + len(new):]
                line += 1


class Page:
    """The dots of a page: a row is bytes, the most significant bit left, 1 black. Rows are replaced, and never written into. Patches may wait until
    somebody asks for the rows."""

    def __init__(self, width, height):
        self.width = width
        self.height = height
        self.white, self.white_from = bytes(-(-width // 8)), 0     # a white row, and the line from which on nothing was laid
        self.laid, self.waiting, self.size = [self.white] * height, collections.deque(), 0

    @property
    def rows(self):
        if self.waiting:
            self.lay_waiting()
        return self.laid

    def lay_waiting(self):
        self.size = 0
        while self.waiting:
            self.waiting.popleft().lay_on(self.laid)      # held no longer than somebody else holds it

    def lay_later(self, left, top, spelled):
        """A patch that is laid when the rows are asked for."""
        patch = Patch(self, left, top, spelled)
        self.keep_waiting(patch.laid, len(spelled), top + patch.laid.count())
        return patch

    def lay_lines_later(self, lines, behind=None):
        """The same of all patches that lines of the trace tell, of which nobody asks what they replaced; behind the last begins this line."""
        self.keep_waiting(Lines(lines), len(lines), self.height if behind is None else behind)

    def keep_waiting(self, some, size, behind):
        self.waiting.append(some)
        self.size, self.white_from = self.size + size, max(self.white_from, behind)
        if self.size > MOST_WAITING:
            self.lay_waiting()

    def lay(self, patch):
        """Lays a patch over the page, and gives the rows that it replaced."""
        return self.lay_rows(patch["x"] // 8, patch["y"], map(bytes.fromhex, patch["rows"]))

    def lay_rows(self, left, top, rows):
        """The same of rows that begin at a byte and a line."""
        old = replaced(self.rows, left, top, rows)
        self.white_from = max(self.white_from, top + len(old))
        return old

    def copy(self):
        other = Page(self.width, 0)
        other.height, other.laid, other.white_from = self.height, list(self.rows), self.white_from
        return other


def laid_over(page, told):
    """The patch that a line tells, which lies over this page."""
    patch = Patch(page, told["x"] // 8, told["y"], BETWEEN.join(map(str.encode, told["rows"])))
    patch.laid.old = page.rows[told["y"]:told["y"] + told["height"]]
    return patch


def replaced(laid, left, top, rows):
    """The rows of a page that are no longer there once others are laid over them, from a byte and a line on."""
    old = []
    for new in rows:
        row = laid[top]
        old.append(row)
        laid[top] = row[:left] + new + row[left + len(new):]
        top += 1
    return old


class Open:
    """The page that is open behind each line; None where none has a mark."""

    def __init__(self):
        self.page = None

    def go_on(self, line):
        """Goes on by what a line tells, and gives the rows that its patch replaced."""
        patch = line.get("page", ())
        if "opened" in line:
            self.page = Page(*line["opened"])
        if patch is None:
            self.page = None
        return self.page.lay(patch) if patch else []


def wrong_patch(page, patch):
    """What is wrong with a patch by itself, or None: it lies in the page and its rows are as wide and as many as it says."""
    left, top, width, height, rows = (patch[key] for key in ("x", "y", "width", "height", "rows"))
    if left % 8 or left < 0 or top < 0 or width < 1 or height < 1 or left + width > page.width or top + height > page.height:
        return "the box does not lie in the page, or begins within a byte"
    if width % 8 and left + width != page.width:
        return "the box ends within a byte, and not at the edge of the page"
    if len(rows) != height or any(len(row) != 2 * -(-width // 8) for row in rows):
        return "there are other rows than the box has"
    if width % 8 and any(int(row[-2:], 16) & (1 << -width % 8) - 1 for row in rows):
        return "a dot is told beside the page"
    return None


def without_page(line):
    return {key: told for key, told in line.items() if key != "page"}


class Comparison:
    """Two traces, line by line: all as texts but for boxes, which may differ as long as the pages do not."""

    def __init__(self):
        self.ours, self.theirs = Open(), Open()
        self.equal = []     # lines of both, by which the pages have not gone on yet

    def catch_up(self):
        """Both pages go on by the lines that were equal."""
        for line in map(json.loads, self.equal):
            self.ours.go_on(line)
            self.theirs.go_on(line)
        self.equal.clear()

    def difference(self, our, their):
        """What differs in two lines of these texts, or None."""
        if our == their:
            self.equal.append(our)
            return None
        self.catch_up()
        ours, theirs = json.loads(our), json.loads(their)
        if printable(json.dumps(theirs, ensure_ascii=False, separators=(",", ":"), sort_keys=True)).encode() + b"\n" != their:
            return "the program's line is no compact JSON with its keys in byte order, or has a control character"
        if without_page(ours) != without_page(theirs):
            return "fields differ"
        if ("page" in ours, ours.get("page") is None) != ("page" in theirs, theirs.get("page") is None):
            return "only one tells a change of the page"
        self.ours.go_on(ours)
        if theirs.get("page") and (wrong := wrong_patch(self.ours.page, theirs["page"])):
            return wrong
        self.theirs.go_on(theirs)
        return self.other_rows(ours.get("page"), theirs.get("page"))

    def other_rows(self, *boxes):
        """Whether the pages differ in a row of these boxes; in the others they are as they were."""
        for box in filter(None, boxes):
            rows = slice(box["y"], box["y"] + box["height"])
            if self.ours.page.rows[rows] != self.theirs.page.rows[rows]:
                return "dots of the page differ"
        return None


def difference_of(ours, theirs):
    """The number of the first line that differs, counted from 1, what differs, and both lines; None where none does."""
    comparing = Comparison()
    for number in range(max(len(ours), len(theirs))):
        our, their = (some[number] if number < len(some) else b"" for some in (ours, theirs))
        what = comparing.difference(our, their) if our and their else "one trace ends"
        if what:
            return number + 1, what, our, their
    return None
