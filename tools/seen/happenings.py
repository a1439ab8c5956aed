"""What a stream does, command by command: where each command stands in the file, what it changes, marks and sends.

All of it is read from the lines of the trace, one after another, and none is held.
"""

import functools
import re
from typing import NamedTuple, Optional

from model import commands, pages
from model.values import dot_positions

from . import program, sent, stretches, traced
from .bodies import Follower, Placed, Step, how_of
from .fields import Fields, Now, changes, power_on
from .leaves import Leaves
from .patches import Open, Page, box_of, laid_over
from .placing import Placer

LINE = rb'\{"at":(\d+),"bytes":%s,"depth":0,"last":"%s",%s"sheets":(\d+),"step":(\d+),%s"x":(-?\d+),"y":(-?\d+)\}\n'
# A byte that is passed over, and a row within raster graphics, where nothing else is told.
BYTES = {kind: re.compile(LINE % (b"1", word, rb'"refused":"[^"]+",', b"")) for kind, word in ((commands.Text, b"txt"), (commands.Foreign, b"for"))}
ROW = re.compile(LINE % (rb"(\d+)", rb"par \*bW", b"(?:%s)?" % stretches.MARKED, rb'(?:"view":\{"raster":\{"rows":(\d+)\}\},)?'))
METHOD = re.compile(stretches.METHOD)
OTHER_KIND = (ord("*"), ord("b"), ord("W"))
HEAD = re.compile(rb"(?:\x1b\*b)?([^Ww]*)[Ww]")     # of a row, and its value


RESTS = 30    # rows that are read one by one where it was tried in vain to read many
# Kinds that do no more than set fields, where nothing else is told.
PLAIN = {f"par {letters}" for letters in ("*bM", "*pX", "*pY", "&aC", "&aR", "&aH", "&aV", "*cA", "*cB", "*cH", "*cV", "*cG", "*vT", "*vN", "*vO", "*tR",
                                          "*rS", "*rT")}
FIRST_TEXT = 0x20
RUN = re.compile(rb"[\x20-\xff]+|[\0-\x1f]")


def pieces_of(whole, at, end, alone):
    """Where bytes of a run begin that are one happening, and how many they are: text bytes that stand together, unless they stand alone before the first
    control byte, and each control byte."""
    for found in RUN.finditer(whole, at, end):
        place, behind = found.span()
        is_text = whole[place] >= FIRST_TEXT
        yield from [(one, 1) for one in range(place, behind)] if alone and is_text else [(place, behind - place)]
        alone = alone and is_text


class Mark:
    """The dots that a command changed on the page of this number, and their box, whose ends are within, which is looked for when it is asked for."""

    __slots__ = "page", "patches", "found"

    def __init__(self, page, patches):
        self.page, self.patches, self.found = page, patches, None

    def box(self):
        """Left, top, right and bottom, and how many dots are others than before, one as often as a step changed it."""
        if self.found is None and len(self.patches) == 1:
            self.found, self.patches = box_of(*self.patches[0].whole()), None
        elif self.found is None:
            self.found, *others = [box_of(*each.whole()) for each in self.patches]
            for left, top, right, bottom, dots in others:
                box = self.found
                self.found = min(box[0], left), min(box[1], top), max(box[2], right), max(box[3], bottom), box[4] + dots
            self.patches = None
        return self.found

    def size(self):
        """Its width and height."""
        left, top, right, bottom, _ = self.box()
        return right - left + 1, bottom - top + 1

    def dots(self):
        return self.box()[4]


class Happening(NamedTuple):
    placed: Placed
    how: str                 # of the command itself, as bodies.how_of tells it
    recorded_in: Optional[int]
    changes: tuple           # of name, value before, value after
    marks: tuple             # of Mark
    closes: int              # how many pages close
    sheets: tuple            # of pairs: the number of the sheet, how many copies go out
    replies: bytes
    bodies: int              # commands of macros and overlays that it ran
    page: int                # that is open before it, counted from 0 in the order in which pages close
    depth: int
    resolution: int          # behind it, in dots per inch
    before: dict             # the fields before it
    sent: sent.Sent          # by it and the bodies that it runs, and what of that falls beside the page
    fills: bool              # whether the pattern of a fill is there

    @property
    def key(self):
        """Character, group and end of a parameterized command that its row carries out; else empty."""
        return sent.letters(self.placed.command) if self.how == "row" else ""

    def is_changing(self):
        return bool(self.changes)

    def marks_its_page(self):
        return bool(self.marks) and self.marks[0].page == self.page


class Row:
    """A happening that is a row within raster graphics. Drivers send hundreds of thousands, so what takes time is made when it is asked for."""

    __slots__ = "offset", "length", "field", "data", "before", "now", "page", "sent", "patch", "marked", "read", "stretch"
    how, key, recorded_in, closes, sheets, replies, bodies, depth, fills = "row", "*bW", None, 0, (), b"", 0, 0, True

    def __init__(self, offset, length, field, data, before, now, page, gone, patch):
        self.offset, self.length, self.field, self.data = offset, length, field, data
        self.before, self.now, self.page, self.sent, self.patch, self.marked, self.read = before, now, page, gone, patch, None, None
        self.stretch = None    # the commands that it stands for, of which it is the last

    @property
    def placed(self):
        if self.read is None:
            self.read = Placed(self.offset, self.length, commands.Param(*OTHER_KIND[:2], self.field, OTHER_KIND[2], self.data))
        return self.read

    @property
    def changes(self):
        return changes(self.before, self.now)

    @property
    def marks(self):
        if self.marked is None:
            self.marked = () if self.patch is None else (Mark(self.page, [self.patch]),)
        return self.marked

    @property
    def resolution(self):
        return self.now.base["resolution"]

    def is_changing(self):
        return self.before.is_other(self.now)

    def marks_its_page(self):
        return self.patch is not None


def of_step(line, step, page, patch=None):
    """A step by itself, without what the bodies do that it runs."""
    return Happening(step.placed, step.how, step.recorded_in, changes(step.before, step.after), (Mark(page, [patch]),) if patch else (),
                     0, (), b"", 0, page, line["depth"], step.after["resolution"], step.before, sent.NOTHING, True)


def takes_data(happening):
    command = happening.placed.command
    return happening.how == "no row" and isinstance(command, commands.Param) and bool(command.data)


class Marks(Open):
    """The open page, and what was changed on it since that was asked for last."""

    def __init__(self):
        super().__init__()
        self.marks = {}

    def mark(self, line, number):
        """Goes on by a line; `number` is that of the page that is open before the step."""
        if line.get("page"):
            patch = self.patch_of(line)
            self.marks.setdefault(number, Mark(number, [])).patches.append(patch)
        self.go_on(line)

    def patch_of(self, line):
        """What a line lays over the page, before that goes on by it."""
        return laid_over(Page(*line["opened"]) if "opened" in line else self.page, line["page"])

    def taken(self):
        if not self.marks:
            return ()
        marks, self.marks = tuple(self.marks.values()), {}
        return marks


class Run:
    """What a stream does: its happenings, one after another, and its sheets; all is known when they were asked for to the end. What stands in front
    of it sets the defaults. `watch` is handed each line, before the page goes on by it, with the step that it is of; of bytes that are passed over at
    once the last line alone, without a step. One that has a `row` is handed rows within raster graphics by it, without a line. `texts` are its lines,
    with runs, where somebody has them."""

    def __init__(self, stream, front=b"", chosen=program.PROGRAM, watch=None, texts=None):
        self.watch, self.watch_row = watch, getattr(watch, "row", None)
        self.stream = stream
        self.whole = front + stream
        self.chosen = chosen
        self.who = traced.who(chosen)
        self.texts, self.text = texts or traced.texts(self.whole, chosen, runs=watch is None), None
        self.counts_repeats = lambda: True      # whether it counts which dots rows of no bytes repeat
        self.fields = Fields()
        self.follower = Follower(self.fields.go_on(power_on(chosen)))
        self.leaves, self.marks, self.watcher = Leaves(), Marks(), sent.Watcher()
        self.placer = Placer(self.whole, len(front))
        self.front, self.end, self.steps = [], None, 0
        self.rests = 0        # rows that are read one by one before it is tried again to read many
        self.row_read = None  # where the last of these and its data begin, until another command comes

    def __iter__(self):
        """The happenings; those of the front, and that of the exit that is added at the end, stand by themselves."""
        return self.happenings(False)

    def together(self, keeps):
        """The same, but of rows that come out whole one behind the other, and methods between them, the first row alone, and those behind it as one, which may
        keep what each is. Where it does not, nobody may watch."""
        return self.happenings(True, keeps)

    def happenings(self, joins, keeps=False):
        alone, quick, before = False, self.watch is None or self.watch_row is not None, False
        while True:
            while joins and before and (row := self.pass_rows(keeps)) is not None:
                yield row
            text = self.next_text()
            if quick and (found := ROW.fullmatch(text)) and self.fields.now.base["raster_on"]:
                alone, row = False, self.carry_out_row(found)
                if self.watch_row:
                    self.watch_row(self, int(found[7]), row, found[8] is not None)
                before = row.sent is sent.WHOLE_ROW and row.before.is_other(row.now)
                yield row
                continue
            before = before and METHOD.fullmatch(text) is not None
            if self.row_read is not None:
                self.leave_rows()
            line = traced.told(text)
            if "steps" in line:
                yield from self.pass_run(line, alone)
                alone = alone and RUN.fullmatch(self.whole, line["at"], line["at"] + line["bytes"]) is not None
                continue
            placed = self.placer.placed(line)
            if not placed.length:
                break
            if placed.offset < 0:
                self.front.append(self.carry_out(line, placed))
                continue
            if line["last"] in PLAIN and len(line) == 8 + ("view" in line) and not line["depth"]:
                happening = self.carry_out_plain(line, placed)
            else:
                happening = self.pass_over(line, placed) if self.goes_together(placed.command, alone) else self.carry_out(line, placed)
            yield happening
            alone = takes_data(happening) or (alone and isinstance(placed.command, commands.Text))
        self.end, self.steps = self.carry_out(line, placed), line["step"]
        if next(self.texts, None) is not None:
            raise ValueError("the trace goes on behind the end of the stream")

    def read(self):
        """Goes through it once."""
        for _ in self:
            pass
        return self

    def stop(self):
        """Ends the program, where nobody asks for what follows."""
        self.texts.close()

    def next_text(self):
        """The next line, as it stands."""
        text, self.text = self.text or next(self.texts, None), None
        if text is None:
            raise ValueError("the trace ends before the stream")
        return text

    def goes_together(self, command, alone):
        """Whether bytes like this that follow are one happening with it; but for text behind data that was taken."""
        return isinstance(command, (commands.Text, commands.Foreign)) and not (alone and isinstance(command, commands.Text)) and \
            self.fields.now["defining"] is None

    def pass_over(self, line, placed):
        """A byte that has no row, and those of its kind behind it, which change nothing but the number of steps."""
        before, pattern, place, last = self.follower.fields, BYTES[type(placed.command)], line["at"] + 1, None
        while (text := next(self.texts, None)) is not None and pattern.fullmatch(text):
            place, last = place + 1, text
        self.text = text
        if last is None:
            return self.carry_out(line, placed)
        watch, self.watch = self.watch, None
        happening = self.carry_out(line, placed)
        self.watch, last = watch, traced.told(last)
        now = self.follower.fields = self.fields.go_on(last)
        if watch:
            watch(self, last, None)
        return happening._replace(placed=placed._replace(length=place - line["at"]), resolution=now["resolution"], before=before)

    def pass_run(self, line, alone):
        """The happenings of a run of bytes that change nothing but the number of steps: text bytes one, or each one where they stand alone, those of
        another language one, and each control byte one."""
        before, shift, at, kind = self.follower.fields, self.placer.shift, line["at"], line["last"]
        self.follower.fields = self.fields.go_on(line)
        self.placer.before = kind, b""
        resolution, page, how, known = before["resolution"], self.leaves.closed, how_of(line), {}
        for place, size in [(at, line["bytes"])] if kind == "for" else pieces_of(self.whole, at, at + line["bytes"], alone):
            first = self.whole[place]
            if first not in known:
                known[first] = (commands.Foreign if kind == "for" else commands.Text if first >= FIRST_TEXT else commands.Control)(first)
            yield Happening(Placed(place - shift, size, known[first]), how, None, (), (), 0, (), b"", 0, page, 0, resolution, before, sent.NOTHING, True)

    def pass_rows(self, keeps):
        """Rows that come out whole behind one that does, and methods between them, as one: as many as are seen to do so at once; None where none is. It may
        keep what each is."""
        if self.rests or self.text is not None:
            self.rests = max(0, self.rests - 1)
            return None
        if not self.fields.now.base["raster_on"] or not (text := self.texts.stretch(stretches.STANDING)):
            return None
        stretch = stretches.Stretch(text, self.whole, self.placer.shift, self.fields.now)
        count = self.watcher.whole_rows(stretch, self.counts_repeats())
        if count < stretch.count():
            stretch, self.rests = stretch.first(count), 1 if count else RESTS
            self.texts.back(len(text) - (len(stretch.text) if stretch else 0))
        return self.carry_out_rows(stretch, keeps) if stretch else None

    def carry_out_rows(self, stretch, keeps):
        """Rows within raster graphics which come out whole, and methods between them, as one."""
        fields, before = self.fields, self.fields.now
        if keeps:
            stretch.lay(self.marks.page)
        elif stretch.last and self.marks.page is not None:
            self.marks.page.lay_lines_later(stretch.text[:stretch.last])
        method = stretch.parts[-1][0]
        if method != before.base["method"]:
            fields.go_on({"view": {"raster": {"method": method}}, "x": before.x, "y": before.y, "sheets": before.total})
        row = self.carry_out_row(ROW.fullmatch(stretch.text, stretch.last), sent.Sent(stretch.count()))
        row.before = before
        if keeps:
            row.stretch = stretch
            if stretch.patches is not None:
                stretch.patches.append(row.patch)
            if self.watch_row:
                self.watch.rows(self, stretch)
        return row

    def carry_out_row(self, found, gone=None):
        """A row within raster graphics, of the line that was matched, and what it sends, where that is known."""
        at, size, rows, left, top, sheets, _, count, x, y = found.groups()
        place, size, patch, fields = int(at), int(size), None, self.fields
        before, field = fields.now, HEAD.match(self.whole, place)
        begins = field.end()
        data, self.row_read = self.whole[begins:place + size], (place, begins)
        if rows is not None:
            patch = self.marks.page.lay_later(int(left) // 8, int(top), rows)
        if gone is None:
            gone = self.watcher.of_rows(before, data, rows is not None, self.counts_repeats())
        if count is not None:
            fields.is_late = True
        now = fields.now = Now(before.base, int(x), int(y), int(sheets), before.row_count if count is None else int(count))
        return Row(place - self.placer.shift, size, field[1], data, before, now, self.leaves.closed, gone, patch)

    def leave_rows(self):
        """What follows rows goes on by the last of them."""
        place, begins = self.row_read
        self.follower.fields, self.placer.before, self.row_read = self.fields.now, ("par *bW", self.whole[place:begins]), None

    def carry_out_plain(self, line, placed):
        """Goes on by a command that does no more than set fields."""
        before, now = self.follower.fields, self.fields.go_on(line)
        self.follower.fields = now
        if line["last"] != commands.kind(placed.command):
            raise ValueError(f"step {line['step']} takes {line['last']}, and {commands.kind(placed.command)} stands at {placed.offset}")
        if self.watch:
            self.watch(self, line, Step(placed, (), "row", None, before, now))
        return Happening(placed, "row", None, changes(before, now), (), 0, (), b"", 0, self.leaves.closed, 0, now.base["resolution"], before,
                         sent.NOTHING, True)

    def carry_out(self, line, placed):
        """Goes on by a command of the stream, and by the bodies that it starts."""
        before, page, first, depth, closes, sheets, replies, count, gone = self.follower.fields, self.leaves.closed, None, 0, 0, [], "", 0, sent.NOTHING
        while first is None or self.follower.bodies:
            if first is not None:
                line = traced.told(self.next_text())
                if line["at"] != placed.offset + self.placer.shift or line["bytes"] != placed.length:
                    raise ValueError(f"step {line['step']} stands at byte {line['at']}, and the command at {placed.offset + self.placer.shift}")
            step, closed, sheet, one = self.take(line, placed)
            first = first or step
            depth, closes, count, gone = max(depth, line["depth"]), closes + closed, count + 1, gone.plus(one) if one is not sent.NOTHING else gone
            replies += line.get("reply", "")
            sheets += [(sheet.number, sheet.copies)] if sheet else []
        now = self.fields.now
        return Happening(
            placed, first.how, first.recorded_in, changes(before, now),
            self.marks.taken(), closes, tuple(sheets), replies.encode("latin-1"), count - 1, page, depth, now["resolution"], before, gone,
            self.has_pattern(placed.command, before))

    def take(self, line, placed):
        """A line: its step, whether a page closes, the sheet that goes out or None, and what is sent."""
        step = self.follower.go_on(line, placed, self.fields.go_on(line))
        sends = step.how == "row" and sent.letters(step.placed.command) in sent.SENDING
        one = self.watcher.of(step.before, step.placed.command, "page" in line) if sends else sent.NOTHING
        if self.watch:
            self.watch(self, line, step)
        self.marks.mark(line, self.leaves.closed)
        return step, *self.leaves.go_on(line, step), one

    def has_pattern(self, command, before):
        """Whether the pattern of a fill is there."""
        which = command.value().whole() if sent.letters(command) == "*cP" else 0
        return which not in (1, 2, 3, 4) or self.follower.patterns.tile(which, before["pattern_id"]) is not None

    def pages_of_sides(self):
        """The sides that went out, without copies: for each its page, the number of its sheet, `front` or `back`, and copies."""
        return [(page, sheet.number, name, sheet.copies) for sheet in self.leaves.sheets
                for name, page in (("front", sheet.front), ("back", sheet.back)) if page is not None]

    def side_of_page(self):
        """For each page in the order in which they closed, the number of its side among those that went out."""
        places = {page: place for place, (page, _, _, _) in enumerate(self.pages_of_sides())}
        return [places.get(page) for page in range(self.leaves.closed)]

    def page_of_side(self):
        """For each side that went out, the number of its page among those that closed; None where no page was open."""
        return [page if page >= 0 else None for page, _, _, _ in self.pages_of_sides()]


@functools.lru_cache(maxsize=64)
def size_at(name, resolution):
    return pages.SIZES[name].at(resolution)


def cursor_dot(now):
    """The physical dot of the cursor."""
    (across,), (down,) = dots_of(now.base, [now.x], [now.y])
    return across, down


def dots_of(base, x, y):
    """The physical dots of these places of the cursor: how far across and how far down."""
    top, orientation = base["top_margin"], base["orientation"]
    offset, positions, size = frame_at(base["size"], base["resolution"], orientation)
    across, down = [offset + place // positions for place in x], [(place + top) // positions for place in y]
    return (across, down) if orientation == pages.PORTRAIT else zip(*(pages.to_physical(size, orientation, *dot) for dot in zip(across, down)))


@functools.lru_cache(maxsize=64)
def frame_at(name, resolution, orientation):
    """How many dots the logical page begins to the right, how many positions a dot has, and the size of the page."""
    size = size_at(name, resolution)
    return pages.offset(size, orientation), dot_positions(resolution), size
