"""The trace of a stream as the program tells it: a line of JSON for each table step, as docs/TRACE.md has them.

A line is made of the state behind the step and of that behind the step before. The box of a page is the smallest one of whole bytes in which
all lies that changed; the program's may be larger, and `tools/compare` compares the two by what they say.
"""

import itertools
import json

from . import pages
from .commands import ESC, EXIT, FOREIGN, PCL, Control, Foreign, Text, Uel, closing, head
from .engine import RECORDED, Deliver, Engine
from .table import PAGE_SIZES

SIZE_CODES = {name: number for number, name in PAGE_SIZES.items()}
PAPER_CODES = {name.upper(): number for name, number in SIZE_CODES.items()}
BINDINGS = {"LONGEDGE": 1, "SHORTEDGE": 2}
CONTROLS = {number: "\\u%04x" % number for number in range(0x7F, 0xA0)}  # of a terminal, which JSON leaves as they are
PIECE = 16384     # bytes of a stream that are read at a time
ORIENTATIONS = {b"PORTRAIT": pages.PORTRAIT, b"LANDSCAPE": pages.LANDSCAPE}


class Changing(pages.Bitmap):
    """A page that keeps what stood in its lines before they were painted."""

    def __init__(self, size, orientation):
        super().__init__(size, orientation)
        self.before = {}

    def paint(self, line, *marks):
        self.before.setdefault(line, self.lines.get(line, 0))
        super().paint(line, *marks)

    def changed_lines(self):
        """The frame lines in which dots changed since this was asked last, with these dots."""
        before, self.before = self.before, {}
        changed = {line: old ^ self.lines.get(line, 0) for line, old in before.items()}
        return {line: dots for line, dots in changed.items() if dots}


class Watched(Engine):
    """An engine whose pages are such."""

    def page_to_mark(self):
        state = self.state
        if state.page is None:
            state.page = Changing(state.size, state.orientation)
        return super().page_to_mark()


def box_of(page, changed):
    """The physical box of dots that changed, by whole bytes up to the edge of the page: left, top, right and bottom, the last two outside of it."""
    columns = 0
    for dots in changed.values():
        columns |= dots
    first, last = (columns & -columns).bit_length() - 1, columns.bit_length() - 1
    corners = [pages.to_physical(page.size, page.orientation, first, min(changed)),
               pages.to_physical(page.size, page.orientation, last, max(changed))]
    across, down = sorted(x for x, _ in corners), sorted(y for _, y in corners)
    return across[0] // 8 * 8, down[0], min(page.width(), across[1] // 8 * 8 + 8), down[1] + 1


def dots_in(page, left, top, right, bottom):
    """The dots of a physical box of a page, a text of 0 and 1 for each line."""
    corners = [frame_dot(page, left, top), frame_dot(page, right - 1, bottom - 1)]
    columns, lines = (range(min(some), max(some) + 1) for some in zip(*corners))
    mask = (1 << len(columns)) - 1
    rows = [format(page.lines.get(line, 0) >> columns[0] & mask, "0%db" % len(columns))[::-1] for line in lines]
    if page.orientation in (pages.REVERSE_PORTRAIT, pages.REVERSE_LANDSCAPE):
        rows = [row[::-1] for row in reversed(rows)]
    if page.orientation == pages.LANDSCAPE:
        rows = columns_of(rows)[::-1]
    if page.orientation == pages.REVERSE_LANDSCAPE:
        rows = columns_of(rows)[::-1]
    return rows


def columns_of(rows):
    """The columns of rows of text, the first one first."""
    text, width = "".join(rows), len(rows[0])
    return [text[column::width] for column in range(width)]


def frame_dot(page, x, y):
    """The frame dot of a physical dot."""
    width, height = page.width(), page.height()
    return {pages.PORTRAIT: (x, y), pages.LANDSCAPE: (height - 1 - y, x), pages.REVERSE_PORTRAIT: (width - 1 - x, height - 1 - y),
            pages.REVERSE_LANDSCAPE: (y, width - 1 - x)}[page.orientation]


def bytes_of(dots):
    """How many bytes so many dots take."""
    return -(-dots // 8)


def patch_of(page):
    """What is told of a page whose dots changed since this was asked last; None where none did."""
    changed = page.changed_lines()
    if not changed:
        return None
    left, top, right, bottom = box_of(page, changed)
    wide = bytes_of(right - left)
    rows = ["%0*X" % (2 * wide, int(row.ljust(8 * wide, "0"), 2)) for row in dots_in(page, left, top, right, bottom)]
    return {"x": left, "y": top, "width": right - left, "height": bottom - top, "rows": rows}


def values_of(variables):
    """The variables of the job language by the numbers of the commands of PCL."""
    return {
        "binding": BINDINGS[variables[b"BINDING"].decode()], "copies": int(variables[b"COPIES"]), "duplex": variables[b"DUPLEX"] == b"ON",
        "orientation": ORIENTATIONS[variables[b"ORIENTATION"]], "page_size": PAPER_CODES[variables[b"PAPER"].decode()],
        "resolution": int(variables[b"RESOLUTION"]),
    }


def view_of(state):
    """The fields of the view, in their objects."""
    kind, number = state.current_pattern
    on = state.raster_on
    return {
        "current": values_of(state.pjl.current), "default": values_of(state.pjl.default),
        "cursor": {"pushed": [list(place) for place in state.stack]},
        "drawing": {"height": state.rectangle_height, "width": state.rectangle_width, "id": state.pattern_id, "pattern": number,
                    "pattern_kind": kind, "pattern_opaque": state.pattern_opaque, "source_opaque": state.source_opaque},
        "macros": {"defining": state.defining, "id": state.macro_id, "overlay": state.overlay},
        "margins": {"left": state.left_margin, "right": state.right_margin, "top": state.top_margin, "text_length": state.text_length},
        "page": {"binding": BINDINGS[state.binding], "duplex": state.duplex, "marked": state.marked, "orientation": state.orientation,
                 "resolution": state.resolution, "size": SIZE_CODES[state.size.name]},
        "raster": {"left": state.raster_left if on else None, "rows": state.row_count if on else None, "method": state.method,
                   "resolution": state.raster_resolution, "height": state.source_height, "width": state.source_width},
        "settings": {"copies": state.copies, "feed_after_return": state.line_termination in (1, 3),
                     "return_before_feed": state.line_termination in (2, 3), "horizontal_motion": state.hmi, "vertical_motion": state.vmi,
                     "hp_gl": state.hpgl, "page_status": state.pjl.status, "perforation_skip": state.perforation_skip,
                     "sheets_of_job": state.since_job, "unit": state.unit_positions()},
    }


def told_fields(before, after):
    """The fields that tell something else than before; all of them where there is no before."""
    if before is None:
        return after
    told = {}
    for name, fields in after.items():
        other = {key: field for key, field in fields.items() if field != before[name][key]}
        if other:
            told[name] = other
    return told


def placed(stream):
    """The commands of a stream and of its end, each with its place and how many bytes it has; the exit that is added stands behind them."""
    for place, size, command, _ in in_modes(stream):
        yield place, size, command


def in_modes(stream):
    """The same, with the mode in which each stands."""
    mode, place = EXIT, 0
    while (found := head(mode, stream, place)) is not None:
        command, after, behind = found
        yield place, after - place, command, mode
        place, mode = after, behind
    rest = closing(mode, stream[place:])
    for number, command in enumerate(rest):
        size = (len(stream) - place) // len(rest)
        yield place + number * size, size, command, EXIT
    yield len(stream), 0, Uel(), EXIT


class Teller:
    """What the lines tell of an engine, from step to step."""

    def __init__(self):
        self.engine = Watched()
        self.view = None
        self.page = None
        self.outputs = []    # of all steps so far

    def line(self, at, size):
        """The line of the step that was just taken; the outputs of the engine are those of it."""
        engine, state = self.engine, self.engine.state
        outputs, engine.outputs = engine.outputs, []
        self.outputs += outputs
        told = {"at": at, "bytes": size, "depth": engine.depth, "last": engine.kind, "sheets": state.total, "step": engine.taken,
                "x": state.x, "y": state.y, **self.page_told()}
        delivered = sum(isinstance(output, Deliver) for output in outputs)
        reply = b"".join(output.reply for output in outputs if not isinstance(output, Deliver))
        before, self.view = self.view, view_of(state)
        optional = {"delivered": delivered, "recorded": engine.last == RECORDED, "refused": engine.refused, "reply": reply.decode("latin-1"),
                    "view": told_fields(before, self.view)}
        return told | {key: value for key, value in optional.items() if value}

    def page_told(self):
        """What is told of the open page."""
        before, page = self.page, self.engine.state.page
        self.page = page
        if page is None:
            return {} if before is None else {"page": None}
        opened = {} if page is before else {"opened": [page.width(), page.height()]}
        patch = patch_of(page)
        return opened | ({"page": patch} if patch else {})


def steps(stream):
    """What each line tells, in order."""
    return told_by(Teller(), stream)


def told_by(teller, stream):
    for at, size, command in placed(stream):
        yield from told_of(teller, at, size, command)


def told_of(teller, at, size, command):
    """What each line tells of the steps of a command."""
    for _ in teller.engine.run(command):
        yield teller.line(at, size)
    yield teller.line(at, size)


def only_counts(state, command, mode):
    """Whether a command outside of bodies is one of a run: a byte of text or of another language, and a control character while HP-GL/2 is on, where no
    macro is defined; but not the first behind a universal exit, or behind a sequence that is left open, and no escape character."""
    of_a_byte = isinstance(command, (Text, Foreign)) and command != Foreign(ESC) or isinstance(command, Control) and state.hpgl
    return of_a_byte and state.defining is None and mode in (PCL, FOREIGN)


def run_steps(stream):
    """What each line of the runs tells: of each the last step, the place of all, and how many they are. A run ends with a piece of the stream."""
    teller, held = Teller(), []
    for at, size, command, mode in in_modes(stream):
        counts = only_counts(teller.engine.state, command, mode)
        if held and not (counts and at % PIECE):
            yield from joined(held)
        for _ in teller.engine.run(command):
            yield teller.line(at, size)
        line = teller.line(at, size)
        if counts:
            held.append(line)
        else:
            yield line
    yield from joined(held)


def joined(held):
    """The line of a run of these, if there are any, which are none then."""
    if held:
        first, last, steps = held[0], held[-1], len(held)
        held.clear()
        run = {"at": first["at"], "bytes": last["at"] + last["bytes"] - first["at"], "steps": steps}
        yield last | run if steps > 1 else last


def opened(stream):
    """The open page behind each number of steps, from none on; a white one where none has a mark."""
    engine = Engine()
    yield pages.Bitmap(engine.state.size)
    for _, _, command in placed(stream):
        for _ in itertools.chain(engine.run(command), [None]):
            yield engine.state.page or pages.Bitmap(engine.state.size, engine.state.orientation)


def text_of(told):
    """A line: compact JSON, its keys in byte order, and no control character in it."""
    return (json.dumps(told, ensure_ascii=False, separators=(",", ":"), sort_keys=True).translate(CONTROLS) + "\n").encode()


def lines(stream, runs=False):
    return map(text_of, run_steps(stream) if runs else steps(stream))
