"""The command table: for each kind of command its effect on the engine.

An effect is a function of engine and command. Where it can close a page or start a body it is a generator, which
the engine runs step by step; else it gives None. It asks `engine.names` whether its row names the value, before it
does anything; a row that names all values does not ask.
"""

from typing import Callable, NamedTuple

from . import macros, marks, pages, pjl, rows
from .commands import Control, Escape, Param, PjlLine, Uel
from .patterns import BLACK, HATCH, SHADING, USER, WHITE, BadHeader, ShortData
from .values import (
    DECIPOINT, HMI_UNIT, POSITIONS_PER_INCH, UNITS_OF_MEASURE, VMI_UNIT, Value, to_position)

GREATEST_ID = 32767
GREATEST_COPIES = 999
GREATEST_HMI = 840 * 10000
GREATEST_VMI = 336 * 10000
STACK_PLACES = 20
LINES_PER_INCH = [1, 2, 3, 4, 6, 8, 12, 16, 24, 48]
PAGE_SIZES = {1: "Executive", 2: "Letter", 3: "Legal", 6: "Ledger", 26: "A4", 27: "A3"}
RASTER_RESOLUTIONS = {300: (75, 100, 150, 300), 600: (75, 100, 150, 200, 300, 600)}  # by that of the engine


class Row(NamedTuple):
    name: str
    effect: Callable


def number(command):
    return command.value().whole()


# Control characters and escapes

def to_left_margin(state):
    state.move(state.left_margin, state.y)


def carriage_return(engine, _command):
    to_left_margin(engine.state)
    if engine.state.line_termination in (1, 3):
        yield from feed_line(engine)


def line_feed(engine, _command):
    yield from feed_line(engine)


def feed_line(engine):
    state = engine.state
    if state.line_termination in (2, 3):
        to_left_margin(state)
    yield from down_or_close(engine, state.vmi)


def half_line_feed(engine, _command):
    yield from down_or_close(engine, engine.state.vmi // 2)


def down_or_close(engine, distance):
    state = engine.state
    limit = state.logical_length() - state.top_margin
    if state.perforation_skip:
        limit = state.text_length
    if state.y + distance > limit and not engine.in_overlay:
        yield from engine.close_page()
        state.move(state.x, state.home_line())
    else:
        state.move(state.x, state.y + distance)


def form_feed(engine, _command):
    state = engine.state
    if state.line_termination in (2, 3):
        to_left_margin(state)
    yield from engine.close_page()
    state.move(state.x, state.home_line())


def clear_margins(engine, _command):
    engine.state.left_margin = 0
    engine.state.right_margin = engine.state.logical_width()


def leave(engine, _command):
    yield from engine.exit()


# HP-GL/2

def hpgl_on(engine, _command):
    engine.state.hpgl = True


def hpgl_off(engine, _command):
    engine.state.hpgl = False


# Cursor

def unit_of_measure(engine, command):
    if engine.names(number(command) in UNITS_OF_MEASURE):
        engine.state.unit = number(command)


def move_across(engine, value, unit):
    state = engine.state
    distance = to_position(value, unit)
    state.move(state.x + distance if value.signed else distance, state.y)


def move_down(engine, value, unit, start=0):
    """An absolute move counts from the start."""
    state = engine.state
    distance = to_position(value, unit)
    state.move(state.x, state.y + distance if value.signed else start + distance)


def to_column(engine, command):
    move_across(engine, command.value(), engine.state.hmi)


def to_row(engine, command):
    move_down(engine, command.value(), engine.state.vmi, engine.state.home_line())


def across_decipoints(engine, command):
    move_across(engine, command.value(), DECIPOINT)


def down_decipoints(engine, command):
    move_down(engine, command.value(), DECIPOINT)


def across_units(engine, command):
    move_across(engine, command.value(), engine.state.unit_positions())


def down_units(engine, command):
    move_down(engine, command.value(), engine.state.unit_positions())


def push_or_pop(engine, command):
    state = engine.state
    if number(command) == 0 and len(state.stack) < STACK_PLACES:
        state.stack.append((state.x, state.y))
        state.end_raster()
    elif number(command) == 1 and state.stack:
        state.move(*state.stack.pop())
    else:
        engine.names(number(command) in (0, 1))


# Lines and margins

def line_termination(engine, command):
    if engine.names(number(command) in (0, 1, 2, 3)):
        engine.state.line_termination = number(command)


def column_width(engine, command):
    value = command.value()
    if engine.names(0 <= value.tenthousandths <= GREATEST_HMI):
        engine.state.hmi = to_position(value, HMI_UNIT)


def row_height(engine, command):
    value = command.value()
    if engine.names(0 <= value.tenthousandths <= GREATEST_VMI):
        engine.state.vmi = to_position(value, VMI_UNIT)


def lines_per_inch(engine, command):
    if engine.names(number(command) in LINES_PER_INCH):
        engine.state.vmi = POSITIONS_PER_INCH // number(command)


def top_margin(engine, command):
    state = engine.state
    top = to_position(command.value(), state.vmi)
    if engine.names(state.vmi > 0 and 0 <= top <= state.logical_length()):
        state.top_margin = top
        state.default_text_length()
        state.move(state.x, state.home_line())


def text_length(engine, command):
    state = engine.state
    length = number(command) * state.vmi
    if engine.names(state.vmi > 0 and number(command) >= 1
                    and state.top_margin + length <= state.logical_length()):
        state.text_length = length


def perforation_skip(engine, command):
    state = engine.state
    if not engine.names(number(command) in (0, 1)) or state.perforation_skip == (number(command) == 1):
        return
    old_top = state.top_margin
    state.perforation_skip = number(command) == 1
    state.top_margin = 3600
    state.default_text_length()
    if old_top != state.top_margin:
        state.move(state.x, state.y)


def left_margin(engine, command):
    state = engine.state
    value = command.value()
    margin = to_position(value, state.hmi)
    if engine.names(value.tenthousandths >= 0 and margin < state.right_margin):
        state.left_margin = margin
        keep_right_of(state, margin)


def keep_right_of(state, margin):
    if state.x < margin:
        state.move(margin, state.y)


def right_margin(engine, command):
    state = engine.state
    one_more = Value(command.value().tenthousandths + 10000, False)
    margin = min(to_position(one_more, state.hmi), state.logical_width())
    if engine.names(margin > state.left_margin):
        state.right_margin = margin
        if state.x > margin:
            state.move(margin, state.y)


# Pages

def page_size(engine, command):
    if not engine.names(number(command) in PAGE_SIZES):
        return
    yield from engine.close_if_marked()
    engine.deliver_pending_front()
    engine.state.size = pages.SIZES[PAGE_SIZES[number(command)]].at(engine.state.resolution)
    new_logical_page(engine.state)


def orientation(engine, command):
    if not engine.names(number(command) in (0, 1, 2, 3)):
        return
    yield from engine.close_if_marked()
    engine.state.orientation = number(command)
    engine.state.default_motion()
    new_logical_page(engine.state)


def new_logical_page(state):
    state.default_margins()
    state.overlay = None
    state.home()


def sides(engine, command):
    if not engine.names(number(command) in (0, 1, 2)):
        return
    state = engine.state
    yield from engine.close_if_marked()
    engine.deliver_pending_front()
    state.duplex = number(command) != 0
    if state.duplex:
        state.binding = {1: "LONGEDGE", 2: "SHORTEDGE"}[number(command)]
    state.home()


def eject(engine, _command):
    yield from close_marked_page(engine)


def close_marked_page(engine):
    """Closes a marked page, and then y is home."""
    if engine.state.marked:
        yield from engine.close_page()
        engine.state.move(engine.state.x, engine.state.home_line())


def side_selection(engine, command):
    if not engine.names(number(command) in (0, 1, 2)):
        return
    state = engine.state
    yield from close_marked_page(engine)
    if number(command) == 1:
        engine.deliver_pending_front()
    elif number(command) == 2 and state.duplex and state.pending_front is None:
        state.pending_front = pages.Bitmap(state.size, state.orientation)


def copies(engine, command):
    if engine.names(number(command) >= 1):
        engine.state.copies = min(GREATEST_COPIES, number(command))


# Raster graphics

def raster_resolution(engine, command):
    state = engine.state
    if engine.names(number(command) in RASTER_RESOLUTIONS[state.resolution]) and not state.raster_on:
        state.raster_resolution = number(command)


def source_width(engine, command):
    if engine.names(number(command) >= 1) and not engine.state.raster_on:
        engine.state.source_width = number(command)


def source_height(engine, command):
    if engine.names(number(command) >= 1) and not engine.state.raster_on:
        engine.state.source_height = number(command)


def raster_on(engine, command):
    state = engine.state
    if engine.names(number(command) in (0, 1, 2, 3)) and not state.raster_on:
        marks.start_raster(state, state.x if number(command) in (1, 3) else 0)


def raster_off(engine, _command):
    engine.state.end_raster()


def raster_off_and_plain(engine, _command):
    engine.state.end_raster()
    engine.state.method = 0


def raster_method(engine, command):
    if engine.names(number(command) in (0, 1, 2, 3, rows.ADAPTIVE)):
        engine.state.method = number(command)


def skip_rows(engine, command):
    state = engine.state
    if engine.names(number(command) >= 1) and state.raster_on:
        marks.skip_rows(state, number(command))
        state.seed = bytes(len(state.seed))


def raster_row(engine, command):
    state = engine.state
    if not state.raster_on:
        marks.start_raster(state, 0)
    marks.transfer(engine, command.data)


# Rectangles and patterns

def rectangle(field, unit):
    def effect(engine, command):
        value = command.value()
        if engine.names(value.tenthousandths >= 0):
            setattr(engine.state, field, to_position(value, unit(engine.state)))
    return effect


def fill_black(engine, _command):
    engine.fill((BLACK, engine.state.patterns.tile(BLACK, 0)))


def fill_pattern(engine, command):
    state = engine.state
    which = number(command)
    if which == 5:
        engine.fill(marks.current_pattern(state))
    elif which in (WHITE, SHADING, HATCH, USER):
        kind = {1: WHITE, 2: SHADING, 3: HATCH, 4: USER}[which]
        engine.fill((kind, state.patterns.tile(kind, state.pattern_id)))
    else:
        engine.names(False)


def pattern_id(engine, command):
    if engine.names(0 <= number(command) <= GREATEST_ID):
        engine.state.pattern_id = number(command)


def define_pattern(engine, command):
    try:
        engine.state.patterns.define(engine.state.pattern_id, command.data)
    except (BadHeader, ShortData):
        pass


def pattern_control(engine, command):
    patterns = engine.state.patterns
    which = number(command)
    if which == 0:
        patterns.delete_all()
    elif which == 1:
        patterns.delete_temporary()
    elif which == 2:
        patterns.delete(engine.state.pattern_id)
    elif which in (4, 5):
        patterns.set_permanent(engine.state.pattern_id, which == 5)
    else:
        engine.names(False)


def current_pattern(engine, command):
    state = engine.state
    kind = number(command)
    if kind in (BLACK, WHITE):
        state.current_pattern = (kind, 0)
    elif kind in (SHADING, HATCH, USER):
        if state.patterns.tile(kind, state.pattern_id) is not None:
            state.current_pattern = (kind, state.pattern_id)
    else:
        engine.names(False)


def source_transparency(engine, command):
    if engine.names(number(command) in (0, 1)):
        engine.state.source_opaque = number(command) == 1


def pattern_transparency(engine, command):
    if engine.names(number(command) in (0, 1)):
        engine.state.pattern_opaque = number(command) == 1


# Macros

def macro_id(engine, command):
    if engine.names(0 <= number(command) <= GREATEST_ID):
        engine.state.macro_id = number(command)


def macro_control(engine, command):
    return macros.control(engine, number(command))


# Job language

def pjl_line(engine, command):
    state = engine.state
    read = pjl.read_line(command.line)
    if read is None:
        return
    change = state.pjl.pending_change(read)
    if change is None:
        state.pjl.other_effect(read)
        engine.reply(state.pjl.reply_to(read, state.total))
        return
    yield from engine.exit()
    state.pjl.current = change
    if read.word == b"INITIALIZE":
        state.pjl.default = dict(pjl.FACTORY)
    if read.word == b"JOB":
        state.since_job = 0
    state.reset()


# The rows. A parameterized command is spelled as character, group and end.

CONTROLS = {
    0x0D: Row("CR", carriage_return),
    0x0A: Row("LF", line_feed),
    0x0C: Row("FF", form_feed),
}
ESCAPES = {
    "=": Row("ESC =", half_line_feed),
    "9": Row("ESC 9", clear_margins),
    "E": Row("ESC E", leave),
}
PARAMS = {
    "%B": hpgl_on,
    "%A": hpgl_off,
    "&uD": unit_of_measure,
    "&aC": to_column,
    "&aR": to_row,
    "&aH": across_decipoints,
    "&aV": down_decipoints,
    "*pX": across_units,
    "*pY": down_units,
    "&fS": push_or_pop,
    "&kG": line_termination,
    "&kH": column_width,
    "&lC": row_height,
    "&lD": lines_per_inch,
    "&lE": top_margin,
    "&lF": text_length,
    "&lL": perforation_skip,
    "&aL": left_margin,
    "&aM": right_margin,
    "&lA": page_size,
    "&lO": orientation,
    "&lS": sides,
    "&lH": eject,
    "&aG": side_selection,
    "&lX": copies,
    "*tR": raster_resolution,
    "*rS": source_width,
    "*rT": source_height,
    "*rA": raster_on,
    "*rB": raster_off,
    "*rC": raster_off_and_plain,
    "*bM": raster_method,
    "*bY": skip_rows,
    "*bW": raster_row,
    "*cA": rectangle("rectangle_width", lambda state: state.unit_positions()),
    "*cB": rectangle("rectangle_height", lambda state: state.unit_positions()),
    "*cH": rectangle("rectangle_width", lambda state: DECIPOINT),
    "*cV": rectangle("rectangle_height", lambda state: DECIPOINT),
    "*cG": pattern_id,
    "*cW": define_pattern,
    "*cQ": pattern_control,
    "*vT": current_pattern,
    "*vN": source_transparency,
    "*vO": pattern_transparency,
    "&fY": macro_id,
    "&fX": macro_control,
}
PARAMS = {key: Row(key, effect) for key, effect in PARAMS.items()}
FILL_BLACK = Row("*cP 0", fill_black)
FILL_PATTERN = Row("*cP 1-5", fill_pattern)
UEL = Row("UEL", leave)
PJL_LINE = Row("PJL", pjl_line)

EVERY_ROW = [*CONTROLS.values(), *ESCAPES.values(), *PARAMS.values(), FILL_BLACK, FILL_PATTERN, UEL, PJL_LINE]
SKIPPED_IN_OVERLAY = ("FF", "&lA", "&lO", "&lS", "&lH", "&aG")  # no page closes there


def is_skipped_in_overlay(row):
    """Whether a row, or None, has no effect for a command that comes from an overlay, whatever its value."""
    return row is not None and row.name in SKIPPED_IN_OVERLAY


def row_of(command):
    """The row of a command, or None."""
    if isinstance(command, Control):
        return CONTROLS.get(command.control)
    if isinstance(command, Escape):
        return ESCAPES.get(chr(command.byte))
    if isinstance(command, Uel):
        return UEL
    if isinstance(command, PjlLine):
        return PJL_LINE
    if isinstance(command, Param):
        group = "" if command.group is None else chr(command.group)
        key = chr(command.character) + group + chr(command.end)
        if key == "*cP":
            return FILL_BLACK if number(command) == 0 else FILL_PATTERN
        return PARAMS.get(key)
    return None
