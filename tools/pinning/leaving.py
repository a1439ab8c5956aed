"""Sentences "command R leaves field F alone", turned wrong in the model one by one: which of them a row of what commands leave sees."""

import random

from asked import leaves
from model import pages, runs, table, trace_lines
from model.engine import IN_OVERLAY
from seen import effects

FIELDS = ["unit", "vmi", "hmi", "line_termination", "perforation_skip", "copies", "raster_resolution", "method", "source_width", "source_height",
          "rectangle_width", "rectangle_height", "pattern_id", "current_pattern", "source_opaque", "pattern_opaque", "macro_id", "left_margin",
          "right_margin", "top_margin", "text_length", "size", "orientation", "duplex", "binding", "stack", "overlay", "hpgl", "raster_on", "raster_left",
          "row_count", "seed", "x", "y", "pending_front", "page", "patterns", "macros", "total", "since_job", "status", "current", "default"]
OTHERS = {"unit": (300, 600), "raster_resolution": (75, 150), "method": (0, 2), "line_termination": (0, 3), "orientation": (0, 1), "copies": (2, 7),
          "current_pattern": ((0, 0), (4, 9)), "binding": ("LONGEDGE", "SHORTEDGE"), "overlay": (None, 3), "source_width": (None, 17),
          "source_height": (None, 33)}


OF_RASTER = ("raster_left", "row_count", "seed")
SPOILED = set()   # the fields that were given another value by the sentence that is tried
FAULTS = (AssertionError, AttributeError, TypeError, ValueError, ZeroDivisionError, KeyError, IndexError)


def spoil(state, field):
    """Gives a field another value, each time another. What has none is left: a page that is not there, and what raster graphics has while it is off."""
    if field in OF_RASTER and not state.raster_on or field in ("page", "pending_front") and getattr(state, field) is None:
        return
    SPOILED.add(field)
    if field in ("page", "pending_front"):
        page = getattr(state, field)
        page.lines[500] = page.lines.get(500, 0) << 1 | 1
    elif field == "seed":
        state.seed = bytes(each + 0x18 & 0xFF for each in state.seed)
    elif field == "stack":
        state.stack = state.stack[:-1] or [(24, 24)]
    elif field == "patterns":
        state.patterns.delete_all()
    elif field == "macros":
        state.macros = {number: body for number, body in state.macros.items() if number not in (3, 4)}
    elif field == "status":
        state.pjl.status = not state.pjl.status
    elif field in ("current", "default"):
        getattr(state.pjl, field)[b"COPIES"] = b"8"
    elif field == "size":
        state.size = pages.SIZES["Letter" if state.size.name != "Letter" else "A4"].at(state.resolution)
    elif field in OTHERS:
        one, other = OTHERS[field]
        setattr(state, field, other if getattr(state, field) == one else one)
    else:
        held = getattr(state, field)
        setattr(state, field, not held if isinstance(held, bool) else held + 24)


def spoiled(row, field):
    """A row of the table that gives a field another value behind its effect, also where an overlay skips it."""
    def effect(engine, command):
        if engine.in_overlay and table.is_skipped_in_overlay(row):
            engine.refused = IN_OVERLAY
        else:
            yield from row.effect(engine, command) or ()
        spoil(engine.state, field)
    return row._replace(name=f"{row.name}, and {field}", effect=effect)


def row_names():
    """The rows of the table that stand in a stream."""
    found = {}
    for name, command in leaves.COMMANDS.items():
        *_, (_, _, last), _ = [(), *trace_lines.placed(leaves.stream_of(command))]
        if (row := table.row_of(last)) is not None:
            found.setdefault(row.name, []).append(name)
    return found


def sees(sentence):
    """The first row that sees that a row of the table turns a field, or an empty text; None where the field is never there behind it."""
    (name, field, commands), real = sentence, table.row_of
    SPOILED.clear()
    table.row_of = lambda command: spoiled(row, field) if (row := real(command)) is not None and row.name == name else row
    try:
        for shows, stream, wanted in leaves.ROWS:
            if leaves.command_of(shows) in commands and is_seen(stream, wanted, real):
                return shows
    finally:
        table.row_of = real
    return "" if SPOILED else None


def digest(stream):
    """What the model has for a stream."""
    outcome = runs.run_stream(stream)
    return effects.digest_of(trace_lines.steps(stream), pages.listing(outcome.sheets, outcome.replies))


def is_seen(stream, wanted, real):
    """Whether the model tells something else of a stream; where it falls over, whether it does so in the lines before."""
    try:
        return digest(stream) != wanted
    except FAULTS:
        found = before_the_fall(stream)
    switched, table.row_of = table.row_of, real
    try:
        return any(one != other for one, other in zip(found, trace_lines.steps(stream)))
    finally:
        table.row_of = switched


def before_the_fall(stream):
    found = []
    try:
        found.extend(trace_lines.steps(stream))
    except FAULTS:
        pass
    return found


def sentences():
    return [(name, field, commands) for name, commands in row_names().items() for field in FIELDS]


def drawn(seed, count):
    every = sentences()
    return random.Random(seed).sample(every, min(count, len(every)))


def write():
    """Has the model make what the rows want."""
    found = {}
    for shows, stream in leaves.STREAMS.items():
        found.setdefault(leaves.command_of(shows), []).append(digest(stream))
    leaves.PATH.write_text("".join(f"{command}: {' '.join(some)}\n" for command, some in found.items()), encoding="utf-8")
