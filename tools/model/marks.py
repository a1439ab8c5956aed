"""What fills and raster rows mark. Sets of columns are whole numbers, bit a being column a of the frame."""

from functools import lru_cache

from . import pages, rows
from .patterns import SOLID_BLACK, USER, WHITE
from .values import POSITIONS_PER_INCH, dot, dot_positions


def ceiling(dividend, divisor):
    return -(-dividend // divisor)


@lru_cache(maxsize=4096)
def repeated(tile_row, width):
    """The black columns of a tile's row over the whole frame."""
    times = ceiling(width, len(tile_row))
    text = "".join("1" if black else "0" for black in tile_row) * times
    return int(text[:width][::-1], 2)


def paint_line(state, page, line, covered, source, pattern):
    """One line of a mark under a pattern that exists, a pair of kind and tile."""
    kind, tile = pattern
    width, _ = pages.frame(page.size, page.orientation)
    columns = repeated(tuple(tile[line % len(tile)]), width)
    pattern_opaque = state.pattern_opaque or kind == WHITE
    page.paint(line, covered, source, columns, state.source_opaque, pattern_opaque)


def current_pattern(state):
    """Kind and tile of the current pattern; a user pattern that is not there is solid black."""
    kind, number = state.current_pattern
    tile = state.patterns.tile(kind, number)
    if tile is None:
        assert kind == USER
        tile = SOLID_BLACK
    return kind, tile


def frame_dot(state):
    """The cursor's frame dot."""
    return column_of(state, state.x), line_of(state)


def column_of(state, x):
    return pages.offset(state.size, state.orientation) + dot(x, state.resolution)


def line_of(state):
    return dot(state.y + state.top_margin, state.resolution)


def fill(engine, pattern):
    """A rectangle from the cursor's dot, all source dots black; no effect where the pattern has no tile."""
    state = engine.state
    kind, tile = pattern
    if tile is None or state.rectangle_width == 0 or state.rectangle_height == 0:
        return
    page = engine.page_to_mark()
    column, line = frame_dot(state)
    across = ceiling(state.rectangle_width, dot_positions(state.resolution))
    down = ceiling(state.rectangle_height, dot_positions(state.resolution))
    _, frame_height = pages.frame(state.size, state.orientation)
    columns = ((1 << across) - 1) << column
    for each in range(line, min(line + down, frame_height)):
        paint_line(state, page, each, columns, columns, (kind, tile))


def start_raster(state, left):
    """Raster graphics on; left is the cursor's place, if it is not 0."""
    state.raster_on = True
    state.raster_left = left
    state.row_count = 0
    state.seed = bytes(ceiling(row_width(state), 8))
    state.place_cursor(left, state.y)


def row_width(state):
    """The width of a row in raster dots."""
    if state.source_width is not None:
        return state.source_width
    room = state.logical_width() - state.raster_left
    return room * state.raster_resolution // POSITIONS_PER_INCH


def transfer(engine, data):
    """The rows of a transfer by the current method."""
    state = engine.state
    if state.method != rows.ADAPTIVE:
        transfer_row(engine, state.method, data)
        return
    for block in rows.blocks(data):
        if block.rows == 0:
            state.seed = bytes(len(state.seed))
        for _ in range(block.rows):
            before = state.y, state.row_count, state.seed
            transfer_row(engine, block.method, block.data)
            if before == (state.y, state.row_count, state.seed):
                break  # and so would each that follows leave all as it is


def transfer_row(engine, method, data):
    state = engine.state
    if state.source_height is not None and state.row_count >= state.source_height:
        return
    row = rows.decode(method, data, state.seed)
    page = engine.page_to_mark()
    paint_row(state, page, row)
    state.seed = row
    skip_rows(state, 1)


def skip_rows(state, count):
    """The cursor and the row count go on by so many rows."""
    state.place_cursor(state.x, state.y + count * POSITIONS_PER_INCH // state.raster_resolution)
    state.row_count = min(65535, state.row_count + count)


def paint_row(state, page, row):
    side = state.resolution // state.raster_resolution
    line = line_of(state)
    if line >= pages.frame(page.size, page.orientation)[1]:
        return
    width = row_width(state)
    column = column_of(state, state.raster_left)
    bits = format(int.from_bytes(row, "big"), "0%db" % (8 * len(row)))[:width] if row else ""
    wide = "".join(bit * side for bit in bits) if side > 1 else bits
    source = int(wide[::-1] or "0", 2) << column
    covered = ((1 << width * side) - 1) << column
    pattern = current_pattern(state)
    for each in range(line, line + side):
        paint_line(state, page, each, covered, source, pattern)
